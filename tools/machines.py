"""Two machines, joined by a cable, on which tools/check_first_days.py plays docs/FIRST_DAYS.md and docs/OPERATIONS.md.

`Booted` is a container of Debian 12 that systemd-nspawn boots: its own systemd runs the units, with their sandboxes,
timers, restarts and alerts. `StandIn` is made of namespaces over the files of this machine, and
tools/systemctl_stand_in.py runs the commands of the units there: their sandboxes and the clock of the timers are not
tried then. Either has a network, processes and files of its own. What it writes lies in memory. `apart` runs the
caller in namespaces, so that nothing of it is left: no process, no mount, no network, even if the caller is killed.
"""
import contextlib
import hashlib
import itertools
import os
import pathlib
import re
import select
import shutil
import subprocess
import sys
import tempfile
import time

ROOT = pathlib.Path(__file__).resolve().parent.parent
PATHS = "/usr/local/sbin:/usr/local/bin:/usr/sbin:/usr/bin:/sbin:/bin"
ENVIRONMENT = {"PATH": PATHS, "LANG": "C.UTF-8"}
# What a login of root has. PATH is what /etc/profile makes it.
LOGIN = ["env", "-i", "HOME=/root", "USER=root", "LOGNAME=root", "LANG=C.UTF-8", "TERM=dumb", "bash", "-l"]
NEEDED = ["ip", "unshare", "nsenter", "setpriv"]
NEEDED_TO_BOOT = ["systemd-nspawn", "debootstrap"]
NEEDED_TO_STAND_IN = ["runuser", "nginx", "openssl", "curl", "sqlite3", "logrotate", "flock"]
CACHE = pathlib.Path(os.environ.get("XDG_CACHE_HOME") or "~/.cache").expanduser() / "berruzpil"
RELEASE = "bookworm"
GROUPS = pathlib.Path("/sys/fs/cgroup")
APART = "BERRUZPIL_APART"
# How many times longer anything may take, on a machine that has other things to do.
PATIENCE = float(os.environ.get("BERRUZPIL_PATIENCE", "1"))
ADDRESSES = {"supervisor": "198.51.100.1", "filer": "198.51.100.2"}
HOSTS = "127.0.0.1 localhost\n198.51.100.1 intake.example 2025.example\n"
# Half an hour is over as soon as the check says so.
SLEEP = """#!/bin/sh
[ "$1" = 1800 ] || exec /usr/bin/sleep "$@"
until [ -e /run/half-an-hour ]; do /usr/bin/sleep 0.1; done
"""


class NotPossible(Exception):
    """Why no machine can be made here."""


def absent(programs):
    return [program for program in programs if shutil.which(program, path=PATHS) is None]


def run(*words, **options):
    return subprocess.run(list(map(str, words)), check=True, env=ENVIRONMENT, **options)


# ---- apart from this machine


def apart():
    """Runs this program again in namespaces of its own, and gives its status; nothing if this is that run already. The
    run has a scratch folder in memory, which `scratch` names."""
    if APART in os.environ:
        for words in [("mount", "-t", "tmpfs", "-o", "mode=755", "tmpfs", scratch()), ("mkdir", "-p", "/run/netns"),
                      ("mount", "-t", "tmpfs", "tmpfs", "/run/netns")]:  # fmt: skip
            run(*words)
        return None
    with tempfile.TemporaryDirectory(prefix="berruzpil-") as folder:
        # The shell is the first process there, and waits for each that has lost its parent.
        words = ["setpriv", "--pdeathsig", "KILL", "unshare", "--mount", "--pid", "--fork", "--kill-child",
                 "--mount-proc", "--propagation", "private", "sh", "-c", '"$@"; exit $?', "sh"]  # fmt: skip
        try:
            return subprocess.run([*words, sys.executable, "-u", *sys.argv], check=False,
                                  env={**os.environ, APART: folder}).returncode
        finally:
            mounts = [line.split() for line in pathlib.Path("/proc/mounts").read_text().splitlines()]
            for top in {words[1] for words in mounts if words[2] == "cgroup2"}:
                remove_groups(pathlib.Path(top, pathlib.Path(folder).name))


def scratch():
    return pathlib.Path(os.environ[APART])


def remove_groups(top):
    """Removes the groups of processes that a container had, once these have ended."""
    for folder, _, _ in os.walk(top, topdown=False):
        deadline = time.monotonic() + 10
        while os.path.exists(folder) and time.monotonic() < deadline:
            with contextlib.suppress(OSError):
                os.rmdir(folder)
                break
            time.sleep(0.05)


# ---- machines


class Shell:
    """A login shell of root on a machine, at the top of its repository, into which commands are pasted."""

    numbers = itertools.count(1)

    def __init__(self, machine):
        self.machine, self.output = machine, f"/run/printed-{next(self.numbers)}"
        words = ["nsenter", "--target", str(machine.first), *machine.spaces, *LOGIN]
        self.process = subprocess.Popen(words, stdin=subprocess.PIPE, stdout=subprocess.PIPE, stderr=subprocess.DEVNULL,
                                        env=ENVIRONMENT)  # fmt: skip
        self.paste("cd /root/berruzpil")

    def paste(self, command):
        """The status of a command, and what it prints."""
        self.process.stdin.write(f"{{ {command}\n}} </dev/null >{self.output} 2>&1; echo $?\n".encode())
        self.process.stdin.flush()
        if not select.select([self.process.stdout], [], [], 900 * PATIENCE)[0]:
            raise TimeoutError(f"{self.machine.name}: {command}")
        status = int(self.process.stdout.readline())
        return status, self.machine.file(self.output).read_text(encoding="utf-8", errors="replace")

    def __enter__(self):
        return self

    def __exit__(self, *_):
        with contextlib.suppress(OSError, subprocess.TimeoutExpired):
            self.process.communicate(timeout=5)
        self.process.kill()
        self.process.wait()
        self.machine.file(self.output).unlink(missing_ok=True)


class Machine:
    """A machine. `first` is the first of its processes."""

    def __init__(self, name, programs):
        self.name, self.programs, self.first = name, programs, None
        self.folder = scratch() / name
        for it in ("up", "work", "root"):
            (self.folder / it).mkdir(parents=True)
        try:
            run("ip", "netns", "add", name)
        except subprocess.CalledProcessError as fault:
            raise NotPossible("root may not make a namespace of a network here") from fault

    def file(self, path):
        return pathlib.Path(f"/proc/{self.first}/root") / path.lstrip("/")

    def write(self, path, text, mode=0o644):
        file = self.file(path)
        file.parent.mkdir(parents=True, exist_ok=True)
        file.write_text(text)
        file.chmod(mode)

    def furnish(self, repository):
        """Gives the machine a copy of the repository, in which the programs are built, and the names of hosts."""
        top = self.file("/root/berruzpil")
        shutil.copytree(repository / "deploy", top / "deploy")
        for name, program in zip(("intake", "outbox"), self.programs):
            (top / "crates" / name / "out").mkdir(parents=True)
            shutil.copy(program, top / "crates" / name / "out" / name)
        shutil.copy(ROOT / "crates" / "intake" / "stdin", top / "crates" / "intake")
        self.file("/root").chmod(0o700)
        self.write("/etc/hosts", HOSTS)
        self.write("/usr/local/sbin/sleep", SLEEP, 0o755)

    def paste(self, command):
        """The status of a command in a shell of its own, and what it prints."""
        with Shell(self) as shell:
            return shell.paste(command)

    def begin(self, command):
        """Begins a command in the background, in a shell of its own. Whoever begins it has to kill it."""
        words = ["nsenter", "--target", str(self.first), *self.spaces, *LOGIN, "-c", command]
        silent = subprocess.DEVNULL
        return subprocess.Popen(words, stdin=silent, stdout=silent, stderr=silent, env=ENVIRONMENT)

    def until(self, command, is_there=lambda status, printed: status == 0, seconds=60):
        """Pastes a command again and again, for so long at most, and gives its status and what it prints at the end."""
        deadline = time.monotonic() + seconds * PATIENCE
        with Shell(self) as shell:
            while not is_there(*(found := shell.paste(command))) and time.monotonic() < deadline:
                time.sleep(0.3)
        return found

    def pass_half_an_hour(self):
        """Lets the units that wait for half an hour go on, and waits until they have ended."""
        self.paste("touch /run/half-an-hour")
        self.until("systemctl is-active berruzpil-alert@berruzpil-outbox.service.service",
                   lambda _, printed: printed != "activating\n")
        self.paste("rm /run/half-an-hour")

    def leave(self):
        self.end()
        run("ip", "netns", "del", self.name)


class Booted(Machine):
    """A container with a systemd of its own. `below` are the files of an earlier machine, over which this one lies."""

    spaces = ["--all"]
    is_booted = True

    def __init__(self, name, base, repository, programs, below=None):
        super().__init__(name, programs)
        self.process, self.group = None, GROUPS / scratch().name / name
        lower = ":".join(map(str, filter(None, [below, base])))
        layers = f"lowerdir={lower},upperdir={self.folder}/up,workdir={self.folder}/work"
        run("mount", "-t", "overlay", "-o", layers, "overlay", self.folder / "root")
        if not below:
            self.furnish(repository)
            self.write("/etc/hostname", f"{name}\n")

    def file(self, path):
        return super().file(path) if self.first else self.folder / "root" / path.lstrip("/")

    def boot(self):
        """Starts the machine, and waits until its units are started."""
        self.group.mkdir(parents=True)
        for controller in ("memory", "pids"):
            with contextlib.suppress(OSError):
                (self.group.parent / "cgroup.subtree_control").write_text(f"+{controller}")
        console = self.folder / "console"
        with open(console, "wb") as out:
            self.process = subprocess.Popen(
                ["sh", "-c", 'echo $$ > "$1" && shift && exec "$@"', "sh", self.group / "cgroup.procs",
                 "systemd-nspawn", "--quiet", "--boot", f"--directory={self.folder}/root", f"--machine={self.name}",
                 "--register=no", "--keep-unit", f"--network-namespace-path=/run/netns/{self.name}",
                 "--link-journal=no", "--resolv-conf=off", "--timezone=off", "--console=pipe",
                 # For IPAddressDeny of the units.
                 "--capability=CAP_BPF,CAP_NET_ADMIN", "--system-call-filter=bpf"],
                stdin=subprocess.DEVNULL, stdout=out, stderr=out, env=ENVIRONMENT,
            )  # fmt: skip
        children = pathlib.Path(f"/proc/{self.process.pid}/task/{self.process.pid}/children")
        deadline = time.monotonic() + 60 * PATIENCE
        while not self.first:
            if self.process.poll() is not None or time.monotonic() > deadline:
                said = console.read_text(errors="replace").strip().splitlines()
                raise NotPossible(f"systemd-nspawn: {said[-1] if said else 'systemd does not start'}")
            time.sleep(0.1)
            child = (children.read_text().split() or [""])[0] if children.exists() else ""
            if child and pathlib.Path(f"/proc/{child}/root/run/systemd/private").exists():
                self.first = child
        self.paste(f"timeout {60 * PATIENCE:.0f} systemctl is-system-running --wait")

    def end(self):
        """Ends the machine as a power cut does: all its processes at once."""
        if self.process:
            (self.group / "cgroup.kill").write_text("1")
            self.process.wait()
            remove_groups(self.group)
        self.process = self.first = None

    def shut_down(self):
        """Ends the machine in order, and gives the files that it wrote."""
        self.process.terminate()
        try:
            self.process.wait(timeout=60 * PATIENCE)
        finally:
            self.end()
        run("umount", self.folder / "root")
        run("ip", "netns", "del", self.name)
        kept = self.folder.with_name(f"{self.name}-kept")
        self.folder.rename(kept)
        return kept / "up"

    def leave(self):
        super().leave()
        run("umount", self.folder / "root")
        shutil.rmtree(self.folder)

    def alerts(self, unit):
        """The alerts of a unit."""
        return self.paste(f"journalctl -q -t berruzpil -p alert -o cat | grep -F '{unit} '")[1].splitlines()


# What a stand-in is made of, once its namespaces are there. $1 is its scratch folder, $2 its name.
SET_UP = """
for folder in etc root srv usr/local var; do
    own=$1/$(echo $folder | tr / _)
    mkdir -p "$own/up" "$own/work"
    mount -t overlay -o "lowerdir=/$folder,upperdir=$own/up,workdir=$own/work" overlay /$folder
done
mount -t tmpfs -o mode=755 tmpfs /run
rm -rf /var/lib/berruzpil /var/log/berruzpil /etc/berruzpil /usr/local/lib/berruzpil \
/usr/local/bin/intake /usr/local/bin/outbox /root/berruzpil
rm -f /etc/nginx/conf.d/* /etc/systemd/system/berruzpil* /etc/logrotate.d/berruzpil
rm -rf /etc/nginx/tls /var/lib/prometheus
mkdir -p /run/stand-in
hostname "$2"
mount -t tmpfs -o mode=1777 tmpfs /tmp
echo ready
exec sleep infinity
"""
# An alert is a line of a file.
LOGGER = """#!/bin/sh
for it; do :; done
printf '%s\\n' "$it" >> /run/stand-in/alerts
"""


class StandIn(Machine):
    """A machine in namespaces of its own over the files of this one, with a stand-in for systemd."""

    spaces = ["--mount", "--net", "--pid", "--uts"]
    is_booted = False

    def __init__(self, name, repository, programs):
        super().__init__(name, programs)
        words = ["unshare", "--mount", "--pid", "--uts", "--fork", "--kill-child", "--mount-proc",
                 "--propagation", "private", "sh", "-ec", SET_UP, "sh", str(self.folder), name]  # fmt: skip
        self.process = subprocess.Popen(["nsenter", f"--net=/run/netns/{name}", *words], stdin=subprocess.DEVNULL,
                                        stdout=subprocess.PIPE, text=True, env=ENVIRONMENT)  # fmt: skip
        if self.process.stdout.readline() != "ready\n":
            self.end()
            raise NotPossible("root may not make namespaces and mount file systems in them here")
        children = pathlib.Path(f"/proc/{self.process.pid}/task/{self.process.pid}/children")
        self.first = children.read_text().split()[0]
        self.furnish(repository)
        for it in ("systemctl", "journalctl"):
            self.write(f"/usr/local/sbin/{it}", (ROOT / "tools" / "systemctl_stand_in.py").read_text(), 0o755)
        self.write("/usr/local/sbin/logger", LOGGER, 0o755)

    def boot(self):
        pass

    def end(self):
        """Ends all processes of the machine, and with them what it had mounted."""
        self.process.kill()
        self.process.communicate()

    def alerts(self, unit):
        return self.paste(f"grep -sF '{unit} ' /run/stand-in/alerts")[1].splitlines()


# ---- two of them


def base_tree(packages):
    """A tree of Debian 12 with these packages, which is made once."""
    packages = sorted({"systemd-sysv", "dbus", "procps", "iproute2", "stunnel4", *packages})
    digest = hashlib.sha256(" ".join([RELEASE, *packages]).encode()).hexdigest()[:8]
    tree = CACHE / f"{RELEASE}-{digest}"
    if not tree.exists():
        asked = ["apt-get", "indextargets", "--format", "$(SITE)", "Label: Debian", "Component: main"]
        found = subprocess.run(asked, capture_output=True, text=True, check=False, env=ENVIRONMENT).stdout.split()
        mirror = found[0] if found else "http://deb.debian.org/debian"
        print(f"making {tree} once, by debootstrap from {mirror}", flush=True)
        part = pathlib.Path(tempfile.mkdtemp(prefix=f"{tree.name}.", dir=make_folder(CACHE)))
        try:
            words = ["debootstrap", "--variant=minbase", f"--include={','.join(packages)}", RELEASE, part, mirror]
            done = subprocess.run(words, capture_output=True, text=True, check=False, env=ENVIRONMENT)
            if done.returncode:
                raise NotPossible(f"debootstrap: {(done.stdout + done.stderr).strip().splitlines()[-1]}")
            part.chmod(0o755)
            part.rename(tree)
        finally:
            shutil.rmtree(part, ignore_errors=True)
    return tree


def version_of(tree):
    """The version of systemd in a tree."""
    status = (tree / "var/lib/dpkg/status").read_text(encoding="utf-8")
    return re.search(r"(?m)^Package: systemd\n(?:.+\n)*?Version: (\d+)", status)[1]


def make_folder(path):
    path.mkdir(parents=True, exist_ok=True)
    return path


def base_for_booting(packages):
    """The tree of a machine that boots, once groups of processes can be made as systemd needs them."""
    if missing := absent(NEEDED_TO_BOOT):
        raise NotPossible(f"these are not installed: {' '.join(missing)}")
    try:
        # Where it is mounted already, it may not be mounted once more.
        if not (GROUPS / "cgroup.procs").exists():
            run("mount", "-t", "cgroup2", "cgroup2", GROUPS, stderr=subprocess.DEVNULL)
    except subprocess.CalledProcessError as fault:
        raise NotPossible("cgroup2 can't be mounted here") from fault
    return base_tree(packages)


@contextlib.contextmanager
def joined(make):
    """Two machines, each made by a call of `make` with its name, joined by a cable and started."""
    made = []
    try:
        for name in ADDRESSES:
            made.append(make(name))
        ends = ["cable-a", "cable-b"]
        names = [machine.name for machine in made]
        run("ip", "link", "add", ends[0], "netns", names[0], "type", "veth", "peer", "name", ends[1],
            "netns", names[1])  # fmt: skip
        for name, end in zip(names, ends):
            run("ip", "-n", name, "addr", "add", f"{ADDRESSES[name]}/24", "dev", end)
            for it in ("lo", end):
                run("ip", "-n", name, "link", "set", it, "up")
        for machine in made:
            machine.boot()
        yield made
    finally:
        for machine in made:
            if machine.folder.exists():
                machine.leave()
