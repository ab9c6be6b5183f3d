"""Two machines with a mirrored disk between them, on which tools/check_takeover.py plays take-overs.

A machine is a Debian 12 with a kernel, a systemd and a power of its own: Debian's User-mode Linux, or a virtual machine
of QEMU, each with Debian's DRBD. Both are joined by a network of the filers, in which this program is, too, and by the
cable of the mirror; both are bridges with addresses that nobody else sees. The power switch is this program: to take
the power from a machine is to kill its processes. What a machine wrote to its disk is in a file of this one and
survives that, as on a disk whose cache has a battery.

`apart` runs the caller in namespaces, so that nothing of it is left: no process, no mount, no network.
"""
import contextlib
import hashlib
import http.server
import inspect
import os
import pathlib
import re
import shutil
import signal
import socket
import struct
import subprocess
import sys
import tempfile
import textwrap
import threading
import time

import machines
from machines import PATIENCE, NotPossible, run

ROOT = machines.ROOT
ADDRESS, SWITCH = "192.0.2.10", "192.0.2.254"
QEMU = "qemu-system-x86_64"
# `uml` for User-mode Linux, or accelerators of QEMU, the first of which that is there is taken: `kvm`, `tcg`.
ACCELERATORS = os.environ.get("BERRUZPIL_ACCELERATORS", "uml").split()
BY_QEMU = "uml" not in ACCELERATORS
NEEDED = ["ip", "bridge", "unshare", "apt-get", "dpkg-deb", "mkfs.ext4", "e2fsck", "debugfs", "ssh", "ssh-keygen",
          *[QEMU] * BY_QEMU]  # fmt: skip
PACKAGES = """nginx-light drbd-utils systemd systemd-sysv kmod iproute2 iputils-arping openssh-server openssh-client
    curl e2fsprogs procps netbase python3 linux-image-amd64 user-mode-linux busybox-static base-files base-passwd bash
    bsdutils coreutils dash debianutils diffutils findutils grep gzip hostname libc-bin login mawk ncurses-base sed tar
    util-linux""".split()
# The modules of the kernel that a machine begins with, those that it loads later, and the program that loads the first.
FIRST_MODULES = ["crc32c_generic", "virtio_pci", "virtio_blk", "virtio_net", "ext4"]
LATER_MODULES = ["autofs4", "drbd"]
INIT = """#!/bin/busybox sh
/bin/busybox mount -t devtmpfs dev /dev
for it in {}; do /bin/busybox insmod "/$it.ko"; done
/bin/busybox mount -t ext4 /dev/vda /root
exec /bin/busybox switch_root /root /sbin/init
"""
MEGABYTE = 1 << 20
# Megabytes of the disk of a machine's own, on which copies of the register lie, too. Its file has holes.
IMAGE = 4000
# What a machine does at its start, before ssh: its networks, as the kernel's words have its number. User-mode Linux has
# names of its own for disks and networks.
BEGIN = """#!/bin/sh
number=$(sed 's/.*number=\\([12]\\).*/\\1/' /proc/cmdline)
for it in b c; do [ ! -e /dev/ubd$it ] || ln -s ubd$it /dev/vd$it; done
for it in 0 1; do ip link set vec$it name eth$it; done 2> /dev/null
ip link set lo up
ip address add 192.0.2.$number/24 dev eth0
ip address add 198.51.100.$number/24 dev eth1
ip link set eth0 up
ip link set eth1 up
"""
BEGIN_UNIT = """[Unit]
Description=The networks of this machine
DefaultDependencies=no
After=local-fs.target systemd-tmpfiles-setup.service
Before=ssh.service nginx.service drbd.service network.target network-online.target
Wants=network-online.target
[Service]
Type=oneshot
RemainAfterExit=yes
ExecStart=/lab/begin
"""
# A machine that gets little of the processor takes its time.
MANAGER = "[Manager]\nDefaultTimeoutStartSec=30min\nDefaultTimeoutStopSec=30min\nDefaultDeviceTimeoutSec=30min\n"
# Nothing here needs these, and a machine starts sooner without them.
MASKED = """apt-daily-upgrade.timer apt-daily.timer dbus.service dbus.socket dev-hugepages.mount dev-mqueue.mount
    dpkg-db-backup.timer e2scrub_all.timer e2scrub_reap.service fstrim.timer getty.target getty@tty1.service
    kmod-static-nodes.service ldconfig.service logrotate.timer man-db.timer modprobe@configfs.service
    modprobe@dm_mod.service modprobe@drm.service modprobe@efi_pstore.service modprobe@fuse.service modprobe@loop.service
    proc-sys-fs-binfmt_misc.automount remote-fs.target sys-fs-fuse-connections.mount sys-kernel-config.mount
    sys-kernel-debug.mount sys-kernel-tracing.mount systemd-ask-password-console.path systemd-ask-password-wall.path
    systemd-binfmt.service systemd-firstboot.service systemd-hwdb-update.service systemd-initctl.socket
    systemd-journal-catalog-update.service systemd-logind.service systemd-modules-load.service systemd-networkd.service
    systemd-pcrphase.service systemd-random-seed.service systemd-remount-fs.service systemd-resolved.service
    systemd-sysctl.service systemd-sysusers.service systemd-timesyncd.service systemd-tmpfiles-clean.timer
    systemd-tmpfiles-setup-dev.service systemd-udev-settle.service systemd-udev-trigger.service
    systemd-udevd-control.socket systemd-udevd-kernel.socket systemd-udevd.service systemd-update-done.service
    systemd-update-utmp-runlevel.service systemd-update-utmp.service systemd-user-sessions.service""".split()


# ---- the time that a busy machine takes


def slowness():
    """How many times longer than its time on a processor this program takes."""
    began, used = time.monotonic(), time.process_time()
    while time.process_time() - used < 0.5:
        pass
    return (time.monotonic() - began) / 0.5


class Deadline:
    """The end of so many seconds, as they are on a machine with nothing else to do. Once they are over, this asks how
    busy this one has become, and waits on if that explains it."""

    patience = PATIENCE

    def __init__(self, seconds):
        self.began, self.seconds = time.monotonic(), seconds

    def left(self):
        return self.began + self.seconds * Deadline.patience - time.monotonic()

    def is_over(self):
        if self.left() > 0:
            return False
        # As they are started again and again, what is waited for gets less than a program that works all the time.
        if (found := 1.5 * slowness()) > Deadline.patience:
            Deadline.patience = found
            print(f"this machine is busy: anything may take {found:.1f} times as long", flush=True)
        return self.left() <= 0


# ---- apart from this machine


def lacking():
    """Why no machine can be made here, or nothing."""
    if os.geteuid() != 0:
        return "this needs root"
    if absent := machines.absent(NEEDED):
        return f"not installed: {', '.join(absent)} (Debian: iproute2 e2fsprogs openssh-client qemu-system-x86)"
    return None if os.path.exists("/dev/net/tun") else "there is no /dev/net/tun"


def apart():
    """Runs this program again in namespaces of its own, and gives its status; nothing if this is that run already. The
    run has a scratch folder, which `machines.scratch` names."""
    if machines.APART in os.environ:
        return None
    machines.CACHE.mkdir(parents=True, exist_ok=True)
    # Whoever ends this removes the folder, too.
    signal.signal(signal.SIGTERM, lambda *_: sys.exit(143))
    with tempfile.TemporaryDirectory(prefix="berruzpil-", dir=machines.CACHE) as folder:
        # The shell is the first process there, and waits for each that has lost its parent.
        words = ["setpriv", "--pdeathsig", "KILL", "unshare", "--mount", "--net", "--pid", "--fork", "--kill-child",
                 "--mount-proc", "--propagation", "private", "sh", "-c", '"$@"; exit $?', "sh"]  # fmt: skip
        return subprocess.run([*words, sys.executable, "-u", *sys.argv], check=False,
                              env={**os.environ, machines.APART: folder}).returncode


# ---- the files of a machine


def front():
    """The file for nginx in front of the intake without TLS and certificates: whoever comes may file for all."""
    text = (ROOT / "deploy/nginx-intake.conf").read_text()
    text = re.sub(r"(?m)^ *ssl_.*\n", "", text)
    return text.replace("listen 443 ssl;", "listen 80 default_server;").replace("default 0;", "default 1;")


def key_pair(path):
    run("ssh-keygen", "-q", "-t", "ed25519", "-N", "", "-f", path)
    return path.with_name(f"{path.name}.pub").read_text()


def unpack(folder):
    """Debian's packages, unpacked below FOLDER/tree. Their scripts are not run, since a debootstrap takes longer."""
    (folder / "debs/partial").mkdir(parents=True)
    (folder / "debs/status").touch()
    words = ["-o", f"Dir::State::status={folder}/debs/status", "-o", f"Dir::Cache::archives={folder}/debs"]
    done = subprocess.run(["apt-get", "-y", "-d", "-qq", *words, "--no-install-recommends", "install", *PACKAGES],
                          stdout=subprocess.PIPE, stderr=subprocess.STDOUT, text=True, check=False)  # fmt: skip
    if done.returncode:
        raise NotPossible("apt-get: " + (done.stdout.strip().splitlines() or ["failed"])[-1])
    tree = folder / "tree"
    for it in ("bin", "sbin", "lib", "lib64"):
        (tree / "usr" / it).mkdir(parents=True)
        (tree / it).symlink_to(f"usr/{it}")
    for package in sorted((folder / "debs").glob("*.deb")):
        with subprocess.Popen(["dpkg-deb", "--fsys-tarfile", package], stdout=subprocess.PIPE) as fetch:
            # Files that are links to folders already are left as they are.
            subprocess.run(["tar", "-k", "-x", "-C", tree, "-f", "-"], stdin=fetch.stdout, stderr=subprocess.DEVNULL,
                           check=False)  # fmt: skip
    for it in ("doc", "man", "locale", "info"):
        shutil.rmtree(tree / "usr/share" / it, ignore_errors=True)
    return tree


def furnish(tree):
    """What the scripts of the packages would have made, and what the first day makes before step 3."""

    def write(path, text, mode=0o644):
        (tree / path).parent.mkdir(parents=True, exist_ok=True)
        (tree / path).write_text(text)
        (tree / path).chmod(mode)

    run("chroot", tree, "/sbin/ldconfig")
    users = (tree / "usr/share/base-passwd/passwd.master").read_text().replace("root:*:", "root::")
    write("etc/passwd", users + "sshd:x:101:65534::/run/sshd:/usr/sbin/nologin\n"
          "berruzpil:x:110:110::/var/lib/berruzpil:/usr/sbin/nologin\n")  # fmt: skip
    write("etc/group", (tree / "usr/share/base-passwd/group.master").read_text()
          + "systemd-journal:x:999:\nberruzpil:x:110:\n")  # fmt: skip
    write("etc/shadow", "", 0o640)
    for it in ("auth", "account", "session", "session-noninteractive", "password"):
        write(f"etc/pam.d/common-{it}", f"{it.partition('-')[0]} sufficient pam_permit.so\n")
    if not (tree / "usr/bin/awk").exists():
        (tree / "usr/bin/awk").symlink_to("mawk")
    for it in ("etc/.updated", "var/.updated", "etc/fstab"):
        write(it, "")
    write("etc/machine-id", "0123456789abcdef0123456789abcdef\n")
    write("etc/hosts", "127.0.0.1 localhost\n192.0.2.1 a\n192.0.2.2 b\n")
    # A key for this program.
    (tree / "lab").mkdir()
    write("root/.ssh/authorized_keys", key_pair(tree / "lab/key"), 0o600)
    for it in ("root/.ssh", "root"):
        (tree / it).chmod(0o700)
    for it in (tree / "etc/ssh").glob("ssh_host_*"):
        it.unlink()
    key_pair(tree / "etc/ssh/ssh_host_ed25519_key")
    write("etc/ssh/sshd_config", "UsePAM no\nUseDNS no\nMaxStartups 100\nHostKey /etc/ssh/ssh_host_ed25519_key\n")
    write("lab/begin", BEGIN, 0o755)
    write("etc/systemd/system/lab.service", BEGIN_UNIT)
    write("etc/systemd/system.conf.d/lab.conf", MANAGER)
    write("etc/systemd/system/systemd-journald.service.d/lab.conf", "[Service]\nWatchdogSec=0\n")
    wants = tree / "etc/systemd/system/multi-user.target.wants"
    shutil.rmtree(wants, ignore_errors=True)
    wants.mkdir(parents=True)
    for it in ("ssh", "nginx"):
        (wants / f"{it}.service").symlink_to(f"/lib/systemd/system/{it}.service")
    (wants / "lab.service").symlink_to("/etc/systemd/system/lab.service")
    (tree / "etc/systemd/system/default.target").unlink(missing_ok=True)
    (tree / "etc/systemd/system/default.target").symlink_to("/lib/systemd/system/multi-user.target")
    for it in MASKED:
        (tree / "etc/systemd/system" / it).unlink(missing_ok=True)
        (tree / "etc/systemd/system" / it).symlink_to("/dev/null")
    for it in ("var/log/journal", "var/log/nginx", "var/lib/nginx", "var/log/berruzpil", "var/lib/berruzpil/copies",
               "etc/drbd.d", "var/lib/drbd"):  # fmt: skip
        (tree / it).mkdir(parents=True, exist_ok=True)
    for it in ("var/lib/berruzpil", "var/lib/berruzpil/copies"):
        os.chown(tree / it, 110, 110)
        (tree / it).chmod(0o750)


def with_what_they_need(modules, names):
    """The files of these modules of the kernel, each after those that it needs."""
    needs = dict(line.split(":") for line in (modules / "modules.dep").read_text().splitlines())
    paths = {pathlib.Path(path).stem: path for path in needs}
    # A name that is not there is built in.
    wanted = [paths[name] for name in names if name in paths]
    return list(dict.fromkeys(it for path in wanted for it in [*reversed(needs[path].split()), path]))


def archive(files):
    """An archive as the kernel takes it at its start (cpio, newc): folders, and files with their contents."""
    parts = []
    for number, (name, content) in enumerate([*files.items(), ("TRAILER!!!", b"")], 1):
        mode = 0o040755 if content is None else 0o100755
        content, name = content or b"", name.encode() + b"\0"
        fields = [number, mode, 0, 0, 1, 0, len(content), 0, 0, 0, 0, len(name), 0]
        parts.append(b"070701" + b"".join(b"%08X" % it for it in fields) + name)
        parts += [b"\0" * (-(len(parts[-1])) % 4), content, b"\0" * (-len(content) % 4)]
    return b"".join(parts)


def keep_modules(tree, modules):
    """Keeps the modules of a kernel that a machine may need, and no others."""
    run("chroot", tree, "/sbin/depmod", "-a", modules.name, stderr=subprocess.DEVNULL)
    kept = with_what_they_need(modules, FIRST_MODULES + LATER_MODULES)
    for it in modules.rglob("*.ko"):
        if str(it.relative_to(modules)) not in kept:
            it.unlink()
    run("chroot", tree, "/sbin/depmod", "-a", modules.name, stderr=subprocess.DEVNULL)


def take_kernels(tree, folder):
    """Writes `linux` and `initrd` of a machine, and `linux.uml`."""
    [modules] = (tree / "usr/lib/modules").iterdir()
    shutil.move(tree / "boot" / f"vmlinuz-{modules.name}", folder / "linux")
    shutil.rmtree(tree / "boot")
    keep_modules(tree, modules)
    first = with_what_they_need(modules, FIRST_MODULES)
    files = {f"{pathlib.Path(it).stem}.ko": (modules / it).read_bytes() for it in first}
    names = " ".join(pathlib.Path(it).stem for it in first)
    (folder / "initrd").write_bytes(archive({
        "bin": None, "dev": None, "root": None, "bin/busybox": (tree / "usr/bin/busybox").read_bytes(),
        "init": INIT.format(names).encode(), **files}))  # fmt: skip
    shutil.move(tree / "usr/bin/linux.uml", folder / "linux.uml")
    [modules] = (tree / "usr/lib/uml/modules").iterdir()
    keep_modules(tree, shutil.move(modules, tree / "usr/lib/modules" / modules.name))


def base():
    """The folder with the files of a machine: `image`, its disk; its kernel, which is `linux.uml`, or `linux` and
    `initrd`; `key`, to come in by. The first call makes it, from Debian's mirror."""
    sources = [inspect.getsource(it) for it in (unpack, furnish, take_kernels, keep_modules, archive,
                                                with_what_they_need)]  # fmt: skip
    recipe = repr((PACKAGES, IMAGE, FIRST_MODULES, LATER_MODULES, INIT, BEGIN, BEGIN_UNIT, MANAGER, MASKED, sources))
    kept = machines.CACHE / f"mirrored-{hashlib.sha256(recipe.encode()).hexdigest()[:16]}"
    if kept.exists():
        return kept
    machines.CACHE.mkdir(parents=True, exist_ok=True)
    print(f"making the files of a machine in {kept}, once", flush=True)
    with tempfile.TemporaryDirectory(prefix="mirrored-", dir=machines.CACHE) as name:
        folder = pathlib.Path(name)
        tree = unpack(folder)
        take_kernels(tree, folder)
        furnish(tree)
        shutil.copy(tree / "lab/key", folder / "key")
        with open(folder / "image", "wb") as file:
            file.truncate(IMAGE * MEGABYTE)
        run("mkfs.ext4", "-q", "-F", "-J", "size=8", "-d", tree, folder / "image")
        for it in ("tree", "debs"):
            shutil.rmtree(folder / it)
        folder.rename(kept)
        folder.mkdir()
    return kept


def try_kernel():
    """Fails if User-mode Linux does not start here. Without a disk it comes as far as to look for one."""
    with tempfile.TemporaryDirectory() as folder:
        words = [base() / "linux.uml", "mem=64M", f"uml_dir={folder}/", "con=null", "con0=null,fd:1", "panic=-1"]
        with contextlib.suppress(subprocess.TimeoutExpired), open(f"{folder}/said", "wb") as said:
            subprocess.run(list(map(str, words)), stdin=subprocess.DEVNULL, stdout=said, stderr=said, check=False,
                           timeout=60 * PATIENCE)  # fmt: skip
        said = pathlib.Path(folder, "said").read_text(errors="replace")
    if "VFS: " not in said:
        raise NotPossible("User-mode Linux does not start: " + (said.strip().splitlines() or ["it says nothing"])[-1]
                          + "; BERRUZPIL_ACCELERATORS=tcg takes QEMU")  # fmt: skip


# ---- machines


class Machine:
    """A machine of the lab. It is off until `boot`."""

    def __init__(self, name, number, lab):
        self.name, self.number, self.lab, self.process = name, number, lab, None
        self.master, self.starts = None, 0
        self.host, self.other = f"192.0.2.{number}", None
        self.disk, self.plain = lab.scratch / f"{name}.disk", lab.scratch / f"{name}.plain"
        for path in (self.disk, self.plain):
            with open(path, "wb") as file:
                file.truncate(lab.size * MEGABYTE)
        self.root = lab.scratch / f"{name}.root"
        self.kernel = f"number={number} systemd.hostname={name} net.ifnames=0 panic=1"
        run("cp", "--sparse=always", lab.base / "image", self.root)
        for net in (0, 1):
            run("ip", "tuntap", "add", f"{name}{net}", "mode", "tap")
            run("ip", "link", "set", f"{name}{net}", "master", f"br{net}", "up")

    def on(self):
        """Gives it power."""
        self.starts += 1
        for net in (0, 1):
            self.plug(net, True)
        words = self.by_qemu() if BY_QEMU else self.by_user_mode_linux()
        with open(self.lab.scratch / f"{self.name}.console", "ab") as log:
            self.process = subprocess.Popen(list(map(str, words)), stdin=subprocess.DEVNULL, stdout=log, stderr=log,
                                            start_new_session=True)  # fmt: skip

    def by_qemu(self):
        kernel = f"console=ttyS0 quiet {self.kernel}"
        words = [QEMU, "-cpu", "max", "-m", f"{self.lab.memory}M", "-nodefaults", "-no-user-config", "-display", "none",
                 "-monitor", "none", "-serial", "stdio", "-kernel", self.lab.base / "linux", "-initrd",
                 self.lab.base / "initrd", "-append", kernel]  # fmt: skip
        for it in ACCELERATORS:
            words += ["-accel", it]
        for path in (self.root, self.disk, self.plain):
            words += ["-drive", f"file={path},if=virtio,format=raw"]
        for net in (0, 1):
            words += ["-netdev", f"tap,id=net{net},ifname={self.name}{net},script=no,downscript=no", "-device",
                      f"virtio-net-pci,netdev=net{net},mac=52:54:00:00:0{net}:0{self.number},romfile="]  # fmt: skip
        return words

    def by_user_mode_linux(self):
        return [self.lab.base / "linux.uml", f"umid={self.name}", f"uml_dir={self.lab.scratch}/",
                f"mem={self.lab.memory}M", f"ubda={self.root}", f"ubdb={self.disk}", f"ubdc={self.plain}",
                "root=/dev/ubda", "rw", "con=null", "con0=null,fd:1", *self.kernel.split(),
                *(f"vec{net}:transport=tap,ifname={self.name}{net},mac=52:54:00:00:0{net}:0{self.number},gro=1"
                  for net in (0, 1))]  # fmt: skip

    def off(self):
        """Takes its power. Once this is back, no process of it is there."""
        with self.lab.lock:
            if self.process is None:
                return
            group, deadline = self.process.pid, time.monotonic() + 20
            while time.monotonic() < deadline:
                try:
                    os.killpg(group, signal.SIGKILL)
                except ProcessLookupError:
                    break
                with contextlib.suppress(subprocess.TimeoutExpired):
                    self.process.wait(timeout=0.02)
            else:
                raise SystemExit(f"{self.name} without power runs still")
            self.process = None
            if self.master:
                self.master.kill()
                self.master.wait()
                self.master = None

    def plug(self, net, is_in):
        """Puts it into the filers' network (0) or onto the cable (1), or takes it out."""
        run("ip", "link", "set", f"{self.name}{net}", "up" if is_in else "down")

    def into(self):
        """The words before a command that is to run on the machine. If that loses its power meanwhile, they end."""
        return ["ssh", "-q", "-i", str(self.lab.key), "-o", "BatchMode=yes", "-o", "StrictHostKeyChecking=no", "-o",
                "UserKnownHostsFile=/dev/null", "-o", f"ConnectTimeout={10 * PATIENCE:.0f}", "-o",
                f"ServerAliveInterval={10 * PATIENCE:.0f}", "-S", str(self.lab.scratch / f"{self.name}-{self.starts}"),
                f"root@{self.host}"]  # fmt: skip

    def keep_connection(self):
        """Begins the connection that all commands share from now on: to make one costs a machine a second."""
        with self.lab.lock:
            if self.process and (self.master is None or self.master.poll() is not None):
                silent = subprocess.DEVNULL
                self.master = subprocess.Popen([*self.into(), "-M", "-N"], stdin=silent, stdout=silent, stderr=silent)

    def ssh(self, command, timeout=120, given=None):
        """The status of a command, and what it prints."""
        try:
            done = subprocess.run([*self.into(), command], input=given or b"", stdout=subprocess.PIPE,
                                  stderr=subprocess.STDOUT, timeout=timeout * Deadline.patience,
                                  check=False)  # fmt: skip
        except subprocess.TimeoutExpired as fault:
            return 124, (fault.stdout or b"").decode("utf-8", "replace") + "no answer in time"
        if done.returncode != 255:
            self.keep_connection()
        return done.returncode, done.stdout.decode("utf-8", "replace")

    def until(self, command, is_there=lambda status, said: status == 0, seconds=120):
        """Whether it comes to that in so many seconds."""
        deadline = Deadline(seconds)
        while not is_there(*(found := self.ssh(command))):
            if deadline.is_over():
                print(f"{self.name}: not in time: {command}: {found}", flush=True)
                return False
            # Each time costs a processor more than what is waited for.
            time.sleep(0.3 * PATIENCE)
        return True

    def boot(self):
        """Gives it power, and says whether its units were started in time."""
        self.on()
        return self.until("systemctl is-active multi-user.target", seconds=300)

    def paste(self, commands):
        """Pastes commands into one shell at the top of the repository: the status of each, and what it prints."""
        text = "".join(f"{{ {command}\n}} </dev/null >/run/printed 2>&1\necho \"@ $?\"; cat /run/printed\n"
                       for command in commands)  # fmt: skip
        _, said = self.ssh("cd /root/berruzpil && exec bash", timeout=300, given=text.encode())
        parts = re.split(r"(?m)^@ (\d+)\n", said)[1:]
        return [(int(status), printed) for status, printed in zip(parts[::2], parts[1::2])]

    def state(self):
        """The six words of mirror-state."""
        for _ in range(9):
            status, said = self.ssh("mirror-state")
            if status == 0:
                return said.split()
        return ["?"] * 6

    def is_whole(self, seconds=600):
        return self.until("mirror-state", lambda _, said: said.split()[:1] + said.split()[2:5]
                          == ["Connected", "UpToDate/UpToDate", "C", "r"], seconds)  # fmt: skip

    def alerts(self):
        return self.ssh("journalctl -q -b -t berruzpil -p alert -o cat")[1].splitlines()

    def fetch(self, path, to):
        """Brings a file from the machine."""
        with open(to, "wb") as file, contextlib.suppress(subprocess.TimeoutExpired):
            done = subprocess.run([*self.into(), f"cat {path}"], stdin=subprocess.DEVNULL, stdout=file,
                                  stderr=subprocess.DEVNULL, timeout=600 * PATIENCE, check=False)  # fmt: skip
            return done.returncode == 0
        return False

    def explain(self):
        """Prints what can be seen of a machine from outside, and what it says of itself, for whoever looks for a
        cause."""
        print(f"---- {self.name}", "has no power" if self.process is None else "", flush=True)
        console = self.lab.scratch / f"{self.name}.console"
        if console.exists():
            print(console.read_bytes()[-3000:].decode("utf-8", "replace"))
        if self.process is None:
            return
        for task in pathlib.Path(f"/proc/{self.process.pid}/task").glob("*"):
            with contextlib.suppress(OSError):
                state = re.search(r"State:\s*(.*)", (task / "status").read_text())[1]
                print(f"task {task.name}: {state}, waits in {(task / 'wchan').read_text()}")
        if not BY_QEMU:
            for command in ("version", "sysrq w", "sysrq m"):
                print(f"asked for {command!r} past its network:\n{self.asked_past_network(command)}")
        print(self.ssh("mirror-state; systemctl list-jobs --no-pager; ps -eo pid,stat,wchan:24,args | grep -v ' \\['; "
                       "journalctl -b -n 60 -o short-monotonic --no-pager", timeout=30)[1], flush=True)  # fmt: skip

    def asked_past_network(self, command):
        """What the kernel of User-mode Linux answers on its unix socket."""
        folder = self.lab.scratch / self.name
        with socket.socket(socket.AF_UNIX, socket.SOCK_DGRAM) as own, contextlib.suppress(FileNotFoundError):
            (folder / "asks").unlink(missing_ok=True)
            own.bind(str(folder / "asks"))
            own.settimeout(10)
            request = struct.pack("=III512s", 0xCAFEBABE, 2, len(command), command.encode())
            said, more = b"", 1
            try:
                own.sendto(request, str(folder / "mconsole"))
                while more:
                    answer = own.recv(1024)
                    _, more, length = struct.unpack("=III", answer[:12])
                    said += answer[12 : 12 + length]
            except OSError as fault:
                return f"{said.decode('utf-8', 'replace')}({fault})"
            return said.decode("utf-8", "replace")
        return "there is no socket"

    def dead_register(self, folder):
        """The register of a machine that has no power, as a start of the file system finds it: its path in a folder."""
        copy = folder / "dead.disk"
        run("cp", "--sparse=always", self.disk, copy)
        # It replays the journal of the file system, and says so with status 1.
        subprocess.run(["e2fsck", "-fy", copy], stdout=subprocess.DEVNULL, stderr=subprocess.DEVNULL, check=False)
        for it in ("register.db", "register.db-wal"):
            subprocess.run(["debugfs", "-R", f"dump /{it} {folder / it}", copy], stderr=subprocess.DEVNULL, check=False)
            if (folder / it).exists() and not (folder / it).stat().st_size:
                (folder / it).unlink()
        copy.unlink()
        return folder / "register.db"


class Lab:
    """Both machines, their networks and the power switch. `deploy` is the folder of that name, as it is to be tried.
    `size` are the megabytes of the mirrored disk, `memory` those of a machine."""

    def __init__(self, programs, deploy, size, memory):
        self.base, self.scratch, self.size, self.memory = base(), machines.scratch(), size, memory
        self.lock = threading.RLock()
        self.programs, self.deploy, self.key = programs, deploy, self.scratch / "key"
        shutil.copy(self.base / "key", self.key)
        self.key.chmod(0o600)
        run("ip", "link", "set", "lo", "up")
        for net in (0, 1):
            run("ip", "link", "add", f"br{net}", "type", "bridge")
            run("ip", "link", "set", f"br{net}", "up")
        run("ip", "address", "add", f"{SWITCH}/24", "dev", "br0")
        self.switch_answers = True
        self.a, self.b = Machine("a", 1, self), Machine("b", 2, self)
        self.a.other, self.b.other = self.b, self.a
        threading.Thread(target=self.power_switch().serve_forever, daemon=True).start()

    def power_switch(self):
        """GET /off/a is answered once a has no power."""
        lab = self

        class Switch(http.server.BaseHTTPRequestHandler):
            def do_GET(self):
                machine = {"/off/a": lab.a, "/off/b": lab.b}.get(self.path)
                if machine:
                    whose = {lab.a.host: "a", lab.b.host: "b"}.get(self.client_address[0])
                    print(f"the power switch: {whose} takes the power from {machine.name}"
                          + (", in vain" if not lab.switch_answers else ""), flush=True)  # fmt: skip
                if machine and lab.switch_answers:
                    machine.off()
                self.send_response(200 if machine and lab.switch_answers else 503)
                self.send_header("Content-Length", "0")
                self.end_headers()

            def log_message(self, *_):
                pass

        return http.server.ThreadingHTTPServer((SWITCH, 99), Switch)

    def furnish(self, machine):
        """What both have before the page begins: the repository, programs, and nginx in front."""
        with tempfile.TemporaryDirectory() as name:
            tree = pathlib.Path(name)
            shutil.copytree(self.deploy, tree / "root/berruzpil/deploy")
            (tree / "usr/local/bin").mkdir(parents=True)
            for program in self.programs:
                shutil.copy(program, tree / "usr/local/bin")
            for it in ("intake-health", "lost-filings"):
                shutil.copy(self.deploy / it, tree / "usr/local/bin")
            (tree / "etc/nginx/conf.d").mkdir(parents=True)
            (tree / "etc/nginx/conf.d/nginx-intake.conf").write_text(front())
            shutil.copy(self.deploy / "nginx-berruzpil-log.conf", tree / "etc/nginx/conf.d")
            files = subprocess.check_output(["tar", "-C", tree, "--owner=0", "--group=0", "-c", "root", "usr", "etc"])
        status, said = machine.ssh("tar -C / --no-overwrite-dir -x && systemctl restart nginx && sync", given=files)
        return "" if status == 0 else textwrap.shorten(said, 200)

    def cable(self, is_in):
        run("ip", "link", "set", "br1", "up" if is_in else "down")

    def apart(self, are_apart):
        """Whether the two machines see nothing of each other, while both see the filers and the power switch."""
        for name in ("a0", "b0", "a1", "b1"):
            run("bridge", "link", "set", "dev", name, "isolated", "on" if are_apart else "off")

    def leave(self):
        self.a.off()
        self.b.off()
