#!/usr/bin/env python3
"""A stand-in for `systemctl` and `journalctl` on a machine of tools/check_first_days.py, where no systemd runs.

It reads units from /etc/systemd/system and /lib/systemd/system, and runs their commands as systemd would: as their
user, in their folder, with their environment, again after a failure if the unit says so, and with the units of
OnFailure= after it. Timers are marked as started and start nothing. The sandbox of a unit and its limits are not made.
`enable` is done by the systemctl that is installed, on files alone.
"""
import os
import pathlib
import re
import shlex
import shutil
import signal
import subprocess
import sys
import time

STATE = pathlib.Path("/run/stand-in")
FOLDERS = [pathlib.Path("/etc/systemd/system"), pathlib.Path("/lib/systemd/system")]
# What may stand before a command: `-` if it may fail, `+` if it runs as root.
PREFIX = re.compile(r"([-+!@:]*)(.*)", re.DOTALL)
PATHS = "/usr/local/sbin:/usr/local/bin:/usr/sbin:/usr/bin:/sbin:/bin"


def begin_own(*words):
    """Starts this program again, beside the one that runs."""
    silent = subprocess.DEVNULL
    return subprocess.Popen([sys.argv[0], *words], stdin=silent, stdout=silent, stderr=silent, start_new_session=True)


class Unit:
    """A unit, read from its file or that of its template."""

    def __init__(self, name):
        self.name = name if re.search(r"\.(service|timer)$", name) else f"{name}.service"
        stem, _, kind = self.name.rpartition(".")
        self.prefix, at, self.instance = stem.partition("@")
        files = [folder / it for it in (self.name, f"{self.prefix}@.{kind}" if at else self.name) for folder in FOLDERS]
        file = next((it for it in files if it.exists()), None)
        if file is None:
            sys.exit(f"Failed to start {self.name}: Unit {self.name} not found.")
        self.values = {}
        for line in file.read_text().replace("\\\n", " ").splitlines():
            if line and line[0] not in "#;[":
                key, _, value = line.partition("=")
                self.values.setdefault(key.strip(), []).append(self.spelled_out(value.strip()))

    def spelled_out(self, text):
        specifiers = {"i": self.instance, "n": self.name, "p": self.prefix, "t": "/run", "%": "%"}
        return re.sub("%([inpt%])", lambda found: specifiers[found[1]], text)

    def all_of(self, key):
        return self.values.get(key, [])

    def one(self, key, default=""):
        return self.values.get(key, [default])[-1]

    @property
    def log(self):
        return STATE / f"{self.name}.log"

    def state(self):
        file = STATE / f"{self.name}.state"
        return file.read_text() if file.exists() else "inactive"

    def set_state(self, state):
        STATE.mkdir(exist_ok=True)
        (STATE / f"{self.name}.state").write_text(state)

    def environment(self):
        found = {"PATH": PATHS, "LANG": "C.UTF-8"}
        lines = [word for line in self.all_of("Environment") for word in shlex.split(line)]
        for file in self.all_of("EnvironmentFile"):
            path = pathlib.Path(file.lstrip("-"))
            if path.exists() or not file.startswith("-"):
                lines += [line for line in path.read_text().splitlines() if line and line[0] not in "#;"]
        return found | dict(line.split("=", 1) for line in lines)

    def words(self, prefix, line, environment):
        words = [
            re.sub(r"\$\$|\$\{(\w+)\}", lambda found: environment.get(found[1], "") if found[1] else "$", word)
            for word in shlex.split(line)
        ]
        user, group = self.user()
        if "+" in prefix or not user:
            return words
        more = self.one("SupplementaryGroups")
        groups = f"--groups={more}" if more else "--init-groups"
        return ["setpriv", f"--reuid={user}", f"--regid={group}", groups, "--", *words]

    def user(self):
        """The user and the group of the unit, which are empty if it runs as root."""
        if self.one("DynamicUser") == "yes":
            return "nobody", "nogroup"
        return self.one("User"), self.one("Group") or self.one("User")

    def begin(self, line, more=()):
        """Starts a command of the unit, with its output in the log."""
        environment = self.environment() | dict(more)
        prefix, line = PREFIX.fullmatch(line).groups()
        for name in self.all_of("StateDirectory"):
            pathlib.Path("/var/lib", name).mkdir(exist_ok=True)
        for name in self.all_of("RuntimeDirectory"):
            folder = pathlib.Path("/run", name)
            folder.mkdir(exist_ok=True)
            folder.chmod(int(self.one("RuntimeDirectoryMode", "0755"), 8))
            if all(self.user()):
                shutil.chown(folder, *self.user())
            environment["RUNTIME_DIRECTORY"] = f"/run/{name}"
        STATE.mkdir(exist_ok=True)
        with open(self.log, "ab") as log:
            return subprocess.Popen(
                self.words(prefix, line, environment), cwd=self.one("WorkingDirectory", "/"), env=environment,
                umask=int(self.one("UMask", "0022"), 8), stdin=subprocess.DEVNULL, stdout=log, stderr=log,
                start_new_session=True,
            )  # fmt: skip

    def run_all(self, key, more=()):
        """Runs the commands one after the other, up to the first that fails, and gives its status."""
        for line in self.all_of(key):
            status = self.begin(line, more).wait()
            if status and "-" not in PREFIX.fullmatch(line)[1]:
                return status
        return 0

    def fail(self):
        self.set_state("failed")
        for name in " ".join(self.all_of("OnFailure")).split():
            begin_own("start", name)


def result_of(status, is_stopped):
    """What the commands after a service see of its end."""
    if status < 0:
        name = signal.Signals(-status).name.removeprefix("SIG")
        is_asked = is_stopped or name == "TERM"
        return {"SERVICE_RESULT": "success" if is_asked else "signal", "EXIT_CODE": "killed", "EXIT_STATUS": name}
    return {"SERVICE_RESULT": "exit-code" if status else "success", "EXIT_CODE": "exited", "EXIT_STATUS": str(status)}


def keep(unit):
    """Runs a service that serves, again and again, until it is stopped."""
    ends = []
    signal.signal(signal.SIGTERM, lambda *_: ends.append(True) or current[-1].terminate())
    current = []
    while not ends:
        current.append(unit.begin(unit.one("ExecStart")))
        (STATE / f"{unit.name}.main").write_text(str(current[-1].pid))
        unit.run_all("ExecStartPost")
        status = current[-1].wait()
        unit.run_all("ExecStopPost", result_of(status, bool(ends)))
        if not ends and (
            unit.one("Restart") != "always" or str(status) in unit.one("RestartPreventExitStatus").split()
        ):
            unit.fail() if status else unit.set_state("inactive")
            return
        time.sleep(0 if ends else float(unit.one("RestartSec", "0.1")))
    unit.set_state("inactive")


def start(unit):
    if unit.name.endswith(".timer") or unit.one("Type", "simple") == "forking" and unit.state() == "active":
        unit.set_state("active")
        return 0
    if unit.one("Type", "simple") in ("simple", "exec"):
        if unit.state() != "active":
            unit.set_state("active")
            (STATE / f"{unit.name}.pid").write_text(str(begin_own("keep", unit.name).pid))
        return 0
    if unit.state() == "activating":
        return 0
    unit.set_state("activating")
    status = unit.run_all("ExecStartPre") or unit.run_all("ExecStart")
    if status:
        unit.fail()
        print(f"Job for {unit.name} failed because the control process exited with error code.", file=sys.stderr)
        print(f'See "systemctl status {unit.name}" and "journalctl -xeu {unit.name}" for details.', file=sys.stderr)
        return 1
    unit.set_state("active" if unit.one("Type") == "forking" else "inactive")
    return 0


def stop(unit):
    if unit.state() == "active" and unit.one("Type", "simple") in ("simple", "exec") and unit.name.endswith(".service"):
        os.kill(int((STATE / f"{unit.name}.pid").read_text()), signal.SIGTERM)
        while unit.state() == "active":
            time.sleep(0.05)
    else:
        unit.run_all("ExecStop")
        unit.set_state("inactive")
    return 0


def send_signal(unit):
    """`systemctl kill --signal=NAME UNIT`"""
    name = next(word for word in sys.argv if word.startswith("--signal=")).partition("=")[2]
    os.kill(int((STATE / f"{unit.name}.main").read_text()), signal.Signals[f"SIG{name}"])
    return 0


def restart(unit):
    job = STATE / f"{unit.name}.job"
    job.write_text(f"1 {unit.name} restart running\n")
    stop(unit)
    job.unlink()
    return start(unit)


def list_jobs(unit):
    """`systemctl list-jobs --no-legend UNIT`"""
    job = STATE / f"{unit.name}.job"
    print(job.read_text() if job.exists() else "", end="")
    return 0


def enable(unit):
    return subprocess.run(["/usr/bin/systemctl", "--root=/", "--quiet", "enable", unit.name], check=False).returncode


def is_state(wanted):
    def ask(unit):
        if "--quiet" not in sys.argv:
            print(unit.state())
        return 0 if unit.state() == wanted else 1

    return ask


def show(unit):
    """`systemctl show UNIT --property=NAME,..`"""
    for name in next(word for word in sys.argv if word.startswith("--property=")).partition("=")[2].split(","):
        print(f"{name}={'loaded' if name == 'LoadState' else unit.one(name)}")
    return 0


COMMANDS = {
    "start": start, "stop": stop, "restart": restart, "keep": keep, "kill": send_signal,
    "reload": lambda unit: unit.run_all("ExecReload"), "enable": enable,
    "is-failed": is_state("failed"), "is-active": is_state("active"), "show": show, "list-jobs": list_jobs,
}  # fmt: skip


def control(words):
    names = [word for word in words if not word.startswith("-")]
    if names == ["daemon-reload"]:
        return 0
    command, *units = names
    status = 0
    for unit in map(Unit, units):
        status = COMMANDS[command](unit) or status
        if command == "enable" and "--now" in words:
            status = start(unit) or status
    return status


def journal(words):
    """The last lines of a unit's log."""
    given = dict(zip(words[::2], words[1::2]))
    log = Unit(given["-u"]).log
    lines = log.read_text().splitlines() if log.exists() else []
    print("\n".join(lines[-int(given.get("-n", "1000")) :]) if lines else "-- No entries --")
    return 0


if __name__ == "__main__":
    sys.exit((journal if sys.argv[0].endswith("journalctl") else control)(sys.argv[1:]))
