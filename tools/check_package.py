#!/usr/bin/env python3
"""Tries the package that tools/release made: its files, the walk of README.md, and on booted machines both first days
of docs/FIRST_DAYS.md by package, an installation, an upgrade, a removal, and what berruzpil-setup does and undoes.

    tools/check_package.py FOLDER [PART ..]             FOLDER is what tools/release wrote
    tools/check_package.py --planted FOLDER [WORD]

The part `files` unpacks the package in a scratch folder; its walk needs curl, sqlite3 and port 8080. The other parts
are those of PARTS, each on machines of its own, as tools/machines.py makes them: they need root, systemd-container and
debootstrap. Nothing of this machine changes. What needs a program that is not installed is said, and is no failure.

With --planted the faults in tools/planted_faults.txt whose part is one of these are planted in the package, one after
the other: each has to make a check of its part fail. A WORD takes the faults that have it in their line.

Status 1 if something fails.
"""
import argparse
import contextlib
import gzip
import io
import os
import pathlib
import re
import shutil
import subprocess
import sys
import tarfile
import tempfile

import check_first_days as first_days
import check_man_pages
import check_pages
import completions
import machines
import make_package
import man_pages
import trials
from check_first_days import hold

ROOT = pathlib.Path(__file__).resolve().parent.parent
NAMES = list(man_pages.SEE_ALSO)
VERSION = re.compile(r"\d+\.\d+\.\d+\+git(\d{8})\.([0-9a-f]{8,})(-unproved)?")
# Where Debian has what a package brings, and the rights of its files.
PLACES = [
    ("usr/bin/", {"-rwxr-xr-x"}),
    ("etc/default/berruzpil", {"-rw-r--r--"}),
    ("etc/logrotate.d/berruzpil", {"-rw-r--r--"}),
    ("usr/lib/berruzpil/", {"-rw-r--r--"}),
    ("usr/lib/sysusers.d/berruzpil.conf", {"-rw-r--r--"}),
    ("usr/lib/tmpfiles.d/berruzpil.conf", {"-rw-r--r--"}),
    ("usr/share/berruzpil/filer/", {"-rw-r--r--"}),
    ("usr/share/lintian/overrides/berruzpil", {"-rw-r--r--"}),
    ("lib/systemd/system/", {"-rw-r--r--"}),
    ("usr/share/man/man1/", {"-rw-r--r--"}),
    ("usr/share/bash-completion/completions/", {"-rw-r--r--"}),
    ("usr/share/zsh/vendor-completions/", {"-rw-r--r--"}),
    ("usr/share/fish/vendor_completions.d/", {"-rw-r--r--"}),
    ("usr/share/doc/berruzpil/", {"-rwxr-xr-x", "-rw-r--r--"}),
]


def tell(what, fault=None):
    trials.tell(what, fault)


def lines_of(*words, **how):
    return subprocess.run(words, capture_output=True, text=True, check=True, **how).stdout.splitlines()


# ---- the file


def check_sums(folder):
    done = subprocess.run(["sha256sum", "--check", "--quiet", "SHA256SUMS"], cwd=folder, capture_output=True, text=True)
    tell("the sums are those of the files", (done.stdout + done.stderr).strip() if done.returncode else None)


def check_fields(package):
    fields = dict(line.split(": ", 1)
                  for line in lines_of("dpkg-deb", "--field", str(package)) if re.match(r"[A-Z][\w-]*: ", line))
    found = [fields.get(name) for name in ("Package", "Architecture")]
    trials.hold("the name and the architecture", found, ["berruzpil", "amd64"])
    version = fields.get("Version", "")
    trials.hold("the name of the file", package.name, f"berruzpil_{version}_amd64.deb")
    matched = VERSION.fullmatch(version)
    tell("the version names a day and a commit", None if matched else version)
    if matched:
        words = ["git", "show", "--no-patch", "--date=format-local:%Y%m%d", "--format=%cd", matched[2]]
        known = subprocess.run(words, cwd=ROOT, capture_output=True, text=True, env={**os.environ, "TZ": "UTC"})
        if known.returncode:
            print(f"not tried: the day of {matched[2]}, since this repository has no such commit")
        else:
            trials.hold("the day is that of the commit", matched[1], known.stdout.strip())
        says = "without proof" in "\n".join(lines_of("dpkg-deb", "--field", str(package), "Description"))
        trials.hold("the description says whether the programs are proved", says, bool(matched[3]))


def check_places(package):
    faults = []
    for line in lines_of("dpkg-deb", "--contents", str(package)):
        rights, owner, _, _, _, path = line.split(None, 5)
        path = path.removeprefix("./")
        if owner != "root/root":
            faults.append(f"{path} is {owner}'s")
        if path.endswith("/") or not path:
            faults += [] if rights == "drwxr-xr-x" else [f"{path}: {rights}"]
        elif not any(path.startswith(place) and rights in allowed for place, allowed in PLACES):
            faults.append(f"{path}: {rights}")
    tell("each file is where Debian has it, with its rights", "; ".join(faults))
    kept = subprocess.run(["dpkg-deb", "--ctrl-tarfile", str(package)], capture_output=True, check=True).stdout
    with tarfile.open(fileobj=io.BytesIO(kept)) as tar:
        names = sorted(it.removeprefix("./") for it in tar.getnames() if it != ".")
    trials.hold("what dpkg is given", names, ["conffiles", "control", "md5sums", "postinst", "postrm", "prerm"])


def check_lintian(package):
    if shutil.which("lintian") is None:
        print("not tried: lintian is not installed")
        return
    done = subprocess.run(["lintian", "--allow-root", "--fail-on", "error", str(package)],
                          capture_output=True, text=True)  # fmt: skip
    said = [line for line in done.stdout.splitlines() if line.startswith("E:")]
    tell("lintian has no errors", "; ".join(said) or (done.stderr.strip() if done.returncode else None))


# ---- what is in it


class Unpacked:
    """The files of the package below a folder."""

    def __init__(self, folder, package):
        self.at = folder
        subprocess.run(["dpkg-deb", "--extract", str(package), str(folder)], check=True)

    def file(self, path):
        return self.at / path


def can_run(installed):
    """Whether each program is there and says its version."""
    faults = len(trials.failures)
    for name in NAMES:
        try:
            said = subprocess.run([installed.file(f"usr/bin/{name}"), "--version"], capture_output=True, text=True)
            tell(f"{name} --version",
                 None if re.fullmatch(rf"{name} \d+\.\d+\.\d+\n", said.stdout) else f"{said.stdout}{said.stderr}")
        except OSError as fault:
            tell(f"{name} --version", fault.strerror)
    return len(trials.failures) == faults


def check_scripts(installed):
    for script in sorted(installed.file("usr/bin").glob("*")):
        begin = script.read_bytes().split(b"\n")[0]
        if begin.startswith(b"#!") and begin.endswith(b"sh"):
            done = subprocess.run([begin[2:].split()[-1].decode(), "-n", script], capture_output=True, text=True)
            tell(f"{script.name} can be read", done.stderr if done.returncode else None)
        elif begin.startswith(b"#!"):
            try:
                compile(script.read_text(), script.name, "exec")
                tell(f"{script.name} can be read")
            except SyntaxError as fault:
                tell(f"{script.name} can be read", str(fault))


def check_units(installed):
    """Each command of a unit is a program or a script of the package."""
    units = sorted(installed.file("lib/systemd/system").glob("*"))
    for unit in units:
        text = unit.read_text()
        commands = re.findall(r"(?m)^Exec\w+=[-+!@]*(/\S+)", text)
        lacking = [it for it in commands if not installed.file(it[1:]).exists() and not it.startswith("/bin/")]
        lacking += re.findall(r"/usr/local/\S*", text)
        tell(f"{unit.name}: its commands", ", ".join(lacking))
    if shutil.which("systemd-analyze") is None:
        print("not tried: systemd-analyze is not installed")
        return
    with tempfile.TemporaryDirectory() as folder:
        read = []
        for unit in units:
            # Read as an instance, with the programs where they were installed.
            own = pathlib.Path(folder, unit.name.replace("@", "@one"))
            own.write_text(re.sub(r"(?m)^(Exec\w+=-?)(/usr/bin/)", rf"\1{installed.at}\2", unit.read_text()))
            read.append(own)
        done = subprocess.run(["systemd-analyze", "verify", "--man=no", *read], capture_output=True, text=True)
        said = "\n".join(line for line in done.stderr.splitlines() if "berruzpil" in line)
        tell("systemd-analyze verify", said or (done.stderr.strip() if done.returncode else None))


def check_pages_of_man(installed):
    programs = {name: str(installed.file(f"usr/bin/{name}")) for name in NAMES}
    packed = {name: installed.file(f"usr/share/man/man1/{name}.1.gz").read_bytes() for name in NAMES}
    pages = {name: gzip.decompress(page).decode() for name, page in packed.items()}
    named = re.findall(r"/(usr/share/doc/\S+\.md)", "\n".join(pages.values()))
    tell("the pages that the man pages name are there",
         ", ".join(it for it in named if not installed.file(it).exists()) if named else "none is named")
    check_man_pages.check(pages, programs)


# Completes the last of the words that are given, and prints what bash would offer. $1 is the file, $2 the program.
COMPLETE = '. "$1" && shift && COMP_WORDS=("$@") && COMP_CWORD=$(($# - 1)) && "_$1" && printf "%s\\n" "${COMPREPLY[@]}"'


def check_completions(installed):
    for name in NAMES:
        program = str(installed.file(f"usr/bin/{name}"))
        commands = [word for word, _ in man_pages.commands_of(man_pages.sections(man_pages.help_of(program))[0])]
        # The words on the command line, and what has to be offered behind them.
        wanted = {(command, "--"): set(re.findall(r"(?m)^ +(?:-\w, )?(--[\w-]+)", man_pages.help_of(program, command)))
                  for command in commands}  # fmt: skip
        wanted |= {("help", ""): set(commands), ("help", commands[0], ""): set()} if commands else {}
        for command in commands:
            for option in completions.words_of(program, command).options:
                if option.values:
                    wanted[command, option.names[-1], ""] = set(option.values)
        if name == "intake":
            # As docs/OPERATIONS.md has them, so that what --help lists is not all that is looked for.
            wanted["export", "--format", ""] = {"csv", "jsonl"}
        check_bash(installed, name, commands, wanted)
        check_fish(installed, name, commands, wanted)
        for shell, path in [("zsh", f"usr/share/zsh/vendor-completions/_{name}"),
                            ("fish", f"usr/share/fish/vendor_completions.d/{name}.fish")]:
            text = installed.file(path).read_text()
            tell(f"{path.rpartition('/')[2]} has each command",
                 ", ".join(it for it in commands if not re.search(rf"\b{it}\b", text)))
            if shutil.which(shell) is None:
                print(f"not tried: {shell} is not installed")
                continue
            done = subprocess.run([shell, "-n", installed.file(path)], capture_output=True, text=True)
            tell(f"{shell} reads {path.rpartition('/')[2]}", done.stderr if done.returncode else None)


def check_bash(installed, name, commands, wanted):
    file = installed.file(f"usr/share/bash-completion/completions/{name}")

    def offered(*words):
        return {it for it in lines_of("bash", "-c", COMPLETE, "bash", str(file), name, *words) if it}

    tell(f"bash offers the commands of {name}", ", ".join({*commands, *["help"] * bool(commands)} - offered("")))
    for words, these in wanted.items():
        trials.hold(f"bash offers what comes behind {name} {' '.join(words)}", offered(*words), these)


def check_fish(installed, name, commands, wanted):
    if shutil.which("fish") is None:
        return
    file = installed.file(f"usr/share/fish/vendor_completions.d/{name}.fish")

    def offered(*words):
        script = f'source {file}; complete -C "{" ".join([name, *words])}"'
        return {line.split("\t")[0] for line in lines_of("fish", "--no-config", "-c", script)}

    tell(f"fish offers the commands of {name}", ", ".join({*commands, *["help"] * bool(commands)} - offered("")))
    for words, these in wanted.items():
        trials.hold(f"fish offers what comes behind {name} {' '.join(words)}", offered(*words), these)


def check_pages_of(installed):
    """The pages lead to each other, and to nothing that the package lacks."""
    folder, faults = installed.file("usr/share/doc/berruzpil"), []
    for page in folder.rglob("*.md"):
        for target in re.findall(r"\]\(([^)\s#:]+)(?:#[^)]*)?\)",
                                 check_pages.without_code(page.read_text(encoding="utf-8"))):
            if not (page.parent / target).exists():
                faults.append(f"{page.name}: {target}")
    tell("the pages lead to files that are there", ", ".join(faults))


def files(package):
    check_sums(package.parent)
    check_fields(package)
    check_places(package)
    check_lintian(package)
    with tempfile.TemporaryDirectory() as name:
        installed = Unpacked(pathlib.Path(name), package)
        check_scripts(installed)
        check_units(installed)
        check_pages_of(installed)
        if can_run(installed):
            check_pages_of_man(installed)
            check_completions(installed)
            check_pages.play_walk(installed.file("usr/bin"))


# ---- machines on which it is installed

SUPERVISOR, FILER = "A supervisor's first day", "A filer's first day"
# The most commands that a first day may take.
COMMANDS = 10
INSTALL = "DEBIAN_FRONTEND=noninteractive apt-get install -y ./{}"
SETUP = "berruzpil-setup supervisor intake.example"
HEALTH = "intake-health http://127.0.0.1:8080/filings/health"
DIGEST = "sha256sum /var/lib/berruzpil/register.db /etc/berruzpil/authority/ca.key /etc/nginx/tls/*"
UNITS = "systemctl list-units --plain -q"
PROCESS = "systemctl show --value -p MainPID {}"
# All files but those that dpkg and timers write, with their owners, rights and times.
FILES = ("find /etc /usr /lib/systemd /var/lib/berruzpil /var/log/berruzpil -xdev -not -type d "
         "-not -name '*.pyc' -not -name 'outbox.db*' -not -path '*/copies/*' -printf '%p %M %u %g %s %T@ %l\\n'; "
         "find /etc /var/lib/berruzpil /var/log/berruzpil -type d -printf '%p %M %u %g\\n'")  # fmt: skip


def bring(machine, package):
    """Puts the package where the page has it, and gives its name."""
    shutil.copyfile(package, machine.file(f"/root/berruzpil/{package.name}"))
    return package.name


def install(machine, package, more=""):
    status, printed = machine.paste(f"{INSTALL.format(bring(machine, package))} {more}")
    hold(f"{machine.name}: apt-get installs {package.name}", (status, "" if status == 0 else printed), (0, ""))
    return printed


def files_of(machine):
    return set(machine.paste(FILES)[1].splitlines())


def changes(before, after):
    return sorted(before ^ after)[:9]


def set_up(machine, package):
    install(machine, package)
    status, printed = machine.paste(SETUP)
    hold(f"{machine.name}: {SETUP}", (status, "" if status == 0 else printed), (0, ""))


def no_unit_has_failed(machine):
    hold(f"no unit of {machine.name} has failed", machine.paste("systemctl --failed --plain --no-legend"), (0, ""))


def package_days(page, package, supervisor, filer):
    """Both first days by package, as the page has them, and once more: nothing changes then."""
    theirs, ours = page.steps(SUPERVISOR), page.steps(FILER)
    for name, steps in [("the supervisor", theirs), ("the filer", ours)]:
        count = sum(len(commands) for commands in steps.values())
        hold(f"{name} needs at most {COMMANDS} commands", count <= COMMANDS, True)
    for machine in (supervisor, filer):
        install(machine, package)
        hold(f"{machine.name}: nothing runs yet", machine.paste(f"{UNITS} 'berruzpil*'"), (0, ""))
        hold(f"{machine.name}: nothing is enabled",
             machine.paste("find /etc/systemd/system -name 'berruzpil*'"), (0, ""))
        folders = machine.paste("stat -c '%n %U %a' /var/lib/berruzpil /var/lib/berruzpil/copies")
        hold("its user and its folders", folders,
             (0, "/var/lib/berruzpil berruzpil 750\n/var/lib/berruzpil/copies berruzpil 750\n"))

    def play(machine, steps, number):
        first_days.play(machine, f"step {number} by package", steps[number])

    play(filer, ours, 2)
    shutil.copyfile(filer.file("/etc/berruzpil/filer.csr"), supervisor.file("/root/berruzpil/acme.csr"))
    play(supervisor, theirs, 2)
    play(supervisor, theirs, 3)
    first_days.carry(supervisor, filer, "acme.pem", "intake-ca.pem")
    play(filer, ours, 3)
    play(filer, ours, 4)
    play(supervisor, theirs, 4)
    for path, wanted in [("/var/lib/berruzpil/register.db", "0o600"), ("/etc/berruzpil/authority/ca.key", "0o600"),
                         ("/var/log/berruzpil/filings.log", "0o640"), ("/etc/nginx/tls/server.key", "0o600")]:
        hold(f"who may read {path}", first_days.rights(supervisor, path), wanted)
    hold("nobody else reads the log", supervisor.paste("runuser -u nobody -- cat /var/log/berruzpil/filings.log")[0], 1)
    hold("who may read the filer's key", first_days.rights(filer, "/etc/berruzpil/filer.key"), "0o600")
    hold("the list of certificates", supervisor.paste("nginx-filer --list | cut -d, -f2-4"),
         (0, 'subject,user,file\n"CN=acme-filing,O=ACME",acme\n'))
    for machine in (supervisor, filer):
        no_unit_has_failed(machine)
    for machine, again in [(supervisor, SETUP), (filer, "berruzpil-setup filer ACME intake.example")]:
        before, process = files_of(machine), machine.paste(PROCESS.format("berruzpil-intake"))
        install(machine, package)
        install(machine, package, "--reinstall")
        status, printed = machine.paste(again)
        hold(f"{machine.name}: {again}, once more", (status, re.findall("made|written|started$", printed)), (0, []))
        hold(f"{machine.name}: nothing has changed",
             (changes(before, files_of(machine)), machine.paste(PROCESS.format("berruzpil-intake"))), ([], process))


def package_setup(page, package, supervisor, filer):
    """What an administrator changed stays when berruzpil-setup runs again, and what it did can be undone."""
    set_up(supervisor, package)
    with machines.Shell(supervisor) as shell:
        for command in [
            "sed -i 's/ 20s;/ 25s;/' /etc/nginx/conf.d/nginx-intake.conf",
            "sed -i 's/worker_connections 8192/worker_connections 4000/' /etc/nginx/nginx.conf",
            "systemctl disable --quiet --now berruzpil-metrics.timer",
            "echo LIMIT=7000 >> /etc/default/berruzpil",
            "systemctl restart berruzpil-intake",
        ]:
            shell.paste(command)
    hold("what is set reaches the intake",
         supervisor.until("tr '\\0' ' ' < /proc/$(systemctl show --value -p MainPID berruzpil-intake)/cmdline | "
                          "grep -o -- '--limit 7000'", seconds=20), (0, "--limit 7000\n"))  # fmt: skip
    # It writes to its log once more until it serves.
    supervisor.until(HEALTH, seconds=first_days.patience())
    before = files_of(supervisor)
    status, printed = supervisor.paste(SETUP)
    hold("berruzpil-setup after an administrator", (status, "was disabled, and stays so" in printed), (0, True))
    hold("what was changed stays", changes(before, files_of(supervisor)), [])
    hold("another host is refused", supervisor.paste("berruzpil-setup supervisor other.example")[0], 1)
    hold("and changes nothing", changes(before, files_of(supervisor)), [])
    data = supervisor.paste(DIGEST)
    hold("it is undone", supervisor.paste(f"berruzpil-setup --remove {SETUP.partition(' ')[2]}")[0], 0)
    hold("nothing runs", supervisor.paste(f"{UNITS} --state=active 'berruzpil*'"), (0, ""))
    hold("nothing is enabled",
         supervisor.paste("find /etc/systemd/system -name 'berruzpil*' -not -name '*.d'"), (0, ""))
    hold("nginx runs without it", supervisor.paste("systemctl is-active nginx; ls /etc/nginx/conf.d /etc/nginx/modules-"
                                                   "enabled | grep 'berruzpil.*conf$\\|intake.conf$'"), (1, "active\n"))
    hold("registers and keys stay", supervisor.paste(DIGEST), data)
    hold("it is done again", supervisor.paste(SETUP)[0], 0)
    hold("with what was changed", supervisor.paste("grep -c ' 25s;' /etc/nginx/conf.d/nginx-intake.conf"), (0, "3\n"))
    hold("with the same register and keys", supervisor.paste(DIGEST), data)


# ---- an upgrade

# An intake of an earlier version, for a register of form 4.
EARLIER = """#!/usr/bin/env python3
import http.server, os, sys
words = sys.argv[1:]
if "old.db" not in words or words[0] != "serve":
    os.execv("/usr/lib/berruzpil/intake", ["intake", *words])
class Intake(http.server.BaseHTTPRequestHandler):
    def do_GET(self):
        self.send_response(200)
        self.end_headers()
        self.wfile.write(b'{"filings":[],"is":"earlier"}')
http.server.HTTPServer(("127.0.0.1", int(words[words.index("--port") + 1])), Intake).serve_forever()
"""
OLD = "curl -s http://127.0.0.1:8082/filings/ACME"


def rebuilt(package, folder, change):
    """Another package of what `change` makes of the files of one."""
    tree = folder / "tree"
    subprocess.run(["dpkg-deb", "--raw-extract", str(package), str(tree)], check=True)
    name = change(tree) or package.name
    subprocess.run(["dpkg-deb", "--root-owner-group", "-Znone", "--build", str(tree), str(folder / name)], check=True,
                   stdout=subprocess.DEVNULL)  # fmt: skip
    shutil.rmtree(tree)
    return folder / name


def make_earlier(tree):
    """An earlier version, whose intake serves old.db, and which has a unit with a script that is no more."""
    control, intake = tree / "DEBIAN/control", tree / "usr/bin/intake"
    control.write_text(re.sub(r"(?m)^Version: .*", "Version: 0.0.1", control.read_text()))
    intake.rename(tree / "usr/lib/berruzpil/intake")
    intake.write_text(EARLIER)
    intake.chmod(0o755)
    (tree / "usr/bin/intake-health").rename(tree / "usr/bin/ask-health")
    unit = tree / "lib/systemd/system/berruzpil-health@.service"
    unit.write_text(unit.read_text().replace("/usr/bin/intake-health", "/usr/bin/ask-health"))
    return "berruzpil_0.0.1_amd64.deb"


def package_upgrade(page, package, supervisor, filer):
    """From an earlier version, while a register of this form and one of an earlier form are served."""
    with tempfile.TemporaryDirectory() as name:
        earlier = rebuilt(package, pathlib.Path(name), make_earlier)
        install(supervisor, earlier)
        trials.make_earlier(pathlib.Path(name, "old.db"), 4)
        shutil.copyfile(pathlib.Path(name, "old.db"), supervisor.file("/var/lib/berruzpil/old.db"))
    supervisor.paste("ln -s ask-health /usr/bin/intake-health")
    hold("an earlier version runs", supervisor.paste(SETUP)[0], 0)
    supervisor.paste("rm /usr/bin/intake-health; chown berruzpil: /var/lib/berruzpil/old.db; "
                     "echo PORT=8082 > /etc/berruzpil/old.env; systemctl start berruzpil-intake@old; "
                     "systemctl disable --now --quiet berruzpil-metrics.timer")
    supervisor.until(OLD, seconds=first_days.patience())
    both = ["berruzpil-intake", "berruzpil-intake@old"]
    before = [supervisor.paste(PROCESS.format(unit)) for unit in both]
    said = install(supervisor, package)
    after = [supervisor.paste(PROCESS.format(unit)) for unit in both]
    hold("the intake of this form is restarted, and the other is not",
         [one == other for one, other in zip(before, after)], [False, True])
    wanted = ("berruzpil: berruzpil-intake@old.service was not restarted: /var/lib/berruzpil/old.db has form 4, "
              "and this version takes form 5.\n")  # fmt: skip
    hold("and the package says so", wanted in said, True)
    hold("the register of this form is served", supervisor.until(HEALTH, seconds=first_days.patience())[0], 0)
    hold("the other one, too", supervisor.paste(OLD), (0, '{"filings":[],"is":"earlier"}'))
    hold("a unit whose script has another name now", supervisor.paste("systemctl start berruzpil-health@8080"), (0, ""))
    hold("systemd has read the new units",
         supervisor.paste("systemctl show -p NeedDaemonReload 'berruzpil-*' | sort -u | sed '/^$/d'"),
         (0, "NeedDaemonReload=no\n"))
    hold("what was stopped stays so", supervisor.paste("systemctl is-active berruzpil-metrics.timer"),
         (3, "inactive\n"))
    hold("what ran runs", supervisor.paste("systemctl is-active berruzpil-snapshot@register.timer"), (0, "active\n"))
    no_unit_has_failed(supervisor)
    supervisor.paste("cp -p /var/lib/berruzpil/old.db /root/; systemctl stop berruzpil-intake@old")
    hold("the other one is migrated when it suits", supervisor.paste(
        "cd /var/lib/berruzpil; runuser -u berruzpil -- intake migrate --db old.db"), (0, "migrated\n"))
    supervisor.paste("systemctl start berruzpil-intake@old")
    hold("and served", supervisor.until(OLD, seconds=first_days.patience()), (0, '{"filings":[]}'))


def package_removal(page, package, supervisor, filer):
    """Nothing runs once the package is removed; with it what ran runs again; purged, it leaves data alone."""
    set_up(supervisor, package)
    data = supervisor.paste(DIGEST)
    hold("it is removed", supervisor.paste("apt-get remove -y berruzpil")[0], 0)
    hold("no program of it runs", supervisor.paste("pgrep -x intake"), (1, ""))
    hold("no unit runs", supervisor.paste(f"{UNITS} 'berruzpil*'"), (0, ""))
    no_unit_has_failed(supervisor)
    hold("data stay", supervisor.paste(DIGEST), data)
    hold("what was set stays", supervisor.paste("ls /etc/default/berruzpil /etc/logrotate.d/berruzpil")[0], 0)
    install(supervisor, package)
    hold("with the package it runs again", supervisor.until(HEALTH, seconds=first_days.patience())[0], 0)
    hold("and its timers", supervisor.paste("systemctl is-active berruzpil-health@8080.timer"), (0, "active\n"))
    status, printed = supervisor.paste("apt-get purge -y berruzpil")
    hold("it is purged", (status, "berruzpil: /var/lib/berruzpil is left, with what is in it\n" in printed), (0, True))
    hold("what was set is gone", supervisor.paste("ls /etc/default/berruzpil /etc/logrotate.d/berruzpil")[0], 2)
    hold("no link to a unit is left", supervisor.paste("find /etc/systemd/system -name 'berruzpil*'"), (0, ""))
    hold("data stay then, too", supervisor.paste(DIGEST), data)
    hold("no program of it runs then, either", supervisor.paste("pgrep -x intake"), (1, ""))


PARTS = {it.__name__: it for it in [package_days, package_setup, package_upgrade, package_removal]}


def play_part(base, package, part, repository):
    """Plays a part on machines of its own."""
    programs = [package, package]
    with machines.joined(lambda name: machines.Booted(name, base, repository, programs)) as both:
        PARTS[part](first_days.Page(repository), package, *both)


def sees(base, package, fault):
    """The first check of its part that fails with this fault; nothing if none fails."""

    def plant(tree):
        name = pathlib.Path(fault.file).name
        for file in [tree / make_package.PACKAGE[name]] if name in make_package.PACKAGE else tree.rglob(name):
            fault.plant(file)

    with tempfile.TemporaryDirectory() as name, first_days.repository_with(fault) as repository:
        try:
            play_part(base, rebuilt(package, pathlib.Path(name), plant), fault.part, repository)
        except first_days.Seen as seen:
            return str(seen)
        except (OSError, subprocess.SubprocessError, LookupError, ValueError) as seen:
            return repr(seen)
    return None


def on_machines(package, parts, word):
    """Plays these parts, or with a word the faults that have it in their line, where machines can be booted."""
    try:
        base = machines.base_for_booting(first_days.Page(ROOT).packages())
        for part in parts:
            play_part(base, package, part, ROOT)
        if word is not None:
            first_days.planted.append(True)
            for fault in first_days.faults(word):
                if fault.part in PARTS:
                    seen = sees(base, package, fault)
                    tell(f"{fault.line}: seen by: {seen}", None if seen else "no check fails")
    except machines.NotPossible as fault:
        # Where one machine has booted, each has to.
        if first_days.passed:
            tell("a machine", str(fault))
        else:
            print(f"not tried: {fault}")


def words_of(words):
    parser = argparse.ArgumentParser(prog="check_package.py", description="Tries the Debian package.")
    parser.add_argument("--planted", action="store_true", help="with planted faults, each of which has to be seen")
    parser.add_argument("folder", metavar="FOLDER", type=pathlib.Path, help="what tools/release wrote")
    parser.add_argument("parts", metavar="PART", nargs="*", help=f"files {' '.join(PARTS)}; with --planted a word")
    given = parser.parse_args(words)
    packages = sorted(given.folder.resolve().glob("berruzpil_*.deb"))
    if len(packages) != 1:
        parser.error(f"{given.folder} has {len(packages)} packages in place of one")
    if not given.planted and (wrong := [it for it in given.parts if it not in PARTS and it != "files"]):
        parser.error(f"there is no part {wrong[0]}")
    given.package = packages[0]
    return given


def main(words):
    given = words_of(words)
    chosen = given.parts or ["files", *PARTS]
    is_booted = given.planted or set(chosen) - {"files"}
    if is_booted and (os.geteuid() != 0 or machines.absent(machines.NEEDED)):
        print("not tried on machines: it needs root, ip, unshare, nsenter and setpriv")
        is_booted = False
    elif is_booted and (status := machines.apart()) is not None:
        return status
    if "files" in chosen and not given.planted:
        files(given.package)
    if is_booted:
        on_machines(given.package, [] if given.planted else [it for it in PARTS if it in chosen],
                    " ".join(given.parts) if given.planted else None)  # fmt: skip
    print(f"{len(trials.failures)} failed")
    return 1 if trials.failures else 0


if __name__ == "__main__":
    sys.exit(main(sys.argv[1:]))
