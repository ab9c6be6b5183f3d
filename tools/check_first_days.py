#!/usr/bin/env python3
"""Plays both first days of docs/FIRST_DAYS.md, and what comes after them by docs/OPERATIONS.md, on two machines: the
commands are read out of the pages, and what they print is compared with them.

    tools/check_first_days.py INTAKE OUTBOX [PART ..]
    tools/check_first_days.py --stand-in INTAKE OUTBOX [PART ..]
    tools/check_first_days.py --planted INTAKE OUTBOX [WORD]

INTAKE and OUTBOX are the built programs. A machine is a container of Debian 12 with a systemd of its own, which runs
the units in their sandboxes, with their timers, restarts and alerts; so it needs root and the Debian packages
systemd-container and debootstrap. The first run makes a tree of Debian 12 with the packages that the page names, from
the mirror of this machine, below ~/.cache/berruzpil (300 MB, some minutes). Where that is not possible, or with
--stand-in, the machines have a stand-in for systemd, and the last line says so: no sandbox, no timer and no reboot is
tried then. tools/machines.py says what the machines are made of. Limits of memory are not tried on either.

Each block of commands is pasted into a login shell of its own. Between the two days this carries the request for a
certificate and the certificate, as mail would. After the days come the parts of PARTS below; with a PART only these.

With --planted the faults in tools/planted_faults.txt are planted, one after the other, in what is deployed: each has
to make a check of its part fail, and each part has to pass without a fault. A WORD takes the faults that have it in
their line. It needs a real systemd, and takes three quarters of an hour for 35 faults.

On a machine that has other things to do, the variable BERRUZPIL_PATIENCE says how many times longer anything may take.
The last line says how many trials passed and failed, and under what. Status 1 if one failed, 77 if nothing could be
tried.
"""
import argparse
import contextlib
import json
import os
import pathlib
import re
import shutil
import subprocess
import sys
import tempfile
import textwrap
import time

import machines
import trials
from machines import NotPossible, Shell

ROOT = machines.ROOT
FAULTS = ROOT / "tools" / "planted_faults.txt"
COPY_OF_PAGE = "register-20241231T021500Z.db"
SUPERVISOR, FILER = "A supervisor's first day by hand", "A filer's first day by hand"
passed = []


class Seen(Exception):
    """The first check that failed, while a planted fault is looked for."""


planted = []


def hold(what, found, wanted):
    if found != wanted and planted:
        raise Seen(what)
    if not planted:
        trials.hold(what, found, wanted)
    passed.extend([what] if found == wanted else [])


# ---- the page


def commands_in(text, indent):
    """The commands of blocks that are indented as far as this, and what each prints."""
    return trials.commands_in(line[indent:] for line in re.findall(rf"(?m)^ {{{indent},}}\S.*$", text))


class Page:
    """docs/FIRST_DAYS.md and docs/OPERATIONS.md of a repository, one after the other, and docs/OWN_CLIENT.md."""

    def __init__(self, repository):
        self.text = "\n".join((repository / "docs" / name).read_text(encoding="utf-8")
                              for name in ("FIRST_DAYS.md", "OPERATIONS.md"))
        self.own_client = blocks_of(repository / "docs" / "OWN_CLIENT.md")

    def section(self, title):
        """The text below a heading."""
        return re.search(rf"(?ms)^## {re.escape(title)}\n(.*?)(?=^## |\Z)", self.text)[1]

    def steps(self, title):
        """The steps of a first day: by number the commands, and what each prints."""
        parts = re.split(r"(?m)^(\d+)\. \*\*", self.section(title))
        return {int(number): commands_in(text, 7 if int(number) < 10 else 8)
                for number, text in zip(parts[1::2], parts[2::2])}

    def block(self, title, first):
        """The block of a section whose first line begins so."""
        blocks = re.findall(r"(?m)(?:^ {4}\S.*\n|^ {8}.*\n)+", self.section(title))
        return commands_in(next(it for it in blocks if it.startswith(f"    {first}")), 4)

    def packages(self):
        """The Debian packages that the page installs."""
        words = " ".join(re.findall(r"(?m)^ +apt-get install -y (.*)$", self.text)).split()
        return {name for name in words if "/" not in name}


def without_moments(text):
    """A text in which what differs from run to run is the same: durations and moments."""
    for pattern, written in [
        (r"opened in \d+ ms", "opened in 3 ms"),
        (r"\d{8}T\d{6}Z", "MOMENT"),
        (r"\d{4}-\d\d-\d\dT\d\d:\d\d:\d\d(Z|[+-]\d\d:\d\d)", "MOMENT"),
        (r"filings\.log-\d{4}-\d\d-\d\d", "filings.log-DAY"),
        (r", until \d{4}-\d\d-\d\d", ", until DAY"),
    ]:
        text = re.sub(pattern, written, text)
    return text


# ---- what is done on a machine

# The processes of nginx that answer.
WORKERS = "pgrep -P $(cat /run/nginx.pid)"
HEALTH = "intake-health http://127.0.0.1:8080/filings/health"
LIST = "curl -s http://127.0.0.1:8081/filings/ACME"
# A round that the timer started may have the outbox open.
STATUS = "runuser -u berruzpil -- outbox status --wait 200 --db /var/lib/berruzpil/outbox.db"
METRICS = "/var/lib/prometheus/node-exporter/berruzpil.prom"
JOB = """Job for {0} failed because the control process exited with error code.
See "systemctl status {0}" and "journalctl -xeu {0}" for details.
"""


def play(machine, what, commands, names=(), statuses=()):
    """Pastes a block of commands of the page into a shell of its own, and compares what each prints. `names` are
    changed first; `statuses` are those that are not 0."""
    with Shell(machine) as shell:
        for command, lines in commands:
            if command.startswith("apt-get "):
                continue
            for old, new in names:
                command = command.replace(old, new)
            before = set(shell.paste(WORKERS)[1].split()) if command.endswith("reload nginx") else set()
            if command == "systemctl start berruzpil-outbox":
                until_no_round(machine)
            status, printed = shell.paste(command)
            # A reload returns before the new processes of nginx answer.
            if before:
                machine.until(WORKERS, lambda _, printed: printed and not before & set(printed.split()))
            # nginx and an intake take a moment until they are there, and the page says so of the health check.
            if "intake-health http" in command and status:
                status, printed = machine.until(command, seconds=patience())
            wanted = next((it for start, it in statuses if start in command), 0)
            expected = "".join(f"{line}\n" for line in lines)
            hold(f"{machine.name}, {what}: {textwrap.shorten(command, 90)}",
                 (status, without_moments(printed)), (wanted, without_moments(expected)))


def patience():
    """How many seconds an intake may take until it serves: one that was built without proof takes its time."""
    return 60 if planted else 240


def carry(source, target, *names):
    """Carries files from one machine's copy of the repository to the other's."""
    for name in names:
        shutil.copyfile(source.file(f"/root/berruzpil/{name}"), target.file(f"/root/berruzpil/{name}"))


def rights(machine, path):
    it = machine.file(path)
    return oct(it.stat().st_mode & 0o7777) if it.exists() else "none"


def ask_health(page, machine):
    """The command of the page that asks the intake itself for its health."""
    return next(command for command, _ in page.steps(SUPERVISOR)[7] if f"{HEALTH.split()[0]} http://" in command)


def start_intake(page, supervisor):
    supervisor.paste("systemctl start berruzpil-intake")
    return supervisor.until(ask_health(page, supervisor), seconds=patience())[0]


def until_no_round(filer, unit="berruzpil-outbox.service"):
    """Waits for the end of a round that the timer started, and which a start would only wait for."""
    filer.until(f"systemctl is-active {unit}", lambda _, printed: "activating" not in printed, seconds=patience())


def round_of(filer, unit="berruzpil-outbox.service"):
    """A round from now on."""
    until_no_round(filer, unit)
    return filer.paste(f"systemctl start {unit}")


def put(page, filer, key):
    """Puts the report of the first day into the outbox once more, under this key, and gives its entry. While a round
    that the timer started has the outbox open, the command is pasted again."""
    command = next(it for it, _ in page.steps(FILER)[5] if "outbox put" in it)
    status, printed = filer.until(command.replace("2024-annual-1", key), seconds=patience())
    hold(f"a report is put in under the key {key}", (status, re.sub(r"\d+", "N", printed)), (0, "entry N\n"))
    return printed.strip()


def states(filer):
    """The state of each entry."""
    found = re.findall(r"(?m)^(entry \d+) (.*)$", filer.paste(STATUS)[1])
    return dict(found)


def filed(page, filer, key):
    """The state of a report that was put in and sent."""
    entry = put(page, filer, key)
    round_of(filer)
    return re.sub(r"\d+", "N", states(filer).get(entry, "none"))


def alert_comes(machine, unit, before):
    """Whether a unit has more alerts than before, within a minute, and each says what to look at."""
    deadline = time.monotonic() + 60 * machines.PATIENCE
    while len(found := machine.alerts(unit)) <= before and time.monotonic() < deadline:
        time.sleep(0.3)
    return set(found[before:]) == {f"{unit} failed: see journalctl -u {unit}"}


def copies(supervisor, register="register"):
    return sorted(it.name for it in supervisor.file("/var/lib/berruzpil/copies").glob(f"{register}-*.db"))


def last_line_of_log(supervisor):
    return json.loads(supervisor.file("/var/log/berruzpil/filings.log").read_text().splitlines()[-1])


# ---- the two days


def days(page, supervisor, filer):
    theirs, ours = page.steps(SUPERVISOR), page.steps(FILER)
    hold("the steps of the page", (sorted(theirs), sorted(ours)), (list(range(1, 14)), list(range(1, 7))))
    for number in (1, 2):
        play(filer, f"step {number}", ours[number])
    carry(filer, supervisor, "acme.csr")
    for number in range(1, 9):
        play(supervisor, f"step {number}", theirs[number])
    carry(supervisor, filer, "acme.pem", "intake-ca.pem")
    for number in (3, 4, 5):
        play(filer, f"step {number}", ours[number])
    for number in range(9, 14):
        play(supervisor, f"step {number}", theirs[number])
    hold("the intake serves after its upgrade", start_intake(page, supervisor), 0)
    for path, wanted in [("/var/lib/berruzpil/register.db", "0o600"), ("/var/lib/berruzpil", "0o750"),
                         ("/etc/berruzpil/authority/ca.key", "0o600"), ("/var/lib/berruzpil/reading.db", "0o600"),
                         ("/var/log/berruzpil/filings.log", "0o640"), ("/var/log/berruzpil", "0o751"),
                         (f"/var/lib/berruzpil/copies/{copies(supervisor)[0]}", "0o600"),
                         (METRICS, "0o644")]:  # fmt: skip
        hold(f"who may read {re.sub('[0-9]{8}T[0-9]{6}Z', 'MOMENT', path)}", rights(supervisor, path), wanted)
    for path in ("/etc/berruzpil/filer.key", "/var/lib/berruzpil/outbox.db.lock"):
        hold(f"who may read the filer's {path}", rights(filer, path), "0o600")
    status, printed = supervisor.paste("cat /var/log/berruzpil/filings.log-*")
    lines = [json.loads(line) for line in printed.splitlines()]
    found = [(line["user"], line["method"], line["status"]) for line in lines]
    # The health check leaves no line.
    hold("the lines of the log", (status, found),
         (0, [("acme", "GET", 200), ("acme", "POST", 201), ("acme", "GET", 200)]))
    filer.paste(LIST)
    supervisor.until("grep -c . /var/log/berruzpil/filings.log", lambda _, printed: printed == "1\n", seconds=10)
    hold("the log goes on after it was rotated",
         supervisor.file("/var/log/berruzpil/filings.log").read_text().count("\n"), 1)
    if supervisor.is_booted:
        for machine in (supervisor, filer):
            hold(f"no unit of {machine.name} has failed", machine.paste("systemctl --failed --plain --no-legend"),
                 (0, ""))


def units(page, supervisor, filer):
    """systemd reads each unit, those for instances with a name."""
    if not supervisor.is_booted and shutil.which("systemd-analyze") is None:
        print("not tried: systemd-analyze is not installed")
        return
    with Shell(supervisor) as shell:
        shell.paste("install -m 0755 deploy/outbox-round deploy/nginx-follow deploy/mirror-health /usr/local/bin/; "
                    "mkdir -p /run/verify")
        shell.paste("for it in deploy/berruzpil-*.service deploy/berruzpil-*.timer; "
                    "do cp $it /run/verify/$(basename $it | sed s/@/@1/); done")
        status, printed = shell.paste("ls /run/verify | wc -l; systemd-analyze verify --man=no /run/verify/*")
    count = len([*(ROOT / "deploy").glob("berruzpil-*.service"), *(ROOT / "deploy").glob("berruzpil-*.timer")])
    hold("systemd-analyze verify", (status, printed), (0, f"{count}\n"))


# ---- the clock of the timers

# How many seconds after a start of the machine, or after the last run, a timer starts its unit at the latest.
TIMERS = [("filer", "berruzpil-outbox", 75), ("supervisor", "berruzpil-health@8080", 300),
          ("supervisor", "berruzpil-metrics", 120)]  # fmt: skip
STARTED = "systemctl show --value -p ExecMainStartTimestampMonotonic {}.service"


def timers(page, supervisor, filer):
    """Each timer has a next time, and those of a minute start their unit by themselves."""
    if not supervisor.is_booted:
        print("not tried: a stand-in has no timers")
        return
    named = {"supervisor": supervisor, "filer": filer}
    for name, unit, within in TIMERS:
        wait = next_run(named[name], unit)
        hold(f"{unit}.timer comes within {within} s", "in time" if 0 <= wait <= within else wait, "in time")
    hold("the timer of copies comes within 75 minutes",
         0 <= next_run(supervisor, "berruzpil-snapshot@register") <= 4500, True)
    entry = put(page, filer, "timer-1")
    supervisor.paste("systemctl start berruzpil-health@8080 berruzpil-metrics")
    starts = {unit: {named[name].paste(STARTED.format(unit))[1]} for name, unit, _ in TIMERS}
    # The first round may come since the machine has started.
    for name, unit, _ in [*TIMERS, TIMERS[0]]:
        found = named[name].until(STARTED.format(unit), lambda _, printed: printed not in starts[unit], seconds=100)[1]
        hold(f"{unit}.timer starts its unit by itself", found not in starts[unit], True)
        starts[unit].add(found)
    hold("so a report is filed that nobody sent by hand", states(filer).get(entry, "none").split()[0], "confirmed")


def next_run(machine, unit):
    """In how many seconds a timer starts its unit the next time; -1 if never. While the unit runs there is none yet."""
    command = f"systemctl list-timers --all --output=json {unit}.timer"
    _, printed = machine.until(command, lambda _, printed: any(it["next"] for it in json.loads(printed or "[]")),
                               seconds=patience())  # fmt: skip
    moments = [it["next"] for it in json.loads(printed or "[]") if it["next"]]
    return max(0, moments[0] / 1e6 - time.time()) if moments else -1


# ---- slow clients, and such as go away

TLS = ("openssl s_client -quiet -connect intake.example:443 -servername intake.example -CAfile "
       "/etc/berruzpil/intake-ca.pem -cert /etc/berruzpil/filer.pem -key /etc/berruzpil/filer.key")  # fmt: skip
CURL = ("curl -s -m 15 --cacert /etc/berruzpil/intake-ca.pem --cert /root/beta.pem --key /root/beta.key "
        "https://intake.example/filings/BETA")  # fmt: skip
HEAD = ("POST /filings/ACME HTTP/1.1\\r\\nHost: intake.example\\r\\nIdempotency-Key: \"{}\"\\r\\n"
        "Content-Length: {}\\r\\n\\r\\n")  # fmt: skip
# A second filer waits no longer than this beside slow clients, in seconds, if it waited so much less alone.
LONGER = 5
# How many connections the intake serves at once then, and how many slow clients there are.
PLACES = 24


def second_filer(supervisor, filer):
    """Another filer, BETA, with a certificate of its own."""
    supervisor.paste(
        "openssl req -x509 -newkey ec -pkeyopt ec_paramgen_curve:P-256 -nodes -days 9 -subj /O=BETA/CN=beta "
        "-CA /etc/nginx/tls/filers-ca.pem -CAkey /etc/berruzpil/authority/ca.key "
        "-addext basicConstraints=critical,CA:FALSE -keyout beta.key -out beta.pem; "
        "nginx-filer /etc/nginx/conf.d/nginx-intake.conf beta.pem beta BETA; "
        "nginx -t -q && systemctl reload nginx"
    )
    for name in ("beta.key", "beta.pem"):
        shutil.copyfile(supervisor.file(f"/root/berruzpil/{name}"), filer.file(f"/root/{name}"))
    return filer.until(CURL, lambda _, printed: "filings" in printed)[1]


def times_of(filer, keys):
    """How long each of these requests of the second filer takes, and the statuses of the replies."""
    found = [filer.paste(f"{CURL} -H 'Idempotency-Key: \"{key}\"' --data-binary '{{}}' -o /dev/null "
                         "-w '%{time_total} %{http_code}'")[1].split() for key in keys]  # fmt: skip
    return max(float(seconds) for seconds, _ in found), {status for _, status in found}


def have_places(page, supervisor, before, after):
    """Has the intake serve so many connections at once in place of so many before."""
    supervisor.paste(f"sed -i 's/AT_ONCE={before}/AT_ONCE={after}/' /etc/systemd/system/berruzpil-intake.service; "
                     "systemctl daemon-reload; systemctl restart berruzpil-intake")
    hold(f"an intake that serves {after} at once",
         supervisor.until(ask_health(page, supervisor), seconds=patience())[0], 0)


def slow(page, supervisor, filer):
    """Clients that send a byte a second of a large report, and such as don't read a large reply, as many as the intake
    serves at once: nginx lets none of them take a connection of the intake, so a second filer waits no longer than
    alone."""
    have_places(page, supervisor, 256, PLACES)
    hold("a second filer", second_filer(supervisor, filer), '{"filings":[]}')
    alone, statuses = times_of(filer, ["alone-1", "alone-2", "alone-3"])
    hold("it gets its answers", statuses, {"422"})
    # A report with so many findings, in so long a place, that the reply has 5 MB.
    facts = {"\1" * 900: {"value": "7", "dimensions": {f"d{at}": 5 for at in range(900)}}}
    body = json.dumps({**json.loads(trials.REPORT), "facts": facts})
    filer.write("/run/large", HEAD.format("large", len(body)).encode().decode("unicode_escape") + body)
    clients = [
        ("a byte a second", f"{{ printf '{HEAD.format('slow-{}', 1_000_000)}'; "
                            f"while :; do printf ' '; sleep 1; done; }} | {TLS} >/dev/null"),
        ("a reply that isn't read", f"{{ cat /run/large; sleep 600; }} | {TLS} | sleep 600"),
    ]  # fmt: skip
    # Judged once, it is a repeat for all the others. nginx waits for the intake for two minutes.
    printed = filer.paste(f"{{ cat /run/large; sleep 1; }} | timeout 150 {TLS} 2>/dev/null | head -c 12")[1]
    hold("a large reply", printed, "HTTP/1.1 422")
    for what, command in clients:
        begun = [filer.begin(command.replace("{}", str(at))) for at in range(PLACES)]
        try:
            time.sleep(5)
            # Once the intake has made their replies it is free. One that was built without proof takes its time.
            hold(f"the intake is free beside {what}",
                 supervisor.until(ask_health(page, supervisor), seconds=patience())[0], 0)
            beside, statuses = times_of(filer, [f"{what[:8]}-{at}" for at in range(2)])
        finally:
            filer.paste("pkill openssl; pkill -f 'sleep 600'")
            for it in begun:
                it.kill()
                it.wait()
        print(f"alone the second filer waits {alone:.2f} s, beside {what} {beside:.2f} s")
        hold(f"a second filer beside {what}", (beside < alone + LONGER, statuses), (True, {"422"}))
    have_places(page, supervisor, PLACES, 256)


def abort(page, supervisor, filer):
    """A client that goes away before the reply comes: the log has what the intake answered."""
    supervisor.paste("systemctl kill --signal=STOP berruzpil-intake")
    body = trials.REPORT.decode()
    filer.write("/run/report", HEAD.format("gone", len(body)).encode().decode("unicode_escape") + body)
    filer.paste(f"{{ cat /run/report; sleep 3; }} | timeout 2 {TLS}")
    time.sleep(1)
    supervisor.paste("systemctl kill --signal=CONT berruzpil-intake")
    log = "/var/log/berruzpil/filings.log"
    supervisor.until(f"grep gone {log}", seconds=30)
    line = last_line_of_log(supervisor)
    hold("the line of a client that went away", (line["key"], line["intake_status"]), ('"gone"', "201"))


# ---- certificates


def renew(page, supervisor, filer, name):
    """Gives the filer a certificate of another subject, by the commands of the page."""
    ours = page.steps(FILER)
    play(filer, "another certificate", [ours[2][0]], [("CN=acme-filing", f"CN={name}")])
    carry(filer, supervisor, "acme.csr")
    supervisor.paste("openssl req -x509 -in acme.csr -days 9 -CA /etc/nginx/tls/filers-ca.pem -CAkey "
                     "/etc/berruzpil/authority/ca.key -addext basicConstraints=critical,CA:FALSE -out acme.pem")
    carry(supervisor, filer, "acme.pem")
    play(filer, "another certificate",
         [it for it in ours[3] if "acme.pem" in it[0] or it[0] == "systemctl restart nginx"])


def certificates(page, supervisor, filer):
    """A certificate that has no line, and one of another authority: the filer sees a 403, and what the page says of it
    helps."""
    unit = "berruzpil-outbox.service"
    before = len(filer.alerts(unit))
    filer.paste("cp -p /etc/berruzpil/filer.* /root/")
    renew(page, supervisor, filer, "acme-filing-2")
    entry = put(page, filer, "certificate-1")
    hold("a round with a certificate that may not file", round_of(filer), (1, JOB.format(unit)))
    failed, journal, subject = (filer.paste(command) for command, _ in page.steps(FILER)[6])
    hold("the unit has failed", failed, (0, "failed\n"))
    said = f"outbox: {entry}: answered 403 Forbidden: not-yours\n"
    open_still = "outbox-round: entries that are open still: 1\n" in journal[1]
    hold("the filer sees why", (journal[0], said in journal[1], open_still), (0, True, True))
    hold("and whose certificate it is", (subject[0], subject[1].splitlines()[0]),
         (0, "subject=CN=acme-filing-2,O=ACME"))
    hold("no alert of one failed round", len(filer.alerts(unit)), before)
    filer.pass_half_an_hour()
    hold("an alert if rounds fail after half an hour", alert_comes(filer, unit, before), True)
    line = last_line_of_log(supervisor)
    hold("the supervisor's log says so", (line["user"], line["status"], line["key"]), ("", 403, '"certificate-1"'))
    round_of(filer)
    added = [it for it in page.steps(SUPERVISOR)[8] if "nginx-filer" in it[0] or "reload nginx" in it[0]]
    added[0][1][:] = [line.replace("acme-filing", "acme-filing-2") for line in added[0][1]]
    play(supervisor, "another certificate", added)
    filer.until(LIST, lambda _, printed: "filings" in printed)
    hold("the round after that", round_of(filer), (0, ""))
    hold("the entry is confirmed", states(filer)[entry].split()[0], "confirmed")
    alerts = len(filer.alerts(unit))
    filer.pass_half_an_hour()
    hold("no alert, since the rounds go well again", len(filer.alerts(unit)), alerts)
    other = "openssl req -x509 -newkey ec -pkeyopt ec_paramgen_curve:P-256 -nodes -days 9 -subj /O=ACME/CN=acme-filing"
    filer.paste(f"{other} -keyout /etc/berruzpil/filer.key -out /etc/berruzpil/filer.pem; systemctl restart nginx")
    entry = put(page, filer, "certificate-2")
    hold("a round with a certificate of another authority", round_of(filer)[0], 1)
    said = f"outbox: {entry}: answered 403 Forbidden: no-certificate\n"
    hold("the filer sees that, too", said in filer.paste(page.steps(FILER)[6][1][0])[1], True)
    # As many rounds at once are more than systemd starts.
    filer.paste(f"cp -p /root/filer.* /etc/berruzpil/; systemctl restart nginx; systemctl reset-failed {unit}")
    hold("the round with the right one", round_of(filer), (0, ""))


# ---- copies


def restore(page, supervisor, filer):
    """The copy of the first day is restored, by the commands of the page: the filings after it are lost, and named. The
    filer files them again."""
    commands = page.block("How do I restore a copy?", "register-restore")
    hold("a second report", filed(page, filer, "2024-annual-2"), "confirmed N")
    play(supervisor, "a restore", commands, [(COPY_OF_PAGE, copies(supervisor)[0])], [("lost-filings", 1)])
    hold("the restored register serves", supervisor.until(ask_health(page, supervisor), seconds=patience())[0], 0)
    hold("with what the copy has", supervisor.paste("curl -s http://127.0.0.1:8080/filings/ACME"),
         (0, '{"filings":[{"facts":1,"number":1}]}'))
    hold("what was there is kept",
         supervisor.paste("runuser -u berruzpil -- sh -c 'intake check --db /var/lib/berruzpil/away-*/register.db'"),
         (0, "sound: 2 kept, 2 filings\n"))
    file_again(page, filer)


def file_again(page, filer):
    """The filer files again what the restore lost, by the commands of the page."""
    commands = page.block("How do I file again what a register lost?", "cd ")
    entries = filer.paste(STATUS.replace("status", "show"))[1]
    entry = re.search(r"(?m)^entry (\d+) confirmed (\d+), .* key 2024-annual-2$", entries)
    hold("the entry that was lost", bool(entry), True)
    if not entry:
        return
    number = len(json.loads(filer.paste(LIST)[1])["filings"]) + 1
    with Shell(filer) as shell:
        for command, lines in commands:
            wanted = "".join(f"{line}\n" for line in lines).replace("entry 2", f"entry {entry[1]}")
            wanted = wanted.replace(f"entry {entry[1]} confirmed 2", f"entry {entry[1]} confirmed {entry[2]}")
            wanted = wanted.replace("entry 1 confirmed 2", f"entry 1 confirmed {number}")
            command = re.sub(r"(--entry|again\.db) 2$", rf"\g<1> {entry[1]}", command)
            hold(f"filed again: {command}", shell.paste(command), (0, wanted))
    hold("it is filed once more", len(json.loads(filer.paste(LIST)[1])["filings"]), number)


def disk(page, supervisor, filer):
    """The disk of the register is gone while it is served, and an empty one is in its place: a damaged copy is refused,
    and the commands of the page restore a sound one, which is on another disk."""
    home, copy = "/var/lib/berruzpil", copies(supervisor)[0]
    with Shell(supervisor) as shell:
        shell.paste(f"systemctl stop berruzpil-intake; cp -a {home}/copies /srv/copies; cp -a {home} /srv/home; "
                    f"mount -t tmpfs tmpfs {home}; cp -a /srv/home/. {home}/")
        hold("a register on a disk of its own", start_intake(page, supervisor), 0)
        hold("a report for it", filed(page, filer, "disk-1"), "confirmed N")
        shell.paste(f"umount -l {home}; mount -t tmpfs -o mode=755 tmpfs {home}; "
                    f"sed s/a/b/ /srv/copies/{copy} > /srv/damaged.db; chmod 644 /srv/damaged.db")
        hold("nothing is there", shell.paste(f"ls -A {home}; stat -c %U {home}"), (0, "root\n"))
        restored, lost = page.block("How do I restore a copy?", "register-restore")
        names = [(f"{home}/copies/{COPY_OF_PAGE}", f"/srv/copies/{copy}")]
        status, printed = shell.paste(restored[0].replace(names[0][0], "/srv/damaged.db"))
        hold("a damaged copy", (status, "nothing was changed: name another copy\n" in printed,
                                shell.paste(f"ls -A {home}")), (1, True, (0, "")))
        said = [re.sub(r"what was there is in \S+;", "no file was there;", line) for line in restored[1]]
        play(supervisor, "a restore on a new disk", [[restored[0], said]], names)
        hold("the restored register serves", supervisor.until(ask_health(page, supervisor), seconds=patience())[0], 0)
        hold("with what the copy has", shell.paste("curl -s http://127.0.0.1:8080/filings/ACME"),
             (0, '{"filings":[{"facts":1,"number":1}]}'))
        hold("its files belong to the intake's user", shell.paste(f"stat -c '%U %a %n' {home} {home}/register.db"),
             (0, f"berruzpil 750 {home}\nberruzpil 600 {home}/register.db\n"))
        status, printed = shell.paste(lost[0].replace(*names[0]))
        hold("what was lost is named", (status, 'ACME "disk-1" ' in printed), (1, True))
        hold("a report for the restored register", filed(page, filer, "disk-2"), "confirmed N")
        shell.paste(f"systemctl stop berruzpil-intake; cp -a {home}/register.db /srv/; umount {home}; "
                    f"rm {home}/register.db*; mv /srv/register.db {home}/; rm -r /srv/home /srv/copies /srv/damaged.db")
    start_intake(page, supervisor)


# In the place of `date`, of a machine whose clock is years ahead. A container has the clock of its host.
WRONG_DATE = """#!/bin/sh
when=now
for it; do [ "$last" != -d ] || when=$it; last=$it; done
exec /bin/date -u -d "$when 4000 days" "$last"
"""


def clock(page, supervisor, filer):
    """The hourly copy by a clock that is years ahead: no other copy goes, and once the clock is right, its copy is not
    the last one, and is reported."""
    unit, folder = "berruzpil-snapshot@register", "/var/lib/berruzpil/copies"
    for days_ago in range(1, 61):
        name = time.strftime("register-%Y%m%dT%H%M%SZ.db", time.gmtime(time.time() - 86400 * days_ago))
        supervisor.write(f"{folder}/{name}", "")
    before = copies(supervisor)
    supervisor.write("/usr/local/sbin/date", WRONG_DATE, 0o755)
    hold("a copy by a clock that is years ahead", supervisor.paste(f"systemctl start {unit}"), (0, ""))
    supervisor.paste("rm /usr/local/sbin/date")
    hold("no other copy goes", sorted(set(before) - set(copies(supervisor))), [])
    # The clock of the next copy is right. Its name has whole seconds.
    time.sleep(1)
    (ahead,) = set(copies(supervisor)) - set(before)
    hold("a copy by the right clock", supervisor.paste(f"systemctl start {unit}"), (0, ""))
    said = f"register-copies: {folder}: 1 copies are of a later time than now: "
    hold("the other one is reported", said in supervisor.paste(f"journalctl -u {unit} -n 20 -o cat")[1], True)
    supervisor.paste("systemctl start berruzpil-metrics")
    found = dict(line.rsplit(" ", 1) for line in supervisor.file(METRICS).read_text().splitlines())
    begun, later = (int(found.get(f'berruzpil_copy_{name}_seconds{{register="register"}}', -1))
                    for name in ("timestamp", "ahead"))
    hold("the last copy is of now", abs(time.time() - begun) < 300, True)
    hold("how far the other one is ahead", 3999 * 86400 < later <= 4000 * 86400, True)
    hold("48 copies stay, and that one", len(copies(supervisor)), 49)
    supervisor.paste(f"cd {folder}; rm {ahead.removesuffix('.db')}.*; find . -name 'register-*.db' -empty -delete")


def hang(page, supervisor, filer):
    """An intake that hangs: while a round waits for it, a report is put in by the command of the page."""
    put(page, filer, "hang-1")
    filer.until("systemctl is-active berruzpil-outbox.service", lambda _, printed: "activating" not in printed)
    supervisor.paste("systemctl kill --signal=STOP berruzpil-intake")
    a_round = filer.begin("systemctl start berruzpil-outbox")
    try:
        busy = filer.until("runuser -u berruzpil -- outbox status --db /var/lib/berruzpil/outbox.db",
                           lambda status, _: status == 3, seconds=patience())
        hold("a round waits for the intake", busy[0], 3)
        command = next(it for it, _ in page.steps(FILER)[5] if "outbox put" in it)
        status, printed = filer.paste(command.replace("2024-annual-1", "hang-2"))
        hold("a report is put in beside it", (status, re.sub(r"\d+", "N", printed)), (0, "entry N\n"))
    finally:
        supervisor.paste("systemctl kill --signal=CONT berruzpil-intake")
        a_round.wait(timeout=300)
    supervisor.until(ask_health(page, supervisor), seconds=patience())
    round_of(filer)
    hold("and filed once the intake goes on", set(states(filer).values()) & {"open", ""}, set())


def damaged(page, supervisor, filer):
    """A copy of a damaged register is none: no file of it is left, and the unit fails and alerts."""
    unit = "berruzpil-snapshot@register.service"
    before, alerts = copies(supervisor), len(supervisor.alerts(unit))
    with Shell(supervisor) as shell:
        shell.paste("systemctl stop berruzpil-intake; cd /var/lib/berruzpil; mkdir present; cp -p register.db* present")
        # The last page, in the middle.
        shell.paste("size=$(stat -c %s register.db); "
                    "printf damaged | dd of=register.db bs=1 seek=$((size - 2000)) conv=notrunc status=none")
        status, printed = shell.paste("runuser -u berruzpil -- register-snapshot register.db copies/damaged.db")
        hold("a copy of a damaged register by hand",
             (status, "damaged" in printed, supervisor.file("/var/lib/berruzpil/copies/damaged.db").exists()),
             (1, True, False))
        hold("and by its unit", shell.paste(f"systemctl start {unit}"), (1, JOB.format(unit)))
        hold("there is an alert", alert_comes(supervisor, unit, alerts), True)
        hold("no copy is there that was not there before", copies(supervisor), before)
        shell.paste("mv present/* .; rmdir present; systemctl reset-failed")
    start_intake(page, supervisor)


def metrics(page, supervisor, filer):
    """The numbers come from the unit in its sandbox, beside copies, and nothing is written beside a copy."""
    hold("a copy", supervisor.paste("systemctl start berruzpil-snapshot@register"), (0, ""))
    beside = "ls -A /var/lib/berruzpil/copies"
    before = supervisor.paste(beside)[1]
    supervisor.paste(f"rm {METRICS}")
    hold("the unit of the numbers", supervisor.paste("systemctl start berruzpil-metrics"), (0, ""))
    hold("the numbers of the copy", 'berruzpil_copy_filings{register="register"} ' in
         supervisor.file(METRICS).read_text(), True)
    hold("nothing is written beside the copies", supervisor.paste(beside)[1], before)
    found = dict(line.rsplit(" ", 1) for line in supervisor.file(METRICS).read_text().splitlines())
    for name in ('intake_start_timestamp_seconds{register="register"}', 'intake_memory_peak_bytes{register="register"}',
                 'certificate_expiry_timestamp_seconds{file="/etc/nginx/tls/server.pem"}',
                 'certificate_expiry_timestamp_seconds{file="/etc/berruzpil/health.pem"}'):  # fmt: skip
        hold(f"berruzpil_{name} is a number", float(found.get(f"berruzpil_{name}", 0)) > 0, True)
    with Shell(supervisor) as shell:
        shell.paste("cd /var/lib/berruzpil; mkdir /root/copies; mv copies/* /root/copies; "
                    "systemctl start berruzpil-metrics")
        found = dict(line.rsplit(" ", 1) for line in supervisor.file(METRICS).read_text().splitlines())
        hold("a register that was never copied has a number that alerts",
             found.get('berruzpil_copy_timestamp_seconds{register="register"}'), "0")
        shell.paste("mv /root/copies/* copies/; rmdir /root/copies")


def readers(page, supervisor, filer):
    """A member of a group reads a copy in a folder that it may not write to, and nothing is written there."""
    copy = "/srv/copies/today.db"
    supervisor.paste("groupadd analysts; useradd --groups analysts analyst; useradd stranger")
    commands = page.block("How do I read a copy?", "install -d")
    made = next(at for at, (command, _) in enumerate(commands) if "--for-reading" in command)
    play(supervisor, "a copy for reading", commands[:made])
    hold("a copy for reading", supervisor.paste(commands[made][0])[0], 0)
    written = re.search(rf"`(sqlite3 -readonly [^`]*{copy})`", page.text)
    hold("what the page says of a reader", bool(written), True)
    asked = f"{' '.join(written[1].split())} -batch 'SELECT count(*) > 0, min(filer) FROM filings'"
    before = supervisor.paste("ls -AlR /srv/copies")
    hold("a member of the group reads it", supervisor.paste(f"runuser -u analyst -- {asked}"), (0, "1|ACME\n"))
    hold("nobody else does", supervisor.paste(f"runuser -u stranger -- {asked}")[0] != 0, True)
    hold("and may not write beside it", supervisor.paste("runuser -u analyst -- touch /srv/copies/new")[0], 1)
    hold("nothing is written beside it", supervisor.paste("ls -AlR /srv/copies"), before)
    supervisor.paste("rm -r /srv/copies; userdel analyst; userdel stranger; groupdel analysts")


def officers(page, supervisor, filer):
    """Pages for officers, by the commands of the page: an officer reads them and files for nobody, and a filer does not
    read them. They are those of the last copy that can be restored, as a whole."""
    hold("a copy", supervisor.paste("systemctl start berruzpil-snapshot@register"), (0, ""))
    play(supervisor, "pages for officers", page.block("How do I publish pages of a register?", "openssl req"))
    for name in ("officer.key", "officer.pem"):
        shutil.copyfile(supervisor.file(f"/root/berruzpil/{name}"), filer.file(f"/root/{name}"))
    ask = "curl -s -m 60 --cacert /etc/berruzpil/intake-ca.pem --cert {0}.pem --key {0}.key -w ' %{{http_code}}' {1}"
    front, officer, own = "https://intake.example", "/root/officer", "/etc/berruzpil/filer"

    def pages_of(who):
        return filer.paste(ask.format(who, f"{front}/pages/"))[1]

    first, number = pages_of(officer), len(json.loads(filer.paste(LIST)[1])["filings"])
    hold("an officer reads the pages", (first.endswith(" 200"), ">ACME<" in first), (True, True))
    hold("a filer doesn't", pages_of(own), f"{NOT_YOURS} 403")
    send = f"-H 'Idempotency-Key: \"officer-1\"' --data-binary @/var/lib/berruzpil/report.json {front}/filings/ACME"
    hold("an officer files for nobody", filer.paste(ask.format(officer, send)), (0, f"{NOT_YOURS} 403"))
    hold("nothing is filed", len(json.loads(filer.paste(LIST)[1])["filings"]), number)
    for user, right in [("officer", "ACME"), ("acme", "/pages")]:
        hold(f"nobody does both: {user} {right}",
             supervisor.paste(f"nginx-filer {FRONT} {user}.pem {user} {right}")[0], 1)
    hold("nobody else on the machine reads them",
         supervisor.paste("runuser -u nobody -- cat /srv/pages/register/index.html")[0], 1)
    hold("a report comes", filed(page, filer, "pages-1"), "confirmed N")
    # The name of a copy has whole seconds.
    time.sleep(1)
    renewed = "systemctl start berruzpil-snapshot@register && systemctl start berruzpil-pages@register"
    hold("the pages after the next copy", supervisor.paste(renewed), (0, ""))
    second = pages_of(officer)
    hold("have it", (second.endswith(" 200"), second != first), (True, True))
    hold("those before are gone", without_moments(supervisor.paste("ls /srv/pages")[1]), "register\nregister-MOMENT\n")
    supervisor.paste("sed -i 's/ 0 / 1 /' /var/lib/berruzpil/copies/register.tried")
    unit = "berruzpil-pages@register.service"
    hold("a copy that can't be restored gets no pages",
         supervisor.paste(f"systemctl start {unit}"), (1, JOB.format(unit)))
    hold("those before stay", pages_of(officer), second)
    supervisor.paste(f"systemctl disable --quiet --now berruzpil-pages@register.timer; systemctl reset-failed {unit}; "
                     f"nginx-filer --remove {FRONT} officer; systemctl reload nginx; rm -r /srv/pages; "
                     "sed -i 's/ 1 / 0 /' /var/lib/berruzpil/copies/register.tried")


# ---- versions


def upgrade(page, supervisor, filer):
    """A register of an earlier version is none for `serve`, which alerts; the commands of the page upgrade it, and it
    answers as it did."""
    unit = "berruzpil-intake.service"
    before = len(supervisor.alerts(unit))
    database = supervisor.file("/var/lib/berruzpil/register.db")
    supervisor.paste("systemctl stop berruzpil-intake; cd /var/lib/berruzpil; "
                     "mkdir present; mv register.db register.db-wal present/")
    with tempfile.TemporaryDirectory() as folder:
        trials.make_earlier(pathlib.Path(folder, "old.db"))
        shutil.copyfile(pathlib.Path(folder, "old.db"), database)
    supervisor.paste("cd /var/lib/berruzpil; chown berruzpil: register.db; systemctl start berruzpil-intake")
    hold("an earlier register doesn't start", supervisor.until(f"systemctl is-failed {unit}"), (0, "failed\n"))
    hold("and there is an alert", alert_comes(supervisor, unit, before), True)
    play(supervisor, "an upgrade", page.block("How do I upgrade a register of an earlier version?", "systemctl stop"))
    start_intake(page, supervisor)
    asked = "curl -s -X POST http://127.0.0.1:8080/filings/ACME -H 'Idempotency-Key: \"k-1\"' -H 'Content-Length: 0'"
    hold("what was kept is answered as it was", supervisor.paste(asked),
         (0, '{"findings":[{"code":"not-json","place":""}],"status":"refused"}'))
    supervisor.paste("systemctl stop berruzpil-intake; cd /var/lib/berruzpil; rm register.db*; mv present/* .; "
                     "rmdir present")
    start_intake(page, supervisor)


def outbox_upgrade(page, supervisor, filer):
    """An outbox of an earlier version: the round says so, and the commands of the page upgrade it."""
    filer.paste("systemctl stop berruzpil-outbox.timer berruzpil-outbox; cd /var/lib/berruzpil; mkdir present; "
                "mv outbox.db* present/")
    with tempfile.TemporaryDirectory() as folder:
        trials.make_earlier_outbox(pathlib.Path(folder, "old.db"))
        shutil.copyfile(pathlib.Path(folder, "old.db"), filer.file("/var/lib/berruzpil/outbox.db"))
    filer.paste("chown berruzpil: /var/lib/berruzpil/outbox.db; systemctl start berruzpil-outbox.timer")
    hold("a round over an earlier outbox", round_of(filer)[0], 1)
    hold("says what it is", trials.NO_OUTBOX in filer.paste(page.steps(FILER)[6][1][0])[1], True)
    play(filer, "an upgrade", page.block("How do I upgrade an outbox of an earlier version?", "systemctl stop"))
    filer.paste("systemctl stop berruzpil-outbox.timer berruzpil-outbox; cd /var/lib/berruzpil; rm outbox.db*; "
                "mv present/* .; rmdir present; systemctl start berruzpil-outbox.timer")


# ---- a unix socket


def socket(page, supervisor, filer):
    """The intake on a unix socket, by the commands of the page: nginx and the health check reach it, nobody else."""
    path, on_port = "/run/berruzpil-intake/socket", "curl -s http://127.0.0.1:8080/filings/ACME"
    ask, site = f"curl -s --unix-socket {path} http://localhost/filings/ACME", "/etc/nginx/conf.d/nginx-intake.conf"
    before = supervisor.paste(on_port)
    play(supervisor, "a unix socket", page.block("How many clients does it serve at once?", "echo SOCKET="))
    hold("nginx's user reaches it", supervisor.paste(f"runuser -u www-data -- {ask}"), before)
    hold("and no other one", supervisor.paste(f"runuser -u nobody -- {ask}"), (7, ""))
    hold("nor does the port", supervisor.paste(on_port), (7, ""))
    hold("the unit of the check", supervisor.paste("systemctl start berruzpil-health@intake.service"), (0, ""))
    hold("a filer reaches it",
         filer.until("curl -s http://127.0.0.1:8081/filings/ACME", lambda *it: it == before), before)
    supervisor.paste("systemctl start berruzpil-metrics")
    info = f'berruzpil_intake_info{{register="register",address="unix:{path}"}} 1\n'
    hold("numbers name it", info in supervisor.file(METRICS).read_text(), True)
    hold("an intake is killed", supervisor.paste("systemctl kill --signal=KILL berruzpil-intake"), (0, ""))
    hold("and comes back there", supervisor.until(f"intake-health unix:{path}", seconds=patience()),
         (0, f"unix:{path}: serving\n"))
    supervisor.paste("sed -i /^SOCKET=/d /etc/default/berruzpil; "
                     f"sed -i 's,^    server unix:.*,    server 127.0.0.1:8080;,' {site}; "
                     "systemctl disable --quiet --now berruzpil-health@intake.timer; "
                     "systemctl restart berruzpil-intake nginx; "
                     "systemctl enable --quiet --now berruzpil-health@8080.timer")
    hold("on the port again", supervisor.until(ask_health(page, supervisor), seconds=patience())[0], 0)


# ---- several


def several(page, supervisor, filer):
    """A second register behind the same nginx, and a second outbox, by the commands of the page."""
    play(supervisor, "several registers", page.block("How do I run several registers?", "openssl req"))
    ask = "curl -s --cacert /etc/berruzpil/intake-ca.pem --cert /etc/berruzpil/filer.pem --key /etc/berruzpil/filer.key"
    send = (
        f"{ask} https://2025.example/filings/ACME -H 'Idempotency-Key: \"k-1\"' "
        "--data-binary @/var/lib/berruzpil/report.json"
    )
    hold("a report for the second register", filer.paste(send), (0, '{"number":1,"status":"registered"}'))
    hold("its copy",
         supervisor.paste("systemctl start berruzpil-snapshot@2025 && "
                          "cut -d' ' -f2,4- /var/lib/berruzpil/copies/2025.tried"),
         (0, "0 restored: sound: 1 kept, 1 filings; as its digest says\n"))
    supervisor.paste("systemctl start berruzpil-metrics")
    numbers = supervisor.file(METRICS).read_text()
    found = [f'berruzpil_copy_filings{{register="{name}"}} ' in numbers for name in ("register", "2025")]
    hold("numbers of both registers",
         (found, 'berruzpil_requests_total{host="2025.example",status="201"} 1\n' in numbers), ([True, True], True))
    unit = "berruzpil-snapshot@none.service"
    hold("a register that isn't there has no copy", supervisor.paste(f"systemctl start {unit}"), (1, JOB.format(unit)))
    hold("and there is an alert of it", alert_comes(supervisor, unit, 0), True)
    play(filer, "several outboxes", page.block("How do I run several outboxes?", "runuser"))
    filer.paste("runuser -u berruzpil -- outbox put --wait 200 --db /var/lib/berruzpil/beta.db "
                "--body /var/lib/berruzpil/report.json --key b-1")
    added = next(it for it, _ in page.steps(SUPERVISOR)[8] if "nginx-filer" in it).replace(" ACME", " BETA")
    if added not in supervisor.paste("cat /etc/nginx/conf.d/nginx-intake.conf")[1]:
        hold("a round of an outbox that may not file yet", round_of(filer, "berruzpil-outbox@beta.service")[0], 1)
    supervisor.paste(f"{added}; systemctl reload nginx")
    filer.until("curl -s http://127.0.0.1:8081/filings/BETA", lambda _, printed: "filings" in printed)
    hold("and of one that may", round_of(filer, "berruzpil-outbox@beta.service"), (0, ""))
    # The report is ACME's, so BETA is answered that the entity is another.
    hold("its entry has its answer",
         filer.paste(STATUS.replace("outbox.db", "beta.db")), (0, "entry 1 refused\n"))


# ---- whether it serves


def health(page, supervisor, filer):
    """What the health check says of an intake that was killed, that is stopped, and of a wrong certificate."""
    direct = ask_health(page, supervisor)
    front = next(command for command, _ in page.steps(SUPERVISOR)[7] if "https://" in command)
    unit = "berruzpil-health@8080.service"
    before, alerts = supervisor.paste("curl -s http://127.0.0.1:8080/filings/ACME"), len(supervisor.alerts(unit))
    killed = len(supervisor.alerts("berruzpil-intake.service"))
    hold("the unit of the check", supervisor.paste(f"systemctl start {unit}"), (0, ""))
    hold("an intake is killed", supervisor.paste("systemctl kill --signal=KILL berruzpil-intake"), (0, ""))
    hold("and comes back", supervisor.until(direct, seconds=patience()),
         (0, "http://127.0.0.1:8080/filings/health: serving\n"))
    hold("with what it had", supervisor.paste("curl -s http://127.0.0.1:8080/filings/ACME"), before)
    hold("and there is an alert of it", alert_comes(supervisor, "berruzpil-intake.service", killed), True)
    supervisor.paste("systemctl stop berruzpil-intake")
    status, printed = supervisor.paste(direct)
    said = "intake-health: http://127.0.0.1:8080/filings/health: (7) Failed to connect"
    hold("health of an intake that is stopped", (status, printed.startswith(said)), (1, True))
    hold("and through nginx", supervisor.paste(front),
         (1, "intake-health: https://intake.example/health: answered 503\n"))
    hold("the unit fails", supervisor.paste(f"systemctl start {unit}"), (1, JOB.format(unit)))
    hold("and there is an alert of it", alert_comes(supervisor, unit, alerts), True)
    start_intake(page, supervisor)
    hold("the unit goes well again", supervisor.paste(f"systemctl start {unit}"), (0, ""))
    without = front.split(" --cert ")[0]
    hold("health without a certificate", supervisor.paste(without),
         (1, "intake-health: https://intake.example/health: answered 403\n"))
    program = direct.split()[0]
    hold("a page that is no intake's", supervisor.paste(f"{program} http://127.0.0.1:80/")[0], 1)
    hold("a wrong word", supervisor.paste(f"{program} 8080"),
         (2, "usage: intake-health URL|unix:PATH [OPTION OF curl ..]\n"))
    sent = (
        front.replace(f"{program} https", "curl -s https")
        + " -X POST --data-binary '{}' -H 'Idempotency-Key: \"k-1\"'"
    )
    hold("a POST to the health check files nothing", supervisor.paste(sent), (0, '{"filings":[]}'))


def stops(page, supervisor, filer):
    """A restart reads the register once, as it is opened; a kill and a stop are followed by a reading."""
    unit, direct = "berruzpil-intake", ask_health(page, supervisor)

    def read_after(command):
        """How often `intake check` has read the register once the command is done."""
        begun = supervisor.paste("date +%s.%N")[1].strip()
        supervisor.paste(command)
        return supervisor.paste(f"journalctl -q -u {unit} -t intake -o cat --since=@{begun} | grep -c ^sound:")[1]

    if not supervisor.is_booted:
        print("not tried: a stand-in has no journal")
        return
    wait = f"timeout {patience()} sh -c 'until {direct}; do sleep 0.5; done'"
    hold("a restart", read_after(f"systemctl restart {unit}; {wait}"), "0\n")
    hold("a kill", read_after(f"systemctl kill --signal=KILL {unit}; sleep 1; {wait}"), "1\n")
    hold("a stop", read_after(f"systemctl stop {unit}"), "1\n")
    hold("it closes the register", supervisor.paste("stat -c %s /var/lib/berruzpil/register.db-wal"), (0, "41\n"))
    hold("it serves again", start_intake(page, supervisor), 0)


def power(page, supervisor, filer):
    """Both machines lose their power and start again: nobody does anything, and the next report is filed."""
    if not supervisor.is_booted:
        print("not tried: a stand-in does not start again")
        return
    direct, asked = ask_health(page, supervisor), "curl -s http://127.0.0.1:8080/filings/ACME"
    before = supervisor.paste(asked)
    for machine in (supervisor, filer):
        machine.end()
        machine.boot()
    hold("the intake serves after a power cut", supervisor.until(direct, seconds=patience())[0], 0)
    hold("with what it had", supervisor.paste(asked), before)
    for machine, names in [(supervisor, ["health@8080", "metrics", "snapshot@register"]), (filer, ["outbox"])]:
        wanted = " ".join(f"berruzpil-{name}.timer" for name in names)
        hold(f"the timers of {machine.name} run again", machine.paste(f"systemctl is-active {wanted}"),
             (0, "active\n" * len(names)))
    hold("the next report", filed(page, filer, "power-1"), "confirmed N")


def stunnel(page, supervisor, filer):
    """stunnel in the place of the filer's nginx, by the words of the page, while the supervisor has one register."""
    if not filer.is_booted and shutil.which("stunnel4") is None:
        print("not tried: stunnel4 is not installed")
        return
    written = re.search(r"With\s+stunnel:\s+`deploy/(\S+)`\s+to\s+`(/etc/stunnel/)`,\s+and\s+`(systemctl [^`]+)`",
                        page.text)
    hold("what the page says of stunnel", bool(written), True)
    name, folder, command = (" ".join(it.split()) for it in written.groups())
    play(filer, "stunnel",
         [["systemctl stop nginx", []], [f"install -m 0644 deploy/{name} {folder}", []],
          [command.replace("enable ", "enable --quiet "), []]])
    filer.until(LIST, lambda _, printed: "filings" in printed)
    hold("a report over stunnel", filed(page, filer, "stunnel-1"), "confirmed N")
    hold("stunnel runs as its unit", filer.paste("systemctl is-active stunnel@stunnel-outbox"), (0, "active\n"))
    filer.paste("systemctl disable --quiet --now stunnel@stunnel-outbox; systemctl start nginx")


# ---- rights, connections, names and certificates

FRONT = "/etc/nginx/conf.d/nginx-intake.conf"
NOT_YOURS = '{"reason":"not-yours","status":403,"title":"Forbidden","type":"about:blank"}'


def taken(page, supervisor, filer):
    """A right that is taken away while a report is on its way, a byte every five seconds: it isn't filed half a minute
    later."""
    body, spaces = trials.REPORT.decode(), 6
    filer.write("/run/slow", HEAD.format("taken", len(body) + spaces).encode().decode("unicode_escape") + body)
    before = supervisor.paste("curl -s http://127.0.0.1:8080/filings/ACME")
    sending = filer.begin(f"{{ cat /run/slow; for it in $(seq {spaces}); do sleep 5; printf ' '; done; sleep 5; }} | "
                          f"timeout 60 {TLS} > /run/answer")  # fmt: skip
    time.sleep(2)
    written = re.search(r"`(nginx-filer --remove FILE acme.pem)`", page.text)
    hold("what the page says of a stolen key", bool(written), True)
    status, printed = supervisor.paste(f"{written[1].replace('FILE', FRONT)} && nginx -t -q && systemctl reload nginx")
    # The certificate has another name once it was renewed.
    right = re.fullmatch(r'"~\^CN=(acme-filing(?:-2)?),O=ACME\$" acme;\n', printed)
    hold("a right is taken away", (status, printed if right is None else "the right"), (0, "the right"))
    name = "acme-filing" if right is None else right[1]
    hold("its certificate is in the list no more", supervisor.paste(f"nginx-filer --list | grep -c {name},"),
         (1, "0\n"))
    sending.wait()
    hold("a report that was under way is not answered 201", "201" in filer.file("/run/answer").read_text(), False)
    hold("and not filed", supervisor.paste("curl -s http://127.0.0.1:8080/filings/ACME"), before)
    supervisor.paste(f"nginx-filer {FRONT} acme.pem acme ACME && systemctl reload nginx; "
                     "mv /etc/berruzpil/issued/withdrawn/*.pem /etc/berruzpil/issued/")
    filer.until(LIST, lambda _, printed: "filings" in printed)


# Filers that file at once. $1 is their number. Each keeps its connection until all have their answers.
MANY = """
import collections, concurrent.futures, http.client, ssl, sys, threading
count, held = int(sys.argv[1]), []
context = ssl.create_default_context(cafile="/etc/berruzpil/intake-ca.pem")
context.load_cert_chain("/etc/berruzpil/filer.pem", "/etc/berruzpil/filer.key")
body = open("/var/lib/berruzpil/report.json", "rb").read()
threading.stack_size(262144)


def file(number):
    front = http.client.HTTPSConnection("intake.example", timeout=300, context=context)
    held.append(front)
    try:
        front.request("POST", "/filings/ACME", body, {"Idempotency-Key": f'"many-{number}"'})
        reply = front.getresponse()
        reply.read()
        return reply.status
    except (OSError, http.client.HTTPException) as fault:
        return type(fault).__name__


with concurrent.futures.ThreadPoolExecutor(count) as threads:
    print(sorted(collections.Counter(threads.map(file, range(count))).items(), key=str))
"""
FILERS_AT_ONCE = 600


def file_at_once(supervisor, filer, count):
    """So many filers send a report each while the intake is stopped, so that all of them wait at once. Gives how many
    got which answer once it goes on."""
    supervisor.paste("systemctl kill --signal=STOP berruzpil-intake")
    begun = filer.begin(f"ulimit -n 4096; python3 /run/many.py {count} > /run/many")
    supervisor.until("ss -Htn state established '( sport = :443 )' | wc -l",
                     lambda _, printed: int(printed) >= count, seconds=60)  # fmt: skip
    time.sleep(3)
    supervisor.paste("systemctl kill --signal=CONT berruzpil-intake")
    begun.wait()
    return filer.file("/run/many").read_text()


def numbers_of(supervisor):
    supervisor.paste("systemctl start berruzpil-metrics")
    return dict(line.rsplit(" ", 1) for line in supervisor.file(METRICS).read_text().splitlines())


def many(page, supervisor, filer):
    """As many filers at once as the page says, behind one process of nginx: each gets its answer, and none a reset."""
    written = next(it for it, _ in page.steps(SUPERVISOR)[6] if "worker_connections" in it)
    supervisor.paste("cp /etc/nginx/nginx.conf /root/; sed -i -e 's/worker_processes auto/worker_processes 1/' "
                     "-e 's/worker_connections [0-9]*/worker_connections 768/' /etc/nginx/nginx.conf")
    hold("how many connections nginx has", supervisor.paste(f"{written}; systemctl restart nginx"), (0, ""))
    filer.until(LIST, lambda _, printed: "filings" in printed)
    filer.write("/run/many.py", MANY)
    hold(f"{FILERS_AT_ONCE} filers at once", file_at_once(supervisor, filer, FILERS_AT_ONCE),
         f"[(201, {FILERS_AT_ONCE})]\n")
    found = numbers_of(supervisor)
    hold("the numbers say so", (found.get("berruzpil_nginx_up"), found.get("berruzpil_nginx_dropped_total"),
                                int(found.get("berruzpil_nginx_accepted_total", 0)) > FILERS_AT_ONCE), ("1", "0", True))
    # With too few, the numbers say that, too.
    supervisor.paste("sed -i 's/worker_connections [0-9]*/worker_connections 20/' /etc/nginx/nginx.conf; "
                     "systemctl restart nginx")
    before = numbers_of(supervisor)
    file_at_once(supervisor, filer, 40)
    after, name = numbers_of(supervisor), "berruzpil_resets_sent_total"
    hold("resets are counted", int(after.get(name, 0)) > int(before.get(name, 0)), True)
    supervisor.paste("cp /root/nginx.conf /etc/nginx/; systemctl restart nginx")


def lines(page, supervisor, filer):
    """The disk of the log is full: reports are filed, and the numbers say that their lines are missing."""
    log = "/var/log/berruzpil"
    number = 'berruzpil_filings_without_line{register="register"}'

    def lacking():
        supervisor.paste("systemctl start berruzpil-snapshot@register && systemctl start berruzpil-metrics")
        return dict(line.rsplit(" ", 1) for line in supervisor.file(METRICS).read_text().splitlines()).get(number)

    hold("no line is missing", lacking(), "0")
    hold("a small disk for the log, which has a page of lines already", supervisor.paste(
        f"mount -t tmpfs -o size=64k,mode=0751 tmpfs {log}; install -o www-data -g adm -m 0640 /dev/null "
        f"{log}/filings.log; {{ echo '{{\"time\":\"'$(date -Is -d '1 minute ago')'\",\"status\":200}}'; "
        f"yes '{{\"status\":200}}' | head -c 4095; }} | head -c 4096 > {log}/filings.log; "
        "kill -USR1 $(cat /run/nginx.pid); sleep 1; "
        f"head -c 1M /dev/zero 2> /dev/null > {log}/fill; stat -c %s {log}/filings.log"), (0, "4096\n"))
    hold("a report while the log's disk is full", filed(page, filer, "line-1"), "confirmed N")
    hold("it has no line", supervisor.file(f"{log}/filings.log").stat().st_size, 4096)
    time.sleep(1.1)  # A copy has what came up to the second before.
    hold("and the numbers say so", lacking(), "1")
    supervisor.paste(f"umount -l {log}; kill -USR1 $(cat /run/nginx.pid)")


def names(page, supervisor, filer):
    """The supervisor's host moves to another address, and leads nowhere while nginx starts: the filer's nginx follows
    it."""
    if not filer.is_booted:
        print("not tried: a stand-in has no such unit")
        return
    unit, other = "berruzpil-name@intake.example", "198.51.100.3"
    hold("the timer runs", filer.paste(f"systemctl is-active {unit}.timer"), (0, "active\n"))
    hold("nothing has moved", filer.paste(f"systemctl start {unit}; cat /run/berruzpil/intake.example.addresses"),
         (0, f"{machines.ADDRESSES['supervisor']}\n"))

    def is_list(_, printed):
        return "filings" in printed

    def move(old, new):
        # With the first address of a network Linux removes the others of it, too.
        supervisor.paste(f"ip addr del {old}/24 dev cable-a; ip addr add {new}/24 dev cable-a")
        filer.paste(f"sed -i 's/^{old} /{new} /' /etc/hosts")

    move(machines.ADDRESSES["supervisor"], other)
    hold("it moves", filer.paste(f"systemctl start {unit}")[0], 0)
    hold("and nginx follows", "filings" in filer.until(LIST, is_list, seconds=20)[1], True)
    filer.paste("cp /etc/hosts /run/hosts; echo '127.0.0.1 localhost' > /etc/hosts")
    hold("nginx doesn't start while the name leads nowhere", filer.paste("systemctl restart nginx")[0], 1)
    hold("and says so", filer.paste(f"systemctl start {unit}")[0], 1)
    filer.paste("cat /run/hosts > /etc/hosts")
    hold("the name leads there again", filer.paste(f"systemctl start {unit}"), (0, ""))
    hold("and nginx runs", "filings" in filer.until(LIST, is_list, seconds=20)[1], True)
    move(other, machines.ADDRESSES["supervisor"])
    filer.paste(f"systemctl start {unit}")
    filer.until(LIST, lambda _, printed: "filings" in printed, seconds=20)


def expiry(page, supervisor, filer):
    """Certificates that expire in nine days: alerts at both ends, and numbers and a list of those of filers."""
    unit = "berruzpil-certificates.service"
    make = ("openssl req -x509 -newkey ec -pkeyopt ec_paramgen_curve:P-256 -nodes -days {} -subj /O=ACME/CN={} "
            "-keyout /dev/null -out {}")  # fmt: skip
    for machine, file in [(supervisor, "/etc/nginx/tls/nine.pem"), (filer, "/etc/berruzpil/nine.pem")]:
        hold(f"{machine.name}: all are valid for a month", machine.paste(f"systemctl start {unit}"), (0, ""))
        before = len(machine.alerts(unit))
        machine.paste(make.format(9, "nine", file))
        hold(f"{machine.name}: one is not", machine.paste(f"systemctl start {unit}"), (1, JOB.format(unit)))
        hold(f"{machine.name}: there is an alert", alert_comes(machine, unit, before), True)
        hold(f"{machine.name}: it says which", f"{file}: subject=CN=nine,O=ACME notAfter=" in
             machine.paste(f"journalctl -q -u {unit} -o cat")[1], True)
        machine.paste(f"rm {file}; systemctl reset-failed {unit}")
    issued = "/etc/berruzpil/issued"
    supervisor.paste(f"{make.format(300, 'twice', f'{issued}/twice-aa.pem')}; "
                     f"{make.format(9, 'twice', f'{issued}/twice-bb.pem')}; systemctl start berruzpil-metrics")
    # A certificate that was renewed has another name.
    ends = supervisor.paste(f"for it in {issued}/twice-aa.pem {issued}/acme-*.pem; do "
                            "openssl x509 -in $it -noout -subject | grep -q acme-filing-2 || date +%s -d "
                            "\"$(openssl x509 -in $it -noout -enddate | cut -d= -f2)\"; done")[1].split()
    found = dict(line.rsplit(" ", 1) for line in supervisor.file(METRICS).read_text().splitlines())
    name = 'berruzpil_filer_certificate_expiry_timestamp_seconds{{subject="CN={},O=ACME",user="{}"}}'
    hold("the numbers of filers' certificates",
         [found.get(name.format(*who)) for who in [("twice", "twice"), ("acme-filing", "acme")]], [ends[0], ends[-1]])
    hold("the list of them", [line.split(",", 1)[1] for line in supervisor.paste("nginx-filer --list")[1].splitlines()
                              if "twice" in line], [f'"CN=twice,O=ACME",twice,{issued}/twice-aa.pem'])
    supervisor.paste(f"rm {issued}/twice-*.pem")


def own_client(page, supervisor, filer):
    """A filer with an HTTP client of its own, by the commands of docs/OWN_CLIENT.md."""
    made, *filed_so = page.own_client
    with Shell(filer) as shell:
        shell.paste("install -d -m 0700 /root/own; cd /root/own; cp /root/berruzpil/intake-ca.pem .; "
                    "cp /var/lib/berruzpil/report.json .")
        for command, lines in made:
            status, printed = shell.paste(command)
            hold(f"own client: {textwrap.shorten(command, 90)}", (status, printed.splitlines()), (0, lines))
        shutil.copyfile(filer.file("/root/own/acme.csr"), supervisor.file("/root/berruzpil/own.csr"))
        supervisor.paste(f"nginx-filer --sign {FRONT} own.csr acme ACME; nginx -t -q && systemctl reload nginx")
        shutil.copyfile(supervisor.file("/root/berruzpil/own.pem"), filer.file("/root/own/acme.pem"))
        before, number = supervisor.paste("curl -s http://127.0.0.1:8080/filings/ACME")[1].count("number"), "N"
        for command, lines in [it for block in filed_so for it in block]:
            status, printed = shell.paste(command.replace("$front/N", f"$front/{number}"))
            number = (re.search(r'"number":(\d+),"status"', printed) or [None, number])[1]
            hold(f"own client: {textwrap.shorten(command, 90)}", (status, printed.splitlines()),
                 (0, [line.replace("N", number) for line in lines]))
        after = supervisor.paste("curl -s http://127.0.0.1:8080/filings/ACME")[1].count("number")
        hold("it is filed once", after - before, 1)


def blocks_of(file):
    """The commands of each block of a page, and what each prints."""
    blocks = re.findall(r"(?m)(?:^ {4}\S.*\n|^ {8}.*\n)+", file.read_text(encoding="utf-8"))
    return [commands_in(block, 4) for block in blocks]


def man_pages(page, supervisor, filer):
    """Each example of each rendered man page, in the filer's network, where port 8080 is free."""
    check, folder = ROOT / "tools" / "check_man_pages.py", supervisor.programs[0].parent
    if not check.exists() or machines.absent(["man", "groff"]) or not (folder / "drill").exists():
        print("not tried: the examples of the man pages need man, groff, and drill beside the intake")
        return
    words = ["nsenter", f"--net=/run/netns/{filer.name}", sys.executable, str(check), str(folder)]
    done = subprocess.run(words, capture_output=True, text=True, check=False, timeout=1200)
    hold("the examples of the man pages",
         [line for line in done.stdout.splitlines() if line.startswith("failed")] + done.stderr.splitlines()
         + [done.returncode], [0])  # fmt: skip


# The parts, in the order in which they are played. Each after the first can be played on its own after the days.
PARTS = {it.__name__: it for it in [
    days, units, restore, disk, clock, hang, timers, metrics, readers, officers, slow, abort, certificates,
    stunnel, damaged, upgrade, outbox_upgrade, health, stops, power, taken, many, lines, names, expiry, own_client,
    socket, several, man_pages,
]}  # fmt: skip


# ---- planted faults

FAULT = re.compile(r"(\w+): (\S+): `(.*)` => `(.*)`")
# Where the days put what is in deploy/.
INSTALLED = ["/usr/local/bin", "/usr/local/lib/berruzpil", "/etc/systemd/system", "/etc/nginx/conf.d",
             "/etc/nginx/modules-enabled"]  # fmt: skip


class Fault:
    """A text of a file that becomes another one, and the part that has to see it."""

    def __init__(self, line):
        if not (found := FAULT.fullmatch(line)):
            raise ValueError(f"{FAULTS.name}: this line is no fault: {line}")
        self.line = line
        self.part, self.file, self.old, self.new = found.groups()

    def misfit(self):
        """What is wrong with the line, or nothing."""
        if self.part not in PARTS and not self.part.startswith(("package_", "operations_", "openapi")):
            return f"there is no part {self.part}"
        count = (ROOT / self.file).read_text(encoding="utf-8").count(self.old)
        return None if count == 1 else f"this text is there {count} times"

    def plant(self, file):
        text = file.read_text(encoding="utf-8")
        if self.old in text:
            file.write_text(text.replace(self.old, self.new), encoding="utf-8")

    def plant_in(self, machine):
        """Plants the fault in what the days have put on a machine."""
        name = pathlib.Path(self.file).name
        for folder in [f"/root/berruzpil/{pathlib.Path(self.file).parent}", *INSTALLED]:
            if (file := machine.file(f"{folder}/{name}")).exists():
                self.plant(file)


def faults(word=""):
    lines = FAULTS.read_text(encoding="utf-8").splitlines()
    return [Fault(line) for line in lines if line and line[0] != "#" and word in line]


def check_faults():
    for fault in faults():
        if misfit := fault.misfit():
            trials.tell(f"planted fault: {fault.line}", misfit)


@contextlib.contextmanager
def repository_with(fault):
    """The files of the repository that are played, with a fault in one of them."""
    with tempfile.TemporaryDirectory() as folder:
        top = pathlib.Path(folder)
        for name in ("deploy", "docs"):
            shutil.copytree(ROOT / name, top / name)
        if fault:
            fault.plant(top / fault.file)
        yield top


def sees(base, programs, kept, part, fault):
    """The first check of a part that fails with this fault, or with none; nothing if none fails."""
    with repository_with(fault) as top:
        below = {} if part == "days" else kept

        def make(name):
            machine = machines.Booted(name, base, top, programs, below.get(name))
            if fault:
                fault.plant_in(machine)
            return machine

        try:
            with machines.joined(make) as (supervisor, filer):
                page = Page(top)
                if part != "days" and supervisor.until(ask_health(page, supervisor), seconds=patience())[0]:
                    return "the intake serves"
                PARTS[part](page, supervisor, filer)
        except Seen as seen:
            return str(seen)
        except (OSError, subprocess.SubprocessError, LookupError, ValueError) as seen:
            return repr(seen)
    return None


def try_faults(base, programs, word):
    """Plays the days once, and each part over what they leave: without a fault, and with each of its faults."""
    chosen = [fault for fault in faults(word) if fault.part in PARTS]
    with machines.joined(lambda name: machines.Booted(name, base, ROOT, programs)) as both:
        days(Page(ROOT), *both)
        kept = {machine.name: machine.shut_down() for machine in both}
    planted.append(True)
    for part in dict.fromkeys(fault.part for fault in chosen):
        if part != "days":
            trials.tell(f"{part}, without a fault", sees(base, programs, kept, part, None))
        for fault in chosen:
            if fault.part == part:
                begun = time.monotonic()
                seen = sees(base, programs, kept, part, fault)
                trials.tell(f"{fault.line}: seen by: {seen} ({time.monotonic() - begun:.0f} s)",
                            None if seen else "no check fails")
                passed.extend([fault.line] if seen else [])


def words_of(words):
    parser = argparse.ArgumentParser(prog="check_first_days.py", description="Plays the days of docs/FIRST_DAYS.md.")
    kind = parser.add_mutually_exclusive_group()
    kind.add_argument("--stand-in", action="store_true", help="with a stand-in for systemd")
    kind.add_argument("--planted", action="store_true", help="with planted faults, each of which has to be seen")
    parser.add_argument("programs", metavar="PROGRAM", nargs=2, type=pathlib.Path, help="the built intake and outbox")
    parser.add_argument("parts", metavar="PART", nargs="*", help=" ".join(PARTS) + "; with --planted a word")
    given = parser.parse_args(words)
    if absent := [str(it) for it in given.programs if not it.is_file()]:
        parser.error(f"there is no program {absent[0]}")
    if not given.planted and (wrong := [it for it in given.parts if it not in PARTS]):
        parser.error(f"there is no part {wrong[0]}")
    given.programs = [it.resolve() for it in given.programs]
    return given


def play_parts(make, chosen):
    with machines.joined(make) as both:
        for name, part in PARTS.items():
            if name == "days" or name in chosen or not chosen:
                begun = time.monotonic()
                try:
                    part(Page(ROOT), *both)
                except (OSError, subprocess.SubprocessError, LookupError, ValueError) as fault:
                    trials.tell(name, repr(fault))
                print(f"{name}: {time.monotonic() - begun:.0f} s", flush=True)


def main(words):
    given = words_of(words)
    if os.geteuid() != 0 or machines.absent(machines.NEEDED):
        missing = " ".join(machines.absent(machines.NEEDED))
        print(f"not tried: {f'these are not installed: {missing}' if missing else 'it needs root'}")
        print("0 passed, 0 failed")
        return 77
    if (status := machines.apart()) is not None:
        return status
    check_faults()
    under = None
    try:
        if not given.stand_in:
            try:
                base = machines.base_for_booting(Page(ROOT).packages())
                under = f"under systemd {machines.version_of(base)}"
                if given.planted:
                    try_faults(base, given.programs, " ".join(given.parts))
                else:
                    play_parts(lambda name: machines.Booted(name, base, ROOT, given.programs), given.parts)
            except NotPossible as fault:
                if given.planted:
                    raise
                print(f"no real systemd: {fault}")
                under = None
        if under is None:
            if missing := machines.absent(machines.NEEDED_TO_STAND_IN):
                raise NotPossible(f"these are not installed: {' '.join(missing)}")
            play_parts(lambda name: machines.StandIn(name, ROOT, given.programs), given.parts)
            under = "with a stand-in for systemd"
    except NotPossible as fault:
        print(f"not tried: {fault}\n0 passed, 0 failed")
        return 77
    print(f"{len(passed)} passed, {len(trials.failures)} failed, {under}")
    return 1 if trials.failures else 0


if __name__ == "__main__":
    sys.exit(main(sys.argv[1:]))
