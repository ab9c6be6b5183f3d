#!/usr/bin/env python3
"""Plays the take-over of a mirrored register by a second machine, and kills machines while 64 clients and an outbox
file.

    tools/check_takeover.py INTAKE OUTBOX [PART ..] [--kills N] [--clients N] [--filings N] [--seed S]
    tools/check_takeover.py --planted INTAKE OUTBOX [WORD]

INTAKE and OUTBOX are the built programs. The two machines are set up by the commands of docs/OPERATIONS.md, which are
read out of the page, and have a kernel, DRBD and systemd of Debian's (tools/mirrored_machines.py says what is virtual
in them). So it needs root, /dev/net/tun, and the Debian packages iproute2, e2fsprogs and openssh-client. The first run
makes the files of a machine from the mirror of this one, below ~/.cache/berruzpil (400 MB, some minutes). A machine is
Debian's User-mode Linux, in which no program runs that was built with the address sanitizer, as `rt try` builds them.
If the variable BERRUZPIL_ACCELERATORS is `kvm` or `tcg`, it is one of QEMU with that (Debian: qemu-system-x86).

Each answer 201 that a client read whole is noted with its number and the digest of its report. After each take-over,
with all clients at rest, the register is read by Python's sqlite3: it has to have each of these under its number and
with its bytes, without a gap and without a key twice, and each entry that the outbox counts as confirmed. It has to
begin with the digest that the other machine's register had before, and to agree with what is on the disk of the dead
one. All the time both machines are asked whether they serve: never may both.

The parts are those of PARTS below; all of them kill 20 machines and more. `price` is played only if it is named: it
measures requests a second with the mirror and without, and take-overs by the size of the register.

With --planted the faults of FAULTS are planted, one after the other, in what is deployed: each has to make the check
fail that is meant to see it, and nothing more is played then. A WORD takes the faults that have it in their name.

On a machine that has other things to do anything may take longer: so many times as --patience says, or the variable
BERRUZPIL_PATIENCE, or, without either, as this program waits for a processor at the start. If something does not come
in time it asks again how busy the machine is, before it counts as failed.
The last line says how many checks passed and failed. Status 1 if one failed, 2 for a wrong command line, 77 if nothing
could be tried.
"""
import argparse
import collections
import contextlib
import hashlib
import http.client
import json
import os
import pathlib
import random
import re
import shutil
import signal
import socket
import sqlite3
import subprocess
import sys
import tempfile
import threading
import time
import typing

import check_first_days
import machines
import mirrored_machines
import register_digest
import trials
from machines import NotPossible, run
from mirrored_machines import ADDRESS, PATIENCE, Deadline, Lab

SECTION = "How does a second machine take over?"
REGISTER = "/var/lib/berruzpil/register.db"
# A copy of it, on the machine's own disk.
COPY = "/var/tmp/copy.db"
METRICS = "/var/lib/prometheus/node-exporter/berruzpil-mirror.prom"
# What stands for what in the names of a site.
NAMES = [
    (f'{name}_POWER_OFF="fence_ipmilan -a 192.0.2.10{number} -l fence -P SECRET --lanplus -o off"',
     f'{name}_POWER_OFF="curl -sSf -m 20 http://{mirrored_machines.SWITCH}:99/off/{machine}"')
    for number, (name, machine) in enumerate([("FIRST", "a"), ("SECOND", "b")], 1)]  # fmt: skip
BEGAN = time.monotonic()
passed, failed = collections.Counter(), []
figures = collections.defaultdict(list)
# A part of the name of the check that a planted fault has to make fail.
awaited = []


class Over(Exception):
    """Why the play does not go on."""


class Seen(Exception):
    """The planted fault was seen, so nothing more is played."""


def hold(what, found, wanted=True):
    if found == wanted:
        passed[what] += 1
        return
    failed.append(what)
    print(f"failed: {what}: {str(found)[:600]!r} in place of {str(wanted)[:300]!r}", flush=True)
    if any(it in what for it in awaited):
        raise Seen


def say(*words):
    print(f"{time.monotonic() - BEGAN:7.1f} s ", *words, flush=True)


# ---- filers


def connect(timeout):
    return socket.create_connection((ADDRESS, 80), timeout=timeout)


def read_reply(peer):
    """The status and the content of a reply, or nothing if it did not come whole."""
    held = b""
    while True:
        head, found, content = held.partition(b"\r\n\r\n")
        if found and len(content) >= (length := int(re.search(rb"(?i)content-length: (\d+)", head)[1])):
            return int(head.split()[1]), content[:length]
        more = peer.recv(65536)
        if not more:
            return None
        held += more


def report_of(filer, serial):
    """A report that is like no other one."""
    numbered = trials.REPORT.replace(b'"value":"100"', b'"value":"%d"' % serial)
    return numbered.replace(b"lei:ACME", b"lei:" + filer.encode())


class Filers:
    """So many clients that file all the time, each under a code of its own, and what they were told. What got no answer
    is sent again under its key, as an outbox does."""

    def __init__(self, count):
        self.told, self.lock, self.go, self.has_ended = {}, threading.Lock(), threading.Event(), False
        self.times, self.failures, self.repeats = [], collections.Counter(), 0
        self.quiet = [threading.Event() for _ in range(count)]
        for n in range(count):
            threading.Thread(target=self.file, args=(n,), daemon=True).start()

    def file(self, n):
        filer, serial, peer = f"C{n:03}", 0, None
        while not self.has_ended:
            if not self.go.is_set():
                self.quiet[n].set()
                self.go.wait()
                self.quiet[n].clear()
            serial += 1
            key, body = f"k-{serial}", report_of(filer, serial)
            request = (f'POST /filings/{filer} HTTP/1.1\r\nHost: localhost\r\nIdempotency-Key: "{key}"\r\n'
                       f"Content-Length: {len(body)}\r\n\r\n").encode() + body  # fmt: skip
            tries = 0
            while not self.has_ended:
                tries += 1
                try:
                    peer = peer or connect(5)
                    peer.settimeout(20)
                    peer.sendall(request)
                    got = read_reply(peer)
                except OSError:
                    got = None
                if got and got[0] == 201:
                    with self.lock:
                        self.told[filer, key] = json.loads(got[1])["number"], hashlib.sha256(body).hexdigest()
                        self.times.append(time.monotonic())
                        self.repeats += tries > 1
                    break
                self.failures[got and got[0]] += 1
                with contextlib.suppress(AttributeError, OSError):
                    peer.close()
                peer = None
                time.sleep(0.3)

    def pause(self, seconds=180):
        """Whether all of them came to rest."""
        self.go.clear()
        deadline = Deadline(seconds)
        while not all(it.is_set() for it in self.quiet) and not deadline.is_over():
            time.sleep(0.02)
        return all(it.is_set() for it in self.quiet)

    def until(self, more, seconds=120):
        """Waits until so many more answers came."""
        self.go.set()
        wanted, deadline = len(self.told) + more, Deadline(seconds)
        while len(self.told) < wanted and not deadline.is_over():
            time.sleep(0.02)
        return len(self.told) >= wanted

    def pause_since(self, moment):
        """The longest time without an answer since then."""
        times = [moment, *(it for it in list(self.times) if it > moment)]
        return max((later - earlier for earlier, later in zip(times, times[1:])), default=0.0)


class Outbox:
    """An outbox of the built program, which sends through a forwarder of one port to the register's address."""

    def __init__(self, program, folder):
        self.program, self.folder, self.db, self.count = program, folder, folder / "outbox.db", 0
        self.statuses = collections.Counter()
        run(program, "init", "--db", self.db, "--filer", "OUTB", stdout=subprocess.DEVNULL)
        self.listener = socket.create_server(("127.0.0.1", 0))
        self.port = self.listener.getsockname()[1]
        threading.Thread(target=self.forward, daemon=True).start()

    def forward(self):
        while True:
            near, _ = self.listener.accept()
            threading.Thread(target=self.carry, args=(near,), daemon=True).start()

    @staticmethod
    def carry(near):
        try:
            far = connect(5)
        except OSError:
            near.close()
            return
        far.settimeout(40)

        def one_way(source, to):
            with contextlib.suppress(OSError):
                while data := source.recv(65536):
                    to.sendall(data)
            for it in (source, to):
                with contextlib.suppress(OSError):
                    it.shutdown(socket.SHUT_RDWR)

        threading.Thread(target=one_way, args=(near, far), daemon=True).start()
        one_way(far, near)

    def put(self, count):
        """Puts so many reports in."""
        bodies = []
        for n in range(self.count, self.count + count):
            bodies.append(self.folder / f"report-{n}.json")
            bodies[-1].write_bytes(report_of("OUTB", n))
        run(self.program, "put", "--db", self.db, "--wait", "60", "--body", *bodies, stdout=subprocess.DEVNULL)
        self.count += count

    def begin_round(self):
        return subprocess.Popen([self.program, "send", "--db", self.db, "--port", str(self.port), "--all", "--patience",
                                 "30"], stdout=subprocess.DEVNULL, stderr=subprocess.DEVNULL)  # fmt: skip

    def finish(self, seconds=180):
        """Rounds until each entry is confirmed. Whether they came to be in time."""
        deadline = Deadline(seconds)
        while len(self.confirmed()) < self.count and not deadline.is_over():
            self.statuses[self.begin_round().wait()] += 1
            time.sleep(0.3)
        return len(self.confirmed()) == self.count

    def confirmed(self):
        """The entries that count as confirmed, as sqlite3 reads a copy of both files: key, number, digest."""
        with tempfile.TemporaryDirectory() as folder:
            for it in (self.db, self.db.with_name("outbox.db-wal")):
                with contextlib.suppress(FileNotFoundError):
                    shutil.copy(it, folder)
            with contextlib.closing(sqlite3.connect(f"{folder}/outbox.db")) as copy:
                rows = copy.execute("SELECT idem, number, body FROM entry WHERE number IS NOT NULL").fetchall()
        return [(text(key), number, hashlib.sha256(body).hexdigest()) for key, number, body in rows]


class Watch:
    """Asks both machines all the time, each at its own address, for a list."""

    def __init__(self, lab):
        self.lab, self.served, self.has_ended = lab, [], False

    def begin(self):
        for it in (self.lab.a, self.lab.b):
            threading.Thread(target=self.ask, args=(it,), daemon=True).start()

    def ask(self, machine):
        while not self.has_ended:
            began, peer = time.monotonic(), http.client.HTTPConnection(machine.host, 80, timeout=2)
            with contextlib.suppress(OSError, http.client.HTTPException):
                peer.request("GET", "/filings/health", headers={"Host": "localhost"})
                if peer.getresponse().status == 200:
                    self.served.append((began, machine.name))
            peer.close()
            time.sleep(0.2)

    def changes(self):
        """How often another machine served than before."""
        names = [name for _, name in sorted(self.served)]
        return sum(former != later for former, later in zip(names, names[1:]))


# ---- registers


def text(value):
    return value.decode() if isinstance(value, bytes) else value


def rows_of(path):
    """The kept requests of a register, as sqlite3 reads it, each with the digest of its body; none if it is none."""
    try:
        with contextlib.closing(sqlite3.connect(path)) as copy:
            return list(copy.execute(register_digest.KEPT))
    except sqlite3.Error:
        return []


def digest_of(rows, count):
    return "{} {}".format(*register_digest.digest_of(rows[:count]))


# ---- the play


class Play:
    """Both machines, what files on them, and the parts. `first` is the machine that serves."""

    def __init__(self, lab, given):
        self.lab, self.given = lab, given
        self.first, self.takeovers, self.deaths, self.lines = lab.a, 0, 0, []
        self.filers, self.watch = Filers(given.clients), Watch(lab)
        self.outbox = Outbox(given.outbox, lab.scratch)

    @property
    def second(self):
        return self.first.other

    def paste(self, machine, what, commands):
        """Pastes a block of the page, and compares what each command prints."""
        for (command, lines), (status, printed) in zip(commands, machine.paste([it for it, _ in commands])):
            wanted = "".join(f"{line}\n" for line in lines)
            printed = re.sub(r"in \d+ ms|since \d+ ms", lambda it: re.sub(r"\d+", "3", it[0]), printed)
            refused = lines[-1:] == ["mirror-asked: refused"]
            hold(f"{machine.name}, the page, {what}: {command}",
                 (status, printed if lines else ""), (2 if refused else 0, wanted))  # fmt: skip
            if status and not refused:
                print(printed, flush=True)

    def begin(self):
        """Sets both machines up by the page."""
        page, both = check_first_days.Page(machines.ROOT), (self.lab.a, self.lab.b)
        for it in both:
            it.on()
        for it in both:
            hold("a machine starts", it.until("systemctl is-active multi-user.target", seconds=300))
            hold("it has the repository", self.lab.furnish(it), "")
            block = page.block(SECTION, "apt-get install -y drbd-utils")
            self.paste(it, "the names", [command for command in block if not command[0].startswith("apt-get")])
            edits = " ".join(f"-e 's,{old},{new},'" for old, new in NAMES)
            hold("the names are changed", it.ssh(f"sed -i {edits} /etc/berruzpil/mirror")[0], 0)
            self.paste(it, "the files", page.block(SECTION, ". /etc/berruzpil/mirror\n    sed"))
            it.fetch("/root/.ssh/id_ed25519.pub", self.lab.scratch / f"{it.name}.pub")
        for it in both:
            it.ssh("cat > /root/berruzpil/peer.pub", given=(self.lab.scratch / f"{it.other.name}.pub").read_bytes())
        for it in both:
            self.paste(it, "keys", page.block(SECTION, ". /etc/berruzpil/mirror\n    printf"))
        for it in both:
            self.paste(it, "ssh", page.block(SECTION, ". /etc/berruzpil/mirror\n    ssh"))
        if self.given.prepare:
            self.given.prepare(self)
        self.paste(self.first, "the register", page.block(SECTION, "until mirror-state"))
        if failed:
            raise Over("the machines were not set up")
        for it in both:
            watching = page.block(SECTION, "systemctl enable --quiet --now berruzpil-mirror-health")
            self.paste(it, "what watches", watching)
            it.ssh("sync")
        # No earlier: an intake that makes a register takes one connection, and this would be it.
        self.watch.begin()
        say("both machines are set up")

    def read(self, machine):
        """The rows of a copy of the register of a machine, and the line of its digest."""
        status, said = machine.ssh(f"rm -f {COPY}*; register-snapshot {REGISTER} {COPY}", timeout=600)
        hold("intake check passes a copy", (status, said.split(":")[0]), (0, "sound"))
        for line in self.lines[-1:]:
            words = f"intake check --db {COPY} --against {line.replace(' ', ':')}"
            hold("intake check --against the digest of before", machine.ssh(words, timeout=300)[0], 0)
        with tempfile.TemporaryDirectory() as folder:
            hold("a copy comes over", machine.fetch(COPY, pathlib.Path(folder, "copy.db")))
            rows = rows_of(pathlib.Path(folder, "copy.db"))
        line = machine.ssh(f"intake digest --db {COPY}; rm -f {COPY}*", timeout=300)[1].strip()
        hold("intake digest prints what Python computes", line, digest_of(rows, len(rows)))
        return rows, line

    def compare(self, what, dead=None):
        """Everything that was answered is in the register of the machine that serves. `dead` has the rows on the disk
        of the other one when it died, and how many the take-over found."""
        hold(f"{what}: all clients come to rest", self.filers.pause())
        sent, told = self.outbox.confirmed(), dict(self.filers.told)
        rows, line = self.read(self.first)
        filings = sorted((number, text(filer), text(key), hashlib.sha256(body).hexdigest())
                         for _, filer, key, _, number, _, body in rows if number is not None)  # fmt: skip
        there = {(filer, key): (number, digest) for number, filer, key, digest in filings}
        hold(f"{what}: numbers without a gap", [it[0] for it in filings], list(range(1, len(filings) + 1)))
        hold(f"{what}: no key twice", len(there), len(rows))
        hold(f"{what}: no report twice", len({it[3] for it in filings}), len(filings))
        hold(f"{what}: filings that were answered, and are missing", [key for key in told if key not in there][:9], [])
        wrong = [key for key, answer in told.items() if key in there and there[key] != answer]
        hold(f"{what}: filings with another number or other bytes than was answered", wrong[:9], [])
        wrong = [key for key, *answer in sent if there.get(("OUTB", key)) != tuple(answer)]
        hold(f"{what}: entries that the outbox counts as confirmed, and are not so", wrong[:9], [])
        for before in self.lines:
            hold(f"{what}: it begins with the digest of before", digest_of(rows, int(before.split()[0])), before)
        if dead:
            died, found = dead
            both = min(len(died), found)
            hold(f"{what}: the disk of the dead machine begins in the same way", died[:both] == rows[:both])
            hold(f"{what}: it can be read", both > 0)
        self.lines = [*self.lines[-3:], line]
        hold(f"{what}: never two that serve", self.watch.changes() <= self.takeovers)
        say(f"{what}: {len(told)} answers 201 and {len(sent)} of the outbox are among {len(rows)} filings")
        return sum(filer == "OUTB" for _, filer, *_ in filings)

    def take_over(self, machine, words="", since=None):
        """register-takeover: what it said. The next answer has to come after it."""
        since = since or time.monotonic()
        status, said = machine.ssh(f"register-takeover {words}", timeout=400)
        for line in said.splitlines():
            say("   ", line)
        hold("register-takeover ends with 0", status, 0)
        if status:
            raise Over(f"register-takeover ended with {status}")
        self.takeovers += machine is not self.first
        self.first = machine
        figures["register-takeover, s"].append(int(re.search(r"since (\d+) ms", said)[1]) / 1000)
        hold("a filer is answered", self.filers.until(1, 90))
        figures["from the failure until an answer, s"].append(
            min((it for it in list(self.filers.times) if it > since + 0.5), default=since) - since)  # fmt: skip
        return said

    def refuses(self, what, machine, cause, command="register-takeover", status=1):
        """It serves nothing, and says why on its last line, which is given back."""
        found, said = machine.ssh(command, timeout=400)
        last = (said.strip().splitlines() or [""])[-1]
        say("   ", last)
        hold(f"{what}: {command.split()[0]} refuses", (found, cause if cause in last else last), (status, cause))
        return last

    def heal(self, machine, what):
        """The machine that was off starts again, and the mirror is whole again without a human."""
        began = time.monotonic()
        self.starts(machine, what)
        figures["from power until the mirror is whole, s"].append(time.monotonic() - began)
        split = [it for it in self.first.alerts() + machine.alerts() if "split" in it]
        hold(f"{what}: no split brain", split, [])

    def starts(self, machine, what):
        """A machine gets power, and the mirror is whole some time later."""
        steps = [("it starts again", machine.boot), ("the mirror is whole again", machine.is_whole),
                 ("the other one can write", machine.other.is_whole)]  # fmt: skip
        for word, is_so in steps:
            hold(f"{what}: {word}", found := is_so())
            if not found:
                raise Over(f"{machine.name}: {what}: not: {word}")

    def dies(self, machine):
        machine.off()
        self.deaths += 1
        return time.monotonic()

    def rows_of_dead(self, machine):
        with tempfile.TemporaryDirectory(dir=self.lab.scratch) as folder:
            return rows_of(machine.dead_register(pathlib.Path(folder)))

    def begin_filing(self, what, entries=60):
        """Clients file, and a round of the outbox is under way, some of whose entries are confirmed."""
        self.outbox.put(entries)
        before, deadline = len(self.outbox.confirmed()), Deadline(60)
        hold(f"{what}: clients are answered", self.filers.until(random.randrange(30, 200)))
        sending = self.outbox.begin_round()
        while len(self.outbox.confirmed()) < before + 3 and sending.poll() is None and not deadline.is_over():
            time.sleep(0.02)
        time.sleep(random.random() / 2)
        return sending

    # ---- parts

    def planned(self):
        """A planned change: the one that serves stops first, and nobody loses power."""
        what = "a planned change"
        sending = self.begin_filing(what)
        self.take_over(self.second)
        sending.wait()
        hold(f"{what}: the outbox comes to its end", self.outbox.finish())
        self.compare(what)
        hold(f"{what}: nobody lost power", None not in (self.lab.a.process, self.lab.b.process))

    def kills(self):
        """The machine that serves is killed in the middle of all, again and again."""
        what = "a kill of the machine that serves"
        for n in range(self.given.kills):
            first = self.first
            sending = self.begin_filing(what)
            under_way = sending.poll() is None
            since = self.dies(first)
            hold(f"{what}: a round of the outbox was under way", under_way)
            time.sleep(0.3)
            told = dict(self.filers.told)
            say(f"kill {n + 1}: {first.name} is dead after {len(told)} answers")
            said = self.take_over(self.second, since=since)
            found = int((re.search(r"sound: (\d+) kept", said) or [0, 0])[1])
            died = self.rows_of_dead(first)
            keys = {(text(row[1]), text(row[2])) for row in died}
            hold(f"{what}: what was answered is on its disk, too", [it for it in told if it not in keys][:9], [])
            sending.wait()
            hold(f"{what}: the outbox comes to its end", self.outbox.finish())
            self.compare(what, (died, found))
            self.heal(first, what)

    def torn(self):
        """The cable is cut, and two seconds later the machine that serves dies: the other one has all that was
        answered."""
        what = "the cable is cut, and then the machine that serves dies"
        first = self.first
        sending = self.begin_filing(what)
        self.lab.cable(False)
        time.sleep(2)
        since = self.dies(first)
        self.take_over(self.second, since=since)
        sending.wait()
        self.compare(what)
        self.lab.cable(True)
        self.heal(first, what)

    def dead_second(self):
        """The machine that only receives is killed: the other one goes on, alarms, and the mirror is whole again."""
        what = "a kill of the second machine"
        first, second = self.first, self.second
        sending = self.begin_filing(what)
        # Of one cause there are five an hour at most, and some may have come since this machine was started.
        first.ssh("systemctl reset-failed berruzpil-alert@berruzpil-mirror-health.service.service")
        before = len(self.health_alerts(first))
        since = self.dies(second)
        hold(f"{what}: the first goes on", self.filers.until(300))
        figures["pause as the second machine dies, s"].append(self.filers.pause_since(since - 1))
        alarmed = first.until("journalctl -q -b -t berruzpil -p alert -o cat | grep -c ^berruzpil-mirror-health",
                              lambda status, said: status == 0 and int(said) > before,
                              max(0.0, since + 60 - time.monotonic()))  # fmt: skip
        hold(f"{what}: an alert within a minute", alarmed)
        figures["from the failure until the alert, s"].append(time.monotonic() - since)
        status, said = first.ssh("mirror-health")
        say(said.strip())
        hold(f"{what}: mirror-health says so", (status, "on one disk alone" in said), (1, True))
        hold(f"{what}: the numbers say so", self.numbers(first, "whole", "serves"), ["0", "1"])
        sending.wait()
        self.compare(what)
        self.heal(second, what)
        self.filers.until(50)
        self.compare(what)
        hold(f"{what}: mirror-health", first.ssh("mirror-health")[0], 0)
        hold(f"{what}: the numbers", first.until(f"grep 'whole 1' {METRICS}", seconds=60))
        self.same_disks(what)

    def health_alerts(self, machine):
        return [it for it in machine.alerts() if "berruzpil-mirror-health" in it]

    def numbers(self, machine, *names):
        said = dict(line.split() for line in machine.ssh(f"grep -v '^#' {METRICS}")[1].splitlines())
        return [said.get(f"berruzpil_mirror_{name}") for name in names]

    def same_disks(self, what):
        """Both disks have the same bytes, as DRBD compares them."""
        hold(f"{what}: all clients come to rest", self.filers.pause())
        hold(f"{what}: drbdadm verify", self.first.ssh("sync; drbdadm verify register; sleep 1")[0], 0)
        self.first.until("mirror-state", lambda _, said: said.startswith("Connected "), 300)
        hold(f"{what}: both disks are the same", self.first.state()[5:], ["0"])

    def cut_cable(self):
        """The cable is cut: the first goes on alone, and the second refuses, even once the first is dead."""
        what = "a cut of the cable"
        first, second = self.first, self.second
        sending = self.begin_filing(what)
        self.lab.cable(False)
        since = time.monotonic()
        hold(f"{what}: the first goes on", self.filers.until(300))
        figures["pause as the cable is cut, s"].append(self.filers.pause_since(since - 1))
        hold(f"{what}: the second is out of date", second.state()[2].split("/")[0], "Outdated")
        self.refuses(what, second, "the disk of this machine is Outdated")
        sending.wait()
        self.compare(what)
        hold(f"{what}: still the first", self.filers.until(20))
        self.dies(first)
        self.refuses(f"{what}, and the first is dead", second, "the disk of this machine is Outdated")
        hold(f"{what}: DRBD itself refuses", second.ssh("drbdadm primary register")[0] != 0)
        self.lab.cable(True)
        self.starts(first, what)
        self.take_over(second)
        self.compare(what)

    def hangs(self):
        """The machine that serves does nothing any more, and has power still."""
        what = "the machine that serves hangs"
        first = self.first
        sending = self.begin_filing(what)
        since = time.monotonic()
        os.kill(first.process.pid, signal.SIGSTOP)
        self.take_over(self.second, since=since)
        hold(f"{what}: it has no power now", first.process is None)
        self.deaths += first.process is None
        sending.wait()
        self.compare(what)
        self.heal(first, what)

    def isolated(self):
        """The machine that serves loses both networks, and gets them back after the other one has taken over."""
        what = "the machine that serves loses both networks"
        first = self.first
        sending = self.begin_filing(what)
        since = time.monotonic()
        for net in (0, 1):
            first.plug(net, False)
        time.sleep(3)
        self.take_over(self.second, since=since)
        was_on = first.process is not None
        for net in (0, 1):
            first.plug(net, True)
        time.sleep(5)
        hold(f"{what}: it has no power now", was_on, False)
        self.deaths += not was_on
        sending.wait()
        self.compare(what)
        if not was_on:
            self.heal(first, what)

    def cut_apart(self):
        """Neither machine sees the other one, and both see the filers: one alone serves. If the power switch does not
        answer either, nobody serves, and all goes on by itself once they see each other again."""
        what = "both are cut from each other"
        first, second = self.first, self.second
        sending = self.begin_filing(what)
        self.lab.switch_answers = False
        self.lab.apart(True)
        time.sleep(12)
        told = len(self.filers.told)
        self.refuses(f"{what}, and from the power switch", second, "is not surely down")
        hold(f"{what}: nobody was answered meanwhile", len(self.filers.told), told)
        hold(f"{what}: an alert", first.until("journalctl -q -b -t berruzpil -p alert -o cat",
                                              lambda _, said: "nobody could make sure" in said, 60))  # fmt: skip
        self.lab.apart(False)
        hold(f"{what}: it goes on by itself", self.filers.until(50))
        hold(f"{what}: the mirror is whole again", first.is_whole())
        sending.wait()
        self.compare(what)
        # The power switch answers. A human calls register-takeover on the second, while the first does what it can.
        self.lab.switch_answers = True
        self.filers.until(50)
        self.lab.apart(True)
        time.sleep(random.random() * 8)
        status, said = second.ssh("register-takeover", timeout=200) if second.process else (255, "")
        say("   ", status, said.strip().splitlines()[-1:])
        alive = [it for it in (first, second) if it.process]
        hold(f"{what}: one of them has lost its power", len(alive), 1)
        if not alive:
            raise Over(f"{what}: both have lost their power")
        self.deaths += 2 - len(alive)
        self.takeovers += alive == [second]
        self.first = alive[0]
        hold(f"{what}: the other one serves", self.filers.until(50))
        self.lab.apart(False)
        self.compare(what)
        self.heal(self.second, what)

    def both(self):
        """Both lose power: one alone refuses, and both together have everything."""
        what = "both lose power"
        first, second = self.first, self.second
        sending = self.begin_filing(what)
        for machine in random.sample([first, second], 2):
            self.dies(machine)
        hold(f"{what}: it starts again", second.boot())
        self.refuses(f"{what}, and the second is back alone", second, "the disk of this machine is Consistent")
        self.starts(first, what)
        self.take_over(random.choice([first, second]))
        sending.wait()
        self.compare(what)
        self.same_disks(what)

    def stale(self):
        """The second dies, the first serves alone and dies, and the second comes back alone."""
        what = "the second comes back alone, out of date"
        first, second = self.first, self.second
        sending = self.begin_filing(what)
        self.dies(second)
        hold(f"{what}: the first goes on", self.filers.until(100))
        self.dies(first)
        hold(f"{what}: it starts again", second.boot())
        self.refuses(what, second, "the disk of this machine is Consistent")
        hold(f"{what}: DRBD itself refuses", second.ssh("drbdadm primary register")[0] != 0)
        self.starts(first, what)
        self.take_over(second)
        sending.wait()
        self.compare(what)

    def damaged(self):
        """A register that `intake check` does not pass is not served; once it is mended, it is."""
        what = "a register that is damaged"
        first, second = self.first, self.second
        self.begin_filing(what).wait()
        self.outbox.finish()
        self.compare(what)
        hold(f"{what}: register-release", first.ssh("register-release", timeout=300)[0], 0)
        hold(f"{what}: and nobody serves", first.ssh("systemctl is-active berruzpil-intake")[1].strip(), "inactive")
        status, said = second.ssh(f"systemctl start berruzpil-mirror && cp -p {REGISTER}* /root/ && "
                                  f"python3 -c 'file = open(\"{REGISTER}\", \"r+b\"); file.seek(8192 + 60); "
                                  "file.write(bytes(99))' && sync")  # fmt: skip
        hold(f"{what}: it is damaged", (status, said), (0, ""))
        self.refuses(what, second, "intake check does not pass")
        hold(f"{what}: nobody serves", [it.ssh("systemctl is-active berruzpil-intake")[1].strip()
                                        for it in (first, second)], ["inactive", "inactive"])  # fmt: skip
        second.ssh(f"cp -p /root/register.db* {REGISTER.rpartition('/')[0]}/")
        self.take_over(second)
        self.compare(what)

    def slow(self):
        """A second machine that confirms writes late, and an intake that is killed, which comes back by itself."""
        what = "a second machine that hangs for some seconds"
        first, second = self.first, self.second
        self.filers.until(20)
        os.kill(second.process.pid, signal.SIGSTOP)
        threading.Timer(3, os.kill, (second.process.pid, signal.SIGCONT)).start()
        status, said = first.ssh("mirror-health")
        say(said.strip())
        hold(f"{what}: mirror-health says so", (status, "a write took" in said), (1, True))
        hold(f"{what}: it goes on", self.filers.until(50))
        hold(f"{what}: the mirror is whole", first.is_whole())
        what = "an intake that is killed"
        hold(f"{what}: it was there", first.ssh("pkill -9 -x intake || pkill -9 -f 'intake serve'")[0], 0)
        hold(f"{what}: it goes on", self.filers.until(50))
        self.compare(what)

    def typed(self):
        """What a human types with wrong words, or at the wrong time, is refused on one line with the next step, and
        changes nothing; the next step helps."""
        first, second = self.first, self.second
        a, b = first.name, second.name
        for machine in (first, second):
            for words, status, line in WRONG_WORDS:
                line = line.format(own=machine.name, other=machine.other.name)
                self.refuses(f"wrong words on {machine.name}", machine, line, words.format(own=machine.name), status)
        what = "on the machine that serves"
        for words in ("register-takeover", f"register-takeover --is-off {b}"):
            hold(f"{what}: {words}", first.ssh(words)[0], 0)
        what = "on the other machine"
        status, said = second.ssh("register-release")
        hold(f"{what}: register-release", (status, said),
             (0, "register-release: this machine has not got the register\n"))  # fmt: skip
        self.refuses(what, second, "another register-takeover is at work on this machine: wait until that ends",
                     "flock /run/berruzpil-takeover sleep 9 & sleep 2; register-takeover")
        hold(f"{what}: nothing was changed", (self.filers.until(20), first.is_whole(), second.process is None),
             (True, True, False))  # fmt: skip
        what = "another disk is mounted"
        second.ssh("mount -t tmpfs tmpfs /var/lib/berruzpil")
        self.refuses(what, second, "tmpfs is mounted at /var/lib/berruzpil, and not the mirrored disk: umount"
                     " /var/lib/berruzpil, and call this again")
        second.ssh("sleep 1; umount /var/lib/berruzpil")
        hold(f"{what}: the first serves on", self.filers.until(20))
        what = "a file of the register is open"
        first.ssh(f"setsid sleep 100000 < {REGISTER} > /dev/null 2>&1 &")
        open_there = f"so {a} serves on: end it there (fuser -vm /var/lib/berruzpil names it), and call this again"
        self.refuses(what, first, open_there, "register-release")
        hold(f"{what}: the first serves on", self.filers.until(20))
        self.refuses(what, second, f"{open_there}; or take its power: register-fence {a}")
        hold(f"{what}: it serves on still", self.filers.until(20))
        first.ssh("pkill -f 'sleep 100000'")
        what = "the mirror was cut by hand"
        second.ssh("drbdadm disconnect register")
        self.follow(self.refuses(what, second, "split brain): drbdadm connect register"), second)
        hold(f"{what}: it is whole again", first.is_whole())
        what = "DRBD does not run"
        second.ssh("drbdadm down register")
        self.follow(self.refuses(what, second, "does not run here: systemctl restart drbd", status=3), second)
        hold(f"{what}: it is whole again", first.is_whole())
        hold("the first serves on through all of it", self.filers.until(20))
        what = "the machine that serves was stopped"
        for said in (f"{a} has let go of the register", "this machine has not got the register"):
            hold(f"{what}: register-release", first.ssh("register-release", timeout=300),
                 (0, f"register-release: {said}\n"))  # fmt: skip
        self.take_over(first)
        self.compare("what a human types")
        what = "the power switch does not answer"
        self.lab.switch_answers = False
        sending = self.begin_filing(what)
        since = self.dies(first)
        last = self.refuses(what, second, f"{a} is not surely down")
        self.lab.switch_answers = True
        step = last.rpartition("pull its plug, and then call: ")[2]
        hold(f"{what}: the next step", step, f"register-takeover --is-off {a}")
        self.take_over(second, step.partition(" ")[2], since)
        sending.wait()
        self.compare(what)
        self.heal(first, what)

    @staticmethod
    def follow(line, machine):
        """Types the command behind the last colon of a refusal."""
        hold(f"the next step: {line}", machine.ssh(line.rpartition(": ")[2])[0], 0)

    def price(self):
        """What a mirror costs: requests a second, and how long a take-over takes with a register of each size, all of
        it by what the programs on the machines say of themselves."""
        hold("all clients come to rest", self.filers.pause())
        self.requests_a_second()
        for count in SIZES:
            self.time_take_overs(count)

    def time_take_overs(self, count):
        """A planned change, and one after a kill, while the register has so many filings."""
        first, folder = self.first, REGISTER.rpartition("/")[0]
        # In memory, where there is some, since each filing is synced.
        memory = pathlib.Path("/dev/shm")
        with tempfile.TemporaryDirectory(dir=memory if memory.exists() else self.lab.scratch) as name:
            content = make_register(self.given.intake, pathlib.Path(name), count).read_bytes()
        hold("register-release", first.ssh("register-release", timeout=300)[0], 0)
        status, said = first.ssh(
            f"systemctl start berruzpil-mirror && mkdir {folder}/aside && mv {REGISTER}* {folder}/aside/ && "
            f"cat > {REGISTER} && chown berruzpil: {REGISTER} && chmod 600 {REGISTER} && sync",
            600, content)  # fmt: skip
        hold("a register is put there", (status, said), (0, ""))
        self.timed(first)
        what = f"register-takeover with {count} filings ({len(content) / 1e6:.0f} MB), s"
        figures[f"{what}: a planned change"].append(self.timed(self.second))
        hold("the mirror is whole", self.first.is_whole())
        dead = self.first
        self.dies(dead)
        figures[f"{what}: after a kill"].append(self.timed(dead.other))
        self.heal(dead, what)
        self.first.ssh("register-release", timeout=300)
        self.first.ssh(f"systemctl start berruzpil-mirror && rm {REGISTER}* && mv {folder}/aside/* {folder}/ && "
                       f"rmdir {folder}/aside")  # fmt: skip
        self.timed(self.first)

    def timed(self, machine):
        """The seconds that register-takeover says it took."""
        status, said = machine.ssh("register-takeover", timeout=600)
        hold("register-takeover ends with 0", status, 0)
        if status:
            raise Over(said)
        self.takeovers += machine is not self.first
        self.first = machine
        return int(re.search(r"since (\d+) ms", said)[1]) / 1000

    def requests_a_second(self):
        """On the mirrored disk, and on a disk without DRBD."""
        first = self.first
        first.ssh("mkfs.ext4 -q -F -E nodiscard /dev/vdc && mkdir -p /srv/plain && "
                  "mount -o noatime /dev/vdc /srv/plain")  # fmt: skip
        serial = 0
        for turn in range(3):
            for where, folder in (("mirror", "/var/lib/berruzpil/price"), ("plain", "/srv/plain/price")):
                for clients in (1, 64):
                    serial += 1
                    said = self.load(first, folder, clients, serial)
                    hold("clients are answered", said > 0)
                    figures[f"requests a second: {where}, {clients} clients"].append(said)
        first.ssh("rm -rf /var/lib/berruzpil/price; umount /srv/plain")

    def load(self, machine, folder, clients, serial):
        """Requests a second of so many clients for ten seconds, on a register of their own, past nginx."""
        port = 8090 + serial
        program = (f"rm -rf {folder}; mkdir -p {folder} && cd {folder} && register-new r.db {port} >/dev/null 2>&1 && "
                   f"{{ setsid intake serve --db r.db --port {port} --connections 100000 >/dev/null 2>&1 </dev/null & "
                   f"p=$!; until curl -s -o /dev/null http://127.0.0.1:{port}/filings/x; do sleep 0.1; done; "
                   f"python3 - {port} {clients} 10; kill $p; wait; }}")  # fmt: skip
        status, said = machine.ssh(program, timeout=200, given=LOAD.encode())
        return float(said.strip().splitlines()[-1]) if status == 0 else 0.0


def make_register(intake, folder, count):
    """A register with so many filings, as an intake on this machine makes it: its path."""
    path, port = folder / "register.db", trials.free_port()
    serving = subprocess.Popen([intake, "serve", "--db", path, "--port", str(port), "--connections", "1", "--new"],
                               stdout=subprocess.DEVNULL, stderr=subprocess.DEVNULL)  # fmt: skip
    deadline, peer = Deadline(60), None
    while not peer and not deadline.is_over():
        with contextlib.suppress(OSError):
            peer = socket.create_connection(("127.0.0.1", port))
    with peer:
        for at in range(0, count, 100):
            numbers = range(at, min(at + 100, count))
            peer.sendall(b"".join(trials.request(f"k-{n}", report_of("ACME", n), close=False) for n in numbers))
            with peer.makefile("rb") as replies:
                for _ in numbers:
                    head = b"".join(iter(replies.readline, b"\r\n"))
                    replies.read(int(re.search(rb"(?i)content-length: (\d+)", head)[1]))
    serving.wait()
    made = subprocess.run([intake, "check", "--db", path], capture_output=True, text=True, check=False)
    hold("a register is made", made.stdout + made.stderr, f"sound: {count} kept, {count} filings\n")
    return path


# So many clients file for so many seconds, each on one connection; prints the requests a second.
LOAD = """
import re, socket, sys, threading, time
port, count, seconds = map(int, sys.argv[1:])
body, answers = %r, []
end = time.monotonic() + seconds
def file(n):
    with socket.create_connection(("127.0.0.1", port)) as peer:
        serial = done = 0
        while time.monotonic() < end:
            serial += 1
            peer.sendall(b'POST /filings/C%%03d HTTP/1.1\\r\\nHost: localhost\\r\\nIdempotency-Key: "k-%%d"\\r\\n'
                         b'Content-Length: %%d\\r\\n\\r\\n' %% (n, serial, len(body)) + body)
            held = b""
            while True:
                head, found, content = held.partition(b"\\r\\n\\r\\n")
                if found and len(content) >= int(re.search(rb"(?i)content-length: (\\d+)", head)[1]):
                    break
                held += peer.recv(65536)
            done += head.startswith(b"HTTP/1.1 201")
        answers.append(done)
them = [threading.Thread(target=file, args=(n,)) for n in range(count)]
for it in them: it.start()
for it in them: it.join()
print(sum(answers) / seconds)
""" % trials.REPORT
# How many filings a register has whose take-over is timed.
SIZES = (1_000, 10_000, 100_000)
# What is typed with wrong words: the status, and what the last line says.
WRONG_WORDS = [
    ("register-takeover now", 2, "usage: register-takeover [--is-off MACHINE]"),
    ("register-takeover --is-off", 2, "usage: register-takeover [--is-off MACHINE]"),
    ("register-takeover --is-off {own}", 2,
     "the other machine is {other}, and not {own}: register-takeover --is-off {other}"),
    ("register-takeover --is-off ''", 2,
     "the other machine is {other}, and not : register-takeover --is-off {other}"),
    ("register-release now", 2, "usage: register-release"),
    ("register-fence", 2, "usage: register-fence MACHINE"),
    ("register-fence {own}", 2, "the other machine is {other}, and not {own}"),
    ("runuser -u berruzpil -- register-takeover", 3, "run it as root"),
    ("runuser -u berruzpil -- register-release", 3, "run it as root"),
]  # fmt: skip
PARTS = ["states", "units", "planned", "kills", "torn", "dead_second", "cut_cable", "hangs", "isolated", "cut_apart",
         "both", "stale", "damaged", "slow", "typed"]  # fmt: skip


# ---- the states of a mirror, without machines

# What stands for the commands that register-takeover and its kin call, below /usr/local/sbin, where they look first.
# Each writes its words into `called`; what it prints and how it ends is in a file of its name.
STAND_IN = """#!/bin/sh
name=${0##*/}
echo "$name $*" >> /run/called
# Whether the other machine answers (`answers`), and whether one has the register's address, are asked by one program.
case "$name $*" in "arping "*-D*) ;; "arping "*) name=answers ;; esac
# No intake is active before it is started.
[ "$name $1" != "systemctl --quiet" ] || exit 3
[ ! -e "/run/said/$name" ] || { cat "/run/said/$name" | tail -n +2; exit "$(head -n 1 "/run/said/$name")"; }
"""
STOOD_FOR = ["arping", "curl", "drbdadm", "findmnt", "getent", "intake", "ip", "journalctl", "logger", "mountpoint",
             "runuser", "sleep", "ssh", "systemctl", "mirror-state", "switch"]  # fmt: skip
SITE = [
    ('"fence_ipmilan -a 192.0.2.102 -l fence -P SECRET --lanplus -o off"', '"switch"'),
    ("FIRST=a", "FIRST=$(uname -n)"),
]
ALONE = "WFConnection Secondary/Unknown UpToDate/DUnknown C r 0"
WHOLE, SERVING, SERVED = (f"Connected {roles} UpToDate/UpToDate C r 0"
                          for roles in ("Secondary/Secondary", "Primary/Secondary", "Secondary/Primary"))  # fmt: skip
# What is played: a script and its words, the state of the mirror, what commands end with otherwise than with 0, or
# print. What has to come of it: the status, a part of the last line, and whether it comes to `begun`: a unit is started
# that serves.
STATES = [
    ("register-takeover", ALONE, {}, 0, "serves since", True),
    ("register-takeover", WHOLE, {}, 0, "serves since", True),
    ("register-takeover", SERVED, {}, 0, "serves since", True),
    ("register-takeover", SERVING, {}, 0, "serves since", True),
    ("register-takeover", ALONE.replace("WFConnection", "BrokenPipe"), {}, 0, "serves since", True),
    ("register-takeover", "SyncSource Secondary/Secondary UpToDate/Inconsistent C r 9", {}, 0, "serves since", True),
    # The other one is not surely down.
    ("register-takeover", ALONE, {"switch": "1 no answer"}, 1, "b is not surely down (b may be on still: no answer):"
     " pull its plug, and then call: register-takeover --is-off b", False),
    ("register-takeover", ALONE, {"switch": "124"}, 1, "b is not surely down (b may be on still: the power switch did"
     " not answer): pull its plug", False),
    ("register-takeover", ALONE, {"arping": "1"}, 1, "b is not surely down: a machine has 192.0.2.10 still", False),
    ("register-takeover --is-off b", ALONE, {"switch": "1 no answer"}, 0, "serves since", True),
    ("register-takeover --is-off b", ALONE, {"arping": "1"}, 1, "a machine has 192.0.2.10 still", False),
    ("register-takeover", ALONE, {"answers": "0"}, 1, "b is not surely down: 192.0.2.2 answers still: pull its plug",
     False),
    ("register-takeover --is-off b", ALONE, {"answers": "0"}, 1, "192.0.2.2 answers still", False),
    # Nobody can ask it.
    ("register-takeover", ALONE, {"answers": "2 arping: Interface eth0 is down"}, 1, "b is not surely down: nobody can"
     " ask on eth0 (arping: Interface eth0 is down): mend that, and call this again", False),
    ("register-takeover", WHOLE, {"arping": "127 arping: not found"}, 1, "b is not surely down: nobody can ask on eth0"
     " (arping: not found)", False),
    ("register-takeover", ALONE, {"getent": "2"}, 1, "b is not surely down: its name has no address here", False),
    ("register-takeover --is-off c", ALONE, {}, 2, "the other machine is b, and not c: register-takeover --is-off b",
     False),
    ("register-takeover --is-off", ALONE, {}, 2, "usage: register-takeover", False),
    ("register-takeover --off b", ALONE, {}, 2, "usage: register-takeover", False),
    ("register-takeover", SERVED, {"ssh": "255", "switch": "1"}, 1, "b is not surely down", False),
    ("register-takeover", SERVED, {"ssh": "2 mirror-asked: refused"}, 1,
     "b serves on: mirror-asked: refused; or take its power: register-fence b", False),
    ("register-takeover", SERVED, {"ssh": "255"}, 1, "it answers over the cable still", False),
    ("register-takeover", SERVED, {"ssh": "1 register-release: something has a file open"}, 1,
     "b serves on: something has a file open; or take its power: register-fence b", False),
    ("register-takeover", ALONE.replace("Secondary", "Primary").replace("C r", "C s"), {"switch": "1"}, 1,
     "b is not surely down", False),
    ("register-takeover", ALONE.replace("Secondary", "Primary").replace("C r", "C s"), {}, 0, "serves since", True),
    # The disk of this machine may lack filings.
    *(("register-takeover", f"{connection} Secondary/{peer} {disk}/{other} C r 0", {}, 1,
       f"the disk of this machine is {disk}, so filings that were answered may be missing here: start b", False)
      for disk in ("Consistent", "Outdated", "Inconsistent", "Diskless", "Failed", "Attaching", "Negotiating")
      for connection, peer, other in [("WFConnection", "Unknown", "DUnknown"), ("Connected", "Primary", "UpToDate")]),
    ("register-takeover", "SyncTarget Secondary/Primary Inconsistent/UpToDate C r 9", {}, 1, "is Inconsistent", False),
    ("register-takeover", ALONE.replace("WFConnection", "StandAlone"), {}, 1, "split brain", False),
    ("register-takeover", SERVING.replace("Connected", "StandAlone"), {}, 1, "split brain", False),
    ("register-takeover", ALONE.replace(" C ", " A "), {}, 1, "the protocol of the mirror is A and not C, so filings"
     " that were answered may be missing here: start b", False),
    ("register-takeover", SERVED.replace(" C ", " A "), {"ssh": "255"}, 1, "the protocol of the mirror is A", False),
    ("register-takeover", SERVED.replace(" C ", " A "), {}, 0, "serves since", True),
    # Another disk is there in its place, or none.
    ("register-takeover", WHOLE, {"findmnt": "0 /dev/vdb1"}, 1, "/dev/vdb1 is mounted at /var/lib/berruzpil, and not"
     " the mirrored disk: umount", False),
    # This is asked before the other one is.
    ("register-takeover", SERVED, {"findmnt": "0 tmpfs", "ssh": "1 no"}, 1, "tmpfs is mounted at /var/lib/berruzpil,"
     " and not the mirrored disk: umount /var/lib/berruzpil, and call this again", False),
    ("register-takeover", SERVING, {"findmnt": "1"}, 1, "nothing is mounted at /var/lib/berruzpil, and not the mirrored"
     " disk: systemctl restart berruzpil-mirror, and call this again", False),
    # The register is not served.
    ("register-takeover", ALONE, {"runuser": "1 damaged at row 3"}, 1,
     "intake check does not pass /var/lib/berruzpil/register.db (damaged at row 3)", False),
    ("register-takeover", WHOLE, {"runuser": "3 another program has it open"}, 1, "intake check does not pass", False),
    ("register-takeover", "", {"mirror-state": "3"}, 3, "", False),
    # What DRBD calls. The status is what it goes by: 4 and 7 let this machine write.
    ("register-fence-peer", ALONE, {}, 7, "", False),
    ("register-fence-peer", ALONE, {"switch": "1"}, 1, "", False),
    ("register-fence-peer", ALONE.replace("Secondary", "Primary"), {}, 4, "", False),
    ("register-fence-peer", ALONE.replace("Secondary", "Primary"), {"ssh": "5"}, 7, "", False),
    ("register-fence-peer", ALONE.replace("Secondary", "Primary"), {"ssh": "255", "switch": "3"}, 1, "", False),
    ("register-fence-peer", ALONE.replace("UpToDate", "Consistent"), {}, 1, "", False),
    ("register-fence-peer", ALONE.replace("UpToDate", "Outdated").replace("Secondary", "Primary"), {}, 1, "", False),
    ("register-fence-peer", "", {"mirror-state": "3"}, 1, "", False),
    ("register-fence b", "", {}, 0, "b is off", False),
    ("register-fence b", "", {"switch": "1 is on"}, 1, "b may be on still: is on", False),
    ("register-fence c", "", {}, 2, "the other machine is b, and not c", False),
    ("register-fence", "", {}, 2, "usage: register-fence MACHINE", False),
    # Steps back only if it has let go of the disk.
    ("register-release", SERVING, {"mountpoint": "1"}, 0, "has let go of the register", False),
    ("register-release", SERVING, {}, 1, "has a file below /var/lib/berruzpil open, so", True),
    ("register-release", SERVING, {"mountpoint": "1", "drbdadm": "11"}, 1, "serves on", True),
    ("register-release", WHOLE, {}, 0, "this machine has not got the register", False),
    ("register-release", SERVING.replace("C r", "C s"), {}, 1, "nothing is written here until b is surely down", False),
    ("register-release now", SERVING, {}, 2, "usage: register-release", False),
    # Alarms unless everything is on both disks at once.
    ("mirror-health", WHOLE, {}, 0, "Connected, Secondary/Secondary, UpToDate/UpToDate", False),
    ("mirror-health", SERVING, {}, 0, "Connected, Primary/Secondary, UpToDate/UpToDate", False),
    ("mirror-health", SERVING, {"findmnt": "0 /dev/vdb"}, 1, "/var/lib/berruzpil is not the mirrored disk", False),
    ("mirror-health", SERVING.replace(" C ", " A "), {}, 1, "the protocol is A", False),
    ("mirror-health", SERVED.replace("C r", "C s"), {}, 1, "nothing is written until the other machine", False),
    ("mirror-health", ALONE, {}, 1, "what is filed now is on one disk alone", False),
    ("mirror-health", "SyncSource Secondary/Primary UpToDate/Inconsistent C r 12", {}, 1,
     "12 KiB behind: the second disk is being brought up to date", False),
    ("mirror-health", ALONE.replace("WFConnection", "StandAlone").replace("C", "?"), {}, 1,
     "what is filed now is on one disk alone", False),
    ("mirror-health", "", {"mirror-state": "3"}, 3, "", False),
    ("mirror-health a b", WHOLE, {}, 2, "usage: mirror-health", False),
]  # fmt: skip
# What DRBD 8.4 has in /proc/drbd after two lines on itself, and the line that mirror-state makes of it, if any.
MIRRORS = [
    (" 0: cs:Connected ro:Primary/Secondary ds:UpToDate/UpToDate C r-----\n"
     "    ns:28664 nr:3228 dw:44268 dr:1782 al:13 bm:0 lo:0 pe:0 ua:0 ap:0 ep:1 wo:f oos:0\n",
     "Connected Primary/Secondary UpToDate/UpToDate C r 0"),
    (" 0: cs:WFConnection ro:Primary/Unknown ds:UpToDate/DUnknown C s-----\n"
     "    ns:0 nr:0 dw:8 dr:1782 al:13 bm:0 lo:0 pe:0 ua:0 ap:0 ep:1 wo:f oos:1240\n",
     "WFConnection Primary/Unknown UpToDate/DUnknown C s 1240"),
    # Without settings of the network there is no protocol.
    (" 0: cs:StandAlone ro:Primary/Unknown ds:UpToDate/DUnknown   r-----\n"
     "    ns:0 nr:0 dw:8 dr:1782 al:13 bm:0 lo:0 pe:0 ua:0 ap:0 ep:1 wo:f oos:12\n",
     "StandAlone Primary/Unknown UpToDate/DUnknown ? r 12"),
    (" 0: cs:Unconfigured\n", ""),
    ("", ""),
]
# Whatever serves: the disk, an intake or the address, but no question of whether one is there.
BEGUN = re.compile(r"(?m)^systemctl start berruzpil-(intake|address)")


def play_states(deploy, script="", word=""):
    """Each of STATES, in namespaces of its own; or those of a script that have a word in them."""
    with tempfile.TemporaryDirectory() as name:
        folder = pathlib.Path(name)
        folder.chmod(0o755)
        for it in ("sbin", "bin", "etc", "run/said"):
            (folder / it).mkdir(parents=True)
        for it in STOOD_FOR:
            (folder / "sbin" / it).write_text(STAND_IN)
            (folder / "sbin" / it).chmod(0o755)
        for it in [*deploy.glob("register-*"), *deploy.glob("mirror-*")]:
            shutil.copy(it, folder / "bin")
        site = (deploy / "berruzpil-mirror.conf").read_text()
        for old, new in SITE:
            site = site.replace(old, new)
        (folder / "etc/mirror").write_text(site)
        for words, state, ends, *wanted in STATES:
            if words.startswith(script) and word in f"{state} {ends} {wanted}":
                play_state(folder, words, state, ends, tuple(wanted))
        for said, line in MIRRORS if script in ("", "mirror-state") else []:
            (folder / "etc/drbd").write_text(f"version: 8.4.11 (api:1/proto:86-101)\nsrcversion: 059B1B4\n{said}")
            words = ["unshare", "--mount", "--propagation", "private", "sh", "-c",
                     'mount --bind "$0/etc" /proc && exec "$0/bin/mirror-state"', folder]  # fmt: skip
            done = subprocess.run(words, stdout=subprocess.PIPE, stderr=subprocess.DEVNULL, text=True, check=False)
            hold(f"mirror-state, of {said!r}", (done.returncode, done.stdout.strip()), (0 if line else 3, line))
    say("the states of a mirror were played")


def play_state(folder, words, state, ends, wanted):
    """One of STATES. /usr/local and /run are folders of its own, and so is /etc/berruzpil."""
    for it in (folder / "run/said").iterdir():
        it.unlink()
    given = ", ".join(ends) or "none"
    ends = {"mirror-state": f"0 {state}", "runuser": "0 sound: 2 kept, 1 filings", "systemctl": "0 active",
            "mountpoint": "0", "ip": "0", "findmnt": "0 /dev/drbd0", "getent": "0 192.0.2.2 STREAM b", "answers": "1",
            **ends}  # fmt: skip
    for program, end in ends.items():
        (folder / "run/said" / program).write_text(end.replace(" ", "\n", 1) + "\n" * (" " in end))
    (folder / "run/called").write_text("")
    script = ("for it in sbin bin; do mount --bind $0/$it /usr/local/$it; done && mount --bind $0/run /run && "
              "mkdir -p /etc/berruzpil && mount --bind $0/etc /etc/berruzpil && exec \"$@\"")  # fmt: skip
    done = subprocess.run(["unshare", "--mount", "--propagation", "private", "sh", "-c", script, folder,
                           *f"/usr/local/bin/{words}".split()], stdin=subprocess.DEVNULL, capture_output=True,
                          text=True, timeout=60 * PATIENCE, check=False)  # fmt: skip
    said = (done.stdout + done.stderr).strip().splitlines() or [""]
    called = (folder / "run/called").read_text()
    found = done.returncode, wanted[1] if wanted[1] in said[-1] else said[-1], bool(BEGUN.search(called))
    hold(f"{words}, while the mirror is {state}, and {given} fail", found, wanted)


# ---- the units, on one machine without a mirror

# What stands for DRBD on a container: the roles are in a file, and the mirrored disk is a folder.
STANDS_FOR_DRBD = {
    "drbdadm": "case $1 in primary) echo Primary > /run/role ;; secondary) echo Secondary > /run/role ;; esac",
    "mirror-state": f"cat /run/state 2> /dev/null || echo '{WHOLE}' | sed \"s,Secondary/,$(cat /run/role)/,\"",
    "mount": 'case "$*" in *drbd0*) exec /bin/mount --bind /srv /var/lib/berruzpil ;; esac; exec /bin/mount "$@"',
    "findmnt": "echo /dev/drbd0",
    "arping": "exit 0",
}
ACTIVE = "for it in intake mirror address; do systemctl is-active berruzpil-$it; done"
ANSWERS = "until curl -s -o /dev/null http://127.0.0.1:8080/filings/x; do sleep 0.2; done"
HAS_ADDRESS = "ip -o -4 address show lo | grep -c ' 192.0.2.10/24 '"
ALERTS = "journalctl -q -t berruzpil -p alert -o cat"
# What is pasted, one after the other, and a part of what it prints.
UNITS = [
    ("systemctl start berruzpil-intake; systemctl is-active berruzpil-intake", "inactive\n"),
    ("systemctl start berruzpil-health@8080 && " + ALERTS + " | wc -l", "0\n"),
    ("systemctl start berruzpil-mirror && install -d -o berruzpil -g berruzpil -m 0750 /var/lib/berruzpil && "
     f"runuser -u berruzpil -- register-new {REGISTER} 8080 2> /dev/null", "sound: 0 kept, 0 filings\n"),
    ("register-takeover", "register.db: sound: 0 kept, 0 filings\nregister-takeover: a serves since"),
    (f"{ACTIVE}; {HAS_ADDRESS}", "active\nactive\nactive\n1\n"),
    ("register-takeover", "register-takeover: a serves since"),
    ("mirror-health /run/numbers > /dev/null; cut -d' ' -f1 /run/numbers", "berruzpil_mirror_write_seconds\n"),
    # It is started again, and the address stays.
    (f"systemctl kill --signal=KILL berruzpil-intake; sleep 1; {ANSWERS}; {ACTIVE}; {HAS_ADDRESS}",
     "active\nactive\nactive\n1\n"),
    (f"setsid sleep 1000 < {REGISTER} > /dev/null 2>&1 & sleep 0.5; register-release", "so a serves on: end"),
    (f"{ANSWERS}; {ACTIVE}", "active\nactive\nactive\n"),
    (f"pkill sleep; sleep 1; register-release; cat /run/role; {ACTIVE}; {HAS_ADDRESS}; mountpoint /var/lib/berruzpil",
     "a has let go of the register\nSecondary\ninactive\ninactive\ninactive\n0\n/var/lib/berruzpil is not a"),
    ("systemctl start berruzpil-health@8080; systemctl is-failed berruzpil-health@8080", "inactive\n"),
    (f"register-takeover; {ANSWERS}; {ACTIVE}", "active\nactive\nactive\n"),
    # The timer raises the alert.
    (f"echo '{ALONE}' > /run/state; systemctl start berruzpil-mirror-health.timer; sleep 45; {ALERTS}",
     "berruzpil-mirror-health.service failed"),
    (f"grep whole {METRICS}", "berruzpil_mirror_whole 0\n"),
]  # fmt: skip


def packages_of_container():
    return check_first_days.Page(machines.ROOT).packages() - {"drbd-utils", "iputils-arping", "openssh-server"}


def play_units(given, deploy):
    """The units and what is called by hand, by a systemd in a container, with the built intake."""
    page = check_first_days.Page(machines.ROOT)
    base = machines.base_for_booting(packages_of_container())
    run("mkdir", "-p", "/run/netns")
    run("mount", "-t", "tmpfs", "tmpfs", "/run/netns")
    machine = machines.Booted("a", base, deploy.parent, (given.intake, given.outbox))
    for name, script in STANDS_FOR_DRBD.items():
        machine.write(f"/usr/local/sbin/{name}", f"#!/bin/sh\n{script}\n", 0o755)
    for file in (given.intake, *given.beside):
        machine.write(f"/usr/local/bin/{file.name}", "")
        shutil.copy(file, machine.file(f"/usr/local/bin/{file.name}"))
    try:
        machine.boot()
        machine.paste("useradd --system --home-dir /var/lib/berruzpil --shell /usr/sbin/nologin berruzpil; "
                      "install -d -o berruzpil -g berruzpil -m 0750 /var/lib/berruzpil; ip link set lo up; "
                      "echo Secondary > /run/role")  # fmt: skip
        files = [command for command, _ in page.block(SECTION, ". /etc/berruzpil/mirror\n    sed")]
        names = [command for command, _ in page.block(SECTION, "apt-get install -y drbd-utils")][1:]
        with machines.Shell(machine) as shell:
            for command in [*names, "sed -i s/INTERFACE=eth0/INTERFACE=lo/ /etc/berruzpil/mirror", *files[2:]]:
                if not command.startswith(("drbdadm", "systemctl enable", "[ -e")):
                    hold(f"the page: {command}", shell.paste(command), (0, ""))
        for command, wanted in UNITS:
            status, printed = machine.paste(command)
            hold(f"on a container: {command}", printed if wanted not in printed else wanted, wanted)
    finally:
        group = machine.group.parent
        machine.leave()
        machines.remove_groups(group)
    say("the units were played on a container")


# ---- planted faults


def plain_disk(play):
    """A disk without the mirror on each machine, with a file system; the second has an empty register there."""
    for it in (play.lab.a, play.lab.b):
        it.ssh("mkfs.ext4 -q -F -E nodiscard /dev/vdc")
    hold("a register beside the mirror", play.lab.b.ssh(
        "mount /dev/vdc /mnt && chown berruzpil: /mnt && chmod 750 /mnt && "
        "runuser -u berruzpil -- register-new /mnt/register.db 8080; umount /mnt")[0], 0)  # fmt: skip


class Fault(typing.NamedTuple):
    """A fault to plant: the part that has to fail; files of deploy/ (of berruzpil-mirror.conf what stands for what in
    the names of a site), which text in each becomes which; and a part of the name of the check that has to fail, or of
    STATES a word of those that are played, of which one has to. `prepare` is called before the register is made."""

    part: str
    edits: list
    seen: str
    prepare: typing.Callable = None


def in_states(file, old, new, word):
    return Fault("states", [(file, old, new)], word)


FAULTS = {
    "fencing that answers yes without doing it": Fault(
        "isolated", [("berruzpil-mirror.conf", "curl -sSf", "true")], "it has no power now"),
    # With the fencing of that file DRBD refuses this protocol.
    "protocol A, and nobody asks for it": Fault(
        "torn", [("drbd-register.res", "protocol C;", "protocol A;"),
                 ("drbd-register.res", "fencing resource-and-stonith;", "fencing resource-only;"),
                 ("register-takeover", '[ "$protocol" = C ]', "true")], "are missing"),
    "a mount without the mirror, and nobody asks for it": Fault(
        "kills", [("berruzpil-mirror.service", "errors=panic /dev/drbd0", "errors=panic /dev/vdc"),
                  ("register-takeover", '[ "$1" = /dev/drbd0 ]', "true")], "are missing", plain_disk),
    "a mirror that does not fence": Fault(
        "cut_cable", [("drbd-register.res", "fencing resource-and-stonith;", "fencing dont-care;")],
        "the second is out of date"),
    "a take-over of a disk that is out of date": Fault(
        "stale", [("register-takeover", "*:UpToDate/*)", "*) drbdadm primary --force register;")],
        "register-takeover refuses"),
    "nobody asks about the mirror": Fault(
        "dead_second", [("berruzpil-mirror-health.timer", "OnCalendar=*:*:0/30", "OnCalendar=monthly")],
        "an alert within a minute"),
    "a disk that is out of date is taken": in_states(
        "register-takeover", "*:UpToDate/*)", "*:UpToDate/* | *:Outdated/*)", "is Outdated"),
    "nobody asks who has the address": in_states(
        "register-takeover", 'if [ -z "$(ip', 'if false && [ -z "$(ip', "has 192.0.2.10 still"),
    "who cannot be asked counts as down": in_states(
        "register-takeover", "1) return 1 ;;\n        *)", "*) return 1 ;;\n        9)", "nobody can ask"),
    "a power switch without an answer is believed": in_states(
        "register-fence", "timeout 60 sh -c \"$POWER_OFF\" 2>&1) || {", "sh -c \"$POWER_OFF\") || true || {",
        "may be on still"),
    "DRBD is told that all is well whatever comes": in_states(
        "register-fence-peer", "\nexit 1\n", "\nexit 7\n", "switch"),
    "a split brain is gone over": in_states("register-takeover", "!= StandAlone", "!= Alone", "split brain"),
    "a register that is damaged is served": in_states(
        "register-takeover", "$(runuser -u", "$(true runuser -u", "intake check does not pass"),
    "a power switch that lies is believed": in_states("register-takeover", "    ! answers ||", "    true ||",
                                                      "answers still"),
    "what an asynchronous mirror has is served": in_states(
        "register-takeover", '[ "$protocol" = C ]', "true", "the protocol of"),
    "whatever is mounted is served": in_states("register-takeover", '[ "$1" = /dev/drbd0 ]', "true", "is mounted at"),
    "the disk was not let go of": in_states(
        "register-release", "&& ! mountpoint -q /var/lib/berruzpil && drbdadm", "; drbdadm", "a file below"),
    "a mirror without a protocol has five words": in_states("mirror-state", " | sed 's/   / ? /'", "", ""),
    "an asynchronous mirror is whole": in_states(
        "mirror-health", "UpToDate/UpToDate:C:r)", "UpToDate/UpToDate:*:r)", "the protocol is A"),
    "another disk is mounted": in_states("mirror-health", "!= /dev/drbd0", "= /dev/null", "not the mirrored disk"),
}  # fmt: skip


def with_fault(fault, folder):
    """A copy of deploy/ with the fault."""
    deploy = folder / "deploy"
    shutil.copytree(machines.ROOT / "deploy", deploy)
    for file, old, new in fault.edits:
        if file == "berruzpil-mirror.conf":
            NAMES[:] = [(before, after.replace(old, new)) for before, after in NAMES]
            continue
        content = (deploy / file).read_text()
        if content.count(old) != 1:
            raise SystemExit(f"{file} has {content.count(old)} times: {old}")
        (deploy / file).write_text(content.replace(old, new))
    return deploy


def plant(given):
    """Each fault in a run of its own, in which the check that is meant has to fail."""
    missed = []
    for name in (it for it in FAULTS if not given.part or any(word in it for word in given.part)):
        words = [sys.executable, "-u", __file__, "--fault", name, "--kills", "1", "--memory", given.memory,
                 "--beside", *given.beside, "--", given.intake, given.outbox]  # fmt: skip
        done = subprocess.run(list(map(str, words)), stdout=subprocess.PIPE, stderr=subprocess.STDOUT, text=True)
        found = re.findall(r"(?m)^failed: (.*)$", done.stdout)
        meant = [it for it in found if FAULTS[name].part == "states" or FAULTS[name].seen in it.split(": '")[0]]
        is_seen = done.returncode == 1 and meant
        print(f"{'ok' if is_seen else 'failed'}: {name}: " + (meant or found or [done.stdout[-300:]])[0], flush=True)
        missed += [] if is_seen else [name]
    print(f"{len(missed)} failed")
    return 1 if missed else 0


def play(given):
    random.seed(given.seed)
    say(f"anything may take {PATIENCE:.1f} times as long as on a machine with nothing else to do")
    with tempfile.TemporaryDirectory() as folder:
        deploy, parts, given.prepare = machines.ROOT / "deploy", given.part or PARTS, None
        if given.fault:
            fault = FAULTS[given.fault]
            deploy, parts, given.prepare = with_fault(fault, pathlib.Path(folder)), [fault.part], fault.prepare
            awaited[:] = [fault.seen] if fault.part != "states" else []
        if "states" in parts:
            play_states(deploy, *([fault.edits[0][0], fault.seen] if given.fault else []))
        if "units" in parts:
            try:
                play_units(given, deploy)
            except NotPossible as fault:
                print(f"not tried: units: {fault}")
        parts = [it for it in parts if it not in ("states", "units")]
        if parts:
            play_on_machines(given, deploy, parts)
    print(f"{sum(passed.values())} passed, {len(failed)} failed", flush=True)
    return 1 if failed else 0


def play_on_machines(given, deploy, parts):
    lab = Lab([given.intake, *given.beside], deploy, given.size, given.memory)
    it = Play(lab, given)
    try:
        it.begin()
        if given.filings:
            hold("the filings to begin with", it.filers.until(given.filings, 1800))
        for part in parts:
            say(f"part {part}")
            getattr(it, part)()
        if not given.fault:
            hold("the end: the outbox comes to its end", it.outbox.finish())
            filed = it.compare("the end")
            hold("the end: each entry is filed once", filed, it.outbox.count)
            numbers = {number for _, number, _ in it.outbox.confirmed()}
            hold("the end: each entry is confirmed under a number of its own", len(numbers), it.outbox.count)
    except Seen:
        say("the planted fault was seen")
    except Over as fault:
        failed.append(str(fault))
        say(f"the play is over: {fault}")
        for machine in (lab.a, lab.b) if not given.fault else ():
            machine.explain()
    finally:
        it.filers.has_ended = it.watch.has_ended = True
        lab.leave()
    for what, them in figures.items():
        them.sort()
        print(f"{what}: {len(them)} times, least {them[0]:.1f}, median {them[len(them) // 2]:.1f}, most {them[-1]:.1f}")
    print(f"{it.deaths} times a machine lost its power, {it.takeovers} take-overs; {len(it.filers.told)} answers 201,"
          f" {it.filers.repeats} of them to a repeat; {it.outbox.count} entries of the outbox;"
          f" other answers {dict(it.filers.failures)}")  # fmt: skip


def main(words):
    parser = argparse.ArgumentParser(description=__doc__, formatter_class=argparse.RawDescriptionHelpFormatter)
    parser.add_argument("intake", type=pathlib.Path, metavar="INTAKE")
    parser.add_argument("outbox", type=pathlib.Path, metavar="OUTBOX")
    parser.add_argument("part", nargs="*", metavar="PART")
    parser.add_argument("--planted", action="store_true", help="plant faults; PART is a word of their names")
    parser.add_argument("--kills", type=int, default=12, help="of the part `kills` (12)")
    parser.add_argument("--clients", type=int, default=64)
    parser.add_argument("--filings", type=int, default=0, help="so many before the first part")
    parser.add_argument("--seed", type=int, default=1)
    parser.add_argument("--size", type=int, default=128, help="megabytes of the mirrored disk (128)")
    parser.add_argument("--memory", type=int, default=384, help="megabytes of each machine (384)")
    parser.add_argument("--patience", type=float, metavar="N",
                        help="anything may take N times longer (as is measured at the start)")
    parser.add_argument("--fault", choices=FAULTS, help="one planted fault, and its part alone")
    parser.add_argument("--beside", type=pathlib.Path, nargs="*", default=[],
                        help="files for /usr/local/bin of the machines, as those of a stand-in for the intake")
    given = parser.parse_args(words)
    if not given.planted and (unknown := set(given.part) - {*PARTS, "price"}):
        parser.error(f"no part: {', '.join(sorted(unknown))}; there are {', '.join(PARTS)} and price")
    given.intake, given.outbox = given.intake.resolve(), given.outbox.resolve()
    if given.patience:
        os.environ["BERRUZPIL_PATIENCE"] = str(given.patience)
    elif not given.planted:
        os.environ.setdefault("BERRUZPIL_PATIENCE", f"{max(1.0, mirrored_machines.slowness()):.1f}")
    try:
        if why := mirrored_machines.lacking():
            raise NotPossible(why)
        if given.planted:
            return plant(given)
        parts = {*([FAULTS[given.fault].part] if given.fault else given.part or PARTS)}
        # What is fetched has to be there before this is apart, from the network too.
        if machines.APART not in os.environ:
            if "units" in parts and not machines.absent(machines.NEEDED_TO_BOOT):
                with contextlib.suppress(NotPossible):
                    machines.base_tree(packages_of_container())
            if parts - {"states", "units"}:
                mirrored_machines.base()
                if not mirrored_machines.BY_QEMU:
                    mirrored_machines.try_kernel()
        status = mirrored_machines.apart()
        return play(given) if status is None else status
    except NotPossible as fault:
        print(f"nothing was tried: {fault}")
        return 77


if __name__ == "__main__":
    sys.exit(main(sys.argv[1:]))
