#!/usr/bin/env python3
"""Plays schedules with the built programs, and stops each end at each of its calls to the disk.

    tools/check_stops.py [--every N] [--clients N] [--intake PROGRAM] [SCHEDULE ..]
    tools/check_stops.py --planted [WORD ..]            whether `groups` sees each fault of its stand-in, or those with
                                                        one of these words

A schedule is one of SCHEDULES below: reports are put into outboxes and sent, requests are cut or repeated, replies are
lost. It is played once without a stop, and once for each call of an end that changes its files: strace kills the run
on its way into that call. What lies there then is made in three forms: all that was written; what was synced alone;
and of the rest each second write. Each is opened again, and the schedule is played on, from the step that was stopped.
What both ends show after the stop and at the end has to be what `drill` shows of the schedule with a stop before the
request or after it; what was answered or printed before the stop has to be there.

Besides there is the schedule `groups`: 64 clients file at once, or as many as --clients says, and the intake is stopped
at each call from their first request on. That it keeps several requests with one sync is held to the run without a
stop. After a stop `intake check` finds each form sound, each report whose reply a client had read whole is there as
that reply says, none is there twice, and the numbers are without a gap. Then the clients send all requests, those
before the stop too, to an intake over it: each gets one answer, which is that of before if there was one, and each
report is there once. With --planted the intake is tools/grouping_stand_in.py, which has one fault after the other: each
has to make a check fail, and without a fault all have to pass.

It takes the programs that `rt run` builds, or PROGRAM in place of the intake, sqlite3 of Python, and strace. Files are
made again from what strace saw of the calls: no power is cut, and no file system loses anything by itself, as the last
line says, beside what a stand-in replaced. With --every N it stops at each Nth call. Status 1 if something else is
shown.
"""
import argparse
import collections
import contextlib
import os
import pathlib
import re
import shutil
import socket
import sqlite3
import subprocess
import sys
import tempfile
import threading
from dataclasses import dataclass, replace

import grouping_stand_in
import trials
from trials import DRILL, OUTBOX, ROOT, SMALLEST, free_port, request, run

REFUSED = SMALLEST.replace(b"2021", b"1999")
# The calls by which a run changes its files, each with what makes strace look at it alone.
CALLS = ["openat", "pwrite64", "fsync", "fdatasync", "ftruncate"]
# Those by which it could, but does not.
OTHERS = [
    "pwritev", "pwritev2", "unlink", "unlinkat", "rename", "renameat2", "truncate", "fallocate", "copy_file_range",
]  # fmt: skip
FILERS = ["ACME", "BETA"]
STATES = ["open", "confirmed", "refused", "clash"]


# ---- schedules


@dataclass(frozen=True)
class Put:
    """A report is put into an outbox, maybe to replace a filing."""

    outbox: int
    key: str
    report: bytes = SMALLEST
    replaces: int | None = None


@dataclass(frozen=True)
class Send:
    """An entry is sent: so many bytes of its request are delivered, once or twice, and so many of the last reply are
    handed back; all, if no number is given."""

    outbox: int
    entry: int
    request: int | None = None
    reply: int | None = None
    times: int = 1


@dataclass(frozen=True)
class Restart:
    """The intake is ended and started again."""


SCHEDULES = {
    "repeats": [
        Put(1, "k-1"), Send(1, 1, reply=0), Put(2, "k-1"), Send(2, 1, times=2), Send(1, 1), Restart(), Put(1, "k-2"),
        Send(1, 2, request=100), Send(1, 2),
    ],
    "refusals": [
        Put(1, "k-1", REFUSED), Put(1, "k-2"), Send(1, 1, reply=60), Send(1, 2, times=2), Restart(), Send(1, 1),
        Put(1, "k-3", REFUSED), Send(1, 3),
    ],
    "replacements": [
        Put(1, "k-1"), Put(1, "k-2", replaces=1), Send(1, 1), Send(1, 2, reply=0), Put(1, "k-3", replaces=1),
        Send(1, 3), Send(1, 2), Restart(), Put(1, "k-4", replaces=2), Send(1, 4, times=2),
    ],
}  # fmt: skip


# ---- what drill shows


class Script:
    """The events of a schedule, in the words of drill."""

    def __init__(self, outboxes):
        self.lines = [f"outbox {FILERS[number]}" for number in range(outboxes)]
        self.items = self.outputs = 0

    def copy(self):
        other = Script(0)
        other.lines, other.items, other.outputs = list(self.lines), self.items, self.outputs
        return other

    def add(self, *lines):
        self.lines += lines
        return self

    def deliver(self, words):
        self.outputs += 1
        return self.add(f"deliver {self.items} {words}")

    def send(self, step):
        """The entry is sent, and the request delivered, but for the last time."""
        self.items += 1
        self.add(f"send {step.outbox} {step.entry}")
        for _ in range(step.times - 1):
            self.deliver("all")
        return self

    def play(self, step):
        if isinstance(step, Put):
            number = f" {step.replaces}" if step.replaces else ""
            word = "amend" if step.replaces else "put"
            return self.add(f'{word} {step.outbox}{number} "{step.key}" {step.report.decode()}')
        if isinstance(step, Restart):
            return self.add("restart server")
        self.send(step).deliver("all" if step.request is None else step.request)
        return self.add(f"hand {self.outputs} {'all' if step.reply is None else step.reply}")

    def shown(self):
        """The filings and the entries in the end."""
        done = run(DRILL, given="".join(f"{line}\n" for line in self.lines).encode())
        if done.returncode:
            raise ValueError(f"drill: {done.stderr.decode()}")
        return [line for line in done.stdout.decode().splitlines() if not line.startswith("done")]


def stops_of_intake(script, step):
    """The scripts of a step in which the intake stops, with what was answered by then."""
    found = [(script.copy().add("restart server"), 0)]
    if isinstance(step, Send):
        for times in range(1, step.times + 1):
            begun = replace(step, times=times)
            for words, answered in (("before 1", times - 1), ("after 1", times - 1), ("", times)):
                # (a request that is cut is not completed)
                if step.request is None:
                    other = script.copy().send(begun).deliver(f"all {words}".strip())
                    found.append((other.add("restart server"), answered))
        if step.request is None:
            other = script.copy().play(step)
            found.append((other.add("restart server"), step.times))
        else:
            found.append((script.copy().send(step).deliver(step.request).add("restart server"), 0))
    return found


def stops_of_outbox(script, step):
    """The scripts of a step in which the outbox stops, with whether it is said to be done by then."""
    restart = f"restart outbox {step.outbox}"
    found = [(script.copy().add(restart), False)]
    if isinstance(step, Put):
        return [*found, (script.copy().play(step).add(restart), True)]
    for times in range(1, step.times + 1):
        other = script.copy().send(replace(step, times=times))
        found.append((other.deliver("all" if step.request is None else step.request).add(restart), False))
    for word in ("before", "after"):
        other = script.copy().send(step).deliver("all" if step.request is None else step.request)
        reply = "all" if step.reply is None else step.reply
        found.append((other.add(f"hand {other.outputs} {reply} {word}", restart), word == "after"))
    return found


# ---- files, as they may lie after a stop


def plain(text):
    """The bytes of a text that strace wrote in hexadecimal digits."""
    return bytes.fromhex(text.replace("\\x", ""))


class Files:
    """What a run made of the files in a folder, by the calls that strace saw."""

    # A call, its words, what it gave (`?` if it was stopped), and the file that it opened. strace writes each text in
    # hexadecimal digits.
    LINE = re.compile(r"\d+ +(\w+)\((.*)\) += (-?\d+|\?)(?:<(.*?)>)?")

    def __init__(self, folder):
        self.folder = folder
        self.begun = {path.name: path.read_bytes() for path in folder.iterdir()}
        self.made = []

    def read(self, log):
        """Reads what happened after the files were first seen, and gives how often each call was made."""
        counts = dict.fromkeys(CALLS, 0)
        for line in log.read_text(encoding="ascii").splitlines():
            if found := self.LINE.match(line):
                call, words, result, opened = found.groups()
                if call not in counts:
                    raise ValueError(f"{call} is not known here")
                counts[call] += 1
                path = pathlib.Path(plain(opened or words.partition("<")[2].partition(">")[0]).decode())
                if result.isdigit() and path.parent == self.folder:
                    self.made.append(self.change(call, path.name, words, int(result)))
        return counts

    @staticmethod
    def change(call, name, words, result):
        if call in ("fsync", "fdatasync"):
            return "sync", name
        if call == "openat":
            return "open", name
        last = int(words.rpartition(", ")[2])
        if call == "ftruncate":
            return "cut", name, last
        return "write", name, last, plain(words.split('"')[1])[:result]

    def images(self):
        """The files in three forms: with all that was written; with what was synced; and with half of the rest."""
        last = {}
        for place, change in enumerate(self.made):
            if change[0] == "sync":
                last[change[1]] = place
        is_synced = [place <= last.get(change[1], -1) for place, change in enumerate(self.made)]
        yield "all", self.image(lambda place: True)
        yield "synced", self.image(lambda place: is_synced[place])
        yield "half", self.image(lambda place: is_synced[place] or place % 2 == 0)

    def image(self, stays):
        files = {name: bytearray(text) for name, text in self.begun.items()}
        for place, (what, name, *rest) in enumerate(self.made):
            if not stays(place):
                continue
            if what != "sync":
                text = files.setdefault(name, bytearray())
                if what == "cut":
                    text[:] = text[: rest[0]].ljust(rest[0], b"\0")
                elif what == "write":
                    text[:] = text.ljust(rest[0], b"\0")
                    text[rest[0] : rest[0] + len(rest[1])] = rest[1]
        return files


# ---- the ends


class Site:
    """A register and outboxes, each in a folder of its own."""

    def __init__(self, folder, outboxes):
        self.folder = folder
        self.register = folder / "intake"
        self.outboxes = [folder / f"outbox{number}" for number in range(1, outboxes + 1)]

    def make(self):
        self.register.mkdir(parents=True)
        trials.make_register(self.register / "register.db")
        for place, filer in zip(self.outboxes, FILERS, strict=False):
            place.mkdir()
            done = run(OUTBOX, "init", "--db", place / "outbox.db", "--filer", filer)
            if done.returncode:
                raise ValueError(done.stderr.decode())
        return self

    def copied(self, folder, changed=None, files=None):
        """A copy of it, with these files in the place of those in a folder."""
        other = Site(folder, len(self.outboxes))
        shutil.copytree(self.folder, folder)
        if changed is not None:
            place = folder / changed.relative_to(self.folder)
            shutil.rmtree(place)
            place.mkdir()
            for name, text in files.items():
                (place / name).write_bytes(text)
        return other

    def rows(self, place, statement):
        """What SQLite reads of a database, and of the log beside it."""
        with tempfile.TemporaryDirectory() as folder:
            for path in place.parent.glob(f"{place.name}*"):
                shutil.copy(path, folder)
            with contextlib.closing(sqlite3.connect(pathlib.Path(folder, place.name))) as conn:
                return conn.execute(statement).fetchall()

    def shown(self):
        """The filings and the entries, as drill shows them."""
        found = []
        for number, filer, key, target in self.rows(self.register / "register.db", FILINGS):
            found.append(f'filing {number} {filer} "{key}"' + (f" replaces {target}" if target else ""))
        for place, outbox in enumerate(self.outboxes, 1):
            for entry, state, number in self.rows(outbox / "outbox.db", ENTRIES):
                found.append(f"entry {place} {entry} {STATES[state]}" + (f" {number}" if number else ""))
        return found

    def put(self, step, under=()):
        place = self.outboxes[step.outbox - 1]
        report = self.folder / "report.json"
        report.write_bytes(step.report)
        words = ["--amend", step.replaces] if step.replaces else []
        return run(
            *under, OUTBOX, "put", "--db", place / "outbox.db", "--body", report, "--key", step.key, *words
        )


FILINGS = """SELECT filing.number, filer, idem, target FROM filing JOIN kept USING (seq) LEFT JOIN amends USING (seq)
ORDER BY filing.number"""
ENTRIES = "SELECT id, state, number FROM entry ORDER BY id"


class Intake:
    """An intake that serves so many connections, or until it is ended."""

    def __init__(self, site, connections=1000, under=()):
        self.line = b"in use"
        # Somebody may take the port before the intake does.
        while b"in use" in self.line:
            self.port = free_port()
            words = ["serve", "--db", site.register / "register.db", "--port", self.port, "--connections", connections]
            self.process = subprocess.Popen(
                [*map(str, [*under, trials.INTAKE, *words])], stdout=subprocess.DEVNULL, stderr=subprocess.PIPE
            )
            self.line = self.process.stderr.readline()

    def end(self, waits=False):
        if not waits:
            self.process.kill()
        try:
            self.process.communicate(timeout=60)
        except subprocess.TimeoutExpired:
            # (strace passes it on)
            self.process.terminate()
            raise
        return self.process.returncode


def ask(port, given):
    """What comes back for these bytes, as far as it comes."""
    found = b""
    with contextlib.suppress(OSError), socket.create_connection(("127.0.0.1", port), timeout=60) as peer:
        peer.sendall(given)
        peer.shutdown(socket.SHUT_WR)
        while more := peer.recv(65536):
            found += more
    return found


def is_whole(reply):
    head, end, content = reply.partition(b"\r\n\r\n")
    return bool(end) and len(content) == int(head.lower().split(b"content-length:")[1].split(b"\r\n")[0])


class Relay:
    """What lies between an outbox and the intake while an entry is sent."""

    def __init__(self, step, port):
        self.step, self.port, self.answered = step, port, 0
        self.listener = socket.create_server(("127.0.0.1", 0))
        self.own = self.listener.getsockname()[1]
        self.thread = threading.Thread(target=self.carry, daemon=True)
        self.thread.start()

    def carry(self):
        with contextlib.suppress(OSError), self.listener.accept()[0] as outbox:
            outbox.settimeout(60)
            given, reply = whole_message(outbox), b""
            for time in range(self.step.times if given else 0):
                is_last = time + 1 == self.step.times
                reply = ask(self.port, given[: self.step.request if is_last else None])
                self.answered += is_whole(reply)
            outbox.sendall(reply[: self.step.reply])

    def end(self):
        with contextlib.suppress(OSError):
            self.listener.shutdown(socket.SHUT_RDWR)
        self.listener.close()
        self.thread.join(60)


def whole_message(connection):
    """A request or a reply to the end of its body, or nothing if its peer is gone before."""
    found = b""
    while not is_whole(found):
        more = connection.recv(65536)
        if not more:
            return b""
        found += more
    return found


def send(site, step, port, under=()):
    """What a run of `outbox send` says, and how many requests of it were answered."""
    relay = Relay(step, port)
    try:
        place = site.outboxes[step.outbox - 1]
        done = run(
            *under, OUTBOX, "send", "--db", place / "outbox.db", "--port", relay.own, "--entry", step.entry
        )
    finally:
        relay.end()
    return done, relay.answered


# ---- plays


# How many microseconds a slow call takes longer.
SLOW = 20_000


class Traced:
    """A run under strace, which may be killed on its way into the call of this kind and number. All calls of another
    kind may be slow."""

    def __init__(self, folder, log, stop=None, slow=None):
        self.files, self.log = Files(folder), log
        names = [folder, *(folder / name for name in ("register.db", "register.db-wal", "outbox.db", "outbox.db-wal"))]
        paths = [word for name in names for word in ("-P", name)]
        kill = ["-e", f"inject={stop[0]}:signal=SIGKILL:when={stop[1]}"] if stop else []
        if slow:
            kill += ["-e", f"inject={slow}:delay_enter={SLOW}"]
        self.under = [
            "strace", "-f", "-y", "-xx", "-s", "2000000", "-o", log, "-e", f"trace={','.join(CALLS + OTHERS)}", *paths,
            *kill,
        ]  # fmt: skip

    def counts(self):
        return self.files.read(self.log)


def play(site, steps, intake=None):
    """Plays steps to their end without a stop; gives what both ends show then."""
    intake = intake or Intake(site)
    try:
        for step in steps:
            if isinstance(step, Put):
                site.put(step)
            elif isinstance(step, Send):
                send(site, step, intake.port)
            else:
                intake.end()
                intake = Intake(site)
    finally:
        intake.end()
    return site.shown()


def runs_of_intake(steps):
    """The runs of the intake: where each begins among the steps, where it ends, and its connections."""
    ends = [place for place, step in enumerate(steps) if isinstance(step, Restart)] + [len(steps)]
    begin = 0
    for end in ends:
        yield begin, end, sum(step.times for step in steps[begin:end] if isinstance(step, Send))
        begin = end + 1


class Trial:
    """A schedule, and how often its ends are stopped."""

    def __init__(self, name, folder, every):
        self.name, self.steps, self.folder, self.every = name, SCHEDULES[name], folder, every
        self.outboxes = max(step.outbox for step in self.steps if not isinstance(step, Restart))
        self.known, self.number, self.calls, self.begun = {}, 0, 0, []

    def scratch(self):
        self.number += 1
        return self.folder / f"play{self.number}"

    def drill(self, script):
        text = "\n".join(script.lines)
        if text not in self.known:
            self.known[text] = script.shown()
        return self.known[text]

    def script(self, steps):
        script = Script(self.outboxes)
        for step in steps:
            script.play(step)
        return script

    def prepare(self):
        """The site before each step, and after the last; they are held to what drill shows."""
        site = Site(self.scratch(), self.outboxes).make()
        for place, step in enumerate([*self.steps, None]):
            self.begun.append(site.copied(self.scratch()))
            what = f"{self.name}: {place} steps"
            trials.hold(what, site.shown(), self.drill(self.script(self.steps[:place])))
            if step:
                play(site, [step])

    def hold_stop(self, what, site, changed, files, place, stops):
        """Opens what lies there after a stop in a step, plays on from the step, and holds what is shown to drill."""
        for form, image in files.images():
            copy = site.copied(self.scratch(), changed, image)
            fault = self.fault(copy, place, stops)
            trials.tell(f"{what}, with {form}", fault)
            shutil.rmtree(copy.folder)

    def fault(self, copy, place, stops):
        intake = Intake(copy)
        if intake.process.poll() is not None:
            return f"the intake is not opened: {intake.line}"
        found = copy.shown()
        fitting = [script for script in stops if self.drill(script) == found]
        if not fitting:
            intake.end()
            return f"{found} in place of {[self.drill(script) for script in stops]}"
        last, rest = play(copy, self.steps[place:], intake), self.steps[place:]
        wanted = [self.drill(self.played_on(script, rest)) for script in fitting]
        return None if last in wanted else f"{last} in place of {wanted} at the end"

    @staticmethod
    def played_on(script, steps):
        script = script.copy()
        for step in steps:
            script.play(step)
        return script

    def stops(self, counts):
        """Each call of a run, or each Nth."""
        for call, count in counts.items():
            for number in range(1, count + 1):
                self.calls += 1
                if self.calls % self.every == 0:
                    yield call, number

    def stop_outboxes(self):
        for place, step in enumerate(self.steps):
            if not isinstance(step, Restart):
                for stop in self.stops(self.run_of_outbox(place, step, None)):
                    self.run_of_outbox(place, step, stop)

    def run_of_outbox(self, place, step, stop):
        site = self.begun[place].copied(self.scratch())
        changed = site.outboxes[step.outbox - 1]
        traced = Traced(changed, self.folder / "trace", stop)
        if isinstance(step, Put):
            done = site.put(step, traced.under)
        else:
            intake = Intake(site)
            done, _ = send(site, step, intake.port, traced.under)
            intake.end()
        counts = traced.counts()
        if stop:
            what = f"{self.name}: step {place + 1}, the outbox stops at {stop[0]} {stop[1]}"
            is_said = b"entry" in done.stdout
            stops = [it for it, is_done in stops_of_outbox(self.script(self.steps[:place]), step)
                     if is_done or not is_said]  # fmt: skip
            self.hold_stop(what, site, changed, traced.files, place, stops)
        shutil.rmtree(site.folder)
        return counts

    def stop_intakes(self):
        for begin, end, connections in runs_of_intake(self.steps):
            for stop in self.stops(self.run_of_intake(begin, end, connections, None)):
                self.run_of_intake(begin, end, connections, stop)

    def run_of_intake(self, begin, end, connections, stop):
        site = self.begun[begin].copied(self.scratch())
        traced = Traced(site.register, self.folder / "trace", stop)
        intake = Intake(site, connections, traced.under)
        place, answered = begin, 0
        for place in range(begin, end):
            step, answered = self.steps[place], 0
            if intake.process.poll() is not None:
                break
            if isinstance(step, Put):
                site.put(step)
            else:
                _, answered = send(site, step, intake.port)
                if answered < step.times and step.request is None:
                    break
        else:
            place, answered = end, 0
        intake.end(waits=True)
        counts = traced.counts()
        if stop:
            step = self.steps[place] if place < end else Restart()
            what = f"{self.name}: step {place + 1}, the intake stops at {stop[0]} {stop[1]}"
            stops = [it for it, known in stops_of_intake(self.script(self.steps[:place]), step) if known >= answered]
            self.hold_stop(what, site, site.register, traced.files, place, stops)
        shutil.rmtree(site.folder)
        return counts


# ---- groups of requests


# What a refused report gets; a registered one gets its number.
REFUSAL = (
    b'{"findings":[{"code":"document-type","place":"/documentInfo/documentType"}],"reason":"refused","status":422,'
    b'"title":"Unprocessable Content","type":"about:blank"}'
)
REGISTERED = re.compile(rb'\{"number":([1-9]\d*),"status":"registered"\}')
KEPT = """SELECT filer, idem, body, kept.number, filing.number, target FROM kept LEFT JOIN filing USING (seq)
LEFT JOIN amends USING (seq)"""
NUMBERS = "SELECT number FROM filing ORDER BY number"
LAST = b"GET /filings/F0 HTTP/1.1\r\nHost: h\r\nConnection: close\r\n\r\n"


@dataclass(frozen=True)
class Report:
    """What a client files, maybe to replace what it filed under another key."""

    filer: str
    key: str
    body: bytes = SMALLEST
    replaced_key: str | None = None

    @property
    def name(self):
        return self.filer, self.key


def reports_of(client, count):
    """What a client of so many files, one after another: three reports, and a refused one before them or among them. Of
    16 clients one files a report that a client of the other half files too, and another one replaces its first report:
    such requests end a group."""
    place = client % (count // 2)
    filer = f"F{place % 4}"
    found = [
        Report(filer, f"{client}-first"),
        Report(filer, f"{client}-second" if place % 16 else f"{place}-both"),
        Report(filer, f"{client}-third", replaced_key=f"{client}-first" if client % 16 == 1 else None),
    ]
    found.insert(0 if client % 2 else 2, Report(filer, f"{client}-refused", REFUSED))
    return found


class Crowd:
    """Clients that file at once, each on a connection of its own, and what they were told: by filer and key the number
    of a registered report, or None of a refused one."""

    def __init__(self, count, told=()):
        self.count, self.told, self.wrong, self.lock = count, dict(told), [], threading.Lock()
        self.reports = [report for client in range(count) for report in reports_of(client, count)]

    def replaced(self, report):
        """The number of what a report replaces; 0 if that is not known."""
        return self.told.get((report.filer, report.replaced_key), 0) if report.replaced_key else None

    def file(self, port):
        """All connect, and file one report each, once all have read what they got for the one before, until they are
        done or a connection ends; how many replies they read."""
        read = []

        def act(client, peer):
            with contextlib.suppress(OSError, threading.BrokenBarrierError):
                for report in reports_of(client, self.count):
                    barrier.wait(60)
                    target = self.replaced(report)
                    peer.sendall(request(report.key, report.body, report.filer, close=False, replaces=target))
                    if not (reply := whole_message(peer)):
                        break
                    read.append(report)
                    if not self.note(report, reply):
                        break
                else:
                    return
            barrier.abort()

        with contextlib.ExitStack() as held:
            peers = []
            with contextlib.suppress(OSError):
                for _ in range(self.count):
                    peers.append(held.enter_context(socket.create_connection(("127.0.0.1", port), timeout=60)))
            barrier = threading.Barrier(max(1, len(peers)))
            clients = [threading.Thread(target=act, args=it, daemon=True) for it in enumerate(peers)]
            for it in clients:
                it.start()
            for it in clients:
                it.join()
        return len(read)

    def note(self, report, reply):
        """Whether a reply is what the report gets, and the same as before."""
        head, _, content = reply.partition(b"\r\n\r\n")
        number = REGISTERED.fullmatch(content)
        wanted = b"HTTP/1.1 422 " if report.body == REFUSED else b"HTTP/1.1 201 "
        found = int(number[1]) if number else None
        with self.lock:
            is_right = head.startswith(wanted) and (content == REFUSAL if report.body == REFUSED else bool(number))
            before = self.told.setdefault(report.name, found) if is_right else None
            if not is_right or before != found:
                self.wrong.append(f"{report.name} got {reply!r}, and {before} before")
                return False
        return True

    def fault(self, rows, numbers, is_done=False):
        """What is wrong with what clients were told, and with what a register has; `is_done` if all was answered."""
        if self.wrong:
            return f"{self.wrong[0]} ({len(self.wrong)} in all)"
        sent, counts = {it.name: it for it in self.reports}, collections.Counter(row[:2] for row in rows)
        if twice := [name for name, count in counts.items() if count > 1]:
            return f"kept twice: {twice}"
        if numbers != list(range(1, len(numbers) + 1)):
            return f"the numbers are {numbers}"
        for filer, key, body, number, filing, target in rows:
            report, is_valid = sent.get((filer, key)), number is not None
            if not report or (body, is_valid) != (report.body, body != REFUSED):
                return f"{(filer, key, body, number)} is kept"
            if (filing, target) != (number, self.replaced(report)):
                return f"{(filer, key, number)} is filing {filing}, and replaces {target}"
        there = {row[:2]: row[3] for row in rows}
        lost = {name: number for name, number in self.told.items() if there.get(name, 0) != number}
        if lost:
            return f"{len(lost)} of {len(self.told)} that were answered are not there so: {sorted(lost.items())[:3]}"
        if is_done and (missing := sorted(sent.keys() - there.keys() | sent.keys() - self.told.keys())):
            return f"not answered, or not there: {missing}"
        return None


class Grouping:
    """Clients at once, and an intake that is stopped while it decides for them."""

    def __init__(self, folder, clients, every):
        self.folder, self.clients, self.every = folder, clients, every
        self.begun, self.calls, self.missed = Site(folder / "begun", 0).make(), 0, 0

    def stop_all(self, ends_at_first=False):
        """Stops at each call that a run makes from its first request on, or at each Nth."""
        opened, counts = self.run(None, "groups: without a stop")
        for call, count in counts.items():
            for number in range(opened[call] + 1, count + 1):
                self.calls += 1
                if self.calls % self.every == 0 and not (ends_at_first and trials.failures):
                    self.run((call, number), f"groups: the intake stops at {call} {number}")
        stops = self.calls // self.every
        # A run is as long as its groups are many, and so may end before the call.
        fault = None if 2 * self.missed <= stops else "too few"
        trials.tell(f"groups: {stops - self.missed} of {stops} stops were reached", fault)

    def run(self, stop, what):
        """A run of the clients; gives how often each call was made before the first request, and in all."""
        site = self.begun.copied(self.folder / "play")
        # The disk is slow, so that requests come meanwhile.
        slow = "pwrite64" if stop and stop[0] == "fdatasync" else "fdatasync"
        traced = Traced(site.register, self.folder / "trace", stop, slow)
        intake, crowd = Intake(site, self.clients + 1, traced.under), Crowd(self.clients)
        opened = Files(site.register).read(traced.log)
        answered = crowd.file(intake.port)
        served = Files(site.register).read(traced.log)
        # Its last connection: it ends after it, if it was not stopped.
        ask(intake.port, LAST)
        status = intake.end(waits=True)
        counts = traced.counts()
        if not stop:
            syncs = served["fdatasync"] - opened["fdatasync"]
            fault = None if 3 * syncs < len(crowd.reports) else "too many"
            trials.tell(f"{what}: {len(crowd.reports)} requests took {syncs} syncs", fault)
            trials.hold(f"{what}: status", status, 0)
            trials.tell(f"{what}: what is there", self.fault(site, crowd, is_done=True))
        self.missed += bool(stop) and status == 0
        for form, image in traced.files.images() if stop else []:
            copy = site.copied(self.folder / "image", site.register, image)
            trials.tell(f"{what} after {answered} replies, with {form}", self.fault(copy, crowd))
            shutil.rmtree(copy.folder)
        shutil.rmtree(site.folder)
        sys.stdout.flush()
        return opened, counts

    def fault(self, site, crowd, is_done=False):
        """What is wrong with a register, and with what clients get of an intake over it that send all again."""
        database = site.register / "register.db"
        checked = run(trials.INTAKE, "check", "--db", database)
        if checked.returncode:
            return f"intake check: {checked.stdout + checked.stderr!r}"
        kept, numbers = self.kept(site)
        if checked.stdout != (sound := f"sound: {len(kept)} kept, {len(numbers)} filings\n".encode()):
            return f"intake check: {checked.stdout!r} in place of {sound!r}"
        if fault := crowd.fault(kept, numbers, is_done):
            return fault
        again = Crowd(self.clients, {row[:2]: row[3] for row in kept})
        intake = Intake(site, self.clients)
        again.file(intake.port)
        if status := intake.end(waits=True):
            return f"the intake ended with status {status} after all was sent again"
        fault = again.fault(*self.kept(site), is_done=True)
        return f"sent again: {fault}" if fault else None

    @staticmethod
    def kept(site):
        """The requests that are kept, and the numbers of the filings."""
        database = site.register / "register.db"
        return site.rows(database, KEPT), [number for number, in site.rows(database, NUMBERS)]


# ---- planted faults

STAND_IN = ROOT / "tools" / "grouping_stand_in.py"


def try_planted(words):
    """Plays `groups` with the stand-in, without a fault and with each of its faults."""
    for fault in ["", *grouping_stand_in.FAULTS]:
        if words and not any(word in fault for word in words):
            continue
        options = ["--first", "--every", "4", "--clients", "16", "--intake", STAND_IN]
        command = [sys.executable, __file__, *options, "groups"]
        done = subprocess.run(command, capture_output=True, text=True, env={**os.environ, "FAULT": fault}, check=False)
        failed = re.findall(r"(?m)^failed: (.{,200})", done.stdout)
        if fault:
            trials.tell(f"{fault}: seen by: {failed[:1]}", None if failed else f"no check fails: {done.stderr}")
        else:
            trials.tell("without a fault", "; ".join(failed) or done.stderr or None)
        sys.stdout.flush()


def words_of(words):
    parser = argparse.ArgumentParser(description=__doc__.partition("\n")[0])
    parser.add_argument("--every", type=int, default=1, metavar="N", help="stop at each Nth call")
    parser.add_argument("--clients", type=int, default=64, metavar="N", help="how many file at once, 16 to 64")
    parser.add_argument("--intake", type=pathlib.Path, default=trials.INTAKE, metavar="PROGRAM", help="another build")
    parser.add_argument("--first", action="store_true", help="stop no more after the first check that fails")
    parser.add_argument("--planted", action="store_true", help="whether each planted fault is seen")
    parser.add_argument("words", nargs="*", metavar="SCHEDULE", help=f"{' '.join(SCHEDULES)} groups")
    given = parser.parse_args(words)
    if not given.planted and (wrong := [it for it in given.words if it not in [*SCHEDULES, "groups"]]):
        parser.error(f"there is no schedule {wrong[0]}")
    if not 16 <= given.clients <= 64:
        parser.error("16 to 64 clients")
    if not given.planted and not given.intake.exists():
        parser.error("build the program first: (cd crates/intake && rt run -- --version)")
    return given


def main(words):
    given = words_of(words)
    if shutil.which("strace") is None:
        print("nothing was tried: strace is not installed")
        return 77
    intake, calls = STAND_IN if given.planted else given.intake.resolve(), 0
    ending = "what was not synced was lost by this script, and by no file system"
    if intake != trials.INTAKE:
        ending += f"; stand-ins: {intake} for the intake"
    trials.INTAKE = intake
    if given.planted:
        try_planted(given.words)
        print(f"{len(trials.failures)} failed; {ending}")
        return 1 if trials.failures else 0
    for name in given.words or [*SCHEDULES, "groups"]:
        with tempfile.TemporaryDirectory() as folder:
            place = pathlib.Path(folder).resolve()
            if name == "groups":
                trial = Grouping(place, given.clients, given.every)
                try:
                    trial.stop_all(given.first)
                except (OSError, ValueError, sqlite3.Error, subprocess.TimeoutExpired) as fault:
                    trials.tell("groups", repr(fault))
            else:
                trial = Trial(name, place, given.every)
                trial.prepare()
                trial.stop_outboxes()
                trial.stop_intakes()
            calls += trial.calls
    print(f"{len(trials.failures)} failed after {calls} calls; {ending}")
    return 1 if trials.failures else 0


if __name__ == "__main__":
    sys.exit(main(sys.argv[1:]))
