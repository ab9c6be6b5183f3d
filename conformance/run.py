#!/usr/bin/env python3
"""Holds an implementation of either end of the protocol to the cases of conformance/cases.

    run.py intake --command 'intake serve --db {db} --port {port} --connections {n} --limit {limit} --new'
                  [--again 'intake serve --db {db} --port {port} --connections {n}']
    run.py intake --port PORT
    run.py intake --exec 'intake run'
    run.py outbox --command outbox
    run.py list

Besides, with each of these: --only WORD (cases with this word in their name), --case NAME (both may be given again),
--cases FOLDER, --patience SECONDS, --jobs N, --no-syncs. README.md beside this file says more, and what the cases are
made of is said above CASES. Status 0 if each case that was tried passed, 1 if one marked `must` did not, 4 if only
cases marked `strict` did not, 2 if the command line, a command, the port or a file of cases can't be used, 3 if a file
can't be written.
"""
import argparse
import base64
import collections
import concurrent.futures
import http.client
import json
import os
import pathlib
import re
import select
import shlex
import signal
import socket
import struct
import subprocess
import sys
import tempfile
import threading
import time

from syncs import Disk, Unseen

HERE = pathlib.Path(__file__).resolve().parent
DEFAULT_LIMIT = 1_000_000
# How long nothing has to come if a case says that nothing comes, in seconds.
QUIET = 0.25
# How long connections are watched that wait for the disk.
HELD = 1
# How long a race waits for its connections before it begins without those that still wait to be taken.
GATHERED = 1
# How long it is looked whether something follows a request.
BEHIND = 0.05
# With the patience of this many seconds, or less, a pause is as long as a case says.
PATIENCE = 10
# How many cases that timed out are tried again.
MOST_AGAIN = 40


class Fault(Exception):
    """What was wanted, and what came."""

    def __init__(self, what, wanted, came):
        super().__init__(f"{what}\n    wanted: {shown(wanted)}\n    came:   {shown(came)}")


class Late(Fault):
    """What was wanted did not come in time, which may be the machine's fault."""


class Unusable(Exception):
    """A file of cases, or a command, that can't be used."""


def paced(seconds, patience):
    """How long a pause of so many seconds is with this patience."""
    return seconds * max(1, patience / PATIENCE)


def shown(value):
    """The value, cut if it is long."""
    if isinstance(value, (bytes, bytearray)):
        text = repr(bytes(value))[1:]
        return text if len(text) <= 700 else f"{text[:450]} .. {text[-200:]} ({len(value)} bytes)"
    return str(value)


# ---- bytes as a case writes them


def to_bytes(it, offset=0, turn=None):
    """The bytes that a case writes as a text, base64, a repetition, a count, a filing's number, the turn of a request
    in a race, or a list of these."""
    if isinstance(it, str):
        return it.encode()
    if isinstance(it, list):
        return b"".join(to_bytes(part, offset, turn) for part in it)
    if isinstance(it, dict):
        if set(it) == {"base64"}:
            return from_base64(it["base64"])
        if set(it) == {"repeat", "times"}:
            return to_bytes(it["repeat"], offset, turn) * it["times"]
        if set(it) == {"each", "from", "to", "join"}:
            return it["join"].join(it["each"].replace("%", str(n)) for n in range(it["from"], it["to"] + 1)).encode()
        if set(it) == {"number"}:
            if offset is None:
                raise Unusable("a number is sent before a reply named one")
            return str(it["number"] + offset).encode()
        if set(it) == {"turn"} and turn is not None:
            return str(turn).zfill(it["turn"]).encode()
    raise Unusable(f"{it!r} spells no bytes")


def from_base64(text):
    try:
        return base64.b64decode(text, validate=True)
    except (TypeError, ValueError) as fault:
        raise Unusable(f"{text!r} is no base64") from fault


def parts_of(it):
    """The bytes as a list of bytes and of filings' numbers."""
    if isinstance(it, list):
        return [part for one in it for part in parts_of(one)]
    if isinstance(it, dict) and set(it) == {"number"}:
        return [it["number"]]
    return [to_bytes(it)]


class Numbers:
    """By how much the numbers of filings are above those of an empty register: nothing,
    or what the first number of a reply shows."""

    def __init__(self, offset):
        self.offset = offset

    def bytes_of(self, it):
        return to_bytes(it, self.offset)

    def match(self, it, came):
        """Whether the bytes are those of the case. Finds the offset if it is not known yet."""
        parts = parts_of(it)
        if self.offset is None and any(isinstance(part, int) for part in parts):
            pattern = b"".join(b"([1-9][0-9]*)" if isinstance(part, int) else re.escape(part) for part in parts)
            found = re.fullmatch(pattern, came, re.DOTALL)
            if found:
                self.offset = int(found[1]) - next(part for part in parts if isinstance(part, int))
        return came == self.wanted(it)

    def wanted(self, it):
        return to_bytes(it, self.offset or 0)


# ---- one connection


class Socket:
    """One end of a connection."""

    def __init__(self, peer):
        self.peer = peer

    def send(self, data):
        self.peer.sendall(data)

    def is_readable(self, seconds):
        return bool(select.select([self.peer], [], [], max(seconds, 0))[0])

    def receive(self):
        return self.peer.recv(65536)

    def shut(self):
        self.peer.shutdown(socket.SHUT_WR)

    def reset(self):
        self.peer.setsockopt(socket.SOL_SOCKET, socket.SO_LINGER, struct.pack("ii", 1, 0))
        self.peer.close()

    def close(self):
        self.peer.close()


def connected(port, wait, process=None):
    """A connection to the port, for which it waits until somebody listens or the process is gone."""
    until = time.monotonic() + wait
    while True:
        try:
            peer = socket.create_connection(("127.0.0.1", port), timeout=wait)
            peer.setsockopt(socket.IPPROTO_TCP, socket.TCP_NODELAY, 1)
            return Socket(peer)
        except ConnectionRefusedError as refused:
            status = process.poll() if process else None
            if time.monotonic() > until or status is not None:
                if status is not None:
                    raise Fault("a connection", f"somebody listens on port {port}",
                                f"nobody does, and the program ended with status {status}") from refused
                raise Late("a connection", f"somebody listens on port {port}", "nobody does") from refused
            time.sleep(0.01)


class Connection:
    """The steps of a case on a connection, and what came on it so far."""

    def __init__(self, transport, numbers, patience, disk=None):
        self.transport, self.numbers, self.patience, self.disk = transport, numbers, patience, disk
        self.came, self.is_ended = b"", False

    def play(self, steps):
        try:
            for step in steps:
                name, value = one_member(step)
                getattr(self, name)(value)
            if self.came:
                raise Fault("behind the last step", b"", self.came)
        finally:
            self.transport.close()

    def more(self, seconds):
        """Waits for more bytes, or for the end. Whether either came."""
        if self.is_ended or not self.transport.is_readable(seconds):
            return False
        try:
            found = self.transport.receive()
        except (ConnectionResetError, BrokenPipeError):
            found = b""
        self.came += found
        self.is_ended = not found
        return True

    def send(self, value):
        try:
            self.transport.send(self.numbers.bytes_of(value))
        except (ConnectionResetError, BrokenPipeError):
            pass  # The other end may close before it has read everything; what it replied is looked at all the same.

    def pause(self, value):
        time.sleep(paced(value / 1000, self.patience))

    def syncs(self, value):
        self.disk.go(value)

    def held(self, _):
        """A sync waits, and nothing has come or comes meanwhile."""
        wait_for_sync(self.disk, self.patience, lambda: self.more(0))
        self.quiet(HELD * 1000)

    def unkept(self, _):
        """No reply, or one that says that the server failed: none that says what became of a report."""
        until = time.monotonic() + self.patience
        while not self.is_ended and b"\r\n\r\n" not in self.came:
            if not self.more(until - time.monotonic()):
                raise Late("the disk refuses", "a reply, or the end of the connection", f"none in {self.patience} s")
        hold_unkept(self.came)
        self.came, self.is_ended = b"", True

    def shut(self, _):
        try:
            self.transport.shut()
        except OSError:
            pass

    def cut(self, _):
        self.transport.close()
        self.is_ended = True

    def reset(self, _):
        self.transport.reset()
        self.is_ended = True

    def quiet(self, value):
        until = time.monotonic() + paced(value / 1000, self.patience)
        while (left := until - time.monotonic()) > 0:
            if self.came or self.more(left):
                raise Fault(
                    f"in {value} ms", "nothing comes", "the connection is closed" if self.is_ended else self.came
                )

    def stays(self, _):
        """The connection is open: nothing comes before this side is shut, and nothing but the end behind that."""
        if self.came:
            raise Fault("behind the last reply", b"", self.came)
        self.quiet(round(QUIET * 1000))
        self.shut(True)
        self.closed(True)

    def closed(self, _):
        until = time.monotonic() + self.patience
        while not self.is_ended and not self.came:
            if not self.more(until - time.monotonic()):
                raise Late(
                    "the end of the connection", "the other end closes it", f"it is open after {self.patience} s"
                )
        if self.came:
            raise Fault("before the end of the connection", b"", self.came)

    def take(self, what, is_there):
        """Reads until the bytes satisfy the test, which gives how many of them are taken, or None."""
        until = time.monotonic() + self.patience
        while (size := is_there(self.came)) is None:
            left = until - time.monotonic()
            if left <= 0 or not self.more(left) or self.is_ended:
                if self.is_ended:
                    raise Fault(what, "a whole reply", shown(self.came) + ", then the connection ended")
                raise Late(what, "a whole reply", shown(self.came) + f", then no more in {self.patience} s")
        found, self.came = self.came[:size], self.came[size:]
        return found

    def reply(self, wanted):
        """Reads one reply, interim or final, and compares it with what is wanted."""
        what = f"a reply with status {wanted['status']}"
        head = self.take(what, lambda came: came.find(b"\r\n\r\n") + 4 if b"\r\n\r\n" in came else None)
        status, fields = read_head(head)
        has_content = "content" in wanted or "json" in wanted
        content = b""
        if has_content or status != wanted["status"]:
            length = content_length(what, head, fields)
            content = self.take(what, lambda came: length if len(came) >= length else None)
        if status != wanted["status"]:
            raise Fault("the status", wanted["status"], head + content)
        for name, value in wanted.get("fields", {}).items():
            found = [one for other, one in fields if other == name.lower()]
            if found != [value]:
                raise Fault(f"the field {name}", value, ", ".join(found) if found else b"no such field in " + head)
        for name in ("transfer-encoding", "content-encoding"):
            if any(other == name for other, _ in fields):
                raise Fault("the fields", f"none is {name}", head)
        if not has_content and any(name == "content-length" for name, _ in fields):
            raise Fault("a reply without content", "no Content-Length", head)
        if "content" in wanted and not self.numbers.match(wanted["content"], content):
            raise Fault("the content", self.numbers.wanted(wanted["content"]), content)
        if "json" in wanted and read_json(content) != wanted["json"]:
            raise Fault("the content", json.dumps(wanted["json"]), content)


def wait_for_sync(disk, patience, has_come):
    """Waits until a sync is held, or something else has come."""
    until = time.monotonic() + patience
    while not has_come() and not disk.held:
        if time.monotonic() > until:
            raise Late("the disk", "the program waits for it before it answers", f"no sync in {patience} s")
        time.sleep(0.005)


def hold_unkept(came):
    """What came for a report, while the disk refused it, says at most that the server failed."""
    if came and not re.match(rb"HTTP/1\.1 5[0-9][0-9] ", came):
        raise Fault("the disk refuses", "no reply, or one of a status from 500 on", came)


class Played:
    """The other end of a connection, of which everything has come."""

    def __init__(self, came):
        self.came = came

    def is_readable(self, _):
        return True

    def receive(self):
        found, self.came = self.came, b""
        return found

    def close(self):
        pass


# One race at a time, so that its requests come as close together as they can.
RACES = threading.Lock()


def connecting(port):
    """A connection to the port, which may still have to be taken."""
    peer = socket.socket()
    peer.setblocking(False)
    peer.connect_ex(("127.0.0.1", port))
    return peer


def connected_in(peers, seconds):
    """Those of these that are connected within so many seconds."""
    until, found = time.monotonic() + seconds, []
    while len(found) < len(peers) and (left := until - time.monotonic()) > 0:
        found += select.select([], [peer for peer in peers if peer not in found], [], left)[1]
    for peer in found:
        peer.setblocking(True)
        peer.setsockopt(socket.IPPROTO_TCP, socket.TCP_NODELAY, 1)
    return found


def send_all(peers, requests):
    for peer, request in zip(peers, requests):
        try:
            peer.sendall(request)
        except (ConnectionResetError, BrokenPipeError):
            pass  # As for a single connection.


def at_once(peers, requests, patience):
    """Sends each request on its connection, and gives what came on each until its end, or nothing for one that is not
    connected in time. The last byte of each is kept back until the others have come."""
    to_send = dict(zip(peers, requests))
    is_open = connected_in(peers, paced(GATHERED, patience))
    send_all(is_open, [to_send[peer][:-1] for peer in is_open])
    time.sleep(paced(QUIET, patience))
    send_all(is_open, [to_send[peer][-1:] for peer in is_open])
    return replies_on(peers, is_open, patience)


def replies_on(peers, is_open, patience):
    """What comes on each of these connections until its end, and nothing for one that is not open."""
    came, is_open = dict.fromkeys(peers, b""), list(is_open)
    while is_open:
        readable = select.select(is_open, [], [], patience)[0]
        if not readable:
            raise Late("the replies", "each connection is answered and closed",
                       f"nothing comes on {len(is_open)} of {len(peers)} for {patience} s")
        for peer in readable:
            try:
                found = peer.recv(65536)
            except ConnectionResetError:
                found = b""
            came[peer] += found
            if not found:
                is_open.remove(peer)
    return list(came.values())


def race(intake, requests, patience, came=()):
    """What came for each of the requests, which are sent at once but for those of which something came before. Those
    that get no byte of a reply are sent again, as filers do it: if many wait to be taken, Linux breaks some connections
    that the intake has never seen."""
    came = list(came) or [b""] * len(requests)
    while turns := [turn for turn, found in enumerate(came) if not found]:
        # The first waits until somebody listens.
        peers = [intake.connect().peer]
        try:
            peers += [connecting(intake.port) for _ in turns[1:]]
            found = at_once(peers, [requests[turn] for turn in turns], patience)
        finally:
            for peer in peers:
                peer.close()
        if not any(found):
            raise Late("the replies", f"one on each of {len(requests)} connections", f"none on {len(turns)} of them")
        for turn, data in zip(turns, found):
            came[turn] = data
    return came


def has_come(peers):
    """Those of these connections on which something has come, or that were closed."""
    return select.select(peers, [], [], 0)[0]


def hold_nothing(peers, what, patience):
    """Nothing comes on these connections for a while."""
    time.sleep(paced(HELD, patience))
    for peer in has_come(peers):
        raise Fault(what, "no answer yet", peer.recv(65536) or "the connection is closed")


def race_to_the_disk(intake, requests, how, patience):
    """What came for each of the requests, of which the first is sent alone, and the others once it waits for the disk.
    Nothing is answered before the disk goes on. If each of them needs a sync, none of the others is answered before one
    that began after they were sent."""
    intake.disk.go("hold")
    peers = []
    try:
        peers.append(intake.connect().peer)
        send_all(peers, requests)
        wait_for_sync(intake.disk, patience, lambda: has_come(peers))
        hold_nothing(peers, "before the first request is on the disk", patience)
        peers += [connecting(intake.port) for _ in requests[1:]]
        others = connected_in(peers[1:], paced(GATHERED, patience))
        to_send = dict(zip(peers, requests))
        send_all(others, [to_send[peer] for peer in others])
        hold_nothing(peers, "before the first request is on the disk", patience)
        if how == "each":
            intake.disk.let_one()
            wait_for_sync(intake.disk, patience, lambda: has_come(others))
            hold_nothing(others, "before the later requests are on the disk", patience)
        intake.disk.go("refuse" if how == "refuse" else "pass")
        return replies_on(peers, [peers[0], *others], patience)
    finally:
        for peer in peers:
            peer.close()


def hold_replies(wanted, came, numbers):
    """Each connection of a race has one of the wanted replies and nothing behind it, and each of these came as often as
    is said."""
    left = [[item["reply"], item["times"]] for item in wanted]
    for at, data in enumerate(came, 1):
        for item in left:
            try:
                Connection(Played(data), numbers, 1).play([{"reply": item[0]}, {"closed": True}])
            except Fault:
                continue
            item[1] -= 1
            break
        else:
            raise Fault(f"reply {at} of {len(came)}", replies_left(left, numbers), data)
        left = [item for item in left if item[1]]


def replies_left(left, numbers):
    """The replies that did not come yet, in words."""
    told = [f"{reply['status']} {shown(numbers.wanted(reply.get('content', '')))} on {times} more"
            for reply, times in left[:3]]
    return ", or ".join(told) + (f", or one of {len(left) - 3} others" if left[3:] else "")


def one_member(step):
    if not isinstance(step, dict) or len(step) != 1:
        raise Unusable(f"{step!r} is no step")
    return next(iter(step.items()))


def read_head(head):
    """The status of a reply's head, and its fields with names in lower case."""
    first, *lines = head[:-4].split(b"\r\n")
    found = re.fullmatch(rb"HTTP/1\.1 ([1-9][0-9][0-9]) [\t -~\x80-\xff]*", first)
    if not found:
        raise Fault("the first line of a reply", "HTTP/1.1, a status and a phrase", head)
    fields = []
    for line in lines:
        field = re.fullmatch(rb"([!#$%&'*+.^_`|~0-9A-Za-z-]+):[ \t]*([\t -~\x80-\xff]*?)[ \t]*", line)
        if not field:
            raise Fault("a line of a reply's head", "a name, a colon and a value", line)
        fields.append((field[1].decode().lower(), field[2].decode("latin-1")))
    return int(found[1]), fields


def read_json(content):
    try:
        return json.loads(content)
    except ValueError:
        return None


def content_length(what, head, fields):
    found = [value for name, value in fields if name == "content-length"]
    if len(found) != 1 or not re.fullmatch("[0-9]+", found[0]):
        raise Fault(what, "one Content-Length", head)
    return int(found[0])


# ---- an intake


NO_SYNCS, BLIND = "--no-syncs was said", "the program syncs in a way that is not seen (O_DSYNC or io_uring)"


def mentions(it, name):
    """Whether a part of a case has a member of this name."""
    if isinstance(it, dict):
        return name in it or any(mentions(part, name) for part in it.values())
    return isinstance(it, list) and any(mentions(part, name) for part in it)


class Command:
    """A program that is started afresh on a port of its own for a case, and again on the same register if
    the case says so."""

    reads_lists = True

    def __init__(self, first, again, no_syncs):
        self.first, self.again, self.no_syncs = first, again, no_syncs

    def lacks(self, case):
        """Why the case can't be tried, or None."""
        if self.no_syncs and mentions(case, "syncs"):
            return NO_SYNCS
        if "limit" in case and "{limit}" not in self.first:
            return "the command has no {limit}"
        if self.again is None and any("restart" in item for item in case["connections"]):
            return "there is no --again"
        return None

    def open(self, case, folder, patience):
        return Started(self, case, folder, patience)


class Started:
    """The program of a case while the case is tried."""

    def __init__(self, command, case, folder, patience):
        self.command, self.patience, self.folder = command, patience, folder
        self.limit = case.get("limit", DEFAULT_LIMIT)
        self.left = served_counts(case)
        self.numbers, self.earlier = Numbers(0), []
        self.disk = Disk() if mentions(case, "syncs") else None
        self.start(command.first)

    def start(self, template):
        self.mark, self.port = free_port()
        words = {"db": self.folder / "register.db", "port": self.port, "n": self.left.pop(0), "limit": self.limit}
        with open(self.folder / "said", "ab") as said:
            self.process = start(filled(template, words), self.disk, stdin=subprocess.DEVNULL, stdout=said, stderr=said)

    def connect(self):
        return connected(self.port, max(self.patience, 60), self.process)

    def restart(self, how):
        self.stop(signal.SIGKILL if how == "kill" else signal.SIGTERM)
        self.start(self.command.again)

    def stop(self, sign):
        self.mark.close()
        if self.disk:
            self.disk.go("pass")
        try:
            self.process.send_signal(sign)
            self.process.wait(timeout=max(self.patience, PATIENCE))
        except subprocess.TimeoutExpired:
            self.process.kill()
            self.process.wait()

    def end(self):
        self.stop(signal.SIGTERM)

    def told(self):
        """What the program printed, for somebody who looks for the cause of a failure."""
        return (self.folder / "said").read_bytes()[-600:]


def served_counts(case):
    """For each start of the program, how many connections it serves until it is stopped or the case ends."""
    counts = [0]
    for item in case["connections"]:
        if "restart" in item:
            counts.append(0)
        else:
            counts[-1] += item["race"]["times"] if "race" in item else 1
    counts[-1] += len(case.get("register", {}))
    return [max(count, 1) for count in counts]


class Running:
    """An intake that runs already. Its register has what earlier cases filed,
    so numbers are counted from the first that a case sees."""

    reads_lists = True

    def __init__(self, port):
        self.port, self.is_fresh = port, True

    def lacks(self, case):
        if "limit" in case:
            return "it needs a limit of its own"
        if any("restart" in item for item in case["connections"]):
            return "it needs a restart"
        if mentions(case, "syncs"):
            return "it needs a program whose syncs can be held"
        if case.get("empty") and not self.is_fresh:
            return "it needs an empty register of its own"
        return None

    def open(self, case, folder, patience):
        self.is_fresh = False
        return Attached(self.port, patience)


class Attached:
    disk = None

    def __init__(self, port, patience):
        self.port, self.patience, self.numbers, self.earlier = port, patience, Numbers(None), []

    def connect(self):
        return connected(self.port, self.patience)

    def end(self):
        pass

    def told(self):
        return b""


class Piped:
    """A program that serves one connection on its standard input and output, with a register in memory."""

    reads_lists = False

    def __init__(self, template):
        self.words = filled(template, {})

    def lacks(self, case):
        if "limit" in case:
            return "it needs a limit of its own"
        if len(case["connections"]) > 1 or "race" in case["connections"][0]:
            return "it needs more than one connection"
        if any(name in step for step in case["connections"][0]["steps"] for name in ("cut", "reset")):
            return "it needs a socket"
        if mentions(case, "syncs"):
            return "it needs a program whose syncs can be held"
        return None

    def open(self, case, folder, patience):
        return PipedCase(self.words)


class PipedCase:
    """The program, whose standard input and output are one end of a pair of sockets."""

    disk = None

    def __init__(self, words):
        own, self.peer = socket.socketpair()
        self.numbers = Numbers(0)
        with own:
            self.process = start(words, None, stdin=own, stdout=own, stderr=subprocess.DEVNULL)

    def connect(self):
        return Socket(self.peer)

    def end(self):
        self.peer.close()
        self.process.kill()
        self.process.wait()

    def told(self):
        return b""


def list_steps(filer, content):
    """A GET of a filer's list, or of one filing of it, and what has to come."""
    return [
        {"send": ["GET /filings/", filer, " HTTP/1.1\r\nHost: h\r\nConnection: close\r\n\r\n"]},
        {"reply": {"status": 200, "fields": {"Content-Type": "application/json"}, "content": content}},
        {"closed": True},
    ]


def try_race(intake, wanted, patience):
    """Sends the requests of a race, and compares what came."""
    requests = [to_bytes(wanted["send"], intake.numbers.offset, turn) for turn in range(1, wanted["times"] + 1)]
    how = wanted.get("syncs")
    with RACES:
        came = race_to_the_disk(intake, requests, how, patience) if how else ()
        if how != "refuse":
            came = race(intake, requests, patience, came)
    if how == "refuse":
        for one in came:
            hold_unkept(one)
        return
    hold_replies(wanted["replies"], came, intake.numbers)
    for at, (one, before) in enumerate(zip(came, intake.earlier if wanted.get("again") else ()), 1):
        if content_of(one) != content_of(before):
            raise Fault(f"reply {at} of {len(came)}", before, one)
    intake.earlier = came


def content_of(reply):
    return reply.partition(b"\r\n\r\n")[2]


def try_intake(end, case, patience):
    """Plays the case. How it went, and if it did not pass what was wanted and what came."""
    with tempfile.TemporaryDirectory(prefix="conformance-") as folder:
        try:
            intake = end.open(case, pathlib.Path(folder), patience)
        except Unseen as cause:
            return "left", str(cause)
        what, how, told = "the program", "passed", None
        try:
            for at, item in enumerate(case["connections"], 1):
                what = f"connection {at}"
                if "restart" in item:
                    intake.restart(item["restart"])
                elif "race" in item:
                    try_race(intake, item["race"], patience)
                else:
                    Connection(intake.connect(), intake.numbers, patience, intake.disk).play(item["steps"])
            for filer, content in case.get("register", {}).items() if end.reads_lists else ():
                what = f"the list of {filer} afterwards"
                Connection(intake.connect(), intake.numbers, patience).play(list_steps(filer, content))
        except (Fault, OSError) as fault:
            said = intake.told()
            more = f"\n    the program said: {shown(said)}" if said else ""
            how, told = how_it_failed(fault), f"{what}: {fault}{more}"
        finally:
            intake.end()
    return ("left", BLIND) if intake.disk and intake.disk.is_blind else (how, told)


def how_it_failed(fault):
    return "timed out" if isinstance(fault, (Late, TimeoutError)) else "failed"


# ---- an outbox


class Peer:
    """A server that takes one request of an outbox, answers it as the case says, and closes the connection. Before the
    first byte of the answer `before` is called."""

    def __init__(self, answer, patience, before):
        self.answer, self.patience, self.before = answer, patience, before
        self.came, self.fault = [], None
        self.listener = socket.create_server(("127.0.0.1", 0))
        self.port = self.listener.getsockname()[1]
        self.is_done = threading.Event()
        self.thread = threading.Thread(target=self.serve, daemon=True)
        self.thread.start()

    def serve(self):
        with self.listener:
            while True:
                is_last = self.is_done.is_set()
                if not select.select([self.listener], [], [], 0.02)[0]:
                    if is_last:
                        return
                    continue
                connection = self.listener.accept()[0]
                connection.settimeout(self.patience)
                self.came.append(b"")
                with connection:
                    try:
                        self.take(connection)
                        self.act(connection)
                    except OSError:
                        pass

    def take(self, connection):
        """Reads a request to the end of its body, and what is there behind it."""
        while not is_whole_request(self.came[-1]):
            found = connection.recv(65536)
            if not found:
                return
            self.came[-1] += found
        if select.select([connection], [], [], paced(BEHIND, self.patience))[0]:
            self.came[-1] += connection.recv(65536)

    def act(self, connection):
        self.before()
        for step in self.answer:
            name, value = one_member(step)
            if name == "send":
                connection.sendall(to_bytes(value))
            elif name == "pause":
                time.sleep(paced(value / 1000, self.patience))
            elif name == "quiet":
                if select.select([connection], [], [], paced(value / 1000, self.patience))[0]:
                    self.fault = Fault(
                        f"in {value} ms before the reply", "the outbox sends nothing, and its sending side is open",
                        connection.recv(65536) or "it shut its sending side",
                    )
            elif name == "reset":
                connection.setsockopt(socket.SOL_SOCKET, socket.SO_LINGER, struct.pack("ii", 1, 0))
            elif name == "wait":
                # Until the outbox closes the connection.
                while connection.recv(65536):
                    pass

    def end(self):
        self.is_done.set()
        self.thread.join(timeout=self.patience + 5)


def is_whole_request(data):
    head, mark, body = data.partition(b"\r\n\r\n")
    length = re.search(rb"(?i)\r\ncontent-length:[ \t]*([0-9]+)", head)
    return bool(mark) and len(body) >= (int(length[1]) if length else 0)


STATES = re.compile(rb"(?m)^(?:.*\s)?(open|confirmed [0-9]+|refused|clashed)\r?$")


class Outbox:
    """The commands of an outbox, and the database of one case."""

    def __init__(self, templates, folder, patience, disk):
        self.templates, self.folder, self.patience, self.disk = templates, folder, patience, disk
        self.is_slow = False

    def begin(self, name, **words):
        words = {"db": self.folder / "outbox.db", "patience": self.patience, **words}
        return start(filled(self.templates[name], words), self.disk, stdin=subprocess.DEVNULL, stdout=subprocess.PIPE,
                     stderr=subprocess.PIPE)

    def ended(self, name, process):
        """The status, the output and the errors of a command, once it ends."""
        since = time.monotonic()
        try:
            output, errors = process.communicate(timeout=2 * self.patience + 10)
        except subprocess.TimeoutExpired as late:
            process.kill()
            process.communicate()
            raise Late(f"the command {name}", "it ends", f"it runs after {2 * self.patience + 10} s") from late
        self.is_slow = time.monotonic() - since >= self.patience
        return process.returncode, output, errors

    def done(self, name, **words):
        """What a command prints, or nothing if it fails while the disk refuses."""
        status, output, errors = self.ended(name, self.begin(name, **words))
        if status and not (self.disk and self.disk.way == "refuse"):
            raise Fault(f"the command {name}", "status 0", f"status {status}: {shown(output + errors)}")
        return b"" if status else output

    def syncs(self, value):
        self.disk.go(value)

    def put(self, value):
        report = self.folder / "report.json"
        report.write_bytes(to_bytes(value["body"]))
        words = {"body": report, "key": value["key"]}
        if "amend" in value:
            self.done("amend", target=value["amend"], **words)
        else:
            self.done("put", **words)

    def send(self, value):
        syncs = value.get("syncs")
        peer = Peer(value["answer"], self.patience, lambda: self.disk.go(syncs) if syncs else None)
        try:
            process = self.begin("send", port=peer.port, entry=value["entry"])
            if syncs == "hold":
                self.hold_state(process)
            # Its status is its own: an answer that settles nothing may count as a failure or not.
            _, output, _ = self.ended("send", process)
        finally:
            peer.end()
        if peer.fault:
            raise peer.fault
        wanted = [to_bytes(one) for one in value.get("requests", [])]
        if "requests" in value and peer.came != wanted:
            kind = Late if self.is_slow else Fault
            raise kind(f"what is sent for entry {value['entry']}", as_requests(wanted), as_requests(peer.came))
        if syncs == "refuse" and [state for state in STATES.findall(output) if state != b"open"]:
            raise Fault("what send prints while the disk refuses the state", "no state that settles the entry", output)

    def hold_state(self, process):
        """The state that the answer says waits for the disk: meanwhile `send` prints none, and does not end."""
        try:
            wait_for_sync(self.disk, 2 * self.patience, lambda: process.poll() is not None)
            time.sleep(paced(HELD, self.patience))
            if process.poll() is not None:
                raise Fault("before the state is on the disk", "send waits for the disk", "it ended")
            printed = os.read(process.stdout.fileno(), 65536) if Socket(process.stdout).is_readable(0) else b""
            if STATES.search(printed):
                raise Fault("before the state is on the disk", "send prints no state", printed)
        except Fault:
            process.kill()
            process.communicate()
            raise
        finally:
            self.disk.go("pass")

    def states(self, value):
        output = self.done("status")
        found = [state.decode() for state in STATES.findall(output)]
        if found != value and not (self.disk and self.disk.way == "refuse" and not found):
            kind = Late if self.is_slow else Fault
            raise kind("the states of the entries", ", ".join(value), f"{', '.join(found)}, from {shown(output)}")


def as_requests(requests):
    return " and ".join(map(shown, requests)) if requests else "no request"


def try_outbox(templates, case, patience):
    """Plays the case, as try_intake does."""
    with tempfile.TemporaryDirectory(prefix="conformance-") as folder:
        disk = Disk() if mentions(case, "syncs") else None
        outbox = Outbox(templates, pathlib.Path(folder), patience, disk)
        what, how, told = "a new outbox", "passed", None
        try:
            outbox.done("init", filer=case["filer"])
            for at, step in enumerate(case["steps"], 1):
                name, value = one_member(step)
                what = f"step {at}"
                getattr(outbox, name)(value)
        except Unseen as cause:
            return "left", str(cause)
        except (Fault, OSError) as fault:
            how, told = how_it_failed(fault), f"{what}: {fault}"
    return ("left", BLIND) if disk and disk.is_blind else (how, told)


# ---- commands


def filled(template, words):
    """The words of a command, each with its places filled."""
    try:
        return [word.format(**words) for word in shlex.split(template)]
    except (KeyError, IndexError, ValueError) as fault:
        raise Unusable(f"{template!r} is no command here: {fault}") from fault


def start(words, disk, **options):
    """Starts a program, whose syncs go to this disk if there is one."""
    try:
        return disk.start(words, **options) if disk else subprocess.Popen(words, **options)
    except OSError as fault:
        raise Unusable(f"{words[0]}: {fault.strerror}") from fault


def free_port():
    """A port that the system gave, and what keeps other runs of this kit away from it until that is closed. The port
    itself is free: another program may listen on it."""
    while True:
        with socket.socket() as it:
            it.bind(("127.0.0.1", 0))
            port = it.getsockname()[1]
        mark = socket.socket(socket.AF_UNIX)
        if sys.platform != "linux":
            return mark, port
        try:
            mark.bind(f"\0conformance-port-{port}")
            return mark, port
        except OSError:
            mark.close()


def is_listened_to(port):
    try:
        socket.create_connection(("127.0.0.1", port), timeout=5).close()
        return True
    except OSError:
        return False


# ---- cases


# A file of cases is an object: `end` is `intake` or `outbox`, `about` says which part of the protocol it is on, `level`
# how its cases are marked, `cases` is the list. Each case has a `name`, which no other has, the `rule` in words, and a
# `level` if it is marked otherwise. Bytes are written as
#
#   "a string"                                its UTF-8; JSON's \r\n is CR LF
#   {"base64": "gOn/"}                        what this decodes to
#   {"repeat": BYTES, "times": 100}           the same bytes, so many times
#   {"each": "f%", "from": 1000, "to": 1999, "join": ","}
#                                             the string for each number in place of %, with the other string between
#   {"number": 2}                             in decimal the number of the second valid report of the case, which is 2
#                                             if the register was empty
#   [BYTES, BYTES, ..]                        one after another
#
# A case for an intake has `connections`, a list that is played in order. An element is a connection of its own, which
# is closed after its `steps`, or a `race`, several connections at once, or a `restart` (`stop` or `kill`). The steps:
#
#   {"send": BYTES}       writes these bytes at once
#   {"pause": 30}         waits so many milliseconds
#   {"reply": {..}}       reads one reply, interim or final, with this `status`; with `fields`, each of which is there
#                         once with this value; with this `content`, or with this `json` (compared as JSON). Without
#                         both the reply has no content and no Content-Length
#   {"quiet": 250}        for so many milliseconds nothing comes, and the intake does not close the connection
#   {"shut": true}        closes the sending side
#   {"closed": true}      the intake closes the connection, and nothing comes before that
#   {"stays": true}       for 250 ms nothing comes and the connection is open; then the runner closes the sending side,
#                         and the intake closes with nothing more
#   {"cut": true}         closes the connection, whatever came
#   {"reset": true}       resets the connection
#   {"syncs": "hold"}     from now on what the intake asks of the disk waits; with `refuse` it fails, with `pass` it
#                         goes on
#   {"held": true}        waits until something is asked of the disk: up to then, and a second more, nothing comes
#   {"unkept": true}      no reply comes before the end of the connection, or one of a status from 500 on
#
# A race has `times`, the number of its connections, and `send`, the request of each, which asks to close. In its bytes
# {"turn": 2} is the number of the connection, from 1, in two digits. `replies` is a list of {"times": 7, "reply":
# {..}}: so many connections get this reply, whichever they are, and are then closed. The runner sends each request but
# its last byte, and then all last bytes. If replies have several numbers, an earlier reply of the case has one too.
# With `again` each connection gets the content that it got in the race before. With `syncs` the first request is sent
# alone, and the others once the intake asks the disk, which waits. Up to then, and a second more, nothing comes on any
# connection. Then with `one` the disk goes on. With `each` one sync goes on first, and nothing comes on the other
# connections before the intake asks the disk again, nor a second more. With `refuse` each call fails, and each
# connection is `unkept`.
#
# `register` has the list of each filer afterwards: the runner sends GET /filings/FILER on a connection of its own, and
# the reply has to be 200 with this content. `limit` is the most keys that may be kept. `empty` says that the register
# has to be empty even if numbers could be counted otherwise.
#
# A case for an outbox has the `filer`, and `steps`:
#
#   {"put": {"key": .., "body": BYTES, "amend": N}}
#                         puts an entry in; with `amend`, one that replaces filing N
#   {"send": {"entry": 1, "requests": [BYTES], "answer": [..]}}
#                         sends the entry and answers it. `requests` are the requests that have to come, each on a
#                         connection of its own; without `requests` that is left open. With `syncs` what `send` asks of
#                         the disk from the answer on waits (`hold`): meanwhile it neither ends nor prints a state. Or
#                         it fails (`refuse`), and `send` prints no state but `open`
#   {"states": [..]}      compares the state of each entry, as `open` or `confirmed 7`
#   {"syncs": "refuse"}   from now on what the outbox asks of the disk fails, and so may `put` and `status`; with `pass`
#                         it goes on
#
# The steps of `answer` are played once a request has come whole: `send`, `pause`, `quiet` (the outbox sends nothing
# meanwhile, and does not shut its sending side), `reset` (the connection is reset at its end, in place of closed), and
# `wait` (the server waits until the outbox closes). Then the server closes the connection.

# The members that each thing has, and of which kind; those with a question mark may be missing.
ANY, BYTES, BYTES_OF_TURN = object(), object(), object()
LEVELS, WAYS = ("must", "strict"), ("pass", "hold", "refuse")
REPLY = {"status": int, "fields?": dict, "content?": BYTES, "json?": ANY}
STEPS = {
    "send": BYTES,
    "reply": REPLY,
    "pause": int,
    "quiet": int,
    "syncs": WAYS,
    "held": bool,
    "unkept": bool,
    "shut": bool,
    "stays": bool,
    "closed": bool,
    "cut": bool,
    "reset": bool,
}
RACE = {
    "times": int,
    "send": BYTES_OF_TURN,
    "replies": [{"times": int, "reply": REPLY}],
    "again?": bool,
    "syncs?": ("one", "each", "refuse"),
}
ANSWER = {"send": BYTES, "pause": int, "quiet": int, "wait": bool, "reset": bool}
SENDING = {"entry": int, "requests?": [BYTES], "answer": [ANSWER], "syncs?": ("hold", "refuse")}
OUTBOX_STEPS = {
    "put": {"key": str, "body": BYTES, "amend?": int},
    "send": SENDING,
    "states": [str],
    "syncs": WAYS,
}
CASES = {
    "intake": {
        "name": str,
        "rule": str,
        "level?": LEVELS,
        "connections": [{"steps": [STEPS], "race": RACE, "restart": ("stop", "kill")}],
        "register?": dict,
        "limit?": int,
        "empty?": bool,
    },
    "outbox": {"name": str, "rule": str, "level?": LEVELS, "filer": str, "steps": [OUTBOX_STEPS]},
}
# Of these members a thing has exactly one.
ONE_OF = (STEPS, ANSWER, OUTBOX_STEPS, CASES["intake"]["connections"][0])


def check_form(what, it, form):
    """Raises what is wrong with a part of a case."""
    if form is BYTES:
        to_bytes(it, 0)
    elif form is BYTES_OF_TURN:
        to_bytes(it, 0, 1)
    elif isinstance(form, list):
        if not isinstance(it, list):
            raise Unusable(f"{what} is no list")
        for at, one in enumerate(it, 1):
            check_form(f"{what}, {at}", one, form[0])
    elif isinstance(form, dict):
        check_members(what, it, form)
    elif isinstance(form, tuple):
        if it not in form:
            raise Unusable(f"{what} is none of {', '.join(form)}")
    elif form is not ANY and (not isinstance(it, form) or isinstance(it, bool) and form is not bool):
        raise Unusable(f"{what} is no {form.__name__}")


def check_members(what, it, form):
    if not isinstance(it, dict):
        raise Unusable(f"{what} is no object")
    known = {name.rstrip("?"): (name, kind) for name, kind in form.items()}
    is_choice = any(form is one for one in ONE_OF)
    if is_choice and len(it) != 1:
        raise Unusable(f"{what} has {len(it)} members in place of one")
    for name, value in it.items():
        if name not in known:
            raise Unusable(f"{what}: there is no {name!r}")
        check_form(f"{what}, {name}", value, known[name][1])
    for name, (spelled, _) in known.items():
        if not (is_choice or spelled.endswith("?") or name in it):
            raise Unusable(f"{what} has no {name!r}")


def check_case(end, case):
    check_members(f"the case {case.get('name')}", case, CASES[end])
    for content in case.get("register", {}).values():
        to_bytes(content, 0)
    for it in (item["race"] for item in case.get("connections", []) if "race" in item):
        if it.get("syncs") != "refuse" and it["times"] != sum(one["times"] for one in it["replies"]):
            raise Unusable(f"the case {case['name']}: a race of {it['times']} connections has another count of replies")
    if not case["name"] or not case["rule"]:
        raise Unusable("a case has no name or no rule")


def read_cases(folder, end, only, exact):
    """The cases of this end, or of both, in the order of the files' names."""
    files = sorted(pathlib.Path(folder).glob("*.json"))
    if not files:
        raise Unusable(f"{folder}: there are no cases")
    found, names = [], set()
    for file in files:
        try:
            whole = json.loads(file.read_bytes())
            check_form("the level of the cases", whole["level"], LEVELS)
            for case in whole["cases"]:
                check_case(whole["end"], case)
                if case["name"] in names:
                    raise Unusable(f"two cases are called {case['name']}")
                names.add(case["name"])
                found.append({"end": whole["end"], "level": whole["level"], **case})
        except Unusable as fault:
            raise Unusable(f"{file}: {fault}") from fault
        except (ValueError, KeyError, TypeError, AttributeError) as fault:
            raise Unusable(f"{file}: no file of cases: {fault!r}") from fault
    of_end = [case for case in found if end in (None, case["end"])]
    unknown = set(exact) - {case["name"] for case in of_end}
    chosen = [
        case
        for case in of_end
        if not (only or exact) or case["name"] in exact or any(word in case["name"] for word in only)
    ]
    if unknown or not chosen:
        raise Unusable(
            f"no case is called so: {' '.join(sorted(unknown) or only)}"
            if only or exact
            else f"there are no cases for {end}"
        )
    return chosen


class Tally:
    """How the cases went that were tried, and why others were not."""

    def __init__(self):
        self.counts = {level: collections.Counter() for level in LEVELS}
        self.left, self.late = {}, []

    def take(self, case, how, told):
        """Takes how a case went, and tells of it if it failed."""
        if how == "left":
            self.left.setdefault(told, []).append(case["name"])
            return
        self.counts[case["level"]][how] += 1
        if how != "passed":
            print(f"{how}: {case['name']} ({case['level']}): {case['rule']}\n  {told}", flush=True)

    def status(self):
        tried = sum(sum(counts.values()) for counts in self.counts.values())
        failed = {level: counts["failed"] + counts["timed out"] for level, counts in self.counts.items()}
        if failed["must"] or not tried:
            return 1
        return 4 if failed["strict"] else 0


def tried(cases, attempt, lacks, jobs):
    """Tries the cases, so many at a time, and those that timed out once more alone; tells of those that failed, and
    gives the status."""
    tally = Tally()

    def one(case):
        cause = lacks(case)
        return ("left", cause) if cause else attempt(case)

    pool = concurrent.futures.ThreadPoolExecutor(jobs)
    try:
        for case, (how, told) in zip(cases, pool.map(one, cases)):
            if how == "timed out":
                tally.late.append((case, told))
            else:
                tally.take(case, how, told)
    finally:
        pool.shutdown(cancel_futures=True)
    for at, (case, told) in enumerate(tally.late):
        tally.take(case, *(one(case) if at < MOST_AGAIN else ("timed out", told)))
    for cause, names in tally.left.items():
        print(f"not tried, since {cause}: {len(names)}, as {names[0]}")
    if tally.late:
        print(f"timed out, and tried once more: {min(len(tally.late), MOST_AGAIN)} of {len(tally.late)}")
    for level, counts in tally.counts.items():
        print(f"{level}: {counts['passed']} passed, {counts['failed']} failed, {counts['timed out']} timed out")
    return tally.status()


def filer_with_filings(options, cases):
    """The first filer of these cases that has filings already, if any. What else may be wrong with a list,
    the cases say."""
    for filer in sorted({filer for case in cases for filer in case.get("register", {})}):
        connection = http.client.HTTPConnection("127.0.0.1", options.port, timeout=options.patience)
        try:
            connection.request("GET", f"/filings/{filer}", headers={"Connection": "close"})
            reply = connection.getresponse()
            if reply.status == 200 and json.loads(reply.read()).get("filings"):
                return filer
        except (OSError, http.client.HTTPException, ValueError, AttributeError):
            return None
        finally:
            connection.close()
    return None


def intake_of(options):
    """The end that the options name, and how many cases are tried at a time."""
    if options.command:
        return Command(options.command, options.again, options.no_syncs), options.jobs
    if options.exec:
        return Piped(options.exec), options.jobs
    return Running(options.port), 1


def run_intake(options, cases):
    end, jobs = intake_of(options)
    if options.port:
        # The only case that gets the register empty comes first.
        cases.sort(key=lambda case: not case.get("empty"))
        if not is_listened_to(options.port):
            raise Unusable(f"nobody listens on port {options.port} of 127.0.0.1")
        if filer := filer_with_filings(options, cases):
            raise Unusable(f"the register has filings of {filer} already: the cases need an empty one")
    return tried(cases, lambda case: try_intake(end, case, options.patience), end.lacks, jobs)


def run_outbox(options, cases):
    program = shlex.quote(options.command) if os.path.exists(options.command) else options.command
    templates = {
        "init": options.init or f"{program} init --db {{db}} --filer {{filer}}",
        "put": options.put or f"{program} put --db {{db}} --body {{body}} --key {{key}}",
        "amend": options.amend or f"{program} put --db {{db}} --body {{body}} --key {{key}} --amend {{target}}",
        "send": options.send or f"{program} send --db {{db}} --port {{port}} --entry {{entry}} --patience {{patience}}",
        "status": options.status or f"{program} status --db {{db}}",
    }
    return tried(
        cases,
        lambda case: try_outbox(templates, case, options.patience),
        lambda case: NO_SYNCS if options.no_syncs and mentions(case, "syncs") else None,
        options.jobs,
    )


def show(_, cases):
    for case in cases:
        print(f"{case['end']} {case['name']} ({case['level']}): {case['rule']}")
    return 0


def number_to(most):
    """What reads a number from 1 to this one."""

    def number(text):
        if not 1 <= int(text) <= most:
            raise ValueError
        return int(text)

    return number


def read_words(words):
    parser = argparse.ArgumentParser(prog="run.py", description="Holds an implementation of either end to the cases.")
    parsers = parser.add_subparsers(dest="end", required=True)
    shared = argparse.ArgumentParser(add_help=False)
    shared.add_argument(
        "--only", action="append", default=[], metavar="WORD", help="cases with this word in their name"
    )
    shared.add_argument("--case", action="append", default=[], metavar="NAME", help="the case of this name")
    shared.add_argument("--cases", default=HERE / "cases", metavar="FOLDER", help="another folder of cases")
    shared.add_argument(
        "--patience",
        type=number_to(600),
        default=PATIENCE,
        metavar="SECONDS",
        help="how long an answer is waited for (10)",
    )
    shared.add_argument(
        "--jobs", type=number_to(64), default=4, metavar="N", help="how many cases are tried at a time (4)"
    )
    shared.add_argument(
        "--no-syncs", action="store_true", help="leave out the cases that hold or refuse what is asked of the disk"
    )
    intake = parsers.add_parser("intake", parents=[shared], help="a supervisor's end")
    way = intake.add_mutually_exclusive_group(required=True)
    way.add_argument(
        "--command",
        metavar="TEMPLATE",
        help="starts an intake on a new register: {db}, {port}, {n} connections, {limit} of keys",
    )
    way.add_argument(
        "--port", type=number_to(65535), metavar="PORT", help="an intake that runs, with an empty register"
    )
    way.add_argument("--exec", metavar="COMMAND", help="serves standard input and output as one connection")
    intake.add_argument("--again", metavar="TEMPLATE", help="starts an intake on a register that is there")
    outbox = parsers.add_parser("outbox", parents=[shared], help="a filer's end")
    outbox.add_argument(
        "--command",
        default="outbox",
        metavar="PROGRAM",
        help="a program that takes the words of this repository's outbox",
    )
    for name, places in (("init", "{db} {filer}"), ("put", "{db} {body} {key}"),
                         ("amend", "{db} {body} {key} {target}"), ("send", "{db} {port} {entry} {patience}"),
                         ("status", "{db}")):
        outbox.add_argument(f"--{name}", metavar="TEMPLATE", help=f"another command for this, with {places}")
    parsers.add_parser("list", parents=[shared], help="prints each case's name and rule")
    return parser.parse_args(words)


def main(words):
    options = read_words(words)
    try:
        cases = read_cases(options.cases, None if options.end == "list" else options.end, options.only, options.case)
        status = {"list": show, "intake": run_intake, "outbox": run_outbox}[options.end](options, cases)
        sys.stdout.flush()
        return status
    except Unusable as fault:
        print(f"run.py: {fault}", file=sys.stderr)
        return 2
    except OSError as fault:
        # What could not be written is not tried again at the end.
        os.dup2(os.open(os.devnull, os.O_WRONLY), sys.stdout.fileno())
        print(f"run.py: {fault.filename or 'the output or a file'}: {fault.strerror or fault}", file=sys.stderr)
        return 3


if __name__ == "__main__":
    sys.exit(main(sys.argv[1:]))
