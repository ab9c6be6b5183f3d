#!/usr/bin/env python3
"""Stands in for `intake`, as check_many_connections.py needs it, and has a fault if the variable FAULT names one.

    tools/intake_stand_in.py serve --db FILE --port P|--socket PATH --connections C [--at-once N] [--memory MB]
        [--patience SECONDS] [--new] [--log]
    tools/intake_stand_in.py check --db FILE
    tools/intake_stand_in.py list --db FILE --filer CODE

It serves many connections at once, by one thread and readiness, and keeps what was filed as lines of JSON. It judges no
report: each is valid. The faults are those of FAULTS; without one it does all that the checks ask for.
"""
import argparse
import errno
import json
import os
import re
import selectors
import socket
import stat
import sys
import time

FAULTS = {
    "serves one connection after another",
    "serves all at once",
    "gives a reply to another connection",
    "drops a connection that is half closed",
    "answers what was cut off",
    "ends if a peer resets",
    "drops what is pipelined",
    "writes no interim response",
    "writes the interim response twice",
    "keeps a report before the repeats behind it",
    "drops the others if the disk is full",
    "skips a number if the disk is full",
    "ends if an accept fails",
    "ends without a descriptor",
    "drops a connection without a descriptor",
    "spins without a descriptor",
    "waits for ever",
    "counts from the last byte",
    "counts from the first request",
    "cuts off what waits for the server",
    "never cuts off who doesn't read",
    "drops a large request without a loan",
    "lends without bound",
    "never takes a loan back",
    "answers before it keeps",
    "forgets keys at a start",
    "writes a line for each request",
    "counts a connection for each request",
    "leaves the file of its socket",
    "lets only its user connect",
    "takes the path of another",
    "removes any file",
    "removes nothing",
}
FAULT = os.environ.get("FAULT", "")
INTERIM = b"HTTP/1.1 100 Continue\r\n\r\n"
PHRASES = {200: "OK", 201: "Created", 400: "Bad Request", 404: "Not Found", 422: "Unprocessable Content",
           431: "Request Header Fields Too Large", 503: "Service Unavailable"}  # fmt: skip
# The room that each connection has beside its loan, what a read brings at most, and what a loan is.
SMALL_ROOM, READ, LOAN = 16_384, 16_384, 1_081_346
# For how many seconds a loan is held while another connection is short of one.
TERM = 5
TARGET = re.compile(r"/filings/([A-Za-z0-9._-]{1,64})")


class Full(Exception):
    """The disk takes no more."""


class Register:
    """What was filed: by filer and key the body's length and the number, in a file of lines."""

    def __init__(self, path, is_new=False):
        if is_new:
            open(path, "xb").close()
        self.file = open(path, "r+b", buffering=0)
        self.kept, self.filings, self.unsaved = {}, {}, []
        whole = 0
        with open(path, "rb") as lines:
            for line in lines:
                if not line.endswith(b"\n"):
                    break
                whole += len(line)
                self.remember(*json.loads(line))
        self.file.truncate(whole)
        self.file.seek(whole)
        self.next = 1 + sum(map(len, self.filings.values()))

    def remember(self, filer, key, length, number):
        self.kept[filer, key] = length, number
        self.filings.setdefault(filer, []).append(number)

    def add(self, filer, key, body):
        number = self.next
        line = json.dumps([filer, key, len(body), number]).ljust(len(body)) + "\n"
        if FAULT == "skips a number if the disk is full":
            self.next += 1
        if FAULT == "answers before it keeps":
            self.unsaved.append(line)
            if len(self.unsaved) == 20:
                self.write("".join(self.unsaved))
                self.unsaved = []
        else:
            self.write(line)
        self.next = number + 1
        self.remember(filer, key, len(body), number)
        return number

    def write(self, line):
        at = self.file.tell()
        try:
            if self.file.write(line.encode()) < len(line):
                raise OSError(errno.ENOSPC, "cut")
            os.fdatasync(self.file.fileno())
        except OSError as fault:
            self.file.truncate(at)
            self.file.seek(at)
            raise Full from fault

    def list_of(self, filer):
        found = [{"facts": 0, "number": number} for number in self.filings.get(filer, [])]
        return json.dumps({"filings": found}, separators=(",", ":"))


def problem(status, reason):
    content = {"reason": reason, "status": status, "title": PHRASES[status], "type": "about:blank"}
    return status, json.dumps(content, separators=(",", ":"))


class Line:
    """A connection."""

    def __init__(self, peer, number):
        self.peer, self.number = peer, number
        self.held, self.owed = bytearray(), bytearray()
        self.has_ended = self.is_closing = self.is_awaited = self.has_loan = False
        self.since = self.lent = time.monotonic()
        self.statuses, self.filers = [], []
        self.ended = "input ended"

    def piece(self):
        """The length of the head and of the whole request that it holds, and whether an interim response is awaited;
        or nothing."""
        end = self.held.find(b"\r\n\r\n", 0, SMALL_ROOM)
        if end < 0:
            return None
        head = bytes(self.held[: end + 4])
        length = re.search(rb"(?i)\r\ncontent-length: *(\d+)", head)
        return end + 4, end + 4 + int(length[1] if length else 0), b"100-continue" in head

    def is_whole(self):
        piece = self.piece()
        return piece is not None and len(self.held) >= piece[1] or len(self.held) > SMALL_ROOM and piece is None


def address_of(words):
    return f"unix:{words.socket}" if words.socket else f"127.0.0.1:{words.port}"


def listener_at(words):
    """What listens at the port or the path of these words, and ends the program if it cannot."""
    if not words.socket:
        return socket.create_server(("127.0.0.1", words.port), backlog=4096)
    try:
        if os.path.lexists(words.socket):
            remove_left(words.socket)
        listener = socket.socket(socket.AF_UNIX)
        listener.bind(words.socket)
    except OSError as fault:
        cause = f"{fault.strerror} (os error {fault.errno})" if fault.errno else fault
        print(f"intake: {address_of(words)}: {cause}", file=sys.stderr, flush=True)
        sys.exit(3)
    listener.listen(4096)
    os.chmod(words.socket, 0o600 if FAULT == "lets only its user connect" else 0o666)
    return listener


def remove_left(path):
    """Removes what is at a path, if it is a socket on which nobody listens any more."""
    is_socket = stat.S_ISSOCK(os.lstat(path).st_mode)
    if not is_socket and FAULT != "removes any file":
        raise OSError("a file is there that is no socket")
    with socket.socket(socket.AF_UNIX) as peer:
        if is_socket and peer.connect_ex(path) != errno.ECONNREFUSED and FAULT != "takes the path of another":
            raise OSError("another program listens there")
    if FAULT != "removes nothing":
        os.unlink(path)


class Serving:
    # What it keeps reports in.
    kind = Register

    def __init__(self, words):
        self.words = words
        # A new register is made once it listens.
        self.listener = listener_at(words)
        self.register = self.kind(words.db, words.new)
        if FAULT == "forgets keys at a start":
            self.register.kept.clear()
        self.listener.setblocking(False)
        self.selector = selectors.DefaultSelector()
        self.lines, self.taken, self.loans = {}, 0, 0
        self.at_once = {"serves one connection after another": 1, "serves all at once": 65_535}.get(
            FAULT, words.at_once)
        self.most_loans = max(1, words.memory * 500_000 // LOAN)
        self.stalled_until, self.refused = 0, False
        self.lost = None
        kept = f"{len(self.register.kept)} kept, {self.register.next - 1} filings"
        print(f"intake: serving {address_of(words)}: {kept}, opened in 1 ms", file=sys.stderr, flush=True)

    def run(self):
        while self.lines or self.taken < self.words.connections:
            self.register_interests()
            ready = self.selector.select(0 if self.spins() else 0.02)
            if FAULT == "cuts off what waits for the server":
                self.cut_off()
            for key, events in ready:
                if key.data is None:
                    self.accept_all()
                elif key.data.peer.fileno() >= 0:
                    self.go_on(key.data, events)
            lines = list(self.lines.values())
            if FAULT != "keeps a report before the repeats behind it":
                lines.sort(key=self.has_to_be_kept)
            for line in lines:
                self.serve_next(line)
                if line.owed and line.peer.fileno() >= 0:
                    self.go_on(line, selectors.EVENT_WRITE)
            self.cut_off()
        if self.words.socket and FAULT != "leaves the file of its socket":
            os.unlink(self.words.socket)
        ending = "" if self.taken == 1 else "s"
        print(f"intake: ended after {self.taken} connection{ending}", file=sys.stderr, flush=True)

    def spins(self):
        return FAULT == "spins without a descriptor" and time.monotonic() < self.stalled_until

    def register_interests(self):
        wanted = {}
        if self.has_room() and time.monotonic() >= self.stalled_until:
            wanted[self.listener] = (selectors.EVENT_READ, None)
        for line in list(self.lines.values()):
            if line.owed:
                wanted[line.peer] = (selectors.EVENT_WRITE, line)
            elif not line.has_ended and not line.is_closing and self.may_read(line):
                wanted[line.peer] = (selectors.EVENT_READ, line)
        wanted = {peer: it for peer, it in wanted.items() if peer.fileno() >= 0}
        for key in list(self.selector.get_map().values()):
            if key.fileobj not in wanted:
                self.selector.unregister(key.fileobj)
        known = {key.fileobj: key.events for key in self.selector.get_map().values()}
        for peer, (events, line) in wanted.items():
            if peer not in known:
                self.selector.register(peer, events, line)
            elif known[peer] != events:
                self.selector.modify(peer, events, line)

    def may_read(self, line):
        """Whether it may have more than its small room, if it needs that."""
        if len(line.held) <= SMALL_ROOM or line.has_loan or FAULT == "lends without bound":
            return True
        self.take_back()
        if self.loans < self.most_loans:
            self.loans += 1
            line.has_loan, line.lent = True, time.monotonic()
            return True
        if FAULT == "drops a large request without a loan":
            line.is_closing = True
        return False

    def take_back(self):
        """Ends who holds a loan past its term, if all are lent."""
        if self.loans < self.most_loans or FAULT == "never takes a loan back":
            return
        for line in list(self.lines.values()):
            if line.has_loan and line.lent + TERM < time.monotonic():
                self.end(line)

    def has_room(self):
        return len(self.lines) < self.at_once and self.taken < self.words.connections

    def accept_all(self):
        """Takes all connections that wait, as many as may be served."""
        while self.has_room() and self.accept():
            pass

    def accept(self):
        """Takes a connection, and says whether another may wait."""
        try:
            peer, _ = self.listener.accept()
        except BlockingIOError:
            return False
        except OSError as fault:
            if fault.errno != errno.EMFILE:
                return self.refuse(fault)
            if FAULT == "ends without a descriptor":
                sys.exit(3)
            if FAULT == "drops a connection without a descriptor":
                self.end(next(iter(self.lines.values())))
            self.stalled_until = time.monotonic() + 0.1
            return False
        peer.setblocking(False)
        self.taken += 1
        self.lines[peer] = Line(peer, self.taken)
        return True

    def refuse(self, fault):
        """An accept failed; it is tried again, and the first one for no cause of the connection is reported."""
        if FAULT == "ends if an accept fails":
            sys.exit(3)
        if fault.errno != errno.EPROTO and not self.refused:
            self.refused = True
            print(f"intake: no connection could be accepted: {fault}", file=sys.stderr, flush=True)
        return False

    def go_on(self, line, events):
        try:
            if events & selectors.EVENT_WRITE:
                del line.owed[: line.peer.send(line.owed)]
                if not line.owed and FAULT != "counts from the first request":
                    line.since = time.monotonic()
                return
            more = line.peer.recv(READ)
        except BlockingIOError:
            return
        except OSError:
            if FAULT == "ends if a peer resets":
                sys.exit(3)
            line.ended = "the reader failed"
            print(f"intake: connection {line.number}: the reader failed", file=sys.stderr, flush=True)
            self.end(line)
            return
        if more and (not line.held or FAULT == "counts from the last byte"):
            if FAULT != "counts from the first request":
                line.since = time.monotonic()
        line.held += more
        if not more:
            line.has_ended = True

    def has_to_be_kept(self, line):
        """Whether its next request is whole, and the first of its filer and key."""
        piece = line.piece()
        if line.owed or piece is None or len(line.held) < piece[1]:
            return False
        head = bytes(line.held[: piece[0]]).decode(errors="replace")
        filer, key = TARGET.search(head), re.search(r'\r\nIdempotency-Key: "([^"]*)"', head)
        return bool(filer and key) and (filer[1], key[1]) not in self.register.kept

    def serve_next(self, line):
        if line.peer.fileno() < 0:
            return
        if FAULT == "drops a connection that is half closed" and self.is_half_closed(line):
            self.end(line)
            return
        if line.owed:
            return
        if line.is_closing:
            self.end(line)
            return
        if line.is_whole():
            self.serve(line)
            return
        piece = line.piece()
        if piece and piece[2] and not line.is_awaited and FAULT != "writes no interim response":
            line.is_awaited = True
            line.owed += INTERIM
        elif line.has_ended:
            if FAULT == "answers what was cut off" and piece:
                line.held += b" " * piece[1]
                self.serve(line)
                line.held.clear()
            else:
                self.end(line)

    def is_half_closed(self, line):
        try:
            return line.peer.recv(1, socket.MSG_PEEK) == b""
        except OSError:
            return False

    def serve(self, line):
        piece = line.piece()
        if piece is None:
            self.owe(line, *problem(431, "head-too-large"), True)
            return
        head_length, whole, awaits = piece
        head, body = bytes(line.held[:head_length]).decode(), bytes(line.held[head_length:whole])
        del line.held[:whole]
        if line.has_loan:
            self.loans -= 1
            line.has_loan = False
        if FAULT == "drops what is pipelined":
            line.held.clear()
        closes = "\r\nconnection: close\r\n" in head.lower()
        if awaits and (not line.is_awaited or FAULT == "writes the interim response twice"):
            line.owed += INTERIM
        line.is_awaited = False
        self.owe(line, *self.answer(line, head, body), closes)
        if line.owed and FAULT != "counts from the first request":
            line.since = time.monotonic()
        if FAULT == "writes a line for each request" and self.words.log:
            self.log(line)

    def answer(self, line, head, body):
        method, target, _ = head.split(" ", 2)
        found = TARGET.fullmatch(target)
        if not found:
            return problem(404, "no-path")
        filer = found[1]
        if method == "GET":
            return 200, self.register.list_of(filer)
        line.filers.append(filer)
        key = re.search(r'\r\nIdempotency-Key: "([^"]*)"', head)[1]
        if (filer, key) in self.register.kept:
            length, number = self.register.kept[filer, key]
            if length != len(body):
                return problem(422, "key-reused")
        else:
            try:
                number = self.register.add(filer, key, body)
            except Full:
                if FAULT == "drops the others if the disk is full":
                    for other in list(self.lines.values()):
                        if other is not line:
                            self.end(other)
                return problem(503, "unavailable")
        return 201, f'{{"number":{number},"status":"registered"}}'

    def owe(self, line, status, content, closes):
        kind = "application/json" if status < 300 else "application/problem+json"
        closing = "Connection: close\r\n" if closes else ""
        line.statuses.append(status)
        line.is_closing |= closes
        text = (f"HTTP/1.1 {status} {PHRASES[status]}\r\nContent-Type: {kind}\r\nContent-Length: {len(content)}\r\n"
                f"{closing}\r\n{content}").encode()  # fmt: skip
        if FAULT == "gives a reply to another connection":
            text, self.lost = self.lost or text, text
        line.owed += text

    def cut_off(self):
        if self.words.patience is None or FAULT == "waits for ever":
            return
        now = time.monotonic()
        for line in list(self.lines.values()):
            if now - line.since <= self.words.patience or self.waits_for_us(line):
                continue
            if FAULT == "never cuts off who doesn't read" and line.owed:
                continue
            print(f"intake: connection {line.number}: cut off after {self.words.patience} seconds",
                  file=sys.stderr, flush=True)  # fmt: skip
            line.ended = "the reader failed"
            self.end(line)

    def waits_for_us(self, line):
        """Whether its peer sent bytes that were not read yet, or takes bytes that were not written yet."""
        if FAULT == "cuts off what waits for the server":
            return False
        if line.owed:
            return False
        try:
            return bool(line.peer.recv(1, socket.MSG_PEEK))
        except OSError:
            return False

    def end(self, line):
        if self.lines.pop(line.peer, None) is None:
            return
        try:
            self.selector.unregister(line.peer)
        except KeyError:
            pass
        line.peer.close()
        if line.has_loan:
            self.loans -= 1
        if FAULT == "counts a connection for each request":
            self.taken += max(0, len(line.statuses) - 1)
        if self.words.log and FAULT != "writes a line for each request":
            self.log(line)

    def log(self, line):
        print(json.dumps({"connection": line.number, "ended": "closed" if line.is_closing else line.ended,
                          "filers": line.filers[:64], "places": len(line.statuses), "statuses": line.statuses[:64]},
                         separators=(",", ":")), flush=True)  # fmt: skip


def words_of(words):
    parser = argparse.ArgumentParser()
    parser.add_argument("task", choices=["serve", "check", "list"])
    for name, kind in [("db", str), ("filer", str), ("socket", str), ("port", int), ("connections", int),
                       ("patience", int)]:  # fmt: skip
        parser.add_argument(f"--{name}", type=kind)
    parser.add_argument("--at-once", type=int, default=256)
    parser.add_argument("--memory", type=int, default=256)
    parser.add_argument("--new", action="store_true")
    parser.add_argument("--log", action="store_true")
    return parser.parse_args(words)


def main(words):
    if FAULT and FAULT not in FAULTS:
        sys.exit(f"there is no fault {FAULT!r}")
    given = words_of(words)
    if given.task == "serve":
        Serving(given).run()
    elif given.task == "check":
        register = Register(given.db)
        print(f"sound: {len(register.kept)} kept, {sum(map(len, register.filings.values()))} filings")
    else:
        print(Register(given.db).list_of(given.filer))


if __name__ == "__main__":
    main(sys.argv[1:])
