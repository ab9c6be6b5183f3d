#!/usr/bin/env python3
"""Holds the built programs to the cases of conformance/, and the runner of these cases to account.

    tools/check_conformance.py [INTAKE OUTBOX] [--only WORD] [--patience SECONDS]

Without names it takes the programs that `rt run` builds in their folders. First each case is played on them: over
sockets with an intake started for each case, over the port of one that runs, on standard input and output, and with the
outbox. Then wrong programs are played: an intake and an outbox that this script puts itself in front of, changing one
thing, and a small intake of its own. For each fault the named cases have to fail, and the others named, or all others,
have to pass. All this takes some twenty minutes; on a busy machine give --patience, which is that of the runner.
The last line is 'N passed, M failed', and the status 1 if one failed.
"""
import argparse
import collections
import contextlib
import ctypes
import json
import os
import pathlib
import re
import select
import shlex
import signal
import socket
import subprocess
import sys
import tempfile
import threading
import time

import trials
from trials import ROOT, free_port, tell

RUNNER = ROOT / "conformance/run.py"
SERVE = "serve --db {db} --port {port} --connections {n}"
passed = []


def tell_one(what, fault=None):
    tell(what, fault)
    if not fault:
        passed.append(what)


# ---- an intake with one fault, played in front of the real one


def replies_of(data):
    """The whole replies at the front of these bytes, and the rest."""
    found = []
    while (end := data.find(b"\r\n\r\n")) >= 0:
        length = re.search(rb"(?i)\r\ncontent-length: *(\d+)", data[: end + 2])
        size = end + 4 + (int(length[1]) if length else 0)
        if len(data) < size:
            break
        found.append(data[:size])
        data = data[size:]
    return found, data


def with_content(reply, content):
    """The reply with another content, and its length."""
    head = reply.partition(b"\r\n\r\n")[0]
    return re.sub(rb"(?i)content-length: *\d+", b"Content-Length: %d" % len(content), head) + b"\r\n\r\n" + content


def changed_content(change):
    def changed(reply):
        head, mark, content = reply.partition(b"\r\n\r\n")
        return with_content(reply, change(content)) if content else reply

    return changed


def next_number(found):
    return b'"number":%d' % (int(found[1]) + 1)


def by_utf_16(content):
    """The content with its findings in the order that UTF-16 gives their places."""
    findings = re.findall(rb'\{"code":"[a-z-]+","place":"(?:[^"\\]|\\.)*"\}', content)
    ordered = sorted(findings, key=lambda it: json.loads(it)["place"].encode("utf-16-be"))
    return content.replace(b",".join(findings), b",".join(ordered), 1) if findings else content


def without_continue(reply):
    return b"" if reply.startswith(b"HTTP/1.1 100 ") else reply


# What a fault does to each reply.
REPLY_FAULTS = {
    "answers 200 for 201": lambda reply: reply.replace(b" 201 Created", b" 200 OK", 1),
    "answers 400 for 422": lambda reply: reply.replace(b" 422 ", b" 400 ", 1),
    "sends no Allow": lambda reply: reply.replace(b"Allow: GET, POST\r\n", b""),
    "calls problem details JSON": lambda reply: reply.replace(b"application/problem+json", b"application/json", 1),
    "cuts a byte off the content": changed_content(lambda content: content[:-1]),
    "writes a space into the content": changed_content(lambda content: content.replace(b":", b": ", 1)),
    "writes a byte behind the reply": lambda reply: reply + b"\n",
    "sends no length": lambda reply: re.sub(rb"Content-Length: \d+\r\n", b"", reply),
    "sends a wrong length": lambda reply: re.sub(
        rb"(Content-Length: )(\d+)", lambda it: it[1] + b"%d" % (int(it[2]) + 1), reply
    ),
    "sends the length twice": lambda reply: re.sub(rb"(Content-Length: \d+\r\n)", rb"\1\1", reply),
    "calls itself HTTP/1.0": lambda reply: reply.replace(b"HTTP/1.1 ", b"HTTP/1.0 ", 1),
    "names a transfer coding": lambda reply: reply.replace(b"\r\n\r\n", b"\r\nTransfer-Encoding: chunked\r\n\r\n", 1),
    "counts numbers from 2": changed_content(lambda content: re.sub(rb'"number":(\d+)', next_number, content)),
    "lists nothing": changed_content(
        lambda content: b'{"filings":[]}' if content.startswith(b'{"filings"') else content
    ),
    "lists no replacements": changed_content(lambda content: re.sub(rb',"replace[a-z_]*":\d+', b"", content)),
    "tells findings in another order": changed_content(
        lambda content: re.sub(rb"(\[)(\{[^}]*\}),(\{[^}]*\})", rb"\1\3,\2", content, count=1)
    ),
    "sorts by UTF-16": changed_content(by_utf_16),
    "tells one finding less": changed_content(lambda content: re.sub(rb"\},\{[^}]*\}\]", b"}]", content, count=1)),
    "never sends 100 Continue": without_continue,
    "writes content to a HEAD": lambda reply: (
        reply + b"{}" if b" 405 " in reply and b"Content-Length" not in reply else reply
    ),
}
# What may be otherwise: other fields, another phrase, names in lower case, and replies in pieces.
HARMLESS = "is another sound intake"


def made_harmless(reply):
    head, mark, content = reply.partition(b"\r\n\r\n")
    lines = head.split(b"\r\n")
    first = lines[0][:12] + b" So it is"
    fields = [name.lower() + b":\t" + value.strip() + b" "
              for name, _, value in (line.partition(b":") for line in lines[1:])]
    return (
        b"\r\n".join([first, b"Date: Mon, 01 Jan 2024 00:00:00 GMT", *reversed(fields), b"Server: another"])
        + mark + content
    )


# Faults of an intake that takes connections side by side.
UNLOCKED, NUMBERS_TWICE = "has no lock", "gives a number twice"
TABS = "takes tabs for characters of a part"
# A POST: its filer, the number of the filing that it replaces, and what comes up to the end of its key.
POST = re.compile(rb'(POST /filings/[^ /]+)(/\d+)?( (?:(?!\r\n\r\n)[\s\S])*?\r\nIdempotency-Key: "[^"\r]*)"')


class UnderWay:
    """The requests of all connections that came and have no reply yet."""

    def __init__(self, fault):
        self.fault, self.guard = fault, threading.Lock()
        self.marks, self.last = collections.Counter(), 0

    def asked(self, data, own):
        """What the real intake is asked, as if nobody saw what other connections are about to keep."""

        def one(found):
            filer, number, rest = found[1], found[2] or b"", found[3]
            key, target = (filer, rest.rpartition(b'"')[2]), (filer, number)
            with self.guard:
                is_beside = {mark: self.marks[mark] > own.marks[mark] for mark in ("any", key, target)}
                if self.fault == UNLOCKED and is_beside[key]:
                    rest += b"~%d" % self.marks[key]
                if self.fault == UNLOCKED and is_beside[target]:
                    number = b""
                own.last, own.is_beside = self.last, is_beside["any"]
                for counts in (self.marks, own.marks):
                    counts.update(is_beside.keys())
            return filer + number + rest + b'"'

        return POST.sub(one, data)

    def replied(self, reply, own):
        """The reply that is passed on. New reports that were under way at once get one number."""
        found = re.search(rb'"number":(\d+),"status":"registered"', reply)
        if found and self.fault == NUMBERS_TWICE and own.is_beside and int(found[1]) > own.last:
            reply = with_content(reply, b'{"number":%d,"status":"registered"}' % (own.last + 1))
        if found:
            with self.guard:
                self.last = max(self.last, int(found[1]))
        if not reply.startswith(b"HTTP/1.1 100 "):
            self.ended(own)
        return reply

    def ended(self, own):
        with self.guard:
            self.marks.subtract(own.marks)
            own.marks.clear()


class Own:
    """The requests of one connection that are under way, whether others were as the newest came, and the last number
    then."""

    def __init__(self):
        self.marks, self.last, self.is_beside = collections.Counter(), 0, False


def ends_with_this():
    """Lets a program end with this one, also where this one is killed."""
    ctypes.CDLL(None).prctl(1, signal.SIGKILL)


def start_real(words):
    """Starts the real intake; again for a while if the earlier one still has its register open."""
    for _ in range(50):
        process = subprocess.Popen(words, stderr=subprocess.PIPE, preexec_fn=ends_with_this)
        if b": serving " in process.stderr.readline():
            return process
        process.wait()
        time.sleep(0.1)
    sys.exit("the real intake does not start")


class WrongIntake:
    """The real intake behind this, and one fault between it and whoever connects."""

    def __init__(self, fault, program, database, port, connections, limit, is_new):
        self.fault = fault
        self.keys = 0
        self.under_way = UnderWay(fault) if fault in (UNLOCKED, NUMBERS_TWICE) else None
        self.inner = free_port()
        if fault == "has no limit":
            limit = 1_000_000
        if fault == "forgets everything at a restart" and not is_new:
            for file in (database, f"{database}-wal"):
                pathlib.Path(file).unlink(missing_ok=True)
            is_new = True
        words = [program, "serve", "--db", database, "--port", str(self.inner),
                 "--connections", "1000", "--limit", str(limit)]
        self.process = start_real(words + (["--new"] if is_new else []))
        self.listener = socket.create_server(("127.0.0.1", int(port)))

    def serve(self):
        """Takes one connection after another, or all that come, until the runner stops this process."""
        while True:
            client = self.listener.accept()[0]
            real = socket.create_connection(("127.0.0.1", self.inner))
            for end in (client, real):
                end.setsockopt(socket.IPPROTO_TCP, socket.TCP_NODELAY, 1)
            if self.under_way:
                threading.Thread(target=self.serve_one, args=(client, real), daemon=True).start()
            else:
                self.serve_one(client, real)

    def serve_one(self, client, real):
        own = Own()
        with client, real:
            try:
                self.carry(client, real, own)
            except OSError:
                pass
        if self.under_way:
            self.under_way.ended(own)

    def carry(self, client, real, own):
        held, sources = b"", [client, real]
        while real in sources:
            for source in select.select(sources, [], [])[0]:
                data = source.recv(65536)
                if source is client:
                    if data:
                        real.sendall(self.under_way.asked(data, own) if self.under_way else self.asked(data))
                    else:
                        if self.fault == "completes what was cut":
                            real.sendall(b"}")
                        sources.remove(client)
                        real.shutdown(socket.SHUT_WR)
                elif data:
                    replies, held = replies_of(held + data)
                    for reply in replies:
                        self.pass_on(client, self.under_way.replied(reply, own) if self.under_way else reply)
                        if self.fault == "closes after each reply" and not reply.startswith(b"HTTP/1.1 100 "):
                            return
                else:
                    sources.remove(real)
        if held:
            self.pass_on(client, held)
        if self.fault == "keeps the connection open":
            while client.recv(65536):
                pass

    def asked(self, data):
        """What the real intake is asked in place of these bytes."""
        if self.fault == TABS:
            return data.replace(b"\t", b"-")
        if self.fault != "forgets what was filed under a key":
            return data

        def another(_):
            self.keys += 1
            return b'\r\nIdempotency-Key: "key %d"\r\n' % self.keys

        return re.sub(rb'\r\nIdempotency-Key: "[^"]*"\r\n', another, data)

    def pass_on(self, client, reply):
        if self.fault == "says nothing":
            return
        if self.fault == HARMLESS:
            for piece in re.findall(rb"(?s).{1,97}", made_harmless(reply)):
                client.sendall(piece)
            return
        client.sendall(REPLY_FAULTS.get(self.fault, bytes)(reply))


# ---- an intake of this script's own, with one fault in what it keeps and when


SOUND = "has no fault"
EARLY, FOLLOWERS_EARLY = "answers before its commit", "answers those behind the first before its commit"
LOSES, GAPS = "loses at a kill what came at once", "numbers by rows after a restart"
RACES_REFUSED, DOUBLES = "keeps each of two refused reports that race", "reads numbers as doubles"
# The first of these is late until there is a file, whose path follows it; it makes the file.
LATE_ONCE, LATE = "is late without ", "is late"
BLIND = "syncs at each write"
# What is wrong with a report that has these bytes. It judges no others.
WRONG_PARTS = {
    b'"namespaces":[]': ("namespaces", "/documentInfo/namespaces"),
    b"{}": ("document-info", "/documentInfo"),
}
PHRASES = {200: "OK", 201: "Created", 422: "Unprocessable Content"}


def compact(content):
    return json.dumps(content, separators=(",", ":")).encode()


def problem(reason, findings=()):
    listed = [{"code": code, "place": place} for code, place in findings]
    rest = {"reason": reason, "status": 422, "title": PHRASES[422], "type": "about:blank"}
    return 422, compact({"findings": listed, **rest} if listed else rest)


def judged(body):
    return next((finding for part, finding in WRONG_PARTS.items() if part in body or body == part), None)


def read_to_empty_line(given):
    """The lines before the next empty one, or nothing if the input ends first."""
    lines = []
    while (line := given.readline()) != b"\r\n":
        if not line:
            return b""
        lines.append(line)
    return b"".join(lines)


class SmallIntake:
    """An intake for the requests and reports of the cases named below. It keeps rows in a file of lines, and takes all
    connections side by side: what came while the disk was busy is synced at once."""

    def __init__(self, fault, path, is_new):
        self.fault = fault
        flags = os.O_RDWR | (os.O_CREAT | os.O_EXCL if is_new else 0) | (os.O_DSYNC if fault == BLIND else 0)
        self.file = open(os.open(path, flags, 0o600), "r+b", buffering=0)
        self.deciding, self.syncing = threading.Lock(), threading.Lock()
        self.rows, self.written, self.synced, self.unwritten = {}, 0, 0, []
        for line in self.file:
            self.remember(*json.loads(line))
        self.next = 1 + (len(self.rows) if fault == GAPS else len(self.numbers()))

    def remember(self, filer, key, target, body, number):
        self.rows[filer, key] = target, body, number

    def numbers(self):
        return [row[2] for row in self.rows.values() if row[2]]

    def answer(self, head, body):
        """The answer to a request, and the place in the file up to which it has to be synced."""
        method, path, filer, target = re.match(r"(GET|POST) (/filings/([^/ ]+)(?:/(\d+))?) ", head).groups()
        with self.deciding:
            if method == "GET":
                return (200, self.list_of(filer)), 0
            if target:
                target = int(float(target)) if self.fault == DOUBLES else int(target)
            key = re.search(r'(?i)\r\nIdempotency-Key:\s*"([^\r]*)"', head)[1]
            body = body.decode("latin-1")
            if (filer, key) in self.rows:
                return self.told(filer, key, target, body), self.written
        finding = judged(body.encode("latin-1"))
        if self.fault == RACES_REFUSED and finding:
            time.sleep(0.2)
        with self.deciding:
            if (filer, key) not in self.rows or self.fault == RACES_REFUSED and finding:
                self.keep(filer, key, target, body, bool(finding))
            return self.told(filer, key, target, body), self.written

    def keep(self, filer, key, target, body, is_refused):
        number = None if is_refused or self.is_bound(filer, target) else self.next
        self.next += number is not None
        self.remember(filer, key, target, body, number)
        line = compact([filer, key, target, body, number]) + b"\n"
        if self.fault == LOSES and self.syncing.locked():
            self.unwritten.append(line)
        else:
            self.written += self.file.write(line)

    def is_bound(self, filer, target):
        """Whether the filing that is to be replaced may not be."""
        return target is not None and not any(
            other == filer and row[2] == target for (other, _), row in self.rows.items()
        )

    def told(self, filer, key, target, body):
        first = self.rows[filer, key]
        if first[:2] != (target, body):
            return problem("key-reused")
        if first[2]:
            return 201, compact({"number": first[2], "status": "registered"})
        finding = judged(body.encode("latin-1"))
        return problem("refused", [finding or ("not-replaceable", "")])

    def list_of(self, filer):
        rows = sorted((row[2], row[1]) for (other, _), row in self.rows.items() if other == filer and row[2])
        return compact({"filings": [{"facts": body.count('"concept"'), "number": number} for number, body in rows]})

    def sync(self, place):
        """Waits until the file has been synced up to this place."""
        if self.fault == FOLLOWERS_EARLY and self.syncing.locked():
            return
        with self.syncing:
            if self.synced < place:
                with self.deciding:
                    written = self.written
                if self.fault == LOSES:
                    time.sleep(0.3)
                os.fdatasync(self.file.fileno())
                self.synced = written

    def serve_one(self, client):
        """Answers the requests of a connection. If the disk refuses, it is closed."""
        with client, contextlib.suppress(OSError), client.makefile("rb") as given:
            while head := read_to_empty_line(given):
                length = re.search(rb"(?i)\r\ncontent-length: *(\d+)", head)
                body = given.read(int(length[1]) if length else 0)
                (status, content), place = self.answer(head.decode("latin-1"), body)
                if self.fault != EARLY:
                    self.sync(place)
                kind = "application/json" if status < 300 else "application/problem+json"
                client.sendall(f"HTTP/1.1 {status} {PHRASES[status]}\r\nContent-Type: {kind}\r\n"
                               f"Content-Length: {len(content)}\r\n\r\n".encode() + content)
                if self.fault == EARLY:
                    self.sync(place)
                if b"\r\nconnection: close" in head.lower():
                    return

    def serve(self, port):
        listener = socket.create_server(("127.0.0.1", port), backlog=100)
        mark = pathlib.Path(self.fault.removeprefix(LATE_ONCE)) if self.fault.startswith(LATE_ONCE) else None
        if self.fault == LATE or mark and not mark.exists():
            if mark:
                mark.touch()
            time.sleep(600)
        while True:
            client = listener.accept()[0]
            client.setsockopt(socket.IPPROTO_TCP, socket.TCP_NODELAY, 1)
            threading.Thread(target=self.serve_one, args=(client,), daemon=True).start()


# For each fault the cases that have to fail; the others of these have to pass.
SMALL_CASES = [
    "disk.held", "disk.held-behind-a-refused-report", "disk.held-before-repeats", "disk.held-before-others",
    "disk.refused", "disk.refused-behind-a-refused-report", "disk.refused-to-all", "race.killed-behind-it",
    "race.one-key-for-8-refused-bodies", "race.one-key-for-8-bodies", "race.8-keys", "repeat.on-another-connection",
    "restart.number-behind-refused-reports", "restart.killed", "amend.number-beyond-2-to-the-53",
]  # fmt: skip
SMALL = {
    SOUND: [],
    EARLY: SMALL_CASES[:7],
    FOLLOWERS_EARLY: ["disk.held-before-repeats", "disk.held-before-others", "disk.refused-to-all"],
    LOSES: ["race.killed-behind-it", "disk.held-before-others"],
    GAPS: ["restart.number-behind-refused-reports", "disk.refused-behind-a-refused-report"],
    RACES_REFUSED: ["race.one-key-for-8-refused-bodies"],
    DOUBLES: ["amend.number-beyond-2-to-the-53"],
}

# For each fault the cases that have to fail, and those that have to pass all the same.
EVERY_OTHER = "every other"
INTAKES = {
    "answers 200 for 201": (["repeat.on-the-same-connection", "key.one-character"],
                            ["head.smallest", "example.not-json"]),
    "answers 400 for 422": (["example.not-object", "repeat.another-body"],
                            ["example.not-json", "repeat.after-other-filings"]),
    "sends no Allow": (["method.put", "method.head"], ["head.smallest"]),
    "calls problem details JSON": (["path.other", "repeat.another-body", "length.missing"], ["head.smallest"]),
    "cuts a byte off the content": (["head.smallest", "path.other"], ["method.head-that-closes"]),
    "writes a space into the content": (["head.smallest", "path.other", "example.fact"], ["method.head-that-closes"]),
    "writes a byte behind the reply": (["head.smallest", "close.asked", "connection.three-at-once"],
                                       ["connection.without-a-byte"]),
    "sends no length": (["head.smallest", "close.asked", "path.other"], ["method.head-that-closes"]),
    "sends a wrong length": (["head.smallest", "close.asked"], ["method.head-that-closes"]),
    "sends the length twice": (["head.smallest"], ["method.head-that-closes"]),
    "calls itself HTTP/1.0": (["head.smallest"], ["connection.without-a-byte"]),
    "names a transfer coding": (["head.smallest", "method.head"], ["connection.without-a-byte"]),
    "counts numbers from 2": (["numbering.begins-with-1", "list.counts-facts"], ["head.smallest"]),
    "lists nothing": (["list.counts-facts", "cut.before-the-last-byte"], ["list.empty", "key.1025-characters"]),
    "lists no replacements": (["amend.replaces", "list.one-that-was-replaced"], ["list.counts-facts"]),
    "tells findings in another order": (["document-info.two-missing", "place.in-byte-order"], ["example.fact"]),
    "sorts by UTF-16": (["place.beyond-u-ffff", "place.of-a-prefix-beyond-u-ffff",
                         "place.of-a-dimension-beyond-u-ffff"], EVERY_OTHER),
    UNLOCKED: (["race.one-key-on-8-connections", "race.one-key-on-64-connections", "race.one-key-for-8-bodies",
                "race.one-key-for-64-bodies", "race.one-key-for-8-refused-bodies", "race.refused", "race.replacements",
                "disk.held-before-repeats"], EVERY_OTHER),
    NUMBERS_TWICE: (["race.8-keys", "race.64-keys", "race.one-key-of-8-filers", "race.killed-behind-it",
                     "disk.held-before-others", "disk.refused-to-all"], EVERY_OTHER),
    "tells one finding less": (["document-info.two-missing", "entity.unbound-and-not-the-filer"], ["example.fact"]),
    "never sends 100 Continue": (["continue.before-the-body", "continue.where-the-body-came"],
                                 ["continue.1.0", "continue.too-large"]),
    "writes content to a HEAD": (["method.head", "method.head-that-closes"], ["method.put"]),
    "forgets what was filed under a key": (["repeat.on-another-connection", "repeat.another-body", "amend.repeat"],
                                           ["numbering.over-all-filers"]),
    "keeps the connection open": (["close.asked", "close.1.0", "head.field-without-colon", "length.missing"], []),
    "closes after each reply": (["stays.keep-alive", "connection.one-after-another", "head.smallest"],
                                ["close.asked", "length.missing"]),
    TABS: (["length.list-with-tabs", "continue.in-a-list-with-tabs", "close.in-a-list-with-tabs",
            "content-coding.list-with-tabs"], ["length.in-a-list", "close.in-a-list", "content-coding.identity"]),
    "says nothing": (["head.smallest", "method.head"], ["connection.without-a-byte"]),
    "completes what was cut": (["cut.before-the-last-byte", "connection.ends-inside-a-body"], ["close.asked"]),
    "has no limit": (["limit.a-new-key", "limit.zero", "race.limit"], ["head.smallest"]),
    "forgets everything at a restart": (["restart.killed", "restart.replacements", "race.killed-behind-it"],
                                        ["race.8-keys", "repeat.on-another-connection"]),
    HARMLESS: ([], ["head.smallest", "repeat.on-the-same-connection", "method.head", "method.put",
                    "continue.before-the-body", "example.fact", "amend.chain", "limit.zero", "restart.killed",
                    "close.1.0", "length.missing", "connection.three-at-once", "race.64-keys"]),
}

# What may fail too, since it hangs on which requests are beside each other.
MAY_FAIL = {NUMBERS_TWICE: {"race.limit"}}


# ---- an outbox with one fault


def told_state(change):
    return lambda lines: re.sub(r"(?m)(open|confirmed \d+|refused|clashed)$", change, lines)


# What a fault does to what `status` prints.
STATUS_FAULTS = {
    "tells another number": told_state(
        lambda it: f"confirmed {int(it[1].split()[1]) + 1}" if it[1].startswith("confirmed") else it[1]
    ),
    "tells open as refused": told_state(lambda it: "refused" if it[1] == "open" else it[1]),
    "tells clashed as refused": told_state(lambda it: "refused" if it[1] == "clashed" else it[1]),
    "tells one entry less": lambda lines: "".join(lines.splitlines(True)[1:]),
    "tells more": lambda lines: "the entries\n" + re.sub(r"(?m)^entry (\d+)", r"No. \1, put in today:", lines),
}
FILERS = {
    "tells another number": (["confirmed.number-1", "request.of-an-entry"], ["refused.422"]),
    "tells open as refused": (["reply.none", "open.503-unavailable"], ["refused.422", "confirmed.number-1"]),
    "tells clashed as refused": (["clashed.422"], ["refused.422"]),
    "tells one entry less": (["request.of-the-second-entry", "confirmed.number-1"], ["request.key-with-spaces"]),
    "tells more": ([], ["request.of-the-second-entry", "confirmed.number-1", "clashed.422", "reply.none"]),
    "puts in under another key": (["request.of-an-entry", "request.key-with-spaces"], []),
    "puts in another report": (["request.of-an-entry", "request.any-bytes"], []),
    "forgets what is to be replaced": (["request.to-replace"], ["request.of-an-entry"]),
    "sends twice": (["request.again", "reply.none"], []),
    "sends twice at once": (["request.of-an-entry", "request.again", "reply.late"], []),
    "sends again while it waits": (["reply.late"], EVERY_OTHER),
    "takes 7.0 for a number": (["open.201-number-with-point-and-zero"],
                               ["open.201-number-fraction", "confirmed.number-1"]),
    "takes numbers for doubles": (["confirmed.number-beyond-2-to-the-53", "confirmed.largest-number"],
                                  ["confirmed.number-1", "open.201-number-too-large"]),
    "sends before it keeps": (["disk.entry-refused", "disk.second-entry-refused"],
                              ["request.of-an-entry", "request.of-the-second-entry", "disk.confirmed-held"]),
    "reports before it keeps": (["disk.confirmed-held", "disk.refused-held", "disk.clashed-held", "disk.state-refused"],
                                ["request.of-an-entry", "confirmed.number-1", "disk.entry-refused"]),
    "shuts its sending side": (["request.side-stays-open"], ["request.of-an-entry", "reply.late"]),
    "sends nothing": (["request.of-an-entry", "reply.none"], []),
    "sends the other entry": (["request.of-the-second-entry"], ["request.of-an-entry"]),
    "fails": (["request.of-an-entry", "reply.none"], []),
}


# After how many seconds without a reply a filer sends again.
HASTE = {"sends twice at once": 0, "sends again while it waits": 0.9}


def carry_in_haste(listener, port, seconds):
    """Carries what the outbox sends to the runner, and sends it there on another connection too if no reply comes
    within so many seconds."""
    request, due, others = b"", None, []
    outbox = listener.accept()[0]
    with outbox, socket.create_connection(("127.0.0.1", port)) as peer:
        while True:
            ready = select.select([outbox, peer], [], [], 0.05)[0]
            if outbox in ready:
                data = outbox.recv(65536)
                request, due = request + data, time.monotonic() + seconds
                peer.sendall(data)
                if not data:
                    return
            if peer in ready:
                data, due = peer.recv(65536), None
                outbox.sendall(data)
                if not data:
                    return
            if due and time.monotonic() >= due:
                others.append(socket.create_connection(("127.0.0.1", port)))
                others[-1].sendall(request)
                due = None


def is_whole(request):
    head, mark, body = request.partition(b"\r\n\r\n")
    return bool(mark) and len(body) == int(re.search(rb"Content-Length: (\d+)", head)[1])


def carry_wrong(fault, listener, port):
    """Carries what the outbox sends to the runner, and what comes back, with this fault."""
    outbox, request = listener.accept()[0], b""
    with outbox, socket.create_connection(("127.0.0.1", port)) as peer:
        while True:
            for source in select.select([outbox, peer], [], [])[0]:
                data = source.recv(65536)
                if not data:
                    return
                if source is outbox:
                    request += data
                    peer.sendall(data)
                    if fault == "shuts its sending side" and is_whole(request):
                        peer.shutdown(socket.SHUT_WR)
                        outbox.sendall(peer.recv(65536))
                else:
                    if fault == "reports before it keeps":
                        print("entry 1 confirmed 7", flush=True)
                    if fault == "takes 7.0 for a number":
                        data = data.replace(b'"number":7.0', b'"number":7  ')
                    if fault == "takes numbers for doubles":
                        data = re.sub(rb'(?<="number":)\d+', lambda it: b"%d" % float(it[0]), data)
                    outbox.sendall(data)


CARRIED = ["takes 7.0 for a number", "takes numbers for doubles", "reports before it keeps", "shuts its sending side"]


def send_unkept(report, filer, key, port):
    """Sends a report that is nowhere on the disk."""
    body = pathlib.Path(report).read_bytes()
    head = (f'POST /filings/{filer} HTTP/1.1\r\nHost: localhost\r\nIdempotency-Key: "{key}"\r\n'
            f"Content-Type: application/json\r\nContent-Length: {len(body)}\r\nConnection: close\r\n\r\n")
    with socket.create_connection(("127.0.0.1", port)) as peer:
        peer.sendall(head.encode() + body)
        peer.recv(65536)


def play_filer(fault, program, words):
    """Runs a command of the real outbox, with one fault."""
    words = list(words)
    name = words[0]

    def value(option):
        return words.index(option) + 1

    if fault == "fails" and name == "put":
        return 3
    if fault == "puts in under another key" and name == "put":
        words[value("--key")] += "x"
    if fault == "puts in another report" and name == "put":
        other = words[value("--body")] + ".other"
        pathlib.Path(other).write_bytes(pathlib.Path(words[value("--body")]).read_bytes() + b" ")
        words[value("--body")] = other
    if fault == "forgets what is to be replaced" and "--amend" in words:
        del words[words.index("--amend") : value("--amend") + 1]
    if fault == "sends nothing" and name == "send":
        return 0
    if fault == "sends twice" and name == "send":
        subprocess.run([program, *words], capture_output=True, check=False)
    if fault in HASTE and name == "send":
        listener = socket.create_server(("127.0.0.1", 0))
        port, words[value("--port")] = int(words[value("--port")]), str(listener.getsockname()[1])
        threading.Thread(target=carry_in_haste, args=(listener, port, HASTE[fault]), daemon=True).start()
    if fault in CARRIED and name == "send":
        listener = socket.create_server(("127.0.0.1", 0))
        port, words[value("--port")] = int(words[value("--port")]), str(listener.getsockname()[1])
        threading.Thread(target=carry_wrong, args=(fault, listener, port), daemon=True).start()
    if fault == "sends the other entry" and name == "send" and words[value("--entry")] == "2":
        words[value("--entry")] = "1"
    done = subprocess.run([program, *words], capture_output=True, text=True, check=False)
    lines = STATUS_FAULTS[fault](done.stdout) if name == "status" and fault in STATUS_FAULTS else done.stdout
    sys.stdout.write(lines)
    if fault == "sends before it keeps" and done.returncode:
        if name == "put":
            pathlib.Path(words[value("--db")] + ".unkept").write_text(
                json.dumps([words[value("--body")], "ACME", words[value("--key")]]))
        if name == "send":
            send_unkept(*json.loads(pathlib.Path(words[value("--db")] + ".unkept").read_text()),
                        int(words[value("--port")]))
        return 0
    return done.returncode


# ---- the runner


# The runner's patience, if one was given, and that with which wrong programs are tried.
patience = {}
PATIENCE_WITH_FAULTS = 4


def run_cases(*words):
    """What the runner prints, and its status."""
    waits = ["--patience", str(patience["given"])] if patience else []
    done = subprocess.run([sys.executable, RUNNER, *map(str, words), *waits],
                          capture_output=True, text=True, check=False, timeout=10_000)
    return done.returncode, done.stdout, done.stderr


def told_of(output):
    """The cases that failed, and the counts of the last line."""
    failed = re.findall(r"(?m)^(?:failed|timed out): (\S+) \(", output)
    counts = re.search(r"must: (\d+) passed, (\d+) failed, (\d+) timed out\n"
                       r"strict: (\d+) passed, (\d+) failed, (\d+) timed out\n\Z", output)
    if not counts:
        return failed, None
    passed_must, failed_must, late_must, passed_strict, failed_strict, late_strict = map(int, counts.groups())
    return failed, (passed_must + passed_strict, failed_must + late_must + failed_strict + late_strict)


def levels_of(end, *words):
    """How each case of this end is marked, by its name, as the runner lists them."""
    output = run_cases("list", *words)[1]
    return dict(re.findall(rf"(?m)^{end} (\S+) \((must|strict)\): ", output))


def count_of(end, *words):
    return len(levels_of(end, *words))


def check_all(what, wanted, *words, least=0):
    """The runner tries so many cases, or at least so many, and each passes."""
    status, output, errors = run_cases(*words)
    failed, counts = told_of(output)
    sys.stdout.write("".join(line + "\n" for line in output.splitlines() if not line.endswith("timed out")))
    fault = None
    if status or failed or not counts or counts[1]:
        fault = f"status {status}, failed {failed}, {errors[-500:]}"
    elif wanted is not None and counts[0] != wanted or counts[0] < least:
        fault = f"{counts[0]} cases in place of {wanted or least}"
    tell_one(f"{what}: {counts[0] if counts else 0} cases", fault)


def check_fault(what, fault, must_fail, must_pass, *words):
    """With this fault the runner finds just these cases failed among those named."""
    if must_pass == EVERY_OTHER:
        only, others = [], count_of(words[0]) - len(must_fail)
    else:
        only, others = [word for name in must_fail + must_pass for word in ("--case", name)], len(must_pass)
    status, output, errors = run_cases(*words, *only, "--patience", PATIENCE_WITH_FAULTS)
    failed, counts = told_of(output)
    levels = levels_of(words[0])
    more = MAY_FAIL.get(fault, set()) & set(failed)
    wanted = ((others - len(more), len(must_fail) + len(more)),
              0 if not must_fail else 1 if "must" in map(levels.get, must_fail) else 4)
    found = (
        None if sorted(failed) == sorted([*must_fail, *more]) and (counts, status) == wanted
        else f"failed {failed}, {counts}, status {status}: {output[-700:]}{errors[-300:]}"
    )
    told = r"(?ms)^(?:failed|timed out): {} \(.*?wanted: .*?came: "
    if must_fail and not found and not all(re.search(told.format(re.escape(name)), output) for name in must_fail):
        found = f"it doesn't say what was wanted and what came: {output[-700:]}"
    tell_one(f"{what} that {fault}", found)


def own(*words):
    """A command of this script, as a template for the runner."""
    return " ".join(shlex.quote(str(word)) for word in (sys.executable, pathlib.Path(__file__).resolve(), *words))


def check_programs(intake, outbox, only):
    chosen = [word for one in only for word in ("--only", one)]
    intakes, outboxes = count_of("intake", *chosen), count_of("outbox", *chosen)
    program = shlex.quote(str(intake))
    serve = ["--command", f"{program} {SERVE} --limit {{limit}} --new", "--again", f"{program} {SERVE}"]
    if intakes:
        check_all("an intake that is started for each case", intakes, "intake", *serve, *chosen)
    if outboxes:
        check_all("the outbox", outboxes, "outbox", "--command", outbox, *chosen)
    if only:
        return
    check_all("an intake on its standard input and output", None, "intake", "--exec", f"{program} run", least=400)
    with tempfile.TemporaryDirectory() as folder:
        port = free_port()
        words = [intake, "serve", "--db", f"{folder}/register.db", "--port", str(port),
                 "--connections", "4294967295", "--new"]
        with subprocess.Popen(words, stderr=subprocess.PIPE) as serving:
            serving.stderr.readline()
            check_all("an intake that runs", None, "intake", "--port", port, least=500)
            status, output, errors = run_cases("intake", "--port", str(port))
            is_told = status == 2 and "the cases need an empty one" in errors and not output
            tell_one("refused: a register that has their filings",
                     None if is_told else f"status {status}, {output[-400:]}{errors[-400:]}")
            serving.terminate()


def check_late():
    """A case that times out is tried once more, and said apart if it times out again."""
    with tempfile.TemporaryDirectory() as folder:
        for name, fault, lines, wanted in [
            ("that is late once passes", f"{LATE_ONCE}{folder}/mark", "must: 1 passed, 0 failed, 0 timed out", 0),
            ("that is late twice fails", LATE, "must: 0 passed, 0 failed, 1 timed out", 1),
        ]:
            words = own("--small", fault) + " {db} {port} new {limit}"
            status, output, errors = run_cases("intake", "--command", words, "--case", "repeat.on-another-connection",
                                               "--patience", PATIENCE_WITH_FAULTS)
            is_told = status == wanted and "timed out, and tried once more: 1 of 1" in output and lines in output
            tell_one(f"an intake {name}", None if is_told else f"status {status}, {output[-700:]}{errors[-300:]}")


def check_left():
    """The cases on the disk are left out, with a line that says so, if they can't be tried or it is asked for."""
    cases = ["disk.held", "disk.refused", "disk.held-before-others", "repeat.on-another-connection"]
    chosen = [word for name in cases for word in ("--case", name)]
    for fault, more, cause in [
        (BLIND, [], "the program syncs in a way that is not seen"),
        (SOUND, ["--no-syncs"], "--no-syncs was said"),
    ]:
        words = own("--small", fault) + " {db} {port}"
        status, output, errors = run_cases("intake", "--command", f"{words} new {{limit}}",
                                           "--again", f"{words} again", *chosen, *more)
        is_told = re.search(rf"not tried, since .*{cause}.*: 3, as disk.held\nmust: 1 passed, 0 failed", output)
        tell_one(f"not tried: an intake that {fault}, {' '.join(more)}",
                 None if is_told and not status else f"status {status}, {output[-700:]}{errors[-300:]}")


def check_faults(intake, outbox):
    for fault, (must_fail, must_pass) in INTAKES.items():
        words = own("--intake", fault, intake)
        template = words + " {db} {port} {n} {limit} new"
        again = words + " {db} {port} {n} 1000000 again"
        check_fault("an intake", fault, must_fail, must_pass, "intake", "--command", template, "--again", again)
    for fault, must_fail in SMALL.items():
        template = own("--small", fault) + " {db} {port}"
        must_pass = [name for name in SMALL_CASES if name not in must_fail]
        check_fault("an intake", fault, must_fail, must_pass, "intake", "--command", f"{template} new {{limit}}",
                    "--again", f"{template} again")
    for fault, (must_fail, must_pass) in FILERS.items():
        check_fault("an outbox", fault, must_fail, must_pass, "outbox", "--command", own("--outbox", fault, outbox))


CASE = '{"end":"intake","about":"a","level":"must","cases":[{"name":"a.b","rule":"r","connections":[{"steps":[%s]}]}]}'
# A command line or a file of cases, and what is said of it.
REFUSALS = [
    (["intake", "--port", "{free}"], None, "nobody listens on port"),
    (["intake", "--command", "/none/intake {db}"], None, "/none/intake: No such file or directory"),
    (["intake", "--command", "intake {file}"], None, "is no command here"),
    (["intake", "--command", "intake 'a"], None, "is no command here"),
    (["intake"], None, "one of the arguments"),
    (["nothing"], None, "invalid choice"),
    (["intake", "--exec", "/none/intake run"], None, "/none/intake: No such file or directory"),
    (["intake", "--port", "70000"], None, "invalid number value: '70000'"),
    (["outbox", "--patience", "0"], None, "invalid number value: '0'"),
    (["outbox", "--command", "/none/outbox"], None, "/none/outbox: No such file or directory"),
    (["outbox", "--only", "no-such-case"], None, "no case is called so"),
    (["outbox", "--case", "reply"], None, "no case is called so: reply"),
    (["list"], "", "there are no cases"),
    (["list"], "{", "no file of cases"),
    (["list"], "[]", "no file of cases"),
    (["list"], '{"end":"middle","cases":[{}]}', "no file of cases"),
    (["list"], CASE.replace('"rule":"r",', "") % "", "the case a.b has no 'rule'"),
    (["list"], CASE.replace('"rule":"r"', '"rule":""') % "", "a case has no name or no rule"),
    (["list"], CASE.replace('"must"', '"may"') % "", "the level of the cases is none of must, strict"),
    (["list"], CASE.replace('"rule":"r"', '"rule":"r","level":"may"') % "", "level is none of must, strict"),
    (["list"], CASE.replace('{"name"', '{"name":"a.b","rule":"r","connections":[]},{"name"', 1) % "",
     "two cases are called a.b"),
    (["list"], CASE % '{"sned":""}', "there is no 'sned'"),
    (["list"], CASE.replace('{"steps":[%s]}', '{"restart":"now"}'), "is none of stop, kill"),
    (["list"], CASE % '{"syncs":"wait"}', "syncs is none of pass, hold, refuse"),
    (["list"], CASE % '{"send":"","pause":1}', "has 2 members in place of one"),
    (["list"], CASE % '{"pause":"1"}', "pause is no int"),
    (["list"], CASE % '{"send":7}', "7 spells no bytes"),
    (["list"], CASE % '{"send":{"base64":"*"}}', "'*' is no base64"),
    (["list"], CASE % '{"reply":{"status":200,"contents":""}}', "there is no 'contents'"),
    (["list"], CASE % '{"reply":{"content":""}}', "has no 'status'"),
    (["list"], CASE % '{"send":{"turn":2}}', "{'turn': 2} spells no bytes"),
    (["list"], CASE.replace('{"steps":[%s]}', '{"race":{"times":2,"send":"","replies":[]}}'),
     "a race of 2 connections has another count of replies"),
]


def check_refusals():
    """A wrong command line, and a file that is none, end with status 2 and a line that says why."""
    for words, file, wanted in REFUSALS:
        with tempfile.TemporaryDirectory() as folder:
            more = []
            if file is not None:
                more = ["--cases", folder]
                if file:
                    (pathlib.Path(folder) / "a.json").write_text(file)
            status, output, errors = run_cases(*(word.replace("{free}", str(free_port())) for word in words), *more)
            is_told = status == 2 and wanted in errors and "Traceback" not in errors and not output
            tell_one(f"refused: {wanted}", None if is_told else f"status {status}, {output}{errors[-400:]}")


# ---- the cases themselves


def check_cases():
    """Each intake's case has filer codes that no other has, so that all can be played on one register; no name is used
    twice."""
    owners, names = {}, []
    for file in sorted((ROOT / "conformance/cases").glob("*.json")):
        whole = json.loads(file.read_text())
        for case in whole["cases"]:
            names.append(case["name"])
            if whole["end"] != "intake":
                continue
            sent = json.dumps(case["connections"])
            for filer in set(re.findall(r'"POST /filings/([A-Za-z0-9._-]+)', sent)) | set(case.get("register", {})):
                owners.setdefault(filer, set()).add(case["name"])
    shared = {filer: cases for filer, cases in owners.items() if len(cases) > 1}
    tell_one("each case has filers of its own", None if not shared else f"{shared}")
    tell_one("each case has a name of its own",
             None if len(names) == len(set(names)) else f"{len(names) - len(set(names))} names are used twice")
    codes = set(re.findall(r"(?m)^\| \d+ \| ([\w-]+) \|", (ROOT / "docs/PROTOCOL.md").read_text()))
    examples = {name.removeprefix("example.") for name in names if name.startswith("example.")}
    tell_one("each code of a finding has its example", None if codes == examples else f"{sorted(codes ^ examples)}")


def main(words):
    if words[:1] == ["--intake"]:
        fault, program, database, port, connections, limit, how = words[1:]
        wrong = WrongIntake(fault, program, database, port, connections, limit, how == "new")
        wrong.serve()
    if words[:1] == ["--small"]:
        fault, database, port, how = words[1:5]
        SmallIntake(fault, database, how == "new").serve(int(port))
    if words[:1] == ["--outbox"]:
        return play_filer(words[1], words[2], words[3:])
    parser = argparse.ArgumentParser(description=__doc__.partition("\n")[0])
    parser.add_argument("programs", nargs="*", metavar="INTAKE OUTBOX")
    parser.add_argument("--only", action="append", default=[], metavar="WORD")
    parser.add_argument("--patience", type=int, metavar="SECONDS")
    given = parser.parse_args(words)
    if len(given.programs) not in (0, 2):
        parser.error("INTAKE and OUTBOX, or neither")
    only = given.only
    if given.patience:
        patience["given"] = given.patience
    intake, outbox = (pathlib.Path(one).resolve() for one in given.programs or (trials.INTAKE, trials.OUTBOX))
    for program in (intake, outbox):
        if not program.exists():
            built = f"build it: (cd crates/{program.name} && rt run -- --version)"
            print(f"check_conformance.py: {program}: there is no such program; {built}", file=sys.stderr)
            return 2
    check_cases()
    check_programs(intake, outbox, only)
    if not only:
        check_refusals()
        check_late()
        check_left()
        check_faults(intake, outbox)
    print(f"{len(passed)} passed, {len(trials.failures)} failed")
    return 1 if trials.failures else 0


if __name__ == "__main__":
    sys.exit(main(sys.argv[1:]))
