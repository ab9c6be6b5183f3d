#!/usr/bin/env python3
"""Tries many connections at once on the built intake: silent, slow and broken clients beside others, a full disk, no
descriptor left, kills, and 600 clients through nginx, by a port and by a unix socket.

    tools/check_many_connections.py [--intake PROGRAM [--unproved]] [TRIAL ..]
    tools/check_many_connections.py --planted [WORD ..]         whether the trials see each fault of PLANTED, or those
                                                                with a word in their line

Without --intake it takes the program that `rt run` builds, crates/intake/out/intake; --unproved says that PROGRAM is
one of tools/unproved_program.py, and takes fewer requests. What a reply has to be is worked out here from
docs/PROTOCOL.md. After each trial the register holds what was answered, each report once, under numbers without a gap.

With --planted the trials are made with tools/intake_stand_in.py in place of the intake. It serves many connections,
too, and has one fault after the other: each has to make a check of its trial fail, and without a fault each trial has
to pass.

It listens on 127.0.0.1 and on unix sockets alone. The trials `front` and `front_of_socket` need nginx and openssl,
`repeats` and `accepts` strace, and `full_disk` may have to do with a limit on the size of files. The last line says how
many checks passed and failed, and what a stand-in replaced. Status 1 if one failed.
"""
import argparse
import collections
import contextlib
import json
import os
import pathlib
import random
import re
import resource
import signal
import socket
import ssl
import stat
import struct
import subprocess
import sys
import tempfile
import threading
import time

import check_deploy
import trials
from check_programs import SmallDisk, listing
from trials import REPORT, ROOT, SMALLEST, free_port, request

STAND_IN = ROOT / "tools" / "intake_stand_in.py"
INTERIM = b"HTTP/1.1 100 Continue\r\n\r\n"
LARGEST = SMALLEST.ljust(1_048_576)
FOREVER = 4_294_967_295
# How many clients there are beside others.
CLIENTS = 64
# How much longer than alone they may take beside slow ones.
TIMES = 2
# How often a client asks for the long list that doesn't read the replies.
ASKED = 300
# How long a sync takes on a slow disk, in microseconds.
SYNC = 1_000_000
passed, replaced, ends_at_first = [], [], []


class Seen(Exception):
    """A check failed, while a planted fault is looked for."""


class Sizes:
    """How many reports each client files, how many filings the long list has, how often the intake is killed, how many
    lists are compared, how many reports each client of nginx files, and how long a reply may take, in seconds."""

    each, long, kills, lists, reports, seconds = 12, 500, 300, 8, 4, 20


class SmallSizes(Sizes):
    """Those for a program that was built without proof, which is some hundred times slower."""

    each, long, kills, lists, reports, seconds = 2, 100, 20, 1, 1, 200


sizes = Sizes()


def tell(what, fault=None):
    trials.tell(what, fault)
    passed.extend([] if fault else [what])
    sys.stdout.flush()
    if fault and ends_at_first:
        raise Seen


def hold(what, found, wanted):
    tell(what, None if found == wanted else f"{found!r} in place of {wanted!r}")


# ---- the intake


def option_of(port):
    return "--socket" if isinstance(port, pathlib.Path) else "--port"


class Server:
    """An intake that serves a register. What it says goes into files, so that it never waits for a reader. `port` is
    where it listens: a number, or the path of a unix socket."""

    def __init__(self, folder, *words, connections=FOREVER, database=None, limits="", port=None):
        self.database = database or folder / "register.db"
        self.port, self.said, self.log = port or free_port(), folder / "said", folder / "log"
        new = [] if self.database.exists() else ["--new"]
        command = [trials.INTAKE, "serve", "--db", self.database, option_of(self.port), self.port,
                   "--connections", connections, *new, *words]  # fmt: skip
        with open(self.said, "wb") as errors, open(self.log, "wb") as output:
            self.process = subprocess.Popen(
                ["sh", "-c", f'{limits} exec "$@"', "sh", *map(str, command)], stdout=output, stderr=errors,
                stdin=subprocess.DEVNULL,
            )  # fmt: skip
        until = time.monotonic() + 3 * sizes.seconds
        while "serving" not in self.told():
            if self.process.poll() is not None or time.monotonic() > until:
                raise ValueError(f"the intake does not serve: {self.told()}")
            time.sleep(0.005)

    def __enter__(self):
        return self

    def __exit__(self, *_):
        if self.process.poll() is None:
            self.process.kill()
        self.process.wait()

    def told(self):
        return self.said.read_text(errors="replace")

    def lines(self):
        return [json.loads(line) for line in self.log.read_text().splitlines()]

    def send_signal(self, number):
        self.process.send_signal(number)

    def stop(self, number=signal.SIGTERM):
        """Ends it by a signal, of which it dies."""
        self.send_signal(number)
        return self.process.wait(sizes.seconds)

    def share_of_sleep(self):
        """Of 40 looks within two seconds, the share at which it waits for the system."""
        found = 0
        for _ in range(40):
            time.sleep(0.05)
            found += pathlib.Path(f"/proc/{self.process.pid}/stat").read_text().rpartition(")")[2].split()[0] == "S"
        return found / 40

    def memory(self):
        found = re.search(r"VmRSS:\s+(\d+)", pathlib.Path(f"/proc/{self.process.pid}/status").read_text())
        return int(found[1]) * 1024


class TracedServer(Server):
    """An intake some of whose calls of the system strace changes. strace ends as it does."""

    def __init__(self, folder, call, change):
        super().__init__(folder, limits=f"set -- strace -f -qq -o /dev/null -e trace={call} "
                         f'-e inject={call}:{change} "$@";')  # fmt: skip

    def send_signal(self, number):
        tracer = self.process.pid
        for it in pathlib.Path(f"/proc/{tracer}/task/{tracer}/children").read_text().split():
            os.kill(int(it), number)


# ---- clients


class Wrong(Exception):
    """What came in place of what the protocol says."""


class Client:
    """A connection to the intake on a port, or on the unix socket at a path."""

    def __init__(self, port, is_narrow=False):
        if isinstance(port, pathlib.Path):
            self.peer, self.held = socket.socket(socket.AF_UNIX), b""
            self.peer.settimeout(sizes.seconds)
            self.peer.connect(str(port))
            return
        self.peer, self.held = socket.socket(), b""
        if is_narrow:
            # Linux holds some 100 kB for it, on both ends.
            self.peer.setsockopt(socket.SOL_SOCKET, socket.SO_RCVBUF, 4096)
            self.peer.setsockopt(socket.IPPROTO_TCP, socket.TCP_MAXSEG, 536)
        self.peer.settimeout(sizes.seconds)
        self.peer.connect(("127.0.0.1", port))
        self.peer.setsockopt(socket.IPPROTO_TCP, socket.TCP_NODELAY, 1)

    def __enter__(self):
        return self

    def __exit__(self, *_):
        self.peer.close()

    def widen(self):
        """Reads as fast as any other from now on."""
        self.peer.setsockopt(socket.SOL_SOCKET, socket.SO_RCVBUF, 1 << 20)

    def send(self, given):
        self.peer.sendall(given)

    def half_close(self):
        self.peer.shutdown(socket.SHUT_WR)

    def reset(self):
        self.peer.setsockopt(socket.SOL_SOCKET, socket.SO_LINGER, struct.pack("ii", 1, 0))
        self.peer.close()

    def more(self):
        found = self.peer.recv(65536)
        self.held += found
        return found

    def take(self, length):
        while len(self.held) < length:
            if not self.more():
                raise Wrong(f"the connection ended after {self.held!r}")
        found, self.held = self.held[:length], self.held[length:]
        return found

    def reply(self):
        """The status, the fields and the content of the next reply."""
        while b"\r\n\r\n" not in self.held:
            if not self.more():
                raise Wrong(f"the connection ended after {self.held!r}")
        head = self.take(self.held.index(b"\r\n\r\n") + 4).decode()
        line, *fields = head[:-4].split("\r\n")
        found = re.fullmatch(r"HTTP/1\.1 (\d{3}) ([A-Za-z ]+)", line)
        fields = dict(it.split(": ", 1) for it in fields)
        if not found or not fields.get("Content-Length", "").isdigit():
            raise Wrong(head)
        return int(found[1]), fields, self.take(int(fields["Content-Length"]))

    def holds_end(self):
        """Raises unless the connection ends here without a further byte."""
        with contextlib.suppress(ConnectionResetError):
            while self.more():
                pass
        if self.held:
            raise Wrong(f"{self.held[:200]!r} after the last reply")


def ask(filer, closes=False):
    """A GET of a filer's list."""
    given = listing(filer)
    return given if closes else given.replace(b"Connection: close\r\n", b"")


def waiting(filer, key, body):
    """The head of a POST whose client waits for an interim response."""
    return request(key, body, filer, close=False)[: -len(body)].replace(
        b"\r\n\r\n", b"\r\nExpect: 100-continue\r\n\r\n"
    )


class Filed:
    """What was answered: the number of each filer and key. Every report is valid, so each gets one."""

    def __init__(self):
        self.numbers, self.lock, self.faults = {}, threading.Lock(), []

    def note(self, filer, key, number):
        with self.lock:
            before = self.numbers.setdefault((filer, key), number)
        if before != number:
            raise Wrong(f"{filer} {key}: {number}, and {before} before")

    def take(self, client, filer, key, closes=False, body=None):
        """Reads the reply to a report."""
        self.judge(client.reply(), filer, key, closes)

    def judge(self, reply, filer, key, closes=False):
        status, fields, content = reply
        found = re.fullmatch(rb'\{"number":([1-9]\d*),"status":"registered"\}', content)
        wanted = {"Content-Type": "application/json", "Content-Length": str(len(content))}
        if status != 201 or not found or fields != {**wanted, **({"Connection": "close"} if closes else {})}:
            raise Wrong(f"{filer} {key}: {status} {fields} {content!r}")
        self.note(filer, key, int(found[1]))

    def send(self, client, filer, key, closes=False, body=SMALLEST):
        """Files a report, or files it again."""
        client.send(request(key, body, filer, close=closes))
        self.take(client, filer, key, closes)

    def list_of(self, filer):
        """What the list of a filer has to be."""
        with self.lock:
            numbers = sorted(number for (whose, _), number in self.numbers.items() if whose == filer)
        parts = ",".join(f'{{"facts":0,"number":{number}}}' for number in numbers)
        return f'{{"filings":[{parts}]}}'.encode()

    def take_list(self, client, filer, content=None, closes=False):
        content = self.list_of(filer) if content is None else content
        wanted = {"Content-Type": "application/json", "Content-Length": str(len(content))}
        reply = client.reply()
        if reply != (200, {**wanted, **({"Connection": "close"} if closes else {})}, content):
            raise Wrong(f"the list of {filer}: {str(reply)[:300]}")

    def guard(self, act, *words):
        """Notes what went wrong."""
        try:
            act(*words)
        except (OSError, Wrong, ValueError) as fault:
            with self.lock:
                self.faults.append(f"{words}: {fault!r}"[:400])

    def at_once(self, count, act):
        """Acts so often at once, and gives how long it took."""
        barrier = threading.Barrier(count + 1)

        def begin(at):
            barrier.wait()
            self.guard(act, at)

        clients = [threading.Thread(target=begin, args=(at,), daemon=True) for at in range(count)]
        for it in clients:
            it.start()
        barrier.wait()
        begun = time.monotonic()
        for it in clients:
            it.join()
        return time.monotonic() - begun

    def rush(self, port, name):
        """Clients at once, each with a connection on which it files reports. How long it takes."""

        def act(at):
            with Client(port) as client:
                for key in range(sizes.each):
                    self.send(client, f"F{at}", f"{name}-{key}")
                client.send(ask(f"F{at}", closes=True))
                self.take_list(client, f"F{at}", closes=True)
                client.holds_end()

        return self.at_once(CLIENTS, act)

    def hold_clients(self, what):
        """Each client got what the protocol says."""
        tell(what, "; ".join(self.faults[:3]) + f" ({len(self.faults)} in all)" if self.faults else None)
        self.faults = []

    def repeat(self, port, asked):
        """Sends these again, of which some had no reply."""
        with Client(port) as client:
            for filer, key in asked:
                self.guard(lambda filer, key: self.send(client, filer, key), filer, key)

    def hold_register(self, server):
        """The server is stopped, and the register has what was answered, each once, under numbers without a gap."""
        if server.process.poll() is None:
            hold("a stop ends it by the signal", server.stop(), -signal.SIGTERM)
        self.hold_database(server.database)

    def hold_database(self, database):
        count = len(self.numbers)
        hold("the numbers are without a gap", sorted(self.numbers.values()), list(range(1, count + 1)))
        checked = trials.run(trials.INTAKE, "check", "--db", database)
        hold("intake check", (checked.returncode, checked.stdout, checked.stderr),
             (0, f"sound: {count} kept, {count} filings\n".encode(), b""))
        filers = sorted({filer for filer, _ in self.numbers})
        wrong = [filer for filer in filers[:: max(1, len(filers) // sizes.lists)][: sizes.lists] if
                 trials.run(trials.INTAKE, "list", "--db", database, "--filer", filer).stdout.rstrip(b"\n")
                 != self.list_of(filer)]  # fmt: skip
        hold("intake list", wrong, [])


# ---- beside silent and slow clients


def idle(folder):
    """1,000 connections that say nothing, and clients beside them; then each of the 1,000 is served."""
    filed = Filed()
    with Server(folder, "--at-once", 2000) as server, contextlib.ExitStack() as held:
        silent = [held.enter_context(Client(server.port)) for _ in range(1000)]
        taken = filed.rush(server.port, "beside")
        filed.hold_clients(f"{CLIENTS} clients beside 1,000 that are silent ({taken:.1f} s)")
        for at, client in enumerate(silent):
            filed.guard(filed.send, client, f"S{at % 8}", f"k-{at}")
        filed.hold_clients("each of the 1,000 is served once it speaks")
        filed.hold_register(server)


def file_long_list(filed, server):
    """A filer with a long list, whose reports are pipelined."""
    with Client(server.port) as client:
        for first in range(0, sizes.long, 100):
            keys = [f"k-{at}" for at in range(first, first + 100)]
            client.send(b"".join(request(key, SMALLEST, "LONG", close=False) for key in keys))
            for key in keys:
                filed.guard(filed.take, client, "LONG", key)


def slow(folder):
    """Clients beside one that sends a byte a second, one that never reads, one that sent half a report, and one that is
    silent: they take at most twice the time that they take alone. After that each of the slow ones is served."""
    filed = Filed()
    with Server(folder) as server:
        file_long_list(filed, server)
        filed.hold_clients(f"a list of {sizes.long} filings")
        alone = [filed.rush(server.port, f"alone-{at}") for at in range(3)]
        filed.hold_clients(f"{CLIENTS} clients alone")
        with Client(server.port) as trickling, Client(server.port, True) as deaf, Client(server.port) as half, \
                Client(server.port) as silent:  # fmt: skip
            late, large, content = request("late", SMALLEST, "SLOW", close=False), LARGEST, filed.list_of("LONG")
            deaf.send(ask("LONG") * ASKED)
            half.send(request("half", large, "SLOW", close=False)[:500_000])
            goes_on, sent = threading.Event(), []

            def trickle():
                while not goes_on.wait(1) and len(sent) < len(late) - 1:
                    trickling.send(late[len(sent) : len(sent) + 1])
                    sent.append(True)

            thread = threading.Thread(target=lambda: filed.guard(trickle), daemon=True)
            thread.start()
            time.sleep(1.5)
            beside = [filed.rush(server.port, f"beside-{at}") for at in range(3)]
            goes_on.set()
            thread.join()
            filed.hold_clients("they get their answers beside slow clients")
            print(f"alone {min(alone):.2f} s, beside slow clients {min(beside):.2f} s")
            hold(f"within {TIMES} times the time", min(beside) <= TIMES * min(alone), True)
            filed.guard(lambda: trickling.send(late[len(sent) :]))
            filed.guard(filed.take, trickling, "SLOW", "late")
            filed.guard(lambda: half.send(request("half", large, "SLOW", close=False)[500_000:]))
            filed.guard(filed.take, half, "SLOW", "half")
            filed.guard(filed.send, silent, "SLOW", "silent")
            deaf.widen()
            for _ in range(ASKED):
                filed.guard(filed.take_list, deaf, "LONG", content)
            filed.hold_clients("each of the slow clients gets its answers, whole")
        filed.hold_register(server)


def one(folder):
    """With `--at-once 1` one connection is served after another: a silent one keeps the others waiting, and patience
    ends that."""
    filed = Filed()
    with Server(folder, "--at-once", 1) as server:
        with Client(server.port) as first:
            filed.guard(filed.send, first, "ACME", "k-0")
            others = [Client(server.port) for _ in range(8)]
            for at, client in enumerate(others):
                client.send(request(f"k-{at + 1}", SMALLEST))
            others[0].peer.settimeout(1)
            with contextlib.suppress(TimeoutError):
                others[0].more()
            hold("the next one waits for the first", others[0].held, b"")
            others[0].peer.settimeout(sizes.seconds)
            filed.guard(filed.send, first, "ACME", "k-9")
        for at, client in enumerate(others):
            filed.guard(filed.take, client, "ACME", f"k-{at + 1}", True)
            client.peer.close()
        filed.hold_clients("all are served after it")
        order = [filed.numbers.get(("ACME", f"k-{at}"), 0) for at in (0, 9, 1)]
        hold("the first's later report comes before those of the others", order, [1, 2, 3])
        filed.hold_register(server)


# ---- what one connection may do


def half_closed(folder):
    """Clients that close their half: what was whole is answered, what is cut off is not, and then the connection
    ends."""
    filed = Filed()
    with Server(folder) as server:

        def act(at):
            with Client(server.port) as client:
                keys = [f"k-{at}-{part}" for part in range(3)]
                client.send(b"".join(request(key, SMALLEST, f"F{at % 8}", close=False) for key in keys))
                client.send((b"", b"POST /fil", request("cut", SMALLEST, "CUT", close=False)[:-1])[at % 3])
                client.half_close()
                for key in keys:
                    filed.take(client, f"F{at % 8}", key)
                client.holds_end()

        filed.at_once(CLIENTS, act)
        filed.hold_clients(f"{CLIENTS} clients that close their half")
        filed.hold_register(server)


def resets(folder):
    """Clients that reset their connections in every state, beside others: those get their answers, and a report that
    came whole is kept once or not at all."""
    filed, unheard = Filed(), []
    with Server(folder) as server:
        file_long_list(filed, server)
        whole = request("never", SMALLEST, "NEVER", close=False)
        states = {
            "silent": lambda client, at: None,
            "in a head": lambda client, at: client.send(whole[:30]),
            "in a body": lambda client, at: client.send(whole[:-20]),
            "in a large body": lambda client, at: client.send(request("never", LARGEST, "NEVER")[:400_000]),
            "before the reply": lambda client, at: client.send(request(f"u-{at}", SMALLEST, "UNHEARD", close=False)),
            "in a reply": lambda client, at: (client.send(ask("LONG") * ASKED), client.take(1000)),
        }  # fmt: skip

        def break_all(_):
            for at in range(20):
                for what, act in states.items():
                    client = Client(server.port, what == "in a reply")
                    act(client, at)
                    if at % 2:
                        time.sleep(0.005)
                    client.reset()

        breaking = threading.Thread(target=lambda: filed.guard(break_all, "resets"), daemon=True)
        breaking.start()
        filed.rush(server.port, "beside")
        breaking.join()
        filed.rush(server.port, "after")
        filed.hold_clients(f"{CLIENTS} clients beside {20 * len(states)} that reset their connections")
        unheard = [("UNHEARD", f"u-{at}") for at in range(20)]
        filed.repeat(server.port, unheard)
        filed.repeat(server.port, unheard)
        filed.hold_clients("what came whole is filed once")
        filed.hold_register(server)


def pipelined(folder):
    """Requests that come without waiting for replies, in pieces of any length: the replies come in order, and nothing
    is answered behind a request that closes."""
    filed = Filed()
    with Server(folder) as server:

        def act(at):
            pieces = random.Random(at)
            filer, keys = f"P{at}", [f"k-{part}" for part in range(50)]
            given = b"".join(request(key, SMALLEST, filer, close=False) + ask(filer) for key in keys)
            given += request("last", SMALLEST, filer) + request("never", SMALLEST, filer)
            with Client(server.port) as client:
                begin = 0
                while begin < len(given):
                    end = begin + pieces.choice([1, 7, 100, 1000, 20_000])
                    client.send(given[begin:end])
                    begin = end
                for part, key in enumerate(keys):
                    filed.take(client, filer, key)
                    numbers = [filed.numbers[filer, it] for it in keys[: part + 1]]
                    if numbers != sorted(numbers):
                        raise Wrong(f"{numbers} are not in order")
                    filed.take_list(client, filer)
                filed.take(client, filer, "last", True)
                client.holds_end()

        filed.at_once(16, act)
        filed.hold_clients("16 clients with 100 pipelined requests each")
        filed.hold_register(server)


def interim(folder):
    """Clients that wait for `100 Continue`: it comes once, before the body is sent, and also if the body is there."""
    filed = Filed()
    with Server(folder) as server:

        def act(at):
            filer, head = f"E{at}", waiting(f"E{at}", "k-1", SMALLEST)
            with Client(server.port) as client:
                if at % 2:
                    client.send(request("k-0", SMALLEST, filer, close=False))
                    filed.take(client, filer, "k-0")
                client.send(head)
                if (found := client.take(len(INTERIM))) != INTERIM:
                    raise Wrong(f"{found!r} in place of an interim response")
                for byte in range(0, len(SMALLEST), 30):
                    client.send(SMALLEST[byte : byte + 30])
                filed.take(client, filer, "k-1")
                client.send(waiting(filer, "k-2", SMALLEST) + SMALLEST)
                if (found := client.take(len(INTERIM))) != INTERIM:
                    raise Wrong(f"{found!r} in place of an interim response")
                filed.take(client, filer, "k-2")
                client.half_close()
                client.holds_end()

        filed.at_once(CLIENTS, act)
        filed.hold_clients(f"{CLIENTS} clients that wait for an interim response")
        filed.hold_register(server)


def repeats(folder):
    """Reports, repeats and lists that come together, while a sync takes a second: what has not to be kept waits for no
    commit of what has, wherever it stands."""
    filed, answered = Filed(), {}
    with TracedServer(folder, "fdatasync", f"delay_enter={SYNC}") as server:
        clients = [Client(server.port) for _ in range(CLIENTS)]
        with Client(server.port) as first:
            filed.guard(filed.send, first, "ACME", "k-0")
            first.send(request("k-1", SMALLEST, close=False))
            # They come while it is kept.
            time.sleep(SYNC / 4_000_000)
            for at, client in enumerate(clients):
                new, again = request(f"new-{at}", SMALLEST, "NEW", close=False), request("k-0", SMALLEST, close=False)
                client.send((new, again, ask("NONE"), again)[at % 8 if at % 8 < 3 else 3])
            filed.guard(filed.take, first, "ACME", "k-1")

            def act(at):
                if at % 8 == 0:
                    filed.take(clients[at], "NEW", f"new-{at}")
                elif at % 8 == 2:
                    filed.take_list(clients[at], "NONE")
                else:
                    filed.take(clients[at], "ACME", "k-0")
                answered[at] = time.monotonic()

            filed.at_once(CLIENTS, act)
        for client in clients:
            client.peer.close()
        filed.hold_clients(f"{CLIENTS} clients whose requests come together")
        kept = min((moment for at, moment in answered.items() if at % 8 == 0), default=0)
        late = [at for at, moment in sorted(answered.items()) if at % 8 and moment > kept]
        hold("those that wait for a commit although nothing of them is kept", late, [])
        filed.hold_register(server)


# ---- what runs out


class FewBytes:
    """Stands in for a small disk: a limit on the size of the intake's files, which is lifted by `give_room`."""

    limits = 'trap "" XFSZ; ulimit -f 6000;'

    def __init__(self, folder):
        self.folder = folder
        self.folder.mkdir(exist_ok=True)

    def give_room(self, server):
        resource.prlimit(server.process.pid, resource.RLIMIT_FSIZE, (resource.RLIM_INFINITY, resource.RLIM_INFINITY))


@contextlib.contextmanager
def small_disk(folder):
    """A disk with room for some of the reports, and what gives it room for all."""
    with SmallDisk(folder / "disk", 24 << 20) as disk:
        if not disk.is_mounted:
            replaced.append("a limit on the size of files for the full disk")
            few = FewBytes(disk.folder)
            yield few.folder, few.limits, few.give_room
            return
        filler = disk.fill(4 << 20)
        yield disk.folder, "", lambda server: filler.unlink()


def full_disk(folder):
    """The disk is full in the middle of 200 connections: each report gets 201 or 503, those that were answered 201
    stay, and once there is room all are filed."""
    filed, answered = Filed(), []
    body = SMALLEST.ljust(60_000)
    with small_disk(folder) as (disk, limits, give_room):
        with Server(folder, database=disk / "register.db", limits=limits) as server:

            def take(client, key):
                """Whether a report was filed; otherwise it was answered 503."""
                client.send(request(key, body, close=False))
                reply = client.reply()
                if reply[0] == 201:
                    filed.judge(reply, "ACME", key)
                elif reply[0] != 503 or json.loads(reply[2])["reason"] != "unavailable":
                    raise Wrong(f"{key}: {reply}")
                return reply[0]

            def act(at):
                with Client(server.port) as client:
                    answered.append(take(client, f"k-{at}"))

            filed.at_once(200, act)
            counts = collections.Counter(answered)
            filed.hold_clients("each of 200 clients gets 201 or 503 while the disk becomes full")
            hold("some get 201, and some 503", (len(answered), counts[201] > 0, counts[503] > 0), (200, True, True))
            give_room(server)
            until = time.monotonic() + 120
            for at in range(200):
                while time.monotonic() < until:
                    with Client(server.port) as client:
                        if take(client, f"k-{at}") == 201:
                            break
                    time.sleep(0.5)
            filed.hold_clients("all are filed once there is room")
            hold("each once", len(filed.numbers), 200)
            filed.hold_register(server)


# ---- what runs out


def accepts(folder):
    """Accepts that fail: the intake goes on and serves the next connection. It reports the first of those that fail for
    a cause of which accept(2) does not say that one tries again."""
    for error, reports in (("EPROTO", 0), ("EINVAL", 1)):
        filed, place = Filed(), folder / error
        place.mkdir()
        with TracedServer(place, "accept4", f"error={error}:when=1..3") as server:
            for _ in range(2):
                with Client(server.port) as client:
                    filed.guard(filed.send, client, "ACME", "k-1")
            filed.hold_clients(f"two clients, where the first three accepts fail by {error}")
            hold("reports of it", server.told().count("no connection could be accepted"), reports)
            filed.hold_register(server)


def descriptors(folder):
    """More clients than the intake has descriptors for: those that got one go on, the others wait, all are served, and
    the intake does not spin meanwhile."""
    filed, served, lock, release = Filed(), [], threading.Lock(), threading.Event()
    many = 100
    with Server(folder, "--at-once", 200, limits="ulimit -n 40;") as server:

        def act(at):
            with Client(server.port) as client:
                filed.send(client, f"D{at % 8}", f"k-{at}")
                with lock:
                    served.append((at, client))
                release.wait()
                filed.send(client, f"D{at % 8}", f"k-{at}")
                client.half_close()
                client.holds_end()

        clients = threading.Thread(target=filed.at_once, args=(many, act), daemon=True)
        clients.start()
        until = time.monotonic() + sizes.seconds
        while not served and time.monotonic() < until:
            time.sleep(0.1)
        before = -1
        while before != len(served):
            before = len(served)
            time.sleep(sizes.seconds / 10)
        hold("some are served, and the others wait", (0 < before < many, filed.faults), (True, []))
        share = server.share_of_sleep()
        hold(f"it does not spin, and sleeps {share:.0%} of the time", share > 0.2, True)
        release.set()
        clients.join()
        filed.hold_clients(f"all of {many} clients are served in the end, with 40 descriptors")
        filed.hold_register(server)


class LargeReports:
    """Clients with a report of 1 MiB each, which they send in two parts."""

    def __init__(self, server, filed, count):
        self.filed, self.clients = filed, [Client(server.port) for _ in range(count)]
        self.texts = [request(f"k-{at}", LARGEST, "LARGE", close=False) for at in range(count)]
        self.sent = [0] * count

    def begin(self, length):
        """Each sends so many bytes, as far as it goes within a second."""

        def act(at):
            peer = self.clients[at].peer
            peer.settimeout(1)
            with contextlib.suppress(TimeoutError):
                while self.sent[at] < length:
                    self.sent[at] += peer.send(self.texts[at][self.sent[at] : length])
            peer.settimeout(sizes.seconds)

        self.filed.at_once(len(self.clients), act)

    def finish(self):
        """Each sends the rest, and gets its reply."""

        def act(at):
            with self.clients[at] as client:
                client.send(self.texts[at][self.sent[at] :])
                self.filed.take(client, "LARGE", f"k-{at}")

        self.filed.at_once(len(self.clients), act)
        self.filed.hold_clients(f"each of {len(self.clients)} large reports is filed")


def memory(folder):
    """With `--memory 1` one large request is held at a time. 8 that came half wait for each other, small ones go on
    beside them, and all are served."""
    filed = Filed()
    with Server(folder, "--memory", 1) as server:
        large = LargeReports(server, filed, 8)
        large.begin(500_000)
        filed.rush(server.port, "beside")
        filed.hold_clients(f"{CLIENTS} clients beside 8 large reports that came half, with --memory 1")
        large.finish()
        filed.hold_register(server)


def much_memory(folder):
    """With `--memory 8` an intake holds no more of 64 large requests than that, and the room of each connection."""
    filed = Filed()
    with Server(folder, "--memory", 8) as server:
        before = server.memory()
        large = LargeReports(server, filed, 64)
        large.begin(1_000_000)
        grown, at_last = -1, 0
        while at_last > grown:
            # Linux holds most of these reports. The intake reads what it has room for.
            grown = at_last
            time.sleep(sizes.seconds / 10)
            at_last = server.memory() - before
        # The allocator may keep as much again.
        hold(f"64 large reports take no more than --memory 8 lends ({grown / 1e6:.0f} MB)",
             grown < 2 * (8_000_000 + 64 * 33_000), True)
        large.finish()
        filed.hold_register(server)


def stopped(folder):
    """118 clients that stop in the middle of a report hold all that `--memory 256` lends. With and without
    `--patience`, another client's report of 40 kB is answered within 6 seconds."""
    for words in [(), ("--patience", 60)]:
        filed = Filed()
        with Server(folder, "--memory", 256, *words) as server, contextlib.ExitStack() as open_ones:
            for at in range(118):
                client = open_ones.enter_context(Client(server.port))
                client.send(request(f"k-{at}", LARGEST, "STOPPED", close=False)[:17_000])
            time.sleep(1)
            begun = time.monotonic()
            with Client(server.port) as client:
                body = SMALLEST.ljust(40_000)
                filed.guard(lambda key: filed.send(client, "OTHER", key, body=body), "k")
            took = time.monotonic() - begun
            filed.hold_clients("a report of 40 kB is filed while 118 clients stop in the middle of theirs")
            hold(f"it is answered within 6 seconds ({took:.1f} s)", took < 6, True)
            filed.hold_register(server)
        folder = folder / "again"
        folder.mkdir()


# ---- patience


def is_over(client, seconds):
    """Whether the connection is ended within so many seconds, and how many bytes came before."""
    client.peer.settimeout(seconds)
    try:
        with contextlib.suppress(ConnectionResetError, BrokenPipeError):
            while client.more():
                pass
        return True, len(client.held)
    except TimeoutError:
        return False, len(client.held)


def patience(folder):
    """`--patience 1` cuts off who keeps the intake waiting, and nobody else."""
    filed = Filed()
    with Server(folder, "--patience", 1) as server:
        file_long_list(filed, server)
        whole = request("late", SMALLEST, "LATE", close=False)
        with Client(server.port) as silent, Client(server.port) as trickling, Client(server.port, True) as deaf, \
                Client(server.port) as patient:  # fmt: skip
            deaf.send(ask("LONG") * ASKED)
            begun, is_cut = time.monotonic(), False
            for at in range(16):
                with contextlib.suppress(OSError):
                    trickling.send(whole[at : at + 1])
                time.sleep(0.3)
                if at % 2:
                    filed.guard(filed.send, patient, "PATIENT", f"k-{at}")
            took = time.monotonic() - begun
            hold("a silent client is cut off", is_over(silent, 0.5), (True, 0))
            hold("a client that sends a byte now and then is cut off", is_over(trickling, 0.5), (True, 0))
            filed.hold_clients(f"one that asks every 0.6 s is served for {took:.0f} s")
            deaf.widen()
            over, length = is_over(deaf, 5)
            most = ASKED * len(filed.list_of("LONG"))
            hold("a client that does not read is cut off", (over, length < most), (True, True))
        # Nobody is cut off while the intake has something to do.
        with contextlib.ExitStack() as held:
            waiting_clients = [held.enter_context(Client(server.port)) for _ in range(CLIENTS)]
            for at, client in enumerate(waiting_clients):
                filed.guard(filed.send, client, "WAITS", f"a-{at}")
            for at, client in enumerate(waiting_clients):
                client.send(request(f"b-{at}", SMALLEST, "WAITS", close=False)[:50])
            server.send_signal(signal.SIGSTOP)
            for at, client in enumerate(waiting_clients):
                client.send(request(f"b-{at}", SMALLEST, "WAITS", close=False)[50:])
            time.sleep(2.5)
            server.send_signal(signal.SIGCONT)
            for at, client in enumerate(waiting_clients):
                filed.guard(filed.take, client, "WAITS", f"b-{at}")
            filed.hold_clients(f"{CLIENTS} clients that waited for the intake get their answers")
        filed.hold_register(server)


# ---- the log


def log(folder):
    """Each connection has a line of the log, whatever it asked for, and `serve` ends after as many as it is to."""
    filed, count = Filed(), 50
    with Server(folder, "--log", connections=count) as server:
        begun = threading.Barrier(count)

        def act(at):
            with Client(server.port) as client:
                begun.wait()
                for key in range(at % 3 + 1):
                    filed.send(client, f"L{at}", f"k-{key}")

        filed.at_once(count, act)
        filed.hold_clients(f"{count} connections that overlap")
        with contextlib.suppress(subprocess.TimeoutExpired):
            server.process.wait(sizes.seconds)
        hold("it ends after them", (server.process.poll(), server.told().splitlines()[-1]),
             (0, f"intake: ended after {count} connections"))
        lines = server.lines()
        hold("each has a line", sorted(line["connection"] for line in lines), list(range(1, count + 1)))
        wanted = sorted(((f"L{at}",), at % 3 + 1, (201,) * (at % 3 + 1)) for at in range(count))
        found = sorted((tuple(dict.fromkeys(it["filers"])), it["places"], tuple(it["statuses"])) for it in lines)
        hold("which says what came and what went", found, wanted)
        filed.hold_register(server)


# ---- kills


def kills(folder):
    """Kills in the middle of clients, and starts: nothing that was answered is lost, and nothing is filed twice."""
    filed, asked, chance = Filed(), set(), random.Random(1)
    database = folder / "register.db"
    statuses = collections.Counter()
    for at in range(sizes.kills):
        with Server(folder) as server:
            over = threading.Event()

            def act(client_at):
                with contextlib.suppress(OSError):
                    with Client(server.port) as client:
                        for part in range(1000):
                            if over.is_set():
                                return
                            filer, key = f"K{client_at}", f"{at}-{part}"
                            with filed.lock:
                                asked.add((filer, key))
                            try:
                                filed.send(client, filer, key)
                            except Wrong as fault:
                                if "the connection ended after b''" not in str(fault):
                                    raise
                                return

            clients = threading.Thread(target=filed.at_once, args=(CLIENTS, act), daemon=True)
            clients.start()
            time.sleep(chance.uniform(0.01, 0.12))
            statuses[server.stop(signal.SIGTERM if at % 10 == 9 else signal.SIGKILL)] += 1
            over.set()
            clients.join()
    stops = sizes.kills // 10
    hold(f"{sizes.kills} kills", statuses, {-signal.SIGKILL: sizes.kills - stops, -signal.SIGTERM: stops})
    filed.hold_clients(f"what {len(filed.numbers)} replies to {len(asked)} reports said")
    with Server(folder) as server:
        answered = len(filed.numbers)
        for part in (sorted(filed.numbers), sorted(asked)):
            filed.repeat(server.port, part)
        filed.hold_clients(f"0 of {answered} lost, 0 of {len(asked)} twice")
        filed.hold_register(server)
    hold("some were answered, and some were not", 0 < answered < len(asked), True)


# ---- nginx in front

MANY = 600
# What is planted in nginx's file: a text, ` => `, and what it becomes.
FRONT_FAULT = os.environ.get("FRONT_FAULT", "")


def ask_front(folder, port, filed, at):
    """One filer's client, which files on one connection to nginx and goes on as long as it is open."""
    context = ssl.create_default_context(cafile=folder / "ca.pem")
    context.load_cert_chain(folder / "acme.pem", folder / "acme.key")
    plain = socket.create_connection(("127.0.0.1", port), timeout=150)
    with context.wrap_socket(plain, server_hostname="intake.example") as peer:
        for key in range(sizes.reports):
            given = request(f"k-{at}-{key}", REPORT, close=False).replace(b"Host: h\r\n", b"Host: intake.example\r\n")
            peer.sendall(given)
            held = b""
            while not (found := re.fullmatch(rb"(?s)HTTP/1\.1 (\d+).*?\r\n\r\n(.*\})", held)):
                if not (more := peer.recv(65536)):
                    raise Wrong(f"the connection ended after {held!r}")
                held += more
            number = re.fullmatch(rb'\{"number":(\d+),"status":"registered"\}', found[2])
            if found[1] != b"201" or not number:
                raise Wrong(f"k-{at}-{key}: {held!r}")
            filed.note("ACME", f"k-{at}-{key}", int(number[1]))


def front(folder, intake_port=None):
    """600 clients at once through nginx with the files of deploy/: each gets its answers, and none a 503."""
    nginx, openssl = check_deploy.find("nginx"), check_deploy.find("openssl")
    if not nginx or not openssl:
        replaced.append("nothing for nginx, which is not installed")
        return
    folder.chmod(0o755)
    check_deploy.make_certificates(openssl, folder)
    filed, count = Filed(), MANY * sizes.reports
    with Server(folder, port=intake_port) as server:
        port = free_port()
        file = check_deploy.nginx_file(folder, port, (server.port, server.port), free_port())
        if FRONT_FAULT:
            file.write_text(file.read_text().replace(*FRONT_FAULT.split(" => ")))
        with subprocess.Popen([nginx, "-p", folder, "-c", file], stderr=subprocess.DEVNULL) as process:
            try:
                time.sleep(1)
                taken = filed.at_once(MANY, lambda at: ask_front(folder, port, filed, at))
                kept_open = len(connections_of(server))
                filed.hold_clients(f"{MANY} clients at once through nginx, {count} reports ({taken:.0f} s)")
                hold(f"nginx keeps some connections open ({kept_open})", 0 < kept_open <= 128, True)
            finally:
                process.terminate()
        time.sleep(0.5)
        with open(folder / "filings.log", encoding="utf-8") as lines:
            logged = collections.Counter(json.loads(line)["status"] for line in lines)
        hold("the log has each request", logged, {201: count})
        hold("the numbers are without a gap", sorted(filed.numbers.values()), list(range(1, count + 1)))
        server.stop()
        checked = trials.run(trials.INTAKE, "check", "--db", server.database)
        hold("intake check", checked.stdout, f"sound: {count} kept, {count} filings\n".encode())


def connections_of(server):
    """The connections that the intake has."""
    if isinstance(server.port, pathlib.Path):
        rows = [line.split() for line in pathlib.Path("/proc/net/unix").read_text().splitlines()[1:]]
        return [row for row in rows if row[5] == "03" and row[7:] == [str(server.port)]]
    port = f":{server.port:04X}"
    rows = [line.split() for line in pathlib.Path("/proc/net/tcp").read_text().splitlines()[1:]]
    return [row for row in rows if row[1].endswith(port) and row[3] == "01"]


# ---- a unix socket


def front_of_socket(folder):
    """The same through the unix socket of the intake."""
    front(folder, folder / "socket")


def refusal(folder, path):
    """The status and the last line of an intake that is to serve a new register at a path, and whether that is made."""
    database = folder / "other.db"
    words = [trials.INTAKE, "serve", "--db", database, "--socket", path, "--connections", "1", "--new"]
    done = subprocess.run(words, capture_output=True, text=True, timeout=sizes.seconds, check=False)
    return done.returncode, done.stderr.splitlines()[-1], database.exists()


def unix(folder):
    """A unix socket: what a port answers, who may connect, what is left at its path, and what is refused there."""
    path, filed = folder / "socket", Filed()
    with Server(folder, "--patience", 2 * sizes.seconds, port=path) as server:
        hold("it says where it serves", server.told().split(": ")[:2], ["intake", f"serving unix:{path}"])
        hold("who may enter the folder may connect", stat.filemode(path.stat().st_mode), "srw-rw-rw-")
        taken = filed.rush(path, "unix")
        filed.hold_clients(f"{CLIENTS} clients on a unix socket ({taken:.1f} s)")
        told = f"intake: unix:{path}: another program listens there"
        hold("another intake is refused at its path", refusal(folder, path), (3, told, False))
        filed.rush(path, "after")
        filed.hold_clients("and the first goes on")
        filed.repeat(path, sorted(filed.numbers))
        filed.hold_clients("repeats get what they got")
        server.stop(signal.SIGKILL)
    hold("a killed intake leaves its file", path.is_socket(), True)
    with Server(folder, connections=2, port=path) as server:
        with Client(path) as client:
            filed.guard(filed.send, client, "KILLED", "k-1")
        filed.hold_clients("an intake serves at the path of one that was killed")
        with Client(path) as client:
            filed.guard(filed.send, client, "KILLED", "k-2")
        hold("it ends after its connections", server.process.wait(sizes.seconds), 0)
    hold("and leaves no file", os.path.lexists(path), False)
    checked = trials.run(trials.INTAKE, "check", "--db", server.database)
    count = len(filed.numbers)
    hold("intake check", checked.stdout, f"sound: {count} kept, {count} filings\n".encode())
    for what, make in [("a file", path.touch), ("a folder", path.mkdir), ("a link", lambda: path.symlink_to("x"))]:
        make()
        told = f"intake: unix:{path}: a file is there that is no socket"
        hold(f"{what} at the path is refused, and stays", (refusal(folder, path), os.path.lexists(path)),
             ((3, told, False), True))
        path.rmdir() if what == "a folder" else path.unlink()
    (folder / "file").touch()
    for what, other, told in [
        ("a folder that is not there", folder / "no" / "socket", "No such file or directory (os error 2)"),
        ("a folder that is a file", folder / "file" / "socket", "Not a directory (os error 20)"),
    ]:
        hold(what, refusal(folder, other), (3, f"intake: unix:{other}: {told}", False))
    try_without_rights(folder)


def try_without_rights(folder):
    """An intake of the user nobody, in a folder that is not its own."""
    if os.geteuid():
        replaced.append("nothing for another user, which root alone can be")
        return
    folder.chmod(0o755)
    own = folder / "own"
    own.mkdir()
    os.chown(own, 65534, 65534)
    path = folder / "socket"
    done = subprocess.run(
        ["setpriv", "--reuid", "65534", "--regid", "65534", "--clear-groups", trials.INTAKE, "serve",
         "--db", own / "r.db", "--socket", path, "--connections", "1", "--new"],
        capture_output=True, text=True, timeout=sizes.seconds, check=False,
    )  # fmt: skip
    hold("a folder of another user", (done.returncode, done.stderr, (own / "r.db").exists()),
         (3, f"intake: unix:{path}: Permission denied (os error 13)\n", False))


TRIALS = {it.__name__: it for it in [
    idle, slow, one, half_closed, resets, pipelined, interim, repeats, full_disk, accepts, descriptors, memory,
    much_memory, stopped, patience, log, kills, front, unix, front_of_socket,
]}  # fmt: skip

# ---- planted faults

# A trial, and what is wrong with the stand-in, or which text of nginx's file becomes which.
PLANTED = [
    ("idle", "serves one connection after another"),
    ("slow", "serves one connection after another"),
    ("slow", "gives a reply to another connection"),
    ("one", "serves all at once"),
    ("half_closed", "drops a connection that is half closed"),
    ("half_closed", "answers what was cut off"),
    ("resets", "ends if a peer resets"),
    ("pipelined", "drops what is pipelined"),
    ("interim", "writes no interim response"),
    ("interim", "writes the interim response twice"),
    ("repeats", "keeps a report before the repeats behind it"),
    ("full_disk", "drops the others if the disk is full"),
    ("full_disk", "skips a number if the disk is full"),
    ("accepts", "ends if an accept fails"),
    ("descriptors", "ends without a descriptor"),
    ("descriptors", "drops a connection without a descriptor"),
    ("descriptors", "spins without a descriptor"),
    ("memory", "drops a large request without a loan"),
    ("much_memory", "lends without bound"),
    ("stopped", "never takes a loan back"),
    ("patience", "waits for ever"),
    ("patience", "counts from the last byte"),
    ("patience", "counts from the first request"),
    ("patience", "cuts off what waits for the server"),
    ("patience", "never cuts off who doesn't read"),
    ("log", "writes a line for each request"),
    ("log", "counts a connection for each request"),
    ("kills", "answers before it keeps"),
    ("kills", "forgets keys at a start"),
    ("front", "serves one connection after another"),
    ("front", "keepalive 4; => keepalive 512;"),
    ("front", "proxy_read_timeout 120s; => proxy_read_timeout 100ms;"),
    ("unix", "leaves the file of its socket"),
    ("unix", "lets only its user connect"),
    ("unix", "takes the path of another"),
    ("unix", "removes any file"),
    ("unix", "removes nothing"),
    ("front_of_socket", "serves one connection after another"),
    ("front_of_socket", "keepalive 4; => keepalive 512;"),
]


def try_planted(words):
    """Makes each trial with the stand-in, without a fault and with each of its faults."""
    for name, fault in [(name, "") for name in TRIALS] + PLANTED:
        if words and not any(word in f"{name} {fault}" for word in words):
            continue
        command = [sys.executable, __file__, "--first", "--intake", STAND_IN, name]
        env = {**os.environ, "FRONT_FAULT" if " => " in fault else "FAULT": fault}
        done = subprocess.run(command, capture_output=True, text=True, env=env, check=False)
        failed = re.findall(r"(?m)^failed: (.{,160})", done.stdout)
        if fault:
            tell(f"{name}, {fault}: seen by: {failed[:1]}", None if failed else "no check fails")
        else:
            tell(f"{name}, without a fault", "; ".join(failed) or done.stderr or None)


def play(chosen):
    """Makes these trials, each in a folder of its own."""
    for name in chosen:
        with tempfile.TemporaryDirectory() as folder:
            begun = time.monotonic()
            try:
                TRIALS[name](pathlib.Path(folder).resolve())
            except Seen:
                pass
            except (OSError, Wrong, subprocess.SubprocessError, ValueError) as fault:
                trials.tell(name, repr(fault))
            print(f"{name}: {time.monotonic() - begun:.0f} s", flush=True)


def words_of(words):
    parser = argparse.ArgumentParser(description=__doc__.splitlines()[0])
    parser.add_argument("--intake", type=pathlib.Path, default=trials.INTAKE, help="the built program")
    parser.add_argument("--unproved", action="store_true", help="it was built without proof, which makes it slow")
    parser.add_argument("--first", action="store_true", help="ends a trial at the first check that fails")
    parser.add_argument("--planted", action="store_true", help="whether each planted fault is seen")
    parser.add_argument("words", metavar="TRIAL", nargs="*", help=" ".join(TRIALS) + "; with --planted a word")
    given = parser.parse_args(words)
    given.intake = given.intake.resolve()
    if not given.planted and (wrong := [it for it in given.words if it not in TRIALS]):
        parser.error(f"there is no trial {wrong[0]}")
    if not given.planted and not given.intake.exists():
        parser.error("build the program first: (cd crates/intake && rt run -- --version)")
    return given


def main(words):
    global sizes
    given = words_of(words)
    most = resource.getrlimit(resource.RLIMIT_NOFILE)[1]
    resource.setrlimit(resource.RLIMIT_NOFILE, (most, most))
    ends_at_first.extend([True] * given.first)
    if given.unproved:
        sizes = SmallSizes()
        replaced.append("a program built without proof for the intake")
    if given.planted or given.intake == STAND_IN:
        replaced.append("tools/intake_stand_in.py for the intake")
    if given.planted:
        try_planted(given.words)
    else:
        trials.INTAKE = given.intake
        play(given.words or TRIALS)
    ending = f"; stand-ins: {', '.join(replaced)}" if replaced else ""
    print(f"{len(passed)} passed, {len(trials.failures)} failed{ending}")
    return 1 if trials.failures else 0


if __name__ == "__main__":
    sys.exit(main(sys.argv[1:]))
