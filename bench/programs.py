"""What the measurements share: the built programs, the requests that they are given, and the processor time or the
instructions that they take."""

import contextlib
import os
import re
import resource
import shutil
import signal
import socket
import subprocess
import sys
import tempfile
import threading
import time

TOP = os.path.dirname(os.path.dirname(os.path.abspath(__file__)))
sys.path.insert(0, os.path.join(TOP, "tools"))

from trials import Serving, request

BODY_BYTES = 393
CALLGRIND = ["valgrind", "--tool=callgrind", "--callgrind-out-file=/dev/null"]
# Callgrind counts each byte that `rep movsb` copies, by which glibc makes large copies on some
# processors and not on others.
NO_REP = {**os.environ, "GLIBC_TUNABLES": "glibc.cpu.hwcaps=-ERMS"}


def built(name):
    """The path of a program, which has to be built."""
    path = os.path.join(TOP, "crates", name, "out", name)
    if not os.path.exists(path):
        sys.exit(f"build the program first: (cd crates/{name} && rt run < stdin)")
    return path


def example():
    """The report of the example request, of 393 bytes."""
    with open(os.path.join(TOP, "crates", "intake", "stdin"), "rb") as it:
        return it.read()[-BODY_BYTES:]


def pipelined(numbers, body):
    """A request for each number, under a key that has it."""
    return b"".join(request(f"k-{number:06d}", body, close=False) for number in numbers)


def amendments(numbers, body):
    """A request for each number, to replace the filing of it, under a key that has it."""
    return b"".join(request(f"a-{number:06d}", body, close=False, replaces=number) for number in numbers)


def time_of_children():
    """The processor time of the programs that ended so far: (by themselves, by the system for them), in seconds."""
    used = resource.getrusage(resource.RUSAGE_CHILDREN)
    return used.ru_utime, used.ru_stime


def run(words, given, status=0):
    """What a program printed, and its processor time in seconds. It has to end with the status."""
    before = sum(time_of_children())
    ended = subprocess.run(words, input=given, capture_output=True, check=False)
    spent = sum(time_of_children()) - before
    if ended.returncode != status:
        sys.exit(f"{' '.join(words)}: status {ended.returncode}, {ended.stderr.decode(errors='replace')}")
    return ended.stdout, spent


def counts_instructions():
    """Whether valgrind is installed, by which instructions are counted."""
    return shutil.which("valgrind") is not None


def collected(errors):
    """The instructions that callgrind tells at its end, or none if it did not come to that."""
    count = re.search(rb"Collected : (\d+)", errors)
    return int(count[1]) if count else None


def instructions(words, given, status=0):
    """What a program printed, and how many instructions it took in user mode, by callgrind.
    It has to end with the status."""
    with tempfile.TemporaryFile() as it:
        it.write(given)
        it.seek(0)
        ended = subprocess.run(CALLGRIND + words, stdin=it, env=NO_REP, capture_output=True, check=False)
    count = collected(ended.stderr)
    if ended.returncode != status or count is None:
        sys.exit(f"{' '.join(CALLGRIND + words)}: status {ended.returncode}, {ended.stderr.decode(errors='replace')}")
    return ended.stdout, count


def connect(port):
    """A connection to a port of 127.0.0.1, which sends at once."""
    peer = socket.create_connection(("127.0.0.1", port))
    peer.setsockopt(socket.IPPROTO_TCP, socket.TCP_NODELAY, 1)
    return peer


def read_reply(peer, held):
    """Reads one reply, and gives its status and what was read beyond it."""
    while b"\r\n\r\n" not in held:
        more = peer.recv(65536)
        if not more:
            sys.exit(f"the connection ended in a reply: {held!r}")
        held += more
    head, _, rest = held.partition(b"\r\n\r\n")
    length = int(re.search(rb"(?i)content-length: *(\d+)", head)[1])
    while len(rest) < length:
        rest += peer.recv(65536)
    return int(head.split(b" ")[1]), rest[length:]


def exchange(peer, given, count, expected=201):
    """Sends requests, and reads the reply to each, which has to be a filing, or to have another status."""
    sender = threading.Thread(target=peer.sendall, args=(given,))
    sender.start()
    held = b""
    for _ in range(count):
        status, held = read_reply(peer, held)
        if status != expected:
            sys.exit(f"status {status}")
    sender.join()


def begin(peer, given):
    """Sends what the system takes of it at once, and gives the rest."""
    peer.setblocking(False)
    sent = peer.send(given)
    peer.setblocking(True)
    return given[sent:]


def folder():
    """A folder in memory, where there is one, so that no disk is waited for."""
    return tempfile.TemporaryDirectory(dir="/dev/shm" if os.path.isdir("/dev/shm") else None)


class Server(Serving):
    """An intake that serves the register in a folder, a new one if there is none, for so many connections. `program`
    is another build of it."""

    def __init__(self, place, connections, under=(), env=None, program=None):
        self.cost = None
        self.database = os.path.join(place, "register.db")
        new = [] if os.path.exists(self.database) else ["--new"]
        super().__init__(self.database, connections, *new, under=under, env=env, program=program or built("intake"))
        if not self.ready:
            sys.exit("the server ended")

    def processor_time(self):
        """The seconds of processor time that the server took so far."""
        with open(f"/proc/{self.process.pid}/schedstat", encoding="ascii") as it:
            return int(it.read().split()[0]) / 1e9

    @contextlib.contextmanager
    def counting(self):
        """Has in `cost` what the server took while it was in the block."""
        before = self.processor_time()
        yield
        self.cost = self.processor_time() - before

    @contextlib.contextmanager
    def stopped(self):
        """Stops the server, once it waits, while the block is done. It then meets at once what was done there."""
        self._await("S")
        self.process.send_signal(signal.SIGSTOP)
        try:
            self._await("T")
            yield
        finally:
            self.process.send_signal(signal.SIGCONT)

    def _await(self, state):
        """Waits until the system tells this state of the server, at most a minute."""
        end = time.monotonic() + 60
        while time.monotonic() < end:
            with open(f"/proc/{self.process.pid}/stat", encoding="ascii") as it:
                if it.read().rpartition(") ")[2].startswith(state):
                    return
            time.sleep(0.001)
        sys.exit(f"the server is not in the state {state} within a minute")

    def memory(self, name):
        """The memory of the server that the system tells under a name, in bytes."""
        with open(f"/proc/{self.process.pid}/status", encoding="ascii") as it:
            return next(int(line.split()[1]) * 1024 for line in it if line.startswith(name))

    def __enter__(self):
        return self

    def __exit__(self, fault, *_):
        if fault:
            self.process.kill()
        self.process.communicate(timeout=60)


class CountedServer(Server):
    """A server whose `cost` is in instructions, and is known once it has ended."""

    def __init__(self, place, connections):
        super().__init__(place, connections, [*CALLGRIND, "--instr-atstart=no"], NO_REP)

    @contextlib.contextmanager
    def counting(self):
        self._count("on")
        yield
        self._count("off")

    def _count(self, state):
        subprocess.run(
            ["callgrind_control", f"--instr={state}", str(self.process.pid)], check=True, capture_output=True
        )

    def __exit__(self, *_):
        _, errors = self.process.communicate(timeout=600)
        self.cost = collected(errors)
