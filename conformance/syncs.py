"""Holds or refuses what a program asks of the disk: its calls of fsync and the like wait for a word of the runner.

The program is run under a filter of its system calls (seccomp) whose notices come to the runner. So it may be of any
kind, a static one too, it is not traced, and its children are under the filter as well. That takes Linux 5.5 or later
on x86_64 or aarch64.

    syncs.py FD PROGRAM WORD ..         runs the program so, and sends the notices' descriptor to the socket FD
"""
import ctypes
import fcntl
import os
import platform
import select
import socket
import struct
import subprocess
import sys
import threading

# The numbers of the calls that end once the disk has the bytes: fsync, fdatasync, msync, sync, syncfs and
# sync_file_range. Behind them openat, and open if there is one, by which a file may be synced at each write; and
# io_uring_setup, behind which no call is seen.
CALLS = {
    "x86_64": ((74, 75, 26, 162, 306, 277), {257: 2, 2: 1}, 425),
    "aarch64": ((82, 83, 227, 81, 267, 84), {56: 2}, 425),
}
# The architecture as a filter sees it (AUDIT_ARCH), the bit of open that has each write synced (O_DSYNC), and EIO.
ARCHITECTURES = {"x86_64": 0xC000003E, "aarch64": 0xC00000B7}
O_DSYNC, EIO = 0o10000, 5
# Codes of classic BPF, and what a filter answers.
LOAD, EQUALS, HAS_BITS, RETURN = 0x20, 0x15, 0x45, 0x06
ALLOWED, TOLD = 0x7FFF0000, 0x7FC00000
# seccomp(2): the call's number, and what it is asked for.
SECCOMP = {"x86_64": 317, "aarch64": 277}
SET_FILTER, NEW_LISTENER, NO_NEW_PRIVILEGES, GOES_ON = 1, 8, 38, 1
RECEIVE, SEND = 0xC0502100, 0xC0182101
# How many ways of a filter's jump are for what comes next.
NEXT = 0


class Instruction(ctypes.Structure):
    _fields_ = [
        ("code", ctypes.c_ushort),
        ("met", ctypes.c_ubyte),
        ("missed", ctypes.c_ubyte),
        ("value", ctypes.c_uint),
    ]


class Program(ctypes.Structure):
    _fields_ = [("length", ctypes.c_ushort), ("filter", ctypes.POINTER(Instruction))]


def instructions(machine):
    """The filter: these calls are reported, and all others allowed."""
    calls, opens, ring = CALLS[machine]
    found = [(LOAD, NEXT, NEXT, 4), (EQUALS, 1, NEXT, ARCHITECTURES[machine]), (RETURN, NEXT, NEXT, ALLOWED)]
    for number, word in opens.items():
        found += [(LOAD, NEXT, NEXT, 0), (EQUALS, NEXT, 3, number), (LOAD, NEXT, NEXT, 16 + 8 * word),
                  (HAS_BITS, NEXT, 1, O_DSYNC), (RETURN, NEXT, NEXT, TOLD)]
    found.append((LOAD, NEXT, NEXT, 0))
    for number in (*calls, ring):
        found += [(EQUALS, NEXT, 1, number), (RETURN, NEXT, NEXT, TOLD)]
    return [*found, (RETURN, NEXT, NEXT, ALLOWED)]


def run_under_filter(descriptor, words):
    machine = platform.machine()
    system = ctypes.CDLL(None, use_errno=True)
    lines = instructions(machine)
    program = Program(len(lines), (Instruction * len(lines))(*(Instruction(*line) for line in lines)))
    system.prctl(NO_NEW_PRIVILEGES, 1, 0, 0, 0)
    listener = system.syscall(SECCOMP[machine], SET_FILTER, NEW_LISTENER, ctypes.byref(program))
    with socket.socket(fileno=descriptor) as runner:
        if listener < 0:
            runner.send(os.strerror(ctypes.get_errno()).encode())
            sys.exit(1)
        socket.send_fds(runner, [b"."], [listener])
    os.close(listener)
    try:
        os.execvp(words[0], words)
    except OSError as fault:
        sys.exit(f"{words[0]}: {fault.strerror}")


# ---- the runner's side


class Unseen(Exception):
    """Why the calls of a program are not seen."""


class Disk:
    """What the programs of a case ask of the disk. By `way` a call goes on (`pass`), waits (`hold`) or fails with EIO
    (`refuse`)."""

    def __init__(self):
        self.way, self.held, self.is_blind = "pass", [], False
        self.guard = threading.Lock()

    def start(self, words, **options):
        """Starts the program under the filter, as Popen does."""
        if platform.machine() not in CALLS:
            raise Unseen(f"the calls of a program are not known on {platform.machine()}")
        own, its = socket.socketpair()
        with own:
            with its:
                process = subprocess.Popen([sys.executable, __file__, str(its.fileno()), *map(str, words)],
                                           pass_fds=[its.fileno()], **options)
            said, listeners, _, _ = socket.recv_fds(own, 100, 1)
        if not listeners:
            process.wait()
            raise Unseen(f"the system filters no calls: {said.decode() or 'the filter ended'}")
        threading.Thread(target=self.watch, args=(listeners[0],), daemon=True).start()
        return process

    def watch(self, listener):
        """Takes one notice after another, until no process is under the filter any more."""
        wake = select.poll()
        wake.register(listener, select.POLLIN)
        while not wake.poll()[0][1] & select.POLLHUP:
            notice = bytearray(80)
            try:
                fcntl.ioctl(listener, RECEIVE, notice)
            except OSError:
                continue  # The process was killed meanwhile.
            number, _, _, call = struct.unpack_from("=QIIi", notice)
            with self.guard:
                if call in CALLS[platform.machine()][0]:
                    self.take(listener, number)
                else:
                    self.is_blind = True
                    answer(listener, number, True)
        with self.guard:
            self.held = [one for one in self.held if one[0] != listener]
            os.close(listener)

    def take(self, listener, number):
        if self.way == "hold":
            self.held.append((listener, number))
        else:
            answer(listener, number, self.way == "pass")

    def go(self, way):
        """What becomes of the calls from now on, and of those that wait."""
        with self.guard:
            self.way = way
            while way != "hold" and self.held:
                answer(*self.held.pop(0), way == "pass")

    def let_one(self):
        """Lets the call go that waits longest."""
        with self.guard:
            if self.held:
                answer(*self.held.pop(0), True)


def answer(listener, number, goes_on):
    """Lets the call go on, or has it fail."""
    try:
        fcntl.ioctl(listener, SEND, struct.pack("=QqiI", number, 0, 0 if goes_on else -EIO, GOES_ON if goes_on else 0))
    except OSError:
        pass  # The process was killed meanwhile.


if __name__ == "__main__":
    run_under_filter(int(sys.argv[1]), sys.argv[2:])
