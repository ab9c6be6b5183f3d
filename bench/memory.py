#!/usr/bin/env python3
"""Measures the most memory that the programs hold: status 1 where a bound is passed. Build them first:
(cd crates/intake && rt run < stdin) and (cd crates/outbox && rt run), which ends with 2 as it was given no words.

    bench/memory.py            registers and outboxes as a test has them, a few minutes
    bench/memory.py --large    those with 100,000 requests, 300 reports of 1 MiB and 10,000 entries of 100 kB besides

The most is what Linux tells as VmHWM: the pages that were in memory at once. Databases lie in /dev/shm where there is
one. As a file is opened the library has all rows of one table in memory, so the bound of a command on a file grows with
the file.
"""

import os
import sqlite3
import subprocess
import sys

from programs import Server, amendments, built, connect, example, exchange, folder, pipelined
from reports import report

MEGABYTE = 1_000_000
LARGE = report(1_048_576)
LIST = b"GET /filings/%s HTTP/1.1\r\nHost: localhost\r\n\r\n"


def most_of(words):
    """The most memory of a command, in bytes. It has to end with 0."""
    with subprocess.Popen(words, stdout=subprocess.DEVNULL, stderr=subprocess.PIPE) as process:
        errors = process.stderr.read()
        _, status, used = os.wait4(process.pid, 0)
        process.returncode = os.waitstatus_to_exitcode(status)
    if process.returncode:
        sys.exit(f"{' '.join(words)}: status {process.returncode}, {errors.decode()}")
    return used.ru_maxrss * 1024


def within(what, memory, bound):
    """Whether so much memory is within the bound."""
    print(f"{what}: {memory / MEGABYTE:.1f} MB, at most {bound / MEGABYTE:.1f}")
    return memory <= bound


class Peak:
    """What a running server holds at most while something is done, beyond what it held before."""

    def __init__(self, server):
        self.server = server

    def of(self, call, *given):
        """The memory that the call takes, in bytes."""
        with open(f"/proc/{self.server.process.pid}/clear_refs", "w", encoding="ascii") as it:
            it.write("5")
        before = self.server.memory("VmRSS:")
        call(*given)
        return self.server.memory("VmHWM:") - before


def bound_of(database, rows):
    """What a command may hold that opens this file with so many rows and goes through them one at a time: 40 MB, 1.5
    times the file, and 100 bytes a row."""
    return 40 * MEGABYTE + 1.5 * os.path.getsize(database) + 100 * rows


def file_all(peer, numbers, body):
    """Files the body under a key for each number."""
    for number in numbers:
        exchange(peer, pipelined([number], body), 1)


def registers(small, large):
    """What a server holds for one request, `check` for the whole, and `pages` beyond that, of a register with so many
    small and so many large reports."""
    kept = small + large
    print(f"a register of {small} small and {large} large reports")
    with folder() as place:
        with Server(place, 1) as server:
            peer, peak = connect(server.port), Peak(server)
            file_all(peer, range(small), example())
            file_all(peer, range(small, kept), LARGE)
            held = []
            for what, given, status, bound in (
                ("a new report of 1 MiB", pipelined([kept], LARGE), 201, 64),
                ("its repeat", pipelined([kept], LARGE), 201, 16),
                ("a report of 1 MiB that replaces it", amendments([kept + 1], LARGE), 201, 64),
                ("a list of no filing", LIST % b"NONE", 200, 1),
                ("the list of all", LIST % b"ACME", 200, 1 + kept / 1_000),
            ):
                held.append(within(f"  {what}", peak.of(exchange, peer, given, 1, status), bound * MEGABYTE))
            peer.close()
        memory = most_of([built("intake"), "check", "--db", server.database])
        site = os.path.join(place, "site")
        os.mkdir(site)
        pages = most_of([built("intake"), "pages", "--db", server.database, "--into", site])
        return [
            *held,
            within("  check", memory, bound_of(server.database, kept)),
            within("  pages, beyond check", pages - memory, 100 * MEGABYTE),
        ]


# The tables of an outbox, as docs/PROTOCOL.md declares them.
OUTBOX = """
CREATE TABLE outbox_meta (id INTEGER PRIMARY KEY, kind TEXT NOT NULL, form INTEGER NOT NULL,
    filer TEXT NOT NULL) STRICT;
CREATE TABLE entry (id INTEGER PRIMARY KEY, idem TEXT NOT NULL UNIQUE, body BLOB NOT NULL, state INTEGER NOT NULL,
    number INTEGER) STRICT;
CREATE TABLE target (id INTEGER PRIMARY KEY, number INTEGER NOT NULL) STRICT;
INSERT INTO outbox_meta VALUES (1, 'outbox', 2, 'ACME');
"""


def make_outbox(name, entries, body):
    """An outbox with so many entries of this body, all of them open. A file that another program writes has no sums."""
    base = sqlite3.connect(name)
    base.executescript(OUTBOX)
    with base:
        rows = ((at, f"k-{at}", body, 0, None) for at in range(1, entries + 1))
        base.executemany("INSERT INTO entry VALUES (?, ?, ?, ?, ?)", rows)
    base.close()


def outboxes(entries, length):
    """What a command holds of an outbox with so many entries of so many bytes."""
    print(f"an outbox of {entries} entries of {length} bytes")
    with folder() as place:
        name = os.path.join(place, "outbox.db")
        make_outbox(name, entries, b"x" * length)
        body = os.path.join(place, "body")
        with open(body, "wb") as it:
            it.write(b"y" * length)
        put = ["put", "--body", body]
        commands = (["status"], ["show", "--entry", str(entries)], put)
        return [
            within(
                f"  {words[0]}",
                most_of([built("outbox"), words[0], "--db", name, *words[1:]]),
                bound_of(name, entries),
            )
            for words in commands
        ]


def main():
    sizes = [(1_000, 32), (10_000, 0)]
    boxes = [(1_000, 100_000)]
    if "--large" in sys.argv[1:]:
        sizes += [(100_000, 0), (0, 300)]
        boxes += [(10_000, 100_000)]
    held = [it for small, large in sizes for it in registers(small, large)]
    held += [it for entries, length in boxes for it in outboxes(entries, length)]
    if not all(held):
        sys.exit("a bound is passed")


if __name__ == "__main__":
    main()
