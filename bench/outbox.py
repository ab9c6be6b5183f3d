#!/usr/bin/env python3
"""Measures the program `outbox` over 1,000 and 10,000 entries: status 1 where a bound is passed. Build both programs
first: (cd crates/intake && rt run < stdin) and (cd crates/outbox && rt run), which ends with 2 as it was given
no words.

Times are processor time of the command, by itself and by the system for it; instructions are those in user mode, by
callgrind, if valgrind is installed. Each figure is the best of three runs, but for `send --all`, which is run once, and
for instructions, of two. Databases lie in /dev/shm where there is one. A command opens the database and so reads each
entry; that is why ten times the entries may take twelve times the time, and no more.
"""

import os
import sys

from memory import make_outbox
from programs import Server, built, counts_instructions, example, folder, instructions, run

RUNS = 3
FEW, MANY = 1_000, 10_000
BOUND = 12
# What `send --all` may take for an entry of 393 bytes, in instructions.
SENT = 160_000


def best(words):
    """The processor time of a command, the best of the runs."""
    return min(run(words, b"")[1] for _ in range(RUNS))


def measure(entries):
    """The processor time of each command on an outbox with so many open entries, by its name."""
    with folder() as place:
        name, body = os.path.join(place, "outbox.db"), os.path.join(place, "body")
        with open(body, "wb") as it:
            it.write(example())
        make_outbox(name, entries, example())
        with Server(place, 2 * RUNS + entries) as server:
            base = [built("outbox")]
            times = {
                "status": best([*base, "status", "--db", name]),
                "put": best([*base, "put", "--db", name, "--body", body]),
                "send": best([*base, "send", "--db", name, "--port", str(server.port)]),
            }
            rest = [*base, "send", "--all", "--db", name, "--port", str(server.port)]
            times["send --all, each entry"] = run(rest, b"")[1] / entries
            server.process.terminate()
    return times


def cost_to_send(few=20, many=60):
    """The instructions of `send --all` for one entry more, which is sent on a connection of its own."""
    counts = []
    for entries in (few, many):
        with folder() as place:
            name = os.path.join(place, "outbox.db")
            make_outbox(name, entries, example())
            with Server(place, entries) as server:
                words = [built("outbox"), "send", "--all", "--db", name, "--port", str(server.port)]
                counts.append(instructions(words, b"")[1])
    return (counts[1] - counts[0]) / (many - few)


def main():
    few, many = measure(FEW), measure(MANY)
    passed = False
    for what, time in few.items():
        bound = 2 if "each" in what else BOUND
        times = many[what] / time
        passed = passed or times > bound
        print(
            f"{what}: {1000 * time:.2f} ms of {FEW} entries, {1000 * many[what]:.2f} ms of {MANY}: "
            f"{times:.1f} times, at most {bound}"
        )
    if counts_instructions():
        cost = cost_to_send()
        passed = passed or cost > SENT
        print(f"send --all, each entry: {cost:,.0f} instructions, at most {SENT:,}")
    if passed:
        sys.exit("a bound is passed")


if __name__ == "__main__":
    main()
