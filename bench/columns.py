"""What single requests cost, and an opening: in instructions in user mode, if valgrind is installed, and otherwise in
seconds of processor time, the best of three runs."""

import os
import shutil

from programs import (
    CountedServer,
    Server,
    amendments,
    begin,
    built,
    connect,
    counts_instructions,
    example,
    exchange,
    folder,
    instructions,
    pipelined,
    run,
)
from reports import WRONG, facts, report

RUNS = 3
ASKS = b"GET /filings/%s HTTP/1.1\r\nHost: localhost\r\n\r\n"


def least(cost):
    """The cost where it is counted, and the least of some where it is timed."""
    return cost() if counts_instructions() else min(cost() for _ in range(RUNS))


def cost_of(words, given=b""):
    """What a program costs, and what it prints."""
    output, cost = (instructions if counts_instructions() else run)(words, given)
    return cost, output


def in_memory(first, given, count, status=201):
    """What each of so many requests costs after the first ones, on a register in memory."""

    def cost(requests, replies):
        spent, output = cost_of([built("intake"), "run"], requests)
        if output.count(b"HTTP/1.1 %d " % status) != replies:
            raise SystemExit(f"intake: {output[:200]!r}")
        return spent

    before = first.count(b"POST /")
    return least(lambda: cost(first + given, before + count) - cost(first, before)) / count


def on_file(kept, given, count, status=201):
    """What each of so many requests costs a server of a copy of the register in a folder."""

    def cost():
        with folder() as place:
            copy = shutil.copytree(kept, os.path.join(place, "copy"))
            with (CountedServer if counts_instructions() else Server)(copy, 1) as server:
                peer = connect(server.port)
                # Its reply says that the server has the connection, and waits for the next request.
                exchange(peer, ASKS % b"NONE", 1, 200)
                with server.counting():
                    exchange(peer, given, count, status)
                peer.close()
            return server.cost

    return least(cost) / count


def on_connections(given):
    """What each of these requests costs a server with a register in a file, each on a connection of its own. All are
    repeats of the first, whose answer is remembered."""

    def cost():
        with folder() as place:
            with (CountedServer if counts_instructions() else Server)(place, 3 + len(given)) as server:

                def ask(request):
                    # It meets a connection with its request there. How often it would ask in vain for one that is
                    # still to come, is chance.
                    with server.stopped():
                        peer = connect(server.port)
                        rest = begin(peer, request)
                    exchange(peer, rest, 1)
                    peer.close()

                # The second reply says that the first connection is over.
                ask(given[0])
                ask(given[0])
                with server.counting():
                    for request in given:
                        ask(request)
                # The server ends by itself, and not while it is counted.
                ask(given[0])
            return server.cost

    return least(cost) / len(given)


def on_one_connection(given):
    """What each of these requests costs a server with a register in a file, one after another on a connection that
    stays open. All are repeats of the first, whose answer is remembered."""

    def cost():
        with folder() as place:
            with (CountedServer if counts_instructions() else Server)(place, 1) as server:
                peer = connect(server.port)
                exchange(peer, given[0], 1)
                with server.counting():
                    for request in given:
                        exchange(peer, request, 1)
                peer.close()
            return server.cost

    return least(cost) / len(given)


def fill(place, filings, replaced=0, body=example()):
    """Makes a register in a folder with so many filings, of which so many are replaced."""
    with Server(place, 1) as server:
        peer = connect(server.port)
        exchange(peer, pipelined(range(filings), body), filings)
        exchange(peer, amendments(range(1, replaced + 1), body), replaced)
        peer.close()
    return place


def reports():
    """What reports cost, new and repeated, on a register in memory."""
    small, large = example(), report(100_000)
    yield "393 bytes, new, in memory", in_memory(pipelined(range(100), small), pipelined(range(100, 300), small), 200)
    yield "393 bytes, repeated, in memory", in_memory(pipelined(100 * [1], small), pipelined(200 * [1], small), 200)
    yield "100 kB, new, in memory", in_memory(pipelined([0], large), pipelined(range(1, 6), large), 5)
    yield "100 kB, repeated, in memory", in_memory(pipelined([0], large), pipelined(20 * [0], large), 20)
    for findings, count in ((150, 10), (1_000, 2)):
        wrong = facts(WRONG, findings)
        new, again = pipelined(range(1, 1 + count), wrong), pipelined(count * [0], wrong)
        yield f"{findings:,} findings, new, in memory", in_memory(pipelined([0], wrong), new, count, 422)
        yield f"{findings:,} findings, repeated, in memory", in_memory(pipelined([0], wrong), again, count, 422)


def filings():
    """What requests cost by the filings that a register in a file has, and what an opening costs for each."""
    small, large = example(), report(100_000)
    with folder() as place:

        def register(name, *what):
            os.mkdir(os.path.join(place, name))
            return fill(os.path.join(place, name), *what)

        ten, thousand, most = register("10", 10), register("1,000", 1_000), register("10,000", 10_000)
        yield "393 bytes, new, on file", on_file(thousand, pipelined(range(1_000, 1_100), small), 100)
        yield "393 bytes, repeated and not remembered, on file", on_file(thousand, pipelined(range(100), small), 100)
        yield "100 kB, repeated, on file", on_file(register("large", 1, 0, large), pipelined(10 * [0], large), 10)
        again = 500 * [pipelined([1], small)]
        yield "393 bytes, repeated, one after another on one connection", on_one_connection(again)
        for what, body in (("393 bytes", small), ("100 kB", large)):
            yield f"{what}, repeated, each on a connection of its own", on_connections(50 * [pipelined([1], body)])
        yield "list of 10 filings", on_file(ten, 10 * (ASKS % b"ACME"), 10, 200)
        yield "list of 1,000 filings", on_file(thousand, ASKS % b"ACME", 1, 200)
        yield "list of 10,000 filings", on_file(most, ASKS % b"ACME", 1, 200)
        yield "one filing of 1,000", on_file(thousand, 4 * (ASKS % b"ACME/500"), 4, 200)
        yield "one filing of 10,000", on_file(most, ASKS % b"ACME/5000", 1, 200)
        yield "amendment after no other", on_file(thousand, amendments(range(1, 11), small), 10)
        for others in (1_000, 10_000):
            replaced = register(f"{others:,} replaced", others + 10, others)
            given = amendments(range(others + 1, others + 11), small)
            yield f"amendment after {others:,} others", on_file(replaced, given, 10)

        def opening(kept):
            return least(lambda: cost_of([built("intake"), "check", "--db", os.path.join(kept, "register.db")])[0])

        yield "opening, each small report", (opening(most) - opening(thousand)) / 9_000


def idle():
    """The memory of a server of a new register that waits for its first request, in bytes."""
    with folder() as place, Server(place, 1) as server:
        memory = server.memory("VmRSS:")
        connect(server.port).close()
    return memory
