#!/usr/bin/env python3
"""Measures the program `intake`, and holds what it costs and how that grows to bounds: status 1 if a bound is passed.
Build it first: (cd crates/intake && rt run -- --version).

A request, a list and an opening cost instructions in user mode, by callgrind, if valgrind is installed: these come out
the same at each run but for a few in a thousand, whatever else runs. So does the growth of a judgement and of requests
on a register in memory, also where a small report fits a cache of the processor and a large one does not. Without
valgrind a cost is measured in time and has no bound, and growth is that of time, as it is of a register in a file.

Times are processor time, of the program and of the system for it, less that of a run on nothing, which is the start of
the program. Each figure is the best of three runs. A register in a file lies in /dev/shm where there is one, so that no
disk is waited for.
"""

import os
import socket
import subprocess
import sys
import tempfile
import threading

import columns
from programs import (
    Server,
    amendments,
    built,
    connect,
    counts_instructions,
    example,
    exchange,
    folder,
    instructions,
    pipelined,
    request,
    run,
    time_of_children,
)
from reports import FACT, SMALLEST, WRONG, crowded, facts, report, wide

# What each request may cost, in instructions: a tenth or so more than it does.
COSTS = {
    "393 bytes, new, in memory": 136_000,
    "393 bytes, repeated, in memory": 7_000,
    "100 kB, new, in memory": 31_000_000,
    "100 kB, repeated, in memory": 133_000,
    "150 findings, new, in memory": 5_970_000,
    "150 findings, repeated, in memory": 146_000,
    "1,000 findings, new, in memory": 40_100_000,
    "1,000 findings, repeated, in memory": 4_500_000,
    "393 bytes, new, on file": 392_000,
    "393 bytes, repeated and not remembered, on file": 40_000,
    "100 kB, repeated, on file": 178_000,
    "393 bytes, repeated, one after another on one connection": 12_000,
    "393 bytes, repeated, each on a connection of its own": 15_600,
    "100 kB, repeated, each on a connection of its own": 171_000,
    "list of 10 filings": 66_300,
    "list of 1,000 filings": 3_870_000,
    "list of 10,000 filings": 38_700_000,
    "one filing of 1,000": 39_700,
    "one filing of 10,000": 81_900,
    "amendment after no other": 462_000,
    "amendment after 1,000 others": 456_000,
    "amendment after 10,000 others": 480_000,
    "opening, each small report": 191_000,
}

# The memory of a server that waits for its first request, in kB.
IDLE = 42_000

# How many times as much the larger of two may cost.
GROWTHS = {
    "10 times the facts, to judge a report": 12,
    "10 times the wrong facts, to judge a report": 12,
    "1,000 findings among 175,000 members, for each byte of a plain report": 8,
    "10 times the new keys (100 to 1,000)": 11,
    "10 times the repeats of one key (100 to 1,000)": 11,
    "in a file, 100 times the requests, to add one": 2,
    "in a file, 100 times the requests, to find one": 2,
    "10 times the requests (10,000 to 100,000), to open": 15,
    "of 1,000 filings, to replace one instead of adding one": 2,
    "of 10,000 filings, to replace one instead of adding one": 2,
    "of 100,000 filings, to replace one instead of adding one": 2,
    "10 times the filings, to list them": 12,
}

RUNS = 3
BODY_BYTES = 1_048_576
ADDED = 1_000
REPLACED = 100
LISTS = 10


def serve(given, replies):
    """The processor time to serve these bytes as one connection. So many filings have to be answered."""
    output, spent = run([built("intake")], given)
    if output.count(b"HTTP/1.1 201 ") != replies:
        sys.exit(f"intake: {output[:200]!r}")
    return spent


def seconds(given, replies):
    """The least time of some runs, less that of the least run on nothing."""
    full = min(serve(given, replies) for _ in range(RUNS))
    empty = min(serve(b"", 0) for _ in range(RUNS))
    return max(full - empty, 1e-3)


def seconds_to_judge(body, status=0):
    """The time to judge a report that is judged ten times, less that of as many of the least ones, for each. The status
    says whether something is found in it."""
    with tempfile.TemporaryDirectory() as folder:
        times = []
        for text, wanted in ((body, status), (SMALLEST, 0)):
            name = os.path.join(folder, "report.json")
            with open(name, "wb") as it:
                it.write(text)
            words = [built("intake"), "lint", "--filer", "ACME"] + 10 * [name]
            times.append(min(run(words, b"", wanted)[1] for _ in range(RUNS)))
    return max(times[0] - times[1], 1e-3) / 10


def cost_to_judge(body, status=0):
    """What judging a report costs beyond the least one: in instructions, if they can be counted,
    and otherwise in seconds."""
    if not counts_instructions():
        return seconds_to_judge(body, status)
    with tempfile.TemporaryDirectory() as folder:
        name = os.path.join(folder, "report.json")
        counts = []
        for text, wanted in ((body, status), (SMALLEST, 0)):
            with open(name, "wb") as it:
                it.write(text)
            counts.append(instructions([built("intake"), "lint", "--filer", "ACME", name], b"", wanted)[1])
    return counts[0] - counts[1]


def cost_to_serve(given, replies):
    """What these bytes cost as one connection beyond none: in instructions, if they can be counted,
    and otherwise in seconds."""
    if not counts_instructions():
        return seconds(given, replies)
    output, full = instructions([built("intake"), "run"], given)
    if output.count(b"HTTP/1.1 201 ") != replies:
        sys.exit(f"intake: {output[:200]!r}")
    return full - instructions([built("intake"), "run"], b"")[1]


def seconds_in_pieces(given, most):
    """The same where the program reads so many bytes at a time: its input is a socket that keeps the bounds of what is
    sent. Of the time only what the program takes itself is counted, and not that of the system for its reads."""

    def send(peer):
        for start in range(0, len(given), most):
            peer.send(given[start : start + most])
        peer.close()

    times = []
    for _ in range(RUNS):
        ours, theirs = socket.socketpair(socket.AF_UNIX, socket.SOCK_SEQPACKET)
        before = time_of_children()[0]
        with subprocess.Popen([built("intake")], stdin=theirs, stdout=subprocess.PIPE) as process:
            theirs.close()
            sender = threading.Thread(target=send, args=(ours,))
            sender.start()
            output = process.stdout.read()
            sender.join()
        if not output.startswith(b"HTTP/1.1 201 "):
            sys.exit(f"intake: {output[:200]!r}")
        times.append(time_of_children()[0] - before)
    return min(times)


def within(what, figure, most, digits=0):
    """Whether the figure is within its bound. Both are printed."""
    held = figure <= most
    print(f"{what}: {figure:,.{digits}f}, {'at most' if held else 'WHICH PASSES'} {most:,}", flush=True)
    return held


def growth(what, smaller, larger, unit="time"):
    """Whether the larger run costs at most so many times what the smaller does."""
    return within(f"{what}, times the {unit}", larger / smaller, GROWTHS[what], 1)


def costs():
    """Whether each request costs what it may, and a server that waits has no more memory than it may."""
    held = []
    for part in (columns.reports(), columns.filings()):
        for what, cost in part:
            if counts_instructions():
                held.append(within(f"{what}, instructions", cost, COSTS[what]))
            else:
                print(f"{what}: {cost * 1e6:.0f} us", flush=True)
    return [*held, within("a server that waits for its first request, kB", columns.idle() / 1_000, IDLE)]


def unit():
    return "instructions" if counts_instructions() else "time"


def bodies():
    """What a body costs by its length and by the reads that it comes in, and its judgement by facts and findings."""
    held = []
    padded = request("k-1", SMALLEST.ljust(BODY_BYTES), close=False)
    for most in (1, 16, 4096):
        print(f"one body of 1 MiB, {most} bytes a read: {seconds_in_pieces(padded, most):.3f} s")
    for size in (100_000, 1_000_000):
        body = report(size)
        judged, filed = seconds_to_judge(body), seconds(pipelined(range(10), body), 10) / 10
        rates = f"{len(body) / judged / 1e6:.1f} MB/s judged, {len(body) / filed / 1e6:.1f} MB/s filed under new keys"
        print(f"a report of {len(body)} bytes: {rates}")
    for what, form, status in (("facts", FACT, 0), ("wrong facts", WRONG, 1)):
        fewer, more = (cost_to_judge(facts(form, count), status) for count in (700, 7_000))
        held.append(growth(f"10 times the {what}, to judge a report", fewer, more, unit()))
    plain, dense = report(BODY_BYTES), crowded(BODY_BYTES)
    held.append(
        growth(
            "1,000 findings among 175,000 members, for each byte of a plain report",
            cost_to_judge(plain) / len(plain),
            cost_to_judge(dense, 1) / len(dense),
            unit(),
        )
    )
    print(f"one fact with 50,000 wrong dimensions: {seconds_to_judge(wide(), 1):.3f} s to judge")
    return held


def requests():
    """What requests cost, under keys of their own and under one, on a register in memory."""
    held = []
    small = example()
    for what, numbers in (("new keys", lambda count: range(count)), ("repeats of one key", lambda count: [1] * count)):
        times = [seconds(pipelined(numbers(count), small), count) for count in (100, 1_000, 10_000)]
        for count, time in zip((100, 1_000, 10_000), times):
            print(f"{count} {what}: {time:.3f} s, {count / time:.0f} requests/s")
        fewer, more = (cost_to_serve(pipelined(numbers(count), small), count) for count in (100, 1_000))
        held.append(growth(f"10 times the {what} (100 to 1,000)", fewer, more, unit()))
        print(f"10 times as many again: {times[2] / times[1]:.1f} times the time")
    return held


def in_a_file(count):
    """The processor time of one more filing, of one repeat, of one that replaces a filing, and of an opening, where a
    file keeps so many requests, in seconds."""
    small = example()
    with folder() as place:
        with Server(place, 1) as server:
            peer = connect(server.port)
            exchange(peer, pipelined(range(count), small), count)
            # The repeats are all over the register, and so of keys that are not remembered where it is large. So are
            # the filings that are replaced, each once. They are few, since each looks at the targets of those before:
            # the format has no index on these.
            places = [at * 7919 % count for at in range(ADDED)]
            times = {}
            for what, given, requests in (
                ("add", pipelined(range(count, count + ADDED), small), ADDED),
                ("find", pipelined(places, small), ADDED),
                ("replace", amendments([at + 1 for at in places[:REPLACED]], small), REPLACED),
            ):
                before = server.processor_time()
                exchange(peer, given, requests)
                times[what] = (server.processor_time() - before) / requests
            peer.close()
        _, times["open"] = run([built("intake"), "check", "--db", server.database], b"")
    return times


def registers():
    """Whether the requests of a register in a file grow as they may with the requests that it keeps."""
    times = {}
    for count in (1_000, 10_000, 100_000):
        runs = [in_a_file(count) for _ in range(RUNS)]
        times[count] = {what: min(it[what] for it in runs) for what in runs[0]}
        it = times[count]
        of_one = ", ".join(f"{it[what] * 1e6:.0f} us to {what} one" for what in ("add", "find", "replace"))
        print(f"{count} kept requests in a file: {of_one}, {it['open']:.3f} s to open")
    held = [
        growth(f"in a file, 100 times the requests, to {what} one", times[1_000][what], times[100_000][what])
        for what in ("add", "find")
    ]
    held.append(
        growth("10 times the requests (10,000 to 100,000), to open", times[10_000]["open"], times[100_000]["open"])
    )
    for count, it in times.items():
        held.append(growth(f"of {count:,} filings, to replace one instead of adding one", it["add"], it["replace"]))
    return held


def listing(count):
    """The processor time of a list, in seconds, of a filer with so many filings in a file,
    half of which are replaced."""
    small = example()
    with folder() as place:
        with Server(place, 1) as server:
            peer = connect(server.port)
            exchange(peer, pipelined(range(count // 2), small) + amendments(range(1, count // 2 + 1), small), count)
            before = server.processor_time()
            exchange(peer, b"GET /filings/ACME HTTP/1.1\r\nHost: localhost\r\n\r\n" * LISTS, LISTS, 200)
            spent = server.processor_time() - before
            peer.close()
    return spent / LISTS


def lists():
    """Whether the list of a filer grows as it may with its filings."""
    fewer, more = (min(listing(count) for _ in range(RUNS)) for count in (1_000, 10_000))
    print(f"the list of 1,000 and of 10,000 filings, half of them replaced: {fewer * 1e3:.1f} and {more * 1e3:.1f} ms")
    return [growth("10 times the filings, to list them", fewer, more)]


def main():
    if not all(costs() + bodies() + requests() + registers() + lists()):
        sys.exit("a bound is passed")


if __name__ == "__main__":
    main()
