#!/usr/bin/env python3
"""Counts how often the built `intake` does each step of a new report, by callgrind: how often it parses a head, finds a
route, looks a key up in the tables, judges, commits, and calls the system for a sync, on one connection and with 64
clients, and the same of a repeat that is not remembered, since the intake was started again. Status 1 if a step is done
more often than its bound, or not at all.

    bench/steps.py [--intake PROGRAM]
"""
import argparse
import collections
import os
import re
import subprocess
import sys

import loopback
from programs import NO_REP, Server, example, folder

COUNT = 640
# A step, the function that does it, and how often it may be done for a report: a new one on one connection, a new one
# with clients, and a repeat. What may be done 0 times must not be done.
STEPS = [
    ("a head is parsed", r"httparse::start_line::parse_uri", 1, 1, 1),
    ("a route is found", r"gateway_requests::route::route_of", 1, 1, 1),
    ("a key is looked up", r"register_store::store::Store::find", 1, 1, 1),
    ("a report is judged", r"xbrl_report::judging::judge_amendment", 1, 1, 0),
    ("a transaction is committed", r"sqlite::connection::Connection::commit", 1, 0.1, 0),
    ("a file is synced", r"found_files::file::FoundFileDisk::sync", 1.1, 0.1, 0),
]
NAMED = re.compile(r"c?fn=\((\d+)\)(?: (.*))?")
CALLS = re.compile(r"calls=(\d+) ")


def calls_in(lines):
    """How often each function was called, by its name, in what callgrind wrote."""
    names, counts, callee = {}, collections.Counter(), None
    for line in lines:
        named = NAMED.match(line)
        if named:
            number, name = named.groups()
            if name:
                names[number] = name
            if line.startswith("cfn="):
                callee = number
        elif called := CALLS.match(line):
            counts[callee] += int(called[1])
    found = collections.Counter()
    for number, count in counts.items():
        found[names[number]] += count
    return found


def counted(program, send, filed_before=()):
    """How often each function was called while reports were sent; those of these keys were filed before by an intake
    that was stopped."""
    with folder() as place:
        if filed_before:
            with Server(place, 1, program=program) as server:
                loopback.send_all(server.port, filed_before, example(), True)
        out = os.path.join(place, "calls")
        under = ["valgrind", "--tool=callgrind", f"--callgrind-out-file={out}", "--instr-atstart=no"]
        with Server(place, COUNT + 2, under, NO_REP, program) as server:
            control = ["callgrind_control", str(server.process.pid)]
            loopback.send_all(server.port, ["warm"], example(), True)
            subprocess.run([*control, "--instr=on"], check=True, capture_output=True)
            send(server.port)
            subprocess.run([*control, "--instr=off"], check=True, capture_output=True)
            server.process.terminate()
        with open(out, encoding="utf-8", errors="replace") as it:
            return calls_in(it)


def main():
    """Counts both ways, and prints a line for each step."""
    arguments = argparse.ArgumentParser(description=__doc__, formatter_class=argparse.RawDescriptionHelpFormatter)
    arguments.add_argument("--intake", help="the program, if not the one that `rt run` builds")
    program, failed = arguments.parse_args().intake, 0
    keys = [f"k-{at:06d}" for at in range(COUNT)]
    ways = [
        ("one connection", counted(program, lambda port: loopback.send_all(port, keys, example(), True))),
        ("64 clients", counted(program, lambda port: loopback.send_at_once(port, keys, example()))),
        ("a repeat", counted(program, lambda port: loopback.send_all(port, keys, example(), True), keys)),
    ]
    for what, function, *bounds in STEPS:
        for (how, counts), most in zip(ways, bounds):
            times = sum(count for name, count in counts.items() if re.search(function + r"($|::<|')", name))
            holds = 0 < times <= most * COUNT if most else times == 0
            failed += not holds
            print(f"{'ok' if holds else 'failed'}: {what}, {how}: {times / COUNT:.3f} times a report, at most {most}")
    sys.exit(1 if failed else 0)


if __name__ == "__main__":
    main()
