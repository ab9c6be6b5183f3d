#!/usr/bin/env python3
"""Measures requests over loopback: files the example report under new keys, and again under the same keys, over one
connection that is kept alive, over 64 such connections at once, and over a connection for each request.

    bench/loopback.py                  starts crates/intake/out/intake, its register on the disk and then in memory
                                       (/dev/shm)
    bench/loopback.py --port 8080      sends to another server that listens on 127.0.0.1, and starts none
    bench/loopback.py --many [--beside PROGRAM] [--port 8080] [--slow-sync MS]
                                       new keys alone, by 1, 8, 64 and 256 clients at once, each request on a connection
                                       of its own: a table of the intake, with its register on the disk, and beside it
                                       of PROGRAM, another build of intake, and of the server at the port

Of a server that it starts it also tells the processor time of a request, of which the client has no part. A client
sends a request once it has the reply to the one before. The server is to answer 201 to each, so another one has to take
the same report.

With --many p50 and p99 are of the time from the start of a connection to the end of the reply. The clients are spread
over processes, which need processors beside the server's. strace, which has to be installed, counts the syncs of what
is started: it stops a server at its syncs alone. With --slow-sync the table goes on with syncs that strace makes so
many milliseconds longer, without the server at the port, of which processor time and syncs are not known either.
"""
import argparse
import concurrent.futures
import contextlib
import os
import shutil
import statistics
import sys
import tempfile
import time
import types

from programs import Server, built, connect, example, read_reply, request


# How many connections there are at once.
AT_ONCE = 64
# How many clients there are at once with --many, and over how many processes they are spread.
CLIENTS = [1, 8, 64, 256]
PROCESSES = 4
LINE = "| {:>7} | {:<6} | {:<10} | {:>10} | {:>8} | {:>8} | {:>13} | {:>15} |"
HEAD = ["clients", "sync", "server", "requests/s", "p50, ms", "p99, ms", "processor, ms", "syncs a request"]


def send_all(port, keys, body, keep):
    """Sends a request for each key, and gives the seconds that it took."""
    start, held, peer = time.perf_counter(), b"", connect(port) if keep else None
    for key in keys:
        if not keep:
            peer, held = connect(port), b""
        peer.sendall(request(key, body, close=not keep))
        status, held = read_reply(peer, held)
        if status != 201:
            sys.exit(f"status {status}")
        if not keep:
            peer.close()
    if keep:
        peer.close()
    return time.perf_counter() - start


def send_at_once(port, keys, body):
    """Sends a request for each key, over connections at once, and gives the seconds that it took."""
    start = time.perf_counter()
    with concurrent.futures.ThreadPoolExecutor(AT_ONCE) as pool:
        list(pool.map(lambda at: send_all(port, keys[at::AT_ONCE], body, True), range(AT_ONCE)))
    return time.perf_counter() - start


# What the keys of each way to send begin with, how it is called, and what sends.
WAYS = [
    ("kept", "one connection", lambda port, keys, body: send_all(port, keys, body, True)),
    ("many", f"{AT_ONCE} connections at once", send_at_once),
    ("each", "a connection for each request", lambda port, keys, body: send_all(port, keys, body, False)),
]


def measure(port, count, server):
    """Sends new keys and repeats in each way, and prints what they took."""
    body = example()
    for name, how, send in WAYS:
        keys = [f"{name}-{at:06d}" for at in range(count)]
        for what in ("new keys", "repeats"):
            before = server.processor_time() if server else 0
            wall = send(port, keys, body)
            spent = (server.processor_time() - before if server else 0)
            told = f", {spent / count * 1e6:.0f} us of the server's processor each" if server else ""
            print(f"  {what}, {how}: {count / wall:.0f} requests/s{told}")


class Traced(Server):
    """An intake on a new register, whose syncs strace writes down and delays by so many milliseconds each."""

    def __init__(self, place, connections, program, slower):
        self.trace = os.path.join(place, "syncs")
        delay = ["-e", f"inject=fsync,fdatasync:delay_exit={1000 * slower}"] if slower else []
        # With -D the process that is started is the server, and strace another one.
        under = ["strace", "-D", "-f", "--seccomp-bpf", "-qqq", "-o", self.trace, "-e", "trace=fsync,fdatasync", *delay]
        super().__init__(place, connections, under, program=program)

    def spent(self):
        """The processor time in milliseconds, and the syncs, so far."""
        with open(self.trace, "rb") as it:
            return 1000 * self.processor_time(), it.read().count(b" = ")


def times_of_client(port, keys, body, start):
    """Sends a request for each key, each on a connection of its own, from the moment `start` on. Gives when each began
    and how long it took, in seconds."""
    time.sleep(max(0, start - time.perf_counter()))
    return [(time.perf_counter(), send_all(port, [key], body, False)) for key in keys]


def times_of_process(port, shares, body, start):
    """The times of clients at once, each with its share of the keys."""
    with concurrent.futures.ThreadPoolExecutor(len(shares)) as pool:
        found = pool.map(lambda keys: times_of_client(port, keys, body, start), shares)
        return [it for times in found for it in times]


def times_of_clients(port, keys, clients):
    """The times of so many clients at once, spread over processes."""
    shares, start = [keys[at::clients] for at in range(clients)], time.perf_counter() + 0.5
    with concurrent.futures.ProcessPoolExecutor(PROCESSES) as pool:
        waiting = [
            pool.submit(times_of_process, port, shares[at::PROCESSES], example(), start)
            for at in range(min(PROCESSES, clients))
        ]
        return [it for times in waiting for it in times.result()]


def figures(server, keys, clients):
    """Requests a second, p50 and p99, and of a server that was started processor time and syncs a request."""
    before = server.spent()
    times = times_of_clients(server.port, keys, clients)
    costs = [f"{(new - old) / len(keys):.3f}" for old, new in zip(before, server.spent())] or ["", ""]
    wall = max(begun + took for begun, took in times) - min(begun for begun, _ in times)
    parts = statistics.quantiles([1000 * took for _, took in times], n=100)
    return [f"{len(keys) / wall:.0f}", f"{parts[49]:.1f}", f"{parts[98]:.1f}", *costs]


def measure_many(count, programs, port, slow_sync):
    """Prints the table of --many. `programs` are builds of intake, by the names that the table has for them."""
    # Each client sends a request, and percentiles need two.
    counts = {clients: max(count, clients, 2) for clients in CLIENTS}
    print(LINE.format(*HEAD), "|---" * len(HEAD) + "|", sep="\n")
    for slower in [0, slow_sync] if slow_sync else [0]:
        with contextlib.ExitStack() as ends:
            servers = {}
            for name, program in programs.items():
                place = ends.enter_context(tempfile.TemporaryDirectory())
                servers[name] = ends.enter_context(Traced(place, sum(counts.values()), program, slower))
            if port and not slower:
                servers[f"port {port}"] = types.SimpleNamespace(port=port, spent=lambda: ())
            for clients, many in counts.items():
                keys = [f"{clients}-{at:06d}" for at in range(many)]
                for name, server in servers.items():
                    row = figures(server, keys, clients)
                    print(LINE.format(clients, f"+{slower} ms" if slower else "disk", name, *row), flush=True)


def main():
    words = argparse.ArgumentParser(description=__doc__, formatter_class=argparse.RawDescriptionHelpFormatter)
    words.add_argument("--port", type=int, help="a port of 127.0.0.1 that another server listens on")
    words.add_argument("--count", type=int, default=2000, help="how many keys, 2000 where it is left out")
    words.add_argument("--many", action="store_true", help="many clients at once, each request on its own connection")
    words.add_argument("--beside", metavar="PROGRAM", help="with --many: another build of intake")
    words.add_argument("--slow-sync", metavar="MS", type=int, help="with --many: also with so much more for each sync")
    given = words.parse_args()
    if given.many:
        if shutil.which("strace") is None:
            sys.exit("install strace first")
        beside = {"beside": os.path.abspath(given.beside)} if given.beside else {}
        measure_many(given.count, {"intake": built("intake"), **beside}, given.port, given.slow_sync)
        return
    if given.beside or given.slow_sync:
        words.error("--beside and --slow-sync need --many")
    if given.port:
        measure(given.port, given.count, None)
        return
    for where, within in (("the disk", None), ("memory", "/dev/shm")):
        print(f"a register on {where}" if within is None else f"a register in {where}")
        with tempfile.TemporaryDirectory(dir=within) as folder:
            with Server(folder, 2 + 2 * AT_ONCE + 2 * given.count) as server:
                measure(server.port, given.count, server)


if __name__ == "__main__":
    main()
