#!/usr/bin/env python3
"""Times the program `drill` on long scripts: the processor time of reports that are put, sent, delivered and answered,
and what a restart of the intake and of the outbox adds. The last lines take minutes. Run it at the top of the
repository once `drill` is built:
(cd crates/drill && rt run < stdin) && python3 bench/schedule.py"""

import sys

from programs import built, example, run


def script(reports, restarts):
    """A script of so many reports, each of four events, and so many restarts of both ends behind them."""
    body = example()
    lines = [b"outbox ACME\n"]
    for i in range(1, reports + 1):
        lines.append(b'put 1 "k-%d" %s\nsend 1 %d\ndeliver %d all\nhand %d all\n' % (i, body, i, i, i))
    lines += [b"restart server\nrestart outbox 1\n"] * restarts
    return b"".join(lines)


def seconds(text, reports, runs=3):
    """The processor time of the program on this script, the least of so many runs. It has to confirm all reports."""
    times = []
    for _ in range(runs):
        output, spent = run([built("drill")], text)
        if not output.endswith(b"done %d\n" % reports):
            sys.exit(f"drill: {output[-200:]!r}")
        times.append(spent)
    return min(times)


def main():
    times = {}
    for reports in (250, 2500):
        times[reports] = seconds(script(reports, 0), reports)
        print("%d events: %.3f s, %.0f events/s" % (4 * reports, times[reports], 4 * reports / times[reports]))
    print("10 times the events: %.1f times the time" % (times[2500] / times[250]))
    for reports in (1000, 10000):
        once = seconds(script(reports, 0), reports, 1)
        more = seconds(script(reports, 10), reports, 1)
        print("%d kept requests: a restart of both ends takes %.3f s" % (reports, (more - once) / 10))


main()
