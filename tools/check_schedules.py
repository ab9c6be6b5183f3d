#!/usr/bin/env python3
"""Plays schedules with the built `drill`: stops and restarts of both ends, what is cut, lost or repeated, and events
that name nothing.

    tools/check_schedules.py

What is to come of each is written out by hand. It takes the program that `rt run` builds, crates/drill/out/drill.
Status 1 if another thing comes of a schedule.
"""
import contextlib
import os
import pty
import subprocess

from trials import DRILL, SMALLEST, hold, run, try_all

REPORT = SMALLEST.decode()
# An outbox whose one entry, the smallest report, is put by the first event and sent by the second.
SENT = f'outbox ACME\nput 1 "k-1" {REPORT}\nsend 1 1\n'
# An outbox without entries, and a stranger's connection with two reports.
STRANGER = (
    "outbox ACME\n"
    'stranger POST /filings/ACME HTTP/1.1\\r\\nHost: a\\r\\nIdempotency-Key: "k-1"\\r\\n'
    f"Content-Length: 84\\r\\n\\r\\n{REPORT}"
    'POST /filings/ACME HTTP/1.1\\r\\nHost: a\\r\\nIdempotency-Key: "k-2"\\r\\nExpect: 100-continue\\r\\n'
    "Content-Length: 84\\r\\n\\r\\n"
    f"{REPORT}\n"
)

# Nothing is registered; the report is, and its outbox does not know; it knows; and the request was completed twice
# besides.
NOTHING_DONE = "entry 1 1 open\ndone 0\n"
UNHEARD = 'filing 1 ACME "k-1"\nentry 1 1 open\ndone 1\n'
HEARD = 'filing 1 ACME "k-1"\nentry 1 1 confirmed 1\ndone 1\n'
HEARD_AND_REPEATED = 'filing 1 ACME "k-1"\nentry 1 1 confirmed 1\ndone 2\n'
# A stranger's first report is registered, or both are.
FIRST = 'filing 1 ACME "k-1"\ndone 1\n'
BOTH = 'filing 1 ACME "k-1"\nfiling 2 ACME "k-2"\ndone 2\n'

INTAKE_STOPS = [
    ("deliver 1 all before 1", NOTHING_DONE),
    ("deliver 1 all before 0", NOTHING_DONE),
    ("deliver 1 100 after 1", NOTHING_DONE),
    ("deliver 1 all after 1", UNHEARD),
    ("deliver 1 all after 0", UNHEARD),
    ("deliver 1 all before 2", UNHEARD),
    ("deliver 1 all after 2", UNHEARD),
    ("deliver 1 all before 1, restart server, deliver 1 all, hand 1 all, hand 2 all", HEARD),
    ("deliver 1 all after 1, restart server, deliver 1 all, hand 1 all, hand 2 all", HEARD_AND_REPEATED),
]
STOPS_WITHIN_A_CONNECTION = [
    ("deliver 1 all before 1", "done 0\n"),
    ("deliver 1 all after 1", FIRST),
    ("deliver 1 all before 2", FIRST),
    ("deliver 1 all after 2", BOTH),
]
OUTBOX_STOPS = [
    ("deliver 1 all, hand 1 all before", UNHEARD),
    ("deliver 1 all, hand 1 20 after", UNHEARD),
    ("deliver 1 all, hand 1 all after", HEARD),
    ("deliver 1 all, hand 1 all before, restart outbox 1, hand 1 all", HEARD),
    ("deliver 1 all, hand 1 all after, restart outbox 1, hand 1 all", HEARD),
]
CUT_LOST_OR_REPEATED = [
    ("", NOTHING_DONE),
    ('put 1 "k-1" x', NOTHING_DONE),
    ("deliver 1 0", NOTHING_DONE),
    ("deliver 1 226", NOTHING_DONE),
    ("deliver 1 227, hand 1 0, hand 1 128", UNHEARD),
    ("deliver 1 all, hand 1 129, hand 1 all", HEARD),
    ("deliver 1 all, send 1 1, deliver 2 all, hand 2 all, hand 1 all", HEARD_AND_REPEATED),
    (
        "restart server, restart outbox 1, deliver 1 all, restart server, hand 1 all, restart outbox 1, deliver 1 all",
        HEARD_AND_REPEATED,
    ),
]
# A report and one that is to replace the filing that it will be, both sent.
AMENDED = f'outbox ACME\nput 1 "k-1" {REPORT}\namend 1 1 "k-2" {REPORT}\nsend 1 1\nsend 1 2\n'
REPLACED = 'filing 1 ACME "k-1"\nfiling 2 ACME "k-2" replaces 1\n'
AMENDMENTS = [
    (
        "deliver 1 all, deliver 2 all, hand 1 all, hand 2 all",
        f"{REPLACED}entry 1 1 confirmed 1\nentry 1 2 confirmed 2\ndone 2\n",
    ),
    (
        "deliver 1 all, deliver 2 all after 1, restart server, deliver 2 all, hand 3 all",
        f"{REPLACED}entry 1 1 open\nentry 1 2 confirmed 2\ndone 3\n",
    ),
    # What comes first finds no filing to replace, and is not judged again.
    (
        "deliver 2 all, deliver 1 all, deliver 2 all, hand 2 all, hand 3 all",
        'filing 1 ACME "k-1"\nentry 1 1 confirmed 1\nentry 1 2 refused\ndone 3\n',
    ),
    # A filing is replaced once.
    (
        f'deliver 1 all, deliver 2 all, amend 1 1 "k-3" {REPORT}, send 1 3, deliver 3 all, hand 3 all',
        f"{REPLACED}entry 1 1 open\nentry 1 2 open\nentry 1 3 refused\ndone 3\n",
    ),
    # The one that replaced it is replaced.
    (
        f'deliver 1 all, deliver 2 all, amend 1 2 "k-3" {REPORT}, send 1 3, deliver 3 all, hand 3 all',
        f'{REPLACED}filing 3 ACME "k-3" replaces 2\nentry 1 1 open\nentry 1 2 open\nentry 1 3 confirmed 3\ndone 3\n',
    ),
]
# The event that names nothing, counted from 1.
NO_SUCH = [
    # There is no such outbox.
    ('put 0 "k-2" x', 3),
    ('put 2 "k-2" x', 3),
    ('put 9223372036854775807 "k-2" x', 3),
    ('amend 2 1 "k-2" x', 3),
    ("send 0 1", 3),
    ("send 2 1", 3),
    ("restart outbox 0", 3),
    ("restart outbox 2", 3),
    # Each form, with the largest numbers and odd reports.
    ('put 0 "a\\"b\\\\c" x y "z"', 3),
    ('put 0 "a b" \\n\rx', 3),
    ('put 0 "k-2" ', 3),
    ('amend 0 9223372036854775807 "a b" x y', 3),
    ("send 9223372036854775807 9223372036854775807", 3),
    ("deliver 9223372036854775807 9223372036854775807 after 4294967295", 3),
    ("hand 9223372036854775807 0 before", 3),
    ("restart outbox 9223372036854775807", 3),
    # There is no such entry.
    ("send 1 0", 3),
    ("send 1 2", 3),
    ('put 1 "k-1" x, send 1 2', 4),
    # There is no such item.
    ("deliver 0 all", 3),
    ("deliver 2 all", 3),
    ("deliver 2 all before 1", 3),
    ("deliver 9223372036854775807 0", 3),
    # There is no such output.
    ("hand 0 all", 3),
    ("hand 1 all", 3),
    ("deliver 1 all, hand 2 all after", 4),
    # The output answers a stranger.
    ("stranger x, deliver 2 all, hand 1 all", 5),
    # The intake is down.
    ("deliver 1 all before 1, deliver 1 all", 4),
    ("deliver 1 all after 1, deliver 1 all", 4),
    ("deliver 1 all after 2, send 1 1, deliver 2 0", 5),
    # The outbox is down.
    ('deliver 1 all, hand 1 all before, put 1 "k-2" x', 5),
    ("deliver 1 all, hand 1 all before, send 1 1", 5),
    ("deliver 1 all, hand 1 all before, hand 1 all", 5),
    ('deliver 1 all, hand 1 all after, put 1 "k-2" x', 5),
    ("deliver 1 all, hand 1 all after, send 1 1", 5),
    ("deliver 1 all, hand 1 0 after, hand 1 0", 5),
]


def play(start, events):
    script = start + "".join(f"{event}\n" for event in events.split(", ") if event)
    done = run(DRILL, given=script.encode())
    return done.returncode, done.stdout.decode(), done.stderr.decode()


def hold_each(start, cases):
    for events, shown in cases:
        hold(events or "no event more", play(start, events), (0, shown, ""))


def check_stops_of_the_intake(_):
    hold_each(SENT, INTAKE_STOPS)


def check_stops_within_a_connection(_):
    hold_each(STRANGER, STOPS_WITHIN_A_CONNECTION)


def check_stops_of_an_outbox(_):
    hold_each(SENT, OUTBOX_STOPS)


def check_cut_lost_or_repeated(_):
    hold_each(SENT, CUT_LOST_OR_REPEATED)


def check_reports_that_replace_filings(_):
    hold_each(AMENDED, AMENDMENTS)


def check_refused_and_unavailable(_):
    hold_each('outbox ACME\nput 1 "k-1" \nsend 1 1\n', [("deliver 1 all, hand 1 all", "entry 1 1 refused\ndone 1\n")])
    hold_each(f"limit 0\n{SENT}", [("deliver 1 all, hand 1 all", NOTHING_DONE)])


def check_events_that_name_nothing(_):
    for events, number in NO_SUCH:
        hold(events, play(SENT, events), (1, "", f"drill: event {number}: no such\n"))


NUMBER = "number from 0 to 9223372036854775807"
KEY = "key in double quotes, a space and a report"
TEXT = "text in which a backslash stands before r, n or a backslash alone"
WORDS = "put, amend, send, stranger, deliver, hand or restart"
# Lines behind `outbox ACME` that say no event, and what is said of them.
UNREADABLE = [
    ("", f'"" is no event: {WORDS}'),
    ("sned 1 1", f'"sned" is no event: {WORDS}'),
    ("outbox a/b", f'"outbox" is no event: {WORDS}'),
    ("limit 5", f'"limit" is no event: {WORDS}'),
    (" send 1 1", f'"" is no event: {WORDS}'),
    ("SEND 1 1", f'"SEND" is no event: {WORDS}'),
    ("# send 1 1", f'"#" is no event: {WORDS}'),
    ("send", f"a word is missing: no {NUMBER}"),
    ("send 1", f"a word is missing: no {NUMBER}"),
    ("send 01 1", f'"01" is no {NUMBER}'),
    ("send 1 x", f'"x" is no {NUMBER}'),
    ("send 1  1", f'"" is no {NUMBER}'),
    ("send 1 +1", f'"+1" is no {NUMBER}'),
    ("send 1 1.0", f'"1.0" is no {NUMBER}'),
    ("send 1 9223372036854775808", f'"9223372036854775808" is no {NUMBER}'),
    ("send 1\t1", f'"1\\u00091" is no {NUMBER}'),
    ("send 1 1\r", f'"1\\u000d" is no {NUMBER}'),
    ("send 1 1 ", '"" is a word too many'),
    ("send 1 1 2 3", '"2" is a word too many'),
    ("put x k {}", f'"x" is no {NUMBER}'),
    ("put 1", f"a word is missing: no {KEY}"),
    ("put  1 k {}", f'"" is no {NUMBER}'),
    ("put -1 k {}", f'"-1" is no {NUMBER}'),
    ("put 1 k-1 {}", f'"k-1 {{}}" is no {KEY}'),
    ('put 1 "k-1"', f'""k-1"" is no {KEY}'),
    ('put 1 "" x', f'""" x" is no {KEY}'),
    ('put 1 "k-1 x', f'""k-1 x" is no {KEY}'),
    ('put 1 "k-1"x', f'""k-1"x" is no {KEY}'),
    ('put 1 "k\\n" x', f'""k\\n" x" is no {KEY}'),
    ("amend 1 1", f"a word is missing: no {KEY}"),
    ('amend 1 "k" x', '""k"" is no number of a filing, from 1 on'),
    ('amend 1 0 "k" {}', '"0" is no number of a filing, from 1 on'),
    ('amend 1 01 "k" {}', '"01" is no number of a filing, from 1 on'),
    ("stranger", f"a word is missing: no {TEXT}"),
    ("stranger a\\q", f'"a\\q" is no {TEXT}'),
    ("stranger \\", f'"\\" is no {TEXT}'),
    ("deliver 1 every", '"every" is no number of bytes, nor `all`'),
    ("deliver 1 -1", '"-1" is no number of bytes, nor `all`'),
    ("deliver 1 all befor 1", '"befor" is no `before`, nor `after`'),
    ("deliver 1 all before", "a word is missing: no number from 0 to 4294967295"),
    ("deliver 1 all before 01", '"01" is no number from 0 to 4294967295'),
    ("deliver 1 all before 4294967296", '"4294967296" is no number from 0 to 4294967295'),
    ("deliver 1 all before 1 2", '"2" is a word too many'),
    ("hand 1 All", '"All" is no number of bytes, nor `all`'),
    ("hand 1 all after 1", '"1" is a word too many'),
    ("restart", "a word is missing: no `server`, nor `outbox`"),
    ("restart intake", '"intake" is no `server`, nor `outbox`'),
    ("restart server 1", '"1" is a word too many'),
    ("restart outbox", f"a word is missing: no {NUMBER}"),
    ("send " + "9" * 60 + " 1", f'"{"9" * 40}".. is no {NUMBER}'),
    ("send \x1b[31m 1", f'"\\u001b[31m" is no {NUMBER}'),
    ("send \u202e\u009b 1", f'"\\u202e\\u009b" is no {NUMBER}'),
]
# Whole scripts that are refused: the line, and what is said of it.
REFUSED = [
    ("", 1, '"" is neither limit N nor outbox FILER'),
    ("limit 05\noutbox ACME\n", 1, '"limit 05" is neither limit N nor outbox FILER'),
    ("limit 5\nsend 1 1\n", 2, '"send 1 1" is no outbox FILER'),
    ("limit 5\n", 2, '"" is no outbox FILER'),
    ("limit 4611686018427387905\noutbox ACME\n", 1, '"limit 4611686018427387905" is neither limit N nor outbox FILER'),
    ("limit 5\nlimit 5\noutbox ACME\n", 2, '"limit 5" is no outbox FILER'),
    ("outbox a/b\n", 1, '"outbox a/b" is neither limit N nor outbox FILER'),
    ("outbox ACME\nsend 1 1\nsend 1\nsend\n", 3, f"a word is missing: no {NUMBER}"),
    ("outbox ACME\nsend 1 1", 2, '"send 1 1" does not end in a line feed'),
]


def on_terminal(script):
    """The status of `drill` with this script, and what a terminal shows that its standard error is."""
    shows, terminal = pty.openpty()
    done = subprocess.run([DRILL], input=script.encode(), stdout=subprocess.PIPE, stderr=terminal, timeout=60)
    os.close(terminal)
    shown = b""
    # A terminal whose last writer is gone answers with an error, and not with an end.
    with contextlib.suppress(OSError), open(shows, "rb", buffering=0) as reader:
        while part := reader.read(4096):
            shown += part
    return done.returncode, done.stdout, shown.decode().replace("\r\n", "\n")


def check_lines_that_say_nothing(_):
    """The refusal of a script names the line, in the words of the protocol. On a terminal it is followed by the word
    and what is wrong with it, on one line of printable text."""
    scripts = [(f"outbox ACME\nrestart server\n{line}\n", 3, why) for line, why in UNREADABLE]
    for script, line, why in scripts + REFUSED:
        named = f"drill: line {line}: unreadable\n"
        done = run(DRILL, given=script.encode())
        hold(f"{script[-40:]!r}", (done.returncode, done.stdout, done.stderr.decode()), (2, b"", named))
        hold(f"{script[-40:]!r} on a terminal", on_terminal(script), (2, b"", f"{named}drill: {why}\n"))


def check_long_script(_):
    """200 reports, each delivered twice and its repeat's reply handed back; after each 20th both ends are started
    again."""
    events = []
    for i in range(1, 201):
        events += [f'put 1 "k-{i}" {REPORT}', f"send 1 {i}",
                   f"deliver {i} all", f"deliver {i} all", f"hand {2 * i} all"]
        if i % 20 == 0:
            events += ["restart server", "restart outbox 1"]
    filings = "".join(f'filing {i} ACME "k-{i}"\n' for i in range(1, 201))
    entries = "".join(f"entry 1 {i} confirmed {i}\n" for i in range(1, 201))
    script = "\n".join(["outbox ACME", *events, ""])
    done = run(DRILL, given=script.encode())
    hold(f"a script of {len(events)} events", (done.returncode, done.stdout.decode()),
         (0, f"{filings}{entries}done 400\n"))


if __name__ == "__main__":
    try_all(
        (DRILL,),
        (check_stops_of_the_intake, check_stops_within_a_connection, check_stops_of_an_outbox,
         check_cut_lost_or_repeated, check_reports_that_replace_filings, check_refused_and_unavailable,
         check_events_that_name_nothing, check_lines_that_say_nothing, check_long_script),
    )
