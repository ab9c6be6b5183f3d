#!/usr/bin/env python3
"""Holds `intake digest` and tools/register_digest.py together, on a register with odd texts, with reports that replace
filings, with refused ones, and with requests whose moments are not known; and whether that sees each fault that is
planted.

    tools/check_digest.py [INTAKE]

It takes the program that `rt run` builds in its folder, as crates/intake/out/intake, or INTAKE. Status 1 if a trial
fails.
"""
import contextlib
import hashlib
import pathlib
import sqlite3
import sys

import register_digest
import trials
from odd_register import MOMENTS, SENT, date_register, make_odd_register
from trials import ROOT, hold, make_earlier, make_register, run, said, tell, try_all

# Keys at the ends of what a key may be, each with a body that is refused.
ODD_KEYS = ["-", "~", "!\"#$%&'()*+,./:;<=>?@[]^_`{|}", "k" * 1024]
MANY = 9_223_372_036_854_775_807


def computed(database, *until):
    done = run(sys.executable, ROOT / "tools/register_digest.py", database, *until)
    return done.returncode, done.stdout.decode(), done.stderr.decode()


def printed(database, *until):
    done = run(trials.INTAKE, "digest", "--db", database, *(["--until", *until] if until else []))
    return done.returncode, done.stdout.decode(), done.stderr.decode()


def make(folder):
    database = folder / "register.db"
    make_odd_register(database, [(f"F.{at}", key.replace("\\", "\\\\").replace('"', '\\"'), None, {"f": {}})
                                 for at, key in enumerate(ODD_KEYS)])  # fmt: skip
    return database, len(SENT) + len(ODD_KEYS)


def check_same(folder):
    database, count = make(folder)
    hold("all", printed(database), computed(database))
    lines = [printed(database, until) for until in range(count + 1)]
    hold("each number of them", lines, [computed(database, until) for until in range(count + 1)])
    hold("all are as many as were sent", printed(database), lines[-1])
    hold("each line is another", len(set(lines)), count + 1)
    hold("none", lines[0], (0, f"0 {hashlib.sha256(b'').hexdigest()}\n", ""))


def check_moments(folder):
    database = folder / "register.db"
    make_odd_register(database)
    now = printed(database)
    hold("moments of the clock", now, computed(database))
    date_register(database, MOMENTS)
    lines = [printed(database, until) for until in range(len(SENT) + 1)]
    hold("other ones", lines, [computed(database, until) for until in range(len(SENT) + 1)])
    hold("give another line", lines[-1] == now, False)
    make_earlier(folder / "earlier.db")
    hold("an earlier register is migrated", run(trials.INTAKE, "migrate", "--db", folder / "earlier.db").returncode, 0)
    hold("its moments are not known", printed(folder / "earlier.db"), computed(folder / "earlier.db"))


def check_beyond(folder):
    database, count = make(folder)
    for until in (count + 1, MANY):
        hold(f"{until} of {count}", said(run(trials.INTAKE, "digest", "--db", database, "--until", until), folder),
             (4, "", f"intake: register.db: fewer requests are kept than asked for: {count}\n"))
        hold(f"{until} of {count}, by Python", computed(database, until), (4, "", ""))
    done = run(trials.INTAKE, "digest", "--db", database, "--until", MANY + 1)
    hold("a number that is too large", (done.returncode, done.stdout), (2, b""))


def check_against(folder):
    database, count = make(folder)
    held = run(trials.INTAKE, "check", "--db", database)
    hold("a check", (held.returncode, held.stderr), (0, b""))
    lines = [computed(database, until)[1].split() for until in range(count + 1)]
    for until, (number, digest) in enumerate(lines):
        for text in (digest, digest.upper()):
            done = run(trials.INTAKE, "check", "--db", database, "--against", f"{number}:{text}")
            hold(f"against {until}", (done.returncode, done.stdout, done.stderr), (0, held.stdout, b""))
        _, other = lines[until - 1]
        done = run(trials.INTAKE, "check", "--db", database, "--against", f"{until}:{other}")
        hold(f"another one than {until}", said(done, folder),
             (1, "", f"intake: register.db: another register, or a changed one, up to request {until}\n"))
    date_register(database, [1, *[None] * (count - 1)][::-1])
    done = run(trials.INTAKE, "check", "--db", database, "--against", f"{count}:{lines[count][1]}")
    hold("one with other moments", said(done, folder),
         (1, "", f"intake: register.db: another register, or a changed one, up to request {count}\n"))


def check_others(folder):
    make_register(folder / "empty.db")
    hold("an empty register", printed(folder / "empty.db"), computed(folder / "empty.db"))
    done = run(trials.INTAKE, "digest", "--db", folder / "none.db")
    hold("no file", (done.returncode, done.stdout), (1, b""))


# What a program may do wrong, as other rows, and how it is seen: by another line.
FAULTS = {
    "a row without its target": register_digest.KEPT.replace("target", "NULL"),
    "a row without its number": register_digest.KEPT.replace("number", "NULL"),
    "a row without its moment": register_digest.KEPT.replace("moment", "NULL"),
    "bodies that are left out": register_digest.KEPT.replace("body", "x''"),
    "registered ones alone": register_digest.KEPT.replace("ORDER BY", "WHERE number IS NOT NULL ORDER BY"),
    "another order": register_digest.KEPT + " DESC",
}


def check_planted(folder):
    database, _ = make(folder)
    line = printed(database)[1]
    with contextlib.closing(sqlite3.connect(database)) as copy:
        for fault, rows in FAULTS.items():
            wrong = "{} {}\n".format(*register_digest.digest_of(copy.execute(rows)))
            tell(f"{fault}: is seen", "the line is the same" if wrong == line else None)


if __name__ == "__main__":
    if len(sys.argv) > 1:
        trials.INTAKE = pathlib.Path(sys.argv[1])
    try_all([trials.INTAKE], [check_same, check_moments, check_against, check_beyond, check_others, check_planted])
