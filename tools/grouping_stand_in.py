#!/usr/bin/env python3
"""Stands in for `intake`, as the clients of check_stops.py need it, and has a fault if the variable FAULT names one.

    tools/grouping_stand_in.py serve --db FILE --port P --connections C [--new]
    tools/grouping_stand_in.py check --db FILE

It serves many connections at once, as tools/intake_stand_in.py does, and keeps what came on them meanwhile with one
commit, before any of it is answered: by SQLite, in the tables that check_stops.py reads. A report is refused exactly if
it has the year 1999. The faults are those of FAULTS; without one it does all that the checks ask for.
"""
import os
import re
import sqlite3
import sys

from intake_stand_in import FAULT, Register, Serving, problem, words_of

FAULTS = [
    "commits each request by itself",
    "answers before it commits",
    "syncs nothing",
    "keeps reports twice",
    "keeps both of two that come together",
    "numbers what is refused",
    "forgets what is replaced",
    "cuts bodies",
    "answers all but one",
    "gives a reply to another connection",
    "forgets keys at a start",
    "finds what a stop left damaged",
]
TABLES = """
CREATE TABLE kept (seq INTEGER PRIMARY KEY, filer TEXT, idem TEXT, body BLOB, number INTEGER);
CREATE TABLE filing (number INTEGER PRIMARY KEY, seq INTEGER);
CREATE TABLE amends (seq INTEGER PRIMARY KEY, target INTEGER);
"""
FINDING = '{"findings":[{"code":"document-type","place":"/documentInfo/documentType"}],"reason":"refused",'


class Rows(Register):
    """What was filed: by filer and key the number, or None of what was refused."""

    def __init__(self, path, is_new=False):
        self.conn = sqlite3.connect(path, isolation_level=None)
        self.conn.execute("PRAGMA journal_mode = WAL")
        self.conn.execute(f"PRAGMA synchronous = {'OFF' if FAULT == 'syncs nothing' else 'FULL'}")
        if is_new:
            self.conn.executescript(TABLES)
        self.kept = {(filer, key): number for filer, key, number in self.conn.execute(
            "SELECT filer, idem, number FROM kept")}  # fmt: skip
        self.next = 1 + self.conn.execute("SELECT coalesce(max(number), 0) FROM filing").fetchone()[0]
        self.later = {}

    def add(self, filer, key, body, target):
        if not self.conn.in_transaction:
            self.conn.execute("BEGIN")
        number = None if b"1999" in body else self.next
        if number or FAULT == "numbers what is refused":
            self.next += 1
        row = filer, key, body[:-1] if FAULT == "cuts bodies" else body, number
        for _ in range(2 if FAULT == "keeps reports twice" else 1):
            seq = self.conn.execute("INSERT INTO kept (filer, idem, body, number) VALUES (?, ?, ?, ?)", row).lastrowid
        if number:
            self.conn.execute("INSERT INTO filing VALUES (?, ?)", (number, seq))
        if target and FAULT != "forgets what is replaced":
            self.conn.execute("INSERT INTO amends VALUES (?, ?)", (seq, target))
        self.later[filer, key] = number
        if FAULT == "commits each request by itself":
            self.commit()

    def number_of(self, filer, key, body, target):
        """Its number, which it has from now on if it has none yet."""
        if (filer, key) in self.later and FAULT != "keeps both of two that come together":
            return self.later[filer, key]
        if (filer, key) not in self.kept:
            self.add(filer, key, body, target)
            return self.kept.get((filer, key), self.later.get((filer, key)))
        return self.kept[filer, key]

    def commit(self):
        if self.conn.in_transaction:
            self.conn.execute("COMMIT")
        self.kept.update(self.later)
        self.later = {}


class Grouping(Serving):
    kind = Rows

    def serve(self, line):
        if FAULT == "answers all but one" and line.number == 1:
            self.end(line)
        else:
            super().serve(line)

    def answer(self, line, head, body):
        method, target, _ = head.split(" ", 2)
        _, _, filer, *replaced = target.split("/")
        if method == "GET":
            return 200, '{"filings":[]}'
        key = re.search(r'\r\nIdempotency-Key: "([^"]*)"', head)[1]
        number = self.register.number_of(filer, key, body, int(replaced[0]) if replaced else None)
        if number is None:
            status, content = problem(422, "refused")
            return status, content.replace('{"reason":"refused",', FINDING)
        return 201, f'{{"number":{number},"status":"registered"}}'

    def cut_off(self):
        """What came on all connections is committed, before anything is written on one."""
        if FAULT != "answers before it commits" or not any(line.owed for line in self.lines.values()):
            self.register.commit()


def check(path):
    log = f"{path}-wal"
    if FAULT == "finds what a stop left damaged" and os.path.exists(log) and os.path.getsize(log):
        sys.exit("intake: the database is damaged")
    conn = sqlite3.connect(path)
    (kept, filings), = conn.execute("SELECT (SELECT count(*) FROM kept), (SELECT count(*) FROM filing)")
    print(f"sound: {kept} kept, {filings} filings")
    sys.stdout.flush()


def main(words):
    if FAULT and FAULT not in FAULTS:
        sys.exit(f"there is no fault {FAULT!r}")
    given = words_of(words)
    if given.task == "serve":
        serving = Grouping(given)
        serving.run()
        serving.register.conn.execute("PRAGMA wal_checkpoint(TRUNCATE)")
    else:
        check(given.db)
    # A close would remove the log, as no intake does.
    os._exit(0)


if __name__ == "__main__":
    main(sys.argv[1:])
