#!/usr/bin/env python3
"""Upgrades registers of each earlier form, and stops `intake migrate` at each of its calls to the disk.

    tools/check_upgrades.py [--every N] [--before INTAKE]

A register of form 2, 3 or 4 is upgraded once without a stop, and once for each call by which that run changes its
files: strace kills the run on its way into that call. What lies there then is made in three forms, as
tools/check_stops.py has them. Each has to be the register of before or the upgraded one, and no other; the upgraded
one, if the run had said so. It is upgraded again, and serves: a repeat gets its first reply, a new request is kept, and
`list --moments`, `check` and `digest` say of both what docs/PROTOCOL.md has.

The registers of forms 2 and 3 are made by Python's sqlite3, and so is that of form 4, unless INTAKE is a build of the
version that made them: then that program takes the reports, and the rows are its own. It takes the program that
`rt run` builds, sqlite3 of Python, and strace. With --every N it stops at each Nth call. Status 1 if something else is
found.
"""
import argparse
import contextlib
import json
import pathlib
import random
import shutil
import sqlite3
import sys
import tempfile

import register_digest
import trials
from check_damaged_registers import COLUMNS, TABLES, create, rows_of_requests, tables_of
from check_stops import Traced
from odd_register import clock, make_odd_register
from trials import INTAKE, NOT_A_REGISTER, SMALLEST, Serving, exchange, hold, request, run, said, statuses, tell

FORMS = [2, 3, 4]
REQUESTS = 12
SEED = 5


# ---- registers of before


def make_by_sqlite(database, form):
    """A register of this form with twelve requests; gives its rows."""
    rows = rows_of_requests(random.Random(SEED + form), REQUESTS, form)
    with contextlib.closing(sqlite3.connect(database)) as conn:
        conn.execute("PRAGMA journal_mode = WAL")
        for table in tables_of(form):
            conn.execute(create(table, TABLES[table]))
            marks = ", ".join("?" * len(COLUMNS[table]))
            conn.executemany(f"INSERT INTO {table} VALUES ({marks})", rows[table])
        conn.commit()


def rows_of(database, form):
    """The rows of the tables of this form, as SQLite reads them of a copy of the files."""
    with tempfile.TemporaryDirectory() as folder:
        for path in database.parent.glob(f"{database.name}*"):
            shutil.copy(path, folder)
        with contextlib.closing(sqlite3.connect(pathlib.Path(folder, database.name))) as conn:
            tables = {name for name, in conn.execute("SELECT name FROM sqlite_master WHERE type = 'table'")}
            found = {table: conn.execute(f"SELECT * FROM {table} ORDER BY 1, 2").fetchall()
                     for table in tables_of(form) if table in tables}  # fmt: skip
            return found, sorted(tables)


class Earlier:
    """A register of an earlier form, and what it has to be after an upgrade."""

    def __init__(self, database, form):
        self.database, self.form = database, form
        self.rows, self.tables = rows_of(database, form)
        self.count = len(self.rows["kept"])
        _, self.filer, self.key, self.body, _ = self.rows["kept"][0]
        targets = dict(self.rows.get("amends", []))
        self.target = targets.get(1)
        kept = [(seq, filer, key, targets.get(seq), number, None, body)
                for seq, filer, key, body, number in self.rows["kept"]]  # fmt: skip
        self.digest = "{} {}\n".format(*register_digest.digest_of(kept))

    def fault_of_rows(self, database):
        """What differs from the rows of before, in all tables but those that an upgrade writes."""
        found, _ = rows_of(database, self.form)
        for table, rows in self.rows.items():
            if table not in ("intake_meta", "migrated") and found.get(table) != rows:
                return f"{table} has {found.get(table)} in place of {rows}"
        return None

    def is_as_before(self, database):
        return rows_of(database, self.form) == (self.rows, self.tables)

    def fault_of_upgraded(self, database):
        """What is wrong with an upgraded register, before and after it served."""
        folder = database.parent
        if fault := self.fault_of_rows(database):
            return fault
        found, tables = rows_of(database, 5)
        if (found["received"], found["intake_meta"]) != ([], [(1, "register", 5)]):
            return f"{found['received']} and {found['intake_meta']}"
        if tables != sorted(TABLES):
            return f"the tables are {tables}"
        checked = said(run(INTAKE, "check", "--db", database), folder)
        if checked != (0, f"sound: {self.count} kept, {len(self.rows['filing'])} filings\n", ""):
            return f"check: {checked}"
        if (digest := said(run(INTAKE, "digest", "--db", database), folder)) != (0, self.digest, ""):
            return f"digest: {digest} in place of {self.digest}"
        return self.fault_of_serving(database)

    def fault_of_serving(self, database):
        begun, serving = clock(), Serving(database, 1)
        key = self.key.replace("\\", "\\\\").replace('"', '\\"')
        repeat = request(key, self.body, self.filer, close=False, replaces=self.target)
        replies = statuses(exchange(serving.port, repeat * 2 + request("new", SMALLEST, "NEW")))
        ended = serving.end()
        wanted = 422 if self.rows["kept"][0][4] is None else 201
        if (ended[0], replies) != (0, [wanted, wanted, 201]):
            return f"served: {ended}, {replies} in place of {[wanted, wanted, 201]}"
        found = run(INTAKE, "list", "--db", database, "--filer", "NEW", "--moments").stdout.decode()
        listed = json.loads(found)
        if listed["number"] != len(self.rows["filing"]) + 1 or not begun <= listed["received"] <= clock():
            return f"list --moments: {found!r}, from {begun} on"
        last, _ = rows_of(database, 5)
        return None if [row[0] for row in last["received"]] == [self.count + 1] else f"received: {last['received']}"


# ---- stops


def try_form(folder, form, every, before):
    """Upgrades a register of this form without a stop and with each, and gives how many calls were stopped."""
    begun = folder / f"form{form}"
    begun.mkdir()
    if before and form == 4:
        make_odd_register(begun / "register.db", program=before)
    else:
        make_by_sqlite(begun / "register.db", form)
    earlier, calls = Earlier(begun / "register.db", form), 0
    what = f"form {form}"
    hold(f"{what}: is not opened before", said(run(INTAKE, "check", "--db", earlier.database), begun),
         (1, "not a register\n", f"intake: register.db: {NOT_A_REGISTER}\n"))
    counts, _, _ = upgrade(folder, begun, None)
    last = folder / "play/register.db"
    tell(f"{what}: upgraded", earlier.fault_of_upgraded(last))
    for call, count in counts.items():
        for number in range(1, count + 1):
            calls += 1
            if calls % every == 0:
                _, images, done = upgrade(folder, begun, (call, number))
                for form_of, image in images:
                    fault = fault_after(folder / "after", earlier, image, b"migrated" in done.stdout)
                    tell(f"{what}: stopped at {call} {number}, with {form_of}", fault)
    if not calls:
        tell(f"{what}: calls", "none was seen")
    return calls // every


def upgrade(folder, begun, stop):
    """Upgrades a copy, stopped or not, and gives the calls that were seen, what lies there, and the run."""
    play = folder / "play"
    shutil.rmtree(play, ignore_errors=True)
    shutil.copytree(begun, play)
    traced = Traced(play, folder / "trace", stop)
    done = run(*traced.under, INTAKE, "migrate", "--db", play / "register.db")
    counts = traced.counts()
    if not stop:
        hold("an upgrade that is not stopped", said(done, play), (0, "migrated\n", ""))
    elif done.returncode == 0:
        tell(f"stopped at {stop}", "the run came to its end")
    return counts, traced.files.images() if stop else [], done


def fault_after(folder, earlier, image, was_said):
    """What is wrong with what lies there after a stop, and with what an upgrade makes of it."""
    shutil.rmtree(folder, ignore_errors=True)
    folder.mkdir()
    for name, text in image.items():
        (folder / name).write_bytes(text)
    database = folder / "register.db"
    checked = said(run(INTAKE, "check", "--db", database), folder)
    is_before = earlier.is_as_before(database)
    if is_before and was_said:
        return "it said `migrated`, and is as before"
    if is_before != (checked[:2] == (1, "not a register\n")):
        return f"{checked}, and its rows are {'those' if is_before else 'not those'} of before"
    again = said(run(INTAKE, "migrate", "--db", database), folder)
    if again != (0, "migrated\n" if is_before else "has this version already\n", ""):
        return f"upgraded again: {again}"
    return earlier.fault_of_upgraded(database)


def main():
    parser = argparse.ArgumentParser(description=__doc__.partition("\n")[0])
    parser.add_argument("--every", type=int, default=1, metavar="N", help="stop at each Nth call")
    parser.add_argument("--before", type=pathlib.Path, metavar="INTAKE", help="a build of the last version")
    given = parser.parse_args()
    if shutil.which("strace") is None:
        print("nothing was tried: strace is not installed")
        sys.exit(77)
    calls = 0
    for form in FORMS:
        with tempfile.TemporaryDirectory() as folder:
            calls += try_form(pathlib.Path(folder).resolve(), form, given.every, given.before)
    made = "the last version's program made form 4" if given.before else "sqlite3 made all three forms"
    print(f"{len(trials.failures)} failed after {calls} calls; {made}; what was not synced was lost by this script")
    sys.exit(1 if trials.failures else 0)


if __name__ == "__main__":
    main()
