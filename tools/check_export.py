#!/usr/bin/env python3
"""Tries `intake export` of the built program: what it writes is read back by Python's csv and json, by pandas and by
sqlite3.

    tools/check_export.py

It takes the program that `rt run` builds in its folder, as crates/intake/out/intake. Status 1 if a trial fails.
"""
import csv
import io
import itertools
import json
import shutil
import subprocess
import time

from odd_register import MOMENTS, REFUSED, SENT, WHOLE, clock, date_register, make_odd_register, many, moment_text
from odd_register import records
from trials import INTAKE, hold, make_register, run, tell, try_all

NAMES = ["number", "filer", "key", "id", "concept", "entity", "period", "unit", "language", "note_id", "dimensions",
         "value", "decimals", "replaced_by", "received"]  # fmt: skip
# Numbers of filings, of which the register has 1 to 5, and no number.
AFTER = [None, 0, 1, 2, 3, 4, 5, 6, 2**63 - 1]
# Debian's Python, for which its package python3-pandas is made.
PANDAS = ["/usr/bin/python3", "-c"]


def as_text(record):
    """A record as CSV has it, in which no value is an empty text too, and an object is its JSON text."""
    return [field_of(record[name]) for name in NAMES]


def field_of(value):
    if isinstance(value, dict):
        return json.dumps(value, ensure_ascii=False, separators=(",", ":"))
    return "" if value is None else str(value)


def without(names, rows):
    return [tuple(field for name, field in zip(NAMES, row) if name not in names) for row in rows]


def has_twin(fact, facts):
    """Whether another fact has the same dimensions and the same decimals."""
    return any(other is not fact and other["dimensions"] == fact["dimensions"]
               and other.get("decimals") == fact.get("decimals") for other in facts)  # fmt: skip


def tells_facts_apart(rows):
    """Of the filing of WHOLE: rows agree in all but the id and the value only if their facts do, and no ids agree."""
    alike = without({"id", "value"}, rows)
    hold("rows that agree in all but id and value are those of facts that do",
         sorted(row[NAMES.index("id")] for row, but in zip(rows, alike) if alike.count(but) > 1),
         sorted(name for name, fact in WHOLE.items() if has_twin(fact, WHOLE.values())))
    hold("no two rows agree in all but the value", len(set(without({"value"}, rows))), len(WHOLE))


def exported(database, *words):
    done = run(INTAKE, "export", "--db", database, *words)
    hold("export ends well", (done.returncode, done.stderr), (0, b""))
    return done.stdout


def make(database):
    make_odd_register(database)
    date_register(database, MOMENTS)


def check_csv(folder):
    database = folder / "register.db"
    make(database)
    text = exported(database, "--format", "csv")
    rows = list(csv.reader(io.StringIO(text.decode(), newline="")))
    hold("Python's csv reads what was filed", rows, [NAMES] + [as_text(record) for record in records(SENT)])
    only = list(csv.reader(io.StringIO(exported(database, "--format", "csv", "--filer", "BETA").decode(), newline="")))
    hold("and of one filer", only, [NAMES] + [as_text(record) for record in records(SENT, "BETA")])
    hold("and of a filer that has none", exported(database, "--format", "csv", "--filer", "NONE").decode(),
         ",".join(NAMES) + "\r\n")
    hold("an empty text is another field than no value", text.count(b',"{}","",'), 4)
    hold("and no value is empty", text.count(b',"{}",,'), 1)
    tells_facts_apart([row for row in rows if row[1] == "007"])


def check_wanted(folder):
    """Exports of some filings: what they have is worked out from what was filed, and what was sent to replace what."""
    database = folder / "register.db"
    make(database)
    hold("a filing that is replaced, and others", {it["number"] for it in records(SENT) if it["replaced_by"]}, {1})
    for filer, current, after in itertools.product((None, "ACME", "BETA", "NONE"), (False, True), AFTER):
        wanted = [it for it in records(SENT, filer)
                  if it["number"] > (after or 0) and not (current and it["replaced_by"])]  # fmt: skip
        words = [*(["--filer", filer] if filer else []), *(["--current"] if current else []),
                 *(["--after", after] if after is not None else [])]  # fmt: skip
        lines = exported(database, "--format", "jsonl", *words).decode().splitlines()
        hold(f"lines with {words}", [json.loads(line) for line in lines], wanted)
        text = exported(database, "--format", "csv", *words).decode()
        hold(f"CSV with {words}", list(csv.reader(io.StringIO(text, newline=""))),
             [NAMES] + [as_text(it) for it in wanted])


def check_lines(folder):
    database = folder / "register.db"
    make(database)
    lines = exported(database, "--format", "jsonl").decode().split("\n")
    hold("the last line ends", lines.pop(), "")
    hold("Python's json reads what was filed", [json.loads(line) for line in lines], list(records(SENT)))
    hold("the members are in order", all(list(json.loads(line)) == NAMES for line in lines), True)
    objects = [list(json.loads(line)["dimensions"]) for line in lines]
    hold("the names of an object are in byte order", all(names == sorted(names, key=str.encode) for names in objects),
         True)


# What docs/OPERATIONS.md says: each value is a text, and no text is taken for a missing value.
READ_CSV = """
import json, sys, pandas
facts = pandas.read_csv(sys.argv[1], dtype=str, keep_default_na=False, engine="python")
print(json.dumps([list(facts.columns)] + facts.values.tolist()))
"""
READ_LINES = """
import json, sys, pandas
facts = pandas.read_json(sys.argv[1], lines=True, dtype=False, convert_dates=False)
values = [None if value != value else value for value in facts["value"]]  # pandas has NaN for null
print(json.dumps([list(facts.columns), values, facts["dimensions"].tolist()]))
"""


def check_pandas(folder):
    if subprocess.run([*PANDAS, "import pandas"], capture_output=True, check=False).returncode != 0:
        print("left out: there is no python3-pandas")
        return
    database = folder / "register.db"
    make(database)
    (folder / "facts.csv").write_bytes(exported(database, "--format", "csv"))
    (folder / "facts.jsonl").write_bytes(exported(database, "--format", "jsonl"))
    wanted = list(records(SENT))
    done = subprocess.run([*PANDAS, READ_CSV, folder / "facts.csv"], capture_output=True, check=True)
    hold("pandas reads the CSV that was filed", json.loads(done.stdout), [NAMES] + [as_text(it) for it in wanted])
    (folder / "nul.csv").write_bytes(b'"value"\r\n"a\0b"\r\n')
    done = subprocess.run([*PANDAS, READ_CSV, folder / "nul.csv"], capture_output=True, check=True)
    hold("pandas reads a value with U+0000", json.loads(done.stdout), [["value"], ["a\0b"]])
    done = subprocess.run([*PANDAS, READ_LINES, folder / "facts.jsonl"], capture_output=True, check=True)
    hold("pandas reads the lines that were filed", json.loads(done.stdout),
         [NAMES, [it["value"] for it in wanted], [it["dimensions"] for it in wanted]])


def check_sqlite(folder):
    if not shutil.which("sqlite3"):
        print("left out: there is no sqlite3")
        return
    database = folder / "register.db"
    make(database)
    (folder / "facts.csv").write_bytes(exported(database, "--format", "csv"))
    query = "SELECT json_group_array(json_array(" + ", ".join(NAMES) + ")) FROM facts"
    done = subprocess.run(["sqlite3", ":memory:", f".import --csv {folder}/facts.csv facts", query],
                          capture_output=True, check=True)
    hold("sqlite3 imports what was filed", json.loads(done.stdout), [as_text(record) for record in records(SENT)])
    query = """SELECT json_group_array(id) FROM facts WHERE dimensions ->> '$."eg:Region"' = 'eg:North'"""
    done = subprocess.run(["sqlite3", ":memory:", f".import --csv {folder}/facts.csv facts", query],
                          capture_output=True, check=True)
    hold("sqlite3 asks for a dimension", json.loads(done.stdout), ["nil", "north"])


def check_moments(folder):
    """What list and show print with --moments, worked out from what was sent and when it came."""
    database = folder / "register.db"
    make(database)
    valid = list(enumerate(SENT[: len(SENT) - REFUSED], 1))
    for filer in sorted({row[0] for row in SENT}) + ["NONE"]:
        wanted = [moment_line(number) for number, row in valid if row[0] == filer]
        done = run(INTAKE, "list", "--db", database, "--filer", filer, "--moments")
        hold(f"the filings of {filer}", (done.returncode, done.stdout.decode(), done.stderr), (0, "".join(wanted), b""))
    for number, _ in valid:
        facts = run(INTAKE, "show", "--db", database, "--number", number)
        done = run(INTAKE, "show", "--db", database, "--number", number, "--moments")
        hold(f"filing {number}", (done.returncode, done.stdout.decode()),
             (0, moment_line(number) + facts.stdout.decode()))


def moment_line(number):
    received = moment_text(MOMENTS[number - 1])
    return json.dumps({"number": number, "received": received}, separators=(",", ":")) + "\n"


def check_clock(folder):
    database = folder / "register.db"
    begin = clock()
    make_odd_register(database)
    end = clock()
    moments = {json.loads(line)["received"] for line in exported(database, "--format", "jsonl").decode().splitlines()}
    tell(f"from {begin} to {end}", None if all(begin <= moment <= end for moment in moments) else sorted(moments))


def check_others(folder):
    make_register(folder / "empty.db")
    hold("a register without filings", exported(folder / "empty.db", "--format", "jsonl"), b"")
    done = run(INTAKE, "export", "--db", folder / "none.db", "--format", "csv")
    hold("no file", (done.returncode, done.stdout), (1, b""))
    done = run(INTAKE, "export", "--db", folder / "empty.db", "--format", "xml")
    hold("no such form", (done.returncode, done.stdout), (2, b""))
    done = run(INTAKE, "export", "--db", folder / "empty.db", "--format", "csv", "--after", 2**63)
    hold("no such number", (done.returncode, done.stdout), (2, b""))
    with open("/dev/full", "wb") as full:
        done = subprocess.run([INTAKE, "export", "--db", folder / "empty.db", "--format", "csv"],
                              stdout=full, stderr=subprocess.PIPE, check=False)
    hold("an output that fails", done.returncode, 3)


def check_time(folder):
    database = folder / "register.db"
    make_odd_register(database, many(10_000))
    begin = time.monotonic()
    text = exported(database, "--format", "csv")
    took = time.monotonic() - begin
    tell(f"10,000 filings in {took:.1f} s, {len(text) / 1e6:.1f} MB", None if took < 30 else "too slow")


if __name__ == "__main__":
    try_all([INTAKE], [check_csv, check_wanted, check_lines, check_pandas, check_sqlite, check_moments, check_clock,
                       check_others, check_time])
