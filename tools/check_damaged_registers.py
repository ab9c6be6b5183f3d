#!/usr/bin/env python3
"""Asks a command about registers with odd rows, odd tables and flipped bytes, and compares what it answers.

    tools/check_damaged_registers.py --command 'intake check --db {db}' --as FILE       keeps the answers in FILE
    tools/check_damaged_registers.py --command 'intake check --db {db}' --against FILE  compares them with those in FILE
    tools/check_damaged_registers.py --command A --command B                            compares those of two commands
    tools/check_damaged_registers.py --form 4 --command 'intake migrate --db {db}' ..   the same of an earlier form

An answer is the status, the output and the errors, without the name of the file. The registers are made by Python's
sqlite3, as docs/PROTOCOL.md declares the tables, with the same random numbers each time. So two runs have to be of one
version of Python and of SQLite: FILE has a hash of each register, and a register that is another one is reported. The
last line says which commands were asked, of how many registers, and with how many different answers. Status 1 if an
answer differs, or if fewer than 20 kinds of answers came.
"""
import argparse
import hashlib
import json
import pathlib
import random
import re
import shlex
import sqlite3
import subprocess
import sys
import tempfile

REGISTERS = 2_400
SEED = 4
PATIENCE = 120

TABLES = {
    "intake_meta": "id INTEGER PRIMARY KEY, kind TEXT NOT NULL, form INTEGER NOT NULL",
    "kept": "seq INTEGER PRIMARY KEY, filer TEXT NOT NULL, idem TEXT NOT NULL, body BLOB NOT NULL, number INTEGER, "
            "UNIQUE (filer, idem)",
    "finding": "seq INTEGER NOT NULL, pos INTEGER NOT NULL, code INTEGER NOT NULL, place BLOB NOT NULL, "
               "PRIMARY KEY (seq, pos)",
    "filing": "number INTEGER PRIMARY KEY, seq INTEGER NOT NULL UNIQUE",
    "fact": "number INTEGER NOT NULL, pos INTEGER NOT NULL, id BLOB NOT NULL, concept BLOB NOT NULL, "
            "dimensions BLOB NOT NULL, value BLOB, decimals INTEGER, PRIMARY KEY (number, pos)",
    "migrated": "id INTEGER PRIMARY KEY, last INTEGER NOT NULL",
    "amends": "seq INTEGER PRIMARY KEY, target INTEGER NOT NULL",
    "received": "seq INTEGER PRIMARY KEY, moment INTEGER NOT NULL",
}  # fmt: skip
# The form in which each of the later tables came.
SINCE = {"migrated": 3, "amends": 4, "received": 5}
FORM = 5
COLUMNS = {
    "intake_meta": ["id", "kind", "form"],
    "kept": ["seq", "filer", "idem", "body", "number"],
    "finding": ["seq", "pos", "code", "place"],
    "filing": ["number", "seq"],
    "fact": ["number", "pos", "id", "concept", "dimensions", "value", "decimals"],
    "migrated": ["id", "last"],
    "amends": ["seq", "target"],
    "received": ["seq", "moment"],
}
LAST_MOMENT = 253402300799999
FILERS = ["ACME", "BETA", "007"]
DOCUMENT = {
    "documentType": "https://xbrl.org/2021/xbrl-json",
    "namespaces": {
        "eg": "http://example.com/eg",
        "lei": "http://standards.iso.org/iso/17442",
        "iso4217": "http://www.xbrl.org/2003/iso4217",
    },
    "taxonomy": ["http://example.com/eg.xsd"],
}
# Numbers in the table of findings of docs/PROTOCOL.md.
NOT_JSON, NOT_OBJECT, PERIOD, NOT_REPLACEABLE = 1, 2, 19, 26


def compact(value):
    return json.dumps(value, separators=(",", ":"), sort_keys=True).encode()


def dimensions(filer, period):
    return {"concept": "eg:Assets", "entity": f"lei:{filer}", "period": period, "unit": "iso4217:EUR"}


def report(filer, facts, period="2024-12-31T00:00:00"):
    """A report of so many facts, which is valid if the period is one, and the rows of these facts without the number
    of the filing."""
    told = {f"f{at}": {"value": str(at), "decimals": at, "dimensions": dimensions(filer, period)}
            for at in range(1, facts + 1)}  # fmt: skip
    rows = [(at, f"f{at}".encode(), b"eg:Assets", compact(dimensions(filer, period)), str(at).encode(), at)
            for at in range(1, facts + 1)]  # fmt: skip
    return compact({"documentInfo": DOCUMENT, "facts": told}), rows


def tables_of(form):
    """The tables of a register in this form."""
    return [table for table in TABLES if SINCE.get(table, 0) <= form]


def rows_of_requests(chance, requests, form):
    """The rows of a sound register of so many requests, in this form."""
    rows = {table: [] for table in TABLES}
    rows["intake_meta"] = [(1, "register", form)]
    rows["migrated"] = [(1, chance.randint(0, requests))]
    rows["received"] = [(seq, chance.choice([0, 1_700_000_000_000 + seq, LAST_MOMENT]))
                        for seq in range(chance.randint(1, requests + 1), requests + 1)]  # fmt: skip
    owners, replaced = [], set()
    for seq in range(1, requests + 1):
        filer = chance.choice(FILERS)
        target = chance.randint(1, len(owners) + 2) if chance.random() < 0.3 and "amends" in tables_of(form) else None
        free = target is None or (target <= len(owners) and owners[target - 1] == filer and target not in replaced)
        facts, period = chance.randint(0, 3), "2024-12-31T00:00:00"
        found = [] if free else [(NOT_REPLACEABLE, b"")]
        kind = chance.choice(["valid", "valid", "valid", "period", "json", "object"])
        if kind == "period":
            facts, period = chance.randint(1, 3), "2024-13-31T00:00:00"
            found += [(PERIOD, b"/facts/f%d/dimensions/period" % at) for at in range(1, facts + 1)]
        body, fact_rows = report(filer, facts, period)
        if kind == "json":
            body, found = b"{" * chance.randint(0, 2), [(NOT_JSON, b"")]
        if kind == "object":
            body, found = b"[]", [(NOT_OBJECT, b"")]
        number = None
        if not found:
            owners.append(filer)
            number = len(owners)
            rows["filing"].append((number, seq))
            rows["fact"] += [(number, *row) for row in fact_rows]
            if target is not None:
                replaced.add(target)
        rows["kept"].append((seq, filer, f"k-{seq}", body, number))
        rows["finding"] += [(seq, at, *one) for at, one in enumerate(found, 1)]
        if target is not None:
            rows["amends"].append((seq, target))
    return rows


def create(table, text, strict=True):
    return f"CREATE TABLE {table} ({text}){' STRICT' if strict else ''}"


def odd_table(chance, table):
    """Another way to declare the table."""
    names = COLUMNS[table]
    return chance.choice([
        create(table, TABLES[table], strict=False),
        create(table, ", ".join(names), strict=False),
        create(table, ", ".join(reversed(names)), strict=False),
        create(table, ", ".join([*names, "more"]), strict=False),
        create(table, ", ".join(f"{name} TEXT COLLATE NOCASE" for name in names), strict=False),
        create(table, TABLES[table].replace("PRIMARY KEY", "").replace("UNIQUE (filer, idem)", "CHECK (1)")
               .replace(" (seq, pos)", "CHECK (1)").replace(" (number, pos)", "CHECK (1)"), strict=False),
        create(table, ", ".join(["other", *names[1:]]), strict=False),
        f"CREATE VIEW {table} AS SELECT " + ", ".join(f"{at} AS {name}" for at, name in enumerate(names, 1)),
        None,
    ])  # fmt: skip


def odd_value(chance, value):
    """Something else than the value, near it or not."""
    choices = [None, 0, 1, 2, 3, -1, 2**63 - 1, "", "ACME", "k-1", b"", b"x", "\u00e9 ", 1.5]
    if isinstance(value, int):
        choices += [value + 1, value - 1, value + 1, value - 1, float(value), str(value), -value]
    if isinstance(value, str):
        choices += [value.lower(), value + " ", value.encode(), value[:-1]]
    if isinstance(value, bytes):
        choices += [value + b" ", value[:-1], value.replace(b"1", b"2"), value.decode(errors="replace"), value.lower()]
    return chance.choice(choices)


def disturb(chance, database, form):
    """Changes, takes out, moves or adds a row."""
    table = chance.choice(tables_of(form))
    found = database.execute(f"SELECT rowid, * FROM {table} ORDER BY rowid").fetchall()
    names = COLUMNS[table]
    act = chance.choice(["change", "change", "change", "delete", "add", "exchange"])
    if act == "add" or not found:
        near = chance.choice(found)[1:] if found else [chance.randint(0, 3) for _ in names]
        row = [odd_value(chance, value) if chance.random() < 0.5 else value for value in near]
        database.execute(f"INSERT INTO {table} VALUES ({','.join('?' * len(row))})", row)
    elif act == "delete":
        database.execute(f"DELETE FROM {table} WHERE rowid = ?", (chance.choice(found)[0],))
    elif act == "exchange":
        at = chance.randrange(len(names))
        one, two = chance.choice(found), chance.choice(found)
        for row, value in [(one, odd_value(chance, 0)), (two, one[at + 1]), (one, two[at + 1])]:
            database.execute(f"UPDATE {table} SET {names[at]} = ? WHERE rowid = ?", (value, row[0]))
    else:
        row, at = chance.choice(found), chance.randrange(len(names))
        database.execute(f"UPDATE {table} SET {names[at]} = ? WHERE rowid = ?",
                         (odd_value(chance, row[at + 1]), row[0]))  # fmt: skip


def make(number, path, form):
    """Writes the register of this number in this form, and says of which kind it is."""
    chance = random.Random(SEED * 1_000_000 + number)
    kind = chance.choice(["sound", "rows", "rows", "rows", "rows", "tables", "tables", "bytes", "bytes"])
    rows = rows_of_requests(chance, chance.randint(0, 7), form)
    odd = chance.sample(tables_of(form), chance.randint(1, 2)) if kind == "tables" else []
    path.unlink(missing_ok=True)
    database = sqlite3.connect(path, isolation_level=None)
    database.execute("PRAGMA page_size = 512")
    database.execute("BEGIN")
    for table in tables_of(form):
        statement = odd_table(chance, table) if table in odd else create(table, TABLES[table])
        if statement is None:
            continue
        database.execute(statement)
        if not statement.startswith("CREATE VIEW"):
            names = ", ".join(COLUMNS[table] if "(other," not in statement else ["other", *COLUMNS[table][1:]])
            for row in rows[table]:
                marks = ",".join("?" * len(row))
                database.execute(f"INSERT INTO {table} ({names}) VALUES ({marks})", row)
    if kind in ("rows", "tables"):
        for _ in range(chance.randint(0 if odd else 1, 3)):
            try:
                disturb(chance, database, form)
            except (sqlite3.Error, OverflowError):
                pass  # the tables refuse such a row
    database.execute("COMMIT")
    database.close()
    if kind == "bytes":
        content = bytearray(path.read_bytes())
        for _ in range(chance.randint(1, 3)):
            content[chance.randrange(len(content))] ^= 1 << chance.randrange(8)
        if chance.random() < 0.1:
            del content[chance.randrange(len(content)) :]
        path.write_bytes(content)
    return kind


def answer(command, path):
    words = shlex.split(command.replace("{db}", shlex.quote(str(path))))
    done = subprocess.run(words, capture_output=True, check=False, timeout=PATIENCE)
    texts = [text.decode(errors="replace").replace(str(path), "{db}") for text in (done.stdout, done.stderr)]
    return [done.returncode, *texts]


def answers_of(command, count, form):
    """What the command answers of each register, with the kind of the register and its hash."""
    with tempfile.TemporaryDirectory() as folder:
        path = pathlib.Path(folder).resolve() / "register.db"
        for number in range(count):
            kind = make(number, path, form)
            digest = hashlib.sha256(path.read_bytes()).hexdigest()
            yield [kind, digest, *answer(command, path)]
            for left in path.parent.iterdir():
                left.unlink()


def kinds_of(answers):
    """How often each answer came, the numbers in it aside, and of which kinds of registers."""
    found = {}
    for kind, _, status, output, errors in answers:
        said = (status, re.sub(r"\d+", "N", output + errors))
        of = found.setdefault(said, {})
        of[kind] = of.get(kind, 0) + 1
    return found


def differences(one, two):
    for number, (a, b) in enumerate(zip(one, two)):
        if a[1] != b[1]:
            yield f"register {number} ({a[0]}) is another file"
        elif a[2:] != b[2:]:
            yield f"register {number} ({a[0]}): {a[2:]} and {b[2:]}"
    if len(one) != len(two):
        yield f"{len(one)} and {len(two)} registers"


def main():
    words = argparse.ArgumentParser(description=__doc__, formatter_class=argparse.RawDescriptionHelpFormatter)
    words.add_argument("--command", action="append", required=True, help="a command line with {db}, once or twice")
    words.add_argument("--as", dest="keep", type=pathlib.Path, help="keep the answers in this file")
    words.add_argument("--against", type=pathlib.Path, help="compare the answers with those in this file")
    words.add_argument("--form", type=int, choices=range(2, FORM + 1), default=FORM, help="the form of the registers")
    words.add_argument("--registers", type=int, default=REGISTERS, help="how many registers, for a short trial")
    given = words.parse_args()
    if len(given.command) + bool(given.against) > 2 or not all("{db}" in it for it in given.command):
        words.error("one command with --as or --against, or two commands, each with {db}")
    answers = [list(answers_of(command, given.registers, given.form)) for command in given.command]
    asked = " and ".join(repr(command) for command in given.command)
    if given.keep:
        given.keep.write_text(json.dumps({"command": given.command[0], "answers": answers[0]}, indent=0))
    if given.against:
        kept = json.loads(given.against.read_text())
        answers.append(kept["answers"])
        asked += f" against {given.against} of {kept['command']!r}"
    for (status, said), of in sorted(kinds_of(answers[0]).items(), key=lambda it: (it[0][0], it[0][1])):
        print(f"{sum(of.values()):5} with status {status}: {said.strip()!r}, of " +
              ", ".join(f"{count} {kind}" for kind, count in sorted(of.items())))  # fmt: skip
    told = list(differences(*answers)) if len(answers) == 2 else []
    for line in told:
        print(line)
    texts = len({tuple(it[2:]) for it in answers[0]})
    print(f"asked {asked} of {len(answers[0])} registers: {texts} answers, {len(told)} differences")
    sys.exit(1 if told or texts < 20 and given.registers >= REGISTERS else 0)


if __name__ == "__main__":
    main()
