"""A register with odd texts, which the checks of exports, of pages and of digests share."""
import contextlib
import datetime
import json
import sqlite3

from trials import INTAKE, Serving, exchange, request

ODD = [
    '<script>alert("1")</script>',
    "it's & <b>\"x\"</b>",
    'a,b\r\nc\n"d"',
    "\u202eright to left\u202c \u0645",
    "",
    "&lt;&#39;&amp;lt;",
    "x" * 5000,
    "a tab\tand a bell\u0007",
    "</textarea></style></script>-->]]>",
]
DOCUMENT = {
    "documentType": "https://xbrl.org/2021/xbrl-json",
    "namespaces": {
        "eg": "http://example.com/eg",
        "lei": "http://standards.iso.org/iso/17442",
        "iso4217": "http://www.xbrl.org/2003/iso4217",
    },
    "taxonomy": ["http://example.com/eg.xsd"],
}


def fact(filer, value, unit=None, decimals=None, **more):
    dimensions = {"concept": "eg:A<b>&'", "entity": f"lei:{filer}", "period": "2024-12-31T00:00:00", **more}
    if unit is not None:
        dimensions["unit"] = unit
    found = {"value": value, "dimensions": dimensions}
    if decimals is not None:
        found["decimals"] = decimals
    return found


def report(facts):
    return json.dumps({"documentInfo": DOCUMENT, "facts": facts}, ensure_ascii=False).encode()


# Facts that differ in what a column for each core dimension but the note does not show, and amounts that a program
# which takes them for numbers would change.
REGION = "eg:Region"
WHOLE = {
    "all": fact("007", "12345678901234567890.01", "iso4217:EUR", 2),
    "north": fact("007", "100", "iso4217:EUR", 2, **{REGION: "eg:North"}),
    "south": fact("007", "100", "iso4217:EUR", 2, **{REGION: "eg:South"}),
    "typed": fact("007", "200", "iso4217:EUR", 2, **{"eg:Z": None, "eg:Street": 'a "b", \u00e9\r\nc', "eg:Empty": ""}),
    "nil": fact("007", None, "iso4217:EUR", 2, **{REGION: "eg:North"}),
    "one": fact("007", "=1+1", noteId="n-1"),
    "two": fact("007", "=1+1", noteId="n-2"),
    "de": fact("007", "", language="de"),
    "en": fact("007", "", language="en"),
    "again": fact("007", "", language="en"),
}

# Each is a filer, a key, the number of the filing that is to be replaced, if any, and the facts.
# The last two reports are refused.
SENT = [
    ("ACME", "k<1>'&", None, {f"f{at}<{text[:9]}": fact("ACME", text) for at, text in enumerate(ODD)}),
    (
        "BETA",
        "b-1",
        None,
        {
            "f1": fact("BETA", "100", "iso4217:EUR", -2),
            "f2": fact("BETA", None),
            "f3": fact("BETA", "x", language="de", noteId="n<1>"),
        },
    ),
    ("ACME", "k-2", 1, {"f1": fact("ACME", "1.5", "iso4217:EUR", 0)}),
    ("a.b_c-", "c-1", None, {"f1": fact("a.b_c-", "1")}),
    ("007", "NA", None, WHOLE),
    ("BETA", "b-2", None, {"f<i>'": {"value": 7, "dimensions": {"concept": "<b>", "entity": "lei:X"}}}),
    ("BETA", "b-3", 1, {"f1": fact("BETA", "1,5", "iso4217:EUR")}),
]
REFUSED = 2


# When these came, in milliseconds since 1970, at the ends of what a moment may be, of a month and of a year. The first
# two were kept before a register knew it.
MOMENTS = [None, None, 0, 951_782_399_999, 951_782_400_000, 4_107_542_400_000, 253_402_300_799_999]
# How many requests a connection carries.
EACH = 100


def moment_text(moment):
    """A moment as RFC 3339 has it, in UTC and with milliseconds, worked out by Python's calendar."""
    if moment is None:
        return None
    shown = datetime.datetime(1970, 1, 1) + datetime.timedelta(milliseconds=moment)
    return shown.isoformat(timespec="milliseconds") + "Z"


def clock():
    """The moment by the clock, as RFC 3339 has it."""
    shown = datetime.datetime.now(datetime.timezone.utc).replace(tzinfo=None)
    return shown.isoformat(timespec="milliseconds") + "Z"


def date_register(database, moments):
    """Makes the register anew by SQLite, with these moments of its requests: the file has no sums then."""
    made = database.with_suffix(".made")
    database.rename(made)
    with contextlib.closing(sqlite3.connect(made)) as old, contextlib.closing(sqlite3.connect(database)) as new:
        new.execute("PRAGMA journal_mode = WAL")
        for table, text in old.execute("SELECT name, sql FROM sqlite_master WHERE type = 'table' ORDER BY rowid"):
            new.execute(text)
            rows = old.execute(f"SELECT * FROM {table}").fetchall()
            if table == "received":
                rows = [(seq, moment) for seq, moment in enumerate(moments, 1) if moment is not None]
            if rows:
                new.executemany(f"INSERT INTO {table} VALUES ({', '.join('?' * len(rows[0]))})", rows)
        new.commit()


def make_odd_register(database, more=(), program=INTAKE):
    """Makes a register of these reports, and of more after them, by this build of the intake."""
    sent = [*SENT, *more]
    parts = [sent[at : at + EACH] for at in range(0, len(sent), EACH)]
    serving = Serving(database, len(parts), "--new", program=program)
    for part in parts:
        given = b""
        for at, (filer, key, target, facts) in enumerate(part):
            whose = filer if target is None else f"{filer}/{target}"
            given += request(key, report(facts), whose, close=at + 1 == len(part))
        exchange(serving.port, given)
    serving.end()


def many(count):
    """So many reports of ten facts each, of 500 filers."""
    for at in range(count):
        filer = f"F{at % 500}"
        yield filer, f"n-{at}", None, {f"f{of}": fact(filer, str(of * 1000), "iso4217:EUR", 0) for of in range(10)}


CORE = {"concept": "concept", "entity": "entity", "period": "period", "unit": "unit", "language": "language",
        "noteId": "note_id"}  # fmt: skip


def records(sent, filer=None, moments=MOMENTS):
    """What an export has to say of the facts of valid reports, worked out from what was sent and when it came."""
    valid = sent[: len(sent) - REFUSED]
    for number, (own, key, _, facts) in enumerate(valid, 1):
        if filer not in (None, own):
            continue
        replaced_by = next((other for other, row in enumerate(valid, 1) if row[2] == number), None)
        for name in sorted(facts, key=lambda it: it.encode()):
            dimensions = facts[name]["dimensions"]
            yield {
                "number": number,
                "filer": own,
                "key": key,
                "id": name,
                **{column: dimensions.get(of) for of, column in CORE.items()},
                "dimensions": {of: dimensions[of] for of in sorted(dimensions, key=str.encode) if of not in CORE},
                "value": facts[name]["value"],
                "decimals": facts[name].get("decimals"),
                "replaced_by": replaced_by,
                "received": moment_text(moments[number - 1]),
            }
