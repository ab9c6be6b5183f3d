#!/usr/bin/env python3
"""Tries the files of deploy/ as far as the programs that they are for are installed, and names each that is not.

    tools/check_deploy.py

Scripts are parsed, held to shellcheck and run with stand-ins for `intake` and `outbox`; units are verified by systemd;
the views are asked over the tables that docs/PROTOCOL.md declares; nginx tests its files, and then serves requests with
and without certificates in front of a stand-in for the intake. Status 1 if a trial fails. What could not be tried is no
failure.
"""
import contextlib
import gzip
import http.client
import json
import os
import pathlib
import re
import shutil
import socket
import sqlite3
import ssl
import struct
import subprocess
import sys
import tempfile
import threading
import time

from trials import PATIENCE, failures, hold, tell

ROOT = pathlib.Path(__file__).resolve().parent.parent
DEPLOY = ROOT / "deploy"
SCRIPTS = ["register-new", "register-snapshot", "register-copies", "register-pages", "intake-health", "outbox-round",
           "nginx-follow", "certificates-last"]  # fmt: skip
SECOND_HOST = "2025.example"


def find(program):
    """Where a program is, also in the folders of the administrator; says so if it is not there."""
    path = shutil.which(program, path=os.environ.get("PATH", "") + ":/usr/sbin:/sbin")
    if path is None:
        print(f"not tried: {program} is not installed")
    return path


def run(*words, **options):
    return subprocess.run(words, capture_output=True, text=True, check=False, timeout=PATIENCE, **options)


def tell_run(what, done):
    tell(what, None if done.returncode == 0 else (done.stderr or done.stdout).strip())


# ---- scripts


def write_program(path, text):
    path.write_text(text)
    path.chmod(0o755)


def try_scripts():
    for script in SCRIPTS:
        tell_run(f"sh -n {script}", run("sh", "-n", DEPLOY / script))
    if shellcheck := find("shellcheck"):
        tell_run("shellcheck", run(shellcheck, *(DEPLOY / script for script in SCRIPTS)))


def try_round(folder):
    """Rounds that settle what is open, that leave entries open, that find no intake, and whose database is none."""
    write_program(
        folder / "outbox",
        """#!/bin/sh
echo "$*" >> asked
[ "$1" = send ] && { printf "$SAID"; exit "$STATUS"; }
printf "$LEFT"
exit "$LEFT_STATUS"
""",
    )
    settled, left = "entry 1 confirmed 8\\nentry 4 refused\\n", "outbox-round: entries that are open still: "
    look = "outbox-round: look at this one: entry 4 refused\n"
    for said, status, stays, left_status, wanted, errors in [
        (settled, 0, settled, 0, 0, look),
        ("nothing open\\n", 0, settled, 0, 0, ""),
        (settled + "entry 5 open\\n", 0, "", 0, 75, f"{look}{left}1\n"),
        (settled, 0, settled + "entry 6 open\\n", 0, 0, look),
        ("entry 1 open\\n", 3, "entry 1 open\\nentry 2 open\\n", 0, 75, f"{left}2\n"),
        ("", 124, "entry 1 open\\n", 0, 75, f"{left}1\n"),
        ("", 3, "", 3, 3, ""),
        ("", 3, settled, 0, 3, ""),
        ("", 1, "", 1, 1, ""),
    ]:
        paths = {**os.environ, "PATH": f"{folder}:{os.environ['PATH']}", "SAID": said,
                 "STATUS": str(status), "LEFT": stays}
        (folder / "asked").unlink(missing_ok=True)
        done = run(DEPLOY / "outbox-round", "outbox.db", "1", cwd=folder,
                   env={**paths, "LEFT_STATUS": str(left_status)})
        found = (done.returncode, done.stdout, done.stderr)
        hold(f"outbox-round, if send says {said!r} and ends with {status}", found,
             (wanted, said.replace("\\n", "\n"), errors))
        asked = (
            "send --db outbox.db --port 1 --all --patience 120 --wait 60\n"
            + ("" if status < 2 else "status --db outbox.db --wait 60\n")
        )
        hold("and what it asks", (folder / "asked").read_text(), asked)
    # How many seconds a round has the outbox open at most, and how long a command of a page waits for it.
    (held,) = map(int, re.findall(r"timeout (\d+) outbox send", (DEPLOY / "outbox-round").read_text()))
    for page in ("FIRST_DAYS.md", "OPERATIONS.md"):
        found = re.findall(r"`(?:outbox [^`]*)?--wait (\d+)|outbox \w+ --wait (\d+)",
                           (ROOT / "docs" / page).read_text())
        waits = [int(first or second) for first, second in found]
        hold(f"docs/{page}: each command that waits for an outbox waits for longer than a round has it open",
             (len(waits) > 0, [it for it in waits if it < held + 10]), (True, []))
    for unit in ("berruzpil-outbox.service", "berruzpil-outbox@.service"):
        (minutes,) = re.findall(r"(?m)^TimeoutStartSec=(\d+)min$", (DEPLOY / unit).read_text())
        hold(f"{unit} lets a round end by itself, and no longer", 1 <= int(minutes) - (held + 60) / 60 <= 2, True)


def try_snapshot(folder):
    """A copy of two files, and one whose log begins again while the first is copied."""
    write_program(folder / "intake", '#!/bin/sh\necho "sound: 0 kept, 0 filings"\n')
    write_program(
        folder / "cp",
        """#!/bin/sh
/bin/cp "$@"
[ -e again ] || { : > again; printf '%041d' 2 > register.db-wal; printf new > register.db; }
""",
    )
    paths = {**os.environ, "PATH": f"{folder}:{os.environ['PATH']}"}
    (folder / "register.db").write_text("old")
    (folder / "register.db-wal").write_text("1" * 41)
    words = [DEPLOY / "register-snapshot", "register.db", "copy.db"]
    done = run(*words, cwd=folder, env=paths)
    copy = folder / "copy.db"
    copied = copy.read_text() if copy.exists() else ""
    hold("register-snapshot copies again if the log began again", (done.returncode, copied), (0, "new"))
    hold("register-snapshot leaves a copy that is there", run(*words, cwd=folder, env=paths).returncode, 1)


def try_new(folder):
    """A register that is made by a program that serves one connection."""
    write_program(
        folder / "intake",
        """#!/usr/bin/env python3
import pathlib, socket, sys
words = sys.argv[1:]
database = words[words.index("--db") + 1]
if words[0] == "check":
    sys.exit(print("sound: 0 kept, 0 filings"))
assert words[-3:] == ["--connections", "1", "--new"], words
pathlib.Path(database).write_text("made")
at = words[words.index("--connections") - 1]
unix = {"family": socket.AF_UNIX} if "--socket" in words else {}
with socket.create_server(at if unix else ("127.0.0.1", int(at)), **unix) as listener:
    peer, _ = listener.accept()
    with peer:
        peer.recv(65536)
        peer.sendall(b"HTTP/1.1 200 OK\\r\\nContent-Length: 14\\r\\nConnection: close\\r\\n\\r\\n" + b'{"filings":[]}')
""",
    )
    paths = {**os.environ, "PATH": f"{folder}:{os.environ['PATH']}"}
    words = [DEPLOY / "register-new", "made.db", str(free_port())]
    done = run(*words, cwd=folder, env=paths)
    hold("register-new", (done.returncode, done.stdout), (0, "sound: 0 kept, 0 filings\n"))
    hold("register-new leaves a register that is there", run(*words, cwd=folder, env=paths).returncode, 1)
    done = run(words[0], "of-socket.db", f"unix:{folder}/socket", cwd=folder, env=paths)
    hold("register-new by a unix socket", (done.returncode, done.stdout), (0, "sound: 0 kept, 0 filings\n"))
    done = run(words[0], "another.db", f"unix:{folder}/socket", cwd=folder, env=paths)
    hold("register-new leaves what is at the path of its socket",
         (done.returncode, done.stderr, (folder / "socket").is_socket()),
         (1, f"register-new: {folder}/socket is there already\n", True))


# Words with an empty name of a file or a folder, which no script takes for the present folder or for `/`.
EMPTY = [
    ("register-new", "", "8080"),
    ("register-snapshot", "", "copy.db"),
    ("register-snapshot", "register.db", ""),
    ("register-snapshot", "--for-reading", "register.db", ""),
    ("register-copies", "", "copies", "30"),
    ("register-copies", "register.db", "", "30"),
    ("register-pages", "", "register", "site"),
    ("register-pages", "copies", "register", ""),
    ("register-restore", "", "new.db"),
    ("register-restore", "copy.db", ""),
    ("register-restore", "--replace", "", "register.db"),
    ("register-restore", "--replace", "copy.db", ""),
    ("outbox-restore", "copy.db", ""),
    ("outbox-again", "", "again.db", "1"),
    ("outbox-again", "outbox.db", "", "1"),
    ("outbox-again", "outbox.db", "again.db", ""),
    ("outbox-round", "", "8081"),
    ("lost-filings", "", "log"),
    ("lost-filings", "copy.db", ""),
    ("register-receipts", "", "log"),
    ("register-receipts", "copy.db", ""),
    ("register-receipts", "--into", "", "copy.db", "log"),
    ("register-metrics", "--into", "", "log"),
    ("register-metrics", "--into", "x.prom", ""),
    ("register-metrics", "--into", "x.prom", "--copies", ""),
    ("register-metrics", "--into", "x.prom", "--certificates", ""),
    ("nginx-filer", "", "acme.pem", "acme", "ACME"),
    ("nginx-filer", "fronts.conf", "", "acme", "ACME"),
    ("nginx-filer", "--remove", "fronts.conf", ""),
    ("nginx-filer", "--sign", "fronts.conf", "", "acme", "ACME"),
    ("register-metrics", "--into", "x.prom", "--issued", ""),
    ("certificates-last", "30", ""),
    ("nginx-follow", "", "x"),
    ("intake-health", ""),
]


def try_empty_names(folder):
    """An empty name is a wrong command line, and nothing is written."""
    for name, *words in EMPTY:
        done = run(DEPLOY / name, *words, cwd=folder)
        hold(f"{name} {' '.join(word or repr(word) for word in words)}",
             (done.returncode, done.stdout, "usage: " in done.stderr), (2, "", True))
    hold("nothing is written", [it.name for it in folder.iterdir()], [])


# ---- units and views


def try_units(folder):
    if analyze := find("systemd-analyze"):
        units = []
        for unit in sorted(DEPLOY.glob("*.service")) + sorted(DEPLOY.glob("*.timer")):
            text = re.sub(r"(?m)^(Exec\w+=-?)/usr/local/\S+", r"\1/bin/true", unit.read_text())
            # A unit for instances is read as one of them.
            own = folder / unit.name.replace("@", "@one")
            own.write_text(text)
            units.append(own)
        done = run(analyze, "verify", *units)
        said = "\n".join(line for line in done.stderr.splitlines() if "berruzpil" in line)
        tell("systemd-analyze verify", said or (done.stderr.strip() if done.returncode else None))


def settings(name):
    """The lines of a unit that are no comments."""
    return [line for line in (DEPLOY / name).read_text().splitlines() if line and line[0] != "#"]


def try_instances():
    """The units for instances are those for one, but for the names, the port and what says where the port is."""
    for one, changes, more in [
        ("berruzpil-intake",
         {"registers xBRL-JSON reports once": "of the register %i", "intake: of": "intake of", "register.db": "%i.db",
          "PORT=8080 ": "", "Identifier=intake": "Identifier=intake-%i",
          "RuntimeDirectory=berruzpil-intake": "RuntimeDirectory=berruzpil-intake-%i",
          "%t/berruzpil-intake": "%t/berruzpil-intake-%i",
          "EnvironmentFile=-/etc/default/berruzpil": "EnvironmentFile=/etc/berruzpil/%i.env"},
         []),
        ("berruzpil-outbox", {"outbox: sends": "outbox %i: sends", "outbox.db 8081": "%i.db ${PORT}"},
         ["Environment=PORT=8081", "EnvironmentFile=-/etc/berruzpil/%i.env"]),
    ]:
        wanted = "\n".join(settings(f"{one}.service"))
        for old, new in changes.items():
            wanted = wanted.replace(old, new)
        found = settings(f"{one}@.service")
        hold(f"{one}@.service says where its port is", [line for line in found if line in more], more)
        hold(f"{one}@.service is {one}.service otherwise",
             [line for line in found if line not in more], wanted.splitlines())


def tables_of_protocol():
    """The tables that docs/PROTOCOL.md declares, as statements."""
    text = (ROOT / "docs" / "PROTOCOL.md").read_text()
    found = re.findall(r"(?m)^    (\w+ \(id INTEGER PRIMARY KEY.*|\w+ \((?:seq|number) INTEGER.*)"
                       r"((?:\n {8,}.*)*)", text)
    return [f"CREATE TABLE {first}{rest} STRICT;" for first, rest in found]


def codes_of_protocol():
    """Each code of a finding as docs/PROTOCOL.md has it: its number, its word and what it means, without the marks of
    the page."""
    text = (ROOT / "docs" / "PROTOCOL.md").read_text()
    numbers = {word: int(number) for number, word in re.findall(r"(?m)^\| (\d+) \| ([a-z-]+) \|", text)}
    meanings = re.findall(r"(?m)^- `([a-z-]+)`: ((?:.*\n)(?: {2}.*\n)*)", text[text.index("What each code means") :])
    means = {word: " ".join(meaning.split()).partition(" *")[0].replace("`", "") for word, meaning in meanings}
    return sorted((number, word, means.get(word)) for word, number in numbers.items())


# A register of five filings and three refused reports. Filing 2 replaces 1, and 4 replaces 2; 5 is another filer's. Of
# the refused ones, one was to replace filing 1, which was replaced already, one filing 9, which isn't there, and one
# nothing.
KEPT = [("ACME", "k-1", 1), ("ACME", "k-2", 2), ("BETA", "k-1", 3), ("ACME", "k-3", None), ("ACME", "k-4", 4),
        ("GAMMA", "k-1", None), ("DELTA", "k-1", None), ("BETA", "k-2", 5)]  # fmt: skip
AMENDS = [(2, 1), (4, 1), (5, 2), (6, 9)]
# The first four are of an earlier version. The fifth came in the last millisecond of 2024, the others after it.
RECEIVED = [(5, 1735689599999), (6, 1735689600000), (7, 1735689600000), (8, 1735689600000)]
FINDINGS = [(4, 1, 3, "/documentInfo"), (4, 2, 26, ""), (6, 1, 26, ""),
            (7, 1, 22, "/facts/a/value"), (7, 2, 22, "/facts/b/value")]
DIMENSIONS = '{"concept":"eg:A","entity":"lei:ACME","period":"2024-12-31T00:00:00","unit":"iso4217:EUR"}'
# A question to the views, and the rows that the register above gives, worked out by hand.
VIEWS = [
    ("SELECT * FROM filings",
     ["1|1|ACME|k-1|4", "2|2|ACME|k-2|4", "3|3|BETA|k-1|4", "4|5|ACME|k-4|4", "5|8|BETA|k-2|4"]),
    ("SELECT number FROM current", ["3", "4", "5"]),
    ("SELECT number FROM current WHERE filer = 'ACME'", ["4"]),
    ("SELECT * FROM replaced", ["1|ACME|2", "2|ACME|4"]),
    ("SELECT * FROM facts WHERE filer = 'ACME'",
     [f"4|ACME|1|f1|eg:A|2024-12-31T00:00:00|iso4217:EUR|100|0|{DIMENSIONS}"]),
    ("SELECT * FROM refused WHERE filer = 'ACME'",
     ["4|ACME|k-3|1|3|/documentInfo|document-info", "4|ACME|k-3|2|26||not-replaceable"]),
    ("SELECT code, word, findings, reports, filers FROM findings_by_code",
     ["22|number|2|1|1", "26|not-replaceable|2|2|2", "3|document-info|1|1|1"]),
    ("SELECT meaning FROM findings_by_code WHERE code = 22", ["The fact has a unit, and its value is no number."]),
    ("SELECT * FROM refused_amendments", ["4|ACME|k-3|1|ACME|2", "6|GAMMA|k-1|9||"]),
    ("SELECT * FROM missing", []),
    ("INSERT INTO expected VALUES ('ACME'), ('BETA'), ('DELTA'), ('OMEGA'), ('acme')", []),
    (".import {folder}/list.txt expected", []),
    ("SELECT * FROM missing", ["DELTA|1", "GAMMA|1", "OMEGA|0", "PSI|0", "acme|0"]),
    ("SELECT * FROM received WHERE filer = 'BETA'", ["3|3|BETA|k-1|4|", "5|8|BETA|k-2|4|2025-01-01T00:00:00.000Z"]),
    ("SELECT received FROM received WHERE number = 4", ["2024-12-31T23:59:59.999Z"]),
    ("SELECT * FROM late", []),
    ("INSERT INTO deadline VALUES ('2025-01-01T00:59:59.999+01:00')", []),
    ("SELECT * FROM late", ["5|BETA|k-2|2025-01-01T00:00:00.000Z|1"]),
    # Of this period BETA has one filing, which came late, and ACME has one.
    ("INSERT INTO asked VALUES ('2024-12-31T00:00:00')", []),
    ("SELECT * FROM late", ["5|BETA|k-2|2025-01-01T00:00:00.000Z|0"]),
    ("SELECT * FROM missing", ["DELTA|1", "GAMMA|1", "OMEGA|0", "PSI|0", "acme|0"]),
    # Of this one only BETA has one, which came in time.
    ("UPDATE asked SET period = '2024-09-30T00:00:00'", []),
    ("SELECT * FROM late", []),
    ("SELECT filer FROM missing", ["ACME", "DELTA", "GAMMA", "OMEGA", "PSI", "acme"]),
    ("DELETE FROM asked", []),
    ("SELECT * FROM senders WHERE filer = 'BETA'",
     ["3|3|BETA|k-1|4|T1|agent", "5|8|BETA|k-2|4|2025-01-01T00:00:00.000Z|"]),
    ("SELECT * FROM entries", ["1|k-1|4|confirmed|1", "2|k-2|4|open|"]),
]  # fmt: skip


def try_views(folder):
    """Each view of reading.sql over a register whose rows are known, in a file that only may be read."""
    if not (sqlite := find("sqlite3")):
        return
    copy = folder / "views.db"
    with contextlib.closing(sqlite3.connect(copy)) as database:
        database.executescript(
            "\n".join(tables_of_protocol())
            + "CREATE TABLE receipt (number INTEGER PRIMARY KEY, sha256 TEXT, received TEXT, user TEXT) STRICT;"
        )
        database.executemany("INSERT INTO kept VALUES (NULL, ?, ?, x'626f6479', ?)", KEPT)
        database.execute("INSERT INTO filing SELECT number, seq FROM kept WHERE number IS NOT NULL")
        database.executemany("INSERT INTO amends VALUES (?, ?)", AMENDS)
        database.executemany("INSERT INTO received VALUES (?, ?)", RECEIVED)
        database.executemany("INSERT INTO finding VALUES (?, ?, ?, CAST(? AS BLOB))", FINDINGS)
        database.execute("INSERT INTO fact VALUES (4, 1, x'6631', x'65673a41', CAST(? AS BLOB), x'313030', 0)",
                         (DIMENSIONS,))
        database.executemany("INSERT INTO fact VALUES (?, 1, x'6631', x'65673a41', CAST(? AS BLOB), x'313030', 0)",
                             [(3, DIMENSIONS.replace("12-31", "09-30")), (5, DIMENSIONS)])
        database.execute("INSERT INTO receipt VALUES (3, 'S', 'T1', 'agent')")
        database.execute("INSERT INTO entry VALUES (1, 'k-1', x'626f6479', 1, 1), (2, 'k-2', x'626f6479', 0, NULL)")
        database.commit()
    (folder / "list.txt").write_bytes(b"GAMMA\r\nPSI\r\n\r\n")
    before = copy.read_bytes()
    lines = [f".print == {number}\n{ask if ask[0] == '.' else ask + ';'}" for number, (ask, _) in enumerate(VIEWS)]
    script = f".read {DEPLOY / 'reading.sql'}\n" + "\n".join(lines).replace("{folder}", str(folder))
    done = run(sqlite, "-batch", "-readonly", copy, input=script + "\n")
    answers = re.split(r"(?m)^== \d+\n", done.stdout)
    hold("the views can be asked",
         (done.returncode, done.stderr, answers[0], len(answers) - 1), (0, "", "", len(VIEWS)))
    for (ask, wanted), found in zip(VIEWS, answers[1:]):
        hold(ask, found.splitlines(), wanted)
    hold("the file is as it was", copy.read_bytes() == before, True)
    with contextlib.closing(sqlite3.connect(copy)) as database:
        database.executescript((DEPLOY / "reading.sql").read_text())
        hold("the codes, as docs/PROTOCOL.md has them",
             database.execute("SELECT * FROM codes").fetchall(), codes_of_protocol())
        for view in ("filings", "facts"):
            plan = " / ".join(row[3]
                              for row in database.execute(f"EXPLAIN QUERY PLAN SELECT * FROM {view} WHERE number = 4"))
            hold(f"{view} of one number goes through no whole table", ("SEARCH" in plan, "SCAN" in plan), (True, False))


def make_copy(copy, filings, refused=()):
    """A file with the tables of a register, in which these filers' keys are filings or refused."""
    with contextlib.closing(sqlite3.connect(copy)) as database:
        database.executescript("\n".join(tables_of_protocol()))
        rows = [(*who, number) for number, who in enumerate(filings, 1)] + [(*who, None) for who in refused]
        database.executemany("INSERT INTO kept VALUES (NULL, ?, ?, x'', ?)", rows)
        database.commit()


def log_line(path, key, status="201", **more):
    return json.dumps({"time": "T", "uri": path, "key": f'"{key}"', "intake_status": status, **more}).encode() + b"\n"


def try_log(folder):
    """Logs of reports that were answered 201, of which the register has some, one that replaces another among them."""
    copy = folder / "copy.db"
    make_copy(copy, [("ACME", 'a"b'), ("ACME", "k-2"), ("ACME", "k-4")], [("ACME", "k-3")])
    own = [log_line("/filings/ACME", 'a\\"b'), log_line("/filings/ACME", "k-2"),
           log_line("/filings/ACME", "k-3", "422"), log_line("/filings/ACME/1", "k-4"),
           log_line("/filings/BETA", "k-2"), log_line("/filings/BETA", "k-2")]
    odd = [b'{"uri":"/\xff","intake_status":"","key":""}\n', b"\n", b"[1]\n", b"7\n"]
    agent = log_line("/filings/ACME", "k-5").replace(b"}", b',"agent":"\xff"}')
    cut, unread = b'{"time":"T","uri":"/filings/AC', "lost-filings: {}: {} lines can't be read, the first is line {}\n"
    beta, five = 'T BETA "k-2" 4\n', 'T ACME "k-5" 4\n'
    later = [log_line("/2025/filings/ACME", "p-1"), log_line("/filings/ACME", "h-1", host="b.example"),
             log_line("/filings/ACME", "k-2", host="A.example")]
    for what, words, data, wanted in [
        ("nothing", (), b"", (0, "", "")),
        ("all that is missing, once", (), b"".join(own), (1, beta, "")),
        ("what is packed", (), gzip.compress(b"".join(own)), (1, beta, "")),
        ("lines that can't be read", (), b"".join(odd + own) + cut, (1, beta, unread.format("log", 4, 2))),
        ("a line with a byte that is no UTF-8", (), agent, (1, five, "")),
        ("a server's lines", ("--host", "a.example"), b"".join(own + later), (1, beta, "")),
        ("another server's lines", ("--host", "b.example"), b"".join(later), (1, 'T ACME "h-1" 4\n', "")),
        ("a path's lines", ("--prefix", "/2025"), b"".join(own + later), (1, 'T ACME "p-1" 4\n', "")),
    ]:
        (folder / "log").write_bytes(data)
        done = run(DEPLOY / "lost-filings", *words, "copy.db", "log", cwd=folder)
        hold(f"lost-filings: {what}", (done.returncode, done.stdout, done.stderr), wanted)
    # One alone, two that were under way at once, a correction of the second of these, and one whose first try, before
    # all others, nginx gave up, so that it may have been decided at any time since. The copy has filings 1 to 3.
    spans = [log_line("/filings/ACME", f"s-{at}", status, time=f"2024-01-01T00:00:{second:02}+00:00", seconds=seconds)
             for at, second, seconds, status in [(1, 10, 0.5, "201"), (2, 20, 0.5, "201"), (3, 21, 1.5, "201"),
                                                 (5, 5, 2, "504"), (5, 40, 0.5, "201")]]  # fmt: skip
    spans.insert(3, log_line("/filings/ACME/6", "s-4", time="2024-01-01T00:00:30+00:00", seconds=0.2))
    wanted = [f'2024-01-01T00:00:{rest}' for rest in [
        '10+00:00 ACME "s-1" 4-5', '20+00:00 ACME "s-2" 5-7', '21+00:00 ACME "s-3" 5-7',
        '30+00:00 ACME "s-4" 7-8 replaces 6', '40+00:00 ACME "s-5" 4-8']]  # fmt: skip
    (folder / "log").write_bytes(b"".join(spans))
    done = run(DEPLOY / "lost-filings", "copy.db", "log", cwd=folder)
    hold("lost-filings: the numbers that they had", (done.returncode, done.stdout.splitlines()), (1, wanted))
    (folder / "log").write_bytes(b"".join(it for it in spans if b"s-5" not in it))
    done = run(DEPLOY / "lost-filings", "copy.db", "log", cwd=folder)
    hold("lost-filings: without that one", [line.split('" ')[1] for line in done.stdout.splitlines()],
         ["4", "5-6", "5-6", "7 replaces 6"])
    (folder / "log").write_bytes(b"".join(own))
    hold("lost-filings: no such log", run(DEPLOY / "lost-filings", "copy.db", "none", cwd=folder).returncode, 3)
    hold("lost-filings: a file that is no copy", run(DEPLOY / "lost-filings", "log", "log", cwd=folder).returncode, 3)


# ---- nginx


def free_port():
    with socket.socket() as it:
        it.bind(("127.0.0.1", 0))
        return it.getsockname()[1]


class Intake:
    """A stand-in for the intake: connections that stay open, a reply to each request, and what it was sent. As many
    connections as `resets` says are reset in place of a reply."""

    def __init__(self, status):
        self.status, self.requests, self.listener = status, [], socket.create_server(("127.0.0.1", 0))
        self.port, self.resets, self.peers = self.listener.getsockname()[1], 0, []

    def __enter__(self):
        threading.Thread(target=self.serve, daemon=True).start()
        return self

    def __exit__(self, *_):
        self.leave()

    def leave(self):
        """Listens no more, and ends its connections."""
        if self.listener.fileno() >= 0:
            self.listener.shutdown(socket.SHUT_RDWR)
            self.listener.close()
        for peer in self.peers:
            with contextlib.suppress(OSError):
                peer.shutdown(socket.SHUT_RDWR)

    def serve(self):
        while True:
            try:
                peer, _ = self.listener.accept()
            except OSError:
                return
            self.peers.append(peer)
            threading.Thread(target=self.serve_one, args=(peer,), daemon=True).start()

    def serve_one(self, peer):
        with peer, contextlib.suppress(OSError):
            while (given := read_message(peer)) != b"\r\n\r\n":
                self.requests.append(given)
                if self.resets:
                    self.resets -= 1
                    peer.setsockopt(socket.SOL_SOCKET, socket.SO_LINGER, struct.pack("ii", 1, 0))
                    return
                content = b'{"number":1,"status":"registered"}'
                head = (
                    f"HTTP/1.1 {self.status} Whatever\r\nContent-Type: application/json\r\n"
                    f"Content-Length: {len(content)}\r\n\r\n"
                )
                peer.sendall(head.encode() + content)


def read_message(peer):
    """The bytes of a message with a head and as much as it declares."""
    held = b""
    while b"\r\n\r\n" not in held:
        held += peer.recv(65536) or b"\r\n\r\n"
    length = re.search(rb"(?i)content-length: *(\d+)", held)
    whole = held.index(b"\r\n\r\n") + 4 + (int(length[1]) if length else 0)
    while len(held) < whole:
        held += peer.recv(65536) or b" " * whole
    return held


# Subjects with whatever means something to a regular expression, to nginx's files, or to the way in which a subject is
# written.
ODD_SUBJECTS = {
    "odd-1": "/O=Bäcker, Söhne \\+ Co./CN=a|b",
    "odd-2": '/O=say "(x)" {1}; #2/CN=a.b*c?^[d]$e',
    "odd-3": "/O=back\\\\slash and 'quotes' <x>/CN= ends with a space ",
}


def make_certificates(openssl, folder):
    """An authority, and certificates of the server, of a filer and of somebody without a line in the map."""
    run(openssl, "req", "-x509", "-newkey", "ec", "-pkeyopt", "ec_paramgen_curve:P-256", "-nodes",
        "-subj", "/CN=authority", "-keyout", folder / "ca.key", "-out", folder / "ca.pem", "-days", "2")
    subjects = {"server": "/CN=intake.example", "acme": "/O=ACME/CN=acme-filing",
                "officer": "/O=Supervisor/CN=officer-1",
                "other": "/O=x,CN=acme-filing,O=ACME/CN=other", **ODD_SUBJECTS}
    for name, subject in subjects.items():
        run(openssl, "req", "-utf8", "-newkey", "ec", "-pkeyopt", "ec_paramgen_curve:P-256", "-nodes", "-subj", subject,
            "-keyout", folder / f"{name}.key", "-out", folder / f"{name}.csr")
        names = folder / "names"
        names.write_text(f"subjectAltName=DNS:intake.example,DNS:{SECOND_HOST}")
        run(openssl, "x509", "-req", "-in", folder / f"{name}.csr", "-CA", folder / "ca.pem",
            "-CAkey", folder / "ca.key", "-CAcreateserial", "-days", "2", "-extfile", names,
            "-out", folder / f"{name}.pem")


def second_register():
    """The file of a second register, made by the command of docs/OPERATIONS.md."""
    command = re.search(r"(?m)^    (sed -e 's/intake(?:.*\\\n)*.*) > nginx-intake-2025.conf$",
                        (ROOT / "docs" / "OPERATIONS.md").read_text())
    return run("sh", "-c", command[1], cwd=DEPLOY).stdout


def with_odd_users(folder):
    """The file of the first register, with the users of the odd subjects, as nginx-filer writes them, each for the
    filer ACME and one of its own."""
    file = folder / "fronts.conf"
    file.write_text((DEPLOY / "nginx-intake.conf").read_text())
    for user in ODD_SUBJECTS:
        done = run(DEPLOY / "nginx-filer", file, folder / f"{user}.pem", user, "ACME", f"{user}.x")
        hold(f"nginx-filer: {user}", (done.returncode, done.stderr, len(done.stdout.splitlines())), (0, "", 3))
    return file.read_text()


def nginx_file(folder, port, intakes, outbox_port):
    """The files of deploy/ as one that runs in a folder, for two registers. An intake is a port, or the path of a unix
    socket."""
    fronts = with_odd_users(folder) + second_register()
    for written, own in [("127.0.0.1:8080", intakes[0]), ("127.0.0.1:8082", intakes[1])]:
        at = f"127.0.0.1:{own}" if isinstance(own, int) else f"unix:{own}"
        fronts = fronts.replace(f"server {written};", f"server {at};")
    fronts = fronts.replace("listen 443", f"listen 127.0.0.1:{port}")
    fronts = fronts.replace("/etc/nginx/tls/filers-ca.pem", f"{folder}/ca.pem").replace("/etc/nginx/tls", str(folder))
    fronts = fronts.replace("/var/log/berruzpil/", f"{folder}/").replace("/srv/pages/", f"{folder}/pages/")
    behind = (DEPLOY / "nginx-outbox.conf").read_text()
    behind = (
        behind.replace("127.0.0.1:8081", f"127.0.0.1:{outbox_port}")
        .replace("https://intake.example", f"https://127.0.0.1:{port}")
    )
    behind = (
        behind.replace("/etc/berruzpil/intake-ca.pem", f"{folder}/ca.pem")
        .replace("/etc/berruzpil/filer", f"{folder}/acme")
    )
    temporary = "".join(f"    {kind}_temp_path {folder}/{kind};\n"
                        for kind in ["client_body", "proxy", "fastcgi", "uwsgi", "scgi"])
    # As many workers and connections as Debian has.
    whole = (
        f"daemon off;\npid {folder}/pid;\nerror_log {folder}/error.log;\n"
        "worker_processes auto;\nevents {\n    worker_connections 768;\n}\n"
    )
    log = (DEPLOY / "nginx-berruzpil-log.conf").read_text().replace("127.0.0.1:8079", f"127.0.0.1:{free_port()}")
    (folder / "nginx.conf").write_text(f"{whole}http {{\n    access_log off;\n{temporary}{log}{fronts}{behind}}}\n")
    return folder / "nginx.conf"


def problem(status, reason, title):
    """Problem details, as a status, a media type and a content."""
    content = f'{{"reason":"{reason}","status":{status},"title":"{title}","type":"about:blank"}}'
    return status, "application/problem+json", content.encode()


NOT_YOURS = problem(403, "not-yours", "Forbidden")


def ask(folder, port, user, filer, **more):
    """The status and content that nginx gives a user's request."""
    status, _, content = ask_kind(folder, port, user, filer, **more)
    return status, content


def connect(folder, port, user, host):
    """A connection over TLS as this user, or as nobody."""
    context = ssl.create_default_context(cafile=folder / "ca.pem")
    if user:
        context.load_cert_chain(folder / f"{user}.pem", folder / f"{user}.key")
    return context.wrap_socket(socket.create_connection(("127.0.0.1", port), timeout=PATIENCE), server_hostname=host)


def ask_bytes(folder, port, given):
    """The status, media type and content that nginx gives these bytes."""
    return ask_bytes_of(folder, port, "acme", given)


def ask_bytes_of(folder, port, user, given):
    with connect(folder, port, user, "intake.example") as peer:
        peer.sendall(given)
        reply = http.client.HTTPResponse(peer)
        reply.begin()
        return reply.status, reply.getheader("Content-Type"), reply.read()


def ask_kind(folder, port, user, filer, method="POST", body=b"{}", host="intake.example", **fields):
    """The status, media type and content that nginx gives a user's request."""
    connection = http.client.HTTPConnection(host)
    connection.sock = connect(folder, port, user, host)
    fields = {"Idempotency-Key": '"k-1"', **fields}
    connection.request(method, f"/filings/{filer}", body, fields, encode_chunked="Transfer-Encoding" in fields)
    reply = connection.getresponse()
    return reply.status, reply.getheader("Content-Type"), reply.read()


def log_lines(folder, count=0):
    """The lines of the log, once there are so many: nginx writes a line after its reply."""
    deadline = time.monotonic() + PATIENCE
    while len(lines := (folder / "filings.log").read_bytes().splitlines()) < count and time.monotonic() < deadline:
        time.sleep(0.05)
    return [json.loads(line) for line in lines]


@contextlib.contextmanager
def running(nginx, folder, file, port):
    """nginx with a file, in a folder, from when it listens."""
    with subprocess.Popen([nginx, "-p", folder, "-c", file], stderr=subprocess.DEVNULL) as server:
        try:
            while server.poll() is None:
                with contextlib.suppress(ConnectionRefusedError), socket.create_connection(("127.0.0.1", port)):
                    break
                time.sleep(0.1)
            yield
        finally:
            server.terminate()


def odd_requests():
    """Requests that nginx answers itself, as the intake would."""
    malformed = problem(400, "malformed", "Bad Request")
    head_too_large = problem(431, "head-too-large", "Request Header Fields Too Large")
    method, coding = problem(405, "no-method", "Method Not Allowed"), problem(501, "coding", "Not Implemented")
    host = problem(421, "wrong-host", "Misdirected Request")
    path = b"/filings/ACME HTTP/1.1\r\nHost: intake.example\r\n"
    return [
        ("a line that is no request", b"\x16\x03 hello\r\n\r\n", malformed),
        ("a request of two hosts", b"GET " + path + b"Host: intake.example\r\n\r\n", malformed),
        ("another host than that of the connection", b"GET / HTTP/1.1\r\nHost: localhost\r\n\r\n", host),
        ("a path that is none", b"GET /%zz HTTP/1.1\r\nHost: intake.example\r\n\r\n", malformed),
        ("a version that is none", b"GET /filings/ACME HTTP/3.0\r\nHost: intake.example\r\n\r\n", malformed),
        ("a line that is too long",
         b"GET /" + b"a" * 20000 + b" HTTP/1.1\r\nHost: intake.example\r\n\r\n", head_too_large),
        ("a field that is too long", b"GET " + path + b"A: " + b"a" * 20000 + b"\r\n\r\n", head_too_large),
        ("TRACE", b"TRACE " + path + b"\r\n", method),
        ("a coding that nginx doesn't know", b"POST " + path + b"Transfer-Encoding: gzip\r\n\r\n", coding),
    ]


def try_second_register(folder, intake, second, port):
    """Two registers behind one nginx, whose lines in the log differ."""
    before = len(intake.requests)
    status, _ = ask(folder, port, "acme", "ACME", host=SECOND_HOST, **{"Idempotency-Key": '"second"'})
    hold("a report for the second register", (status, len(second.requests), len(intake.requests) - before), (201, 1, 0))
    copies = {host: folder / f"{host}.db" for host in ("intake.example", SECOND_HOST)}
    for host, copy in copies.items():
        make_copy(copy,
                  [("ACME", "k-1"), *((f"{user}.x", "k-1") for user in ODD_SUBJECTS)]
                  if host == "intake.example" else [])
    for host, missing in [("intake.example", []), (SECOND_HOST, ['ACME "second" 1'])]:
        done = run(DEPLOY / "lost-filings", "--host", host, copies[host], folder / "filings.log")
        found = [line.partition(" ")[2] for line in done.stdout.splitlines()]
        hold(f"lost-filings of {host}", (done.returncode, found, done.stderr), (1 if missing else 0, missing, ""))


def try_users(folder, port):
    """The users that nginx-filer wrote may file for their filers, and for no other."""
    before = len(log_lines(folder))
    for user in ODD_SUBJECTS:
        found = [ask(folder, port, user, filer)[0] for filer in ("ACME", f"{user}.x", f"{user}-x", "BETA")]
        hold(f"the filers of {user}", found, [201, 201, 403, 403])
    hold("none of them is another", [line["user"] for line in log_lines(folder, before + 12)[before:]],
         [user for user in ODD_SUBJECTS for _ in range(4)])


def try_removed_lines(folder):
    """What nginx-filer takes out of a file: the lines of a certificate, of a user and a filer, and of a user, and no
    other. A file through a link is changed where it is."""
    file, link, acme = folder / "removed.conf", folder / "link.conf", folder / "acme.pem"
    whole = (DEPLOY / "nginx-intake.conf").read_text()
    file.write_text(whole.replace('    "~^agent ACME$" 1;\n', '    "~^agent ACME$" 1;\n    "~^agent-2 ACME$" 1;\n'))
    file.chmod(0o640)
    link.symlink_to(file)
    own, agent = '"~^CN=acme-filing,O=ACME$" acme;\n', '"~^CN=agent-1,O=Filing Agents$" agent;\n'
    for what, words, wanted in [
        ("a certificate", (acme,), own),
        ("a user and a filer", ("agent", "BETA"), '"~^agent BETA$" 1;\n'),
        ("a user", ("agent",), f'{agent}"~^agent ACME$" 1;\n'),
    ]:
        before = file.read_text()
        done = run(DEPLOY / "nginx-filer", "--remove", link, *words)
        hold(f"nginx-filer takes out {what}", (done.returncode, done.stdout, done.stderr), (0, wanted, ""))
        for line in wanted.splitlines():
            before = before.replace(f"    {line}\n", "")
        hold("and nothing else", (file.read_text() == before, oct(file.stat().st_mode & 0o777), link.is_symlink()),
             (True, "0o640", True))


FILER_USAGE = """usage: nginx-filer FILE CERTIFICATE USER FILER ..
       nginx-filer --remove FILE USER [FILER ..]
       nginx-filer --remove FILE CERTIFICATE
       nginx-filer --sign FILE REQUEST USER FILER ..
       nginx-filer --list
"""


def try_filer_lines(folder):
    """What nginx-filer refuses, and that it leaves the file as it is then."""
    file, acme, officer = folder / "fronts.conf", folder / "acme.pem", folder / "officer.pem"
    before = file.read_text()
    both = f"nginx-filer: {file}: {{}} would be an officer and file: give the officer another user, and a certificate\n"
    for what, words, wanted in [
        ("lines that are there", (file, acme, "acme", "ACME"),
         (0, '"~^CN=acme-filing,O=ACME$" acme;\n"~^acme ACME$" 1;\n', "")),
        ("a subject that is another user's", (file, acme, "beta", "ACME"),
         (1, "", f'nginx-filer: {file}: this subject is another user\'s: "~^CN=acme-filing,O=ACME$" acme;\n')),
        ("a file without the maps", (acme, acme, "acme", "ACME"),
         (1, "", f"nginx-filer: {acme}: there is no map of who may file for which filer\n")),
        ("a filer code that is none", (file, acme, "acme", "a/b"), (2, "", "nginx-filer: 'a/b' is no filer code\n")),
        ("a user that is none", (file, acme, "acme; }", "ACME"), (2, "", "nginx-filer: 'acme; }' is no user\n")),
        ("an officer", (file, officer, "officer", "/pages"),
         (0, '"~^CN=officer-1,O=Supervisor$" officer;\n"~^officer /pages$" 1;\n', "")),
        ("an officer who would file", (file, officer, "officer", "ACME"), (1, "", both.format("officer"))),
        ("a filer who would be an officer", (file, acme, "acme", "/pages"), (1, "", both.format("acme"))),
        ("both at once", (file, acme, "new", "ACME", "/pages"), (1, "", both.format("new"))),
        ("too few words", (file, acme, "acme"), (2, "", FILER_USAGE)),
        ("an empty name", ("", acme, "acme", "ACME"), (2, "", FILER_USAGE)),
        ("nothing to remove", ("--remove", file), (2, "", FILER_USAGE)),
        ("a user without a line", ("--remove", file, "nobody"),
         (1, "", f"nginx-filer: {file}: there is no line of nobody\n")),
        ("a pair without a line", ("--remove", file, "acme", "ACME", "OMEGA"),
         (1, "", f'nginx-filer: {file}: there is no line of "~^acme OMEGA$" 1;\n')),
        ("a certificate without a line", ("--remove", file, folder / "other.pem"),
         (1, "", f"nginx-filer: {file}: there is no line of {folder / 'other.pem'}\n")),
    ]:
        done = run(DEPLOY / "nginx-filer", *words)
        hold(f"nginx-filer: {what}", (done.returncode, done.stdout, done.stderr), wanted)
    hold("nginx-filer: a certificate that is none",
         run(DEPLOY / "nginx-filer", file, file, "acme", "ACME").returncode, 3)
    hold("nginx-filer: a request that is a certificate",
         run(DEPLOY / "nginx-filer", "--sign", file, acme, "acme", "ACME").returncode, 3)
    hold("nginx-filer: a file that isn't there",
         run(DEPLOY / "nginx-filer", folder / "none.conf", acme, "acme", "ACME").returncode, 3)
    hold("nginx-filer leaves the file as it was",
         (file.read_text(), [it.name for it in folder.glob(".fronts*")]), (before, []))
    try_removed_lines(folder)
    second = folder / "second.conf"
    second.write_text(second_register())
    done = run(DEPLOY / "nginx-filer", second, acme, "acme", "BETA")
    line = '"~^acme BETA$" 1;\n'
    hold("nginx-filer: a file without users",
         (done.returncode, done.stdout, f"    {line}" in second.read_text()), (0, line, True))


def try_kept_open(folder, intake, port):
    """Requests share a connection to the intake. If one that was kept open breaks, the request is sent again on
    another; one that breaks on a new connection is answered 503. The log has the last answer."""
    # One connection to nginx is served by one of its processes.
    front = http.client.HTTPConnection("intake.example")
    front.sock = connect(folder, port, "acme", "intake.example")

    def post():
        front.request("POST", "/filings/ACME", b"{}", {"Idempotency-Key": '"k-1"'})
        reply = front.getresponse()
        reply.read()
        return reply.status

    before, written = len(intake.peers), len(log_lines(folder))
    found = [post() for _ in range(5)]
    hold("requests share a connection to the intake", (found, len(intake.peers) - before <= 1), ([201] * 5, True))
    asked, intake.resets = len(intake.requests), 1
    hold("a request whose connection was kept open and breaks", (post(), len(intake.requests) - asked), (201, 2))
    hold("both times it is the same", len({it for it in intake.requests[asked:]}), 1)
    # Of connections that were kept open each process has four at most, and the next one is new.
    asked, intake.resets = len(intake.requests), 100
    hold("a request whose new connection breaks", (post(), 2 <= len(intake.requests) - asked <= 5), (503, True))
    intake.resets = 0
    hold("the next request", post(), 201)
    hold("their lines of the log",
         [(line["status"], line["intake_status"]) for line in log_lines(folder, written + 8)[written:]],
         [(201, "201")] * 6 + [(503, "502"), (201, "201")])


def try_health(folder, intake, port):
    """The location of the health check: a GET of one list, whatever is asked, for any certificate of the authority,
    without a line in the log."""
    written, before = len(log_lines(folder)), len(intake.requests)
    for what, user, given in [
        ("GET", "acme", b"GET /health"),
        ("a POST with a body", "other", b"POST /health"),
        ("a query", "acme", b"GET /health?filer=ACME"),
    ]:
        with connect(folder, port, user, "intake.example") as peer:
            peer.sendall(given
                         + b' HTTP/1.1\r\nHost: intake.example\r\nIdempotency-Key: "k"\r\nContent-Length: 2\r\n\r\n{}')
            reply = http.client.HTTPResponse(peer)
            reply.begin()
            sent = intake.requests[-1]
            hold(f"health: {what}", (reply.status, sent.split(b"\r\n")[0], sent.endswith(b"\r\n\r\n")),
                 (201, b"GET /filings/health HTTP/1.1", True))
    hold("health without a certificate",
         ask_bytes_of(folder, port, None, b"GET /health HTTP/1.1\r\nHost: intake.example\r\n\r\n"),
         problem(403, "no-certificate", "Forbidden"))
    hold("each reached the intake, but the last", len(intake.requests) - before, 3)
    hold("only the refused one is logged", [line["status"] for line in log_lines(folder, written + 1)[written:]], [403])


def get(folder, port, user, path, host="intake.example"):
    """The status, media type and content of what nginx gives a user for this path."""
    connection = http.client.HTTPConnection(host)
    connection.sock = connect(folder, port, user, host)
    connection.putrequest("GET", path)
    connection.endheaders()
    reply = connection.getresponse()
    return reply.status, reply.getheader("Content-Type"), reply.read()


def try_pages(folder, intake, port):
    """The pages of each register, for officers alone, who may not file."""
    for name in ("register", "2025"):
        site = folder / "pages" / name
        site.mkdir(parents=True)
        (site / "index.html").write_text(f"the pages of {name}")
        (site / "filing-1.json").write_text("{}")
    (folder / "pages" / "secret").write_text("secret")
    (folder / "pages").chmod(0o755)
    page = (200, "text/html; charset=utf-8", b"the pages of register")
    no_path, none = problem(404, "no-path", "Not Found"), problem(403, "no-certificate", "Forbidden")
    written, before = len(log_lines(folder)), len(intake.requests)
    for what, user, path, wanted in [
        ("an officer", "officer", "/pages/index.html", page),
        ("an officer, the folder", "officer", "/pages/", page),
        ("an officer, a report", "officer", "/pages/filing-1.json", (200, "application/json", b"{}")),
        ("a filer", "acme", "/pages/index.html", NOT_YOURS),
        ("a filer, the folder", "acme", "/pages/", NOT_YOURS),
        ("a filer, by a path through its own", "acme", "/filings/ACME/../../pages/index.html", NOT_YOURS),
        ("a filer, by a path in other letters", "acme", "/%70ages/index.html", NOT_YOURS),
        ("a filer, by a path that is no file", "acme", "/pages/none.html", NOT_YOURS),
        ("somebody without a line", "other", "/pages/index.html", NOT_YOURS),
        ("nobody", None, "/pages/index.html", none),
        ("an officer, out of the folder", "officer", "/pages/../secret", no_path),
        ("an officer, beside the folder", "officer", "/pages../secret", no_path),
    ]:
        hold(f"the pages: {what}", get(folder, port, user, path), wanted)
    hold("the pages: an officer, without the slash", get(folder, port, "officer", "/pages")[0], 308)
    hold("the pages: no such page", get(folder, port, "officer", "/pages/none.html")[0], 404)
    hold("the pages of the second register are others'",
         get(folder, port, "officer", "/pages/index.html", SECOND_HOST),
         (200, "text/html; charset=utf-8", b"the pages of 2025"))
    for filer in ("ACME", "pages", "officer"):
        hold(f"an officer who files for {filer}", ask_kind(folder, port, "officer", filer), NOT_YOURS)
    hold("none of these reached the intake", len(intake.requests), before)
    hold("the log says who read the pages",
         [line["user"] for line in log_lines(folder, written + 18)[written:]
          if line["uri"].startswith("/pages/") and line["status"] == 200], ["officer"] * 4)  # fmt: skip


def try_requests(folder, intake, port, outbox_port):
    own = b'{"number":1,"status":"registered"}'
    hold("a filer's own report", ask(folder, port, "acme", "ACME"), (201, own))
    sent = intake.requests[-1]
    whole = sent.endswith(b"{}") and b"Content-Length: 2" in sent and b"Connection:" not in sent
    hold("it comes whole, with its length, and the connection stays open", whole, True)
    status, _ = ask(folder, port, "acme", "ACME", body=iter([b"{", b"}"]), **{"Transfer-Encoding": "chunked"})
    hold("a chunked report gets its length", (status, b"Content-Length: 2" in intake.requests[-1]), (201, True))
    hold("a report that replaces a filing", ask(folder, port, "acme", "ACME/17"), (201, own))
    hold("its number comes along", intake.requests[-1].startswith(b"POST /filings/ACME/17 HTTP/1.1\r\n"), True)
    before = len(intake.requests)
    refusals = [
        ("another's filer code", ("acme", "BETA"), NOT_YOURS),
        ("another's filing", ("acme", "BETA/17"), NOT_YOURS),
        ("a number that is none", ("acme", "ACME/0"), problem(404, "no-path", "Not Found")),
        ("a number with a leading zero", ("acme", "ACME/01"), problem(404, "no-path", "Not Found")),
        ("the same code in lower case", ("acme", "acme"), NOT_YOURS),
        ("a code that is like a file's name", ("acme", "a.html"), NOT_YOURS),
        ("a subject that has another's inside", ("other", "ACME"), NOT_YOURS),
        ("no certificate", (None, "ACME"), problem(403, "no-certificate", "Forbidden")),
        ("a path that is no filer's", ("acme", "a/b"), problem(404, "no-path", "Not Found")),
    ]
    for what, who, wanted in refusals:
        hold(what, ask_kind(folder, port, *who), wanted)
    large = ask_kind(folder, port, "acme", "ACME", body=b" " * 1048577)
    hold("a body that is too large", large, problem(413, "too-large", "Content Too Large"))
    for what, given, wanted in odd_requests():
        hold(what, ask_bytes(folder, port, given), wanted)
    hold("none of these reached the intake", len(intake.requests), before)
    slow = socket.create_connection(("127.0.0.1", outbox_port))
    slow.sendall(b'POST /filings/ACME HTTP/1.1\r\nHost: localhost\r\nIdempotency-Key: "k-1"\r\n'
                 b"Content-Length: 2\r\n\r\n{")
    hold("a silent filer keeps nobody waiting", ask(folder, port, "acme", "ACME")[0], 201)
    slow.sendall(b"}")
    hold("through the filer's own nginx", b"201" in read_message(slow).split(b"\r\n")[0], True)
    line = log_lines(folder, 1)[0]
    logged = (line["user"], line["key"], line["status"], line["intake_status"])
    hold("the line of the log", logged, ("acme", '"k-1"', 201, "201"))


def try_rotation(folder, port):
    """The rules for the log, while nginx runs: what was logged is kept under the day's name, and what comes next is
    logged anew."""
    if not (logrotate := find("logrotate")):
        return
    rules, log = folder / "rules", folder / "filings.log"
    text = (
        (DEPLOY / "logrotate-berruzpil").read_text()
        .replace("/var/log/berruzpil/", f"{folder}/")
        .replace("/run/nginx.pid", f"{folder}/pid")
    )
    rules.write_text(text if os.geteuid() == 0 else text.replace("create 0640 www-data adm", "create 0640"))
    rules.chmod(0o644)
    (folder / "error.log").rename(folder / "errors")
    before = log.read_bytes()
    done = run(logrotate, "--force", "--state", folder / "state", rules)
    kept = log.with_name(f"filings.log-{time.strftime('%Y-%m-%d')}")
    hold("logrotate", (done.returncode, done.stderr, kept.exists() and kept.read_bytes() == before), (0, "", True))
    time.sleep(1)
    ask(folder, port, "acme", "ACME")
    # nginx writes the line after the reply.
    for _ in range(50):
        if log.read_bytes():
            break
        time.sleep(0.1)
    hold("nginx opens its log anew", (len(log.read_bytes().splitlines()), kept.read_bytes() == before), (1, True))


def try_nginx(folder):
    nginx, openssl = find("nginx"), find("openssl")
    if not nginx or not openssl:
        return
    make_certificates(openssl, folder)
    with Intake(201) as intake, Intake(201) as second:
        port, outbox_port = free_port(), free_port()
        file = nginx_file(folder, port, (intake.port, second.port), outbox_port)
        tested = run(nginx, "-t", "-p", folder, "-c", file)
        tell_run("nginx -t", tested)
        if tested.returncode:
            return
        with running(nginx, folder, file, port):
            try_requests(folder, intake, port, outbox_port)
            try_kept_open(folder, intake, port)
            try_users(folder, port)
            try_filer_lines(folder)
            try_health(folder, intake, port)
            try_pages(folder, intake, port)
            try_second_register(folder, intake, second, port)
            try_rotation(folder, port)
            intake.leave()
            away = problem(503, "unavailable", "Service Unavailable")
            hold("an intake that is away", ask_kind(folder, port, "acme", "ACME"), away)


def main():
    with tempfile.TemporaryDirectory() as name:
        folders = [pathlib.Path(name) / part for part in ("empty", "round", "snapshot", "units", "nginx")]
        for folder in folders:
            folder.mkdir()
        pathlib.Path(name).chmod(0o755)
        try_scripts()
        empty, rounds, snapshots, units, fronts = folders
        try_empty_names(empty)
        try_round(rounds)
        try_snapshot(snapshots)
        if find("curl"):
            try_new(units)
        try_units(units)
        try_views(units)
        try_instances()
        try_log(units)
        try_nginx(fronts)
    print(f"{len(failures)} failed")
    return 1 if failures else 0


if __name__ == "__main__":
    sys.exit(main())
