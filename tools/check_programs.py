#!/usr/bin/env python3
"""Tries the built programs over files, sockets and full disks: what they print, how they end, and what stands
afterwards.

    tools/check_programs.py

It takes the programs that `rt run` builds in their folders, as crates/intake/out/intake. A full disk is a small file
system in memory, which it mounts if it may; otherwise it says so, and a limit on the size of files stands in for it.
Status 1 if a trial fails.
"""
import datetime
import fcntl
import hashlib
import json
import os
import pathlib
import resource
import shutil
import signal
import socket
import sqlite3
import subprocess
import time

from trials import (INTAKE, NOT_A_REGISTER, OUTBOX, PATIENCE, REPORT, SMALLEST, Peer, Serving, answers, breaks,
                    exchange, free_port, hold, is_silent)
from trials import make_by_sql, make_register, request, run, said, statuses, tell, try_all


# ---- what serve says


def check_serving(folder):
    database = folder / "register.db"
    serving = Serving(database, 3, "--new", "--log")
    wanted = f"intake: serving 127.0.0.1:{serving.port}: 0 kept, 0 filings, opened in "
    hold("serve says when it is ready", serving.ready[: len(wanted)], wanted)
    both = request("k-1", SMALLEST, close=False) + request("k-1", b"", "BETA") + request("k-2", SMALLEST)
    hold("replies", statuses(exchange(serving.port, both)), [201, 400])
    hold("replies", statuses(exchange(serving.port, b"GET /none HTTP/1.1\r\nHost: h\r\n\r\n")), [404])
    hold("replies", statuses(exchange(serving.port, request("k-3", SMALLEST)[:-1])), [])
    status, output, errors = serving.end()
    lines = [json.loads(line) for line in output.splitlines()]
    hold(
        "each connection has a line",
        lines,
        [
            {"connection": 1, "ended": "closed", "filers": ["ACME", "BETA"], "places": 2, "statuses": [201, 400]},
            {"connection": 2, "ended": "input ended", "filers": [], "places": 1, "statuses": [404]},
            {"connection": 3, "ended": "input ended", "filers": [], "places": 0, "statuses": []},
        ],
    )
    hold("serve says when it ends", (status, errors), (0, "intake: ended after 3 connections\n"))


def send_slowly(port, given, seconds):
    """Sends a byte of these every half second, for so long or until the peer is gone. Whether it is."""
    with socket.create_connection(("127.0.0.1", port), timeout=PATIENCE) as peer:
        for at in range(2 * seconds):
            time.sleep(0.5)
            try:
                peer.sendall(given[at : at + 1])
            except OSError:
                return True
    return False


def check_patience(folder):
    for words in (("--log",), ()):
        database = folder / f"register{len(words)}.db"
        serving = Serving(database, 2, "--new", "--patience", "2", *words)
        hold("a client that sends a byte at a time is cut off",
             send_slowly(serving.port, request("k-1", SMALLEST), 10), True)
        hold("and the next is served", statuses(exchange(serving.port, request("k-2", SMALLEST))), [201])
        status, output, errors = serving.end()
        wanted = "intake: connection 1: cut off after 2 seconds\nintake: ended after 2 connections\n"
        hold("serve says whom it cut off", (status, errors), (0, wanted))
        hold("the log has both connections", [json.loads(line)["ended"] for line in output.splitlines()],
             ["the reader failed", "closed"] if words else [])


def check_limit(folder):
    serving = Serving(folder / "register.db", 4, "--new", "--limit", "1")
    for key, status in (("k-1", 201), ("k-2", 503), ("k-3", 503), ("k-1", 201)):
        hold(f"a report with the key {key}, in a register of one",
             statuses(exchange(serving.port, request(key, SMALLEST))), [status])
    wanted = (
        "intake: the register is full: --limit is 1, and a report with a new key gets 503\n"
        "intake: ended after 4 connections\n"
    )
    hold("serve says once that the register is full", serving.end()[2], wanted)


# ---- reports that replace filings

REGISTERED = '{"number":%d,"status":"registered"}'
BOTH = '{"filings":[{"facts":1,"number":1,"replaced_by":2},{"facts":1,"number":2,"replaces":1}]}'
NOT_REPLACEABLE = (
    '{"findings":[{"code":"not-replaceable","place":""}],"reason":"refused","status":422,'
    '"title":"Unprocessable Content","type":"about:blank"}'
)
KEY_REUSED = '{"reason":"key-reused","status":422,"title":"Unprocessable Content","type":"about:blank"}'
NO_PATH = '{"reason":"no-path","status":404,"title":"Not Found","type":"about:blank"}'


def listing(path):
    """A GET of this path below that of all filings."""
    return f"GET /filings/{path} HTTP/1.1\r\nHost: h\r\nConnection: close\r\n\r\n".encode()


# What is asked for, the request, the status and the content.
AMENDMENTS = [
    ("a report", request("k-1", REPORT), 201, REGISTERED % 1),
    ("one that replaces it", request("k-2", REPORT, "ACME/1"), 201, REGISTERED % 2),
    ("the list of both", listing("ACME"), 200, BOTH),
    ("its repeat", request("k-2", REPORT, "ACME/1"), 201, REGISTERED % 2),
    ("another that is to replace it", request("k-3", REPORT, "ACME/1"), 422, NOT_REPLACEABLE),
    ("its repeat", request("k-3", REPORT, "ACME/1"), 422, NOT_REPLACEABLE),
    ("another number under a used key", request("k-2", REPORT, "ACME/2"), 422, KEY_REUSED),
    ("no number under a key that had one", request("k-2", REPORT), 422, KEY_REUSED),
    ("a number under a key that had none", request("k-1", REPORT, "ACME/1"), 422, KEY_REUSED),
    ("another filer's report", request("k-1", REPORT.replace(b"lei:ACME", b"lei:BETA"), "BETA/1"),
     422, NOT_REPLACEABLE),
    ("the number 0", request("k-4", REPORT, "ACME/0"), 404, NO_PATH),
    ("a number with a leading zero", request("k-4", REPORT, "ACME/01"), 404, NO_PATH),
    ("the list of the first alone", listing("ACME/1"), 200, '{"filings":[{"facts":1,"number":1,"replaced_by":2}]}'),
    ("the list of a filing that is another's", listing("BETA/1"), 200, '{"filings":[]}'),
    ("the list of the number 01", listing("ACME/01"), 404, NO_PATH),
]


def check_amendments(folder):
    hold("the lengths of these contents", (len(BOTH), len(NOT_REPLACEABLE), len(KEY_REUSED)), (88, 137, 89))
    database = folder / "register.db"
    serving = Serving(database, len(AMENDMENTS), "--new")
    for what, given, status, content in AMENDMENTS:
        reply = exchange(serving.port, given)
        hold(what, (statuses(reply), reply.partition(b"\r\n\r\n")[2].decode()), ([status], content))
    hold("serve ends", serving.end()[0], 0)
    hold("check afterwards", said(run(INTAKE, "check", "--db", database), folder),
         (0, "sound: 4 kept, 2 filings\n", ""))
    hold("list of both", said(run(INTAKE, "list", "--db", database, "--filer", "ACME"), folder), (0, f"{BOTH}\n", ""))


def check_sent_amendments(folder):
    outbox, report = folder / "outbox.db", folder / "report.json"
    report.write_bytes(REPORT)
    run(OUTBOX, "init", "--db", outbox, "--filer", "ACME")
    serving = Serving(folder / "register.db", 3, "--new")
    replaced = "outbox: entry 3: refused; the filing that it was sent to replace is not there, or was replaced already"
    for entry, words, state, errors in (
        (1, (), "confirmed 1", ""),
        (2, ("--amend", 1), "confirmed 2", ""),
        (3, ("--amend", 1), "refused", f"{replaced}\n"),
    ):
        put = run(OUTBOX, "put", "--db", outbox, "--body", report, "--key", f"k-{entry}", *words)
        hold(f"put of entry {entry}", said(put, folder), (0, f"entry {entry}\n", ""))
        sent = run(OUTBOX, "send", "--db", outbox, "--port", serving.port)
        hold(f"send of entry {entry}", said(sent, folder), (0, f"entry {entry} {state}\n", errors))
    serving.end()
    listed = run(INTAKE, "list", "--db", folder / "register.db", "--filer", "ACME")
    hold("list of what was sent", said(listed, folder), (0, f"{BOTH}\n", ""))


# ---- full disks


class SmallDisk:
    """A file system in memory with so many bytes, or none if it may not be mounted."""

    def __init__(self, folder, size):
        self.folder = folder
        self.folder.mkdir()
        words = ["mount", "-t", "tmpfs", "-o", f"size={size}", "tmpfs", str(folder)]
        self.is_mounted = subprocess.run(words, capture_output=True, check=False).returncode == 0

    def __enter__(self):
        return self

    def __exit__(self, *_):
        if self.is_mounted:
            subprocess.run(["umount", "-l", str(self.folder)], check=False)

    def room(self):
        """How many bytes are free."""
        found = os.statvfs(self.folder)
        return found.f_bavail * found.f_frsize

    def fill(self, left):
        """Fills the disk up to so many bytes, and gives the file that does it."""
        filler = self.folder / "filler"
        with open(filler, "wb") as it:
            it.write(b"\0" * max(self.room() - left, 0))
        return filler


PAUSED = (
    "intake: the database failed again: it is opened in %d s at the earliest, "
    "and until then a request gets 503 at once"
)


def told_up_to(serving, line):
    """What was written up to this line, which is waited for."""
    found = ""
    while f"{line}\n" not in found and (more := serving.process.stderr.readline().decode()):
        found += more
    return found


def check_full_register(folder):
    with SmallDisk(folder / "disk", 4 << 20) as disk:
        if not disk.is_mounted:
            print("not tried: a register on a full disk, since no file system may be mounted")
            return
        database = disk.folder / "register.db"
        serving = Serving(database, 8, "--new")
        hold("before the disk is full", statuses(exchange(serving.port, request("k-1", SMALLEST))), [201])
        filler = disk.fill(8 << 10)
        large = SMALLEST.ljust(200_000)
        hold("a report for which there is no room", statuses(exchange(serving.port, request("k-2", large))), [503])
        hold("and the next one", statuses(exchange(serving.port, request("k-3", large))), [503])
        before = told_up_to(serving, PAUSED % 1)
        time.sleep(1.2)
        hold("and the next one after the first pause", statuses(exchange(serving.port, request("k-3", large))), [503])
        before += told_up_to(serving, PAUSED % 2)
        hold("anything in the second pause", statuses(exchange(serving.port, request("k-1", SMALLEST))), [503])
        filler.unlink()
        time.sleep(2.2)
        hold("once there is room", statuses(exchange(serving.port, request("k-2", large))), [201])
        hold("a repeat of the first", statuses(exchange(serving.port, request("k-1", SMALLEST))), [201])
        hold("another body under its key", statuses(exchange(serving.port, request("k-1", large))), [422])
        status, _, after = serving.end()
        errors = before + after
        hold("serve ends", status, 0)
        failed, again = errors.count("the database failed,"), errors.count("the database is open again")
        tell("a failure is reported, and that it is over", None if failed == 3 and again == failed else errors)
        pauses = [line for line in errors.splitlines() if "at the earliest" in line]
        hold("and each pause", pauses, [PAUSED % 1, PAUSED % 2])
        hold("what was answered is kept", said(run(INTAKE, "check", "--db", database), folder)[:2],
             (0, "sound: 2 kept, 2 filings\n"))


def put_with_room(folder, left):
    """Puts a report of 200,000 bytes into an outbox on a disk with so many bytes free. Whether its entry was
    printed, and whether it is there."""
    with SmallDisk(folder / f"disk-{left}", 4 << 20) as disk:
        database = disk.folder / "outbox.db"
        report = folder / "large.json"
        report.write_bytes(SMALLEST.ljust(200_000))
        run(OUTBOX, "init", "--db", database, "--filer", "ACME")
        filler = disk.fill(left)
        done = run(OUTBOX, "put", "--db", database, "--body", report, "--key", "k-1")
        filler.unlink()
        status = run(OUTBOX, "status", "--db", database)
        return done, status.stdout


def check_full_outbox(folder):
    with SmallDisk(folder / "trial", 1 << 20) as disk:
        if not disk.is_mounted:
            print("not tried: an outbox on a full disk, since no file system may be mounted; "
                  "a limit on the size of files is")
            check_limited_outbox(folder)
            return
    told = {}
    for left in range(0, 800 << 10, 4 << 10):
        done, stands = put_with_room(folder, left)
        is_told = done.returncode == 0 and done.stdout == b"entry 1\n"
        told[left] = is_told
        if is_told != (stands == b"entry 1 open\n"):
            tell(f"a put with {left} bytes free",
                 f"status {done.returncode}, {done.stdout!r}, {done.stderr!r}, then {stands!r}")
    least = min((left for left, is_told in told.items() if is_told), default=None)
    tell(f"put prints what it committed, at each of {len(told)} sizes of free space; the least that will do is {least}",
         None if least is not None and not all(told.values()) else "no size decides")


def check_limited_outbox(folder):
    database, report = folder / "limited.db", folder / "large.json"
    report.write_bytes(SMALLEST.ljust(200_000))
    for size in range(64 << 10, 800 << 10, 16 << 10):
        for it in (database, pathlib.Path(f"{database}-wal")):
            it.unlink(missing_ok=True)
        run(OUTBOX, "init", "--db", database, "--filer", "ACME")

        def limited():
            signal.signal(signal.SIGXFSZ, signal.SIG_IGN)
            resource.setrlimit(resource.RLIMIT_FSIZE, (size, size))

        done = run(OUTBOX, "put", "--db", database, "--body", report, "--key", "k-1", preexec_fn=limited)
        stands = run(OUTBOX, "status", "--db", database).stdout
        if (done.returncode == 0) != (stands == b"entry 1 open\n"):
            tell(f"a put with files of at most {size} bytes",
                 f"status {done.returncode}, {done.stderr!r}, then {stands!r}")
    tell("put prints what it committed, at each size of files")


def check_puts_of_several(folder):
    """Of four reports those are in the outbox whose entries were printed, at whatever size no file may grow."""
    database, several = folder / "several.db", [folder / f"several-{it}.json" for it in range(4)]
    for it, report in enumerate(several):
        report.write_bytes(SMALLEST.ljust(100_000 + it))
    counts = set()
    for size in range(64 << 10, 1024 << 10, 32 << 10):
        for it in (database, pathlib.Path(f"{database}-wal")):
            it.unlink(missing_ok=True)
        run(OUTBOX, "init", "--db", database, "--filer", "ACME")

        def limited():
            signal.signal(signal.SIGXFSZ, signal.SIG_IGN)
            resource.setrlimit(resource.RLIMIT_FSIZE, (size, size))

        status, output, errors = said(run(OUTBOX, "put", "--db", database, "--body", *several, preexec_fn=limited),
                                      folder)
        told = output.count("\n")
        counts.add(told)
        refused = f"outbox: several-{told}.json: not put in, nor any after it: the disk failed, or is full\n"
        stands = run(OUTBOX, "show", "--db", database).stdout.decode()
        lengths = [int(line.split(", ")[1].split()[0]) for line in stands.splitlines()]
        wanted = (0 if told == 4 else 3, "".join(f"entry {it + 1}\n" for it in range(told)), told == 4,
                  [100_000 + it for it in range(told)])
        found = (status, output, refused not in errors, lengths)
        if found != wanted:
            tell(f"a put of four with files of at most {size} bytes", f"{found}, {errors!r}, where {wanted} is right")
    tell("a put of four prints what it committed, and which not, at each size of files",
         None if {0, 4} < counts else f"only {sorted(counts)} were put in")


# ---- files that are none, and damaged ones


def check_files(folder):
    text, foreign, linked = folder / "text", folder / "foreign.db", folder / "linked.db"
    text.write_text("no database, and long enough to be read as one " * 20)
    with sqlite3.connect(foreign) as conn:
        conn.execute("CREATE TABLE other (x)")
    conn.close()
    make_register(linked)
    os.link(linked, folder / "second.db")
    os.mkfifo(folder / "pipe")
    (folder / "circle.db").symlink_to("circle.db")
    before = sorted(os.listdir(folder))
    for name, status, output, cause in (
        ("missing.db", 1, "not a register\n", "there is no such file"),
        ("text", 1, "not a register\n", "not a database"),
        ("foreign.db", 1, "not a register\n", "not a register: these are the tables of another program"),
        (".", 3, "", "it is a folder, and not a file"),
        ("pipe", 3, "", "not a regular file"),
        ("circle.db", 3, "", "too many symbolic links"),
        ("n" * 300, 3, "", "the name is too long"),
        ("linked.db", 3, "", "the file has a second name (a hard link)"),
    ):
        found = said(run(INTAKE, "check", "--db", folder / name), folder)
        shown = str(folder) if name == "." else name
        hold(f"check of {name}", found, (status, output, f"intake: {shown}: {cause}\n"))
    hold("nothing is left beside them", sorted(os.listdir(folder)), before)


def check_descriptors(folder):
    database = folder / "register.db"
    make_register(database)

    def limited():
        resource.setrlimit(resource.RLIMIT_NOFILE, (4, 4))

    done = run(INTAKE, "check", "--db", database, preexec_fn=limited)
    hold("check with few descriptors", said(done, folder),
         (3, "", "intake: register.db: too many open files: raise the limit (ulimit -n)\n"))


DAMAGED = "the checksum or the structure of a page is wrong: keep the file and the log beside it, and restore a copy"
UNSUMMED = "SQLite wrote it without the checksums of its pages: register-restore makes a database that opens"


def make_small_register(database):
    """A register with one report, and no log beside it."""
    serving = Serving(database, 1, "--new")
    exchange(serving.port, request("k-1", SMALLEST.ljust(3000)))
    serving.end()


def hold_damaged(what, database, cause, folder):
    wanted = (1, "damaged at row 0\n", f"intake: {database.name}: {cause}\n")
    hold(f"check of {what}", said(run(INTAKE, "check", "--db", database), folder), wanted)
    listed = said(run(INTAKE, "list", "--db", database, "--filer", "ACME"), folder)
    hold(f"list of {what}", listed, (1, "", f"intake: {database.name}: {cause}\n"))


def check_damage(folder):
    whole, changed = folder / "whole.db", folder / "changed.db"
    make_small_register(whole)
    sound = whole.read_bytes()
    # A byte of a body, of the head's count of pages, of its number for auto_vacuum, of the names of the tables, of a
    # sum, and of a page's head.
    places = (sound.find(b"documentInfo"), 29, 55, sound.find(b"intake_meta"), 4095, 4096)
    for at in places:
        data = bytearray(sound)
        data[at] ^= 1
        changed.write_bytes(data)
        hold_damaged(f"a register whose byte {at} is changed", changed, DAMAGED, folder)
    changed.write_bytes(sound[:-4096])
    hold_damaged("a register that is cut", changed, DAMAGED, folder)
    changed.write_bytes(b"s" + sound[1:])
    done = said(run(INTAKE, "check", "--db", changed), folder)
    hold("check of one without the head of a database", done,
         (1, "not a register\n", "intake: changed.db: not a database\n"))


# What is done with the moments of 9 requests, and what is wrong then. Each row by the text of docs/PROTOCOL.md.
CHANGED_MOMENTS = {
    "DELETE FROM received WHERE seq = 9": 9,
    "DELETE FROM received WHERE seq = 3": 3,
    "DELETE FROM received WHERE seq = 2": 2,
    "DELETE FROM received WHERE seq IN (4, 7)": 4,
    "DELETE FROM received WHERE seq IN (1, 2, 8)": 8,
    "DELETE FROM received WHERE seq = 1": None,
    "DELETE FROM received WHERE seq < 9": None,
    "DELETE FROM received": None,
    "UPDATE received SET moment = moment + 1": None,
    "UPDATE received SET moment = -1 WHERE seq = 5": 5,
    "UPDATE received SET moment = -1 WHERE seq = 1": 1,
    "DELETE FROM received WHERE seq < 3; UPDATE received SET moment = -1 WHERE seq = 3": 3,
    "DELETE FROM received WHERE seq = 3; UPDATE received SET seq = 12 WHERE seq = 9": 3,
    "DELETE FROM received WHERE seq < 4; INSERT INTO received VALUES (12, 0)": 3,
    "INSERT INTO received VALUES (10, 0)": 0,
}


def check_moments(folder):
    """The row that is reported is the one whose moment is missing."""
    register, changed = folder / "register.db", folder / "changed.db"
    serving = Serving(register, 1, "--new")
    exchange(serving.port, b"".join(request(f"k-{at}", SMALLEST, close=at == 9) for at in range(1, 10)))
    serving.end()
    with sqlite3.connect(register) as old:
        statements = "\n".join(old.iterdump())
    old.close()
    for sql, row in CHANGED_MOMENTS.items():
        changed.unlink(missing_ok=True)
        make_by_sql(changed, statements)
        with sqlite3.connect(changed) as database:
            database.executescript(sql)
        database.close()
        wanted = "sound: 9 kept, 9 filings\n" if row is None else f"damaged at row {row}\n"
        hold(f"check after {sql}", run(INTAKE, "check", "--db", changed).stdout.decode(), wanted)


def check_copies(folder):
    whole = folder / "whole.db"
    make_small_register(whole)
    with sqlite3.connect(whole) as old, sqlite3.connect(folder / "backup.db") as new:
        old.backup(new)
    old.close()
    new.close()
    old = sqlite3.connect(whole)
    old.execute("VACUUM INTO ?", (str(folder / "vacuum.db"),))
    with sqlite3.connect(folder / "dump.db") as new:
        new.executescript("\n".join(old.iterdump()))
    old.close()
    new.close()
    for name in ("backup.db", "vacuum.db"):
        hold_damaged(f"a copy by SQLite, {name}", folder / name, UNSUMMED, folder)
    for name in ("whole.db", "dump.db"):
        hold(f"check of {name}", said(run(INTAKE, "check", "--db", folder / name), folder),
             (0, "sound: 1 kept, 1 filings\n", ""))


def check_copy_of_an_outbox(folder):
    run(OUTBOX, "init", "--db", folder / "box.db", "--filer", "ACME")
    with sqlite3.connect(folder / "box.db") as old, sqlite3.connect(folder / "backup.db") as new:
        old.backup(new)
    old.close()
    new.close()
    cause = UNSUMMED.replace("register-restore", "outbox-restore")
    hold("a copy of an outbox by SQLite", said(run(OUTBOX, "status", "--db", folder / "backup.db"), folder),
         (1, "", f"outbox: backup.db: {cause}\n"))


def check_used_port(folder):
    with socket.create_server(("127.0.0.1", 0)) as other:
        port = other.getsockname()[1]
        done = run(INTAKE, "serve", "--db", folder / "r.db", "--port", port, "--connections", 1, "--new")
    hold("a new register on a port that is used", (done.returncode, done.stderr.startswith(b"intake: 127.0.0.1:")),
         (3, True))
    hold("leaves no file", list(folder.iterdir()), [])


def check_rights(folder):
    if os.geteuid() != 0 or shutil.which("setpriv") is None:
        print("not tried: a file without rights, for which root and setpriv are needed")
        return
    folder.chmod(0o755)
    database = folder / "register.db"
    make_register(database)
    database.chmod(0o600)
    done = run("setpriv", "--reuid=65534", "--regid=65534", "--clear-groups", INTAKE, "check", "--db", database)
    wanted = "permission denied: the file and its folder have to be readable and writable"
    hold("check of a file without rights", said(done, folder), (3, "", f"intake: register.db: {wanted}\n"))


# ---- files that may only be read

READER = ("setpriv", "--reuid=65534", "--regid=65534", "--clear-groups")
BUSY = "another program has it open"
LISTED = '{"filings":[{"facts":1,"number":1},{"facts":1,"number":2}]}\n'


def lying_in(folder):
    """What lies in a folder: each name with its bytes, its rights and the moment of its last change."""
    return {it.name: (it.read_bytes(), it.stat().st_mode, it.stat().st_mtime_ns) for it in folder.iterdir()}


def make_both(folder):
    """A register whose intake was killed, so that its filings are in the log alone, and an outbox."""
    folder.mkdir()
    serving = Serving(folder / "register.db", 9, "--new")
    sent = [request(f"k-{at}", body) for at, body in enumerate((REPORT, REPORT.replace(b"100", b"200"), b"{}"))]
    hold("three reports", [statuses(exchange(serving.port, it)) for it in sent], [[201], [201], [422]])
    serving.process.kill()
    serving.process.communicate(timeout=PATIENCE)
    report = folder / "report.json"
    report.write_bytes(REPORT)
    run(OUTBOX, "init", "--db", folder / "outbox.db", "--filer", "ACME")
    run(OUTBOX, "put", "--db", folder / "outbox.db", "--body", report, "--key", "k-1")
    report.unlink()


def copy_both(folder, copy):
    copy.mkdir()
    for it in folder.iterdir():
        shutil.copy(it, copy)


def read_both(folder, site, under=()):
    """What each command prints that changes nothing, and the pages. The commands that may copy the log come last."""
    register, outbox = folder / "register.db", folder / "outbox.db"
    site.mkdir()
    site.chmod(0o777)
    found = [
        said(run(*under, program, *words), folder)
        for program, *words in (
            (INTAKE, "list", "--db", register, "--filer", "ACME"),
            (INTAKE, "show", "--db", register, "--number", 2),
            (INTAKE, "export", "--db", register, "--format", "jsonl"),
            (INTAKE, "pages", "--db", register, "--into", site),
            (OUTBOX, "show", "--db", outbox),
            (INTAKE, "check", "--db", register),
            (OUTBOX, "status", "--db", outbox),
        )
    ]
    return found, {it.relative_to(site): it.read_bytes() for it in site.rglob("*") if it.is_file()}


def hold_read(what, found, pages):
    """Holds what was printed against what was filed."""
    hold(f"{what}: the status of each", [status for status, _, _ in found], [0] * 7)
    hold(f"{what}: no errors", [errors for _, _, errors in found], [""] * 7)
    hold(f"{what}: list", found[0][1], LISTED)
    hold(f"{what}: records", [json.loads(line)["number"] for line in found[2][1].splitlines()], [1, 2])
    hold(f"{what}: check", found[5][1], "sound: 3 kept, 2 filings\n")
    hold(f"{what}: status", found[6][1], "entry 1 open\n")
    tell(f"{what}: pages", None if pathlib.Path("index.html") in pages else "none")


def check_reading(folder):
    """Commands that change nothing read a register with its log, and leave both as they are."""
    given, copy, alone = folder / "given", folder / "copy", folder / "alone"
    make_both(given)
    copy_both(given, copy)
    alone.mkdir()
    shutil.copy(given / "register.db", alone)
    listed = run(INTAKE, "list", "--db", alone / "register.db", "--filer", "ACME")
    hold("the filings are in the log alone", LISTED in listed.stdout.decode(), False)

    register = copy / "register.db"
    for words in (("list", "--filer", "ACME"), ("show", "--number", 1), ("export", "--format", "csv"),
                  ("digest",)):  # fmt: skip
        before = lying_in(copy)
        hold(f"{words[0]} of both", run(INTAKE, words[0], "--db", register, *words[1:]).returncode, 0)
        hold("leaves them as they are", lying_in(copy) == before, True)
    hold("check of both", said(run(INTAKE, "check", "--db", register), copy), (0, "sound: 3 kept, 2 filings\n", ""))
    shutil.copy(register, alone)
    listed = run(INTAKE, "list", "--db", alone / "register.db", "--filer", "ACME")
    hold("copies the log into the file", listed.stdout.decode(), LISTED)


def check_reading_alone(folder):
    """They read what they may not write, and make nothing beside it."""
    given, copy, shelf = folder / "given", folder / "copy", folder / "shelf"
    make_both(given)
    copy_both(given, copy)
    wanted = read_both(copy, folder / "site")
    hold_read("files that may be written", *wanted)
    if os.geteuid() != 0 or shutil.which("setpriv") is None:
        print("not tried: files that may only be read, for which root and setpriv are needed")
        return
    folder.chmod(0o755)
    copy_both(given, shelf)
    for it in shelf.iterdir():
        it.chmod(0o444)
    shelf.chmod(0o555)
    before = lying_in(shelf)
    found = read_both(shelf, folder / "shelf-site", READER)
    hold_read("files that may only be read", *found)
    hold("they give what writable ones give", found == wanted, True)
    hold("nothing is made or changed", lying_in(shelf) == before, True)
    for words in (("migrate",), ("serve", "--port", free_port(), "--connections", 1)):
        done = run(*READER, INTAKE, words[0], "--db", shelf / "register.db", *words[1:])
        hold(f"{words[0]} of them", (done.returncode, b"permission denied" in done.stderr), (3, True))
    check_reading_disk(folder, given, wanted)


def check_reading_disk(folder, given, wanted):
    """The same for root, who may write anything, on a file system that may not be written."""
    disk = folder / "disk"
    disk.mkdir()
    if run("mount", "-t", "tmpfs", "none", disk).returncode != 0:
        print("not tried: a file system that may only be read, since none may be mounted")
        return
    try:
        copy_both(given, disk / "both")
        run("mount", "-o", "remount,ro", disk)
        before = lying_in(disk / "both")
        found = read_both(disk / "both", folder / "disk-site")
        hold_read("a disk that may only be read", *found)
        hold("it gives what a writable one gives", found == wanted, True)
        hold("it has what it had", lying_in(disk / "both") == before, True)
    finally:
        run("umount", disk)


def check_readers(folder):
    """Readers have a register together, and not while another program may write to it."""
    register = folder / "register.db"
    make_small_register(register)
    listed = INTAKE, "list", "--db", register, "--filer", "ACME"
    serving = Serving(register, 1)
    hold("list while it is served", said(run(*listed), folder), (3, "", f"intake: register.db: {BUSY}\n"))
    exchange(serving.port, b"GET / HTTP/1.1\r\nHost: h\r\n\r\n")
    serving.end()
    # The locks of SQLite: its pending, reserved and shared bytes (file format, os.h).
    with open(register, "r+b") as other:
        fcntl.lockf(other, fcntl.LOCK_SH | fcntl.LOCK_NB, 512, 1 << 30)
        hold("list beside another reader", run(*listed).returncode, 0)
        served = run(INTAKE, "serve", "--db", register, "--port", free_port(), "--connections", 1)
        hold("serve beside a reader", said(served, folder), (3, "", f"intake: register.db: {BUSY}\n"))
        fcntl.lockf(other, fcntl.LOCK_EX | fcntl.LOCK_NB, 512, 1 << 30)
        hold("list beside a writer", run(*listed).returncode, 3)


# ---- reports and entries


def check_lint(folder):
    good, bad = folder / "good.json", folder / "bad.json"
    good.write_bytes(SMALLEST)
    bad.write_bytes(b'{"documentInfo":1}')
    hold("lint of a valid report", said(run(INTAKE, "lint", "--filer", "ACME", good), folder), (0, "", ""))
    status, output, errors = said(run(INTAKE, "lint", "--filer", "ACME", good, bad), folder)
    judged = run(INTAKE, given=request("k-1", bad.read_bytes())).stdout
    findings = json.loads(judged.partition(b"\r\n\r\n")[2])["findings"]
    hold("a filing is refused for that", findings, [{"code": "document-info", "place": "/documentInfo"}])
    line = "bad.json:1:17: document-info: 1 is not an object (/documentInfo)\n"
    hold("lint finds what a filing is refused for", (status, output, errors), (1, line, ""))
    hold("and so does the outbox", said(run(OUTBOX, "lint", "--filer", "ACME", good, bad), folder), (1, line, ""))
    told = [json.loads(it)
            for it in said(run(OUTBOX, "lint", "--filer", "ACME", "--json", bad), folder)[1].splitlines()]
    wanted = {"file": "bad.json", "line": 1, "column": 17,
              "code": "document-info", "place": "/documentInfo", "value": "1"}
    hold("as an object too", told, [{**wanted, "message": "1 is not an object"}])
    hold("lint of no file", said(run(INTAKE, "lint", "--filer", "ACME", folder / "none"), folder)[0], 3)
    hold("lint for no filer", run(INTAKE, "lint", "--filer", "a/b", good).returncode, 2)


def check_entries(folder):
    database, report = folder / "outbox.db", folder / "report.json"
    report.write_bytes(SMALLEST)
    run(OUTBOX, "init", "--db", database, "--filer", "ACME")
    for key in ("k-1", "a key", "k-3"):
        run(OUTBOX, "put", "--db", database, "--body", report, "--key", key)
    long = "entry 1 open, 84 bytes, key k-1\nentry 2 open, 84 bytes, key a key\nentry 3 open, 84 bytes, key k-3\n"
    hold("show of each entry", said(run(OUTBOX, "show", "--db", database), folder), (0, long, ""))
    nobody = run(OUTBOX, "send", "--db", database, "--port", free_port(), "--all")
    hold("send --all to nobody stops at the first", said(nobody, folder)[:2], (3, "entry 1 open\n"))
    hold("send --all and --entry",
         run(OUTBOX, "send", "--db", database, "--port", 1, "--all", "--entry", 1).returncode, 2)
    serving = Serving(folder / "register.db", 4, "--new")
    hold("send of one", said(run(OUTBOX, "send", "--db", database, "--port", serving.port, "--entry", 2), folder),
         (0, "entry 2 confirmed 1\n", ""))
    every = run(OUTBOX, "send", "--db", database, "--port", serving.port, "--all")
    hold("send --all sends what is open", said(every, folder), (0, "entry 1 confirmed 2\nentry 3 confirmed 3\n", ""))
    exchange(serving.port, b"GET / HTTP/1.1\r\nHost: h\r\n\r\n")
    serving.end()
    hold("send --all if nothing is open",
         said(run(OUTBOX, "send", "--db", database, "--port", 1, "--all"), folder), (0, "nothing open\n", ""))
    hold("show of one entry", said(run(OUTBOX, "show", "--db", database, "--entry", 3), folder),
         (0, "entry 3 confirmed 3, 84 bytes, key k-3\n", ""))
    hold("show of no entry", run(OUTBOX, "show", "--db", database, "--entry", 4).returncode, 4)


# ---- texts from outside

# A text with each kind of character that is not shown as it is, and how it is shown.
HOSTILE = "a\x1b[2J\x7f\x85\x9b31m\u061c\u200e\u202eb\u2028\u2066ü"
TAME = r"a\u001b[2J\u007f\u0085\u009b31m\u061c\u200e\u202eb\u2028\u2066ü"


def check_names_of_files(folder):
    name, shown = f"x\n{HOSTILE}", f"x\\u000a{TAME}"
    for program, words in (
        (INTAKE, ("check", "--db")), (OUTBOX, ("status", "--db")), (INTAKE, ("lint", "--filer", "ACME")),
        (OUTBOX, ("lint", "--filer", "ACME")),
    ):
        errors = said(run(program, *words, folder / name), folder)[2]
        hold(f"{program.name} {words[0]} of such a name", (errors.split(": ")[1], errors.count("\n")), (shown, 1))
    bad = folder / name
    bad.write_bytes(b"{}")
    line = f"{shown}:1:1: document-info: the member is missing (/documentInfo)\n"
    hold("lint of such a file", said(run(OUTBOX, "lint", "--filer", "ACME", bad), folder), (1, line, ""))
    errors = run(INTAKE, f"--{HOSTILE}").stderr.decode()
    hold("a word that is no option", (HOSTILE in errors, TAME in errors), (False, True))


def check_texts_of_reports(folder):
    report = folder / "report.json"
    raw = HOSTILE.replace("\x1b", "")
    shown = TAME.replace(r"\u001b", "")
    fact = {"value": 1, "dimensions": {"concept": "eg:Assets"}}
    report.write_text(json.dumps({"documentInfo": {"documentType": raw}, "facts": {HOSTILE: fact}}, ensure_ascii=False))
    status, output, _ = said(run(INTAKE, "lint", "--filer", "ACME", report), folder)
    hold("values in the lines of lint", f': "{shown}" is not https://xbrl.org/2021/xbrl-json (' in output, True)
    hold("and places", f"(/facts/{TAME}/value)" in output, True)
    hold("and no control", (status, [it for it in raw if it in output and it not in "a[2J31mbü"]), (1, []))
    objects = map(json.loads, run(INTAKE, "lint", "--filer", "ACME", "--json", report).stdout.splitlines())
    hold("as objects they are exact", f"/facts/{HOSTILE}/value" in [it["place"] for it in objects], True)
    database = folder / "register.db"
    given = REPORT.replace(b'"100"', json.dumps(raw, ensure_ascii=False).encode()).replace(
        b'"decimals":0,', b"").replace(b',"unit":"iso4217:EUR"', b"")
    serving = Serving(database, 1, "--new")
    hold("a report with such a value", statuses(exchange(serving.port, request("k-1", given))), [201])
    serving.end()
    output = run(INTAKE, "show", "--db", database, "--number", 1).stdout.decode()
    hold("show of it has one line", (output.count("\n"), f'"value":"{shown}"' in output), (1, True))
    hold("and reads as it was sent", json.loads(output)["value"], raw)


def check_texts_of_peers(folder):
    outbox = make_outbox(folder, 1)
    content = json.dumps({"status": 503, "reason": f"x\n{HOSTILE}"}).encode()
    peer = Peer(answers(reply(b"503 No", content, "application/problem+json")))
    hold("a reason of a peer", said(run(OUTBOX, "send", "--db", outbox, "--port", peer.port), folder),
         (0, "entry 1 open\n", f"outbox: entry 1: answered 503 No: x\\u000a{TAME}\n"))
    serving = Serving(folder / "register.db", 1, "--new")
    run(OUTBOX, "send", "--db", outbox, "--port", serving.port)
    serving.end()
    content = f"x\n{HOSTILE}".encode() + b"\xff"
    peer = Peer(answers(listed(1)), answers(reply(b"200 OK", content, "text/plain")))
    hold("a content of a peer", said(run(OUTBOX, "ask", "--db", outbox, "--port", peer.port, "--entry", 1), folder),
         (0, f"entry 1: 200 OK\nx\\u000a{TAME}\ufffd\n", ""))


def check_line_of_a_long_connection(folder):
    serving = Serving(folder / "register.db", 1, "--new", "--log")
    exchange(serving.port, request("k-1", REPORT, close=False) * 100)
    line = json.loads(serving.end()[1])
    hold("the line of a long connection", (line["places"], line["statuses"], line["filers"]),
         (100, [201] * 64, ["ACME"] * 64))


# ---- peers that answer wrongly, or not at all


def reply(status, content, kind="application/json", before=""):
    """A reply with this status line's rest, and the content under this media type."""
    length = f"Content-Type: {kind}\r\nContent-Length: {len(content)}\r\n{before}\r\n"
    return b"HTTP/1.1 " + status + b"\r\n" + length.encode() + content


def problem(status, reason):
    """A refusal with this reason, as problem details."""
    content = (
        f'{{"reason":"{reason}","status":{status[:3].decode()},'
        f'"title":"{status[4:].decode()}","type":"about:blank"}}'
    )
    return reply(status, content.encode(), "application/problem+json")


def registered(number):
    return reply(b"201 Created", f'{{"number":{number},"status":"registered"}}'.encode())


def listed(number, more=""):
    """The reply to a question about a filing that is there."""
    return reply(b"200 OK", f'{{"filings":[{{"facts":0,"number":{number}{more}}}]}}'.encode())


def make_outbox(folder, entries):
    """An outbox of ACME with so many entries, under the keys k-1, k-2, .."""
    outbox, report = folder / "outbox.db", folder / "report.json"
    report.write_bytes(SMALLEST)
    run(OUTBOX, "init", "--db", outbox, "--filer", "ACME")
    for entry in range(1, entries + 1):
        run(OUTBOX, "put", "--db", outbox, "--body", report, "--key", f"k-{entry}")
    return outbox


# What a peer does with an entry's request, and what is said of it.
FAILING = [
    ("the reply is cut", answers(registered(1)[:-1])),
    ("the reply is malformed", answers(b"HTTP/1.1 OK\r\n\r\n")),
    ("the content length of the reply is missing", answers(b"HTTP/1.1 201 Created\r\n\r\n")),
    ("the reply is too large", answers(b"HTTP/1.1 201 Created\r\nContent-Length: 8388609\r\n\r\n")),
    ("the connection broke before the whole reply came", breaks),
]


def check_round(folder):
    outbox = make_outbox(folder, len(FAILING) + 1)
    peer = Peer(*(act for _, act in FAILING), answers(registered(7)))
    every = run(OUTBOX, "send", "--db", outbox, "--port", peer.port, "--all")
    lines = "".join(f"entry {entry} open\n" for entry in range(1, len(FAILING) + 1)) + "entry 6 confirmed 7\n"
    errors = "".join(f"outbox: entry {entry}: {cause}\n" for entry, (cause, _) in enumerate(FAILING, 1))
    errors += f"outbox: 127.0.0.1:{peer.port}: 5 of 6 exchanges failed\n"
    hold("a round goes on after an exchange that failed", said(every, folder), (3, lines, errors))
    for entry, (cause, act) in enumerate(FAILING, 1):
        peer = Peer(act)
        one = run(OUTBOX, "send", "--db", outbox, "--port", peer.port, "--entry", entry)
        hold(f"send of one entry: {cause}", said(one, folder),
             (3, f"entry {entry} open\n", f"outbox: 127.0.0.1:{peer.port}: {cause}\n"))
    peer = Peer(answers(b""))
    every = said(run(OUTBOX, "send", "--db", outbox, "--port", peer.port, "--all"), folder)
    hold("a round ends once nobody listens", every[:2], (3, "entry 1 open\nentry 2 open\n"))
    first, *rest = every[2].splitlines()
    refused = [line.startswith(f"outbox: 127.0.0.1:{peer.port}: ") for line in rest]
    hold("and says why", (first, refused), ("outbox: entry 1: the reply is cut", [True]))


# Replies that settle nothing, and what is said of them.
UNSETTLED = [
    (problem(b"403 Forbidden", "not-yours"), "answered 403 Forbidden: not-yours"),
    (reply(b"404 Not Found", b'{"reason":"no-path"}'), "answered 404 Not Found"),
    (problem(b"429 Too Many Requests", "too-many"), "answered 429 Too Many Requests: too-many"),
    (reply(b"502 Bad Gateway", b"<html></html>", "text/html"), "answered 502 Bad Gateway"),
    (b"HTTP/1.1 102 Processing\r\n\r\n" + problem(b"503 Service Unavailable", "unavailable"),
     "answered 503 Service Unavailable: unavailable"),
    (reply(b"200 OK", b"ok", "text/plain"), "answered 200 OK"),
    (reply(b"201 Created", b'{"number":0,"status":"registered"}'), "answered 201 Created"),
    (reply(b"418 Th\xc3\xa9 \xff", b"{}"), "answered 418 Th\u00e9 \ufffd"),
    (reply(b"418 " + b"a" * 300, b"{}"), "answered 418 " + "a" * 196),
    (problem(b"400 Bad Request", "\\u001b[31m\\u00e9\\n"), "answered 400 Bad Request: \\u001b[31m\u00e9\\u000a"),
    (reply(b"400 Bad Request", b'{"reason":7}', "application/problem+json"), "answered 400 Bad Request"),
    (reply(b"400 Bad Request", b"no JSON", "application/problem+json"), "answered 400 Bad Request"),
    (reply(b"403 Forbidden", b"{}", before=f"X: {'x' * 9000}\r\n"), "the reply does not settle it"),
    (problem(b"403 Forbidden", "x" * 9000), "answered 403 Forbidden"),
]
REFUSED = problem(b"422 Unprocessable Content", "refused")
CLASHED = problem(b"422 Unprocessable Content", "key-reused")


def check_answers(folder):
    outbox = make_outbox(folder, 2)
    for text, told in UNSETTLED:
        sent = run(OUTBOX, "send", "--db", outbox, "--port", Peer(answers(text)).port)
        hold(f"what is said of a reply: {told[:40]}", said(sent, folder),
             (0, "entry 1 open\n", f"outbox: entry 1: {told}\n"))
    both = Peer(answers(UNSETTLED[0][0]), answers(UNSETTLED[3][0]))
    every = run(OUTBOX, "send", "--db", outbox, "--port", both.port, "--all")
    errors = "outbox: entry 1: answered 403 Forbidden: not-yours\noutbox: entry 2: answered 502 Bad Gateway\n"
    hold("and in a round", said(every, folder), (0, "entry 1 open\nentry 2 open\n", errors))
    peer = Peer(answers(REFUSED), answers(CLASHED))
    every = run(OUTBOX, "send", "--db", outbox, "--port", peer.port, "--all")
    errors = "outbox: entry 1: refused; the report has findings: outbox ask --entry 1 lists them\n"
    errors += "outbox: entry 2: clashed; the register has another report under its key: put it in under a new one\n"
    hold("what to do with what is refused", said(every, folder), (0, "entry 1 refused\nentry 2 clashed\n", errors))


# What a peer answers to the entries of a round, and the status and the last line of `send --strict`.
STRICT = [
    ([registered(1), registered(2)], 0, None),
    ([registered(1), REFUSED], 1, "not filed: 1 refused or clashed, 0 open"),
    ([CLASHED, registered(2)], 1, "not filed: 1 refused or clashed, 0 open"),
    ([registered(1), UNSETTLED[0][0]], 3, "not filed: 0 refused or clashed, 1 open"),
    ([UNSETTLED[0][0], REFUSED], 1, "not filed: 1 refused or clashed, 1 open"),
    ([registered(1), b""], 3, "not filed: 0 refused or clashed, 1 open"),
    ([REFUSED, b""], 1, "not filed: 1 refused or clashed, 1 open"),
]


def check_strict(folder):
    """`send --strict` ends with 0 exactly if each entry that it sent is filed."""
    for at, (replies, status, last) in enumerate(STRICT):
        (folder / str(at)).mkdir()
        outbox = make_outbox(folder / str(at), 2)
        peer = Peer(*map(answers, replies))
        every = run(OUTBOX, "send", "--db", outbox, "--port", peer.port, "--all", "--strict")
        told = said(every, folder)[2].splitlines()
        hold(f"a strict round: {last}", (every.returncode, told[-1] if told else None),
             (status, last and f"outbox: {last}"))
        state = run(OUTBOX, "send", "--db", outbox, "--port", 1, "--entry", 1, "--strict")
        if b"open" not in state.stdout:
            hold("and one entry that is settled", state.returncode, 0 if b"confirmed" in state.stdout else 1)
    (folder / "one").mkdir()
    outbox = make_outbox(folder / "one", 1)
    words = "send", "--db", outbox, "--strict", "--port"
    hold("a strict entry that stays open", run(OUTBOX, *words, Peer(answers(UNSETTLED[3][0])).port).returncode, 3)
    hold("a strict entry that is refused", run(OUTBOX, *words, Peer(answers(REFUSED)).port).returncode, 1)
    nothing = said(run(OUTBOX, *words, 1), folder)
    hold("a strict outbox with nothing open", nothing, (0, "nothing open\n", ""))


# What the register answers for a report `{}`, and the line for its one finding.
NO_INFO = (
    '{"findings":[{"code":"document-info","place":"/documentInfo"}],"reason":"refused","status":422,'
    '"title":"Unprocessable Content","type":"about:blank"}'
)
NO_INFO_LINE = "entry-2:1:1: document-info: the member is missing (/documentInfo)\n"
NO_INFO_OBJECT = (
    '{"code":"document-info","column":1,"file":"entry-2","line":1,"message":"the member is missing",'
    '"place":"/documentInfo","value":null}\n'
)
# The register has no filing 7, which entry 3 is to replace.
NOT_REPLACEABLE = NO_INFO.replace('{"code":"document-info","place":"/documentInfo"}',
                                  '{"code":"not-replaceable","place":""}')
NOT_REPLACEABLE_LINE = "entry-3:1:1: not-replaceable: the object may not replace that filing ()\n"


def contradiction(port, entry, state, told):
    """What is said of a reply that settles an entry in another way than it is settled."""
    return (f"outbox: 127.0.0.1:{port}: entry {entry} is {state}, but the reply says {told}: "
            "another register answers, or it was restored; ask its supervisor\n")


def ask(outbox, entry, port, *words):
    return run(OUTBOX, "ask", "--db", outbox, "--entry", entry, "--port", port, *words)


def check_questions(folder):
    """Settled entries are asked about: a register answers as it did at first, and another peer's answer is shown all
    the same. Two connections are made for a confirmed one."""
    outbox, poor = make_outbox(folder, 1), folder / "poor.json"
    poor.write_bytes(b"{}")
    run(OUTBOX, "put", "--db", outbox, "--body", poor, "--key", "k-2")
    run(OUTBOX, "put", "--db", outbox, "--body", folder / "report.json", "--key", "k-3", "--amend", 7)
    serving = Serving(folder / "register.db", 8, "--new")
    run(OUTBOX, "send", "--db", outbox, "--port", serving.port, "--all")
    before = said(run(OUTBOX, "show", "--db", outbox), folder)
    created = 'entry 1: 201 Created\n{"number":1,"status":"registered"}\n'
    refused = f"entry 2: 422 Unprocessable Content\n{NO_INFO}\n{NO_INFO_LINE}"
    unfit = f"entry 3: 422 Unprocessable Content\n{NOT_REPLACEABLE}\n{NOT_REPLACEABLE_LINE}"
    hold("a question about a confirmed entry", said(ask(outbox, 1, serving.port), folder), (0, created, ""))
    hold("a question about a refused entry", said(ask(outbox, 2, serving.port), folder), (0, refused, ""))
    hold("a question about an entry that may not replace", said(ask(outbox, 3, serving.port), folder), (0, unfit, ""))
    content = json.dumps(NO_INFO)
    objects = f'{{"content":{content},"entry":2,"status":422}}\n{NO_INFO_OBJECT}'
    hold("a question as objects", said(ask(outbox, 2, serving.port, "--json"), folder), (0, objects, ""))
    serving.end()
    texts = CLASHED, reply(b"200 OK", b"a\nb\xff", "text/plain"), listed(1), reply(b"418 No", b"")
    other = Peer(*map(answers, texts))
    clashed = (
        "entry 2: 422 Unprocessable Content\n"
        '{"reason":"key-reused","status":422,"title":"Unprocessable Content","type":"about:blank"}\n'
    )
    hold("an answer that contradicts the entry", said(ask(outbox, 2, other.port), folder),
         (3, clashed, contradiction(other.port, 2, "refused", "clashed")))
    hold("a content that is no line of text", said(ask(outbox, 2, other.port), folder),
         (0, "entry 2: 200 OK\na\\u000ab\ufffd\n", ""))
    hold("an answer without content", said(ask(outbox, 1, other.port), folder), (0, "entry 1: 418\n\n", ""))
    cut = Peer(answers(listed(1)), answers(registered(1)[:-1]))
    hold("a cut answer", said(ask(outbox, 1, cut.port), folder),
         (3, "", f"outbox: 127.0.0.1:{cut.port}: the reply is cut\n"))
    hold("the outbox is as it was", said(run(OUTBOX, "show", "--db", outbox), folder), before)


# What a register answers that is asked for filing 7, which has no fact and replaces filing 2, and whether it lists it;
# None if the reply is no list.
LISTS = [
    (listed(7, ',"replaces":2'), True),
    (listed(7, ',"replaced_by":9,"replaces":2'), True),
    (reply(b"200 OK", b'{"more":1,"filings":[{"replaces":2,"number":7,"facts":0}]}', "text/plain"), True),
    (reply(b"200 OK", b'{"filings":[]}'), False),
    (listed(7), False),
    (listed(7, ',"replaces":3'), False),
    (listed(8, ',"replaces":2'), False),
    (listed('"7"', ',"replaces":2'), False),
    (listed("7.0", ',"replaces":2'), False),
    (listed(7, ',"facts":1,"replaces":2'), False),
    (reply(b"200 OK", b'{"filings":[{"number":7,"replaces":2}]}'), False),
    (reply(b"200 OK", b'{"filings":[{"facts":0,"replaces":2}]}'), False),
    (reply(b"200 OK", b'{"filings":{}}'), None),
    (reply(b"200 OK", b'{"filing":[]}'), None),
    (reply(b"200 OK", b'[{"facts":0,"number":7,"replaces":2}]'), None),
    (reply(b"200 OK", b""), None),
    (reply(b"200 OK", b"<html></html>", "text/html"), None),
    (reply(b"202 Accepted", b'{"filings":[{"facts":0,"number":7,"replaces":2}]}'), None),
    (registered(7), None),
    (problem(b"404 Not Found", "no-path"), None),
    (problem(b"503 Service Unavailable", "unavailable"), None),
]
LOOK = b"GET /filings/ACME/7 HTTP/1.1\r\nHost: localhost\r\nConnection: close\r\n\r\n"
NOT_LISTED = "entry 1 is confirmed as filing 7, which the register does not list for this filer; nothing was sent: "
NOT_LISTED += "another register answers, or it was restored; ask its supervisor"


def check_looks(folder):
    """Of a confirmed entry nothing is sent again unless the register lists its filing."""
    outbox, report = folder / "outbox.db", folder / "report.json"
    report.write_bytes(SMALLEST)
    run(OUTBOX, "init", "--db", outbox, "--filer", "ACME")
    run(OUTBOX, "put", "--db", outbox, "--body", report, "--key", "k-1", "--amend", 2)
    first = Peer(answers(registered(7)))
    run(OUTBOX, "send", "--db", outbox, "--port", first.port)
    for text, is_listed in LISTS:
        peer = Peer(answers(text), *[answers(registered(7))] * (is_listed is True))
        found = said(ask(outbox, 1, peer.port), folder)
        told = f'entry 1: 201 Created\n{{"number":7,"status":"registered"}}\n'
        told, fault = (told, "") if is_listed else ("", NOT_LISTED)
        if is_listed is None:
            fault = f"asked for filing 7 of entry 1, the register answered {text[9:12].decode()} and no list; "
            fault += "nothing was sent: ask again later"
        wanted = (0, told, "") if is_listed else (3, "", f"outbox: 127.0.0.1:{peer.port}: {fault}\n")
        hold(f"a look for a filing: {text[9:]}", found, wanted)
        hold("what is sent for it", peer.taken, [LOOK, *first.taken] if is_listed else [LOOK])
    for what, act in FAILING:
        peer = Peer(act)
        found = said(ask(outbox, 1, peer.port), folder)
        hold(f"a look that fails: {what}", (found, peer.taken),
             ((3, "", f"outbox: 127.0.0.1:{peer.port}: {what}\n"), [LOOK]))
    late = Peer(is_silent)
    found = said(ask(outbox, 1, late.port, "--patience", 1), folder)
    hold("a look that nobody answers", (found, late.taken),
         ((3, "", f"outbox: 127.0.0.1:{late.port}: no reply within 1 s\n"), [LOOK]))
    kept = folder / "receipts"
    kept.mkdir()
    asked = ask(outbox, 1, Peer(answers(reply(b"200 OK", b'{"filings":[]}'))).port, "--receipts", kept)
    hold("no receipt of a look", (asked.returncode, list(kept.iterdir())), (3, []))


def check_what_a_restore_lost(folder):
    """A register is restored from an older copy. Whoever asks about the filings that it lost files none anew."""
    outbox, register, older = make_outbox(folder, 4), folder / "register.db", folder / "older"
    older.mkdir()

    def sound():
        return said(run(INTAKE, "check", "--db", register), folder)

    for entries, fresh in (((1, 2), ["--new"]), ((3, 4), [])):
        serving = Serving(register, 2, *fresh)
        for entry in entries:
            run(OUTBOX, "send", "--db", outbox, "--port", serving.port, "--entry", entry)
        serving.end()
        if fresh:
            for file in folder.glob("register.db*"):
                shutil.copy(file, older)
    hold("4 filings", sound(), (0, "sound: 4 kept, 4 filings\n", ""))
    for file in folder.glob("register.db*"):
        file.unlink()
    for file in older.iterdir():
        shutil.copy(file, folder)
    states = said(run(OUTBOX, "status", "--db", outbox), folder)
    serving = Serving(register, 6)
    for entry in (1, 2, 3, 4):
        found = said(ask(outbox, entry, serving.port), folder)
        told = f'entry {entry}: 201 Created\n{{"number":{entry},"status":"registered"}}\n'
        fault = NOT_LISTED.replace("entry 1", f"entry {entry}").replace("filing 7", f"filing {entry}")
        hold(f"a question about entry {entry} after a restore", found,
             (0, told, "") if entry < 3 else (3, "", f"outbox: 127.0.0.1:{serving.port}: {fault}\n"))
    serving.end()
    hold("nothing is filed anew", sound(), (0, "sound: 2 kept, 2 filings\n", ""))
    hold("the outbox is as it was then", said(run(OUTBOX, "status", "--db", outbox), folder), states)


def receipt_name(filer, entry, key):
    """The name of the file of a receipt."""
    return f"{filer}-{entry}-{hashlib.sha256(key.encode()).hexdigest()[:8]}.json"


def receipt_in(folder, entry):
    """The receipt of an entry without its moment, and whether the moment is within the last minute."""
    receipt = json.loads((folder / receipt_name("ACME", entry, f"k-{entry}")).read_text())
    moment = datetime.datetime.fromisoformat(receipt.pop("moment").replace("Z", "+00:00"))
    return receipt, abs(datetime.datetime.now(datetime.timezone.utc) - moment) < datetime.timedelta(minutes=1)


def check_kept_receipts(folder, outbox, receipt):
    """A receipt stays if a reply contradicts its entry, and what is no receipt of an entry is never replaced."""
    kept, first = receipt.parent, receipt.read_bytes()
    words = "ask", "--db", outbox, "--entry", 2, "--receipts", kept, "--port"
    front = reply(b"400 Bad Request", b"<html>nginx</html>", "text/html")
    for text, told in ((registered(8), "confirmed 8"), (REFUSED, "refused"), (CLASHED, "clashed")):
        peer = Peer(answers(listed(7)), answers(text))
        asked = said(run(OUTBOX, *words, peer.port), folder)
        hold(f"a reply that contradicts: {told}", asked[::2], (3, contradiction(peer.port, 2, "confirmed 7", told)))
        hold("which leaves the receipt", receipt.read_bytes() == first, True)
    asked = said(run(OUTBOX, *words, Peer(answers(listed(7)), answers(front)).port), folder)
    hold("the page of a front", (asked[0], receipt.read_bytes() == first), (3, True))
    # A folder of several outboxes: one of another filer, and one of the same filer, whose entries have the same ids.
    for filer, key in (("BETA", "k-2"), ("ACME", "other")):
        (folder / key / filer).mkdir(parents=True)
        another = folder / key / filer / "box.db"
        run(OUTBOX, "init", "--db", another, "--filer", filer)
        for put in ("k-1", key):
            run(OUTBOX, "put", "--db", another, "--body", folder / "report.json", "--key", put)
        sent = run(OUTBOX, "send", "--db", another, "--entry", 2, "--receipts", kept,
                   "--port", Peer(answers(registered(9))).port)
        here = kept / receipt_name(filer, 2, key)
        hold(f"a receipt of {filer} beside it", (sent.returncode, here.is_file(), receipt.read_bytes() == first),
             (0, True, True))
    taken = f"outbox: entry 2: no receipt: {receipt.name} is there, and is no receipt of this entry\n"
    taken += "outbox: receipts that were not written: 1; outbox ask --receipts writes one again\n"
    others = [json.dumps(json.loads(first) | other).encode() for other in
              ({"filer": "BETA"}, {"key": "k-3"}, {"entry": 3})]
    for other in [*others, b"", b"[]", b"notes"]:
        receipt.write_bytes(other)
        asked = said(run(OUTBOX, *words, Peer(answers(listed(7)), answers(registered(7))).port), folder)
        hold(f"no receipt over another: {other[:20]}", (asked[::2], receipt.read_bytes()), ((3, taken), other))
    receipt.unlink()
    target = folder / "elsewhere"
    target.write_bytes(first)
    receipt.symlink_to(target)
    asked = said(run(OUTBOX, *words, Peer(answers(listed(7)), answers(registered(7))).port), folder)
    hold("no receipt through a link", (asked[::2], target.read_bytes() == first), ((3, taken), True))
    receipt.unlink()
    hold("nothing else is left there", sorted(it.name for it in kept.iterdir()),
         sorted(receipt_name(filer, 2, key) for filer, key in (("BETA", "k-2"), ("ACME", "other"))))


def check_receipts(folder):
    """Each reply that settles an entry has its receipt, and no other."""
    outbox, kept = make_outbox(folder, 2), folder / "receipts"
    words = ("send", "--db", outbox, "--receipts", kept)
    gone = said(run(OUTBOX, *words, "--port", 1), folder)
    hold("no receipts without a folder", gone,
         (3, "", "outbox: receipts: no receipt can be written there: No such file or directory (os error 2)\n"))
    kept.mkdir()
    peer = Peer(answers(problem(b"403 Forbidden", "not-yours")), answers(registered(7)))
    sent = run(OUTBOX, *words, "--port", peer.port, "--all")
    errors = "outbox: entry 1: answered 403 Forbidden: not-yours\n"
    hold("a round with receipts", said(sent, folder), (0, "entry 1 open\nentry 2 confirmed 7\n", errors))
    name = receipt_name("ACME", 2, "k-2")
    hold("a receipt for what is settled", sorted(it.name for it in kept.iterdir()), [name])
    of_request = {"entry": 2, "filer": "ACME", "key": "k-2", "target": None,
                  "length": len(SMALLEST), "sha256": hashlib.sha256(SMALLEST).hexdigest()}
    of_reply = {"status": 201, "content": '{"number":7,"status":"registered"}', "port": peer.port}
    hold("what it says", receipt_in(kept, 2), (of_request | of_reply, True))
    members = list(json.loads((kept / name).read_text()))
    hold("in the order of names", members, sorted(members))
    (kept / name).unlink()
    texts = listed(7), problem(b"503 Service Unavailable", "unavailable"), listed(7), registered(7)
    again = Peer(*map(answers, texts))
    asked = run(OUTBOX, "ask", "--db", outbox, "--entry", 2, "--port", again.port, "--receipts", kept)
    lost = "outbox: receipts that were not written: 1; outbox ask --receipts writes one again\n"
    content = '{"reason":"unavailable","status":503,"title":"Service Unavailable","type":"about:blank"}'
    printed = f"entry 2: 503 Service Unavailable\n{content}\n"
    hold("no receipt of 503", said(asked, folder),
         (3, printed, "outbox: entry 2: no receipt: the reply does not settle it\n" + lost))
    asked = run(OUTBOX, "ask", "--db", outbox, "--entry", 2, "--port", again.port, "--receipts", kept)
    hold("a question with a receipt", said(asked, folder), (0, f"entry 2: 201 Created\n{of_reply['content']}\n", ""))
    hold("which says the same", receipt_in(kept, 2), (of_request | of_reply | {"port": again.port}, True))
    check_kept_receipts(folder, outbox, kept / name)
    shutil.rmtree(kept)
    kept.mkdir()

    def takes_the_folder_away(connection):
        kept.rmdir()
        connection.sendall(registered(8))

    late = Peer(takes_the_folder_away)
    sent = run(OUTBOX, *words, "--port", late.port)
    errors = "outbox: entry 1: no receipt: No such file or directory (os error 2)\n" + lost
    hold("a receipt that cannot be written", said(sent, folder), (3, "entry 1 confirmed 8\n", errors))
    hold("its entry is settled", said(run(OUTBOX, "status", "--db", outbox), folder)[1],
         "entry 1 confirmed 8\nentry 2 confirmed 7\n")


def drips(connection):
    """The act of a peer that answers a byte each 0.2 seconds."""
    try:
        for byte in registered(1):
            connection.sendall(bytes((byte,)))
            time.sleep(0.2)
    except OSError:
        pass


def check_patience_of_a_round(folder):
    outbox = make_outbox(folder, 2)
    for what, act in (("a silent peer", is_silent), ("a peer that drips", drips)):
        for words, lines in ((("--entry", 2), "entry 2 open\n"), (("--all",), "entry 1 open\n")):
            peer, begun = Peer(act, act), time.monotonic()
            sent = run(OUTBOX, "send", "--db", outbox, "--port", peer.port, "--patience", 1, *words)
            took = time.monotonic() - begun
            wanted = (3, lines, f"outbox: 127.0.0.1:{peer.port}: no reply within 1 s\n")
            hold(f"patience with {what}, {words[0]}", said(sent, folder), wanted)
            tell("and it ends in time", None if 1 <= took < 15 else f"after {took:.1f} s")
    sent = run(OUTBOX, "send", "--db", outbox, "--port", Peer(answers(registered(3))).port, "--patience", 86400)
    hold("patience with a peer that answers", said(sent, folder), (0, "entry 1 confirmed 3\n", ""))


def check_same_report(folder):
    outbox, report = folder / "outbox.db", folder / "report.json"
    report.write_bytes(SMALLEST)
    run(OUTBOX, "init", "--db", outbox, "--filer", "ACME")
    same = "outbox: the same report is in the outbox already, as entry %d\n"
    for words, entry, errors in (((), 1, ""), ((), 2, same % 1), (("--key", "k-3"), 3, ""),
                                 (("--amend", 1), 4, ""), ((), 5, same % 3)):
        put = run(OUTBOX, "put", "--db", outbox, "--body", report, *words)
        hold(f"put of the same report, {words}", said(put, folder), (0, f"entry {entry}\n", errors))
    report.write_bytes(REPORT)
    hold("put of another report", said(run(OUTBOX, "put", "--db", outbox, "--body", report), folder),
         (0, "entry 6\n", ""))
    for entry in range(7, 23):
        run(OUTBOX, "put", "--db", outbox, "--body", report, "--key", f"k-{entry}", "--amend", 1)
    put = run(OUTBOX, "put", "--db", outbox, "--body", report)
    hold("16 entries are compared", said(put, folder), (0, "entry 23\n", ""))


def check_bodies_of_entries(folder):
    """`show --body` gives the bytes of a report back, and nothing else."""
    outbox = folder / "outbox.db"
    run(OUTBOX, "init", "--db", outbox, "--filer", "ACME")
    bodies = [REPORT, SMALLEST + b"\n", b"", b"\n", bytes(range(256)), b"\xff" * 1_048_576, b"\r\n\0 "]
    for entry, body in enumerate(bodies, 1):
        (folder / "report").write_bytes(body)
        run(OUTBOX, "put", "--db", outbox, "--body", folder / "report", "--key", f"k-{entry}")
    for entry, body in enumerate(bodies, 1):
        shown = run(OUTBOX, "show", "--db", outbox, "--entry", entry, "--body")
        hold(f"the report of entry {entry}", (shown.returncode, shown.stdout == body, shown.stderr), (0, True, b""))
    with open("/dev/full", "wb") as full:
        done = subprocess.run([OUTBOX, "show", "--db", outbox, "--entry", "1", "--body"], stdout=full,
                              stderr=subprocess.PIPE, check=False)
    hold("a report for which there is no room", (done.returncode, done.stderr),
         (3, b"outbox: the output cannot be written\n"))


def valid_report(value):
    """The example with this value, and members that are ignored around it: it is no text of another writer's."""
    return b'\r\n\t{"\\u0000": "\\n",' + REPORT.replace(b'"value":"100"', b'"value":"%d"' % value)[1:] + b" \n\n"


def body_of(register, *words):
    """What show prints of a report: the status, the bytes and the errors."""
    done = run(INTAKE, "show", "--db", register, *words, "--body")
    return done.returncode, done.stdout, done.stderr.decode().replace(f"{register.parent}/", "")


def check_bodies(folder):
    """Each report that was sent comes back byte for byte, by its number or by its filer and key, a refused one too."""
    register = folder / "register.db"
    # By filer and key, with the status. The same key of another filer, a key with quotes and blanks, NUL bytes, bytes
    # that are no UTF-8, a long report, and none at all.
    sent = {
        ("ACME", "k-1"): (valid_report(1), 201),
        ("BETA", "k-1"): (valid_report(2).replace(b"lei:ACME", b"lei:BETA"), 201),
        ("ACME", 'a "key" \\'): (valid_report(3), 201),
        ("ACME", "nul"): (b"\0{}\0\0", 400),
        ("ACME", "bytes"): (bytes(range(256)) * 2, 400),
        ("ACME", "large"): (b"\n" * 65_536, 400),
        ("ACME", "none"): (b"", 400),
        ("ACME", "last"): (valid_report(4), 201),
    }
    serving = Serving(register, len(sent) + 1, "--new")
    for (filer, key), (body, status) in sent.items():
        spelled = key.replace("\\", "\\\\").replace('"', '\\"')
        hold(f"POST of {key}", statuses(exchange(serving.port, request(spelled, body, filer))), [status])
    hold("another report under a key", statuses(exchange(serving.port, request("k-1", b"{}"))), [422])
    serving.end()
    before = register.read_bytes()
    number = 0
    for (filer, key), (body, status) in sent.items():
        hold(f"report of {filer}, {key}", body_of(register, "--filer", filer, "--key", key) == (0, body, ""), True)
        if status == 201:
            number += 1
            hold(f"report of filing {number}", body_of(register, "--number", number) == (0, body, ""), True)
    hold("report of no filing", body_of(register, "--number", number + 1),
         (4, b"", f"intake: register.db: there is no filing {number + 1}\n"))
    for filer, key in (("BETA", "nul"), ("GAMMA", "k-1"), ("ACME", '"k-1"')):
        hold(f"report of {filer}, {key}", body_of(register, "--filer", filer, "--key", key),
             (4, b"", "intake: register.db: this filer has no request under this key\n"))
    for words in (("--number", 1), ("--filer", "ACME", "--key", "large")):
        with open("/dev/full", "wb") as full:
            done = subprocess.run([INTAKE, "show", "--db", register, *map(str, words), "--body"], stdout=full,
                                  stderr=subprocess.PIPE, check=False)
        hold("an output that takes no report", (done.returncode, done.stderr),
             (3, b"intake: the output cannot be written\n"))
    hold("the register stays", register.read_bytes() == before, True)


def check_closed_output(folder):
    database, report = folder / "outbox.db", folder / "report.json"
    report.write_bytes(SMALLEST)
    run(OUTBOX, "init", "--db", database, "--filer", "ACME")
    with open("/dev/full", "wb") as full:
        done = subprocess.run([OUTBOX, "put", "--db", database, "--body", report], stdout=full,
                              stderr=subprocess.PIPE, check=False)
    told = done.stderr.decode().replace(f"{folder}/", "")
    hold("an output that takes nothing", (done.returncode, told),
         (3, "outbox: outbox.db: entry 1 was put in, but the output cannot be written\n"))
    with open("/dev/full", "wb") as full:
        done = subprocess.run([OUTBOX, "put", "--db", database, "--body", report, report], stdout=full,
                              stderr=subprocess.PIPE, check=False)
    told = done.stderr.decode().replace(f"{folder}/", "")
    hold("of two reports only one is put in then", (done.returncode, told),
         (3, "outbox: report.json: put in as entry 2, but none after it: the output cannot be written\n"))
    hold("and it stands", said(run(OUTBOX, "status", "--db", database), folder),
         (0, "entry 1 open\nentry 2 open\n", ""))


if __name__ == "__main__":
    try_all(
        (INTAKE, OUTBOX),
        (check_serving, check_patience, check_limit, check_amendments, check_sent_amendments, check_full_register,
         check_full_outbox, check_puts_of_several, check_files, check_used_port, check_descriptors, check_rights,
         check_damage, check_moments, check_copies, check_copy_of_an_outbox, check_lint, check_names_of_files,
         check_texts_of_reports, check_texts_of_peers, check_line_of_a_long_connection, check_entries, check_round,
         check_answers, check_strict, check_questions, check_looks, check_what_a_restore_lost, check_receipts,
         check_patience_of_a_round, check_same_report, check_bodies_of_entries, check_bodies, check_closed_output,
         check_reading, check_reading_alone, check_readers),
    )
