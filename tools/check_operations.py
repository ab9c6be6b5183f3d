#!/usr/bin/env python3
"""Tries with the built programs what docs/OPERATIONS.md promises an operator: copies, restores, logs, receipts,
numbers, rounds, and a full disk.

    tools/check_operations.py [WORD]                each trial, or those with this word in their name
    tools/check_operations.py --planted [WORD]      with faults in deploy/: each has to make a trial fail

It takes the programs that `rt run` builds in their folders, as crates/intake/out/intake, and the scripts of deploy/. It
listens on 127.0.0.1 alone and works in folders of its own, which it removes. What needs a program that is not installed
is said, and is no failure. The last line says how many trials passed and failed. Status 1 if one failed.

The faults are those in tools/planted_faults.txt whose part is `operations_` and the name of a trial. A WORD takes those
that have it in their line.

A further trial is a function in TRIALS, which gets a folder. A further kind of copy is a row in COPIES, a further reply
that a round may meet a row in ROUNDS, a further request to nginx a row in FRONT, and one to a full disk a row in FULL.
"""
import contextlib
import datetime
import fcntl
import gzip
import hashlib
import json
import os
import pathlib
import re
import runpy
import shlex
import shutil
import signal
import socket
import sqlite3
import subprocess
import sys
import tempfile
import threading
import time

import check_deploy
import check_first_days as first_days
import systemctl_stand_in
import trials
from check_programs import SmallDisk, listing
from trials import (INTAKE, OUTBOX, PATIENCE, REPORT, ROOT, SMALLEST, Serving, exchange, free_port, request, run,
                    statuses)

DEPLOY = ROOT / "deploy"
PATHS = {**os.environ, "PATH": f"{INTAKE.parent}:{OUTBOX.parent}:{os.environ['PATH']}"}
passed = []


def hold(what, found, wanted):
    if found != wanted and first_days.planted:
        raise first_days.Seen(what)
    trials.hold(what, found, wanted)
    passed.extend([what] if found == wanted else [])


def script(name, *words, **options):
    """The status, the output and the errors of a script of deploy/."""
    words = [str(DEPLOY / name), *map(str, words)]
    done = subprocess.run(words, capture_output=True, text=True, check=False, timeout=PATIENCE, env=PATHS, **options)
    return done.returncode, done.stdout, done.stderr


def missing(*programs):
    """Says which of these is not installed, if one is."""
    found = [program for program in programs
             if shutil.which(program, path=f"{os.environ['PATH']}:/usr/sbin:/sbin") is None]
    for program in found:
        print(f"not tried: {program} is not installed")
    return bool(found)


def names(folder):
    return sorted(it.name for it in folder.iterdir())


def rights(path):
    return oct(path.stat().st_mode & 0o777)


def rows(database):
    """All rows of all tables of a file that nothing has open."""
    with contextlib.closing(sqlite3.connect(f"{database.as_uri()}?mode=ro&immutable=1", uri=True)) as conn:
        tables = [name for (name,) in conn.execute("SELECT name FROM sqlite_master WHERE type = 'table' ORDER BY name")]
        return {name: sorted(conn.execute(f"SELECT * FROM {name}"), key=repr) for name in tables}


# ---- databases

LARGE = SMALLEST.ljust(50_000)
REQUESTS = [request("k-1", REPORT), request("k-2", LARGE), request("k-3", b"{}"), request("k-4", REPORT, "ACME/1")]
SOUND = "sound: 4 kept, 3 filings"


def make_register(database):
    """A register with three filings, one of which replaces another, and a refused report. It is closed."""
    serving = Serving(database, len(REQUESTS), "--new")
    for it in REQUESTS:
        exchange(serving.port, it)
    serving.end()


def make_outbox(database):
    """An outbox with two open entries."""
    reports = database.with_name("reports")
    reports.mkdir()
    run(OUTBOX, "init", "--db", database, "--filer", "ACME")
    for number, body in enumerate((REPORT, LARGE), 1):
        (reports / f"{number}").write_bytes(body)
        run(OUTBOX, "put", "--db", database, "--body", reports / f"{number}", "--key", f"k-{number}")


# ---- copies, and what is restored of them


def shell(database, command):
    return subprocess.run(["sqlite3", "-batch", str(database), command],
                          capture_output=True, text=True, check=False, timeout=PATIENCE)


def python_backup(database, copy):
    with contextlib.closing(sqlite3.connect(database)) as source, contextlib.closing(sqlite3.connect(copy)) as target:
        source.backup(target)


# How a copy is made, how, and whether the programs open it as it is.
COPIES = [
    ("cp", lambda database, copy: shutil.copy(database, copy), True),
    (".backup", lambda database, copy: shell(database, f".backup '{copy}'"), False),
    ("VACUUM INTO", lambda database, copy: shell(database, f"VACUUM INTO '{copy}'"), False),
    ("Python's backup", python_backup, False),
    (".dump", lambda database, copy: shell(copy, f".read '|sqlite3 {database} .dump'"), True),
]


def check_copies(folder, kind, database, restored, ask):
    """Restores each kind of copy. `ask` gives the status and output of a program that opens a file."""
    before = rows(database)
    opened = ask(database)[1]
    for what, copy_to, opens in COPIES:
        own = folder / what.replace(" ", "-")
        own.mkdir()
        copy, new = own / "copy.db", own / "new.db"
        copy_to(database, copy)
        data = copy.read_bytes()
        hold(f"{what} of {kind}: {'opens' if opens else 'is refused'} as it is",
             ask(shutil.copy(copy, own / "tried"))[0] == 0, opens)
        for it in own.glob("tried*"):
            it.unlink()
        status, said, errors = script(f"{kind}-restore", copy, new)
        sums = "" if what != ".dump" else "; its pages have no checksums, as those of the copy"
        hold(f"{what} of {kind}: restored", (status, said, errors), (0, f"{new}: restored: {restored}{sums}\n", ""))
        if status:
            continue
        hold(f"{what} of {kind}: only the two files are there",
             (names(own), rights(new)), (["copy.db", "new.db"], "0o600"))
        hold(f"{what} of {kind}: the copy is as it was", copy.read_bytes() == data, True)
        hold(f"{what} of {kind}: each row is there", rows(new) == before, True)
        hold(f"{what} of {kind}: it opens", ask(new), (0, opened))
        hold(f"{what} of {kind}: it is not overwritten", script(f"{kind}-restore", copy, new)[::2],
             (1, f"{kind}-restore: {new} is there already\n"))
        if not sums:
            hold(f"{what} of {kind}: a changed byte is found", ask(with_changed_byte(new))[0], 1)


def with_changed_byte(database):
    """The same file with another byte of white space in the longest body."""
    data = bytearray(database.read_bytes())
    data[data.index(b" " * 2000) + 1000] = 9
    database.write_bytes(data)
    return database


def ask_register(database):
    done = run(INTAKE, "check", "--db", database)
    return done.returncode, done.stdout


def ask_outbox(database):
    done = run(OUTBOX, "show", "--db", database)
    return done.returncode, done.stdout


def check_register_copies(folder):
    if missing("sqlite3"):
        return
    make_register(folder / "register.db")
    check_copies(folder, "register", folder / "register.db", SOUND, ask_register)
    serving = Serving(folder / "cp" / "copy.db", 1)
    hold("a restored register answers repeats", statuses(exchange(serving.port, request("k-1", REPORT))), [201])
    serving.end()


def check_outbox_copies(folder):
    if missing("sqlite3"):
        return
    make_outbox(folder / "outbox.db")
    check_copies(folder, "outbox", folder / "outbox.db", "2 entries, 2 open", ask_outbox)


def check_refused_copies(folder):
    """What is no copy of a register, or is a damaged one: nothing is restored, and nothing is left."""
    register, outbox = folder / "register.db", folder / "outbox.db"
    make_register(register)
    make_outbox(outbox)
    register.with_name("register.db-wal").unlink(missing_ok=True)
    shutil.copy(register, folder / "byte.db")
    with_changed_byte(folder / "byte.db")
    data = register.read_bytes()
    (folder / "cut.db").write_bytes(data[: len(data) - 3 * 4096])
    (folder / "text.db").write_text("no database " * 100)
    (folder / "empty.db").write_bytes(b"")
    kept = names(folder)
    for kind, name, status, cause in [
        ("register", "byte.db", 1, "it is damaged"),
        ("register", "cut.db", 1, ""),
        ("register", "text.db", 1, "file is not a database"),
        ("register", "empty.db", 1, "not a register"),
        ("register", "outbox.db", 1, "this is an outbox"),
        ("outbox", "register.db", 1, "this is a register"),
        ("register", "none.db", 1, "there is no such file"),
    ]:
        found, said, errors = script(f"{kind}-restore", folder / name, folder / "new.db")
        hold(f"{kind}-restore of {name}", (found, said, cause in errors, errors.count("\n")), (status, "", True, 1))
    for ending in ("-wal", "-journal"):
        beside = folder / f"new.db{ending}"
        beside.write_bytes(b"")
        hold(f"register-restore beside another file's {ending}",
             script("register-restore", register, folder / "new.db")[0], 1)
        beside.unlink()
    hold("nothing is left", names(folder), kept)


def check_copy_with_log(folder):
    """Both files of an intake that was killed: what was answered last is in the log."""
    database = folder / "register.db"
    serving = Serving(database, 9, "--new")
    for it in REQUESTS:
        exchange(serving.port, it)
    serving.process.kill()
    serving.process.communicate()
    copies = folder / "copies"
    copies.mkdir()
    for ending in ("", "-wal"):
        shutil.copy(f"{database}{ending}", copies / f"copy.db{ending}")
    before = {it.name: it.read_bytes() for it in copies.iterdir()}
    new = folder / "new.db"
    hold("a copy with a log beside it", script("register-restore", copies / "copy.db", new),
         (0, f"{new}: restored: {SOUND}\n", ""))
    hold("both files are as they were", {it.name: it.read_bytes() for it in copies.iterdir()} == before, True)


def check_copy_with_journal(folder):
    """Both files of a copy to which somebody wrote in the older way, and was killed: the journal has what was there."""
    make_register(folder / "register.db")
    copies = folder / "copies"
    copies.mkdir()
    with contextlib.closing(sqlite3.connect(folder / "register.db", isolation_level=None)) as database:
        for statement in ("PRAGMA journal_mode = DELETE", "PRAGMA cache_size = 1", "BEGIN", "DELETE FROM kept",
                          "PRAGMA cache_spill = 1", "UPDATE fact SET value = zeroblob(100000)"):
            database.execute(statement)
        for ending in ("", "-journal"):
            shutil.copy(folder / f"register.db{ending}", copies / f"copy.db{ending}")
    hold("the journal has pages", (copies / "copy.db-journal").stat().st_size > 4096, True)
    kept = {it.name: it.read_bytes() for it in copies.iterdir()}
    log = write_log(folder / "filings.log", [log_line("T", "k-1"), log_line("T", "k-9")])
    hold("lost-filings of a copy with a journal", script("lost-filings", copies / "copy.db", log),
         (1, 'T ACME "k-9" 4\n', ""))
    hold("both files are as they were", {it.name: it.read_bytes() for it in copies.iterdir()} == kept, True)


# ---- copies that may only be read

NOBODY, READERS = 65534, 60
# Runs a command as a unit with ProtectSystem=strict: all that is mounted may only be read, but for the folder $1 and
# temporary files.
STRICT = """
mount --make-rprivate / && mount --bind "$1" "$1" && mount -t tmpfs tmpfs /var/tmp
while read -r _ at _; do
    case $at in "$1" | /proc* | /sys* | /dev* | /var/tmp) ;; *) mount -o remount,bind,ro "$at" ;; esac
done < /proc/mounts
shift
TMPDIR=/var/tmp exec "$@"
"""


def as_user(name, *words, groups=(), cwd=None):
    """What a script gives somebody who owns nothing, and has these groups."""
    given = f"--groups={','.join(map(str, groups))}" if groups else "--clear-groups"
    who = ["setpriv", f"--reuid={NOBODY}", f"--regid={NOBODY}", given, "--"]
    done = subprocess.run([*who, name, *map(str, words)], capture_output=True, text=True, check=False,
                          timeout=PATIENCE, env=PATHS, cwd=cwd)
    return done.returncode, done.stdout, done.stderr


def may_not_mount():
    if os.geteuid() != 0:
        print("not tried: copies that may only be read, which needs root")
    return os.geteuid() != 0


def make_copies_for_reading(folder):
    """A copy in one file, and one of both files of an intake that was killed."""
    serving = Serving(folder / "register.db", 9, "--new")
    for it in REQUESTS:
        exchange(serving.port, it)
    serving.process.kill()
    serving.process.communicate()
    copies = folder / "copies"
    copies.mkdir()
    for ending in ("", "-wal"):
        shutil.copy(f"{folder / 'register.db'}{ending}", copies / f"log-20240102T000000Z.db{ending}")
    script("register-snapshot", folder / "register.db", copies / "one-20240101T000000Z.db")
    (copies / "one.tried").write_text(f"2024-01-01T00:00:00Z 0 one-20240101T000000Z.db restored: {SOUND}\n")
    return copies


def try_readers(what, copies, out, run_script):
    """Each script that reads a copy reads it, and nothing beside it is changed. `run_script` runs one that may write to
    the folder `out`, which is empty."""
    before = {it.name: it.read_bytes() for it in copies.iterdir()}
    log = write_log(out.parent / "filings.log", [log_line("2024-01-01T00:00:00Z", "k-1"), log_line("T", "k-9")])
    log.chmod(0o644)
    for name in ("one-20240101T000000Z.db", "log-20240102T000000Z.db"):
        copy = copies / name
        hold(f"{what}: register-restore of {name}", run_script("register-restore", copy, out / "new.db"),
             (0, f"{out / 'new.db'}: restored: {SOUND}\n", ""))
        hold(f"{what}: lost-filings of {name}", run_script("lost-filings", copy, log),
             (1, 'T ACME "k-9" 4\n',
              f"lost-filings: {copy}: filings without a line: 2; lost ones may have none either\n"))  # fmt: skip
        status, said, _ = run_script("register-receipts", copy, log)
        lines = said.splitlines()
        hold(f"{what}: register-receipts of {name}", (status, lines[1].split(",")[-2:], len(lines)),
             (0, ["acme", "register"], 4))
        status, _, _ = run_script("register-receipts", "--into", out / "reading.db", copy, log)
        hold(f"{what}: register-receipts --into of {name}", (status, names(out)), (0, ["new.db", "reading.db"]))
        for it in ("new.db", "reading.db"):
            (out / it).unlink()
    found = run_script("register-metrics", "--into", out / "x.prom", "--copies", copies)
    values = [line for line in (out / "x.prom").read_text().splitlines() if line.startswith("berruzpil_copy_filings")]
    hold(f"{what}: register-metrics", (found, values),
         ((0, "", ""), ['berruzpil_copy_filings{register="log"} 3', 'berruzpil_copy_filings{register="one"} 3']))
    (out / "x.prom").unlink()
    hold(f"{what}: the copies are as they were", {it.name: it.read_bytes() for it in copies.iterdir()} == before, True)


def check_read_only_copies(folder):
    """Copies on a disk that nobody may write to, in a folder that their reader may not write to, and in the sandbox of
    a unit."""
    if may_not_mount() or missing("setpriv", "unshare"):
        return
    copies, out, disk = make_copies_for_reading(folder), folder / "out", folder / "disk"
    disk.mkdir()
    out.mkdir()
    subprocess.run(["mount", "-t", "tmpfs", "-o", "size=16m", "tmpfs", disk], check=True)
    try:
        shutil.copytree(copies, disk / "copies")
        subprocess.run(["mount", "-o", "remount,ro", disk], check=True)
        try_readers("a disk that is read-only", disk / "copies", out, script)
    finally:
        subprocess.run(["umount", disk], check=True)
    sandbox = ["unshare", "--mount", "sh", "-c", STRICT, "sh", str(out)]

    def strict(name, *words):
        done = subprocess.run([*sandbox, str(DEPLOY / name), *map(str, words)], capture_output=True, text=True,
                              check=False, timeout=PATIENCE, env=PATHS)
        return done.returncode, done.stdout, done.stderr

    try_readers("ProtectSystem=strict", copies, out, strict)
    try_metrics_unit(folder, copies, out, sandbox)
    folder.chmod(0o755)
    copies.chmod(0o555)
    for it in copies.iterdir():
        it.chmod(0o444)
    os.chown(out, NOBODY, NOBODY)
    try_readers("a folder of another user", copies, out, lambda name, *words: as_user(DEPLOY / name, *words))
    closed = folder / "closed"
    closed.mkdir(mode=0o700)
    for ending in ("", "-wal"):
        (folder / f"register.db{ending}").chmod(0o644)
    found = as_user(DEPLOY / "register-copies", folder / "register.db", out, 30, cwd=closed)
    hold("register-copies from a folder that its user may not read", (found[0], found[2]), (0, ""))


def try_metrics_unit(folder, copies, out, sandbox):
    """The command of berruzpil-metrics.service, in a sandbox like its own."""
    text = (DEPLOY / "berruzpil-metrics.service").read_text()
    hold("the sandbox of berruzpil-metrics.service",
         [line for line in text.splitlines() if line.startswith(("ProtectSystem", "ReadWrite", "PrivateTmp"))],
         ["ProtectSystem=strict", "ReadWritePaths=/var/lib/prometheus/node-exporter", "PrivateTmp=yes"])
    (folder / "tls").mkdir()
    (command,) = re.findall(r"(?m)^ExecStart=((?:.*\\\n)*.*)$", text)
    for written, own in [("/usr/local/bin/", f"{DEPLOY}/"), ("/var/lib/berruzpil/copies", copies),
                         ("/etc/nginx/tls", folder / "tls"), ("/etc/berruzpil", folder / "tls"),
                         ("/var/lib/prometheus/node-exporter", out), ("/var/log/berruzpil", folder)]:
        command = command.replace(written, str(own))
    done = subprocess.run([*sandbox, "sh", "-c", command], capture_output=True, text=True, check=False,
                          timeout=PATIENCE, env=PATHS)
    hold("the command of berruzpil-metrics.service", (done.returncode, done.stdout, done.stderr, names(out)),
         (0, "", "", ["berruzpil.prom"]))
    (out / "berruzpil.prom").unlink()


def check_for_reading(folder):
    """A copy for a group that may write to nothing: sqlite3 reads it, and no file comes beside it."""
    if may_not_mount() or missing("setpriv", "sqlite3"):
        return
    make_register(folder / "register.db")
    shared = folder / "shared"
    shared.mkdir()
    os.chown(shared, 0, READERS)
    folder.chmod(0o755)
    shared.chmod(0o2750)
    copy = shared / "today.db"
    hold("register-snapshot --for-reading", script("register-snapshot", "--for-reading", folder / "register.db", copy),
         (0, f"{SOUND}\n", ""))
    hold("its group may read it", (rights(copy), copy.stat().st_gid), ("0o640", READERS))
    ask = ["-batch", "-readonly", "-init", DEPLOY / "reading.sql", copy, "SELECT number, key FROM current"]
    hold("a member of the group reads it", as_user("sqlite3", *ask, groups=(READERS,)), (0, "2|k-2\n3|k-4\n", ""))
    hold("nobody else does", as_user("sqlite3", *ask)[:2], (1, ""))
    hold("no file is beside it", names(shared), ["today.db"])
    shutil.copy(copy, folder / "own.db")
    hold("the programs take it", ask_register(folder / "own.db"), (0, f"{SOUND}\n".encode()))
    hold("its pages have their sums", ask_register(with_changed_byte(shutil.copy(copy, folder / "byte.db")))[0], 1)
    marked = pathlib.Path(shutil.copy(folder / "register.db", folder / "marked.db"))
    runpy.run_path(str(DEPLOY / "register-restore"))["for_reading"](marked)
    hold("a register that is marked so has its sums", (marked.read_bytes()[18:20], ask_register(marked)),
         (b"\1\1", (0, f"{SOUND}\n".encode())))
    # What migrates a copy marks it as one with a log.
    trials.make_earlier(folder / "earlier.db")
    found = script("register-restore", "--for-reading", folder / "earlier.db", shared / "new.db")
    hold("register-restore --for-reading of an earlier version", (found[0], rights(shared / "new.db")), (0, "0o640"))
    ask = ["-batch", "-readonly", shared / "new.db", "SELECT filer, idem FROM kept"]
    hold("a member of the group reads that", as_user("sqlite3", *ask, groups=(READERS,)), (0, "ACME|k-1\n", ""))


# ---- links in folders that others may write to

# A script, its words, and the name beside its files that is a link to somebody's file.
LINKS = [
    ("register-metrics", ("--into", "x.prom", "log"), ".x.prom.part"),
    ("register-receipts", ("--into", "new.db", "register.db", "log"), "new.db.part"),
    ("register-restore", ("register.db", "restored.db"), "restored.db.part"),
    ("register-snapshot", ("register.db", "copy.db"), "copy.db.part"),
    ("register-copies", ("register.db", ".", "30"), ".register.tried"),
    ("nginx-filer", ("fronts.conf", "acme.pem", "acme", "BETA"), ".fronts.conf.part"),
    ("outbox-round", ("outbox.db", "1"), "outbox.db.lock"),
]


def check_links(folder):
    """No script writes through a link that somebody has put beside its files."""
    if missing("openssl"):
        return
    make_register(folder / "register.db")
    make_outbox(folder / "outbox.db")
    check_deploy.make_certificates("openssl", folder)
    write_log(folder / "log", [log_line("T", "k-1")])
    shutil.copy(DEPLOY / "nginx-intake.conf", folder / "fronts.conf")
    precious = folder / "precious"
    for name, words, link in LINKS:
        for text in ("of somebody", None):
            precious.write_text(text) if text else precious.unlink()
            (folder / link).unlink(missing_ok=True)
            (folder / link).symlink_to(precious)
            for made in ("new.db", "restored.db", "copy.db"):
                (folder / made).unlink(missing_ok=True)
            status, _, errors = script(name, *words, cwd=folder)
            found = precious.read_text() if precious.exists() else None
            hold(f"{name}, with a link {link} to {'a file' if text else 'nothing'}",
                 (status in (0, 75), found == text, "Traceback" in errors), (True, True, False))
        (folder / link).unlink(missing_ok=True)


def check_earlier_copies(folder):
    """Copies of earlier versions become databases of this one."""
    for kind, make, restored in [("register", trials.make_earlier, "1 kept, 0 filings"),
                                 ("outbox", trials.make_earlier_outbox, "2 entries, 1 open")]:
        copy, new = folder / f"{kind}.db", folder / f"{kind}-new.db"
        make(copy)
        status, said, _ = script(f"{kind}-restore", copy, new)
        wanted = (
            f"{new}: restored: migrated, {'sound: ' if kind == 'register' else ''}{restored}; "
            "its pages have no checksums, as those of the copy\n"
        )
        hold(f"a copy of an earlier {kind}", (status, said), (0, wanted))


# ---- while the register is served


def check_served(folder):
    """What copies a register that is served, and what only says that it is locked."""
    if missing("sqlite3"):
        return
    database = folder / "register.db"
    serving = Serving(database, len(REQUESTS) + 1, "--new")
    for it in REQUESTS:
        exchange(serving.port, it)
    for what, command in [(".backup", ".backup '{}'"), ("VACUUM INTO", "VACUUM INTO '{}'"), (".dump", ".dump")]:
        done = shell(database, command.format(folder / "copy.db"))
        hold(f"{what} while it is served", "database is locked" in done.stdout + done.stderr, True)
        (folder / "copy.db").unlink(missing_ok=True)
    with contextlib.closing(sqlite3.connect(database)) as source, contextlib.closing(
        sqlite3.connect(folder / "copy.db")
    ) as target:
        tries = []

        def count(status, *_):
            tries.append(status)
            if len(tries) == 3:
                raise TimeoutError

        try:
            source.backup(target, progress=count, sleep=0.01)
        except TimeoutError:
            pass
    hold("Python's backup waits while it is served", tries, [sqlite3.SQLITE_BUSY] * 3)
    (folder / "copy.db").unlink(missing_ok=True)
    hold("register-restore while it is served", script("register-restore", database, folder / "copy.db")[::2],
         (3, f"register-restore: {database}: database is locked\n"))
    found = script("register-snapshot", database, folder / "copy.db")
    hold("register-snapshot while it is served", found, (0, f"{SOUND}\n", ""))
    hold("only its owner may read the copy", rights(folder / "copy.db"), "0o600")
    hold("the intake goes on", statuses(exchange(serving.port, request("k-1", REPORT))), [201])
    serving.end()
    hold("the copy is the register", rows(folder / "copy.db") == rows(database), True)


def check_rush(folder):
    """A log that begins again during each copy: there is none, and what to do is said."""
    database, programs = folder / "register.db", folder / "programs"
    make_register(database)
    programs.mkdir()
    cp = programs / "cp"
    cp.write_text('#!/bin/sh\n/bin/cp "$@"\nhead -c 41 /dev/urandom > register.db-wal\n')
    cp.chmod(0o755)
    before = names(folder)
    paths = {**PATHS, "PATH": f"{programs}:{PATHS['PATH']}"}
    words = [DEPLOY / "register-snapshot", "register.db", "copy.db"]
    done = subprocess.run(words, capture_output=True, text=True, check=False, cwd=folder, env=paths, timeout=PATIENCE)
    hold("register-snapshot in a rush gives up",
         (done.returncode, done.stdout, "let the intake pause" in done.stderr), (3, "", True))
    hold("nothing is left of the copy", names(folder), before)


def check_pause(folder):
    """A plain copy of both files while the intake pauses and reports wait: it has whatever was answered before."""
    database, copy, answered = folder / "register.db", folder / "copy.db", []
    serving = Serving(database, 200, "--new")

    def send(key):
        for number in range(50):
            answered.extend(statuses(exchange(serving.port, request(f"k-{key}-{number}", LARGE))))

    senders = [threading.Thread(target=send, args=(key,)) for key in range(4)]
    for sender in senders:
        sender.start()
    while len(answered) < 20:
        time.sleep(0.01)
    serving.process.send_signal(signal.SIGSTOP)
    time.sleep(0.2)
    before = len(answered)
    for ending in ("", "-wal"):
        shutil.copy(f"{database}{ending}", f"{copy}{ending}")
    serving.process.send_signal(signal.SIGCONT)
    for sender in senders:
        sender.join()
    serving.end()
    hold("each report is answered", (len(answered), set(answered)), (200, {201}))
    status, said = ask_register(copy)
    kept = int(said.split()[1]) if status == 0 else -1
    hold("the copy of a pause is sound, and has what was answered before it",
         (status, before <= kept <= before + 4), (0, True))


# ---- copies that are kept

DIGESTED = "; as its digest says"


def digest_of(copy):
    """The line of a copy's digest, by the script that asks no program."""
    words = [sys.executable, ROOT / "tools" / "register_digest.py", copy]
    return subprocess.run(words, capture_output=True, text=True, check=True, timeout=PATIENCE).stdout


def check_digests(folder):
    """What register-restore makes of a copy with a digest beside it: its own, that of a part, and others."""
    make_register(folder / "register.db")
    copy, beside, new = folder / "copy.db", folder / "copy.digest", folder / "new.db"
    script("register-snapshot", folder / "register.db", copy)
    line = digest_of(copy)
    none = "0 " + hashlib.sha256(b"").hexdigest() + "\n"
    count, wrong = line.split()[0], line[:-3] + ("0" if line[-3] != "0" else "1") + line[-2:]
    for what, text, status, cause in [
        ("its own digest", line, 0, ""),
        ("the digest of no request", none, 0, ""),
        ("another digest", wrong, 1, f"another register, or a changed one, up to request {count}"),
        ("a digest of more requests", f"{int(count) + 1} {line.split()[1]}\n", 1, ""),
        ("a line that is no digest", line.upper(), 1, "not a line of `intake digest`"),
    ]:
        beside.write_text(text)
        found, said, errors = script("register-restore", copy, new)
        hold(f"a copy with {what}", (found, said, cause in errors, new.exists()),
             (status, "" if status else f"{new}: restored: {SOUND}{DIGESTED}\n", True, not status))
        new.unlink(missing_ok=True)


def day(ago):
    """A day in UTC, so many days ago."""
    return time.strftime("%Y%m%d", time.gmtime(time.time() - ago * 86400))


def moment_of(ago):
    """The moment in UTC that was so many seconds ago, as in the name of a copy."""
    return time.strftime("%Y%m%dT%H%M%SZ", time.gmtime(time.time() - ago))


def copies_of(moments):
    return [f"register-{moment}.db" for moment in moments]


def check_kept_copies(folder):
    """register-copies while the register is served: a copy, what came of its restore, and which old copies go."""
    database, kept = folder / "register.db", folder / "copies"
    kept.mkdir()
    serving = Serving(database, len(REQUESTS) + 1, "--new")
    for it in REQUESTS:
        exchange(serving.port, it)
    # Of each day before yesterday the last one stays, for 30 days, and each of yesterday. Some are no copies of this
    # register.
    gone = copies_of([f"{day(ago)}T{hour}0000Z" for ago in range(2, 32) for hour in ("00", "22")])
    gone += copies_of(f"{day(ago)}T235959Z" for ago in (31, 40))
    stay = copies_of([*(moment_of(60 * minutes) for minutes in range(1, 48)),
                      *(f"{day(ago)}T235959Z" for ago in range(2, 31)), f"{day(1)}T000000Z", f"{day(1)}T010000Z"])
    stay += [f"register-2-{day(40)}T000000Z.db", "before-upgrade.db"]
    gone.append(f"register-{day(31)}T235959Z.digest")
    for name in gone + stay:
        (kept / name).write_bytes(b"")
    # What a run left that was killed, and what one has that runs.
    for name, age in [(".register.abcdef", 2 * 86400), (".register.ghijkl", 3600), (".register-2.abcdef", 2 * 86400)]:
        (kept / name).mkdir()
        (kept / name / "restored").write_bytes(b"")
        os.utime(kept / name, (time.time() - age,) * 2)
    status, said, errors = script("register-copies", database, kept, 30)
    left = [".register-2.abcdef", ".register.ghijkl"]
    copy, digest = sorted(set(names(kept)) - {*gone, *stay, *left, "register.tried"})
    hold("register-copies", (status, said, errors),
         (0, f"{kept / copy}: {SOUND}\n{kept / copy}: restored: {SOUND}{DIGESTED}\n", ""))
    hold("the digest beside it", (digest, (kept / digest).read_text()),
         (f"{copy.removesuffix('.db')}.digest", digest_of(kept / copy)))
    hold("the name of the copy", bool(re.fullmatch(r"register-\d{8}T\d{6}Z\.db", copy)), True)
    hold("only its owner may read it", rights(kept / copy), "0o600")
    hold("the copies that are too old are gone, and no other file",
         names(kept), sorted({copy, digest, "register.tried", *stay, *left}))
    moment, *rest = (kept / "register.tried").read_text().split(" ", 3)
    hold("when the restore was tried", bool(re.fullmatch(r"\d{4}-\d\d-\d\dT\d\d:\d\d:\d\dZ", moment)), True)
    hold("what came of it", rest, ["0", copy, f"restored: {SOUND}{DIGESTED}\n"])
    exchange(serving.port, request("k-1", REPORT))
    serving.end()
    hold("the copy is the register", rows(kept / copy) == rows(database), True)


# In the place of `date`: a clock that is wrong by $WRONG_BY.
WRONG_DATE = """#!/bin/sh
when=now
for it; do [ "$last" != -d ] || when=$it; last=$it; done
exec /bin/date -u -d "$when $WRONG_BY" "$last"
"""


def try_clock(folder, kept, wrong_by):
    """Which copies go if register-copies runs while the clock is wrong by so much, which one it makes, and what it says
    on standard error."""
    before, programs = set(names(kept)), folder / "programs"
    programs.mkdir(exist_ok=True)
    check_deploy.write_program(programs / "date", WRONG_DATE)
    env = {**PATHS, "PATH": f"{programs}:{PATHS['PATH']}", "WRONG_BY": wrong_by}
    done = subprocess.run([DEPLOY / "register-copies", folder / "register.db", kept, "30"], capture_output=True,
                          text=True, check=False, env=env, timeout=PATIENCE)
    hold(f"register-copies, by a clock that is wrong by {wrong_by}", done.returncode, 0)
    (made,) = {it for it in names(kept) if it.endswith(".db")} - before
    return sorted(before - set(names(kept))), made, done.stderr


def check_wrong_clock(folder):
    """A clock that is years ahead for some hours: no copy goes by it that would not go by a right one, and what it made
    is no last copy once the clock is right."""
    make_register(folder / "register.db")
    kept, numbers = folder / "copies", folder / "x.prom"
    kept.mkdir()
    real = copies_of([*(moment_of(3600 * hours) for hours in range(1, 49)),
                      *(f"{day(ago)}T000001Z" for ago in range(4, 32))])
    for name in real:
        shutil.copy(folder / "register.db", kept / name)
    gone, _, errors = try_clock(folder, kept, "4000 days")
    hold("a clock that is suddenly years ahead removes nothing", gone, [])
    hold("and that is said", errors,
         f"register-copies: {kept / max(real)} is of more than a day before: no copy is removed this time; "
         "if the clock is wrong, set it right\n")
    # For two days more, each hour: by then 48 copies are of that time. The real ones are as old as two days make them.
    for hours in range(1, 49):
        shutil.copy(folder / "register.db", kept / copies_of([moment_of(-4000 * 86400 - 3600 * hours)])[0])
    _, _, errors = try_clock(folder, kept, "4000 days 49 hours")
    hold("nothing is said of an hour", errors, "")
    wrong = {moment_of(-4000 * 86400 - 3600 * hours)[:8] for hours in range(50)}
    daily = {max(it for it in real if it.startswith(f"register-{at}")) for at in {it[9:17] for it in real}}
    hold("the last copy of each real day is there, but for those that are too old by now",
         sorted(daily - set(names(kept))), sorted(daily)[: len(daily) + len(wrong) - 31])
    script("register-metrics", "--into", numbers, "--copies", kept)
    found = dict(line.rsplit(" ", 1) for line in numbers.read_text().splitlines())
    begun, ahead = (int(found.get(f'berruzpil_copy_{name}_seconds{{register="register"}}', -1))
                    for name in ("timestamp", "ahead"))
    hold("the last copy is a real one", max(real), time.strftime("register-%Y%m%dT%H%M%SZ.db", time.gmtime(begun)))
    hold("how far the others are ahead", 4000 * 86400 < ahead < 4004 * 86400, True)
    _, made, errors = try_clock(folder, kept, "0 days")
    later = [it for it in names(kept) if it.endswith(".db") and it > made]
    hold("copies of a later time are reported", errors,
         f"register-copies: {kept}: {len(later)} copies are of a later time than now: set the clock right, "
         "or remove them if it is right\n")
    hold("there are as many as were made", len(later) >= 48, True)


def check_least_copies(folder):
    """However few days are kept, 48 copies stay: here the new one and those of 47 days."""
    make_register(folder / "register.db")
    kept = folder / "copies"
    kept.mkdir()
    made = copies_of(moment_of(86400 * days - 3600) for days in range(1, 61))
    for name in made:
        (kept / name).write_bytes(b"")
    status, _, errors = script("register-copies", folder / "register.db", kept, 3)
    left = [it for it in names(kept) if it.endswith(".db")]
    hold("register-copies with few days", (status, errors, len(left)), (0, "", 48))
    hold("those that stay are the last", left[:-1], sorted(made[:47]))


def check_site(folder):
    """The pages of the last copy that could be restored take the place of those before, as a whole, and nothing else
    goes."""
    database, copies, site = folder / "register.db", folder / "copies", folder / "site"
    for it in (copies, site, site / "register-2025-20241231T000000Z"):
        it.mkdir()
    make_register(database)
    words = "register-pages", copies, "register", site
    hold("pages without a copy", script(*words)[0], 3)
    found = []
    for key in ("k-5", "k-6"):
        script("register-copies", database, copies, 30)
        found.append(max(it.stem for it in copies.glob("register-*.db")))
        said = f"{site}/register: the pages of {found[-1]}.db\n"
        hold("pages of a copy", [script(*words) for _ in range(2)], [(0, said, "")] * 2)
        hold("they are where they are shown", os.readlink(site / "register"), found[-1])
        serving = Serving(database, 1)
        exchange(serving.port, request(key, REPORT))
        serving.end()
        # The name of a copy has whole seconds.
        time.sleep(1)
    hold("those before are gone, and no others", names(site), ["register", "register-2025-20241231T000000Z", found[1]])
    before = {it.name: it.read_bytes() for it in (site / "register").iterdir()}
    hold("there is a page of each filing", sum(b"k-5" in it for it in before.values()) > 0, True)
    script("register-copies", database, copies, 30)
    tried, copy = copies / "register.tried", max(copies.glob("register-*.db"))
    text = tried.read_text()
    tried.write_text(text.replace(" 0 ", " 1 ", 1))
    hold("no pages of a copy that can't be restored", script(*words),
         (1, "", f"register-pages: {copy}: a restore failed\n"))
    tried.write_text(text)
    with_changed_byte(copy)
    hold("nor of one that was damaged since", script(*words)[0], 1)
    hold("then those before stay", (names(site), {it.name: it.read_bytes() for it in (site / "register").iterdir()}),
         (["register", "register-2025-20241231T000000Z", found[1]], before))


def check_failed_copies(folder):
    """Restores that fail or give another register, a register that is damaged, names that are wrong, and a full
    disk."""
    database, kept, scripts = folder / "register.db", folder / "copies", folder / "scripts"
    make_register(database)
    kept.mkdir()
    scripts.mkdir()
    for name in ("register-copies", "register-snapshot"):
        shutil.copy(DEPLOY / name, scripts)
    (kept / "register-20240101T000000Z.db").write_bytes(b"")
    for what, stand_in, wanted in [
        ("a restore that fails", "echo 'register-restore: no' >&2; exit 3", (3, "no")),
        ("a restore that gives another register", 'echo "$2: restored: sound: 3 kept, 3 filings"',
         (1, "restored: sound: 3 kept, 3 filings")),
    ]:
        (scripts / "register-restore").write_text(f"#!/bin/sh\n: > \"$2\"\n{stand_in}\n")
        (scripts / "register-restore").chmod(0o755)
        for it in set(names(kept)) - {"register-20240101T000000Z.db"}:
            (kept / it).unlink()
        done = subprocess.run([scripts / "register-copies", database, kept, "30"],
                              capture_output=True, text=True, check=False, env=PATHS, timeout=PATIENCE)
        old, copy, _, tried = names(kept)
        found = (done.returncode, done.stderr)
        hold(what, found, (wanted[0], f"register-copies: {kept / copy}: a restore failed: {wanted[1]}\n"))
        hold("no copy goes, and nothing else is left", (old, tried), ("register-20240101T000000Z.db", "register.tried"))
        hold("it is written down", (kept / tried).read_text().split(" ", 1)[1], f"{wanted[0]} {copy} {wanted[1]}\n")
    before = {it: (kept / it).read_bytes() for it in names(kept)}
    shutil.copy(database, folder / "byte.db")
    with_changed_byte(folder / "byte.db")
    for what, words, status in [
        ("a damaged register", (folder / "byte.db", kept, 30), 1),
        ("a register that isn't there", (folder / "none.db", kept, 30), 3),
        ("a folder that isn't there", (database, folder / "none", 30), 3),
        ("days that are no number", (database, kept, "x"), 2),
        ("too few words", (database, kept), 2),
    ]:
        found, said, errors = script("register-copies", *words)
        hold(f"register-copies: {what}", (found, said, errors != ""), (status, "", True))
    hold("all copies are as they were", {it: (kept / it).read_bytes() for it in names(kept)} == before, True)
    with SmallDisk(folder / "disk", 1 << 20) as disk:
        if not disk.is_mounted:
            print("not tried: a full disk, since no file system may be mounted")
            return
        disk.fill(8 << 10)
        on_disk = names(disk.folder)
        found, said, _ = script("register-copies", database, disk.folder, 30)
        hold("register-copies on a full disk", (found, said, names(disk.folder)), (3, "", on_disk))


# ---- what was received, and numbers


def log_line(time_of_line, key, filer="ACME", status="201", **more):
    """A line of nginx's log, of which `intake_status` is what the intake answered."""
    return {"time": time_of_line, "host": "intake.example", "user": "acme", "uri": f"/filings/{filer}",
            "key": f'"{key}"', "status": int(status), "intake_status": status, **more}  # fmt: skip


def write_log(path, lines):
    """Writes lines, of which some are JSON and some are bytes."""
    data = b"".join(line if isinstance(line, bytes) else json.dumps(line).encode() + b"\n" for line in lines)
    path.write_bytes(gzip.compress(data) if path.suffix == ".gz" else data)
    return path


RECEIVED = [request("k-1", REPORT), request('a\\"b', REPORT), request("k-3", b"{}"), request("k-4", LARGE, "ACME/1"),
            request("k-1", SMALLEST, "BETA")]  # fmt: skip


def check_receipts(folder):
    """Which filing was received when and from whom, by logs in any order, one packed, with repeats, odd lines and lines
    of other registers."""
    if missing("sqlite3"):
        return
    database, copy, begun = folder / "register.db", folder / "copy.db", time.time()
    serving = Serving(database, len(RECEIVED), "--new")
    found = [statuses(exchange(serving.port, it)) for it in RECEIVED]
    hold("what is filed", found, [[201], [201], [422], [201], [201]])
    script("register-snapshot", database, copy)
    serving.end()
    with contextlib.closing(sqlite3.connect(copy)) as rows_of:
        moments = [moment / 1000 for (moment,) in rows_of.execute("SELECT moment FROM received ORDER BY seq")]
        hold("the moments of the register", (len(moments), moments == sorted(moments)), (len(RECEIVED), True))
        hold("they are those of the requests", begun - 0.001 < moments[0] and moments[-1] < time.time(), True)
        # As if the first request were of an earlier version, and the others had come at these moments.
        rows_of.execute("DELETE FROM received WHERE seq = 1")
        rows_of.executemany("UPDATE received SET moment = ? WHERE seq = ?",
                            [(1711845240000, 2), (1711845210250, 4), (1711843200001, 5)])
        rows_of.commit()
    # k-1 was answered at 00:30 UTC for the first time, by a clock that is an hour ahead. The line of its repeat has a
    # lesser text.
    early = write_log(folder / "filings.log-2024-03-31.gz", [
        log_line("2024-03-31T00:10:00+01:00", "k-1", status="503", intake_status="504"),
        log_line("2024-03-31T01:30:00+01:00", "k-1"),
        log_line("2024-03-31T01:31:00+01:00", "k-3", status="422"),
        log_line("2024-03-31T01:32:00+01:00", 'a\\"b', user="agent"),
        log_line("2024-03-31T01:33:00+01:00", "k-4", "ACME/1"),
        log_line("2024-03-31T01:20:00+01:00", "k-1", host="other.example", user="nobody"),
    ])  # fmt: skip
    late = write_log(folder / "filings.log", [
        log_line("2024-03-31T00:45:00+00:00", "k-1", user="agent"),
        log_line("2024-03-31T00:46:00+00:00", "k-9"),
        log_line("no time", "k-4", "ACME/1"),
        b'{"time":"2024-03-31T00:50:00+00:00","uri":"/\xff","intake_status":"","key":""}\n',
        b"\n",
        b'{"time":"2024-03-31T00:51:00+00:00","uri":"/fil',
    ])  # fmt: skip
    unread = f"register-receipts: {late}: 3 lines can't be read, the first is line 3\n"
    none = (f"register-receipts: {copy}: 1 filings have no line in these logs\n"
            f"register-receipts: {copy}: of 1 filings the moments in the register and in these logs are more than a "
            "minute apart, the first is filing 2\n")
    sums = {name: hashlib.sha256(body).hexdigest()
            for name, body in [("report", REPORT), ("large", LARGE), ("smallest", SMALLEST)]}
    first = "2024-03-31T01:30:00+01:00,acme"
    table = f"""number,filer,key,sha256,received,user,said_by
1,ACME,k-1,{sums["report"]},{first},log
2,ACME,"a""b",{sums["report"]},2024-03-31T00:34:00.000Z,agent,register
3,ACME,k-4,{sums["large"]},2024-03-31T00:33:30.250Z,acme,register
4,BETA,k-1,{sums["smallest"]},2024-03-31T00:00:00.001Z,,register
"""
    before = copy.read_bytes()
    own = ("--host", "intake.example")
    hold("register-receipts", script("register-receipts", *own, copy, late, early), (0, table, unread + none))
    hold("the logs in another order", script("register-receipts", *own, copy, early, late), (0, table, unread + none))
    others = table.replace(first, "2024-03-31T01:20:00+01:00,nobody")
    hold("with the lines of another server", script("register-receipts", copy, late, early), (0, others, unread + none))
    reading = folder / "reading.db"
    hold("a file for reading", script("register-receipts", *own, "--into", reading, copy, late, early),
         (0, "", unread + none))
    hold("only its owner may read it", rights(reading), "0o600")
    asked = ["sqlite3", "-batch", "-init", str(DEPLOY / "reading.sql"), str(reading)]
    question = "SELECT number, key, received, user FROM senders ORDER BY number"
    done = subprocess.run([*asked, question], capture_output=True, text=True, check=False, timeout=PATIENCE)
    wanted = (
        "1|k-1|2024-03-31T01:30:00+01:00|acme\n"
        "2|a\"b|2024-03-31T00:34:00.000Z|agent\n"
        "3|k-4|2024-03-31T00:33:30.250Z|acme\n"
        "4|k-1|2024-03-31T00:00:00.001Z|\n"
    )
    hold("the view `senders`", (done.stdout, done.stderr), (wanted, ""))
    done = subprocess.run([*asked, "SELECT number FROM current ORDER BY number"],
                          capture_output=True, text=True, check=False, timeout=PATIENCE)
    hold("the view `current`", (done.stdout, done.stderr), ("2\n3\n4\n", ""))
    hold("it is no register", ask_register(shutil.copy(reading, folder / "tried.db"))[0], 1)
    hold("the copy is as it was",
         (copy.read_bytes() == before, sorted(it.name for it in folder.glob("copy.db*"))), (True, ["copy.db"]))
    check_refused_receipts(folder, copy, early)


def check_refused_receipts(folder, copy, log):
    make_outbox(folder / "outbox.db")
    (folder / "text.db").write_text("no database " * 100)
    kept = names(folder)
    new = folder / "new.db"
    for what, words, status, cause in [
        ("an outbox", (folder / "outbox.db", log), 1, "this is an outbox"),
        ("a file that is no database", (folder / "text.db", log), 1, "file is not a database"),
        ("a copy that isn't there", (folder / "none.db", log), 3, "there is no such file"),
        ("a log that isn't there", (copy, folder / "none.log"), 3, "No such file"),
        ("a file that is there", ("--into", copy, copy, log), 1, "is there already"),
        ("a folder that isn't there", ("--into", folder / "none" / "new.db", copy, log), 3, "there is no such folder"),
        ("no log", (copy,), 2, "LOG"),
        ("an outbox, into a file", ("--into", new, folder / "outbox.db", log), 1, "this is an outbox"),
    ]:
        found, said, errors = script("register-receipts", *words)
        hold(f"register-receipts: {what}", (found, said, cause in errors), (status, "", True))
    with open("/dev/full", "wb") as full:
        done = subprocess.run([DEPLOY / "register-receipts", copy, log], stdout=full,
                              stderr=subprocess.PIPE, check=False, timeout=PATIENCE)
    hold("register-receipts: an output that takes nothing", (done.returncode, b"Traceback" in done.stderr), (3, False))
    serving = Serving(folder / "served.db", 1, "--new")
    found = script("register-receipts", "--into", new, folder / "served.db", log)
    hold("register-receipts: a register that is served", found[::2],
         (3, f"register-receipts: {folder / 'served.db'}: database is locked\n"))
    exchange(serving.port, listing("ACME"))
    serving.end()
    hold("nothing is left", [it for it in names(folder) if not it.startswith("served")], kept)
    with SmallDisk(folder / "disk", 1 << 20) as disk:
        if disk.is_mounted:
            disk.fill(8 << 10)
            on_disk = names(disk.folder)
            found = script("register-receipts", "--into", disk.folder / "new.db", copy, log)[0]
            hold("register-receipts on a full disk", (found, names(disk.folder)), (3, on_disk))


# What register-metrics writes of the logs and copies below, without the help and the moment at which it is written.
NUMBERS = """berruzpil_requests_total{host="",status="200"} 1
berruzpil_requests_total{host="",status="201"} 0
berruzpil_requests_total{host="",status="403"} 0
berruzpil_requests_total{host="",status="422"} 0
berruzpil_requests_total{host="",status="503"} 0
berruzpil_requests_total{host="a\\"b\\\\c",status="201"} 1
berruzpil_requests_total{host="a\\"b\\\\c",status="403"} 0
berruzpil_requests_total{host="a\\"b\\\\c",status="422"} 0
berruzpil_requests_total{host="a\\"b\\\\c",status="503"} 0
berruzpil_requests_total{host="intake.example",status="201"} 3
berruzpil_requests_total{host="intake.example",status="403"} 2
berruzpil_requests_total{host="intake.example",status="422"} 0
berruzpil_requests_total{host="intake.example",status="503"} 0
berruzpil_unread_lines_total 5
berruzpil_copy_kept{register="2025"} 0
berruzpil_copy_kept{register="register"} 4
berruzpil_copy_filings{register="2025"} 0
berruzpil_copy_filings{register="register"} 3
berruzpil_filings_without_line{register="2025"} 0
berruzpil_filings_without_line{register="register"} 0
berruzpil_copy_received_timestamp_seconds{register="register"} 1704164640
berruzpil_copy_timestamp_seconds{register="2025"} 1704067200
berruzpil_copy_timestamp_seconds{register="register"} 1704164645
berruzpil_copy_ahead_seconds{register="2025"} 0
berruzpil_copy_ahead_seconds{register="register"} 0
berruzpil_restore_timestamp_seconds{register="register"} 1704164700
berruzpil_restore_ok{register="register"} 0
"""


# What has an alert, beside what else the page has.
ALERTED = {f"berruzpil_{it}" for it in (
    "requests_total", "resets_sent_total", "nginx_dropped_total", "listen_drops_total", "nginx_up",
    "filings_without_line", "copy_timestamp_seconds", "restore_ok", "certificate_expiry_timestamp_seconds",
    "filer_certificate_expiry_timestamp_seconds", "metrics_timestamp_seconds")}  # fmt: skip


def check_alerts():
    """The alerts of the page go by numbers that are written."""
    page = (DEPLOY.parent / "docs" / "OPERATIONS.md").read_text(encoding="utf-8")
    alerts = page.partition("\nAlerts to begin with:\n")[2].partition("\n\nWhen ")[0]
    used = set(re.findall(r"berruzpil_\w+", alerts))
    written = set(runpy.run_path(str(DEPLOY / "register-metrics"))["HELP"])
    hold("the numbers of the alerts", (ALERTED - used, used - written), (set(), set()))


def check_numbers(folder):
    """The numbers of logs with known lines, one packed and some odd, and of copies and a restore of known moments."""
    check_alerts()
    kept, file = folder / "copies", folder / "numbers" / "berruzpil.prom"
    kept.mkdir()
    file.parent.mkdir()
    trials.make_register(kept / "empty.db")
    shutil.copy(kept / "empty.db", kept / "register-20240101T000000Z.db")
    shutil.move(kept / "empty.db", kept / "2025-20240101T000000Z.db")
    make_register(folder / "register.db")
    # The last copy, begun on 2 January 2024 at 3:04:05: 19,724 days and 11,045 seconds after the first moment of 1970.
    shutil.copy(folder / "register.db", kept / "register-20240102T030405Z.db")
    with contextlib.closing(sqlite3.connect(kept / "register-20240102T030405Z.db")) as rows_of:
        rows_of.execute("UPDATE received SET moment = 1704164640999 WHERE seq = (SELECT max(seq) FROM kept)")
        rows_of.commit()
    (kept / "register.tried").write_text("2024-01-02T03:05:00Z 1 register-20240102T030405Z.db doesn't open\n")
    for it in kept.glob("*-wal"):
        it.unlink()
    logs = [
        write_log(folder / "filings.log", [
            log_line("T", "k-1"), log_line("T", "k-2", status="403"), b"\n", b'{"status":200}\n',
            log_line("T", "k-3", host='a"b\\c'), b'{"host":"x","status":"201"}\n', b"[7]\n", b'{"status":true}\n',
            b'{"host":"intake.example","status":403,"agent":"\xff"}\n', b'{"host":"intake.exa',
        ]),
        write_log(folder / "filings.log-2024-01-01.gz", [log_line("T", "k-4"), log_line("T", "k-5")]),
    ]  # fmt: skip
    before = int(time.time())
    found = script("register-metrics", "--into", file, "--copies", kept, *logs)
    hold("register-metrics", found, (0, "", ""))
    text = file.read_text()
    values = [line for line in text.splitlines() if not line.startswith("#")]
    moment = int(values[-1].removeprefix("berruzpil_metrics_timestamp_seconds "))
    hold("when they were written", before <= moment <= time.time(), True)
    ages = [line for line in values if "age_seconds" in line]
    hold("the ages", ages, [f'berruzpil_copy_age_seconds{{register="2025"}} {moment - 1704067200}',
                            f'berruzpil_copy_age_seconds{{register="register"}} {moment - 1704164645}',
                            f'berruzpil_restore_age_seconds{{register="register"}} {moment - 1704164700}'])  # fmt: skip
    hold("the other numbers", [line for line in values[:-1] if line not in ages], NUMBERS.splitlines())
    kinds = re.findall(r"(?m)^# TYPE (\S+) (?:counter|gauge)$", text)
    hold("each name has its kind, and once", kinds, list(dict.fromkeys(re.split("[{ ]", line)[0] for line in values)))
    hold("everybody may read them", (rights(file), names(file.parent)), ("0o644", ["berruzpil.prom"]))
    hold("nothing is left beside the copies", names(kept),
         ["2025-20240101T000000Z.db", "register-20240101T000000Z.db", "register-20240102T030405Z.db", "register.tried"])
    check_other_numbers(folder, kept)
    with open(kept / "2025-20240101T000000Z.db", "r+b") as copy:
        fcntl.lockf(copy, fcntl.LOCK_EX, 510, 0x40000002)
        found = script("register-metrics", "--into", folder / "locked.prom", "--copies", kept)
    lines = [line.partition(" ")[0] for line in (folder / "locked.prom").read_text().splitlines()]
    names_of = [f'berruzpil_copy_{name}{{register="2025"}}' for name in ("kept", "filings", "timestamp_seconds")]
    hold("a copy that a program has open", (found, [name in lines for name in names_of]),
         ((0, "", ""), [False, False, True]))
    (folder / "damaged").mkdir()
    (folder / "damaged" / "register-20240101T000000Z.db").write_text("no database " * 100)
    for what, words, status in [
        ("a log that isn't there", ("--into", file, folder / "none.log"), 3),
        ("a folder that isn't there", ("--into", folder / "none" / "x.prom", logs[0]), 3),
        ("copies that aren't there", ("--into", file, "--copies", folder / "none"), 3),
        ("a copy that is none", ("--into", file, "--copies", folder / "damaged"), 3),
        ("a name that Prometheus doesn't read", ("--into", folder / "x.txt", logs[0]), 2),
        ("no file", (logs[0],), 2),
    ]:
        found, said, errors = script("register-metrics", *words)
        is_named = errors.startswith(("register-metrics: ", "usage: ")) and "Traceback" not in errors
        hold(f"register-metrics: {what}", (found, said, is_named), (status, "", True))
    hold("the file is as it was", (file.read_text() == text, names(file.parent)), (True, ["berruzpil.prom"]))
    hold("numbers of a log alone", script("register-metrics", "--into", file, logs[1])[0], 0)
    counts = [f'berruzpil_requests_total{{host="intake.example",status="{status}"}} {2 if status == 201 else 0}'
              for status in (201, 403, 422, 503)]
    hold("replace the earlier ones", [line for line in file.read_text().splitlines() if line[0] != "#"][:-1],
         [*counts, "berruzpil_unread_lines_total 0"])


def check_other_numbers(folder, kept):
    """Numbers of an intake that serves a register without a copy, and of certificates."""
    file, tls = folder / "other" / "x.prom", folder / "tls"
    file.parent.mkdir()
    tls.mkdir()
    before = int(time.time())
    serving = Serving(folder / "fresh.db", 1, "--new", "--limit", "7000")
    found = script("register-metrics", "--into", file, "--copies", kept, "--intakes")
    values = dict(line.rsplit(" ", 1) for line in file.read_text().splitlines() if 'register="fresh"' in line)
    held = int(pathlib.Path(f"/proc/{serving.process.pid}/status").read_text().split("VmHWM:")[1].split()[0]) * 1024
    exchange(serving.port, listing("ACME"))
    serving.end()
    of = {name: int(values.get(f'berruzpil_{name}{{register="fresh"}}', -1))
          for name in ("copy_timestamp_seconds", "intake_keys_limit", "intake_memory_peak_bytes",
                       "intake_start_timestamp_seconds", "copy_kept")}
    hold("register-metrics --intakes", (found, of["intake_keys_limit"], of["intake_memory_peak_bytes"]),
         ((0, "", ""), 7000, held))
    hold("the intake was started now", before - 2 <= of["intake_start_timestamp_seconds"] <= time.time() + 2, True)
    hold("there never was a copy", (of["copy_timestamp_seconds"], of["copy_kept"]), (0, -1))
    if missing("openssl"):
        return
    for name, days in [("early", 3), ("late", 300)]:
        subprocess.run(["openssl", "req", "-x509", "-newkey", "ec", "-pkeyopt", "ec_paramgen_curve:P-256", "-nodes",
                        "-subj", "/CN=x", "-days", str(days), "-keyout", tls / f"{name}.key",
                        "-out", tls / f"{name}.pem"], check=True, stderr=subprocess.DEVNULL)
    (tls / "both.pem").write_bytes((tls / "late.pem").read_bytes() + (tls / "early.pem").read_bytes())
    hold("register-metrics --certificates",
         script("register-metrics", "--into", file, "--certificates", tls), (0, "", ""))
    now = time.time()
    found = {name: round((int(value) - now) / 86400) for name, value in re.findall(
        r'berruzpil_certificate_expiry_timestamp_seconds\{file="\S+/(\w+)\.pem"\} (\d+)', file.read_text())}
    hold("days to their ends", found, {"both": 3, "early": 3, "late": 300})
    (tls / "none.pem").write_text("-----BEGIN CERTIFICATE-----\nnone\n-----END CERTIFICATE-----\n")
    status, _, errors = script("register-metrics", "--into", file, "--certificates", tls)
    hold("a certificate that is none", (status, f"{tls / 'none.pem'}: " in errors), (3, True))


# ---- in the place of a register

# In the place of `systemctl`: it notes what it is asked, and says that the unit is that of a user who owns nothing.
SYSTEMCTL = """#!/bin/sh
echo "$*" >> {0}/asked
case $1 in
    show) printf '%s\\n' LoadState="$LOADED" User=nobody Group=nogroup WorkingDirectory={0}/lib ;;
    start) exit "$STARTS" ;;
esac
"""
UNIT = ["is-active --quiet berruzpil-intake", "stop berruzpil-intake", "start berruzpil-intake"]


def try_replace(folder, copy, loaded="loaded", starts=0, register="lib/register.db"):
    """What register-restore --replace ends with and says, what it asked systemctl, and what is in the register's
    folder."""
    check_deploy.write_program(folder / "systemctl", SYSTEMCTL.format(folder))
    (folder / "asked").unlink(missing_ok=True)
    env = {**PATHS, "PATH": f"{folder}:{PATHS['PATH']}", "LOADED": loaded, "STARTS": str(starts)}
    words = [DEPLOY / "register-restore", "--replace", copy, folder / register]
    done = subprocess.run(words, capture_output=True, text=True, check=False, env=env, timeout=PATIENCE)
    asked = (folder / "asked").read_text().splitlines() if (folder / "asked").exists() else []
    return done.returncode, done.stdout, done.stderr, [it for it in asked if not it.startswith("show")]


def owners(*paths):
    return [(it.stat().st_uid, rights(it)) for it in paths]


def check_replace(folder):
    """A copy in the place of a register that is there, that is gone with its folder, and whose folder is empty and
    another's; what is refused changes nothing."""
    if os.geteuid() != 0:
        print("not tried: register-restore --replace, which needs root")
        return
    folder.chmod(0o755)
    copy, lib = folder / "copy.db", folder / "lib"
    register = lib / "register.db"
    make_register(copy)
    (folder / "text.db").write_text("no database " * 100)
    for it in (copy, folder / "text.db"):
        it.chmod(0o644)
    said = f"{register}: replaced: {SOUND}; no file was there; berruzpil-intake is started\n"
    hold("a register that is gone with its folder", try_replace(folder, copy), (0, said, "", UNIT))
    hold("its folder and it belong to the intake's user",
         (names(lib), owners(lib, register)), (["register.db"], [(NOBODY, "0o750"), (NOBODY, "0o600")]))
    hold("it is the register of the copy", rows(register) == rows(copy), True)
    register.unlink()
    os.chown(lib, 0, 0)
    lib.chmod(0o755)
    hold("a register whose disk is new", try_replace(folder, copy), (0, said, "", UNIT))
    hold("the folder and it belong to the intake's user", owners(lib, register),
         [(NOBODY, "0o750"), (NOBODY, "0o600")])
    register.write_bytes(b"damaged")
    log = lib / "register.db-wal"
    log.write_bytes(b"a log")
    status, said, errors, asked = try_replace(folder, copy)
    away = re.fullmatch(rf"{register}: replaced: {SOUND}; what was there is in ({lib}/away-\d{{8}}T\d{{6}}Z); "
                        "berruzpil-intake is started\n", said)
    hold("a register that is there", (status, bool(away), errors, asked), (0, True, "", UNIT))
    hold("is the register of the copy", (rows(register) == rows(copy), log.exists()), (True, False))
    if away:
        kept = pathlib.Path(away[1])
        hold("what was there is kept", [(kept / it).read_bytes() for it in names(kept)], [b"damaged", b"a log"])
    before = {it: it.read_bytes() for it in lib.rglob("*") if it.is_file()}
    next_step = "; nothing was changed: name another copy"
    secret = pathlib.Path(shutil.copy(copy, folder / "secret.db"))
    secret.chmod(0o600)
    for what, words, status, cause, asked in [
        ("a copy that is none", {"copy": folder / "text.db"}, 1, f"text.db: file is not a database{next_step}", []),
        ("a copy that isn't there", {"copy": folder / "none.db"}, 1, f"there is no such file{next_step}", []),
        ("a copy that the user may not read", {"copy": secret}, 3, f"{secret}: the user nobody may not read it", []),
        ("a unit that isn't there", {"copy": copy, "loaded": "not-found"}, 3, "there is no unit berruzpil-intake,", []),
        ("a register that no unit serves", {"copy": copy, "register": "register.db"}, 2, f"serves {register}", []),
    ]:
        found = try_replace(folder, **words)
        hold(f"register-restore --replace: {what}", (found[0], found[1], cause in found[2], found[2].count("\n"),
             found[3]), (status, "", True, 1, asked))  # fmt: skip
    hold("nothing was changed", {it: it.read_bytes() for it in lib.rglob("*") if it.is_file()} == before, True)
    with open(register, "r+b") as held:
        fcntl.lockf(held, fcntl.LOCK_EX, 510, 0x40000002)
        found = try_replace(folder, copy)
    hold("a register that a program has open", found,
         (3, "", f"register-restore: {register}: another program has it open: stop that\n", UNIT))
    hold("is as it was", {it: it.read_bytes() for it in lib.rglob("*") if it.is_file()} == before, True)
    found = try_replace(folder, copy, starts=1)
    hold("an intake that does not start", (found[0], "see journalctl -u berruzpil-intake" in found[2]), (3, True))
    hold("the register is replaced all the same", rows(register) == rows(copy), True)
    hold("only root may do that", as_user(DEPLOY / "register-restore", "--replace", copy, register),
         (3, "", "register-restore: --replace stops and starts the intake: run it as root\n"))
    hold("no outbox is replaced", script("outbox-restore", "--replace", copy, register)[0], 2)


# ---- a new register


class Listening:
    """A program that has a port, and answers each connection with these bytes after so many seconds; or with nothing,
    and holds it."""

    def __init__(self, reply=None, seconds=0):
        self.reply, self.held, self.listener = reply, [], socket.create_server(("127.0.0.1", 0))
        self.seconds = seconds
        self.port = self.listener.getsockname()[1]

    def __enter__(self):
        threading.Thread(target=self.serve, daemon=True).start()
        return self

    def __exit__(self, *_):
        self.listener.shutdown(socket.SHUT_RDWR)
        self.listener.close()
        for peer in self.held:
            peer.close()

    def serve(self):
        while True:
            try:
                peer, _ = self.listener.accept()
            except OSError:
                return
            self.held.append(peer)
            if self.reply is not None:
                read_request(peer)
                time.sleep(self.seconds)
                with contextlib.suppress(OSError):
                    peer.sendall(self.reply)
                self.held.remove(peer)
                peer.close()


def read_request(peer):
    """Reads a request with as many bytes as it declares."""
    with peer.makefile("rb") as file:
        length = 0
        while (line := file.readline()) not in (b"\r\n", b""):
            if line.lower().startswith(b"content-length:"):
                length = int(line.split(b":")[1])
        file.read(length)


def reply(status, reason, content, kind="application/problem+json"):
    head = (
        f"HTTP/1.1 {status} {reason}\r\nContent-Type: {kind}\r\n"
        f"Content-Length: {len(content)}\r\nConnection: close\r\n\r\n"
    )
    return head.encode() + content


def check_new(folder):
    """A register on a used port leaves nothing, so that the next try makes it."""
    if missing("curl"):
        return
    database = folder / "register.db"
    for what, answer in [("a silent program", None), ("a program that answers", reply(200, "OK", b"{}"))]:
        with Listening(answer) as other:
            status, said, errors = script("register-new", database, other.port)
        hold(f"register-new on the port of {what}", (status, said, names(folder)), (3, "", []))
        hold("it says so", errors.splitlines()[-1:], ["register-new: no register was made"])
    status, said, _ = script("register-new", database, free_port())
    hold("register-new after that", (status, said), (0, "sound: 0 kept, 0 filings\n"))
    hold("only its owner may read it", rights(database), "0o600")
    hold("it is not overwritten", script("register-new", database, free_port())[::2],
         (1, f"register-new: {database} is there already\n"))
    hold("and is sound", ask_register(database), (0, b"sound: 0 kept, 0 filings\n"))


# ---- rounds

HTML = b"<html><body>no</body></html>"
# What answers a round, the reply to each request (none: it listens no more), and the status of the round.
ROUNDS = [
    ("a front that refuses the certificate", reply(403, "Forbidden", b'{"reason":"no-certificate","status":403}'), 75),
    ("a front without this path", reply(404, "Not Found", HTML, "text/html"), 75),
    ("a front that is rate-limited", reply(429, "Too Many Requests", HTML, "text/html"), 75),
    ("a front without an intake", reply(502, "Bad Gateway", HTML, "text/html"), 75),
    ("nobody", None, 75),
]


def check_rounds(folder):
    """Rounds after which entries are open end with 75 and say how many; one that settles all ends with 0."""
    database = folder / "outbox.db"
    make_outbox(database)
    for what, answer, wanted in ROUNDS:
        with Listening(answer) if answer else contextlib.nullcontext() as other:
            status, _, errors = script("outbox-round", database, other.port if answer else free_port())
        last = errors.splitlines()[-1:]
        hold(f"a round to {what}", (status, last), (wanted, ["outbox-round: entries that are open still: 2"]))
    serving = Serving(folder / "register.db", 2, "--new")
    status, said, errors = script("outbox-round", database, serving.port)
    serving.end()
    hold("a round that settles all", (status, said, errors), (0, "entry 1 confirmed 1\nentry 2 confirmed 2\n", ""))
    hold("a round with nothing open", script("outbox-round", database, free_port()), (0, "nothing open\n", ""))
    if missing("flock"):
        return
    with open(f"{database}.lock", "w", encoding="utf-8") as lock:
        fcntl.flock(lock, fcntl.LOCK_EX)
        busy = script("outbox-round", database, free_port())
    hold("a round while another is running", busy, (75, "", "outbox-round: another round is running\n"))


def check_hanging(folder):
    """An intake that accepts and never answers: while a round waits for it, a report is put in as the page says."""
    database, page = folder / "outbox.db", (ROOT / "docs" / "FIRST_DAYS.md").read_text()
    make_outbox(database)
    (seconds,) = set(re.findall(r"outbox put --wait (\d+) ", page))
    with Listening() as other:
        with subprocess.Popen([DEPLOY / "outbox-round", database, str(other.port)], stdout=subprocess.PIPE,
                              stderr=subprocess.PIPE, text=True, env=PATHS) as a_round:
            while not other.held and a_round.poll() is None:
                time.sleep(0.05)
            words = ["put", "--wait", seconds, "--db", database, "--body", folder / "reports" / "1", "--key", "k-3"]
            done = subprocess.run([OUTBOX, *words], capture_output=True, text=True, check=False, timeout=600)
            hold("a report is put in beside a round to an intake that hangs",
                 (done.returncode, done.stdout, done.stderr), (0, "entry 3\n", ""))
            said, errors = a_round.communicate(timeout=300)
    hold("the round ends by itself", (a_round.returncode, said), (75, "entry 1 open\n"))
    hold("and says what is open still", errors.splitlines()[-1][:-1], "outbox-round: entries that are open still: ")


def check_slow_round(folder):
    """An intake that takes three seconds for each of twelve reports: a round that may send for so many seconds, here
    20, ends then. What was answered by then is settled."""
    database, text = folder / "outbox.db", (DEPLOY / "outbox-round").read_text()
    make_outbox(database)
    more = [folder / "reports" / "1"] * 10
    run(OUTBOX, "put", "--db", database, "--body", *more)
    short = folder / "outbox-round"
    check_deploy.write_program(short, re.sub(r"timeout \d+ outbox", "timeout 20 outbox", text))
    with Listening(reply(201, "Created", b'{"number":1,"status":"registered"}', "application/json"), 3) as other:
        done = subprocess.run([short, database, str(other.port)], capture_output=True, text=True, check=False,
                              env=PATHS, timeout=100)
    states = [line.split()[2] for line in run(OUTBOX, "status", "--db", database).stdout.decode().splitlines()]
    settled = states.count("confirmed")
    hold("a round to a slow intake ends with entries open", (done.returncode, done.stderr),
         (75, f"outbox-round: entries that are open still: {states.count('open')}\n"))
    hold("some are settled, the first ones",
         (0 < settled < 12, states), (True, ["confirmed"] * settled + ["open"] * (12 - settled)))


# ---- filings that a restore loses


def check_lost(folder):
    """A restored copy lacks the filing after it, and lost-filings names it, its number and what it replaces, from the
    logs: one packed, one with odd lines and a cut end."""
    if missing("gzip"):
        return
    database, log = folder / "register.db", folder / "filings.log"
    serving = Serving(database, 3, "--new")
    exchange(serving.port, request("k-1", REPORT))
    script("register-snapshot", database, folder / "copy.db")
    exchange(serving.port, request("k-2", REPORT, replaces=1))
    exchange(serving.port, request("k-3", b"{}"))
    serving.end()
    line = (
        '{"time":"T%s","host":"intake.example","uri":"/filings/ACME%s","key":"\\"%s\\"",'
        '"status":%s,"intake_status":"%s"}\n'
    )
    log.write_text(line % (1, "", "k-1", 201, 201) + line % (2, "/1", "k-2", 201, 201)
                   + line % (3, "", "k-3", 422, 422))  # fmt: skip
    subprocess.run(["gzip", "-k", log], check=True)
    hold("lost-filings of the register", script("lost-filings", database, log, f"{log}.gz"), (0, "", ""))
    wanted = (1, 'T2 ACME "k-2" 2 replaces 1\n', "")
    hold("lost-filings of the copy", script("lost-filings", folder / "copy.db", f"{log}.gz", log), wanted)
    script("register-restore", folder / "copy.db", folder / "new.db")
    hold("lost-filings of what was restored", script("lost-filings", folder / "new.db", log), wanted)
    odd = b'{"time":"T4","uri":"/\xff","intake_status":""}\n'
    others = (line % (5, "", "k-5", 201, 201)).replace("intake.example", "other.example").encode()
    log.write_bytes(odd + others + log.read_bytes() + b'{"time":"T6","ur')
    unread = f"lost-filings: {log}: 1 lines can't be read, the first is line 6\n"
    found = script("lost-filings", "--host", "intake.example", folder / "copy.db", log)
    hold("lost-filings of a log with odd lines", found, (*wanted[:2], unread))
    for ago, said in [(3600, "filings without a line: 1; lost ones may have none either\n"), (0, "")]:
        # The first line is of that time, and the second filing has none.
        write_log(log, [log_line(iso(time.time() - ago), "k-0", status="403"), log_line(iso(time.time()), "k-1")])
        found = script("lost-filings", database, log)
        hold(f"lost-filings, if lines are missing since {ago} s", found,
             (0, "", f"lost-filings: {database}: {said}" if said else ""))  # fmt: skip


def iso(second):
    """A time as nginx writes it."""
    return datetime.datetime.fromtimestamp(second, datetime.timezone.utc).isoformat(timespec="seconds")


def listed(port, filer="ACME"):
    """Of each filing of a filer its number, what it replaces, and what replaces it."""
    content = exchange(port, listing(filer)).partition(b"\r\n\r\n")[2]
    return [(it["number"], it.get("replaces"), it.get("replaced_by")) for it in json.loads(content)["filings"]]


def check_again(folder):
    """Filings that a restore lost, one of which replaces another, and one a filing that was not lost: they are filed
    once more from a second outbox, each once. A register that lost none files nothing."""
    old, new, other = folder / "old.db", folder / "new.db", folder / "other.db"
    report, large = folder / "report", folder / "large"
    report.write_bytes(REPORT)
    large.write_bytes(LARGE)
    run(OUTBOX, "init", "--db", old, "--filer", "ACME")
    run(OUTBOX, "init", "--db", folder / "beta.db", "--filer", "BETA")

    def put(key, file, *more):
        run(OUTBOX, "put", "--db", old, "--body", file, f"--key={key}", *more)

    def waits(database, *pairs):
        return "".join(f"outbox-again: entry {entry} waits for entry {before}, which it replaces: "
                       f"send what is in {database}, and run this again\n" for entry, before in pairs)

    serving = Serving(folder / "register.db", 1 << 31, "--new")
    put("k-1", report)
    script("outbox-round", old, serving.port)
    script("register-snapshot", folder / "register.db", folder / "copy.db")
    put('-2 "a"\\', large)
    put("k-3", report, "--amend", "2")
    put("k-4", report, "--amend", "1")
    hold("the first round", script("outbox-round", old, serving.port)[:2],
         (0, "entry 2 confirmed 2\nentry 3 confirmed 3\nentry 4 confirmed 4\n"))
    # Filing 5 is of no outbox here.
    exchange(serving.port, request("d-1", REPORT))
    put("k-5", report, "--amend", "5")
    hold("another round", script("outbox-round", old, serving.port)[:2], (0, "entry 5 confirmed 6\n"))
    put("k-6", report)
    filed = [(1, None, 4), (2, None, 3), (3, 2, None), (4, 1, None), (5, None, 6), (6, 5, None)]
    hold("what is filed", listed(serving.port), filed)
    hold("outbox-again of what was not lost", script("outbox-again", old, other, 2, 4),
         (75, f"entry 1: entry 1 of {other}\nentry 2: entry 2 of {other}\n", waits(other, (4, 1))))
    hold("it is answered as it was", script("outbox-round", other, serving.port)[:2],
         (0, "entry 1 confirmed 1\nentry 2 confirmed 2\n"))
    hold("and so is a correction", (script("outbox-again", old, other, 2, 4),
                                    script("outbox-round", other, serving.port)[:2]),
         ((0, f"entry 4: entry 3 of {other}\n", ""), (0, "entry 3 confirmed 4\n")))
    hold("and nothing is filed", listed(serving.port), filed)
    serving.process.terminate()
    serving.process.communicate()
    for what, words, status, cause in [
        ("an entry that is open", (old, new, 2, 6), 2, "entry 6 is open, and not confirmed"),
        ("an entry that isn't there", (old, new, 9), 4, "there is no entry 9"),
        ("a correction of what another outbox filed", (old, new, 5), 1,
         "entry 5 replaces filing 5, which is no entry here: put its report in by hand"),
        ("an outbox of another filer", (old, folder / "beta.db", 2), 2, "is an outbox of BETA"),
        ("no entry", (old, new), 2, "usage"),
        ("a word that is no entry", (old, new, "x"), 2, "usage"),
    ]:
        found = script("outbox-again", *words)
        hold(f"outbox-again: {what}", (found[0], found[1], cause in found[2], found[2].count("\n"), new.exists()),
             (status, "", True, 1, False))  # fmt: skip
    asked = ("import pathlib, runpy, sys\n"
             "print(runpy.run_path(sys.argv[1])['filer_of'](pathlib.Path(sys.argv[2])))")  # fmt: skip
    with open(old, "r+b") as held:
        fcntl.lockf(held, fcntl.LOCK_EX, 510, 0x40000002)
        asking = subprocess.Popen([sys.executable, "-c", asked, DEPLOY / "outbox-again", old], stdout=subprocess.PIPE)
        time.sleep(2)
    hold("outbox-again waits while a round has the outbox open", asking.communicate()[0], b"ACME\n")
    script("register-restore", folder / "copy.db", folder / "restored.db")
    serving = Serving(folder / "restored.db", 1 << 31)
    # Another filer gets the number 2 meanwhile.
    exchange(serving.port, request("k-1", SMALLEST, "BETA"))
    both = waits(new, (3, 2), (4, 1))
    hold("outbox-again of what was lost", script("outbox-again", old, new, 3, 4),
         (75, f"entry 1: entry 1 of {new}\nentry 2: entry 2 of {new}\n", both))
    hold("and once more before a round", script("outbox-again", old, new, 3, 4), (75, "", both))
    hold("a round", script("outbox-round", new, serving.port)[:2], (0, "entry 1 confirmed 1\nentry 2 confirmed 3\n"))
    hold("outbox-again after it", script("outbox-again", old, new, 3, 4),
         (0, f"entry 3: entry 3 of {new}\nentry 4: entry 4 of {new}\n", ""))
    hold("the last round", script("outbox-round", new, serving.port)[:2],
         (0, "entry 3 confirmed 4\nentry 4 confirmed 5\n"))
    hold("outbox-again at the end", script("outbox-again", old, new, 3, 4), (0, "", ""))
    hold("each is filed once, and replaces what it replaced", (listed(serving.port), listed(serving.port, "BETA")),
         ([(1, None, 5), (3, None, 4), (4, 3, None), (5, 1, None)], [(2, None, None)]))
    serving.process.terminate()
    serving.process.communicate()
    bodies = {name: [body for _, _, body, *_ in rows(folder / f"{name}.db")["entry"]][:4] for name in ("old", "new")}
    hold("with the bytes that they had", bodies["new"] == bodies["old"], True)


# ---- nginx in front of the intake

MALFORMED = check_deploy.problem(400, "malformed", "Bad Request")
NO_METHOD = check_deploy.problem(405, "no-method", "Method Not Allowed")
REGISTERED = (201, "application/json")
# What is sent to nginx, the status and media type of the reply or all of it, and whether the intake gets it.
FRONT = [
    ("a report", request("k-1", REPORT), REGISTERED, True),
    ("a report after the copy", request("k-2", REPORT), REGISTERED, True),
    ("its repeat", request("k-2", REPORT), REGISTERED, True),
    ("a refused report", request("k-3", b"{}"), (422, "application/problem+json"), True),
    ("a method that the intake refuses", b"PUT" + request("k-4", REPORT)[4:], NO_METHOD, True),
    ("a line that is no request", b"\x16\x03 hello\r\n\r\n", MALFORMED, False),
    ("TRACE", b"TRACE /filings/ACME HTTP/1.1\r\nHost: h\r\n\r\n", NO_METHOD, False),
    ("a path that is no UTF-8", b"GET /\xff HTTP/1.1\r\nHost: h\r\n\r\n",
     check_deploy.problem(404, "no-path", "Not Found"), False),
]


def check_front(folder):
    """nginx with the files of deploy/ in front of the built intake: what it answers, and that its log finds what a copy
    lacks."""
    if missing("nginx", "openssl"):
        return
    folder.chmod(0o755)
    database, copy, log = folder / "register.db", folder / "copy.db", folder / "filings.log"
    check_deploy.make_certificates("openssl", folder)
    serving = Serving(database, 4_294_967_295, "--new", "--log")
    port = free_port()
    file = check_deploy.nginx_file(folder, port, (serving.port, serving.port), free_port())
    with check_deploy.running(check_deploy.find("nginx"), folder, file, port):
        for what, given, wanted, _ in FRONT:
            found = check_deploy.ask_bytes(folder, port, given.replace(b"Host: h\r\n", b"Host: intake.example\r\n"))
            hold(f"{what}, through nginx", found[: len(wanted)], wanted)
            if not copy.exists():
                script("register-snapshot", database, copy)
    # Each connection that nginx kept open has a line once it is over.
    time.sleep(1)
    serving.process.terminate()
    lines = [json.loads(line) for line in serving.process.communicate()[0].splitlines()]
    hold("the intake got what it is to get", sum(line["places"] for line in lines),
         sum(reaches for *_, reaches in FRONT))
    hold("each request has a line in the log", len(log.read_bytes().splitlines()), len(FRONT))
    hold("lost-filings of the register", script("lost-filings", database, log), (0, "", ""))
    status, said, errors = script("lost-filings", "--host", "intake.example", copy, log)
    hold("lost-filings of the copy", (status, said.partition(" ")[2], errors), (1, 'ACME "k-2" 2\n', ""))


# ---- what the unit does behind a stop

# In the place of `systemctl`: the job of the unit.
JOBS = """#!/bin/sh
[ "$1" != list-jobs ] || [ -z "$JOB" ] || echo "7 $3 $JOB running"
"""
# What ended `serve`: how many connections it was to serve, the signal, what systemd says of its end, and of its job;
# and whether the register is read behind it.
ENDS = [
    ("a stop", 9, signal.SIGTERM, ("success", "killed", "TERM"), "stop", True),
    ("a restart", 9, signal.SIGTERM, ("success", "killed", "TERM"), "restart", False),
    ("a kill", 9, signal.SIGKILL, ("signal", "killed", "KILL"), "", True),
    ("a kill, since a restart takes too long", 9, signal.SIGKILL, ("timeout", "killed", "KILL"), "restart", True),
    ("its last connection", 2, None, ("success", "exited", "0"), "", False),
    # As of a close that failed: what was answered is in the log still.
    ("its last connection, without a close", 9, signal.SIGKILL, ("success", "exited", "0"), "", True),
]


def check_stops(folder):
    """The register is read behind a stop, a kill and a failed close, and not once more if it was closed, or if `serve`
    begins again at once; no log is left but in that case."""
    systemctl_stand_in.FOLDERS[:] = [DEPLOY]
    check_deploy.write_program(folder / "systemctl", JOBS)
    unit = systemctl_stand_in.Unit("berruzpil-intake.service")
    for what, connections, number, (result, code, status), job, is_read in ENDS:
        (folder / what / "run").mkdir(parents=True)
        serving = Serving(folder / what / "register.db", connections, "--new")
        for key in ("k-1", "k-2"):
            exchange(serving.port, request(key, REPORT))
        if number:
            serving.process.send_signal(number)
        serving.end()
        env = {**PATHS, "PATH": f"{folder}:{PATHS['PATH']}", "SERVICE_RESULT": result, "EXIT_CODE": code,
               "EXIT_STATUS": status, "JOB": job, "RUNTIME_DIRECTORY": str(folder / what / "run")}  # fmt: skip
        said = ""
        for line in unit.all_of("ExecStopPost"):
            command = systemctl_stand_in.PREFIX.fullmatch(line)[2].replace("$$", "$")
            words = shlex.split(command.replace("/usr/local/bin/intake", str(INTAKE)))
            said += run(*words, cwd=folder / what, env=env).stdout.decode()
        hold(f"what is read behind {what}", said, "sound: 2 kept, 2 filings\n" if is_read else "")
        size = (folder / what / "register.db-wal").stat().st_size
        hold(f"whether the log has anything behind {what}", size > 41, job == "restart" and not is_read)


# ---- a full disk

# What is asked of a register whose disk is full, and the statuses of the replies.
FULL = [
    ("a new report", request("k-5", LARGE), [503]),
    ("the list", listing("ACME"), [200]),
    ("a repeat", request("k-1", REPORT), [201]),
    ("the repeat of a refused report", request("k-3", b"{}"), [422]),
    ("another new report", request("k-6", REPORT), [503]),
]


def check_full_disk(folder):
    with SmallDisk(folder / "disk", 4 << 20) as disk:
        if not disk.is_mounted:
            print("not tried: a full disk, since no file system may be mounted")
            return
        database = disk.folder / "register.db"
        serving = Serving(database, len(REQUESTS) + len(FULL) + 1, "--new")
        for it in REQUESTS:
            exchange(serving.port, it)
        filler = disk.fill(8 << 10)
        for what, given, wanted in FULL:
            hold(f"{what}, on a full disk", statuses(exchange(serving.port, given)), wanted)
        filler.unlink()
        # The second failure was followed by a pause of a second, in which each request gets 503.
        time.sleep(1.5)
        hold("a new report, once there is room", statuses(exchange(serving.port, request("k-5", LARGE))), [201])
        hold("serve ends", serving.end()[0], 0)
        hold("what was answered is kept", ask_register(database), (0, b"sound: 5 kept, 4 filings\n"))


TRIALS = [
    check_register_copies,
    check_outbox_copies,
    check_refused_copies,
    check_copy_with_log,
    check_copy_with_journal,
    check_read_only_copies,
    check_for_reading,
    check_links,
    check_earlier_copies,
    check_served,
    check_rush,
    check_kept_copies,
    check_wrong_clock,
    check_least_copies,
    check_site,
    check_failed_copies,
    check_receipts,
    check_digests,
    check_replace,
    check_numbers,
    check_pause,
    check_new,
    check_rounds,
    check_hanging,
    check_slow_round,
    check_lost,
    check_again,
    check_front,
    check_stops,
    check_full_disk,
]


def play(trial):
    """What ended a trial, if that isn't its own end."""
    with tempfile.TemporaryDirectory() as folder:
        try:
            trial(pathlib.Path(folder).resolve())
        except first_days.Seen as seen:
            return str(seen)
        except (OSError, subprocess.SubprocessError, LookupError, ValueError, sqlite3.Error) as fault:
            return repr(fault)
        finally:
            for process in Serving.begun:
                process.kill()
    return None


def try_faults(words):
    """Plants each fault in deploy/: whether a check of its trial fails."""
    global DEPLOY
    first_days.planted.append(True)
    named = {f"operations_{it.__name__.removeprefix('check_')}": it for it in TRIALS}
    for fault in first_days.faults(" ".join(words)):
        if fault.part in named:
            with first_days.repository_with(fault) as top, contextlib.redirect_stdout(None):
                DEPLOY = top / "deploy"
                seen = play(named[fault.part])
            trials.tell(f"{fault.line}: seen by: {seen}", None if seen else "no check fails")
    print(f"{len(trials.failures)} not seen", flush=True)
    return 1 if trials.failures else 0


def main(words):
    for program in (INTAKE, OUTBOX):
        if not program.exists():
            sys.exit(f"build the program first: (cd crates/{program.name} && rt run -- --version)")
    if words[:1] == ["--planted"]:
        return try_faults(words[1:])
    for trial in TRIALS:
        if all(word in trial.__name__ for word in words) and (fault := play(trial)):
            trials.tell(trial.__name__, fault)
    print(f"{len(passed)} passed, {len(trials.failures)} failed")
    return 1 if trials.failures else 0


if __name__ == "__main__":
    sys.exit(main(sys.argv[1:]))
