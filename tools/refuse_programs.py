#!/usr/bin/env python3
"""Refuses each allocation of the built programs in turn: each command is run once to count them, and then once for
each, with that one refused. It has to do what it does otherwise, or to say that memory failed; what it did not say must
not have happened, and the same command afterwards, with nothing refused, has to give what it gives otherwise. Status 1
if that is not so.

    tools/refuse_programs.py [WORD]      all trials, or those whose names have the word

It takes the programs that `rt run` builds, as crates/intake/out/intake.
"""
import pathlib
import re
import shutil
import subprocess
import sys
import tempfile

import check_commands
from allocations import count, library, run
from odd_register import date_register
from trials import DRILL, INTAKE, OUTBOX, REPORT, ROOT, Serving, failures, make_earlier, make_earlier_outbox, tell

UNAVAILABLE = b'{"reason":"unavailable","status":503,"title":"Service Unavailable","type":"about:blank"}'
KEY_REUSED = b'{"reason":"key-reused","status":422,"title":"Unprocessable Content","type":"about:blank"}'
REFUSED = (
    b'{"findings":[{"code":"not-json","place":""}],'
    b'"reason":"refused","status":400,"title":"Bad Request","type":"about:blank"}'
)


def each(what, counts, words, judge, given=b"", before=None):
    """Runs the command with each allocation refused. `before` makes what it is run on;
    `judge` is given the run and says what is wrong."""
    if before:
        before()
    whole = run(words, counts, 0, given)
    allocations = count(whole)
    if allocations is None:
        return tell(what, f"status {whole.returncode}, {whole.stderr!r}")
    wrong = [judge(whole)] if judge(whole) else []
    for at in range(1, allocations + 1):
        if before:
            before()
        fault = judge(run(words, counts, at, given))
        if fault:
            wrong.append(f"allocation {at}: {fault}")
    return tell(
        f"{what}: {allocations} allocations, each refused in turn",
        f"{len(wrong)} runs, the first: {wrong[0]}" if wrong else None,
    )


def contents(replies):
    """Status and content of each whole reply."""
    found = []
    while match := re.match(
        rb"HTTP/1.1 (\d+) [^\r]*\r\n(?:[^\r]+\r\n)*?Content-Length: (\d+)\r\n(?:[^\r]+\r\n)*\r\n", replies
    ):
        end = match.end() + int(match[2])
        if end > len(replies):
            break
        found.append((int(match[1]), replies[match.end() : end]))
        replies = replies[end:]
    return found, replies


# ---- a connection


def judge_connection(ran):
    """The example, a refused report, the example again, another body under its key, and the list: each may get 503,
    and is not kept then."""
    if ran.returncode not in (0, 3):
        return f"status {ran.returncode}"
    found, rest = contents(ran.stdout)
    if rest:
        return f"a part of a reply: {rest!r}"
    if ran.returncode == 0 and len(found) != 5:
        return f"{len(found)} replies"
    kept = {}
    for at, (status, content) in enumerate(found):
        if (status, content) == (503, UNAVAILABLE):
            continue
        wanted = expected(at, kept)
        if (status, content) != wanted:
            return f"reply {at + 1} is {status} {content!r} in place of {wanted}"
    return None


def expected(at, kept):
    """The reply that the protocol gives to the request of this place, after those that were answered."""
    registered = b'{"number":1,"status":"registered"}'
    if at in (0, 2):
        if kept.get("k-1", REPORT) != REPORT:
            return 422, KEY_REUSED
        kept["k-1"] = REPORT
        return 201, registered
    if at == 1:
        kept["k-2"] = b""
        return 400, REFUSED
    if at == 3:
        if "k-1" in kept:
            return 422, KEY_REUSED
        kept["k-1"] = b""
        return 400, REFUSED
    filings = b'{"facts":1,"number":1}' if kept.get("k-1") == REPORT else b""
    return 200, b'{"filings":[' + filings + b"]}"


def request(key, body):
    return b'POST /filings/ACME HTTP/1.1\r\nHost: h\r\nIdempotency-Key: "%s"\r\nContent-Length: %d\r\n\r\n%s' % (
        key,
        len(body),
        body,
    )


def try_connection(counts, _):
    posts = request(b"k-1", REPORT) + request(b"k-2", b"") + request(b"k-1", REPORT) + request(b"k-1", b"")
    each(
        "intake: five requests",
        counts,
        [INTAKE],
        judge_connection,
        posts + b"GET /filings/ACME HTTP/1.1\r\nHost: h\r\n\r\n",
    )


# ---- scripts


def try_script(counts, _):
    script, wanted = (ROOT / "crates/drill/stdin").read_bytes(), (ROOT / "crates/drill/stdout").read_bytes()

    # A delivery that memory refuses is answered 503 and completes nothing: the first, and the second files the report;
    # or the second, and the entry stays open. It stays open too if the second is completed, and memory is refused to
    # its reply: the filer hears nothing.
    filing = b'filing 1 ACME "k-1"\n'
    ends = (b"entry 1 1 confirmed 1\ndone 1\n", b"entry 1 1 open\ndone 1\n", b"entry 1 1 open\ndone 2\n")
    allowed = (wanted, *(filing + end for end in ends))

    def judge(ran):
        if ran.returncode == 0 and ran.stdout in allowed:
            return None
        return (
            None
            if ran.returncode == 3 and not ran.stdout and ran.stderr
            else f"status {ran.returncode}, {ran.stdout!r}, {ran.stderr!r}"
        )

    each("drill: the worked script", counts, [DRILL], judge, script)


# ---- commands over files


def words_of(program, *words):
    return [program, *map(str, words)]


def restore(saved, folder):
    """Makes the folder what it was when it was saved."""

    def before():
        shutil.rmtree(folder)
        shutil.copytree(saved, folder)

    return before


def try_command(counts, folder, what, words, then, judge_then):
    """A command on a copy of what is in the folder, and then another one, with nothing refused,
    which says what stands."""
    saved = folder.parent / "saved"
    shutil.copytree(folder, saved)
    good = subprocess.run(words, capture_output=True, check=False)

    def judge(ran):
        stands = subprocess.run(then, capture_output=True, check=False)
        if ran.returncode == good.returncode and ran.stdout == good.stdout:
            return judge_then(True, stands)
        if ran.returncode != 3 or not ran.stderr:
            return f"status {ran.returncode}, {ran.stdout!r}, {ran.stderr!r}"
        return judge_then(False, stands)

    each(what, counts, words, judge, before=restore(saved, folder))
    restore(saved, folder)()
    shutil.rmtree(saved)


def stands_as(*wanted):
    """What stands: after success the last of these outputs, and otherwise any of them."""

    def judge(is_done, stands):
        allowed = wanted[-1:] if is_done else wanted
        return None if stands.stdout in allowed else f"then {stands.returncode}, {stands.stdout!r}, {stands.stderr!r}"

    return judge


def try_outbox(counts, folder):
    database, report = folder / "outbox.db", folder / "report.json"
    report.write_bytes(REPORT)
    status, put = (
        words_of(OUTBOX, "status", "--db", database),
        words_of(OUTBOX, "put", "--db", database, "--body", report, "--key", "k-1"),
    )
    init = words_of(OUTBOX, "init", "--db", database, "--filer", "ACME")

    def judge_init(is_done, stands):
        if stands.returncode == 0 and not stands.stdout:
            return None
        again = subprocess.run(init, capture_output=True, check=False)
        return f"then {stands.returncode} and {again.returncode}" if is_done or again.returncode else None

    try_command(counts, folder, "outbox init", init, status, judge_init)
    subprocess.run(init, check=True)
    try_command(counts, folder, "outbox put", put, status, stands_as(b"", b"entry 1 open\n"))
    subprocess.run(put, check=True, stdout=subprocess.DEVNULL)
    try_command(counts, folder, "outbox status", status, status, stands_as(b"entry 1 open\n"))
    try_command(
        counts,
        folder,
        "outbox show",
        words_of(OUTBOX, "show", "--db", database),
        status,
        stands_as(b"entry 1 open\n"),
    )
    try_command(
        counts,
        folder,
        "outbox show --body",
        words_of(OUTBOX, "show", "--db", database, "--entry", 1, "--body"),
        status,
        stands_as(b"entry 1 open\n"),
    )
    try_command(
        counts,
        folder,
        "outbox put --strict",
        words_of(OUTBOX, "put", "--db", database, "--body", report, "--key", "k-2", "--strict"),
        status,
        stands_as(b"entry 1 open\n", b"entry 1 open\nentry 2 open\n"),
    )
    amend = words_of(OUTBOX, "put", "--db", database, "--body", report, "--key", "k-2", "--amend", 1)
    try_command(
        counts,
        folder,
        "outbox put --amend",
        amend,
        status,
        stands_as(b"entry 1 open\n", b"entry 1 open\nentry 2 open\n"),
    )


def try_ask(counts, folder):
    """Questions about entries that an intake has answered: it is looked there first, and nothing is filed."""
    database, report = folder / "outbox.db", folder / "report.json"
    serving = Serving(folder.parent / "register.db", 4_294_967_295, "--new")
    subprocess.run(words_of(OUTBOX, "init", "--db", database, "--filer", "ACME"), check=True)
    for key, body in [("k-1", REPORT), ("k-2", b"{}")]:
        report.write_bytes(body)
        put = words_of(OUTBOX, "put", "--db", database, "--body", report, "--key", key)
        subprocess.run(put, check=True, capture_output=True)
    send = words_of(OUTBOX, "send", "--db", database, "--port", serving.port, "--all")
    subprocess.run(send, check=True, capture_output=True)
    status = words_of(OUTBOX, "status", "--db", database)
    for entry, state in [(1, "confirmed"), (2, "refused")]:
        ask = words_of(OUTBOX, "ask", "--db", database, "--entry", entry, "--port", serving.port)
        try_command(counts, folder, f"outbox ask, {state}", ask, status,
                    stands_as(b"entry 1 confirmed 1\nentry 2 refused\n"))  # fmt: skip
    serving.process.terminate()
    serving.process.communicate()
    check = subprocess.run(words_of(INTAKE, "check", "--db", folder.parent / "register.db"), capture_output=True)
    tell("nothing was filed", None if check.stdout == b"sound: 2 kept, 1 filings\n" else repr(check.stdout))


def try_outbox_migration(counts, folder):
    database = folder / "outbox.db"
    make_earlier_outbox(database)
    status, migrate = (words_of(OUTBOX, command, "--db", database) for command in ("status", "migrate"))
    try_command(
        counts, folder, "outbox migrate", migrate, status, stands_as(b"", b"entry 1 confirmed 1\nentry 2 open\n")
    )


def answered():
    """The command lines of tools/check_commands.py that a register answers: the first one with each set of options."""
    found = {}
    for line, status, *_ in check_commands.AFTER:
        if not status and "@r.db" in line:
            found.setdefault((line.split(" ")[0], *re.findall(r"--\w+", line)), line)
    return found.values()


def try_register(counts, folder):
    database = folder / "r.db"
    check_commands.make_example(database)
    date_register(database, [check_commands.MOMENT])
    check = words_of(INTAKE, "check", "--db", database)
    for line in answered():
        words = words_of(INTAKE, *(word.replace("@", f"{folder}/") for word in line.split(" ")))
        try_command(counts, folder, f"intake {line}", words, check, stands_as(b"sound: 1 kept, 1 filings\n"))


def try_migration(counts, folder):
    database = folder / "register.db"
    make_earlier(database)
    check = words_of(INTAKE, "check", "--db", database)
    migrate = words_of(INTAKE, "migrate", "--db", database)
    try_command(
        counts,
        folder,
        "intake migrate",
        migrate,
        check,
        stands_as(b"not a register\n", b"sound: 1 kept, 0 filings\n"),
    )


def try_lint(counts, folder):
    report = folder / "report.json"
    report.write_bytes(REPORT)
    lint = words_of(INTAKE, "lint", "--filer", "ACME", report)
    try_command(counts, folder, "intake lint", lint, lint, stands_as(b""))


def main():
    word = sys.argv[1] if len(sys.argv) > 1 else ""
    for trial in (try_connection, try_script, try_outbox, try_ask, try_outbox_migration, try_register, try_migration,
                  try_lint):
        if word in trial.__name__:
            with tempfile.TemporaryDirectory() as outer:
                folder = pathlib.Path(outer) / "files"
                folder.mkdir()
                trial(library(outer), folder)
    print(f"{len(failures)} failed")
    sys.exit(1 if failures else 0)


if __name__ == "__main__":
    main()
