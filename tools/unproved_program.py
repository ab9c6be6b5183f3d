#!/usr/bin/env python3
"""Builds a program by `rt try`, in some minutes and without any proof, and keeps it.

    tools/unproved_program.py [--plain] CLONE NAME FILE
                                    writes the program NAME (intake, outbox or drill) of a clone to FILE

`rt try` compiles a program with checks, runs it, maybe by a loader of the kit's, and throws it away. So this has it do
something that lasts, copies its executable, and stops it. Nothing is proved of that program; it is for trials alone,
and slower than the one that `rt run` builds. Status 1 if it can't be had.

With --plain it has none of the checks (the address sanitizer), so that it runs on User-mode Linux, too, and is some ten
times as fast: this takes the program as the kit hands it to its clang, and has that compile it without them (5 minutes
more). It needs a C compiler to link it.
"""
import contextlib
import os
import pathlib
import shutil
import signal
import socket
import sqlite3
import subprocess
import sys
import tempfile
import time

PATIENCE = 1800
# An outbox with one open entry, as docs/PROTOCOL.md declares it.
OUTBOX = """
CREATE TABLE outbox_meta (id INTEGER PRIMARY KEY, kind TEXT NOT NULL, form INTEGER NOT NULL,
    filer TEXT NOT NULL) STRICT;
CREATE TABLE entry (id INTEGER PRIMARY KEY, idem TEXT NOT NULL UNIQUE, body BLOB NOT NULL, state INTEGER NOT NULL,
    number INTEGER) STRICT;
CREATE TABLE target (id INTEGER PRIMARY KEY, number INTEGER NOT NULL) STRICT;
INSERT INTO outbox_meta VALUES (1, 'outbox', 2, 'ACME');
INSERT INTO entry VALUES (1, 'k-1', x'7b7d', 0, NULL);
"""
# How often both ends are started again in a script that takes drill some seconds.
RESTARTS = 2_000


class NotBuilt(Exception):
    """Why there is no program."""


def free_port():
    with socket.socket() as one:
        one.bind(("127.0.0.1", 0))
        return one.getsockname()[1]


def lasting(name, crate, held):
    """Words and an input with which a program runs until it is stopped. What it needs for that is made in `crate`,
    and gone with `held`."""
    if name == "intake":
        return ["serve", "--db", "t.db", "--port", str(free_port()), "--connections", "1", "--new"], ""
    if name == "outbox":
        database = crate / "open.db"
        with contextlib.closing(sqlite3.connect(database)) as connection:
            connection.executescript(OUTBOX)
        held.callback(database.unlink)
        # Somebody who listens and says nothing.
        silent = held.enter_context(socket.create_server(("127.0.0.1", 0)))
        return ["send", "--db", "open.db", "--port", str(silent.getsockname()[1]), "--entry", "1"], ""
    if name == "drill":
        return [], "outbox ACME\n" + "".join(
            f'put 1 "k-{at}" {{}}\nrestart server\nrestart outbox 1\n' for at in range(RESTARTS)
        )
    raise NotBuilt(f"{name} is none of intake, outbox and drill")


def own_folders():
    """Where the executables of the kit, of Python and of the system are."""
    kit, python = (pathlib.Path(it).resolve().parents[1] for it in (shutil.which("rt"), sys.executable))
    return [kit, python, *map(pathlib.Path, ("/usr", "/bin", "/lib"))]


def descends(process, ancestor):
    """Whether a process was started by this one, or by one that it started."""
    while process > 1:
        fields = pathlib.Path(f"/proc/{process}/stat").read_text().rpartition(")")[2].split()
        process = int(fields[1])
        if process == ancestor:
            return True
    return False


def program_of(process):
    """What a process runs, and the file to copy it from: its executable, or, if that is a loader (ld.so), the program
    that the loader was given."""
    path = pathlib.Path(os.readlink(process / "exe"))
    if not path.name.startswith("ld-"):
        return path, process / "exe"
    given = (pathlib.Path(os.fsdecode(word)) for word in (process / "cmdline").read_bytes().split(b"\0")[1:])
    program = next((it for it in given if it.is_absolute() and it.is_file()), path)
    return program, program


def built_program(ancestor, others):
    """An open executable of a process below this one that is none of the others', or None."""
    for process in pathlib.Path("/proc").glob("[0-9]*"):
        try:
            path, file = program_of(process)
            if not any(path.is_relative_to(it) for it in others) and descends(int(process.name), ancestor):
                return open(file, "rb")
        except OSError:
            continue
    return None


def words_of(process):
    return [os.fsdecode(word) for word in (process / "cmdline").read_bytes().split(b"\0")[:-1]]


def handed_to_clang(ancestor, folder):
    """Once a process below this one compiles a program with the address sanitizer: its words, and the libraries that
    will be linked with it. The program itself is `module.bc` in the folder then."""
    for process in pathlib.Path("/proc").glob("[0-9]*"):
        try:
            words = words_of(process)
            if "-fsanitize=address" in words and "module.bc" in words and descends(int(process.name), ancestor):
                shutil.copy(process / "cwd" / "module.bc", folder)
                parent = (process / "stat").read_text().rpartition(")")[2].split()[1]
                given = words_of(pathlib.Path("/proc", parent))
                return words, [after for word, after in zip(given, given[1:]) if word == "--link"]
        except OSError:
            continue
    return None


def compile_plain(words, libraries, folder, target):
    plain = [word for word in words if word not in ("-O0", "-fsanitize=address")]
    subprocess.run([*plain, "-O1"], cwd=folder, check=True)
    linking = ["cc", "-pie", "-Wl,--gc-sections", "-o", target, folder / "module.o", *libraries, "-lm"]
    subprocess.run(linking, check=True)


def build(clone, name, target, is_plain):
    crate = clone / "crates" / name
    with contextlib.ExitStack() as held:
        folder = pathlib.Path(held.enter_context(tempfile.TemporaryDirectory(prefix="unproved-"))).resolve()
        (words, given), others = lasting(name, crate, held), own_folders()
        (folder / "stdin").write_text(given)
        with open(folder / "stdin") as stdin, open(folder / "said", "w+b") as said:
            env = {**os.environ, "TMPDIR": str(folder)}
            process = subprocess.Popen(
                ["rt", "try", "--", *words], cwd=crate, stdin=stdin, stdout=said, stderr=said, env=env
            )
            try:
                deadline = time.monotonic() + PATIENCE
                handed = None
                while process.poll() is None and time.monotonic() < deadline and not handed:
                    if is_plain:
                        handed = handed_to_clang(process.pid, folder)
                    elif found := built_program(process.pid, others):
                        with found, open(target, "wb") as kept:
                            shutil.copyfileobj(found, kept)
                        target.chmod(0o755)
                        return
                    time.sleep(0.05)
            finally:
                # It ends what it started, and removes its folder.
                process.terminate()
                process.wait()
            if handed:
                compile_plain(*handed, folder, target)
                return
            said.seek(0)
            raise NotBuilt(said.read().decode(errors="replace").strip()[-2000:] or f"nothing ran within {PATIENCE} s")


def main():
    is_plain = sys.argv[1:2] == ["--plain"]
    if is_plain:
        del sys.argv[1]
    if len(sys.argv) != 4:
        sys.exit(__doc__)
    if shutil.which("rt") is None:
        sys.exit("unproved_program.py: there is no rt")
    clone, name, target = pathlib.Path(sys.argv[1]).resolve(), sys.argv[2], pathlib.Path(sys.argv[3]).resolve()
    # Whoever ends this ends what it started, too.
    signal.signal(signal.SIGTERM, lambda *_: sys.exit(143))
    try:
        build(clone, name, target, is_plain)
        said = subprocess.run([target, "--version"], capture_output=True, text=True, timeout=60)
        if said.returncode or not said.stdout.startswith(f"{name} "):
            raise NotBuilt(f"--version: status {said.returncode}, {said.stdout}{said.stderr}")
    except (NotBuilt, OSError, subprocess.SubprocessError) as fault:
        sys.exit(f"unproved_program.py: {name}: {fault}")


if __name__ == "__main__":
    main()
