#!/usr/bin/env python3
"""Tries the man pages as a reader has them, who copies an example from the page that `man` shows.

    tools/check_man_pages.py [PROGRAMS]     of the programs in the folder PROGRAMS, or of those that `rt run` builds

Each page has its sections and no fault of layout. Each example of --help is in the rendered page, whole and on a line
of its own; the page has no other; and each is run out of the page, in one folder, in the order of SCENES. Port 8080 of
127.0.0.1 has to be free, since the examples name it. It needs man and groff. Status 1 if something fails.
"""
import json
import os
import pathlib
import re
import shutil
import signal
import subprocess
import sys
import tempfile
import time
from dataclasses import dataclass
from typing import Callable

import check_pages
import man_pages
import trials

SECTIONS = ["NAME", "SYNOPSIS", "DESCRIPTION", "COMMANDS", "OPTIONS", "EXIT STATUS", "EXAMPLES", "SEE ALSO"]
PORT = 8080


# ---- the page


def rendered(page):
    """The page as `man` shows it, without marks for bold, on lines that are as long as they are."""
    with tempfile.TemporaryDirectory() as folder:
        file = pathlib.Path(folder, "page.1")
        file.write_text(page, encoding="utf-8")
        done = subprocess.run(["man", "-l", file], capture_output=True, text=True, check=True,
                              env={**os.environ, "MANWIDTH": "80", "LC_ALL": "C.UTF-8"})  # fmt: skip
        return done.stdout


def examples_of(text):
    """The examples of a rendered page: what follows the word, or the section of this name."""
    found, is_next, section = [], False, ""
    for line in text.splitlines():
        if re.match(r"[A-Z]", line):
            section = line
        elif section == "EXAMPLES" and line.strip() or is_next:
            found.append(line.strip())
        is_next = line.strip() == "Example:"
    return found


def helped_examples(program):
    """The examples of a program's --help and of its commands'."""
    whole, notes = man_pages.sections(man_pages.help_of(program))
    parts = [man_pages.sections(man_pages.help_of(program, word))[1] for word, _ in man_pages.commands_of(whole)]
    return [example for part in [*parts, notes] for example in man_pages.examples_in(part)]


def check_page(name, program, page):
    """Holds a page to what the program says, and gives its examples."""
    done = subprocess.run(["groff", "-man", "-Tutf8", "-ww", "-z"], input=page, capture_output=True, text=True)
    trials.tell(f"{name}.1 has no fault of layout", done.stderr)
    text = rendered(page)
    commands = [word for word, _ in man_pages.commands_of(man_pages.sections(man_pages.help_of(program))[0])]
    sections = [it for it in SECTIONS if it != ("EXAMPLES" if commands else "COMMANDS")]
    trials.hold(f"{name}.1 has its sections", re.findall(r"(?m)^[A-Z][A-Z ]+$", text), sections)
    lacking = [it for it in commands if not re.search(rf"(?m)^   {it}$", text)]
    trials.tell(f"{name}.1 has each command", ", ".join(lacking))
    found = examples_of(text)
    trials.hold(f"{name}.1 has the examples of --help", found, helped_examples(program))
    return found


# ---- the examples


class Scratch:
    """A folder with a report and the programs, in which the examples are run one after another."""

    def __init__(self, folder, programs):
        self.folder, self.server = folder, None
        (folder / "programs").mkdir()
        for name, program in programs.items():
            (folder / "programs" / name).symlink_to(program)
        self.env = {**os.environ, "PATH": f"{folder}/programs:{os.environ['PATH']}"}
        (folder / "report.json").write_bytes(trials.REPORT)

    def run(self, example):
        return subprocess.run(["bash", "-c", example], cwd=self.folder, env=self.env, capture_output=True, text=True,
                              stdin=subprocess.DEVNULL, timeout=trials.PATIENCE)  # fmt: skip

    def serve(self, example):
        """Starts an example that serves, and waits until it does. What it said, if it does not."""
        self.stop()
        said = self.folder / "said"
        with open(said, "wb") as errors:
            self.server = subprocess.Popen(["bash", "-c", example], cwd=self.folder, env=self.env, stderr=errors,
                                           stdin=subprocess.DEVNULL, start_new_session=True)  # fmt: skip
        until = time.monotonic() + trials.PATIENCE
        while b": serving " not in said.read_bytes():
            if self.server.poll() is not None or time.monotonic() > until:
                return said.read_text() or f"nothing is said in {trials.PATIENCE} s"
            time.sleep(0.05)
        return None

    def stop(self):
        if self.server:
            try:
                os.killpg(self.server.pid, signal.SIGTERM)
            except ProcessLookupError:
                pass
            self.server.wait()
            self.server = None

    def copied(self):
        """The register as a copy, which nothing has open."""
        self.stop()
        shutil.copyfile(self.folder / "register.db", self.folder / "copy.db")

    def forget(self, name):
        for file in self.folder.glob(f"{name}*"):
            file.unlink()

    def earlier_register(self):
        self.stop()
        self.forget("register.db")
        trials.make_earlier(self.folder / "register.db")

    def earlier_outbox(self):
        self.forget("outbox.db")
        trials.make_earlier_outbox(self.folder / "outbox.db")


@dataclass
class Scene:
    """How an example begins, what has to be there before it, what it prints, and which file it writes."""

    first: str
    before: Callable = lambda scratch: None
    prints: str = ""
    writes: str = ""
    serves: bool = False


FACT = json.loads(trials.REPORT)["facts"]["f1"]["dimensions"]["concept"]
# In this order. What is printed is a pattern that has to fit somewhere.
SCENES = [
    Scene("printf 'GET /filings/ACME", prints=r'^HTTP/1\.1 200 OK\r?\n[^{]*\{"filings":\[\]\}$'),
    Scene("intake lint"),
    Scene("outbox lint"),
    # The report `{}` lacks its documentInfo.
    Scene("printf 'outbox ACME", prints=r"^entry 1 1 refused\ndone 1$"),
    Scene("intake serve --db register.db --port 8080 --connections 4294967295 --patience 60 --new", serves=True),
    Scene("outbox init"),
    Scene("outbox put", prints=r"^entry 1$"),
    Scene("outbox send", prints=r"^entry 1 confirmed 1$"),
    Scene("outbox ask", prints=r"registered"),
    Scene("outbox status", prints=r"^entry 1 confirmed 1$"),
    Scene("outbox show", prints=r"^entry 1 confirmed 1, 393 bytes, key 2024-annual-1$"),
    Scene("outbox show --db outbox.db --entry 1 --body", prints=r'^\{"documentInfo":\{.*\}$'),
    Scene("intake serve --db register.db --port 8080 --connections 4294967295 --patience 60", serves=True),
    Scene("intake serve --db register.db --socket intake.socket --connections 4294967295 --patience 60", serves=True),
    Scene("intake list", before=Scratch.stop, prints=r'^\{"filings":\[\{"facts":1,"number":1\}\]\}$'),
    Scene("intake show", prints=rf'"concept":"{FACT}"'),
    Scene("intake show --db register.db --number 1 --body", writes="filed.json"),
    Scene("intake show --db register.db --filer", writes="sent.json"),
    Scene("intake check", prints=r"^sound: 1 kept, 1 filings"),
    Scene("intake export", before=Scratch.copied, writes="facts.csv"),
    Scene("intake export --db copy.db --format jsonl --current", writes="current.jsonl"),
    Scene("intake export --db copy.db --format csv --after 1", writes="later.csv"),
    Scene("intake digest", prints=r"^1 [0-9a-f]{64}$"),
    # Any other example.
    Scene(""),
    Scene("mkdir -p site && intake pages", writes="site/index.html"),
    Scene("intake migrate", before=Scratch.earlier_register),
    Scene("outbox migrate", before=Scratch.earlier_outbox),
]


def scene_of(example):
    """The scene of this example: the one that begins so in the most characters."""
    return max((it for it in SCENES if example.startswith(it.first)), key=lambda it: len(it.first))


def play(scene, example, scratch):
    """What is wrong with an example as it is run, or None."""
    scene.before(scratch)
    if scene.serves:
        return scratch.serve(example)
    done = scratch.run(example)
    if done.returncode:
        return f"status {done.returncode}: {done.stdout[-300:]}{done.stderr[-300:]}"
    if scene.prints and not re.search(scene.prints, done.stdout, re.M):
        return f"it prints {done.stdout[-300:]!r}"
    if scene.writes and not (scratch.folder / scene.writes).exists():
        return f"{scene.writes} is not there"
    return None


def play_all(examples, programs):
    """Runs the examples as they came out of the pages."""
    found = [(scene_of(example), example) for example in examples]
    for scene in SCENES:
        if scene.first and not any(it is scene for it, _ in found):
            trials.tell(f"{scene.first} ..", "no page has this example")
    with tempfile.TemporaryDirectory() as folder:
        scratch = Scratch(pathlib.Path(folder), programs)
        try:
            for scene in SCENES:
                for example in (it for one, it in found if one is scene):
                    trials.tell(example, play(scene, example, scratch))
        except (OSError, subprocess.TimeoutExpired) as fault:
            trials.tell("the examples", repr(fault))
        finally:
            scratch.stop()


def check(pages, programs):
    """Tries these pages, as roff, by the names of the programs."""
    lacking = [it for it in ("man", "groff") if shutil.which(it) is None]
    if lacking:
        return print(f"not tried: the man pages, since {lacking[0]} is not installed")
    examples = [it for name, page in pages.items() for it in check_page(name, programs[name], page)]
    if not check_pages.is_free(PORT):
        return trials.tell("the examples of the man pages", f"somebody listens on port {PORT}")
    play_all(examples, programs)


def main(words):
    if len(words) > 1 or words[:1] in (["-h"], ["--help"]):
        print(__doc__)
        return 2
    programs = man_pages.programs_in(*words)
    for name, program in programs.items():
        if not pathlib.Path(program).exists():
            print(f"check_man_pages.py: {program}: there is no such program", file=sys.stderr)
            return 2
    check({name: man_pages.page(name, program) for name, program in programs.items()}, programs)
    print(f"{len(trials.failures)} failed")
    return 1 if trials.failures else 0


if __name__ == "__main__":
    sys.exit(main(sys.argv[1:]))
