#!/usr/bin/env python3
"""Has the prover try the wrong bodies, `crates/CRATE/must-fail/*.edit` and `crates/CRATE/wrong_bodies/*.edit`. Each has
to be refused.

    tools/try_wrong_bodies.py [--results FILE] [--jobs N] [CRATE | CRATE/NAME ..]
          tries all, the lowest crates first, or those of these crates, or these. FILE gets a line for each: its name,
          the verdict, the function, the goal, the seconds, and a sum of all that it stands on. What FILE has of the
          same sum is taken over, so a run that was ended goes on where it was. N crates at once take up to 5 GB each
    tools/try_wrong_bodies.py --reads
          proves nothing, and says whether each can be read: whether its old texts are where it says

The libraries below the crates are built where they lie (`rt lib`). The edits are made in a copy of what git has of the
repository, and checked over those libraries by `rt check --only`: a change of a function by this function alone, with
what it calls; a change of a definition, a law or a constant by the functions that name it, then by those that name what
names it, and so on. Only if all these are proved, the whole crate is checked. What is refused has to be proved without
the change. The verdicts:

    refused                             by this goal of this function
    refused beside a name               the same, but a proof file names what the change took away: if that was the
                                        answer to this goal, it shows nothing, so look at it
    refused by a limit of the prover    which gave no verdict
    refused by a name                   only as a proof file names what the change took away, which shows nothing
    NOT REFUSED                         the whole crate is proved
    cannot be read                      an old text is not where it says, or the new one does not compile
    not tried                           a library does not build, the crate is not proved, or the check was killed

The last line counts the first three, the next three, and the last. The status is 0 if all were refused.
"""
import argparse
import contextlib
import functools
import hashlib
import itertools
import os
import pathlib
import queue
import re
import shutil
import signal
import subprocess
import sys
import tempfile
import threading
import time
from concurrent.futures import ThreadPoolExecutor

import over_sources

TOP = pathlib.Path(__file__).resolve().parent.parent
CRATES = TOP / "crates"
# Where those are that the gate tries, and the others.
FOLDERS = ("must-fail", "wrong_bodies")
REFUSED, BESIDE, BY_LIMIT = "refused", "refused beside a name", "refused by a limit of the prover"
BY_NAME, PROVED, UNREAD, UNTRIED = "refused by a name", "NOT REFUSED", "cannot be read", "not tried"

# What begins a function of a `.rt` file, an impl or a trait, and a definition of such a file or of `specs`.
FUNCTION = re.compile(r"^( *)(?:pub(?:\([^)]*\))? )?(?:const |unsafe )*fn (\w+)", re.M)
IMPL = re.compile(r"^(?:impl|(?:pub )?trait)\b(?:<.*?>)? (?:(?:\w+::)*(\w+)(?:<.*?>)? for )?&?(?:\w+::)*(\w+)", re.M)
DEFINITION = re.compile(r" *(?:(?:pub(?:\([^)]*\))?|abbrev|unfoldable|opaque|data|record|const|static) )*([^\s:(]+)")

# An error of the prover, by its place and the goal or the definition that it is about.
ERROR = re.compile(r"(?:\./)?(?P<file>\S+?):\d+:\d+: error: (?:(?P<goal>`[^`]*`): )?(?P<said>.*)")
# What it says of a goal, of a name that is gone, of what names a lemma that was refused itself, of a text that makes no
# sense, and of a limit of its own.
GOAL = re.compile(r"it is not proved that .*\((`[^`]+`)\)")
GONE = re.compile(r"has no field|is not in scope|has no `")
DEPENDS = re.compile(r"was not admitted")
NO_SENSE = re.compile(r"is not in scope|has no field|is no name|operand is missing|expected the end|cannot continue")
LIMIT = re.compile(r"antt ran out of (stack|the (steps|memory) that the check of one declaration may (take|use))|"
                   r"(outgrew the memory limit|stopped at the step limit) \(")  # fmt: skip


class Unreadable(Exception):
    """Why a wrong body cannot be read."""


def edits():
    """All of them, in the order of crates.txt, in which a crate comes after those below it."""
    return [edit for crate in over_sources.uses() for folder in FOLDERS
            for edit in sorted((CRATES / crate / folder).glob("*.edit"))]  # fmt: skip


def crate_of(edit):
    return edit.parent.parent.name


def name_of(edit):
    return f"{crate_of(edit)}/{edit.stem}"


def changes(edit, crate):
    """The files of this crate's folder that the edit changes: the text before, the text after, and where the first
    change is."""
    found, file, old = {}, None, ""
    for line in edit.read_text(encoding="utf-8").splitlines():
        name, _, rest = line.partition(": ")
        if name == "file":
            file = crate / rest
            if not file.is_file():
                raise Unreadable(f"there is no {rest}")
            text = file.read_text(encoding="utf-8")
            found.setdefault(file, (text, text, None))
        elif name == "old":
            old, count = rest, found[file][1].count(rest)
            if count != 1:
                raise Unreadable(f"{old!r} stands {count} times")
        elif name == "new":
            before, after, at = found[file]
            found[file] = before, after.replace(old, rest), after.index(old) if at is None else at
        elif line.strip():
            raise Unreadable(f"what is {line!r}")
    return found


# ---- what a change is a matter of


def last(pattern, text, at):
    """The last match that begins in the line of this place or above, or None."""
    return next(reversed([*pattern.finditer(text, 0, f"{text}\n".index("\n", at))]), None)


def function_at(text, at):
    """The function of a `.rt` file that this place is in, its contract included, or None."""
    begin, function = text.rfind("\n", 0, at) + 1, last(FUNCTION, text, at)
    indent = re.compile(" *").match(text, begin)[0]
    return function if function and (function[1] < indent or function.start() == begin) else None


def path_of(file, text, function):
    """How `rt check --only` names it: the module, the type with the trait that is implemented there, and the name."""
    parts = [*file.with_suffix("").parts]
    parts = [it for it in parts[parts.index("src") + 1 :] if it not in ("lib", "main")]
    if function[1]:
        trait, of = last(IMPL, text, function.start()).groups()
        parts.append(of + (trait or ""))
    return "::".join([*parts, function[2]])


def words(text):
    return set(re.findall(r"[\w-]+", text))


def functions(crate):
    """The crate's functions, each with the words of its contract and its body."""
    for file in sorted(crate.glob("src/**/*.rt")):
        text = file.read_text(encoding="utf-8")
        found = [*FUNCTION.finditer(text)]
        for it, behind in itertools.zip_longest(found, found[1:]):
            yield path_of(file, text, it), words(text[it.start() : behind and behind.start()])


def definitions(text):
    """The definitions of a file: where each begins, its name, and its words. Those of a `module` block stand deeper."""
    starts, depth = [], 0
    for line in re.finditer(r"^( *)(?!--|//)\S.*", text, re.M):
        depth = 2 if line[0].startswith("module ") else depth if line[1] else 0
        starts += [line.start()] if len(line[1]) <= depth else []
    for start, end in itertools.zip_longest(starts, starts[1:]):
        yield start, DEFINITION.match(text, start)[1], words(text[start:end])


def matters(crate, file, text, at):
    """The functions to check for a change at this place of a file of the crate, as lists, the nearest first."""
    if file.suffix == ".rt" and (function := function_at(text, at)):
        return [[path_of(file, text, function)]]
    names = {[name for start, name, _ in definitions(text) if start <= at][-1]}
    specs = [it.read_text(encoding="utf-8") for it in crate.glob("specs/**/*.antt")]
    steps, seen, left = [], set(), dict(functions(crate))
    while names:
        if naming := [path for path, said in left.items() if said & names]:
            steps.append(naming)
            left = {path: said for path, said in left.items() if path not in naming}
        seen |= names
        names = {name for text in specs for _, name, said in definitions(text) if said & names} - seen
    return steps


def steps_of(edit, crate):
    """The same for the first change of an edit."""
    file, (text, _, at) = next(iter(changes(edit, crate).items()))
    return matters(crate, file, text, at)


# ---- what the prover says


def check(crate, paths):
    """The status and the output of a check of these functions of the crate in this folder, or of the whole crate."""
    only = [word for path in paths for word in ("--only", path)]
    done = subprocess.run(["rt", "check", "--jobs", "1", *only], cwd=crate, stdout=subprocess.PIPE,
                          stderr=subprocess.STDOUT, errors="replace", check=False)  # fmt: skip
    return done.returncode, done.stdout


def verdict_of(status, said):
    """The verdict by what a check said, the function, and the goal, or what else was said of it."""
    if status == 0:
        return PROVED, "", ""
    lines = said.splitlines()
    failed = re.search(r"^fn (\S+): (?:not proved|no proof|could not tell).*", said, re.M)
    function = failed[1] if failed else ""
    if status == 3 and (limit := next(filter(LIMIT.search, lines), None)):
        return BY_LIMIT, function, limit
    if status == 1:
        found = [it for it in map(ERROR.match, lines) if it]
        # What depends on a lemma that is refused says nothing of its own: why that is refused is said beside it.
        errors = [it for it in found if not DEPENDS.search(it["said"])]
        senseless = [it[0] for it in errors if it["file"].startswith(("src/", "specs/"))
                     and (not it["goal"] or NO_SENSE.search(it["said"]))]  # fmt: skip
        senseless += [line for line in lines if re.search(r"\berror\[[\w-]+\]", line)]
        gone = [it for it in errors if it["file"].startswith("proofs/") and GONE.search(it["said"])]
        goals = GOAL.findall(said)
        goals += [f"{it['goal']} of {it['file']}" for it in errors if it["goal"] and it not in gone]
        if senseless:
            return UNREAD, "", senseless[0]
        if goals:
            return BESIDE if gone else REFUSED, function, goals[0]
        if gone or len(errors) < len(found):
            return BY_NAME, function, (gone or found)[0][0]
        if failed:
            return REFUSED, function, failed[0]
    return UNTRIED, function, f"status {status}, {lines[-1] if lines else 'and no word'}"


def try_edit(edit, crate, proved):
    """The verdict on this edit of the crate in this folder, where these functions are known to be proved without it."""
    try:
        changed, steps = changes(edit, crate), steps_of(edit, crate)
    except Unreadable as fault:
        return UNREAD, "", str(fault)
    for paths in [*steps, []]:
        try:
            for file, (_, after, _) in changed.items():
                file.write_text(after, encoding="utf-8")
            status, said = check(crate, paths)
        finally:
            for file, (before, _, _) in changed.items():
                file.write_text(before, encoding="utf-8")
        verdict = verdict_of(status, said)
        # If it has another name for one of them, the whole crate decides.
        if verdict[0] != PROVED and "has no function" not in said:
            break
    if verdict[0] in (REFUSED, BESIDE, BY_LIMIT, BY_NAME) and not (paths and proved.issuperset(paths)):
        status, said = check(crate, paths)
        if status:
            return UNTRIED, "", f"not proved without the change: {' '.join(said.splitlines()[-1:])}"
        proved.update(paths)
    return verdict


def try_crate(crate, edits, tell, ended):
    """Tries these edits of the crate in this folder, until all is ended, and tells each verdict and its seconds."""
    first, begun = set(), time.monotonic()
    for edit in edits:
        with contextlib.suppress(Unreadable):
            first.update(*steps_of(edit, crate)[:1])
    # What they call is kept too, and so not proved again with each edit.
    proved = first if first and check(crate, sorted(first))[0] == 0 else set()
    print(f"{crate.name}: {len(proved)} of {len(first)} functions to check are proved without the changes"
          f" ({time.monotonic() - begun:.0f} s)", flush=True)  # fmt: skip
    for edit in edits:
        if not ended.is_set():
            begun = time.monotonic()
            tell(edit, try_edit(edit, crate, proved), round(time.monotonic() - begun))


# ---- all of them


@functools.cache
def kit():
    return subprocess.check_output(["rt", "version"], text=True)


@functools.cache
def sum_of(crate):
    """A sum of what a verdict on an edit of this crate stands on: its text, that of the crates below, and the kit."""
    used = over_sources.uses()[crate]
    found = hashlib.sha256(repr([kit(), used, [sum_of(it) for it in used if (CRATES / it).is_dir()]]).encode())
    for part in ("src", "specs", "proofs"):
        for file in sorted((CRATES / crate / part).rglob("*.*")):
            found.update(f"{file.relative_to(CRATES)} ".encode() + file.read_bytes())
    return found.hexdigest()


def stands_on(edit):
    return hashlib.sha256(sum_of(crate_of(edit)).encode() + edit.read_bytes()).hexdigest()[:16]


class Verdicts:
    """The verdicts by the names of the edits, also in a file if one is given."""

    def __init__(self, file):
        self.file, self.turn = file, threading.Lock()
        lines = file.read_text(encoding="utf-8").splitlines() if file and file.exists() else []
        self.rows = {name: row for name, *row in (line.split("\t") for line in lines)}

    def has(self, edit):
        """Whether the edit was tried over the same text."""
        verdict, *_, sum = self.rows.get(name_of(edit), [UNTRIED, ""])
        return verdict != UNTRIED and sum == stands_on(edit)

    def tell(self, edit, verdict, seconds):
        row = [" ".join(it.split()) for it in verdict]
        with self.turn:
            self.rows[name_of(edit)] = [*row, str(seconds), stands_on(edit)]
            print(f"{name_of(edit)}: {': '.join(filter(None, row))} ({seconds} s)", flush=True)
            if self.file:
                lines = ["\t".join([name, *row]) + "\n" for name, row in self.rows.items()]
                new = self.file.with_name(f"{self.file.name}.new")
                new.write_text("".join(lines), encoding="utf-8")
                new.replace(self.file)


def build(crates):
    """Builds the libraries below these crates, and returns those that do not build."""
    uses, lacking = over_sources.uses(), set()
    for crate in dict.fromkeys(it for name in crates for it in over_sources.below(name, uses)):
        if not lacking.intersection(uses[crate]):
            done = subprocess.run(["rt", "lib"], cwd=CRATES / crate, stdout=subprocess.PIPE, stderr=subprocess.STDOUT,
                                  errors="replace", check=False)  # fmt: skip
            if not done.returncode:
                continue
            print(f"{crate} does not build: {done.stdout[-400:]}", flush=True)
        lacking.add(crate)
    return lacking


def link(file, target):
    try:
        os.link(file, target)
    except OSError:
        # It is on another disk.
        shutil.copy2(file, target)


def copied(folder):
    """Copies what git has of the repository, as it lies in the work tree, with the libraries that are built there."""
    for name in subprocess.check_output(["git", "ls-files", "-z"], cwd=TOP, text=True).split("\0"):
        if name and (TOP / name).is_file():
            target = folder / name
            target.parent.mkdir(parents=True, exist_ok=True)
            shutil.copy(TOP / name, target)
    for library in TOP.glob("crates/*/out/rlib"):
        shutil.copytree(library, folder / library.relative_to(TOP), copy_function=link)
    return folder


def try_all(chosen, verdicts, jobs):
    left = [edit for edit in chosen if not verdicts.has(edit)]
    left = {crate: [*found] for crate, found in itertools.groupby(left, crate_of)}
    begun, uses, ended, copies = time.monotonic(), over_sources.uses(), threading.Event(), queue.SimpleQueue()
    lacking = build(left)
    print(f"the libraries are built ({time.monotonic() - begun:.0f} s)", flush=True)

    def work(crate):
        copy, gone = copies.get(), sorted(lacking.intersection(over_sources.below(crate, uses)))
        if gone:
            for edit in left[crate]:
                verdicts.tell(edit, (UNTRIED, "", f"{gone[0]} does not build"), 0)
        elif not ended.is_set():
            try_crate(copy / "crates" / crate, left[crate], verdicts.tell, ended)
        copies.put(copy)

    with tempfile.TemporaryDirectory() as name, ThreadPoolExecutor(jobs) as pool:
        for number in range(jobs if left else 0):
            copies.put(copied(pathlib.Path(name) / str(number)))
        try:
            [*pool.map(work, left)]
        finally:
            ended.set()
    found = [verdicts.rows[name_of(edit)][0] for edit in chosen]
    refused, untried = sum(it in (REFUSED, BESIDE, BY_LIMIT) for it in found), found.count(UNTRIED)
    print(f"{refused} refused, {len(found) - refused - untried} not refused, {untried} not tried")
    return 0 if refused == len(found) else 1


def read_all():
    """Says of each wrong body that cannot be read why."""
    faults = []
    for edit in edits():
        try:
            changes(edit, CRATES / crate_of(edit))
        except Unreadable as fault:
            faults.append(f"{edit.relative_to(TOP)}: {fault}")
    print(*faults, f"{len(edits()) - len(faults)} can be read, {len(faults)} cannot", sep="\n")
    return 1 if faults else 0


def main():
    parser = argparse.ArgumentParser(description=__doc__, formatter_class=argparse.RawDescriptionHelpFormatter)
    parser.add_argument("--reads", action="store_true")
    parser.add_argument("--results", type=pathlib.Path, metavar="FILE")
    parser.add_argument("--jobs", type=int, default=1, metavar="N")
    parser.add_argument("names", nargs="*", metavar="CRATE | CRATE/NAME")
    given = parser.parse_args()
    if given.reads:
        return read_all()
    known = {it: {crate_of(it), name_of(it)} for it in edits()}
    if strange := set(given.names).difference(*known.values()):
        parser.error(f"no wrong body is named {min(strange)}")
    # A run that is killed ends as one that is interrupted: once the check is done that it waits for.
    signal.signal(signal.SIGTERM, signal.default_int_handler)
    chosen = [it for it, names in known.items() if not given.names or names.intersection(given.names)]
    return try_all(chosen, Verdicts(given.results), given.jobs)


if __name__ == "__main__":
    sys.exit(main())
