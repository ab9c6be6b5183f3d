#!/usr/bin/env python3
"""Runs the checks of tools/ and bench/ one after another, and says of each whether it passed.

    tools/check_all.py [--quick] [WORD ..]      all, or those with one of these words in their line; --quick leaves out
                                                those that take more than two minutes
    tools/check_all.py --list                   the checks, and about how many minutes each takes

They take the programs that `rt run` builds in their folders, as crates/intake/out/intake. The output of each is shown,
and in the end a table: what passed, what failed, what could not be tried (status 77) and why, and the seconds of each.
A script tools/check_*.py that is not in CHECKS is a failure too. Status 1 if something failed.
"""
import argparse
import pathlib
import subprocess
import sys
import time

ROOT = pathlib.Path(__file__).resolve().parent.parent
PROGRAMS = [f"crates/{name}/out/{name}" for name in ("intake", "outbox")]
# The words of each check, and about how many minutes it takes.
CHECKS = [
    (["tools/check_pages.py", "--programs"], 2),
    (["tools/count_trusted.py", "--check"], 1),
    (["tools/try_wrong_bodies.py", "--reads"], 1),
    (["tools/check_openapi.py", PROGRAMS[0]], 1),
    (["tools/check_commands.py"], 1),
    (["tools/check_programs.py"], 2),
    (["tools/check_schedules.py"], 1),
    (["tools/check_stops.py"], 20),
    (["tools/check_upgrades.py"], 5),
    (["tools/check_digest.py"], 1),
    (["tools/check_export.py"], 1),
    (["tools/check_pages_of_register.py"], 2),
    (["tools/check_man_pages.py"], 1),
    (["tools/check_deploy.py"], 2),
    (["tools/check_operations.py"], 10),
    (["tools/check_many_connections.py"], 15),
    (["tools/check_conformance.py"], 20),
    (["tools/check_first_days.py", *PROGRAMS], 15),
    (["tools/check_takeover.py", *PROGRAMS], 40),
    (["tools/check_filer_page.py"], 20),
    (["tools/refuse_programs.py"], 30),
    (["bench/run.py"], 10),
    (["bench/steps.py"], 1),
    (["bench/memory.py"], 5),
    (["bench/outbox.py"], 10),
]
# Those that compare two versions, or want a package that tools/release made.
BY_HAND = {"check_damaged_registers.py", "check_package.py"}


def main():
    parser = argparse.ArgumentParser(description=__doc__.partition("\n")[0])
    parser.add_argument("--quick", action="store_true", help="those of at most two minutes")
    parser.add_argument("--list", action="store_true", help="print the checks")
    parser.add_argument("words", nargs="*", metavar="WORD")
    given = parser.parse_args()
    chosen = [
        (words, minutes)
        for words, minutes in CHECKS
        if (minutes <= 2 or not given.quick)
        and (not given.words or any(word in " ".join(words) for word in given.words))
    ]
    if given.list:
        for words, minutes in chosen:
            print(f"{minutes:>3} min  {' '.join(words)}")
        return 0
    found = [(verdict, seconds, words, last) for words, _ in chosen for verdict, seconds, last in [tried(words)]]
    named = {pathlib.Path(words[0]).name for words, _ in CHECKS} | BY_HAND
    forgotten = sorted(path.name for path in ROOT.glob("tools/check_*.py") if path.name not in {*named, "check_all.py"})
    found += [("failed", 0, [f"tools/{name}"], "it is not in CHECKS") for name in forgotten]
    print()
    for verdict, seconds, words, last in found:
        print(f"{verdict:9} {seconds:>5.0f} s  {' '.join(words)}: {last}")
    return 1 if any(verdict == "failed" for verdict, *_ in found) else 0


def tried(words):
    """What became of a check, how many seconds it took, and its last line."""
    print(f"== {' '.join(words)}", flush=True)
    begun, last = time.monotonic(), ""
    with subprocess.Popen(
        [sys.executable, *words], cwd=ROOT, stdout=subprocess.PIPE, stderr=subprocess.STDOUT, text=True
    ) as check:
        for line in check.stdout:
            print(line, end="", flush=True)
            last = line.strip() or last
    verdict = {0: "passed", 77: "not tried"}.get(check.returncode, "failed")
    return verdict, time.monotonic() - begun, last


if __name__ == "__main__":
    sys.exit(main())
