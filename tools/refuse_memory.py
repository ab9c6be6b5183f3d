#!/usr/bin/env python3
"""Refuses each allocation of a test in turn: runs the test once to count them, and then once for each, with that one
refused. The test has to pass in every run. Status 1 if one run does not.

    tools/refuse_memory.py crates/tests/out/tests_tests exchanges::memory::refused_memory_changes_nothing

The first word is a program of tests as `rt test` builds it, the others are full names of its tests.
"""
import os
import sys
import tempfile

from allocations import count, library, run


def main():
    if len(sys.argv) < 3:
        sys.exit(__doc__)
    program, failed = os.path.abspath(sys.argv[1]), 0
    with tempfile.TemporaryDirectory() as folder:
        counts = library(folder)
        for name in sys.argv[2:]:
            whole = run([program, name], counts, 0)
            allocations = count(whole)
            if whole.returncode or allocations is None:
                sys.exit(f"{name}: status {whole.returncode}: {whole.stdout}{whole.stderr}")
            wrong = 0
            for at in range(1, allocations + 1):
                ran = run([program, name], counts, at)
                if ran.returncode:
                    wrong += 1
                    print(
                        f"{name}: allocation {at}: status {ran.returncode}: "
                        f"{(ran.stdout + ran.stderr).decode(errors='replace').strip()[-200:]}"
                    )
            print(f"{name}: {allocations} allocations, each refused in turn: {wrong} runs failed")
            failed += wrong
    sys.exit(1 if failed else 0)


if __name__ == "__main__":
    main()
