#!/usr/bin/env python3
"""Checks one crate by the prover, with the crates below it as sources, before these are proved.

    tools/over_sources.py CRATE [FLAGS OF rattle check ..]     as --jobs 1, --only PATH, --allow-holes,
                                                               --incremental DIR, which keeps what was checked there

`rt check` first builds the libraries below a crate, and a library builds only when all of it is proved. So whoever
changes a lower crate waits for its proofs before an upper one can be tried. Here the contracts of the lower crates are
taken from their text, whether they are proved or not. It decides nothing: `rt ci` does. Functions of the lower crates
that are called are checked too. So the more crates lie below, the longer it takes, half an hour and more, and the more
memory, up to 7 GB.
"""
import os
import pathlib
import subprocess
import sys

ROOT = pathlib.Path(__file__).resolve().parent.parent


def uses():
    """Of each crate of crates.txt the libraries that it uses."""
    lines = (line.partition("#")[0].strip() for line in (ROOT / "crates.txt").read_text().splitlines())
    return {name.split()[0]: used.split() for name, _, used in (line.partition(":") for line in lines if line)}


def below(crate, used):
    """The repository's crates below this one, lowest first."""
    found = []
    for name in used[crate]:
        if name in used:
            found += [*below(name, used), name]
    return list(dict.fromkeys(found))


def command(crate, used, kit):
    crates = below(crate, used)
    root = next(it for it in ("src/lib.rt", "src/main.rt") if (ROOT / "crates" / crate / it).exists())
    words = [str(kit / "bin" / "rattle"), "check", "--crate-name", crate, root]
    for name in sorted({it for one in (*crates, crate) for it in used[one] if it not in used} | {"core", "std"}):
        words += ["--extern", f"{name}={kit}/rlibs/{name}.rlib"]
    words += ["-L", f"dependency={kit}/rlibs"]
    for name in crates:
        words += ["--lib", f"{name}:{','.join(['core', 'std', *used[name]])}={ROOT}/crates/{name}/src/lib.rt"]
    return [*words, "--antt-project", f"{kit}/rattle/logic/antt-project.json", "--logic-built", f"{kit}/logic_built",
            "--links", f"{crate}="]  # fmt: skip


def main(words):
    used = uses()
    if not words or words[0] not in used:
        print(__doc__.strip(), file=sys.stderr)
        return 2
    page = subprocess.run(["rt", "doc"], capture_output=True, text=True, check=True).stdout.strip()
    os.chdir(ROOT / "crates" / words[0])
    return subprocess.run([*command(words[0], used, pathlib.Path(page).parent), *words[1:]], check=False).returncode


if __name__ == "__main__":
    sys.exit(main(sys.argv[1:]))
