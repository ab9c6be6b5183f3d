#!/usr/bin/env python3
"""Makes the table of crates of docs/ARCHITECTURE.md, out of crates.txt and the first lines of each crate.

    tools/crate_table.py            writes the table into the page
    tools/crate_table.py --check    says whether the page has this table

The rows are in the order of crates.txt. The row of a crate has the crates of this repository that it names there, but
for those that another one of the row uses already, and the first lines of its root file, up to `What may live here`, or
to a colon behind LEAST words or more: what comes after it are details.

Status 1 if a crate has no such lines, or if the page has no table or, with --check, another one.
"""
import functools
import pathlib
import re
import sys

ROOT = pathlib.Path(__file__).resolve().parent.parent
PAGE = ROOT / "docs" / "ARCHITECTURE.md"
LEAST = 7
HEAD = "| crate | uses | what it is for |\n|---|---|---|\n"


def crates():
    """Each crate with the crates of this repository that it names, lowest first."""
    lines = re.findall(r"(?m)^(\w+)[^:\n]*:(.*)$", (ROOT / "crates.txt").read_text(encoding="utf-8"))
    names = {name for name, _ in lines}
    return {name: [it for it in below.split() if it in names] for name, below in lines}


def nearest(known):
    """Each crate with those that it names and that no other one of them uses."""

    @functools.cache
    def below(name):
        return frozenset(known[name]).union(*map(below, known[name]))

    return {name: [it for it in named if not any(it in below(other) for other in named)]
            for name, named in known.items()}  # fmt: skip


def purpose(name):
    """What the first paragraph of a crate's root file says that it is for; empty if there is none."""
    source = ROOT / "crates" / name / "src"
    root = next(it for it in (source / "lib.rt", source / "main.rt") if it.is_file())
    head = re.match(r"(?://![^\n]*\n)*", root.read_text(encoding="utf-8"))[0]
    paragraph = " ".join(re.sub(r"(?m)^//! ?", "", head).split("\n\n")[0].split())
    why, colon, details = paragraph.split("What may live here")[0].strip().partition(": ")
    if len(why.split()) < LEAST:
        why += colon + details
    return f"{why.rstrip('.')}.".replace("|", "\\|") if why else ""


def table():
    """The text of the table, and the crates without first lines."""
    rows = {name: (below, purpose(name)) for name, below in nearest(crates()).items()}
    text = HEAD + "".join(f"| `{name}` | {', '.join(below)} | {why} |\n" for name, (below, why) in rows.items())
    return text, [name for name, (_, why) in rows.items() if not why]


def shown(page):
    """The table that a page shows, or none."""
    found = re.search(re.escape(HEAD) + r"(?:\|[^\n]*\n)*", page)
    return found and found[0]


def fault():
    """What is wrong with the table of the page, or nothing."""
    wanted, silent = table()
    found = shown(PAGE.read_text(encoding="utf-8"))
    if silent:
        return f"no first lines say what these crates are for: {', '.join(silent)}"
    if found is None:
        return "there is no table of crates"
    if found == wanted:
        return None
    rows, others = found.split("\n"), wanted.split("\n")
    return "tools/crate_table.py makes other rows: " + "; ".join(it for it in others if it not in rows) \
        if set(others) - set(rows) else "tools/crate_table.py makes fewer rows, or another order"


def main(words):
    if words not in ([], ["--check"]):
        print(__doc__, file=sys.stderr)
        return 2
    if not words:
        page, (wanted, _) = PAGE.read_text(encoding="utf-8"), table()
        if shown(page):
            PAGE.write_text(page.replace(shown(page), wanted), encoding="utf-8")
    told = fault()
    if told:
        print(f"docs/ARCHITECTURE.md: {told}", file=sys.stderr)
    return 1 if told else 0


if __name__ == "__main__":
    sys.exit(main(sys.argv[1:]))
