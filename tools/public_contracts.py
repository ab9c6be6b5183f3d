#!/usr/bin/env python3
"""Prints every public contract of every crate in one order, so that two states of the tree can be compared.

    tools/public_contracts.py [CRATE..]      the contracts of these crates, or of all in the order of crates.txt
    tools/public_contracts.py --since COMMIT [CRATE..]
                                             the difference between a commit's and those of the work tree

Of each public function, and of each method of a public trait, it prints the head and the clauses, and in a line behind
them on how many definitions of this repository they rest, with a digest of those. So a definition that says
something else shows at each contract that cites it, however far above. What is no promise does not count: bodies,
proofs, comments, and the lines in which a clause is broken. With `--since` the status is 1 if there is a difference.
"""
import difflib
import hashlib
import pathlib
import re
import subprocess
import sys
import tempfile

import count_trusted

FUNCTION = re.compile(r"\s*(pub (?:const )?)?fn (\w+)")
TRAIT = re.compile(r"pub trait (\w+)")
IMPL = re.compile(r"impl\b(?:<.*?>)?\s+(.*?)\s*\{?$")


def crates_in_order():
    lines = (count_trusted.ROOT / "crates.txt").read_text().splitlines()
    return [line.partition(":")[0] for line in lines if line and not line.startswith("#")]


def contract_at(lines, start):
    """The lines of a head and its clauses, without the body, and the index behind them."""
    indent = lines[start][: len(lines[start]) - len(lines[start].lstrip())]
    for end in range(start, len(lines)):
        line = lines[end]
        if line in (indent + "{", indent + "{}"):
            return lines[start:end], end
        if line.startswith(indent) and line[len(indent) :][:1] != " " and line.endswith((" {", ";", "{}")):
            return lines[start:end] + [line.removesuffix("{}").rstrip(" {;")], end
        if line.startswith(indent + "    ") and line.endswith(";") and end + 1 < len(lines) \
                and not lines[end + 1].startswith(indent + "     "):
            return lines[start:end] + [line.rstrip(";")], end
    return lines[start:], len(lines)


class Contracts:
    """The public contracts of the tree, with what they rest on."""

    def __init__(self):
        self.reached, self.cited = count_trusted.Reached([]), {}

    def names_in(self, definition):
        """The definitions that one names."""
        key = definition.file, definition.name, id(definition.imports)
        if key not in self.cited:
            words = definition.words()
            meant = (self.meant(definition, word, after) for word, after in zip(words, words[1:] + [""]))
            self.cited[key] = [one for one in meant if one is not None]
        return self.cited[key]

    def meant(self, definition, word, after):
        try:
            return self.reached.meant(definition, word, after)
        except FileNotFoundError:
            return None  # a variant by itself, or the contract of a function, which has no file of its own

    def rests_on(self, contract):
        """How many definitions a contract rests on, and their digest."""
        waiting, found = list(self.names_in(contract)), {}
        while waiting:
            one = waiting.pop()
            if (one.file, one.name) not in found:
                found[one.file, one.name] = " ".join(" ".join(one.lines).split())
                waiting.extend(self.names_in(one))
        text = "\n".join(f"{name}: {found[file, name]}" for file, name in sorted(found, key=lambda key: key[::-1]))
        return len(found), hashlib.sha256(text.encode()).hexdigest()[:8]

    def of_file(self, path):
        """The contracts of a file, each under the name of its type or trait."""
        file, home, is_trait, at = self.reached.file(path), "", False, 0
        while at < len(file.lines):
            line = file.lines[at]
            if not line.startswith(" "):
                trait, impl = TRAIT.match(line), IMPL.match(line)
                home, is_trait = (trait or impl)[1] if trait or impl else "", bool(trait)
            function = FUNCTION.match(line)
            if function and (function[1] or is_trait):
                lines, at = contract_at(file.lines, at)
                head = " ".join(" ".join(lines).split())
                imports = {**file.imports}
                for other in file.lines:
                    count_trusted.read_import(other, imports)
                definition = count_trusted.Definition(path, function[2], lines, imports)
                yield home, function[2], head, self.rests_on(definition)
            at += 1

    def of_crate(self, crate):
        for path in sorted((count_trusted.ROOT / "crates" / crate / "src").rglob("*.rt")):
            yield from self.of_file(str(path.relative_to(count_trusted.ROOT)))


def report(words):
    """The contracts of these crates, as lines."""
    order, contracts, lines = crates_in_order(), Contracts(), []
    unknown = [word for word in words if word not in order]
    if unknown:
        sys.exit(f"public_contracts.py: no crate {unknown[0]} in crates.txt")
    for crate in words or order:
        for home, name, head, (count, digest) in sorted(contracts.of_crate(crate)):
            lines.append(f"{crate} {home + ': ' if home else ''}{name}")
            lines += ["    " + part for part in re.split(r" (?=(?:requires|ensures) (?:\w+ )?\{|where )", head)]
            lines.append(f"    -- rests on {count} definitions, {digest}")
    return lines


def report_of(commit, words):
    """The same of a commit."""
    with tempfile.TemporaryDirectory() as folder:
        tree = subprocess.run(["git", "-C", count_trusted.ROOT, "archive", commit, "crates", "crates.txt"],
                              check=True, capture_output=True).stdout
        subprocess.run(["tar", "-x", "-C", folder], check=True, input=tree)
        here, count_trusted.ROOT = count_trusted.ROOT, pathlib.Path(folder)
        known = set(crates_in_order())
        try:
            return report([word for word in words if word in known])
        finally:
            count_trusted.ROOT = here


def main(words):
    if words[:1] == ["--since"] and len(words) > 1:
        before, now = report_of(words[1], words[2:]), report(words[2:])
        found = list(difflib.unified_diff(before, now, words[1], "now", lineterm="", n=3))
        print("\n".join(found) or "the same contracts")
        return 1 if found else 0
    if any(word.startswith("-") for word in words):
        print(__doc__.split("\n\n")[1], file=sys.stderr)
        return 2
    print("\n".join(report(words)))
    return 0


if __name__ == "__main__":
    sys.exit(main(sys.argv[1:]))
