#!/usr/bin/env python3
"""Lists the definitions that the contract of `schedule::run` rests on, file by file, with their lines.

    tools/count_trusted.py            what docs/TRUST.md has of it: the totals, and the lists
    tools/count_trusted.py --names    the same, each list by file, with the name of each definition
    tools/count_trusted.py --check    whether docs/TRUST.md has just that; status 1 if not

It reads the contracts of `run`, of the calls that show its world, of the law `any_programs`, of `perform_task` of both
programs, and of `perform` of all three. It follows each name in them through `ghost use`, `use` and `pub use` to the
definition that it means, and so on, down to the kit's own definitions, which it names and doesn't enter. Every line of
a definition counts that is neither blank nor a comment. A file comes after those that cite it.

Of a Rust type that a contract or a definition names, what contracts see of it counts: its model if it has one, and its
declaration if it has none or has public fields. Of a disk its words count (`is_clean`). The invariant of a type does
not count: it is proved, and promises nothing to a caller.
"""
import pathlib
import re
import sys
import textwrap
from collections import defaultdict

ROOT = pathlib.Path(__file__).resolve().parent.parent
PAGE = ROOT / "docs" / "TRUST.md"
BEGIN, END = "<!-- counted by tools/count_trusted.py -->", "<!-- end of what is counted -->"
RUN = "crates/schedule/src/events.rt"
WORLD = "crates/schedule/src/world.rt"
# The contract to believe, the calls that show the world that it answers, and the calls that lend the ends in it.
HEADLINE = [(RUN, "run")] + [
    (WORLD, name) for name in ("register", "states", "confirmed", "done", "sent", "outputs", "World")
]
ENDS = [(WORLD, "intake"), (WORLD, "outbox")]
# The law that the headline holds of what any programs keep.
PROGRAMS = [("crates/programs/src/lib.rt", "any_programs")]
# What each task of the programs does.
TASKS = [(f"crates/{program}_commands/src/tasks.rt", "perform_task") for program in ("intake", "outbox")]
# What each program does with its words.
WORDS = [("crates/intake_commands/src/program.rt", "perform")] + [
    (f"crates/{program}_commands/src/tasks.rt", "perform") for program in ("outbox", "drill")
]

IMPORT = re.compile(r"\s*(?:ghost |pub )*use (Rattle\.[\w.]+?)(?:\.\{(.*)\}|(?: as (\w+))?);?\s*$")
RUST_IMPORT = re.compile(r"^use (\w+(?:::\w+)*?)::(?:\{([^}]*)\}|(\w+));", re.MULTILINE)
PASSED_ON = re.compile(r"^pub use (\w+)(?:::\w+)*?::(?:\{([^}]*)\}|(\w+));", re.MULTILINE)
HEAD = re.compile(r"(?:  )?(?:abbrev |unfoldable )pub (\S+)|(?:  )?pub (?:record |data )(\S+)|pub (\S+)")
VARIANTS = "TheVariants"


class Definition:
    """A named piece of a file: its lines without comments, and the names that it imports."""

    def __init__(self, file, name, lines, imports):
        self.file, self.name, self.lines, self.imports = file, name, lines, imports

    def words(self):
        text = re.sub(r'"[^"]*"', " ", "\n".join(self.lines))
        if re.match(r"(pub(\(crate\))? )?enum ", text):
            text = re.sub(r"^ +[A-Z]\w*", " ", text, flags=re.MULTILINE)  # the variants' own names
        return re.findall(r"[^\s(){}\[\],;&<>]+", text)


def read_import(line, imports):
    """Adds the names of a `use` line of definitions; false if it is none."""
    match = IMPORT.match(line)
    if not match:
        return False
    module, names, alias = match.groups()
    if names is None:
        imports[alias or module.rsplit(".", 1)[1]] = (module, None)
        return True
    for name in names.split(","):
        name, _, other = name.strip().partition(" as ")
        if name:
            imports[other or name] = (module, name)
    return True


class SpecsFile:
    """A file of definitions."""

    def __init__(self, path):
        self.path, self.imports, self.passed_on, self.definitions = path, {}, {}, {}
        name, lines = None, []
        for line in (ROOT / path).read_text().splitlines():
            if not line.strip() or line.lstrip().startswith("--") or line.startswith("pub mod "):
                continue
            if read_import(line, self.imports):
                if line.startswith("pub use"):
                    read_import(line, self.passed_on)
                continue
            head = HEAD.match(line)
            if head:
                self.add(name, lines)
                name, lines = head.group(head.lastindex), []
            lines.append(line)
        self.add(name, lines)

    def add(self, name, lines):
        if name is None:
            return
        definition = self.definitions[name] = Definition(self.path, name, lines, self.imports)
        if lines[0].startswith("pub data"):
            for line in lines[1:]:
                self.definitions.setdefault(line.split()[0], definition)


def block(lines, start):
    """The lines from this one on, up to the end of the braces that it opens."""
    depth, taken = 0, []
    for line in lines[start:]:
        taken.append(line)
        depth += line.count("{") - line.count("}")
        if depth <= 0 and line.rstrip().endswith(("}", ";")):
            break
    return taken


def without_invariant(lines):
    """The lines of a model without those of its invariant."""
    kept, skipping = [], False
    for line in lines:
        skipping = skipping or line.strip().startswith("ghost invariant")
        if not skipping:
            kept.append(line)
        skipping = skipping and not line.rstrip().endswith("};")
    return kept


class RustFile:
    """A file of code, of which the declarations of types, their models and the contracts of functions are read."""

    def __init__(self, path):
        self.path, self.imports, self.types = path, {}, {}
        text = (ROOT / path).read_text()
        self.lines = [line for line in text.splitlines() if line.strip() and not line.lstrip().startswith(("//", "#"))]
        for line in self.lines:
            if not line.startswith(" "):
                read_import(line, self.imports)
        for module, several, one in RUST_IMPORT.findall(text):
            for name in (several or one).split(","):
                if name.strip()[:1].isupper():
                    self.types[name.strip()] = module

    def find(self, pattern):
        return [i for i, line in enumerate(self.lines) if re.match(pattern, line)]

    def type_named(self, name):
        """What contracts see of a type of this file."""
        other_names = self.find(rf"(?:pub(?:\(\w+\))? )?type {name}\b")
        if other_names:
            return Definition(self.path, name, [self.lines[other_names[0]]], self.imports)
        starts = self.find(rf"\s*(?:pub(?:\(\w+\))? )?(?:enum|struct|trait) {name}\b")
        if not starts:
            return None
        declared = block(self.lines, starts[0])
        model = [line for i in self.find(rf"impl\b.* Model for {name}\b") for line in block(self.lines, i)]
        imports = dict(self.imports)
        kept = [line for line in without_invariant(model) if not read_import(line, imports)]
        kept += [line for line in self.words_of_disk(name) if not read_import(line, imports)]
        if kept and not any(re.match(r"\s+pub \w+:", line) for line in declared):
            declared = []
        return Definition(self.path, name, declared + kept, imports)

    def words_of_disk(self, name):
        """What a type says of itself as a disk, or of its calls, but for what it proves there."""
        impls = (block(self.lines, i) for i in self.find(rf"impl\b.* (?:Disk|Calls) for {name}\b"))
        return [line for lines in impls for line in lines
                if re.match(r"    ghost (?!fair_if_clean|seen_may_stay)", line)]  # fmt: skip

    def contract(self, name):
        """What a function promises: its head and its clauses, without its body."""
        start = self.find(rf"\s*(?:pub(?:\(crate\))? )?fn {name}\b")[-1]
        indent = self.lines[start][: len(self.lines[start]) - len(self.lines[start].lstrip())]
        end = next(i for i in range(start, len(self.lines)) if self.lines[i] in (indent + "{", indent + "{}"))
        return Definition(self.path, name, self.lines[start:end], self.imports)


def is_ours(crate):
    return (ROOT / "crates" / crate).is_dir()


class Reached:
    """All that is reached from some contracts: the definitions, which file cites which, and the kit's names."""

    def __init__(self, names):
        self.files, self.definitions, self.cites = {}, {}, defaultdict(set)
        self.kit = defaultdict(lambda: defaultdict(set))
        for path, name in names:
            file = self.file(path)
            self.reach(file.type_named(name) if name[0].isupper() else file.contract(name))

    def file(self, path):
        if path not in self.files:
            self.files[path] = RustFile(path) if path.endswith(".rt") else SpecsFile(path)
        return self.files[path]

    def in_module(self, module, name):
        """The definition of this name in a module, or nothing if the module is the kit's."""
        _, crate, _, *inner = [part for part in module.split(".") if part != VARIANTS]
        if not is_ours(crate):
            if name is not None:
                self.kit[crate]["/".join(inner)].add(name)
            return None
        if inner[0] == "declared":
            *inner, name = inner[1:]
            return self.file(f"crates/{crate}/src/{'/'.join(inner)}.rt").type_named(name)
        if not (ROOT / "crates" / crate / "specs" / ("/".join(inner) + ".antt")).is_file():
            *inner, name = inner  # a type of a file, as the home of its variants
        specs = self.file(f"crates/{crate}/specs/{'/'.join(inner)}.antt")
        if name in specs.passed_on:
            return self.in_module(*specs.passed_on[name])
        return specs.definitions.get(name)

    def rust_type(self, file, name):
        """What contracts see of a Rust type that a file of code names: its own, or one that it imports."""
        own = file.type_named(name)
        if own is not None or name not in file.types:
            return own
        crate = file.types[name].split("::")[0]
        crate = file.path.split("/")[1] if crate in ("crate", "super", "self") else crate
        return self.type_of_crate(crate, name)

    def type_of_crate(self, crate, name):
        """What contracts see of a Rust type that a crate offers: one of its own, or one of a crate below it."""
        if not is_ours(crate):
            return None
        for path in sorted((ROOT / "crates" / crate / "src").rglob("*.rt")):
            found = self.file(str(path.relative_to(ROOT))).type_named(name)
            if found is not None:
                return found
        library = (ROOT / "crates" / crate / "src" / "lib.rt").read_text()
        for below, several, one in PASSED_ON.findall(library):
            if name in [word.strip() for word in (several or one).split(",")]:
                return self.type_of_crate(below, name)
        return None

    def meant(self, definition, word, after):
        """The definition that a word stands for there, if it stands for one."""
        first, _, rest = word.partition(".")
        if not first or after == "=":  # a field, or the name of one
            return None
        if first in definition.imports:
            module, name = definition.imports[first]
            return self.in_module(module, name or (rest.split(".")[0] or None))
        file = self.files[definition.file]
        if isinstance(file, SpecsFile):
            return file.definitions.get(first)
        return self.rust_type(file, first) if re.fullmatch(r"[A-Z]\w+", first) else None

    def name_operators(self, definition):
        """Takes in the kit's operators among the imports of a definition that stand in it."""
        words = set(definition.words())
        for name, (module, _) in definition.imports.items():
            if "◌" in name and set(name.split("◌")) - {""} <= words:
                self.in_module(module, name)

    def reach(self, definition):
        """Takes a definition in, and all that it names, the nearest first."""
        waiting = [definition]
        while waiting:
            one = waiting.pop(0)
            if (one.file, one.name) in self.definitions:
                continue
            self.definitions[one.file, one.name] = one
            self.name_operators(one)
            words = one.words()
            for word, after in zip(words, words[1:] + [""]):
                other = self.meant(one, word, after)
                if other is not None:
                    self.cites[one.file].add(other.file)
                    waiting.append(other)

    def in_order(self):
        """The files, each after those that cite it."""
        files, order = list(dict.fromkeys(file for file, _ in self.definitions)), []
        while files:
            free = [f for f in files if not any(f in self.cites[g] for g in files if g != f)]
            order.append((free or files)[0])
            files.remove(order[-1])
        return order


def crate_of(file):
    return file.split("/")[1]


def beyond(found, known):
    """The definitions beyond those known, of each file that has some."""
    new_of = {}
    for file in found.in_order():
        new = [d for key, d in found.definitions.items() if d.file == file and key not in known]
        if new:
            new_of[file] = new
    return new_of


def lines_of(definitions):
    return f"{sum(len(d.lines) for d in definitions):,}"


def totals(lists):
    """A row for each list, and one for all."""
    rows = [(title, [d for new in new_of.values() for d in new]) for title, new_of in lists]
    rows.append(("together", [d for _, new in rows for d in new]))
    return "\n".join(["| list | definitions | lines |", "|---|---|---|",
                      *(f"| {title} | {len(new):,} | {lines_of(new)} |" for title, new in rows)])  # fmt: skip


def table(number, new_of):
    """A list with the names of its definitions, a row for each file."""
    lines = [f"List {number}, by file:", "", "| file | lines | definitions |", "|---|---|---|"]
    return lines + [f"| `{file.removeprefix('crates/')}` | {lines_of(new)} | {', '.join(d.name for d in new)} |"
                    for file, new in new_of.items()]  # fmt: skip


def sentence(begin, counts):
    """A sentence that counts."""
    return textwrap.wrap(f"{begin}: {', '.join(f'`{name}` {count}' for name, count in counts)}.", 120,
                         break_long_words=False, break_on_hyphens=False)  # fmt: skip


def by_file(number, new_of):
    """A list, as a sentence with the lines of each file."""
    return sentence(f"List {number}, by file",
                    [(file.removeprefix("crates/"), lines_of(new)) for file, new in new_of.items()])  # fmt: skip


def by_crate(number, new_of):
    """A list, as a sentence with the lines of each crate."""
    crates = {}
    for file, new in new_of.items():
        crates.setdefault(crate_of(file), []).extend(new)
    return sentence(f"List {number}, by crate", [(it, lines_of(new)) for it, new in crates.items()])


def kit_names(found):
    """A sentence: how many names of each library of the kit the definitions name."""
    return sentence("How many names of the kit's libraries they have",
                    [(crate, sum(map(len, files.values()))) for crate, files in sorted(found.kit.items())])  # fmt: skip


def kit_table(found):
    """The kit's libraries that the definitions name, with their files and how many names of each."""
    lines = ["| library of the kit | names | in its files |", "|---|---|---|"]
    for crate, files in sorted(found.kit.items()):
        of_rust = {file: names for file, names in files.items() if file.startswith("declared")}
        titles = [f"`{file}`" for file in sorted(files) if file not in of_rust]
        titles += [f"the type `{file.rsplit('/', 1)[1]}`" for file in sorted(of_rust)]
        lines.append(f"| `{crate}` | {sum(map(len, files.values()))} | {', '.join(titles)} |")
    return lines


def report(with_names):
    """The totals, and the lists."""
    first, second, third = Reached(HEADLINE), Reached(HEADLINE + ENDS), Reached(HEADLINE + PROGRAMS)
    fourth, fifth = (Reached(HEADLINE + ENDS + PROGRAMS + TASKS + more) for more in ([], WORDS))
    lists = [
        ("1. The contract of `run`, the calls that show its world, and what they rest on", beyond(first, {})),
        ("2. The calls `intake` and `outbox`, which lend the ends in that world, and what they rest on beyond that",
         beyond(second, first.definitions)),
        ("3. The law `any_programs`, and what it rests on beyond the first list", beyond(third, first.definitions)),
        ("4. The contracts `perform_task` of `intake` and `outbox`, and what they rest on beyond these three lists",
         beyond(fourth, second.definitions | third.definitions)),
        ("5. The contracts `perform` of `intake`, `outbox` and `drill`, and what they rest on beyond these four lists",
         beyond(fifth, fourth.definitions)),
    ]  # fmt: skip
    parts = []
    for number, (_, new_of) in enumerate(lists, 1):
        shown = table if with_names else by_file if number == 1 else by_crate
        parts.append(shown(number, new_of))
    parts += [["What they name of the kit:"], kit_table(fifth)] if with_names else [kit_names(fifth)]
    return totals(lists), "\n\n".join("\n".join(part) for part in parts)


def main(words):
    if set(words) - {"--names", "--check"}:
        print(__doc__.split("\n\n")[1], file=sys.stderr)
        return 2
    texts = report("--names" in words)
    if "--check" not in words:
        print("\n\n".join(texts))
        return 0
    stand = tuple(part.partition(END)[0].strip() for part in PAGE.read_text().split(BEGIN)[1:])
    if stand == texts:
        print("docs/TRUST.md has what is counted")
        return 0
    print("docs/TRUST.md has other counts than tools/count_trusted.py prints", file=sys.stderr)
    return 1


if __name__ == "__main__":
    sys.exit(main(sys.argv[1:]))
