#!/usr/bin/env python3
"""Checks the pages of the repository: links, tables, lengths in examples, phrases that are hard to read, and commands.

    tools/check_pages.py                        what needs neither root nor a built program
    tools/check_pages.py --programs [FOLDER]    also the examples that need the programs intake and outbox, which are in
                                                FOLDER, or where `rt run` builds them
    tools/check_pages.py --planted              the pages with each of the FAULTS: a check has to fail

Links lead to files and headings that are there; nothing outside the repository is asked for. Each row of a table has as
many cells as its head, and a cell of README.md at most CELL words. Each page has at most a handful of the phrases in
PHRASES and, but for docs/GLOSSARY.md, none of the words in COINED, and all of them have at most WORDS words together,
as `git ls-files '*.md' | xargs cat | wc -w` counts. No line of README.md is longer than 400 characters, and none of the
code and the scripts than 120, but for strings in the code. docs/ARCHITECTURE.md has the table that tools/crate_table.py
makes. The pictures of README.md show what the page of a filing has. The wrong bodies that docs/PROOF.md names and the
contracts that README.md names are there, and each word of docs/GLOSSARY.md is defined where that page says.
docs/PROTOCOL.md has a heading for each word of an error, and an anchor for each code of a finding; its programs that
repeat a request have at most LINES lines, and are tried after peers that fail: on intake with --programs, otherwise on
tools/intake_stand_in.py.

The index of docs/OPERATIONS.md has the questions in QUESTIONS and no others, and each links to a section with the words
there. tools/questions.txt has what strangers ask, as many of each as ASKING says, and which section answers it: it is
two links from README.md at most, and has the words of the answer among its first FIRST words.

Every block of commands in README.md, docs/FIRST_DAYS.md and docs/OPERATIONS.md is one that bash can read, and either
runs here as it is written, or needs root, or needs the kit. Those that need root are played by
tools/check_first_days.py. An example that runs is a row in EXAMPLES. With --programs each option that a page gives to
intake or outbox has to be in their help, and each example of a finding in docs/PROTOCOL.md has that finding. Ports 8080
and 8081 of 127.0.0.1 have to be free.

Status 1 if something fails, and 77 if nothing does but the programs are not built.
"""
import argparse
import contextlib
import hashlib
import io
import os
import pathlib
import re
import shutil
import signal
import socket
import subprocess
import sys
import tempfile
import time
from dataclasses import dataclass
from typing import Callable

import crate_table
import trials
from man_pages import commands_of, help_of, sections
from odd_register import date_register

ROOT = pathlib.Path(__file__).resolve().parent.parent
README_WIDTH = 400
WIDTH = 120
# Files whose lines may be as long as they are: pages and data, and formats that have no line that goes on.
ANY_WIDTH = re.compile(r"\.(?:md|json|yaml|edit)$|^crates\.txt$|^tools/questions\.txt$|^conformance/cases/"
                       r"|^crates/\w+/(?:stdin|stdout|args)$")
HANDFUL = 5
WORDS = 43_000
CELL = 35
FIRST = 300
LINES = 12
ASKING = {"supervisor": 10, "filer": 11, "sceptic": 5, "contributor": 5}
# The code that writes a filing's page, and how README.md shows that page.
FILING, PICTURES = "crates/register_pages/src/filing.rt", ("docs/filing.svg", "docs/filing-narrow.svg")
# When the one request of a copy came, in milliseconds since 1970.
MOMENT = 1_735_689_599_999
# How many seconds a block of commands may take. Programs that were built without proof are slow.
PATIENCE = 300
# What a page says in too few or too old words, and what to write.
PHRASES = {
    r"\b(?:is|are|was|were|be|been) told\b": "reports, prints, is reported",
    r"\btells\b": "reports, says, shows",
    r"\bof before\b": "earlier, of an earlier version",
    r"(?:^|[.:;,(|] |\b(?:or|and|but|also|that|even) )"
    r"[Ww]here (?:it|there|one|none|no|nothing|they|each|this|that|memory|a|the)\b": "if",
    r"\bstands?\b(?!-)": "is, comes",
    r"\ba text\b": "a string",
    r"\b(?:hold|holds|held|holding) (?:[\w`'.]+ ){1,5}?"
    r"to (?:the|what|its|their|it|this|them|account)\b": "compares .. with, tests .. against",
    r"\b(?:is|are|was|were) to (?:be|come|replace|have|hold)\b": "has to, will, replaces",
    r"\b(?:take|takes|taken|taking) along\b": "converts, upgrades",
    r"\ba first part\b": "the beginning",
    r"\bwhat (?:its|the) words? says?\b": "what is defined for it",
    r"\bfor good\b": "permanently",
    r"\b(?:is|was|were) wanting\b": "ran out",
}
# Words of contracts, which only the page that explains them has.
COINED = r"\b(?:old-style|deeds?|hall|told|(?:a|the) front|fronts)\b"
EXPLAINED = "docs/GLOSSARY.md"
# What an operator asks, as the index of docs/OPERATIONS.md has it, and the words of the answer.
QUESTIONS = {
    "The disk is full": ("Make room", "No restart is needed", "503", "`outbox put`"),
    "Reports get 503": ("the disk is full", "`the register is full`", "memory ran out", "`Retry-After`"),
    "A filer gets 403": ("`no-certificate`", "`not-yours`", "`nginx-filer`"),
    "A filer gets 413": ("`too-large`", "1,048,576 bytes"),
    "The intake does not start": ("`not a register of this version`", "`serve` ends with 1", "`serve` ends with 3"),
    "A register is damaged": ("`intake check`", "restore a copy", "`lost-filings`"),
    "Another program has the file open": ("`another program has it open`", "`database is locked`", "`--wait SECONDS`"),
    "A client is slow": ("A slow client keeps nobody waiting", "`--patience`", "`--at-once`"),
    "A key was stolen": ("A key was stolen", "`nginx-filer --remove FILE acme.pem`", "`ssl_crl`"),
    "A certificate expires": ("Renewal", "Expiry", "-checkend"),
    "The hourly copy failed": ("`journalctl -u berruzpil-snapshot@register`", "`register.tried`"),
    "The register is full": ("1,000,000 keys", "LIMIT=", "MemoryMax="),
    "The clock is wrong": ("moments in the register", "log of nginx", "names of copies", "certificate", "receipts"),
    "The machine is lost": ("`register-takeover`", "is not surely down", "`mirror-health`", "nobody files twice"),
    "An entry stays open": ("75", "Never make a new key"),
    "How do I restart an intake?": ("`systemctl restart berruzpil-intake`", "SIGTERM", "nginx answers 503"),
    "Does it serve?": ("`/health`", "`intake-health", "answered 503"),
    "How do I make a backup?": ("`register-snapshot register.db copy.db`", "Each hour", "another disk"),
    "How do I restore one?": ("register-restore", "lost-filings", "`outbox-restore"),
    "How do I upgrade?": ("intake migrate", "`has this version already`", "Going back"),
    "How do I move to another machine?": ("To move to another machine", "one writer", "`intake check`"),
    "Who filed late?": ("Who filed late", "SELECT * FROM late", "INSERT INTO deadline"),
    "Who has not filed?": ("Who has not filed yet", "missing"),
    "Two filers want one code": ("One code is one filer", "`key-reused`"),
    "How are logs rotated?": ("`logrotate-berruzpil`", "ten years"),
    "How do I watch it?": ("`berruzpil-metrics.timer`", "`berruzpil-alert@`"),
    "How do I delete old reports?": ("deleting a whole register", "a new outbox"),
    "How do I get the facts out?": ("intake export", "csv", "jsonl"),
    "How do I correct or withdraw a filing?": ("To correct a filing", "--amend 17", "Nothing withdraws a filing"),
    "Why was my report refused?": ("outbox ask", "`outbox lint --filer", "PROTOCOL.md"),
    "Do I get a receipt?": ("`--receipts FOLDER`", "`sha256`", "not signed"),
}
# Commands that only root can use as they are written, and those of the kit.
NEEDS_ROOT = re.compile(r"\b(?:systemctl|runuser|apt-get|useradd|journalctl|logrotate|berruzpil-setup)\b"
                        r"|\bregister-takeover\b"
                        r"|(?<![\w.])/(?:etc|var|usr/local|lib)/|^install ", re.M)
NEEDS_KIT = re.compile(r"\brt (?:try|run|ci|check|lib|test|must-fail)\b|^\.ci/run\b", re.M)


# ---- the text of a page


def pages():
    names = subprocess.check_output(["git", "ls-files", "--cached", "--others", "--exclude-standard", "*.md"],
                                    cwd=ROOT, text=True).split()
    return sorted(name for name in names if (ROOT / name).is_file())


# The fault that is planted, while --planted looks whether it is seen.
planted = []


def text_of(page):
    text = (ROOT / page).read_text(encoding="utf-8")
    for fault in planted:
        text = text.replace(fault.old, fault.new) if fault.page == page else text
    return text


def without_fences(text):
    """The text with blank lines in place of blocks of code between fences."""
    return re.sub(r"(?ms)^ *```.*?^ *```[^\n]*", lambda it: "\n" * it[0].count("\n"), text)


def without_code(text):
    """The text with blank lines in place of blocks of code, and without code in lines. Lines keep their numbers."""
    lines, was_blank, is_code, indent_of_list = [], True, False, 0
    for line in without_fences(text).split("\n"):
        indent = len(line) - len(line.lstrip())
        if item := re.match(r" *(?:[-*]|\d+\.) +", line):
            indent_of_list = len(item[0])
        elif line.strip() and not indent:
            indent_of_list = 0
        is_code = (
            bool(line.strip()) and indent >= indent_of_list + 4 and (was_blank or is_code)
            or is_code and not line.strip()
        )
        was_blank = not line.strip()
        lines.append("" if is_code else line)
    return re.sub(r"(`+)(?!`)(.*?)(?<!`)\1(?!`)", lambda it: re.sub(r"[^\n]", "`", it[0]), "\n".join(lines), flags=re.S)


def blocks_of(text):
    """The indented blocks of code, each without its indent."""
    text, block = without_fences(text), []
    for line, prose in zip([*text.split("\n"), ""], [*without_code(text).split("\n"), "end"]):
        if line.strip() and not prose.strip():
            block.append(line)
        elif line.strip() or prose == "end":
            if block:
                indent = min(len(it) - len(it.lstrip()) for it in block)
                yield "\n".join(it[indent:] for it in block)
            block = []


# ---- links, tables, phrases, lengths


def anchors_of(page):
    """What a link may name in a page: its headings, as GitHub turns them into words."""
    found = []
    for heading in re.findall(r"(?m)^#{1,6} +(.+?) *#*$", without_fences(text_of(page))):
        shown = re.sub(r"\[([^\]]*)\]\([^)]*\)", r"\1", heading).replace("`", "")
        word = re.sub(r"[^\w\- ]", "", shown.lower()).replace(" ", "-")
        found.append(word if word not in found else f"{word}-{found.count(word)}")
    return found


def marks_of(page):
    """What a link may name in a page beside its headings."""
    return re.findall(r'<a id="([^"]+)"></a>', text_of(page))


def links_of(page):
    """Each link of a page to a file, or a picture: as it is written, the file, and what it names there."""
    text = without_code(text_of(page))
    pictures = re.findall(r'<(?:img|source) [^>]*?src(?:set)?="([^"]+)"', text)
    for target in re.findall(r"\[(?:[^\[\]]|\[[^\]]*\])*\]\(([^)\s]+)\)", text) + pictures:
        if not re.match(r"[a-z]+:", target):
            name, _, anchor = target.partition("#")
            file = (ROOT / page).parent / name if name else ROOT / page
            yield target, pathlib.Path(os.path.relpath(file, ROOT)), anchor


def check_links(page):
    faults = []
    for target, file, anchor in links_of(page):
        if not (ROOT / file).exists():
            faults.append(f"{target}: there is no such file")
        elif anchor and anchor not in [*anchors_of(file), *marks_of(file)]:
            faults.append(f"{target}: there is no such heading")
    trials.tell(f"{page}: links", "; ".join(faults))


def cells_in(row):
    return len(re.split(r"(?<!\\)\|", row.strip().strip("|") if row.rstrip().endswith("|") else row.strip()[1:]))


def check_tables(page):
    faults, rows = [], []
    for number, line in enumerate([*without_fences(text_of(page)).split("\n"), ""], 1):
        if line.startswith("|"):
            rows.append((number, line))
            continue
        if rows and (len(rows) < 2 or not re.fullmatch(r"\|(?: *:?-+:? *\|)+", rows[1][1].strip())):
            faults.append(f"line {rows[0][0]}: rows without a head")
        elif rows:
            wanted = cells_in(rows[0][1])
            faults += [f"line {at}: {cells_in(row)} cells in place of {wanted}"
                       for at, row in rows if cells_in(row) != wanted]
        rows = []
    trials.tell(f"{page}: tables", "; ".join(faults))


def check_phrases(page):
    """The table of crates quotes the first lines of the crates, and does not count."""
    text = text_of(page).replace(crate_table.table()[0], "")
    text = re.sub(r"[ \n]+", " ", re.sub(r"\n(?=\n|[-|#] ?|\d+\.)", "\n. ", without_code(text)))
    found = [(it[0].strip(" .:;,(|"), better) for phrase, better in PHRASES.items() for it in re.finditer(phrase, text)]
    counts = {it: [one for one, _ in found].count(it) for it, _ in found}
    told = ", ".join(f"{it!r} {count} times ({dict(found)[it]})"
                     for it, count in sorted(counts.items(), key=lambda one: -one[1])[:6])
    trials.tell(f"{page}: {len(found)} phrases that are hard to read, at most {HANDFUL}",
                told if len(found) > HANDFUL else None)
    if page != EXPLAINED:
        shown = re.sub(r"\]\([^)]*\)", "]", text)
        trials.tell(f"{page}: words of contracts", ", ".join(re.findall(COINED, shown)))


def section_of(page, anchor):
    """What a page has from this heading to the next one, with single spaces; nothing if there is no such heading."""
    parts = re.split(r"(?m)^(?=#{1,6} )", without_fences(text_of(page)))
    parts = parts if parts[0].startswith("#") else parts[1:]
    return " ".join(dict(zip(anchors_of(page), parts)).get(anchor, "").split())


def check_questions():
    """Whoever looks for one of the QUESTIONS finds it in the index, and the words of its answer behind the link."""
    page, faults = "docs/OPERATIONS.md", []
    index = re.split(r"(?m)^## ", text_of(page))[0]
    found = dict(re.findall(r"(?m)^- \[([^\]]+)\]\(([^)\s]+)\)$", index))
    for question in found.keys() ^ QUESTIONS.keys():
        faults.append(f"{question!r} is not in {'QUESTIONS' if question in found else 'the index'}")
    for question in found.keys() & QUESTIONS.keys():
        name, _, anchor = found[question].partition("#")
        section = section_of(f"docs/{name}" if name else page, anchor)
        faults += [f"{question!r}: {found[question]} does not have {words!r}"
                   for words in QUESTIONS[question] if words not in section]  # fmt: skip
    trials.tell(f"{page}: the answers to {len(QUESTIONS)} questions", "; ".join(sorted(faults)))


def asked():
    """The rows of tools/questions.txt: who asks what, the page and the heading with the answer, and its words."""
    for line in text_of("tools/questions.txt").splitlines():
        if line and not line.startswith("#"):
            who, question, answer, words = line.split(" | ")
            page, _, anchor = answer.partition("#")
            yield who, question, page, anchor, words.split("; ")


def heads(page):
    """The anchor of a page's first heading: a link to the page leads there."""
    return next(iter(anchors_of(page)), None)


def reached():
    """The headings that are two links from README.md at most: of README.md itself, and of what its links lead to and
    the links of those pages."""
    found = {("README.md", anchor) for anchor in anchors_of("README.md")}
    for page in {"README.md", *(str(file) for _, file, _ in links_of("README.md") if file.suffix == ".md")}:
        found.update((str(file), anchor or heads(file)) for _, file, anchor in links_of(page) if file.suffix == ".md")
    return found


def check_strangers():
    """Each question of tools/questions.txt finds its answer."""
    faults, known, asking = [], reached(), dict.fromkeys(ASKING, 0)
    for who, question, page, anchor, answer in asked():
        asking[who] = asking.get(who, 0) + 1
        section = section_of(page, anchor)
        if not section:
            faults.append(f"{who}: {question!r}: there is no {page}#{anchor}")
            continue
        if (page, anchor) not in known:
            faults.append(f"{who}: {question!r}: {page}#{anchor} is more than two links from README.md")
        begun = " ".join(section.split()[:FIRST])
        faults += [f"{who}: {question!r}: the first {FIRST} words of {page}#{anchor} do not have {words!r}"
                   for words in answer if words not in begun]  # fmt: skip
    faults += [f"{asking} questions in place of {ASKING}"] if asking != ASKING else []
    trials.tell(f"tools/questions.txt: the answers to {sum(asking.values())} questions", "; ".join(faults))


def check_words_of_pages():
    """The pages can be read: words are what is between spaces, as `wc -w` counts them."""
    count = sum(len(text_of(page).split()) for page in pages())
    trials.tell(f"{count:,} words on the pages, at most {WORDS:,}", None if count <= WORDS else "shorten some")


def check_readme():
    long = [f"line {at}: {len(line)} characters"
            for at, line in enumerate(text_of("README.md").split("\n"), 1) if len(line) > README_WIDTH]
    trials.tell(f"README.md: no line is longer than {README_WIDTH} characters", "; ".join(long))
    cells = [cell for line in text_of("README.md").split("\n") if line.startswith("|") for cell in line.split("|")]
    trials.tell(f"README.md: no cell of a table has more than {CELL} words",
                "; ".join(cell for cell in cells if len(cell.split()) > CELL))


def check_picture():
    """The picture of a filing's page has the table's caption and columns, and of what is above it no other terms, in
    the order of the page that `intake pages` writes. On a narrow screen each cell has its column's name before it."""
    source = text_of(FILING)
    columns = re.findall(r'<th scope=\\"col\\"[^>]*>([^<]+)</th>', source)
    caption, terms = re.search(r"<caption>([^<]+)</caption>", source)[1], re.findall(r"<dt>([^<]+)</dt>", source)
    for picture in PICTURES:
        shown = re.findall(r'<text(?: class="[^"]*")? x="(\d+)" y="\d+">([^<]+)</text>', text_of(picture))
        texts = [text for _, text in shown]
        said = " ".join(texts)
        above, _, below = said.partition(caption)
        at = [terms.index(text) if text in terms else -1
              for x, text in shown[texts.index("Filing 1") + 1:] if x == "24" and text in above]
        names = re.findall(rf"\b({'|'.join(columns)})\b:?(?= )", below)
        wanted = columns if names[:1] == columns[:1] else columns[1:]
        right = below and at == sorted(set(at)) and at[:1] == [0] and names[:len(wanted)] == wanted
        trials.tell(f"{picture}: what a filing's page shows", None if right else f"{at}, {names} in place of {wanted}")


def check_contracts():
    """Each contract that the guarantees of README.md name is that of something in the code."""
    guarantees = re.search(r"(?ms)^## What is guaranteed\n(.*?)^## ", text_of("README.md"))[1]
    names = re.findall(r"`([\w:]+)`", " ".join(re.findall(r"(?m)^\|.*\|([^|\n]*)\|$", guarantees)))
    gone = []
    for name in names:
        crate, item = name.split("::")[0], name.split("::")[-1]
        files = (ROOT / "crates").glob(f"{crate if (ROOT / 'crates' / crate).is_dir() else '*'}/src/**/*.rt")
        declared = re.compile(rf"\b(?:fn|mod|struct) {item}\b")
        if not any(declared.search(file.read_text(encoding="utf-8")) for file in files):
            gone.append(name)
    trials.tell(f"README.md: {len(names)} contracts of guarantees", ", ".join(gone) if names else "none is named")


def check_glossary():
    """Each file that docs/GLOSSARY.md names is there, and has the name that is beside it."""
    words = re.findall(r"`(\w+)/(\w+)`", text_of("docs/GLOSSARY.md"))
    trials.tell(f"docs/GLOSSARY.md: {len(words)} places of definitions",
                ", ".join(f"{crate}/{name}" for crate, name in words
                          if not (ROOT / "crates" / crate / "specs" / f"{name}.antt").is_file()))


def check_errors():
    """docs/PROTOCOL.md explains each word of an error, of the intake's table and of nginx, and each code of a finding,
    under an address of its own."""
    page = "docs/PROTOCOL.md"
    words = set(re.findall(r"(?m)^\| [^|]+ \| [45]\d\d(?:, closes)? \| `([\w-]+)`", text_of(page)))
    words.update(re.findall(r'"reason":"([\w-]+)"', text_of("deploy/nginx-intake.conf")))
    codes = set(re.findall(r"(?m)^\| \d+ \| ([\w-]+) \|", text_of(page)))
    gone = sorted(words - set(anchors_of(page))) + sorted(codes ^ set(marks_of(page)))
    trials.tell(f"{page}: an address for each of {len(words)} errors and {len(codes)} findings",
                ", ".join(gone) if words and codes else "none is found")


def check_widths():
    """Lines of code, scripts and configuration. Those of crates may be longer if they have a string, as examples do."""
    wide = []
    for name in subprocess.check_output(["git", "ls-files", "-z"], cwd=ROOT, text=True).split("\0"):
        if name and not ANY_WIDTH.search(name) and (ROOT / name).is_file():
            lines = (ROOT / name).read_text(encoding="utf-8", errors="replace").split("\n")
            wide += [f"{name}:{at}" for at, line in enumerate(lines, 1)
                     if len(line) > WIDTH and not (name.startswith("crates/") and '"' in line)]
    trials.tell(f"no line of code or of a script has more than {WIDTH} columns", ", ".join(wide))


def check_lengths():
    """A message that a page shows with its head has the length that it says."""
    faults, count = [], 0
    for block in re.findall(r"(?m)(?:^(?: {4}\S.*)?\n)+", text_of("docs/PROTOCOL.md")):
        for length, content in re.findall(r"(?m)^ {4}Content-Length: (\d+)\n\n {4}(\{.*\})$", block):
            count += 1
            faults += [f"{length} in place of {len(content)}: {content}"] if int(length) != len(content) else []
    trials.tell(f"docs/PROTOCOL.md: the lengths of {count} messages",
                "; ".join(faults) if count else "no message is shown")


def check_wrong_bodies():
    """Each wrong body that docs/PROOF.md names is there."""
    named = [(crate, name) for crate, name in re.findall(r"`(\w+)/(\w+)`", text_of("docs/PROOF.md"))
             if name != "specs" and (ROOT / "crates" / crate).is_dir()]  # fmt: skip
    gone = [f"{crate}/{name}" for crate, name in named
            if not list((ROOT / "crates" / crate).glob(f"*/{name}.edit"))]  # fmt: skip
    trials.tell(f"docs/PROOF.md: {len(named)} wrong bodies that it names", "; ".join(gone))


# ---- commands


class Scratch:
    """A folder with what the commands of a page find at the top of the repository: the example report, the runner, and
    the programs."""

    def __init__(self, folder, programs):
        self.folder, self.server = pathlib.Path(folder), None
        for name in ("crates/intake/stdin", "conformance"):
            target = self.folder / "top" / name
            target.parent.mkdir(parents=True, exist_ok=True)
            (shutil.copytree if (ROOT / name).is_dir() else shutil.copyfile)(ROOT / name, target)
        for name in ("intake", "outbox") if programs else ():
            out = self.folder / "top/crates" / name / "out"
            out.mkdir(parents=True)
            (out / name).symlink_to(pathlib.Path(programs, name).resolve())
        self.top = self.folder / "top"
        (self.folder / "tmp").mkdir()
        path = os.pathsep.join([*([str(programs)] if programs else []), os.environ["PATH"]])
        self.env = {"PATH": path, "HOME": str(self.folder), "TMPDIR": str(self.folder / "tmp"), "LANG": "C.UTF-8"}

    def play(self, block):
        """The status of a block, and what each of its commands prints."""
        commands = trials.commands_in(block.split("\n"))
        script = self.folder / "script"
        script.write_text("".join(f"{command}\nprintf '\\n@@\\n'\n" for command, _ in commands), encoding="utf-8")
        with open(self.folder / "printed", "w+b") as printed:
            process = subprocess.Popen(["bash", str(script)], cwd=self.top, env=self.env, stdin=subprocess.DEVNULL,
                                       stdout=printed, stderr=subprocess.DEVNULL, start_new_session=True)  # fmt: skip
            try:
                status = process.wait(PATIENCE)
            except subprocess.TimeoutExpired:
                status = f"none after {PATIENCE} s"
            finally:
                # What the block left running is its own, and ends with it.
                try:
                    os.killpg(process.pid, signal.SIGKILL)
                except ProcessLookupError:
                    pass
                process.wait()
            printed.seek(0)
            return status, printed.read().decode(errors="replace").split("\n@@\n")[:-1]

    def run(self, *words):
        subprocess.run(words, cwd=self.top, env=self.env, check=True,
                       stdout=subprocess.DEVNULL, stderr=subprocess.DEVNULL)

    def serve(self, *words):
        """Starts an intake, and waits until it serves."""
        self.server = subprocess.Popen(["intake", "serve", *words], cwd=self.top, env=self.env,
                                       stderr=subprocess.PIPE, text=True)
        if "serving" not in self.server.stderr.readline():
            raise subprocess.CalledProcessError(self.server.wait(), ["intake", "serve", *words])

    def stop(self):
        if self.server:
            self.server.terminate()
            self.server.communicate()


def without_moments(text):
    return re.sub(r"opened in \d+ ms", "opened in 3 ms", text).rstrip("\n")


def as_written(block, status, printed):
    """Each command prints what the page says."""
    wanted = [(command, "\n".join(lines)) for command, lines in trials.commands_in(block.split("\n"))]
    if status or len(printed) != len(wanted):
        return f"status {status} after {len(printed)} of {len(wanted)} commands"
    return "; ".join(f"{command}: {shown!r} in place of {lines!r}" for (command, lines), shown in zip(wanted, printed)
                     if without_moments(shown) != without_moments(lines))  # fmt: skip


def lists_cases(_, status, printed):
    """The runner lists all cases."""
    count = len(printed[0].split("\n")) if printed else 0
    return None if not status and count > 700 else f"status {status}, {count} lines"


def prints_nothing(_, status, printed):
    return None if not status and not any(printed) else f"status {status}, {printed}"


def shows_a_digest(_, status, printed):
    """The digest of one request, by docs/PROTOCOL.md."""
    row = f"1\nACME\n2024-annual-1\n-\n1\n{MOMENT}\n{hashlib.sha256(trials.REPORT).hexdigest()}\n".encode()
    wanted = f"1 {hashlib.sha256(hashlib.sha256(b'').digest() + row).hexdigest()}"
    return None if not status and [it.strip() for it in printed] == [wanted] else f"status {status}, {printed}"


def make_copy(scratch):
    """A register with one filing, which came at MOMENT and which nothing has open."""
    scratch.serve("--db", "copy.db", "--port", "8081", "--connections", "1", "--new")
    trials.exchange(8081, trials.request("2024-annual-1", trials.REPORT))
    scratch.server.wait(60)
    date_register(scratch.top / "copy.db", [MOMENT])


def make_refused_entry(scratch):
    """An outbox whose entry 3 is refused, and the intake that refused it, where a filer's nginx listens."""
    (scratch.top / "right.json").write_bytes(trials.REPORT)
    (scratch.top / "wrong.json").write_bytes(trials.REPORT.replace(b"2024-12-31", b"2024-12-32"))
    scratch.serve("--db", "r.db", "--port", "8081", "--connections", "9", "--new")
    scratch.run("outbox", "init", "--db", "outbox.db", "--filer", "ACME")
    for key, name in [("a", "right"), ("b", "right"), ("2024-annual-1", "wrong")]:
        scratch.run("outbox", "put", "--db", "outbox.db", "--body", f"{name}.json", "--key", key)
    scratch.run("sh", "-c", "outbox send --db outbox.db --port 8081 --all; true")


@dataclass
class Example:
    """A block that runs here: where it is, how it begins, what it prints, and what has to be there."""

    page: str
    first: str
    fault: Callable = as_written
    port: int = 0
    scene: Callable = None

    def block(self):
        return next((it for it in blocks_of(text_of(self.page)) if it.startswith(self.first)), None)


EXAMPLES = [
    Example("conformance/README.md", "python3 conformance/run.py list", lists_cases),
    Example("README.md", "export PATH=", port=8080),
    Example("docs/PROTOCOL.md", "example=$(mktemp -d)", port=8080),
    Example("docs/OPERATIONS.md", "intake export --db copy.db", prints_nothing, port=8081, scene=make_copy),
    Example("docs/OPERATIONS.md", "intake show --db copy.db", prints_nothing, port=8081, scene=make_copy),
    Example("docs/OPERATIONS.md", "intake digest --db copy.db", shows_a_digest, port=8081, scene=make_copy),
    Example("docs/OPERATIONS.md", "mkdir site", prints_nothing, port=8081, scene=make_copy),
    Example("docs/OPERATIONS.md", "outbox ask --db outbox.db", port=8081, scene=make_refused_entry),
]


def is_free(port):
    with socket.socket() as peer:
        return peer.connect_ex(("127.0.0.1", port)) != 0


def play(example, programs=None):
    """Runs an example in a folder of its own."""
    what, block = f"{example.page}: {example.first} ..", example.block()
    if block is None:
        return trials.tell(what, "there is no such block")
    if example.port and not is_free(example.port):
        return trials.tell(what, f"somebody listens on port {example.port}")
    with tempfile.TemporaryDirectory() as folder:
        scratch = Scratch(folder, programs)
        try:
            if example.scene:
                example.scene(scratch)
            trials.tell(what, example.fault(block, *scratch.play(block)))
        except subprocess.CalledProcessError as fault:
            trials.tell(what, f"{' '.join(fault.cmd)}: status {fault.returncode}")
        finally:
            scratch.stop()


def play_walk(programs):
    """Runs the walk of README.md with these programs."""
    play(next(it for it in EXAMPLES if it.page == "README.md"), programs)


# The programs of docs/PROTOCOL.md that repeat a request: how each begins, and what runs it.
REPEATS = [("url=http", ["bash"]), ("import http.client", [sys.executable])]
AWAY = b"HTTP/1.1 503 Service Unavailable\r\nContent-Length: 24\r\n\r\n" + b'{"reason":"unavailable"}'
CUT = b'HTTP/1.1 201 Created\r\nContent-Length: 34\r\n\r\n{"number":7,"status":"registered"'


def try_repeats(programs=None):
    for first, runner in REPEATS:
        try_repeat(first, runner, programs)


def try_repeat(first, runner, programs):
    """Runs one: its first requests meet a reset, a 503 and a reply that is cut, the next one an intake. A second run
    gets the same answer, and a run with another report is not filed."""
    block = next((it for it in blocks_of(text_of("docs/PROTOCOL.md")) if it.startswith(first)), None)
    what = f"docs/PROTOCOL.md: {first} .., on {'intake' if programs else 'a stand-in'}"
    if block is None:
        return trials.tell(what, "there is no such block")
    if (lines := block.count("\n") + 1) > LINES:
        return trials.tell(what, f"it has {lines} lines, more than {LINES}")
    own = [programs / "intake"] if programs else [sys.executable, ROOT / "tools/intake_stand_in.py"]
    with tempfile.TemporaryDirectory() as folder:
        peer = trials.Peer(trials.breaks, trials.answers(AWAY), trials.answers(CUT))
        block = block.replace("8080", str(peer.port))
        report = pathlib.Path(folder, "report.json")
        report.write_bytes(trials.REPORT)
        program = subprocess.Popen([*runner, "-c", block], cwd=folder, stdout=subprocess.PIPE, text=True)
        while len(peer.taken) < 3 and program.poll() is None:
            time.sleep(0.05)
        intake = subprocess.Popen([*own, "serve", "--db", "register", "--port", str(peer.port), "--connections", "9",
                                   "--new"], cwd=folder, stderr=subprocess.DEVNULL)  # fmt: skip
        try:
            said = [program.communicate(timeout=60)[0]]
            for body in (trials.REPORT, trials.REPORT + b" "):
                report.write_bytes(body)
                said.append(subprocess.run([*runner, "-c", block], cwd=folder, capture_output=True, text=True,
                                           timeout=60, check=False).stdout)
        except subprocess.TimeoutExpired:
            said = ["it goes on for a minute"]
        finally:
            program.kill()
            intake.kill()
            intake.wait()
    sent = {request for request in peer.taken}
    right = (
        len(said) == 3 and len(sent) == 1 and "registered" in said[0] and said[0] == said[1]
        and re.search(r"number.{2}1\b", said[0].replace(" ", "")) and "key-reused" in said[2]
    )
    trials.tell(what, None if right else f"{said} after {len(sent)} different requests")


def check_commands(page):
    """Bash can read every block, and each that needs neither root nor the kit is an example that runs."""
    for block in blocks_of(text_of(page)):
        if block.startswith("{"):
            continue
        read = subprocess.run(["bash", "-n"], input=block, capture_output=True, text=True)
        first = block.split("\n")[0]
        if read.returncode:
            trials.tell(f"{page}: {first}", read.stderr.strip())
        is_tried = any(it.page == page and block.startswith(it.first) for it in EXAMPLES)
        if not is_tried and not NEEDS_ROOT.search(block) and not NEEDS_KIT.search(block):
            trials.tell(f"{page}: {first}", "nothing tries this block")
    trials.tell(f"{page}: blocks of commands are read")


def check_options(programs):
    """Each option that a page gives to a program is in its help."""
    known = {}
    for name in ("intake", "outbox"):
        program = str(pathlib.Path(programs, name))
        for word, _ in commands_of(sections(help_of(program))[0]):
            known[name, word] = set(re.findall(r"(?<![\w-])--[a-z][\w-]*", help_of(program, word)))
    for page in pages():
        faults = []
        code = (
            re.findall(r"`([^`\n]+)`", text_of(page))
            + [line for block in blocks_of(text_of(page)) for line in block.split("\n")]
        )
        for name, word, rest in (
            it for text in code for it in re.findall(r"(?<![\w./-])(intake|outbox) ([a-z]+)\b([^|;&<>()]*)", text)
        ):
            options = set(re.findall(r"(?<![\w-])--[a-z][\w-]*", rest))
            if (name, word) not in known and options:
                faults.append(f"{name} {word}: there is no such command")
            faults += [f"{name} {word} {it}: there is no such option"
                       for it in sorted(options - known.get((name, word), options))]
        trials.tell(f"{page}: options of programs", "; ".join(faults))


def examples_of_findings():
    """Each code of which docs/PROTOCOL.md shows an example, and the body of that example."""
    section = re.sub(r' <a id="[^"]*"></a>', "", section_of("docs/PROTOCOL.md", "what-to-do-about-a-finding"))
    report, *items = re.split(r" - (?=`[a-z-]+`: )", section)
    kind, dimensions = re.search(r"short for `([^`]+)` and `\.\.` for `([^`]+)`", report).groups()
    report, is_fact = report.rpartition("`..` for")[2].partition(": ")[2], False
    for code, said in (re.match(r"`([a-z-]+)`: (.*)", item).groups() for item in items):
        is_fact |= code == "fact"
        shown = re.search(r"`([^`]+)`( of `facts`\.)?(?: A filer's program .*)?$", said)
        text = shown.group(1).replace("{..", "{" + dimensions) if shown else ""
        if code == "too-many":
            text = report.replace('"f":FACT', ",".join(f'"{at}":{text}' for at in range(1_001)))
        elif is_fact and shown:
            text = report.replace("FACT", text)
        if shown or said.endswith("The empty body."):
            yield code, text.replace("{TYPE", "{" + kind)


def check_findings(programs):
    """Each example of a finding has that finding and no other."""
    with tempfile.TemporaryDirectory() as folder:
        report, codes, faults = pathlib.Path(folder, "report"), [], []
        for code, text in examples_of_findings():
            report.write_text(text, encoding="utf-8")
            done = trials.run(programs / "outbox", "lint", "--filer", "ACME", report)
            found = re.findall(r"(?m)^\S+: ([a-z-]+): ", done.stdout.decode())
            codes.append(code)
            faults += [] if found == [code] else [f"{code}: {found} of {text[:200]}"]
    trials.tell(f"docs/PROTOCOL.md: {len(codes)} examples of findings",
                "; ".join(faults) if len(set(codes)) == 25 else f"examples of {codes}")  # fmt: skip


# ---- planted faults


@dataclass
class Fault:
    """A text of a page that becomes another one, and the check that has to see it."""

    check: Callable
    page: str
    old: str
    new: str


FAULTS = [
    Fault(lambda: check_links("README.md"), "README.md", "(docs/TRUST.md)", "(docs/TRUTH.md)"),
    Fault(lambda: check_links("README.md"), "README.md", "#what-is-not-guaranteed)", "#what-is-not-known)"),
    Fault(lambda: check_tables("README.md"), "README.md", "| you want to | read |", "| you want to |"),
    Fault(lambda: check_phrases("docs/PROTOCOL.md"), "docs/PROTOCOL.md", "## Sources", "## What is told"),
    Fault(lambda: check_phrases("docs/PROTOCOL.md"), "docs/PROTOCOL.md", "## Sources", "a first part " * (HANDFUL + 1)),
    Fault(check_words_of_pages, "conformance/README.md", "# Conformance kit", "# Conformance kit" + " word" * WORDS),
    Fault(check_readme, "README.md", "| the same |", "| the same" + " word" * CELL + " |"),
    Fault(check_readme, "README.md", "# Berruzpil", "# Berruzpil" + "-" * README_WIDTH),
    Fault(check_picture, "docs/filing.svg", ">Unit</text>", ">Entity</text>"),
    Fault(check_picture, "docs/filing.svg", ">Key</text>", ">Keys</text>"),
    Fault(check_picture, "docs/filing-narrow.svg", ">Facts. A date", ">Facts. Each date"),
    Fault(check_picture, FILING, '<th scope=\\"col\\">Unit</th>', '<th scope=\\"col\\">Entity</th>'),
    Fault(check_contracts, "README.md", "`xbrl_report::judge`", "`xbrl_report::judges`"),
    Fault(check_glossary, "docs/GLOSSARY.md", "`filing_model/Answer`", "`filing_model/Answers`"),
    Fault(check_errors, "docs/PROTOCOL.md", "### `key-bad`", "### `bad-key`"),
    Fault(check_errors, "docs/PROTOCOL.md", '<a id="period-order"></a>', ""),
    Fault(check_errors, "deploy/nginx-intake.conf", '"reason":"wrong-host"', '"reason":"other-host"'),
    Fault(check_lengths, "docs/PROTOCOL.md", "Content-Length: 393", "Content-Length: 394"),
    Fault(check_wrong_bodies, "docs/PROOF.md", "`xbrl_report/finding_kept_first`", "`xbrl_report/finding_kept_last`"),
    Fault(check_questions, "docs/OPERATIONS.md", "`database is locked`", "`database is open`"),
    Fault(check_strangers, "README.md", "No licence is given yet.", "It has a licence."),
    Fault(check_strangers, "README.md", "[docs/DECISIONS.md](docs/DECISIONS.md)", "docs/DECISIONS.md"),
    Fault(check_strangers, "docs/TRUST.md", "The claim: ", "word " * FIRST),
    Fault(check_strangers, "tools/questions.txt", "sceptic | What is not? ", "filer | What is not? "),
    Fault(lambda: check_commands("README.md"), "README.md", "outbox init --db", "outbox 'init --db"),
    Fault(lambda: check_commands("README.md"), "README.md", "    export PATH=", "    true; export PATH="),
    Fault(try_repeats, "docs/PROTOCOL.md", "'\"2024-annual-1\"'}", "f'\"{time.time()}\"'}"),
    Fault(try_repeats, "docs/PROTOCOL.md", "key='\"2024-annual-1\"'", "key=\\\"$RANDOM\\\""),
    Fault(try_repeats, "docs/PROTOCOL.md", "400*'\"refused\"'* | 422*'\"refused\"'*) ", "4*) exit ;;\n            *) "),
    Fault(try_repeats, "docs/PROTOCOL.md", "pause=1; : > reply.json", "pause=1\n    : > reply.json"),
]


def try_faults():
    """Each of the FAULTS is seen by its check, which passes without it."""
    for fault in FAULTS:
        what = f"{fault.page}: {fault.old[:50]!r} => {fault.new[:50]!r}"
        if fault.old not in text_of(fault.page):
            trials.tell(what, "this text is not there")
            continue
        seen = []
        for with_fault in (False, True):
            before, said = list(trials.failures), io.StringIO()
            planted[:] = [fault] if with_fault else []
            with contextlib.redirect_stdout(said):
                fault.check()
            seen.append(trials.failures[len(before):])
            trials.failures[:], planted[:] = before, []
        trials.tell(f"{what}: seen by: {', '.join(seen[1])}",
                    f"it fails without: {seen[0]}" if seen[0] else None if seen[1] else "no check fails")


@contextlib.contextmanager
def folder_of(given):
    """The folder with the programs, made of those that `rt run` built if none is given; nothing if they are missing."""
    built = [ROOT / "crates" / name / "out" / name for name in ("intake", "outbox")]
    with tempfile.TemporaryDirectory() as folder:
        if given is None:
            given = folder
            for program in built:
                pathlib.Path(folder, program.name).symlink_to(program)
        programs = pathlib.Path(given).resolve()
        yield programs if all((programs / it.name).is_file() for it in built) else None


def check(programs):
    for page in pages():
        check_links(page)
        check_tables(page)
        check_phrases(page)
    check_words_of_pages()
    check_readme()
    trials.tell("docs/ARCHITECTURE.md: the table of crates", crate_table.fault())
    check_widths()
    check_lengths()
    check_wrong_bodies()
    check_picture()
    check_contracts()
    check_glossary()
    check_errors()
    check_questions()
    check_strangers()
    try_repeats(programs)
    for page in ("README.md", "docs/FIRST_DAYS.md", "docs/OPERATIONS.md"):
        check_commands(page)
    for example in EXAMPLES:
        if programs or not example.port:
            play(example, programs)
    if programs:
        check_options(programs)
        check_findings(programs)


def main(words):
    parser = argparse.ArgumentParser(prog="check_pages.py", description="Checks the pages of the repository.")
    kind = parser.add_mutually_exclusive_group()
    kind.add_argument("--programs", metavar="FOLDER", nargs="?", const="", help="with intake and outbox in this folder")
    kind.add_argument("--planted", action="store_true", help="with planted faults, each of which has to be seen")
    given = parser.parse_args(words)
    if given.planted:
        try_faults()
    else:
        with folder_of(given.programs or None) as programs:
            if given.programs and not programs:
                parser.error(f"{given.programs}: intake and outbox are not there")
            is_missing = given.programs is not None and not programs
            check(programs if given.programs is not None else None)
            if is_missing:
                print("not tried: the examples that need programs, since `rt run` has not built both")
    print(f"{len(trials.failures)} failed")
    return 1 if trials.failures else 77 if not given.planted and is_missing else 0


if __name__ == "__main__":
    sys.exit(main(sys.argv[1:]))
