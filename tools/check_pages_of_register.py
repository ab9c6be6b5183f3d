#!/usr/bin/env python3
"""Tries `intake pages` of the built program: each text that was filed is read back from the pages, and no other tag is
in them. Pages have at most 1,000 rows, and each names the next one. What a hostile filer sends stays within bounds, on
the disk and in memory. With a Chromium and its driver it opens them: what is in sight on a wide screen, on a narrow one
and on paper, light and dark, what the keyboard reaches, how long a search and a sort over 10,000 filings take, and
whether anything is asked for elsewhere.

    tools/check_pages_of_register.py [--only WORD] [--pictures FOLDER]
    tools/check_pages_of_register.py --planted [--only WORD]
                                        # damages the pages in each way of FAULTS: whether that is seen

It takes the program that `rt run` builds in its folder, as crates/intake/out/intake. With a folder it keeps pictures of
pages there, outside of the repository. BERRUZPIL_PATIENCE says how much longer than on a quiet machine everything may
take. Status 1 if a trial fails, or if a fault is not seen.
"""
import argparse
import base64
import contextlib
import functools
import hashlib
import html.parser
import http.server
import os
import pathlib
import re
import shutil
import subprocess
import sys
import tempfile
import threading
import time

import browsers
from browsers import CONTRAST, FACTOR, plain_options, resize, start_driver, take_picture, try_keyboard
from odd_register import MOMENTS, REGION, SENT, REFUSED, date_register, fact, make_odd_register, many, moment_text
from odd_register import records, report
from trials import INTAKE, ROOT, failures, hold, run, tell, try_all

TAGS = set(
    "html head meta link title style body a nav main h1 p label input span div table caption thead tbody tr th td "
    "dl dt dd em br code svg text rect script small wbr footer".split()
)
# How many findings of a report are shown at most, what a page has besides its rows, what a row takes at most, and what
# `pages` may hold in memory beyond what `check` of the same register holds; in bytes.
FINDINGS, FRAME, ROW, MEMORY = 20, 10_000, 10_000, 100_000_000
# How many rows a page has at most, and how many refused reports.
ROWS, REPORTS = 1_000, 50
# What follows the last of the SENT in the register of the looks: filers whose codes differ in capital letters alone,
# and a report that was sent to replace a filing that there isn't.
MORE = [
    ("acme", "s-1", None, {"f1": fact("acme", "1")}),
    ("Acme", "s-2", None, {"f1": fact("Acme", "bell \u0007 and return \r", **{REGION: None})}),
    ("Acme", "s-3", 99, {"f1": fact("Acme", "1")}),
    ("BETA", "b-4", None, {"f1": fact("BETA", "1", period="2024-01-01T00:00:00/2024-12-31T12:00:00"),
                           "f2": fact("BETA", "1", entity="eg:BETA")}),
]
VOID = {"meta", "link", "input", "br", "wbr"}
# The dimensions of a fact that have a column of their own, or stand above the table.
COLUMNS = {"concept", "period", "unit", "entity"}


class Page(html.parser.HTMLParser):
    """A page as Python reads it: its tags, its links, the texts and classes of the cells of each row, its policy, and
    the texts of its style and script."""

    def __init__(self, text):
        super().__init__(convert_charrefs=True)
        self.tags, self.links, self.rows, self.classes, self.open = set(), [], [], [], []
        self.next, self.before, self.policy, self.texts, self.linked = None, None, "", {}, []
        self.terms, self.ids, self.footer = [], set(), ""
        self.faults = []
        self.feed(text)
        self.close()
        if self.open:
            self.faults.append(f"not closed: {self.open}")

    def handle_starttag(self, tag, attrs):
        its = dict(attrs)
        self.tags.add(tag)
        self.ids |= {value for name, value in attrs if name == "id"}
        self.links += [value for name, value in attrs if name in ("href", "src")]
        self.faults += [f"{tag} has {name}" for name, _ in attrs if name.startswith("on") or name == "style"]
        if tag == "tr":
            self.rows.append([])
            self.classes.append([])
            self.linked.append([])
        if tag in ("td", "th"):
            self.rows[-1].append("")
            self.classes[-1].append(its.get("class"))
            self.linked[-1].append(None)
        if tag == "dt":
            self.terms.append(["", ""])
        if tag == "a" and self.inside("td", "th"):
            self.linked[-1][-1] = its["href"]
        if tag == "a" and its.get("rel") == "next":
            self.next = its["href"]
        if tag == "a" and its.get("rel") == "prev":
            self.before = its["href"]
        if tag == "meta" and its.get("http-equiv") == "Content-Security-Policy":
            self.policy = its["content"]
        if tag not in VOID:
            self.open.append(tag)

    def inside(self, *tags):
        return any(tag in self.open for tag in tags)

    def handle_startendtag(self, tag, attrs):
        self.tags.add(tag)

    def handle_endtag(self, tag):
        if not self.open or self.open.pop() != tag:
            self.faults.append(f"</{tag}>")

    def handle_data(self, data):
        if self.inside("td", "th"):
            self.rows[-1][-1] += data
        if self.inside("footer"):
            self.footer += data
        if self.inside("dt", "dd"):
            self.terms[-1][self.inside("dd")] += data
        for tag in ("style", "script"):
            if self.open and self.open[-1] == tag:
                self.texts[tag] = self.texts.get(tag, "") + data


def words_of_codes():
    """What each code means and what to do, as docs/PROTOCOL.md has them."""
    part = (ROOT / "docs/PROTOCOL.md").read_text().partition("## What to do about a finding")[2].partition("\n## ")[0]
    found = re.findall(r"^- `([a-z-]+)`: (.*?) \*(.*?)\*[ \n]", part, re.M | re.S)
    return {code: [" ".join(text.replace("`", "").split()) for text in texts] for code, *texts in found}


def concept_of(its):
    """What stands in the cell of the concept of a fact: with the dimensions that have no column."""
    dimensions = its["dimensions"]
    others = [f"{name}: {'nil' if dimensions[name] is None else seen(dimensions[name])}"
              for name in sorted(dimensions, key=str.encode) if name not in COLUMNS]
    return dimensions["concept"] + "".join(others)


def code_in_names(code):
    """A filer's code in the names of files."""
    return "".join(f"~{it}" if "a" <= it <= "z" else it for it in code)


def seen(text):
    """A text with the symbols of Unicode's block Control Pictures for its control characters."""
    symbols = {at: 0x2400 + at for at in range(32) if at not in (9, 10)} | {127: 0x2421}
    return text.translate(symbols)


def hash_of(text):
    return f"'sha256-{base64.b64encode(hashlib.sha256(text.encode()).digest()).decode()}'"


given = argparse.Namespace(only="", pictures=None, planted=False)
# What damages a folder of pages, by the trial that has to see it: the file, what it has, and what it gets.
planted = []


def pages_of(database, folder):
    done = run(INTAKE, "pages", "--db", database, "--into", folder)
    hold("pages ends well", (done.returncode, done.stderr), (0, b""))
    damage(folder)


def damage(folder):
    """Damages the pages in a folder as the fault that is planted says. A style or script that it changes gets its own
    hash in the policy of the page, so that a browser takes it."""
    for name, old, new in planted:
        if (folder / name).exists():
            text = (folder / name).read_bytes().decode()
            assert old in text, (name, old)
            damaged = text.replace(old, new, 1)
            before, after = Page(text).texts, Page(damaged).texts
            for tag in before.keys() & after.keys():
                damaged = damaged.replace(hash_of(before[tag]), hash_of(after[tag]))
            (folder / name).write_bytes(damaged.encode())


def page(folder, name):
    # As a browser does, Python makes LF of CR LF: not so here, since the parser takes the text as it is.
    return Page((folder / name).read_bytes().decode())


def shown(moment):
    return moment_text(moment) or "unknown"


def check_texts(folder):
    make_odd_register(folder / "register.db")
    date_register(folder / "register.db", MOMENTS)
    site = folder / "site"
    site.mkdir()
    pages_of(folder / "register.db", site)
    valid, refused = SENT[: len(SENT) - REFUSED], SENT[len(SENT) - REFUSED :]
    wanted = {f"filing-{at}.html" for at in range(1, len(valid) + 1)}
    wanted |= {f"filer-{code_in_names(sent[0])}.html" for sent in SENT}
    wanted |= {f"refused-{code_in_names(sent[0])}.html" for sent in refused}
    wanted |= {f"filing-{at}.json" for at in range(1, len(valid) + 1)}
    wanted |= {f"request-{at}.json" for at in range(len(valid) + 1, len(SENT) + 1)}
    hold("the files", {it.name for it in site.iterdir()}, wanted | {"index.html", "findings.html"})
    read = {it.name: page(site, it.name) for it in site.glob("*.html")}
    for number, (_, _, _, facts) in enumerate(valid, 1):
        hold(f"filing {number}: its report", (site / f"filing-{number}.json").read_bytes(), report(facts))
        hold(f"filing {number}: links its report", f"filing-{number}.json" in read[f"filing-{number}.html"].links, True)
        rows = read[f"filing-{number}.html"].rows[1:]
        names = sorted(facts, key=lambda it: it.encode())
        hold(f"filing {number}: facts", [row[0] for row in rows], [seen(name) for name in names])
        texts = [row["value"] for row in records(SENT) if row["number"] == number]
        wanted = ["nil" if text is None else seen(text) for text in texts]
        hold(f"filing {number}: values", [row[4] for row in rows], wanted)
        hold(f"filing {number}: concepts, with what tells rows apart", [row[1] for row in rows],
             [concept_of(facts[name]) for name in names])
        hold(f"filing {number}: dates without midnight", {row[2] for row in rows}, {"2024-12-31"})
        hold(f"filing {number}: its entity", dict(read[f"filing-{number}.html"].terms)["Entity"],
             f"lei:{valid[number - 1][0]}")
        hold(f"filing {number}: when it was received", dict(read[f"filing-{number}.html"].terms)["Received"],
             shown(MOMENTS[number - 1]))
    hold("the keys of ACME", [row[1] for row in read["filer-ACME.html"].rows[1:]], ["k<1>'&", "k-2"])
    hold("when they were received", [row[2] for row in read["filer-ACME.html"].rows[1:]],
         [shown(MOMENTS[0]), shown(MOMENTS[2])])
    hold("what replaces what", [row[4:] for row in read["filer-ACME.html"].rows[1:]], [["", "3"], ["1", ""]])
    hold("the filers", [row for row in read["index.html"].rows[1:]],
         [["007", "1", "1", "0"], ["ACME", "2", "1", "0"], ["BETA", "1", "1", "2"], ["a.b_c-", "1", "1", "0"]])
    rows = read["refused-BETA.html"].rows[1:]
    sizes = [str(len(report(sent[3]))) for sent in refused]
    hold("the refused: their keys, when they came, what they were to replace, their sizes, and the next filing",
         [row[:4] + row[5:] for row in rows], [["b-2", shown(MOMENTS[5]), "", sizes[0], "none"],
                                               ["b-3", shown(MOMENTS[6]), "1", sizes[1], "none"]])
    for at, (_, _, _, facts) in enumerate(refused, len(valid) + 1):
        hold(f"refused report {at}: its bytes", (site / f"request-{at}.json").read_bytes(), report(facts))
        hold(f"refused report {at}: is linked", read["refused-BETA.html"].linked[at - len(valid)][3],
             f"request-{at}.json")
    column = report(SENT[-1][3]).decode().index('"1,5"') + 1
    hold("what a finding means, and then where it is",
         f'"1,5" is not a numbernumber 1:{column} /facts/f1/value' in rows[1][4], True)
    rows = read["findings.html"].rows[1:]
    hold("the codes: findings, reports, filers, and whose", {row[0]: row[3:] for row in rows},
         {code: ["1", "1", "1", "BETA "] for code in ("value", "name", "not-the-filer", "number", "not-replaceable")})
    words = words_of_codes()
    hold("the protocol's words", len(words), 26)
    hold("the words of codes", {row[0]: row[1:3] for row in rows}, {row[0]: words[row[0]] for row in rows})
    line = run(INTAKE, "digest", "--db", folder / "register.db").stdout.decode().strip()
    hold("each page says of which register it is", {it.footer for it in read.values()},
         {f"Register of {len(SENT)} requests, the last received: {shown(MOMENTS[-1])}. Digest: {line}"})


def check_looks(folder):
    """Links, names, hashes, classes, symbols and columns."""
    make_odd_register(folder / "register.db", MORE)
    site = folder / "site"
    site.mkdir()
    pages_of(folder / "register.db", site)
    read = {it.name: page(site, it.name) for it in site.glob("*.html")}
    hold("names differ without capital letters", len({name.lower() for name in read}), len(read))
    hold("a page of each filer", {"filer-ACME.html", "filer-~a~c~m~e.html", "filer-A~c~m~e.html"} - set(read), set())
    for name, its in sorted(read.items()):
        hold(f"{name}: tags", its.tags - TAGS, set())
        hold(f"{name}: faults", its.faults, [])
        hold(f"{name}: links",
             [link for link in its.links if link != "data:," and not leads(site, read, name, link)], [])
        words = re.split(r"[; ]+", its.policy)
        hold(f"{name}: the hash of its style", words[words.index("style-src") + 1], hash_of(its.texts["style"]))
        if "script" in its.texts or not name.startswith("filing-"):
            hold(f"{name}: the hash of its script", words[words.index("script-src") + 1], hash_of(its.texts["script"]))
        hold(f"{name}: nothing unsafe", "unsafe" in its.policy, False)
    # The registered ones of what was sent, in the order of their numbers.
    valid = [*SENT[: len(SENT) - REFUSED], *MORE[:2], MORE[3]]
    for number, (_, _, _, facts) in enumerate(valid, 1):
        its = read[f"filing-{number}.html"]
        wanted = [("amount" if "unit" in facts[at]["dimensions"] else None) for at in sorted(facts, key=str.encode)]
        hold(f"filing {number}: amounts on the right", [row[4] for row in its.classes[1:]], wanted)
        hold(f"filing {number}: periods", {row[2] for row in its.classes[1:]}, {"period"})
        hold(f"filing {number}: decimals on the right", {row[5] for row in its.classes[1:]}, {"number"})
        hold(f"filing {number}: columns", {len(row) for row in its.rows}, {6})
    style = read["index.html"].texts["style"]
    hold("moments on one line", {row[2] for row in read["filer-ACME.html"].classes[1:]}, {"moment"})
    for rule in (".amount { text-align: right; }", ".moment { white-space: nowrap; }", "@media print {"):
        hold(f"the style has {rule}", rule in style, True)
    last = f"filing-{len(valid)}.html"
    hold("control characters are seen", read[f"filing-{len(valid) - 1}.html"].rows[1][4],
         "bell \u2407 and return \u240d")
    hold("a time that is not midnight, and another entity", [row[1:3] for row in read[last].rows[1:]],
         [["eg:A<b>&'", "2024-01-01/2024-12-31T12:00:00"], ["eg:A<b>&'entity: eg:BETA", "2024-12-31"]])
    its = read["refused-BETA.html"]
    hold("BETA: the filing that came after the refused ones is linked",
         [(row[5], link[5]) for row, link in zip(its.rows[1:], its.linked[1:])], [(str(len(valid)), last)] * REFUSED)
    counts = dict(zip((row[0] for row in read["index.html"].rows), (row[3] for row in read["index.html"].linked)))
    wanted = {"BETA": "refused-BETA.html", "Acme": "refused-A~c~m~e.html"}
    hold("refused reports are linked from where they are counted",
         {filer: link for filer, link in counts.items() if link}, wanted)
    for filer, name in wanted.items():
        its = f"filer-{code_in_names(filer)}.html"
        hold(f"{filer}: its page names {name}, and is named there", (name in read[its].links, its in read[name].links),
             (True, True))
    hold("BETA: the filing that was to be replaced is linked",
         [row[2] for row in read["refused-BETA.html"].linked[1:]], [None, "filing-1.html"])
    hold("Acme: a filing that there is not is no link",
         [(row[2], link[2]) for row, link in zip(read["refused-A~c~m~e.html"].rows[1:],
                                                 read["refused-A~c~m~e.html"].linked[1:])], [("99", None)])


def leads(site, read, name, link):
    """Whether a link of this page leads to something."""
    target, _, part = link.partition("#")
    if part:
        return part in read[target or name].ids
    return (site / target).is_file()


def follow(site, name):
    """The pages from this one on, each by the link to the next of the one before it, by their names."""
    found = {}
    while name is not None and name not in found:
        found[name] = page(site, name)
        name = found[name].next
    return found


def check_parts(folder):
    """2,500 filings of a filer, 120 refused reports of another one, and a filing with 1,500 facts."""
    facts = {f"f{at:04}": fact("WIDE", str(at), "iso4217:EUR", 0) for at in range(1_500)}
    more = [("MANY", f"m-{at}", None, {"f1": fact("MANY", str(at))}) for at in range(2_500)]
    more += [("MALLORY", f"r-{at}", None, {"f1": fact("OTHER", str(at))}) for at in range(120)]
    make_odd_register(folder / "register.db", [*more, ("WIDE", "w-1", None, facts)])
    site = folder / "site"
    site.mkdir()
    pages_of(folder / "register.db", site)
    first = len(SENT) - REFUSED + 1
    wide = first + 2_500
    for begins, most, column, wanted in (
        ("filer-MANY", ROWS, 0, [str(at) for at in range(first, wide)]),
        ("refused-MALLORY", REPORTS, 0, [f"r-{at}" for at in range(120)]),
        (f"filing-{wide}", ROWS, 0, sorted(facts)),
    ):
        pages = follow(site, f"{begins}.html")
        parts = [wanted[at : at + most] for at in range(0, len(wanted), most)]
        names = [f"{begins}{'' if at == 1 else f'~{at}'}.html" for at in range(1, len(parts) + 1)]
        hold(f"{begins}: its pages", list(pages), names)
        hold(f"{begins}: no more of them", len([*site.glob(f"{begins}~*")]), len(parts) - 1)
        hold(f"{begins}: rows", [[row[column] for row in it.rows[1:]] for it in pages.values()], parts)
        hold(f"{begins}: the ones before", [it.before for it in pages.values()], [None, *names[:-1]])
    most = max(len(page(site, it.name).rows) - 1 for it in site.glob("*.html"))
    hold("rows of a page", most <= ROWS, True)


def wrong(filer, name, findings):
    """The facts of a report with so many findings, the places of which have a fact of this name."""
    return {name: fact(filer, "1", **{f"eg:x{at:04}": at for at in range(findings)})}


def spent(*words):
    """The most memory of a command, in bytes. It has to end with 0."""
    with subprocess.Popen([INTAKE, *words], stdout=subprocess.DEVNULL, stderr=subprocess.PIPE) as process:
        errors = process.stderr.read()
        _, status, used = os.wait4(process.pid, 0)
        process.returncode = os.waitstatus_to_exitcode(status)
    hold(f"{words[0]} ends well", (process.returncode, errors), (0, b""))
    return used.ru_maxrss * 1024


def check_hostile(folder):
    """A filer sends 100 reports, each with 1,000 findings at places of some 1,000 bytes, and one with 5,000."""
    sent = [("MALLORY", f"m-{at}", None, wrong("MALLORY", "f" * 950, 1_000)) for at in range(100)]
    sent.append(("MALLORY", "m-long", None, wrong("MALLORY", "f1", 5_000)))
    make_odd_register(folder / "register.db", sent)
    site = folder / "site"
    site.mkdir()
    opening = spent("check", "--db", folder / "register.db")
    more = spent("pages", "--db", folder / "register.db", "--into", site) - opening
    tell(f"{more / 1e6:.0f} MB of memory beyond the opening", None if more <= MEMORY else "too much")
    hold("the index", (site / "index.html").exists(), True)
    damage(site)
    pages = follow(site, "refused-MALLORY.html")
    for name, its in pages.items():
        size, bound = (site / name).stat().st_size, FRAME + ROW * REPORTS
        tell(f"{name} has {size} bytes", None if size <= bound else f"more than {bound}")
    rows = [row for its in pages.values() for row in its.rows[1:]]
    hold("each refused report", [row[0] for row in rows], [row[1] for row in sent])
    hold("none of them has more findings", {row[4].count("dimension-value 1:") for row in rows[:-1]}, {FINDINGS})
    hold("how many more", {row[4].rpartition("and ")[2].split()[0] for row in rows[:-1]}, {"980"})
    hold("too many findings", rows[-1][4].count("too-many 1:"), 1)
    place = f" /facts/{'f' * 52}\u2026{'f' * 40}/dimensions/eg:x0000"
    hold("a place is shortened in its middle", place in rows[0][4], True)
    hold("the reports of the code", [row[3:] for row in page(site, "findings.html").rows[1:]],
         [["100000", "100", "1", "MALLORY "], *[["1", "1", "1", "BETA "]] * 4, ["1", "1", "1", "MALLORY "],
          ["1", "1", "1", "BETA "]])


def check_folder(folder):
    make_odd_register(folder / "register.db")
    done = run(INTAKE, "pages", "--db", folder / "register.db", "--into", folder / "none")
    hold("a folder that is not there", done.returncode, 3)
    site = folder / "site"
    for name in ("filing-2.html", "refused-BETA.html"):
        (site / name).mkdir(parents=True)
    done = run(INTAKE, "pages", "--db", folder / "register.db", "--into", site)
    hold("pages that cannot be written", done.returncode, 3)
    hold("the first of them is named", b"site/filing-2.html: " in done.stderr, True)
    hold("the others are written", {it.name for it in site.iterdir() if it.is_file()},
         {*(f"filing-{at}.html" for at in (1, 3, 4, 5)), *(f"filing-{at}.json" for at in range(1, 6)),
          "request-6.json", "request-7.json",
          "filer-007.html", "filer-ACME.html", "filer-BETA.html",
          "filer-~a.~b_~c-.html", "findings.html", "index.html"})


def check_time(folder):
    make_odd_register(folder / "register.db", many(10_000))
    site = folder / "site"
    site.mkdir()
    opening = spent("check", "--db", folder / "register.db")
    begin = time.monotonic()
    more = spent("pages", "--db", folder / "register.db", "--into", site) - opening
    took = time.monotonic() - begin
    tell(f"10,000 filings: {more / 1e6:.0f} MB of memory beyond the opening", None if more <= MEMORY else "too much")
    size = sum(it.stat().st_size for it in site.iterdir()) / 1e6
    tell(f"10,000 filings in {took:.1f} s, {size:.1f} MB",
         None if took < 30 * FACTOR and size < 100 else "too slow, or too large")


# ---- in a browser


@contextlib.contextmanager
def browser(folder):
    """The driver of a Chromium; None if there is none."""
    missing = [it for it in ("chromium", "chromedriver") if shutil.which(it) is None]
    missing += [] if browsers.webdriver else ["python3-selenium"]
    if missing:
        print(f"left out: {', '.join(missing)}: not installed")
        yield None
        return
    driver, stop = start_driver(plain_options(folder / "profile"), folder)
    driver.set_script_timeout(60 * FACTOR)
    try:
        yield driver
    except browsers.WebDriverException as fault:
        tell("the browser", browsers.described(fault))
    finally:
        with contextlib.suppress(Exception):
            driver.quit()
        stop()


def made(folder, more=()):
    """A folder with the pages of a register of what is odd, and of this."""
    make_odd_register(folder / "register.db", more)
    date_register(folder / "register.db", [*MOMENTS, *(MOMENTS[-1] for _ in more)])
    site = folder / "site"
    site.mkdir()
    pages_of(folder / "register.db", site)
    return site


def console(driver):
    return [line["message"] for line in driver.execute("getLog", {"type": "browser"})["value"]]


# The cells that are not in sight as a whole: outside of the screen, cut off, of no size, or, on a narrow screen,
# without the name of their column.
OUT_OF_SIGHT = """
    const isNarrow = arguments[0];
    const isSeen = (it) => {
        const range = document.createRange();
        range.selectNodeContents(it);
        const boxes = [...range.getClientRects()].filter((box) => box.width > 0);
        return it.checkVisibility({ opacityProperty: true, visibilityProperty: true }) && boxes.length > 0 &&
            boxes.every((box) => box.left >= 0 && box.right <= innerWidth + 1 && box.height >= 8) &&
            it.scrollWidth <= it.clientWidth + 1 && (!isNarrow || it.tagName !== "TD" || isNamed(it));
    };
    const isNamed = (it) => {
        const head = it.closest("table").querySelectorAll("thead th")[it.cellIndex].textContent;
        const short = { Number: "Filing", "What it means": "It means", "What to do": "To do" }[head] ?? head;
        return getComputedStyle(it, "::before").content === `"${short}: "`;
    };
    return [...document.querySelectorAll("main td, main th, dt, dd, h1, footer")]
        .filter((it) => it.textContent.trim() && !(isNarrow && it.closest("thead")) && !isSeen(it))
        .map((it) => `${it.tagName} ${it.textContent.slice(0, 40)}`);
"""
# What a printed page shows that can only be pressed.
ON_PAPER = """
    return [...document.querySelectorAll("nav, .skip, #search-box, #parts")].filter((it) => it.checkVisibility())
        .map((it) => it.textContent);
"""
# The widths of screens, and of a sheet of A4 with margins of a centimetre.
WIDE, NARROW, PAPER = 1200, 390, 718
SEEN = ["index", "findings", "filer-ACME", "filing-1", "filing-5", "refused-BETA"]


def check_sight(folder):
    """What tells rows apart is in sight, and what is written is plain to read."""
    site = made(folder, MORE)
    with browser(folder) as driver:
        for name in SEEN if driver else ():
            driver.get(f"file://{site}/{name}.html")
            for width in (WIDE, NARROW, PAPER):
                for colours in ("light", "dark"):
                    look(driver, name, width, colours)


def look(driver, name, width, colours):
    """Looks at the page that is open, on a screen of this width or on paper."""
    is_paper = width == PAPER
    browsers.command(driver, "Emulation.setEmulatedMedia", media="print" if is_paper else "screen",
                     features=[{"name": "prefers-color-scheme", "value": colours}])
    resize(driver, width, 1000)
    name = f"{name}-{'paper' if is_paper else width}-{colours}"
    hold(f"{name}: nothing is wider than the screen",
         driver.execute_script("return document.scrollingElement.scrollWidth <= innerWidth"), True)
    hold(f"{name}: each cell is in sight", driver.execute_script(OUT_OF_SIGHT, width == NARROW), [])
    # A printer leaves out what lies behind a text.
    hold(f"{name}: contrast", driver.execute_script(CONTRAST, is_paper), [])
    if is_paper:
        hold(f"{name}: nothing that can only be pressed", driver.execute_script(ON_PAPER), [])
    if given.pictures:
        resize(driver, width, min(3_000, driver.execute_script("return document.scrollingElement.scrollHeight")))
        take_picture(driver, given.pictures / f"{name}.png")


def check_keyboard(folder):
    """The keyboard reaches everything, and sorts; a search shows what was searched for; nothing is wrong."""
    site = made(folder, MORE)
    with browser(folder) as driver:
        if driver is None:
            return
        for name in sorted(it.name for it in site.glob("*.html")):
            driver.get(f"file://{site}/{name}")
            hold(f"{name}: nothing in the console", console(driver), [])
        for name in ("index", "filer-ACME", "filing-1", "refused-BETA"):
            driver.get(f"file://{site}/{name}.html")
            try_keyboard(driver, name)
        driver.get(f"file://{site}/index.html")
        driver.execute_script("document.querySelectorAll('thead button')[0].focus()")
        for way in ("ascending", "descending"):
            browsers.ActionChains(driver).send_keys(browsers.Keys.ENTER).perform()
            filers = until(driver, f"document.querySelector('[aria-sort={way}]') && "
                                   "[...document.querySelectorAll('tbody tr')].map((it) => it.cells[0].textContent)")
            wanted = sorted({sent[0] for sent in [*SENT, *MORE]}, reverse=way == "descending")
            hold(f"sorted by the keyboard, {way}", filers, wanted)
        driver.execute_script("document.getElementById('search').focus()")
        browsers.ActionChains(driver).send_keys("bet 2").perform()
        rows = until(driver, "document.getElementById('found').textContent.startsWith('1 of') && "
                             "[...document.querySelectorAll('tbody tr')].map((it) => it.cells[0].textContent)")
        hold("the search", rows, ["BETA"])


def until(driver, expression):
    """The value of an expression of JavaScript once that is true."""
    end = time.monotonic() + 30 * FACTOR
    while time.monotonic() < end:
        if found := driver.execute_script(f"return {expression}"):
            return found
        time.sleep(0.05)
    return None


# Does something, and waits until it is seen to be done. Gives how many milliseconds that took.
TIMED = """
    const give = arguments[0], begin = performance.now();
    const act = () => {{ {} }}, isDone = () => {};
    act();
    (function look() {{
        if (isDone()) {{ give(performance.now() - begin); }} else {{ setTimeout(look, 5); }}
    }})();
"""
# How many milliseconds a search or a sort may take, on a quiet machine and of a processor.
MOST = 1000
SEARCH = """
    const box = document.getElementById("search");
    box.value = "{}";
    box.dispatchEvent(new Event("input"));
"""


def check_lists(folder):
    """A list of 10,000 filings is searched and sorted over all its pages, within a second each."""
    more = [("MANY", f"m-{at}", None, {"f1": fact("MANY", str(at))}) for at in range(10_000)]
    make_odd_register(folder / "register.db", more)
    site = folder / "site"
    site.mkdir()
    pages_of(folder / "register.db", site)
    rows, first = "document.querySelectorAll('tbody tr')", "document.querySelector('tbody tr').cells[1].textContent"
    head = "document.querySelectorAll('thead button')[1].click()"
    with serving(site) as own, browser(folder) as driver:
        if driver is None:
            return
        driver.get(f"http://127.0.0.1:{own.server_port}/filer-MANY~2.html")
        browsers.command(driver, "Performance.enable", timeDomain="threadTicks")
        timed(driver, "a search over all pages", SEARCH.format("m-2499"), f"{rows}.length === 1")
        hold("what was searched for is found", driver.execute_script(f"return {first}"), "m-2499")
        timed(driver, "a search in what is there", SEARCH.format(""), f"{rows}.length === {ROWS}")
        driver.get(f"http://127.0.0.1:{own.server_port}/filer-MANY~2.html")
        timed(driver, "a sort over all pages", head, "document.querySelector('[aria-sort=ascending]')")
        hold("the first of all", driver.execute_script(f"return {first}"), "m-0")
        timed(driver, "a sort the other way", head, "document.querySelector('[aria-sort=descending]')")
        hold("the last of all", driver.execute_script(f"return [{rows}.length, {first}]"), [ROWS, "m-9999"])
        timed(driver, "a sort by numbers", head.replace("[1]", "[0]"),
              "document.querySelector('[aria-sort=ascending]')?.cellIndex === 0")
        numbers = driver.execute_script(f"return [...{rows}].map((it) => Number(it.cells[0].textContent))")
        hold("as numbers", numbers, [len(SENT) - REFUSED + 1 + at for at in range(ROWS)])


def spent_in(driver):
    """The milliseconds of a processor that the page has taken."""
    metrics = browsers.command(driver, "Performance.getMetrics")["metrics"]
    return 1000 * next(it["value"] for it in metrics if it["name"] == "TaskDuration")


def timed(driver, what, act, is_done):
    before = spent_in(driver)
    took = driver.execute_async_script(TIMED.format(act, is_done))
    spent = spent_in(driver) - before
    tell(f"{what}: {took:.0f} ms, {spent:.0f} of them of a processor",
         "too slow" if took > MOST * FACTOR or spent > MOST else None)


class Noting(http.server.SimpleHTTPRequestHandler):
    """Serves a folder, and notes what it is asked for."""

    def log_message(self, *_):
        self.server.asked.append(self.path)


@contextlib.contextmanager
def serving(folder):
    with http.server.ThreadingHTTPServer(("127.0.0.1", 0), functools.partial(Noting, directory=folder)) as server:
        server.asked = []
        threading.Thread(target=server.serve_forever, daemon=True).start()
        try:
            yield server
        finally:
            server.shutdown()


# Markup that somebody may get into a page.
FOREIGN = """<script src="{0}/script"></script><script>window.inline = true;</script>
<style>body {{ --inline: 1; }}</style><link rel="stylesheet" href="{0}/style"><img src="{0}/image">
<iframe src="{0}/frame"></iframe><object data="{0}/object"></object><video src="{0}/video"></video></body>"""


def check_elsewhere(folder):
    """Pages ask for nothing elsewhere, nor does markup that gets into them; and no script runs but their own."""
    site = made(folder, MORE)
    with serving(site) as own, serving(folder) as other, browser(folder) as driver:
        if driver is None:
            return
        for name in (f"{it}.html" for it in SEEN):
            driver.get(f"http://127.0.0.1:{own.server_port}/{name}")
            address = f"http://127.0.0.1:{other.server_port}"
            text = (site / name).read_text()
            (site / name).write_text(text.replace("</body>", FOREIGN.format(address)))
            driver.get(f"http://127.0.0.1:{own.server_port}/{name}?")
            driver.execute_async_script(f"fetch('{address}/fetch').catch(() => 0).finally(arguments[0])")
            found = driver.execute_script("return [window.inline,"
                                          "getComputedStyle(document.body).getPropertyValue('--inline')]")
            hold(f"{name}: no other script and style", found, [None, ""])
        time.sleep(1)
        hold("nothing is asked for elsewhere", other.asked, [])
        hold("nothing but the pages", {it.rstrip("?") for it in own.asked}, {f"/{it}.html" for it in SEEN})


TRIALS = [check_texts, check_looks, check_parts, check_hostile, check_folder, check_sight, check_keyboard, check_lists,
          check_elsewhere, check_time]
# Which trial sees what.
FAULTS = [
    (check_texts, "filing-1.html", "it&#39;s &amp; ", "it&#39;s "),
    (check_texts, "filing-1.html", 'href="filing-1.json"', 'href="filing-2.json"'),
    (check_texts, "filing-1.json", "documentInfo", "documentinfo"),
    (check_texts, "filing-2.html", "unknown", "1970-01-01T00:00:00.000Z"),
    (check_texts, "filing-4.html", "23:59:59.999Z", "24:00:00.000Z"),
    (check_texts, "filer-ACME.html", "1970-01-01T00:00:00.000Z", "1970-01-01T00:00:00Z"),
    (check_looks, "filer-ACME.html", 'class="moment"', 'class="text"'),
    (check_looks, "index.html", "filer-ACME.html", "filer-NONE.html"),
    (check_looks, "index.html", "text-align: right", "text-align:right"),
    (check_looks, "filing-2.html", 'class="amount"', 'class="text"'),
    (check_looks, "filing-2.html", 'class="period"', 'class="text"'),
    (check_looks, "filing-7.html", "\u2407", "\u0007"),
    (check_looks, "filing-4.html", "Decimals</th></tr>", "Decimals</th><th>Other dimensions</th></tr>"),
    (check_texts, "filing-1.html", ">2024-12-31<", ">2024-12-31T00:00:00<"),
    (check_texts, "filing-5.html", "eg:Region: eg:South", "eg:Region: eg:North"),
    (check_texts, "request-6.json", "documentInfo", "documentinfo"),
    (check_texts, "refused-BETA.html", 'href="request-6.json"', 'href="request-7.json"'),
    (check_texts, "refused-BETA.html", "is not a number", "is a number"),
    (check_texts, "refused-BETA.html", ">none<", ">1<"),
    (check_texts, "findings.html", "its value is no number", "its value is a number"),
    (check_texts, "filing-3.html", "Digest: <code>7 ", "Digest: <code>6 "),
    (check_looks, "findings.html", "refused-BETA.html#request-", "refused-BETA.html#report-"),
    (check_looks, "refused-BETA.html", 'href="filing-8.html"', 'href="filing-7.html"'),
    (check_looks, "filing-8.html", "entity: eg:BETA", "entity: lei:BETA"),
    (check_looks, "index.html", "@media print", "@media screen"),
    (check_looks, "index.html", 'href="refused-BETA.html"', 'href="findings.html"'),
    (check_looks, "refused-A~c~m~e.html", ">99<", '><a href="filing-99.html">99</a><'),
    (check_looks, "index.html", "<body>", "<body onload='x'>"),
    (check_parts, "filer-MANY~2.html", 'rel="next"', 'rel="last"'),
    (check_parts, "filer-MANY~2.html", "</tbody>", "<tr><td>1</td></tr></tbody>"),
    (check_parts, "refused-MALLORY~3.html", 'rel="prev"', 'rel="first"'),
    (check_hostile, "refused-MALLORY.html", "and 980 more", "and 981 more"),
    (check_looks, "index.html", "'sha256-", "'sha256-A"),
    (check_sight, "index.html", "--link: #0645ad", "--link: #9ab"),
    (check_sight, "filer-ACME.html", "--link: #8ab4f8", "--link: #345"),
    (check_sight, "filing-1.html", "max-width: 30rem; overflow-wrap: anywhere", "max-width: 30rem; overflow: hidden"),
    (check_sight, "filing-5.html", ".period { overflow-wrap: normal; }", ".period { display: none; }"),
    (check_sight, "filing-5.html", '.facts td:nth-child(2)::before { content: "Concept: "; }', ""),
    (check_sight, "refused-BETA.html", 'content: "Bytes: "', 'content: "Findings: "'),
    (check_sight, "index.html", "#search-box, #parts { display", "#parts { display"),
    (check_sight, "findings.html", ":root { color-scheme: light; --link: #000; }", ""),
    (check_keyboard, "index.html", 'button.type = "button";', "button.tabIndex = -1;"),
    (check_keyboard, "index.html", ":focus-visible { outline: 3px solid", ":focus-visible { outline: 0 none"),
    (check_keyboard, "filer-ACME.html", '<label for="search">', '<label for="found">'),
    (check_keyboard, "refused-BETA.html", '"use strict";', '"use strict"; undefined.x;'),
    (check_keyboard, "index.html", "order.at === at ? -order.way : 1", "order.at === at ? order.way : 1"),
    (check_keyboard, "index.html", "words.every(", "words.some("),
    (check_lists, "filer-MANY~2.html", "rows = before.concat(rows,", "rows = rows.concat("),
    (check_lists, "filer-MANY~2.html", "order.way * (isNumber ? a - b :", "order.way * ("),
    (check_lists, "filer-MANY~2.html", "function compare(one, other) {",
     "function compare(one, other) { for (var i = 0; i < 3e4; i++) { i += 0 * i; }"),
    (check_elsewhere, "index.html", "default-src 'none'", "default-src *"),
    (check_elsewhere, "filing-1.html", "script-src 'sha256", "script-src http: 'sha256"),
    (check_elsewhere, "findings.html", "connect-src 'self'", "connect-src http:"),
    (check_elsewhere, "filer-ACME.html", "style-src 'sha256", "style-src 'unsafe-inline' http: 'none"),
]


def try_faults():
    """Plants one fault after another. Each has to be seen."""
    unseen = []
    for trial, *fault in [fault for fault in FAULTS if given.only in fault[0].__name__]:
        planted[:] = [fault]
        failures.clear()
        with contextlib.redirect_stdout(None), tempfile.TemporaryDirectory() as folder:
            trial(pathlib.Path(folder).resolve())
        print(f"{'seen' if failures else 'NOT SEEN'}: {fault[0]}: {fault[2]!r}", flush=True)
        unseen += [] if failures else [fault]
    sys.exit(bool(unseen))


if __name__ == "__main__":
    parser = argparse.ArgumentParser(description=__doc__.partition("\n")[0])
    parser.add_argument("--planted", action="store_true", help="damage the pages, and see whether that is seen")
    parser.add_argument("--only", metavar="WORD", default="", help="trials with this word in their name")
    parser.add_argument("--pictures", metavar="FOLDER", type=pathlib.Path)
    parser.parse_args(namespace=given)
    if given.pictures and ROOT in given.pictures.resolve().parents:
        sys.exit("the pictures are kept outside of the repository")
    if given.planted:
        try_faults()
    try_all([INTAKE], [trial for trial in TRIALS if given.only in trial.__name__])
