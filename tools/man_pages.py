#!/usr/bin/env python3
"""Makes the man pages of the programs from what they say by --help, so that there is one source for both.

    tools/man_pages.py FOLDER               writes intake.1, outbox.1 and drill.1 there
    tools/man_pages.py FOLDER PROGRAMS      the same, of the programs in the folder PROGRAMS

Without PROGRAMS they are those that `rt run` builds, as crates/intake/out/intake.
"""
import pathlib
import re
import subprocess
import sys

ROOT = pathlib.Path(__file__).resolve().parent.parent
SEE_ALSO = {"intake": "outbox", "outbox": "intake", "drill": "intake"}
# What a page says at its beginning, and no --help does.
DESCRIPTIONS = {
    "intake": [
        "intake is a supervisor's end of a filing gateway for financial reports (xBRL-JSON 1.0). Filers send each "
        "report by a POST to /filings/CODE, under a key of their choice. A valid report is registered under a number,"
        " and any other is refused with what is wrong with it. The same request again gets the same answer, and "
        "changes nothing.",
        "The register is a SQLite database in one file. A program that may write has it alone; once that has ended, "
        "the sqlite3 shell may read it. Who may file for a filer is decided by a server in front.",
    ],
    "outbox": [
        "outbox is a filer's end of a filing gateway for financial reports (xBRL-JSON 1.0). A report is put in as an "
        "entry, under a key. The entry is open until a reply settles it as confirmed, refused or clashed, and may be "
        "sent until then: however often it comes, the supervisor registers it once. The program may be stopped at any"
        " moment.",
        "The outbox is a SQLite database in one file. A program that may write has it alone.",
    ],
    "drill": [
        "drill plays both ends of a filing gateway, an intake and outboxes, in memory: reports that are sent, cut and"
        " repeated, and ends that stop and start again. It reads a script from standard input, an event on each line,"
        " and prints the filings and the entries that they lead to.",
    ],
}
PAGES = "The rules are in /usr/share/doc/berruzpil/docs/PROTOCOL.md, and how it is run in OPERATIONS.md beside it."
# Characters that roff prints as others if they are written plainly, and what it prints them for.
LITERALS = {"\\": "\\e", "-": "\\-", "'": "\\(aq", '"': "\\(dq", "`": "\\(ga", "^": "\\(ha", "~": "\\(ti"}


def programs_in(folder=None):
    """The path of each program by its name: in a folder, or where it is built."""
    return {
        name: str(pathlib.Path(folder, name).resolve() if folder else ROOT / "crates" / name / "out" / name)
        for name in SEE_ALSO
    }


def printed(*words):
    """What a command prints."""
    return subprocess.run(words, capture_output=True, text=True, check=True).stdout


def help_of(*words):
    """What a program says of itself or of one of its commands."""
    return printed(*words, "--help")


def sections(text):
    """The about text, and then each heading with its lines. The unindented lines at the end are notes,
    with what is indented below one."""
    found, notes, heading = {"about": []}, [], "about"
    for line in text.splitlines():
        if match := re.fullmatch(r"(Usage|Commands|Arguments|Options):(.*)", line):
            heading = match[1]
            found[heading] = [match[2].strip()] if match[2].strip() else []
        elif heading != "about" and line and (notes or not line.startswith(" ")):
            notes.append(line)
        elif line.strip():
            found[heading].append(line)
    return found, notes


def escape(text):
    """The text as roff takes it, so that it is printed as it is."""
    text = "".join(LITERALS.get(it, it) for it in text)
    return "\\&" + text if text.startswith(".") else text


def example_lines(example):
    """An example as roff: on a line of its own that is not broken, so that it can be copied."""
    return [".EX", f"\\fB{escape(example)}\\fR", ".EE"]


def entries(lines):
    """Each option or command with its text, of which further lines are indented more."""
    found = []
    for line in lines:
        indent = len(line) - len(line.lstrip())
        if indent <= 6 and (not found or indent <= 2 or line.lstrip().startswith("-")):
            name, _, text = line.strip().partition("  ")
            found.append((name, [text.strip()] if text.strip() else []))
        else:
            found[-1][1].append(line.strip())
    return [(name, " ".join(texts)) for name, texts in found]


def commands_of(whole):
    """The commands of a program and what each does."""
    return [(word, text) for word, text in entries(whole.get("Commands", [])) if word != "help"]


def is_example(note):
    """Whether a note is a command line. One below another may be indented."""
    return re.match(r"Examples?:|\s", note)


def examples_in(notes):
    """The command lines among the notes, each by itself."""
    return [re.sub(r"^(Examples?:)?\s*", "", note) for note in notes if is_example(note)]


def remarks_in(notes):
    """The other notes."""
    return [note for note in notes if not is_example(note)]


def paragraphs_of(notes):
    """The notes as roff: the examples first, and then what else is said."""
    examples = [line for example in examples_in(notes) for line in [".PP", "Example:", *example_lines(example)]]
    return examples + [line for remark in remarks_in(notes) for line in (".PP", escape(remark))]


def page(name, program):
    """The man page of a program."""
    whole, notes = sections(help_of(program))
    about = " ".join(line.strip() for line in whole["about"])
    version = printed(program, "--version").split()[-1]
    out = [
        f'.TH {name.upper()} 1 "" "berruzpil {version}"',
        ".SH NAME",
        f"{name} \\- {escape(about[:1].lower() + about[1:])}",
    ]
    out += [".SH SYNOPSIS", escape(" ".join(whole["Usage"]))]
    out += [".SH DESCRIPTION", escape(DESCRIPTIONS[name][0])]
    out += [line for text in [*DESCRIPTIONS[name][1:], PAGES] for line in [".PP", escape(text)]]
    commands = commands_of(whole)
    if commands:
        out.append(".SH COMMANDS")
    for word, text in commands:
        part, remarks = sections(help_of(program, word))
        out += [f".SS {escape(word)}", escape(text), ".PP", escape(" ".join(part["Usage"]))]
        for option, meaning in entries(part.get("Arguments", []) + part.get("Options", [])):
            if not option.startswith("-h"):
                out += [".TP", escape(option), escape(meaning)]
        out += paragraphs_of(remarks)
    out += [".SH OPTIONS"]
    for option, meaning in entries(whole.get("Options", [])):
        out += [".TP", escape(option), escape(meaning)]
    if remarks_in(notes):
        out.append(".SH EXIT STATUS")
        out += [escape(line.removeprefix("Exit status: ")) for line in remarks_in(notes)]
    if examples_in(notes):
        out.append(".SH EXAMPLES")
        out += [line for example in examples_in(notes) for line in [".PP", *example_lines(example)]]
    out += [".SH SEE ALSO", f".BR {SEE_ALSO[name]} (1)"]
    return "\n".join(out) + "\n"


def main():
    if len(sys.argv) not in (2, 3):
        sys.exit(__doc__)
    folder = pathlib.Path(sys.argv[1])
    folder.mkdir(parents=True, exist_ok=True)
    for name, program in programs_in(*sys.argv[2:]).items():
        (folder / f"{name}.1").write_text(page(name, program), encoding="utf-8")


if __name__ == "__main__":
    main()
