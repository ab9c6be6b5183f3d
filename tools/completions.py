#!/usr/bin/env python3
"""Makes the completions of the programs for bash, zsh and fish from what they say by --help.

    tools/completions.py FOLDER             writes bash/intake, zsh/_intake, fish/intake.fish and those of outbox and
                                            drill there
    tools/completions.py FOLDER PROGRAMS    the same, of the programs in the folder PROGRAMS

Without PROGRAMS they are those that `rt run` builds. The value of an option is completed as the help says: one of its
possible values if they are named, <FILE> and <PATH> by files, <FOLDER> by folders, any other by nothing.
"""
import pathlib
import re
import sys
from dataclasses import dataclass

from man_pages import commands_of, entries, help_of, programs_in, sections


@dataclass
class Option:
    """An option as the help has it: its names, the name of its value, if it takes one, the values that are possible,
    if the help lists them, and what it means."""

    names: list
    value: str
    values: list
    meaning: str


@dataclass
class Words:
    """What may follow a program, or one of its commands: options, and files or the name of a command if it takes them
    as arguments."""

    options: list
    takes_files: bool
    takes_command: bool = False


# The command that shows the help of another. It has no help of its own.
HELP = ("help", "Prints the help of a command", Words([], False, takes_command=True))


def option_of(names, meaning):
    value = re.search(r"<([\w:]+)>", names)
    values = re.search(r"\[possible values: ([^]]*)\]", meaning)
    return Option(re.findall(r"(?<!\S)--?[\w-]+", names), value[1] if value else "",
                  values[1].split(", ") if values else [], meaning)


def words_of(*command):
    part, _ = sections(help_of(*command))
    return Words([option_of(*entry) for entry in entries(part.get("Options", []))],
                 any("FILE" in name for name, _ in entries(part.get("Arguments", []))))


def names_in(options):
    return [name for option in options for name in option.names]


def others_of(word, commands):
    """The names of the commands but this one."""
    return " ".join(it for it, _, _ in commands if it != word)


# ---- bash


def bash(name, own, commands):
    """A function that completes the last word by the command that was given."""
    every = [option for words in [own, *(words for _, _, words in commands)] for option in words.options]
    files = sorted({it for option in every if option.value in ("FILE", "PATH") for it in option.names})
    folders = sorted({it for option in every if option.value == "FOLDER" for it in option.names})
    listed = sorted({(it, " ".join(option.values)) for option in every if option.values for it in option.names})
    others = sorted({it for option in every if option.value not in ("", "FILE", "PATH", "FOLDER") and not option.values
                     for it in option.names})
    out = [
        f"# bash completion for {name}",
        f"_{name}() {{",
        '    local word=${COMP_WORDS[COMP_CWORD]} before=${COMP_WORDS[COMP_CWORD-1]} command="" at',
    ]
    out += ["    COMPREPLY=()", "    case $before in"]
    of_names = "            compopt -o filenames 2> /dev/null"
    for options, action, first in [(files, "-f", [of_names]), (folders, "-d", [of_names])] + [
        ([name], f"-W '{values}'", []) for name, values in listed
    ]:
        if options:
            out += [f"        {' | '.join(options)})", *first]
            out += [
                f'            mapfile -t COMPREPLY < <(compgen {action} -- "$word")',
                "            return",
                "            ;;",
            ]
    if others:
        out += [f"        {' | '.join(others)}) return ;;"]
    out += [
        "    esac",
        "    for ((at = 1; at < COMP_CWORD; at++)); do",
        "        case ${COMP_WORDS[at]} in",
        "            -*) ;;",
    ]
    out += ["            *) command=${COMP_WORDS[at]} && break ;;", "        esac", "    done", "    case $command in"]
    first = [word for word, _, _ in commands] + names_in(own.options)
    for label, words, given in [("''", own, first)] + [
        (word, words, names_in(words.options)) for word, _, words in commands if not words.takes_command
    ]:
        out += [
            f"        {label})",
            f"            mapfile -t COMPREPLY < <(compgen -W '{' '.join(given)}' -- \"$word\")",
        ]
        if words.takes_files:
            out += [
                "            [[ $word == -* ]] || { compopt -o filenames 2> /dev/null; "
                "mapfile -t COMPREPLY < <(compgen -f -- \"$word\"); }"
            ]
        out += ["            ;;"]
    for word in (word for word, _, words in commands if words.takes_command):
        offer = f"mapfile -t COMPREPLY < <(compgen -W '{others_of(word, commands)}' -- \"$word\")"
        out += [f"        {word})", f"            [[ $before != {word} ]] || {offer}", "            ;;"]
    out += ["    esac", "}", f"complete -F _{name} {name}"]
    return "\n".join(out) + "\n"


# ---- zsh


def in_zsh(text):
    """A text inside single quotes of zsh, where _arguments gives brackets and colons a meaning."""
    text = re.sub(r"([\\\[\]:$`])", r"\\\1", text)
    return text.replace("'", "'\\''")


def zsh_specs(words):
    """Options and files, as _arguments reads them."""
    out = []
    for option in words.options:
        files = {"": "", "FILE": ":FILE:_files", "PATH": ":PATH:_files", "FOLDER": ":FOLDER:_files -/"}
        value = files.get(option.value, f":{option.value}: ")
        value = f":{option.value}:({' '.join(option.values)})" if option.values else value
        others = f"({' '.join(option.names)})" if len(option.names) > 1 else ""
        out += [f"'{others}{it}[{in_zsh(option.meaning)}]{value}'" for it in option.names]
    return out + (["'*:FILE:_files'"] if words.takes_files else [])


def zsh(name, own, commands):
    out = [f"#compdef {name}", "", f"_{name}() {{"]
    if not commands:
        return (
            "\n".join(out + ["    _arguments " + " \\\n        ".join(zsh_specs(own)), "}", "", f'_{name} "$@"'])
            + "\n"
        )
    out += ["    local context state line", "    typeset -A opt_args", "    local -a commands"]
    out += ["    commands=(", *[f"        '{in_zsh(word)}:{in_zsh(text)}'" for word, text, _ in commands], "    )"]
    out += ["    _arguments -C " + " \\\n        ".join(zsh_specs(own) + ["'1: :->command'", "'*:: :->arguments'"])]
    out += [
        "    case $state in",
        "        command) _describe command commands ;;",
        "        arguments)",
        "            case $words[1] in",
    ]
    for word, _, words in commands:
        does = "_arguments " + " \\\n                        ".join(zsh_specs(words))
        if words.takes_command:
            does = "(( CURRENT == 2 )) && _describe command commands"
        out += [f"                {word})", f"                    {does}", "                    ;;"]
    out += ["            esac", "            ;;", "    esac", "}", "", f'_{name} "$@"']
    return "\n".join(out) + "\n"


# ---- fish


def in_fish(text):
    """A text inside single quotes of fish."""
    return "'" + text.replace("\\", "\\\\").replace("'", "\\'") + "'"


def fish_options(name, words, condition):
    out = []
    for option in words.options:
        kinds = {"": "", "FILE": " -r -F", "PATH": " -r -F", "FOLDER": " -x -a '(__fish_complete_directories)'"}
        kind = f" -x -a '{' '.join(option.values)}'" if option.values else kinds.get(option.value, " -x")
        names = "".join(f" -l {it[2:]}" if it.startswith("--") else f" -s {it[1:]}" for it in option.names)
        out.append(f"complete -c {name}{condition}{names}{kind} -d {in_fish(option.meaning)}")
    return out + ([f"complete -c {name}{condition} -F"] if words.takes_files else [])


def fish(name, own, commands):
    out = [f"# fish completion for {name}", f"complete -c {name} -f"]
    out += fish_options(name, own, " -n __fish_use_subcommand" if commands else "")
    for word, text, words in commands:
        out.append(f"complete -c {name} -n __fish_use_subcommand -a {word} -d {in_fish(text)}")
        out += fish_options(name, words, f" -n '__fish_seen_subcommand_from {word}'")
        if words.takes_command:
            others = others_of(word, commands)
            condition = f"__fish_seen_subcommand_from {word}; and not __fish_seen_subcommand_from {others}"
            out.append(f"complete -c {name} -n '{condition}' -a '{others}'")
    return "\n".join(out) + "\n"


def scripts(name, program):
    """The completions of a program, by their paths in a folder."""
    commands = [(word, text, words_of(program, word)) for word, text in commands_of(sections(help_of(program))[0])]
    commands += [HELP] if commands else []
    own = words_of(program)
    return {
        f"bash/{name}": bash(name, own, commands),
        f"zsh/_{name}": zsh(name, own, commands),
        f"fish/{name}.fish": fish(name, own, commands),
    }


def main():
    if len(sys.argv) not in (2, 3):
        sys.exit(__doc__)
    for name, program in programs_in(*sys.argv[2:]).items():
        for file, text in scripts(name, program).items():
            path = pathlib.Path(sys.argv[1], file)
            path.parent.mkdir(parents=True, exist_ok=True)
            path.write_text(text, encoding="utf-8")


if __name__ == "__main__":
    main()
