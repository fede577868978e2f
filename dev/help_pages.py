#!/usr/bin/env python3
"""Writes man pages and completions for bash and zsh of the program and of the commands zarfepoch and zarfepoch-*, made
from their own help.

    dev/help_pages.py [--package] FOLDER

FOLDER gets, for the program solve_cli and for each command NAME, `NAME.1`, `NAME.bash` and `_NAME`. Each option,
argument and sentence in them comes from what they print for `--help`, so they can't differ from it. With --package
those of the program are left out. scripts/install.sh puts them where they belong.

It wants the program: (cd crates/solve_cli && rt run -- --version) builds it; with --package none. The exit status is 0,
or 2 for a mistake on the command line, where there is no program, or where a help doesn't read as expected.
"""
from __future__ import annotations

import os
import re
import subprocess
import sys
from collections.abc import Iterator

sys.path.insert(0, os.path.join(os.path.dirname(os.path.abspath(__file__)), "..", "trials"))
from built import SOLVE_CLI, parser_of, stop, want_program  # noqa: E402
from help_texts import PROGRAM, Help, command_help, longs, program_help  # noqa: E402
import zarfepoch  # noqa: E402
from zarfepoch.commands import COMMANDS  # noqa: E402
from zarfepoch.puzzles.kinds import KINDS  # noqa: E402

# the words that may come first behind a command
KINDS_OF = {command: [kind.name for kind in KINDS] for command in ("zarfepoch", "zarfepoch-generate")}
# what the program's help doesn't say of the statuses that all commands have in common, in the order of their numbers
STATUSES = {
    "0": "a cover, or the answer is right", "1": "there is none, or the answer is wrong", "2": "a mistake on the command line",
    "3": "the file was refused, or a device failed", "4": "no answer, or no reason found", "5": "out of memory",
    "6": "the books of a run with --audit are not found to be one run"}
FORMAT = [
    "The first line that is neither blank nor a comment names the items; those behind a word | are secondary. Each later line is an option, a list of "
    "items. A comment begins with the word |. In an option a secondary item may have a colour, as in x:red.",
    "An exact cover is a choice of options in which each primary item stands exactly once, and each secondary item at most once or always with the same "
    "colour. The answer is the line \"cover k\" and its k options, or \"none\"."]
EXAMPLES = {
    "solve_cli answer sudoku.dlx": "answers by whatever is first",
    "solve_cli answer board.dlx --reason": "says what the answer rests on, too",
    "solve_cli alone --unlimited board.dlx": "searches on one thread until it is decided",
    "solve_cli solve --nodes 1 --workers 4 school.dlx > plan": "searches with four threads",
    "solve_cli check school.dlx plan": "tests what that wrote",
    "printf 'a b c\\na b\\nc\\nb c\\n' | solve_cli answer -": "reads a problem of three options from standard input"}
# the pages of a command by their names
Pages = dict[str, str]


# ---- what both have

def quoted(text: str) -> str:
    """Text as troff takes it."""
    text = text.replace("\\", "\\e").replace("-", "\\-")
    return "\\&" + text if text[:1] in (".", "'") else text


def man_head(name: str, version: str, about: str) -> list[str]:
    """The first lines of a man page, up to how the command is called."""
    return [f'.TH {name.upper()} 1 "" "{version}" "User Commands"', ".SH NAME", f"{quoted(name)} \\- {quoted(about)}", ".SH SYNOPSIS"]


def man_rows(help: Help, between: str) -> list[str]:
    """The arguments and options of a command, as troff, with this between two names of an option."""
    rows = [f".TP\n.I {quoted(' '.join(row.names))}\n{quoted(row.text)}" for row in help.arguments]
    for row in help.options:
        value = f" \\fI{quoted(row.value)}\\fR" if row.value else ""
        rows.append(f".TP\n\\fB{between.join(map(quoted, row.names))}\\fR{value}\n{quoted(row.text)}")
    return rows


def zsh_rows(help: Help, action: str) -> list[str]:
    """The options of a command as `_arguments` of zsh takes them; this completes their values."""
    rows = []
    for row in help.options:
        text = re.sub(r"([\[\]:])", r"\\\1", row.text).replace("'", "'\\''")
        rows += [f"'{name}[{text}]{f':{row.value}:{action}' if row.value else ''}'" for name in row.names]
    return rows


# ---- the program

def program_man(top: Help, commands: dict[str, Help]) -> str:
    """The program's man page."""
    version = subprocess.run([SOLVE_CLI, "--version"], capture_output=True, text=True).stdout.split()[-1]
    lines = man_head(PROGRAM, f"{PROGRAM} {version}", top.about)
    lines += [f".B {quoted(help.usage)}\n.br" for help in commands.values()]
    lines += [".SH DESCRIPTION", quoted(top.about) + ".", *man_rows(Help(options=top.options), "\\fR, \\fB")]
    for name, help in commands.items():
        lines += [f".SH {name.upper()}", quoted(help.about) + ".", *man_rows(help, "\\fR, \\fB")]
        lines += [f".PP\n{quoted(paragraph)}" for paragraph in help.text]
    lines += [".SH EXIT STATUS", *(f".TP\n.B {status}\n{quoted(text)}" for status, text in STATUSES.items())]
    lines += [".SH FILE FORMAT", *(f".PP\n{quoted(paragraph)}" for paragraph in FORMAT)]
    lines += [".SH EXAMPLES", *(f".TP\n.B {quoted(words)}\n{quoted(text)}" for words, text in EXAMPLES.items())]
    lines += [".SH SEE ALSO", ".BR parallel (1)", "for searches that are split into parts"]
    return "\n".join(lines) + "\n"


def program_bash(top: Help, commands: dict[str, Help]) -> str:
    """The program's completion for bash: subcommands first, then options, and files in every place of an argument."""
    cases = "\n".join(f'        {name}) options="{" ".join(longs(help))}" ;;' for name, help in commands.items())
    valued = "|".join(sorted({name for help in commands.values() for row in help.options if row.value for name in row.names}))
    return f"""_{PROGRAM}() {{
    local word="${{COMP_WORDS[COMP_CWORD]}}" before="${{COMP_WORDS[COMP_CWORD - 1]}}" options=""
    if [ "$COMP_CWORD" -eq 1 ]; then
        COMPREPLY=($(compgen -W "{' '.join([*commands, *longs(top)])}" -- "$word"))
        return
    fi
    case "$before" in {valued}) COMPREPLY=(); return ;; esac
    case "${{COMP_WORDS[1]}}" in
        help) COMPREPLY=($(compgen -W "{' '.join(commands)}" -- "$word")); return ;;
{cases}
    esac
    case "$word" in
        -*) COMPREPLY=($(compgen -W "$options" -- "$word")) ;;
        *) mapfile -t COMPREPLY < <(compgen -f -- "$word") ;;
    esac
}}
complete -o filenames -F _{PROGRAM} {PROGRAM}
"""


def program_zsh(commands: dict[str, Help]) -> str:
    """The program's completion for zsh."""
    named = " ".join(f"'{name}:{help.about.replace(chr(39), chr(39) + chr(92) + chr(39) + chr(39))}'" for name, help in commands.items())
    cases = ""
    for name, help in commands.items():
        rows = "\n".join(f"                {row} \\" for row in zsh_rows(help, ""))
        files = " ".join(f"'{place}:{row.names[0]}:_files'" for place, row in enumerate(help.arguments, 1))
        cases += f"        {name})\n            _arguments -s \\\n{rows}\n                {files} ;;\n"
    return f"""#compdef {PROGRAM}
_{PROGRAM}() {{
    local context state line
    _arguments -C '1: :->command' '*:: :->argument'
    case $state in
        command) local commands=({named}); _describe command commands ;;
        argument) case $line[1] in
        help) local commands=({named}); _describe command commands ;;
{cases}        esac ;;
    esac
}}
_{PROGRAM} "$@"
"""


def program_pages() -> Pages:
    """The man page and the completions of the program."""
    top = program_help([])
    commands = {name: program_help([name]) for name in top.commands}
    return {f"{PROGRAM}.1": program_man(top, commands), f"{PROGRAM}.bash": program_bash(top, commands), f"_{PROGRAM}": program_zsh(commands)}


# ---- the commands of the package

def paragraphs(lines: list[str]) -> list[str]:
    """The text of a help as troff: lines that are indented stay as they are."""
    found: list[str] = []
    for block in "\n".join(lines).strip("\n").split("\n\n"):
        rows = block.split("\n")
        is_kept = any(row.startswith("    ") for row in rows)
        found += [".PP", *([".nf"] if is_kept else []), *map(quoted, rows), *([".fi"] if is_kept else [])]
    return found


def command_man(name: str, help: Help) -> str:
    """The man page of a command."""
    lines = [*man_head(name, f"zarfepoch {zarfepoch.__version__}", help.about), f".B {quoted(help.usage)}"]
    lines += [".SH DESCRIPTION", *paragraphs(help.text), ".SH OPTIONS", *man_rows(help, ", ")]
    return "\n".join([*lines, ".SH SEE ALSO", ".BR solve_cli (1)"]) + "\n"


def command_bash(name: str, help: Help, kinds: dict[str, Help]) -> str:
    """The completion for bash: the first word of a command that has kinds, then options, and files in every other
    place."""
    function = "_" + name.replace("-", "_")
    first = f"""    if [ "$COMP_CWORD" -eq 1 ]; then
        mapfile -t COMPREPLY < <(compgen -W "{' '.join([*kinds, *longs(help)])}" -- "$word")
        return
    fi
""" if kinds else ""
    cases = "".join(f'        {kind}) options="{" ".join(longs(own))}" ;;\n' for kind, own in kinds.items())
    chosen = f'    case "${{COMP_WORDS[1]}}" in\n{cases}    esac\n' if kinds else ""
    return f"""{function}() {{
    local word="${{COMP_WORDS[COMP_CWORD]}}" options="{' '.join(longs(help))}"
{first}{chosen}    case "$word" in
        -*) mapfile -t COMPREPLY < <(compgen -W "$options" -- "$word") ;;
        *) mapfile -t COMPREPLY < <(compgen -f -- "$word") ;;
    esac
}}
complete -o filenames -F {function} {name}
"""


def zsh_arguments(help: Help) -> str:
    """What `_arguments` of zsh takes: the options of a command, and files in every other place."""
    return " \\\n        ".join([*zsh_rows(help, "_files"), "'*:file:_files'"])


def command_zsh(name: str, help: Help, kinds: dict[str, Help]) -> str:
    """The completion for zsh."""
    function = "_" + name
    if not kinds:
        return f"#compdef {name}\n{function}() {{\n    _arguments -s \\\n        {zsh_arguments(help)}\n}}\n{function} \"$@\"\n"
    cases = "".join(f"        {kind}) _arguments -s \\\n        {zsh_arguments(own)} ;;\n" for kind, own in kinds.items())
    return f"""#compdef {name}
{function}() {{
    local state line
    _arguments -C '1: :->kind' '*:: :->rest'
    case $state in
        kind) local kinds=({' '.join(kinds)}); _describe kind kinds ;;
        rest) case $line[1] in
{cases}        esac ;;
    esac
}}
{function} "$@"
"""


def command_pages(name: str) -> Pages:
    """The man page and the completions of a command."""
    help = command_help(name, [])
    kinds = {kind: command_help(name, [kind]) for kind in KINDS_OF.get(name, ())}
    return {f"{name}.1": command_man(name, help), f"{name}.bash": command_bash(name, help, kinds), f"_{name}": command_zsh(name, help, kinds)}


def all_pages(of_program: bool) -> Iterator[Pages]:
    """The pages of all commands, those of the program first."""
    if of_program:
        yield program_pages()
    yield from map(command_pages, COMMANDS)


def main() -> None:
    words = parser_of(__doc__)
    words.add_argument("--package", action="store_true", help="the package's commands alone, which want no program")
    words.add_argument("folder", metavar="FOLDER")
    given = words.parse_args()
    if not given.package:
        want_program(SOLVE_CLI)
    try:
        os.makedirs(given.folder, exist_ok=True)
        for pages in all_pages(not given.package):
            for name, text in pages.items():
                with open(os.path.join(given.folder, name), "w", encoding="utf-8") as file:
                    file.write(text)
    except OSError as error:
        stop(f"{error.filename}: {error.strerror}")


if __name__ == "__main__":
    main()
