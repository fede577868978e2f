"""What the help of a command says, read from what it prints: that of the program solve_cli, and that of a command of
the package. For help_pages.py."""
from __future__ import annotations

import os
import re
import subprocess
import sys
from dataclasses import dataclass, field

sys.path.insert(0, os.path.join(os.path.dirname(os.path.abspath(__file__)), "..", "trials"))
from built import SOLVE_CLI, TOP, stop  # noqa: E402
from zarfepoch.commands import COMMANDS  # noqa: E402

PROGRAM = "solve_cli"
SECTIONS = {"positional arguments:": "arguments", "options:": "options", "optional arguments:": "options"}


@dataclass
class Row:
    """An option with its names, `--long` last, or an argument; the name of its value, if it takes one, and what it is
    for."""
    names: list[str]
    value: str
    text: str


@dataclass
class Help:
    """What the help of a command says: how it is called, what it is in a line, its text, what it has below it, its
    arguments and its options."""
    usage: str = ""
    about: str = ""
    text: list[str] = field(default_factory=list)
    commands: list[str] = field(default_factory=list)
    arguments: list[Row] = field(default_factory=list)
    options: list[Row] = field(default_factory=list)


def printed(words: list[str], **environment: str) -> str:
    """What a command prints for these words and `--help`."""
    ran = subprocess.run([*words, "--help"], capture_output=True, text=True, env={**os.environ, **environment})
    if ran.returncode != 0:
        stop(f"the help of {os.path.basename(words[0])} ends with status {ran.returncode}: {ran.stderr}")
    return ran.stdout


def split_row(line: str) -> tuple[str, list[str], str]:
    """What a line of help shows, its options there, and what it says of them."""
    shown, _, text = re.sub(r"\s{2,}", "\n", line.strip(), count=1).partition("\n")
    return shown, re.findall(r"--?[A-Za-z][A-Za-z-]*", shown), text


def program_option(line: str) -> Row:
    """The option that a line of the program's help shows."""
    shown, names, text = split_row(line)
    value = re.search(r"<(.*?)>", shown)
    return Row(names, value[1] if value else "", text)


def program_help(words: list[str]) -> Help:
    """The help of the program, or of one of its commands, read paragraph by paragraph."""
    help = Help()
    for number, paragraph in enumerate(printed([SOLVE_CLI, *words]).strip().split("\n\n")):
        head, *lines = paragraph.splitlines()
        rows = {name: text.strip() for name, _, text in (line.strip().partition(" ") for line in lines if line.strip())}
        if head.startswith("Usage: "):
            help.usage = head.removeprefix("Usage: ")
        elif head == "Commands:":
            help.commands = [name for name in rows if name != "help"]
        elif head == "Arguments:":
            help.arguments = [Row([name.strip("<>")], "", text) for name, text in rows.items()]
        elif head == "Options:":
            help.options = [program_option(line) for line in lines]
        elif number == 0:
            help.about = paragraph
        else:
            help.text.append(paragraph)
    return whole(help, " ".join([PROGRAM, *words]))


def command_row(line: str) -> Row:
    """The option or argument that a line of a command's help shows."""
    shown, names, text = split_row(line)
    value = re.sub(r"^(--?[A-Za-z][A-Za-z-]*,? ?)+", "", shown)
    return Row(names or [shown], value if names else "", text)


def command_help(name: str, words: list[str]) -> Help:
    """The help of a command of the package, or of one of its kinds, read line by line."""
    code = f"import sys; sys.argv[0] = {name!r}; from zarfepoch.commands import command_of; command_of({COMMANDS[name]!r})()"
    text = printed([sys.executable, "-c", code, *words], PYTHONPATH=os.path.join(TOP, "python", "src"), COLUMNS="10000")
    help, section = Help(), "text"
    first, *lines = text.rstrip().split("\n")
    help.usage = first.partition("usage: ")[2]
    for line in lines:
        if line in SECTIONS:
            section = SECTIONS[line]
        elif section == "text":
            help.text.append(line)
        elif line.strip():
            (help.arguments if section == "arguments" else help.options).append(command_row(line))
    help.about = " ".join(help.text).strip().split(". ")[0].rstrip(".:")
    return whole(help, name)


def whole(help: Help, name: str) -> Help:
    """A help that has been read; ends where it lacks what each one has."""
    if not help.usage or not help.options:
        stop(f"the help of {name} has no usage or no options")
    return help


def longs(help: Help) -> list[str]:
    """The options of a command, by their long names."""
    return [row.names[-1] for row in help.options]
