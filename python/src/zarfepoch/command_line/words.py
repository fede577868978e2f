"""What the commands of the package have in common: their help, and the words of their command lines."""
from __future__ import annotations

import argparse
import difflib
import os
import re
import sys
from typing import NoReturn, Optional


TOOL = re.compile(r"\bzarfepoch-(another|check-certificate|check-reason|draw|explain|generate|join|split|why-none)\b")


# what the parser says of a word that it doesn't know; commands of the program, which are no kinds of puzzles
UNKNOWN = re.compile(r"invalid choice: '([^']*)' \(choose from (.*)\)$")
OF_PROGRAM = ("answer", "alone", "check", "learn", "simulate", "solve", "why")


def as_called(text: str) -> str:
    """A text that names the tools as they are installed, `zarfepoch-explain`; in their place are modules, or the words
    of the launcher in a clone, if the command was called so."""
    main = sys.modules["__main__"]
    launcher = getattr(main, "LAUNCHER", None)
    if launcher is not None:
        return TOOL.sub(rf"{launcher} \1", text)
    if getattr(main, "__spec__", None) is not None:
        return TOOL.sub(lambda found: "python3 -m zarfepoch." + found[1].replace("-", "_"), text)
    return text


def called() -> str:
    """The words that this command was called by, for its usage and in front of what it says on standard error: those of
    the launcher in a clone, else its name on the path, or that of a module. Where the command zarfepoch was asked for a
    tool, the tool is the last of them."""
    launcher: Optional[str] = getattr(sys.modules["__main__"], "LAUNCHER", None)
    own = launcher or os.path.basename(sys.argv[0]).removesuffix(".py")
    return sys.argv[0] if sys.argv[0].startswith(f"{own} ") else own


def meant_by(word: str, choices: list[str]) -> str:
    """What may be meant by a word that is none of these, for the end of a message."""
    if word in OF_PROGRAM:
        return f"; {word} is a command of the program: solve_cli {word} .."
    near = difflib.get_close_matches(word, choices, 1)
    return f"; did you mean {near[0]}?" if near else ""


class CommandLine(argparse.ArgumentParser):
    """A command line that says what may be meant by a word that it doesn't know."""

    def error(self, message: str) -> NoReturn:
        """Ends the command with status 2 and tells why."""
        found = UNKNOWN.search(message)
        super().error(message + (meant_by(found[1], re.findall(r"[\w-]+", found[2])) if found else ""))


def parser_of(text: Optional[str]) -> argparse.ArgumentParser:
    """A command line whose help is this text as it stands."""
    return CommandLine(prog=called(), description=as_called(text or ""),
                       formatter_class=argparse.RawDescriptionHelpFormatter)


def number_from_one(text: str) -> int:
    """A number from 1 on the command line."""
    if not re.fullmatch("[1-9][0-9]*", text):
        raise argparse.ArgumentTypeError(f"'{text}' is no number from 1")
    return int(text)
