"""Texts in which people bring puzzles: how files are read, how a mistake in one is reported with its line, and what is
made of them."""
from __future__ import annotations

import re
import sys
import unicodedata
from collections.abc import Iterable
from dataclasses import dataclass, field, replace
from typing import Callable, NoReturn

from ..command_line.ends import complain, stop

NO_COVER, MISTAKE, UNREADABLE = 1, 2, 3
# what a puzzle is called that stands on the command line itself
TYPED = "the sudoku"
# what the standard input had, since it can be read once
READ: dict[str, bytes] = {}
# the primary items, the secondary items and the options of a problem
Lists = tuple[list[str], list[str], list[list[str]]]


@dataclass
class Change:
    """A small change of what a puzzle gives, in its own words, as `without the 8 in row 8 column 6`, and the puzzle
    that it makes."""
    words: str
    puzzle: Callable[[], Puzzle]


@dataclass
class Puzzle:
    """A problem's items and options, what its file says of them in comments, and changes after which it may have a
    solution if it has none."""
    primary: list[str]
    secondary: list[str]
    options: list[list[str]]
    comments: list[str] = field(default_factory=list)
    changes: list[Change] = field(default_factory=list)

    def told(self, note: str) -> Puzzle:
        """The same problem, with this as its first comment."""
        return replace(self, comments=[note, *self.comments])

    def text(self) -> bytes:
        """The text of the problem's file."""
        told = "".join(f"| {comment}\n" for comment in self.comments)
        head = " ".join(self.primary) + (" | " + " ".join(self.secondary) if self.secondary else "")
        return "".join([f"{told}{head}\n"] + [" ".join(option) + "\n" for option in self.options]).encode("utf-8")


def called(path: str) -> str:
    return "the standard input" if path == "-" else path or "a file without a name"


def refuse(path: str, line: int | None, why: str) -> NoReturn:
    """Ends the script: a file can't be meant so, because of this line, or of the whole if it is None."""
    place = "" if line is None else f", line {line}"
    stop(f"{called(path)}{place}: {why}", MISTAKE if path == TYPED else UNREADABLE)
    raise AssertionError("the script has ended")


class PlainlyNone(SystemExit):
    """The end of a script: the puzzle has no solution, and that is plain without a search."""

    def __init__(self, changes: Iterable[Change]) -> None:
        super().__init__(NO_COVER)
        self.changes = list(changes)


def no_cover(why: str, changes: Iterable[Change] = ()) -> NoReturn:
    """Ends the script: the puzzle has no solution, and that is plain without a search. With some changes it may have
    one."""
    complain(why)
    raise PlainlyNone(changes)


def read_input() -> bytes:
    if sys.stdin is None:
        return stop("the standard input can't be read: it is closed", UNREADABLE)
    if "-" not in READ:
        READ["-"] = sys.stdin.buffer.read()
    return READ["-"]


def read_text(path: str) -> str:
    """The text of a file, or of the standard input, which is `-`."""
    try:
        return text_in(path, read_input() if path == "-" else bytes_of(path))
    except OSError as why:
        return stop(f"{called(path)} can't be read: {why.strerror}", UNREADABLE)


def bytes_of(path: str) -> bytes:
    with open(path, "rb") as opened:
        return opened.read()


def text_in(path: str, content: bytes) -> str:
    """The text of these bytes, in which a letter with a mark is one character wherever there is one for both, as some
    systems write two. Where they are no text in UTF-8, the script ends and says how a spreadsheet writes one."""
    if content.startswith((b"PK\3\4", b"\xd0\xcf\x11\xe0")):
        return refuse(path, None, "this is a spreadsheet's own file; save the table as CSV in UTF-8")
    try:
        return unicodedata.normalize("NFC", content.decode("utf-8-sig"))
    except UnicodeDecodeError as why:
        line = None if content.startswith((b"\xff\xfe", b"\xfe\xff")) else content.count(b"\n", 0, why.start) + 1
        return refuse(path, line, "this is no text in UTF-8; a spreadsheet saves one as 'CSV UTF-8'")


def rows_of(path: str) -> list[tuple[int, str]]:
    """The lines from the first to the last one that isn't blank, each with its number and without blanks behind it."""
    rows = [(number, line.rstrip()) for number, line in enumerate(read_text(path).splitlines(), 1)]
    some = [place for place, (_, line) in enumerate(rows) if line]
    return rows[some[0]:some[-1] + 1] if some else []


def blocks_of(path: str, between: str = "") -> list[list[tuple[int, str]]]:
    """The runs of lines that aren't blank, each line with its number; a line that begins with `|` and a blank is a
    comment. Lines that have nothing but these characters between cells are blank, too: so spreadsheets write them."""
    blocks: list[list[tuple[int, str]]] = [[]]
    for number, line in rows_of(path):
        if re.match(r"\s*\|(\s|$)", line):
            continue
        if line.strip(between + " \t"):
            blocks[-1].append((number, line))
        elif blocks[-1]:
            blocks.append([])
    return [block for block in blocks if block]
