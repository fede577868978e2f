"""The arguments and options that kinds of problems take on their command lines."""
from __future__ import annotations

import argparse
import re
from typing import Any

from ..boards.cells import Cell


class Argument:
    """An argument or an option, by its name and what argparse is told of it. `is_text` says that it gives the puzzle
    itself, most often in a file."""

    def __init__(self, name: str, is_text: bool = False, **told: Any) -> None:
        self.name, self.is_text, self.told = name, is_text, told

    def add_to(self, parser: argparse.ArgumentParser) -> None:
        """Adds it to a command line."""
        parser.add_argument(self.name, **self.told)


# ---- values

def whole_number(text: str) -> int:
    """A number from 1 with at most four digits."""
    if not re.fullmatch(r"[1-9][0-9]{0,3}", text):
        raise argparse.ArgumentTypeError(f"'{text}' is no number from 1 to 9999")
    return int(text)


def size(text: str) -> Cell:
    """How many rows and columns there are."""
    found = re.fullmatch(r"([1-9][0-9]{0,2})x([1-9][0-9]{0,2})", text)
    if not found:
        raise argparse.ArgumentTypeError(f"'{text}' is no size: rows and columns are expected, as in 5x12")
    return int(found[1]), int(found[2])


def cell(text: str) -> Cell:
    """A cell by row and column."""
    found = re.fullmatch(r"([0-9]{1,3}),([0-9]{1,3})", text)
    if not found:
        raise argparse.ArgumentTypeError(f"'{text}' is no cell: row and column from 0 are expected, as in 0,7")
    return int(found[1]), int(found[2])


# ---- arguments

def number(what: str) -> Argument:
    """The number that a whole puzzle follows from."""
    return Argument("n", metavar="N", type=whole_number, help=what)


def file(what: str, name: str = "FILE") -> Argument:
    """The file that a puzzle is in."""
    return Argument("file", is_text=True, metavar=name, help=what)


SUDOKU = Argument("given", is_text=True, metavar="FILE-or-characters", help="digits, and dots or zeros for empty cells")
# a size, and what is left out
BOARD = (Argument("size", metavar="ROWSxCOLUMNS", type=size, help="as in 5x12"),
         Argument("--without", metavar="ROW,COLUMN", type=cell, nargs="+", action="extend", default=[], help="cells that are left out, from 0,0"))

# ---- options

PIECES = Argument("--pieces", metavar="FILE-or-NAMES", default="pentominoes", help=(
    "a file of names and rows of x and dots, or names as 'F 3*L4', pentominoes, tetrominoes, trominoes, dominoes, soma"))
NO_FLIPS = Argument("--no-flips", action="store_true", help="flat pieces are turned, but not turned over")
DIAGONALS = Argument("--diagonals", action="store_true", help="both diagonals have each digit too")
HYPER = Argument("--hyper", action="store_true", help="four windows of 3 by 3 cells have each digit too, one cell from the edge")
BOXES = Argument("--boxes", metavar="ROWSxCOLUMNS", type=size, help="how many rows and columns a box has, as 4x3")
STARS = Argument("--stars", metavar="N", type=whole_number, default=1, help="how many in each row (default 1)")
LINES_ALIKE = Argument("--alike", action="store_true", help="two rows, or two columns, may be alike")
REPEAT = Argument("--repeat", action="store_true", help="a word may come more than once")
IGNORE_CASE = Argument("--ignore-case", action="store_true", help="capital and small letters are alike")
COLORS = Argument("--colors", default="red,green,blue", help="the colours, with commas (default red,green,blue)")
BORDER = Argument("--border", metavar="COLOUR", help="the colour of all sides that look outwards")
RULES = Argument("--rules", metavar="FILE.csv", help="who can be had when, and how many periods and holes they may have")
KEEP = Argument("--keep", metavar="PLAN.csv", help="a plan whose places are tried first, as zarfepoch-draw --csv writes one")
SEED = Argument("--seed", metavar="N", type=whole_number, help=(
    "draws the order of the options by lot: where a search doesn't end, another N may help"))
