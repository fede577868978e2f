"""Nonograms as exact covers, and how the lengths of their blocks are read."""
from __future__ import annotations

import functools
import math
import re
from collections.abc import Iterator, Sequence
from typing import Optional

from ..boards.cells import cell_names
from ..files.cover_files import MAX_OCCURRENCES, MAX_OPTIONS
from ..files.fault_words import plural
from ..texts.limits import Refused
from ..texts.puzzles import blocks_of, Change, Lists, no_cover, Puzzle, refuse

# the lengths of a line's blocks, None where they aren't known
Blocks = Optional[list[int]]


class Line:
    """A row or column of a nonogram: the lengths of its blocks, and of each cell whether it is black, None where that
    isn't settled."""

    def __init__(self, blocks: Blocks, width: int) -> None:
        self.is_told, self.blocks = blocks is not None, blocks or []
        self.known: list[Optional[bool]] = [None] * width

    def fits_block(self, place: int, length: int) -> bool:
        """Whether a block can lie here, with a white cell or the end behind it."""
        cells = self.known[place:place + length]
        behind = self.known[place + length:place + length + 1]
        return len(cells) == length and False not in cells and True not in behind

    def rests(self) -> list[list[bool]]:
        """For each cell and block, whether the cells from here on can have the blocks from this one on."""
        width, count = len(self.known), len(self.blocks)
        rest = [[False] * (count + 1) for _ in range(width + 2)]
        rest[width][count] = rest[width + 1][count] = True
        for place in reversed(range(width)):
            for k in range(count + 1):
                white = self.known[place] is not True and rest[place + 1][k]
                black = k < count and self.fits_block(place, self.blocks[k]) and rest[place + self.blocks[k] + 1][k + 1]
                rest[place][k] = bool(white or black)
        return rest

    def ways(self) -> Iterator[tuple[bool, ...]]:
        """The ways to fill it that agree with the settled cells; True is black."""
        rest, width = self.rests(), len(self.known)
        begun: list[tuple[tuple[bool, ...], int]] = [((), 0)] if rest[0][0] else []
        while begun:
            line, k = begun.pop()
            place = len(line)
            if place >= width:
                yield line[:width]
                continue
            if self.known[place] is not True and rest[place + 1][k]:
                begun.append((line + (False,), k))
            if k < len(self.blocks) and self.fits_block(place, self.blocks[k]) and rest[place + self.blocks[k] + 1][k + 1]:
                begun.append((line + (True,) * self.blocks[k] + (False,), k + 1))

    def settle(self) -> bool:
        """Settles the cells that have one colour in all ways, and says whether there were any new ones."""
        before = list(self.known)
        for place, known in enumerate(before if self.is_told else []):
            for colour in (True, False):
                self.known[place] = colour
                if known is None and not self.rests()[0][0]:
                    self.known[place] = not colour
                    break
                self.known[place] = known
        return self.known != before


def settle_all(rows: list[Line], columns: list[Line]) -> None:
    """Settles cells by one line alone, in rows and columns by turns, as long as any is new."""
    changed = True
    while changed:
        changed = False
        for lines, others in ((rows, columns), (columns, rows)):
            for k, line in enumerate(lines):
                changed |= line.settle()
                for place, colour in enumerate(line.known):
                    others[place].known[k] = colour


def line_names(rows: Sequence[Blocks], columns: Sequence[Blocks]) -> list[str]:
    """The items of all lines, rows first."""
    return [f"row{r}" for r in range(len(rows))] + [f"column{c}" for c in range(len(columns))]


def way_count(line: Line) -> int:
    """In how many ways a line can be filled, if no cell is settled."""
    spare = len(line.known) - sum(line.blocks) - max(0, len(line.blocks) - 1)
    return math.comb(spare + len(line.blocks), len(line.blocks))


def nonogram(rows: Sequence[Blocks], columns: Sequence[Blocks]) -> Lists:
    """Each row and each column whose blocks are told is filled in one of its ways; a cell's colour is black or white,
    and both its lines agree on it. Where these ways are too many, those are left out that a cell contradicts which one
    line alone settles."""
    names = cell_names(len(rows), len(columns))
    across, down = [Line(blocks, len(columns)) for blocks in rows], [Line(blocks, len(rows)) for blocks in columns]
    ways = [(way_count(line), len(line.known) + 1) for line in across + down if line.is_told]
    if sum(count for count, _ in ways) > MAX_OPTIONS or sum(count * names for count, names in ways) > MAX_OCCURRENCES:
        settle_all(across, down)
    cells = [[names[r, c] for c in range(len(columns))] for r in range(len(rows))]
    options, told = [], [name for name, line in zip(line_names(rows, columns), across + down) if line.is_told]
    for name, line, its_cells in zip(line_names(rows, columns), across + down, cells + list(map(list, zip(*cells)))):
        for way in line.ways() if line.is_told else ():
            options.append([name] + [f"{cell}:{'black' if is_black else 'white'}" for cell, is_black in zip(its_cells, way)])
            if len(options) > MAX_OPTIONS:
                raise Refused(f"its lines can be filled in more than {MAX_OPTIONS:,} ways, and the program reads no more options")
    return told, list(names.values()), options


def without_line(rows: Sequence[Blocks], columns: Sequence[Blocks]) -> list[Change]:
    """A nonogram without the numbers of each of its lines."""
    def other(kind: str, number: int) -> Puzzle:
        lines = [None if place == number else blocks for place, blocks in enumerate(rows if kind == "row" else columns)]
        return Puzzle(*(nonogram(lines, columns) if kind == "row" else nonogram(rows, lines)))

    return [Change(f"without the numbers of {kind} {k + 1}", functools.partial(other, kind, k))
            for kind, lines in (("row", rows), ("column", columns)) for k in range(len(lines))]


# ---- texts

def numbers_of(path: str, number: int, line: str, width: int) -> list[int]:
    """The lengths of a line's blocks, which fit into so many cells."""
    if not re.fullmatch(r"[\s,;]*\d{1,4}([\s,;]+\d{1,4})*[\s,;]*", line):
        refuse(path, number, "numbers are expected, with blanks, commas or semicolons between")
    blocks = [int(word) for word in re.findall(r"\d+", line) if int(word)]
    if sum(blocks) + max(0, len(blocks) - 1) > width:
        no_cover(f"{path}, line {number}: blocks of {', '.join(map(str, blocks))} need {sum(blocks) + len(blocks) - 1} cells, and there are {width}")
    return blocks


def read_blocks(path: str) -> tuple[list[Blocks], list[Blocks]]:
    """The lengths of the blocks of each row and of each column."""
    parts = blocks_of(path, ",;")
    if len(parts) != 2:
        refuse(path, None, "lines of numbers for the rows are expected, one empty line, and lines of numbers for the columns, in which a line "
               f"without black cells is 0; here {'is' if len(parts) == 1 else 'are'} {plural(len(parts), 'block')} of lines")
    if max(map(len, parts)) > 999:
        refuse(path, None, "1 to 999 rows and columns are expected")
    rows, columns = ([numbers_of(path, number, line, len(other)) for number, line in part] for part, other in zip(parts, reversed(parts)))
    across, down = (sum(sum(blocks) for blocks in lines) for lines in (rows, columns))
    if across != down:
        no_cover(f"{path}: the rows have {across} black cells and the columns {down}", without_line([*rows], [*columns]))
    return [*rows], [*columns]


def read_nonogram(path: str) -> Puzzle:
    """The nonogram of a file, and what it would be without the numbers of each of its lines."""
    rows, columns = read_blocks(path)
    return Puzzle(*nonogram(rows, columns), changes=without_line(rows, columns))
