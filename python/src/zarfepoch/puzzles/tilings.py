"""Rectangles, perhaps without some cells, that pentominoes, tetrominoes or dominoes fill, as exact covers. `pieces.py`
has boards of any shape and any pieces."""
from __future__ import annotations

from collections.abc import Collection, Iterator, Sequence

from ..boards.cells import Cell, names_of, rectangle
from ..command_line.ends import stop
from ..files.cover_files import MAX_ITEMS
from ..texts.limits import check_count
from ..texts.puzzles import Puzzle

# pieces by their names, as rows of x and dots
Pieces = dict[str, list[str]]

PENTOMINOES = {
    "F": [".xx", "xx.", ".x."], "I": ["xxxxx"], "L": ["xxxx", "x..."], "N": ["xx..", ".xxx"],
    "P": ["xx", "xx", "x."], "T": ["xxx", ".x.", ".x."], "U": ["x.x", "xxx"], "V": ["x..", "x..", "xxx"],
    "W": ["x..", "xx.", ".xx"], "X": [".x.", "xxx", ".x."], "Y": ["xxxx", ".x.."], "Z": ["xx.", ".x.", ".xx"],
}
TETROMINOES = {"I": ["xxxx"], "L": ["xxx", "x.."], "O": ["xx", "xx"], "S": [".xx", "xx."], "T": ["xxx", ".x."]}


def orientations(cells: Sequence[Cell]) -> list[list[Cell]]:
    """The different turns and flips of a piece, each moved to the origin, in a fixed order."""
    seen: list[list[Cell]] = []
    for flip in (False, True):
        piece = [(row, -column) if flip else (row, column) for row, column in cells]
        for _ in range(4):
            piece = [(column, -row) for row, column in piece]
            top, left = min(r for r, _ in piece), min(c for _, c in piece)
            moved = sorted((r - top, c - left) for r, c in piece)
            if moved not in seen:
                seen.append(moved)
    return seen


def shape(rows: list[str]) -> list[Cell]:
    """The cells of a piece."""
    return [(r, c) for r, row in enumerate(rows) for c, mark in enumerate(row) if mark == "x"]


def placements(pieces: Pieces, cells: set[Cell]) -> Iterator[list[str]]:
    """Each way to lay a piece: its name, and the names of the cells below it."""
    names = names_of(cells)
    for name, rows in pieces.items():
        for piece in orientations(shape(rows)):
            for row, column in sorted(cells):
                placed = [(row + r, column + c) for r, c in piece]
                if all(cell in cells for cell in placed):
                    yield [name] + [names[cell] for cell in placed]


def tiling(pieces: Pieces, cells: set[Cell]) -> Puzzle:
    """Each piece stands once where they have as many cells as the board together, else at most once."""
    all_stand = sum(len(shape(rows)) for rows in pieces.values()) == len(cells)
    items = (list(pieces) if all_stand else []) + list(names_of(cells).values())
    return Puzzle(items, [] if all_stand else list(pieces), list(placements(pieces, cells)))


def dominoes(cells: set[Cell]) -> Puzzle:
    """Dominoes that fill a board."""
    options: list[list[str]] = []
    names = names_of(cells)
    for r, c in sorted(cells):
        options += [[names[r, c], names[to]] for to in ((r, c + 1), (r + 1, c)) if to in cells]
    return Puzzle(list(names.values()), [], options)


def board_of(size: Cell, without: Collection[Cell]) -> set[Cell]:
    """The cells of a board of so many rows and columns, but for some."""
    cells = rectangle(*size)
    check_count(len(cells) - len(set(without)), MAX_ITEMS, "items")
    for left_out in without:
        if left_out not in cells:
            stop("the cell {},{} isn't on the board, whose rows and columns begin with 0".format(*left_out))
    return cells - set(without) or stop("no cell is left")


def polyominoes(cells: set[Cell], pieces: Pieces) -> Puzzle:
    """Pieces of as many cells each, each at most once, fill a board."""
    each = len(shape(next(iter(pieces.values()))))
    if len(cells) > each * len(pieces) or len(cells) % each:
        stop(f"{len(pieces)} pieces of {each} cells can't fill {len(cells)} cells: that is more than {each * len(pieces)}, "
             f"or no multiple of {each}")
    return tiling(pieces, cells)
