"""Cells of boards by row and column, their names in problems, how such names are read, and what cells are called."""
from __future__ import annotations

import functools
import re
from collections.abc import Iterable

Cell = tuple[int, int]


def rectangle(rows: int, columns: int) -> set[Cell]:
    """The cells of a board of so many rows and columns."""
    return {(r, c) for r in range(rows) for c in range(columns)}


def names_of(cells: set[Cell]) -> dict[Cell, str]:
    """The names of cells by row and column, each with as many digits as the greatest has."""
    width = len(str(max((max(cell) for cell in cells), default=0)))
    return {(r, c): f"{r:0{width}}{c:0{width}}" for r, c in sorted(cells)}


def cell_names(rows: int, columns: int) -> dict[Cell, str]:
    """The same of all cells of a board of so many rows and columns."""
    return names_of(rectangle(rows, columns))


@functools.lru_cache(maxsize=1 << 16)
def cell_of(name: str) -> Cell | None:
    """The row and the column that a name tells, as 07, 0011 or 3-12; None where it tells none."""
    if re.fullmatch(r"\d+", name) and len(name) % 2 == 0:
        return int(name[:len(name) // 2]), int(name[len(name) // 2:])
    found = re.fullmatch(r"(\d+)-(\d+)", name)
    return (int(found[1]), int(found[2])) if found else None


def known_cell(name: str) -> Cell:
    """The same of a name that is known to be one of a cell."""
    cell = cell_of(name)
    if cell is None:
        raise ValueError(f"{name} is no cell")
    return cell


def sheet_cell_of(name: str) -> Cell | None:
    """The same of a name as A1 or C12, whose letter is the column and whose number the row, as in a spreadsheet."""
    found = re.fullmatch(r"([A-Z])([1-9]\d{0,2})", name)
    return (int(found[2]) - 1, ord(found[1]) - ord("A")) if found else None


def cell_words(cell: Cell, added: int = 1) -> str:
    """A cell as people count, from 1; so much is added to its numbers."""
    return f"row {cell[0] + added} column {cell[1] + added}"


def is_connected(cells: Iterable[Cell]) -> bool:
    """Whether the cells hang together by their edges."""
    left = set(cells)
    count, reached = len(left), list[Cell]()
    while left and (reached or len(left) == count):
        r, c = reached.pop() if reached else left.pop()
        near = {(r + a, c + b) for a, b in ((0, 1), (1, 0), (0, -1), (-1, 0))} & left
        left -= near
        reached += near
    return not left
