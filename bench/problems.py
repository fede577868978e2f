"""How the benches write problems, and problems that several of them search."""
from __future__ import annotations

import os
import sys
from collections.abc import Sequence
from typing import Optional

sys.path.insert(0, os.path.join(os.path.dirname(os.path.abspath(__file__)), "..", "trials"))
import built  # noqa: E402, F401 (which finds the package)
from zarfepoch import generate  # noqa: E402
from zarfepoch.boards.cells import Cell, names_of  # noqa: E402
from zarfepoch.texts.limits import check_range  # noqa: E402
from zarfepoch.texts.puzzles import Puzzle  # noqa: E402


def put(folder: str, name: str, note: str, puzzle: Puzzle) -> None:
    """Writes a problem that the program reads into a folder, with this as its first comment."""
    check_range(puzzle)
    generate.write(puzzle.told(note), os.path.join(folder, f"{name}.dlx"))


def write(path: str, primary: Sequence[str], options: list[list[str]], secondary: Optional[Sequence[str]] = None) -> None:
    """Writes a problem. Where no secondary items are given, they are the others that options name, in the order of
    their names."""
    if secondary is None:
        secondary = sorted({name for option in options for name in option}.difference(primary))
    with open(path, "wb") as file:
        file.write(Puzzle([*primary], [*secondary], options).text())


def write_primary(path: str, options: list[list[str]]) -> None:
    """Writes a problem all of whose items are primary, in the order of their names."""
    write(path, sorted({name for option in options for name in option}), options, [])


def straight(cells: set[Cell], length: int) -> tuple[list[str], list[list[str]]]:
    """A board's cells as items, and as options straight pieces of so many of them: first those in rows, then those in
    columns."""
    names = names_of(cells)
    across = [[(row, column + k) for k in range(length)] for row, column in sorted(cells)]
    down = [[(row + k, column) for k in range(length)] for row, column in sorted(cells)]
    return list(names.values()), [[names[cell] for cell in piece] for piece in across + down if cells.issuperset(piece)]
