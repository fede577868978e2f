"""The kinds of puzzles that are drawn by lot, and the puzzles of a seed."""
from __future__ import annotations

import functools
import random
from collections.abc import Sequence
from typing import Callable, Union

import drawn_puzzles

# the texts of a puzzle, and a test of the lines that are drawn
Puzzle = tuple[Sequence[str], Callable[[list[str]], bool]]
# how each kind is drawn by lot, and what generate.py wants behind the file
PUZZLES: dict[str, tuple[Callable[[random.Random], Union[drawn_puzzles.Drawn, drawn_puzzles.DrawnTwice]], list[str], list[str]]] = {
    **{f"sudoku of {size}": (functools.partial(drawn_puzzles.sudoku, size=size), ["sudoku"], []) for size in (4, 6, 9, 12, 16)},
    "diagonals": (drawn_puzzles.diagonals, ["sudoku"], ["--diagonals"]), "hyper": (drawn_puzzles.hyper, ["sudoku"], ["--hyper"]),
    "jigsaw": (drawn_puzzles.jigsaw, ["jigsaw"], []),
    "killer": (drawn_puzzles.killer, ["killer"], []), "kakuro": (drawn_puzzles.kakuro, ["kakuro"], []), "stars": (drawn_puzzles.stars, ["stars"], []),
    "two stars": (functools.partial(drawn_puzzles.stars, size=10, count=2), ["stars"], ["--stars", "2"]),
    "three stars": (lambda draw: drawn_puzzles.stars(random.Random(1), 14, 3), ["stars"], ["--stars", "3"]),
    "nonogram": (drawn_puzzles.nonogram, ["nonogram"], []), "large nonogram": (lambda draw: drawn_puzzles.nonogram(draw, 25), ["nonogram"], []),
    "crossword": (drawn_puzzles.crossword, ["crossword"], []), "board": (drawn_puzzles.board, ["board"], []),
    "solid": (drawn_puzzles.solid, ["board"], []),
}


@functools.lru_cache(maxsize=None)
def drawn_by_lot(seed: int, times: int) -> dict[str, list[Puzzle]]:
    """So many puzzles of each kind."""
    draw, found = random.Random(seed), dict[str, list[Puzzle]]()
    for kind, (drawn, _, _) in PUZZLES.items():
        found[kind] = []
        for _ in range(times):
            text, is_right = drawn(draw)
            found[kind].append((text if isinstance(text, tuple) else (text,), is_right))
    return found
