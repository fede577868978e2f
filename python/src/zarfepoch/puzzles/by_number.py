"""Puzzles that a number alone says, as exact covers: queens on a board, Langford pairs, and triples of points."""
from __future__ import annotations

import itertools
import math

from ..files.cover_files import MAX_ITEMS, MAX_OPTIONS
from ..texts.limits import check_count
from ..texts.puzzles import Lists, Puzzle


def queens(n: int) -> Puzzle:
    """Queens that attack nobody: rows and columns are primary, diagonals secondary."""
    check_count(n * n, MAX_OPTIONS, "options")
    options = [[f"r{r}", f"c{c}", f"a{r + c}", f"b{r - c + n - 1}"] for r in range(n) for c in range(n)]
    lines = [f"{kind}{k}" for kind in "rc" for k in range(n)]
    diagonals = [f"{kind}{k}" for kind in "ab" for k in range(2 * n - 1)]
    return Puzzle(lines, diagonals, options)


def langford(n: int) -> Lists:
    """Two of each number from 1 to n in a row, those of d with d places between them: the numbers, their places, and
    the pairs."""
    pairs = [[str(d), f"s{k}", f"s{k + d + 1}"] for d in range(1, n + 1) for k in range(1, 2 * n - d)]
    return [str(d) for d in range(1, n + 1)] + [f"s{k}" for k in range(1, 2 * n + 1)], [], pairs


def langford_pairs(n: int) -> Puzzle:
    """The problem of Langford pairs of 1 to n, if the program reads so large a one."""
    check_count(3 * n, MAX_ITEMS, "items")
    return Puzzle(*langford(n))


def triples(n: int) -> Puzzle:
    """Lines of three points, any two of n points on one line."""
    check_count(math.comb(n, 3), MAX_OPTIONS, "options")
    width = len(str(n))
    pairs = {pair: "".join(f"{point:0{width}}" for point in pair) for pair in itertools.combinations(range(1, n + 1), 2)}
    options = [[pairs[pair] for pair in itertools.combinations(t, 2)] for t in itertools.combinations(range(1, n + 1), 3)]
    return Puzzle(list(pairs.values()), [], options)
