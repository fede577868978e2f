"""Pieces by their cells in layers, rows and columns: how rows of x and dots show them, and the ways to turn them."""
from __future__ import annotations

import itertools
from collections.abc import Iterable, Sequence

# a cell by layer, row and column
Cell = tuple[int, int, int]


def layers_of(rows: list[str]) -> list[Cell]:
    """The cells of rows of x and dots, whose words are layers side by side."""
    return [(layer, r, c) for r, row in enumerate(rows) for layer, word in enumerate(row.split()) for c, mark in enumerate(word) if mark in "xX"]


def turns(is_flat: bool, flips: bool) -> list[tuple[tuple[int, ...], tuple[int, ...]]]:
    """The ways to turn a piece, each as an order of the axes and their signs."""
    ways = []
    for order in itertools.permutations(range(3)):
        for signs in itertools.product((1, -1), repeat=3):
            odd = sum(order[a] > order[b] for a, b in itertools.combinations(range(3), 2)) + signs.count(-1)
            is_turn = odd % 2 == 0
            if order[0] == 0 and signs[0] == 1 and (flips or is_turn) if is_flat else is_turn:
                ways.append((order, signs))
    return ways


def minus(cell: Sequence[int], other: Sequence[int]) -> Cell:
    """What leads from one cell to another."""
    return cell[0] - other[0], cell[1] - other[1], cell[2] - other[2]


def orientations(cells: list[Cell], is_flat: bool, flips: bool) -> list[list[Cell]]:
    """The different turns of a piece, each moved to the origin."""
    seen: list[list[Cell]] = []
    for order, signs in turns(is_flat, flips):
        moved = at_origin([tuple(sign * cell[axis] for axis, sign in zip(order, signs)) for cell in cells])
        if moved not in seen:
            seen.append(moved)
    return sorted(seen)


def at_origin(cells: Iterable[Sequence[int]]) -> list[Cell]:
    """The cells moved to the origin."""
    places = list(cells)
    least = [min(cell[k] for cell in places) for k in range(3)]
    return sorted(minus(cell, least) for cell in places)
