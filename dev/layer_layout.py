"""Where each crate is in the picture of the layers: rows, the order in a row, and the places of boxes and of lines
between them.

A row has the crates of one layer that are equally deep in it. A line that passes a row has a node there; all lines down
to one crate share theirs, as a trunk. A node is a crate and a row: the crate itself in its own row, and its trunk in
each row above.
"""
from __future__ import annotations

from collections.abc import Iterable, Sequence
from math import fsum

from crate_layers import Crates

Node = tuple[str, int]
# how wide a box and a trunk are, with the space beside them
BOX, TRUNK = 134.0, 26.0
# how often orders and places are improved
SWEEPS, ROUNDS = 24, 4_000


def rows_of(crates: Crates) -> list[list[str]]:
    """The crates of each row, lowest first."""
    rows = []
    for layer in crates.layers:
        depths = [crates.depth(crate, layer.crates) for crate in layer.crates]
        rows += [[crate for crate, depth in zip(layer.crates, depths) if depth == level] for level in range(max(depths, default=-1) + 1)]
    return rows


def mean(values: Sequence[float], otherwise: float) -> float:
    """The mean of the values, if there are any. The sum is exact, so that each Python draws the same."""
    return fsum(values) / len(values) if values else otherwise


def pooled(wanted: Iterable[tuple[float, float]]) -> list[float]:
    """The ascending numbers nearest to those wanted, each of which has a weight."""
    blocks: list[tuple[float, float, int]] = []
    for value, weight in wanted:
        blocks.append((value, weight, 1))
        while len(blocks) > 1 and blocks[-2][0] > blocks[-1][0]:
            (first, heavy, many), (second, light, few) = blocks[-2:]
            blocks[-2:] = [((first * heavy + second * light) / (heavy + light), heavy + light, many + few)]
    return [value for value, _, count in blocks for _ in range(count)]


def crossings(pairs: Sequence[tuple[int, int]]) -> int:
    """How many of the lines between two rows cross, each given by the places of its ends."""
    return sum((a - c) * (b - d) < 0 for k, (a, b) in enumerate(pairs) for c, d in pairs[:k])


class Layout:
    """The places of all nodes between a left and a right end."""

    def __init__(self, crates: Crates, left: float, right: float) -> None:
        self.left, self.right = left, right
        self.rows: list[list[Node]] = [[(crate, row) for crate in names] for row, names in enumerate(rows_of(crates))]
        self.row_of = {crate: row for names in self.rows for crate, row in names}
        # pairs of a node and one in the row below it
        self.lines: set[tuple[Node, Node]] = set()
        self.down: dict[Node, list[Node]] = {}
        self.up: dict[Node, list[Node]] = {}
        for crate in self.row_of:
            self.add_lines(crate, crates.direct(crate))
        self.index()
        self.improve_order()
        self.x = self.first_places()
        self.improve_places()

    def is_box(self, node: Node) -> bool:
        """Whether a node is a crate itself."""
        return self.row_of[node[0]] == node[1]

    def add_lines(self, crate: str, used: list[str]) -> None:
        """Adds the lines of a crate to what it uses."""
        for it in used:
            row, low = self.row_of[crate], self.row_of[it]
            chain = [(crate, row), *((it, level) for level in range(row - 1, low - 1, -1))]
            self.lines.update(zip(chain, chain[1:]))

    def index(self) -> None:
        """Puts the trunks into their rows, and lists the neighbours of each node."""
        for upper, lower in sorted(self.lines):
            self.down.setdefault(upper, []).append(lower)
            self.up.setdefault(lower, []).append(upper)
            if not self.is_box(lower) and lower not in self.rows[lower[1]]:
                self.rows[lower[1]].append(lower)

    def crossed(self, row: int) -> int:
        """How many lines cross between this row and the one below."""
        if not 0 < row < len(self.rows):
            return 0
        place = {node: k for k, node in enumerate(self.rows[row - 1])}
        return crossings([(k, place[low]) for k, node in enumerate(self.rows[row]) for low in self.down.get(node, [])])

    def all_crossed(self) -> int:
        """How many lines cross."""
        return sum(self.crossed(row) for row in range(len(self.rows)))

    def sort_row(self, row: int, other: int) -> None:
        """Orders a row by the places of what its nodes are connected to in another row."""
        beside = self.down if other < row else self.up
        place = {node: float(k) for k, node in enumerate(self.rows[other])}
        own = {node: float(k) for k, node in enumerate(self.rows[row])}
        self.rows[row].sort(key=lambda node: mean([place[it] for it in beside.get(node, [])], own[node]))

    def swap_in_row(self, row: int) -> None:
        """Swaps neighbours in a row wherever that takes crossings away."""
        nodes = self.rows[row]
        for k in range(len(nodes) - 1):
            before = self.crossed(row) + self.crossed(row + 1)
            nodes[k], nodes[k + 1] = nodes[k + 1], nodes[k]
            if self.crossed(row) + self.crossed(row + 1) >= before:
                nodes[k], nodes[k + 1] = nodes[k + 1], nodes[k]

    def sweep(self, upward: bool) -> None:
        """Orders each row by the one before it, going up or down."""
        step = 1 if upward else -1
        order = range(len(self.rows))[::step]
        for row in order[1:]:
            self.sort_row(row, row - step)
            self.swap_in_row(row)

    def improve_order(self) -> None:
        """Finds an order in which few lines cross."""
        best, least = [list(row) for row in self.rows], self.all_crossed()
        for sweep in range(SWEEPS):
            self.sweep(sweep % 2 == 0)
            if self.all_crossed() < least:
                best, least = [list(row) for row in self.rows], self.all_crossed()
        self.rows = best

    def width(self, node: Node) -> float:
        """How wide a node is."""
        return BOX if self.is_box(node) else TRUNK

    def offsets(self, row: Sequence[Node]) -> list[float]:
        """How far the middle of each node of a row is from the row's left end at least."""
        widths = [self.width(node) for node in row]
        return [sum(widths[:k]) + wide / 2 for k, wide in enumerate(widths)]

    def first_places(self) -> dict[Node, float]:
        """Rows side by side, each in the middle."""
        middle = (self.left + self.right) / 2
        return {node: middle + offset - sum(map(self.width, row)) / 2
                for row in self.rows for node, offset in zip(row, self.offsets(row))}

    def wanted(self, node: Node) -> tuple[float, float]:
        """The place that a node wants between its neighbours, and how much: a trunk wants to be straight above its
        crate."""
        if not self.is_box(node):
            trunk = [it for it in self.x if it[0] == node[0]]
            return mean([self.x[it] for it in trunk], self.x[node]), 8.0
        beside = self.up.get(node, []) + self.down.get(node, [])
        return mean([self.x[it] for it in beside], self.x[node]), 1.0

    def place_row(self, row: Sequence[Node]) -> None:
        """Gives the nodes of a row the places nearest to those that they want."""
        if not row:
            return
        offsets = self.offsets(row)
        wanted = [(place - offset, weight) for (place, weight), offset in zip(map(self.wanted, row), offsets)]
        last = self.right - sum(map(self.width, row))
        found = [min(max(start, self.left), last) + offset for start, offset in zip(pooled(wanted), offsets)]
        self.x.update(zip(row, found))

    def improve_places(self) -> None:
        """Moves the nodes until lines are nearly straight."""
        for turn in range(ROUNDS):
            row = turn % (2 * len(self.rows))
            self.place_row(self.rows[min(row, 2 * len(self.rows) - 1 - row)])
