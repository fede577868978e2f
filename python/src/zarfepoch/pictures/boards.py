"""Pictures of boards that pieces fill, flat or in layers."""
from __future__ import annotations

import functools
import re
from collections.abc import Callable
from typing import Any

from ..boards.cells import Cell, cell_of, is_connected, sheet_cell_of
from ..boards.turns import at_origin, layers_of, orientations
from .base import CELL, Kind, LARGEST, without_order
from .svg_paper import Board, FILLS, MARGIN, Paper, WIDEST

# a cell of a solid, by layer, row and column
Place = tuple[int, int, int]


def piece_of(name: str) -> str:
    """A piece's name without the number of its copy."""
    return re.sub(r"(?<=.)\.\d+$", "", name)


def names_told(comments: list[str], is_flat: bool) -> dict[tuple[Place, ...], str]:
    """The names of pieces that have no items, by their cells in each turn at the origin, as comments tell their shapes.
    A piece that isn't turned over comes before one that is."""
    found = (re.fullmatch(r"\|\s*piece (\S+): ([x./ ]*x[x./ ]*)", comment) for comment in comments)
    told = [(match[1], layers_of(match[2].split("/"))) for match in found if match]
    return {tuple(turned): name for flips in (True, False) for name, cells in told for turned in orientations(cells, is_flat, flips)}


def fill_of(area: object) -> str:
    """The colour of a piece by its number from 1; 0 is none."""
    return FILLS[(area - 1) % len(FILLS)] if isinstance(area, int) and area else "#fffdf8"


class Tiling(Kind):
    """Pieces that fill cells; at most one name of an option is that of its piece."""

    @functools.cached_property
    def cell_of(self) -> Callable[[str], Cell | None]:
        """How names of cells are read: as in a spreadsheet where the problem names none by numbers."""
        if any(map(cell_of, self.items)):
            return cell_of
        return sheet_cell_of

    def is_known(self) -> bool:
        cells = [[self.cell_of(name) for name in without_order(option)] for option in self.options]
        rows, columns = ({place[k] for place in map(self.cell_of, self.items) if place} for k in (0, 1))
        return bool(cells) and max(rows | columns, default=LARGEST) < LARGEST and all(found.count(None) <= 1 and len(found) > found.count(None) and
                                   is_connected([cell for cell in found if cell]) for found in cells)

    def board(self) -> Board:
        areas = {cell: 0 for cell in map(self.cell_of, self.items) if cell}
        labels: dict[Cell, str] = {}
        names = names_told(self.comments, True)
        for k, option in enumerate(self.chosen, 1):
            cells = [cell for cell in map(self.cell_of, option) if cell]
            told = names.get(tuple(at_origin((0, *cell) for cell in cells)), "")
            piece = next((piece_of(name) for name in without_order(option) if self.cell_of(name) is None), told)
            areas.update((cell, k) for cell in cells)
            labels.update((cell, piece) for cell in cells)
        return Board(labels, areas)

    def lines(self) -> list[str]:
        return self.board().text()

    def draw(self, paper: Paper) -> None:
        board = self.board()

        def fill(cell: Cell) -> str:
            if self.is_none:
                return "#e3dccd" if sum(cell) % 2 else "#fffdf8"
            return fill_of(board.areas[cell])

        board.draw(paper, CELL, fill)
        self.caption(paper)


class Layers(Kind):
    """Pieces that fill a solid of cells, named by layer, row and column as 0-1-2; its layers are drawn side by side. A
    piece whose name nothing tells has the number of its option, so that its parts in several layers are known."""

    CELL_NAME = re.compile(r"(\d{1,2})-(\d{1,2})-(\d{1,2})")

    def cell(self, name: str) -> Place | None:
        found = self.CELL_NAME.fullmatch(name)
        return (int(found[1]), int(found[2]), int(found[3])) if found else None

    def is_known(self) -> bool:
        cells = [[self.cell(name) for name in without_order(option)] for option in self.options]
        return bool(cells) and all(found.count(None) <= 1 and len(found) > found.count(None) for found in cells)

    def boards(self) -> list[Board]:
        """The board of each layer."""
        areas = {cell: 0 for cell in map(self.cell, self.items) if cell}
        labels: dict[Place, str] = {}
        names = names_told(self.comments, False)
        for k, option in enumerate(self.chosen, 1):
            cells = [cell for cell in map(self.cell, option) if cell]
            told = names.get(tuple(at_origin(cells)), str(k))
            piece = next((piece_of(name) for name in without_order(option) if not self.cell(name)), told)
            areas.update((cell, k) for cell in cells)
            labels.update((cell, piece) for cell in cells)
        return [Board({(r, c): label for (at, r, c), label in labels.items() if at == layer},
                      {(r, c): area for (at, r, c), area in areas.items() if at == layer}) for layer in sorted({cell[0] for cell in areas})]

    def lines(self) -> list[str]:
        return [line for k, board in enumerate(self.boards(), 1) for line in [f"layer {k}", *board.text()]]

    def draw(self, paper: Paper) -> None:
        left = top = high = 0.0
        for k, board in enumerate(self.boards(), 1):
            wide = (board.columns[-1] + 1.5) * CELL
            if left and left + wide > WIDEST - 2 * MARGIN:
                left, top, high = 0.0, top + high, 0.0
            paper.text(left, top + 8, f"layer {k}", 13, "start")
            fills = {cell: fill_of(area) for cell, area in board.areas.items()}
            board.draw(Shifted(paper, left, top + 24), CELL, fills.__getitem__)
            left, high = left + wide, max(high, (board.rows[-1] + 1.5) * CELL + 24)
        self.caption(paper)


class Shifted(Paper):
    """A sheet whose boxes, texts and lines are moved and drawn on another."""

    def __init__(self, paper: Paper, right: float, down: float) -> None:
        super().__init__(paper.title)
        self.paper, self.right_by, self.down_by = paper, right, down

    def box(self, x: float, y: float, *shape: Any, **style: Any) -> None:
        self.paper.box(x + self.right_by, y + self.down_by, *shape, **style)

    def text(self, x: float, y: float, *words: Any, **style: Any) -> None:
        self.paper.text(x + self.right_by, y + self.down_by, *words, **style)

    def line(self, x: float, y: float, to_x: float, to_y: float, *style: Any, **more: Any) -> None:
        self.paper.line(x + self.right_by, y + self.down_by, to_x + self.right_by, to_y + self.down_by, *style, **more)
