"""Pictures of sudokus: of any size, with boxes or other regions, with diagonals and with cages."""
from __future__ import annotations

import functools
import re

from ..boards.boxes import BOXES
from ..boards.cells import Cell
from ..files.fault_words import with_article
from .base import CELL, Kind, Names
from .svg_paper import ACCENT, Board, INK, Paper
from .terminal_text import on_right, widest

EMPTY, GIVEN, DIAGONAL, DIAGONAL_GIVEN = "#fffdf8", "#ebe6da", "#e3edf7", "#d5dfe6"


def boxes(size: int) -> dict[Cell, int]:
    """The box of each cell."""
    high, wide = BOXES[size]
    return {(r, c): r // high * (size // wide) + c // wide for r in range(size) for c in range(size)}


class Regions(Board):
    """A board with walls between regions that are known, and none round a cell whose region isn't."""

    def differ(self, cell: Cell, other: Cell) -> bool:
        regions = {self.areas.get(cell), self.areas.get(other)}
        return len(regions) > 1 and (-1 not in regions or None in regions)


class Sudoku(Kind):
    """A sudoku by what rows, columns, regions and perhaps diagonals and cages still lack; given digits stand in a
    comment, or are those that rows, columns and boxes don't lack."""

    def is_known(self) -> bool:
        digits = [option for option in self.options if option[0][0] == "p"]
        cages = [option for option in self.options if option[0][0] == "k"]
        width = {len(option[0]) - 1 for option in digits}
        return bool(digits) and not self.secondary() and len(digits) + len(cages) == len(self.options) and width in ({2}, {4}) and self.all_match(
            r"[prcbh]\d{2}|[xy]\d|k\d+(\.\d)?" if width == {2} else r"[prcb]\d{4}|[xy]\d\d") and all(
            [name[0] for name in option][:4] == ["p", "r", "c", "b"] and {name[0] for name in option[4:]} <= set("xykh")
            for option in digits) and all({name[0] for name in option} == {"k"} for option in cages) and self.has_square()

    def has_square(self) -> bool:
        """Whether row and column say the same as the cell, and the digit is the same in all, within the size."""
        return all(option[1][1:1 + self.width] + option[2][1:1 + self.width] == option[0][1:] and
                   len({name[-self.width:] for name in option[1:4]}) == 1 for option in self.placing)

    @functools.cached_property
    def placing(self) -> list[Names]:
        """The options that put a digit into a cell."""
        return [option for option in self.options if option[0][0] == "p"]

    @functools.cached_property
    def width(self) -> int:
        """How many digits a number has in names."""
        return (len(self.placing[0][0]) - 1) // 2

    def cell(self, option: Names) -> Cell:
        name = option[0][1:]
        return int(name[:self.width]), int(name[self.width:])

    def item_words(self, item: str) -> str:
        kind, width = item[0], self.width
        if kind == "k":
            return self.cage_words(item)
        if kind == "p":
            return f"row {int(item[1:1 + width]) + 1} column {int(item[1 + width:]) + 1}"
        digit = self.mark_of(int(item[-width:]))
        if kind in "xy":
            return f"{with_article(digit)} on the diagonal from the {'left' if kind == 'x' else 'right'} above"
        house, number = {"r": "row", "c": "column", "b": "box" if self.has_boxes() else "region", "h": "window"}[kind], int(item[1:1 + width])
        return f"{with_article(digit)} in {house} {self.region_marks[number] if house == 'region' and number < len(self.region_marks) else number + 1}"

    def mark_of(self, digit: int) -> str:
        """A digit as it is written here."""
        marks = self.told("digits")
        return marks[digit - 1] if 0 < digit <= len(marks) else str(digit)

    def cage_words(self, item: str) -> str:
        """A cage by its first cell, or a digit of it."""
        cage, dot, digit = item.partition(".")
        cells = [self.cell(option) for option in self.placing if any(name.partition(".")[0] == cage for name in option)]
        r, c = min(cells, default=(0, 0))
        return (f"the digit {digit} in" if dot else "the digits of") + f" the cage that begins in row {r + 1} column {c + 1}"

    # ---- what comments tell

    def told(self, key: str) -> str:
        """What a comment says behind this key; nothing where none does."""
        return next((comment.partition(f"{key}: ")[2] for comment in self.comments if re.match(rf"\|\s*{key}: ", comment)), "")

    @functools.cached_property
    def rows_told(self) -> list[list[str]] | None:
        """Rows of given marks by the comment, if it tells as many rows as columns and its empty cells are those of the
        problem."""
        text = self.told("given")
        rows = [row.split() for row in text.split(" / ")] if " / " in text else [list(row) for row in text.split()]
        open_cells = {self.cell(option) for option in self.placing}
        if not rows or any(len(row) != len(rows) for row in rows):
            return None
        empty = {(r, c) for r, row in enumerate(rows) for c, mark in enumerate(row) if mark == "."}
        return rows if empty <= open_cells and (empty == open_cells or self.has_cages) else None

    @functools.cached_property
    def has_cages(self) -> bool:
        return any(item[0] == "k" for item in self.items)

    @functools.cached_property
    def size(self) -> int:
        """The number of rows: as the comment tells, or nine where the boxes are those of nine, or else as great as any
        name."""
        if self.rows_told:
            return len(self.rows_told)
        numbers = [int(name[1:1 + self.width]) + 1 for option in self.placing for name in option[1:4]]
        greatest = max(numbers + [int(option[1][1 + self.width:]) for option in self.placing])
        return 9 if greatest <= 9 and self.fits(boxes(9)) else greatest

    def fits(self, regions: dict[Cell, int]) -> bool:
        """Whether each option names the region that its cell has here."""
        return all(regions.get(self.cell(option)) == int(option[3][1:1 + self.width]) for option in self.placing)

    @functools.cached_property
    def region_marks(self) -> list[str]:
        """The marks that a comment gives regions, in the order of their first cells."""
        return list(dict.fromkeys(self.told("regions").replace(" ", "")))

    @functools.cached_property
    def regions(self) -> dict[Cell, int]:
        """The region of each cell, -1 where nothing tells it."""
        rows, marks = self.told("regions").split(), self.region_marks
        told = {(r, c): marks.index(mark) for r, row in enumerate(rows) for c, mark in enumerate(row)}
        if len(told) == self.size ** 2 and self.fits(told):
            return told
        if self.size in BOXES and self.fits(boxes(self.size)):
            return boxes(self.size)
        found = {cell: -1 for cell in self.board_cells()}
        found.update((self.cell(option), int(option[3][1:1 + self.width])) for option in self.placing)
        return found

    def board_cells(self) -> list[Cell]:
        return [(r, c) for r in range(self.size) for c in range(self.size)]

    def has_boxes(self) -> bool:
        return self.size in BOXES and self.regions == boxes(self.size)

    # ---- digits

    def givens(self) -> dict[Cell, str]:
        """The digits of the cells that aren't items."""
        if self.rows_told:
            return {(r, c): mark for r, row in enumerate(self.rows_told) for c, mark in enumerate(row) if mark != "."}
        open_cells = {self.cell(option) for option in self.placing} | {
            (int(item[1:1 + self.width]), int(item[1 + self.width:])) for item in self.items if item[0] == "p"}
        cells = [cell for cell in self.board_cells() if cell not in open_cells]
        return self.commented(cells) or self.derived(cells)

    def commented(self, cells: list[Cell]) -> dict[Cell, str] | None:
        """Those that a comment tells by 81 digits and dots, if it tells just these cells."""
        for marks in re.findall(r"(?<![1-9.])[1-9.]{81}(?![1-9.])", " ".join(self.comments)):
            given = {(k // 9, k % 9): mark for k, mark in enumerate(marks) if mark != "."}
            if list(given) == cells:
                return given
        return None

    def derived(self, cells: list[Cell]) -> dict[Cell, str]:
        """Those that follow from what rows, columns and regions lack; an empty text where one doesn't follow."""
        lacking, digits_of = set(self.items), {}
        every = [f"{digit:0{self.width}}" for digit in range(1, self.size + 1)]
        houses = {(r, c): [f"r{r:0{self.width}}", f"c{c:0{self.width}}", self.region_house((r, c))] for r, c in cells}
        for cell in cells:
            digits_of[cell] = {digit for digit in every if not any(house + digit in lacking for house in houses[cell])}
        changed = True
        while changed:
            before = sum(map(len, digits_of.values()))
            for cell in cells:
                self.narrow(digits_of, houses, cell)
            changed = sum(map(len, digits_of.values())) < before
        return {cell: self.mark("".join(found)) if len(found) == 1 else "" for cell, found in digits_of.items()}

    def region_house(self, cell: Cell) -> str:
        """The beginning of the items of a cell's region, and a name of its own where that isn't known."""
        region = self.regions[cell]
        return f"b{region:0{self.width}}" if region >= 0 else f"region of {cell}: "

    @staticmethod
    def narrow(digits: dict[Cell, set[str]], houses: dict[Cell, list[str]], cell: Cell) -> None:
        """Takes from a cell's digits those of its fellows, and leaves one that no fellow in a house can have."""
        for k in range(3):
            fellows = [other for other in digits if other != cell and houses[other][k] == houses[cell][k]]
            digits[cell] -= {d for other in fellows if len(digits[other]) == 1 for d in digits[other]} if len(digits[cell]) > 1 else set()
            alone = digits[cell] - set().union(*(digits[other] for other in fellows)) if fellows else set(digits[cell])
            digits[cell] = alone if len(alone) == 1 else digits[cell]

    def mark(self, digit: str) -> str:
        """A digit as the puzzle writes it."""
        symbols = self.told("digits")
        return symbols[int(digit) - 1] if len(symbols) == self.size else str(int(digit))

    def labels(self) -> tuple[dict[Cell, str], dict[Cell, str]]:
        """The given digits, and those that were found."""
        given = self.givens()
        found = {self.cell(option): self.mark(option[1][1 + self.width:]) for option in self.chosen if option[0][0] == "p"}
        return given, {cell: mark for cell, mark in found.items() if not given.get(cell)}

    # ---- cages

    def cages(self) -> dict[str, tuple[set[Cell], int | None]]:
        """The cells of each cage, and its sum, which is the same for all choices of its digits."""
        cells: dict[str, set[Cell]] = {}
        sums: dict[str, int] = {}
        for option in self.options:
            cage = next((name[1:].partition(".")[0] for name in option if name[0] == "k"), None)
            if cage is not None and option[0][0] == "p":
                cells.setdefault(cage, set()).add(self.cell(option))
            elif cage is not None:
                left = sum(int(name.partition(".")[2]) for name in option[1:])
                sums[cage] = self.size * (self.size + 1) // 2 - left
        return {cage: (its_cells, sums.get(cage)) for cage, its_cells in cells.items()}

    # ---- drawing

    def lines(self) -> list[str]:
        given, found = self.labels()
        labels = {cell: found.get(cell) or given.get(cell, ".") or "?" for cell in self.board_cells()}
        if not self.has_boxes():
            return Regions(labels, self.regions).text()
        high, wide = BOXES[self.size]
        most = widest([*labels.values()])
        bar, rows = "+".join(["-" * ((most + 1) * wide + 1)] * (self.size // wide))[1:-1], []
        for r in range(self.size):
            digits = [on_right(labels[r, c], most) for c in range(self.size)]
            rows += [bar] * (r > 0 and r % high == 0)
            rows.append(" | ".join(" ".join(digits[k:k + wide]) for k in range(0, self.size, wide)))
        return rows

    def draw(self, paper: Paper) -> None:
        given, found = self.labels()
        has_diagonals, has_windows = any(item[0] in "xy" for item in self.items), any(item[0] == "h" for item in self.items)
        board = Regions({**given, **found}, self.regions)

        def fill(cell: Cell) -> str:
            on_diagonal = has_diagonals and (cell[0] == cell[1] or sum(cell) == self.size - 1) or has_windows and all(k % 4 for k in cell)
            return (DIAGONAL_GIVEN if on_diagonal else GIVEN) if cell in given else DIAGONAL if on_diagonal else EMPTY

        board.draw(paper, CELL, fill, CELL * 0.5, lambda cell: {"bold": True} if cell in given else {"fill": ACCENT})
        for cells, total in self.cages().values():
            draw_cage(paper, cells, total, fill(min(cells)))
        self.caption(paper)


INSET = 3.5


def draw_cage(paper: Paper, cells: set[Cell], total: int | None, fill: str) -> None:
    """A broken line round the cells of a cage, and in the first of them its sum, round which the line is hidden."""
    for cell in sorted(cells):
        for down, right in ((-1, 0), (1, 0), (0, -1), (0, 1)):
            if (cell[0] + down, cell[1] + right) not in cells:
                ends = [end_of_side(cells, cell, (down, right), sign) for sign in (-1, 1)]
                paper.line(*ends[0], *ends[1], INK, 0.8, "2.5 2.5")
    if total is not None:
        r, c = min(cells)
        x, y = c * CELL + 2, r * CELL + 2
        paper.box(x, y, 6.2 * len(str(total)) + 1.5, 10, fill)
        paper.text(x + 1, y + 5, str(total), 9, "start")


def end_of_side(cells: set[Cell], cell: Cell, outwards: Cell, sign: int) -> tuple[float, float]:
    """Where the line along a side of a cell ends, a little inside of the cage: at the cell's corner, or at the next
    cell's line."""
    along = (sign * abs(outwards[1]), sign * abs(outwards[0]))
    beside = (cell[0] + along[0], cell[1] + along[1])
    behind = (beside[0] + outwards[0], beside[1] + outwards[1])
    reach = CELL / 2 + (-INSET if beside not in cells else INSET if behind in cells else 0)
    y, x = ((cell[k] + 0.5) * CELL + outwards[k] * (CELL / 2 - INSET) + along[k] * reach for k in (0, 1))
    return x, y
