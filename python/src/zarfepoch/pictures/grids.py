"""Pictures of kakuros, star battles and nonograms."""
from __future__ import annotations

import itertools
import re

from ..boards.cells import Cell, cell_of, known_cell
from .base import CELL, Kind, LARGEST, Names
from .svg_paper import ACCENT, Board, FAINT, INK, Paper
from .terminal_text import on_left, widest

WHITE, BLACK = "#fffdf8", "#3a3f47"


class Kakuro(Kind):
    """Digits in white cells; each run of them has a sum: `a1.7` is the 7 of the first run across, which a cell or the
    choice of digits takes."""

    def is_known(self) -> bool:
        cells, runs = self.cells(), [option for option in self.options if re.fullmatch(r"[ad]\d+", option[0])]
        return bool(runs) and not self.secondary() and bool(cells) and len(cells) + len(runs) == len(self.options) and max(
            max(known_cell(option[0])) for option in cells) < LARGEST and all(map(self.is_run, runs)) and all(
            len({name.partition(".")[2] for name in option[1:]}) == 1 for option in cells)

    def cells(self) -> list[Names]:
        """The options that put a digit into a cell."""
        return [option for option in self.options if cell_of(option[0]) and option[1:] and
                all(re.fullmatch(r"[ad]\d+\.[1-9]", name) for name in option[1:])]

    @property
    def offset(self) -> int:
        # (a clue may stand in the row and the column 0, where no cell is white)
        return 1

    @staticmethod
    def is_run(option: Names) -> bool:
        return all(re.fullmatch(rf"{option[0]}\.[1-9]", name) for name in option[1:])

    def item_words(self, item: str) -> str:
        run, dot, digit = item.partition(".")
        if run not in self.sums():
            return super().item_words(item)
        total, cells = self.sums()[run]
        way = "to the right of" if run[0] == "a" else "below"
        r, c = min(cells)
        at = f"row {r + 1} column {c}" if run[0] == "a" else f"row {r} column {c + 1}"
        return (f"the digit {digit} in" if dot else "the digits of") + f" the sum {total} {way} {at}"

    def sums(self) -> dict[str, tuple[int, set[Cell]]]:
        """For each run its sum, and the cells that it has."""
        possible: dict[str, int] = {}
        left: dict[str, int] = {}
        cells: dict[str, set[Cell]] = {}
        for item in self.items:
            run, dot, digit = item.partition(".")
            if dot:
                possible[run] = possible.get(run, 0) + int(digit)
        for option in self.options:
            if re.fullmatch(r"[ad]\d+", option[0]):
                left[option[0]] = sum(int(name.partition(".")[2]) for name in option[1:])
        for option in self.cells():
            for name in option[1:]:
                cells.setdefault(name.partition(".")[0], set()).add(known_cell(option[0]))
        return {run: (possible.get(run, 0) - left[run], its_cells) for run, its_cells in cells.items() if run in left}

    def clues(self) -> dict[Cell, list[str]]:
        """The sums below and on the right of black cells."""
        found: dict[Cell, list[str]] = {}
        for run, (total, cells) in self.sums().items():
            r, c = min(cells)
            at = (r, c - 1) if run[0] == "a" else (r - 1, c)
            found.setdefault(at, ["", ""])[run[0] == "a"] = str(total)
        return found

    def size(self) -> list[int]:
        told = next((re.fullmatch(r"\|\s*size: (\d+) (\d+)", comment) for comment in self.comments if re.match(r"\|\s*size: \d", comment)), None)
        cells = [known_cell(option[0]) for option in self.cells()]
        least = [max(cell[k] for cell in cells) + 1 for k in (0, 1)]
        return [max(number, int(told[k + 1]) if told and int(told[k + 1]) < LARGEST else 0) for k, number in enumerate(least)]

    def digits(self) -> dict[Cell, str]:
        """The digit of each white cell that has one."""
        return {cell: option[1].partition(".")[2] for option in self.chosen if (cell := cell_of(option[0]))}

    def lines(self) -> list[str]:
        digits, clues, (rows, columns) = self.digits(), self.clues(), self.size()
        white = {cell_of(option[0]) for option in self.cells()}

        def mark(cell: Cell) -> str:
            return digits.get(cell, ".") if cell in white else "\\".join(clues[cell]) if cell in clues else "#"

        marks = [[mark((r, c)) for c in range(columns)] for r in range(rows)]
        wide = max(len(text) for row in marks for text in row)
        return [" ".join(text.center(wide) for text in row).rstrip() for row in marks]

    def draw(self, paper: Paper) -> None:
        digits, clues, (rows, columns) = self.digits(), self.clues(), self.size()
        white = {cell_of(option[0]) for option in self.cells()}
        for r, c in itertools.product(range(rows), range(columns)):
            x, y = c * CELL, r * CELL
            paper.box(x, y, CELL, CELL, WHITE if (r, c) in white else BLACK, FAINT, 0.8)
            if (r, c) in clues:
                down, across = clues[r, c]
                paper.line(x, y, x + CELL, y + CELL, FAINT, 0.8)
                paper.text(x + CELL * 0.3, y + CELL * 0.74, down, 11, fill="#ffffff")
                paper.text(x + CELL * 0.7, y + CELL * 0.28, across, 11, fill="#ffffff")
            elif (r, c) in digits:
                paper.text(x + CELL / 2, y + CELL / 2, digits[r, c], 20, fill=ACCENT)
        paper.box(0, 0, columns * CELL, rows * CELL, "none", INK, 2.2)
        self.caption(paper)


def line_words(item: str, added: int = 1) -> str | None:
    """A row, a column or a region as people count, from 1, with so much added to its number; None for other names."""
    found = re.fullmatch(r"(row|column|region)(\d+)", item)
    return f"{found[1]} {int(found[2]) + added}" if found else None


STAR = [(0, -1), (0.24, -0.32), (0.95, -0.31), (0.38, 0.12), (0.59, 0.81), (0, 0.4), (-0.59, 0.81), (-0.38, 0.12), (-0.95, -0.31), (-0.24, -0.32)]


class Stars(Kind):
    """Stars in rows, columns and regions, each of which gives all its cells a colour."""

    with_colours = True

    def is_known(self) -> bool:
        return bool(self.options) and self.all_match(r"(row|column|region)\d+", self.primary) and bool(self.regions()) and all(
            cell_of(name) and colour in ("star", "blank") for colours in self.option_colours for name, colour in colours.items()) and max(
            max(known_cell(name)) for colours in self.option_colours for name in colours) < LARGEST

    def item_words(self, item: str) -> str:
        square = "the square of four cells that begins in " if item.startswith("s") else ""
        return line_words(item, self.offset) or square + super().item_words(item.removeprefix("s"))

    def regions(self) -> dict[Cell, str]:
        """The region of each cell, by its options."""
        return {cell: option[0] for option, colours in zip(self.options, self.option_colours) if option[0].startswith("region")
                for cell in map(cell_of, colours) if cell}

    def stars(self) -> set[Cell]:
        return {known_cell(name) for colours in self.chosen_colours for name, colour in colours.items() if colour == "star"}

    def board(self) -> Board:
        cells = {known_cell(name) for colours in self.option_colours for name in colours}
        return Board({cell: "*" for cell in self.stars()}, {**dict.fromkeys(cells, ""), **self.regions()})

    def lines(self) -> list[str]:
        return self.board().text()

    def draw(self, paper: Paper) -> None:
        board = self.board()
        Board({}, board.areas).draw(paper, CELL, lambda cell: WHITE)
        for r, c in sorted(board.labels):
            paper.shape([((c + 0.5 + 0.34 * x) * CELL, (r + 0.52 + 0.34 * y) * CELL) for x, y in STAR], ACCENT, INK, 0.8)
        self.caption(paper)


class Nonogram(Kind):
    """Rows and columns of black and white cells, with the lengths of their blocks beside them."""

    with_colours = True
    SIZE = 24

    def is_known(self) -> bool:
        are_lines = self.all_match(r"(row|column)\d+", self.primary)
        cells = [cell for cell in map(cell_of, self.secondary()) if cell]
        return are_lines and bool(cells) and len(cells) == len(self.secondary()) and max(max(cell) for cell in cells) < LARGEST and all(
            colour in ("black", "white") for colours in self.option_colours for colour in colours.values())

    def item_words(self, item: str) -> str:
        return line_words(item, self.offset) or super().item_words(item)

    def cells(self) -> set[Cell]:
        return {known_cell(item) for item in self.secondary()}

    def black(self) -> set[Cell]:
        return {known_cell(name) for colours in self.chosen_colours for name, colour in colours.items() if colour == "black"}

    def clues(self) -> dict[str, list[int]]:
        """The lengths of the blocks of each line that has an option, by its first one."""
        found: dict[str, list[int]] = {}
        for option, colours in zip(self.options, self.option_colours):
            if option[0] not in found:
                blacks = [colour == "black" for _, colour in sorted((known_cell(name), colour) for name, colour in colours.items())]
                found[option[0]] = [len(list(block)) for is_black, block in itertools.groupby(blacks) if is_black] or [0]
        return found

    def size(self) -> list[int]:
        return [max(cell[k] for cell in self.cells()) + 1 for k in (0, 1)]

    def lines(self) -> list[str]:
        black, (rows, columns) = self.black(), self.size()
        return ["".join("#" if (r, c) in black else "." for c in range(columns)) for r in range(rows)]

    def draw(self, paper: Paper) -> None:
        black, clues, (rows, columns) = self.black(), self.clues(), self.size()
        size, step = self.SIZE, self.SIZE * 0.62
        for r, c in sorted(self.cells()):
            paper.box(c * size, r * size, size, size, INK if (r, c) in black else WHITE, FAINT, 0.5)
        for r in range(rows + 1):
            paper.line(0, r * size, columns * size, r * size, INK, 1.8 if r in (0, rows) else 1.1 if r % 5 == 0 else 0.2)
        for c in range(columns + 1):
            paper.line(c * size, 0, c * size, rows * size, INK, 1.8 if c in (0, columns) else 1.1 if c % 5 == 0 else 0.2)
        for r in range(rows):
            for k, length in enumerate(reversed(clues.get(f"row{r}", []))):
                paper.text(-(k + 0.6) * step * 1.25, (r + 0.5) * size, str(length), 12)
        for c in range(columns):
            for k, length in enumerate(reversed(clues.get(f"column{c}", []))):
                paper.text((c + 0.5) * size, -(k + 0.6) * step, str(length), 12)
        self.caption(paper)


class Words(Kind):
    """Words that cross: each lies over cells, to which it gives its letters as colours."""

    with_colours = True

    def is_known(self) -> bool:
        greatest = max((max(cell) for cell in map(cell_of, self.items) if cell), default=LARGEST)
        return greatest < LARGEST and all(
            cell_of(name) and len(letter) == 1 for colours in self.option_colours for name, letter in colours.items())

    def item_words(self, item: str) -> str:
        found = re.fullmatch(r"(across|down)(\d+)", item)
        if found and not self.numbers():
            return f"the word in {'row' if found[1] == 'across' else 'column'} {int(found[2]) + self.offset}"
        return f"{found[2]} {found[1]}" if found else super().item_words(item)

    def cells(self) -> set[Cell]:
        return {known_cell(name) for colours in self.option_colours for name in colours}

    def letters(self) -> dict[Cell, str]:
        return {known_cell(name): letter for colours in self.chosen_colours for name, letter in colours.items()}

    def open_cells(self) -> set[Cell]:
        """The cells that aren't black: those of words, and where a comment tells the grid, those without a word too."""
        told: list[str] = next((comment.partition("grid: ")[2].split() for comment in self.comments if re.match(r"\|\s*grid: ", comment)), [])
        found = {(r, c) for r, row in enumerate(told) for c, mark in enumerate(row) if mark != "#"}
        return found if self.cells() <= found else self.cells()

    def numbers(self) -> dict[Cell, str]:
        """The number of each place for a word, by its first cell; none where places aren't numbered from 1, as in a
        square of words."""
        found: dict[Cell, str] = {}
        for option, colours in zip(self.options, self.option_colours):
            place = re.fullmatch(r"(?:across|down)(\d+)", option[0])
            if not place or not colours or place[1] == "0":
                return {}
            found[min(map(known_cell, colours))] = place[1]
        return found

    def lines(self) -> list[str]:
        board = Board(self.letters(), {cell: cell for cell in self.cells()})
        wide = widest([".", *board.labels.values()])
        rows = [[board.labels.get((r, c), ".") if (r, c) in board.areas else "" for c in board.columns] for r in board.rows]
        return [" ".join(on_left(mark, wide) for mark in row).rstrip() for row in rows]

    def draw(self, paper: Paper) -> None:
        cells, letters = self.open_cells(), self.letters()
        rows, columns = (max(cell[k] for cell in cells) + 1 for k in (0, 1))
        for r, c in itertools.product(range(rows), range(columns)):
            paper.box(c * CELL, r * CELL, CELL, CELL, WHITE if (r, c) in cells else BLACK, INK, 0.8)
            paper.text((c + 0.5) * CELL, (r + 0.54) * CELL, letters.get((r, c), ""), CELL * 0.5)
        for (r, c), number in self.numbers().items():
            paper.text(c * CELL + 3, r * CELL + 7, number, 9, "start")
        paper.box(0, 0, columns * CELL, rows * CELL, "none", INK, 2.2)
        self.caption(paper)
