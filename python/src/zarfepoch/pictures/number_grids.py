"""Pictures of dominosa, tents, shikaku, futoshiki, KenKen and binairo."""
from __future__ import annotations

import itertools
import re

from ..boards.cells import Cell, cell_of, cell_words, known_cell
from ..files.fault_words import with_article
from .base import CELL, Kind, LARGEST
from .grids import line_words, WHITE
from .svg_paper import ACCENT, Board, FAINT, FILLS, INK, Paper

TREE, TENT, GRASS = "#4c8a4f", ACCENT, "#eaf3e4"


class Grid(Kind):
    """A puzzle in a grid whose comments tell what was given."""

    def told(self, key: str) -> str:
        """What a comment says behind this key; nothing where none does."""
        return next((comment.partition(f"{key}: ")[2] for comment in self.comments if re.match(rf"\|\s*{key}: ", comment)), "")

    def told_rows(self, key: str) -> list[list[str]]:
        """Rows of marks that a comment tells, with or without blanks between; none where they are of different
        lengths."""
        text = self.told(key)
        rows = [row.split() for row in text.split(" / ")] if " / " in text else [list(row) for row in text.split()]
        return rows if rows and all(len(row) == len(rows[0]) for row in rows) and max(len(rows), len(rows[0])) < LARGEST else []


class Numbered(Grid):
    """Pieces that cover cells, whose numbers a comment tells: rectangles, each with one number, or dominoes as d1.4."""

    def is_known(self) -> bool:
        cells = [[cell for cell in map(cell_of, option) if cell] for option in self.options]
        there = {cell for some in cells for cell in some}
        rows = self.told_rows("numbers")
        return bool(rows) and not self.secondary() and all(cells) and all(
            len(option) - len(some) <= 1 for option, some in zip(self.options, cells)) and all(r < len(rows) and c < len(rows[0]) for r, c in there)

    def item_words(self, item: str) -> str:
        found = re.fullmatch(r"d(\d+)\.(\d+)", item)
        return f"the domino {found[1]}-{found[2]}" if found else super().item_words(item)

    def board(self) -> Board:
        rows = self.told_rows("numbers")
        areas = {(r, c): 0 for r, row in enumerate(rows) for c in range(len(row))}
        for k, option in enumerate(self.chosen, 1):
            areas.update((cell, k) for cell in map(cell_of, option) if cell)
        return Board({(r, c): mark for r, row in enumerate(rows) for c, mark in enumerate(row) if mark != "."}, areas)

    def lines(self) -> list[str]:
        return self.board().text()

    def draw(self, paper: Paper) -> None:
        board = self.board()

        def fill_of(cell: Cell) -> str:
            area = board.areas[cell]
            return FILLS[(area - 1) % len(FILLS)] if isinstance(area, int) and area else WHITE

        board.draw(paper, CELL, fill_of)
        self.caption(paper)


class Tents(Grid):
    """Trees, tents beside them, and the numbers of rows and columns."""

    with_colours = True

    def is_known(self) -> bool:
        return bool(self.told_rows("trees")) and self.all_match(r"tree\d+|row\d+|column\d+", self.primary) and all(
            colour in ("tent", "blank") for colours in self.option_colours for colour in colours.values())

    def item_words(self, item: str) -> str:
        if item.startswith("tree"):
            cell = cell_of(item[4:])
            return f"the tree in {cell_words(cell)}" if cell else item
        square = "the square of four cells that begins in " if item.startswith("s") else ""
        return line_words(item) or square + super().item_words(item.lstrip("us"))

    def tents(self) -> set[Cell]:
        return {known_cell(name) for colours in self.chosen_colours for name, colour in colours.items() if colour == "tent"}

    def lines(self) -> list[str]:
        tents, rows = self.tents(), self.told_rows("trees")
        beside = (self.told("rows").split() + [""] * len(rows))[:len(rows)]
        marked = [[" ".join("^" if (r, c) in tents else mark for c, mark in enumerate(row)), beside[r]] for r, row in enumerate(rows)]
        return ["  ".join(line).rstrip() for line in marked] + ([self.told("columns")] if self.told("columns") else [])

    def draw(self, paper: Paper) -> None:
        tents, rows = self.tents(), self.told_rows("trees")
        for r, row in enumerate(rows):
            for c, mark in enumerate(row):
                x, y = c * CELL, r * CELL
                paper.box(x, y, CELL, CELL, GRASS if mark == "." else WHITE, FAINT, 0.8)
                if mark == "T":
                    paper.box(x + CELL * 0.45, y + CELL * 0.6, CELL * 0.1, CELL * 0.28, "#7a5a3a", "none", 0)
                    paper.circle(x + CELL / 2, y + CELL * 0.4, CELL * 0.27, TREE, INK, 0.8)
                elif (r, c) in tents:
                    paper.shape([(x + CELL / 2, y + CELL * 0.2), (x + CELL * 0.82, y + CELL * 0.8), (x + CELL * 0.18, y + CELL * 0.8)], TENT, INK, 0.8)
        for r, number in enumerate(self.told("rows").split()):
            paper.text(len(rows[0]) * CELL + 18, (r + 0.5) * CELL, number, 15)
        for c, number in enumerate(self.told("columns").split()):
            paper.text((c + 0.5) * CELL, len(rows) * CELL + 18, number, 15)
        paper.box(0, 0, len(rows[0]) * CELL, len(rows) * CELL, "none", INK, 2.2)
        self.caption(paper)


class LatinSquare(Grid):
    """A square in which each row and column has each digit, some of them given."""

    def is_known(self) -> bool:
        return False

    def digits(self) -> dict[Cell, str]:
        """The digits of the answer."""
        raise NotImplementedError

    def item_words(self, item: str) -> str:
        found = re.fullmatch(r"([rc])(\d)(\d)", item)
        return f"{with_article(found[3])} in {'row' if found[1] == 'r' else 'column'} {int(found[2]) + 1}" if found else super().item_words(item)


class Futoshiki(LatinSquare):
    """With signs between cells, by a comment that tells which of two is less."""

    SPACE = 22

    def is_known(self) -> bool:
        return bool(self.told_rows("given")) and bool(self.options) and self.all_match(r"[prc]\d\d|e\d+<\d", self.items) and all(
            [name[0] for name in option][:3] == ["p", "r", "c"] and set(name[0] for name in option[3:]) <= {"e"} for option in self.options)

    def digits(self) -> dict[Cell, str]:
        return {(int(option[0][1]), int(option[0][2])): option[1][2] for option in self.chosen}

    def item_words(self, item: str) -> str:
        return f"row {int(item[1]) + 1} column {int(item[2]) + 1}" if re.fullmatch(r"p\d\d", item) else super().item_words(item)

    def less(self) -> list[tuple[Cell, Cell]]:
        """The pairs of neighbours of which the first has the smaller digit."""
        found = (re.fullmatch(r"(\d)(\d)-(\d)(\d)", word) for word in self.told("less").split())
        return [((int(told[1]), int(told[2])), (int(told[3]), int(told[4]))) for told in found if told]

    def lines(self) -> list[str]:
        size, digits, less = len(self.told_rows("given")), self.digits(), set(self.less())
        lines = []
        for r in range(size):
            row = ""
            for c in range(size):
                sign = "<" if ((r, c), (r, c + 1)) in less else ">" if ((r, c + 1), (r, c)) in less else " "
                row += digits.get((r, c), ".") + (f" {sign} " if c + 1 < size else "")
            below = ["^" if ((r, c), (r + 1, c)) in less else "v" if ((r + 1, c), (r, c)) in less else " " for c in range(size)]
            lines += [row] + (["   ".join(below).rstrip()] if any(mark != " " for mark in below) else [])
        return lines

    def draw(self, paper: Paper) -> None:
        given, digits, step = self.told_rows("given"), self.digits(), CELL + self.SPACE
        for r, c in itertools.product(range(len(given)), repeat=2):
            is_given = given[r][c] != "."
            paper.box(c * step, r * step, CELL, CELL, "#ebe6da" if is_given else WHITE, INK, 1.2)
            paper.text(c * step + CELL / 2, r * step + CELL / 2, digits.get((r, c), ""), 20, fill=INK if is_given else ACCENT, bold=is_given)
        for (r, c), (below, right) in self.less():
            x, y = (c + right) / 2 * step + CELL / 2, (r + below) / 2 * step + CELL / 2
            wide, high, sign = (5, 7, 1 if right > c else -1) if r == below else (7, 5, 1 if below > r else -1)
            ends = [(x + sign * wide, y - high), (x - sign * wide, y), (x + sign * wide, y + high)] if r == below else [
                (x - wide, y + sign * high), (x, y - sign * high), (x + wide, y + sign * high)]
            for (a, b), (to_a, to_b) in zip(ends, ends[1:]):
                paper.line(a, b, to_a, to_b, INK, 1.8)
        self.caption(paper)


class KenKen(LatinSquare):
    """With cages that make numbers, by comments that tell them."""

    def is_known(self) -> bool:
        rows = self.told_rows("cages")
        return bool(rows) and len(rows) == len(rows[0]) and bool(self.makes()) and self.all_match(r"k\d+|[rc]\d\d", self.items) and all(
            re.fullmatch(r"k\d+", option[0]) and len(option) % 2 for option in self.options)

    def makes(self) -> dict[str, str]:
        """What each cage makes."""
        return {word[0]: word[2:] for word in self.told("makes").split() if word[1:2] == "="}

    def cells(self) -> dict[str, list[Cell]]:
        """The cells of each cage, which are numbered in the order of their first cells."""
        found: dict[str, list[Cell]] = {}
        for r, row in enumerate(self.told_rows("cages")):
            for c, letter in enumerate(row):
                found.setdefault(letter, []).append((r, c))
        return {f"k{k}": cells for k, cells in enumerate(found.values())}

    def digits(self) -> dict[Cell, str]:
        cells = self.cells()
        return {cell: name[2] for option in self.chosen for cell, name in zip(cells.get(option[0], []), option[1::2])}

    def item_words(self, item: str) -> str:
        cells = self.cells().get(item)
        return f"the cage that begins in {cell_words(cells[0])}" if cells else super().item_words(item)

    def board(self) -> Board:
        return Board(self.digits(), {(r, c): letter for r, row in enumerate(self.told_rows("cages")) for c, letter in enumerate(row)})

    def lines(self) -> list[str]:
        return self.board().text()

    def draw(self, paper: Paper) -> None:
        board, makes, size = self.board(), self.makes(), CELL * 1.25
        Board({}, board.areas).draw(paper, size, lambda cell: WHITE)
        for (r, c), digit in board.labels.items():
            paper.text((c + 0.5) * size, (r + 0.58) * size, digit, 20, fill=ACCENT)
        for cells in self.cells().values():
            r, c = cells[0]
            made = makes.get(str(board.areas[r, c]), "").replace("*", "\u00d7").replace("/", "\u00f7").replace("-", "\u2212")
            paper.text(c * size + 4, r * size + 9, made, 11, "start")
        self.caption(paper)


class Binairo(Grid):
    """Noughts and ones in rows and columns, each of which gives all its cells a colour."""

    with_colours = True

    def is_known(self) -> bool:
        return bool(self.told_rows("given")) and self.all_match(r"(row|column)\d+", self.primary) and all(
            colour in ("0", "1") for colours in self.option_colours for colour in colours.values())

    def item_words(self, item: str) -> str:
        return line_words(item) or super().item_words(item)

    def marks(self) -> dict[Cell, str]:
        return {known_cell(name): colour for colours in self.chosen_colours for name, colour in colours.items()}

    def lines(self) -> list[str]:
        size, marks = len(self.told_rows("given")), self.marks()
        return [" ".join(marks.get((r, c), ".") for c in range(size)) for r in range(size)]

    def draw(self, paper: Paper) -> None:
        given, marks = self.told_rows("given"), self.marks()
        for r, c in itertools.product(range(len(given)), repeat=2):
            mark, is_given = marks.get((r, c), ""), given[r][c] != "."
            paper.box(c * CELL, r * CELL, CELL, CELL, {"0": "#fffdf8", "1": "#d9d3c4"}.get(mark, WHITE), FAINT, 0.8)
            paper.text((c + 0.5) * CELL, (r + 0.52) * CELL, mark, 18, fill=INK if is_given else ACCENT, bold=is_given)
        paper.box(0, 0, len(given) * CELL, len(given) * CELL, "none", INK, 2.2)
        self.caption(paper)


KINDS: list[type[Kind]] = [Numbered, Tents, Futoshiki, KenKen, Binairo]
