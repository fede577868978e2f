"""Sudokus of many sizes as exact covers: with boxes or other regions, with diagonals, and with cages that have sums
(killer).

The items are what is still lacking: `p12` a digit in row 1, column 2, `r13` the digit 3 in row 1, `c23` in column 2,
`b43` in region 4, `x3` and `y3` on the two diagonals, `h03` in the first of the four windows of a hyper sudoku. From a
size of ten on numbers have two digits. Of a cage `k5` is the choice of its digits, and `k5.3` is taken by a cell of the
cage with a 3, or by the choice if the cage has no 3.
"""
from __future__ import annotations

import copy
import functools
import itertools
import math
import os
import re
from collections import Counter
from collections.abc import Iterable, Iterator, Sequence
from typing import NoReturn, Optional

from ..boards.boxes import BOXES, MARKS
from ..boards.cells import Cell, cell_words, is_connected
from ..files.fault_words import plural
from ..texts.names import names_in
from ..texts.puzzles import blocks_of, Change, no_cover, Puzzle, read_text, refuse, TYPED

# the cells and the sum of a cage, which may be any; lines with their numbers; rows of marks, and the places of their
# lines
Cage = tuple[list[Cell], Optional[int]]
Block = list[tuple[int, str]]
Square = tuple[list[list[str]], Optional[list[int]]]
# what an empty cell may be, beside a 0 that is no digit
EMPTY = {".", "_", " ", "-", "*", "x", "X", "?", "\u00b7"}
# so many lines above or below the rows may be titles
MOST_TITLES = 3
# given digits, the symbols that stand for them, and the numbers of their lines
Digits = tuple[list[list[int]], Optional[str], Optional[list[int]]]


def boxes_of(size: int, box: Cell) -> list[list[int]]:
    """The box of each cell, by how many rows and columns a box has."""
    high, wide = box
    return [[r // high * (size // wide) + c // wide for c in range(size)] for r in range(size)]


class Sudoku:
    """Given digits, regions, diagonals and cages; digits are numbers from 1, and 0 is none."""

    def __init__(self, given: list[list[int]], regions: list[list[int]] | None = None, diagonals: bool = False, cages: Sequence[Cage] = (),
                 symbols: str | None = None, hyper: bool = False, letters: str = MARKS) -> None:
        self.letters = letters
        self.given, self.size, self.diagonals, self.cages, self.symbols, self.hyper = given, len(given), diagonals, cages, symbols, hyper
        boxes = boxes_of(self.size, BOXES.get(self.size, (1, self.size)))
        self.has_boxes = regions is None or regions == boxes
        self.regions = regions or boxes
        self.cage_of = {cell: k for k, (cells, _) in enumerate(cages) for cell in cells}

    def cells(self) -> Iterator[Cell]:
        return ((r, c) for r in range(self.size) for c in range(self.size))

    def number(self, value: int) -> str:
        return f"{value:0{1 if self.size < 10 else 2}}"

    def houses(self, r: int, c: int) -> list[str]:
        """The rows and so on that a cell is in, each with its mark."""
        found = ["r" + self.number(r), "c" + self.number(c), "b" + self.number(self.regions[r][c])]
        diagonals = ["x"] * (r == c) + ["y"] * (r + c == self.size - 1)
        windows = [f"h{(r - 1) // 4 * 2 + (c - 1) // 4}"] if r % 4 and c % 4 else []
        return found + (diagonals if self.diagonals else []) + (windows if self.hyper else [])

    def option(self, r: int, c: int, digit: int) -> list[str]:
        cage = [f"k{self.cage_of[r, c]}.{digit}"] if (r, c) in self.cage_of else []
        return ["p" + self.number(r) + self.number(c)] + [house + self.number(digit) for house in self.houses(r, c)] + cage

    def twice(self) -> tuple[str, int, list[Cell]] | None:
        """A house that has a digit twice, the digit, and its two cells; None where none has."""
        seen: dict[tuple[str, int], Cell] = {}
        for r, c in self.cells():
            for house in self.houses(r, c):
                if self.given[r][c] and (house, self.given[r][c]) in seen:
                    return house, self.given[r][c], [seen[house, self.given[r][c]], (r, c)]
                seen[house, self.given[r][c]] = (r, c)
        return None

    def cage_options(self) -> list[list[str]]:
        """For each cage the choices of its digits, each with the digits that it leaves."""
        options = []
        for k, (cells, total) in enumerate(self.cages):
            for chosen in itertools.combinations(range(1, self.size + 1), len(cells)):
                if total in (None, sum(chosen)):
                    options.append([f"k{k}"] + [f"k{k}.{digit}" for digit in range(1, self.size + 1) if digit not in chosen])
        return options

    def puzzle(self) -> Puzzle:
        """The items that are lacking, and the options that name none but these. In a sudoku with cages the given cells
        stay."""
        keep = bool(self.cages)
        gone = set() if keep else {item for r, c in self.cells() if self.given[r][c] for item in self.option(r, c, self.given[r][c])}
        every = [self.option(r, c, digit) for r, c in self.cells() for digit in range(1, self.size + 1)
                 if not keep or self.given[r][c] in (0, digit)]
        options = [option for option in every if gone.isdisjoint(option)] + self.cage_options()
        items = {item for r, c in self.cells() for digit in range(1, self.size + 1) for item in self.option(r, c, digit)} - gone
        return Puzzle(sorted(items | {f"k{k}" for k in range(len(self.cages))}), [], options, self.comments(), self.changes())

    def changes(self) -> list[Change]:
        """The sudoku without each of its digits, and without the sum of each cage."""
        sums = [Change(f"without the sum {total} of the cage that begins in {cell_words(cells[0])}", functools.partial(self.without_sum, k))
                for k, (cells, total) in enumerate(self.cages)]
        return self.without_digits(self.cells()) + sums

    def without_digits(self, cells: Iterable[Cell]) -> list[Change]:
        """The sudoku without the digit of each of these cells that has one."""
        return [Change(f"without the {self.mark(self.given[r][c])} in {cell_words((r, c))}", functools.partial(self.without, (r, c)))
                for r, c in cells if self.given[r][c]]

    def without(self, cell: Cell) -> Puzzle:
        """The puzzle without the digit of a cell."""
        other = copy.copy(self)
        other.given = [[0 if (r, c) == cell else digit for c, digit in enumerate(row)] for r, row in enumerate(self.given)]
        return other.puzzle()

    def without_sum(self, number: int) -> Puzzle:
        """The puzzle in which one cage may have any sum."""
        other = copy.copy(self)
        other.cages = [(cells, None if k == number else total) for k, (cells, total) in enumerate(self.cages)]
        return other.puzzle()

    def comments(self) -> list[str]:
        are_words = self.size > 9 and not self.symbols
        told = ["given: " + (" / " if are_words else " ").join((" " if are_words else "").join(map(self.mark, row)) for row in self.given)]
        if not self.has_boxes:
            told.append("regions: " + " ".join("".join(self.letters[region] for region in row) for row in self.regions))
        return told + ([f"digits: {self.symbols}"] if self.symbols else [])

    def mark(self, digit: int) -> str:
        return "." if not digit else self.symbols[digit - 1] if self.symbols else str(digit)


# ---- texts

def bare_lines(text: str) -> list[tuple[int, str]]:
    """The lines without frames, each with its place from 0, and without those that are frames alone."""
    rows = [(place, line) for place, line in enumerate(text.splitlines()) if not re.fullmatch(r"[|+=\s\u2500-\u257f-]*", line)]
    return [(place, re.sub(r"[|+=\u2500-\u257f]", " " if " " in line.strip("| +-=") else "", line).rstrip()) for place, line in rows]


def square_of(text: str) -> Square | None:
    """Rows of marks of a square text, by words or by characters, and the places of their lines; None where it is
    none."""
    whole = [(place, line) for place, line in enumerate(text.splitlines()) if line.strip()]
    for lines in (bare_lines(text), whole):
        words = [line.split() for _, line in lines]
        ways: list[Sequence[Sequence[str]]] = [words, ["".join(row) for row in words], [line for _, line in lines]]
        for rows in ways:
            if len(rows) > 1 and all(len(row) == len(rows) for row in rows):
                return [list(row) for row in rows], [place for place, _ in lines]
    for marks in [re.sub(r"[^0-9._]", "", text), "".join(text.split())] if not re.search("[,;]{2}", text) else []:
        size = math.isqrt(len(marks))
        if size > 1 and size * size == len(marks):
            return [list(marks[k:k + size]) for k in range(0, len(marks), size)], None
    return None


def blank_nine(text: str) -> Square | None:
    """Nine lines of at most nine characters, in which a blank is an empty cell and nothing else is; None for others."""
    lines = text.splitlines() if "\n" in text else re.findall(".{9}", text)
    are_short = len(lines) == 9 and all(re.fullmatch(r"[1-9 ]{0,9}", line) for line in lines)
    if are_short and any(" " in line.strip() or len(line) < 9 for line in lines):
        return [list(line.ljust(9)) for line in lines], list(range(9)) if "\n" in text else None
    return None


def symbols_of(marks: list[str], size: int) -> str | None:
    """The digits as they are written: numbers, 1 to 9 and A on, or 0 to 9 and A on where 0 isn't an empty cell; None
    for numbers."""
    if size < 10 or any(len(mark) > 1 for mark in marks):
        return None
    has_zero = "0" in marks and ("." in marks or "_" in marks) and MARKS[size - 1] not in "".join(marks).upper()
    return "0" + MARKS[:size - 1] if has_zero else MARKS[:size]


def digit_of(mark: str, size: int, symbols: str | None) -> int | None:
    """The number that a mark of a cell is, 0 where the cell is empty, None where it is no digit."""
    if mark in EMPTY or mark == "0" and not (symbols or "").startswith("0"):
        return 0
    if symbols and mark.upper() in symbols:
        return symbols.index(mark.upper()) + 1
    return int(mark) if not symbols and mark.isdecimal() and 1 <= int(mark) <= size else None


def refuse_sheet(path: str, text: str, numbers: Sequence[int]) -> None:
    """Refuses a sheet whose rows have different numbers of cells."""
    lines = [(place, line) for place, line in enumerate(text.splitlines()) if line.strip()]
    mark = next((mark for mark in ";,\t" if 2 * sum(mark in line for _, line in lines) > len(lines)), None)
    lengths = [len(line.split(mark)) for _, line in lines] if mark else []
    usual = Counter(lengths).most_common(1)[0][0] if lengths else 0
    other = next((k for k, length in enumerate(lengths) if length != usual), None)
    if other is not None and path != TYPED:
        refuse(path, numbers[lines[other][0]], f"this row has {plural(lengths[other], 'cell')}, and most have {usual}")


def refuse_shape(path: str, text: str, numbers: Sequence[int]) -> NoReturn:
    """Refuses a text that is no square, with the first line that is shorter or longer than most, or has what no cell
    is."""
    refuse_sheet(path, text, numbers)
    lines = bare_lines(text)
    for place, line in lines:
        strange = re.search(r"[^\w\s.|+=*?\u00b7-]", line)
        if strange:
            refuse(path, None if path == TYPED else numbers[place], f"'{strange[0]}' is no digit; an empty cell is a dot, _, -, *, x or 0")
    are_words = 2 * sum(" " in line.strip() for _, line in lines) > len(lines)
    lengths = [len(line.split()) if are_words else len("".join(line.split())) for _, line in lines]
    usual = Counter(lengths).most_common(1)[0][0] if lengths else 0
    other = next((k for k, length in enumerate(lengths) if length != usual), None)
    if path == TYPED or not lines or other is None:
        count = len(re.sub(r"[^0-9._]", "", text))
        refuse(path, None, f"as many rows as columns of digits and dots are expected, as 81 in all; here are {count}")
    refuse(path, numbers[lines[other][0]],
           f"as many rows as columns are expected; this row has {plural(lengths[other], 'cell')}, and {'most' if len(lines) > 2 else 'the first'} "
           f"{'have' if len(lines) > 2 else 'has'} {usual}")


def sheet_of(text: str) -> Square | None:
    """Rows of a sheet, whose cells have commas, semicolons or tabs between, and may be empty; None for other texts."""
    for mark in ";,\t":
        lines = [(place, line.split(mark)) for place, line in enumerate(text.splitlines()) if mark in line]
        size = len(lines)
        # (a row may end with one more of what parts cells, or have lost what is empty behind its last tab)
        rows = [[cell.strip() for cell in cells] for _, cells in lines]
        rows = [row[:size] if not any(row[size:]) else row for row in rows]
        rows = [row + [""] * (size - len(row)) if mark == "\t" else row for row in rows]
        if size > 1 and all(len(row) == size for row in rows):
            return [[cell or "." for cell in row] for row in rows], [place for place, _ in lines]
    return None


def has_digits(rows: list[list[str]]) -> bool:
    """Whether all marks are digits or empty cells."""
    symbols = symbols_of([mark for row in rows for mark in row], len(rows))
    return all(digit_of(mark, len(rows), symbols) is not None for row in rows for mark in row)


def shifted(square: Square, lines: int) -> Square:
    """A square whose text stands below so many lines."""
    rows, places = square
    return rows, [place + lines for place in places] if places else None


def untitled_square(text: str) -> Square | None:
    """A square text, of which lines with letters above and below may be titles; None where it is none."""
    lines, first = text.splitlines(), None
    for above, below in sorted(itertools.product(range(MOST_TITLES + 1), repeat=2), key=sum):
        titles, kept = lines[:above] + lines[len(lines) - below:], "\n".join(lines[above:len(lines) - below])
        if above + below < max(1, len(lines)) and all(not line.strip() or re.search(r"[^\W\d_]|#", line) for line in titles):
            square = sheet_of(kept) or blank_nine(kept) or square_of(kept)
            if square and square[1] and has_digits(square[0]):
                return shifted(square, above)
            first = first if first and (has_digits(first[0]) or not square) else square
    return first


def digits_of(path: str, text: str, numbers: Sequence[int] | None = None) -> Digits:
    """The given digits of a text, the symbols that stand for them, and the lines of its rows; `numbers` are those of
    its lines in the file."""
    numbers = numbers or range(1, len(text.splitlines()) + 1)
    square = untitled_square(text)
    if square is None:
        refuse_shape(path, text, numbers)
    rows, places = square
    size = len(rows)
    if size > len(MARKS):
        refuse(path, None, f"a sudoku has at most {len(MARKS)} rows")
    symbols = symbols_of([mark for row in rows for mark in row], size)
    digits = [[digit_of(mark, size, symbols) for mark in row] for row in rows]
    lines = [numbers[place] for place in places] if places and path != TYPED else None
    for r, c in itertools.product(range(size), repeat=2):
        if digits[r][c] is None:
            refuse(path, lines[r] if lines else None, f"'{rows[r][c]}' in row {r + 1}, column {c + 1} is no digit of a sudoku of {size} by "
                   f"{size}; an empty cell is a dot, _, -, *, x or 0")
    return [[digit or 0 for digit in row] for row in digits], symbols, lines


def checked(path: str, sudoku: Sudoku, lines: list[int] | None) -> Sudoku:
    """A sudoku that has no digit twice in a row and so on; the lines are those of its rows."""
    twice = sudoku.twice()
    if twice:
        house, digit, cells = twice
        kind = {"r": "row", "c": "column", "b": "box" if sudoku.has_boxes else "region", "x": "diagonal", "y": "diagonal", "h": "window"}[house[0]]
        number = f" {sudoku.letters[int(house[1:])] if kind == 'region' else int(house[1:]) + 1}" if house[1:] else ""
        places = [f"column {c + 1}" if kind == "row" else f"row {r + 1}" if kind == "column" else cell_words((r, c)) for r, c in cells]
        where, line = f", in {' and '.join(places)}", f", line {lines[cells[1][0]]}" if lines else ""
        high, wide = BOXES.get(sudoku.size, (1, 1))
        if kind == "box" and high != wide:
            where += f" (boxes have {high} rows and {wide} columns here; --boxes {wide}x{high} turns them)"
        no_cover(f"{path}{line}: {kind}{number} has the digit {sudoku.mark(digit)} twice{where}", sudoku.without_digits(cells))
    return sudoku


def is_typed(given: str) -> bool:
    """Whether a sudoku is on the command line itself, and not in a file."""
    return bool(re.fullmatch(r"[0-9._*?xX\s-]{4,}|[0-9._\s]+|[0-9A-Pa-p._\s]{16,}", given)) and not os.path.exists(given)


def sudoku_of(rows: list[str]) -> Puzzle:
    """The sudoku of rows of digits and dots."""
    return Sudoku([[int(mark) if mark != "." else 0 for mark in row] for row in rows]).puzzle()


def read_sudoku(given: str, is_text: bool, diagonals: bool = False, box: Cell | None = None, hyper: bool = False) -> Sudoku:
    """A sudoku from characters or a file, with boxes."""
    path = TYPED if is_text else given
    digits, symbols, lines = digits_of(path, given if is_text else read_text(given))
    if not is_text:
        want_no_regions(path, len(digits))
    regions = regions_by_boxes(path, len(digits), box)
    if len(digits) not in BOXES and not regions:
        refuse(path, None, f"a sudoku of {len(digits)} by {len(digits)} has no boxes: the kind jigsaw takes its regions")
    if hyper and len(digits) != 9:
        refuse(path, None, f"a hyper sudoku has 9 rows, and this one {len(digits)}")
    return checked(path, Sudoku(digits, regions, diagonals, (), symbols, hyper), lines)


def want_no_regions(path: str, size: int) -> None:
    """Refuses a jigsaw, a sudoku behind which a letter of its region stands for each cell."""
    for block in blocks_of(path)[1:]:
        rows = [re.sub(r"[\s,;]", "", line) for _, line in block]
        if len(rows) == size and all(row.isalpha() and len(row) == size for row in rows):
            refuse(path, block[0][0], "letters of regions stand behind the digits: zarfepoch jigsaw reads them, and a "
                   "sudoku has boxes")


def regions_by_boxes(path: str, size: int, box: Cell | None) -> list[list[int]] | None:
    """The regions of boxes with so many rows and columns; None where these aren't told."""
    if box and (box[0] * box[1] != size):
        refuse(path, None, f"boxes of {box[0]}x{box[1]} have {box[0] * box[1]} cells, and a sudoku of {size} rows wants {size}")
    return boxes_of(size, box) if box else None


def letters_of(path: str, block: Block) -> list[str]:
    """A square of letters, one for each cell; blanks, commas and semicolons between are none."""
    rows = [re.sub(r"[\s,;]", "", line) for _, line in block]
    for (number, _), row in zip(block, rows):
        if len(row) != len(rows):
            refuse(path, number, f"{len(rows)} letters are expected, as there are rows, and here are {len(row)}")
    return rows


def cells_by_letter(rows: list[str]) -> dict[str, list[Cell]]:
    cells: dict[str, list[Cell]] = {}
    for r, row in enumerate(rows):
        for c, letter in enumerate(row):
            cells.setdefault(letter, []).append((r, c))
    return cells


def regions_of(path: str, block: Block, size: int) -> tuple[list[list[int]], str]:
    """Regions by letters, each with as many cells as the sudoku has rows; numbered in the order of their first cells,
    which is that of the letters behind them. Where most of them hang together, all have to: else a letter stands in a
    wrong place."""
    rows = letters_of(path, block)
    if len(rows) != size:
        refuse(path, block[0][0], f"the regions have {len(rows)} rows and the digits {size}")
    cells = cells_by_letter(rows)
    for letter, its_cells in cells.items():
        if len(its_cells) != size:
            line = block[its_cells[0][0]][0]
            refuse(path, line, f"the region {letter} has {len(its_cells)} cells, and each has {size}")
    parted = {letter: its_cells for letter, its_cells in cells.items() if not is_connected(its_cells)}
    if len(parted) <= size // 2:
        want_whole(path, block, parted, "region")
    order = list(cells)
    return [[order.index(letter) for letter in row] for row in rows], "".join(order)


def text_of(block: Block) -> tuple[str, list[int]]:
    """The text of a block, and the numbers of its lines."""
    return "\n".join(line for _, line in block), [number for number, _ in block]


def is_digits(block: Block) -> bool:
    return all(re.fullmatch(r"[0-9._\s|,;*?\u00b7-]+", line) for _, line in block)


def read_jigsaw(path: str, diagonals: bool = False) -> Sudoku:
    """Given digits and regions: two squares with an empty line between, in any order."""
    blocks = blocks_of(path)
    if len(blocks) != 2:
        refuse(path, None, "rows of digits and dots, an empty line, and rows of letters for the regions are expected")
    blocks.sort(key=lambda block: not is_digits(block))
    digits, symbols, lines = digits_of(path, *text_of(blocks[0]))
    regions, letters = regions_of(path, blocks[1], len(digits))
    return checked(path, Sudoku(digits, regions, diagonals, (), symbols, letters=letters), lines)


def sums_of(path: str, block: Block) -> dict[str, int]:
    """The sums of cages by their letters, as a=12 or a 12, several in a line."""
    found = {}
    for number, line in block:
        told = names_in(path, number, re.sub(r"\s*[=:]\s*", "=", line))
        words = told if any("=" in word for word in told) else ["=".join(told[k:k + 2]) for k in range(0, len(told), 2)]
        for word in words:
            letter, sign, total = word.partition("=")
            if len(letter) != 1 or not re.fullmatch(r"[1-9]\d{0,2}", total):
                refuse(path, number, f"'{word}' is no sum of a cage, as a=12")
            if letter in found:
                refuse(path, number, f"the cage {letter} has a sum already")
            found[letter] = int(total)
    return found


def sums_of_digits(count: int, most: int) -> str:
    """What so many different digits make."""
    if count > most:
        return f"{count} cells are more than there are different digits"
    least, greatest = sum(range(1, count + 1)), sum(range(most - count + 1, most + 1))
    return f"{count} different digits make {least}" + (f" to {greatest}" if greatest > least else "")


def want_whole(path: str, block: Block, cells: dict[str, list[Cell]], what: str) -> None:
    """Refuses regions or cages whose cells don't hang together."""
    for letter, its_cells in cells.items():
        if not is_connected(its_cells):
            refuse(path, block[its_cells[0][0]][0], f"the {what} {letter} is in several parts; each {what} has a letter of its own, and letters "
                   "may be small and capital ones and digits")


def cages_of(path: str, block: Block, cells: dict[str, list[Cell]], sums: dict[str, int]) -> list[Cage]:
    """The cages with their sums; ends the script where one can't have its sum."""
    cages, size = list[Cage](), len(block)
    for letter, its_cells in cells.items():
        line, count = block[its_cells[0][0]][0], len(its_cells)
        if letter not in sums:
            refuse(path, line, f"the cage {letter} has no sum")
        least, most = sum(range(1, count + 1)), sum(range(size - count + 1, size + 1))
        if count > size or not least <= sums[letter] <= most:
            no_cover(f"{path}, line {line}: the cage {letter} can't have the sum {sums[letter]}: {sums_of_digits(count, size)}")
        cages.append((its_cells, sums[letter]))
    return cages


def want_total(path: str, sudoku: Sudoku, total: int) -> None:
    """Ends the script where cages have all cells, and their sums make something else than all digits do."""
    digits = sudoku.size * sudoku.size * (sudoku.size + 1) // 2
    if len(sudoku.cage_of) == sudoku.size * sudoku.size and total != digits:
        no_cover(f"{path}: the sums of all cages make {total}, and the digits of all cells {digits}", sudoku.changes())


def read_killer(path: str, diagonals: bool = False, box: Cell | None = None) -> Sudoku:
    """Cages by letters, their sums, and perhaps given digits, with empty lines between."""
    blocks = blocks_of(path)
    if not 2 <= len(blocks) <= 3:
        refuse(path, None, "rows of letters for the cages, an empty line and lines of sums as a=12 are expected, and if there are given digits, "
               "an empty line and rows of them")
    rows, sums = letters_of(path, blocks[0]), sums_of(path, blocks[1])
    size = len(rows)
    if size not in BOXES or size > 9:
        refuse(path, None, f"a killer sudoku has 4, 6, 8 or 9 rows, and this one {size}")
    digits, _, lines = digits_of(path, *text_of(blocks[2])) if len(blocks) > 2 else ([[0] * size for _ in range(size)], None, None)
    if len(digits) != size:
        refuse(path, blocks[2][0][0], f"the digits have {len(digits)} rows and the cages {size}")
    cells = {letter: its_cells for letter, its_cells in cells_by_letter(rows).items() if letter != "."}
    for letter in sums:
        if letter not in cells:
            refuse(path, blocks[1][0][0], f"there is no cage {letter}")
    want_whole(path, blocks[0], cells, "cage")
    sudoku = Sudoku(digits, regions_by_boxes(path, size, box), diagonals, cages_of(path, blocks[0], cells, sums))
    want_total(path, sudoku, sum(sums.values()))
    return checked(path, sudoku, lines)
