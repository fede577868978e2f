"""Puzzles drawn by lot from a solution, written as newspapers print them, each with a test of solutions by the puzzle's
own rules.

Nothing here knows of items, options and covers, or of the scripts that make them: that is what generate.py and draw.py
are tested with.
"""
from __future__ import annotations

import itertools
import random
import re
from collections.abc import Iterable, Sequence
from typing import Callable

# a cell by row and column; a number for each cell; a text with a test of the lines that are drawn; two texts with one
Cell = tuple[int, int]
Grid = dict[Cell, int]
Drawn = tuple[str, Callable[[list[str]], bool]]
DrawnTwice = tuple[tuple[str, str], Callable[[list[str]], bool]]
# a cell by layer, row and column; the cells of a piece
Place = tuple[int, int, int]
Shape = tuple[Place, ...]

# rows and columns of a box, by the size of the sudoku
BOXES = {4: (2, 2), 6: (2, 3), 9: (3, 3), 12: (3, 4), 16: (4, 4)}
MARKS = "123456789ABCDEFG"
LETTERS = "abcdefghijklmnopqrstuvwxyzABCDEFGHIJKLMNOPQRSTUVWXYZ"
# a sudoku whose diagonals have each digit too
DIAGONAL = ["639251748", "458367912", "172849365", "967435281", "824176593", "315928476", "796583124", "541692837", "283714659"]

# one whose four windows have each digit too
HYPER = ["267195834", "415683729", "389724651", "724361985", "198257463", "536849217", "972516348", "641938572", "853472196"]


def houses(size: int, regions: Grid) -> list[list[Cell]]:
    """The cells of each row, column and region."""
    found = [[(r, c) for c in range(size)] for r in range(size)] + [[(r, c) for r in range(size)] for c in range(size)]
    cells = [(r, c) for r in range(size) for c in range(size)]
    return found + [[cell for cell in cells if regions[cell] == region] for region in sorted(set(regions.values()))]


def boxes(size: int) -> Grid:
    high, wide = BOXES[size]
    return {(r, c): r // high * (size // wide) + c // wide for r in range(size) for c in range(size)}


def filled(draw: random.Random, size: int) -> Grid:
    """A filled sudoku: rows of one pattern, whose bands, rows, columns and digits are shuffled."""
    high, wide = BOXES[size]
    rows = [band * high + row for band in draw.sample(range(size // high), size // high) for row in draw.sample(range(high), high)]
    columns = [stack * wide + column for stack in draw.sample(range(size // wide), size // wide) for column in draw.sample(range(wide), wide)]
    digits = draw.sample(range(1, size + 1), size)
    return {(r, c): digits[(wide * (row % high) + row // high + column) % size] for r, row in enumerate(rows) for c, column in enumerate(columns)}


def thinned(draw: random.Random, solution: Grid, share: float) -> Grid:
    """A part of the digits of a solution."""
    return {cell: digit for cell, digit in solution.items() if draw.random() < share}


def as_rows(size: int, values: dict[Cell, str], empty: str, apart: str = "") -> str:
    return "\n".join(apart.join(values.get((r, c), empty) for c in range(size)) for r in range(size)) + "\n"


def is_filled(size: int, digits: Grid, regions: Grid, given: Grid, further: Sequence[list[Cell]] = ()) -> bool:
    """Whether each row, column and region has each digit, and the given ones stand."""
    every = set(range(1, size + 1))
    return all({digits.get(cell) for cell in house} == every for house in [*houses(size, regions), *further]) and all(
        digits[cell] == digit for cell, digit in given.items())


def digits_of(lines: list[str], size: int) -> Grid:
    """The digits of a drawn sudoku, with boxes or with walls round regions."""
    rows = [re.findall(r"\d+|[A-G]", line) for line in lines]
    rows = [row for row in rows if row]
    return {(r, c): int(mark) if mark.isdecimal() else MARKS.index(mark) + 1 for r, row in enumerate(rows) for c, mark in enumerate(row)}


# ---- each gives a text and a test of the lines that are drawn

def sudoku(draw: random.Random, size: int) -> Drawn:
    given = thinned(draw, filled(draw, size), 0.5)
    words = size == 12
    marks = {cell: str(digit) if words else MARKS[digit - 1] for cell, digit in given.items()}
    return as_rows(size, marks, ".", " " if words else ""), lambda lines: is_filled(size, digits_of(lines, size), boxes(size), given)


def diagonals(draw: random.Random) -> Drawn:
    digits = draw.sample(range(1, 10), 9)
    solution = {(r, c): digits[int(mark) - 1] for r, row in enumerate(DIAGONAL) for c, mark in enumerate(row)}
    given = thinned(draw, solution, 0.35)
    further = [[(k, k) for k in range(9)], [(k, 8 - k) for k in range(9)]]
    return as_rows(9, {cell: str(digit) for cell, digit in given.items()}, "."), lambda lines: is_filled(
        9, digits_of(lines, 9), boxes(9), given, further)


def hyper(draw: random.Random) -> Drawn:
    """A sudoku with windows: one that is known, with other digits, and turned or seen in a mirror."""
    digits, rows = draw.sample(range(1, 10), 9), HYPER
    for _ in range(draw.randrange(4)):
        rows = ["".join(column) for column in zip(*rows[::-1])]
    rows = rows[::draw.choice((1, -1))]
    given = thinned(draw, {(r, c): digits[int(mark) - 1] for r, row in enumerate(rows) for c, mark in enumerate(row)}, 0.35)
    windows = [[(top + r, left + c) for r in range(3) for c in range(3)] for top in (1, 5) for left in (1, 5)]
    return as_rows(9, {cell: str(digit) for cell, digit in given.items()}, "."), lambda lines: is_filled(
        9, digits_of(lines, 9), boxes(9), given, windows)


def jigsaw(draw: random.Random) -> Drawn:
    """Two cells with one digit in neighbouring boxes change their regions: each region has each digit still."""
    solution, regions = filled(draw, 9), boxes(9)
    for _ in range(30):
        one, other = draw.sample(sorted(regions), 2)
        twin = next(cell for cell in regions if regions[cell] == regions[other] and solution[cell] == solution[one])
        regions[one], regions[twin] = regions[twin], regions[one]
    given = thinned(draw, solution, 0.4)
    text = as_rows(9, {cell: str(digit) for cell, digit in given.items()}, ".") + "\n" + as_rows(
        9, {cell: LETTERS[region] for cell, region in regions.items()}, ".")
    return text, lambda lines: is_filled(9, digits_of(lines, 9), regions, given)


def cages_of(draw: random.Random, solution: Grid) -> Grid:
    """Cages of one to four cells side by side, without a digit twice."""
    cage_of: Grid = {}
    for cell in sorted(solution):
        cage, wanted = [cell], draw.randint(2, 4)
        while cell not in cage_of and len(cage) < wanted:
            near = [(r + a, c + b) for r, c in cage for a, b in ((0, 1), (1, 0), (0, -1), (-1, 0))]
            near = [one for one in near if one in solution and one not in cage_of and one not in cage and
                    solution[one] not in {solution[other] for other in cage}]
            if not near:
                break
            cage.append(draw.choice(near))
        number = max(cage_of.values(), default=-1) + 1
        cage_of.update({one: number for one in cage} if cell not in cage_of else {})
    return cage_of


def killer(draw: random.Random) -> Drawn:
    solution = filled(draw, 9)
    cage_of = cages_of(draw, solution)
    while max(cage_of.values()) >= len(LETTERS):
        cage_of = cages_of(draw, solution)
    cages = {number: [cell for cell in cage_of if cage_of[cell] == number] for number in set(cage_of.values())}
    sums = {number: sum(solution[cell] for cell in cells) for number, cells in cages.items()}
    sign = draw.choice(["=", ": ", " "])
    text = as_rows(9, {cell: LETTERS[number] for cell, number in cage_of.items()}, ".") + "\n" + "  ".join(
        f"{LETTERS[number]}{sign}{total}" for number, total in sums.items()) + "\n"

    def is_right(lines: list[str]) -> bool:
        digits = digits_of(lines, 9)
        return is_filled(9, digits, boxes(9), {}) and all(
            sum(digits[cell] for cell in cells) == sums[number] and len({digits[cell] for cell in cells}) == len(cells)
            for number, cells in cages.items())

    return text, is_right


def runs(white: set[Cell], step: Cell) -> dict[Cell, list[Cell]]:
    """The runs of white cells in one direction, by the black cell before them."""
    found: dict[Cell, list[Cell]] = {}
    for r, c in sorted(white):
        before = (r - step[0], c - step[1])
        if before not in white:
            cells = [(r, c)]
            while (cells[-1][0] + step[0], cells[-1][1] + step[1]) in white:
                cells.append((cells[-1][0] + step[0], cells[-1][1] + step[1]))
            found[before] = cells
    return found


def white_cells(draw: random.Random, size: int) -> set[Cell]:
    """White cells by lot; those alone in a row or column are taken away, as long as there are any."""
    white = {(r, c) for r in range(1, size) for c in range(1, size) if draw.random() < 0.7}
    alone = white
    while alone:
        alone = {cells[0] for step in ((1, 0), (0, 1)) for cells in runs(white, step).values() if len(cells) == 1}
        white -= alone
    return white


def digits_in(draw: random.Random, white: set[Cell]) -> Grid:
    """A digit for each white cell, by lot, and different ones in each run; 0 where none is left."""
    every = [cells for step in ((1, 0), (0, 1)) for cells in runs(white, step).values()]
    digits: Grid = {}
    for cell in sorted(white):
        taken = {digits.get(one) for cells in every if cell in cells for one in cells}
        digits[cell] = draw.choice([digit for digit in range(1, 10) if digit not in taken] or [0])
    return digits


def kakuro(draw: random.Random, size: int = 7) -> Drawn:
    """A grid by lot, with the sums of digits by lot."""
    white: set[Cell] = set()
    digits: Grid = {}
    while len(white) < 12 or 0 in digits.values():
        white = white_cells(draw, size)
        digits = digits_in(draw, white)
    both = {step: runs(white, step) for step in ((1, 0), (0, 1))}
    sums = {step: {before: sum(digits[cell] for cell in cells) for before, cells in by.items()} for step, by in both.items()}
    marks = {cell: "." for cell in white}
    for cell in set(sums[1, 0]) | set(sums[0, 1]):
        marks[cell] = f"{sums[1, 0].get(cell, '')}\\{sums[0, 1].get(cell, '')}"

    def is_right(lines: list[str]) -> bool:
        drawn = {(r, c): word for r, line in enumerate(lines) for c, word in enumerate(line.split())}
        return all(drawn[cell].isdecimal() for cell in white) and all(
            sum(int(drawn[cell]) for cell in cells) == sums[step][before] and len({drawn[cell] for cell in cells}) == len(cells)
            for step, by in both.items() for before, cells in by.items())

    return as_rows(size, marks, "#", " "), is_right


def touch(one: Cell, other: Cell) -> bool:
    return max(abs(one[0] - other[0]), abs(one[1] - other[1])) < 2


def rows_of_stars(draw: random.Random, size: int, count: int, rows: tuple[tuple[int, ...], ...] = ()) -> tuple[tuple[int, ...], ...]:
    """The columns of the stars in each row, so many in each row and column and none that touch; nothing where these
    rows can't go on."""
    if len(rows) == size:
        return rows
    ways = [columns for columns in itertools.combinations(range(size), count)
            if not any(abs(one - other) < 2 for one, other in itertools.combinations(columns, 2))
            and not any(abs(one - other) < 2 for one in columns for other in (rows[-1] if rows else ()))
            and all(sum(column in row for row in rows) < count for column in columns)]
    found = (rows_of_stars(draw, size, count, (*rows, way)) for way in draw.sample(ways, len(ways)))
    return next(filter(None, found), ())


def stars(draw: random.Random, size: int = 8, count: int = 1) -> Drawn:
    """So many stars in each row and column, and regions that grow round those of a row and what lies between them."""
    found = list(enumerate(rows_of_stars(draw, size, count)))
    regions = {(r, c): r for r, columns in found for c in range(columns[0], columns[-1] + 1)}
    while len(regions) < size * size:
        (r, c), region = draw.choice(sorted(regions.items()))
        near = [cell for cell in ((r, c + 1), (r + 1, c), (r, c - 1), (r - 1, c)) if cell not in regions and 0 <= min(cell) <= max(cell) < size]
        regions.update({cell: region for cell in near[:1]})

    def is_right(lines: list[str]) -> bool:
        drawn = [(r, c) for r, line in enumerate(lines[1::2]) for c in range(size) if line[4 * c + 2:4 * c + 3] == "*"]
        return all(sum(cell in house for cell in drawn) == count for house in houses(size, regions)) and not any(
            touch(one, other) for one, other in itertools.combinations(drawn, 2))

    return as_rows(size, {cell: LETTERS[region] for cell, region in regions.items()}, "."), is_right


def blocks(line: str) -> list[int]:
    return [len(block) for block in line.replace(".", " ").split()]


def nonogram(draw: random.Random, size: int = 10) -> Drawn:
    """Black cells by lot, in a picture that is rather coherent; numbers with commas or blanks."""
    rows: list[str] = []
    for _ in range(size):
        before = rows[-1] if rows else "." * size
        rows.append("".join(draw.choice("#" if before[c] == "#" else ".#.") if draw.random() < 0.5 else before[c] for c in range(size)))
    columns = ["".join(column) for column in zip(*rows)]
    apart = draw.choice([", ", ",", " "])
    text = "\n\n".join("\n".join(apart.join(map(str, blocks(line))) or "0" for line in lines) for lines in (rows, columns)) + "\n"
    return text, lambda lines: [blocks(line) for line in lines] == [blocks(line) for line in rows] and [
        blocks("".join(column)) for column in zip(*lines)] == [blocks(line) for line in columns]


def crossword(draw: random.Random, size: int = 6) -> DrawnTwice:
    """A grid and a list of words, of which some stand in the grid from which they are read off."""
    grid = [["#" if draw.random() < 0.2 else draw.choice("aeinrst") for _ in range(size)] for _ in range(size)]
    lines = ["".join(row) for row in grid] + ["".join(column) for column in zip(*grid)]
    words = [word for line in lines for word in line.split("#") if len(word) > 1]
    if len(set(words)) < len(words) or len(words) < 8:
        return crossword(draw, size)
    further = ["".join(draw.choice("aeinrst") for _ in range(draw.randint(2, size))) for _ in range(60)]
    listed = draw.sample(sorted(set(words + further)), len(set(words + further)))
    text = "\n".join("".join("#" if mark == "#" else "." for mark in row) for row in grid) + "\n"

    def is_right(drawn: list[str]) -> bool:
        marks = [line.ljust(2 * size)[::2] for line in drawn + [""] * (size - len(drawn))]
        rows = ["".join("#" if mark == " " else mark for mark in row) for row in marks]
        lines = rows + ["".join(column) for column in zip(*rows)]
        found = [word for line in lines for word in line.split("#") if len(word) > 1]
        return len(found) == len(words) and len(set(found)) == len(found) and set(found) <= set(listed)

    return (text, "\n".join(listed) + "\n"), is_right


# ---- boards and solids

def shapes_of(lines: list[str], board: set[Cell]) -> list[list[Cell]]:
    """The shapes on a drawn board: cells that no wall parts."""
    cells, shapes = set(board), list[list[Cell]]()
    while cells:
        reached = [min(cells)]
        cells -= set(reached)
        for r, c in reached:
            across = [((r, c + 1), lines[2 * r + 1][4 * c + 4:4 * c + 5]), ((r, c - 1), lines[2 * r + 1][4 * c:4 * c + 1])]
            down = [((r + 1, c), lines[2 * r + 2][4 * c + 2:4 * c + 3]), ((r - 1, c), lines[2 * r][4 * c + 2:4 * c + 3])]
            near = {cell for cell, wall in across + down if cell in cells and wall not in ("|", "-")}
            cells -= near
            reached += sorted(near)
        shapes.append(reached)
    return shapes


def at_origin(cells: Iterable[Sequence[int]]) -> Shape:
    """Cells in order, moved to the origin."""
    places = list(cells)
    least = [min(cell[k] for cell in places) for k in range(3)]
    return tuple(sorted((cell[0] - least[0], cell[1] - least[1], cell[2] - least[2]) for cell in places))


def normal(cells: Iterable[Sequence[int]], flips: bool) -> Shape:
    """The least of a shape's turns at the origin, and of its mirror images if it may be flipped; what is flat stays in
    its layer."""
    places, ways = list(cells), list[Shape]()
    is_flat = len({layer for layer, _, _ in places}) == 1 and flips
    for order, signs in itertools.product(itertools.permutations(range(3)), itertools.product((1, -1), repeat=3)):
        odd = sum(order[a] > order[b] for a, b in itertools.combinations(range(3), 2)) + signs.count(-1)
        if (order[0] == 0 if is_flat else odd % 2 == 0):
            ways.append(at_origin([[sign * cell[axis] for axis, sign in zip(order, signs)] for cell in places]))
    return min(ways)


def neighbours(cell: Sequence[int]) -> list[Place]:
    steps = [(k, sign) for k in range(3) for sign in (1, -1)]
    return [(cell[0] + sign * (k == 0), cell[1] + sign * (k == 1), cell[2] + sign * (k == 2)) for k, sign in steps]


def cut(draw: random.Random, board: set[Place], flips: bool) -> list[Shape]:
    """A board cut into pieces of three to five cells by lot, each turned to its least form."""
    cells, shapes = set(board), list[Shape]()
    while cells:
        shape, wanted = [min(cells)], draw.randint(3, 5)
        while len(shape) < wanted:
            near = sorted({other for cell in shape for other in neighbours(cell)} & cells - set(shape))
            if not near:
                return cut(draw, board, flips)
            shape.append(draw.choice(near))
        cells -= set(shape)
        shapes.append(normal(shape, flips))
    return shapes


def written(shapes: list[Shape]) -> str:
    """The pieces as a file has them, each with its number of copies and its layers side by side."""
    pieces = []
    for k, (piece, count) in enumerate({shape: shapes.count(shape) for shape in shapes}.items()):
        deep, high, wide = (range(max(cell[a] for cell in piece) + 1) for a in range(3))
        rows = [" ".join("".join("x" if (layer, r, c) in piece else "." for c in wide) for layer in deep) for r in high]
        pieces.append(f"{LETTERS[k].upper()} {count}\n" + "\n".join(rows) + "\n")
    return "\n".join(pieces)


def board(draw: random.Random, rows: int = 6, columns: int = 7) -> DrawnTwice:
    """A board with holes that is cut into pieces by lot; equal pieces are one with a number."""
    cells = set(itertools.product(range(rows), range(columns)))
    cells -= set(draw.sample(sorted(cells), 4))
    if min(sum((r + a, c + b) in cells for a, b in ((0, 1), (1, 0), (0, -1), (-1, 0))) for r, c in cells) == 0:
        return board(draw, rows, columns)
    shapes = cut(draw, {(0, r, c) for r, c in cells}, True)
    text = "\n".join("".join("x" if (r, c) in cells else "." for c in range(columns)) for r in range(rows)) + "\n"

    def is_right(lines: list[str]) -> bool:
        drawn = [line.ljust(4 * columns + 1) for line in lines]
        found = [normal([(0, r, c) for r, c in shape], True) for shape in shapes_of(drawn, cells)]
        return sorted(found) == sorted(shapes) and len(re.findall("[A-Z]", "".join(lines))) == len(cells)

    return (text, written(shapes)), is_right


def solid(draw: random.Random, size: int = 3) -> DrawnTwice:
    """A cube that is cut into different pieces by lot, layer by layer."""
    cells = set(itertools.product(range(size), range(size), range(size)))
    shapes = cut(draw, cells, False)
    while len(set(shapes)) < len(shapes):
        shapes = cut(draw, cells, False)
    text = "\n\n".join(["\n".join(["x" * size] * size)] * size) + "\n"

    def is_right(lines: list[str]) -> bool:
        rows = [re.findall("[A-Z]", line) for line in lines if re.search("[A-Z]", line)]
        drawn = {(k // size, k % size, c): mark for k, row in enumerate(rows) for c, mark in enumerate(row)}
        found = [normal([cell for cell, mark in drawn.items() if mark == piece], False) for piece in sorted(set(drawn.values()))]
        return set(drawn) == cells and found == shapes

    return (text, written(shapes)), is_right
