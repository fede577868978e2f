"""Puzzles of numbers and signs in grids as exact covers: dominosa, tents, shikaku, futoshiki, KenKen and binairo."""
from __future__ import annotations

import functools
import itertools
import math
import re
from collections import Counter
from collections.abc import Iterator

from ..boards.cells import Cell, cell_names, cell_words
from ..files.cover_files import MAX_OPTIONS
from ..files.fault_words import plural, with_article
from ..texts.names import names_in
from ..texts.puzzles import blocks_of, Change, no_cover, Puzzle, refuse, rows_of
from .sudokus import cells_by_letter, EMPTY, letters_of, want_whole

# the words of each line with its number
Rows = list[tuple[int, list[str]]]


def marks_in(path: str, number: int, line: str) -> list[str]:
    """The marks of a line: its words, or its characters where it is one word."""
    words = names_in(path, number, line)
    return list(words[0]) if len(words) == 1 else words


def grid_of(path: str, lines: list[tuple[int, str]]) -> Rows:
    """Rows of marks, all of one length."""
    rows = [(number, marks_in(path, number, line)) for number, line in lines]
    for number, row in rows:
        if len(row) != len(rows[0][1]):
            refuse(path, number, f"{plural(len(rows[0][1]), 'cell')} are expected, as in the first row, and here are {len(row)}")
    return rows or refuse(path, None, "there are no rows")


def only_block(path: str) -> list[tuple[int, str]]:
    """The lines of a text without empty lines between."""
    blocks = blocks_of(path)
    if len(blocks) != 1:
        refuse(path, None, f"one block of rows is expected, without empty lines between, and here are {len(blocks)}")
    return blocks[0]


def number_of(path: str, number: int, mark: str, column: int, least: int, most: int) -> int:
    """A number in a cell."""
    if not re.fullmatch(r"\d{1,3}", mark) or not least <= int(mark) <= most:
        refuse(path, number, f"'{mark}' in column {column + 1} is no number from {least} to {most}")
    return int(mark)


def told_rows(rows: list[list[str]]) -> str:
    """Rows of marks as a comment tells them."""
    return " / ".join(" ".join(row) for row in rows)


# ---- dominosa

def dominosa(path: str) -> Puzzle:
    """A set of dominoes lies in a grid of numbers, each of them once: where?"""
    rows = grid_of(path, only_block(path))
    high, wide = len(rows), len(rows[0][1])
    most = min(high, wide) - 1
    if abs(high - wide) != 1:
        refuse(path, None, f"a set of dominoes from 0-0 to {most}-{most} fills {most + 1} by {most + 2} cells, and here are {high} by {wide}")
    values = {(r, c): number_of(path, number, mark, c, 0, most) for r, (number, row) in enumerate(rows) for c, mark in enumerate(row)}
    return dominoes_on(path, values, most)


def replaced(path: str, values: dict[Cell, int], most: int) -> list[Change]:
    """Where one number is there once too often, and another lacks once: changes of one cell that mend it."""
    counts = Counter(values.values())
    wrong = {value: counts[value] - most - 2 for value in range(most + 1) if counts[value] != most + 2}
    if sorted(wrong.values()) != [-1, 1]:
        return []
    lacking, often = sorted(wrong, key=wrong.__getitem__)
    return [Change(f"with {with_article(lacking)} in place of the {often} in {cell_words(cell)}",
                   functools.partial(dominoes_on, path, {**values, cell: lacking}, most))
            for cell, value in values.items() if value == often]


def dominoes_on(path: str, values: dict[Cell, int], most: int) -> Puzzle:
    """The dominoes of a set on numbers."""
    counts = Counter(values.values())
    for value in range(most + 1):
        if counts[value] != most + 2:
            no_cover(f"{path}: the number {value} stands in {plural(counts[value], 'cell')}, and the dominoes have it {most + 2} times",
                     replaced(path, values, most))
    high, wide = (max(cell[k] for cell in values) + 1 for k in (0, 1))
    names = cell_names(high, wide)
    options = []
    for (r, c), value in values.items():
        for other in ((r, c + 1), (r + 1, c)):
            if other in values:
                low, high_value = sorted((value, values[other]))
                options.append([f"d{low}.{high_value}", names[r, c], names[other]])
    dominoes = [f"d{low}.{high_value}" for low, high_value in itertools.combinations_with_replacement(range(most + 1), 2)]
    rows = [[str(values[r, c]) for c in range(wide)] for r in range(high)]
    return Puzzle(dominoes + list(names.values()), [], options, [f"numbers: {told_rows(rows)}"])


# ---- tents

def read_tents(path: str) -> tuple[list[list[str]], list[int], list[int], list[int]]:
    """The rows of trees, the numbers beside rows and below columns, and the numbers of the lines."""
    *lines, (last, below) = only_block(path)
    if re.search("[tT.]", below):
        refuse(path, last, f"the last line has the numbers of tents in columns, and here is '{below.strip()}'")
    columns = [number_of(path, last, word, c, 0, 99) for c, word in enumerate(names_in(path, last, below))]
    rows, beside = [], []
    for number, line in lines:
        *cells, count = names_in(path, number, line)
        if not cells:
            refuse(path, number, "cells and the number of their tents behind a blank are expected, and here is "
                   f"'{count}' alone")
        marks = list(cells[0]) if len(cells) == 1 else cells
        if len(marks) != len(columns):
            refuse(path, number, f"{plural(len(columns), 'cell')} and a number are expected, as there are numbers in the last line, and here are {len(marks)}")
        for c, mark in enumerate(marks):
            if mark not in EMPTY - {"x", "X", "*"} and mark not in "tTxX*":
                refuse(path, number, f"'{mark}' in column {c + 1} is no cell: T is a tree, and a dot none")
        rows.append(["T" if mark in "tTxX*" else "." for mark in marks])
        beside.append(number_of(path, number, count, len(columns), 0, 99))
    return rows, beside, columns, [number for number, _ in lines]


def squares_at(cell: Cell, high: int, wide: int) -> list[Cell]:
    """The squares of two by two cells that a cell is in, by their first cells."""
    r, c = cell
    return [(top, left) for top in (r - 1, r) for left in (c - 1, c) if 0 <= top < high - 1 and 0 <= left < wide - 1]


def ways_apart(cells: list[Cell], count: int) -> Iterator[tuple[Cell, ...]]:
    """The choices of so many of these cells of a line, none beside another."""
    return (some for some in itertools.combinations(cells, count)
            if all(abs(one[0] - other[0]) + abs(one[1] - other[1]) > 1 for one, other in zip(some, some[1:])))


def tents(path: str) -> Puzzle:
    """Each tree gets a tent of its own beside it; tents don't touch, and numbers count those of rows and columns."""
    return tents_beside(path, *read_tents(path))


def recounted(path: str, rows: list[list[str]], beside: list[int], below: list[int], lines: list[int]) -> list[Change]:
    """Where trees and numbers don't agree: changes of one number, or of one tree, after which they do."""
    trees = sum(row.count("T") for row in rows)
    across, down = trees - sum(beside), trees - sum(below)
    changes = []
    for kind, by, numbers in (("row", across, beside), ("column", down, below)):
        for k, number in enumerate(numbers):
            if by and by == across + down and number + by >= 0:
                other = [number + by if place == k else one for place, one in enumerate(numbers)]
                both = (other, below) if kind == "row" else (beside, other)
                changes.append(Change(f"with {number + by} in place of the {number} of {kind} {k + 1}",
                                      functools.partial(tents_beside, path, rows, *both, lines)))
    if across == down and across in (-1, 1):
        for r, c in itertools.product(range(len(rows)), range(len(below))):
            if (rows[r][c] == "T") == (across == 1):
                planted = [["." if across == 1 else "T" if cell == (r, c) else mark for cell, mark in zip(((a, b) for b in range(len(row))), row)]
                           if a == r else row for a, row in enumerate(rows)]
                changes.append(Change(f"with{'out the' if across == 1 else ' a'} tree in {cell_words((r, c))}",
                                      functools.partial(tents_beside, path, planted, beside, below, lines)))
    return changes


def tents_beside(path: str, rows: list[list[str]], beside: list[int], below: list[int], lines: list[int]) -> Puzzle:
    """Tents beside trees, by the numbers of rows and columns."""
    high, wide = len(rows), len(below)
    names = cell_names(high, wide)
    trees = [(r, c) for r, row in enumerate(rows) for c, mark in enumerate(row) if mark == "T"]
    if not sum(beside) == sum(below) == len(trees):
        no_cover(f"{path}: there are {plural(len(trees), 'tree')}, and the numbers make {sum(beside)} tents in rows and {sum(below)} in columns",
                 recounted(path, rows, beside, below, lines))
    near = {tree: [cell for cell in ((tree[0] - 1, tree[1]), (tree[0], tree[1] + 1), (tree[0] + 1, tree[1]), (tree[0], tree[1] - 1))
                   if cell in names and cell not in trees] for tree in trees}
    can_be = sorted({cell for cells in near.values() for cell in cells})
    options = [[f"tree{names[tree]}", f"{names[cell]}:tent", f"u{names[cell]}"] for tree in trees for cell in near[tree]]
    for kind, counts, axis in (("row", beside, 0), ("column", below, 1)):
        for k, count in enumerate(counts):
            cells = [cell for cell in can_be if cell[axis] == k]
            ways = list(ways_apart(cells, count))
            if not ways:
                no_cover(f"{path}{f', line {lines[k]}' if axis == 0 else ''}: {kind} {k + 1} has no room for {plural(count, 'tent')} beside trees")
            for some in ways:
                squares = [f"s{names[square]}" for cell in some for square in squares_at(cell, high, wide)] if axis == 0 else []
                options.append([f"{kind}{k}", *(f"{names[cell]}:{'tent' if cell in some else 'blank'}" for cell in cells), *squares])
    primary = [f"tree{names[tree]}" for tree in trees] + [f"row{r}" for r in range(high)] + [f"column{c}" for c in range(wide)]
    used = {word.partition(":")[0] for option in options for word in option}
    secondary = [name for kind in ("", "u", "s") for name in (kind + cell for cell in names.values()) if name in used]
    told = [f"trees: {' '.join(''.join(row) for row in rows)}", f"rows: {' '.join(map(str, beside))}", f"columns: {' '.join(map(str, below))}"]
    return Puzzle(primary, secondary, options, told)


# ---- shikaku

def rectangles(area: int) -> Iterator[tuple[int, int]]:
    """The sizes of rectangles of so many cells."""
    return ((high, area // high) for high in range(1, area + 1) if area % high == 0)


def shikaku(path: str) -> Puzzle:
    """The grid falls into rectangles, each with one number, that of its cells."""
    rows = grid_of(path, only_block(path))
    high, wide = len(rows), len(rows[0][1])
    clues = {(r, c): number_of(path, number, mark, c, 1, 999) for r, (number, row) in enumerate(rows) for c, mark in enumerate(row) if mark not in EMPTY | {"0"}}
    return rectangles_round(path, clues, (high, wide), [number for number, _ in rows])


def resized(path: str, clues: dict[Cell, int], size: Cell, lines: list[int]) -> list[Change]:
    """Where the numbers don't make all cells: changes of one of them after which they do."""
    by = size[0] * size[1] - sum(clues.values())
    return [Change(f"with {area + by} in place of the {area} in {cell_words(cell)}",
                   functools.partial(rectangles_round, path, {**clues, cell: area + by}, size, lines))
            for cell, area in clues.items() if area + by > 0]


def rectangles_round(path: str, clues: dict[Cell, int], size: Cell, lines: list[int]) -> Puzzle:
    """The rectangles round numbers in a grid of so many rows and columns."""
    high, wide = size
    if sum(clues.values()) != high * wide:
        no_cover(f"{path}: the numbers make {sum(clues.values())} together, and the grid has {high * wide} cells", resized(path, clues, size, lines))
    names, options = cell_names(high, wide), []
    for (r, c), area in clues.items():
        found = []
        for tall, broad in rectangles(area):
            for top, left in itertools.product(range(r - tall + 1, r + 1), range(c - broad + 1, c + 1)):
                cells = [(top + a, left + b) for a in range(tall) for b in range(broad)]
                if top >= 0 and left >= 0 and top + tall <= high and left + broad <= wide and sum(cell in clues for cell in cells) == 1:
                    found.append([names[cell] for cell in cells])
        if not found:
            no_cover(f"{path}, line {lines[r]}: no rectangle of {plural(area, 'cell')} round the number {area} in column {c + 1} has no other number")
        options += found
    told = told_rows([[str(clues.get((r, c), ".")) for c in range(wide)] for r in range(high)])
    return Puzzle(list(names.values()), [], options, [f"numbers: {told}"])


# ---- futoshiki

# the signs between neighbours: which of both is less
LESS, MORE, UP, DOWN = "<", ">", "^\u2227\u02c4\u039b", "vV\u2228\u02c5"


def read_futoshiki(path: str) -> tuple[list[list[int]], list[tuple[Cell, Cell]], list[int]]:
    """The given digits, the pairs of cells of which the first has the smaller digit, and the numbers of the lines of
    rows. Signs below a row belong to the cell above them."""
    rows: list[list[int]] = []
    pairs: list[tuple[Cell, Cell]] = []
    lines: list[int] = []
    places: list[int] = []
    for number, line in rows_of(path):
        signs = [(place, mark) for place, mark in enumerate(line) if not mark.isspace()]
        if signs and all(mark in UP + DOWN for _, mark in signs):
            for place, mark in signs:
                if not rows or place not in places:
                    refuse(path, number, f"the '{mark}' at place {place + 1} stands below no cell of the row above")
                above, below = (len(rows) - 1, places.index(place)), (len(rows), places.index(place))
                pairs.append((above, below) if mark in UP else (below, above))
        elif signs:
            sign = next((mark for _, mark in signs if mark in UP + DOWN), None)
            if sign:
                place, other = next(one for one in signs if one[1] not in UP + DOWN)
                refuse(path, number, f"the '{other}' at place {place + 1} stands beside a '{sign}': a line has either "
                       "^ and v or digits, dots, < and >")
            places = [place for place, mark in signs if mark not in LESS + MORE]
            lines.append(number)
            rows.append([0 if line[place] in EMPTY | {"0"} else number_of(path, number, line[place], k, 1, 9) for k, place in enumerate(places)])
            pairs += [side_of(path, number, len(rows) - 1, places, place, mark) for place, mark in signs if mark in LESS + MORE]
    return rows, pairs, lines


def side_of(path: str, number: int, row: int, places: list[int], place: int, mark: str) -> tuple[Cell, Cell]:
    """The two cells beside a sign in a row, the smaller one first."""
    left = [k for k, other in enumerate(places) if other < place]
    if not left or left[-1] + 1 == len(places):
        refuse(path, number, f"the '{mark}' at place {place + 1} stands between no two cells")
    pair = (row, left[-1]), (row, left[-1] + 1)
    return pair if mark == LESS else (pair[1], pair[0])


def futoshiki(path: str) -> Puzzle:
    """A square in which each row and column has each digit; signs say which of two neighbours is less."""
    rows, pairs, lines = read_futoshiki(path)
    size = len(rows)
    for number, row in zip(lines, rows):
        if len(row) != size or max(row, default=0) > size:
            refuse(path, number, f"{plural(size, 'cell')} with digits up to {size} are expected, as there are rows, and here are {len(row)}")
    if not 2 <= size <= 9:
        refuse(path, None, f"2 to 9 rows are expected, and here are {size}")
    return signed_square(path, rows, pairs, lines)


def without_digit(rows: list[list[int]], cell: Cell) -> list[list[int]]:
    """Rows of digits, of which one is taken out."""
    return [[0 if (r, c) == cell else digit for c, digit in enumerate(row)] for r, row in enumerate(rows)]


def without_one(path: str, rows: list[list[int]], pairs: list[tuple[Cell, Cell]], lines: list[int]) -> list[Change]:
    """A futoshiki without each of its digits, and without each of its signs."""
    digits = [Change(f"without the {digit} in {cell_words((r, c))}",
                     functools.partial(signed_square, path, without_digit(rows, (r, c)), pairs, lines))
              for r, row in enumerate(rows) for c, digit in enumerate(row) if digit]
    return digits + [Change(f"without the sign between {cell_words(min(pair))} and {cell_words(max(pair))}",
                            functools.partial(signed_square, path, rows, [other for other in pairs if other != pair], lines)) for pair in pairs]


def signed_square(path: str, rows: list[list[int]], pairs: list[tuple[Cell, Cell]], lines: list[int]) -> Puzzle:
    """A square of given digits and signs."""
    size, changes = len(rows), without_one(path, rows, pairs, lines)
    low, high = ({cell: len(chain) for cell, chain in longest(size, pairs, way).items()} for way in (0, 1))
    options = []
    for r, c in itertools.product(range(size), repeat=2):
        given = rows[r][c]
        digits = [digit for digit in range(1 + low[r, c], size + 1 - high[r, c]) if given in (0, digit)]
        if not digits:
            no_cover(f"{path}, line {lines[r]}: no digit fits in column {c + 1}, by the signs beside it", changes)
        for digit in digits:
            option = [f"p{r}{c}", f"r{r}{digit}", f"c{c}{digit}"]
            option += [f"e{k}<{t}" for k, (less, more) in enumerate(pairs) for t in range(2, size)
                       if less == (r, c) and digit >= t or more == (r, c) and digit <= t]
            options.append(option)
    names = [f"{kind}{a}{b}" for kind in "prc" for a in range(size) for b in (range(size) if kind == "p" else range(1, size + 1))]
    used = {word for option in options for word in option}
    told = ["given: " + " ".join("".join(str(digit or ".") for digit in row) for row in rows)]
    told += ["less: " + " ".join(f"{a}{b}-{c}{d}" for (a, b), (c, d) in pairs)] if pairs else []
    return Puzzle(names, [name for k in range(len(pairs)) for t in range(2, size) if (name := f"e{k}<{t}") in used], options, told, changes)


def longest(size: int, pairs: list[tuple[Cell, Cell]], way: int) -> dict[Cell, list[Cell]]:
    """For each cell a longest chain of cells that are less than it, each less than the next one (way 0), or more (way
    1); as far as the size goes."""
    chains: dict[Cell, list[Cell]] = {(r, c): [] for r in range(size) for c in range(size)}
    for _ in range(size):
        for pair in pairs:
            before, behind = pair[way], pair[1 - way]
            if len(chains[before]) + 1 > len(chains[behind]):
                chains[behind] = [*chains[before], before][:size]
    return chains


# ---- KenKen

def read_kenken(path: str) -> tuple[list[str], dict[str, list[Cell]], dict[str, tuple[str, int]], list[tuple[int, str]]]:
    """The rows of letters, the cells of cages, what each makes and how, and the lines of the rows."""
    blocks = blocks_of(path)
    if len(blocks) != 2:
        refuse(path, None, "rows of letters for the cages, an empty line and lines of what they make, as a=12+ b=2/ c=3, are expected")
    rows = letters_of(path, blocks[0])
    cells, makes = cells_by_letter(rows), dict[str, tuple[str, int]]()
    for number, line in blocks[1]:
        for word in names_in(path, number, re.sub(r"\s*[=:]\s*", "=", re.sub("[\u2212\u2013]", "-", line))):
            found = re.fullmatch(r"(\S)=([1-9]\d{0,6})([+*x\u00d7/:\u00f7-]?)", word) or re.fullmatch(r"(\S)=()([+*x\u00d7/:\u00f7-])([1-9]\d{0,6})", word)
            if not found:
                refuse(path, number, f"'{word}' isn't what a cage makes, as a=12+, b=6x, c=1-, d=2/ or e=3")
            if found[1] not in cells or found[1] in makes:
                is_told = found[1] in makes
                cage = f"the cage {found[1]} makes something already" if is_told else f"there is no cage {found[1]}"
                refuse(path, number, f"'{word}': {cage}")
            makes[found[1]] = ({"x": "*", "\u00d7": "*", ":": "/", "\u00f7": "/"}.get(found[3], found[3]), int(found[2] or found[4]))
    for letter, its_cells in cells.items():
        number = blocks[0][its_cells[0][0]][0]
        if letter not in makes:
            refuse(path, number, f"nothing says what the cage {letter} makes")
        if makes[letter][0] == "" and len(its_cells) > 1 or makes[letter][0] in ("-", "/") and len(its_cells) != 2:
            refuse(path, number, f"the cage {letter} has {plural(len(its_cells), 'cell')}: a difference and a quotient are of two, and only of one cell "
                   "nothing says how")
    want_whole(path, blocks[0], cells, "cage")
    return rows, cells, makes, blocks[0]


# the way of a cage that makes anything
ANY = "any"


def makes_it(way: str, total: int, digits: tuple[int, ...]) -> bool:
    """Whether digits make a number in this way."""
    least, most = min(digits), max(digits)
    made = {"+": sum(digits), "*": math.prod(digits), "-": most - least, "/": most // least if most % least == 0 else 0, "": digits[0], ANY: total}
    return made[way] == total


def fillings(cells: list[Cell], size: int, way: str, total: int) -> Iterator[tuple[int, ...]]:
    """The digits of a cage's cells that make its number, none twice in a row or a column."""
    begun: list[tuple[int, ...]] = [()]
    while begun:
        digits = begun.pop()
        if len(digits) == len(cells):
            if makes_it(way, total, digits):
                yield digits
            continue
        r, c = cells[len(digits)]
        taken = {digit for digit, (a, b) in zip(digits, cells) if a == r or b == c}
        begun += [(*digits, digit) for digit in range(1, size + 1) if digit not in taken and not (
            way == "+" and sum(digits) + digit > total or way == "*" and total % (math.prod(digits) * digit))]


def kenken(path: str) -> Puzzle:
    """A square in which each row and column has each digit; the digits of each cage make its number."""
    rows, cells, makes, lines = read_kenken(path)
    if not 2 <= len(rows) <= 9:
        refuse(path, None, f"2 to 9 rows are expected, and here are {len(rows)}")
    return caged_square(path, rows, cells, makes, lines)


def without_cage(path: str, rows: list[str], cells: dict[str, list[Cell]], makes: dict[str, tuple[str, int]],
                 lines: list[tuple[int, str]]) -> list[Change]:
    """A KenKen without what each of its cages makes: its cells are cages of their own then, which make anything."""
    changes = []
    for letter, its_cells in cells.items():
        own = {f"{letter}{k}": cell for k, cell in enumerate(its_cells)}
        others = {other: some for other, some in cells.items() if other != letter}
        parted = {**others, **{name: [cell] for name, cell in own.items()}}
        made = {**{other: makes[other] for other in others}, **dict.fromkeys(own, (ANY, 0))}
        way, total = makes[letter]
        changes.append(Change(f"without the {total}{way} of the cage {letter}", functools.partial(caged_square, path, rows, parted, made, lines)))
    return changes


def caged_square(path: str, rows: list[str], cells: dict[str, list[Cell]], makes: dict[str, tuple[str, int]], lines: list[tuple[int, str]]) -> Puzzle:
    """A square with cages and what they make."""
    size, options, changes = len(rows), list[list[str]](), without_cage(path, rows, cells, makes, lines)
    for k, (letter, its_cells) in enumerate(cells.items()):
        before = len(options)
        for digits in fillings(its_cells, size, *makes[letter]):
            options.append([f"k{k}"] + [f"{kind}{place}{digit}" for (r, c), digit in zip(its_cells, digits) for kind, place in (("r", r), ("c", c))])
            if len(options) > MAX_OPTIONS:
                refuse(path, lines[its_cells[0][0]][0], f"the cages can be filled in more than {MAX_OPTIONS:,} ways, and the program reads no more options")
        if len(options) == before:
            total, way = makes[letter][1], makes[letter][0]
            no_cover(f"{path}, line {lines[its_cells[0][0]][0]}: no digits of the cage {letter} make {total}{way}", changes)
    names = [f"k{k}" for k in range(len(cells))] + [f"{kind}{a}{digit}" for kind in "rc" for a in range(size) for digit in range(1, size + 1)]
    told = [f"cages: {' '.join(rows)}", "makes: " + " ".join(f"{letter}={total}{way}" for letter, (way, total) in makes.items())]
    return Puzzle(names, [], options, told, changes)


# ---- binairo

def lines_of(size: int) -> list[str]:
    """The rows that have as many noughts as ones, and no three alike side by side."""
    begun = [""]
    for _ in range(size):
        begun = [row + mark for row in begun for mark in "01" if not row.endswith(mark * 2) and row.count(mark) < size // 2]
    return begun


def binairo(path: str, alike: bool = False) -> Puzzle:
    """Noughts and ones: as many of each in each row and column, no three alike side by side, and unless `alike` is set
    no two rows or columns alike."""
    rows = grid_of(path, only_block(path))
    size = len(rows)
    if len(rows[0][1]) != size or size % 2 or not 2 <= size <= 14:
        refuse(path, None, f"as many columns as rows are expected, an even number up to 14, and here are {size} rows and {len(rows[0][1])} columns")
    for number, row in rows:
        wrong = next((mark for mark in row if mark not in {"0", "1"} | EMPTY - {"x", "X"}), None)
        if wrong:
            refuse(path, number, f"'{wrong}' is no cell: 0 and 1 are given ones, and a dot is an empty one")
    return filled_lines(path, [["." if mark in EMPTY else mark for mark in row] for _, row in rows], [number for number, _ in rows], alike)


def without_mark(path: str, marks: list[list[str]], numbers: list[int], alike: bool) -> list[Change]:
    """A binairo without each of its given marks."""
    def other(cell: Cell) -> list[list[str]]:
        return [["." if (r, c) == cell else mark for c, mark in enumerate(row)] for r, row in enumerate(marks)]

    return [Change(f"without the {mark} in {cell_words((r, c))}", functools.partial(filled_lines, path, other((r, c)), numbers, alike))
            for r, row in enumerate(marks) for c, mark in enumerate(row) if mark != "."]


def filled_lines(path: str, marks: list[list[str]], numbers: list[int], alike: bool) -> Puzzle:
    """Given noughts and ones, whose rows have these numbers in the text."""
    size, changes = len(marks), without_mark(path, marks, numbers, alike)
    names, every = cell_names(size, size), lines_of(size)
    options: list[list[str]] = []
    fitting: dict[tuple[str, str], int] = {}
    for kind, some in (("row", marks), ("column", [list(column) for column in zip(*marks)])):
        for k, given in enumerate(some):
            found = [line for line in every if all(mark in (".", cell) for mark, cell in zip(given, line))]
            if not found:
                line = f", line {numbers[k]}" if kind == "row" else ""
                no_cover(f"{path}{line}: {kind} {k + 1} can't be filled with as many noughts as ones, no three alike side by side", changes)
            for line in found:
                fitting[kind, line] = fitting.get((kind, line), 0) + 1
                cells = [names[(k, j) if kind == "row" else (j, k)] for j in range(size)]
                options.append([f"{kind}{k}", *(f"{cell}:{mark}" for cell, mark in zip(cells, line)), *([] if alike else [f"{kind}s-{line}"])])
    once = {f"{kind}s-{line}" for (kind, line), count in fitting.items() if count > 1 and not alike}
    options = [[word for word in option if "s-" not in word or word in once] for option in options]
    primary = [f"{kind}{k}" for kind in ("row", "column") for k in range(size)]
    return Puzzle(primary, list(names.values()) + sorted(once), options, ["given: " + " ".join(map("".join, marks))], changes)
