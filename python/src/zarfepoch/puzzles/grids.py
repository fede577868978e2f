"""Kakuro and star battles as exact covers."""
from __future__ import annotations

import functools
import itertools
import re
from collections.abc import Iterable, Iterator
from typing import Optional

from ..boards.cells import Cell, cell_names, cell_words
from ..files.cover_files import MAX_OCCURRENCES, MAX_OPTIONS
from ..files.fault_words import plural
from ..texts.names import names_in
from ..texts.puzzles import blocks_of, Change, no_cover, Puzzle, refuse
from .sudokus import cells_by_letter, letters_of, sums_of_digits, want_whole

# the sum below a black cell and the one on its right
Clue = tuple[Optional[int], Optional[int]]
# a sum that may be any
ANY = -1

# ---- kakuro

class Run:
    """White cells in a row or a column behind a clue, their sum, and where the clue stands."""

    def __init__(self, name: str, cells: list[Cell], total: int, line: int) -> None:
        self.name, self.cells, self.total, self.line = name, cells, total, line
        self.choices = [set(chosen) for chosen in itertools.combinations(range(1, 10), len(cells)) if total in (ANY, sum(chosen))]
        self.possible = sorted(set().union(*self.choices))

    def options(self) -> list[list[str]]:
        """The choices of its digits, each with the possible digits that it leaves."""
        return [[self.name] + [f"{self.name}.{digit}" for digit in self.possible if digit not in chosen] for chosen in self.choices]

    def items(self) -> list[str]:
        return [self.name] + [f"{self.name}.{digit}" for digit in self.possible]


def clue_of(path: str, number: int, word: str) -> Clue | None:
    """The sum down and the sum across of a black cell, None where there is none; None alone for a white cell."""
    if word in (".", "_", "0"):
        return None
    found = re.fullmatch(r"(\d{1,2})?[\\/](\d{1,2})?", word)
    if not found and word not in ("#", "x", "X", "-"):
        refuse(path, number, f"'{word}' is no cell: . is a white cell, # a black one, and 16\\24 a black one with the sum 16 below, and 24 on "
               "its right")
    down, across = (int(part) if part else None for part in found.groups()) if found else (None, None)
    return down, across


def read_kakuro(path: str) -> tuple[list[list[Clue | None]], list[int]]:
    """The clues of black cells by row and column, None for white ones, and the numbers of the lines."""
    lines = [line for block in blocks_of(path) for line in block] if blocks_of(path) else refuse(path, None, "there are no rows")
    rows = [[clue_of(path, number, word) for word in names_in(path, number, line)] for number, line in lines]
    for (number, _), row in zip(lines, rows):
        if len(row) != len(rows[0]):
            refuse(path, number, f"{len(rows[0])} cells are expected, as in the first row, and here are {len(row)}")
    return rows, [number for number, _ in lines]


def behind(rows: list[list[Clue | None]], cell: Cell, step: Cell) -> list[Cell]:
    """The white cells from a cell on in a direction."""
    cells, (r, c) = [], (cell[0] + step[0], cell[1] + step[1])
    while r < len(rows) and c < len(rows[0]) and rows[r][c] is None:
        cells.append((r, c))
        r, c = r + step[0], c + step[1]
    return cells


def runs_of(path: str, rows: list[list[Clue | None]], numbers: list[int]) -> tuple[list[Run], dict[Cell, set[Cell]]]:
    """All runs with their sums; white cells without a clue, and clues without white cells, are refused."""
    runs: list[Run] = []
    clued: dict[Cell, set[Cell]] = {(1, 0): set(), (0, 1): set()}
    for (r, row), (step, way) in itertools.product(enumerate(rows), (((1, 0), "d"), ((0, 1), "a"))):
        for c, clue in enumerate(row):
            total = None if clue is None else clue[way == "a"]
            if total is None:
                continue
            cells = behind(rows, (r, c), step)
            clued[step].update(cells)
            run = Run(f"{way}{len(runs) + 1}", cells, total, numbers[r])
            where = f"{path}, line {numbers[r]}: the sum {total} in column {c + 1}, {'downwards' if way == 'd' else 'to the right'},"
            if not cells:
                refuse(path, numbers[r], f"the sum {total} in column {c + 1} has no white cell {'below it' if way == 'd' else 'on its right'}")
            if not run.choices:
                no_cover(f"{where} can't be: {sums_of_digits(len(cells), 9)}")
            runs.append(run)
    return runs, clued


def want_equal(path: str, runs: list[Run], clued: dict[Cell, set[Cell]], changes: list[Change]) -> None:
    """Ends the script where all sums across and all sums down are of the same cells, and don't make the same."""
    across, down = (sum(run.total for run in runs if run.name.startswith(way)) for way in "ad")
    if clued[0, 1] == clued[1, 0] and across != down and all(run.total != ANY for run in runs):
        no_cover(f"{path}: the sums across make {across} together, and those down {down}, of the same cells", changes)


def without_sum(path: str, rows: list[list[Clue | None]], numbers: list[int]) -> Iterator[Change]:
    """A kakuro without each of its sums."""
    for (r, row), way in itertools.product(enumerate(rows), (0, 1)):
        for c, clue in enumerate(row):
            if clue and clue[way] is not None:
                free = (ANY, clue[1]) if way == 0 else (clue[0], ANY)
                changed = [[free if (a, b) == (r, c) else other for b, other in enumerate(line)] for a, line in enumerate(rows)]
                where = f"{'to the right of' if way else 'below'} {cell_words((r, c))}"
                yield Change(f"without the sum {clue[way]} {where}", functools.partial(kakuro_of, path, changed, numbers))


def kakuro(path: str) -> Puzzle:
    """Each white cell has a digit, each run different ones with its sum."""
    return kakuro_of(path, *read_kakuro(path))


def kakuro_of(path: str, rows: list[list[Clue | None]], numbers: list[int]) -> Puzzle:
    """The kakuro of these clues, which stand in lines with these numbers."""
    changes = list(without_sum(path, rows, numbers))
    runs, clued = runs_of(path, rows, numbers)
    names = cell_names(len(rows), len(rows[0]))
    run_of: dict[Cell, list[Run]] = {}
    for run in runs:
        for cell in run.cells:
            run_of.setdefault(cell, []).append(run)
    want_equal(path, runs, clued, changes)
    white = [(r, c) for r, row in enumerate(rows) for c, clue in enumerate(row) if clue is None]
    if not white:
        refuse(path, None, "there is no white cell")
    for cell in white:
        if cell not in run_of:
            refuse(path, numbers[cell[0]], f"the white cell in column {cell[1] + 1} has no sum across or down")
    for step, what in (((0, 1), "across"), ((1, 0), "down")):
        for r, c in white:
            alone = (r - step[0], c - step[1]) not in white and (r + step[0], c + step[1]) not in white
            if (r, c) not in clued[step] and not alone:
                refuse(path, numbers[r], f"the white cell in column {c + 1} has no sum {what}")
    options = [[names[cell]] + [f"{run.name}.{digit}" for run in run_of[cell]] for cell in white for digit in range(1, 10)
               if all(digit in run.possible for run in run_of[cell])]
    options += [option for run in runs for option in run.options()]
    items = [names[cell] for cell in white] + [item for run in runs for item in run.items()]
    return Puzzle(items, [], options, [f"size: {len(rows)} {len(rows[0])}"], changes)


# ---- star battles

def are_apart(stars: Iterable[Cell]) -> bool:
    """Whether no two of these cells touch, not even by a corner."""
    return all(max(abs(r - other_r), abs(c - other_c)) > 1 for (r, c), (other_r, other_c) in itertools.combinations(stars, 2))


def squares_round(cell: Cell, size: int) -> list[Cell]:
    """The squares of two by two cells that a cell is in, by their first cells: two stars that touch share one."""
    r, c = cell
    return [(top, left) for top in (r - 1, r) for left in (c - 1, c) if 0 <= top < size - 1 and 0 <= left < size - 1]


def as_bits(cells: Iterable[Cell], size: int) -> int:
    return sum(1 << (r * size + c) for r, c in cells)


def touched_by(stars: Iterable[Cell], size: int) -> set[Cell]:
    """The cells round stars, without these."""
    near = {(r + a, c + b) for r, c in stars for a, b in itertools.product((-1, 0, 1), repeat=2) if (a, b) != (0, 0)}
    return {(r, c) for r, c in near if 0 <= r < size and 0 <= c < size}


class House:
    """A row, a column or a region with the ways to put so many stars into it; of each way its stars and the cells that
    these touch, as bits."""

    def __init__(self, name: str, cells: list[Cell], stars: int, size: int) -> None:
        self.name, self.cells, self.bits = name, cells, as_bits(cells, size)
        chosen = filter(are_apart, itertools.combinations(cells, stars))
        self.ways = [(way, as_bits(way, size), as_bits(touched_by(way, size), size)) for way in chosen]

    def keep_those_that_fit(self, other: House) -> bool:
        """Leaves out the ways that agree with no way of another house, and says whether there were any."""
        common, before = self.bits & other.bits, len(self.ways)
        self.ways = [way for way in self.ways if any(not (way[1] ^ stars) & common and not way[1] & near for _, stars, near in other.ways)]
        return len(self.ways) < before

    def options(self, names: dict[Cell, str], size: int) -> list[list[str]]:
        """All its cells get a colour, and a row's stars take their squares."""
        options = []
        for chosen, _, _ in self.ways:
            squares = [f"s{names[square]}" for cell in chosen for square in squares_round(cell, size)] if self.name.startswith("row") else []
            options.append([self.name] + [f"{names[cell]}:{'star' if cell in chosen else 'blank'}" for cell in self.cells] + squares)
        return options


def options_of(houses: list[House], names: dict[Cell, str], size: int) -> list[list[str]]:
    """The options of all houses. Where they are more than the program reads, ways that fit no way of another house are
    left out."""
    options = [option for house in houses for option in house.options(names, size)]
    if len(options) <= MAX_OPTIONS and sum(map(len, options)) <= MAX_OCCURRENCES:
        return options
    while any([one.keep_those_that_fit(other) for one, other in itertools.permutations(houses, 2)]):
        pass
    return [option for house in houses for option in house.options(names, size)]


def star_battle(path: str, stars: int) -> Puzzle:
    """So many stars in each row, column and region, none of which touch."""
    blocks = blocks_of(path)
    if len(blocks) != 1:
        refuse(path, None, "one square of letters for the regions is expected")
    rows = letters_of(path, blocks[0])
    size, regions = len(rows), cells_by_letter(rows)
    names = cell_names(size, size)
    want_whole(path, blocks[0], regions, "region")
    for letter, cells in regions.items():
        if not any(map(are_apart, itertools.combinations(cells, stars))):
            no_cover(f"{path}, line {blocks[0][cells[0][0]][0]}: the region {letter} has no room for {plural(stars, 'star')} that don't touch")
    if len(regions) != size:
        no_cover(f"{path}: {size} rows want {size} regions with as many stars, and here are {len(regions)}")
    groups = [(f"row{r}", [(r, c) for c in range(size)]) for r in range(size)] + [(f"column{c}", [(r, c) for r in range(size)]) for c in range(size)]
    groups += [(f"region{k}", cells) for k, cells in enumerate(regions.values())]
    houses = []
    for name, cells in groups:
        houses.append(House(name, cells, stars, size))
        if sum(len(house.ways) for house in houses) > 2 * MAX_OPTIONS:
            refuse(path, None, f"{stars} stars can stand in rows, columns and regions in more than {2 * MAX_OPTIONS:,} ways, and the program "
                   f"reads no more than {MAX_OPTIONS:,} options")
    squares = [f"s{names[r, c]}" for r in range(size - 1) for c in range(size - 1)]
    return Puzzle([name for name, _ in groups], list(names.values()) + squares, options_of(houses, names, size))
