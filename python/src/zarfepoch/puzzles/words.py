"""Crosswords and squares of words as exact covers, and how their grids and lists of words are read."""
from __future__ import annotations

import functools
import itertools
import re
from collections import Counter
from collections.abc import Iterable, Sequence
from typing import Optional

from ..boards.cells import Cell, cell_names, cell_words
from ..command_line.ends import complain, stop
from ..files.cover_files import MAX_ITEMS, MAX_OPTIONS
from ..files.fault_words import plural
from ..texts.limits import check_count, Refused
from ..texts.names import names_in
from ..texts.puzzles import called, Change, Lists, no_cover, Puzzle, refuse, rows_of


class NoSolution(Exception):
    """Why a puzzle plainly has no solution, and the row in which this is seen."""

    def __init__(self, why: str, row: int) -> None:
        super().__init__(why)
        self.row = row


# ---- lists of words

def read_word_list(path: str) -> dict[str, int]:
    """Different words, each with the number of its first line."""
    words: dict[str, int] = {}
    for number, line in rows_of(path):
        for word in names_in(path, number, line):
            words.setdefault(word, number)
    return words or refuse(path, None, "there are no words")


def want_words(path: str, words: dict[str, int]) -> None:
    """Refuses words with what no word may have here."""
    for word, number in words.items():
        if re.search(r"[\d:|\0]", word):
            refuse(path, number, f"'{word}' has a digit, ':' or '|', which no word may have here")


def want_one_case(path: str, words: dict[str, int]) -> None:
    """Refuses a list in which a letter is capital here and small there, since these don't meet in a cell."""
    letters = set("".join(words))
    for word, number in words.items():
        mixed = next((letter for letter in word if letter != letter.lower() and letter.lower() in letters), None)
        if mixed:
            refuse(path, number, f"'{word}' has a capital {mixed}, and the list has a small one too, which differ here; write all words alike, or take "
                   "--ignore-case")


def read_words(path: str, ignore_case: bool) -> list[str]:
    """Different words of one length, in small letters if capitals are alike."""
    words = read_word_list(path)
    if ignore_case:
        words = {word.lower(): number for word, number in words.items()}
    want_words(path, words)
    want_one_case(path, words)
    first = next(iter(words))
    for word, number in words.items():
        if len(word) != len(first):
            refuse(path, number, f"words of one length are expected, and '{word}' isn't as long as '{first}'")
    return list(words)


# ---- squares of words

def word_squares(words: list[str], marks: Sequence[str] = ("",), repeat: bool = False) -> Puzzle:
    """Squares with a word in each row and in each column, all different unless `repeat` is set; a cell's colour is its
    letter. Behind each mark go the names of one square."""
    n = len(words[0])
    slots: dict[str, list[str]] = {}
    names = cell_names(n, n)
    for mark in marks:
        slots.update((f"{mark}across{r}", [mark + names[r, c] for c in range(n)]) for r in range(n))
        slots.update((f"{mark}down{c}", [mark + names[r, c] for r in range(n)]) for c in range(n))
    check_count(len(slots) * len(words), MAX_OPTIONS, "options")
    options = [[slot] + ([] if repeat else [word]) + [f"{cell}:{letter}" for cell, letter in zip(cells, word)]
               for slot, cells in slots.items() for word in words]
    return Puzzle(list(slots), [mark + cell for mark in marks for cell in names.values()] + ([] if repeat else words), options)


# ---- crosswords

def runs_of(cells: Iterable[Optional[Cell]]) -> list[list[Cell]]:
    """The runs of two or more neighbours in a line of cells, of which None parts them."""
    runs = [[cell for cell in run if cell is not None] for _, run in itertools.groupby(cells, lambda cell: cell is not None)]
    return [run for run in runs if len(run) > 1]


def slots_of(grid: list[str]) -> dict[str, list[Cell]]:
    """The places for words, by their names: across and down, numbered as a crossword is."""
    rows, columns = len(grid), len(grid[0])
    open_cell = [[(r, c) if grid[r][c] != "#" else None for c in range(columns)] for r in range(rows)]
    across = [run for line in open_cell for run in runs_of(line)]
    down = [run for line in zip(*open_cell) for run in runs_of(line)]
    starts = sorted({run[0] for run in across + down})
    numbered = [(starts.index(run[0]) + 1, way, run) for way, runs in (("across", across), ("down", down)) for run in runs]
    return {f"{way}{number}": run for number, way, run in sorted(numbered, key=lambda slot: slot[:2])}


def fits(word: str, run: list[Cell], grid: list[str]) -> bool:
    """Whether a word has the length of a run and the letters that are given there."""
    return len(word) == len(run) and all(grid[r][c] in (".", letter) for (r, c), letter in zip(run, word))


def no_word(slot: str, run: list[Cell], grid: list[str], words: list[str]) -> NoSolution:
    """That no word fits a place, and which one would but for capital and small letters."""
    small = next((word for word in words if fits(word.lower(), run, [row.lower() for row in grid])), None)
    way, number = slot.rstrip("0123456789"), slot.lstrip("acdnorsw")
    hint = f"; '{small}' would, but capital and small letters differ; with --ignore-case they are alike" if small else ""
    return NoSolution(f"no word of the list fits {number} {way}, '{''.join(grid[r][c] for r, c in run)}'{hint}", run[0][0])


def crossword(grid: list[str], words: list[str], repeat: bool = False) -> Lists:
    """A word of the list in each place; a cell's colour is its letter. No word comes twice, unless `repeat` allows it:
    a word that fits into two places has an item for this."""
    slots, names = slots_of(grid), cell_names(len(grid), len(grid[0]))
    if not slots:
        raise Refused("the grid has no two open cells side by side")
    fitting = {slot: [word for word in words if fits(word, run, grid)] for slot, run in slots.items()}
    for slot, run in slots.items():
        if not fitting[slot]:
            raise no_word(slot, run, grid, words)
    places = Counter(word for some in fitting.values() for word in some)
    twice = {word for word, count in places.items() if count > 1 and not repeat}
    options = [[slot] + ([word] if word in twice else []) + [f"{names[cell]}:{letter}" for cell, letter in zip(run, word)]
               for slot, run in slots.items() for word in fitting[slot]]
    cells = sorted({names[cell] for run in slots.values() for cell in run})
    want_room(len(slots) + len(cells), len(twice), len(options))
    return list(slots), cells + [word for word in words if word in twice], options


def without_letter(grid: list[str], words: list[str], repeat: bool) -> list[Change]:
    """A crossword without each of its given letters."""
    def other(cell: Cell) -> Puzzle:
        r, c = cell
        return Puzzle(*crossword([row[:c] + "." + row[c + 1:] if place == r else row for place, row in enumerate(grid)], words, repeat))

    return [Change(f"without the {mark} in {cell_words((r, c))}", functools.partial(other, (r, c)))
            for r, row in enumerate(grid) for c, mark in enumerate(row) if mark not in ".#"]


def want_room(places: int, words: int, options: int) -> None:
    """Refuses a crossword beyond what the program reads, and tells what would fit."""
    if places + words > MAX_ITEMS:
        room = f"with --repeat, so that a word may come twice, it has {places:,}" if places <= MAX_ITEMS else "so large a grid never fits"
        most = f", and with at most {MAX_ITEMS - places:,} words it fits too" if places < MAX_ITEMS else ""
        raise Refused(f"this would have {places + words:,} items, and the program reads at most {MAX_ITEMS:,}: {room}{most}")
    if options > MAX_OPTIONS:
        raise Refused(f"this would have {options:,} options, words at their places, and the program reads at most {MAX_OPTIONS:,}: a list with "
                      f"{MAX_OPTIONS / options:.0%} of these words fits")


def read_grid(path: str) -> tuple[list[str], list[int]]:
    """The rows of a crossword's grid, and the numbers of their lines."""
    lines = rows_of(path)
    for number, row in lines:
        if len(row) != len(lines[0][1]) or re.search(r"[\s\d:|\0,;\"]", row):
            refuse(path, number, "rows of one length are expected, of dots, letters and # for black cells, with nothing between")
    if not lines:
        refuse(path, None, "there are no rows")
    return [row for _, row in lines], [number for number, _ in lines]


def want_letters(path: str, words: dict[str, int]) -> None:
    """Refuses words with what stands for cells in a grid."""
    for word, number in words.items():
        if re.search("[.#]", word):
            refuse(path, number, f"'{word}' has '.' or '#', which are no letters in a grid")


def words_that_fit(path: str, words: dict[str, int], rows: list[str]) -> dict[str, int]:
    """The words that are as long as some place for a word in a grid; a note says how many others there are."""
    lengths = {len(run) for run in slots_of(rows).values()}
    kept = {word: number for word, number in words.items() if len(word) in lengths}
    if kept and len(kept) < len(words):
        left = len(words) - len(kept)
        complain(f"note: {called(path)}: {plural(left, 'word')} of {len(words):,} {'is' if left == 1 else 'are'} as long as no place, and left out")
    return kept or words


def read_crossword(grid: str, word_list: str, repeat: bool, ignore_case: bool) -> Puzzle:
    """The crossword of a file with its grid and one with words, either of which may be the standard input."""
    if grid == word_list == "-":
        stop("- is the standard input, which can be read once")
    (rows, numbers), words = read_grid(grid), read_word_list(word_list)
    if ignore_case:
        rows, words = [row.lower() for row in rows], {word.lower(): number for word, number in words.items()}
    words = words_that_fit(word_list, words, rows)
    want_words(word_list, words)
    want_one_case(word_list, words)
    want_letters(word_list, words)
    changes = without_letter(rows, list(words), repeat)
    try:
        problem = crossword(rows, list(words), repeat)
    except NoSolution as why:
        no_cover(f"{grid}, line {numbers[why.row]}: {why}", changes)
    return Puzzle(*problem, [f"grid: {' '.join(rows)}"], changes)
