#!/usr/bin/env python3
"""Times a command by two programs on files where nothing is implied, so that whoever looks for reasons looks in vain.

    python3 bench/looks.py OTHER [--files N] [--times N] [--words WORDS] [--kind KIND ..] [--write FOLDER]

OTHER is a program that looks for none, or an older one; WORDS are the command, with its options (default "alone
--unlimited"). N files are drawn of each of ten kinds (default 50), all of which have a cover: dominoes and pentominoes
on boards, sudokus of 16x16, quasigroups with holes, timetables, colourings, matchings of three sides, and options of
three, of four and of two to six items. Each file is asked N times by both, in turns (default 5), and the least seconds
of each count. A row has the kind; the least, the median and the greatest seconds of the other program; by how many
percent all files take longer, and in how many of them more than 2 percent and more than a millisecond is lost.

With --write the files are written, and nothing is run. It wants both programs. The exit status is 0, 1 where two covers
differ though the words give the first one, 2 for a mistake on the command line or where there is no program.
"""
from __future__ import annotations

import itertools
import os
import random
import statistics
import subprocess
import sys
import tempfile
import time
from collections.abc import Callable, Iterable

from implied_kinds import planned
from problems import write

HERE = os.path.dirname(os.path.abspath(__file__))
sys.path.insert(0, os.path.join(HERE, "..", "trials"))
from built import SOLVE_CLI, number_from_one, parser_of, path_of, want_program  # noqa: E402
from zarfepoch.boards.cells import rectangle  # noqa: E402
from zarfepoch.puzzles.tilings import PENTOMINOES, orientations, shape  # noqa: E402

Cell = tuple[int, int]
PERCENT, MILLISECOND = 1.02, 0.001


def drawn(path: str, draw: random.Random, primary: Iterable[str], options: Iterable[list[str]]) -> None:
    """Writes a problem with its items and options in an order that is drawn."""
    items, ways = sorted(set(primary)), list(options)
    draw.shuffle(items)
    draw.shuffle(ways)
    write(path, items, ways)


def placed(pieces: dict[str, list[str]], cells: set[Cell]) -> list[tuple[str, list[Cell]]]:
    """Each way in which a piece lies on the cells."""
    ways = []
    for name, rows in pieces.items():
        for turned, (row, column) in itertools.product(orientations(shape(rows)), sorted(cells)):
            ways.append((name, [(row + r, column + c) for r, c in turned]))
    return [(name, place) for name, place in ways if cells.issuperset(place)]


def named(place: Iterable[Cell]) -> list[str]:
    return [f"{row}-{column}" for row, column in place]


def dominoes(path: str, draw: random.Random) -> None:
    """A square under dominoes that were laid at random, without the cells where none lies."""
    free = rectangle(16, 16)
    cells: set[Cell] = set()
    while ways := placed({"D": ["xx"]}, free):
        place = draw.choice([place for _, place in ways])
        free -= set(place)
        cells |= set(place)
    drawn(path, draw, named(cells), [named(place) for _, place in placed({"D": ["xx"]}, cells)])


def pentominoes(path: str, draw: random.Random) -> None:
    cells = rectangle(*draw.choice(((6, 10), (5, 12), (4, 15))))
    drawn(path, draw, [*PENTOMINOES, *named(cells)], [[name, *named(place)] for name, place in placed(PENTOMINOES, cells)])


def square(draw: random.Random, order: int, box: int) -> list[list[int]]:
    """A square of numbers, each once in each row, column and, where there are some, box."""
    grid = [[(box * (row % box) + row // box + column) % order if box else (row + column) % order for column in range(order)] for row in range(order)]
    height = box or order
    bands = [draw.sample(range(height), height) for _ in range(order // height)]
    rows = [band * height + row for band in draw.sample(range(len(bands)), len(bands)) for row in bands[band]]
    stacks = draw.sample(range(order // height), order // height)
    columns = [stack * height + column for stack in stacks for column in draw.sample(range(height), height)]
    digits = draw.sample(range(order), order)
    return [[digits[grid[row][column]] for column in columns] for row in rows]


def holes(path: str, draw: random.Random, order: int, box: int, share: float) -> None:
    """A square of which so great a share is left open: rows, columns and boxes that want a number."""
    grid = square(draw, order, box)
    cells = list(itertools.product(range(order), repeat=2))
    empty = set(draw.sample(cells, int(share * order * order)))

    def units(row: int, column: int, digit: int) -> list[str]:
        return [f"r{row}-{digit}", f"c{column}-{digit}", *([f"b{row // box}.{column // box}-{digit}"] if box else [])]

    given = {unit for row, column in cells if (row, column) not in empty for unit in units(row, column, grid[row][column])}
    options = [[f"p{row}-{column}", *units(row, column, digit)] for row, column in sorted(empty) for digit in range(order)
               if given.isdisjoint(units(row, column, digit))]
    drawn(path, draw, {item for option in options for item in option}, options)


def timetables(path: str, draw: random.Random) -> None:
    """Lessons of six classes and nine teachers in thirty periods, without fifteen of a full plan."""
    lessons = planned(draw, 6, 9, 30)
    lessons = lessons[:len(lessons) - 15]
    write(path, [f"l{number}" for number in range(len(lessons))],
          [[f"l{number}", f"c{who}-{period}", f"t{teacher}-{period}"] for number, (who, teacher) in enumerate(lessons) for period in range(30)])


def colourings(path: str, draw: random.Random) -> None:
    """Points of three colours, and lines between points of different ones: each line and colour once at most."""
    points, colour = range(130), [draw.randrange(3) for _ in range(130)]
    lines = draw.sample([(a, b) for a, b in itertools.combinations(points, 2) if colour[a] != colour[b]], 288)
    drawn(path, draw, [f"p{point}" for point in points],
          [[f"p{point}", *(f"e{a}-{b}-{one}" for a, b in lines if point in (a, b))] for point in points for one in range(3)])


def around(draw: random.Random, items: int, sizes: tuple[int, ...], others: int) -> list[list[int]]:
    """A partition of the items into options of these sizes, and as many others as are wanted."""
    left, options = draw.sample(range(items), items), []
    while left:
        size = draw.choice(sizes)
        options.append(left[:size])
        left = left[size:]
    return options + [draw.sample(range(items), draw.choice(sizes)) for _ in range(others)]


def some(path: str, draw: random.Random, items: int, sizes: tuple[int, ...], others: int) -> None:
    """Options around a partition."""
    options = around(draw, items, sizes, others)
    drawn(path, draw, [f"i{item}" for item in range(items)], [[f"i{item}" for item in option] for option in options])


def matchings(path: str, draw: random.Random) -> None:
    """Triples of one point of each of three sides."""
    sides = [draw.sample(range(44), 44) for _ in range(3)]
    options = list(zip(*sides)) + [(draw.randrange(44), draw.randrange(44), draw.randrange(44)) for _ in range(330)]
    drawn(path, draw, [f"{side}{point}" for side in "abc" for point in range(44)],
          [[f"{side}{point}" for side, point in zip("abc", option)] for option in options])


KINDS: dict[str, Callable[[str, random.Random], None]] = {
    "dominoes": dominoes, "pentominoes": pentominoes,
    "sudokus": lambda path, draw: holes(path, draw, 16, 4, 0.72), "quasigroups": lambda path, draw: holes(path, draw, 26, 0, 0.43),
    "timetables": timetables, "colourings": colourings, "matchings": matchings,
    "triples": lambda path, draw: some(path, draw, 117, (3,), 460), "fours": lambda path, draw: some(path, draw, 64, (4,), 260),
    "sizes": lambda path, draw: some(path, draw, 100, (2, 3, 4, 5, 6), 460)}


def least(programs: list[str], words: list[str], file: str, times: int) -> list[float]:
    """The least seconds of each program, asked in turns."""
    took, told = [float("inf")] * len(programs), set()
    for _, (which, program) in itertools.product(range(times), enumerate(programs)):
        began = time.perf_counter()
        ended = subprocess.run([program, words[0], file, *words[1:]], stdout=subprocess.PIPE, stderr=subprocess.DEVNULL)
        took[which] = min(took[which], time.perf_counter() - began)
        told.add(ended.stdout)
    if len(told) > 1 and words[0] == "alone":
        sys.exit(f"{file}: two first covers")
    return took


def row(kind: str, files: list[str], programs: list[str], words: list[str], times: int) -> str:
    """The cells of a kind."""
    pairs = [least(programs, words, file, times) for file in files]
    others, own = [pair[1] for pair in pairs], [pair[0] for pair in pairs]
    lost = sum(new > PERCENT * old and new > old + MILLISECOND for new, old in pairs)
    cells = [f"{seconds:.3f}" for seconds in (min(others), statistics.median(others), max(others))]
    return f"| {kind} | {' | '.join(cells)} | {100 * (sum(own) / sum(others) - 1):+.2f} | {lost} of {len(files)} |"


def main() -> int:
    words = parser_of(__doc__)
    words.add_argument("other", type=path_of, metavar="OTHER", help="the other program")
    words.add_argument("--files", type=number_from_one, default=50, help="how many files of each kind (default 50)")
    words.add_argument("--times", type=number_from_one, default=5, help="how often each is asked (default 5)")
    words.add_argument("--words", type=str.split, default=["alone", "--unlimited"], help='the command (default "alone --unlimited")')
    words.add_argument("--kind", choices=KINDS, action="append", help="only this kind; may be given again")
    words.add_argument("--write", metavar="FOLDER", help="write the files, and run nothing")
    given = words.parse_args()
    with tempfile.TemporaryDirectory() as made:
        folder = given.write or made
        os.makedirs(folder, exist_ok=True)
        if not given.write:
            want_program(SOLVE_CLI)
            want_program(given.other)
            print("| Kind | Least s | Median s | Greatest s | All, % | Lost |\n|---|---|---|---|---|---|")
        for kind in given.kind or KINDS:
            files = [os.path.join(folder, f"{kind}-{number}.dlx") for number in range(given.files)]
            for number, file in enumerate(files):
                KINDS[kind](file, random.Random(f"{kind} {number}"))
            if not given.write:
                print(row(kind, files, [SOLVE_CLI, given.other], given.words, given.times), flush=True)
    return 0


if __name__ == "__main__":
    sys.exit(main())
