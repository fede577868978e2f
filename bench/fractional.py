#!/usr/bin/env python3
"""Times `why` on problems whose linear relaxation has no solution, beside HiGHS: reasons by multipliers of any size.

    python3 bench/fractional.py [--seeds N] [--seconds N] [--kind KIND ..] [--write FOLDER]

The kinds: `courts`, teams of which each trains on two of as many courts, or in a hall; `corners`, boards of three rows
by pieces like an L; `missed`, three to eight classes with a lesson in each period but one, whose teachers are missed in
one period after the other until there is no solution; `changed`, quasigroups of order 20 or 30 with some cells free, in
which one or two of the given numbers are wrong. None has a cover.

N instances are drawn of each kind (default 3). A row has the items and options; the processor seconds of `why`, reading
included, and of HiGHS, which looks for the same multipliers; and of the reason all needs, all rooms and the greatest of
them. A dash: nothing within so many seconds (default 10). Each reason is added up by `scripts/zarfepoch check-reason`.
With --write the problems are written, and nothing is run.

It wants the program, and SciPy for HiGHS. The exit status is 0, 1 where a reason doesn't hold, 2 for a mistake on the
command line or where there is no program.
"""
from __future__ import annotations

import itertools
import os
import random
import subprocess
import sys
import tempfile
import time
from collections.abc import Callable

from encodings_of_peers import read
from measured import run
from problems import write

HERE = os.path.dirname(os.path.abspath(__file__))
sys.path.insert(0, os.path.join(HERE, "..", "trials"))
from built import SOLVE_CLI, TOP, number_from_one, parser_of, want_program  # noqa: E402

# classes, teachers and periods of `missed`, and the part of the other periods in which a teacher can be had, too
SCHOOLS = ((3, 4, 12, 0.2), (5, 7, 20, 0.15), (8, 10, 24, 0.1))
# the order of a quasigroup, how many cells of each row are free, and how many numbers are wrong
SQUARES = ((20, 6, 1), (30, 8, 2), (30, 10, 1))
MOVES = 20

Square = list[list[int]]
Cell = tuple[int, int]


def courts(path: str, draw: random.Random, seed: int) -> None:
    teams = 2 * seed + 1
    names = [f"c{number}" for number in range(teams)]
    options = [[f"t{team}", *on] for team in range(teams) for on in [*itertools.combinations(names, 2), ("hall",)]]
    draw.shuffle(options)
    write(path, [f"t{team}" for team in range(teams)], options)


def corners(path: str, draw: random.Random, seed: int) -> None:
    columns = 2 * seed + 1
    options = []
    for row, column in itertools.product(range(2), range(columns - 1)):
        square = [f"{row + down}-{column + right}" for down in (0, 1) for right in (0, 1)]
        options += [[cell for cell in square if cell != left_out] for left_out in square]
    draw.shuffle(options)
    write(path, [f"{row}-{column}" for row in range(3) for column in range(columns)], options)


def missed(path: str, draw: random.Random, seed: int) -> None:
    classes, teachers, periods, part = SCHOOLS[(seed - 1) % len(SCHOOLS)]
    lessons: list[tuple[int, int]] = []
    had: list[set[int]] = [set() for _ in range(teachers)]
    for period in range(periods):
        # (one class is free in each of the first periods)
        for who, teacher in enumerate(draw.sample(range(teachers), classes)):
            if who != period:
                lessons.append((who, teacher))
                had[teacher].add(period)
    for one in had:
        one.update(period for period in range(periods) if draw.random() < part)
    draw.shuffle(lessons)
    write_plan(path, lessons, had)
    while highs(path, 60) == "-":
        spare = [number for number, one in enumerate(had) if len(one) > sum(by == number for _, by in lessons)]
        if not spare:
            missed(path, draw, seed)
            return
        one = had[draw.choice(spare)]
        one.remove(draw.choice(sorted(one)))
        write_plan(path, lessons, had)


def write_plan(path: str, lessons: list[tuple[int, int]], had: list[set[int]]) -> None:
    """Lessons of a class and a teacher, in any period in which the teacher can be had."""
    write(path, [f"l{number}" for number in range(len(lessons))],
          [[f"l{number}", f"c{who}-{period}", f"t{teacher}-{period}"]
           for number, (who, teacher) in enumerate(lessons) for period in sorted(had[teacher])])


def turned(draw: random.Random, order: int) -> Square:
    """The sums modulo a number, with rows, columns and numbers in another order."""
    rows, columns, values = (draw.sample(range(order), order) for _ in range(3))
    return [[values[(row + column) % order] for column in columns] for row in rows]


def move(draw: random.Random, square: Square) -> None:
    """Changes two rows with each other in those columns in which they have the same numbers in another order."""
    one, other = (square[row] for row in draw.sample(range(len(square)), 2))
    column = first = draw.randrange(len(square))
    while True:
        one[column], other[column] = other[column], one[column]
        column = next((place for place, value in enumerate(one) if value == one[column] and place != column), first)
        if column == first:
            return


def with_wrong(draw: random.Random, given: dict[Cell, int], order: int, count: int) -> None:
    """Puts another number into so many cells, one that their row and column lack."""
    cells = draw.sample(sorted(given), len(given))
    for row, column in cells:
        taken = {value for (down, right), value in given.items() if row == down or column == right}
        others = sorted(set(range(order)) - taken)
        if others and count:
            given[row, column] = draw.choice(others)
            count -= 1


def changed(path: str, draw: random.Random, seed: int) -> None:
    order, free, wrong = SQUARES[(seed - 1) % len(SQUARES)]
    square = turned(draw, order)
    for _ in range(MOVES * order):
        move(draw, square)
    holes = turned(draw, order)
    given = {(row, column): square[row][column] for row in range(order) for column in range(order) if holes[row][column] >= free}
    with_wrong(draw, given, order, wrong)
    done = {part for (row, column), value in given.items() for part in (f"x{row}-{column}", f"r{row}-{value}", f"c{column}-{value}")}
    options = [[f"x{row}-{column}", f"r{row}-{value}", f"c{column}-{value}"]
               for row, column, value in itertools.product(range(order), repeat=3)]
    names = sorted({name for option in options for name in option} - done)
    options = [option for option in options if done.isdisjoint(option)]
    draw.shuffle(options)
    write(path, names, options)


KINDS: dict[str, Callable[[str, random.Random, int], None]] = {"courts": courts, "corners": corners, "missed": missed, "changed": changed}


def highs(file: str, seconds: int) -> str:
    """The seconds that HiGHS takes to find multipliers, or a dash."""
    from scipy.optimize import linprog    # type: ignore[import]
    from scipy.sparse import lil_matrix    # type: ignore[import]
    primary, secondary, options = read(file)
    names = [*primary, *secondary]
    place = {name: number for number, name in enumerate(names)}
    matrix = lil_matrix((len(options), len(names)))
    for number, option in enumerate(options):
        for name, _ in option:
            matrix[number, place[name]] = -1
    begun = time.process_time()
    found = linprog([1] * len(names), A_ub=matrix.tocsr(), b_ub=[0] * len(options), method="highs-ds", options={"time_limit": seconds},
                    bounds=[(-1, None)] * len(primary) + [(0, None)] * len(secondary))
    return f"{time.process_time() - begun:.2f}" if found.status == 0 and found.fun < -1e-6 else "-"


def cells_of(file: str, seconds: int) -> list[str]:
    """The cells of a row."""
    with open(file, encoding="ascii") as lines:
        items = len(lines.readline().replace("|", " ").split())
        options = sum(1 for _ in lines)
    ran = run([SOLVE_CLI, "why", file], seconds=seconds)
    cells = [f"{items:,}", f"{options:,}"]
    if not ran.text.startswith("none\n"):
        return [*cells, "-", highs(file, seconds), "-", "-", "-"]
    checked = subprocess.run([sys.executable, os.path.join(TOP, "scripts", "zarfepoch"), "check-reason", file, "-"], input=ran.text, capture_output=True, text=True)
    if checked.returncode:
        sys.exit(f"{file}: {checked.stdout}")
    words = [line.split() for line in ran.text.splitlines()]
    needs, rooms = ([int(line[1]) for line in words if line[0] == kind] for kind in ("need", "room"))
    return [*cells, f"{ran.processor:.2f}", highs(file, seconds), f"{sum(needs):,}", f"{sum(rooms):,}", f"{max([*needs, *rooms, 0]):,}"]


def main() -> int:
    words = parser_of(__doc__)
    words.add_argument("--seeds", type=number_from_one, default=3, help="how many instances of each kind (default 3)")
    words.add_argument("--seconds", type=number_from_one, default=10, help="how long each command may take (default 10)")
    words.add_argument("--kind", choices=sorted(KINDS), action="append", help="only this kind; may be given several times")
    words.add_argument("--write", metavar="FOLDER", help="where the problems are written, and nothing is run")
    given = words.parse_args()
    if not given.write:
        want_program(SOLVE_CLI)
        print("| Instance | Items | Options | why | HiGHS | Needs | Rooms | Greatest |\n|---|---|---|---|---|---|---|---|")
    else:
        os.makedirs(given.write, exist_ok=True)
    with tempfile.TemporaryDirectory() as folder:
        for kind in given.kind or KINDS:
            for seed in range(1, given.seeds + 1):
                file = os.path.join(given.write or folder, f"{kind}-{seed}.dlx")
                KINDS[kind](file, random.Random(f"{kind} {seed}"), seed)
                if not given.write:
                    print(f"| {kind}-{seed} | {' | '.join(cells_of(file, given.seconds))} |", flush=True)
    return 0


if __name__ == "__main__":
    sys.exit(main())
