#!/usr/bin/env python3
"""Times `learn` beside clingo and CaDiCaL, where a search that learns nothing finds nothing for long.

    python3 bench/learning.py [--seeds N] [--seconds N] [--kind KIND ..]

The kinds: `days`, timetables whose lessons have fixed days, of eight classes with six periods on each of five days,
drawn from a plan; `days-drawn`, the same with days that are drawn, so that there may be no plan; `school`, full
timetables of eight classes with 30 periods; `quasigroup`, squares of 30 with 325 empty cells; `jigsaw`, sudokus of 15
with 50 given cells, whose regions were drawn; `langford`, pairs of 1 to 44; `board`, a board of ten by ten without two
opposite corners, by dominoes, which has no cover.

N instances are drawn of each kind (default 5). `learn` has five seeds for each; a cell has the median of the processor
seconds, reading included, and how many runs had no answer within so many seconds (default 10). Each cover of `learn` is
counted by `check`, and each answer compared with the peers'.

It wants the program, and for the peers the commands `gringo`, `clasp` and `cadical`. The exit status is 0, 1 where an
answer is wrong, 2 for a mistake on the command line or where there is no program.
"""
from __future__ import annotations

import os
import random
import shutil
import statistics
import sys
import tempfile
from collections.abc import Callable, Iterator
from typing import Optional

import finding
from encodings_of_peers import formula_of, program_of
from measured import found_cover, run
from problems import write, write_primary

HERE = os.path.dirname(os.path.abspath(__file__))
sys.path.insert(0, os.path.join(HERE, "..", "trials"))
from built import SOLVE_CLI, number_from_one, parser_of, want_program  # noqa: E402

CLASSES, TEACHERS, DAYS, HOURS = 8, 9, 5, 6
LANGFORD, BOARD, JIGSAW, GIVEN = 44, 10, 15, 50
SEEDS = range(1, 6)
Told = tuple[Optional[bool], float]


def planned(draw: random.Random) -> list[tuple[int, int, int]]:
    """The lessons of a plan: class, teacher and day of each."""
    lessons = []
    for period in range(DAYS * HOURS):
        for who, teacher in enumerate(draw.sample(range(TEACHERS), CLASSES)):
            lessons.append((who, teacher, period // HOURS))
    return lessons


def write_days(path: str, lessons: list[tuple[int, int, int]]) -> None:
    """Lessons on their days: each at one hour, where neither its class nor its teacher has another one."""
    names = [f"l{number}" for number in range(len(lessons))]
    times = [f"{day}-{hour}" for day in range(DAYS) for hour in range(HOURS)]
    secondary = [f"{kind}{number}-{time}" for kind, many in (("c", CLASSES), ("t", TEACHERS)) for number in range(many) for time in times]
    write(path, names, [[name, f"c{who}-{day}-{hour}", f"t{teacher}-{day}-{hour}"]
                        for name, (who, teacher, day) in zip(names, lessons) for hour in range(HOURS)], secondary)


def days(path: str, draw: random.Random) -> None:
    """A timetable whose lessons have the days of a plan."""
    write_days(path, planned(draw))


def days_drawn(path: str, draw: random.Random) -> None:
    """The same lessons, each class's days drawn again: as many on each day as before."""
    lessons = planned(draw)
    for who in range(CLASSES):
        own = [number for number, lesson in enumerate(lessons) if lesson[0] == who]
        drawn = draw.sample([lessons[number][2] for number in own], len(own))
        for number, day in zip(own, drawn):
            lessons[number] = (who, lessons[number][1], day)
    write_days(path, lessons)


def school(path: str, draw: random.Random) -> None:
    """A full timetable of as many classes."""
    finding.timetable(path, draw, CLASSES, TEACHERS)


def box_of(row: int, column: int) -> int:
    """The box of a cell in a square of 15: five boxes one above the other, three side by side."""
    return row // 3 * 3 + column // 5


def is_joined(cells: set[tuple[int, int]]) -> bool:
    """Whether one gets from each cell to each other one, from neighbour to neighbour."""
    seen = {min(cells)}
    edge = list(seen)
    while edge:
        r, c = edge.pop()
        near = ({(r - 1, c), (r + 1, c), (r, c - 1), (r, c + 1)} & cells) - seen
        seen |= near
        edge += near
    return seen == cells


def drawn_regions(square: dict[tuple[int, int], int], draw: random.Random) -> dict[tuple[int, int], int]:
    """Regions that have each number once: boxes that exchange cells with the same number, as long as both stay in one
    piece."""
    region = {cell: box_of(*cell) for cell in square}
    places = [[cell for cell in square if square[cell] == value] for value in range(JIGSAW)]
    for _ in range(40 * JIGSAW * JIGSAW):
        first, second = draw.sample(draw.choice(places), 2)
        changed = {**region, first: region[second], second: region[first]}
        if all(is_joined({cell for cell in square if changed[cell] == region[own]}) for own in (first, second)):
            region = changed
    return region


def jigsaw(path: str, draw: random.Random) -> None:
    """A jigsaw sudoku of 15 rows, of which so many cells are given."""
    numbers, rows = draw.sample(range(JIGSAW), JIGSAW), [3 * band + row for band in draw.sample(range(5), 5) for row in draw.sample(range(3), 3)]
    square = {(r, c): numbers[(5 * (rows[r] % 3) + rows[r] // 3 + c) % JIGSAW] for r in range(JIGSAW) for c in range(JIGSAW)}
    region = drawn_regions(square, draw)
    given = set(draw.sample(sorted(square), GIVEN))
    needs = {(r, c): (f"x{r}-{c}", [("r", r), ("c", c), ("b", region[r, c])]) for r, c in square}
    taken = {(*need, square[cell]) for cell in given for need in needs[cell][1]}
    options = [[needs[cell][0], *(f"{kind}{number}-{value}" for kind, number in needs[cell][1])]
               for cell in sorted(square) if cell not in given for value in range(JIGSAW)
               if not any((*need, value) in taken for need in needs[cell][1])]
    write_primary(path, options)


def langford(path: str, draw: random.Random) -> None:
    """Pairs of the numbers from 1 on, those of d with d places between them; the options in an order that is drawn."""
    options = [[f"d{d}", f"s{s}", f"s{s + d + 1}"] for d in range(1, LANGFORD + 1) for s in range(2 * LANGFORD - d - 1)]
    draw.shuffle(options)
    write_primary(path, options)


def board(path: str, draw: random.Random) -> None:
    """A board without two opposite corners; the dominoes in an order that is drawn."""
    cells = {(r, c) for r in range(BOARD) for c in range(BOARD)} - {(0, 0), (BOARD - 1, BOARD - 1)}
    pairs = [(cell, other) for cell in cells for other in ((cell[0] + 1, cell[1]), (cell[0], cell[1] + 1)) if other in cells]
    draw.shuffle(pairs)
    write_primary(path, [[f"x{r}-{c}" for r, c in pair] for pair in pairs])


KINDS: dict[str, Callable[[str, random.Random], None]] = {
    "days": days, "days-drawn": days_drawn, "school": school, "quasigroup": finding.quasigroup, "jigsaw": jigsaw,
    "langford": langford, "board": board}


def learned(file: str, seed: int, seconds: int) -> Told:
    """Whether `learn` finds a cover, and its seconds."""
    ran = run([SOLVE_CLI, "learn", file, "--seed", str(seed), "--seconds", str(seconds)], seconds=seconds + 5)
    return found_cover(file, ran.text, f": seed {seed}"), ran.processor


def clasp(file: str, seconds: int) -> Told:
    """The same of clasp; grounding is its own too."""
    ground = run(["gringo", "-"], "\n".join(program_of(file)), seconds)
    ran = run(["clasp", "-q2,2"], ground.text, seconds)
    answers = {"SATISFIABLE": True, "UNSATISFIABLE": False}
    return next((answers[line] for line in ran.text.splitlines() if line in answers), None), ground.processor + ran.processor


def cadical(file: str, seconds: int) -> Told:
    """The same of CaDiCaL."""
    ran = run(["cadical", "-q", "-n"], "\n".join(formula_of(file)), seconds)
    answers = {"s SATISFIABLE": True, "s UNSATISFIABLE": False}
    return next((answers[line] for line in ran.text.splitlines() if line in answers), None), ran.processor


def runs_of(file: str, seconds: int) -> Iterator[list[Told]]:
    """The runs of `learn`, of clasp and of CaDiCaL."""
    yield [learned(file, seed, seconds) for seed in SEEDS]
    yield [clasp(file, seconds)] if shutil.which("clasp") and shutil.which("gringo") else []
    yield [cadical(file, seconds)] if shutil.which("cadical") else []


def cell(runs: list[Told]) -> str:
    """The median of the seconds, and how many runs had no answer."""
    if not runs:
        return "-"
    missing = sum(answer is None for answer, _ in runs)
    return f"{statistics.median(took for _, took in runs):.3f}" + (f" ({missing} without)" if missing else "")


def main() -> None:
    words = parser_of(__doc__)
    words.add_argument("--seeds", metavar="N", type=number_from_one, default=5, help="how many instances of each kind (default 5)")
    words.add_argument("--seconds", metavar="N", type=number_from_one, default=10, help="how many seconds a run has (default 10)")
    words.add_argument("--kind", choices=sorted(KINDS), nargs="+", default=list(KINDS), help="these kinds alone")
    given = words.parse_args()
    want_program(SOLVE_CLI)
    print("| Kind | Covers, none | learn | clasp | CaDiCaL |\n|---|---|---|---|---|", flush=True)
    with tempfile.TemporaryDirectory() as folder:
        for kind in given.kind:
            columns: list[list[Told]] = [[], [], []]
            known = []
            for seed in range(1, given.seeds + 1):
                file = os.path.join(folder, f"{kind}-{seed}.dlx")
                KINDS[kind](file, random.Random(seed))
                runs = list(runs_of(file, given.seconds))
                answers = {answer for own in runs for answer, _ in own if answer is not None}
                if len(answers) > 1:
                    sys.exit(f"answers differ: {kind}, instance {seed}")
                known += sorted(answers)
                for column, own in zip(columns, runs):
                    column += own
            print(f"| {kind} | {known.count(True)}, {known.count(False)} | {' | '.join(map(cell, columns))} |", flush=True)


if __name__ == "__main__":
    main()
