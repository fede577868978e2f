#!/usr/bin/env python3
"""Counts how often a cover is found in a given time: by one search, and by several that begin in several places.

    python3 bench/finding.py [--seeds N] [--seconds N] [--kind KIND ..]

Each instance has a cover. `quasigroup` is a square of 30 rows, columns and numbers, of which 325 cells are empty;
`timetable` a full timetable of five classes with 30 periods: each class has a lesson in each period, and lessons with
one teacher aren't at one time. N are drawn of each kind (default 10). `alone` and `solve` with several numbers of nodes
and workers have so many seconds (default 10) for each. A row has, for each command, how many covers were found, and the
mean seconds of those.

Each cover is counted by `check`. It wants the program: (cd crates/solve_cli && rt run -- --version) builds it. The exit
status is 0, 1 where an answer is wrong, 2 for a mistake on the command line or where there is no program.
"""
from __future__ import annotations

import os
import random
import subprocess
import sys
import tempfile
import time
from collections.abc import Callable
from typing import Optional

HERE = os.path.dirname(os.path.abspath(__file__))
sys.path.insert(0, os.path.join(HERE, "..", "trials"))
from built import SOLVE_CLI, is_right, number_from_one, parser_of, want_program  # noqa: E402
from problems import write_primary  # noqa: E402

ORDER, EMPTY = 30, 325
CLASSES, PERIODS, TEACHERS = 5, 30, 6
COMMANDS = [["alone"], *(["solve", "--nodes", str(nodes), "--workers", str(workers)] for nodes, workers in ((1, 4), (4, 1), (4, 2), (16, 1)))]


def quasigroup(path: str, draw: random.Random) -> None:
    """A square with each number once in each row and column, some cells of which are emptied."""
    rows, columns, numbers = (draw.sample(range(ORDER), ORDER) for _ in range(3))
    square = {(r, c): numbers[(rows[r] + columns[c]) % ORDER] for r in range(ORDER) for c in range(ORDER)}
    for _ in range(ORDER * ORDER):
        turn_square(square, draw)
    empty = draw.sample(sorted(square), EMPTY)
    of_row: list[set[int]] = [set() for _ in range(ORDER)]
    of_column: list[set[int]] = [set() for _ in range(ORDER)]
    for r, c in empty:
        of_row[r].add(square[r, c])
        of_column[c].add(square[r, c])
    write_primary(path, [[f"x{r}-{c}", f"r{r}-{v}", f"c{c}-{v}"] for r, c in sorted(empty) for v in sorted(of_row[r] & of_column[c])])


def turn_square(square: dict[tuple[int, int], int], draw: random.Random) -> None:
    """Exchanges two numbers along one of the cycles that they make of two rows."""
    first, second = draw.sample(range(ORDER), 2)
    place = {square[first, c]: c for c in range(ORDER)}
    begin = c = draw.randrange(ORDER)
    while True:
        square[first, c], square[second, c] = square[second, c], square[first, c]
        c = place[square[first, c]]
        if c == begin:
            return


def timetable(path: str, draw: random.Random, classes: int = CLASSES, teachers: int = TEACHERS) -> None:
    """Lessons of classes and teachers, each at one of the periods: drawn from a table in which no class and no teacher
    has two at a time."""
    given: dict[tuple[int, int], int] = {}
    for _ in range(PERIODS):
        for who, teacher in enumerate(draw.sample(range(teachers), classes)):
            given[who, teacher] = given.get((who, teacher), 0) + 1
    away = {(teacher, period) for period in range(PERIODS) for teacher in range(teachers)}
    options = []
    for (who, teacher), hours in sorted(given.items()):
        for hour in range(hours):
            # (equal lessons are kept in order)
            for period in range(hour, PERIODS - hours + hour + 1):
                options.append([f"l{who}-{teacher}-{hour}", f"c{who}-{period}", f"t{teacher}-{period}"])
                away.discard((teacher, period))
    # (a teacher may be free)
    free = [[f"t{teacher}-{period}"] for period in range(PERIODS) for teacher in range(teachers) if (teacher, period) not in away]
    write_primary(path, options + free)


KINDS: dict[str, Callable[[str, random.Random], None]] = {"quasigroup": quasigroup, "timetable": timetable}


def found(file: str, words: list[str], seconds: int, seed: int) -> Optional[float]:
    """After how many seconds a command found a cover, if it did."""
    own = ["--seed", str(seed)] if words[0] == "solve" else []
    begun = time.monotonic()
    answer = subprocess.run([SOLVE_CLI, words[0], file, *words[1:], *own, "--seconds", str(seconds)], capture_output=True, text=True).stdout
    took = time.monotonic() - begun
    if answer == "no answer\n":
        return None
    if not answer.startswith("cover") or not is_right(file, answer):
        sys.exit(f"a wrong answer: {' '.join(words)}, seed {seed}")
    return took


def cell(times: list[Optional[float]]) -> str:
    """How many covers were found, and the mean of their seconds."""
    right = [seconds for seconds in times if seconds is not None]
    return f"{len(right)} ({sum(right) / len(right):.2f})" if right else "0"


def main() -> None:
    words = parser_of(__doc__)
    words.add_argument("--seeds", metavar="N", type=number_from_one, default=10, help="how many instances of each kind (default 10)")
    words.add_argument("--seconds", metavar="N", type=number_from_one, default=10, help="how many seconds a command has (default 10)")
    words.add_argument("--kind", choices=sorted(KINDS), nargs="+", default=sorted(KINDS), help="these kinds alone")
    given = words.parse_args()
    want_program(SOLVE_CLI)
    names = [command[0] if len(command) == 1 else f"{command[2]} x {command[4]}" for command in COMMANDS]
    print(f"| Kind | Instances | {' | '.join(names)} |\n|---|---|{'---|' * len(COMMANDS)}", flush=True)
    with tempfile.TemporaryDirectory() as folder:
        for kind in given.kind:
            times: list[list[Optional[float]]] = [[] for _ in COMMANDS]
            for seed in range(1, given.seeds + 1):
                file = os.path.join(folder, f"{kind}-{seed}.dlx")
                KINDS[kind](file, random.Random(seed))
                for place, command in enumerate(COMMANDS):
                    times[place].append(found(file, command, given.seconds, seed))
            print(f"| {kind} | {given.seeds} | {' | '.join(map(cell, times))} |", flush=True)


if __name__ == "__main__":
    main()
