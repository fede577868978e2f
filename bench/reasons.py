#!/usr/bin/env python3
"""Times how long it takes to see that there is no cover: by a reason, by a search, and by the script that says why.

    python3 bench/reasons.py [--seconds N] [--times N] [NAME ..]

Each instance that is named, or each of all, is given to `solve_cli why`, `solve_cli alone --unlimited` and
`scripts/zarfepoch why-none`. Each has N seconds (default 60); a dash stands where it didn't end. The table has the
reason, how many items have a number in it, and the least processor seconds of each, but of `alone` the least wall
seconds, since it looks for a reason 10 and 100 milliseconds after its start, and later by multipliers, all by the
clock. Each reason is added up by `scripts/zarfepoch check-reason`.

It wants the program: (cd crates/solve_cli && rt run -- --version) builds it. The exit status is 0, 1 where a reason
doesn't hold or two come to other outcomes, 2 for a mistake on the command line or where there is no program.
"""
from __future__ import annotations

import os
import random
import subprocess
import sys
import tempfile
from collections.abc import Iterator
from typing import Optional

HERE = os.path.dirname(os.path.abspath(__file__))
sys.path.insert(0, os.path.join(HERE, "..", "trials"))
from built import SOLVE_CLI, TOP, number_from_one, parser_of, stop, want_program  # noqa: E402
from implied_kinds import odd_board  # noqa: E402
import measured  # noqa: E402
from problems import put, straight  # noqa: E402
from zarfepoch.boards.cells import names_of, rectangle  # noqa: E402
from zarfepoch.puzzles.by_number import langford_pairs, triples  # noqa: E402
from zarfepoch.puzzles.tilings import TETROMINOES, dominoes, placements  # noqa: E402
from zarfepoch.texts.puzzles import Puzzle  # noqa: E402

ZARFEPOCH = [sys.executable, os.path.join(TOP, "scripts", "zarfepoch")]
EXAMPLES = ("langford-5", "mutilated-chessboard", "tetrominoes-4x5")
INSTANCES = ("triples-19", "triples-22", "torus-queens-14", "torus-queens-14-all", "torus-queens-15", "torus-queens-15-all",
             "torus-queens-16", "torus-queens-16-all", "diamond", "scattered-19", "crowd", "word-squares-4", "sudoku-hard")
LIMITS = (2, 4, 10)
BOARDS = (8, 10, 12, 14)
QUASIGROUPS = ((15, 110, 0), (15, 110, 2), (20, 220, 2), (25, 340, 2))
FAMILIES = ("dominoes-20x20", "dominoes-30x30", "langford-13", "langford-14", "langford-16", "langford-17", "langford-18", "langford-22",
            "t-tetrominoes-22x22", "straight-trominoes-14x14", "steiner-10", "steiner-11", "class-25-in-24", "school-of-8",
            *(f"quasigroup-{order}-{filled}-{seed}" for order, filled, seed in QUASIGROUPS),
            *(f"odd-pieces-{side}" for side in BOARDS), *(f"limits-{size}" for size in LIMITS))


# ---- what the folder of instances lacks

def tetrominoes(side: int) -> Puzzle:
    """Tetrominoes like a T on a square board."""
    cells = rectangle(side, side)
    options = [option[1:] for option in placements({"T": TETROMINOES["T"]}, cells)]
    return Puzzle(list(names_of(cells).values()), [], options)


def lessons(hours: list[list[int]], periods: int) -> Puzzle:
    """A timetable: each row has a class's hours with each teacher."""
    names = {f"{who}-{teacher}-{hour}": (f"t{teacher}", f"c{who}")
             for who, row in enumerate(hours) for teacher, count in enumerate(row) for hour in range(count)}
    options = [[lesson, *(f"{one}-{at}" for one in both)] for lesson, both in names.items() for at in range(periods)]
    busy = sorted({word for option in options for word in option[1:]})
    return Puzzle(list(names), busy, options)


def quasigroup(order: int, filled: int, seed: int) -> Puzzle:
    """A square of so many rows and numbers in which so many cells are filled one by one, by what no row and column has;
    each row and column is to have each number."""
    draw = random.Random(seed)
    free = {f"{kind}{a}-{b}" for kind in "xrc" for a in range(order) for b in range(order)}
    parts = {(r, c, v): (f"x{r}-{c}", f"r{r}-{v}", f"c{c}-{v}") for r in range(order) for c in range(order) for v in range(order)}
    cells = draw.sample(sorted(rectangle(order, order)), filled)
    for r, c in cells:
        open_values = [v for v in range(order) if free.issuperset(parts[r, c, v])]
        if open_values:
            free.difference_update(parts[r, c, draw.choice(open_values)])
    options = [list(part) for part in parts.values() if free.issuperset(part)]
    return Puzzle(sorted(free), [], options)


def limits(size: int) -> Puzzle:
    """The most items and options that a file may have: options of so many items, some of which make up a cover."""
    draw = random.Random(size)
    items = [f"i{k}" for k in range(1000)]
    order = draw.sample(items, len(items))
    options = [order[place:place + size] for place in range(0, len(items), size)]
    options += [draw.sample(items, size) for _ in range(20_000 - len(options))]
    draw.shuffle(options)
    return Puzzle(items, [], options)


def write_instances(folder: str) -> None:
    """All instances."""
    subprocess.run([sys.executable, os.path.join(HERE, "instances.py"), folder], check=True)
    for side in (20, 30):
        cells = rectangle(side, side) - {(0, 0), (side - 1, side - 1)}
        put(folder, f"dominoes-{side}x{side}", "without two opposite corners", dominoes(cells))
    for count in (13, 14, 16, 17, 18, 22):
        put(folder, f"langford-{count}", "pairs", langford_pairs(count))
    put(folder, "t-tetrominoes-22x22", "none", tetrominoes(22))
    items, pieces = straight(rectangle(14, 14) - {(0, 0)}, 3)
    put(folder, "straight-trominoes-14x14", "none", Puzzle(items, [], pieces))
    for points in (10, 11):
        put(folder, f"steiner-{points}", "triples", triples(points))
    put(folder, "class-25-in-24", "none", lessons([[25]], 24))
    # (the first teacher has 26 hours)
    put(folder, "school-of-8", "none", lessons([[5, 2, 2, 3, 3, 3, 3, 3], *[[3] * 8] * 7], 25))
    for order, filled, seed in QUASIGROUPS:
        square = quasigroup(order, filled, seed)
        put(folder, f"quasigroup-{order}-{filled}-{seed}", f"{len(square.primary)} items are free", square)
    for side in BOARDS:
        items, pieces = odd_board(side)
        put(folder, f"odd-pieces-{side}", "an X, an I and dominoes", Puzzle(items, [], pieces))
    for size in LIMITS:
        put(folder, f"limits-{size}", "a cover, among many options", limits(size))


# ---- the table

def run(words: list[str], seconds: int, times: int) -> Optional[measured.Ran]:
    """What came of a command, with the least seconds of several runs; none where it doesn't end in time."""
    best: Optional[measured.Ran] = None
    for _ in range(times):
        found = measured.run(words, seconds=seconds)
        if found.status is None:
            return None
        best = best or found
        best = found._replace(processor=min(best.processor, found.processor), wall=min(best.wall, found.wall))
    return best


def reason_of(file: str, text: str) -> tuple[str, str]:
    """The kind of a reason in a word or two, and how many items have a number; ends where it doesn't hold."""
    checked = subprocess.run([*ZARFEPOCH, "check-reason", file, "-"], input=text, capture_output=True, text=True)
    if checked.returncode:
        sys.exit(f"{file}: {checked.stdout}")
    _, kind, *lines = text.splitlines()
    named = sum(line.startswith(("weigh ", "need ", "room ")) for line in lines)
    return kind.replace("weights modulo", "modulo"), f"{named:,}"


def cells_of(file: str, seconds: int, times: int) -> Iterator[str]:
    """The cells of an instance's row."""
    why = run([SOLVE_CLI, "why", file], seconds, times)
    alone = run([SOLVE_CLI, "alone", file, "--unlimited"], seconds, times)
    script = run([*ZARFEPOCH, "why-none", file], seconds, times)
    reason = why.text if why and why.status == 1 else None
    if reason is not None and alone and alone.status != 1:
        sys.exit(f"{file}: a reason, and a cover")
    yield alone.text.split()[0] if alone else "-"
    yield from reason_of(file, reason) if reason is not None else ("-", "-")
    yield f"{why.processor:.2f}" if why else "-"
    yield f"{alone.wall:.2f}" if alone else "-"
    yield f"{script.processor:.2f}" if script else "-"


def main() -> None:
    words = parser_of(__doc__)
    words.add_argument("--seconds", metavar="N", type=number_from_one, default=60, help="how long each may take (default 60)")
    words.add_argument("--times", metavar="N", type=number_from_one, default=3, help="how often each is timed (default 3)")
    words.add_argument("names", nargs="*", metavar="NAME", help="instances, without their ending")
    given = words.parse_args()
    want_program(SOLVE_CLI)
    with tempfile.TemporaryDirectory() as folder:
        write_instances(folder)
        places = {name: os.path.join(TOP, "examples", f"{name}.dlx") for name in EXAMPLES}
        places.update((name, os.path.join(folder, f"{name}.dlx")) for name in (*FAMILIES, *INSTANCES))
        print("| Instance | Outcome | Reason | Items | `why` | `alone --unlimited` | `why_none.py` |\n|---|---|---|---|---|---|---|")
        for name in given.names or places:
            if name not in places:
                stop(f"there is no instance {name}")
            print(f"| {name} | {' | '.join(cells_of(places[name], given.seconds, given.times))} |", flush=True)


if __name__ == "__main__":
    main()
