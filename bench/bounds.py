#!/usr/bin/env python3
"""Holds what no contract says, how fast a program is and what memory it takes, to bounds.

    python3 bench/bounds.py [NAME ..]

Each bound is one on a ratio of two figures that are measured here, or on the memory of an entry, so it is the same on
all machines. Those that are named, or all, are measured:

- `audit-length`: with which power of the entries the seconds of an audit grow, between some 8,000 and 70,000 of them: it finds packets by an index;
- `audit-books`: the seconds of an audit for each of some 10,000 entries of 17 books, to those of five: it follows the books that wait for
  one another;
- `idle-entries`: the bytes that a book takes for an entry of a site without work: such entries share a step;
- `only-worker`: how many searches the only worker of a run makes for a problem of 650,000 visits: it has no limit;
- `equal-parts`: the processor seconds of four workers of a node to those of one, where 32 parts of the search are equal: what one
  worker found the others know. Workers meet by chance, so a run without this may stay below the bound;
- `late-seconds`: how many seconds after the one that it has `alone --unlimited` ends, on files of the most items and options that a search doesn't decide:
  the search for a reason is ended, too.

The least of five audits counts, and all of five runs. Seconds of audits are by the clock: on a busy machine they may be
beyond a bound where nothing is wrong.

It wants the programs: (cd crates/workbench && rt run) and (cd crates/solve_cli && rt run -- --version) build them. The
exit status is 0, 1 where a figure is beyond its bound or an answer is wrong, 2 for a mistake on the command line or
where a program is missing.
"""
from __future__ import annotations

import math
import os
import random
import subprocess
import sys
import tempfile
import time
from collections.abc import Callable
from typing import NamedTuple

HERE = os.path.dirname(os.path.abspath(__file__))
sys.path.insert(0, os.path.join(HERE, "..", "trials"))
import audits  # noqa: E402
import books  # noqa: E402
from built import SOLVE_CLI, WORKBENCH, parser_of, stop, want_program  # noqa: E402
from instances import NOTE, torus_queens  # noqa: E402
from measured import ended  # noqa: E402
from problems import put, write_primary  # noqa: E402
from solve import behind  # noqa: E402

# how often each audit is measured
AUDITS = 5
# how often several workers are measured, since they meet by chance
RUNS = 5
# how many entries a book gets
FEW, MANY = 100_000, 1_000_000


def peak(words: list[str]) -> int:
    """The greatest memory of a program, in bytes."""
    with subprocess.Popen(words, stdout=subprocess.DEVNULL) as process:
        used = ended(process)
    if process.returncode:
        sys.exit(f"{' '.join(words)} failed")
    return used.ru_maxrss * 1024


def audited(folder: str, rows: int, nodes: int) -> tuple[int, float]:
    """Entries and seconds of the audit that takes the least for an entry, of several searches of queens on a torus."""
    put(folder, "torus", NOTE, torus_queens(rows))
    found = []
    for _ in range(AUDITS):
        (_, entries, time, verdict), _ = audits.run(os.path.join(folder, "torus.dlx"), nodes, "time")
        if verdict.strip() != "Ok(Clean)":
            sys.exit(f"an audit of {nodes} nodes on {rows} rows is not clean: {verdict.strip()}")
        found.append((int(entries), int(time) / 1e9))
    return min(found, key=lambda it: it[1] / it[0])


def audit_length(folder: str) -> float:
    (few, least), (many, most) = audited(folder, 10, 4), audited(folder, 12, 4)
    return math.log(most / least) / math.log(many / few)


def audit_books(folder: str) -> float:
    (few, least), (many, most) = audited(folder, 10, 4), audited(folder, 10, 16)
    return (most / many) / (least / few)


def idle_entries(_: str) -> float:
    few, many = (peak([WORKBENCH, "greet", "1", str(count)]) for count in (FEW, MANY))
    return (many - few) / (MANY - FEW)


def only_worker(folder: str) -> float:
    put(folder, "torus", NOTE, torus_queens(15))
    _, _, answered, _, of_books = books.run(os.path.join(folder, "torus.dlx"), 1, 1)
    if not answered:
        sys.exit("a run of one worker gave no answer")
    return sum(searches for _, searches, *_ in of_books)


def equal_parts(folder: str) -> float:
    behind(folder, "equal", [2, 2, 2, 2, 2])
    seconds = []
    for workers in (1, 4):
        ran = [books.run(os.path.join(folder, "equal.dlx"), 1, workers) for _ in range(RUNS)]
        if not all(answered for _, _, answered, *_ in ran):
            sys.exit(f"a run of {workers} workers gave no answer")
        seconds.append(sum(processors for _, processors, *_ in ran))
    return seconds[1] / seconds[0]


def drawn(path: str, items: int, options: int, length: int) -> None:
    """Options of so many items each, drawn at random."""
    draw = random.Random(items + length)
    write_primary(path, [[f"i{item}" for item in sorted(draw.sample(range(items), length))] for _ in range(options)])


def late_seconds(folder: str) -> float:
    late = 0.0
    for items, options, length in ((1_000, 20_000, 4), (1_000, 20_000, 20), (1_000, 4_000, 100), (500, 20_000, 3)):
        path = os.path.join(folder, "drawn.dlx")
        drawn(path, items, options, length)
        began = time.perf_counter()
        ran = subprocess.run([SOLVE_CLI, "alone", path, "--unlimited", "--seconds", "1"], capture_output=True)
        took = time.perf_counter() - began
        if ran.returncode == 4:
            late = max(late, took - 1)
    return late


class Bound(NamedTuple):
    """What is measured, and the greatest figure that is good."""
    measure: Callable[[str], float]
    most: float


BOUNDS = {
    "audit-length": Bound(audit_length, 1.75),
    "audit-books": Bound(audit_books, 2),
    "idle-entries": Bound(idle_entries, 64),
    "only-worker": Bound(only_worker, 4),
    "equal-parts": Bound(equal_parts, 2),
    "late-seconds": Bound(late_seconds, 0.2),
}


def main() -> int:
    words = parser_of(__doc__)
    words.add_argument("names", metavar="NAME", nargs="*", help=f"of {', '.join(BOUNDS)} (default: all)")
    names = words.parse_args().names or list(BOUNDS)
    for name in names:
        if name not in BOUNDS:
            stop(f"there is no bound {name}")
    want_program(WORKBENCH, "workbench")
    want_program(SOLVE_CLI)
    print("| Bound | Figure | At most |\n|---|---|---|", flush=True)
    is_good = True
    with tempfile.TemporaryDirectory() as folder:
        for name in names:
            figure, most = BOUNDS[name].measure(folder), BOUNDS[name].most
            is_good = is_good and figure <= most
            print(f"| {name} | {figure:.2f} | {most}{'' if figure <= most else ': BEYOND'} |", flush=True)
    return 0 if is_good else 1


if __name__ == "__main__":
    sys.exit(main())
