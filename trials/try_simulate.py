#!/usr/bin/env python3
"""Simulates a search of every example.

    python3 trials/try_simulate.py [--short] [SEEDS]

Each file of examples/ is searched by simulated worlds of four nodes, for each seed (20 where no number is given, one
with --short) with searches of 1, 10 and 1,000 visits, without restarts and with five. Every answer is given to `check`,
which has to call it right. A table tells, file by file, in how many of the runs an answer was published within 10,000
turns, without the closing phase, and the turns and packets that the middle one of these took.

It wants two programs: (cd crates/solve_cli && rt run -- --version) and (cd crates/workbench && rt run) build them. The
exit status is 0 where every answer is right, 1 where one is wrong, 2 for a mistake on the command line or where a
program is missing.
"""
from __future__ import annotations

import glob
import os
import statistics
import subprocess
import sys

from built import is_right, number_from_one, parser_of, SOLVE_CLI, TOP, want_program, WORKBENCH

NODES, TURNS = 4, 10_000


def output(words: list[str]) -> subprocess.CompletedProcess[str]:
    return subprocess.run(words, capture_output=True, text=True)


def is_answered(file: str, seed: str, fuel: str, restarts: str) -> bool:
    """Whether a world comes to an answer, and `check` calls it right."""
    words = [SOLVE_CLI, "simulate", file, "--seed", seed, "--fuel", fuel, "--restarts", restarts]
    answered = output(words)
    return answered.returncode in (0, 1) and is_right(file, answered.stdout)


def measured(file: str, seed: str, fuel: str, restarts: str) -> tuple[int, int, bool]:
    words = [WORKBENCH, "measure", file, str(NODES), seed, fuel, restarts, str(TURNS)]
    turns, packets, published = output(words).stdout.split()
    return int(turns), int(packets), published == "true"


def main() -> None:
    parser = parser_of(__doc__)
    parser.add_argument("seeds", nargs="?", metavar="SEEDS", type=number_from_one, help="how many seeds are tried, from 1 (default 20; 1 with --short)")
    parser.add_argument("--short", action="store_true", help="fewer seeds")
    given = parser.parse_args()
    seeds = given.seeds or (1 if given.short else 20)
    want_program(SOLVE_CLI)
    want_program(WORKBENCH, "workbench")
    plans = [(str(seed), fuel, restarts) for seed in range(1, seeds + 1)
             for fuel in ("1", "10", "1000") for restarts in ("0", "5")]
    wrong = 0
    print("| File | Runs | Wrong | Published by chance | Turns | Packets |")
    print("|---|---|---|---|---|---|")
    for file in sorted(glob.glob(os.path.join(TOP, "examples", "*.dlx"))):
        bad = [plan for plan in plans if not is_answered(file, *plan)]
        runs = [run for run in (measured(file, *plan) for plan in plans) if run[2]]
        turns = statistics.median_low([run[0] for run in runs]) if runs else "-"
        packets = statistics.median_low([run[1] for run in runs]) if runs else "-"
        name = os.path.basename(file)
        print(f"| {name} | {len(plans)} | {len(bad)} | {len(runs)} | {turns} | {packets} |", flush=True)
        for seed, fuel, restarts in bad:
            print(f"wrong: {name} --seed {seed} --fuel {fuel} --restarts {restarts}")
        wrong += len(bad)
    sys.exit(1 if wrong else 0)


if __name__ == "__main__":
    main()
