#!/usr/bin/env python3
"""Runs `solve` on two small problems and on every example, or on the files that are named.

    python3 trials/try_solve.py [--short] [--times N] [--nodes N] [--workers N] [--fuel N] [--limit SECONDS] [--audit] [FILE ..]

Each problem is solved so many times by nodes with threads of their own. Every answer is given to `check`, which has to
call it right, and of the two small problems the answer's text is known. With no turns at all there has to be no answer.
A table tells, problem by problem, how many runs answered, how many were wrong, and the least, the middle and the
greatest time in seconds. With --audit each run is audited, and one whose audit isn't clean is wrong.

Where no file is named, the two small problems and three of the examples are solved once more with 0, 1, 3 and 100
restarts of the first node, and with so few turns that restarts fall into the runs.

It wants the program: (cd crates/solve_cli && rt run -- --version) builds it. The exit status is 0 where no run was
wrong (one without an answer is none), 1 where one was or took longer than the limit, or where a problem was never
answered without restarts, 2 for a mistake on the command line or where there is no program.
"""
from __future__ import annotations

import argparse
import glob
import os
import statistics
import subprocess
import sys
import tempfile
import time
from collections.abc import Sequence
from typing import Optional

from built import is_right, number_from_one, parser_of, SOLVE_CLI, TOP, want_program

LETTERS = "a b c d e f g\nc e\na d g\nb c f\na d f\nb g\nd e g\n"
SMALL = [
    ("letters, with a cover", LETTERS, "cover 3\nc e\na d f\nb g\n"),
    ("letters, without", LETTERS.replace("b g\n", ""), "none\n"),
]

RESTARTED = ["mutilated-chessboard.dlx", "pentominoes-6x10.dlx", "queens-8.dlx"]
RESTARTS = ["0", "1", "3", "100"]
FEW_TURNS = "5000"
# a problem's name, file and answer, where that is known; a run's seconds, whether there was an answer, and whether it
# was wrong
Row = tuple[str, str, Optional[str]]
Seen = tuple[float, bool, bool]


def words() -> argparse.Namespace:
    parser = parser_of(__doc__)
    parser.add_argument("--short", action="store_true", help="once, and with --audit")
    parser.add_argument("--times", type=number_from_one, help="how often each problem is solved (default 20; 1 with --short)")
    parser.add_argument("--nodes", default="4", help="how many nodes there are (default 4)")
    parser.add_argument("--workers", default="2", help="how many workers a node has (default 2)")
    parser.add_argument("--fuel", default="1000", help="how many prefixes a search may visit at first (default 1000)")
    parser.add_argument("--limit", type=float, default=120, help="after how many seconds a run is given up (default 120)")
    parser.add_argument("--audit", action="store_true", help="audit each run")
    parser.add_argument("files", nargs="*", metavar="FILE", help="the files, in place of the small problems and all of examples/")
    given = parser.parse_args()
    given.times = given.times or (1 if given.short else 20)
    given.audit = given.audit or given.short
    return given


def output(words: list[str], limit: float) -> Optional[subprocess.CompletedProcess[str]]:
    try:
        return subprocess.run(words, capture_output=True, text=True, timeout=limit)
    except subprocess.TimeoutExpired:
        return None


def audit_option(given: argparse.Namespace) -> list[str]:
    return ["--audit"] if given.audit else []


def answer_of(run: subprocess.CompletedProcess[str], given: argparse.Namespace) -> Optional[str]:
    """What a run wrote before its audit's line, or None where an audit was asked for and isn't clean."""
    if not given.audit:
        return run.stdout
    answer, clean, rest = run.stdout.rpartition("audit clean\n")
    return answer if clean and not rest else None


def solved(file: str, seed: int, given: argparse.Namespace, expected: Optional[str], more: Sequence[str]) -> Seen:
    """The time, whether there was an answer, and whether the run was wrong; with these options more."""
    options = ["--seed", str(seed), "--nodes", given.nodes, "--workers", given.workers, "--fuel", given.fuel]
    begun = time.monotonic()
    run = output([SOLVE_CLI, "solve", file, *options, *more, *audit_option(given)], given.limit)
    seconds = time.monotonic() - begun
    if run is None:
        return seconds, False, True
    answer = answer_of(run, given)
    if run.returncode == 4:
        return seconds, False, answer != "no answer\n"
    known = expected is None or answer == expected
    wrong = answer is None or run.returncode not in (0, 1) or not known or not is_right(file, answer)
    return seconds, True, wrong


def tell(name: str, file: str, given: argparse.Namespace, expected: Optional[str], more: Sequence[str] = ()) -> int:
    """Tells of one problem's runs, and answers how many were wrong."""
    runs = [solved(file, seed, given, expected, more) for seed in range(1, given.times + 1)]
    times = [seconds for seconds, _, _ in runs]
    answered = sum(answer for _, answer, _ in runs)
    wrong = sum(bad for _, _, bad in runs)
    spread = " | ".join(f"{seconds:.3f}" for seconds in (min(times), statistics.median(times), max(times)))
    print(f"| {name} | {len(runs)} | {answered} | {wrong} | {spread} |", flush=True)
    if not answered and not more:
        print(f"wrong: {name} was never answered")
        wrong += 1
    return wrong


def says_nothing_without_turns(file: str, given: argparse.Namespace) -> bool:
    run = output([SOLVE_CLI, "solve", file, "--turns", "0", *audit_option(given)], 60)
    return run is not None and run.returncode == 4 and answer_of(run, given) == "no answer\n"


def problems(given: argparse.Namespace, folder: str) -> list[Row]:
    """Each problem's name, file and answer, where that is known."""
    if given.files:
        return [(os.path.basename(file), file, None) for file in given.files]
    found: list[Row] = []
    for number, (name, text, expected) in enumerate(SMALL):
        file = os.path.join(folder, f"small-{number}.dlx")
        with open(file, "w") as small:
            small.write(text)
        found.append((name, file, expected))
    examples = sorted(glob.glob(os.path.join(TOP, "examples", "*.dlx")))
    return found + [(os.path.basename(file), file, None) for file in examples]


def tell_restarted(given: argparse.Namespace, found: list[Row]) -> int:
    """Tells of runs in which the first node restarts, and answers how many were wrong."""
    wrong = 0
    for name, file, expected in found:
        for restarts in RESTARTS:
            more = ["--restarts", restarts, "--turns", FEW_TURNS]
            wrong += tell(f"{name}, {restarts} restarts", file, given, expected, more)
    return wrong


def main() -> None:
    given = words()
    want_program(SOLVE_CLI)
    wrong = 0
    print("| Problem | Runs | Answered | Wrong | Least | Middle | Greatest |")
    print("|---|---|---|---|---|---|---|")
    with tempfile.TemporaryDirectory() as folder:
        found = problems(given, folder)
        for name, file, expected in found:
            wrong += tell(name, file, given, expected)
            if not says_nothing_without_turns(file, given):
                print(f"wrong: {name} with no turns")
                wrong += 1
        if not given.files:
            few = [row for row in found if row[2] or row[0] in RESTARTED]
            wrong += tell_restarted(given, few)
    sys.exit(1 if wrong else 0)


if __name__ == "__main__":
    main()
