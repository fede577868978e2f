#!/usr/bin/env python3
"""Times `solve` beside `alone`.

    python3 bench/solve.py [--times N] [--seconds N] [NAME ..]

Each instance that is named, or each of nine, is searched by `alone`, by `alone --unlimited`, and by `solve` as one node
of one, two and four workers and as two and four nodes of one worker, by turns. The least time that passed counts, from
the start of the process to its end; the figure in brackets is how many times as fast as `alone` it was. All that answer
have to come to the same outcome, and covers are tested by `check`. A dash stands where there was no answer, for `solve`
in N seconds (default 60), at the first time. The column `4 alone` is what the machine allows: four processes of `alone`
run at once, and the figure is four times the time of one over the time until all have ended. The figures mean something
on a machine with four processors and nothing else to do.

Beside the nine there are those of states.py, of which many have states that come again; there `alone` may end at the
greatest fuel.

It wants the program: (cd crates/solve_cli && rt run -- --version) builds it. The exit status is 0, 1 where an answer is
wrong, 2 for a mistake on the command line or where there is no program.
"""
from __future__ import annotations

import argparse
import math
import os
import subprocess
import sys
import tempfile
import time

HERE = os.path.dirname(os.path.abspath(__file__))
sys.path.insert(0, os.path.join(HERE, "..", "trials"))
from built import is_right, number_from_one, parser_of, SOLVE_CLI, stop, want_program  # noqa: E402
from problems import put  # noqa: E402
from states import write_instances  # noqa: E402
from zarfepoch.puzzles import by_number  # noqa: E402
from zarfepoch.texts.puzzles import Puzzle  # noqa: E402

NAMES = ["langford-13", "langford-13-long", "torus-queens-15", "skewed", "skewed-long", "diamond", "pentominoes-3x20", "sudoku-hard", "mutilated-chessboard"]
# nodes, workers
SITES = [(1, 1), (1, 2), (1, 4), (2, 1), (4, 1)]


# the numbers with their places, and the options of Langford pairs of 13, which have no pairing
NUMBERS_AND_PLACES, _, PAIRS = by_number.langford(13)
PLACES = NUMBERS_AND_PLACES[13:]
# thirty choices, each of which leaves all of the work to one of its two options
SKEWED = [f"z{k}" for k in range(30)]
SKEWED_WAYS = [way for choice in SKEWED for way in ([choice, *PLACES], [choice])]


def behind(folder: str, name: str, counts: list[int], skewed: bool = False) -> None:
    """Langford pairs of 13 behind choices with so many options each: the product of these counts times the work."""
    choices = [f"x{k}" for k in range(len(counts))]
    marks = [f"y{k}.{way}" for k, count in enumerate(counts) for way in range(count)]
    ways = [[f"x{k}", f"y{k}.{way}"] for k, count in enumerate(counts) for way in range(count)]
    if skewed:
        choices, ways = SKEWED + choices, SKEWED_WAYS + ways
    put(folder, name, f"choices that make the work {math.prod(counts)} times as much", Puzzle(choices + NUMBERS_AND_PLACES, marks, ways + PAIRS))


def timed(words: list[str]) -> tuple[str, float]:
    """What the program writes, and how many seconds passed."""
    start = time.monotonic()
    text = subprocess.run([SOLVE_CLI, *words], capture_output=True, text=True).stdout
    return text, time.monotonic() - start


def at_once(file: str, count: int) -> float:
    """The seconds until so many processes of `alone`, started at once, have all ended."""
    start = time.monotonic()
    for process in [subprocess.Popen([SOLVE_CLI, "alone", file], stdout=subprocess.DEVNULL) for _ in range(count)]:
        process.wait()
    return time.monotonic() - start


def answer(words: list[str], said: str) -> tuple[str, float]:
    """The outcome of a run and its seconds; the outcome that was said before, and no seconds, where it gives no answer.
    Any other outcome ends all."""
    text, seconds = timed(words)
    if text == "no answer\n":
        return said, math.inf
    outcome = text.partition(" ")[0].strip()
    if outcome not in ("cover", "none") or outcome != (said or outcome) or (outcome == "cover" and not is_right(words[1], text)):
        sys.exit(f"a wrong answer: {words}")
    return outcome, seconds


def cell(seconds: float, alone: float = math.inf) -> str:
    """Seconds, and how many times as fast as `alone` that is."""
    if seconds == math.inf:
        return "-"
    return f"{seconds:.3f}" + (f" ({alone / seconds:.2f})" if alone < math.inf else "")


def row(name: str, file: str, given: argparse.Namespace) -> str:
    """The row of an instance."""
    commands = [["alone", file], ["alone", file, "--unlimited"]]
    commands += [["solve", file, "--nodes", str(nodes), "--workers", str(workers), "--seconds", str(given.seconds)] for nodes, workers in SITES]
    said, four, best = "", math.inf, [math.inf] * len(commands)
    for turn in range(given.times):
        seed = ["--seed", str(turn + 1)]
        for place, words in enumerate(commands):
            if turn == 0 or best[place] < math.inf:
                said, seconds = answer(words + seed * (words[0] == "solve"), said)
                best[place] = min(best[place], seconds)
        if best[0] < math.inf:
            four = min(four, at_once(file, 4))
    alone, unlimited, *others = best
    cells = [name, said or "-", cell(alone), cell(unlimited), f"{4 * alone / four:.2f}" if four < math.inf else "-"]
    return f"| {' | '.join(cells + [cell(seconds, alone) for seconds in others])} |"


def main() -> None:
    words = parser_of(__doc__)
    words.add_argument("--times", metavar="N", type=number_from_one, default=3, help="how often each is run (default 3)")
    words.add_argument("--seconds", metavar="N", type=number_from_one, default=60, help="after how many seconds solve ends (default 60)")
    words.add_argument("names", nargs="*", metavar="NAME", help="instances, as those of bench/states.py")
    given = words.parse_args()
    want_program(SOLVE_CLI)
    with tempfile.TemporaryDirectory() as folder:
        write_instances(folder)
        behind(folder, "langford-13-long", [2, 2])
        behind(folder, "skewed", [], True)
        behind(folder, "skewed-long", [2], True)
        print("| Instance | Outcome | `alone`, s | `--unlimited` | 4 alone | " + " | ".join(f"{n} x {w}" for n, w in SITES) + " |")
        print("|---|---|---|---|---|" + "---|" * len(SITES))
        for name in given.names or NAMES:
            file = os.path.join(folder, name + ".dlx")
            if not os.path.exists(file):
                stop(f"there is no instance {name}")
            print(row(name, file, given), flush=True)


if __name__ == "__main__":
    main()
