#!/usr/bin/env python3
"""Times the search by links beside the search over sets of live options.

    python3 bench/searches.py [--times N] [--fuel N] [NAME ..]

Each instance that is named, or each of the benchmark's, four more whose options bar few others, and two that mislead
averages, is searched both ways, until the search ends or has made N visits (default 100,000). The first columns say
which of the two the program takes and what the search came to. Times are the least processor seconds of the whole
process, reading included. Where the command valgrind is on the path, millions of instructions are told too, without
those of a search of one visit: reading and building the tables. The ratio is the time of the search that the program
takes to the time of the other.

It wants the program: (cd crates/workbench && rt run) builds it. The exit status is 0, 1 where the two come to other
outcomes, 2 for a mistake on the command line or where there is no program.
"""
from __future__ import annotations

import math
import os
import random
import shutil
import subprocess
import sys
import tempfile
from typing import Optional

HERE = os.path.dirname(os.path.abspath(__file__))
sys.path.insert(0, os.path.join(HERE, "..", "trials"))
from built import WORKBENCH, number_from_one, parser_of, stop, want_program  # noqa: E402
from measured import run  # noqa: E402
from problems import put  # noqa: E402
from zarfepoch.boards.cells import rectangle  # noqa: E402
from zarfepoch.puzzles.tilings import dominoes  # noqa: E402
from zarfepoch.texts.puzzles import Puzzle  # noqa: E402

KINDS = ["links", "sets"]


def near(draw: random.Random, places: int) -> list[int]:
    """Items next to one another, all or some of ten of these places."""
    first = draw.randrange(-9, places)
    row = [place for place in range(first, first + 10) if 0 <= place < places]
    return row if draw.random() < 0.3 else sorted(draw.sample(row, draw.randrange(1, min(7, len(row)) + 1)))


def sparse_instances(folder: str) -> None:
    """Hundreds of items, and options that bar few others."""
    for rows, columns in ((12, 10), (20, 20)):
        cells = rectangle(rows, columns) - {(0, 0), (rows - 1, columns - 1)}
        put(folder, f"dominoes-{rows}x{columns}", "without two corners of one colour", dominoes(cells))
    draw, names = random.Random(5), [f"i{k}" for k in range(1000)]
    local = [[names[k] for k in near(draw, 1000)] for _ in range(20000)]
    put(folder, "local-1000", "options of items next to one another", Puzzle(names, [], local))
    few = [[names[k] for k in sorted({item, *draw.sample(range(1000), draw.randrange(3))})] for item in range(1000) for _ in range(6)]
    put(folder, "primary-1000", "six options of one to three items for each item", Puzzle(names, [], few))


def uneven_instances(folder: str) -> None:
    """Options that agree where they meet, and a hard core that averages hide."""
    names = [f"c{row}-{column}" for row in range(33) for column in range(30)]
    beside = [(place, place + 1) for place in range(990) if place % 30 < 29] + [(place, place + 30) for place in range(960)]
    same = [[names[place] for place in both] + ["x:A", "y:A", "z:A"] for both in beside if 0 not in both and 988 not in both]
    left = [name for place, name in enumerate(names) if place not in (0, 988)]
    put(folder, "agreed-dominoes", "dominoes, and three items to which all of them give one colour", Puzzle(left, ["x", "y", "z"], same))
    draw, hard, easy = random.Random(7), [f"h{k}" for k in range(95)], [f"e{k}" for k in range(400)]
    core = [sorted(draw.sample(hard, 19)) for _ in range(4000)]
    put(folder, "hard-core", "4,000 options of 19 of 95 items, and 400 items with 40 options of their own each",
        Puzzle(hard + easy, [], core + [[item] for item in easy for _ in range(40)]))


def told(file: str, kind: str, fuel: int) -> tuple[list[str], float]:
    """What the program writes of a search, in words, and its processor seconds."""
    ran = run([WORKBENCH, "search", file, kind, "plain", str(fuel)])
    return ran.text.split(), ran.processor


def instructions(file: str, kind: str, fuel: int) -> Optional[int]:
    """How many instructions a search takes, without what one visit takes; none without valgrind."""
    if not shutil.which("valgrind"):
        return None
    counts = []
    for visits in (fuel, 1):
        words = ["valgrind", "--tool=callgrind", "--callgrind-out-file=/dev/null", WORKBENCH, "search", file, kind, "plain", str(visits)]
        errors = subprocess.run(words, capture_output=True, text=True).stderr
        counts.append(int(errors.partition("refs:")[2].split()[0].replace(",", "")))
    return counts[0] - counts[1]


def row(file: str, times: int, fuel: int) -> tuple[str, str, dict[str, float]]:
    """The kind that the program takes, the outcome, and the least seconds of both kinds."""
    suited, outcome = told(file, "suited", fuel)[0]
    best = dict.fromkeys(KINDS, math.inf)
    for _ in range(times):
        for kind in KINDS:
            text, seconds = told(file, kind, fuel)
            if text != [kind, outcome]:
                sys.exit(f"{file}: the searches come to other outcomes: {text}")
            best[kind] = min(best[kind], seconds)
    return suited, outcome, best


def main() -> None:
    words = parser_of(__doc__)
    words.add_argument("--times", metavar="N", type=number_from_one, default=5, help="how often each is timed (default 5)")
    words.add_argument("--fuel", metavar="N", type=number_from_one, default=100000, help="how many visits a search makes at most (default 100000)")
    words.add_argument("names", nargs="*", metavar="NAME", help="instances, without their ending")
    given = words.parse_args()
    want_program(WORKBENCH, "workbench")
    with tempfile.TemporaryDirectory() as folder:
        subprocess.run([sys.executable, os.path.join(HERE, "instances.py"), folder], check=True)
        sparse_instances(folder)
        uneven_instances(folder)
        print("| Instance | Taken | Outcome | Links, s | Sets, s | Links, instructions | Sets, instructions | Ratio |")
        print("|---|---|---|---|---|---|---|---|")
        for name in given.names or sorted(it.removesuffix(".dlx") for it in os.listdir(folder)):
            file = os.path.join(folder, name + ".dlx")
            if not os.path.exists(file):
                stop(f"there is no instance {name}")
            suited, outcome, best = row(file, given.times, given.fuel)
            counts = [instructions(file, kind, given.fuel) for kind in KINDS]
            millions = ["-" if count is None else f"{count / 1e6:.1f}" for count in counts]
            ratio = best[suited] / best[KINDS[1 - KINDS.index(suited)]]
            print(f"| {name} | {suited} | {outcome} | {best['links']:.3f} | {best['sets']:.3f} | {' | '.join(millions)} | {ratio:.2f} |",
                  flush=True)


if __name__ == "__main__":
    main()
