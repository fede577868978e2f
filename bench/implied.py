#!/usr/bin/env python3
"""Times `why`, `alone`, `learn` and `answer` beside other programs, on problems of which most are decided by what their
files imply.

    python3 bench/implied.py [--seeds N] [--seconds N] [--kind KIND ..] [--write FOLDER]

The kinds, most of problems which other programs once decided ten times as fast, or alone. With a cover: `class`, one
class with 30 lessons in 30 periods, which are secondary, and seven teachers; `school`, three such classes with 25;
`full`, up to ten; `tight`, three or eight with no more teachers than classes; `rooms`, five classes that share five
rooms; `quasigroup`, a square of 30 rows with 325 empty cells; `killer`, a killer sudoku without given digits; `boxes`,
Conway's cube of five rows. Without one: `over`, eight classes, one of whose teachers has 26 lessons in 25 periods;
`edges`, the edges of a complete graph of 13 points in 12 colours, none of which is twice at a point; `differences`, two
blocks of four numbers modulo 25 with each difference at most once; `exams`, 30 exams in nine slots, ten of which have a
student in common by twos; `crossing`, lessons of four classes and teachers each, of which 13 share one by twos, in 12
periods; `pieces`, square boards of ten to fourteen rows for an X and an I of five squares each and dominoes.

N instances are drawn of each kind (default 3). A cell has the processor seconds, reading included, or a dash where
there is no answer within so many seconds (default 10). The answers are compared, and each cover is counted by `check`.
With --write the problems are written, and nothing is run.

It wants the program, and for the others the commands `gringo`, `clasp` and `cadical`, and SciPy for HiGHS. The exit
status is 0, 1 where an answer is wrong, 2 for a mistake on the command line or where there is no program.
"""
from __future__ import annotations

import os
import random
import shutil
import sys
import tempfile
import time
from typing import Optional

from encodings_of_peers import read
from implied_kinds import KINDS
from learning import cadical, clasp, Told
from measured import found_cover, run

HERE = os.path.dirname(os.path.abspath(__file__))
sys.path.insert(0, os.path.join(HERE, "..", "trials"))
from built import SOLVE_CLI, number_from_one, parser_of, want_program  # noqa: E402


def asked(words: list[str], file: str, seconds: int) -> Told:
    """Whether a command of ours finds a cover, and its seconds."""
    ran = run([SOLVE_CLI, words[0], file, *words[1:]], seconds=seconds + 5)
    return found_cover(file, ran.text, f" by {words[0]}"), ran.processor


def highs(file: str, seconds: int) -> Told:
    """The same of HiGHS, an integer program: each primary item once, each secondary one at most once. It isn't asked
    where options have colours."""
    from scipy.optimize import Bounds, LinearConstraint, milp    # type: ignore[import]
    from scipy.sparse import lil_matrix    # type: ignore[import]
    primary, secondary, options = read(file)
    if any(colour for option in options for _, colour in option):
        return None, 0
    place = {name: number for number, name in enumerate([*primary, *secondary])}
    matrix = lil_matrix((len(place), len(options)))
    for number, option in enumerate(options):
        for name, _ in option:
            matrix[place[name], number] = 1
    begun = time.process_time()
    found = milp([0] * len(options), integrality=[1] * len(options), bounds=Bounds(0, 1), options={"time_limit": seconds},
                 constraints=LinearConstraint(matrix.tocsr(), [1] * len(primary) + [0] * len(secondary), 1))
    return {0: True, 2: False}.get(found.status), time.process_time() - begun


def runs_of(file: str, seconds: int) -> list[Told]:
    """The runs of our commands and of the others that are there."""
    limit = ["--seconds", str(seconds)]
    told = [asked(["why"], file, seconds), *(asked([word, *limit], file, seconds) for word in ("alone", "learn", "answer"))]
    told.append(clasp(file, seconds) if shutil.which("clasp") and shutil.which("gringo") else (None, 0))
    told.append(cadical(file, seconds) if shutil.which("cadical") else (None, 0))
    try:
        told.append(highs(file, seconds))
    except ImportError:
        told.append((None, 0))
    return told


def cell(told: Told) -> str:
    answer: Optional[bool] = told[0]
    return "-" if answer is None else f"{told[1]:.3f}"


def main() -> int:
    words = parser_of(__doc__)
    words.add_argument("--seeds", type=number_from_one, default=3, help="how many instances of each kind (default 3)")
    words.add_argument("--seconds", type=number_from_one, default=10, help="how long each command may take (default 10)")
    words.add_argument("--kind", choices=sorted(KINDS), action="append", help="only this kind; may be given several times")
    words.add_argument("--write", metavar="FOLDER", help="where the problems are written, and nothing is run")
    given = words.parse_args()
    if given.write:
        os.makedirs(given.write, exist_ok=True)
    else:
        want_program(SOLVE_CLI)
        print("| Instance | why | alone | learn | answer | clasp | CaDiCaL | HiGHS |\n|---|---|---|---|---|---|---|---|")
    with tempfile.TemporaryDirectory() as folder:
        for kind in given.kind or KINDS:
            make, has_cover = KINDS[kind]
            for seed in range(1, given.seeds + 1):
                file = os.path.join(given.write or folder, f"{kind}-{seed}.dlx")
                make(file, random.Random(f"{kind} {seed}"))
                if given.write:
                    continue
                told = runs_of(file, given.seconds)
                if any(answer not in (None, has_cover) for answer, _ in told):
                    print(f"a wrong answer: {kind}-{seed}")
                    return 1
                print(f"| {kind}-{seed} | {' | '.join(map(cell, told))} |", flush=True)
    return 0


if __name__ == "__main__":
    sys.exit(main())
