#!/usr/bin/env python3
"""Runs the program workbench with words that it knows and that it doesn't, and compares what it prints.

    python3 trials/try_workbench.py [--program PATH]

Without words, with unknown ones, too few or too many, it prints how it is called, with status 2. A cycle of cores
prints nothing. What the rest prints is compared by the gate, by other trials and by the benches.

It wants the program: (cd crates/workbench && rt run) builds it. The last line is 'N passed, M failed'. The exit status
is 0 where all passed, 1 where something failed, 2 for a mistake on the command line or where there is no program.
"""
from __future__ import annotations

import subprocess
import sys

from built import TOP, WORKBENCH, parser_of, path_of, want_program

USAGE = """workbench search FILE links|sets|suited plain|kept FUEL
workbench states SEED COUNT
workbench act|copy KIND TIMES
workbench greet THREADS TIMES
workbench table|guests UNITS
workbench tell|measure FILE NODES SEED FUEL RESTARTS TURNS
workbench tally FILE NODES WORKERS SEED FUEL TURNS
workbench audits FILE NODES WORKERS SEED FUEL TURNS CHANGES|time|nothing
"""
LETTERS = "crates/solve_cli/data/letters.dlx"
# words, the exit status, and what is printed
ROWS = [
    ("", 2, USAGE),
    ("search", 2, USAGE),
    (f"search {LETTERS} sets most 100", 2, USAGE),
    (f"search {LETTERS} links plain many", 2, USAGE),
    (f"search {LETTERS} links plain 100", 0, "links cover\n"),
    (f"search {LETTERS} sets plain 100", 0, "sets cover\n"),
    (f"search {LETTERS} suited kept 1", 0, "sets spent\n"),
    (f"search {LETTERS} links plain 0", 0, "links spent\n"),
    (f"search {LETTERS} trees plain 100", 0, "there is no such kind\n"),
    ("states", 2, USAGE),
    ("states 1", 2, USAGE),
    ("act cycle 3", 0, ""),
    ("copy share-8 3", 0, ""),
    ("greet 0 3", 0, ""),
    ("greet 2 3", 0, ""),
    ("act nothing 3", 2, "Unexpected\n" + USAGE),
    ("sing", 2, "Unexpected\n" + USAGE),
    ("tell", 2, USAGE),
    (f"measure {LETTERS} 17 1 1 0 9", 2, USAGE),
    ("tally", 2, USAGE),
    (f"tally {LETTERS} 0 1 1 1 9", 2, USAGE),
    ("audits", 2, USAGE),
    (f"audits {LETTERS} 1 1 1 1 9 all", 2, USAGE),
    (f"audits {LETTERS} 1 1 1 1 99999 nothing", 0, ""),
]


def main() -> int:
    parser = parser_of(__doc__)
    parser.add_argument("--program", type=path_of, default=WORKBENCH, help="the program, in place of the built one")
    program = parser.parse_args().program
    want_program(program, "workbench")
    failed = 0
    for words, status, text in ROWS:
        ran = subprocess.run([program, *words.split()], cwd=TOP, capture_output=True, text=True, timeout=60)
        if (ran.returncode, ran.stdout) != (status, text):
            failed += 1
            print(f"workbench {words}: status {ran.returncode}\n{ran.stdout}{ran.stderr}")
    print(f"{len(ROWS) - failed} passed, {failed} failed")
    return 1 if failed else 0


if __name__ == "__main__":
    sys.exit(main())
