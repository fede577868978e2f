#!/usr/bin/env python3
"""Times a site's cell under load.

    python3 bench/cells.py

A cell is a core with its history under one lock. One, two, four and eight threads greet at one cell, a million times
together; beside it one thread lets a core without a lock and history do the same. Each is run three times, by turns;
the least time that passed counts. The figures mean something where nothing else runs.

It wants the program: (cd crates/workbench && rt run) builds it. The exit status is 0, or 2 for a mistake on the command
line or where there is no program.
"""
from __future__ import annotations

import os
import subprocess
import sys
import time

HERE = os.path.dirname(os.path.abspath(__file__))
sys.path.insert(0, os.path.join(HERE, "..", "trials"))
from built import parser_of, want_program, WORKBENCH  # noqa: E402

GREETINGS = 1_000_000
THREADS = [0, 1, 2, 4, 8]


def seconds(threads: int) -> float:
    start = time.monotonic()
    subprocess.run([WORKBENCH, "greet", str(threads), str(GREETINGS // max(threads, 1))], check=True)
    return time.monotonic() - start


def main() -> None:
    parser_of(__doc__).parse_args()
    want_program(WORKBENCH, "workbench")
    runs = [[seconds(threads) for threads in THREADS] for _ in range(3)]
    print("| Threads | Seconds | Acts a second |")
    print("|---|---|---|")
    for k, threads in enumerate(THREADS):
        least = min(run[k] for run in runs)
        print(f"| {threads or 'a core without a lock'} | {least:.2f} | {GREETINGS / least:,.0f} |")


if __name__ == "__main__":
    main()
