#!/usr/bin/env python3
"""Times the end of runs of `solve`: from the first packet Over that a site sends, which says that the answer is
published, to the end of the process.

    python3 bench/ends.py [--times N] [--file FILE] [NODESxWORKERS ..]

FILE (default examples/pentominoes-6x10.dlx) is solved N times (default 30) by so many nodes and workers (default 1x4
4x2 16x8). A row has the least, the median and the greatest milliseconds of these ends, and the median of whole runs.
`first_over.c`, which is built here and loaded before the C library, notes when the packet is sent.

It wants cc and the program: (cd crates/solve_cli && rt run -- --version) builds it. The exit status is 0, 1 where a run
had no answer, 2 for a mistake on the command line or where something is missing.
"""
from __future__ import annotations

import argparse
import os
import re
import statistics
import subprocess
import sys
import tempfile
import time

HERE = os.path.dirname(os.path.abspath(__file__))
sys.path.insert(0, os.path.join(HERE, "..", "trials"))
from built import number_from_one, parser_of, path_of, SOLVE_CLI, TOP, want_command, want_program  # noqa: E402

MILLISECOND = 1_000_000
SITES = ["1x4", "4x2", "16x8"]


def sites(text: str) -> str:
    """Nodes and workers on the command line."""
    if not re.fullmatch(r"[1-9]\d?x[1-9]", text):
        raise argparse.ArgumentTypeError(f"'{text}' isn't NODESxWORKERS, as 4x2")
    return text


def timed(words: list[str], library: str, file: str) -> tuple[float, float]:
    """The milliseconds of a run's end, and of the whole run."""
    began = time.monotonic_ns()
    ran = subprocess.run(words, stdout=subprocess.DEVNULL, stderr=subprocess.DEVNULL, env={**os.environ, "LD_PRELOAD": library, "OVER_FILE": file})
    ended = time.monotonic_ns()
    if ran.returncode not in (0, 1):
        sys.exit(f"no answer: {' '.join(words)}")
    with open(file) as noted:
        over = int(noted.read())
    return (ended - over) / MILLISECOND, (ended - began) / MILLISECOND


def main() -> None:
    words = parser_of(__doc__)
    words.add_argument("--times", metavar="N", type=number_from_one, default=30, help="how often each is run (default 30)")
    words.add_argument("--file", metavar="FILE", type=path_of, default=os.path.join(TOP, "examples", "pentominoes-6x10.dlx"), help="the problem")
    words.add_argument("sites", metavar="NODESxWORKERS", type=sites, nargs="*", help="nodes and workers")
    given = words.parse_args()
    want_command("cc")
    want_program(SOLVE_CLI)
    with tempfile.TemporaryDirectory() as folder:
        library, file = os.path.join(folder, "first_over.so"), os.path.join(folder, "over")
        subprocess.run(["cc", "-O2", "-shared", "-fPIC", "-o", library, os.path.join(HERE, "first_over.c")], check=True)
        print("| Nodes x workers | Least end, ms | Median | Greatest | Whole run, median |\n|---|---|---|---|---|")
        for shape in given.sites or SITES:
            nodes, workers = shape.split("x")
            runs = [timed([SOLVE_CLI, "solve", given.file, "--nodes", nodes, "--workers", workers], library, file) for _ in range(given.times)]
            ends, wholes = zip(*runs)
            print(f"| {nodes} x {workers} | {min(ends):.2f} | {statistics.median(ends):.2f} | {max(ends):.2f} | {statistics.median(wholes):.1f} |", flush=True)


if __name__ == "__main__":
    main()
