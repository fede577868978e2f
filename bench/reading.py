#!/usr/bin/env python3
"""Times how files of the most items, options and nodes are read, with names of three kinds.

    python3 bench/reading.py [--times N]

Each file has 1,000 items and 20,000 options of ten items each. Its names are random and of seven bytes, random and of
32 bytes, or of 32 bytes of which the first 30 are the same, the worst for a comparison byte by byte. The program is
`alone` with `--fuel 1`, by turns over the files; the least processor time of the whole process counts, user and system.
The ratio is to the time of random names of the same length.

It wants the program: (cd crates/solve_cli && rt run -- --version) builds it. The exit status is 0, 1 where a run ends
otherwise than without an answer, 2 for a mistake on the command line or where there is no program.
"""
from __future__ import annotations

import os
import random
import string
import sys
import tempfile

HERE = os.path.dirname(os.path.abspath(__file__))
sys.path.insert(0, os.path.join(HERE, "..", "trials"))
from built import number_from_one, parser_of, SOLVE_CLI, want_program  # noqa: E402
from measured import Ran, run  # noqa: E402
from problems import write  # noqa: E402

ITEMS, OPTIONS, EACH = 1000, 20000, 10
LETTERS = string.ascii_lowercase + string.digits


def random_names(draw: random.Random, length: int) -> list[str]:
    """Different names of so many random bytes."""
    names: set[str] = set()
    while len(names) < ITEMS:
        names.add("".join(draw.choice(LETTERS) for _ in range(length)))
    return draw.sample(sorted(names), ITEMS)


def common_names(draw: random.Random, length: int) -> list[str]:
    """Names of so many bytes, of which all but two are the same."""
    ends = [a + b for a in LETTERS for b in LETTERS]
    return ["n" * (length - 2) + end for end in draw.sample(ends, ITEMS)]


def write_drawn(path: str, names: list[str], draw: random.Random) -> None:
    """The greatest file in range with these names."""
    write(path, names, [draw.sample(names, EACH) for _ in range(OPTIONS)], [])


def main() -> int:
    parser = parser_of(__doc__)
    parser.add_argument("--times", metavar="N", type=number_from_one, default=9, help="how often each file is read (default 9)")
    times = parser.parse_args().times
    want_program(SOLVE_CLI)
    draw = random.Random(1)
    kinds = {"random, 7 bytes": random_names(draw, 7), "random, 32 bytes": random_names(draw, 32),
             "30 of 32 bytes the same": common_names(draw, 32)}
    with tempfile.TemporaryDirectory() as folder:
        files: dict[str, str] = {}
        for kind, names in kinds.items():
            files[kind] = os.path.join(folder, f"{len(files)}.dlx")
            write_drawn(files[kind], names, draw)
        runs: dict[str, list[Ran]] = {kind: [] for kind in files}
        for _ in range(times):
            for kind, file in files.items():
                runs[kind].append(run([SOLVE_CLI, "alone", file, "--fuel", "1"]))
        if any(ran.status != 4 for kind in runs for ran in runs[kind]):
            print("a run did not end without an answer")
            return 1
        least = {kind: min(ran.processor for ran in runs[kind]) for kind in runs}
        print("| Names | Size, MB | Seconds | Ratio |\n|---|---|---|---|")
        for kind, seconds in least.items():
            beside = f"{seconds / least['random, 32 bytes']:.2f}" if "32" in kind else "-"
            print(f"| {kind} | {os.path.getsize(files[kind]) / 1e6:.1f} | {seconds:.3f} | {beside} |")
    return 0


if __name__ == "__main__":
    sys.exit(main())
