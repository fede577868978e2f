#!/usr/bin/env python3
"""Times the program beside the baseline, a small C program of the same search, and beside SageMath's header.

    python3 bench/run.py [--times N] [--sage FOLDER] [FILE ..]

Each file, or where none is named each instance of the benchmark, is searched by all of them, by turns; the least
processor time of the whole process counts, user and system, reading included. It prints a table, in which the ratio is
to the better one of the two others, where that takes more than a hundredth of a second, and the geometric mean of the
ratios, over all and over those with more than 100,000 visits.

SageMath is not timed on files with colours, which it doesn't know. FOLDER is where its file dancing_links_c.h lies;
without it that of Debian's package python3-sage is used, if it is installed, and else SageMath isn't timed. To have the
file alone, `apt-get download python3-sage` and then `dpkg-deb -x python3-sage_*.deb HERE` put it into
HERE/usr/lib/python3/dist-packages/sage/combinat/matrices.

It wants gcc, with SageMath g++ too, and the program: (cd crates/solve_cli && rt run -- --version) builds it. The exit
status is 0, 1 where two come to other outcomes, 2 for a mistake on the command line or where something is missing.
"""
from __future__ import annotations

import argparse
import glob
import math
import os
import subprocess
import sys
import tempfile

HERE = os.path.dirname(os.path.abspath(__file__))
sys.path.insert(0, os.path.join(HERE, "..", "trials"))
from built import number_from_one, parser_of, SOLVE_CLI, stop, want_command, want_program  # noqa: E402
from measured import run  # noqa: E402

# less time than this counts as this, in seconds
LEAST = 0.0005
HEADER = "dancing_links_c.h"
INSTALLED = "/usr/lib/python3/dist-packages/sage/combinat/matrices"


def compare(programs: list[list[str]], file: str, times: int) -> tuple[str, int, list[float]]:
    """The outcome, the visits, and the least time of each program, ours first and the baseline next."""
    best = [math.inf] * len(programs)
    for _ in range(times):
        told = []
        for place, words in enumerate(programs):
            ran = run([*words, file])
            told.append(ran.text)
            best[place] = min(best[place], ran.processor)
    outcome, visits, _ = told[1].split()
    if not all(text.startswith(outcome) for text in told):
        sys.exit(f"{file}: the outcomes differ")
    return outcome, int(visits), best


def has_colours(file: str) -> bool:
    """Whether an option gives an item a colour, which SageMath's header doesn't know."""
    with open(file, "rb") as opened:
        return any(b":" in line for line in opened if not line.lstrip().startswith(b"|"))


def build(folder: str, sage: str) -> list[list[str]]:
    """Builds what the program is compared with, and answers how each is run."""
    baseline = os.path.join(folder, "baseline")
    subprocess.run(["gcc", "-O3", "-march=native", "-o", baseline, os.path.join(HERE, "baseline.c")], check=True)
    if not os.path.isfile(os.path.join(sage, HEADER)):
        return [[baseline]]
    search = os.path.join(folder, "sage")
    subprocess.run(["g++", "-O3", "-march=native", "-I", sage, "-o", search, os.path.join(HERE, "sage.cpp")], check=True)
    return [[baseline], [search]]


def given_words() -> argparse.Namespace:
    words = parser_of(__doc__)
    words.add_argument("files", nargs="*", metavar="FILE", help="problem files, which the program reads")
    words.add_argument("--times", type=number_from_one, default=3, metavar="N", help="how often each is run (default 3)")
    words.add_argument("--sage", metavar="FOLDER", help="the folder of SageMath's dancing_links_c.h")
    given = words.parse_args()
    want_program(SOLVE_CLI)
    want_command("gcc")
    if given.sage and not os.path.isfile(os.path.join(given.sage, HEADER)):
        stop(f"there is no {HEADER} in {given.sage}")
    if os.path.isfile(os.path.join(given.sage or INSTALLED, HEADER)):
        want_command("g++")
    for file in given.files:
        if not os.path.isfile(file):
            stop(f"there is no file {file}")
    return given


def main() -> None:
    given = given_words()
    with tempfile.TemporaryDirectory() as folder:
        others = build(folder, given.sage or INSTALLED)
        subprocess.run([sys.executable, os.path.join(HERE, "instances.py"), folder], check=True)
        ratios = []
        print("| Instance | Outcome | Visits | Baseline, s | SageMath, s | Ours, s | Ratio |")
        print("|---|---|---|---|---|---|---|")
        for file in given.files or sorted(glob.glob(os.path.join(folder, "*.dlx"))):
            peers = others[:1] if has_colours(file) else others
            outcome, visits, (ours, baseline, *sage) = compare([[SOLVE_CLI, "alone"], *peers], file, given.times)
            name = os.path.basename(file).removesuffix(".dlx")
            theirs = min(baseline, *sage) if sage else baseline
            ratio = max(ours, LEAST) / theirs if theirs > 0.01 else None
            if ratio:
                ratios.append((visits > 100000, ratio))
            cells = [name, outcome, f"{visits:,}", f"{baseline:.3f}", f"{sage[0]:.3f}" if sage else "-", f"{ours:.3f}"]
            print(f"| {' | '.join(cells)} | {f'{ratio:.2f}' if ratio else '-'} |", flush=True)
        for told, some in (("", [ratio for _, ratio in ratios]), (" of more than 100,000 visits", [ratio for many, ratio in ratios if many])):
            if some:
                print(f"\nGeometric mean over {len(some)} instances{told}: {math.exp(sum(map(math.log, some)) / len(some)):.3f}")


if __name__ == "__main__":
    main()
