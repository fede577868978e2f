#!/usr/bin/env python3
"""Tells what the books of a run hold.

    python3 bench/books.py [NAME ..]
    python3 bench/books.py --long

Sites with threads search each instance that is named, or four of them, over links in memory. The table says how long
the run took, how many processors it used on average from its start to its end, the visits that were made by searches
which were spent (those are made again) as a part of the visits that a plain search makes, how many searches were
posted, the entries of the fullest book, how many names a node used at most, and how many turns a thread took that took
the most.

`--long` lets one node of four workers search Langford pairs of 13 behind choices that make the work 960 times as much,
which takes some fifteen minutes on four processors, and prints a line each minute: how many processors were used in it.

It wants gcc, and the program: (cd crates/workbench && rt run) builds it. The exit status is 0, or 2 for a mistake on
the command line or where one of these is missing.
"""
from __future__ import annotations

import math
import os
import subprocess
import sys
import tempfile
import time

HERE = os.path.dirname(os.path.abspath(__file__))
sys.path.insert(0, os.path.join(HERE, "..", "trials"))
from built import parser_of, stop, want_command, want_program, WORKBENCH  # noqa: E402
from measured import spent  # noqa: E402
from solve import behind  # noqa: E402

NAMES = ["langford-13", "skewed", "torus-queens-15", "torus-queens-16"]
# seconds, those of processors, whether an answer was published, and what each site and each book says
Ran = tuple[float, float, bool, list[tuple[int, ...]], list[tuple[int, ...]]]
# nodes, workers
SITES = [(1, 1), (1, 4), (4, 1)]


def visits_of(baseline: str, file: str) -> int:
    """How many visits a plain search makes."""
    return int(subprocess.run([baseline, file], capture_output=True, text=True, check=True).stdout.split()[1])


def used(process: subprocess.Popen[str]) -> float:
    """The seconds of processors that a process has used."""
    with open(f"/proc/{process.pid}/stat") as file:
        fields = file.read().rsplit(")", 1)[1].split()
    return (int(fields[11]) + int(fields[12])) / os.sysconf("SC_CLK_TCK")


def watch(process: subprocess.Popen[str]) -> None:
    """Tells each minute how many processors a process used in it, until it ends."""
    before, minute = 0.0, 0
    while True:
        try:
            process.wait(timeout=60)
            return
        except subprocess.TimeoutExpired:
            now, minute = used(process), minute + 1
            print(f"minute {minute}: {(now - before) / 60:.2f} processors", flush=True)
            before = now


def run(file: str, nodes: int, workers: int, is_watched: bool = False) -> Ran:
    """The seconds of a run, those of processors, whether an answer was published, what each site tells of its end
    (losses, turns), and the entries, searches, lost visits and names of each book."""
    start, before = time.monotonic(), spent()
    words = [WORKBENCH, "tally", file, str(nodes), str(workers), "1", "1000", "1000000"]
    with subprocess.Popen(words, stdout=subprocess.PIPE, text=True) as process:
        if is_watched:
            watch(process)
        lines = process.communicate()[0].splitlines()
    seconds, processors = time.monotonic() - start, spent() - before
    sites = [tuple(map(int, line.split()[1:])) for line in lines[1:2 + nodes]]
    books = [tuple(map(int, line.split())) for line in lines[2 + nodes:]]
    return seconds, processors, lines[0] == "true", sites, books


def tell(name: str, visits: int, nodes: int, workers: int, ran: Ran) -> None:
    """Prints the row of a run."""
    seconds, processors, answered, sites, books = ran
    lost = sum(book[2] for book in books) / visits
    searches, entries, names = sum(book[1] for book in books), max(book[0] for book in books), max(book[3] for book in books)
    turns = max(site[1] for site in sites)
    print(f"| {name} | {nodes} x {workers} | {seconds:.2f} | {processors / seconds:.2f} | {'yes' if answered else 'no'} "
          f"| {lost:.1%} | {searches:,} | {entries:,} | {names:,} | {turns:,} |", flush=True)


def main() -> None:
    words = parser_of(__doc__)
    words.add_argument("--long", action="store_true", help="one run of some fifteen minutes in place of the short ones")
    words.add_argument("names", nargs="*", metavar="NAME", help="instances, as those that are written by bench/instances.py")
    given = words.parse_args()
    want_program(WORKBENCH, "workbench")
    want_command("gcc")
    with tempfile.TemporaryDirectory() as folder:
        baseline = os.path.join(folder, "baseline")
        subprocess.run(["gcc", "-O3", "-o", baseline, os.path.join(HERE, "baseline.c")], check=True)
        subprocess.run([sys.executable, os.path.join(HERE, "instances.py"), folder], check=True)
        behind(folder, "skewed", [], True)
        print("| Instance | Nodes x workers | Seconds | Processors | Answer | Visits made twice | Searches | Fullest book "
              "| Most names | Most turns |")
        print("|---|---|---|---|---|---|---|---|---|---|")
        if given.long:
            counts = [2] * 6 + [3, 5]
            behind(folder, "long", counts)
            visits = math.prod(counts) * visits_of(baseline, os.path.join(folder, "langford-13.dlx"))
            tell("long", visits, 1, 4, run(os.path.join(folder, "long.dlx"), 1, 4, is_watched=True))
            return
        for name in given.names or NAMES:
            file = os.path.join(folder, name + ".dlx")
            if not os.path.exists(file):
                stop(f"there is no instance {name}")
            visits = visits_of(baseline, file)
            for nodes, workers in SITES:
                tell(name, visits, nodes, workers, run(file, nodes, workers))


if __name__ == "__main__":
    main()
