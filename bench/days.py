#!/usr/bin/env python3
"""Measures how long `solve` may search, from the first minutes of a long search.

    python3 bench/days.py [--seconds N] [--pairs N] [NODESxWORKERS ..]

Langford pairs of so many numbers (default 17, which have no pairing, and take longer than anybody waits) are searched
for so many seconds (default
600) by each number of nodes and workers (default 4x2, 16x8 and 4x1). Of each run a row has, at its end: the datagrams a second that the machine
received by UDP in the second half; how often a second a thread of the run was woken in it (its voluntary changes of
context); how many entries the fullest book has, and how many it got in each hour of the second half; how much memory
the run has, and how much more of it in each hour of that half; and, by these, how many hours it takes until a book of
the default, a million entries, is full. The entries come from the lines of progress, which have them in percents of the
book. So the runs have books of 200,000 entries, and these figures steps of two thousand.

Nothing else should use UDP meanwhile. It wants the program: (cd crates/solve_cli && rt run -- --version) builds it. The
exit status is 0, or 2 for a mistake on the command line or where there is no program.
"""
from __future__ import annotations

import glob
import os
import re
import subprocess
import sys
import tempfile
import time
from typing import NamedTuple

HERE = os.path.dirname(os.path.abspath(__file__))
sys.path.insert(0, os.path.join(HERE, "..", "trials"))
from built import SOLVE_CLI, number_from_one, parser_of, stop, want_program  # noqa: E402
from problems import write  # noqa: E402
from zarfepoch.puzzles import by_number  # noqa: E402

# the entries of a book of the default, and of the books of these runs
DEFAULT, ENTRIES = 1_000_000, 200_000
FULLEST = re.compile(r"fullest book (\d+) %")
WAKINGS = re.compile(r"^voluntary_ctxt_switches:\s+(\d+)", re.MULTILINE)
HEAD = ["Nodes x workers", "Datagrams, 1/s", "Wakings, 1/s", "Entries", "Entries, 1/h", "Memory, MB", "Memory, MB/h", "Hours until the book is full"]


class Look(NamedTuple):
    """What a look at a run finds: seconds since its start, datagrams, wakings, entries and megabytes."""
    seconds: float
    datagrams: int
    wakings: int
    entries: int
    memory: float


def datagrams() -> int:
    """How many datagrams the machine has received by UDP."""
    with open("/proc/net/snmp", encoding="ascii") as file:
        names, counts = [line.split() for line in file if line.startswith("Udp:")]
    return int(counts[names.index("InDatagrams")])


def wakings(process: int) -> int:
    """How often the threads of a process have been woken."""
    total = 0
    for path in glob.glob(f"/proc/{process}/task/*/status"):
        with open(path, encoding="ascii", errors="replace") as file:
            total += sum(int(count) for count in WAKINGS.findall(file.read()))
    return total


def memory(process: int) -> float:
    """How many megabytes of memory a process has."""
    with open(f"/proc/{process}/status", encoding="ascii") as file:
        kilobytes = next((line.split()[1] for line in file if line.startswith("VmRSS:")), "")
    if not kilobytes:
        stop("the search ended before its time: more --pairs take longer")
    return int(kilobytes) / 1024


def look(process: int, begun: float, lines: str) -> Look:
    """Looks at a run, whose lines of progress are in this file."""
    with open(lines, encoding="ascii", errors="replace") as file:
        found = FULLEST.findall(file.read())
    entries = int(found[-1]) * ENTRIES // 100 if found else 0
    return Look(time.monotonic() - begun, datagrams(), wakings(process), entries, memory(process))


def looks(file: str, sites: tuple[int, int], seconds: int, folder: str) -> tuple[Look, Look]:
    """Runs a search for some time, and looks at it when half of that is over, and near its end."""
    nodes, workers = sites
    words = [SOLVE_CLI, "solve", file, "--nodes", str(nodes), "--workers", str(workers), "--entries", str(ENTRIES)]
    words += ["--megabytes", "1000000", "--turns", "10000000", "--progress"]
    lines = os.path.join(folder, "lines")
    begun = time.monotonic()
    with open(lines, "w", encoding="ascii") as out, subprocess.Popen(words, stdout=subprocess.DEVNULL, stderr=out) as run:
        time.sleep(seconds / 2)
        middle = look(run.pid, begun, lines)
        time.sleep(seconds / 2)
        end = look(run.pid, begun, lines)
        run.kill()
    return middle, end


def row(sites: tuple[int, int], middle: Look, end: Look) -> str:
    """The row of a run."""
    seconds = end.seconds - middle.seconds
    entries, megabytes = ((after - before) * 3_600 / seconds for before, after in ((middle.entries, end.entries), (middle.memory, end.memory)))
    hours = f"{(DEFAULT - end.entries) / entries:.0f}" if entries else "-"
    rates = [(after - before) / seconds for before, after in ((middle.datagrams, end.datagrams), (middle.wakings, end.wakings))]
    sizes = [end.entries, entries, end.memory, megabytes]
    cells = [f"{sites[0]} x {sites[1]}", *(f"{number:,.0f}" for number in [*rates, *sizes]), hours]
    return f"| {' | '.join(cells)} |"


def sites_of(text: str) -> tuple[int, int]:
    """Nodes and workers, as `4x2` has them."""
    found = re.fullmatch(r"(\d+)x(\d+)", text)
    if not found:
        stop(f"{text} is no number of nodes and workers, as 4x2")
    return int(found[1]), int(found[2])


def main() -> None:
    words = parser_of(__doc__)
    words.add_argument("--seconds", metavar="N", type=number_from_one, default=600, help="how long each run lasts (default 600)")
    words.add_argument("--pairs", metavar="N", type=number_from_one, default=17, help="how many numbers (default 17)")
    words.add_argument("sites", metavar="NODESxWORKERS", nargs="*", help="as 4x2 (default: 4x2 16x8 4x1)")
    given = words.parse_args()
    chosen = [sites_of(text) for text in given.sites or ["4x2", "16x8", "4x1"]]
    want_program(SOLVE_CLI)
    print(f"| {' | '.join(HEAD)} |\n|{'---|' * len(HEAD)}", flush=True)
    with tempfile.TemporaryDirectory() as folder:
        file = os.path.join(folder, "langford.dlx")
        items, _, options = by_number.langford(given.pairs)
        write(file, items, options)
        for sites in chosen:
            print(row(sites, *looks(file, sites, given.seconds, folder)), flush=True)


if __name__ == "__main__":
    main()
