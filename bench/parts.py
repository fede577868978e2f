#!/usr/bin/env python3
"""Times searches that are taken apart, searched by GNU parallel, killed half way and resumed, beside `alone` and
`solve`.

    python3 bench/parts.py [--parts N] [--jobs N] [--beside] [NAME ..]

Each instance is split into at least N parts (default 200). GNU parallel searches so many at a time (default 4), each by
`alone`, and is killed with all that it runs once half of the parts have an answer; then the same command goes on. The
table has the seconds of both runs, those of all parts one by one and of the greatest one, and whether the joined answer
is right. With --beside, `alone` and `solve --nodes 1` with so many workers are timed too.

`fives` has options of five of its 62 items, drawn at random, and no cover, since five doesn't divide 62. `late` has one
item more, with two options: behind the first of them lies all of `fives`, and the other one, which takes two of the
items too, leads to a cover. `short` and `short-late` are these of 52 items: `fives` takes more than 40 minutes by one
thread, `short` some twenty.

It wants GNU parallel, and the program: (cd crates/solve_cli && rt run -- --version) builds it. The exit status is 0, 1
where an answer is wrong, 2 for a mistake on the command line or where something is missing.
"""
from __future__ import annotations

import argparse
import contextlib
import glob
import os
import random
import shlex
import signal
import subprocess
import sys
import tempfile
import time

HERE = os.path.dirname(os.path.abspath(__file__))
sys.path.insert(0, os.path.join(HERE, "..", "trials"))
from built import SOLVE_CLI, TOP, is_right, number_from_one, parser_of, stop, want_command, want_program  # noqa: E402
from measured import run  # noqa: E402
from problems import write  # noqa: E402

# items and options; and whether there is a cover, behind a search without one
INSTANCES = {"short": (52, 1500, False), "short-late": (52, 1500, True), "fives": (62, 1500, False), "late": (62, 1500, True)}
OUTCOMES = {"short": 1, "short-late": 0, "fives": 1, "late": 0}


def write_drawn(path: str, items: int, count: int, with_cover: bool) -> None:
    """Writes a problem of random options of five items."""
    draw = random.Random(1)
    names = [f"i{k}" for k in range(items)]
    options = [draw.sample(names, 5) for _ in range(count)]
    if with_cover:
        names, options = [*names, "door"], [["door"], *options, ["door", *names[-2:]]]
    write(path, names, [sorted(option, key=names.index) for option in options], [])


def answers(folder: str) -> int:
    """How many parts have an answer."""
    return len(glob.glob(os.path.join(folder, "*.answer")))


def kill_session(leader: int) -> None:
    """Kills all processes of a session: GNU parallel gives each job a process group of its own."""
    for path in glob.glob("/proc/[0-9]*/stat"):
        with contextlib.suppress(FileNotFoundError, ProcessLookupError), open(path, encoding="utf-8", errors="replace") as file:
            fields = file.read().rpartition(")")[2].split()
            if int(fields[3]) == leader:
                os.kill(int(path.split("/")[2]), signal.SIGKILL)


def killed_after(words: list[str], folder: str, count: int) -> float:
    """Runs a command until so many parts have an answer, kills it with all that it runs, and answers how many seconds
    that took."""
    begun = time.monotonic()
    with subprocess.Popen(words, stderr=subprocess.DEVNULL, start_new_session=True) as run:
        while answers(folder) < count and run.poll() is None:
            time.sleep(0.1)
        kill_session(run.pid)
    return time.monotonic() - begun


def logged(folder: str) -> list[float]:
    """The seconds of each part, as the log of GNU parallel has them."""
    with open(os.path.join(folder, "log"), encoding="utf-8") as file:
        rows = [line.split("\t") for line in file]
    return [float(row[3]) for row in rows if row[0] != "Seq"]


def script(name: str, *words: str) -> list[str]:
    return [sys.executable, os.path.join(TOP, "scripts", "zarfepoch"), name, *words]


def is_joined_right(name: str, folder: str) -> bool:
    """Whether the joined answer is of the kind that it has to be, and a cover right."""
    said = subprocess.run(script("join", folder), capture_output=True, text=True)
    if said.returncode == 0:
        return OUTCOMES[name] == 0 and is_right(os.path.join(folder, "whole.dlx"), said.stdout)
    return said.returncode == OUTCOMES[name]


def row(name: str, given: argparse.Namespace, top: str) -> bool:
    """Times an instance, prints its row, and answers whether its answer is right."""
    file, folder = os.path.join(top, f"{name}.dlx"), os.path.join(top, name)
    write_drawn(file, *INSTANCES[name])
    split = run(script("split", file, "--parts", str(given.parts), "--into", folder))
    parts = len(glob.glob(os.path.join(folder, "part-*.dlx")))
    run_part = os.path.join(TOP, "scripts", "run_part.sh")
    # (parallel hands its command to a shell once more)
    line = (f'"$@" --left | parallel --will-cite --jobs {given.jobs} --joblog {shlex.quote(f"+{folder}/log")} --halt now,success=1 '
            f'{shlex.quote(shlex.quote(run_part))} {{}} alone')
    words = ["sh", "-c", line, "sh", *script("join", folder)]
    first = killed_after(words, folder, parts // 2)
    done = answers(folder)
    second = run(words)
    right, times = is_joined_right(name, folder), logged(folder)
    cells = [name, f"{split.wall:.1f}", parts, f"{first:.0f}, {done}", f"{second.wall:.0f}", f"{first + second.wall:.0f}",
             f"{sum(times):.0f}", f"{max(times):.0f}", "right" if right else "WRONG"]
    if given.beside:
        alone, solve = run([SOLVE_CLI, "alone", file]), run([SOLVE_CLI, "solve", file, "--nodes", "1", "--workers", str(given.jobs)])
        right = right and alone.status == solve.status == OUTCOMES[name]
        cells += [f"{alone.wall:.0f}", f"{solve.wall:.0f}"]
    print(f"| {' | '.join(map(str, cells))} |", flush=True)
    return right


def main() -> int:
    words = parser_of(__doc__)
    words.add_argument("--parts", metavar="N", type=number_from_one, default=200, help="at least so many parts (default 200)")
    words.add_argument("--jobs", metavar="N", type=number_from_one, default=4, help="how many are searched at a time (default 4)")
    words.add_argument("--beside", action="store_true", help="times alone and solve too")
    words.add_argument("names", metavar="NAME", nargs="*", help=f"of {', '.join(INSTANCES)} (default: fives and late)")
    given = words.parse_args()
    for name in given.names:
        if name not in INSTANCES:
            stop(f"there is no instance {name}")
    want_program(SOLVE_CLI)
    want_command("parallel")
    os.environ["ZARFEPOCH"] = SOLVE_CLI
    head = ["Instance", "Split, s", "Parts", "Killed after s, with answers", "Resumed, s", "Together, s", "All parts, s", "Greatest part, s", "Answer"]
    head += ["`alone`, s", "`solve`, s"] if given.beside else []
    print(f"| {' | '.join(head)} |\n|{'---|' * len(head)}", flush=True)
    with tempfile.TemporaryDirectory() as top:
        good = [row(name, given, top) for name in given.names or ["fives", "late"]]
    return 0 if all(good) else 1


if __name__ == "__main__":
    sys.exit(main())
