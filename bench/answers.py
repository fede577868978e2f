#!/usr/bin/env python3
"""Times `answer` beside the best of the commands that go one way alone.

    python3 bench/answers.py [--seconds N] [--times N] [--processors N] [--peers] [FILE ..]

The files are those of instances.py, two of each kind of learning.py, and any that are named. On each the least wall
time of N runs (default 3) is taken of `answer`, `alone`, `alone --unlimited`, `learn` and
`solve --nodes 1 --workers 4`, each for N seconds at most (default 10). Each file has a row, with a dash where a command
had no answer in time; the last column says how many times as long as the best of the others `answer` took. The line
below the table has the geometric mean of these, over the files on which the best took more than a tenth of a second,
and the greatest; and by how many milliseconds `answer` was slower than `alone` on the others that it decides in a tenth
of a second, in the mean and at most. A cover and a `none` for one file are a mistake. All run on so many processors, as
far as there are so many, where a number is given: on one the lanes of `answer` take turns.

With --peers `answer` is beside other programs in place of our own commands, all by wall time: clasp behind gringo with
one thread and with four, CaDiCaL, HiGHS, which reads no colours, and Gecode, if its library is there (Debian's
libgecode-dev), by the model of gecode.cpp. The line below the table says how many files each answered, and on how many
it was first.

It wants the program: (cd crates/solve_cli && rt run -- --version) builds it; --peers wants gringo, clasp, cadical and
SciPy, and g++ for Gecode. The exit status is 0, 1 where two answers differ, 2 for a mistake on the command line or
where there is no program.
"""
from __future__ import annotations

import os
import random
import statistics
import subprocess
import sys
import tempfile
import time
from collections.abc import Callable, Iterator
from functools import partial
from typing import Optional

import finding
import learning
from encodings_of_peers import formula_of, program_of
from implied import highs

HERE = os.path.dirname(os.path.abspath(__file__))
sys.path.insert(0, os.path.join(HERE, "..", "trials"))
from built import SOLVE_CLI, number_from_one, parser_of, path_of, want_program  # noqa: E402

WAYS = [["answer"], ["alone"], ["alone", "--unlimited"], ["learn"], ["solve", "--nodes", "1", "--workers", "4"]]
# a best time above this is a long search, in seconds
LONG = 0.1
KINDS = [learning.days, learning.days_drawn, learning.school, finding.quasigroup, learning.jigsaw, learning.langford, learning.board]


def asked(way: list[str], file: str, seconds: int) -> tuple[Optional[bool], float]:
    """Whether a command found a cover, None where it had no answer; and its wall time."""
    began = time.perf_counter()
    ran = subprocess.run([SOLVE_CLI, way[0], file, *way[1:], "--seconds", str(seconds)], capture_output=True)
    return {0: True, 1: False}.get(ran.returncode), time.perf_counter() - began


def best(way: list[str], file: str, seconds: int, times: int) -> tuple[Optional[bool], float]:
    """The answer of some runs, and the least time of those that had one. A run without an answer isn't tried again."""
    answer, least = asked(way, file, seconds)
    for _ in range(times - 1):
        if answer is None:
            break
        least = min(least, asked(way, file, seconds)[1])
    return answer, least


def files_of(folder: str, named: list[str]) -> Iterator[str]:
    """All files, those that are drawn in this folder."""
    subprocess.run([sys.executable, os.path.join(HERE, "instances.py"), folder], check=True)
    yield from (os.path.join(folder, name) for name in sorted(os.listdir(folder)))
    for make in KINDS:
        for seed in (1, 2):
            path = os.path.join(folder, f"{make.__name__}-{seed}.dlx")
            make(path, random.Random(seed))
            yield path
    yield from named


def row(file: str, seconds: int, times: int) -> tuple[list[tuple[Optional[bool], float]], bool]:
    """The times of a file, and whether its answers agree."""
    told = [best(way, file, seconds, times) for way in WAYS]
    cells = ["-" if answer is None else f"{took:.3f}" for answer, took in told]
    others = [took for answer, took in told[1:] if answer is not None]
    ratio = f"{told[0][1] / min(others):.2f}" if others and told[0][0] is not None else "-"
    found = {answer for answer, _ in told if answer is not None}
    word = "DIFFER" if len(found) > 1 else "cover" if True in found else "none" if found else "-"
    print(f"| {os.path.basename(file).removesuffix('.dlx')} | {word} | {' | '.join(cells)} | {ratio} |", flush=True)
    return told, len(found) < 2


def by_clasp(file: str, seconds: int, threads: str) -> Optional[bool]:
    """Whether clasp finds a cover, by so many threads; gringo grounds for it."""
    program = "\n".join(program_of(file)).encode("ascii")
    try:
        ground = subprocess.run(["gringo", "-"], input=program, capture_output=True, timeout=seconds).stdout
        return said(subprocess.run(["clasp", "-q2,2", "-t", threads], input=ground, capture_output=True, timeout=seconds).stdout)
    except subprocess.TimeoutExpired:
        return None


def by_cadical(file: str, seconds: int) -> Optional[bool]:
    """Whether CaDiCaL finds a cover."""
    formula = "\n".join(formula_of(file)).encode("ascii")
    try:
        return said(subprocess.run(["cadical", "-q", "-n"], input=formula, capture_output=True, timeout=seconds).stdout)
    except subprocess.TimeoutExpired:
        return None


def by_highs(file: str, seconds: int) -> Optional[bool]:
    """Whether HiGHS finds a cover; None where options have colours."""
    return highs(file, seconds)[0]


def gecode_in(folder: str) -> Optional[str]:
    """The program gecode.cpp, built in this folder; None without g++ or Gecode."""
    program = os.path.join(folder, "gecode")
    libraries = [f"-lgecode{name}" for name in ("search", "minimodel", "int", "kernel", "support")]
    try:
        built = subprocess.run(["g++", "-O2", "-std=c++17", "-o", program, os.path.join(HERE, "gecode.cpp"), *libraries], capture_output=True)
    except FileNotFoundError:
        return None
    return program if built.returncode == 0 else None


def by_gecode(program: str, file: str, seconds: int) -> Optional[bool]:
    """Whether Gecode finds a cover."""
    try:
        text = subprocess.run([program, file], capture_output=True, timeout=seconds).stdout
    except subprocess.TimeoutExpired:
        return None
    return {b"cover\n": True, b"none\n": False}.get(text)


def said(text: bytes) -> Optional[bool]:
    """What a program of the kind that solves clauses says."""
    words = text.split()
    return True if b"SATISFIABLE" in words else False if b"UNSATISFIABLE" in words else None


# how a program is asked about a file, for so many seconds
Ask = Callable[[str, int], Optional[bool]]
PEERS: dict[str, Ask] = {
    "answer": lambda file, seconds: asked(["answer"], file, seconds)[0],
    "clasp": lambda file, seconds: by_clasp(file, seconds, "1"),
    "clasp, 4 threads": lambda file, seconds: by_clasp(file, seconds, "4"),
    "CaDiCaL": by_cadical,
    "HiGHS": by_highs,
}


def beside_peers(files: Iterator[str], seconds: int, peers: dict[str, Ask]) -> bool:
    """Prints a row of wall times for each file, who answered and who was first. Whether the answers agree."""
    answered, first, agree = dict.fromkeys(peers, 0), dict.fromkeys(peers, 0), True
    print(f"| File | Answer | {' | '.join(peers)} |\n" + "|" + "---|" * (len(peers) + 2))
    for file in files:
        took: dict[str, float] = {}
        found: set[bool] = set()
        for name, ask in peers.items():
            began = time.perf_counter()
            answer = ask(file, seconds)
            if answer is not None:
                took[name], found = time.perf_counter() - began, found | {answer}
                answered[name] += 1
        if took:
            first[min(took, key=lambda name: took[name])] += 1
        agree &= len(found) < 2
        word = "DIFFER" if len(found) > 1 else "cover" if True in found else "none" if found else "-"
        cells = " | ".join(f"{took[name]:.3f}" if name in took else "-" for name in peers)
        print(f"| {os.path.basename(file).removesuffix('.dlx')} | {word} | {cells} |", flush=True)
    print("answered: " + ", ".join(f"{name} {count}" for name, count in answered.items()))
    print("first: " + ", ".join(f"{name} {count}" for name, count in first.items()))
    return agree


def main() -> int:
    words = parser_of(__doc__)
    words.add_argument("--seconds", metavar="N", type=number_from_one, default=10, help="for each run (default 10)")
    words.add_argument("--times", metavar="N", type=number_from_one, default=3, help="how many runs of each (default 3)")
    words.add_argument("--processors", metavar="N", type=number_from_one, help="on how many processors all run (default all)")
    words.add_argument("--peers", action="store_true", help="beside other programs")
    words.add_argument("files", metavar="FILE", nargs="*", type=path_of, help="a further file")
    given = words.parse_args()
    want_program(SOLVE_CLI)
    os.sched_setaffinity(0, sorted(os.sched_getaffinity(0))[:given.processors])
    if given.peers:
        with tempfile.TemporaryDirectory() as folder, tempfile.TemporaryDirectory() as built:
            program = gecode_in(built)
            gecode: dict[str, Ask] = {"Gecode": partial(by_gecode, program)} if program else {}
            return 0 if beside_peers(files_of(folder, given.files), given.seconds, {**PEERS, **gecode}) else 1
    print(f"| File | Answer | {' | '.join(' '.join(way) for way in WAYS)} | Ratio |")
    print("|" + "---|" * (len(WAYS) + 3))
    ratios, later, agree = [], [], True
    with tempfile.TemporaryDirectory() as folder:
        for file in files_of(folder, given.files):
            told, is_one = row(file, given.seconds, given.times)
            agree &= is_one
            others = [took for answer, took in told[1:] if answer is not None]
            if told[0][0] is not None and others and min(others) > LONG:
                ratios.append(told[0][1] / min(others))
            elif told[0][0] is not None and told[1][0] is not None and told[1][1] <= LONG:
                later.append(1_000 * (told[0][1] - told[1][1]))
    if ratios:
        print(f"long: geometric mean {statistics.geometric_mean(ratios):.2f}, greatest {max(ratios):.2f}, of {len(ratios)}")
    if later:
        print(f"short: {statistics.mean(later):.2f} ms more in the mean, {max(later):.2f} ms at most, of {len(later)}")
    return 0 if agree else 1


if __name__ == "__main__":
    sys.exit(main())
