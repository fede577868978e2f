#!/usr/bin/env python3
"""Times the search that keeps the states which it found to have no cover beside the plain one, and beside clingo and
CaDiCaL.

    python3 bench/states.py [--seconds N] [--times N] [--at-once N] [NAME ..]

Each instance that is named, or each of all, is searched by the plain search, by the one that keeps states, both of the
store that the program takes, by `alone --unlimited`, and by clingo and CaDiCaL where the commands `clingo` and
`cadical` are on the path; how they get the problem is said in encodings_of_peers.py. Each has N processor seconds
(default 60); a dash stands where it didn't end. Times are the least processor seconds of the whole process, which reads
the problem, of N runs (default 3), or of one that takes more than a tenth of what it has. Where the plain search ends
within two seconds and the command valgrind is on the path, the last column has how many instructions the search that
keeps states takes to one of the plain search, without those of a search of one visit.

With --at-once N so many run at a time; the figures of several disturb one another a little.

It wants the programs: (cd crates/workbench && rt run) and (cd crates/solve_cli && rt run -- --version) build them. The
exit status is 0, 1 where two come to other outcomes, 2 for a mistake on the command line or where there is no program.
"""
from __future__ import annotations

import os
import re
import shutil
import subprocess
import sys
import tempfile
from collections.abc import Callable, Iterable
from concurrent.futures import Future, ThreadPoolExecutor
from functools import partial
from typing import Optional

HERE = os.path.dirname(os.path.abspath(__file__))
sys.path.insert(0, os.path.join(HERE, "..", "trials"))
from built import SOLVE_CLI, WORKBENCH, number_from_one, parser_of, stop, want_program  # noqa: E402
from encodings_of_peers import formula_of, program_of  # noqa: E402
from measured import ended, processor_seconds  # noqa: E402
from problems import put, straight  # noqa: E402
from zarfepoch.boards.cells import rectangle  # noqa: E402
from zarfepoch.puzzles.tilings import dominoes  # noqa: E402
from zarfepoch.texts.puzzles import Puzzle  # noqa: E402

GREATEST = str(2 ** 64 - 1)
BOARDS = (8, 10, 12, 14, 16, 18, 20)
OTHERS = ("langford-13", "torus-queens-14", "torus-queens-15", "torus-queens-16", "triples-19", "triples-22", "word-squares-4",
          "sudoku-hard", "pentominoes-3x20", "pentominoes-6x10", "diamond", "macmahon-4x6")
WORDS = {"cover": "cover", "none": "none", "spent": "spent", "SATISFIABLE": "cover", "UNSATISFIABLE": "none"}
# the words behind each other program's name, which reads standard input, and what writes a problem for it
PEERS = {"clingo": (["-V1", "-"], program_of), "cadical": (["-q", "-n", "-"], formula_of)}
TITLES = {"clingo": "clingo", "cadical": "CaDiCaL"}
# a run of more than this part of what it has isn't repeated
SLOW = 0.1
# (a limit of processor seconds doesn't depend on what else runs)
LIMITED = ["sh", "-c", 'ulimit -t "$0" && exec "$@"']
# an outcome and processor seconds
Found = tuple[str, float]
Task = Callable[[], Optional[Found]]


def pigeons(count: int) -> Puzzle:
    """So many pigeons, and one hole less."""
    holes = [f"h{hole}" for hole in range(count - 1)]
    options = [[f"p{pigeon}", hole] for pigeon in range(count) for hole in holes]
    return Puzzle([f"p{pigeon}" for pigeon in range(count)], holes, options)


def write_instances(folder: str) -> None:
    """The benchmark's instances, and families in which states repeat."""
    subprocess.run([sys.executable, os.path.join(HERE, "instances.py"), folder], check=True)
    for side in BOARDS:
        cells = rectangle(side, side) - {(0, 0), (side - 1, side - 1)}
        put(folder, f"dominoes-{side}x{side}", "without two opposite corners", dominoes(cells))
    put(folder, "dominoes-13x13", "an odd number of cells", dominoes(rectangle(13, 13)))
    put(folder, "pigeons-12", "none", pigeons(12))
    items, pieces = straight(rectangle(14, 14), 4)
    put(folder, "straight-14x14", "none", Puzzle(items, [], pieces))


def run(words: list[str], seconds: int, lines: Iterable[str] = ()) -> Optional[Found]:
    """The outcome that a command writes, in a word, and its processor seconds; none where it doesn't end after so many
    of them."""
    with tempfile.TemporaryFile("w+", encoding="ascii") as given, tempfile.TemporaryFile("w+", encoding="utf-8", errors="replace") as out:
        given.writelines(f"{line}\n" for line in lines)
        given.seek(0)
        process = subprocess.Popen([*LIMITED, str(seconds), *words], stdin=given, stdout=out, stderr=subprocess.DEVNULL)
        used = processor_seconds(ended(process))
        if process.returncode < 0 and used > 0.9 * seconds:
            return None
        out.seek(0)
        told = [WORDS[word] for word in out.read().split() if word in WORDS]
    return told[0] if told else "no answer", used


def least(words: list[str], times: int, seconds: int, lines: Iterable[str] = ()) -> Optional[Found]:
    """The outcome and the least processor seconds of several runs, or of one that is slow."""
    best: Optional[Found] = None
    for _ in range(times):
        found = run(words, seconds, lines)
        if found is None:
            return None
        if best and best[0] != found[0]:
            sys.exit(f"{' '.join(words)}: two outcomes: {best[0]}, {found[0]}")
        best = min(best or found, found, key=lambda it: it[1])
        if found[1] > seconds * SLOW:
            break
    return best


def counted(file: str, keeping: str, fuel: str) -> int:
    """How many instructions a search of so many visits takes, by valgrind; -1 where it has no figure."""
    words = ["valgrind", "--tool=callgrind", "--callgrind-out-file=/dev/null", WORKBENCH, "search", file, "suited", keeping, fuel]
    found = re.search(r"refs: +([0-9,]+)", subprocess.run(words, capture_output=True, text=True).stderr)
    return int(found[1].replace(",", "")) if found else -1


def plain_and_ratio(file: str, times: int, seconds: int) -> tuple[Optional[Found], str]:
    """What the plain search comes to, and the cell of the instructions, without those of a search of one visit."""
    plain = least([WORKBENCH, "search", file, "suited", "plain", GREATEST], times, seconds)
    if not plain or plain[0] == "spent" or plain[1] >= 2 or not shutil.which("valgrind"):
        return plain, "-"
    kept, kept_one, other, other_one = [counted(file, keeping, fuel) for keeping in ("kept", "plain") for fuel in (GREATEST, "1")]
    if min(kept, kept_one, other, other_one) < 0:
        return plain, "-"
    return plain, f"{(kept - kept_one) / max(other - other_one, 1):.3f}"


def by_peer(command: str, file: str, times: int, seconds: int) -> Optional[Found]:
    """What clingo or CaDiCaL comes to."""
    words, encoding = PEERS[command]
    return least([command, *words], times, seconds, list(encoding(file)))


def tasks_of(file: str, times: int, seconds: int) -> list[Task]:
    """What is run of an instance beside the plain search: a task for each column."""
    commands = [WORKBENCH, "search", file, "suited", "kept", GREATEST], [SOLVE_CLI, "alone", file, "--unlimited"]
    ours: list[Task] = [partial(least, words, times, seconds) for words in commands]
    return ours + [partial(by_peer, command, file, times, seconds) for command in PEERS if shutil.which(command)]


def cell_of(found: Optional[Found]) -> str:
    """What a cell says of a program."""
    if found is None:
        return "-"
    outcome, seconds = found
    return f"{seconds:.3f}" if outcome in ("cover", "none") else outcome


def row(name: str, first: Future[tuple[Optional[Found], str]], others: list[Future[Optional[Found]]]) -> str:
    """The row of an instance."""
    plain, ratio = first.result()
    found = [plain, *(other.result() for other in others)]
    outcomes = {it[0] for it in found if it and it[0] in ("cover", "none")}
    if len(outcomes) > 1:
        sys.exit(f"{name}: the searches come to other outcomes")
    cells = [name, outcomes.pop() if outcomes else "-", *map(cell_of, found), ratio]
    return f"| {' | '.join(cells)} |"


def print_rows(files: dict[str, str], times: int, seconds: int, at_once: int) -> None:
    """Runs all, so many at once, and prints the rows in their order."""
    pool = ThreadPoolExecutor(at_once)
    try:
        rows = [(name, pool.submit(plain_and_ratio, file, times, seconds), [pool.submit(task) for task in tasks_of(file, times, seconds)])
                for name, file in files.items()]
        for name, first, others in rows:
            print(row(name, first, others), flush=True)
    finally:
        pool.shutdown(cancel_futures=True)


def main() -> None:
    words = parser_of(__doc__)
    words.add_argument("--seconds", metavar="N", type=number_from_one, default=60, help="how many processor seconds each may take (default 60)")
    words.add_argument("--times", metavar="N", type=number_from_one, default=3, help="how often each is timed (default 3)")
    words.add_argument("--at-once", metavar="N", type=number_from_one, default=1, help="how many run at a time (default 1)")
    words.add_argument("names", nargs="*", metavar="NAME", help="instances, without their ending")
    given = words.parse_args()
    want_program(WORKBENCH, "workbench")
    want_program(SOLVE_CLI)
    with tempfile.TemporaryDirectory() as folder:
        write_instances(folder)
        families = [f"dominoes-{side}x{side}" for side in BOARDS] + ["dominoes-13x13", "pigeons-12", "straight-14x14"]
        files = {name: os.path.join(folder, name + ".dlx") for name in given.names or [*families, *OTHERS]}
        for name, file in files.items():
            if not os.path.exists(file):
                stop(f"there is no instance {name}")
        peers = [TITLES[command] for command in PEERS if shutil.which(command)]
        head = ["Instance", "Outcome", "Plain", "Kept", "Unlimited", *peers, "Instructions"]
        print(f"| {' | '.join(head)} |\n|{'---|' * len(head)}", flush=True)
        print_rows(files, given.times, given.seconds, given.at_once)


if __name__ == "__main__":
    main()
