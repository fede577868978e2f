#!/usr/bin/env python3
"""Refuses each growth of memory that a call asks for, another one in each run, and says what came of it.

    python3 trials/try_memory.py [--list | --short] [CRATE ..]

The tests whose names begin with `refused_memory` mark where a call begins and ends. `refuse_growth.c`, which is built
here and loaded before the C library, counts the growths between these marks and refuses one. Then the call has to
answer `Memory`, with all as it was before, and the same call, made again, has to give what the test's row says. Each
growth of each call is refused once.

- core_tests plays the scripts of node and registry, with one list of packets (`act`) and with two (`act_both`): each event is a call.
- table_tests splits units. One whose children fit into the last page has to go well whatever is refused: it asks for no memory.
- audit_tests audits books.
- book_tests acts at a cell, which has to hand seat and event back.
- world_tests steps through runs of a world, and lets them run.
- engine_tests runs `alone` and `check`, each of them within limits too, again with a new source and sink; nothing may be written before.
- search_tests searches prefixes, which have to come back.
- file_tests reads problems and answers.
- wire_tests reads packets.
- clause_tests takes the first clauses of problems, and learns more.

For each kind of call the table has how many growths it takes, the least and the most, and with two lists too, how many
were refused, how many of these the call answered with `Memory`, and how many runs went wrong. --list only lists the
calls with their growths, and refuses none; --short refuses every seventh growth of a test.

It wants cc and the built tests: rt test in the folders of these crates builds them, and so does rt ci. The exit status
is 0, 1 where a run went wrong, 2 for a mistake on the command line or where something is missing.
"""
from __future__ import annotations

import collections
import os
import subprocess
import sys
import tempfile
from collections.abc import Iterator
from typing import NamedTuple

from built import parser_of, program_of, stop, TOP, want_command

CRATES = ("core_tests", "table_tests", "audit_tests", "wire_tests", "file_tests", "search_tests", "engine_tests",
          "book_tests", "world_tests", "clause_tests")
CAREFUL = "refused_memory"
CORES = "core_tests"
# The kinds of calls by their numbers, with the place of each; those of cores are at a node or at the registry.
KINDS = [(event, CORES) for event in (
    "Take", "Post", "Finish", "Ask", "Redo", "Again", "Greet", "Hello", "Members", "Steal", "Give", "NoWork", "Return", "Accept",
    "Refuse", "Abort", "Over")]
KINDS += [("spawn", "table"), ("spawn within a page", "table"), ("GiveMany", CORES), ("audit", "books"), ("read_problem", "file"),
          ("read_answer", "file"), ("read_packet", "bytes"), ("find", "search"), ("step", "world"), ("run", "world"), ("act", "cell"),
          ("alone_engine", "engine"), ("check_engine", "engine"), ("alone_within", "engine"), ("check_within", "engine")]
# Two more, between the numbers of the others.
CLAUSES = {98: "learn", 99: "first clauses"}
SHORT = 7
# The bugs outside the gate that no contract refuses and no test finds but where memory is refused, each with the tests
# that find it: what was refused memory once is refused it for ever.
BUGS = {
    "brancher/memory_stays_refused": "search_tests",
    "node_core/greeting_stays_refused": CORES,
    "node_core/memory_stays_refused": CORES,
    "run_book/memory_stays_refused": "book_tests",
}


class Told(NamedTuple):
    """What is told of a call: its kind, where it was, whether packets went to two lists, the growths that it asked for,
    which of them was refused, or 0, and whether it was answered by want of memory."""
    kind: str
    place: str
    both: bool
    growths: int
    refused: int
    memory: bool


def told(line: str) -> Told:
    """What a line of refuse_growth.c tells."""
    number, growths, refused, memory = map(int, line.split())
    if number in CLAUSES:
        return Told(CLAUSES[number], "clauses", False, growths, refused, memory == 1)
    name, place = KINDS[number // 4]
    if place == CORES:
        place = "registry" if number // 2 % 2 == 1 else "node"
    return Told(name, place, number % 2 == 1, growths, refused, memory == 1)


def tests_of(crate: str) -> str:
    """The built tests of a crate."""
    return program_of(crate) + "_tests"


def build(folder: str) -> str:
    """Builds what is loaded before the C library."""
    library = os.path.join(folder, "refuse_growth.so")
    source = os.path.join(TOP, "trials", "refuse_growth.c")
    subprocess.run(["cc", "-O2", "-shared", "-fPIC", "-o", library, source, "-ldl", "-lpthread"], check=True)
    return library


def play(library: str, test: Words, number: int) -> tuple[bool, list[Told]]:
    """Runs a test with this growth refused, none with 0: whether it passed, and what is told of its calls."""
    with tempfile.TemporaryDirectory() as folder:
        file = os.path.join(folder, "growths")
        words = {"LD_PRELOAD": library, "REFUSE_GROWTH": str(number), "GROWTHS_FILE": file, "BETWEEN_MARKS": "1"}
        ran = subprocess.run(test, env=words, stdout=subprocess.DEVNULL, stderr=subprocess.DEVNULL)
        if not os.path.isfile(file):
            stop(f"{test[-1]} told of no call")
        with open(file, encoding="ascii") as opened:
            return ran.returncode == 0, [told(line) for line in opened]


def careful_tests(crate: str) -> list[Words]:
    """The tests of a crate that take care of refused memory, each as the words that run it."""
    program = tests_of(crate)
    listed = subprocess.run([program, "--list"], stdout=subprocess.PIPE, text=True).stdout
    names = [line.removesuffix(": test").strip() for line in listed.splitlines()]
    tests = [(program, name) for name in names if name.rpartition("::")[2].startswith(CAREFUL)]
    if not tests:
        stop(f"no test of {crate} has a name that begins with {CAREFUL}")
    return tests


def span(numbers: list[int]) -> str:
    """The least and the most of some numbers."""
    if not numbers:
        return "-"
    return f"{min(numbers)}" if min(numbers) == max(numbers) else f"{min(numbers)} to {max(numbers)}"


# the words that run a test
Words = tuple[str, str]


class Kind:
    """What was seen of one kind of calls."""

    def __init__(self) -> None:
        self.growths: dict[bool, list[int]] = {False: [], True: []}
        self.refused = self.memory = self.wrong = 0

    def take(self, event: Told, passed: bool) -> None:
        """Counts a call one of whose growths was refused."""
        self.refused += 1
        self.memory += event.memory
        self.wrong += not passed


# what was seen of each kind of calls, by its name and place
Kinds = dict[tuple[str, str], Kind]


def refuse_each(library: str, test: Words, kinds: Kinds, step: int) -> int:
    """Refuses each growth of a test's calls, or each of some step, one in each run; how many runs went wrong."""
    _, before = play(library, test, 0)
    wrong = 0
    for number in range(1, sum(event.growths for event in before) + 1, step):
        passed, events = play(library, test, number)
        refused = [event for event in events if event.refused]
        if len(refused) != 1:
            print(f"{test[-1]}, growth {number}: it was refused in {len(refused)} calls")
            wrong += 1
            continue
        if not passed:
            print(f"{test[-1]}, growth {number}: wrong")
            wrong += 1
        kinds[refused[0].kind, refused[0].place].take(refused[0], passed)
    return wrong


def count(library: str, test: Words, kinds: Kinds) -> bool:
    """Takes down the growths of each call of a test, of which none is refused; whether it passed."""
    passed, events = play(library, test, 0)
    for event in events:
        kinds[event.kind, event.place].growths[event.both].append(event.growths)
    return passed


def table(kinds: Kinds) -> Iterator[str]:
    """The rows of the table."""
    yield "| Call | At | Growths | With two lists | Refused | Answered Memory | Wrong |\n|---|---|---|---|---|---|---|"
    for (kind, place), seen in sorted(kinds.items()):
        cells = [kind, place, span(seen.growths[False]), span(seen.growths[True])]
        yield f"| {' | '.join(cells)} | {seen.refused} | {seen.memory} | {seen.wrong} |"


def main() -> int:
    parser = parser_of(__doc__)
    how = parser.add_mutually_exclusive_group()
    how.add_argument("--list", action="store_true", help="list the calls with their growths, and refuse none")
    how.add_argument("--short", action="store_true", help=f"refuse every growth of {SHORT}")
    parser.add_argument("crates", nargs="*", metavar="CRATE", choices=[[], *CRATES], help="whose tests are run (default: all of them)")
    given = parser.parse_args()
    crates = given.crates or CRATES
    want_command("cc")
    for crate in crates:
        if not os.access(tests_of(crate), os.X_OK):
            stop(f"{crate} has no built tests; at the top of the repository (cd crates/{crate} && rt test) builds them")
    kinds: Kinds = collections.defaultdict(Kind)
    with tempfile.TemporaryDirectory() as folder:
        library = build(folder)
        tests = [test for crate in crates for test in careful_tests(crate)]
        wrong = sum(not count(library, test, kinds) for test in tests)
        if not given.list:
            wrong += sum(refuse_each(library, test, kinds, SHORT if given.short else 1) for test in tests)
    print("\n".join(table(kinds)))
    refused, memory = (sum(getattr(seen, what) for seen in kinds.values()) for what in ("refused", "memory"))
    print(f"{refused} growths refused, {memory} answered by want of memory, {wrong} wrong")
    return 1 if wrong else 0


if __name__ == "__main__":
    sys.exit(main())
