#!/usr/bin/env python3
"""Puts the bugs into the code that a test finds and no contract refuses, and says of each whether that test fails.

    python3 trials/try_found.py [--short | --memory] [--at-once N] [CRATE/BUG ..]

The first lines of a test's file say "Of the bugs of `CRATE` that are kept outside the gate, `TEST` finds `BUG`".
Without words all of these bugs are tried, each in a copy of the repository and without proofs: it takes two minutes
each. Of each bug one line says

    found: TEST        the test fails
    NOT FOUND: TEST    the test passes with the bug in the code
    not tried: TEST    the bug no longer applies or compiles, or the test did not end

and a last line counts them. With --memory the bugs are those that only `try_memory.py` finds: the tests are proved and
built with each bug, which takes five to fifteen minutes, and then refused memory. With --short nothing is run: only
those that no longer apply are named, and none that applies and no longer compiles. Else it wants the toolchain's
command `rt` on the path, and with --memory cc. The exit status is 1 if any was not found, else 2 if any could not be
tried, else 0.
"""
from __future__ import annotations

import concurrent.futures
import contextlib
import glob
import os
import re
import shutil
import subprocess
import sys
import tempfile
from collections.abc import Iterator
from typing import Optional

from built import number_from_one, parser_of, stop, TOP, want_command
from edits import edited, name_stale
from try_memory import BUGS as STARVED

FOUND, MISSED, UNTRIED = "found", "NOT FOUND", "not tried"
# The bugs outside the gate that cost time or memory alone, so that no contract refuses them and no test finds them:
# each with the bound that it breaks.
SLOW = {
    "audit/the_digest_is_constant": "bench/bounds.py audit-length",
    "audit/the_path_forgets": "bench/bounds.py audit-books",
    "run_book/idle_steps_are_never_shared": "bench/bounds.py idle-entries",
    "udp_node/nobody_is_told": "bench/bounds.py equal-parts",
    "udp_node/the_only_worker_has_a_limit": "bench/bounds.py only-worker",
}
# a bug's crate and name, the test's crate and the test
Claim = tuple[str, str, str, str]
CLAIM = re.compile(r"Of the bugs of `(\w+)` that are kept outside the gate, (.*?\.)(?:\s|$)")
PAIR = re.compile(r"`(\w+)`\s+finds\s+((?:`\w+`(?!\s+finds)(?:, | and )?)+)")


def claims() -> Iterator[Claim]:
    """Of each bug that a test is said to find: its crate, its name, the test's crate and the test."""
    for file in sorted(glob.glob(os.path.join(TOP, "crates", "*", "src", "**", "*.rt"), recursive=True)):
        with open(file, encoding="utf-8") as opened:
            text = " ".join(line[3:].strip() for line in opened if line.startswith("//!"))
        tests = os.path.relpath(file, os.path.join(TOP, "crates")).split(os.sep)[0]
        for crate, told in CLAIM.findall(text):
            for test, bugs in PAIR.findall(told):
                for bug in re.findall(r"`(\w+)`", bugs):
                    yield crate, bug, tests, test


def put(top: str, crate: str, bug: str) -> bool:
    """Puts a bug into a copy of the repository; whether it still applies."""
    texts = edited(crate, bug)
    for path, text in (texts or {}).items():
        with open(os.path.join(top, path), "w", encoding="utf-8") as opened:
            opened.write(text)
    return texts is not None


@contextlib.contextmanager
def copy_with(crate: str, bug: str, left_out: str) -> Iterator[Optional[str]]:
    """A copy of the repository with a bug in it, without the folders of a name; None if the bug no longer applies."""
    with tempfile.TemporaryDirectory(prefix="try-found-") as room:
        top = os.path.join(room, "copy")
        shutil.copytree(TOP, top, ignore=shutil.ignore_patterns(left_out, ".git"))
        yield top if put(top, crate, bug) else None


def tried(claim: Claim) -> str:
    """What came of a bug, by its test."""
    crate, bug, tests, test = claim
    with copy_with(crate, bug, "out") as top:
        if not top:
            return UNTRIED
        words = ["rt", "try", "--test", "--seconds", "300", "--", test]
        ended = subprocess.run(words, cwd=os.path.join(top, "crates", tests), capture_output=True, text=True)
    lines = [line for line in ended.stdout.splitlines() if line.startswith("test ") and f"::{test} ..." in line]
    if len(lines) != 1:
        return UNTRIED
    return MISSED if lines[0].endswith("... ok") else FOUND


def tried_without_memory(claim: Claim) -> str:
    """What came of a bug, by tests that are refused memory. They pass where they aren't, so they are proved and
    built."""
    crate, bug, tests, _ = claim
    with copy_with(crate, bug, "incremental") as top:
        if not top:
            return UNTRIED
        built = subprocess.run(["rt", "test"], cwd=os.path.join(top, "crates", tests), capture_output=True)
        if built.returncode:
            return UNTRIED
        ended = subprocess.run([sys.executable, os.path.join(top, "trials", "try_memory.py"), tests], capture_output=True)
    return {0: MISSED, 1: FOUND}.get(ended.returncode, UNTRIED)


def main() -> int:
    parser = parser_of(__doc__)
    how = parser.add_mutually_exclusive_group()
    how.add_argument("--short", action="store_true", help="run nothing: only name the bugs that no longer apply")
    how.add_argument("--memory", action="store_true", help="try the bugs that are found where memory is refused")
    parser.add_argument("--at-once", type=number_from_one, default=1, metavar="N", help="how many are tried at once (default 1)")
    parser.add_argument("bugs", nargs="*", metavar="CRATE/BUG", help="the bugs to try; all that a test finds where none is named")
    given = parser.parse_args()
    known = list(claims()) or stop("no test says which bugs it finds")
    try_one = tried_without_memory if given.memory else tried
    if given.memory:
        known = [(crate, bug, tests, "refused memory") for (crate, bug), tests in ((name.split("/"), tests) for name, tests in STARVED.items())]
    names = [f"{crate}/{bug}" for crate, bug, _, _ in known]
    for bug in given.bugs:
        if bug not in names:
            stop(f"no test is said to find {bug}")
    chosen = [claim for name, claim in zip(names, known) if not given.bugs or name in given.bugs]
    if given.short:
        return name_stale([claim[:2] for claim in chosen])
    want_command("rt")
    kinds = []
    with concurrent.futures.ThreadPoolExecutor(given.at_once) as pool:
        for (crate, bug, tests, test), kind in zip(chosen, pool.map(try_one, chosen)):
            print(f"{crate}/{bug}: {kind}: {tests}, {test}", flush=True)
            kinds.append(kind)
    print(", ".join(f"{kinds.count(kind)} {kind}" for kind in (FOUND, MISSED, UNTRIED)))
    return 1 if MISSED in kinds else 2 if UNTRIED in kinds else 0


if __name__ == "__main__":
    sys.exit(main())
