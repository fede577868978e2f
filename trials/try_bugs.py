#!/usr/bin/env python3
"""Puts the bugs of the folder bugs into the code, and says of each whether the check refuses it.

    python3 trials/try_bugs.py [--short] [CRATE | CRATE/BUG ..]

Without words it tries every bugs/CRATE/BUG.edit, else those of the crates or the single ones that are named. A bug is
tried as the gate tries those of must-fail/: in a copy of the repository, with what earlier checks have kept of the
crates below, so that only the bug's own crate is proved again, once for all of its bugs. Of each bug one line says

    refused: LINE       a contract, an invariant or a call's requirement is broken, and at which line
    by its shape: LINE  refused only since a proof names what the bug took away, which says little of the contract
    by a test: TEST     not tried, unless it is named: no contract refuses it, and trials/try_found.py runs the test that finds it
    by refused memory: TESTS  not tried, unless it is named: trials/try_found.py --memory refuses these tests memory, which finds it
    by a bench: BENCH   not tried, unless it is named: it costs time or memory alone, which the bench's figures show
    PROVED              the crate is proved with the bug in it: a hole in a contract
    no longer applies   its text isn't exactly once in the file that it names, or can't be read then

and a last line counts them. With --short nothing is proved: only those that no longer apply are named. Else it wants
the toolchain's command `rt` on the path, and builds no program. The exit status is 1 if any was proved, else 2 if any
no longer applies or couldn't be tried, else 0.
"""
from __future__ import annotations

import os
import re
import shutil
import subprocess
import sys
import tempfile
from collections.abc import Iterable

from built import parser_of, stop, TOP, want_command
from edits import BUGS, name_stale
from try_found import SLOW as BY_BENCH, claims
from try_memory import BUGS as STARVED

REFUSED, SHAPE, TEST, PROVED, STALE = "refused", "by its shape", "by a test", "PROVED", "no longer applies"
MEMORY, BENCH = "by refused memory", "by a bench"


def chosen_bugs(words: list[str]) -> dict[str, list[str]]:
    """The names of the bugs to try, by crate."""
    chosen: dict[str, list[str]] = {}
    for word in words or sorted(it.name for it in os.scandir(BUGS) if it.is_dir()):
        crate, _, name = word.removesuffix(".edit").partition("/")
        folder = os.path.join(BUGS, crate)
        there = sorted(it.removesuffix(".edit") for it in os.listdir(folder)) if os.path.isdir(folder) else []
        names = [it for it in there if name in ("", it)]
        if not names:
            stop(f"there is no bug {word} in bugs/")
        chosen.setdefault(crate, []).extend(it for it in names if it not in chosen.get(crate, []))
    return chosen


def left_to_tests(chosen: dict[str, list[str]], named: list[str]) -> list[str]:
    """Takes out the bugs that tests find and that aren't named themselves, prints a line of each, and answers their
    kinds."""
    found = [(f"{crate}/{bug}", TEST, f"{tests}, {test}") for crate, bug, tests, test in claims()]
    found += [(name, MEMORY, tests) for name, tests in STARVED.items()]
    found += [(name, BENCH, bench) for name, bench in BY_BENCH.items()]
    kinds = []
    for name, kind, by in found:
        crate, _, bug = name.partition("/")
        if bug in chosen.get(crate, []) and name not in named:
            chosen[crate].remove(bug)
            print(f"{name}: {kind}: {by}", flush=True)
            kinds.append(kind)
    return kinds


def below(crates: Iterable[str]) -> set[str]:
    """All crates of the repository that these are built on, by crates.txt."""
    with open(os.path.join(TOP, "crates.txt"), encoding="utf-8") as opened:
        lines = [line.partition("#")[0].partition(":") for line in opened]
    uses = {head.split()[0]: rest.split() for head, _, rest in lines if head.split()}
    found, left = set[str](), list(crates)
    while left:
        more = [it for it in uses[left.pop()] if it in uses and it not in found]
        found.update(more)
        left.extend(more)
    return found


def copy_repository(to: str, crates: Iterable[str]) -> None:
    """Copies what the check reads, and of the crates below what earlier checks have kept."""
    kept = below(crates)

    def left_out(folder: str, names: list[str]) -> set[str]:
        inside = os.path.relpath(folder, TOP).split(os.sep)
        if inside == ["."]:
            return {it for it in names if it not in ("crates", "crates.txt", "HANDLES")}
        if inside[0] == "crates" and len(inside) == 2:
            return {"must-fail"} | (set() if inside[1] in kept else {"out"})
        return set()

    shutil.copytree(TOP, to, ignore=left_out, symlinks=True)


def kind_of(told: str) -> tuple[str, str]:
    """What a line of `rt must-fail` says of a bug, and the place that it names."""
    if told.startswith("refused, as it must be (only because"):
        return SHAPE, told.partition("): ")[2]
    if told.startswith("refused"):
        return REFUSED, told.partition(": ")[2]
    return (PROVED, "") if told.startswith("NOT REFUSED") else (STALE, told.partition(": ")[2])


def try_crate(top: str, crate: str, names: list[str]) -> list[str]:
    """Tries the bugs of a crate in the copy, prints a line of each, and answers their kinds."""
    folder = os.path.join(top, "crates", crate, "must-fail")
    os.makedirs(folder)
    for name in names:
        shutil.copy(os.path.join(BUGS, crate, name + ".edit"), folder)
    ran = subprocess.run(
        ["rt", "must-fail", crate], cwd=top, stdout=subprocess.PIPE, stderr=subprocess.STDOUT, text=True, errors="replace"
    )
    kinds = []
    for name in names:
        line = re.search(rf"^(?:rt: )?must-fail {crate}/{re.escape(name)}\.edit: (.*)", ran.stdout, re.MULTILINE)
        if not line:
            stop(f"rt must-fail says nothing of {crate}/{name}; it wrote:\n{ran.stdout[-2000:]}")
        kind, place = kind_of(line[1])
        print(f"{crate}/{name}: {kind}{': ' if place else ''}{place}", flush=True)
        kinds.append(kind)
    return kinds


def main() -> int:
    parser = parser_of(__doc__)
    parser.add_argument("--short", action="store_true", help="prove nothing: only name the bugs that no longer apply")
    parser.add_argument("bugs", nargs="*", metavar="CRATE | CRATE/BUG", help="whose bugs are tried; all where none is named")
    given = parser.parse_args()
    chosen = chosen_bugs(given.bugs)
    if given.short:
        return name_stale([(crate, name) for crate, names in chosen.items() for name in names])
    want_command("rt")
    kinds = left_to_tests(chosen, [word.removesuffix(".edit") for word in given.bugs])
    chosen = {crate: names for crate, names in chosen.items() if names}
    with tempfile.TemporaryDirectory(prefix="try-bugs-") as room:
        top = os.path.join(room, "repository")
        copy_repository(top, chosen)
        for crate, names in chosen.items():
            kinds += try_crate(top, crate, names)
    print(", ".join(f"{kinds.count(kind)} {kind}" for kind in (REFUSED, SHAPE, TEST, MEMORY, BENCH, PROVED, STALE)))
    return 1 if PROVED in kinds else 2 if STALE in kinds else 0


if __name__ == "__main__":
    sys.exit(main())
