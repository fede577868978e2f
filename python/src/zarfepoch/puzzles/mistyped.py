"""Where a puzzle has no solution: which of what it gives may be mistyped. Without that, or with something else in its
place, it has one.

A puzzle that gives much has often no solution but one, so a change after which there is exactly one comes before those
after which there are several.
"""
from __future__ import annotations

import contextlib
import io
import time
from collections.abc import Sequence
from typing import Optional

from ..files.cover_files import read_audited, read_problem
from ..files.fault_words import plural
from ..programs import answer_of
from ..search.other_covers import free_name, others_of
from ..texts.limits import Refused
from ..texts.puzzles import Change, PlainlyNone, Puzzle
from .words import NoSolution

# so many seconds all changes together may take where no time is told, and each question about one, or a tenth of the
# time if that is more
SECONDS, QUESTION = 5.0, 1.0
# so many changes are told
MOST = 6


def changed(change: Change) -> Optional[Puzzle]:
    """The puzzle after a change; None where it can't be made, and `PlainlyNone` or `NoSolution` where it plainly has no
    solution."""
    try:
        with contextlib.redirect_stderr(io.StringIO()):
            return change.puzzle()
    except PlainlyNone:
        raise
    except (SystemExit, Refused):
        return None


def count_of(program: str, change: Change, seconds: float) -> Optional[int]:
    """How many solutions there are after a change: none, one, or 2 for several; None where that isn't known. Each
    question has so many seconds."""
    try:
        puzzle = changed(change)
    except (PlainlyNone, NoSolution):
        return 0
    found = answer_of(program, puzzle.text(), seconds) if puzzle else None
    if not puzzle or not found or not found.is_cover:
        return 0 if found and found.is_none else None
    problem = read_problem(puzzle.text())
    chosen = [problem.options[place].words for _, place in read_audited(found.text, problem).chosen]
    text, too_large = others_of(problem, [chosen], free_name(problem, b"other"))
    if too_large:
        return None
    other = answer_of(program, text, seconds)
    return 1 if other.is_none else 2 if other.is_cover else None


def first_words(words: Sequence[str]) -> str:
    """The first of some changes, and how many more there are."""
    more = [f"with one of {len(words) - MOST} more changes"] if len(words) > MOST else []
    return ", or ".join([*words[:MOST], *more])


def solution_words(only: Sequence[str], several: Sequence[str]) -> list[str]:
    """What is told of the changes after which there is one solution, and of those after which there are several."""
    if not only:
        return [f"There is a solution {first_words(several)}."] if several else []
    others = ["With one other change there are several."] if len(several) == 1 else [f"With one of {len(several)} other changes there are several."]
    return [f"There is exactly one solution {first_words(only)}.", *(others if several else [])]


def change_lines(program: str, changes: Sequence[Change], seconds: float = SECONDS) -> list[str]:
    """Which of these changes make a puzzle with a solution, in sentences; nothing where there are none to try."""
    until, counts = time.monotonic() + seconds, list[Optional[int]]()
    for change in changes:
        if time.monotonic() > until:
            break
        counts.append(count_of(program, change, max(QUESTION, seconds / 10)))
    told = solution_words(*([change.words for change, count in zip(changes, counts) if count == wanted] for wanted in (1, 2)))
    if len(counts) < len(changes):
        return [*told, f"({len(counts)} of {len(changes)} givens were looked at, in {seconds:g} second{'s' * (seconds != 1)}.)"]
    if changes and not any(counts) and None not in counts:
        return [f"More than one of its {plural(len(changes), 'given')} is wrong: no change of one alone helps."]
    return told
