"""How the program is asked for a timetable: where a plan is kept, by short searches first, in which ever more of its
lessons may move."""
from __future__ import annotations

import itertools
import random
import time
from collections.abc import Iterator
from typing import Optional

from ..programs import answer_of, ProgramAnswer, run_program
from .problem import Timetable

# a search in which some lessons may move gets so many visits before others may
TRY_VISITS = 2_000
# for so many seconds a plan is looked for where no time is told, before parts of the school are tried by themselves
TRY_SECONDS = 20.0
# so many choices of lessons that may move are tried before more of them may, or fewer, one at least, where they take
# more than this part of the time
CHOICES, SHARE = 30, 1 / 20


def shortly(program: str, timetable: Timetable) -> ProgramAnswer:
    """What a short search answers."""
    return run_program(program, ["alone", "-", "--fuel", str(TRY_VISITS)], timetable.text())


def near_first(timetable: Timetable, released: set[str]) -> list[list[str]]:
    """The lessons that share people or rooms with these, then those that share some with these, and so on."""
    rings, left = [], set(timetable.lessons) - released
    touched = {who for name in released for who in timetable.lessons[name].people()}
    while left:
        ring = {name for name in left if not touched.isdisjoint(timetable.lessons[name].people())} or left
        rings.append(sorted(ring))
        left -= ring
        touched |= {who for name in ring for who in timetable.lessons[name].people()}
    return rings


def movable(timetable: Timetable, draw: random.Random, seconds: float) -> Iterator[set[str]]:
    """Choices of lessons that may move where a plan is kept: those that can't stay, and ever more of those that have to
    do with them, as far as their searches take so many seconds."""
    unfit = timetable.unfit()
    yield unfit
    near = near_first(timetable, unfit)
    for size in itertools.accumulate(itertools.repeat(2), lambda size, _: size * 3 // 2):
        if size > len(timetable.lessons):
            return
        until = time.monotonic() + SHARE * seconds
        for _ in itertools.takewhile(lambda number: not number or time.monotonic() < until, range(CHOICES)):
            order = [name for ring in near for name in draw.sample(ring, len(ring))]
            yield unfit | set(order[:size])


def fewer_moved(program: str, timetable: Timetable, released: set[str], found: ProgramAnswer, limit: float) -> ProgramAnswer:
    """An answer in which fewer lessons move than these, which have moved in this one: each of them is tried in its
    places, one after the other."""
    for name in sorted(released - timetable.unfit()):
        if time.monotonic() < limit:
            again = shortly(program, timetable.kept(released - {name}))
            if again.is_cover:
                released, found = released - {name}, again
    return found


def planned(program: str, timetable: Timetable, is_kept: bool, seconds: float) -> Optional[ProgramAnswer]:
    """The answer to the problem of a timetable, where it is found in so many seconds, or how the program failed. Where
    a plan is kept, short searches come first, in which ever more of its lessons may move; their `none` says nothing of
    the problem as it is."""
    limit = time.monotonic() + seconds
    choices = movable(timetable, random.Random(1), seconds) if is_kept else iter(())
    for released in itertools.takewhile(lambda _: time.monotonic() < limit, choices):
        found = shortly(program, timetable.kept(released))
        if found.is_cover:
            return fewer_moved(program, timetable, released, found, limit)
        if not (found.is_none or found.is_open):
            return found
    found = answer_of(program, timetable.text(), max(1.0, limit - time.monotonic()))
    return None if found.is_open else found
