"""Reasons by counting for problems in which many items are alike, as pairs of people who may meet once: all of a kind
need as much, or have as much room.

Kinds of items are told apart by the kinds of options that name them, and these by the kinds of their items, as long as
that parts any. If any needs and rooms show that there is too little room, then some do that are equal within a kind:
the mean of all that could stand for one another. So a linear program with a number for each kind finds them; it is
solved in fractions, and what it finds is added up again before anybody hears of it. That may take long, so it ends
where a time is over.
"""
from __future__ import annotations

import time
from collections import Counter
from fractions import Fraction
from math import lcm
from typing import Optional

from ..errors import TimeIsUp
from ..files.cover_files import Problem
from .cover_reason import found_reason, Reason

# so many seconds items are counted where no time is told: nine people on five evenings take less than a tenth of one
SECONDS = 2.0
# so many kinds at most, of items and of options: more are no longer found at once
MOST_KINDS, MOST_ROWS = 24, 200
# the greatest number of a reason
MOST = 65_535
# the numbers of a row of a linear program
Row = list[Fraction]


def want_time(until: Optional[float]) -> None:
    """Raises `TimeIsUp` where the clock is beyond this time, if there is one."""
    if until is not None and time.monotonic() >= until:
        raise TimeIsUp("the time was over before a reason was found")


def kinds_of_items(problem: Problem, options: list[list[int]], coloured: set[int], until: Optional[float]) -> Optional[list[int]]:
    """A number for each item, the same for those of a kind; None where there are too many kinds."""
    count = len(problem.items)
    kinds = numbered([(item < problem.primary, item in coloured) for item in range(count)])
    named: list[list[int]] = [[] for _ in range(count)]
    for place, option in enumerate(options):
        for item in option:
            named[item].append(place)
    while True:
        want_time(until)
        of_options = numbered([tuple(sorted(kinds[item] for item in option)) for option in options])
        finer = numbered([(kinds[item], *sorted(of_options[place] for place in named[item])) for item in range(count)])
        if max(finer, default=0) == max(kinds, default=0) or max(finer) >= MOST_KINDS:
            return finer if max(finer, default=0) < MOST_KINDS else None
        kinds = finer


def numbered(some: list[tuple[int, ...]]) -> list[int]:
    """The numbers of these, from 0, the same for equal ones."""
    found: dict[tuple[int, ...], int] = {}
    return [found.setdefault(one, len(found)) for one in some]


def exchanged(table: list[Row], goal: Row, row: int, column: int) -> None:
    """Makes the column that of a row's own number: it is 1 there, and 0 in all other rows."""
    pivot = table[row][column]
    table[row] = [number / pivot if number else number for number in table[row]]
    for other in (*(one for k, one in enumerate(table) if k != row), goal):
        factor = other[column]
        if factor:
            other[:] = [number - factor * mine if mine else number for number, mine in zip(other, table[row])]


def greatest(gains: Row, rows: list[Row], bounds: Row, until: Optional[float]) -> Row:
    """Numbers from 0 on of which the rows make no more than the bounds, which aren't less than 0, and the gains as much
    as they can (simplex)."""
    count, wide = len(rows), len(gains)
    table = [[*row, *(Fraction(place == k) for k in range(count)), bound] for place, (row, bound) in enumerate(zip(rows, bounds))]
    goal = [*gains, *[Fraction(0)] * (count + 1)]
    basis = list(range(wide, wide + count))
    # (the first of the columns and of the rows that can be taken, so that none comes again and again)
    while (column := next((k for k in range(wide + count) if goal[k] > 0), -1)) >= 0:
        want_time(until)
        _, _, row = min((own[-1] / own[column], basis[k], k) for k, own in enumerate(table) if own[column] > 0)
        basis[row] = column
        exchanged(table, goal, row, column)
    found = {place: table[k][-1] for k, place in enumerate(basis)}
    return [found.get(place, Fraction(0)) for place in range(wide)]


def weights_of(sizes: list[int], signs: list[tuple[int, ...]], rows: list[Counter[int]], until: Optional[float]) -> list[int]:
    """For each kind what one of it needs, or less than 0 for the room that it has; all 0 where no numbers show
    anything. `signs` has what a kind may."""
    columns = [(kind, sign) for kind, own in enumerate(signs) for sign in own]
    gains = [Fraction(sign * sizes[kind]) for kind, sign in columns]
    limits = [[Fraction(sign * row[kind]) for kind, sign in columns] for row in rows]
    ones = [[Fraction(place == k) for place in range(len(columns))] for k in range(len(columns))]
    found = greatest(gains, limits + ones, [Fraction(0)] * len(rows) + [Fraction(1)] * len(columns), until)
    unit = lcm(*(number.denominator for number in found))
    weights = [0] * len(sizes)
    for (kind, sign), number in zip(columns, found):
        weights[kind] += sign * int(number * unit)
    return weights


def even_room(problem: Problem, until: Optional[float] = None) -> Optional[Reason]:
    """A reason for `none` in which all items of a kind have equal numbers; None where there is none, or where there are
    too many kinds. `TimeIsUp` where the clock is beyond `until` before that is known."""
    places = {name: place for place, name in enumerate(problem.names())}
    options = [[places[name] for name in option.names] for option in problem.options]
    coloured = {places[name] for option in problem.options for name, colour in zip(option.names, option.colours) if colour is not None}
    kinds = kinds_of_items(problem, options, coloured, until)
    if not kinds:
        return None
    sizes = Counter(kinds)
    signs: dict[int, tuple[int, ...]] = {kind: (1, -1) if item < problem.primary else () if item in coloured else (-1,) for item, kind in enumerate(kinds)}
    rows = [Counter(dict(row)) for row in dict.fromkeys(tuple(sorted(Counter(kinds[item] for item in option).items())) for option in options)]
    if len(rows) > MOST_ROWS:
        return None
    weights = weights_of([sizes[kind] for kind in range(len(sizes))], [signs[kind] for kind in range(len(sizes))], rows, until)
    if not any(weights) or max(abs(weight) for weight in weights) > MOST:
        return None
    lines = [b"%s %d %s" % (b"need" if weights[kind] > 0 else b"room", abs(weights[kind]), name)
             for name, kind in zip(problem.names(), kinds) if weights[kind]]
    reason = Reason(b"\n".join([b"none", b"too little room", *lines]))
    return reason if reason.holds(problem) else None


def any_reason(program: str, text: bytes, problem: Problem, seconds: Optional[float] = None, counting: float = SECONDS) -> Optional[Reason]:
    """A reason for `none` of a problem file, by the program, or else by counting kinds of items; an OSError where the
    program can't be run. None where there is none in so many seconds, if they are told, of which `counting` takes so
    many at most."""
    until = None if seconds is None else time.monotonic() + seconds
    try:
        found = found_reason(program, text, seconds)
        latest = time.monotonic() + counting
        return found or even_room(problem, latest if until is None else min(latest, until))
    except TimeIsUp:
        return None
