"""Schools drawn by lot that have a timetable, and a test of timetables that knows nothing of items, options and covers.

The test reads the table of lessons and the plans that draw.py prints, as a teacher would: each lesson is given as often
as it should be, at allowed periods, with its length on one day; its teachers and classes all have it in their plans at
the same time, and one of its rooms too.
"""
from __future__ import annotations

import csv
import io
import random
import re
from collections.abc import Iterator, Sequence
from typing import Optional

# a period's day and number there; for each name in the plans the words at each period
Time = tuple[str, int]
Plans = dict[str, dict[Time, list[str]]]

DAYS = ("Mon", "Tue", "Wed", "Thu", "Fri")


# ---- a school by lot

class School:
    """A timetable drawn by lot, from which a table of lessons is read off: so this table has a timetable."""

    def __init__(self, seed: int, classes: int, teachers: int, rooms: int, per_day: int) -> None:
        """With no rooms each class has one of its own."""
        self.draw = random.Random(seed)
        self.periods = [(day, number) for day in DAYS for number in range(1, per_day + 1)]
        self.classes = [f"{5 + k // 2}{'ab'[k % 2]}" for k in range(classes)]
        self.teachers, self.rooms = [f"t{k}" for k in range(teachers)], [f"r{k}" for k in range(rooms)]
        self.busy: set[tuple[str, Time]] = set()
        self.given: list[tuple[tuple[str, ...], int]] = []

    def is_free(self, who: Sequence[str], times: Sequence[Time]) -> bool:
        return all((one, time) not in self.busy for one in who for time in times)

    def give(self, classes: Sequence[str], times: Sequence[Time]) -> bool:
        """Gives classes a lesson at these times, by some teacher in some room who are free."""
        if not self.is_free(classes, times):
            return False
        teachers = [one for one in self.teachers if self.is_free([one], times)]
        rooms = [one for one in self.rooms or [f"room-of-{classes[0]}"] if self.is_free([one], times)]
        if not teachers or not rooms:
            return False
        who = [self.draw.choice(teachers), *classes, self.draw.choice(rooms)]
        self.busy |= {(one, time) for one in who for time in times}
        self.given.append((tuple(who), len(times)))
        return True

    def fill(self, joint: int, double: int) -> bool:
        """So many joint lessons and double lessons, and single ones in all other periods of each class."""
        runs = [(one, other) for one, other in zip(self.periods, self.periods[1:]) if one[0] == other[0]]
        while joint:
            first = self.draw.randrange(len(self.classes) // 2) * 2
            joint -= self.give(tuple(self.classes[first:first + 2]), self.draw.choice(runs))
        while double:
            double -= self.give((self.draw.choice(self.classes),), self.draw.choice(runs))
        return all(self.give((one,), [time]) for time in self.periods for one in self.classes if self.is_free([one], [time]))

    def table(self) -> str:
        """The lessons, one row for those of the same people and length; each may have any room that the lot gave one of
        them."""
        rows: dict[tuple[tuple[str, ...], int], list[str]] = {}
        for who, length in self.given:
            rows.setdefault((who[:-1], length), []).append(who[-1])
        week = " ".join(f"{day}1-{len(self.periods) // len(DAYS)}" for day in DAYS)
        lines = ["lesson;teacher;class;rooms;periods;hours;length"]
        for k, (((teacher, *classes), length), rooms) in enumerate(sorted(rows.items())):
            lines.append(f"s{k};{teacher};{'+'.join(classes)};{' '.join(sorted(set(rooms)))};{week};{len(rooms)};{length}")
        return "\n".join(lines) + "\n"


def school(seed: int, classes: int = 6, teachers: int = 10, rooms: int = 8, per_day: int = 6, joint: int = 4, double: int = 12) -> str:
    """A table of lessons that has a timetable."""
    for further in range(1000):
        drawn = School(seed * 1000 + further, classes, teachers, rooms, per_day)
        if drawn.fill(joint, double):
            return drawn.table()
    raise ValueError("no such school was found")


# ---- what plans say

def cells_of(line: str, spans: list[tuple[int, int]]) -> list[str]:
    return [line[begin:end].strip() for begin, end in spans]


def plans_of(lines: list[str]) -> Plans:
    """For each name in draw.py's plans the words at each day and number of a period."""
    plans = {}
    for block in "\n".join(lines).split("\n\n"):
        rows = block.split("\n")
        spans = [(found.start(), found.end()) for found in re.finditer("-+", rows[1])]
        name, *days = cells_of(rows[0], spans)
        plans[name] = {(day, int(cells_of(row, spans)[0])): cell.split() for row in rows[2:]
                       for day, cell in zip(days, cells_of(row, spans)[1:]) if cell}
    return plans


def allowed(cell: str) -> set[Time]:
    """The periods of a cell of the table, as Mon1-3 or Tue4."""
    found = set()
    for day, first, last in re.findall(r"([A-Za-z]+)(\d+)(?:-(\d+))?", cell):
        found |= {(day, number) for number in range(int(first), int(last or first) + 1)}
    return found


def runs_of(times: set[Time], length: int) -> Optional[list[list[Time]]]:
    """Times in runs of this length on one day; None where they don't make such."""
    left, runs = sorted(times), []
    while left:
        day, number = left[0]
        run = [(day, number + k) for k in range(length)]
        if not set(run) <= set(left):
            return None
        left = [time for time in left if time not in run]
        runs.append(run)
    return runs


def faults_of_lesson(row: dict[str, str], plans: Plans) -> Iterator[str]:
    """What is wrong with one lesson of the table in these plans."""
    name, rooms = row["lesson"], row["rooms"].split()
    people = row["teacher"].split("+") + row["class"].split("+")
    times = {one: {time for time, words in plans.get(one, {}).items() if words[0] == name} for one in people}
    at = times[people[0]]
    if any(times[one] != at for one in people):
        yield f"{name}: not all of {people} have it at one time"
    if len(at) != int(row["hours"]) * int(row["length"]):
        yield f"{name} is given in {len(at)} periods"
    if not at <= allowed(row["periods"]):
        yield f"{name} is given at a period that it may not have"
    runs = runs_of(at, int(row["length"]))
    if runs is None:
        yield f"{name} doesn't run on one day"
    taken = {time: [room for room in rooms if plans.get(room, {}).get(time, [""])[0] == name] for time in at}
    if any(len(found) != 1 for found in taken.values()):
        yield f"{name} hasn't one of its rooms"
    if any(len({tuple(taken[time]) for time in run}) > 1 for run in runs or []):
        yield f"{name} changes its room between periods that run"


def faults(table: str, lines: list[str]) -> list[str]:
    """What is wrong with plans of everybody, by the table of lessons. A plan has one lesson at a time, so nobody is in
    two places where each lesson is in all its plans."""
    rows = list(csv.DictReader(io.StringIO(table), delimiter=";"))
    plans = plans_of(lines)
    found = [fault for row in rows for fault in faults_of_lesson(row, plans)]
    names = {row["lesson"] for row in rows}
    return found + [f"{who} has {words}" for who, plan in plans.items() for words in plan.values() if words[0] not in names]
