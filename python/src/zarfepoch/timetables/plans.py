"""Plans of a school as tables: a row for each time that a lesson is given. A plan that is to be kept puts its places
before others."""
from __future__ import annotations

import re
from dataclasses import dataclass
from typing import Optional

from ..texts.puzzles import refuse
from .rules import School
from .steps import Block, Hour, Step
from .tables import read_table
from .weeks import day_of, in_order, Periods

COLUMNS, NEEDED = ("lesson", "teacher", "class", "rooms", "periods", "length", "note"), ("lesson", "class", "periods")
ALIASES = {"lessons": "lesson", "teachers": "teacher", "classes": "class", "room": "rooms", "period": "periods"}


# how far a lesson is from a plan in which it has other periods
MOVED = 2


@dataclass
class Place:
    """Where one time of a lesson was: its first period, and who had it there."""
    period: str
    teachers: frozenset[str]
    rooms: frozenset[str]


# for each lesson, by its title and its classes, its places in the order of the week
Plan = dict[tuple[str, frozenset[str]], list[Place]]


def names_of(cell: str) -> frozenset[str]:
    """The names of a cell of a plan, which has `+` or `;` between several."""
    return frozenset(name.strip() for name in re.split("[+;]", cell) if name.strip() not in ("", "-"))


def read_plan(path: str, school: School) -> Plan:
    """The plan of a table; lessons that the school hasn't are passed over."""
    rows = list(read_table(path, COLUMNS, NEEDED, ALIASES))
    periods = Periods(path, [row["periods"] for _, row in rows])
    plan: Plan = {}
    for line, row in rows:
        if not row["periods"]:
            refuse(path, line, "a row of a plan has the periods of one time of a lesson")
        run = in_order(periods.read(line, row["periods"]))
        place = Place(run[0], names_of(row.get("teacher", "")), names_of(row.get("rooms", "")))
        plan.setdefault((row["lesson"], names_of(row["class"])), []).append(place)
    order = in_order([place.period for places in plan.values() for place in places])
    for places in plan.values():
        places.sort(key=lambda place: order.index(place.period))
    return plan


def places_of(plan: Plan, hour: Hour) -> list[Place]:
    """Where a time of a lesson may be so that it stays in a plan. Times with numbers are in the order of the week, so
    each of them may take any place of its lesson: where one time goes elsewhere, the others stay, whatever their
    numbers are then."""
    places = plan.get((hour.lesson.title, frozenset(hour.lesson.classes)), [])
    if hour.is_fixed:
        return [place for place in places if place.period == hour.steps[0].run[0]]
    left = [place for place in places if place.period not in hour.lesson.fixed]
    return left if hour.number() else [place for place in left if day_of(place.period) == hour.label][:1]


def difference(places: list[Place], step: Step) -> int:
    """How far a way to give a lesson is from where it was: 0 the same, 1 with other people or rooms, `MOVED` in other
    periods."""
    here = [place for place in places if place.period == step.run[0]]
    if not here:
        return MOVED
    return 0 if any((place.teachers, place.rooms) == (frozenset(step.teachers), frozenset(step.rooms)) for place in here) else 1


def preference(plan: Optional[Plan], block: Block, way: tuple[Step, ...]) -> int:
    """The place of a way among others of its times: what a plan has comes first."""
    return max(difference(places_of(plan, hour), step) for hour, step in zip(block.hours, way)) if plan else 0
