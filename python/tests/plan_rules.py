"""A test of a school's plan that knows nothing of items, options and covers: it reads the table of lessons, the table
of rules and the plan's own table as a head teacher would, and says what is wrong.

It understands what the schools of `planned_schools.py` use: names with `+`, `or` and `;`, periods as Mon1-6 and
Mon-Fri1-6.
"""
from __future__ import annotations

import csv
import io
import re
from collections import Counter
from collections.abc import Iterator
from typing import NamedTuple, Optional

DAYS = ("Mon", "Tue", "Wed", "Thu", "Fri")
Time = tuple[str, int]
Row = dict[str, str]


class Given(NamedTuple):
    """A row of a plan: a lesson, who has it, in which rooms, and when."""
    lesson: str
    teachers: frozenset[str]
    classes: frozenset[str]
    rooms: frozenset[str]
    times: tuple[Time, ...]


def rows_of(table: str) -> list[Row]:
    """The rows of a table by its head."""
    separator = ";" if ";" in table.split("\n")[0] else ","
    return [{key: (value or "").strip() for key, value in row.items()} for row in csv.DictReader(io.StringIO(table), delimiter=separator)]


def times_of(cell: str) -> list[Time]:
    """The periods of a cell, as Mon1, Mon1-3 or Mon-Fri1-6."""
    found: list[Time] = []
    for first, last, low, high in re.findall(r"([A-Z][a-z]+)(?:-([A-Z][a-z]+))?(\d+)(?:-(\d+))?", cell):
        days = DAYS[DAYS.index(first):DAYS.index(last or first) + 1]
        found += [(day, number) for day in days for number in range(int(low), int(high or low) + 1)]
    return found


def runs_in(times: list[Time], length: int) -> list[tuple[Time, ...]]:
    """The runs of so many of these periods, one after another on a day."""
    runs = (tuple((day, number + k) for k in range(length)) for day, number in times)
    return [run for run in runs if set(run) <= set(times)]


def joined(cell: str) -> frozenset[str]:
    """Names with `+` between."""
    return frozenset(name.strip() for name in cell.split("+") if name.strip() not in ("", "-"))


def choices(cell: str) -> list[frozenset[str]]:
    """The choices of a cell: `or`, blanks and `;` part them."""
    return [joined(part) for part in re.split(r"\s+or\s+|[;\s]+", cell)] if cell not in ("", "-") else [frozenset()]


def read_plan(text: str) -> list[Given]:
    return [Given(row["lesson"], joined(row["teacher"]), joined(row["class"]), joined(row["rooms"]), tuple(times_of(row["periods"]))) for row in rows_of(text)]


def of_lesson(row: Row, plan: list[Given]) -> list[Given]:
    return [given for given in plan if given.lesson == row["lesson"] and given.classes == joined(row["class"])]


def faults_of_row(row: Row, plan: list[Given], week: list[Time], a_day: Optional[str]) -> Iterator[str]:
    """What is wrong with the times of one row of the table of lessons."""
    name, found = f"{row['lesson']} of {row['class']}", of_lesson(row, plan)
    length, most = int(row.get("length") or 1), row.get("a_day") or a_day
    if len(found) != int(row.get("times") or 1):
        yield f"{name} is given {len(found)} times"
    for given in found:
        day, first = given.times[0]
        if given.times != tuple((day, first + k) for k in range(length)):
            yield f"{name} doesn't run over {length} periods: {given.times}"
        if not set(given.times) <= set(times_of(row.get("periods", "")) or week):
            yield f"{name} is given at {given.times}"
        if given.teachers not in choices(row["teacher"]) or given.rooms not in choices(row.get("rooms", "")):
            yield f"{name} has {set(given.teachers)} in {set(given.rooms)}"
    if len({given.teachers for given in found}) > 1:
        yield f"{name} has several teachers"
    days = Counter(given.times[0][0] for given in found)
    if most and days and max(days.values()) > int(most):
        yield f"{name} is given {max(days.values())} times on a day"
    for time in times_of(row.get("fixed", "")):
        if time not in [given.times[0] for given in found]:
            yield f"{name} isn't given at {time}"


def faults_of_pairs(rows: list[Row], plan: list[Given]) -> Iterator[str]:
    """What is wrong with lessons that follow others, or are kept on different days."""
    for row in rows:
        before = [other for other in rows if row.get("after") and other["lesson"] == row["after"] and joined(other["class"]) & joined(row["class"])]
        ends = [(given.times[-1][0], given.times[-1][1] + 1) for other in before for given in of_lesson(other, plan)]
        for given in of_lesson(row, plan):
            if before and given.times[0] not in ends:
                yield f"{row['lesson']} doesn't follow {row['after']}"
    for word in {word for row in rows for word in row.get("apart", "").split()}:
        days = Counter(given.times[0][0] for row in rows if word in row.get("apart", "").split() for given in of_lesson(row, plan))
        if days and max(days.values()) > 1:
            yield f"lessons of {word} are on one day"


def busy_times(plan: list[Given]) -> dict[str, list[Time]]:
    """When each teacher, class and room is busy, as often as they are."""
    found: dict[str, list[Time]] = {}
    for given in plan:
        for who in (*given.teachers, *given.classes, *given.rooms):
            found.setdefault(who, []).extend(given.times)
    return found


def faults_of_rule(who: str, rule: Row, times: list[Time], week: list[Time]) -> Iterator[str]:
    """What is wrong with somebody's week by one row of the rules."""
    there = [time for time in times_of(rule.get("periods", "")) or week if time not in times_of(rule.get("away", ""))]
    if not set(times) <= set(there):
        yield f"{who} is busy at {set(times) - set(there)}"
    by_day = {day: sorted(number for one, number in times if one == day) for day in DAYS}
    if rule.get("a_day") and max(map(len, by_day.values())) > int(rule["a_day"]):
        yield f"{who} has {max(map(len, by_day.values()))} periods a day"


def holes_of(times: list[Time], there: list[Time]) -> int:
    """The free periods between two lessons of a day in which somebody is there."""
    count = 0
    for day in DAYS:
        numbers = [number for one, number in times if one == day]
        count += sum(time not in times for time in there if time[0] == day and numbers and min(numbers) < time[1] < max(numbers))
    return count


def rules_of(who: str, role: str, rules: list[Row]) -> list[Row]:
    """The rows of the rules that speak of somebody, their own first."""
    return [rule for word in (who, role, "all") for rule in rules if rule["who"] == word]


def faults(table: str, rules_table: str, text: str) -> list[str]:
    """What is wrong with a plan, by the tables of lessons and of rules."""
    rows, rules, plan = rows_of(table), rows_of(rules_table) if rules_table else [], read_plan(text)
    week = list(dict.fromkeys(time for row in [*rows, *rules] for time in times_of(row.get("periods", ""))))
    a_day = next((rule["a_day"] for rule in rules if rule["who"] == "lessons"), None)
    found = [fault for row in rows for fault in faults_of_row(row, plan, week, a_day)] + list(faults_of_pairs(rows, plan))
    known = {(row["lesson"], joined(row["class"])) for row in rows}
    found += [f"there is no lesson {given.lesson} of {set(given.classes)}" for given in plan if (given.lesson, given.classes) not in known]
    roles = {who: role for given in plan for role, some in (("teachers", given.teachers), ("classes", given.classes), ("rooms", given.rooms)) for who in some}
    for who, times in busy_times(plan).items():
        if len(set(times)) < len(times):
            found.append(f"{who} is in two places at a time")
        mine = rules_of(who, roles[who], rules)
        for what in ("a_day", "holes"):
            own = next((rule[what] for rule in mine if rule.get(what)), "")
            mine = [{**rule, what: own} for rule in mine]
        found += [fault for rule in mine for fault in faults_of_rule(who, rule, times, week)]
        there = [time for time in week if all(time in (times_of(rule.get("periods", "")) or week) and time not in times_of(rule.get("away", ""))
                                              for rule in mine)]
        if mine and mine[0].get("holes") and holes_of(times, there) > int(mine[0]["holes"]):
            found.append(f"{who} has {holes_of(times, there)} holes")
    return found
