"""A school's second table, of rules: when somebody or a room can be had, how many periods a day somebody has at most,
and how many holes.

Its columns are who, periods, away, a_day and holes. `who` is a teacher, a class or a room of the table of lessons, or
teachers, classes, rooms or all, or lessons: of these a_day says at most how often a day each is given. An empty cell
says nothing. Who has several rows, as one of their own and one of `teachers`, is there only when all of them say so; of
a_day and holes the own row counts.
"""
from __future__ import annotations

from collections.abc import Iterable, Iterator
from dataclasses import dataclass, replace, field
from typing import Optional

from ..files.cover_files import shown
from ..texts.names import loose
from ..texts.puzzles import refuse
from .tables import Lesson, number_in, read_table, Table
from .weeks import day_and_number, day_of, in_order, told_periods

COLUMNS, NEEDED = ("who", "periods", "away", "a_day", "holes", "note"), ("who",)
ALIASES = {"name": "who", "period": "periods", "absent": "away", "aday": "a_day", "perday": "a_day", "hole": "holes", "gaps": "holes", "notes": "note"}
GROUPS = {"teacher": "teachers", "class": "classes", "room": "rooms"}
WORDS = ("all", "lessons", *GROUPS.values())


@dataclass
class Rule:
    """What is said of somebody: the periods in which they or a room can be had, None for all, at most so many a day,
    and so many holes in all."""
    line: int
    periods: Optional[set[str]] = None
    a_day: Optional[int] = None
    holes: Optional[int] = None


@dataclass
class School:
    """Lessons, the week's periods in order, and what rules say of people, classes and rooms, by their names."""
    path: str
    lessons: list[Lesson]
    week: list[str]
    roles: dict[str, str]
    separator: str = ","
    rules: dict[str, Rule] = field(default_factory=dict)

    def can_have(self, who: str, period: str) -> bool:
        """Whether somebody or a room can be had in a period."""
        rule = self.rules.get(who)
        return rule is None or rule.periods is None or period in rule.periods


def rule_words(school: School, who: str) -> str:
    """What the rules say of somebody."""
    rule = school.rules[who]
    parts = [f"can be had in {told_periods(rule.periods) or 'no period'}" if rule.periods is not None else "",
             f"at most {rule.a_day} periods a day" if rule.a_day else "",
             "" if rule.holes is None else "no holes" if rule.holes == 0 else f"at most {rule.holes} holes"]
    return f"{who} (line {rule.line} of the rules): {', '.join(filter(None, parts))}"


@dataclass
class Row:
    """A row of the table of rules."""
    line: int
    who: str
    periods: list[str]
    away: list[str]
    a_day: Optional[int]
    holes: Optional[int]


def raw_rows(path: Optional[str]) -> list[tuple[int, dict[str, str]]]:
    """The rows of the table of rules, if there is one."""
    return list(read_table(path, COLUMNS, NEEDED, ALIASES)) if path else []


def rows_of_rules(path: str, raw: list[tuple[int, dict[str, str]]], table: Table) -> Iterator[Row]:
    """What the rows say."""
    table.periods.path = path
    for line, row in raw:
        yield Row(line, row["who"], table.periods.read(line, row.get("periods", "")), table.periods.read(line, row.get("away", "")),
                  number_in(path, line, row, "a_day", 1, 99), number_in(path, line, row, "holes", 0, 99))


def roles_in(lessons: list[Lesson]) -> dict[str, str]:
    """The role of each name, in the order of the roles and of the table."""
    found = {}
    for role, names in (("teacher", (one for lesson in lessons for some in lesson.teachers for one in some)),
                        ("class", (one for lesson in lessons for one in lesson.classes)),
                        ("room", (one for lesson in lessons for some in lesson.rooms for one in some))):
        found.update(dict.fromkeys(names, role))
    return found


def want_meant(path: str, row: Row, roles: dict[str, str], seen: dict[str, int]) -> None:
    """Refuses a row that can't be meant."""
    if not row.who:
        refuse(path, row.line, "who is missing: a teacher, a class, a room, or teachers, classes, rooms, all or "
               "lessons")
    near = next((name for name in [*roles, *WORDS] if loose(name) & loose(row.who)), None)
    if row.who not in roles and row.who not in WORDS:
        refuse(path, row.line, f"no lesson has a teacher, a class or a room '{shown(row.who.encode())}'" + (f"; there is {near}" if near else ""))
    if row.who in roles and row.who in WORDS:
        refuse(path, row.line, f"'{row.who}' is a {roles[row.who]} and a word for all of a kind; give the {roles[row.who]} another name")
    if row.who in seen:
        refuse(path, row.line, f"{row.who} has a row in line {seen[row.who]} already")
    if row.who == "lessons" and (row.periods or row.away or row.holes is not None):
        refuse(path, row.line, "of lessons a_day alone can be said; their periods stand in the table of lessons")
    if row.who == "all" and (row.a_day is not None or row.holes is not None):
        refuse(path, row.line, "of all periods and away alone can be said; a_day and holes are those of teachers or of classes")
    if (row.who == "rooms" or roles.get(row.who) == "room") and (row.a_day is not None or row.holes is not None):
        refuse(path, row.line, "of a room periods and away alone can be said")
    if row.periods and row.away:
        refuse(path, row.line, "periods says when somebody can be had, and away when not: one of them is enough")
    seen[row.who] = row.line


def rule_of(who: str, role: str, rows: dict[str, Row], week: list[str]) -> Optional[Rule]:
    """What the rows say of somebody together; of numbers their own row comes first."""
    mine = [rows[word] for word in (who, GROUPS[role], "all") if word in rows]
    if not mine:
        return None
    allowed = set(week)
    for row in mine:
        allowed &= set(row.periods or week)
        allowed -= set(row.away)
    a_day, holes = (next((number for number in numbers if number is not None), None)
                    for numbers in ([row.a_day for row in mine], [row.holes for row in mine]))
    return Rule(mine[0].line, None if allowed == set(week) else allowed, a_day, holes)


def week_of(path: str, lessons: list[Lesson], rows: Iterable[Row]) -> list[str]:
    """All periods that a table names; lessons whose cell is empty may have each of them."""
    rows = list(rows)
    everywhere = next((row.periods for row in rows if row.who == "all" and row.periods), None)
    named = [period for lesson in lessons for period in lesson.periods + lesson.fixed] + [period for row in rows for period in row.periods]
    week = in_order(everywhere or named)
    if not week:
        refuse(path, lessons[0].line, "no row has periods, so nobody knows the week; write them, as Mon-Fri1-6, in some row, or in the row all of "
               "the rules")
    return week


def read_school(path: str, rules: Optional[str] = None) -> School:
    """The lessons of a table, with the rules of another."""
    raw = raw_rows(rules)
    table = Table(path, [row.get(column, "") for _, row in raw for column in ("periods", "away")])
    lessons = table.lessons()
    rows = with_whole_days(lessons, list(rows_of_rules(rules or "", raw, table)))
    week = week_of(path, lessons, rows)
    for lesson in lessons:
        lesson.periods = lesson.periods or list(week)
        strange = next((period for period in lesson.fixed if period not in lesson.periods), None)
        if strange:
            refuse(path, lesson.line, f"{lesson.title} is fixed at {strange}, which isn't one of its periods: {told_periods(lesson.periods)}")
    table.check(lessons)
    school = School(path, lessons, week, roles_in(lessons), table.separator)
    seen: dict[str, int] = {}
    known = in_order([*week, *(period for lesson in lessons for period in lesson.periods)])
    for row in rows:
        want_meant(rules or "", row, school.roles, seen)
        want_known(rules or "", row, set(known))
    by_name = {row.who: row for row in rows}
    found = {who: rule_of(who, role, by_name, known) for who, role in school.roles.items()}
    school.rules = {who: rule for who, rule in found.items() if rule}
    everybody = by_name.get("lessons")
    for lesson in lessons:
        lesson.a_day = lesson.a_day or (1 if lesson.apart and lesson.times > 1 else everybody.a_day if everybody else None)
    return school


def with_whole_days(lessons: list[Lesson], rows: list[Row]) -> list[Row]:
    """The rows, in which a day without a number, as Mon, is all periods of that day that the lessons or the rows
    name."""
    known = [period for lesson in lessons for period in lesson.periods + lesson.fixed]
    known = in_order(known + [period for row in rows for period in row.periods if day_and_number(period)])

    def whole(words: list[str]) -> list[str]:
        days = {word: [one for one in known if day_of(one) == word] for word in words if word not in known}
        return list(dict.fromkeys(one for word in words for one in days.get(word) or [word]))

    return [replace(row, periods=whole(row.periods), away=whole(row.away)) for row in rows]


def want_known(path: str, row: Row, week: set[str]) -> None:
    """Refuses a period that no lesson may have, since it is one that is written in another way."""
    strange = next((period for period in [*row.periods, *row.away] if period not in week), None)
    if strange:
        refuse(path, row.line, f"no lesson may have the period {strange}; the week has {', '.join(in_order(week)[:6])} and so on")

