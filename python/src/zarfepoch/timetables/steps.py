"""The ways to give lessons: at each time in the week a run of periods, those teachers and those rooms, as the table and
the rules allow; and what counting alone shows of them, before any search."""
from __future__ import annotations

import itertools
from collections.abc import Iterable
from dataclasses import dataclass, field
from typing import NamedTuple, NoReturn, Optional

from ..files.fault_words import plural
from ..texts.puzzles import no_cover, refuse
from .always_busy import Shortage, always_busy
from .rules import Rule, rule_words, School
from .tables import Lesson, Together
from .weeks import day_and_number, day_of, in_order, in_week, told_periods


class Step(NamedTuple):
    """One way to give one time of a lesson: in which periods, by which teachers, in which rooms."""
    run: tuple[str, ...]
    teachers: Together
    rooms: Together


@dataclass
class Hour:
    """One time that a lesson is given in the week, and the ways that it may be. `label` is the number of the time, or
    the day on which it may be."""
    lesson: Lesson
    label: str
    steps: list[Step]
    is_fixed: bool = False

    def number(self) -> int:
        """The number of the time, 0 where a day stands for it."""
        return int(self.label) if self.label.isdecimal() else 0

    def periods(self) -> list[str]:
        return list(dict.fromkeys(period for step in self.steps for period in step.run))

    def days(self) -> list[str]:
        return in_week(dict.fromkeys(day_of(step.run[0]) for step in self.steps))


@dataclass
class Block:
    """Times of lessons that follow one another, mostly one alone, and the ways that they may be given together."""
    hours: list[Hour]
    ways: list[tuple[Step, ...]] = field(default_factory=list)


# ---- periods

def runs_of(periods: list[str], length: int) -> list[tuple[str, ...]]:
    """The runs of so many of these periods, one after another on one day."""
    if length == 1:
        return [(period,) for period in periods]
    at = {day_and_number(period): period for period in periods}
    runs = []
    for day, number in filter(None, at):
        run = [at[day, number + k] for k in range(length) if (day, number + k) in at]
        if len(run) == length:
            runs.append(tuple(run))
    return runs


def follows(run: tuple[str, ...], before: tuple[str, ...]) -> bool:
    """Whether a run begins in the period behind another one."""
    first, last = day_and_number(run[0]), day_and_number(before[-1])
    return bool(first and last and first == (last[0], last[1] + 1))


def has_days(school: School) -> bool:
    """Whether all periods tell their day, or are so few that they are those of one day."""
    numbers = [int(period) for period in school.week if period.isdecimal()]
    return None not in map(day_and_number, school.week) and not (numbers and max(numbers) > 12)


def want_days(school: School) -> None:
    """Refuses what counts days where nobody can tell which periods are those of one day."""
    with_day = next((period for period in school.week if day_and_number(period) and not period.isdecimal()), None)
    for lesson in school.lessons:
        bare = next(filter(str.isdecimal, lesson.periods), None)
        if bare and with_day:
            refuse(school.path, lesson.line, f"the period {bare} has no day, and {with_day} has one: either all have their day, or none")
        what = f"a lesson of {lesson.length} periods" if lesson.length > 1 else "a lesson that follows another" if lesson.after else ""
        what = what or ("at most so often a day" if lesson.a_day or lesson.apart else "")
        if what and not has_days(school):
            refuse(school.path, lesson.line, f"{what} wants periods that tell their day, as Mon1: nobody knows on which day "
                   f"{next(period for period in reversed(school.week))} is")
        if not runs_of(lesson.periods, lesson.length):
            refuse(school.path, lesson.line, f"of the periods of {lesson.title} no {lesson.length} run one after another on one day, as Mon1 and "
                   "Mon2 do")
    if not has_days(school) and any(rule.a_day is not None or rule.holes is not None for rule in school.rules.values()):
        refuse(school.path, None, "a_day and holes want periods that tell their day, as Mon1")


# ---- hours

def no_timetable(school: School, hours: Iterable[Lesson], why: str) -> NoReturn:
    """Ends the script: there is no timetable, because of these lessons."""
    lines = sorted({lesson.line for lesson in hours})
    told = ("line " if len(lines) == 1 else "lines ") + ", ".join(map(str, lines[:8])) + (" .." if len(lines) > 8 else "")
    no_cover(f"{school.path}, {told}: there is no timetable: {why}")


def steps_of(school: School, lesson: Lesson) -> list[Step]:
    """All ways to give a lesson once; where there is none, the script ends."""
    runs = [run for run in runs_of(lesson.periods, lesson.length) if all(school.can_have(one, period) for one in lesson.classes for period in run)]
    found = [Step(run, teachers, rooms) for rooms in lesson.rooms for teachers in lesson.teachers for run in runs
             if all(school.can_have(one, period) for one in (*teachers, *rooms) for period in run)]
    if not found:
        limits = [f"{who} in {told_periods(rule.periods) or 'none'}" for who in lesson.people()
                  if (rule := school.rules.get(who)) and rule.periods is not None]
        no_timetable(school, [lesson], f"{lesson.title} has no period that all have: of {told_periods(lesson.periods)}, {'; '.join(limits)}")
    return found


def fixed_steps(school: School, lesson: Lesson, steps: list[Step], period: str) -> list[Step]:
    """The ways that begin in a period in which the lesson has to be."""
    found = [step for step in steps if step.run[0] == period]
    if not found:
        no_timetable(school, [lesson], f"{lesson.title} is fixed at {period}, and can't be given then, since not all can be had"
                     + (f" in {lesson.length} periods from then on" if lesson.length > 1 else ""))
    return found


def hours_of(school: School, lesson: Lesson) -> list[Hour]:
    """All times that a lesson is given: first those with a place of their own."""
    steps = steps_of(school, lesson)
    if len(lesson.fixed) > lesson.times:
        refuse(school.path, lesson.line, f"{lesson.title} is given {plural(lesson.times, 'time')}, and {len(lesson.fixed)} places are fixed")
    hours = [Hour(lesson, str(number), fixed_steps(school, lesson, steps, period), True) for number, period in enumerate(lesson.fixed, 1)]
    days = [day_of(period) for period in lesson.fixed]
    if lesson.a_day:
        crowded = next((day for day in days if days.count(day) > (lesson.a_day or 0)), None)
        if crowded:
            no_timetable(school, [lesson], f"{lesson.title} is fixed {days.count(crowded)} times on {crowded}, and given at most {lesson.a_day} a day")
        full = {day for day in days if days.count(day) == lesson.a_day}
        steps = [step for step in steps if day_of(step.run[0]) not in full]
    taken = {period for hour in hours for step in hour.steps for period in step.run}
    steps = [step for step in steps if taken.isdisjoint(step.run)]
    return hours + [Hour(lesson, str(number), steps) for number in range(len(lesson.fixed) + 1, lesson.times + 1)]


def room_on_days(hour: Hour) -> dict[str, int]:
    """How many times a lesson may be given on each day, if nothing else is."""
    days: dict[str, int] = {}
    left = set(hour.periods())
    for step in sorted(hour.steps, key=lambda step: day_and_number(step.run[0]) or ("", 0)):
        day = day_of(step.run[0])
        if left.issuperset(step.run) and days.get(day, 0) < (hour.lesson.a_day or 99):
            left.difference_update(step.run)
            days[day] = days.get(day, 0) + 1
    return days


def want_room_in_week(school: School, hours: list[Hour]) -> None:
    """Ends the script where the periods of a lesson have too little room for all its times."""
    lesson, free = hours[0].lesson, [hour for hour in hours if not hour.is_fixed]
    if not free:
        return
    days = room_on_days(free[0])
    if sum(days.values()) < len(free) and (lesson.length > 1 or lesson.a_day):
        a_day = f", at most {lesson.a_day} on a day" if lesson.a_day else ""
        no_timetable(school, [lesson], f"{lesson.title} is given {plural(lesson.times, 'time')}{a_day}, each in {plural(lesson.length, 'period')} "
                     f"running on one day, and its periods have room for {sum(days.values()) + len(hours) - len(free)}: "
                     f"{told_periods([*free[0].periods(), *lesson.fixed])}{limits_of(school, hours)}")


def followers(school: School) -> dict[str, Lesson]:
    """For each lesson that another follows, by its name, that one."""
    by_name: dict[str, list[Lesson]] = {}
    for lesson in school.lessons:
        for name in {lesson.name, lesson.title}:
            by_name.setdefault(name, []).append(lesson)
    found: dict[str, Lesson] = {}
    for lesson in (lesson for lesson in school.lessons if lesson.after):
        some = by_name.get(lesson.after, [])
        some = [one for one in some if set(one.classes) & set(lesson.classes)] if len(some) > 1 else some
        if some == [lesson]:
            refuse(school.path, lesson.line, f"after: {lesson.title} would follow itself")
        if len(some) != 1:
            refuse(school.path, lesson.line, f"after: there is no lesson '{lesson.after}'" + (" of one class of its own" if some else "") + " to follow")
        if some[0].name in found:
            refuse(school.path, lesson.line, f"after: {some[0].title} is followed by {found[some[0].name].title} already, in line "
                   f"{found[some[0].name].line}")
        if some[0].times != lesson.times:
            refuse(school.path, lesson.line, f"after: {lesson.title} is given {plural(lesson.times, 'time')} and {some[0].title} "
                   f"{plural(some[0].times, 'time')}: give those that are followed a row of their own")
        if lesson.fixed:
            refuse(school.path, lesson.line, f"{lesson.title} follows {some[0].title}, and only that can be fixed")
        found[some[0].name] = lesson
    return found


def blocks_of(school: School) -> list[Block]:
    """All times of all lessons, those that follow one another together."""
    behind = followers(school)
    for first in school.lessons:
        # (whatever follows a lesson is on its days, as often as it is)
        later = behind.get(first.name)
        while later and later is not first:
            first.a_day = min(filter(None, (first.a_day, later.a_day)), default=None)
            later = behind.get(later.name)
    hours = {lesson.name: hours_of(school, lesson) for lesson in school.lessons}
    blocks = []
    for lesson in school.lessons:
        want_room_in_week(school, hours[lesson.name])
        if not lesson.after:
            chain = [lesson]
            while chain[-1].name in behind:
                chain.append(behind[chain[-1].name])
            blocks += [chained(school, list(some)) for some in zip(*(hours[one.name] for one in chain))]
    if sum(len(block.hours) for block in blocks) < sum(map(len, hours.values())):
        rings = [lesson for lesson in school.lessons if lesson.after and lesson.name in behind]
        refuse(school.path, rings[0].line, f"after: {rings[0].title} would follow itself")
    return blocks


def chained(school: School, hours: list[Hour]) -> Block:
    """Times that follow one another, with the ways to give all of them; where there is none, the script ends."""
    ways: list[tuple[Step, ...]] = [(step,) for step in hours[0].steps]
    for hour in hours[1:]:
        ways = [(*way, step) for way in ways for step in hour.steps if follows(step.run, way[-1].run)]
    if not ways:
        no_timetable(school, [hour.lesson for hour in hours], f"{hours[-1].lesson.title} can nowhere follow {hours[-2].lesson.title} in the next "
                     "period of a day")
    for k, hour in enumerate(hours):
        hour.steps = list(dict.fromkeys(way[k] for way in ways))
    return Block(hours, ways)


@dataclass
class Days:
    """A lesson, perhaps with those that follow it, of which each day has a block, and so many of these are given."""
    blocks: list[Block]
    count: int


def by_days(blocks: list[Block]) -> Optional[Days]:
    """The times of a lesson that are alike and at most once a day, as days of which so many are chosen; None where
    times need fewer items."""
    first, count = blocks[0].hours[0], len(blocks)
    if first.lesson.a_day != 1 or count < 2 or first.is_fixed:
        return None
    days = first.days()
    if count + (count - 1) * (len(days) - count) < len(days) + (len(days) > count):
        return None
    found = []
    for day in days:
        ways = [way for way in blocks[0].ways if day_of(way[0].run[0]) == day]
        hours = [Hour(hour.lesson, day, list(dict.fromkeys(way[k] for way in ways))) for k, hour in enumerate(blocks[0].hours)]
        found.append(Block(hours, ways))
    return Days(found, count)


# ---- counting

def named_lesson(lesson: Lesson) -> str:
    """A lesson with how often it is given and in how many periods."""
    return lesson.title + (f" {lesson.times} x {lesson.length}" if lesson.length > 1 else f" {lesson.times}" if lesson.times > 1 else "")


def named_some(hours: list[Hour]) -> str:
    """Lessons for a message, and of each how many of its times these are, if not all."""
    lessons = {id(hour.lesson): hour.lesson for hour in hours}
    counts = {own: len({id(hour) for hour in hours if id(hour.lesson) == own}) for own in lessons}
    names = [("" if counts[own] == lesson.times else f"{counts[own]} of ") + named_lesson(lesson) for own, lesson in lessons.items()]
    return ", ".join(names[:6]) + (f" and {len(names) - 6} more" if len(names) > 6 else "")


def limits_of(school: School, hours: list[Hour]) -> str:
    """What the rules say of the periods of those who have these lessons, and of their rooms, for the end of a
    message."""
    people = dict.fromkeys(who for hour in hours for who in hour.lesson.people())
    limited = [who for who in people if who in school.rules and school.rules[who].periods is not None]
    return "".join(f"; {rule_words(school, who)}" for who in limited[:4])


def seats_of(hours: list[Hour]) -> list[Hour]:
    """The times that an hour takes one place: as often as it has periods."""
    return [hour for hour in hours for _ in range(hour.lesson.length)]


def hours_by_name(school: School, blocks: list[Block]) -> dict[str, list[Hour]]:
    """The times that surely busy each name; of rooms those that some lesson wants with others, since the rest are
    counted together."""
    found: dict[str, list[Hour]] = {}
    together = {room for lesson in school.lessons for rooms in lesson.rooms if len(rooms) > 1 for room in rooms}
    for hour in (hour for block in blocks for hour in block.hours):
        for who in hour.lesson.surely():
            if school.roles[who] != "room" or who in together:
                found.setdefault(who, []).append(hour)
    return found


def want_days_enough(school: School, who: str, hours: list[Hour]) -> None:
    """Ends the script where somebody has more lessons than so many a day make."""
    rule = school.rules.get(who)
    if rule is None or rule.a_day is None:
        return
    most = rule.a_day
    days: dict[str, set[str]] = {}
    for hour in hours:
        for period in hour.periods():
            days.setdefault(day_of(period), set()).add(period)
    room = sum(min(most, len(periods)) for periods in days.values())
    seats = seats_of(hours)
    if len(seats) > room:
        no_timetable(school, [hour.lesson for hour in hours], f"{who} has {len(seats)} periods of lessons ({named_some(hours)}), and at most {most} a "
                     f"day (line {rule.line} of the rules) on {plural(len(days), 'day')}, so room for {room}")


def needed_by_days(hours: list[Hour]) -> dict[str, list[Hour]]:
    """For each day the times that have to be on it, whatever the timetable: those for which the other days have no
    room."""
    alike: dict[tuple[int, frozenset[tuple[str, ...]]], list[Hour]] = {}
    for hour in hours:
        alike.setdefault((id(hour.lesson), frozenset(step.run for step in hour.steps)), []).append(hour)
    found: dict[str, list[Hour]] = {}
    for some in alike.values():
        room = room_on_days(some[0])
        for day, own in room.items():
            found.setdefault(day, []).extend(some[:max(0, len(some) - sum(room.values()) + own)])
    return found


def room_words(rule: Optional[Rule], seats: int, places: set[str]) -> str:
    """How little room a day has for so many periods of somebody's lessons; nothing where it has enough."""
    if seats > len(places):
        return f"only {len(places)} there: {told_periods(places)}"
    return f"at most {rule.a_day} (line {rule.line} of the rules)" if rule and rule.a_day and seats > rule.a_day else ""


def want_each_day(school: School, who: str, hours: list[Hour]) -> None:
    """Ends the script where somebody has a day on which more lessons have to be than it has periods."""
    for day, needed in needed_by_days(hours).items():
        places = {period for hour in needed for step in hour.steps if day_of(step.run[0]) == day for period in step.run}
        seats = len(seats_of(needed))
        room = room_words(school.rules.get(who), seats, places)
        if room:
            no_timetable(school, [hour.lesson for hour in needed], f"{who} has {seats} periods of lessons that have to be on {day} "
                         f"({named_some(needed)}), since their other days are too few, and {room}{limits_of(school, needed)}")


def busy_of(school: School, who: str, hours: list[Hour]) -> set[str]:
    """The periods in which somebody is always busy; where there are too few, the script ends."""
    want_days_enough(school, who, hours)
    seats = seats_of(hours)
    try:
        busy = always_busy([hour.periods() for hour in seats])
        want_each_day(school, who, hours)
        return busy
    except Shortage as short:
        wanting = [seats[k] for k in short.wanting]
        no_timetable(school, [hour.lesson for hour in wanting], f"{who} has {len(wanting)} periods of lessons ({named_some(wanting)}), and of the "
                     f"week only {plural(len(short.places), 'period')} for them: {told_periods(short.places)}{limits_of(school, wanting)}")


def busy_rooms(school: School, hours: list[Hour]) -> set[tuple[str, str]]:
    """The rooms and periods that are always taken; where there are too few, the script ends. Of rooms that are wanted
    at once one is counted."""
    seats = [hour for hour in seats_of(hours) if all(hour.lesson.rooms)]
    try:
        return always_busy([list(dict.fromkeys((room, period) for step in hour.steps for room in step.rooms for period in step.run)) for hour in seats])
    except Shortage as short:
        wanting = [seats[k] for k in short.wanting]
        rooms = list(dict.fromkeys(room for room, _ in short.places))
        no_timetable(school, [hour.lesson for hour in wanting], f"{len(wanting)} periods of lessons ({named_some(wanting)}) want the "
                     f"{'rooms' if len(rooms) > 1 else 'room'} {', '.join(rooms[:8])}, free for them in {plural(len(short.places), 'period')}"
                     + (" together" if len(rooms) > 1 else "") + limits_of(school, wanting))


def always(school: School, blocks: list[Block]) -> set[tuple[str, str]]:
    """All pairs of somebody or a room and a period in which they are busy in every timetable."""
    pairs = {(who, period) for who, hours in hours_by_name(school, blocks).items() for period in busy_of(school, who, hours)}
    return pairs | busy_rooms(school, [hour for block in blocks for hour in block.hours])


def all_periods(school: School) -> list[str]:
    """All periods that a lesson may have, in the order of the week."""
    return in_order(itertools.chain(school.week, (period for lesson in school.lessons for period in lesson.periods)))
