"""Timetables as exact covers: a table of lessons, and perhaps one of rules, becomes a problem's items and options.

Each lesson is given as often as it should be, and nobody and no room is in two places at a time. Who is busy in every
period, whatever the timetable, has primary items for its periods: the search then looks at them first, and covers stay
the same. What can't be because there are too few periods is found by counting, before any search.

All that is more than lessons and busy periods has items with a `<` in their names:

- The times of a lesson that is given several times are alike, and a search that tells them apart tries each of them in the place of each. Where the
  lesson is at most once on a day, it has an item for each day, as `maths.Mon`, and `maths<days` chooses the days on which it isn't given: its
  options cover the items of these. Or, where that needs fewer items, its times keep an order, and their days rise: with d days for h times the k-th
  is on one of the days k to d - h + k. Of two times in the wrong order, or on one day, both name an item, as `maths.1<2`. Where days needn't
  differ, the week has some parts, as far as the program's items suffice, and maths.1 is given in no later part than maths.2.
- At most n times on a day, n > 1: the day has n items, as `maths<Mon.1`, and each time on it takes one of them.
- Lessons that are never on one day share an item for each day, `word<apart.Mon`.
- At most n of the p periods of a day: p - n items, as `ann<free.Mon.1`, each of which takes a period of the day away.
- Holes: for each day an item `5a<week.Mon`, whose options take away all periods of the day but those of one pattern with few enough holes; all
  these periods are primary, so somebody is busy in those that are left. With holes allowed, each hole of a pattern takes one of the items
  `ann<hole.1` and on. Where few periods of the week are free, and it is known how many, one item `5a<week` does for all days.
- One of several teachers: all times of the lesson give the item `maths<teacher` one colour.
"""
from __future__ import annotations

import itertools
import random
import re
from collections import Counter
from collections.abc import Collection, Iterable, Iterator
from dataclasses import dataclass, field, replace
from typing import NamedTuple, Optional

from ..command_line.ends import complain
from ..files.cover_files import MAX_ITEMS, MAX_NAME, MAX_OPTIONS
from ..texts.puzzles import Puzzle, refuse
from .plans import MOVED, Plan, preference, read_plan
from .rules import read_school, Rule, School
from .steps import all_periods, always, Block, blocks_of, by_days, Days, followers, Hour, hours_by_name, seats_of, Step, want_days
from .tables import Lesson
from .weeks import day_of, in_week

# from so many options on their order is drawn by lot: a search that tries each lesson at Monday's first period first
# seldom ends
MANY = 100
# into so many parts the week is divided at most for the order of the times of a lesson
PARTS = 4
# one item chooses the free periods of a whole week where they can be chosen in at most so many ways
MOST_WEEKS = 300
# where a file has more of its items than this, a note says so
NEAR = 0.9


# ---- names

class Names:
    """The names of items: those of the table, or numbers for what can't be a name."""

    def __init__(self, school: School, days: list[str]) -> None:
        long_day, long_period = (max((len(word.encode()) for word in words), default=0) for words in (days, all_periods(school)))
        behind = {who: max(1 + long_period, 10 + long_day) for who in school.roles}
        behind.update((lesson.name, max(8, 3 + long_day, 4 + len(str(lesson.times)))) for lesson in school.lessons)
        behind.update((word, 7 + long_day) for lesson in school.lessons for word in lesson.apart if word not in behind)
        # (a number's items have a dot or a hyphen behind it, and other names may begin so too)
        taken = {*behind, *(re.split("[.-]", name)[0] for name in behind)}
        self.numbers: dict[str, str] = {}
        for name, more in behind.items():
            if len(name.encode()) + more > MAX_NAME or re.search(r"[\s:|<\0]", name):
                number = next(str(k) for k in range(1, 10 ** 6) if str(k) not in taken)
                taken.add(number)
                self.numbers[name] = number

    def of(self, name: str) -> str:
        return self.numbers.get(name, name)

    def of_hour(self, hour: Hour) -> str:
        return self.of(hour.lesson.name) + (f".{hour.label}" if hour.lesson.times > 1 else "")

    def busy(self, who: str, period: str) -> str:
        return f"{self.of(who)}-{period}"


# ---- the order of the times of a lesson, and how often it is given on a day

class Ordered:
    """The times of a lesson that are alike: which items a time names beside the people, if it is on this day or in this
    part of the week."""

    def __init__(self, name: str, hours: list[Hour], days: list[str]) -> None:
        self.name, self.hours = name, hours
        self.first, self.last = (hours[0].number(), hours[-1].number()) if hours else (1, 0)
        self.days = [day for day in days if any(day in hour.days() for hour in hours)]
        self.spread = bool(hours) and hours[0].lesson.a_day == 1 and len(hours) > 1
        self.parts, self.part_of = 1, dict[str, int]()

    def divide(self, periods: list[str], parts: int) -> None:
        """Divides the periods of the week into parts, where days don't keep the order."""
        self.parts, self.part_of = parts, {period: k * parts // len(periods) for k, period in enumerate(periods)}

    def items(self) -> list[str]:
        """The items that may keep the order."""
        return [f"{self.name}.{hour.number()}<{t}" for hour in self.hours for t in range(1, max(self.parts, len(self.days)))]

    def can_be(self, number: int, day: str) -> bool:
        """Whether the time with this number can be on this day, if the days of all times rise."""
        spare, place = len(self.days) - len(self.hours), self.days.index(day)
        return not self.spread or number - self.first <= place <= number - self.first + spare

    def named(self, number: int, period: str) -> list[str]:
        """The items of a time that begins in this period: of two times in the wrong order both name one."""
        if not self.first <= number <= self.last:
            return []
        if self.spread:
            place = self.days.index(day_of(period))
            low, spare = number - self.first + 1, len(self.days) - len(self.hours)
            # the places at which this one and the next, or the one before and this one, may both be
            mine = [f"{self.name}.{number}<{t}" for t in range(low, low + spare) if number < self.last and place >= t]
            return mine + [f"{self.name}.{number - 1}<{t}" for t in range(low - 1, low - 1 + spare) if number > self.first and place <= t]
        part = self.part_of.get(period, 0)
        mine = [f"{self.name}.{number}<{t}" for t in range(1, self.parts) if number < self.last and part >= t]
        return mine + [f"{self.name}.{number - 1}<{t}" for t in range(1, self.parts) if number > self.first and part < t]


def want_parts(orders: Iterable[Ordered], room: int, periods: list[str]) -> None:
    """Divides the week for the lessons whose days needn't differ, into as many parts as the items suffice for."""
    some = [order for order in orders if not order.spread]
    pairs = sum(max(0, len(order.hours) - 1) for order in some)
    for order in some:
        order.divide(periods, max(1, min(PARTS, room // pairs + 1)) if pairs else 1)


# ---- who is free when

@dataclass
class Free:
    """What keeps somebody's day in a pattern: primary items, secondary ones, options, and the busy items that become
    primary."""
    primary: list[str] = field(default_factory=list)
    secondary: list[str] = field(default_factory=list)
    options: list[list[str]] = field(default_factory=list)
    exact: list[str] = field(default_factory=list)


def holes_in(busy: Iterable[str], there: list[str]) -> int:
    """How many of the periods in which somebody can be had are free between two busy ones."""
    places = [there.index(period) for period in busy]
    return max(places) - min(places) + 1 - len(places) if places else 0


def patterns(candidates: list[str], there: list[str], rule: Rule) -> Iterator[tuple[list[str], int]]:
    """The free periods and the number of holes of each way to be busy on a day that a rule allows."""
    for count in range(min(len(candidates), rule.a_day or len(candidates)) + 1):
        for busy in itertools.combinations(candidates, count):
            holes = holes_in(busy, there)
            if holes <= (rule.holes or 0):
                yield [period for period in candidates if period not in busy], holes


def in_patterns(school: School, names: Names, who: str, days: dict[str, list[str]], periods: list[str]) -> Free:
    """Somebody whose days have at most so many holes."""
    rule, own = school.rules[who], names.of(who)
    holes = [f"{own}<hole.{k}" for k in range(1, (rule.holes or 0) + 1)]
    free = Free(secondary=holes)
    for day, candidates in days.items():
        if len(candidates) > 12:
            refuse(school.path, None, f"{who} has {len(candidates)} periods on {day}: holes can be counted where a day has at most 12")
        there = [period for period in periods if day_of(period) == day and school.can_have(who, period)]
        free.primary.append(f"{own}<week.{day}")
        free.exact += [names.busy(who, period) for period in candidates]
        for left, count in patterns(candidates, there, rule):
            free.options += [[free.primary[-1], *(names.busy(who, period) for period in left), *some] for some in itertools.combinations(holes, count)]
    return free


def kept_free(school: School, names: Names, who: str, days: dict[str, list[str]]) -> Free:
    """Somebody who has at most so many periods a day: the others are taken away, the first of them from the first ones
    of the day."""
    most, free = school.rules[who].a_day or 0, Free()
    for day, candidates in days.items():
        spare = len(candidates) - most
        for k in range(1, spare + 1):
            free.primary.append(f"{names.of(who)}<free.{day}.{k}")
            free.options += [[free.primary[-1], names.busy(who, period)] for period in candidates[k - 1:k + most]]
    return free


def days_free(school: School, names: Names, blocks: list[Block], busy: set[tuple[str, str]], hours: dict[str, list[Hour]]) -> dict[str, Free]:
    """For each of whom a rule counts periods or holes, what keeps their days so. `hours` are the times that surely busy
    each."""
    periods, found = all_periods(school), {}
    at: dict[str, set[str]] = {}
    for step in (step for block in blocks for way in block.ways for step, hour in zip(way, block.hours)):
        for who in (*step.teachers, *step.rooms):
            at.setdefault(who, set()).update(step.run)
    for hour in (hour for block in blocks for hour in block.hours):
        for who in hour.lesson.classes:
            at.setdefault(who, set()).update(hour.periods())
    for who, rule in school.rules.items():
        days: dict[str, list[str]] = {}
        for period in (period for period in periods if period in at.get(who, ())):
            days.setdefault(day_of(period), []).append(period)
        # (who is busy all day in any case has no hole there)
        there = [period for period in periods if school.can_have(who, period)]
        full = {day for day, some in days.items() if len(some) <= (rule.a_day or len(some)) and all((who, period) in busy for period in some)
                and some == [period for period in there if day_of(period) == day]}
        open_days = {day: some for day, some in days.items() if day not in full}
        lessons = {id(hour.lesson): hour.lesson for block in blocks for hour in block.hours if who in hour.lesson.people()}.values()
        if rule.holes is not None and open_days:
            sure = len(seats_of(hours.get(who, []))) if all(who in lesson.surely() for lesson in lessons) else None
            week = week_patterns(school, who, days, periods, sure) if sure is not None and not rule.holes else []
            found[who] = in_weeks(names, who, days, week) if week else in_patterns(school, names, who, open_days, periods)
        elif rule.holes is None and rule.a_day is not None and most_a_day(lessons) > rule.a_day:
            found[who] = kept_free(school, names, who, days)
    return found


def most_a_day(lessons: Iterable[Lesson]) -> int:
    """How many periods these lessons can have together on a day, by how often a day each may be given."""
    return sum(min(lesson.a_day or lesson.times, lesson.times) * lesson.length for lesson in lessons)


def week_patterns(school: School, who: str, days: dict[str, list[str]], periods: list[str], busy: int) -> list[list[str]]:
    """The free periods of each week without a hole in which somebody is busy so often; none where they are too many for
    one item."""
    rule = school.rules[who]
    weeks: list[list[str]] = [[]]
    left = sum(map(len, days.values())) - busy
    for day, candidates in days.items():
        there = [period for period in periods if day_of(period) == day and school.can_have(who, period)]
        choices = [free for free, _ in patterns(candidates, there, rule) if len(free) <= left] if len(candidates) <= 12 else []
        weeks = [week + free for week in weeks for free in choices if len(week) + len(free) <= left]
        if len(weeks) > 20 * MOST_WEEKS:
            return []
    weeks = [week for week in weeks if len(week) == left]
    return weeks if len(weeks) <= MOST_WEEKS else []


def in_weeks(names: Names, who: str, days: dict[str, list[str]], weeks: list[list[str]]) -> Free:
    """Somebody whose week is one of some, by their free periods."""
    item = f"{names.of(who)}<week"
    return Free([item], [], [[item, *(names.busy(who, period) for period in week)] for week in weeks],
                [names.busy(who, period) for some in days.values() for period in some])


# ---- items that aren't needed

def lessons_with(lessons: list[Lesson]) -> tuple[dict[str, set[int]], dict[str, set[int]]]:
    """For each name the numbers of the lessons that surely busy it, and of those that perhaps do."""
    surely: dict[str, set[int]] = {}
    perhaps: dict[str, set[int]] = {}
    for k, lesson in enumerate(lessons):
        for who in lesson.surely():
            surely.setdefault(who, set()).add(k)
        for who in lesson.people():
            perhaps.setdefault(who, set()).add(k)
    return surely, perhaps


def implied(school: School, lessons: list[Lesson]) -> list[str]:
    """Names whose lessons are all lessons of one other that stays: who isn't twice at a time by this one's items."""
    surely, perhaps = lessons_with(lessons)
    dropped: list[str] = []
    counted = {who for who, rule in school.rules.items() if rule.a_day is not None or rule.holes is not None}
    for who in sorted(perhaps, key=lambda one: (school.roles[one] != "room", len(perhaps[one]))):
        is_sure = perhaps[who] == surely.get(who) and who not in counted
        if is_sure and any(perhaps[who] <= surely[other] for other in surely if other != who and other not in dropped):
            dropped.append(who)
    return dropped


# ---- the problem

class Ranked(NamedTuple):
    """An option with the lessons that it gives, how far it is from where they were in a plan that is to be kept (0 is
    the same), and the period in which each of them begins."""
    lessons: tuple[str, ...]
    rank: int
    option: list[str]
    begins: tuple[str, ...] = ()


@dataclass
class Timetable(Puzzle):
    """The problem of a timetable, with the lessons of its options."""
    ranked: list[Ranked] = field(default_factory=list)
    lessons: dict[str, Lesson] = field(default_factory=dict)
    school: Optional[School] = None

    def kept(self, released: Collection[str]) -> Timetable:
        """The problem in which all lessons but these have to stay in the periods that they have in the plan."""
        ranked = [one for one in self.ranked if one.rank < MOVED or any(lesson in released for lesson in one.lessons)]
        return replace(self, options=[one.option for one in ranked], ranked=ranked)

    def unfit(self) -> set[str]:
        """The lessons that can't stay where they are in the plan: there are fewer places for them than they have
        times."""
        places = {(lesson, period) for one in self.ranked if one.rank < MOVED for lesson, period in zip(one.lessons, one.begins)}
        counts = Counter(lesson for lesson, _ in places)
        return {name for name, lesson in self.lessons.items() if counts[name] < lesson.times}


class Problem:
    """The items and options of a school's timetable."""

    def __init__(self, school: School, blocks: list[Block], busy: set[tuple[str, str]], fewest: bool) -> None:
        self.school, self.busy = school, busy
        self.blocks, self.chosen_days = self.in_days(blocks)
        self.lessons = list({id(hour.lesson): hour.lesson for block in blocks for hour in block.hours}.values())
        self.hours = hours_by_name(school, blocks)
        self.days = in_week(dict.fromkeys(day_of(period) for period in all_periods(school)))
        self.names = Names(school, self.days)
        self.dropped = set(implied(school, self.lessons) if fewest else [])
        self.orders = {lesson.name: self.ordered(lesson) for lesson in self.lessons}
        self.apart = self.words_apart()
        self.free = {who: free for who, free in days_free(school, self.names, self.blocks, busy, self.hours).items()}

    @staticmethod
    def in_days(blocks: list[Block]) -> tuple[list[Block], list[Days]]:
        """The blocks, with days in place of times where that is better; and these days."""
        alike: dict[str, list[Block]] = {}
        for block in blocks:
            first = block.hours[0]
            alike.setdefault(f"{first.lesson.name} {first.label if first.is_fixed else ''}", []).append(block)
        found = [(some, by_days(some)) for some in alike.values()]
        return [block for some, days in found for block in (days.blocks if days else some)], [days for _, days in found if days]

    def days_off(self) -> tuple[list[str], list[list[str]]]:
        """The items that choose the days of lessons, and their options, each of which covers the items of the other
        days."""
        items, options = [], []
        for days in (days for days in self.chosen_days if len(days.blocks) > days.count):
            items.append(f"{self.names.of(days.blocks[0].hours[0].lesson.name)}<days")
            for off in itertools.combinations(days.blocks, len(days.blocks) - days.count):
                options.append([items[-1], *(self.names.of_hour(hour) for block in off for hour in block.hours)])
        return items, options

    def ordered(self, lesson: Lesson) -> Ordered:
        """The times of a lesson that keep an order; a lesson that follows another keeps that one's."""
        hours = [] if lesson.after else [hour for block in self.blocks for hour in block.hours
                                         if hour.lesson is lesson and not hour.is_fixed and hour.number()]
        return Ordered(self.names.of(lesson.name), hours, self.days)

    def words_apart(self) -> set[str]:
        """The words by which several times of lessons are kept on different days."""
        words = [word for block in self.blocks for hour in block.hours for word in hour.lesson.apart]
        return {word for word in words if words.count(word) > 1}

    def busy_items(self, hour: Hour, step: Step) -> list[str]:
        who = [*step.teachers, *hour.lesson.classes, *step.rooms]
        return [self.names.busy(one, period) for period in step.run for one in who if one not in self.dropped]

    def further_items(self, hour: Hour, step: Step) -> list[str]:
        """What a time names beside itself and who is busy."""
        lesson, day = hour.lesson, day_of(step.run[0])
        found = self.orders[lesson.name].named(hour.number(), step.run[0])
        found += [f"{self.names.of(word)}<apart.{day}" for word in lesson.apart if word in self.apart]
        if len(lesson.teachers) > 1 and lesson.times > 1:
            found.append(f"{self.names.of(lesson.name)}<teacher:{lesson.teachers.index(step.teachers) + 1}")
        return found

    def slots(self, hour: Hour, step: Step) -> list[list[str]]:
        """The choices of a place of a day on which a lesson is given at most so many times, more than one."""
        most = hour.lesson.a_day or 0
        if most < 2 or hour.lesson.times <= most:
            return [[]]
        return [[f"{self.names.of(hour.lesson.name)}<{day_of(step.run[0])}.{k}"] for k in range(1, most + 1)]

    def options_of(self, block: Block, way: tuple[Step, ...]) -> list[list[str]]:
        """The options of times that follow one another, given in one way."""
        pairs = list(zip(block.hours, way))
        if not all(self.orders[hour.lesson.name].can_be(hour.number(), day_of(step.run[0])) for hour, step in pairs
                   if hour.number() and not hour.is_fixed and not hour.lesson.after):
            return []
        option = [self.names.of_hour(hour) for hour in block.hours]
        for some in (self.busy_items, self.further_items):
            option += [name for hour, step in pairs for name in some(hour, step)]
        slots = itertools.product(*(self.slots(hour, step) for hour, step in pairs))
        return [option + [name for names in some for name in names] for some in slots]

    def ranked(self, plan: Optional[Plan]) -> list[Ranked]:
        """All options, each with what it is of and how far from the plan."""
        found = [Ranked(tuple(hour.lesson.name for hour in block.hours), preference(plan, block, way), option, tuple(step.run[0] for step in way))
                 for block in self.blocks for way in block.ways for option in self.options_of(block, way)]
        return found + [Ranked((), 0, option) for free in self.free.values() for option in free.options] + [
            Ranked((), 0, option) for option in self.days_off()[1]]

    def puzzle(self, plan: Optional[Plan], seed: Optional[int]) -> Timetable:
        """The items and options, with comments that tell of names. Many options are in an order by lot, those of the
        plan before others."""
        needed = self.sorted_items([ranked.option for ranked in self.ranked(None)])
        want_parts(self.orders.values(), MAX_ITEMS - sum(map(len, needed)), all_periods(self.school))
        ranked = self.ranked(plan)
        if seed is not None or len(ranked) > MANY:
            random.Random(seed or 1).shuffle(ranked)
        ranked.sort(key=lambda one: one.rank)
        options = [one.option for one in ranked]
        primary, secondary = self.sorted_items(options)
        lessons = {lesson.name: lesson for lesson in self.lessons}
        return Timetable(primary, secondary, options, self.told(), ranked=ranked, lessons=lessons, school=self.school)

    def sorted_items(self, options: list[list[str]]) -> tuple[list[str], list[str]]:
        """The primary items, those that are busy in any case first, since the search takes the first of equals; and the
        secondary ones."""
        used = dict.fromkeys(word.partition(":")[0] for option in options for word in option)
        hours = dict.fromkeys(self.names.of_hour(hour) for block in self.blocks for hour in block.hours)
        busy = {self.names.busy(who, period) for who, period in self.busy}
        exact = {name for free in self.free.values() for name in free.exact}
        frames = [name for free in self.free.values() for name in free.primary] + self.days_off()[0]
        places = (self.names.busy(who, period) for who in self.school.roles for period in all_periods(self.school))
        names = [name for name in places if name in used]
        first = [name for name in names if name in busy or name in exact]
        others = used.keys() - {*names, *hours, *frames}
        ordering = [name for order in self.orders.values() for name in order.items() if name in others]
        return first + list(hours) + frames, [name for name in names if name not in busy and name not in exact] + ordering + sorted(
            others.difference(ordering))

    def told(self) -> list[str]:
        """What the file says of its names in comments: who is what, in which order periods are, and the names that
        numbers stand for."""
        here = {who for lesson in self.lessons for who in lesson.people()}
        groups = {"teachers": "teacher", "classes": "class", "rooms": "room"}
        found = {words: [self.names.of(who) for who, role in self.school.roles.items() if role == one and who in here] for words, one in groups.items()}
        periods = all_periods(self.school)
        found["periods"] = [] if all(map(str.isdecimal, periods)) else periods
        lines = [f"{role}: {' '.join(names)}" for role, names in found.items() if names]
        lines += ["separator: ;"] if self.school.separator == ";" else []
        lines += [f"name {number}: {name}" for name, number in self.names.numbers.items()]
        lines += [f"title {self.names.of(lesson.name)}: {lesson.title}" for lesson in self.lessons if lesson.name != lesson.title]
        behind = followers(self.school)
        lines += [f"follows {self.names.of(other.name)}: {self.names.of(name)}" for name, other in behind.items()]
        lines += [f"length {self.names.of(one.name)}: {one.length}" for one in self.lessons if one.length > 1 and (one.after or one.name in behind)]
        for lesson in self.lessons:
            lost = [self.names.of(who) for who in lesson.people() if who in self.dropped]
            lines += [f"also {self.names.of(lesson.name)}: {' '.join(lost)}"] if lost else []
        return lines


def size_of(puzzle: Puzzle) -> int:
    return len(puzzle.primary) + len(puzzle.secondary)


def components(blocks: list[Block]) -> list[list[Block]]:
    """Blocks in groups that share nobody, no room and no word that keeps lessons apart."""
    groups: list[tuple[set[str], list[Block]]] = []
    for block in blocks:
        names = {name for hour in block.hours for name in (f"lesson {hour.lesson.name}", *hour.lesson.people(), *(f"word {w}" for w in hour.lesson.apart))}
        touched = [group for group in groups if not names.isdisjoint(group[0])]
        groups = [group for group in groups if group not in touched]
        groups.append((names.union(*(group[0] for group in touched)), [one for group in touched for one in group[1]] + [block]))
    return [group[1] for group in groups]


def want_size(path: str, puzzle: Puzzle) -> None:
    """Refuses a timetable beyond what the program reads, and says what would make it smaller."""
    items, options = size_of(puzzle), len(puzzle.options)
    if items > MAX_ITEMS:
        refuse(path, None, f"this timetable would have {items:,} items, and the program reads at most {MAX_ITEMS:,}; make one for some of the "
               "classes, and then one for the others, without the periods in which the first busies their teachers and rooms")
    if options > MAX_OPTIONS:
        refuse(path, None, f"this timetable would have {options:,} options, and the program reads at most {MAX_OPTIONS:,}; give lessons fewer "
               "rooms or fewer periods, and fewer people holes")


def parted(school: School, blocks: list[Block], busy: set[tuple[str, str]], plan: Optional[Plan], seed: Optional[int]) -> list[Timetable]:
    """Problems of lessons that share nothing, as many together as the program reads."""
    found: list[Timetable] = []
    taken: list[Block] = []
    for group in components(blocks):
        puzzle = Problem(school, taken + group, busy, True).puzzle(plan, seed)
        if taken and size_of(puzzle) > MAX_ITEMS:
            found.append(Problem(school, taken, busy, True).puzzle(plan, seed))
            taken = []
        taken = taken + group
    return found + [Problem(school, taken, busy, True).puzzle(plan, seed)]


def timetables(school: School, plan: Optional[Plan] = None, seed: Optional[int] = None) -> list[Timetable]:
    """The problem of a school's timetable, or several where one is too large and some lessons share nothing with
    others. With a seed the order of options is drawn by lot; with a plan its places come first."""
    want_days(school)
    blocks = blocks_of(school)
    busy = always(school, blocks)
    puzzles = [Problem(school, blocks, busy, False).puzzle(plan, seed)]
    if size_of(puzzles[0]) > MAX_ITEMS:
        puzzles = parted(school, blocks, busy, plan, seed)
    for puzzle in puzzles:
        want_size(school.path, puzzle)
    return puzzles


def needed_items(puzzle: Puzzle) -> int:
    """How many items a problem needs, without those that only keep times of lessons in order."""
    return len(puzzle.primary) + sum(not re.search(r"\.\d+<\d+$", name) for name in puzzle.secondary)


def note_size(puzzle: Puzzle) -> None:
    """Tells where a problem is near what the program reads."""
    if needed_items(puzzle) > NEAR * MAX_ITEMS:
        complain(f"this timetable fits, with {needed_items(puzzle):,} of at most {MAX_ITEMS:,} items")


def read_timetables(path: str, rules: Optional[str], keep: Optional[str], seed: Optional[int]) -> list[Timetable]:
    """The problem of a school's timetable, or several, from the files with its lessons and perhaps with its rules and a
    plan to be kept. A note tells of one that is near what the program reads."""
    school = read_school(path, rules)
    found = timetables(school, read_plan(keep, school) if keep else None, seed)
    if len(found) == 1:
        note_size(found[0])
    return found
