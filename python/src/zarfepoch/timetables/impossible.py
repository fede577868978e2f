"""Why a school has no timetable, in the words of its tables: a class, a teacher, a room or two classes for which there
is none by themselves, and of their rows the fewest that can't be together.

Rows are left out as long as the program still answers `none`. What is left out only takes conditions away: of people
who lose lessons so, no holes are counted any more, as these lessons might fill them. So where some rows have no
timetable, all have none.
"""
from __future__ import annotations

import contextlib
import io
import itertools
import time
from collections.abc import Iterator, Sequence
from dataclasses import replace
from typing import NamedTuple, Optional

from ..programs import answer_of
from .problem import timetables
from .rules import rule_words, School
from .steps import named_lesson
from .tables import Lesson
from .weeks import told_periods

# so many seconds a question about some rows may take
QUESTION = 1.0


class Core(NamedTuple):
    """Lessons that can't be together, of which none can be left out where all questions were answered; whose they are,
    the people and rooms whose rules matter, and whether the time was over before fewer were found."""
    of: str
    lessons: list[Lesson]
    rules: list[str]
    is_over: bool


def some_of(school: School, lessons: Sequence[Lesson], without: Sequence[str] = ()) -> School:
    """A school with some of its lessons, and without the rules of some people."""
    names = {lesson.name for lesson in lessons}
    left_out = [lesson for lesson in school.lessons if lesson.name not in names]
    losing = {who for lesson in left_out for who in lesson.people()}
    rules = {who: replace(rule, holes=None) if who in losing else rule for who, rule in school.rules.items() if who not in without}
    followed = names | {lesson.title for lesson in lessons}
    kept = [replace(lesson, after=lesson.after if lesson.after in followed else "") for lesson in lessons]
    return replace(school, lessons=kept, rules=rules)


class Questions:
    """What the program answers of some lessons, until a time is over."""

    def __init__(self, program: str, school: School, until: float) -> None:
        self.program, self.school, self.until = program, school, until

    def is_over(self) -> bool:
        return time.monotonic() > self.until

    def is_none(self, lessons: Sequence[Lesson], without: Sequence[str] = ()) -> bool:
        """Whether it is known that these lessons have no timetable by themselves."""
        if not lessons or self.is_over():
            return False
        try:
            with contextlib.redirect_stderr(io.StringIO()):
                found = timetables(some_of(self.school, lessons, without))
        except SystemExit as ended:
            return ended.code == 1
        return any(answer_of(self.program, puzzle.text(), QUESTION).is_none for puzzle in found)


def groups_of(school: School) -> Iterator[tuple[str, list[Lesson]]]:
    """The lessons of each class, teacher and room, and of each two classes that share somebody or a room."""
    own = {who: [lesson for lesson in school.lessons if who in lesson.people()] for who in school.roles}
    for role in ("class", "teacher", "room"):
        yield from ((f"{'the room ' if role == 'room' else ''}{who}", own[who]) for who, its in school.roles.items() if its == role)
    classes = [who for who, role in school.roles.items() if role == "class"]
    touched = {one: {who for lesson in own[one] for who in lesson.people()} for one in classes}
    pairs = [pair for pair in itertools.combinations(classes, 2) if touched[pair[0]] & touched[pair[1]]]
    for one, other in sorted(pairs, key=lambda pair: -len(touched[pair[0]] & touched[pair[1]])):
        yield f"{one} and {other}", [lesson for lesson in school.lessons if lesson in own[one] or lesson in own[other]]


def fewest(questions: Questions, lessons: list[Lesson]) -> list[Lesson]:
    """Lessons of these that still can't be together; larger pieces are left out before smaller ones."""
    size = len(lessons) // 2
    while size:
        place = 0
        while place < len(lessons):
            fewer = lessons[:place] + lessons[place + size:]
            if questions.is_none(fewer):
                lessons = fewer
            else:
                place += size
        size = min(size // 2, len(lessons) // 2)
    return lessons


def core_of(program: str, school: School, seconds: float, is_none: bool) -> Optional[Core]:
    """Lessons that can't be together; None where none were found in time. `is_none`: it is known that all can't."""
    questions = Questions(program, school, time.monotonic() + seconds)
    found = next(((of, lessons) for of, lessons in groups_of(school) if questions.is_none(lessons)), None)
    if found is None and not (is_none and questions.is_none(school.lessons)):
        return None
    of, lessons = found or ("", school.lessons)
    lessons = fewest(questions, lessons)
    people = dict.fromkeys(who for lesson in lessons for who in lesson.people() if who in school.rules)
    return Core(of, lessons, [who for who in people if not questions.is_over() and not questions.is_none(lessons, [who])],
                questions.is_over())


def core_words(school: School, core: Core) -> list[str]:
    """Lines that tell which rows of the tables can't be together."""
    count = len(core.lessons)
    these = "this row" if count == 1 else f"these {count} rows"
    lines = [f"{f'Of {core.of}: {these}' if core.of else these.capitalize()} can't be {'given' if count == 1 else 'together'}"
             f"{' (the time was over before fewer were found; --seconds gives more)' if core.is_over else ''}:"]
    for lesson in core.lessons:
        who = "; ".join(filter(None, (" or ".join("+".join(some) for some in lesson.teachers), "+".join(lesson.classes),
                                      " or ".join("+".join(some) for some in lesson.rooms))))
        a_day = f", at most {lesson.a_day} a day" if lesson.a_day and lesson.times > 1 else ""
        fixed = f", fixed at {told_periods(lesson.fixed)}" if lesson.fixed else ""
        lines.append(f"  line {lesson.line}: {named_lesson(lesson)}{a_day} ({who}), {told_periods(lesson.periods)}{fixed}")
    return lines + [f"  {rule_words(school, who)}" for who in core.rules]
