"""Pictures of timetables: a plan of the week for each class, teacher or room, with days as columns, or one table of who
is busy when."""
from __future__ import annotations

import csv
import functools
import io
import itertools
import re
import unicodedata
from collections.abc import Callable, Iterable, Iterator, Sequence

from ..files.cover_files import Option, Problem
from ..files.full_names import full_names
from ..timetables.weeks import day_and_number, in_week, natural
from .base import Kind, Names, without_rules
from .svg_paper import BACKGROUND, draw_table, FAINT, FILLS, folded, INK, MARGIN, Paper, table_text, text_width, WIDEST

# rows of cells, each a lesson and who else is busy with it
Rows = list[list[tuple[str, str]]]
GAP = 28
ROLES = ("teachers", "classes", "rooms", "")


def with_day(period: str) -> tuple[str, int] | None:
    """The day of a period and its number there, as of Mon1; None where it tells no day."""
    found = day_and_number(period)
    return found if found and found[0] else None


class Given:
    """A lesson as the answer has it: its item, its name, who is busy with it, and in which periods."""

    def __init__(self, item: str, name: str, who: list[str], periods: list[str]) -> None:
        self.item, self.name, self.who, self.periods = item, name, who, periods


class Timetable(Kind):
    """Lessons, each with people, classes and rooms in some periods."""

    with_colours = None
    plans: Sequence[str] = ()

    def __init__(self, problem: Problem, chosen: list[Option], is_none: bool) -> None:
        super().__init__(problem, chosen, is_none)
        self.items = [item for item in self.items if "<" not in item]
        self.options, self.chosen = (list(filter(None, map(without_rules, options))) for options in (self.options, self.chosen))
        self.coloured = {name for colours in self.option_colours for name in colours}

    def is_known(self) -> bool:
        lessons = self.lessons()
        busy = [item for item in self.items if item not in lessons]
        return bool(self.options and busy) and self.all_match(r".+-[^-=]+", busy) and all("<" in name for name in self.coloured) and all(
            lesson in self.primary and lessons.keys().isdisjoint(names) and self.is_given(names)
            for option in self.options for lesson, names in self.parted(option))

    @staticmethod
    def is_given(names: Names) -> bool:
        """Whether names are those of everybody who is busy with a lesson in each of its periods."""
        pairs = [name.rsplit("-", 1) for name in names]
        who, periods = ({pair[k] for pair in pairs} for k in (0, 1))
        return bool(pairs) and len(pairs) == len(who) * len(periods)

    def parted(self, option: Names) -> list[tuple[str, Names]]:
        """The lessons of an option, mostly one, each with who is busy with it when. Comments tell which follow one
        another, and of these the lengths that aren't one period."""
        count = 1 + len(list(itertools.takewhile(self.is_follower, option[1:])))
        names = option[count:]
        periods = list(dict.fromkeys(name.rsplit("-", 1)[-1] for name in names))
        found = []
        for lesson in option[:count - 1]:
            own, periods = periods[:self.length(lesson)], periods[self.length(lesson):]
            found.append((lesson, tuple(name for name in names if name.rsplit("-", 1)[-1] in own)))
        return [*found, (option[count - 1], names if count == 1 else tuple(name for name in names if name.rsplit("-", 1)[-1] in periods))]

    def told(self, key: str) -> dict[str, str]:
        """What comments say of names behind this key."""
        found = (re.fullmatch(rf"\|\s*{key} (\S+): (.+)", comment) for comment in self.comments)
        return {told[1]: told[2] for told in found if told}

    @functools.cached_property
    def followers(self) -> dict[str, str]:
        return self.told("follows")

    @functools.cached_property
    def lengths(self) -> dict[str, str]:
        return self.told("length")

    def is_follower(self, name: str) -> bool:
        """Whether a name is one of a lesson that follows another."""
        return name in self.followers or name.rpartition(".")[0] in self.followers

    def length(self, lesson: str) -> int:
        """In how many periods one after another a lesson is given, where a comment tells it; else one."""
        told = self.lengths.get(lesson) or self.lengths.get(lesson.rpartition(".")[0]) or "1"
        return int(told) if told.isdecimal() else 1

    # ---- what the problem and the answer tell

    def full(self, name: str) -> str:
        """A name as the table had it, also of one of the times that a lesson is given."""
        names = full_names(self.comments)
        return names.get(self.base(name), self.base(name))

    def title(self, lesson: str) -> str:
        """A lesson's name as the table had it, where lessons of several classes have one name."""
        return self.titles.get(lesson) or self.titles.get(self.base(lesson)) or self.full(lesson)

    @functools.cached_property
    def titles(self) -> dict[str, str]:
        return self.told("title")

    def base(self, name: str) -> str:
        """A lesson's name without the number or the day of the time, if it is one of several."""
        base = name.rpartition(".")[0]
        return base if base in self.given_often else name

    @functools.cached_property
    def given_often(self) -> set[str]:
        """The names of lessons that have several times: their items end in numbers from 1, or in days."""
        behind: dict[str, set[str]] = {}
        for lesson in self.lessons():
            base, dot, label = lesson.rpartition(".")
            behind.setdefault(base, set()).update([label] if dot else [])
        days = {found[0] for found in map(with_day, self.periods()) if found}
        return {base for base, labels in behind.items() if {"1", "2"} <= labels or len(labels) > 1 and labels <= days}

    def also(self) -> dict[str, list[str]]:
        """Who is busy with a lesson beside those that its options name, by the lesson."""
        return {lesson: names.split() for lesson, names in self.told("also").items()}

    @functools.lru_cache(maxsize=None)
    def everybody(self) -> dict[str, str]:
        """All names in their order, each with its role, which is empty where no comment tells it."""
        found = {}
        for comment in self.comments:
            told = re.fullmatch(r"\|\s*(teachers|classes|rooms): (.+)", comment)
            found.update(dict.fromkeys(told[2].split(), told[1]) if told else {})
        named = dict.fromkeys(item.rsplit("-", 1)[0] for item in self.items if "-" in item and item not in self.lessons())
        return {**found, **{who: "" for who in named if who not in found}}

    @functools.lru_cache(maxsize=None)
    def lessons(self) -> dict[str, None]:
        return dict.fromkeys(lesson for option in self.options for lesson, _ in self.parted(option))

    @functools.lru_cache(maxsize=None)
    def periods(self) -> list[str]:
        """All periods, by their numbers where these are numbers, else as a comment tells them."""
        periods = list(dict.fromkeys(name.rsplit("-", 1)[1] for option in self.options for _, names in self.parted(option) for name in names))
        if all(map(str.isdecimal, periods)):
            return sorted(periods, key=int)
        told: list[str] = next((comment.partition(":")[2].split() for comment in self.comments if re.match(r"\|\s*periods: ", comment)), [])
        named = told + [item.rsplit("-", 1)[1] for item in self.items if "-" in item]
        return sorted(periods, key=named.index)

    def given(self) -> Iterator[Given]:
        """All lessons of the answer."""
        also = self.also()
        for lesson, names in (part for option in self.chosen for part in self.parted(option)):
            pairs = [name.rsplit("-", 1) for name in names]
            who = list(dict.fromkeys(name for name, _ in pairs))
            lost = also.get(lesson) or also.get(self.base(lesson)) or []
            yield Given(lesson, self.title(lesson), who + lost, list(dict.fromkeys(period for _, period in pairs)))

    def item_words(self, item: str) -> str:
        own, less, rest = item.partition("<")
        if less:
            days = rest.partition(".")[2]
            what = {"week": "the free periods of", "free": "free periods of", "days": "the days of", "teacher": "the teacher of"}
            return f"{what.get(rest.partition('.')[0], 'the order of')} {self.full(own)}" + (f" on {days}" if days and not days.isdecimal() else "")
        if item in self.lessons():
            label = item.rpartition(".")[2] if self.base(item) != item else ""
            return self.full(item) + (f" on {label}" if label and not label.isdecimal() else f" (time {label})" if label else "")
        who, dash, period = item.rpartition("-")
        return f"{self.full(who)} in {period}" if dash else item

    # ---- plans

    def wanted(self) -> list[str]:
        """Of whom a plan is drawn; nothing where one table of all is."""
        if self.plans:
            return list(dict.fromkeys(one for word in self.plans for one in self.called(word)))
        days = all(map(with_day, self.periods()))
        if days:
            return self.called("classes") or self.called("all")
        return [] if self.table_width() <= WIDEST else self.called("all")

    def called(self, word: str) -> list[str]:
        """Whom a word means that is a name, a role or `all`, in order."""
        who, word = self.everybody(), composed(word)
        found = [one for one in who if word in (composed(one), composed(self.full(one)), who[one], "all")]
        return sorted(found, key=lambda one: (ROLES.index(who[one]), natural(self.full(one))))

    def unknown_plans(self) -> list[str]:
        """Words that ask for a plan of nobody."""
        return [word for word in self.plans if not self.called(word)]

    def entries(self, who: str) -> dict[str, tuple[str, str]]:
        """For each period of somebody's the lesson and who else is busy with it."""
        found: dict[str, tuple[str, str]] = {}
        for lesson in self.given():
            if who in lesson.who:
                roles = self.everybody()
                others = sorted((one for one in lesson.who if one != who), key=lambda one: ROLES.index(roles.get(one, "")))
                found.update((period, (lesson.name, " ".join(map(self.full, others)))) for period in lesson.periods)
        return found

    def plan(self, who: str) -> Rows:
        """The rows of a plan, the first with days, each cell a pair of texts; without days one column has them all."""
        entries, periods = self.entries(who), self.periods()
        at = {with_day(period) or ("", period): period for period in periods}
        days = in_week(list(dict.fromkeys(day for day, _ in at)))
        numbers = list(dict.fromkeys(number for _, number in at))
        numbers = sorted(numbers) if all(map(with_day, periods)) else numbers
        rows = [[(self.full(who), "")] + [(day.strip(" .:_") or "lesson", "") for day in days]]
        return rows + [[(str(number), "")] + [entries.get(at.get((day, number), ""), ("", "")) for day in days] for number in numbers]

    def fills(self, plans: list[Rows]) -> dict[str, str]:
        """A colour for each lesson; those that share a plan have different ones, as far as there are so many."""
        sharing = [{lesson for row in plan[1:] for lesson, _ in row[1:]} for plan in plans]
        found: dict[str, str] = {}
        for k, name in enumerate(dict.fromkeys(map(self.title, self.lessons()))):
            taken = {found.get(other) for lessons in sharing if name in lessons for other in lessons}
            order = [*FILLS[k % len(FILLS):], *FILLS[:k % len(FILLS)]]
            found[name] = next((fill for fill in order if fill not in taken), order[0])
        return found

    # ---- the plan as a table

    def table(self) -> str:
        """The plan as CSV: a row for each time that a lesson is given, of a class those of a day together."""
        head = ["lesson", "teacher", "class", "rooms", "periods", "length"]
        return self.as_csv([head, *(row for _, row in sorted(map(self.row_of, self.given()), key=lambda pair: pair[0]))])

    def as_csv(self, rows: Iterable[Sequence[str]]) -> str:
        """Rows as CSV, with columns parted as those of the table of lessons are."""
        separator = next((comment.partition(": ")[2] for comment in self.comments if re.match(r"\|\s*separator: [,;]$", comment)), ",")
        written = io.StringIO()
        csv.writer(written, delimiter=separator, lineterminator="\n").writerows(rows)
        return written.getvalue()

    def grid(self, wanted: Sequence[str]) -> str:
        """Plans as CSV that people read: of each of these a block with a row for each number of a period and a column
        for each day."""
        blocks = ([[" ".join(filter(None, cell)) for cell in row] for row in self.plan(who)] for who in wanted)
        return "\n".join(map(self.as_csv, blocks))

    def row_of(self, given: Given) -> tuple[tuple[list[tuple[int, int, str]], int], list[str]]:
        """A lesson as a row, and what sorts it."""
        roles, order = self.everybody(), self.periods()
        cells = ["+".join(self.full(one) for one in given.who if roles.get(one) == role) or "-" for role in ("teachers", "classes", "rooms")]
        return ((natural(cells[1]), order.index(given.periods[0])), [given.name, *cells, " ".join(given.periods), str(len(given.periods))])

    # ---- one table of all

    def rows(self) -> list[list[str]]:
        who = list(self.everybody())
        busy = {(one, period): lesson.name for lesson in self.given() for one in lesson.who for period in lesson.periods}
        return [["period"] + list(map(self.full, who))] + [[period] + [busy.get((one, period), "") for one in who] for period in self.periods()]

    def table_width(self) -> float:
        rows = self.rows()
        return 2 * MARGIN + sum(max(text_width(row[k], 14) for row in rows) + 20 for k in range(len(rows[0])))

    def lines(self) -> list[str]:
        wanted = self.wanted()
        if not wanted:
            return table_text(self.rows())
        plans = [table_text([[" ".join(filter(None, cell)) for cell in row] for row in self.plan(who)]) for who in wanted]
        return list(itertools.chain.from_iterable([*plan, ""] for plan in plans))[:-1]

    def draw(self, paper: Paper) -> None:
        wanted = self.wanted()
        if not wanted:
            names = [self.title(name) for name in self.lessons()]
            draw_table(paper, self.rows(), lambda lesson: FILLS[names.index(lesson) % len(FILLS)])
            self.caption(paper)
            return
        rows = [self.plan(who) for who in wanted]
        draw_plans(paper, rows, self.fills(rows))
        self.caption(paper)


def composed(name: str) -> str:
    """A name in which a letter with a mark is one character, wherever there is one for both."""
    return unicodedata.normalize("NFC", name)


def draw_plans(paper: Paper, plans: list[Rows], fills: dict[str, str]) -> None:
    """Draws plans side by side, as far as a sheet is wide, each lesson in its colour."""
    wide = max(map(Plan.column_width, plans))
    x = y = high = 0.0
    for plan in (Plan(rows, wide) for rows in plans):
        if x and x + plan.wide > WIDEST - 2 * MARGIN:
            x, y, high = 0.0, y + high + GAP, 0.0
        plan.draw(paper, x, y, fills.__getitem__)
        x, high = x + plan.wide + GAP, max(high, plan.high)


class Plan:
    """The plan of somebody's week on a sheet, under their name: a row for each number of a period, a column for each
    day."""

    SIZE, SMALL, LINE = 13, 11, 16

    def __init__(self, rows: Rows, wide: float) -> None:
        self.name, self.rows = rows[0][0][0], [[("", "")] + rows[0][1:]] + rows[1:]
        columns = len(self.rows[0]) - 1
        numbers = max(30, *(text_width(row[0][0], self.SIZE) + 16 for row in self.rows))
        self.widths = [numbers] + [min(wide, (WIDEST - 2 * MARGIN - numbers) / columns)] * columns
        self.cells = [[self.told(cell, wide) for cell, wide in zip(row, self.widths)] for row in self.rows]
        self.highs = [max(len(cell) for cell in row) * self.LINE + 10 for row in self.cells]
        self.wide = max(sum(self.widths), min(WIDEST - 2 * MARGIN, text_width(self.name, self.SIZE + 2)))
        self.high = sum(self.highs) + 26

    @classmethod
    def column_width(cls, rows: Rows) -> float:
        """How wide the column of a day is to be, so that no text is folded."""
        return max([60] + [text_width(text, cls.SIZE) + 16 for row in rows for cell in row[1:] for text in cell])

    def told(self, cell: tuple[str, str], wide: float) -> list[tuple[str, int]]:
        """The lines of a cell, each with its size."""
        lesson, others = cell
        parts = [(line, self.SIZE) for line in folded(lesson, wide - 12, self.SIZE)]
        return parts + [(line, self.SMALL) for line in folded(others, wide - 12, self.SMALL)]

    def draw(self, paper: Paper, x: float, y: float, fill_of: Callable[[str], str]) -> None:
        paper.text(x, y + 10, self.name, self.SIZE + 2, "start", INK, True)
        y += 26
        for r, row in enumerate(self.rows):
            left = x
            for k, (lesson, _) in enumerate(row):
                is_head = r == 0 or k == 0
                paper.box(left, y, self.widths[k], self.highs[r], "#ebe8e0" if is_head else fill_of(lesson) if lesson else BACKGROUND, FAINT, 0.8)
                self.draw_lines(paper, left + self.widths[k] / 2, y + self.highs[r] / 2, self.cells[r][k], is_head)
                left += self.widths[k]
            y += self.highs[r]

    def draw_lines(self, paper: Paper, x: float, y: float, told: list[tuple[str, int]], is_head: bool) -> None:
        """The lines of a cell round its middle."""
        for n, (line, size) in enumerate(told):
            paper.text(x, y + (n - (len(told) - 1) / 2) * self.LINE, line, size, "middle", INK, is_head)
