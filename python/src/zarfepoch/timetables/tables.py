"""Tables of lessons as people write them, in CSV: who gives which lesson to whom, where and when it may be.

A cell may name several: teachers or classes that share a lesson, rooms of which it has one or that it wants at once,
periods of which it has one. What can be meant in two ways is refused with its line.
"""
from __future__ import annotations

import csv
import io
import re
from collections import Counter
from collections.abc import Callable, Iterator
from dataclasses import dataclass, field
from typing import Optional

from ..texts.names import as_seen, hint_alike, hint_slips, want_one_spelling
from ..texts.puzzles import read_text, refuse
from .weeks import Periods, want_joined, WEEKDAYS

WANTED, NEEDED = ("lesson", "teacher", "class", "rooms", "periods"), ("lesson", "teacher", "class")
OTHER = ("times", "length", "a_day", "apart", "fixed", "after", "note")
# (without blanks and underscores)
ALIASES = {"lessons": "lesson", "subject": "lesson", "teachers": "teacher", "classes": "class", "group": "class", "groups": "class", "room": "rooms",
           "period": "periods", "hours": "times", "aday": "a_day", "perday": "a_day", "follows": "after", "notes": "note", "remark": "note",
           "remarks": "note"}
NOBODY = "-"
# people or rooms that are together in a lesson
Together = tuple[str, ...]


@dataclass
class Lesson:
    """A lesson of the table: of several teachers, or of several rooms, those that have it together, one choice of which
    it has; how often in the week it is given, in how many periods one after another, and at most how often on a day.
    `title` is its name as the table has it."""
    line: int
    title: str
    name: str
    teachers: list[Together]
    classes: list[str]
    rooms: list[Together]
    periods: list[str]
    times: int
    length: int
    a_day: Optional[int] = None
    apart: list[str] = field(default_factory=list)
    fixed: list[str] = field(default_factory=list)
    after: str = ""

    def people(self) -> list[str]:
        """Everybody who has it or may have it, and its rooms, in the order of the roles."""
        return list(dict.fromkeys([*(one for some in self.teachers for one in some), *self.classes, *(one for some in self.rooms for one in some)]))

    def surely(self) -> list[str]:
        """Those who have it, whatever is chosen."""
        chosen = [one for choices in (self.teachers, self.rooms) for one in choices[0] if all(one in some for some in choices)]
        return list(dict.fromkeys([*chosen, *self.classes]))


def columns_of(path: str, line: int, names: list[str], wanted: tuple[str, ...], needed: tuple[str, ...], aliases: dict[str, str]) -> list[str]:
    """The columns of a table by the names that they have here."""
    columns = [re.sub(r"[\s_]+", "", name or "").lower() for name in names]
    columns = [aliases.get(column, column) for column in columns]
    told = f"the columns are {','.join(needed)}, and if they are wanted {', '.join(other for other in wanted if other not in needed)}"
    unknown = [name for name, column in zip(names, columns) if column and column not in wanted]
    if unknown:
        refuse(path, line, f"there is no column '{unknown[0]}'; {told}")
    lacking = [column for column in needed if column not in columns]
    if lacking:
        refuse(path, line, f"the column {lacking[0]} is missing; {told}")
    twice = [column for column in columns if column and columns.count(column) > 1]
    if twice:
        refuse(path, line, f"the column {twice[0]} stands there twice")
    return columns


def is_comment(text: str) -> bool:
    return text.lstrip().startswith(("|", "#"))


def separator_of(text: str) -> str:
    """What parts the columns of a table: of commas, semicolons and tabs what the head has most often."""
    head = next((line for line in text.split("\n") if line.strip() and not is_comment(line)), "")
    return max(",;\t", key=head.count)


def rows_in(path: str, text: str) -> Iterator[tuple[int, list[str]]]:
    """The rows of a table that aren't empty or comments, each with the number of its first line."""
    reader, line = csv.reader(io.StringIO(text), delimiter=separator_of(text), strict=True), 1
    try:
        for row in reader:
            if any(map(str.strip, row)) and not is_comment(row[0]):
                yield line, row
            line = reader.line_num + 1
    except csv.Error as why:
        is_open = reader.line_num > line or "end of data" in str(why)
        refuse(path, line, "no quotation mark ends the cell that one begins here" if is_open else f"it can't be read as a table: {why}")


def read_table(path: str, wanted: tuple[str, ...], needed: tuple[str, ...], aliases: dict[str, str]) -> Iterator[tuple[int, dict[str, str]]]:
    """The rows of a table by its head, each with the number of its line."""
    # (some spreadsheets end lines by a carriage return, with or without a line feed)
    text = re.sub("\r\n?", "\n", read_text(path))
    # (a first line that says to Excel what parts the columns; the head shows it anyway)
    text = re.sub(r'\A"?sep=[,;\t]?"?[,;\t ]*(?=\n)', "", text, flags=re.IGNORECASE)
    lines = list(rows_in(path, text))
    if not lines:
        refuse(path, None, "the table has no head")
    columns = columns_of(path, *lines[0], wanted, needed, aliases)
    for number, row in lines[1:]:
        want_parted(path, number, row, separator_of(text))
        if len(row) > len(columns) and any(map(str.strip, row[len(columns):])):
            refuse(path, number, f"it has {len(row)} columns, and the head {len(columns)}: a cell with a {separator_word(separator_of(text))} in it wants "
                   "quotation marks round it, and several rooms or periods may have blanks between")
        # (a cell may have line ends and blanks that aren't seen)
        yield number, dict(zip(columns, [" ".join(cell.split()) for cell in row] + [""] * len(columns)))


def want_parted(path: str, line: int, row: list[str], separator: str) -> None:
    """Refuses a row whose columns are parted by something else than those of the head."""
    other = next((mark for mark in ",;\t" if mark in row[0]), None)
    if other and not any(map(str.strip, row[1:])):
        refuse(path, line, f"a {separator_word(other)} parts its columns, and a {separator_word(separator)} those of the head")


def separator_word(separator: str) -> str:
    return {",": "comma", ";": "semicolon"}.get(separator, "tab")


# ---- cells

def number_in(path: str, line: int, row: dict[str, str], column: str, least: int, most: int) -> Optional[int]:
    """A number in a column that may be missing or empty."""
    text = row.get(column) or ""
    if text and (not re.fullmatch(r"0|[1-9]\d?", text) or not least <= int(text) <= most):
        refuse(path, line, f"{column} is a number from {least} to {most}, and not '{text}'")
    return int(text) if text else None


def alternatives(cell: str) -> list[str]:
    """The parts of a cell of which a lesson has one, with `or` between them; a part is empty where nothing stands
    beside an `or`."""
    return [part.strip() for part in re.split(r"\s(?:or|oder)(?=\s|$)|^(?:or|oder)(?=\s)", cell)]


def want_names(path: str, line: int, row: dict[str, str]) -> None:
    """Refuses cells in which a word would be a name that only joins two."""
    for column in WANTED[1:]:
        found = re.search(r"\s(and|und)\s" if column in ("teacher", "rooms") else r"\s(and|or|und|oder)\s", row.get(column, ""))
        if found:
            refuse(path, line, f"{column} '{row[column]}': '{found[1]}' would be a name; several have ';' between" +
                   (", and rooms that are wanted at once '+'" if column == "rooms" else ""))


class Rooms:
    """The rooms of cells: blanks, `;`, `,` and `or` part those of which a lesson has one, `+` those that it wants at
    once."""

    def __init__(self, path: str, cells: list[str]) -> None:
        self.path = path
        self.whole = set(cells)
        self.known = {word for cell in cells for word in re.split(r"[\s;,+]+", cell)}

    def read(self, line: int, cell: str) -> list[Together]:
        """The choices of a cell, each of one room or of several; one of none where the cell is empty."""
        if cell in ("", NOBODY):
            return [()]
        want_joined(self.path, line, "rooms", cell, self.whole)
        parts = alternatives(cell)
        if "" in parts:
            refuse(self.path, line, f"rooms '{cell}': a room is missing beside 'or'")
        words = [word for word in re.split(r"[\s;,]+", re.sub(r"\s*\+\s*", "+", " ".join(parts))) if word]
        if not words:
            refuse(self.path, line, f"rooms '{cell}': a room is missing; where there is none, the cell is empty")
        return list(dict.fromkeys(self.together(line, cell, word) for word in words))

    def together(self, line: int, cell: str, word: str) -> Together:
        """The rooms of a word, which has `+` between those that are wanted at once."""
        rooms = tuple(word.split("+"))
        if "" in rooms or len(set(rooms)) < len(rooms):
            refuse(self.path, line, f"rooms '{cell}': " + ("a room is missing beside '+'" if "" in rooms else f"'{word}' names a room twice"))
        for room in rooms:
            parts = [part for part in re.split("[/&]", room) if part]
            if len(parts) > 1 and not self.known.isdisjoint(parts):
                refuse(self.path, line, f"rooms '{room}': {' and '.join(part for part in parts if part in self.known)} stands elsewhere as a room; "
                       f"one of several has ';' between ({';'.join(parts)}), and several at once have '+' ({'+'.join(parts)})")
        return rooms


class People:
    """Who the cells of a column name. `or` parts those of whom a lesson has one; `;`, `,` and `+` part names of those
    who share it, and a blank, `/` or `&` does where what it parts are names elsewhere."""

    def __init__(self, path: str, column: str, cells: list[str]) -> None:
        self.path, self.column = path, column
        cells = [part for cell in cells for part in alternatives(cell)]
        self.certain = {name.strip() for cell in cells if "," not in cell for name in re.split(r"[;+]", cell)}
        whole = {name.strip() for cell in cells for name in re.split(r"[;,+]", cell)}
        self.alone = {name for name in whole if not re.search(r"[\s/&]", name)} - {""}
        parted = [tuple(self.words(name)) for name in whole if self.words(name)[1:]]
        self.companies = {word: {words for words in parted if word in words} for words in parted for word in words}

    @staticmethod
    def words(name: str) -> list[str]:
        return [word for word in re.split(r"[\s/&]+", name) if word]

    def choices(self, line: int, cell: str) -> list[Together]:
        """Those of whom a lesson has one: each a name, or several that share it."""
        found = [tuple(self.read(line, part)) for part in alternatives(cell)]
        if len(found) > 1 and (() in found or len({frozenset(some) for some in found}) < len(found)):
            refuse(self.path, line, f"{self.column} '{cell}': different names are expected beside 'or'")
        return found

    def read(self, line: int, cell: str) -> list[str]:
        """The names in a cell."""
        if cell == NOBODY:
            return []
        names = [name.strip() for name in re.split(r"[;,+]", cell)]
        if "" in names:
            refuse(self.path, line, f"{self.column} '{cell}': a name is missing beside ';', ',' or '+'")
        if "," in cell and self.certain.isdisjoint(names):
            refuse(self.path, line, f"{self.column} '{cell}' may be one name or several: several have ';' between ({';'.join(names)}), and one has "
                   f"no comma ({' '.join(names)})")
        found = [one for name in names for one in self.parted(line, name)]
        twice = [one for one, count in Counter(found).items() if count > 1]
        if twice:
            refuse(self.path, line, f"{self.column} '{cell}' names {twice[0]} twice")
        return found

    def parted(self, line: int, name: str) -> list[str]:
        """One name, or several where that is what blanks between them mean."""
        words = self.words(name)
        hyphened = [word for word in name.split("-") if word]
        if len(hyphened) > 1 and set(hyphened) <= self.alone:
            refuse(self.path, line, f"{self.column} '{name}': {', '.join(hyphened)} are names elsewhere; several names have ';' between")
        if len(words) < 2 or not self.alone & set(words) and all(len(self.companies[word]) == 1 for word in words):
            together = len(words) > 1 and self.column == "class" and all(re.search(r"\d", word) for word in words)
            return words if together else [name]
        if set(words) <= self.alone:
            return words
        return refuse(self.path, line, f"{self.column} '{name}' may be one name or several: several have ';' between ({';'.join(words)}), and one "
                      f"has none ({'_'.join(words)})")


# ---- lessons

def numbered_names(lessons: list[Lesson]) -> None:
    """Lessons with the name of another are called after their classes too."""
    counts = Counter(lesson.title for lesson in lessons)
    for lesson in lessons:
        if counts[lesson.title] > 1:
            lesson.name = f"{lesson.title}({'+'.join(lesson.classes)})"


def want_different(path: str, lessons: list[Lesson]) -> None:
    """Refuses two lessons of one name."""
    seen: dict[str, Lesson] = {}
    for lesson in lessons:
        for name in {lesson.name, *(f"{lesson.name}.{k}" for k in range(1, lesson.times + 1) if lesson.times > 1)}:
            before = seen.get(name)
            if before and before.name == lesson.name:
                of = f" of {'+'.join(lesson.classes)}" if lesson.classes else ""
                refuse(path, lesson.line, f"the lesson {lesson.title}{of} stands there twice, in line {before.line} too; a column times says how "
                       "often a lesson is given, and two lessons of one class have two names")
            if before:
                refuse(path, lesson.line, f"the lesson {lesson.title} would be called as a time of the lesson {before.title} in line {before.line} "
                       "is; give it another name")
            seen[name] = lesson


def want_no_periods(path: str, lessons: list[Lesson]) -> None:
    """Refuses a lesson that is called as somebody or a room with a period is, as ann-Mon1, since that is an item
    too."""
    periods = {period for lesson in lessons for period in lesson.periods}
    busy = {f"{who}-{period}" for who in {who for lesson in lessons for who in lesson.people()} for period in periods}
    for lesson in lessons:
        if lesson.name in busy:
            refuse(path, lesson.line, f"the lesson {lesson.name} is called as {' in the period '.join(lesson.name.rsplit('-', 1))} is; give it "
                   "another name")


def roles_of(lesson: Lesson) -> list[tuple[str, list[str]]]:
    """Who and what a lesson names, by roles."""
    teachers, rooms = ([one for some in choices for one in some] for choices in (lesson.teachers, lesson.rooms))
    return [("teacher", teachers), ("class", lesson.classes), ("room", rooms)]


def want_roles(path: str, lessons: list[Lesson], cells: dict[int, str]) -> None:
    """Refuses a name of a teacher that is one of a class or a room too, and so on. `cells` are those of rooms, by
    lines."""
    roles: dict[str, str] = {}
    for lesson in lessons:
        for role, names in roles_of(lesson):
            for who in names:
                if roles.setdefault(who, role) != role:
                    cell = cells.get(lesson.line, "")
                    hint = f"; in rooms '{cell}' a blank parts rooms: write {cell.replace(' ', '_')} for one" if role == "room" and " " in cell else ""
                    refuse(path, lesson.line, f"{who} would be a {roles[who]} and a {role}: these have names of their own{hint}")


def without_noughts(name: str) -> str:
    """What two spellings of a period share: Mon01 is MON1."""
    return re.sub(r"(?<!\d)0+(?=\d)", "", as_seen(name).casefold())


def want_one_way(path: str, lessons: list[Lesson]) -> None:
    """Refuses two spellings of a name, which would be two names: a teacher of both could be in two places at a time."""
    spelled: dict[str, Callable[[str], str]] = {"period": without_noughts}
    for what in ("teacher", "class", "room", "period"):
        found = ((lesson.line, name) for lesson in lessons for role, names in [*roles_of(lesson), ("period", lesson.periods)]
                 if role == what for name in names)
        want_one_spelling(path, what, found, spelled.get(what, lambda name: as_seen(name).casefold()))


def hint_names(path: str, lessons: list[Lesson]) -> None:
    """Tells of names that may be one: of people and rooms, of lessons of one class, and of words that keep lessons
    apart; and of slips."""
    for what in ("teacher", "class", "room"):
        found = [(lesson.line, name) for lesson in lessons for role, names in roles_of(lesson) if role == what for name in names]
        hint_alike(path, what, found)
        hint_slips(path, what, found)
    hint_slips(path, "lesson", ((lesson.line, lesson.title) for lesson in lessons))
    for classes in dict.fromkeys(tuple(lesson.classes) for lesson in lessons):
        hint_alike(path, "lesson", ((lesson.line, lesson.title) for lesson in lessons if tuple(lesson.classes) == classes))
    hint_alike(path, "word in apart", ((lesson.line, word) for lesson in lessons for word in lesson.apart))


def want_one_week(path: str, lessons: list[Lesson]) -> None:
    """Refuses a day of the week that is written in two ways, as in Mon1 and Monday1; MoN1 may be an afternoon."""
    seen: dict[str, tuple[str, int]] = {}
    days = [(re.sub(r"[\s.:_]*\d+$", "", period), lesson.line) for lesson in lessons for period in lesson.periods]
    for day, line in dict.fromkeys(days):
        is_word = len(day) > 1 and day in (day.lower(), day.title(), day.upper())
        for name in (name for name in WEEKDAYS if is_word and name.startswith(day.casefold())):
            before, first = seen.setdefault(name, (day, line))
            if before != day:
                refuse(path, line, f"the day {day} and the day {before} of line {first} would be two: write one day in one way")


class Table:
    """The rows of a table of lessons, and what its cells name."""

    def __init__(self, path: str, further_periods: list[str]) -> None:
        self.path = path
        self.rows = list(read_table(path, WANTED + OTHER, NEEDED, ALIASES))
        self.separator = separator_of(read_text(path))
        for line, row in self.rows:
            lacking = [column for column in NEEDED if not re.search(r"[^\s;,]", row[column])]
            if lacking:
                refuse(path, line, f"{lacking[0]} is missing; where there is none, - says so")
            want_names(path, line, row)
        if not self.rows:
            refuse(path, None, "the table has a head and no lessons")
        self.people = {column: People(path, column, self.cells(column)) for column in ("teacher", "class")}
        self.rooms = Rooms(path, self.cells("rooms"))
        self.periods = Periods(path, [*self.cells("periods"), *self.cells("fixed"), *further_periods])

    def cells(self, column: str) -> list[str]:
        return [row.get(column, "") for _, row in self.rows]

    def lesson(self, line: int, row: dict[str, str]) -> Lesson:
        """The lesson of a row; one whose cell of periods is empty has none as yet."""
        teachers, rooms = self.people["teacher"].choices(line, row["teacher"]), self.rooms.read(line, row.get("rooms", ""))
        classes = self.people["class"].read(line, row["class"])
        if teachers == rooms == [()] and not classes:
            refuse(self.path, line, "it has no teacher, no class and no room, so it can always be given, and is in no plan; leave it out")
        return Lesson(
            line, row["lesson"], row["lesson"], teachers, classes, rooms, self.periods.read(line, row.get("periods", "")),
            number_in(self.path, line, row, "times", 1, 99) or 1, number_in(self.path, line, row, "length", 1, 9) or 1,
            number_in(self.path, line, row, "a_day", 1, 9), re.findall(r"[^\s;,+]+", row.get("apart", "")),
            self.periods.read(line, row.get("fixed", "")), row.get("after", ""))

    def lessons(self) -> list[Lesson]:
        """All lessons of the table."""
        lessons = [self.lesson(line, row) for line, row in self.rows]
        numbered_names(lessons)
        return lessons

    def check(self, lessons: list[Lesson]) -> None:
        """Refuses names that can't be meant, once all lessons have their periods."""
        want_different(self.path, lessons)
        want_no_periods(self.path, lessons)
        want_roles(self.path, lessons, {line: row.get("rooms", "") for line, row in self.rows})
        want_one_way(self.path, lessons)
        want_one_week(self.path, lessons)
        hint_names(self.path, lessons)
