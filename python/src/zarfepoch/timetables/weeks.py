"""Periods of a week: their days and numbers, ranges as Mon1-4 and Mon-Fri1-6, and the order in which people read
them."""
from __future__ import annotations

import re
import unicodedata
from collections import Counter
from collections.abc import Iterable
from typing import Optional

from ..texts.puzzles import refuse

# the days of the week as they are written in some languages, in short and in full; a week begins with Monday
SHORT = ["mon tue wed thu fri sat sun", "mo di mi do fr sa so", "mo tu we th fr sa su", "lun mar mer jeu ven sam dim",
         "lun mar mi jue vie s\u00e1b dom", "lun mar mi\u00e9 jue vie s\u00e1b dom", "lun mar mer gio ven sab dom", "ma di wo do vr za zo",
         "pon wto \u015bro czw pi\u0105 sob nie", "\u043f\u043d \u0432\u0442 \u0441\u0440 \u0447\u0442 \u043f\u0442 \u0441\u0431 \u0432\u0441",
         "seg ter qua qui sex s\u00e1b dom", "\u4e00 \u4e8c \u4e09 \u56db \u4e94 \u516d \u65e5", "\u6708 \u706b \u6c34 \u6728 \u91d1 \u571f \u65e5"]
FULL = ["monday tuesday wednesday thursday friday saturday sunday", "montag dienstag mittwoch donnerstag freitag samstag sonntag",
        "lundi mardi mercredi jeudi vendredi samedi dimanche", "lunes martes mi\u00e9rcoles jueves viernes s\u00e1bado domingo",
        "luned\u00ec marted\u00ec mercoled\u00ec gioved\u00ec venerd\u00ec sabato domenica",
        "maandag dinsdag woensdag donderdag vrijdag zaterdag zondag"]
WEEKS = [week.split() for week in SHORT + FULL]
WEEKDAYS = [day for week in FULL for day in week.split()]


def day_and_number(period: str) -> Optional[tuple[str, int]]:
    """The day of a period and its number there, as of Mon1 or 2.1; a number alone is of no day, and None what ends with
    no number."""
    found = re.fullmatch(r"(.*\D)?(\d{1,4})", period)
    return (found[1] or "", int(found[2])) if found else None


def day_of(period: str) -> str:
    """The day of a period; a number alone is of one day without a name."""
    found = day_and_number(period)
    return found[0] if found else period


def bare(day: str) -> str:
    """A day in small letters, without what some write before and behind it."""
    return re.sub("^(\u5468|\u661f\u671f|\u9031)", "", day.strip(" .:_").casefold())


def natural(name: str) -> list[tuple[int, int, str]]:
    """What sorts names as people do: 9b comes before 10a, and \u00c4 beside A."""
    plain = "".join(letter for letter in unicodedata.normalize("NFKD", name.casefold()) if not unicodedata.combining(letter))
    parts = re.split(r"(\d+)", plain)
    return [(0, int(part), "") if k % 2 else (1, 0, part) for k, part in enumerate(parts) if part]


def in_week(days: Iterable[str]) -> list[str]:
    """Days in the order of the week, if they are days of one in some language; else by their numbers, or as they
    come."""
    some = list(days)
    for week in WEEKS:
        places = {day: [k for k, name in enumerate(week) if bare(day).startswith(name)] for day in some}
        if all(places.values()):
            return sorted(some, key=lambda day: places[day][0])
    return sorted(some, key=natural) if all(re.match(r"\d", day) for day in some) else some


def in_order(periods: Iterable[str]) -> list[str]:
    """Periods by the day of the week and their number there; those that don't tell these as they come."""
    some = list(dict.fromkeys(periods))
    parted = [day_and_number(period) for period in some]
    days = in_week(dict.fromkeys(found[0] for found in parted if found))
    if None in parted:
        return some
    return sorted(some, key=lambda period: (days.index(day_of(period)), (day_and_number(period) or ("", 0))[1]))


def told_periods(periods: Iterable[str], most: int = 12) -> str:
    """Some periods for a message, runs of one day as Mon1-6."""
    runs: list[list[str]] = []
    for period in in_order(periods):
        here, before = day_and_number(period), day_and_number(runs[-1][-1]) if runs else None
        if here and before and (before[0], before[1] + 1) == here:
            runs[-1].append(period)
        else:
            runs.append([period])
    words = [run[0] + (f"-{(day_and_number(run[-1]) or ('', 0))[1]}" if len(run) > 1 else "") for run in runs]
    return " ".join(words[:most]) + (" .." if len(words) > most else "")


class Periods:
    """How the periods of a table are written: its days tell the language of ranges as Mon-Fri1-6."""

    def __init__(self, path: str, cells: Iterable[str]) -> None:
        self.path = path
        self.days = {bare(word) for cell in cells for word in re.findall(r"[^\W\d_]+", cell)}

    def days_between(self, first: str, last: str) -> list[str]:
        """The days of the week from one to another, written as these are; none where they are no days of one week, or
        of several that differ between and no other day of the table tells which."""
        spans: dict[tuple[str, ...], int] = {}
        for week in WEEKS:
            if bare(first) in week and bare(last) in week and week.index(bare(first)) < week.index(bare(last)):
                spans.setdefault(tuple(week[week.index(bare(first)):week.index(bare(last)) + 1]), len(self.days & set(week)))
        most = max(spans.values(), default=0)
        best = [span for span, known in spans.items() if known == most]
        # (where only these two are told, the first of the languages is as good as any)
        is_plain = len(best) == 1 or most == 2
        written = next((way for way in (str.title, str.upper, str.lower) if (way(first), way(last)) == (first, last)), None)
        return [written(day) for day in best[0]] if best and is_plain and written else []

    def between(self, line: int, word: str) -> list[str]:
        """The periods of a range, as Mon1-4, 1-30 or Mon-Fri1-6."""
        found = re.fullmatch(r"([^\d-]*)(\d{1,3})-([^\d-]*)(\d{1,3})", word)
        if found and found[3] in ("", found[1]) and int(found[2]) <= int(found[4]):
            return [f"{found[1]}{number}" for number in range(int(found[2]), int(found[4]) + 1)]
        several = re.fullmatch(r"([^\d-]+)-([^\d-]+)(\d{1,3})-(\d{1,3})", word)
        if several and int(several[3]) <= int(several[4]):
            days = self.days_between(several[1], several[2])
            if days:
                return [f"{day}{number}" for day in days for number in range(int(several[3]), int(several[4]) + 1)]
            refuse(self.path, line, f"'{word}': nobody knows which days lie between {several[1]} and {several[2]}; write each day, as Mon1-6 Tue1-6")
        days = self.days_between(*word.split("-")) if re.fullmatch(r"[^\d-]+-[^\d-]+", word) else []
        meant = "a period's name has no '-'"
        if days:
            meant = f"whole days are {' '.join(days)} where somebody is away, and {word}1-6 are periods"
        refuse(self.path, line, f"'{word}' is no range of periods, as Mon1-4, 1-30 or Mon-Fri1-6; {meant}")

    def read(self, line: int, cell: str) -> list[str]:
        """The periods that a cell names."""
        want_joined(self.path, line, "periods", cell, set())
        # (text programs write long dashes)
        words = re.findall(r"[^\s;,]+", re.sub("[\u2010-\u2015]", "-", cell))
        periods = [period for word in words for period in (self.between(line, word) if "-" in word else [word])]
        twice = [period for period, count in Counter(periods).items() if count > 1]
        if twice:
            refuse(self.path, line, f"the period {twice[0]} stands there twice")
        wrong = next((period for period in periods if re.search(r"[:|<\0]", period)), None)
        if wrong:
            refuse(self.path, line, f"'{wrong}' can't be a period's name, which has no ':', '|' and '<'; number the periods of a day, as Mon1")
        return periods


def want_joined(path: str, line: int, column: str, cell: str, alone: set[str]) -> None:
    """Refuses a name and a number with a blank between, as in `room 12` or `Mon 1`, which would be two, unless one of
    them stands alone elsewhere."""
    for word, number in re.findall(r"(?<![^\s;,])([^\s;,\d]+)\s+(\d+(?:-\d+)?)(?![^\s;,])", cell):
        if alone.isdisjoint((word, number)):
            one = f"{word}{number}" if column == "periods" else f"{word}_{number}"
            refuse(path, line, f"{column} '{cell}': a blank parts {column}, so write {one} for one, and {word};{number} for two")
