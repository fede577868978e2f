"""What the program reads no more of: a problem beyond that is refused before it is written."""
from __future__ import annotations

import os
import re

from ..files.cover_files import MAX_COLOURS, MAX_ITEMS, MAX_NAME, MAX_OCCURRENCES, MAX_OPTIONS
from .puzzles import Puzzle


class Refused(Exception):
    """Why a puzzle can't be made into a problem."""


def check_count(count: int, most: int, what: str) -> None:
    """Refuses what the program wouldn't read, best before it is made."""
    if count > most:
        raise Refused(f"this would have {count:,} {what}, and the program reads at most {most:,}")


def check_range(puzzle: Puzzle) -> None:
    """Refuses what the program wouldn't read."""
    names, options = puzzle.primary + puzzle.secondary, puzzle.options
    colours = list(dict.fromkeys(word.partition(":")[2] for option in options for word in option if ":" in word))
    for name in names + colours:
        if not name or len(os.fsencode(name)) > MAX_NAME or re.search(r"[\s:|\0\ud800-\udfff]", name):
            raise Refused(f"'{name}' can't be a name: 1 to {MAX_NAME} bytes of UTF-8, without white space, ':' and '|'")
    for count, most, what in ((len(names), MAX_ITEMS, "items"), (len(options), MAX_OPTIONS, "options"),
                              (sum(map(len, options)), MAX_OCCURRENCES, "occurrences of items in options"),
                              (len(colours), MAX_COLOURS, "colours")):
        check_count(count, most, what)
    twice = [name for name in names if names.count(name) > 1] if len(set(names)) < len(names) else []
    if twice:
        raise Refused(f"the name '{twice[0]}' would stand for two items")
    if not names:
        raise Refused("nothing is left to cover: all that has to be found is given")
