"""The command zarfepoch: answers a puzzle of a kind, or a problem that is given as JSON, or calls a tool of the package
if its first word names one. `zarfepoch --help` describes it (`solved`).
"""
from __future__ import annotations

import json
import sys
from collections.abc import Hashable
from typing import Any, NoReturn, Optional

from . import Colored, Word, solve
from .command_line.ends import run, Status, stop
from .command_line.words import called
from .commands import COMMANDS, command_of
from .files.whole_files import Unreadable, read_bytes
from .solved import command_line, kind_missing, solve_kind


# what an object in JSON may have
KEYS = ("options", "primary", "secondary")


def is_name(value: object) -> bool:
    """Whether a value of JSON may be an item or a colour; true and false would be equal to 1 and 0 here, and null to no
    colour."""
    return isinstance(value, (str, int, float)) and not isinstance(value, bool)


def item_of(word: Any, place: int) -> Word:
    """An item of an option that is given as JSON, in a list of two with its colour."""
    parts = word if isinstance(word, list) and len(word) == 2 else [word]
    if not all(map(is_name, parts)):
        raise ValueError(f"option {place} has {json.dumps(word)}, which is neither an item nor an item with its colour")
    item: Hashable = parts[0]
    return Colored(item, parts[1]) if len(parts) == 2 else item


def each_once(pairs: list[tuple[str, Any]]) -> dict[str, Any]:
    """An object whose keys come once each: Python would drop all values of a key but the last."""
    twice = next((key for place, (key, _) in enumerate(pairs) if key in dict(pairs[:place])), None)
    if twice is not None:
        raise ValueError(f"{json.dumps(twice)} stands twice in an object")
    return dict(pairs)


def no_number(word: str) -> NoReturn:
    """Refuses NaN and Infinity, which Python takes for numbers and JSON hasn't: two NaN would be two items."""
    raise ValueError(f"{word} is no number there")


def solve_json(text: bytes, seconds: Optional[float] = None) -> Optional[list[int]]:
    """The answer to a problem that is given as JSON."""
    try:
        given = json.loads(text, object_pairs_hook=each_once, parse_constant=no_number)
    except ValueError as why:
        raise ValueError(f"this is no JSON: {why}") from None
    strange = [key for key in given if key not in KEYS] if isinstance(given, dict) else []
    if strange:
        raise ValueError(f"{json.dumps(strange[0])} is none of {', '.join(map(json.dumps, KEYS))}")
    parts: dict[str, Any] = {"secondary": [], "primary": None, **given} if isinstance(given, dict) else {}
    options, primary, secondary = (parts.get(what) for what in ("options", "primary", "secondary"))
    if not (isinstance(options, list) and isinstance(primary, (list, type(None))) and isinstance(secondary, list)):
        raise ValueError('an object with the list "options", and perhaps the lists "primary" and "secondary", is expected')
    for place, option in enumerate(options):
        if not isinstance(option, list):
            raise ValueError(f"option {place} is no list")
    if not all(map(is_name, (primary or []) + secondary)):
        raise ValueError("an item is a text or a number")
    return solve([[item_of(word, place) for word in option] for place, option in enumerate(options)], primary, secondary, seconds)


def main() -> Status:
    tool = "-".join(["zarfepoch", *sys.argv[1:2]])
    if sys.argv[1:] and tool in COMMANDS:
        # (both words stand for the tool, in its usage too)
        sys.argv[:2] = [f"{called()} {sys.argv[1]}"]
        command_of(COMMANDS[tool])()
    given = command_line().parse_args()
    if given.kind and given.json is not None:
        stop("--json FILE stands for a KIND, and both are given")
    if given.kind:
        return solve_kind(given, sys.argv[1:])
    if given.json is None:
        stop(kind_missing())
    try:
        answer = solve_json(read_bytes(given.json), given.seconds)
    except (Unreadable, OSError, ValueError, RuntimeError, MemoryError) as why:
        stop(str(why) or "out of memory", 3)
    print(json.dumps(answer))
    return 1 if answer is None else 0


if __name__ == "__main__":
    sys.argv[0] = "zarfepoch"
    run(main)
