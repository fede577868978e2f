"""The names that a problem's numbers stand for, where the file tells them: names of at most 32 bytes can't hold all
that people write.

A comment `| name 7: Mathematics for beginners` says that 7 stands for these words, alone (`7`), at a period (`7-Mon1`)
or as one of several times (`7.2`).
"""
from __future__ import annotations

import re

from .cover_files import Problem, shown


def full_names(comments: list[str]) -> dict[str, str]:
    """The names by their numbers, of comments as texts that begin with their bar."""
    found = (re.fullmatch(r"\|\s*name (\S+): (.+)", comment) for comment in comments)
    return {told[1]: told[2] for told in found if told}


def parted(names: dict[str, str], item: str) -> tuple[str, str] | None:
    """The number in an item's name that has a name in full, and what stands behind it: it may stand before a last `-`
    or `.`."""
    if item in names:
        return item, ""
    found = re.fullmatch(r"(.+)([-.][^-.]+)", item)
    return (found[1], found[2]) if found and found[1] in names else None


def full_name(names: dict[str, str], item: str) -> str:
    """An item's name in full."""
    found = parted(names, item)
    return names[found[0]] + found[1] if found else item


def named_numbers(comments: list[str], items: list[str], lines: list[str]) -> list[str]:
    """For each number of which an item's name stands in these lines, a line with what the number means."""
    names = full_names(comments)
    words = {word.strip("'(),:;") for line in lines for word in line.split()} if names else set()
    found = [parted(names, item) for item in items if item in words]
    return [f"{number} means {names[number]}" for number in dict.fromkeys(number for number, _ in filter(None, found))]


def told_lines(problem: Problem, lines: list[str]) -> list[str]:
    """Lines for readers, and behind them what numbers in them mean."""
    return lines + named_numbers(list(map(shown, problem.comments)), list(map(shown, problem.items)), lines)
