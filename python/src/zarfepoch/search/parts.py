"""A search taken apart: the open prefixes of a problem's search tree, each as a problem of its own. For the scripts
that split and join.

The tree is that of the search: a prefix is a list of options no two of which clash, its branch item the uncovered
primary item with fewest live options, the first of those, and its children are the prefix followed by one of these. A
prefix whose primary items are all covered is a cover; one whose branch item has no live option is barren; any other is
open.
"""
from __future__ import annotations

import collections
import os
from typing import Callable, Iterator, NamedTuple, NoReturn, Optional, Sequence

from ..command_line.ends import stop
from ..files.cover_files import Option, Problem, read_problem, refusal
from ..files.whole_files import Unreadable, read_bytes

WHOLE, LIST = "whole.dlx", "parts.txt"
MOST_PARTS = 10_000
# how many options a set has (Python 3.10 counts the bits of a number itself, and faster)
size_of: Callable[[int], int] = getattr(int, "bit_count", lambda options: bin(options).count("1"))


class Prefix(NamedTuple):
    """Options by their places in the file, in the order of choice; what is live, as a set; the branch item, None where
    all are covered; and of the live options those that name it."""
    options: tuple[int, ...]
    live: int
    item: Optional[bytes]
    choices: int


def places_in(options: int) -> list[int]:
    """The places of a set's options, in file order."""
    return [place for place, digit in enumerate(bin(options)[:1:-1]) if digit == "1"]


class Tree:
    """The search tree of a problem. A set of options is a number whose bits are the options' places."""

    def __init__(self, problem: Problem) -> None:
        self.problem = problem
        self.naming: dict[bytes, int] = dict.fromkeys(problem.items, 0)
        self.giving: dict[tuple[bytes, bytes], int] = {}
        for place, option in enumerate(problem.options):
            self.enter(1 << place, option)

    def enter(self, bit: int, option: Option) -> None:
        """Enters an option at each item that it names, and at each colour that it gives."""
        for name, colour in zip(option.names, option.colours):
            self.naming[name] |= bit
            if colour is not None:
                self.giving[name, colour] = self.giving.get((name, colour), 0) | bit

    def barred_by(self, place: int) -> int:
        """The options that clash with this one: that name an item of it, and don't give it the colour that this one
        gives it."""
        option, barred = self.problem.options[place], 0
        for name, colour in zip(option.names, option.colours):
            agreeing = 0 if colour is None else self.giving[name, colour]
            barred |= self.naming[name] & ~agreeing
        return barred

    def words(self, place: int) -> bytes:
        """The words of an option, as they stand in the file."""
        return b" ".join(self.problem.options[place].words)

    def prefix(self, options: tuple[int, ...], live: int) -> Prefix:
        """A prefix with its branch item."""
        covered = {name for place in options for name in self.problem.options[place].names}
        uncovered = [item for item in self.problem.primary_names() if item not in covered]
        if not uncovered:
            return Prefix(options, live, None, 0)
        item = min(uncovered, key=lambda item: size_of(live & self.naming[item]))
        return Prefix(options, live, item, live & self.naming[item])

    def root(self) -> Prefix:
        return self.prefix((), (1 << len(self.problem.options)) - 1)

    def children(self, parent: Prefix) -> list[Prefix]:
        """The prefix followed by one live option of its branch item, for each of these in file order."""
        return [self.prefix((*parent.options, place), parent.live & ~self.barred_by(place)) for place in places_in(parent.choices)]


class Split(NamedTuple):
    """What a tree was taken apart into: a cover, if one was met, or else its open and its barren prefixes, in the order
    of the search."""
    cover: Optional[Prefix]
    parts: list[Prefix]
    barren: list[Prefix]


def split(tree: Tree, number: int) -> Split:
    """Takes a tree apart, breadth first, until there are at least so many open prefixes, or none is left, or one is a
    cover."""
    born = [tree.root()]
    barren: list[Prefix] = []
    waiting: collections.deque[Prefix] = collections.deque()
    while True:
        cover = next((prefix for prefix in born if prefix.item is None), None)
        waiting.extend(prefix for prefix in born if prefix.choices)
        barren.extend(prefix for prefix in born if not prefix.choices)
        if cover is not None:
            return Split(cover, [], [])
        if not waiting or len(waiting) >= number:
            return Split(None, sorted(waiting), sorted(barren))
        born = tree.children(waiting.popleft())


def part_name(number: int) -> str:
    """The file of a part, by its number from 1."""
    return f"part-{number}.dlx"


def answer_name(number: int) -> str:
    """The file of a part's answer."""
    return f"part-{number}.answer"


def certificate_name(number: int) -> str:
    """The file of a part's certificate."""
    return f"part-{number}.certificate"


def items_left(tree: Tree, prefix: Prefix) -> tuple[list[bytes], list[bytes]]:
    """The primary and the secondary items that are left: what the prefix covers is gone, but for secondary items that
    it gives a colour."""
    chosen = [tree.problem.options[place] for place in prefix.options]
    gone = {name for option in chosen for name, colour in zip(option.names, option.colours) if colour is None}
    names = tree.problem.names()
    primary, secondary = ([name for name in some if name not in gone] for some in (names[:tree.problem.primary], names[tree.problem.primary:]))
    return primary, secondary


def item_line(tree: Tree, prefix: Prefix) -> bytes:
    """The item line of a part."""
    primary, secondary = items_left(tree, prefix)
    return b" ".join(primary + [b"|"] * bool(secondary) + secondary)


def part_text(tree: Tree, prefix: Prefix, number: int, count: int) -> bytes:
    """The problem of a part: its covers, with the prefix, are the covers of the whole that extend the prefix."""
    head = b"| part %d of %d; its covers are completed by these options:" % (number, count)
    chosen = [b"| " + tree.words(place) for place in prefix.options]
    live = [tree.words(place) for place in places_in(prefix.live)]
    return b"".join(line + b"\n" for line in (head, *chosen, item_line(tree, prefix), *live))


def texts_of(tree: Tree, found: Split) -> Iterator[bytes]:
    """The problems of all parts, one after the other, since they may be large."""
    return (part_text(tree, prefix, number, len(found.parts)) for number, prefix in enumerate(found.parts, 1))


def list_text(found: Split, number: int) -> bytes:
    """The list of all prefixes, in the order of the search. Options go by their numbers from 0."""
    names = {prefix.options: b"part %d" % place for place, prefix in enumerate(found.parts, 1)}
    lines = [b"at least %d parts" % number]
    for prefix in [*([found.cover] if found.cover else []), *sorted(found.parts + found.barren)]:
        numbers = b" ".join(b"%d" % place for place in prefix.options)
        left = b"" if prefix.choices or prefix.item is None else b", no option is left for " + prefix.item
        name = names.get(prefix.options, b"cover" if prefix.item is None else b"closed")
        lines.append(name + b": options " + numbers + left)
    return b"\n".join(lines) + b"\n"


def cover_text(tree: Tree, places: Sequence[int]) -> bytes:
    """An answer with these options, in file order."""
    return b"".join(line + b"\n" for line in (b"cover %d" % len(places), *map(tree.words, sorted(places))))


def refused(path: str, why: str) -> NoReturn:
    """Ends a script that reads a refused problem."""
    stop(f"{path} is refused: {why}; zarfepoch-explain {path} explains it", 3)


def read_tree(path: str) -> tuple[bytes, Tree]:
    """A problem file, as bytes and as its search tree; ends the script where it can't be read or is refused."""
    try:
        text = read_bytes(path)
    except Unreadable as why:
        stop(why, 3)
    problem = read_problem(text)
    if problem.faults:
        refused(path, refusal(problem.faults))
    return text, Tree(problem)


def path_in(folder: str, name: str) -> str:
    return os.path.join(folder, name)
