"""The problem of all other covers than some: each lacks some option of each of these, and items and options more see to
that.

`zarfepoch-another` writes it, and says in its help how; whether a solution is the only one is asked by it.
"""
from __future__ import annotations

from collections.abc import Iterator
from typing import Optional

from ..files.cover_files import MAX_COLOURS, MAX_ITEMS, MAX_OCCURRENCES, MAX_OPTIONS, Problem
from .parts import places_in, size_of, Tree

# the words of an option
Words = tuple[bytes, ...]


def free_name(problem: Problem, beginning: bytes) -> bytes:
    """A name that begins no item's name."""
    name = beginning
    while any(item.startswith(name) for item in problem.items):
        name += b"+"
    return name


def other_lines(problem: Problem, answers: list[list[Words]], other: bytes) -> Iterator[bytes]:
    """The lines of the problem of all other covers."""
    bars = {words: b"%s-%d" % (other, k) for k, words in enumerate(dict.fromkeys(words for chosen in answers for words in chosen))}
    names, primary, wanted = problem.names(), problem.primary, [b"%s%d" % (other, k) for k in range(1, len(answers) + 1)]
    yield b"| the covers that lack an option of each given one"
    yield b" ".join([*wanted, *names[:primary], b"|", *names[primary:], *bars.values()])
    for option in problem.options:
        yield b" ".join([*option.words, *([bars[option.words] + b":used"] if option.words in bars else [])])
    for item, chosen in zip(wanted, answers):
        for words in chosen:
            yield b"%s %s:barred" % (item, bars[words])


def beyond(lines: list[bytes]) -> Optional[str]:
    """What is more in a problem of these lines than the program reads; None where nothing is."""
    words = [word for line in lines[2:] for word in line.split()]
    colours = {word.partition(b":")[2] for word in words if b":" in word}
    for count, most, what in ((len(lines[1].split()) - 1, MAX_ITEMS, "items"), (len(lines) - 2, MAX_OPTIONS, "options"),
                              (len(words), MAX_OCCURRENCES, "occurrences of items in options"), (len(colours), MAX_COLOURS, "colours")):
        if count > most:
            return f"{count:,} {what}, and the program reads at most {most:,}"
    return None


def is_settled(tree: Tree, places: list[int]) -> bool:
    """Whether so many options of a cover leave no choice: always some item has one option left, until all are
    covered."""
    live, uncovered = (1 << len(tree.problem.options)) - 1, set(tree.problem.primary_names())
    chosen = list(places)
    while chosen:
        for place in chosen:
            uncovered.difference_update(tree.problem.options[place].names)
            live &= ~tree.barred_by(place)
        forced = {live & tree.naming[item] for item in uncovered if size_of(live & tree.naming[item]) == 1}
        chosen = [place for bit in forced for place in places_in(bit)]
    return not uncovered


def enough(problem: Problem, chosen: list[Words]) -> list[Words]:
    """Some options of a cover without which there is no other cover that has them all: what is left follows from them,
    one by one. So each other cover lacks one of these."""
    tree, places = Tree(problem), {option.words: place for place, option in enumerate(problem.options)}
    kept = [places[words] for words in chosen]
    if len({option.words for option in problem.options}) < len(problem.options):
        return chosen
    for place in list(kept):
        fewer = [other for other in kept if other != place]
        if is_settled(tree, fewer):
            kept = fewer
    return [problem.options[place].words for place in kept]


def others_of(problem: Problem, answers: list[list[Words]], other: bytes) -> tuple[bytes, Optional[str]]:
    """The text of the problem of all other covers than these, and what is too much in it for the program, if anything
    is."""
    lines = list(other_lines(problem, answers, other))
    if beyond(lines):
        lines = list(other_lines(problem, [enough(problem, chosen) for chosen in answers], other))
    return b"".join(line + b"\n" for line in lines), beyond(lines)
