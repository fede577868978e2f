#!/usr/bin/env python3
"""A plain search for exact covers, apart from the crates, whose answers the tests compare with.

    python3 trials/plain_search.py FILE

prints the outcome, the visits and the first cover of the empty prefix, by numbers of options from 0. It filters all
options at each visit, as the definition says, and keeps no links. Two options clash where both name an item, and it is
primary or they give it no equal colour (exact covering with colours, TAOCP 7.2.2.1). It reads the same files as the
program, but trusts them: no refusal is made here but of a file without items or with others in its options. It wants no
built program. The exit status is 0, or 2 for a mistake on the command line, or a file that can't be read or is refused.
"""
from __future__ import annotations

import sys
from typing import Optional

from built import parser_of, stop

sys.setrecursionlimit(10000)
WHITE = b"\t\v\f\r "
# the items of an option by their numbers, each with its colour, or with nothing where it has none
Numbered = dict[int, Optional[bytes]]


def words_of(line: bytes) -> list[bytes]:
    for byte in WHITE:
        line = line.replace(bytes([byte]), b" ")
    return [word for word in line.split(b" ") if word]


def option_of(names: list[bytes], words: list[bytes]) -> Numbered:
    """The items of an option, each with its colour, or with nothing where it has none."""
    parts = [word.partition(b":") for word in words]
    return {names.index(name): colour or None for name, _, colour in parts}


def read(text: bytes) -> tuple[list[bytes], int, list[Numbered], int]:
    lines = [words_of(line) for line in text.split(b"\n")]
    lines = [words for words in lines if words and not words[0].startswith(b"|")]
    names: list[bytes] = []
    bar = None
    for word in lines[0]:
        if word.startswith(b"|"):
            bar = len(names)
            word = word[1:]
        if word:
            names.append(word)
    primary = len(names) if bar is None else bar
    options = [option_of(names, words) for words in lines[1:]]
    kept = [option for option in options if any(item < primary for item in option)]
    return names, primary, kept, len(options) - len(kept)


def clash(primary: int, one: Numbered, other: Numbered) -> bool:
    """Whether both name an item that is primary, or to which they give no equal colour."""
    return any(item < primary or colour is None or other[item] != colour for item, colour in one.items() if item in other)


def live_options(primary: int, options: list[Numbered], prefix: list[int]) -> list[int]:
    return [o for o, option in enumerate(options) if not any(clash(primary, option, options[p]) for p in prefix)]


def branching(primary: int, options: list[Numbered], prefix: list[int]) -> Optional[list[int]]:
    """The live options of the branch item, the first uncovered primary item with fewest of them; None where all are
    covered."""
    covered = {item for o in prefix for item in options[o]}
    live = live_options(primary, options, prefix)
    best = None
    for item in range(primary):
        if item not in covered:
            choices = [o for o in live if item in options[o]]
            if best is None or len(choices) < len(best):
                best = choices
    return best


def search(primary: int, options: list[Numbered], prefix: list[int]) -> tuple[Optional[list[int]], int]:
    """First and visits of a prefix."""
    choices = branching(primary, options, prefix)
    if choices is None:
        return prefix, 1
    visits = 1
    for option in choices:
        first, below = search(primary, options, prefix + [option])
        visits += below
        if first is not None:
            return first, visits
    return None, visits


def main() -> None:
    parser = parser_of(__doc__)
    parser.add_argument("file", metavar="FILE", help="the problem's file")
    path = parser.parse_args().file
    try:
        with open(path, "rb") as file:
            text = file.read()
    except OSError as why:
        stop(f"{path} can't be read: {why.strerror}")
    try:
        names, primary, options, ignored = read(text)
    except (IndexError, ValueError):
        stop(f"{path} is refused; scripts/zarfepoch explain {path} explains it")
    first, visits = search(primary, options, [])
    print("cover" if first is not None else "none", "visits", visits, "first", first, "ignored", ignored)


if __name__ == "__main__":
    main()
