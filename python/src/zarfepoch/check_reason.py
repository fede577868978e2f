"""Adds up a reason that `solve_cli why FILE` gives for `none`, and says whether it holds.

    zarfepoch-check-reason FILE REASON

REASON is a file with what `why` wrote, or - for the standard input. No search and no part of the program is needed: an
exact cover names each primary item once. So where the weights in each option are a multiple of the modulus, all weights
together are one; and where each option brings as much room as it needs, all needs together are at most all rooms. Where
they are as much, the cover also names each item that has room once, so a reason behind it counts these as primary. Of a
clique, options each two of which clash, the cover has one at most, so an item that all of them name may have room, too.
And of the options of a primary item the cover has just one, so where each of them has a reason that holds of the
options that are left beside it, there is none.

The exit status is 0 where the reason holds, 1 where it doesn't, 2 for a mistake on the command line, 3 for a file that
can't be read, a FILE that the program refuses, or where the standard output can't be written.
"""
from __future__ import annotations

import itertools

from .command_line.ends import run, stop
from .command_line.words import parser_of
from .files.cover_files import read_problem, refusal, shown
from .files.whole_files import read_bytes, Unreadable

# the words of each line
Lines = list[list[bytes]]


def check(problem: Lines, reason: Lines) -> str:
    """What is wrong with a reason; nothing where it holds. Both are lists of lines, these lists of words."""
    items, *options = [words for words in problem if words and not words[0].startswith(b"|")]
    bar = next((place for place, word in enumerate(items) if word.startswith(b"|")), len(items))
    primary = set(items[:bar])
    options = [option for option in options if primary.intersection(option)]    # a line without a primary item is no option of a problem
    lines = reason[1:]
    if lines[0][:2] == [b"options", b"of"]:
        return check_cases(primary, options, lines)
    if lines[0] == [b"cliques"]:
        end = next(place for place, words in enumerate(lines) if place and words[0] != b"clique")
        wrong = add_cliques(items, options, lines[1:end])
        if wrong:
            return wrong
        lines = lines[end:]
    if lines[0] == [b"just", b"enough", b"room"]:
        end = next(place for place, words in enumerate(lines) if words[0] in (b"weights", b"too"))
        _, needs, rooms = amounts_of(lines[1:end])
        if not primary.issuperset(needs):
            return "an item has a need, and isn't primary"
        if sum(needs.values()) < sum(rooms.values()):
            return "room is more than just enough"
        wrong = unfit(options, needs, rooms)
        if wrong:
            return wrong
        primary.update(name for name, room in rooms.items() if room)
        lines = lines[end:]
    return add_up(primary, options, lines)


def add_up(primary: set[bytes], options: Lines, lines: Lines) -> str:
    """What is wrong with weights, or needs and rooms; nothing where they show that there is no cover."""
    head, *lines = lines
    weights, needs, rooms = amounts_of(lines)
    if not primary.issuperset([*weights, *needs]):
        return "an item has a weight or a need, and isn't primary"
    if head[0] == b"weights":
        modulus = int(head[-1])
        for option in options:
            if sum(weights.get(name, 0) for name in option) % modulus:
                return f"the weights in this option are no multiple of {modulus}: {shown(b' '.join(option))}"
        return "" if sum(weights.values()) % modulus else f"all weights together are a multiple of {modulus}"
    return unfit(options, needs, rooms) or ("" if sum(needs.values()) > sum(rooms.values()) else "all needs together are no more than all rooms")


def check_cases(primary: set[bytes], options: Lines, lines: Lines) -> str:
    """What is wrong with a reason for each option of an item; nothing where each holds of that option and those that
    don't clash with it."""
    _, _, item = lines[0]
    heads = [place for place, words in enumerate(lines) if words[0] == b"option"]
    numbers = [int(number) for _, number in (lines[place] for place in heads)]
    if heads[:1] != [1][:len(lines) - 1]:
        raise ValueError("a line before the first option says nothing")
    if item not in primary:
        return f"the item of the cases isn't primary: {shown(item)}"
    if numbers != [number for number, option in enumerate(options) if item in option]:
        return f"the cases aren't those of each option that names {shown(item)}, in the order of the file"
    for number, head, end in zip(numbers, heads, [*heads[1:], len(lines)]):
        left = [other for place, other in enumerate(options) if place == number or not clash(options[number], other)]
        wrong = add_up(primary, left, lines[head + 1:end])
        if wrong:
            return f"with option {number}, {wrong}"
    return ""


def amounts_of(lines: Lines) -> list[dict[bytes, int]]:
    """The weights, the needs and the rooms that these lines give to items; a ValueError where a number isn't one from
    0."""
    amounts: dict[bytes, dict[bytes, int]] = {b"weigh": {}, b"need": {}, b"room": {}}
    for kind, number, name in lines:
        if not number.isdigit():
            raise ValueError("a weight, a need or a room isn't a number from 0")
        amounts[kind][name] = int(number)
    return list(amounts.values())


def add_cliques(items: list[bytes], options: Lines, lines: Lines) -> str:
    """Adds the name of each clique to its options. What is wrong with a clique; nothing where all are right."""
    names = {word.lstrip(b"|") for word in items}
    added: Lines = [[] for _ in options]
    for _, name, *numbers in lines:
        if name in names or b":" in name or b"|" in name:
            return f"this name of a clique is that of an item or of another clique, or is none: {shown(name)}"
        names.add(name)
        if not all(number.isdigit() for number in numbers):
            raise ValueError("the number of an option isn't one from 0")
        clique = sorted({int(number) for number in numbers})
        for one, other in itertools.combinations(clique, 2):
            if not clash(options[one], options[other]):
                both = f"{shown(b' '.join(options[one]))} and {shown(b' '.join(options[other]))}"
                return f"options {one} and {other} of {shown(name)} don't clash: {both}"
        for number in clique:
            added[number].append(name)
    for option, more in zip(options, added):
        option += more
    return ""


def clash(one: list[bytes], other: list[bytes]) -> bool:
    """Whether both options name an item to which they don't give the same colour."""
    colours = {name: colour for name, _, colour in (word.partition(b":") for word in other)}
    return any(name in colours and (not colour or colours[name] != colour) for name, _, colour in (word.partition(b":") for word in one))


def unfit(options: Lines, needs: dict[bytes, int], rooms: dict[bytes, int]) -> str:
    """What is wrong with these needs and rooms in some option; nothing where each brings as much room as it needs."""
    for option in options:
        if any(word.partition(b":")[0] in rooms for word in option if b":" in word):
            return f"this option gives a colour to an item that has room: {shown(b' '.join(option))}"
        if sum(needs.get(name, 0) for name in option) > sum(rooms.get(name, 0) for name in option):
            return f"this option needs more than it has room for: {shown(b' '.join(option))}"
    return ""


def lines_of(text: bytes) -> Lines:
    """The words of each line."""
    return [line.split() for line in text.split(b"\n")]


def main() -> int:
    parser = parser_of(__doc__)
    parser.add_argument("file", metavar="FILE")
    parser.add_argument("reason", metavar="REASON")
    given = parser.parse_args()
    if given.file == given.reason == "-":
        parser.error("- is the standard input, which can be read once")
    try:
        text, reason_text = read_bytes(given.file), read_bytes(given.reason)
    except Unreadable as why:
        stop(why, 3)
    faults = read_problem(text).faults
    if faults:
        stop(f"{given.file} is refused: {refusal(faults)}; zarfepoch-explain {given.file} explains it", 3)
    problem, reason = lines_of(text), [words for words in lines_of(reason_text) if words]
    if reason[:1] != [[b"none"]]:
        print("no reason: the first line isn't 'none'")
        return 1
    try:
        wrong = check(problem, reason)
    except (KeyError, ValueError, IndexError, ZeroDivisionError, StopIteration):
        wrong = "this isn't the text of a reason, or of a problem"
    print(f"wrong: {wrong}" if wrong else "right: the reason holds, so there is no exact cover")
    return 1 if wrong else 0


if __name__ == "__main__":
    run(main)
