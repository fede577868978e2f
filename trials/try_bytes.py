#!/usr/bin/env python3
"""Reads changed bytes of packets, problems and answers by readers of its own, and compares what comes of them with the
tests' tables.

    python3 trials/try_bytes.py [--print]

Of each text below it takes each beginning, the text with each byte behind it, and the text with each other byte at each
place, and counts how many are read, and how many have each fault. Of what is read it adds up some numbers, and of
faults the lines. `cover_files.py` reads problems and answers, and `first_fault` here reads packets. The rows have to be
in the tables of wire_tests and file_tests, which count the same by the code; --print prints them.

It wants no program. The exit status is 0, 1 where a row isn't in its table, 2 for a mistake on the command line.
"""
from __future__ import annotations

import os
import re
import sys
from collections.abc import Iterator
from typing import Callable, Optional

from built import parser_of, TOP
from zarfepoch.files.cover_files import read_answer, read_problem

PACKETS = """
    434e0104 0000000001 0200000001 00000000 00000001 0000
    434e0106 0200000001 0000000001 00000000 00000001 00
    434e0106 0200000001 0000000001 00000000 00000001 01 0003 0003 0004 0000
    434e0103 0200000001 0000000001
    434e0101 1001020304 0000000001
    434e0102 0000000001 0200000003 02 00000001 00000100
    434e0105 0100000001 0200000001
    434e0107 0200000001 0100000005 00000007 00000002 01 0001 4e1f
    434e0108 0000000001 0100000001 00000000 00000001 02
    434e0109 0100000001 0200000001 00000100 ffffffff
    434e010a 0000000001 0100000009
    434e0204 0100000001 0200000001 02 0000 00000000 00000001 0000 00000001 00000001 0001
"""
LETTERS = "a b c d e f g/c e/a d g/b c f/a d f/b g/d e g/"
PROBLEMS = (
    LETTERS, "a b | x/a x/b x/b/", "a/", "| note/  | note", "a |x/", "a | x/x/a", "a/a/a/", "a b\r/a\r/b\r/",
    "p q r | x y/p q x y:A/p r x:A y/p x:B/q x:A/r y:B/", "aaaaaaaaaabbbbbbbbbbccccccccccdd/",
    "a | x/a x:aaaaaaaaaabbbbbbbbbbccccccccccdd/", "/\t\v| c/a |x y/ x:1 a y/",
)
ANSWERS = (
    (LETTERS, "cover 3/c e/a d f/b g/"), (LETTERS, "none/"), (LETTERS, "/ cover 00002\r//b g/c e"), ("a/a/a/a/", "cover 2/a/a/"),
    ("a b | x y/a x:A y/a x y:A/a x:A y/a x:AA y/b/", "cover 3/a x:A y/b/a x:A y/"), ("a/", "cover 0/"),
)
FAULTS = ("NoItems", "IllegalByte", "NameTooLong", "BadColour", "DuplicateItem", "SecondBar", "UnknownItem", "DuplicateInOption",
          "ColourOnPrimary", "TooManyItems", "TooManyOptions", "TooManyNodes", "TooManyColours")
ANSWER_FAULTS = ("BadHead", "WrongCount", "UnknownOption")
WIRE_FAULTS = ("Short", "Magic", "Version", "Kind", "Field", "Trailing")
HELLO, MEMBERS, STEAL, GIVE, NO_WORK, RETURN, ACCEPT, REFUSE, ABORT, OVER = range(1, 11)
TO_REGISTRY, FROM_REGISTRY, TO_NODE = {HELLO}, {MEMBERS, OVER}, {GIVE, NO_WORK, ACCEPT, REFUSE, ABORT}


def varied(text: bytes) -> Iterator[bytes]:
    """Each beginning of the bytes, then each with a byte more, then each with another byte at a place."""
    yield from (text[:end] for end in range(len(text)))
    yield from (text + bytes([byte]) for byte in range(256))
    for place, old in enumerate(text):
        yield from (text[:place] + bytes([byte]) + text[place + 1:] for byte in range(256) if byte != old)


# ---- packets

class Fault(Exception):
    """The first fault of a packet's bytes."""


class Fields:
    """The fields of a packet, from the first on."""

    def __init__(self, text: bytes) -> None:
        self.left = text

    def take(self, size: int, may: Callable[[int], object] = lambda number: True, fault: str = "Field") -> int:
        """The number in the next so many bytes."""
        if len(self.left) < size:
            raise Fault("Short")
        number, self.left = int.from_bytes(self.left[:size], "big"), self.left[size:]
        if not may(number):
            raise Fault(fault)
        return number

    def site(self) -> int:
        node = self.take(1, lambda number: number <= 16)
        self.take(4, lambda number: number == 1 or node and number)
        return node

    def options(self, least: int, most: int) -> None:
        for _ in range(self.take(2, lambda number: least <= number <= most)):
            self.take(2, is_option)

    def result(self) -> None:
        if self.take(1, lambda number: number <= 1):
            self.options(1, 1000)


def is_option(number: int) -> bool:
    return number <= 19999


def is_some(number: int) -> bool:
    return number >= 1


def may_go(version: int, kind: int, sender: int, receiver: int) -> bool:
    """Whether a packet of this kind goes from one node to another."""
    if sender == receiver or (version == 2 and not (sender and receiver)):
        return False
    if kind in FROM_REGISTRY:
        return sender == 0
    if kind in TO_REGISTRY:
        return receiver == 0
    return receiver > 0 if kind in TO_NODE else sender > 0


def siblings(fields: Fields) -> None:
    """The body of a packet that gives several children."""
    count, last = fields.take(1, lambda number: 2 <= number <= 8), -1
    fields.options(0, 999)
    for _ in range(count):
        least = last
        last = fields.take(4, lambda number: number > least)
        fields.take(4, is_some)
        fields.take(2, is_option)


def body(fields: Fields, kind: int) -> None:
    """The body of a packet of the first version."""
    if kind == MEMBERS:
        for _ in range(fields.take(1, lambda number: 1 <= number <= 16)):
            fields.take(4, is_some)
    if kind in (GIVE, RETURN, ACCEPT, REFUSE, ABORT):
        fields.take(4)
        fields.take(4, is_some)
    if kind == GIVE:
        fields.options(0, 1000)
    if kind in (RETURN, ACCEPT):
        fields.result()
    if kind == REFUSE:
        fields.take(1, lambda number: 1 <= number <= 3)


def first_fault(text: bytes) -> Optional[str]:
    """The first fault of a packet's bytes, or None."""
    fields = Fields(text)
    try:
        fields.take(2, lambda number: number == 0x434E, "Magic")
        version = fields.take(1, lambda number: number in (1, 2), "Version")
        kind = fields.take(1, lambda number: number == GIVE or version == 1 and HELLO <= number <= OVER, "Kind")
        if not may_go(version, kind, fields.site(), fields.site()):
            raise Fault("Field")
        siblings(fields) if version == 2 else body(fields, kind)
        return "Trailing" if fields.left else None
    except Fault as fault:
        return str(fault)


def packet_row(text: bytes) -> list[int]:
    """How many are read, and how many have each fault."""
    told = [first_fault(one) for one in varied(text)]
    return [told.count(fault) for fault in (None, *WIRE_FAULTS)]


# ---- problems and answers

def problem_row(text: bytes) -> list[int]:
    """How many are read, and how many have each fault; the faults' lines; items, primary ones, options, nodes, colours,
    options ignored."""
    row = [0] * (1 + len(FAULTS)) + [0] * 7
    for one in varied(text):
        problem = read_problem(one)
        if problem.faults:
            row[1 + FAULTS.index(problem.faults[0].name)] += 1
            row[14] += problem.faults[0].line or 0
            continue
        more = (len(problem.items), problem.primary, len(problem.options), problem.occurrences, len(problem.colours), len(problem.ignored))
        row = [row[0] + 1, *row[1:15], *(old + new for old, new in zip(row[15:], more))]
    return row


def answer_row(file: bytes, text: bytes) -> list[int]:
    """How many say a cover, and none, and how many have each fault; the faults' lines; each option by its place in the
    cover."""
    problem, row = read_problem(file), [0] * 7
    for one in varied(text):
        answer = read_answer(one, problem)
        if answer.faults:
            first = answer.faults[0]
            row[2 + ANSWER_FAULTS.index(first.name)] += 1
            row[5] += first.line or 0 if first.name == "UnknownOption" else 0
        elif answer.kind == "none":
            row[1] += 1
        else:
            row[0] += 1
            row[6] += sum((place + 1) * (option + 1) for place, (_, option) in enumerate(answer.chosen))
    return row


def spelled(text: str) -> bytes:
    return text.replace("/", "\n").encode("ascii")


def tables() -> Iterator[tuple[str, list[list[int]]]]:
    """Of each file of tests the rows that it has to have."""
    packets = [bytes.fromhex(line) for line in PACKETS.strip().splitlines()]
    yield "wire_tests/src/tests/packets.rt", [packet_row(text) for text in packets]
    yield "file_tests/src/tests/changed.rt", [problem_row(spelled(text)) for text in PROBLEMS]
    yield "file_tests/src/tests/changed.rt", [answer_row(spelled(file), spelled(text)) for file, text in ANSWERS]


def main() -> int:
    parser = parser_of(__doc__)
    parser.add_argument("--print", action="store_true", help="print the rows")
    given = parser.parse_args()
    rows = missing = 0
    for path, table in tables():
        with open(os.path.join(TOP, "crates", path), encoding="utf-8") as opened:
            source = re.sub(r"\s+", "", opened.read()).replace(",]", "]")
        for row in table:
            rows += 1
            if given.print:
                print(path, row)
            if str(row).replace(" ", "") not in source:
                missing += 1
                print(f"{path}: no row {row}")
    print(f"{rows} rows, {missing} of them in no table")
    return 1 if missing else 0


if __name__ == "__main__":
    sys.exit(main())
