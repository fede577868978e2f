#!/usr/bin/env python3
"""Solves puzzles that Simon Tatham's programs make, and compares each answer with theirs.

    python3 trials/peer_puzzles.py [--program PROGRAM] [--times N] [KIND ..]

Of dominosa, tents, shikaku, futoshiki, kenken and binairo, or of the kinds that are named, N puzzles of some sizes (10
where no number is given) are made by Debian's package sgt-puzzles, whose puzzles have one solution each and come with
it. They are written as people write them; the answer of zarfepoch has to be that solution. The last line is 'N passed,
M failed'.

It wants the program, and the package: apt-get install sgt-puzzles. The exit status is 0 where all passed, 1 where
something failed, 2 for a mistake on the command line, or where there is no program or no package.
"""
from __future__ import annotations

import os
import re
import subprocess
import sys
import tempfile
from typing import Callable, NamedTuple

from built import number_from_one, parser_of, path_of, SOLVE_CLI, stop, TOP, want_program
from expected import Trial

GAMES = "/usr/games"
# where two cells lie side by side or one above the other
Grid = list[list[str]]


class Made(NamedTuple):
    """A puzzle as people write it, and the lines that are drawn of its solution."""
    text: str
    solution: list[str]


def size_of(parameters: str) -> tuple[int, int]:
    """How wide and how high a puzzle is."""
    found = re.match(r"(\d+)(?:x(\d+))?", parameters)
    assert found
    return int(found[1]), int(found[2] or found[1])


def as_text(rows: Grid) -> str:
    return "\n".join(" ".join(row) for row in rows) + "\n"


def in_rows(marks: list[str], wide: int) -> Grid:
    return [marks[k:k + wide] for k in range(0, len(marks), wide)]


def walls(rows: Grid, areas: list[object], wide: int) -> list[str]:
    """A drawn board, with walls between areas, as terminals show it."""
    high = len(areas) // wide

    def at(r: int, c: int) -> object:
        return areas[r * wide + c] if 0 <= r < high and 0 <= c < wide else None

    broad, lines = max(1, max(len(mark) for row in rows for mark in row)) + 2, []
    for r in range(high + 1):
        line = ""
        for c in range(wide + 1):
            around = {at(r - 1, c - 1), at(r - 1, c), at(r, c - 1), at(r, c)}
            line += ("+" if len(around) > 1 else " ") + (("-" if at(r - 1, c) != at(r, c) else " ") * broad if c < wide else "")
        lines.append(line.rstrip())
        if r < high:
            cells = [("|" if at(r, c - 1) != at(r, c) else " ") + ("" if rows[r][c] == "." else rows[r][c]).center(broad) for c in range(wide)]
            lines.append(("".join(cells) + "|").rstrip())
    return lines


def dominosa(parameters: str, puzzle: str, solved: str) -> Made:
    most = size_of(parameters)[0]
    marks = re.findall(r"\[(\d+)\]|(\d)", puzzle)
    rows = in_rows([long or short for long, short in marks], most + 2)
    areas: list[object] = list(range(0, -(most + 1) * (most + 2), -1))
    for number, (one, other) in enumerate(re.findall(r"D(\d+),(\d+)", solved)):
        areas[int(one)] = areas[int(other)] = number
    return Made(as_text(rows), walls(rows, areas, most + 2))


def tents(parameters: str, puzzle: str, solved: str) -> Made:
    wide, high = size_of(parameters)
    runs, *counts = puzzle.split(",")
    marks, place = ["."] * wide * high, -1
    for letter in runs:
        place += 25 if letter == "z" else 1 + (0 if letter == "_" else ord(letter) - ord("a") + 1)
        if letter != "z" and place < len(marks):
            marks[place] = "T"
    rows, columns, beside = in_rows(marks, wide), counts[:wide], counts[wide:]
    text = "".join("".join(row) + f" {count}\n" for row, count in zip(rows, beside)) + " ".join(columns) + "\n"
    for x, y in re.findall(r"T(\d+),(\d+)", solved):
        rows[int(y)][int(x)] = "^"
    return Made(text, [f"{' '.join(row)}  {count}" for row, count in zip(rows, beside)] + [" ".join(columns)])


def shikaku(parameters: str, puzzle: str, solved: str) -> Made:
    wide, high = size_of(parameters)
    marks: list[str] = []
    for number, letter in re.findall(r"(\d+)|([a-z])", puzzle):
        marks += [number] if number else ["."] * (ord(letter) - ord("a") + 1)
    rows, bits = in_rows(marks, wide), solved[1:]
    right = {(r, c): bits[r * (wide - 1) + c] == "1" for r in range(high) for c in range(wide - 1)}
    below = {(r, c): bits[(wide - 1) * high + r * wide + c] == "1" for r in range(high - 1) for c in range(wide)}
    areas: dict[tuple[int, int], object] = {}
    for start in [(r, c) for r in range(high) for c in range(wide)]:
        reached = [start] if start not in areas else []
        for r, c in reached:
            areas[r, c] = start
            near = [((r, c + 1), right.get((r, c), True)), ((r, c - 1), right.get((r, c - 1), True)),
                    ((r + 1, c), below.get((r, c), True)), ((r - 1, c), below.get((r - 1, c), True))]
            reached += [cell for cell, wall in near if not wall and cell not in areas and cell not in reached]
    return Made(as_text(rows), walls(rows, [areas[r, c] for r in range(high) for c in range(wide)], wide))


def signed(size: int, digits: Grid, less: set[tuple[tuple[int, int], tuple[int, int]]]) -> list[str]:
    """Rows of digits with the signs between them."""
    lines = []
    for r in range(size):
        signs = ["<" if ((r, c), (r, c + 1)) in less else ">" if ((r, c + 1), (r, c)) in less else " " for c in range(size - 1)]
        lines.append("".join(f"{digit} {sign} " for digit, sign in zip(digits[r], signs)) + digits[r][-1])
        below = ["^" if ((r, c), (r + 1, c)) in less else "v" if ((r + 1, c), (r, c)) in less else " " for c in range(size)]
        lines += ["   ".join(below).rstrip()] if set(below) != {" "} else []
    return lines


def futoshiki(parameters: str, puzzle: str, solved: str) -> Made:
    size = size_of(parameters)[0]
    cells = [re.fullmatch(r"(\d)([URDL]*)", word) for word in puzzle.rstrip(",").split(",")]
    less = set()
    for place, found in enumerate(cells):
        r, c = divmod(place, size)
        for letter in found[2] if found else "":
            a, b = {"U": (-1, 0), "R": (0, 1), "D": (1, 0), "L": (0, -1)}[letter]
            less.add(((r + a, c + b), (r, c)))
    given = in_rows([found[1].replace("0", ".") if found else "." for found in cells], size)
    return Made("\n".join(signed(size, given, less)) + "\n", signed(size, in_rows(list(solved[1:]), size), less))


def kenken(parameters: str, puzzle: str, solved: str) -> Made:
    size = size_of(parameters)[0]
    runs, clues = puzzle.split(",")
    spelt = "".join(letter * int(count or 1) for letter, count in re.findall(r"([a-z_])(\d*)", runs))
    edges, place = set[int](), -1
    for letter in spelt:
        place += 25 if letter == "z" else 1 + (0 if letter == "_" else ord(letter) - ord("a") + 1)
        edges.update([place] if letter != "z" else [])
    half = size * (size - 1)
    right = {(k // (size - 1), k % (size - 1)): k in edges for k in range(half)}
    below = {(k % (size - 1), k // (size - 1)): half + k in edges for k in range(half)}
    areas: dict[tuple[int, int], str] = {}
    letters = iter("abcdefghijklmnopqrstuvwxyzABCDEFGHIJKLMNOPQRSTUVWXYZ0123456789")
    for start in [(r, c) for r in range(size) for c in range(size)]:
        reached = [start] if start not in areas else []
        letter = next(letters) if reached else ""
        for r, c in reached:
            areas[r, c] = letter
            near = [((r, c + 1), right.get((r, c), True)), ((r, c - 1), right.get((r, c - 1), True)),
                    ((r + 1, c), below.get((r, c), True)), ((r - 1, c), below.get((r - 1, c), True))]
            reached += [cell for cell, wall in near if not wall and cell not in areas and cell not in reached]
    signs = {"a": "+", "m": "*", "s": "-", "d": "/"}
    alone = [letter for letter in dict.fromkeys(areas.values()) if list(areas.values()).count(letter) == 1]
    told = [f"{letter}={number}{'' if letter in alone else signs[sign]}" for letter, (sign, number) in zip(
        dict.fromkeys(areas.values()), re.findall(r"([amsd])(\d+)", clues))]
    rows = in_rows([areas[r, c] for r in range(size) for c in range(size)], size)
    digits = in_rows(list(solved[1:]), size)
    text = "\n".join("".join(row) for row in rows) + "\n\n" + " ".join(told) + "\n"
    return Made(text, walls(digits, list(areas[r, c] for r in range(size) for c in range(size)), size))


def binairo(parameters: str, puzzle: str, solved: str) -> Made:
    size = size_of(parameters)[0]
    marks, place = ["."] * size * size, -1
    for letter in puzzle:
        if letter in "zZ":
            place += 25
            continue
        place += ord(letter.lower()) - ord("a") + 1
        if place < len(marks):
            marks[place] = "1" if letter.isupper() else "0"
    return Made(as_text(in_rows(marks, size)), [" ".join(row) for row in in_rows(list(solved[1:]), size)])


# of each kind its program, sizes as that takes them, and how its puzzles are read
KINDS: dict[str, tuple[str, list[str], Callable[[str, str, str], Made]]] = {
    "dominosa": ("dominosa", ["3dt", "4", "6", "6db", "9"], dominosa), "tents": ("tents", ["6x6", "8x8", "10x10dt", "12x12", "15x15dt"], tents),
    "shikaku": ("rect", ["5x5", "7x7", "9x9e0.5", "11x11", "15x13"], shikaku), "futoshiki": ("unequal", ["4de", "5", "6dt", "7dx", "9de"], futoshiki),
    "kenken": ("keen", ["4de", "5", "6dn", "6dh", "8dn"], kenken), "binairo": ("unruly", ["6x6ude", "8x8udn", "10x10ude", "10x10udn", "12x12ude"], binairo)}


def made_by_peer(program: str, parameters: str, folder: str) -> tuple[str, str, str]:
    """A puzzle of a program: its parameters, the puzzle, and its solution."""
    words = [os.path.join(GAMES, f"sgt-{program}"), "--generate", "1", parameters, "--save", os.path.join(folder, "made"), "--save-suffix", ".sav",
             "--with-solutions"]
    subprocess.run(words, check=True, capture_output=True, timeout=600)
    with open(os.path.join(folder, "made0.sav"), encoding="ascii") as opened:
        found = dict(re.findall(r"^(\w+) *:\d+:(.*)$", opened.read(), re.MULTILINE))
    return found["PARAMS"], found["DESC"], found["SOLVE"]


def main() -> int:
    parser = parser_of(__doc__)
    parser.add_argument("kinds", metavar="KIND", nargs="*", help="which kinds (default all)")
    parser.add_argument("--program", type=path_of, default=SOLVE_CLI, help="the built program (default crates/solve_cli/out/solve_cli)")
    parser.add_argument("--times", type=number_from_one, default=10, metavar="N", help="how many puzzles of each size (default 10)")
    given = parser.parse_args()
    want_program(given.program)
    unknown = [kind for kind in given.kinds if kind not in KINDS]
    if unknown or not os.path.exists(os.path.join(GAMES, "sgt-tents")):
        stop(f"there is no kind {unknown[0]} here" if unknown else "sgt-puzzles isn't installed: apt-get install sgt-puzzles")
    trial, environment = Trial(), {**os.environ, "ZARFEPOCH": given.program}
    with tempfile.TemporaryDirectory(prefix="peer-puzzles-") as folder:
        for kind, (program, sizes, read) in KINDS.items():
            for parameters in (sizes if not given.kinds or kind in given.kinds else []) * given.times:
                made = read(*made_by_peer(program, parameters, folder))
                path = os.path.join(folder, "puzzle.txt")
                with open(path, "w", encoding="utf-8") as opened:
                    opened.write(made.text)
                words = [sys.executable, os.path.join(TOP, "scripts", "zarfepoch"), kind, path]
                ended = subprocess.run(words, capture_output=True, text=True, env=environment, timeout=600)
                lines = [line.rstrip() for line in ended.stdout.splitlines()]
                trial.expect(f"{kind} {parameters}:\n{made.text}{ended.stdout}{ended.stderr}{made.solution}",
                             lines == [line.rstrip() for line in made.solution] + ["It is the only solution."])
    return trial.end()


if __name__ == "__main__":
    sys.exit(main())
