"""Makers of problems, most of which other programs once decided ten times as fast as this one, or alone; the kinds of
implied.py.

What decides most of them is implied by their files: secondary items that each cover uses, and options of which each two
clash. The others have covers that are found by learning from dead ends.
"""
from __future__ import annotations

import itertools
import os
import random
import subprocess
import sys
import tempfile
from collections.abc import Callable, Iterator

import finding
from problems import write

ZARFEPOCH = os.path.join(os.path.dirname(os.path.abspath(__file__)), "..", "scripts", "zarfepoch")

POINTS, MODULUS, BLOCK, EXAMS, SLOTS, CLIQUE, LINES, SIDE, DIGITS = 13, 25, 4, 30, 9, 10, 13, 5, 9


def write_school(path: str, lessons: list[tuple[int, int]], periods: int) -> None:
    """Lessons of classes and teachers, each in any period in which its class and its teacher have no other one."""
    write(path, [f"l{number}" for number in range(len(lessons))],
          [[f"l{number}", f"c{who}-{period}", f"t{teacher}-{period}"] for number, (who, teacher) in enumerate(lessons) for period in range(periods)])


def planned(draw: random.Random, classes: int, teachers: int, periods: int) -> list[tuple[int, int]]:
    """The lessons of a full plan: class and teacher of each, in an order that is drawn."""
    lessons = [(who, teacher) for _ in range(periods) for who, teacher in enumerate(draw.sample(range(teachers), classes))]
    draw.shuffle(lessons)
    return lessons


def one_class(path: str, draw: random.Random) -> None:
    write_school(path, planned(draw, 1, 7, 30), 30)


def school(path: str, draw: random.Random) -> None:
    write_school(path, planned(draw, 3, 4, 25), 25)


def full(path: str, draw: random.Random) -> None:
    """A school of up to ten classes, each of which has a lesson in each period; one teacher is free."""
    classes, periods = draw.choice(((5, 30), (8, 25), (10, 30)))
    write_school(path, planned(draw, classes, classes + 1, periods), periods)


def tight(path: str, draw: random.Random) -> None:
    """The same with no more teachers than classes, so that none of these is free either."""
    classes = draw.choice((3, 8))
    write_school(path, planned(draw, classes, classes, 30), 30)


def over(path: str, draw: random.Random) -> None:
    """A school of eight classes, one of whose teachers has a lesson more than there are periods."""
    lessons = planned(draw, 8, 9, 25)
    own = [number for number, (_, teacher) in enumerate(lessons) if teacher == 0]
    others = [number for number, (_, teacher) in enumerate(lessons) if teacher != 0]
    for number in others[:26 - len(own)]:
        lessons[number] = (lessons[number][0], 0)
    write_school(path, lessons, 25)


def rooms(path: str, draw: random.Random) -> None:
    """A full school of five classes, whose lessons take one of five rooms each."""
    options = [[f"l{number}", f"c{who}-{period}", f"t{teacher}-{period}", f"r{room}-{period}"]
               for number, (who, teacher) in enumerate(planned(draw, 5, 6, 25)) for period in range(25) for room in range(5)]
    write(path, [f"l{number}" for number in range(125)], options)


def edges(path: str, draw: random.Random) -> None:
    """Edges in an order that is drawn, in one colour less than there are points."""
    pairs = list(itertools.combinations(range(POINTS), 2))
    draw.shuffle(pairs)
    write(path, [f"e{a}-{b}" for a, b in pairs], [[f"e{a}-{b}", f"p{a}-{colour}", f"p{b}-{colour}"] for a, b in pairs for colour in range(POINTS - 1)])


def differences(path: str, draw: random.Random) -> None:
    """Two blocks that begin with 0, the least of their turns, whose differences are all different."""
    options = []
    for block in itertools.combinations(range(1, MODULUS), BLOCK - 1):
        numbers = [0, *block]
        apart = [(a - b) % MODULUS for a, b in itertools.permutations(numbers, 2)]
        turned = [sorted((number - own) % MODULUS for number in numbers) for own in numbers]
        if len(set(apart)) == len(apart) and numbers == min(turned):
            options += [[f"b{which}", *(f"d{one}" for one in sorted(apart))] for which in range((MODULUS - 1) // (BLOCK * (BLOCK - 1)))]
    draw.shuffle(options)
    write(path, ["b0", "b1"], options)


def exams(path: str, draw: random.Random) -> None:
    """Exams of which some can't be at one time: ten by twos, each pair for another student, and a quarter of the other
    pairs."""
    names = draw.sample(range(EXAMS), EXAMS)
    clique = set(names[:CLIQUE])
    pairs = [(a, b) for a, b in itertools.combinations(range(EXAMS), 2) if {a, b} <= clique or draw.random() < 0.25]
    students: list[list[str]] = [[] for _ in range(EXAMS)]
    for a, b in pairs:
        students[a].append(f"s{a}-{b}")
        students[b].append(f"s{a}-{b}")
    # (a student and a slot are one item: 900 items hold those of some hundred pairs, so each slot has all pairs of the
    # clique and few others, and of the 1,000 items that a file may have, some are left for cliques)
    room = (900 - EXAMS) // SLOTS
    kept = {f"s{a}-{b}" for a, b in sorted(pairs, key=lambda pair: not set(pair) <= clique)[:room]}
    write(path, [f"e{exam}" for exam in range(EXAMS)],
          [[f"e{exam}", *(f"{student}-{slot}" for student in students[exam] if student in kept)] for exam in range(EXAMS) for slot in range(SLOTS)])


def crossing(path: str, draw: random.Random) -> None:
    """The 13 lines of the projective plane of order 3 as lessons, its points as classes and teachers, and as many
    lessons of two others of these."""
    lines = [[(point + shift) % LINES for point in (0, 1, 3, 9)] for shift in range(LINES)]
    lessons = [(f"x{number}", line) for number, line in enumerate(lines)]
    lessons += [(f"y{number}", draw.sample(range(LINES, 2 * LINES), 2)) for number in range(LINES)]
    draw.shuffle(lessons)
    write(path, [name for name, _ in lessons],
          [[name, *(f"p{who}-{period}" for who in whose)] for name, whose in lessons for period in range(LINES - 1)])


def odd_board(side: int) -> tuple[list[str], list[list[str]]]:
    """The items and options of a square board of so many rows for an X and an I of five squares each, and dominoes."""
    cross, bar = ((0, 1), (1, 0), (1, 1), (1, 2), (2, 1)), tuple((0, place) for place in range(5))
    shapes = [("X", cross), ("I", bar), ("I", tuple((c, r) for r, c in bar)), ("", bar[:2]), ("", ((0, 0), (1, 0)))]
    options = [[*filter(None, [piece]), *(f"{row + r}-{column + c}" for r, c in shape)]
               for piece, shape in shapes for row, column in itertools.product(range(side), repeat=2)
               if all(row + r < side and column + c < side for r, c in shape)]
    return ["X", "I", *(f"{r}-{c}" for r in range(side) for c in range(side))], options


def pieces(path: str, draw: random.Random) -> None:
    """Such a board of ten, twelve or fourteen rows, whose options come in an order that is drawn."""
    items, options = odd_board(draw.choice((10, 12, 14)))
    draw.shuffle(options)
    write(path, items, options)


def boxes(path: str, draw: random.Random) -> None:
    """Conway's cube of five rows: thirteen boxes of one by two by four, one of two by two by two, one of one by two by
    two, three of one by one by three."""
    own = [("cube", (2, 2, 2)), ("plate", (1, 2, 2)), ("a", (1, 1, 3)), ("b", (1, 1, 3)), ("c", (1, 1, 3)), ("", (1, 2, 4))]
    options = [[*filter(None, [name]), *("-".join(map(str, cell)) for cell in cells)] for name, size in own for cells in placed(size)]
    draw.shuffle(options)
    write(path, ["cube", "plate", "a", "b", "c", *("-".join(map(str, cell)) for cell in itertools.product(range(SIDE), repeat=3))], options)


def placed(size: tuple[int, int, int]) -> Iterator[list[tuple[int, ...]]]:
    """The cells of a box of this size at each place of the cube, turned in each way."""
    for turned in sorted(set(itertools.permutations(size))):
        for corner in itertools.product(*(range(SIDE + 1 - length) for length in turned)):
            yield list(itertools.product(*(range(least, least + length) for least, length in zip(corner, turned))))


def killer(path: str, draw: random.Random) -> None:
    """A killer sudoku without given digits: cages of up to five cells, grown at random, with the sums of a square that
    was drawn."""
    bands = [draw.sample(range(3), 3) for _ in range(2)]
    rows, columns = ([3 * band + line for band in order for line in draw.sample(range(3), 3)] for order in bands)
    digits = draw.sample(range(1, DIGITS + 1), DIGITS)
    square = {(r, c): digits[(3 * (row % 3) + row // 3 + column) % DIGITS] for r, row in enumerate(rows) for c, column in enumerate(columns)}
    cage: dict[tuple[int, int], int] = {}
    for cell in square:
        if cell not in cage:
            grow(cell, cage, square, draw)
    letters = "abcdefghijklmnopqrstuvwxyzABCDEFGHIJKLMNOPQRSTUVWXYZ"
    sums = [sum(square[cell] for cell in square if cage[cell] == number) for number in range(max(cage.values()) + 1)]
    lines = ["".join(letters[cage[r, c]] for c in range(DIGITS)) for r in range(DIGITS)]
    with tempfile.TemporaryDirectory() as folder:
        text = os.path.join(folder, "killer.txt")
        with open(text, "w") as file:
            file.write("\n".join([*lines, "", " ".join(f"{letter}={total}" for letter, total in zip(letters, sums)), ""]))
        subprocess.run([sys.executable, ZARFEPOCH, "generate", "killer", text, "--out", path], check=True)


def grow(cell: tuple[int, int], cage: dict[tuple[int, int], int], square: dict[tuple[int, int], int], draw: random.Random) -> None:
    """Begins the next cage at a cell, and grows it by free neighbours whose digits it hasn't, to three to five cells
    where there are as many."""
    number = max(cage.values(), default=-1) + 1
    cage[cell] = number
    cells = [cell]
    for _ in range(draw.randrange(2, 5)):
        beside = sorted({near for r, c in cells for near in ((r - 1, c), (r + 1, c), (r, c - 1), (r, c + 1)) if near in square and near not in cage})
        fit = [near for near in beside if square[near] not in {square[own] for own in cells}]
        if not fit:
            return
        cells.append(draw.choice(fit))
        cage[cells[-1]] = number


# each kind with its maker, and whether it has a cover
KINDS: dict[str, tuple[Callable[[str, random.Random], None], bool]] = {
    "class": (one_class, True), "school": (school, True), "full": (full, True), "tight": (tight, True), "rooms": (rooms, True),
    "quasigroup": (finding.quasigroup, True), "killer": (killer, True), "boxes": (boxes, True), "over": (over, False), "edges": (edges, False),
    "differences": (differences, False), "exams": (exams, False), "crossing": (crossing, False), "pieces": (pieces, False)}
