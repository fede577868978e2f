"""Compares the reasons that the program finds with a plain search, and with check_reason.py, which adds each of them
up.

Of 300 random problems with a cover the program has to find no reason, and of as many without one each reason that it
finds has to hold; whether there is a cover says the plain search of `plain_search.py`. A reason in which one number is
changed has to be refused by check_reason.py unless it still holds, as this counts for itself. Then come families whose
reasons are known: over-full timetables, pigeons, boards, Langford pairs, triples; the examples; the reasons on the page
BY_HAND; and odd words for check_reason.py.
"""
from __future__ import annotations

import glob
import itertools
import os
import pathlib
import random
import re
import subprocess
import sys
from collections.abc import Sequence
from typing import Optional

import pytest

from built import TOP
from plain_search import read, search
from zarfepoch import check_reason
from zarfepoch.files.cover_files import read_problem
from zarfepoch.puzzles import by_number
from zarfepoch.reasons.cover_reason import Reason


def why(text: str) -> tuple[int, bytes]:
    """The exit status of the program, and what it writes."""
    ran = subprocess.run([os.environ["ZARFEPOCH"], "why", "-"], input=text.encode(), capture_output=True)
    return ran.returncode, ran.stdout


def is_checked(text: str, reason: bytes) -> bool:
    """Whether check_reason.py finds that the reason holds."""
    lines = ([line.split() for line in some.split(b"\n")] for some in (text.encode(), reason.rstrip(b"\n")))
    return check_reason.check(*lines) == ""


# ---- random problems

def random_text(draw: random.Random) -> str:
    """A problem of a few items, whose options are short; secondary items may have colours."""
    primary = [f"p{k}" for k in range(draw.randint(1, 7))]
    secondary = [f"s{k}" for k in range(draw.randint(0, 4))]
    colours = draw.choice([[""], [""], ["", ":a", ":a", ":b"]])
    size = draw.randint(1, 3)
    options = []
    for _ in range(draw.randint(1, 12)):
        words = draw.sample(primary, min(draw.choice([size, size, size, 1]), len(primary)))
        words += [item + draw.choice(colours) for item in draw.sample(secondary, draw.randint(0, min(2, len(secondary))))]
        draw.shuffle(words)
        options.append(words)
    return "\n".join(" ".join(words) for words in [primary + (["|"] + secondary if secondary else []), *options]) + "\n"


def changed(draw: random.Random, reason: bytes) -> bytes:
    """The reason with one number changed, or with a line less."""
    lines = reason.rstrip(b"\n").split(b"\n")
    place = draw.choice([place for place, line in enumerate(lines) if line.startswith((b"weigh ", b"need ", b"room "))])
    if draw.random() < 0.3:
        del lines[place]
    else:
        kind, number, name = lines[place].split()
        lines[place] = b"%s %d %s" % (kind, max(0, int(number) + draw.choice([-1, 1, 1, 2])), name)
    return b"\n".join(lines) + b"\n"


@pytest.mark.parametrize("seed, count", (*((seed, 30) for seed in range(10)), pytest.param(74, 2000, marks=pytest.mark.slow)))
def test_random_problems(seed: int, count: int) -> None:
    """So many problems with a cover have no reason, and as many without one a reason that holds, or none that is
    found."""
    draw, left = random.Random(seed), {True: count, False: count}
    while any(left.values()):
        text = random_text(draw)
        _, primary, options, _ = read(text.encode())
        has_cover = search(primary, options, [])[0] is not None
        if not left[has_cover]:
            continue
        left[has_cover] -= 1
        status, reason = why(text)
        if has_cover:
            assert (status, reason) == (4, b"no reason found\n"), f"no reason, since there is a cover:\n{text}"
        elif status == 1:
            assert reason.startswith(b"none\n") and is_checked(text, reason), f"the reason of\n{text}"
            other = changed(draw, reason)
            assert is_checked(text, other) == Reason(other).holds(read_problem(text.encode())), f"{other!r} of\n{text}"
        else:
            assert (status, reason) == (4, b"no reason found\n"), f"a reason or none of\n{text}"


# ---- families

def lines(primary: list[str], secondary: list[str], options: list[list[str]]) -> str:
    head = " ".join(primary) + (" | " + " ".join(secondary) if secondary else "")
    return "\n".join([head, *(" ".join(option) for option in options)]) + "\n"


def edges(points: int, colours: int) -> str:
    """Edges between any two points, none of which has the colour of another one at a point."""
    pairs = list(itertools.combinations(range(points), 2))
    return lines([f"{a}-{b}" for a, b in pairs], [f"{point}.{colour}" for point in range(points) for colour in range(colours)],
                 [[f"{a}-{b}", f"{a}.{colour}", f"{b}.{colour}"] for a, b in pairs for colour in range(colours)])


def lessons(count: int, periods: int, length: int = 1, teachers: Sequence[str] = ("ann",)) -> str:
    """So many lessons, each of a class of its own and with one of the teachers."""
    options = [[f"l{k}"] + [word for at in range(first, first + length) for word in (f"{who}-{at}", f"c{k}-{at}")]
               for k in range(count) for who in teachers for first in range(periods - length + 1)]
    busy = sorted({word for option in options for word in option[1:]})
    return lines([f"l{k}" for k in range(count)], busy, options)


def exams(count: int, slots: int) -> str:
    """Exams, each two of which have a student in common."""
    pairs = list(itertools.combinations(range(count), 2))
    return lines([f"e{exam}" for exam in range(count)], [f"{a}-{b}.{slot}" for a, b in pairs for slot in range(slots)],
                 [[f"e{exam}", *(f"{a}-{b}.{slot}" for a, b in pairs if exam in (a, b))] for exam in range(count) for slot in range(slots)])


def pigeons(count: int) -> str:
    return lines([f"p{k}" for k in range(count)], [f"h{k}" for k in range(1, count)],
                 [[f"p{k}", f"h{hole}"] for k in range(count) for hole in range(1, count)])


def board(size: int) -> str:
    """Dominoes on a board without two opposite corners."""
    cells = sorted(set(itertools.product(range(size), repeat=2)) - {(0, 0), (size - 1, size - 1)})
    name = "{}-{}".format
    options = [[name(r, c), name(*other)] for r, c in cells for other in ((r, c + 1), (r + 1, c)) if other in cells]
    return lines([name(*cell) for cell in cells], [], options)


def langford(size: int) -> str:
    return lines(*by_number.langford(size))


def triples(points: int) -> str:
    return lines([f"{a}-{b}" for a, b in itertools.combinations(range(points), 2)], [],
                 [[f"{a}-{b}", f"{a}-{c}", f"{b}-{c}"] for a, b, c in itertools.combinations(range(points), 3)])


def courts(teams: int) -> str:
    """Teams, each of which needs two of as many courts or the hall."""
    on = [*itertools.combinations([f"c{court}" for court in range(teams)], 2), ("hall",)]
    return lines([f"t{team}" for team in range(teams)], [*(f"c{court}" for court in range(teams)), "hall"],
                 [[f"t{team}", *names] for team in range(teams) for names in on])


def corners(columns: int) -> str:
    """Pieces like an L on a board of three rows."""
    squares = [[f"{row + down}-{column + right}" for down in (0, 1) for right in (0, 1)] for row in range(2) for column in range(columns - 1)]
    return lines([f"{row}-{column}" for row in range(3) for column in range(columns)], [],
                 [[cell for cell in square if cell != left_out] for square in squares for left_out in square])


def odd_pieces(size: int) -> str:
    """A board of so many rows and columns for an X and an I of five cells each, and dominoes."""
    cross, bar = [(0, 1), (1, 0), (1, 1), (1, 2), (2, 1)], [(0, k) for k in range(5)]
    shapes = [("X", cross), ("I", bar), ("I", [(c, r) for r, c in bar]), ("", bar[:2]), ("", [(0, 0), (1, 0)])]
    options = [[*filter(None, [piece]), *(f"{r + down}-{c + right}" for down, right in shape)] for piece, shape in shapes
               for r in range(size) for c in range(size) if all(r + down < size and c + right < size for down, right in shape)]
    return lines(["X", "I", *(f"{r}-{c}" for r in range(size) for c in range(size))], [], options)


FAMILIES = [
    ("25 lessons in 24 periods", lessons(25, 24), "too little room: 25 needed, 24 there"),
    ("24 lessons in 24 periods", lessons(24, 24), None),
    ("6 double lessons in 10 periods", lessons(6, 10, 2), "too little room: 12 needed, 10 there"),
    ("31 lessons of two teachers in 15 periods", lessons(31, 15, 1, ("ann", "bob")), "too little room: 31 needed, 30 there"),
    ("pigeons", pigeons(12), "too little room: 12 needed, 11 there"),
    ("a board", board(8), "too little room: 32 needed, 30 there"),
    ("a larger board", board(30), "too little room: 450 needed, 448 there"),
    *((f"{size} Langford pairs", langford(size), "weights modulo 2" if size % 4 in (1, 2) else None) for size in (4, 5, 13, 14, 17, 18, 22)),
    *((f"edges of {points} points in {colours} colours", edges(points, colours), wanted) for points, colours, wanted in (
        (5, 4, "just enough room, weights modulo 2"), (5, 5, None), (6, 5, None), (13, 12, "just enough room, weights modulo 2"))),
    *((f"{count} exams in {slots} slots", exams(count, slots), wanted) for count, slots, wanted in (
        (4, 3, "cliques, too little room: 4 needed, 3 there"), (4, 4, None), (10, 9, "cliques, too little room: 10 needed, 9 there"), (10, 10, None))),
    *((f"{teams} teams on {teams} courts", courts(teams), f"too little room: {2 * teams} needed, {teams + 2} there") for teams in (5, 7, 9)),
    *((f"3 rows of {columns} by pieces like an L", corners(columns), f"too little room: {2 * columns + 2} needed, {2 * columns - 1} there")
      for columns in (3, 5, 7)),
    *((f"an X, an I and dominoes on {size} rows", odd_pieces(size), f"{(size - 2) ** 2} cases of X") for size in (6, 8, 10)),
    ("triples of 9 points", triples(9), None),
    ("triples of 10 points", triples(10), "weights modulo 2"),
    ("triples of 11 points", triples(11), "weights modulo 3"),
]


def said_of(text: str) -> Optional[str]:
    """What the program says of a problem, in short."""
    status, written = why(text)
    if status != 1:
        return None
    reason = Reason(written)
    if not (is_checked(text, written) and reason.holds(read_problem(text.encode()))):
        return "a reason that doesn't hold"
    if reason.item:
        return f"{len(reason.cases)} cases of {reason.item.decode()}"
    kind = (f"weights modulo {reason.modulus}" if reason.modulus else
            f"too little room: {sum(reason.needs.values())} needed, {sum(reason.rooms.values())} there")
    return "cliques, " * bool(reason.cliques) + "just enough room, " * bool(reason.full_rooms) + kind


@pytest.mark.parametrize("what, text, wanted", FAMILIES, ids=[what for what, _, _ in FAMILIES])
def test_family(what: str, text: str, wanted: Optional[str]) -> None:
    assert said_of(text) == wanted, f"{what}: {said_of(text)}"


# ---- the examples

NONE = {"langford-5.dlx", "mutilated-chessboard.dlx", "tetrominoes-4x5.dlx"}


@pytest.mark.parametrize("path", sorted(glob.glob(os.path.join(TOP, "examples", "*.dlx"))), ids=os.path.basename)
def test_example(program: str, path: str) -> None:
    """The examples without a cover have a reason, the others none."""
    name = os.path.basename(path)
    with open(path, encoding="utf-8") as opened:
        text = opened.read()
    status, written = why(text)
    ran = subprocess.run([program, "why", path], capture_output=True)
    assert (ran.returncode, ran.stdout) == (status, written), f"{name} as a file"
    assert ((status == 1 and is_checked(text, written)) if name in NONE else
            (status, written) == (4, b"no reason found\n")), f"the reason of {name}"


# ---- the page of reasons that are added up by hand

def problems_by_hand() -> list[tuple[str, str, bytes]]:
    """The problems of the page, each with its heading and the reason beside it, from which three blanks part it."""
    with open(os.path.join(TOP, "docs", "BY_HAND.md"), encoding="utf-8") as page:
        sections = re.split(r"^### ", page.read(), flags=re.MULTILINE)[1:]
    found = []
    for section in sections:
        block, = (part for part in section.split("\n\n") if re.search(r" {3}none$", part, re.MULTILINE))
        columns = [line[4:].partition("   ") for line in block.split("\n")]
        problem = [left for left, _, _ in columns if left]
        reason = [right.strip() for _, _, right in columns if right]
        found.append((section.partition("\n")[0], "\n".join(problem) + "\n", "\n".join(reason).encode() + b"\n"))
    return found


BY_HAND = problems_by_hand()


@pytest.mark.parametrize("what, problem, reason", BY_HAND, ids=[what for what, _, _ in BY_HAND])
def test_by_hand(what: str, problem: str, reason: bytes) -> None:
    """The reason on the page holds, and the program writes it. It has cliques, just enough room, room for more than 1
    of an item, or cases."""
    assert is_checked(problem, reason), f"the reason of {what} doesn't hold"
    added = Reason(reason)
    assert added.holds(read_problem(problem.encode())), f"the reason of {what} doesn't hold by its own sums"
    is_new = added.cliques or added.full_rooms or added.cases or max(added.rooms.values()) > 1
    assert is_new, f"the reason of {what} is of another kind than the page says"
    assert why(problem) == (1, reason), f"what the program writes for {what}"


def test_all_by_hand() -> None:
    assert len(BY_HAND) == 11, "the page says eleven"


# ---- check_reason.py by its words

def test_odd_words(tmp_path: pathlib.Path) -> None:
    folder = str(tmp_path)
    problem, reason = os.path.join(folder, "problem"), os.path.join(folder, "reason")

    def run_on(written: str, *words: str, text: str = "a b c | x\na b\nb c x:1\n") -> subprocess.CompletedProcess[str]:
        for path, content in ((problem, text), (reason, written)):
            with open(path, "w", encoding="latin-1") as opened:
                opened.write(content)
        words = words or (problem, reason)
        return subprocess.run([sys.executable, "-m", "zarfepoch.check_reason", *words], stdin=subprocess.DEVNULL, capture_output=True,
                              text=True)

    def checked(written: str, *words: str, text: str = "a b c | x\na b\nb c x:1\n") -> tuple[int, str]:
        ran = run_on(written, *words, text=text)
        return ran.returncode, ran.stdout.partition(":")[0].strip()

    right, weights = "none\nweights modulo 3\nweigh 1 a\nweigh 2 b\nweigh 1 c\n", "none\nweights modulo 3\n"
    assert checked(right) == (0, "right"), "weights"
    assert checked(right, problem) == (2, ""), "no words"
    assert checked(right, problem, os.path.join(folder, "none")) == (3, ""), "no file"
    for wrong in ("", "none\n", "no reason found\n", weights, weights + "weigh 1 a\n", weights + "weigh 1 x\n", weights + "weigh -1 a\n",
                  weights + "weigh a\n", right.replace("3", "0"), right.replace("3", "1"), "none\ntoo little room\nneed 1 a\nneed 1 c\nroom 1 b\nroom 1 x\n"):
        assert checked(wrong)[0] == 1, repr(wrong)
    room = "none\ntoo little room\nneed 1 a\nneed 1 c\nroom 1 b\n"
    assert checked(room) == (0, "right"), "room"
    held = "a b c | x y z\na x y\nb y z\nc x z\na x:1\n"
    cliques = "none\ncliques\nclique q 0 1 2\ntoo little room\nneed 1 b\nneed 1 c\nroom 1 q\n"
    assert checked(cliques, text=held) == (0, "right"), "cliques"
    for wrong in ("clique q 0 1 3", "clique q 0 1 4", "clique q 0 1 -2", "clique x 0 1 2", "clique q 0 1 2\nclique q 0", "clique q 1",
                  "clique q:1 0 1 2"):
        assert checked(cliques.replace("clique q 0 1 2", wrong), text=held)[0] == 1, wrong
    halves = "a b c d\na b\na c\nb c\nb d\nc d\n"
    cases = "none\noptions of a\noption 0\ntoo little room\nneed 1 c\nneed 1 d\nroom 1 b\noption 1\ntoo little room\nneed 1 b\nneed 1 d\nroom 1 c\n"
    triangle = "a b c\na b\nb c\na c\n"
    of_triangle = "none\noptions of a\noption 0\ntoo little room\nneed 1 c\noption 2\ntoo little room\nneed 1 b\n"
    assert checked(of_triangle, text=triangle) == (0, "right"), "cases"
    assert checked(cases, text=halves)[0] == 1, "cases of a problem with a cover"
    for old, new in (("of a", "of b"), ("of a", "of x"), ("of a", "of"), ("option 2", "option 1"), ("option 2", "option 3"), ("option 2\n", ""),
                     ("need 1 c", "need 1 a"), ("need 1 b", "room 1 b"), ("option 0\ntoo little room\nneed 1 c\n", ""), ("of a\n", "of a\nneed 1 b\n")):
        assert checked(of_triangle.replace(old, new), text=triangle)[0] == 1, (old, new)
    assert checked(room + "need 1 x\n")[0] == 1, "a need too many"
    assert checked(room + "room 1 c\n")[0] == 1, "just room"
    for what, text in (("an unknown item", "a b\na c\n"), ("an item twice in an option", "a b\na b a b\n"), ("no items", "")):
        assert checked("none\ntoo little room\nneed 1 b\n", text=text) == (3, ""), f"a reason for a file with {what}"
    assert checked(right, "-", "-") == (2, ""), "both from the standard input"
    assert checked(right, problem, "-") == (1, "no reason"), "an empty standard input"
    assert "this option are no multiple of 3: a \\xff" in run_on(weights + "weigh 1 a\n", text="a \xff\na \xff\n").stdout, "a name that isn't UTF-8"
