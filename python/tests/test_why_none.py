"""Tries what why_none.py says: its items beside the plain search of `plain_search.py`, and the words and pictures of
reasons.

Of random problems without a cover the items have to be ones that the plain search can't cover together, and can without
any one of them, and what is said of them has to be so. Then comes a path of 201 items, of which none can be left out;
problems whose reason is known, with their words and pictures, and the pictures in examples/reasons, which are drawn
again; and odd words: a problem with a cover, refused files, programs that are none, and one whose reason doesn't hold.
"""
from __future__ import annotations

import itertools
import os
import pathlib
import random
import subprocess
import sys
from collections.abc import Iterator, Sequence
from typing import Optional
from xml.etree import ElementTree

import pytest

from built import TOP
from plain_search import Numbered, clash, read, search
from try_search import random_text

LETTERS = os.path.join(TOP, "examples", "letters.dlx")
PATH = 201
# three queens, whose rows and columns count from some number
QUEENS = "r{0} r{1} r{2} c{0} c{1} c{2} | a0 a1 a2 a3 a4 b0 b1 b2 b3 b4\n" + "".join(
    f"r{{{r}}} c{{{c}}} a{r + c} b{r - c + 2}\n" for r in range(3) for c in range(3))
# what plain_search.py reads
Problem = tuple[list[bytes], int, list[Numbered], int]


def run(*words: str, text: Optional[str] = None) -> tuple[int, list[str], list[str]]:
    """The exit status, the lines of the standard output and those of standard error."""
    ended = subprocess.run([sys.executable, "-m", "zarfepoch.why_none", *words], input=text, capture_output=True, text=True, timeout=300)
    return ended.returncode, ended.stdout.splitlines(), ended.stderr.splitlines()


def is_covered(problem: Problem, kept: Sequence[int]) -> bool:
    """Whether some options have each of these items once, and agree on secondary ones."""
    names, primary, options, _ = problem
    order = {item: place for place, item in enumerate([*kept, *range(primary, len(names))])}
    left = [{order[item]: colour for item, colour in option.items() if item in order} for option in options]
    return search(len(kept), [option for option in left if min(option, default=len(kept)) < len(kept)], [])[0] is not None


def reasons(problem: Problem, kept: Sequence[int]) -> Iterator[str]:
    """The lines that have to say why these items can't be covered together."""
    names, primary, options, _ = problem
    by = {item: [option for option in options if item in option] for item in kept}
    for item in kept:
        if not by[item]:
            yield f"no option names '{names[item].decode()}'"
    for one, other in itertools.combinations([item for item in kept if by[item]], 2):
        if all(a is not b and clash(primary, a, b) for a in by[one] for b in by[other]):
            yield f"each option that names '{names[one].decode()}' clashes with each that names '{names[other].decode()}'"


def is_right(text: str) -> bool:
    """Whether what is said of a problem without a cover is so."""
    problem = read(text.encode())
    status, (head, *lines), errors = run("-", "--search", text=text)
    count = int(head.partition(" primary item")[0])
    kept = [problem[0].index(line.strip().partition(": in ")[0].encode()) for line in lines[:count]]
    least = not is_covered(problem, kept) and all(is_covered(problem, [other for other in kept if other != item]) for item in kept)
    return (status, errors) == (0, []) and least and lines[count:] == list(reasons(problem, kept))


@pytest.mark.parametrize("count, seed", ((30, 11), pytest.param(100, 12, marks=pytest.mark.slow)))
def test_random_problems(count: int, seed: int) -> None:
    draw, found = random.Random(seed), 0
    while found < count:
        text = random_text(draw)
        problem = read(text.encode())
        if not is_covered(problem, range(problem[1])):
            found += 1
            assert is_right(text), f"the items of\n{text}"


def test_path() -> None:
    """Items in a row, an odd number of them, and options of two neighbours."""
    names = [f"i{k}" for k in range(PATH)]
    text = [" ".join(names)] + [f"{one} {other}" for one, other in zip(names, names[1:])]
    status, lines, _ = run("-", "--search", text="\n".join(text))
    assert status == 0 and len(lines) == 1 + PATH and lines[0].startswith(f"{PATH} primary items of {PATH} "), "a path"


# how the cells of a board of three by three are told
CELLS = [f"row {r} column {c}" for r in (1, 2, 3) for c in (1, 2, 3)]
# problems whose reason is known, what is said of them, and texts of their pictures
REASONS = [
    ("a b\na\n", ["no option names 'b'"], ["b", "1 needs 1"]),
    ("a b | x y\na x y\nb x\n",
     ["too little room: 2 places needed, and there is 1", "  each of these needs one: a and b", "  this one has room for one: x"],
     ["2 need 1 each", "1 has room for 1", "2 needed, and room for 1: there is no cover"]),
    ("p q r | 1 2 3 4 5\n" + "".join(f"{name} {k} {j}\n" for name in "pqr" for k in range(1, 6) for j in range(1, k)),
     ["too little room: 6 places needed, and there are 5", "  each of these needs 2: p, q and r",
      "  each of these has room for one: 1, 2, 3, 4 and 5"], ["3 need 2 each"]),
    ("a b c\na b\na c\nb c\n", ["each option names an even number of these items, and there are 3:", "  a, b and c"],
     ["3 weigh +1 each", "each option weighs a multiple of 2, all items together 3: there is no cover"]),
    ("a b c d\na b c\na b d\na c d\nb c d\n", ["each option names a multiple of 3 of these items, and there are 4:", "  a, b, c and d"],
     ["4 weigh +1 each"]),
    *((f"{note}{' '.join(f'{r}{c}' for r in range(first, first + 3) for c in range(first, first + 3))}\n" + "".join(
        f"{r}{c} {r}{c + 1}\n{c}{r} {c + 1}{r}\n" for r in range(first, first + 3) for c in range(first, first + 2)),
       ["too little room: 5 places needed, and there are 4", f"  each of these needs one: {told[0]}, {told[2]}, {told[4]}, {told[6]} and {told[8]}",
        f"  each of these has room for one: {told[1]}, {told[3]}, {told[5]} and {told[7]}"], ["5 need 1 each", "4 have room for 1 each"])
      for note, first, told in (("", 0, CELLS), ("", 1, CELLS), ("| (zarfepoch generate dominoes)\n", 0, CELLS),
                                ("| (zarfepoch generate dominoes 4x4)\n", 1, [f"row {r} column {c}" for r in (2, 3, 4) for c in (2, 3, 4)]))),
]


def texts_of(svg: str) -> list[str]:
    """The texts of a picture."""
    return [text.text or "" for text in ElementTree.fromstring(svg).iter("{http://www.w3.org/2000/svg}text")]


def content(path: str) -> str:
    with open(path, encoding="utf-8") as opened:
        return opened.read()


@pytest.mark.parametrize("text, words, drawn", REASONS, ids=[words[0] for _, words, _ in REASONS])
def test_known_reason(tmp_path: pathlib.Path, text: str, words: list[str], drawn: list[str]) -> None:
    picture = str(tmp_path / "picture.svg")
    assert run("-", text=text) == (0, words, []), f"{words[0]}: {run('-', text=text)}"
    assert run("-", "--svg", picture, text=text) == (0, words, []), f"the picture's words of {words[0]}"
    told = texts_of(content(picture))
    assert set(drawn) <= set(told), f"{told} of {words[0]}"
    status, lines, errors = run("-", "--svg", "-", text=text)
    assert (status, errors) == (0, []) and texts_of("\n".join(lines)) == told, f"the picture alone of {words[0]}"


@pytest.mark.parametrize("name", sorted(os.listdir(os.path.join(TOP, "examples", "reasons"))))
def test_picture_as_it_stands(tmp_path: pathlib.Path, name: str) -> None:
    picture = str(tmp_path / "picture.svg")
    run(os.path.join(TOP, "examples", name.replace(".svg", ".dlx")), "--svg", picture)
    assert content(picture) == content(os.path.join(TOP, "examples", "reasons", name)), f"the picture {name} as it stands"


@pytest.mark.parametrize("first", (0, 1))
def test_rows_of_queens(first: int) -> None:
    """Rows and columns count from 1, whatever the first is called."""
    lines = run("-", "--search", text=QUEENS.format(first, first + 1, first + 2))[1]
    assert lines[1:] == ["  row 2, in 3 ways", "  column 2, in 3 ways", "  column 3, in 3 ways"], f"{first}: {lines}"


def test_picture_that_cannot_be_written(tmp_path: pathlib.Path) -> None:
    status, _, errors = run("-", "--svg", str(tmp_path / "none" / "x.svg"), text=REASONS[0][0])
    assert status == 3 and len(errors) == 1, "a picture that can't be written"


def test_reason_that_does_not_hold(tmp_path: pathlib.Path) -> None:
    wrong = tmp_path / "wrong"
    wrong.write_text("#!/bin/sh\necho none; echo weights modulo 3; echo weigh 1 a; exit 1\n", encoding="ascii")
    wrong.chmod(0o755)
    status, lines, errors = run("-", "--program", str(wrong), text=REASONS[0][0])
    assert (status, lines) == (2, []) and "doesn't hold" in errors[-1], "a reason that doesn't hold"


def test_a_cover_and_little_fuel() -> None:
    assert run(LETTERS) == (1, ["there is a cover"], []), "a cover"
    assert run(LETTERS, "--fuel", "1") == (1, ["no answer within 1 visits; --fuel allows more"], []), "little fuel"


@pytest.mark.parametrize("words, status", (
    (["FOLDER"], 3), (["FOLDER/none"], 3), (["FOLDER/text"], 3), ([LETTERS, "--fuel", "0"], 2), ([LETTERS, "--program", "FOLDER"], 2),
    ([LETTERS, "--program", "FOLDER/text"], 2)), ids=("a folder", "no file", "a refused file", "no fuel", "a folder for a program", "a text for a program"))
def test_odd_words(tmp_path: pathlib.Path, words: list[str], status: int) -> None:
    text = tmp_path / "text"
    text.write_text("no program\nx\n", encoding="ascii")
    text.chmod(0o755)
    ended, lines, errors = run(*(word.replace("FOLDER", str(tmp_path)) for word in words))
    assert (ended, lines) == (status, []) and errors[-1].startswith("why_none") and "output" not in errors[-1], f"{words}: {errors}"


@pytest.mark.parametrize("program, status", (("/bin/true", 0), ("/bin/false", 1)))
def test_programs_that_are_none(program: str, status: int) -> None:
    assert run(LETTERS, "--program", program) == (1, [f"the program ended with status {status}"], []), program
