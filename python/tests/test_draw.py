"""Tests what generate makes and what draw draws, with the built program between them.

The examples must be written again byte for byte, and the pictures in examples/pictures drawn again. Of problems of each
kind and of several sizes the drawn text is tested by the kind's own rules: queens that attack nobody, digits once in
each row, and so on. Each SVG must be well formed, with all its shapes on the sheet.
"""
from __future__ import annotations

import itertools
import os
import pathlib
import random
import re
import stat
import subprocess
import sys
import xml.etree.ElementTree as tree
from typing import Optional, Union

from hypothesis import HealthCheck, given, settings, strategies as some
import pytest

from built import TOP
from zarfepoch import generate
from zarfepoch.files.cover_files import read_problem
from zarfepoch.pictures.kinds import picture_of
from zarfepoch.pictures.svg_paper import folded, Paper, text_width
from zarfepoch.puzzles import examples

EXAMPLES = os.path.join(TOP, "examples")
Point = tuple[float, float]

HOLE = ["pentominoes", "8x8", "--without", "3,3", "3,4", "4,3", "4,4"]
SUDOKU = "..............3.85..1.2.......5.7.....4...1...9.......5......73..2.1........4...9"
# how the drawn texts of some examples begin
BEGINNINGS = {
    "queens-8": ["Q . . . . . . .", ". . . . Q . . .", ". . . . . . . Q"], "langford-4": ["4 1 3 1 2 4 3 2"],
    "petersen": ["o0 - o1", "o2 - o3"],
    "sudoku": ["8 1 2 | 7 5 3 | 6 4 9", "9 4 3 | 6 8 2 | 1 7 5"], "fano-plane": ["1 2 3", "1 4 5"],
    "australia": ["NSW  red", "NT   red", "Q    green"],
    "timetable": ["period  ann       bob       5a        5b        room      hall"], "letters": ["cover 3", "c e", "a d f", "b g"],
    "squares-3x3": ["+-----+-----+-----+", "|  g  |  g  |  g  |", "|g D r|r H y|y A g|"], "word-square": ["t a p", "i c e", "n e t"],
    "pentominoes-6x10": ["+---+---+---+---+---+---+---+---+---+---+", "| L   L | X | F   F | T   T   T | W   W |"],
    "crossword": ["w i s e", "a   t a r", "s t o r e"], "nonogram": ["....#.....", "...##....."],
    "instant-insanity": ["cube   front  right  back   left", "-----  -----  -----  -----  -----"],
    "mutilated-chessboard": ["none: the answer is that there is no cover", "    +---+---+---+---+---+---+---+",
                             "    |                           |"],
}
MIXED = ["00", "01", "10", "11", "3-4", "3-5", "r0", "c0", "a1", "b2", "1", "2", "s1", "s3", "s2", "s4", "ann-1", "bob-2", "A-B=red",
         "A", "B", "p00", "r01", "c01", "b01", "12", "13", "23", "x", "99999999", "s", "h00", "v00", "h10", "v01"]
COLOURS = ["", "", "", ":red", ":b", ":c"]
FOUR = b"p e a c f\nq e f d a\nr c b e f\ns d e f b\n"
MAP = "anna berta\nberta clara\nclara dora\ndora anna\nanna clara\nemil frieda\nemil anna\nfrieda dora\n"
# problems whose names have letters of two columns in a terminal, and marks of none, each with the text of the answer
# that has all its options
WIDE = [
    ("数学 Ku\u0308nste | 王老师-1 Ann-1 王老师-2 Ann-2\n数学 王老师-1\nKu\u0308nste Ann-2\n",
     ["period  王老师  Ann", "------  ------  ------", "1       数学", "2               Ku\u0308nste"]),
    ("龍 A 00 01\n龍 00\nA 01\n", ["+----+----+", "| 龍 | A  |", "+----+----+"]),
    ("東京 Ox | 東京-Ox=red 東京-Ox=blue\n東京 東京-Ox=red\nOx 東京-Ox=blue\n", ["東京  red", "Ox    blue"]),
    ("| name 1: \u1112\u1161\u11ab\u1100\u1173\u11af\n1 Ox | 1-Ox=red 1-Ox=blue\n1 1-Ox=red\nOx 1-Ox=blue\n",
     ["\u1112\u1161\u11ab\u1100\u1173\u11af  red", "Ox    blue"]),
    ("A 00 | h00 v00 h10 v01\nA 00 h00:赤 v00:b h10:赤 v01:b\n", ["+-------+", "|  赤   |", "|b  A  b|", "|  赤   |", "+-------+"]),
    ("a1 d1 d2 | 00 01 11\na1 00:東 01:x\nd1 00:東\nd2 01:x 11:京\n", ["東 x", "   京"]),
]


class Drawing:
    def __init__(self, program: str, folder: str) -> None:
        self.program, self.folder = program, folder

    def path(self, name: str, text: Optional[bytes] = None) -> str:
        path = os.path.join(self.folder, name)
        if text is not None:
            with open(path, "wb") as opened:
                opened.write(text)
        return path

    def python(self, module: str, *words: str) -> subprocess.CompletedProcess[bytes]:
        return subprocess.run([sys.executable, "-m", f"zarfepoch.{module}", *words], stdout=subprocess.PIPE, stderr=subprocess.PIPE)

    def drawn(self, file: str, svg: str) -> list[str]:
        """What draw.py prints of the program's answer to a file, by lines."""
        answered = subprocess.run([self.program, "alone", file], stdout=subprocess.PIPE, stderr=subprocess.PIPE, timeout=300)
        answer = self.path("answer", answered.stdout)
        ended = self.python("draw", file, answer, "--svg", svg)
        assert ended.returncode == 0, f"draw.py {file}: {ended.stderr.decode()}"
        assert on_sheet(svg), f"the sheet of {file}"
        return ended.stdout.decode().split("\n")[:-1]

    def made(self, *words: str) -> list[str]:
        """The same of a problem that generate.py makes."""
        ended = self.python("generate", *words)
        assert ended.returncode == 0, f"generate.py {words}: {ended.stderr.decode()}"
        return self.drawn(self.path("made.dlx", ended.stdout), self.path("made.svg"))


@pytest.fixture
def trial(program: str, tmp_path: pathlib.Path) -> Drawing:
    folder = tmp_path / "drawing"
    folder.mkdir()
    return Drawing(program, str(folder))


def content(path: str) -> bytes:
    with open(path, "rb") as opened:
        return opened.read()


def parts_in(folder: str) -> list[str]:
    """What is left in a folder of files that were written in part."""
    return [name for name in os.listdir(folder) if name.startswith(".part-")]


def points_of(shape: tree.Element) -> list[Point]:
    """The outmost points of a shape; of an arc its ends."""
    value = {name: float(text) for name, text in shape.attrib.items() if re.fullmatch(r"-?[\d.]+", text)}
    if "points" in shape.attrib:
        return [(float(x), float(y)) for x, y in (point.split(",") for point in shape.attrib["points"].split())]
    if "cx" in value:
        return [(value["cx"] + k * value["r"], value["cy"] + k * value["r"]) for k in (1, -1)]
    if "x1" in value:
        return [(value["x1"], value["y1"]), (value["x2"], value["y2"])]
    return [(value["x"] + k * value.get("width", 0), value["y"] + k * value.get("height", 0)) for k in (0, 1)] if "x" in value else []


def on_sheet(svg: str) -> bool:
    """Whether the SVG is well formed, and all its shapes lie on the sheet."""
    root = tree.parse(svg).getroot()
    left, top, wide, high = map(float, root.attrib["viewBox"].split())
    points = [point for shape in root for point in points_of(shape)]
    return len(points) > 2 and all(left <= x <= left + wide and top <= y <= top + high for x, y in points)


# ---- the rules of each kind, by what was drawn

def are_queens(lines: list[str], n: int) -> bool:
    queens = [(r, c) for r, line in enumerate(lines) for c, mark in enumerate(line.split()) if mark == "Q"]
    lines_used = [{r for r, _ in queens}, {c for _, c in queens}, {r + c for r, c in queens}, {r - c for r, c in queens}]
    return len(lines) == n and all(len(used) == len(queens) == n for used in lines_used)


def are_pairs(lines: list[str], n: int) -> bool:
    row = lines[0].split()
    return len(row) == 2 * n and all(row.count(str(d)) == 2 and row[row.index(str(d)) + d + 1] == str(d) for d in range(1, n + 1))


def is_sudoku(lines: list[str], given: str) -> bool:
    rows = ["".join(re.findall(r"\d", line)) for line in lines if "+" not in line]
    columns = ["".join(column) for column in zip(*rows)]
    boxes = ["".join(rows[r][c:c + 3] for r in range(top, top + 3)) for top in (0, 3, 6) for c in (0, 3, 6)]
    stand = all(mark in (".", digit) for mark, digit in zip(given, "".join(rows)))
    return stand and len(rows) == 9 and all(sorted(house) == sorted("123456789") for house in rows + columns + boxes)


def letters(lines: list[str]) -> list[str]:
    return sorted(re.findall("[A-Z]", "".join(lines)))


def walls(lines: list[str]) -> tuple[int, int]:
    """How many pieces of wall are drawn across and down."""
    return sum(line.count("---") for line in lines), sum(line.count("|") for line in lines)


def join_all(lines: list[str], n: int) -> bool:
    """Whether any two of the points stand in exactly one of the triples."""
    pairs = [pair for a, b, c in (line.split() for line in lines) for pair in ((a, b), (a, c), (b, c))]
    return len(pairs) == len(set(pairs)) == n * (n - 1) // 2


def are_squares(lines: list[str], border: Optional[str] = None) -> bool:
    """Whether the letters of sides that meet are equal, and those all round the border's, of squares with a name of one
    letter."""
    rows = [[cell for cell in line.strip("|").split("|")] for line in lines if line.startswith("|")]
    above, middle, below = ([[cell.strip() for cell in row] for row in rows[k::3]] for k in range(3))
    left, right = ([[cell.split()[k] for cell in row] for row in middle] for k in (0, 2))
    meet = below[:-1] == above[1:] and all(one[:-1] == other[1:] for one, other in zip(right, left))
    around = above[0] + below[-1] + [row[0] for row in left] + [row[-1] for row in right]
    return meet and (border is None or set(around) == {border})


def are_words(lines: list[str], words: list[str]) -> bool:
    """Whether different words stand in the rows and in the columns."""
    rows = [line.split() for line in lines]
    found = ["".join(row) for row in rows + [list(column) for column in zip(*rows)]]
    return len(set(found)) == 2 * len(rows) and set(found) <= set(words)


def are_blocks(lines: list[str], rows: list[list[int]], columns: list[list[int]]) -> bool:
    """Whether rows and columns of `#` and dots have blocks of these lengths."""
    lengths = [[len(block) for block in line.replace(".", " ").split()] for line in lines]
    return lengths == rows and [[len(block) for block in "".join(line).replace(".", " ").split()] for line in zip(*lines)] == columns


def are_turned(lines: list[str], cubes: dict[str, list[str]]) -> bool:
    """Whether a table of cubes shows each colour once on each side, and of each cube opposite faces opposite."""
    shown = {line.split()[0]: line.split()[1:] for line in lines[2:]}
    opposite = {cube: [set(faces[a:b + 1:b - a]) for a, b in ((0, 2), (1, 3), (4, 5))] for cube, faces in cubes.items()}
    return set(shown) == set(cubes) and all(len(set(side)) == len(cubes) for side in zip(*shown.values())) and all(
        {colours[0], colours[2]} in opposite[cube] and {colours[1], colours[3]} in opposite[cube] for cube, colours in shown.items())


# ---- the tests

# examples that generate.py doesn't write
BY_HAND = {"ignored.dlx", "letters.dlx", "petersen.dlx"}
WRITTEN = sorted(name for name in os.listdir(EXAMPLES) if name.endswith(".dlx") and name not in BY_HAND)


@pytest.fixture(scope="module")
def written_examples(tmp_path_factory: pytest.TempPathFactory) -> str:
    """A folder with the examples as generate.py writes them."""
    folder = str(tmp_path_factory.mktemp("examples"))
    generate.write_examples(folder)
    return folder


def test_all_examples_are_written(written_examples: str) -> None:
    written = [name for name in sorted(os.listdir(written_examples)) if name.endswith(".dlx")]
    assert len(written) == 31 and written == WRITTEN, f"all examples are written: {len(written)}"


@pytest.mark.parametrize("name", WRITTEN)
def test_example_as_it_stands(written_examples: str, name: str) -> None:
    assert content(os.path.join(written_examples, name)) == content(os.path.join(EXAMPLES, name)), f"{name} as it stands"


@pytest.mark.parametrize("name", sorted(os.listdir(os.path.join(EXAMPLES, "pictures"))))
def test_picture_as_it_stands(trial: Drawing, name: str) -> None:
    file, svg = os.path.join(EXAMPLES, name.replace(".svg", ".dlx")), trial.path("again.svg")
    if name == "pentominoes-8x8.svg":
        file = trial.path("hole.dlx", trial.python("generate", *HOLE).stdout)
    trial.drawn(file, svg)
    assert content(svg) == content(os.path.join(EXAMPLES, "pictures", name)), f"the picture {name} as it stands"


@pytest.mark.parametrize("name", BEGINNINGS)
def test_text_of_an_example(trial: Drawing, name: str) -> None:
    drawn, lines = trial.drawn(os.path.join(EXAMPLES, name + ".dlx"), trial.path("again.svg")), BEGINNINGS[name]
    assert drawn[:len(lines)] == lines, f"the text of {name}"


@pytest.mark.parametrize("n", (1, 4, 8, 12))
def test_queens(trial: Drawing, n: int) -> None:
    assert are_queens(trial.made("queens", str(n)), n), f"queens {n}"


@pytest.mark.parametrize("n", (3, 4, 8, 12))
def test_langford_pairs(trial: Drawing, n: int) -> None:
    assert are_pairs(trial.made("langford", str(n)), n), f"langford {n}"


@pytest.mark.parametrize("n", (7, 9, 13))
def test_triples(trial: Drawing, n: int) -> None:
    assert join_all(trial.made("triples", str(n)), n), f"triples {n}"


def test_sudokus(trial: Drawing) -> None:
    assert is_sudoku(trial.made("sudoku", SUDOKU), SUDOKU), "sudoku"
    nearly = "." + re.sub(r"\D", "", "".join(trial.made("sudoku", SUDOKU)))[1:70] + "." * 11
    assert is_sudoku(trial.made("sudoku", nearly), nearly), "a sudoku with few empty cells"
    assert is_sudoku(trial.made("sudoku", trial.path("grid", SUDOKU.encode())), SUDOKU), "a sudoku in a file"


@pytest.mark.parametrize("words", (["pentominoes", "5x12"], HOLE), ids=" ".join)
def test_twelve_pentominoes(trial: Drawing, words: list[str]) -> None:
    assert letters(trial.made(*words)) == sorted("FILNPTUVWXYZ" * 5), f"{words}"


def test_tilings(trial: Drawing) -> None:
    assert sorted(map(letters(trial.made("pentominoes", "5x5")).count, "FILNPTUVWXYZ")) == [0] * 7 + [5] * 5, "five pieces"
    assert trial.made("tetrominoes", "4x4")[0].startswith("none"), "no tetrominoes"
    # of the walls that the cells of 4 by 6 might have, 28 across and 28 down, each domino of 12 lacks one
    assert sum(walls(trial.made("dominoes", "4x6"))) == 4 * 7 + 5 * 6 - 12, "dominoes"
    twice = trial.made("dominoes", "4x4", "--without", "0,0", "--without", "3,3")
    assert twice == trial.made("dominoes", "4x4", "--without", "0,0", "3,3"), "cells left out by two options"


def test_tables_and_graphs(trial: Drawing) -> None:
    borders = trial.path("map", MAP.encode())
    colours = dict(line.split() for line in trial.made("coloring", borders, "--colors", "red,blue,white"))
    assert len(colours) == 6 and all(colours[a] != colours[b] for a, b in (line.split() for line in MAP.splitlines())), "a map"
    joined = [line.split(" - ") for line in trial.made("matching", borders)]
    assert sorted(sum(joined, [])) == sorted(colours) and all(" ".join(pair) + "\n" in MAP for pair in joined), "a matching"
    table = [line.split() for line in trial.made("timetable", os.path.join(EXAMPLES, "timetable.csv"))]
    assert table[0] == ["period", "ann", "bob", "5a", "5b", "room", "hall"] and len(table) == 5, "a timetable"
    assert (all(sum(row.count(lesson) for row in table[2:]) == 3
                                             for lesson in ("maths-5a", "maths-5b", "music-5a", "music-5b", "art-5a"))), "each lesson at three"


def side(a: Point, b: Point, c: Point) -> float:
    """On which side of a line through two points a third one is."""
    return (b[0] - a[0]) * (c[1] - a[1]) - (b[1] - a[1]) * (c[0] - a[0])


def crossings(svg: str) -> tuple[int, int]:
    """How many pairs of lines of a picture cross, and how many lines there are."""
    lines = [points_of(shape) for shape in tree.parse(svg).getroot() if shape.tag.endswith("line")]
    pairs = [(a, b, c, d) for (a, b), (c, d) in itertools.combinations(lines, 2) if not {a, b} & {c, d}]
    return sum(side(a, b, c) * side(a, b, d) < 0 and side(c, d, a) * side(c, d, b) < 0 for a, b, c, d in pairs), len(lines)


@pytest.mark.parametrize("size", (4, 9, 16, 25))
def test_planar_map(trial: Drawing, size: int) -> None:
    """Planar maps by lot are drawn without crossing borders."""
    draw = random.Random(size)
    at = {f"p{k}": (draw.random(), draw.random()) for k in range(size)}
    borders: list[tuple[str, str]] = []
    for a, b in draw.sample(list(itertools.combinations(at, 2)), size * (size - 1) // 2):
        others = [(at[c], at[d]) for c, d in borders if not {a, b} & {c, d}]
        if not any(side(at[a], at[b], c) * side(at[a], at[b], d) < 0 and side(c, d, at[a]) * side(c, d, at[b]) < 0 for c, d in others):
            borders.append((a, b))
    trial.made("coloring", trial.path("planar", "\n".join(map(" ".join, borders)).encode()), "--colors", "red,green,blue,yellow")
    assert crossings(trial.path("made.svg")) == (0, len(borders)), f"a planar map of {size}"


def test_maps(trial: Drawing) -> None:
    """What isn't planar is drawn as a list."""
    five = "\n".join(f"{a} {b}" for a, b in itertools.combinations("abcde", 2))
    trial.made("coloring", trial.path("five", five.encode()), "--colors", "red,green,blue,yellow,white")
    assert crossings(trial.path("made.svg")) == (0, 0), "a map that isn't planar"
    names = "Mecklenburg_Vorpommern Schleswig_Holstein\nMecklenburg_Vorpommern Niedersachsen\n"
    lines = trial.made("coloring", trial.path("names", names.encode()))
    assert {line.split()[0] for line in lines} == set(names.split()), "long names"


def test_boards_with_colours(trial: Drawing) -> None:
    nine = trial.path("nine", "\n".join(examples.SQUARES).encode())
    assert are_squares(trial.made("squares", "3x3", nine, "--border", "grey"), "g"), "squares"
    assert are_squares(trial.made("squares", "2x2", trial.path("four", FOUR))), "squares without a border"
    ten = trial.path("ten", examples.WORDS.encode())
    assert are_words(trial.made("words", ten), examples.WORDS.split()), "words"
    again = trial.made("word-square", trial.path("again", b"ab ba"), "--repeat")
    assert again == ["a b", "b a"], "words that come again"
    crossword = trial.made("crossword", trial.path("grid", b".a\n#.\n"), trial.path("two", b"ca at\nat\nta"))
    assert crossword == ["c a", "  t"], "a crossword with a given letter"


def test_puzzles(trial: Drawing) -> None:
    rows, columns = examples.NONOGRAM
    text = "\n\n".join("\n".join(" ".join(map(str, line)) for line in lines) for lines in (rows, columns))
    for name, file in (("a nonogram", text), ("a nonogram with Windows line ends", text.replace("\n", "\r\n") + "\r\n \r\n")):
        assert are_blocks(trial.made("nonogram", trial.path("blocks", file.encode())), rows, columns), name
    assert trial.made("nonogram", trial.path("white", b"0\n0\n\n0\n0\n0\n")) == ["...", "..."], "no black cell"
    cubes = {line.split()[0]: line.split()[1:] for line in examples.CUBES}
    assert are_turned(trial.made("cubes", trial.path("cubes", "\n".join(examples.CUBES).encode())), cubes), "cubes"
    sheet = trial.drawn(trial.path("sheet.dlx", b"A1 B1 A2 B2\nA1 B1\nA2 B2\n"), trial.path("sheet.svg"))
    assert [line for line in sheet if line.startswith("+")] == ["+---+---+"] * 3, "cells as in a spreadsheet"
    pair = trial.drawn(trial.path("pair.dlx", b"1 s0 s2\n1 s0 s2\n"), trial.path("pair.svg"))
    assert pair == ["1 . 1"], "places from 0"
    listed = trial.drawn(trial.path("list.dlx", b"x y z\nx y\nz\n"), trial.path("list.svg"))
    assert listed == ["cover 2", "x y", "z"], "a list with its head"
    blank = "\n".join(SUDOKU[k:k + 9].replace(".", " ").rstrip() for k in range(0, 81, 9))
    assert is_sudoku(trial.made("sudoku", trial.path("blank", blank.encode())), SUDOKU), "blanks"
    assert is_sudoku(trial.made("sudoku", SUDOKU.replace(".", "_")), SUDOKU), "underscores"
    for name, text in (("blank", blank), ("nine", SUDOKU)):
        ended = trial.made("sudoku", trial.path(name, (text.replace("\n", "\r\n") + "\r\n").encode()))
        assert is_sudoku(ended, SUDOKU), f"{name} with Windows line ends"
    dos = trial.made("crossword", trial.path("grid", b"\r\n.a\r\n#.\r\n\r\n"), trial.path("two", b"ca at\r\nat\r\nta"))
    assert dos == ["c a", "  t"], "a crossword with Windows line ends"
    for words, number in ((["crossword", trial.path("late", b"\n\n.a\n#.x\n"), trial.path("two")], 4),
                          (["nonogram", trial.path("letter", b"\n1\nx\n\n1\n1\n")], 3)):
        assert b", line %d: " % number in trial.python("generate", *words).stderr, f"the line in {words[0]}"
    table = trial.path("week", b"lesson;teacher;class;rooms;periods;hours\nmaths;ann;5a;room;Mon1 Mon2 Tue1;2\nart;bob;5a;room hall;Mon1;1\n")
    week = trial.made("timetable", table)
    assert ([line.split() for line in week[2:]] == [["1", "art", "bob", "hall", "maths", "ann", "room"], ["2", "maths", "ann", "room"]]
                 or [line.split() for line in week[2:]] == [["1", "art", "bob", "room", "maths", "ann", "room"], ["2", "maths", "ann", "room"]]), "named periods"
    table = trial.path("odd", 'lesson;teacher;class;rooms;periods\nart;bob;5a;"hall\t,";\u00b2,3\n'.encode())
    odd = [line.split() for line in trial.made("timetable", table)]
    assert odd[0] == ["period", "bob", "5a", "hall"] and [row[0] for row in odd[2:]] == ["\u00b2", "3"], "commas and tabs"
    late = trial.path("late", b"lesson,teacher,class,rooms,periods\n\nart,,5a,hall,1\n")
    assert b", line 3: teacher is missing" in trial.python("generate", "timetable", late).stderr, "the line in a table"


def test_written(trial: Drawing) -> None:
    """A problem that is refused leaves no file, and one that is not is whole."""
    for words, status in ((["queens", "142"], 2), (["queens", "4"], 0)):
        out = trial.path(f"out-{status}.dlx")
        ended = trial.python("generate", *words, "--out", out)
        there = [name for name in os.listdir(trial.folder) if name.startswith(f"out-{status}")]
        assert ended.returncode == status and len(there) == (status == 0) and not ended.stdout, f"{words} into a file"
    edges, out = trial.path("two\nlines \udce9", b"a b\nc d\n"), trial.path("out.dlx")
    trial.python("generate", "matching", edges, "--out", out)
    assert content(out).split(b"\n")[1:] == [b"a b c d", b"a b", b"c d", b""], "a strange file's name in a comment"
    link, target, pipe = trial.path("link.dlx"), trial.path("target.dlx"), trial.path("pipe")
    os.symlink(target, link)
    trial.python("generate", "queens", "--out", link, "4")
    assert os.path.islink(link) and b"(zarfepoch generate queens 4)" in content(target), "a link's file"
    os.mkfifo(pipe)
    reader = os.open(pipe, os.O_RDONLY | os.O_NONBLOCK)
    trial.python("generate", "queens", "4", "--out", pipe)
    assert stat.S_ISFIFO(os.stat(pipe).st_mode) and os.read(reader, 1 << 16) == content(target), "a pipe stays one"
    os.close(reader)
    cover = trial.path("a cover", "cover 1\n\u00fc\n".encode())
    for words in (["generate", "matching", trial.path("latin", "\u00fc \u00e9\n".encode())],
                  ["draw", trial.path("latin.dlx", "\u00fc\n\u00fc\n".encode()), cover, "--svg", "-"]):
        ran = subprocess.run([sys.executable, "-m", f"zarfepoch.{words[0]}", *words[1:]], env={**os.environ, "PYTHONIOENCODING": "latin-1"},
                             capture_output=True)
        assert ran.returncode == 0 and "\u00fc".encode() in ran.stdout, f"{words[0]} writes UTF-8 wherever it is: {ran.stderr!r}"
    ended = trial.python("generate", "queens", "4", "--out", "/dev/stdout")
    assert ended.returncode == 0 and ended.stdout == content(target), "the standard output by its name"
    ended = trial.python("generate", "queens", "4", "--out", trial.folder)
    assert ended.returncode == 2 and not parts_in(os.path.dirname(trial.folder)), "a folder"
    own, out = trial.path("own.dlx.part", b"own"), trial.path("own.dlx")
    trial.python("generate", "queens", "4", "--out", out)
    assert content(own) == b"own" and content(out) == content(target), "a file of a like name stays"
    old, cover = trial.path("old", b"old"), trial.path("cover", b"cover 3\nc e\na d f\nb g\n")
    for words, status in ((["draw", os.path.join(EXAMPLES, "letters.dlx"), cover, "--svg", old], 3),
                          (["generate", "queens", "4", "--out", old], 2)):
        script = ["sh", "-c", 'ulimit -f 0; exec "$@"', "sh", sys.executable, "-m", f"zarfepoch.{words[0]}"]
        ended = subprocess.run([*script, *words[1:]], stdout=subprocess.PIPE, stderr=subprocess.PIPE)
        is_plain = ended.stderr.endswith(b"old can't be written: File too large\n") and not ended.stdout
        assert ended.returncode == status and is_plain and content(old) == b"old", f"{words[0]} keeps the old file"
        assert not parts_in(trial.folder), f"{words[0]} leaves no part"


@some.composite
def strange_problems(draw: some.DrawFn) -> str:
    """Problems whose names mix those of all kinds, some of them with colours."""
    names = draw(some.lists(some.sampled_from(MIXED), min_size=1, max_size=6, unique=True))
    primary, colours = draw(some.integers(1, len(names))), draw(some.sampled_from([COLOURS[:1], sorted(set(COLOURS))]))
    lines = [names[:primary] + ["|"] * (primary < len(names)) + names[primary:]]
    for words in draw(some.lists(some.lists(some.sampled_from(names), min_size=1, unique=True), max_size=6)):
        lines.append([name if name in names[:primary] else name + draw(some.sampled_from(colours)) for name in words])
    return "\n".join(map(" ".join, lines))


@settings(max_examples=5000, deadline=None, derandomize=True, database=None, suppress_health_check=[HealthCheck.too_slow])
@given(strange_problems(), some.data())
def test_strange_names(text: str, data: some.DataObject) -> None:
    """Each of these is drawn, if only as a list."""
    problem = read_problem(text.encode())
    places = data.draw(some.lists(some.sampled_from(range(len(problem.options))), max_size=2, unique=True)) if problem.options else []
    paper = Paper("strange names")
    picture = picture_of(problem, [problem.options[place] for place in places], not places)
    picture.draw(paper)
    assert paper.svg() and isinstance(picture.text(), list), "strange names"


@pytest.mark.parametrize("text, lines", WIDE, ids=[lines[0] for _, lines in WIDE])
def test_columns_of_wide_names(text: str, lines: list[str]) -> None:
    """Columns stand below one another, however wide a terminal shows the letters in them."""
    problem = read_problem(text.encode())
    drawn = picture_of(problem, problem.options, False).text()
    assert drawn == lines, f"the columns of {drawn}"


def test_folded_lines() -> None:
    long = "数学" * 20 + " maths " + "Mathe" * 10
    parts = folded(long, 100, 13)
    are_whole = "".join(parts).replace(" ", "") == long.replace(" ", "")
    assert are_whole and all(text_width(part, 13) <= 100 for part in parts), f"lines that fit: {parts}"


# what generate.py refuses, by its words; bytes are the content of a file
REFUSED: list[list[Union[str, bytes]]] = [
    ["queens", "142"], ["queens", "0"], ["langford", "200"], ["pentominoes", "7x9"], ["pentominoes", "5"], ["sudoku", "8......."],
    ["sudoku", "11" + "." * 79], ["dominoes", "2x2", "--without", "2,0"], ["timetable", "examples"], ["coloring", "nothing"],
    ["squares", "3x3", FOUR], ["squares", "2x2", b"a b c d\n"], ["words", b"one two three\n"], ["words", b"\n"], ["nonogram", b"1\n1\n"],
    ["nonogram", b"1\n\n2\n0\n"], ["cubes", b"a r g b w r\n"], ["crossword", b"..\n.\n", b"ab\n"], ["crossword", b"##\n##\n", b"ab\n"],
    ["timetable", b"lesson;teacher\na;b\n"], ["timetable", b"lesson,teacher,class,rooms,periods\nart,bob,5a,room,1,2,3\n"],
    ["timetable", b"lesson,teacher,class,rooms,periods\nart,bob,5a,;,1\n"], ["langford", "9999"], ["queens", "9999"], ["dominoes", "999x999"],
    ["coloring", b"a b\n", "--colors", "red,,blue"], ["coloring", b"a b\n", "--colors", "red,\udce9"],
    ["timetable", b"lesson,teacher,class,rooms,periods\nart,bob,5a,bob,1\n"], ["triples", "60"], ["matching", b"a b c\n"], ["coloring", b"a-b c\n"]]


@pytest.mark.parametrize("words", REFUSED, ids=ascii)
def test_refused(trial: Drawing, words: list[Union[str, bytes]], monkeypatch: pytest.MonkeyPatch) -> None:
    # (examples is a folder there)
    monkeypatch.chdir(TOP)
    paths = [word if isinstance(word, str) else trial.path(f"file-{place}", word) for place, word in enumerate(words)]
    ended = trial.python("generate", *paths)
    is_plain = ended.stderr and b"Traceback" not in ended.stderr
    assert ended.returncode in (1, 2, 3) and not ended.stdout and is_plain, f"{words} is refused"


def test_many_squares(trial: Drawing) -> None:
    many = trial.path("many", b"".join(b"q%d a b c d\n" % number for number in range(961)))
    ended = trial.python("generate", "squares", "31x31", many)
    assert ended.returncode == 3 and b"in more than 20,000 ways" in ended.stderr, "many squares are refused before they are laid"


def test_refusals_of_draw(trial: Drawing) -> None:
    file = trial.path("bad.dlx", b"a b\na c\n")
    letters_file = os.path.join(EXAMPLES, "letters.dlx")
    for words in ([file, file], [letters_file, file], [letters_file, trial.folder], ["nothing", file]):
        ended = trial.python("draw", *words)
        assert ended.returncode == 3 and not ended.stdout and ended.stderr.startswith(b"draw: "), f"draw.py {words} stops"
    for nothing, told in ((b"", b"is empty"), (b"no answer\n", b"says 'no answer'")):
        ended = trial.python("draw", letters_file, trial.path("no-answer", nothing))
        assert ended.returncode == 3 and told in ended.stderr, f"draw.py says of no answer: {ended.stderr!r}"
    cover = trial.path("cover", b"cover 3\nc e\na d f\nb g\n")
    behind = (b"audit clean\n", b"by search of 5 states\n", b"by 1 learned clause\n")
    paths = [cover, *(trial.path(f"behind-{place}", content(cover) + line) for place, line in enumerate(behind))]
    texts = [trial.python("draw", letters_file, path).stdout for path in paths]
    assert texts[0] and len(set(texts)) == 1, "an audit's line and what an answer rests on are passed over"
    cliques = b"cliques\nclique k 0 1\ntoo little room\nneed 1 a\n"
    reasons = (b"", b"weights modulo 2\nweigh 1 a\n", cliques, b"by a run of 2 workers\n")
    nones = [trial.path(f"none-{place}", b"none\n" + reason) for place, reason in enumerate(reasons)]
    texts = [trial.python("draw", letters_file, path).stdout for path in nones]
    assert texts[0] and len(set(texts)) == 1, "a reason behind none is passed over"
    wrong = trial.path("wrong", b"cover 1\nc e\n")
    assert b"no exact cover" in trial.python("draw", letters_file, wrong).stderr, "no exact cover"
