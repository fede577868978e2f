#!/usr/bin/env python3
"""Writes the benchmark's instances into a folder, which is made where it is missing.

    python3 bench/instances.py FOLDER

It wants no built program. The exit status is 0, or 2 for a mistake on the command line or a folder that can't be
written.
"""
from __future__ import annotations

import itertools
import os
import random
import sys
from collections.abc import Iterator

HERE = os.path.dirname(os.path.abspath(__file__))
sys.path.insert(0, os.path.join(HERE, "..", "trials"))
from built import parser_of, stop  # noqa: E402
from problems import put  # noqa: E402
from zarfepoch.boards.cells import rectangle  # noqa: E402
from zarfepoch.puzzles.by_number import langford_pairs  # noqa: E402
from zarfepoch.puzzles.coloured_sides import squares  # noqa: E402
from zarfepoch.puzzles.sudokus import sudoku_of  # noqa: E402
from zarfepoch.puzzles.tilings import PENTOMINOES, dominoes, orientations, shape  # noqa: E402
from zarfepoch.puzzles.words import word_squares  # noqa: E402
from zarfepoch.texts.puzzles import Puzzle  # noqa: E402

# what the first comment of most instances says
NOTE = "an instance of the benchmark"

# 479 words of four letters
WORDS = """
able acid aged also area army away baby back ball band bank base bath bear beat been beer bell belt best bill bird blow
blue boat body bomb bond bone book boom born boss both bowl bulk burn bush busy call calm came camp card care case cash
cast cell chat chip city club coal coat code cold come cook cool cope copy core cost crew crop dark data date dawn days
dead deal dear debt deep deny desk dial diet dish does done door dose down draw drew drop drug dual duke dust duty each
earn ease east easy edge else even ever evil exit face fact fail fair fall farm fast fate fear feed feel feet fell felt
file fill film find fine fire firm fish five flat flow food foot form fort four free from fuel full fund gain game gate
gave gear gene gift girl give glad goal goes gold golf gone good grew grey grow gulf hair half hall hand hang hard harm
hate have head hear heat held hell help here hero high hill hire hold hole holy home hope host hour huge hung hunt hurt
idea inch into iron item join jump jury just keen keep kept kick kill kind king knee knew know lack lady laid lake land
lane last late lead left less life lift like line link list live load loan lock long look lord lose loss lost love luck
made mail main make male many mark mass meal mean meat meet menu mere mile milk mill mind mine miss mode mood moon more
most move much must name navy near neck need news next nice nine none nose note once only onto open oral over pace pack
page paid pain pair palm park part pass past path peak pick pink pipe plan play plot plug plus poll pool poor port post
pull pure push race rail rain rank rare rate read real rear rely rent rest rice rich ride ring rise risk road rock role
roll roof room root rose rule rush safe said sake sale salt same sand save seat seed seek seem seen self sell send sent
ship shop shot show shut sick side sign site size skin slip slow snow soft soil sold sole some song soon sort soul spot
star stay step stop such suit sure take tale talk tall tank tape task team tell tend term test text than that them then
they thin this thus till time tiny told toll tone took tool tour town tree trip true tune turn twin type unit upon used
user vary vast very vice view vote wage wait wake walk wall want warm wash wave ways weak wear week well went were west
what when whom wide wife wild will wind wine wing wire wise wish with wood word wore work yard year your zero zone
"""


def shuffled(cells: set[tuple[int, int]], seed: int) -> Puzzle:
    """The twelve pentominoes on these cells, with items and options in a random order."""
    draw = random.Random(seed)
    items = list(PENTOMINOES) + [f"{r}-{c}" for r, c in sorted(cells)]
    options = []
    for piece, rows in PENTOMINOES.items():
        for turned in orientations(shape(rows)):
            for row, column in sorted(cells):
                placed = [(row + r, column + c) for r, c in turned]
                if all(cell in cells for cell in placed):
                    options.append([piece] + [f"{r}-{c}" for r, c in placed])
    draw.shuffle(items)
    draw.shuffle(options)
    return Puzzle(items, [], options)


def diamond() -> set[tuple[int, int]]:
    """Sixty cells in the form of a diamond, whose rows grow from two cells to ten and shrink again."""
    return {(r, c) for r in range(10) for c in range(10) if abs(2 * r - 9) + abs(2 * c - 9) <= 10}


def torus_queens(n: int, kinds_primary: int = 2) -> Puzzle:
    """Queens that attack nobody on a board whose edges meet. Rows and columns are primary, or diagonals too: n queens
    use each of them."""
    options = [[f"r{r}", f"c{c}", f"a{(r + c) % n}", f"b{(r - c) % n}"] for r in range(n) for c in range(n)]
    primary, secondary = ([f"{kind}{k}" for kind in some for k in range(n)] for some in ("rcab"[:kinds_primary], "rcab"[kinds_primary:]))
    return Puzzle(primary, secondary, options)


def crowd(choices: int) -> Puzzle:
    """Two hundred long options behind one item, at the end of each way through some choices between two options: all of
    them take the item that each option of the last primary item wants."""
    tails = [f"t{k}" for k in range(990 - choices)]
    options = [[f"c{k}"] for k in range(choices) for _ in "yn"]
    options += [["many"] + tails for _ in range(200)] + [["last", tails[0]] for _ in range(200)]
    return Puzzle([f"c{k}" for k in range(choices)] + ["many", "last"], tails, options)


def scattered(items: int, size: int, count: int, seed: int) -> Puzzle:
    """Options of this size, drawn at random."""
    draw = random.Random(seed)
    names = [f"i{k}" for k in range(items)]
    return Puzzle(names, [], [sorted(draw.sample(names, size), key=names.index) for _ in range(count)])


def three_coloured() -> dict[str, list[str]]:
    """MacMahon's 24 squares: all whose four sides have three colours, where a turned square is the same."""
    turns = ({sides[k:] + sides[:k] for k in range(4)} for sides in itertools.product("abc", repeat=4))
    return {"".join(min(turned)): list(min(turned)) for turned in turns}


def instances() -> Iterator[tuple[str, str, Puzzle]]:
    """Each instance: its name, what its first comment says, and the problem."""
    yield "langford-13", "no pairing", langford_pairs(13)
    yield "pentominoes-6x10", NOTE, shuffled(rectangle(6, 10), 7)
    yield "pentominoes-3x20", NOTE, shuffled(rectangle(3, 20), 3)
    yield "diamond", NOTE, shuffled(diamond(), 2)
    yield "mutilated-chessboard", "none", dominoes(rectangle(8, 8) - {(0, 0), (7, 7)})
    yield "crowd", NOTE, crowd(6)
    yield "scattered-19", NOTE, scattered(95, 19, 4000, 1)
    # (three divides neither number, so there is no cover)
    yield "triples-19", NOTE, scattered(19, 3, 300, 1)
    yield "triples-22", NOTE, scattered(22, 3, 250, 1)
    for n in (14, 15, 16):
        yield f"torus-queens-{n}", NOTE, torus_queens(n)
        yield f"torus-queens-{n}-all", NOTE, torus_queens(n, 4)
    yield "macmahon-4x6", "MacMahon's squares, one colour all round", squares(rectangle(4, 6), three_coloured(), "a")
    yield "word-squares-4", "two squares of sixteen different words", word_squares(WORDS.split(), ("a", "b"))
    yield "sudoku-hard", "few givens, many visits", sudoku_of([
        "..............3.85..1.2.......5.7.....4...1...9.......5......73..2.1........4...9"[k:k + 9] for k in range(0, 81, 9)])


def main() -> None:
    parser = parser_of(__doc__)
    parser.add_argument("folder", metavar="FOLDER", help="where the instances are written")
    folder = parser.parse_args().folder
    try:
        os.makedirs(folder, exist_ok=True)
    except OSError as why:
        stop(f"{folder} can't be written: {why.strerror}")
    for instance in instances():
        put(folder, *instance)


if __name__ == "__main__":
    main()
