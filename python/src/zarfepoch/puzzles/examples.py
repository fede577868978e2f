"""The larger example files of a clone: what their problems are made of. Those of FROM_TEXTS are made as the command
line makes any."""
from __future__ import annotations

from collections.abc import Iterator

from ..boards.cells import rectangle
from ..texts.puzzles import Puzzle
from .by_number import langford_pairs, queens, triples
from .coloured_sides import cubes, squares
from .graphs import coloring
from .nonograms import nonogram
from .sudokus import sudoku_of
from .tilings import dominoes, PENTOMINOES, TETROMINOES, tiling
from .words import crossword, word_squares

SUDOKU = ["8........", "..36.....", ".7..9.2..", ".5...7...", "....457..", "...1...3.", "..1....68", "..85...1.", ".9....4.."]
BORDERS = ["WA NT", "WA SA", "NT SA", "NT Q", "SA Q", "SA NSW", "SA V", "Q NSW", "NSW V"]
# nine squares: A to D have two grey sides and lie in the corners, E to H have one, and I lies in the middle
SQUARES = ["A grey grey red yellow", "B grey grey blue red", "C grey grey yellow blue", "D grey grey red red", "E grey red blue red",
           "F grey blue yellow blue", "G grey red red yellow", "H grey yellow yellow red", "I blue yellow red yellow"]
WORDS = "ace bad den ice net pet rat rid tap tin"
CROSSWORD = ["....#", ".#...", ".....", "...#.", "#...."]
CROSSWORD_WORDS = ("ant arm ate bay car cat ear egg fan hat hen ice jam key tar ten top wax arch boat cold desk door easy fish hand lamp moon "
                   "nest rain rest ship wash wise beach chair party stone store tiger")
# the blocks of nine rows and of ten columns
NONOGRAM: tuple[list[list[int]], list[list[int]]] = ([[1], [2], [3, 1], [4, 2], [5, 3], [1], [10], [8], [6]],
            [[1, 1], [2, 2], [3, 3], [4, 3], [9], [3], [3, 3], [2, 3], [1, 2], [1]])
# the colours of front, right, back, left, top and bottom
CUBES = ["one blue green red white blue green", "two blue red white white green green", "three green white red red blue red",
         "four red blue blue red green white"]
# the examples that are made from texts of the folder, by the words of their command lines
FROM_TEXTS = {
    "timetable": ["timetable", "timetable.csv"], "school": ["timetable", "school.csv"], "jigsaw": ["jigsaw", "jigsaw.txt"],
    "diagonals": ["sudoku", "diagonals.txt", "--diagonals"], "sudoku-16": ["sudoku", "sudoku-16.txt"],
    "killer": ["killer", "killer.txt"], "kakuro": ["kakuro", "kakuro.txt"], "stars": ["stars", "stars.txt"],
    "board": ["board", "board.txt", "--pieces", "pieces.txt"], "soma": ["board", "3x3x3", "--pieces", "soma"],
    "hyper": ["sudoku", "hyper.txt", "--hyper"],
    **{kind: [kind, f"{kind}.txt"] for kind in ("dominosa", "tents", "shikaku", "futoshiki", "kenken", "binairo")},
}


def sides_of(lines: list[str]) -> dict[str, list[str]]:
    """Squares or cubes by their names, each with its colours."""
    return {name: colours for name, *colours in map(str.split, lines)}


def examples() -> Iterator[tuple[str, Puzzle]]:
    """The examples that are made without a text, by the names of their files."""
    yield "pentominoes-6x10", tiling(PENTOMINOES, rectangle(6, 10)).told("the twelve pentominoes fill a rectangle of 6 by 10")
    yield "tetrominoes-4x5", tiling(TETROMINOES, rectangle(4, 5)).told("the five tetrominoes can't fill a rectangle of 4 by 5: none")
    board = rectangle(8, 8) - {(0, 0), (7, 7)}
    yield "mutilated-chessboard", dominoes(board).told("a chessboard without two opposite corners, by dominoes: none")
    yield "queens-8", queens(8).told("eight queens that attack nobody: rows and columns are primary, diagonals secondary")
    yield "langford-4", langford_pairs(4).told("Langford pairs of 1 to 4: two d's stand d places apart")
    yield "langford-5", langford_pairs(5).told("Langford pairs of 1 to 5: none")
    yield "sudoku", sudoku_of(SUDOKU).told("a sudoku: its empty cells, and what rows, columns and boxes still lack")
    borders = [(one, other) for one, other in map(str.split, BORDERS)]
    yield "australia", coloring(borders, ["red", "green", "blue"], {}).told("three colours for the states of Australia on its mainland")
    yield "fano-plane", triples(7).told("seven lines of three points, so that any two of seven points lie on one line")
    nine = squares(rectangle(3, 3), sides_of(SQUARES), "grey")
    yield "squares-3x3", nine.told("nine squares, edge to edge in one colour, and grey all round")
    yield "word-square", word_squares(WORDS.split()).told("six words across and down, from a list of ten")
    grid = Puzzle(*crossword(CROSSWORD, CROSSWORD_WORDS.split()), [f"grid: {' '.join(CROSSWORD)}"])
    yield "crossword", grid.told("ten words across and down in a grid of 5 by 5, from a list of forty")
    picture = Puzzle(*nonogram(*NONOGRAM))
    yield "nonogram", picture.told("a picture of black cells, by the lengths of their blocks in rows and columns")
    four = Puzzle(*cubes(sides_of(CUBES)))
    yield "instant-insanity", four.told("four cubes in a row, turned so that no side of the row shows a colour twice")
