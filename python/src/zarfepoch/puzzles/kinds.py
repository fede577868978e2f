"""The kinds of problems that can be made: one table, from which the command lines, their help, and the problems
themselves come.

A new kind is a new record of KINDS, and a function that makes its problem, in the module of its theme.
"""
from __future__ import annotations

import argparse
import os
from argparse import Namespace
from collections.abc import Sequence
from dataclasses import dataclass
from typing import Callable, Union

from ..command_line.ends import stop
from ..command_line.words import as_called
from ..files.cover_files import shown
from ..texts.limits import check_range, Refused
from ..texts.puzzles import MISTAKE, Puzzle, UNREADABLE
from ..timetables.problem import read_timetables
from .arguments import (Argument, BOARD, BORDER, BOXES, COLORS, DIAGONALS, file, HYPER, IGNORE_CASE, KEEP, LINES_ALIKE, NO_FLIPS, number, PIECES,
                        REPEAT, RULES, SEED, STARS, SUDOKU)
from .by_number import langford_pairs, queens, triples
from .coloured_sides import cubes, read_cubes, squares_on_board
from .graphs import matching, read_map, read_pairs
from .grids import kakuro, star_battle
from .nonograms import read_nonogram
from .number_grids import binairo, dominosa, futoshiki, kenken, shikaku, tents
from .pieces import filled_board
from .sudokus import is_typed, read_jigsaw, read_killer, read_sudoku
from .tilings import board_of, dominoes, PENTOMINOES, polyominoes, TETROMINOES
from .words import read_crossword, read_words, word_squares


@dataclass(frozen=True)
class Kind:
    """A kind of problem.

    In the help `example` is what may follow its name, and `about` says what that is; `details` come last. `what` says
    in a problem's first comment what this is, where that depends on the command line by a function of it. `make` makes
    the problem, or several of a timetable that is too large for one.
    """
    name: str
    example: str
    about: str
    what: Union[str, Callable[[Namespace], str]]
    make: Callable[[Namespace], Sequence[Puzzle]]
    arguments: tuple[Argument, ...]
    aliases: tuple[str, ...] = ()
    details: str = ""

    def lines(self) -> str:
        """Its lines in the help of all kinds."""
        first, *more = self.about.split("\n")
        return "\n".join([f"    {f'{self.name} {self.example}':<31}{first}", *(" " * 35 + line for line in more)])

    def help(self) -> str:
        """The text of its own help."""
        return self.lines() + (f"\n\n{self.details}" if self.details else "")

    def said(self, given: Namespace) -> str:
        """What the problem is that a command line asks for."""
        return self.what if isinstance(self.what, str) else self.what(given)

    def is_of_text(self) -> bool:
        """Whether a text gives its puzzles, and not numbers and sizes alone."""
        return any(argument.is_text for argument in self.arguments)


# what the columns of a school's tables have, which is too much for the lines of a kind
TABLES = """\
Blanks, commas and semicolons part the names of a line. In a table of lessons, whose columns may be parted by , or ; or tabs,

    teacher, class     + or ; between those who share the lesson, `or` between teachers of whom one gives it; - for nobody
    rooms              blanks, ; or `or` between rooms of which it has one, + between those that it wants at once; empty for none
    periods            Mon1-6 Tue1-4, Mon-Fri1-6, or numbers alone (1-30), of which it has one; empty for all of the week
    times, length      how often in a week it is given (or hours), and in how many periods running on one day; 1 where they are empty
    a_day              at most so often on a day; apart: lessons with the same word here are never on one day
    fixed              the first periods of some of its times; after: the lesson right behind which it is given, as often as that

The table of --rules has the columns who,periods,away,a_day,holes, with a row for a teacher, a class or a room, for teachers, classes, rooms or all, or
for lessons (a_day alone): when they can be had, or when not; at most so many periods on a day; and at most so many holes in the week, free
periods between two lessons of a day. An empty cell says nothing. --keep tries the places of a plan first, which zarfepoch-draw --csv writes. A timetable beyond
what the program reads goes into several files, FILE-1.dlx and on, where some lessons share nobody and no room with others."""


def different(given: Namespace) -> str:
    """What words are, unless they may come more than once."""
    return "" if given.repeat else "different "


KINDS = (
    Kind("queens", "12", "queens on a board of 12 by 12",
         lambda given: f"{given.n} queens that attack nobody: rows and columns are primary, diagonals secondary",
         lambda given: [queens(given.n)], (number("rows and columns"),)),
    Kind("langford", "8", "pairs of 1 to 8",
         lambda given: f"Langford pairs of 1 to {given.n}: two d's stand d places apart",
         lambda given: [langford_pairs(given.n)], (number("the greatest number"),)),
    Kind("triples", "7", "lines of three points, any two of 7 points on one line",
         lambda given: f"lines of three points, any two of {given.n} points on one line",
         lambda given: [triples(given.n)], (number("the number of points"),)),
    Kind("pentominoes", "5x12", "pieces on a rectangle; --without 3,3 3,4 leaves cells out",
         "pentominoes, each at most once, fill a board",
         lambda given: [polyominoes(board_of(given.size, given.without), PENTOMINOES)], BOARD),
    Kind("tetrominoes", "4x4", "the same of four cells each",
         "tetrominoes, each at most once, fill a board",
         lambda given: [polyominoes(board_of(given.size, given.without), TETROMINOES)], BOARD),
    Kind("dominoes", "8x8", "dominoes on a rectangle; --without 0,0 7,7 leaves two corners out",
         "dominoes fill a board",
         lambda given: [dominoes(board_of(given.size, given.without))], BOARD),
    Kind("board", "BOARD --pieces FILE",
         "a board of x and dots, or of a size as 5x12 or 3x3x3, filled by pieces; layers stand side by side, or with\n"
         "empty lines between. A piece is a line with its name and perhaps the number of copies, and rows of x and\n"
         "dots; in place of FILE names, as 'F 3*L4', pentominoes or soma. --no-flips: turned, but not turned over",
         "pieces fill a board",
         lambda given: [filled_board(given.file, given.pieces, not given.no_flips)],
         (file("a file of x and dots, or a size as 5x12 or 3x3x3", "BOARD"), PIECES, NO_FLIPS)),
    Kind("sudoku", "FILE or 8........ ..",
         "digits and dots of 4, 6, 8, 9, 10, 12, 15, 16 or 25 rows, with or without frames and titles; _ - * x ? and 0 are\n"
         "dots too, blanks in nine lines of nine, and empty cells where , ; or tabs part cells; above nine 1-9 and A-G,\n"
         "or numbers with blanks between. --diagonals; --hyper; --boxes 4x3: boxes of 4 rows and 3 columns (12 rows: else 3x4)",
         "a sudoku: its empty cells, and what rows, columns and boxes still lack",
         lambda given: [read_sudoku(given.given, is_typed(given.given), given.diagonals, given.boxes, given.hyper).puzzle()],
         (SUDOKU, DIAGONALS, HYPER, BOXES)),
    Kind("jigsaw", "FILE", "the same with regions: digits and dots, an empty line, a letter for each cell",
         "a jigsaw sudoku: its empty cells, and what rows, columns and regions still lack",
         lambda given: [read_jigsaw(given.file, given.diagonals).puzzle()],
         (file("digits and dots, an empty line, letters of regions"), DIAGONALS)),
    Kind("killer", "FILE", "cages with sums: a letter for each cell, an empty line, sums as a=12 b=7; perhaps given digits behind",
         "a killer sudoku: cells, rows, columns and boxes, and of each cage its digits",
         lambda given: [read_killer(given.file, given.diagonals, given.boxes).puzzle()],
         (file("letters of cages, an empty line, sums"), DIAGONALS, BOXES)),
    Kind("kakuro", "FILE", "rows of . for white cells, # for black ones, and 16\\24 for a black one with the sum 16 below, 24 on its right",
         "a kakuro: a digit in each white cell, and in each run different ones with its sum",
         lambda given: [kakuro(given.file)], (file("rows of . # and sums as 16\\24"),)),
    Kind("stars", "FILE --stars 2", "stars in each row, column and region, none of which touch: a letter of its region for each cell",
         lambda given: f"a star battle: in each row, column and region {given.stars} of the stars, none of which touch",
         lambda given: [star_battle(given.file, given.stars)], (file("letters of regions"), STARS)),
    Kind("dominosa", "FILE", "rows of numbers, under which each domino of a set lies once: where?",
         "dominosa: each domino of the set lies once, and each cell is under one",
         lambda given: [dominosa(given.file)], (file("rows of numbers"),)),
    Kind("tents", "FILE", "rows of T for trees and dots, each with the number of its tents behind it; the last line has those of columns",
         "tents: one for each tree, beside it, none of which touch, by their numbers in rows and columns",
         lambda given: [tents(given.file)], (file("rows of T and dots with a number each, and a line of numbers"),)),
    Kind("shikaku", "FILE", "rows of numbers and dots, which fall into rectangles, each with one number, that of its cells",
         "shikaku: rectangles, each with the number of its cells",
         lambda given: [shikaku(given.file)], (file("rows of numbers and dots"),)),
    Kind("futoshiki", "FILE",
         "rows of digits and dots with blanks between, or < or > for which of both is less; in lines between ^ or v stand\n"
         "below the cell that is less or more than the one below it",
         "futoshiki: each digit once in each row and column, less or more as signs say",
         lambda given: [futoshiki(given.file)], (file("rows of digits and dots with < and >, and lines of ^ and v between"),)),
    Kind("kenken", "FILE", "a letter of its cage for each cell, an empty line, and what cages make: a=12+ b=24x c=3- d=2/ e=4",
         "KenKen: each digit once in each row and column, and cages that make their numbers",
         lambda given: [kenken(given.file)], (file("letters of cages, an empty line, what they make as a=12+"),)),
    Kind("binairo", "FILE",
         "rows of 0, 1 and dots: as many of each in each row and column, no three alike side by side, no two rows or\n"
         "columns alike; --alike lets these be alike",
         lambda given: ("binairo: as many noughts as ones in each line, no three alike side by side"
                        + ("" if given.alike else ", no two lines alike")),
         lambda given: [binairo(given.file, given.alike)], (file("rows of 0, 1 and dots"), LINES_ALIKE)),
    Kind("coloring", "FILE", "a map's borders, two names a line; --colors red,green,blue; a line as Tirol=red gives a place its colour",
         "a colour for each place, and no two neighbours alike",
         lambda given: [read_map(given.file, given.colors)], (file("borders, two names a line"), COLORS)),
    Kind("matching", "FILE", "a graph's edges, two names a line",
         "a perfect matching: items are vertices, options edges",
         lambda given: [matching(read_pairs(given.file))], (file("edges, two names a line"),)),
    Kind("timetable", "FILE.csv",
         "a row for each lesson: lesson,teacher,class,rooms,periods, and what else is wanted of times,length,a_day,apart,\n"
         "fixed,after (below); --rules FILE.csv, --keep PLAN.csv",
         "each lesson once, and no teacher, class or room twice at a time",
         lambda given: read_timetables(given.file, given.rules, given.keep, given.seed),
         (file("lessons, as CSV"), RULES, KEEP, SEED), details=TABLES),
    Kind("squares", "3x3 FILE",
         "squares with coloured sides, of which one lies in each cell, turned as one likes, so that sides that\n"
         "meet have one colour: in each line a name and four colours, from the top on clockwise;\n"
         "--border grey wants this colour all round",
         "squares with coloured sides: where two meet, their sides have one colour",
         lambda given: [squares_on_board(board_of(given.size, given.without), given.file, given.border)],
         (*BOARD, file("a name and four colours a line"), BORDER)),
    Kind("word-square", "FILE", "different words of one length, in a square to be read across and down; --repeat lets words come again",
         lambda given: f"{different(given)}words in a square, across and down",
         lambda given: [word_squares(read_words(given.file, given.ignore_case), repeat=given.repeat)],
         (file("words of one length"), REPEAT, IGNORE_CASE), aliases=("words",)),
    Kind("crossword", "GRID WORDS",
         "words of a list in a grid of rows of dots, given letters, and # for black cells; --repeat as above; with\n"
         "--ignore-case capital and small letters are alike",
         lambda given: f"{different(given)}words in a grid, across and down",
         lambda given: [read_crossword(given.cells, given.file, given.repeat, given.ignore_case)],
         (Argument("cells", metavar="GRID", help="rows of dots, letters and #"), file("words of any length", "WORDS"),
          REPEAT, IGNORE_CASE)),
    Kind("nonogram", "FILE",
         "black cells by the lengths of their blocks: a line of numbers for each row, an empty line, a line of\n"
         "numbers for each column, with blanks or commas between; a line without black cells is 0",
         "black cells in rows and columns, by the lengths of their blocks",
         lambda given: [read_nonogram(given.file)], (file("lines of numbers"),)),
    Kind("cubes", "FILE",
         "cubes in a row, turned so that no side of the row shows a colour twice (instant insanity): in each line a\n"
         "name and six colours, front right back left top bottom",
         "cubes in a row, turned so that no side of the row shows a colour twice",
         lambda given: [Puzzle(*cubes(read_cubes(given.file)))], (file("a name and six colours a line"),)),
)
# the same by their names and aliases
BY_WORD = {word: kind for kind in KINDS for word in (kind.name, *kind.aliases)}


# ---- texts

def kinds_listed() -> str:
    """The names of all kinds, in a sentence."""
    *names, last = (kind.name for kind in KINDS)
    return ", ".join(names) + f" and {last}"


def kinds_help() -> str:
    """What the help of all kinds says of them: the lines of each, and then all details."""
    return "\n".join(kind.lines() for kind in KINDS) + "".join(f"\n\n{kind.details}" for kind in KINDS if kind.details)


def told_word(word: str) -> str:
    """A word of the command line as a comment has it: a sudoku without its blanks, others in quotes if they have
    any."""
    parts = word.split()
    return "".join(parts) if is_typed(word) else f"'{' '.join(parts)}'" if len(parts) > 1 else "".join(parts)


def told_words(given_words: list[str]) -> str:
    """The words of a command line, as a comment tells them."""
    kept = [word for before, word in zip(["", *given_words], given_words) if "--out" not in (before, word.partition("=")[0])]
    words = [os.path.basename(word) if os.path.exists(word) else told_word(word) for word in kept]
    return " ".join(shown(os.fsencode(word)) for word in words)


# ---- command lines

def kinds_of(parser: argparse.ArgumentParser) -> list[argparse.ArgumentParser]:
    """Adds the kinds to a command line; the command lines of all kinds."""
    kinds, found = parser.add_subparsers(dest="kind", metavar="KIND"), []
    for kind in KINDS:
        words = kinds.add_parser(kind.name, aliases=kind.aliases, description=as_called(kind.help()),
                                 formatter_class=argparse.RawDescriptionHelpFormatter)
        for argument in kind.arguments:
            argument.add_to(words)
        found.append(words)
    return found


def problems_of(given: Namespace, given_words: list[str]) -> list[Puzzle]:
    """The problems that these words of a command line ask for, mostly one; their first comment tells how they were
    made."""
    kind = BY_WORD[given.kind]
    try:
        found = kind.make(given)
        for puzzle in found:
            check_range(puzzle)
    except Refused as why:
        # (the text is to be blamed, where the problem was made of one)
        stop(why, UNREADABLE if kind.is_of_text() else MISTAKE)
    return [puzzle.told(f"{kind.said(given)} (zarfepoch generate {told_words(given_words)})") for puzzle in found]
