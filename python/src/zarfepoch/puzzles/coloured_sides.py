"""Squares and cubes with coloured sides as exact covers, and how they are read: squares that meet in one colour, and
cubes in a row that show each colour once."""
from __future__ import annotations

import re
from typing import Optional

from ..boards.cells import Cell, names_of
from ..command_line.ends import stop
from ..files.cover_files import MAX_OPTIONS
from ..files.fault_words import plural
from ..texts.limits import Refused
from ..texts.names import hint_alike, in_one_case, some_words, want_one_spelling
from ..texts.puzzles import Lists, Puzzle, refuse

# pieces by their names, each with the colours of its sides
Pieces = dict[str, list[str]]


def want_one_colour(path: str, what: str, lines: list[tuple[int, list[str]]]) -> None:
    """Refuses two spellings of a colour behind the name of what has it, and tells of names that may be one."""
    colours = [(number, word) for number, words in lines for word in words[1:]]
    want_one_spelling(path, "colour", colours, in_one_case)
    hint_alike(path, "colour", colours)
    hint_alike(path, what, [(number, words[0]) for number, words in lines])


# ---- squares

def looks_outwards(cells: set[Cell], cell: Cell) -> tuple[bool, ...]:
    """Of each side of a cell, from the top on clockwise, whether no other cell lies behind it."""
    r, c = cell
    return tuple(other not in cells for other in ((r - 1, c), (r, c + 1), (r + 1, c), (r, c - 1)))


def squares(cells: set[Cell], pieces: Pieces, border: Optional[str] = None) -> Puzzle:
    """Squares with coloured sides, edge to edge; with a border, all sides that look outwards have this colour, and no
    others where the squares have no more of it."""
    names, grid = names_of(cells), names_of({(r + a, c + b) for r, c in cells for a in (0, 1) for b in (0, 1)})
    outwards = {cell: looks_outwards(cells, cell) for cell in cells}
    of_border = sum(colour == border for colours in pieces.values() for colour in colours)
    no_more = of_border == sum(is_outwards for sides in outwards.values() for is_outwards in sides)

    def fits(colour: str, is_outwards: bool) -> bool:
        return border is None or (colour == border if is_outwards else not (no_more and colour == border))

    options = []
    for piece, colours in pieces.items():
        for turned in dict.fromkeys(tuple(colours[k:] + colours[:k]) for k in range(4)):
            for r, c in sorted(cells):
                sides = ["h" + grid[r, c], "v" + grid[r, c + 1], "h" + grid[r + 1, c], "v" + grid[r, c]]
                if all(map(fits, turned, outwards[r, c])):
                    options.append([piece, names[r, c]] + [f"{side}:{colour}" for side, colour in zip(sides, turned)])
        if len(options) > MAX_OPTIONS:
            raise Refused(f"the squares can lie in more than {MAX_OPTIONS:,} ways, and the program reads at most so many options")
    sides = sorted({word.partition(":")[0] for option in options for word in option[2:]})
    return Puzzle(list(pieces) + list(names.values()), sides, options)


def read_squares(path: str) -> Pieces:
    """Squares by their names, each with its four colours."""
    found: Pieces = {}
    lines = some_words(path)
    want_one_colour(path, "square", lines)
    for number, (name, *colours) in lines:
        if len(colours) != 4:
            refuse(path, number, f"a name and four colours are expected, and here are {', '.join([name, *colours])}")
        if name in found or re.fullmatch(r"\d+", name):
            refuse(path, number, f"'{name}' " + ("would stand for two squares" if name in found else "would be the name of a cell"))
        found[name] = colours
    return found


def squares_on_board(cells: set[Cell], path: str, border: Optional[str]) -> Puzzle:
    """The squares of a file, one in each cell of a board."""
    found = read_squares(path)
    if len(cells) != len(found):
        stop(f"{plural(len(found), 'square')} can't fill {plural(len(cells), 'cell')}")
    return squares(cells, found, border)


# ---- cubes in a row

SIDES = ("front", "right", "back", "left")
# the sides that are seen round a cube that stands on one of its faces; faces are front, right, back, left, top, bottom
ROUND = ((0, 1, 2, 3), (0, 4, 2, 5), (1, 4, 3, 5))


def turned(faces: list[str]) -> list[tuple[str, ...]]:
    """The different ways in which four faces of a cube can be seen round it."""
    ways = []
    for belt in ROUND:
        seen = [faces[face] for face in belt]
        for way in (seen, seen[::-1]):
            ways += [tuple(way[k:] + way[:k]) for k in range(4)]
    return list(dict.fromkeys(ways))


def cubes(faces_of: dict[str, list[str]]) -> Lists:
    """Each cube is turned so that on each of the four sides of the row no colour comes twice."""
    colours = sorted({colour for faces in faces_of.values() for colour in faces})
    seen = [f"{side}-{colour}" for side in SIDES for colour in colours]
    options = [[cube] + [f"{side}-{colour}" for side, colour in zip(SIDES, way)] for cube, faces in faces_of.items() for way in turned(faces)]
    exactly = len(colours) == len(faces_of)
    return list(faces_of) + (seen if exactly else []), [] if exactly else seen, options


def read_cubes(path: str) -> Pieces:
    """Cubes by their names, each with its six colours."""
    lines = some_words(path)
    want_one_colour(path, "cube", lines)
    for number, words in lines:
        if len(words) != 7 or [other[0] for _, other in lines].count(words[0]) > 1 or re.match(r"(front|right|back|left)-", words[0]):
            refuse(path, number, f"a cube's own name and six colours are expected, and here are {', '.join(words)}")
    return {words[0]: words[1:] for _, words in lines}
