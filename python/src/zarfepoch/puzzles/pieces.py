"""Boards of any shape, flat or in layers, that pieces fill: any pieces, each in so many copies.

Copies of a piece are alike, and a search that tells them apart finds each way to lay them many times. So a piece has no
item of its own where the number of cells settles how often it is used; else its copies lie in order: of two copies the
one that comes first begins no later on the board, which items as `L.1<3` see to.
"""
from __future__ import annotations

import itertools
import os
import re
from collections.abc import Iterable

from ..boards.turns import Cell, layers_of, minus, orientations
from ..files.cover_files import MAX_ITEMS
from ..files.fault_words import plural
from ..texts.names import names_in
from ..texts.puzzles import blocks_of, no_cover, Puzzle, refuse

FLAT = {
    "I1": "x", "I2": "xx", "I3": "xxx", "V3": "xx/x.", "I4": "xxxx", "L4": "xxx/x..", "O4": "xx/xx", "S4": ".xx/xx.", "T4": "xxx/.x.",
    "F": ".xx/xx./.x.", "I": "xxxxx", "L": "xxxx/x...", "N": "xx../.xxx", "P": "xx/xx/x.", "T": "xxx/.x./.x.", "U": "x.x/xxx", "V": "x../x../xxx",
    "W": "x../xx./.xx", "X": ".x./xxx/.x.", "Y": "xxxx/.x..", "Z": "xx./.x./.xx",
}
# the pieces of Soma; layers stand side by side
SOMA = {"V": "xx/x.", "L": "xxx/x..", "T": "xxx/.x.", "Z": "xx./.xx", "A": "xx x./.. x.", "B": "xx .x/.. .x", "P": "xx x./x. .."}
SETS = {"pentominoes": "F I L N P T U V W X Y Z".split(), "tetrominoes": ["I4", "L4", "O4", "S4", "T4"], "trominoes": ["I3", "V3"],
        "dominoes": ["I2"]}
# the most items that see to the order of copies, and into how many parts the board is divided for this
MOST_ORDERED, PARTS = 300, 8


class Piece:
    """A piece by its cells (layer, row, column), and how many copies there are."""

    def __init__(self, name: str, cells: Iterable[Cell], count: int, line: int | None = None) -> None:
        self.name, self.cells, self.count, self.line = name, sorted(cells), count, line


# ---- texts

def rows_text(cells: list[Cell]) -> str:
    """A piece's rows of x and dots in one line, as a comment tells them."""
    deep, high, wide = (range(min(cell[k] for cell in cells), max(cell[k] for cell in cells) + 1) for k in range(3))
    return "/".join(" ".join("".join("x" if (layer, r, c) in cells else "." for c in wide) for layer in deep) for r in high)


def is_rows(line: str) -> bool:
    return bool(re.fullmatch(r"[xX.\s]+", line))


def want_layers(path: str, block: list[tuple[int, str]]) -> None:
    """Refuses rows of which one has more words than another: a blank parts layers, and a cell that isn't there is a
    dot."""
    counts = [len(row.split()) for _, row in block]
    for (number, _), count in zip(block, counts):
        if count != counts[0]:
            refuse(path, number, f"here {'is' if count == 1 else 'are'} {plural(count, 'layer')} side by side, and {counts[0]} in the first row; a "
                   "cell that isn't there is a dot, and no blank")


def read_board(text: str) -> set[Cell]:
    """The cells of a board: a size as 5x12 or 3x3x3, or a file of x and dots; blocks of lines, or words side by side,
    are layers."""
    found = re.fullmatch(r"(?:([1-9]\d?)x)?([1-9]\d{0,2})x([1-9]\d{0,2})", text)
    if found:
        deep, high, wide = (range(int(size or 1)) for size in found.groups())
        return set(itertools.product(deep, high, wide))
    cells, layers = set(), 0
    for block in blocks_of(text):
        for number, line in block:
            if not re.fullmatch(r"[xX.\s]+", line):
                refuse(text, number, "a row of the board has an x for each cell, and a dot where there is none")
        want_layers(text, block)
        rows = [line for _, line in block]
        cells |= {(layers + layer, r, c) for layer, r, c in layers_of(rows)}
        layers += max(len(row.split()) for row in rows)
    return cells or refuse(text, None, "the board has no cell: an x for each is expected")


def counted(path: str, number: int, words: list[str]) -> tuple[str, int]:
    """The name and the number of copies of a piece, from words as `L`, `L 3`, `3 L`, `L x3` or `3*L`."""
    found = re.fullmatch(r"(?:(\d{1,3})[ *])?([^\s*:|]*[^\s*:|\d][^\s*:|]*?|[A-Z]\d)(?: x?(\d{1,3}))?", " ".join(words))
    if not found or re.fullmatch(r"[\d.<-]+", found[2]) or "<" in found[2]:
        refuse(path, number, f"'{' '.join(words)}' names no piece: a name is expected, and if there are several, their number, as in 3*L")
    return found[2], int(found[1] or found[3] or 1)


def known(path: str, number: int | None, name: str) -> list[Cell]:
    """The cells of a piece that has a name here."""
    if name not in FLAT:
        refuse(path, number, f"there is no piece '{name}' here; {' '.join(FLAT)} are, with a number of copies as 3*L4, and others have rows of x "
               "and dots in a file, right below their names")
    return layers_of(FLAT[name].split("/"))


def named_pieces(text: str) -> list[Piece]:
    """Pieces from words of the command line, as pentominoes, soma or F 3*L4."""
    if text == "soma":
        return [Piece(name, layers_of(rows.split("/")), 1) for name, rows in SOMA.items()]
    pieces = []
    for word in text.split():
        found = re.fullmatch(r"(?:(\d{1,3})\*)?(.+)", word)
        number, what = (found[1] or "1", found[2]) if found else ("1", word)
        for name in SETS.get(what, [what]):
            pieces.append(Piece(name, known("--pieces", None, name), int(number)))
    return pieces


def read_pieces(path: str) -> list[Piece]:
    """Pieces from a file: each a line with its name and perhaps a number of copies, and rows of x and dots; an empty
    line parts them."""
    pieces: list[Piece] = []
    for block in blocks_of(path):
        number, line = block[0]
        head = [] if is_rows(line) else names_in(path, number, line)
        name, count = counted(path, number, head) if head else (f"piece{len(pieces) + 1}", 1)
        rows = block[1:] if head else block
        for row_number, row in rows:
            if not is_rows(row):
                refuse(path, row_number, f"a row of the piece {name} has an x for each cell, and dots; an empty line parts it from the next piece")
        want_layers(path, rows)
        cells = layers_of([row for _, row in rows]) if rows else known(path, number, name)
        pieces.append(Piece(name, cells or refuse(path, number, f"the piece {name} has no cell"), count, number))
    names = [piece.name for piece in pieces]
    for piece in pieces:
        if names.count(piece.name) > 1:
            refuse(path, piece.line, f"there are two pieces {piece.name}; equal ones have their number behind the name, as {piece.name} 2")
        if not is_one(piece.cells):
            refuse(path, piece.line, f"the piece {piece.name} doesn't hang together")
    return pieces or refuse(path, None, "there are no pieces")


def is_one(cells: list[Cell]) -> bool:
    """Whether cells hang together by their sides."""
    left, reached = set(cells), [cells[0]]
    for cell in reached:
        near = {other for other in left if sum(abs(a - b) for a, b in zip(cell, other)) == 1}
        left -= near
        reached += near
    return not left - {cells[0]}


# ---- items

def placements(piece: Piece, board: set[Cell], is_flat: bool, flips: bool) -> list[list[Cell]]:
    """The cells of the board under each way to lay a piece, in the order of the first cell."""
    found = []
    for turned in orientations(piece.cells, is_flat, flips):
        for at in board:
            cells = [minus(at, minus(turned[0], cell)) for cell in turned]
            if all(cell in board for cell in cells):
                found.append(sorted(cells))
    return sorted(found)


def ways_to_sum(sizes: list[int], total: int) -> int:
    """In how many ways, at most two, numbers of these sizes make a sum."""
    ways = [1] + [0] * total
    for size in sizes:
        for value in range(size, total + 1):
            ways[value] = min(2, ways[value] + ways[value - size])
    return ways[total]


def settled(pieces: list[Piece], cells: int) -> list[Piece]:
    """The pieces whose number the number of cells settles, so that they need no item."""
    if sum(piece.count * len(piece.cells) for piece in pieces) > cells:
        return [piece for piece in pieces if piece.count >= cells // len(piece.cells)]
    chosen: list[Piece] = []
    for piece in sorted(pieces, key=lambda one: -one.count):
        some = chosen + [piece]
        if piece.count > 1 and ways_to_sum([len(one.cells) for one in some], sum(one.count * len(one.cells) for one in some)) == 1:
            chosen = some
    return chosen


def can_have(pieces: list[Piece], cells: int) -> bool:
    """Whether some of the pieces have so many cells together."""
    sums = {0}
    for size in (len(piece.cells) for piece in pieces for _ in range(piece.count)):
        sums |= {some + size for some in sums if some + size <= cells}
    return cells in sums


class Copies:
    """The copies of a piece by their items, and the items that keep them in order."""

    def __init__(self, piece: Piece, parts: int, places: int) -> None:
        self.names = [piece.name] if piece.count == 1 else [f"{piece.name}.{k}" for k in range(1, piece.count + 1)]
        self.parts, self.places = parts, places

    def order(self, k: int, place: int) -> list[str]:
        """The items of a copy that begins at this place of the board: of two copies in the wrong order both name
        one."""
        part = place * self.parts // self.places
        before = [f"{self.names[k]}<{t}" for t in range(1, self.parts) if k + 1 < len(self.names) and part >= t]
        behind = [f"{self.names[k - 1]}<{t}" for t in range(1, self.parts) if k and part < t]
        return before + behind

    def ordering(self) -> list[str]:
        return [f"{name}<{t}" for name in self.names[:-1] for t in range(1, self.parts)]


def cell_names(board: set[Cell]) -> dict[Cell, str]:
    """The names of cells, by row and column on a flat board, else by layer, row and column."""
    if len({layer for layer, _, _ in board}) > 1:
        return {cell: "-".join(map(str, cell)) for cell in board}
    width = len(str(max(max(cell[1:]) for cell in board)))
    return {cell: f"{cell[1]:0{width}}{cell[2]:0{width}}" for cell in board}


def filled(cells: set[Cell], pieces: list[Piece], flips: bool = True) -> Puzzle:
    """The problem of a board and its pieces, all of which are used if they have as many cells as the board."""
    total = sum(piece.count * len(piece.cells) for piece in pieces)
    if total < len(cells):
        no_cover(f"the pieces have {total} cells together, and the board has {len(cells)}; a number before a piece is how many there are, as in 12*I2")
    if not can_have(pieces, len(cells)):
        no_cover(f"the board has {len(cells)} cells, and no choice of these pieces has as many")
    board, names = sorted(cells), cell_names(cells)
    is_flat = len({layer for layer, _, _ in board}) == 1
    alike, place = settled(pieces, len(board)), {cell: k for k, cell in enumerate(board)}
    counts = sum(piece.count - 1 for piece in pieces if piece not in alike)
    room = min(MOST_ORDERED, MAX_ITEMS - len(board) - sum(piece.count for piece in pieces if piece not in alike))
    parts = max(1, min(PARTS, room // counts + 1 if counts else 1))
    items: list[str] = []
    ordering: list[str] = []
    options: list[list[str]] = []
    for piece in pieces:
        laid = placements(piece, set(board), is_flat, flips)
        if piece in alike:
            options += [[names[cell] for cell in some] for some in laid]
            continue
        copies = Copies(piece, parts, len(board))
        items, ordering = items + copies.names, ordering + copies.ordering()
        options += [[name] + [names[cell] for cell in some] + copies.order(k, place[some[0]]) for k, name in enumerate(copies.names) for some in laid]
    stand, told = total == len(board), [f"piece {piece.name}: {rows_text(piece.cells)}" for piece in pieces if piece in alike]
    return Puzzle((items if stand else []) + [names[cell] for cell in board], ([] if stand else items) + ordering, options, told)


def filled_board(board: str, pieces: str, flips: bool) -> Puzzle:
    """The problem of a board, by its size or its file, and of pieces, by their names or their file."""
    is_file = pieces == "-" or os.path.exists(pieces) or bool(re.search(r"[./]", pieces))
    found = read_pieces(pieces) if is_file else named_pieces(pieces)
    return filled(read_board(board), found, flips)
