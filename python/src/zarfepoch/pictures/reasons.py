"""A picture of a reason for `none`: a board whose cells have the colours of what they weigh, need or have room for, and
below it the other items that count; or these alone, where the items are no cells of a board."""
from __future__ import annotations

import re
from typing import Optional

from ..files.cover_files import Problem, shown
from ..reasons.cover_reason import Amounts, Reason
from .svg_paper import FAINT, FILLS, Cell, Paper, text_width

CELL, CHIP, SIZE = 34, 26, 13
A_ROW, LARGEST = 8, 1_000
EMPTY = "#ffffff"


def cell_of(name: bytes) -> Optional[Cell]:
    """The row and the column that a name says, as 07, 0011 or 3-12; None where it says none."""
    text = shown(name)
    if re.fullmatch("[0-9]+", text) and len(text) % 2 == 0:
        return int(text[:len(text) // 2]), int(text[len(text) // 2:])
    found = re.fullmatch("([0-9]+)[-.]([0-9]+)", text)
    return (int(found[1]), int(found[2])) if found else None


class Group:
    """Items that count alike: what their cells say, what all of them do, and their names."""

    def __init__(self, mark: str, words: str, names: list[bytes], fill: str) -> None:
        self.mark, self.words, self.names, self.fill = mark, words, names, fill


def kinds_of(reason: Reason) -> list[tuple[str, str, str, Amounts]]:
    """Of each kind of number what one item of it does, what several do, how the number is written, and the numbers by
    names."""
    if reason.modulus:
        return [("weighs", "weigh", "{:+d}", reason.signed())]
    return [("needs", "need", "{}", reason.needs), ("has room for", "have room for", "{}", reason.rooms)]


def groups_of(reason: Reason) -> list[Group]:
    """The items that count, those alike together: the largest number of each kind first."""
    groups: list[Group] = []
    for one, several, form, amounts in kinds_of(reason):
        for amount in sorted(set(amounts.values()), reverse=True):
            names = [name for name, own in amounts.items() if own == amount]
            mark = form.format(amount)
            words = f"{len(names):,} {several} {mark} each" if len(names) > 1 else f"1 {one} {mark}"
            groups.append(Group(mark, words, names, FILLS[len(groups) % len(FILLS)]))
    return groups


def board_of(problem: Problem) -> dict[bytes, Cell]:
    """The cells of a board by the names of its items; none where the items are no cells."""
    cells = {name: cell for name in problem.names() if (cell := cell_of(name))}
    places = set(cells.values())
    largest = max((max(cell) for cell in places), default=0)
    return cells if len(places) == len(cells) > 1 and 2 * len(cells) > problem.primary and largest < LARGEST else {}


def draw_board(paper: Paper, cells: dict[bytes, Cell], groups: list[Group]) -> None:
    """The board, each cell in the colour of its group."""
    marks = {name: group for group in groups for name in group.names}
    for name, (row, column) in sorted(cells.items(), key=lambda named: named[1]):
        group = marks.get(name)
        paper.box(column * CELL, row * CELL, CELL, CELL, group.fill if group else EMPTY, FAINT, 0.8)
        if group:
            paper.text((column + 0.5) * CELL, (row + 0.5) * CELL, group.mark, SIZE)


def draw_names(paper: Paper, group: Group, top: float) -> float:
    """The names of a group in boxes, row by row; where the next thing begins."""
    wide = max(text_width(shown(name), SIZE) for name in group.names) + 12
    a_row = max(1, min(A_ROW, int(640 / wide)))
    for place, name in enumerate(group.names):
        x, y = place % a_row * wide, top + place // a_row * CHIP
        paper.box(x, y, wide, CHIP, group.fill, FAINT, 0.8)
        paper.text(x + wide / 2, y + CHIP / 2, shown(name), SIZE)
    return top + ((len(group.names) - 1) // a_row + 1) * CHIP


def draw_groups(paper: Paper, cells: dict[bytes, Cell], groups: list[Group]) -> float:
    """Below the board a line on each group, and the names that aren't on it."""
    top, left = (paper.bottom + 24, paper.left) if cells else (0, 0)
    for group in groups:
        paper.box(left, top - 9, 18, 18, group.fill, FAINT, 0.8)
        paper.text(left + 26, top, group.words, SIZE, anchor="start")
        top += 16
        others = [name for name in group.names if name not in cells]
        if others:
            top = draw_names(paper, Group(group.mark, group.words, others, group.fill), top) + 6
        top += 14
    return top


def reason_svg(problem: Problem, reason: Reason) -> str:
    """The picture of a reason as SVG. Of several, one for each option of an item, it is that of the first: its line
    below says how many there are."""
    cells, groups = board_of(problem), groups_of(next(iter(reason.cases.values()), reason))
    if not any(name in cells for group in groups for name in group.names):
        cells = {}
    paper = Paper(reason.line(problem))
    draw_board(paper, cells, groups)
    top = draw_groups(paper, cells, groups)
    paper.text(paper.left, top + 4, reason.line(problem), SIZE, anchor="start", bold=True)
    return paper.svg()
