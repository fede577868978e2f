"""The kinds of pictures: each is known by the names of a problem's items, and draws an answer as text and on a
sheet."""
from __future__ import annotations

import functools
import itertools
import math
import re
from typing import Optional

from ..boards.cells import Cell, cell_of, known_cell
from ..files.cover_files import Option, Problem, shown
from ..files.full_names import full_names
from ..reasons.cover_reason import Named
from . import number_grids
from .base import CELL, draw_lines, Kind, known_colour, Names
from .boards import Layers, Tiling
from .grids import Kakuro, Nonogram, Stars, WHITE, Words
from .planar import places
from .sudokus import Sudoku
from .svg_paper import ACCENT, BACKGROUND, FAINT, FILLS, INK, on_circle, Paper, Point, table_text, text_width, WIDEST
from .terminal_text import centred, on_left, on_right, widest
from .timetables import Timetable


# a map of more places, or one that needs a larger radius, is drawn as a list
MOST_PLACES, WIDEST_RADIUS = 60, 420
CROWN = [(0.24, 0.74), (0.18, 0.36), (0.34, 0.52), (0.5, 0.26), (0.66, 0.52), (0.82, 0.36), (0.76, 0.74)]


class Queens(Kind):
    """Queens by row and column; of the diagonals nothing is drawn."""

    def is_known(self) -> bool:
        return self.all_match(r"[rcab]\d+") and bool(self.options) and all(
            {"r", "c"} <= {name[0] for name in option} for option in self.options)

    @functools.cached_property
    def offset(self) -> int:
        return int(any(item[0] in "rc" and int(item[1:]) == 0 for item in self.items))

    def item_words(self, item: str) -> str:
        return {"r": "row", "c": "column"}.get(item[0], "diagonal") + f" {int(item[1:]) + self.offset}"

    def places(self) -> tuple[list[int], list[int], set[Cell]]:
        """The rows, the columns, and where queens stand."""
        rows, columns = ([int(item[1:]) for item in self.items if item[0] == kind] for kind in "rc")
        queens = [[int(next(name for name in option if name[0] == kind)[1:]) for kind in "rc"] for option in self.chosen]
        return sorted(rows), sorted(columns), {(r, c) for r, c in queens}

    def lines(self) -> list[str]:
        rows, columns, queens = self.places()
        return [" ".join("Q" if (r, c) in queens else "." for c in columns) for r in rows]

    def draw(self, paper: Paper) -> None:
        rows, columns, queens = self.places()
        for r in rows:
            for c in columns:
                paper.box(c * CELL, r * CELL, CELL, CELL, "#d9cdb8" if (r + c) % 2 else "#fffdf8", FAINT, 0.5)
                if (r, c) in queens:
                    paper.shape([((c + x) * CELL, (r + y) * CELL) for x, y in CROWN], ACCENT, INK, 1.2)
        paper.box(columns[0] * CELL, rows[0] * CELL, len(columns) * CELL, len(rows) * CELL, "none", INK, 2.2)
        self.caption(paper)


class Langford(Kind):
    """A row of places; each number stands in two of them."""

    def is_known(self) -> bool:
        def is_pair(option: Names) -> bool:
            found = re.fullmatch(r"(\d+) s(\d+) s(\d+)", " ".join(option))
            return found is not None and int(found[3]) - int(found[2]) == int(found[1]) + 1

        return self.all_match(r"s?\d{1,3}") and bool(self.options) and all(map(is_pair, self.options))

    def places(self) -> range:
        """The places from the first, which is 1 unless there is a place 0, to the last."""
        named = [int(item[1:]) for item in self.items if item[0] == "s"]
        return range(min(1, *named), max(named) + 1)

    def row(self) -> list[str]:
        """The number at each place, or a dot."""
        at = {int(name[1:]): option[0] for option in self.chosen for name in option[1:]}
        return [at.get(place, ".") for place in self.places()]

    def lines(self) -> list[str]:
        return [" ".join(self.row())]

    def draw(self, paper: Paper) -> None:
        for k, mark in enumerate(self.row()):
            fill = "#fffdf8" if mark == "." else FILLS[(int(mark) - 1) % len(FILLS)]
            paper.box(k * CELL, 0, CELL, CELL, fill, INK, 1.2)
            paper.text((k + 0.5) * CELL, CELL / 2, "" if mark == "." else mark, 17)
        for option in self.chosen:
            begin, end = (int(name[1:]) - self.places()[0] + 0.5 for name in option[1:])
            paper.arc(begin * CELL, end * CELL, 0, ACCENT)
        self.caption(paper)


# ---- tables, graphs and lists

class Colouring(Kind):
    """Places, each with a colour that none of its neighbours has."""

    def is_known(self) -> bool:
        return bool(self.secondary()) and self.all_match(r".+-.+=.+", self.secondary()) and all(
            option[0] in self.primary and self.primary.isdisjoint(option[1:]) for option in self.options)

    def item_words(self, item: str) -> str:
        border, equals, colour = item.rpartition("=")
        names = full_names(self.comments)
        return " and ".join(names.get(one, one) for one in border.split("-")) + f" in {colour}" if equals else names.get(item, item)

    def colours(self) -> dict[str, str]:
        """The colour of each place that an option gives one, by its name."""
        return {option[0]: option[1].rsplit("=", 1)[1] for option in self.chosen if len(option) > 1}

    def lines(self) -> list[str]:
        names = full_names(self.comments)
        wide = widest([names.get(item, item) for item in self.primary])
        return [f"{on_left(names.get(place, place), wide)}  {colour}" for place, colour in self.colours().items()]

    def borders(self) -> list[tuple[str, str]]:
        """The pairs of places that have a border, so far as both are items."""
        names = self.primary
        pairs = (border.partition("-") for border in dict.fromkeys(item.rsplit("=", 1)[0] for item in self.secondary()))
        return [(one, other) for one, _, other in pairs if {one, other} <= names and one != other]

    def fill_of(self, colour: Optional[str]) -> str:
        names = sorted({item.rsplit("=", 1)[1] for item in self.secondary()})
        if colour not in names:
            return BACKGROUND
        return known_colour(colour) or FILLS[names.index(colour) % len(FILLS)]

    def draw(self, paper: Paper) -> None:
        names, colours, full = [item for item in self.items if item in self.primary], self.colours(), full_names(self.comments)
        found = places(names, self.borders()) if len(names) <= MOST_PLACES else None
        texts = [full.get(name, name) for name in names], [str(k) for k in range(1, len(names) + 1)]
        sizes = [max(20, max(text_width(text, 14) for text in some) / 2 + 4) for some in texts]
        radii = [max(90, (size + 8) / found[1]) if found and found[1] > 0 else WIDEST for size in sizes]
        if found is None or radii[1] > WIDEST_RADIUS:
            self.draw_list(paper, names, texts[0])
            return
        some = 0 if radii[0] <= WIDEST_RADIUS else 1
        marks, size, radius = texts[some], sizes[some], radii[some]
        at = {name: (radius * x, radius * y) for name, (x, y) in found[0].items()}
        for one, other in self.borders():
            paper.line(*at[one], *at[other], INK, 1.5)
        for name, mark in zip(names, marks):
            paper.circle(*at[name], size, self.fill_of(colours.get(name)), INK, 1.5)
            paper.text(*at[name], mark)
        right, middle = max(x for x, _ in at.values()) + size + 24, sum(y for _, y in at.values()) / len(at)
        for k, (name, text, mark) in enumerate(zip(names, texts[0], marks)):
            told = f"{text}: {colours.get(name, '')}" if mark == text else f"{mark} {text}: {colours.get(name, '')}"
            y = middle + (k - len(names) / 2 + 0.5) * 22
            paper.box(right, y - 8, 16, 16, self.fill_of(colours.get(name)), INK, 0.8)
            paper.text(right + 24, y, told, 14, "start")
        self.caption(paper)

    def draw_list(self, paper: Paper, names: list[str], texts: list[str]) -> None:
        """A list of places, where the map isn't planar or doesn't fit on a sheet."""
        colours = self.colours()
        for k, (name, text) in enumerate(zip(names, texts)):
            paper.box(0, k * 26, 40, 20, self.fill_of(colours.get(name)), INK, 1)
            paper.text(52, k * 26 + 10, f"{text}: {colours.get(name, '')}", 14, "start")
        self.caption(paper)


class Matching(Kind):
    """A graph whose options are edges; names with the same letters at the front stand on one ring."""

    def is_known(self) -> bool:
        return bool(self.options) and not self.secondary() and all(len(option) == 2 for option in self.options)

    def lines(self) -> list[str]:
        return [" - ".join(option) for option in self.chosen]

    def rings(self) -> list[list[str]]:
        """The names by the letters at their front, the outer ring first; one ring where these don't make rings of one
        size."""
        rings: dict[str, list[str]] = {}
        for item in self.items:
            rings.setdefault(item.rstrip("0123456789"), []).append(item)
        sizes = set(map(len, rings.values()))
        return list(rings.values()) if len(sizes) == 1 and min(sizes) > 2 and len(rings) < 4 else [self.items]

    def draw(self, paper: Paper) -> None:
        rings = self.rings()
        at: dict[str, Point] = {}
        size = max(15, max(text_width(item, 12) for item in self.items) / 2 + 3)
        greatest = max(110, len(rings) * (2 * size + 10), len(rings[0]) * size * 0.4 * len(rings))
        for ring, items in enumerate(rings):
            at.update((item, on_circle(len(items), greatest * (1 - ring / len(rings)), k)) for k, item in enumerate(items))
        for option in self.options:
            is_chosen = option in self.chosen
            paper.line(*at[option[0]], *at[option[1]], ACCENT if is_chosen else FAINT, 6 if is_chosen else 1.5)
        for item, (x, y) in at.items():
            paper.circle(x, y, size, "#fffdf8", INK, 1.5)
            paper.text(x, y, item, 12)
        self.caption(paper)


TOP, LEFT, RIGHT = ((math.sin(k * 2 * math.pi / 3), -math.cos(k * 2 * math.pi / 3)) for k in (0, 2, 1))
PLANE = [TOP, LEFT, RIGHT] + [((a[0] + b[0]) / 2, (a[1] + b[1]) / 2) for a, b in ((TOP, LEFT), (LEFT, RIGHT), (RIGHT, TOP))] + [(0.0, 0.0)]
LINE_COLOURS = ["#1f5fa8", "#a8321f", "#2f7d3b", "#7a4fa3", "#b0741a", "#0f7f86", "#b03a7c"]
# each with its two ends first; the last is the circle
PLANE_LINES = [(0, 1, 3), (1, 2, 4), (2, 0, 5), (0, 4, 6), (1, 5, 6), (2, 3, 6), (3, 4, 5)]


def halves(name: str) -> tuple[str, str]:
    """The two points that a name of digits tells, one in each half."""
    return name[:len(name) // 2], name[len(name) // 2:]


class Triples(Kind):
    """Lines of three points, each option the three pairs of its line; any two points lie on one line."""

    def is_known(self) -> bool:
        def is_triple(option: Names) -> bool:
            pairs = {frozenset(halves(name)) for name in option}
            return len(option) == len(pairs) == len(frozenset().union(*pairs)) == 3 and all(len(pair) == 2 for pair in pairs)

        return self.all_match(r"(\d\d)+") and bool(self.options) and all(map(is_triple, self.options))

    def triples(self) -> list[Names]:
        return [tuple(sorted({point for name in option for point in halves(name)})) for option in self.chosen]

    def lines(self) -> list[str]:
        return [" ".join(triple) for triple in self.triples()]

    def in_plane(self) -> Optional[Names]:
        """The points of a plane of seven points in the order of its usual picture; None where it is no such plane."""
        points = sorted({point for item in self.items for point in halves(item)})
        lines = {frozenset(triple) for triple in self.triples()}
        if len(points) != 7 or len(lines) != 7:
            return None
        return next((order for order in itertools.permutations(points)
                     if all(frozenset(order[k] for k in line) in lines for line in PLANE_LINES)), None)

    def draw(self, paper: Paper) -> None:
        order, size = self.in_plane(), 150
        if order is None:
            draw_lines(paper, self.text())
            return
        paper.circle(0, 0, size / 2, "none", LINE_COLOURS[6], 3)
        for k, (a, b, _) in enumerate(PLANE_LINES[:6]):
            (x, y), (to_x, to_y) = PLANE[a], PLANE[b]
            paper.line(size * x, size * y, size * to_x, size * to_y, LINE_COLOURS[k], 3)
        for point, (x, y) in zip(order, PLANE):
            paper.circle(size * x, size * y, 16, "#fffdf8", INK, 1.5)
            paper.text(size * x, size * y, point, 15)


class Plain(Kind):
    """Anything else: the chosen options, one on a line."""

    def is_known(self) -> bool:
        return True

    def lines(self) -> list[str]:
        head = [] if self.is_none else [f"cover {len(self.chosen)}"]
        return head + [" ".join(name + (f":{colours[name]}" if name in colours else "") for name in option)
                       for option, colours in zip(self.chosen, self.chosen_colours)]

    def draw(self, paper: Paper) -> None:
        draw_lines(paper, self.text())


# ---- boards with colours

# where a square lies, its name, and the colours of its sides from the top on clockwise
Laid = tuple[Cell, str, list[str]]


class Squares(Kind):
    """Squares with coloured sides, edge to edge: of the cell 12 h12 is the side above, v12 the one on its left."""

    with_colours = True

    def is_known(self) -> bool:
        are_sides = self.all_match(r"[hv]\d+", self.secondary())
        return bool(self.options) and are_sides and all(map(self.laid, self.options, self.option_colours))

    @staticmethod
    def laid(option: Names, colours: dict[str, str]) -> Optional[Laid]:
        """The cell of an option, the square's name, and the colours of its sides from the top on clockwise; None where
        it has no such form."""
        cells, names = ([name for name in option if name not in colours and bool(cell_of(name)) == is_cell] for is_cell in (True, False))
        sides = {(name[0], cell_of(name[1:])): colour for name, colour in colours.items()}
        if len(cells) != 1 or len(names) > 1 or len(sides) != 4:
            return None
        r, c = known_cell(cells[0])
        around = [sides.get(side, "") for side in (("h", (r, c)), ("v", (r, c + 1)), ("h", (r + 1, c)), ("v", (r, c)))]
        return ((r, c), "".join(names), around) if all(around) else None

    def laid_by_cell(self) -> dict[Cell, tuple[str, list[str]]]:
        """For each cell the name of its square and the colours of its sides; nothing where none lies."""
        cells = {cell: ("", ["", "", "", ""]) for item in self.items if item in self.primary and (cell := cell_of(item))}
        laid = map(self.laid, self.chosen, self.chosen_colours)
        return {**cells, **{cell: (name, sides) for cell, name, sides in filter(None, laid)}}

    def marks(self) -> dict[str, str]:
        """A letter for each colour, its first where these differ."""
        names = sorted({colour for colours in self.option_colours for colour in colours.values()})
        firsts = [name[0] for name in names]
        return {"": " ", **dict(zip(names, firsts if len(set(firsts)) == len(firsts) else "abcdefghijklmnopqrstuvwxyz" * len(names)))}

    def lines(self) -> list[str]:
        cells, marks = self.laid_by_cell(), self.marks()
        rows, columns = ({cell[k] for cell in cells} for k in (0, 1))
        wide, most = widest([name for name, _ in cells.values()]), widest([*marks.values()])
        whole = wide + 2 * most + 2
        wall, lines = "+" + ("-" * whole + "+") * len(columns), []
        for r in sorted(rows):
            row = [cells.get((r, c), ("", ["", "", "", ""])) for c in sorted(columns)]
            lines += [wall, "|" + "|".join(centred(marks[sides[0]], whole) for _, sides in row) + "|"]
            middle = (f"{on_left(marks[sides[3]], most)} {centred(name, wide)} {on_right(marks[sides[1]], most)}" for name, sides in row)
            lines += ["|" + "|".join(middle) + "|"]
            lines += ["|" + "|".join(centred(marks[sides[2]], whole) for _, sides in row) + "|"]
        return lines + [wall]

    def draw(self, paper: Paper) -> None:
        names, size = [name for name in self.marks() if name], 1.8 * CELL
        for (r, c), (name, sides) in sorted(self.laid_by_cell().items()):
            corners = [(c * size, r * size), ((c + 1) * size, r * size), ((c + 1) * size, (r + 1) * size), (c * size, (r + 1) * size)]
            middle = ((c + 0.5) * size, (r + 0.5) * size)
            for k, colour in enumerate(sides):
                fill = known_colour(colour) or (FILLS[names.index(colour) % len(FILLS)] if colour else BACKGROUND)
                paper.shape([corners[k], corners[(k + 1) % 4], middle], fill, FAINT, 0.5)
            paper.shape(corners, "none", INK, 2.2)
            if name:
                paper.circle(*middle, max(11, text_width(name, 15) / 2 + 3), WHITE, FAINT, 0.5)
            paper.text(*middle, name, 15)
        self.caption(paper)


class Cubes(Kind):
    """Cubes in a row: each option has a cube and the colour that it shows on each of four sides."""

    SIDES = ("front", "right", "back", "left")

    def is_known(self) -> bool:
        def is_turned(option: Names) -> bool:
            return [name.partition("-")[0] for name in option[1:]] == list(self.SIDES)

        return bool(self.options) and all(map(is_turned, self.options))

    def item_words(self, item: str) -> str:
        side, dash, colour = item.partition("-")
        return {"front": f"{colour} in front", "back": f"{colour} at the back"}.get(side, f"{colour} on the {side}") if dash else f"the cube {item}"

    def shown(self) -> dict[str, list[str]]:
        """For each cube the colours that it shows, in the order of the sides."""
        return {option[0]: [name.partition("-")[2] for name in option[1:]] for option in self.chosen}

    def lines(self) -> list[str]:
        return table_text([["cube", *self.SIDES]] + [[cube, *colours] for cube, colours in self.shown().items()])

    def draw(self, paper: Paper) -> None:
        names = sorted({name.partition("-")[2] for option in self.options for name in option[1:]})
        for k, side in enumerate(self.SIDES):
            paper.text((k + 1.5) * 2 * CELL, -CELL / 2, side, 14)
        for row, (cube, colours) in enumerate(self.shown().items()):
            paper.text(CELL, (row + 0.5) * CELL, cube, 14)
            for k, colour in enumerate(colours):
                fill = known_colour(colour) or FILLS[names.index(colour) % len(FILLS)]
                paper.box((k + 1) * 2 * CELL, row * CELL, 2 * CELL, CELL, fill, INK, 1.2)
                paper.text((k + 1.5) * 2 * CELL, (row + 0.5) * CELL, colour, 13)
        self.caption(paper)


KINDS: list[type[Kind]] = [*number_grids.KINDS, Sudoku, Queens, Langford, Kakuro, Triples, Cubes, Layers, Tiling, Timetable, Colouring, Matching, Squares, Nonogram, Stars, Words]


def picture_of(problem: Problem, chosen: list[Option], is_none: bool) -> Kind:
    """The answer with these options as the first kind that knows the problem's names."""
    kinds = (kind(problem, chosen, is_none) for kind in KINDS if kind.with_colours in (None, bool(problem.colours)))
    known = next((kind for kind in kinds if kind.is_known()), None)
    return known or Plain(problem, chosen, is_none)


def in_words(problem: Problem) -> Named:
    """What items are called where the kind of the problem is known by their names; else their names."""
    picture = picture_of(problem, [], True)

    def named(name: bytes) -> str:
        return picture.item_words(shown(name))

    plain: Named = shown
    return plain if isinstance(picture, (Matching, Plain, Triples)) else named
