#!/usr/bin/env python3
"""Draws the layers of crates.txt: docs/layers.svg, the picture on docs/TOUR.md.

    python3 dev/draw_layers.py [--text | --check]

The picture has a band for each layer, the lowest at the bottom, with a box for each crate. A line leads down to what a
crate uses; where another crate that it uses is built on that one, there is none. Tests and tools are beside the layer
of the highest crate that they use. It is drawn from crates.txt alone, where a comment names each layer.

--text prints the same as text, lowest first. --check prints a line for each mistake: a picture in docs that isn't as it
is drawn now, a crate that docs/TOUR.md doesn't name, or one that is above a crate that it uses in crates.txt. The exit
status is 0, 1 if --check finds a mistake, or 2 for a mistake on the command line, or in crates.txt if there is
something to draw or print.
"""
from __future__ import annotations

import os
import re
import sys
from collections.abc import Iterator

sys.path.insert(0, os.path.join(os.path.dirname(os.path.abspath(__file__)), "..", "trials"))
from built import TOP, parser_of, stop  # noqa: E402
from crate_layers import Crates, Group, read_crates, text_of  # noqa: E402
from layer_layout import BOX, Layout, Node  # noqa: E402
from zarfepoch.pictures.svg_paper import FAINT, FILLS, INK, Paper, Point, number  # noqa: E402

PICTURE, TOUR = os.path.join(TOP, "docs", "layers.svg"), os.path.join(TOP, "docs", "TOUR.md")
ROW, HIGH, GAP, PAD = 54.0, 30.0, 10.0, 9.0
# where the names of the layers end, the boxes begin and end, and tests and tools begin; how wide one of these is
LEFT, RIGHT, BESIDE, CHIP = 186.0, 936.0, 946.0, 108.0
WIDE = BESIDE + 2 * CHIP + 6
CHIP_ROW = 21.0


def darker(colour: str, share: float) -> str:
    """A colour with so much of its light."""
    return "#" + "".join(f"{int(int(colour[k:k + 2], 16) * share):02x}" for k in (1, 3, 5))


def rounded(paper: Paper, corner: Point, size: Point, fill: str, opacity: float = 1.0, stroke: str = "none") -> None:
    """A box with round corners."""
    (x, y), (wide, high) = corner, size
    paper.add("rect", [corner, (x + wide, y + high)], x=number(x), y=number(y), width=number(wide), height=number(high),
              rx=number(min(9.0, high / 5)), fill=fill, fill_opacity=number(opacity), stroke=stroke)


def folded_words(text: str, most: int) -> list[str]:
    """A text in lines of so many letters at most."""
    lines = [""]
    for word in text.split():
        if lines[-1] and len(lines[-1]) + 1 + len(word) > most:
            lines.append("")
        lines[-1] = f"{lines[-1]} {word}".strip()
    return lines


class Picture:
    """The picture of the layers."""

    def __init__(self, crates: Crates) -> None:
        self.crates = crates
        self.layout = Layout(crates, LEFT + 8, RIGHT - 8)
        self.paper = Paper("The crates of Zarfepoch in their layers")
        # the number of rows below each layer, and its number of rows
        self.first: dict[int, int] = {}
        self.count: dict[int, int] = {}
        for layer in crates.layers:
            rows = {self.layout.row_of[crate] for crate in layer.crates}
            self.first[layer.number], self.count[layer.number] = min(rows), len(rows)

    def fill(self, crate: str) -> str:
        """The colour of a crate's layer."""
        return FILLS[(self.crates.layer_of(crate) - 1) % len(FILLS)]

    def y(self, row: int) -> float:
        """The middle of a row; up is less."""
        above = sum(1 for first in self.first.values() if first > row)
        top = len(self.layout.rows) - 1 - row
        return (top + 0.5) * ROW + above * (GAP + 2 * PAD) + PAD

    def band(self, layer: Group) -> tuple[float, float]:
        """The top of a layer's band, and how high it is."""
        rows = self.count[layer.number]
        return self.y(self.first[layer.number] + rows - 1) - ROW / 2 - PAD, rows * ROW + 2 * PAD

    def draw_band(self, layer: Group) -> None:
        """The band of a layer with its name and words."""
        top, high = self.band(layer)
        fill = FILLS[(layer.number - 1) % len(FILLS)]
        rounded(self.paper, (0, top), (WIDE, high), fill, 0.3)
        self.paper.text(14, top + 24, layer.title(), 17, "start", darker(fill, 0.42), True)
        for k, line in enumerate(folded_words(layer.words, 25)):
            self.paper.text(14, top + 46 + 15 * k, line, 11, "start", darker(fill, 0.45))

    def draw_chips(self, layer: Group) -> None:
        """The crates beside a layer: a column for each group."""
        top, _ = self.band(layer)
        chips = [(column, place, crate) for column, group in enumerate(self.crates.beside)
                 for place, crate in enumerate(self.crates.at(group, layer.number))]
        for column, place, crate in chips:
            x, y = BESIDE + column * CHIP, top + PAD + place * CHIP_ROW
            rounded(self.paper, (x, y), (CHIP - 6, CHIP_ROW - 4), "#ffffff", 0.75, FAINT)
            self.paper.text(x + (CHIP - 6) / 2, y + (CHIP_ROW - 4) / 2, crate, 10)

    def draw_line(self, upper: Node, lower: Node) -> None:
        """The part of a line between two rows."""
        x, to_x = self.layout.x[upper], self.layout.x[lower]
        y, to_y = self.y(upper[1]) + HIGH / 2, self.y(lower[1]) - HIGH / 2
        middle = (y + to_y) / 2
        through = "" if self.layout.is_box(lower) else f" V {number(to_y + HIGH)}"
        curve = f"M {number(x)} {number(y)} C {number(x)} {number(middle)} {number(to_x)} {number(middle)} {number(to_x)} {number(to_y)}{through}"
        self.paper.add("path", [(x, y), (to_x, to_y)], d=curve, fill="none", stroke=darker(self.fill(lower[0]), 0.66), stroke_width="1.3")

    def draw_box(self, crate: str) -> None:
        """The box of a crate."""
        node = (crate, self.layout.row_of[crate])
        x, y, wide = self.layout.x[node], self.y(node[1]), BOX - 14
        fill = self.fill(crate)
        rounded(self.paper, (x - wide / 2, y - HIGH / 2), (wide, HIGH), fill, 1.0, darker(fill, 0.6))
        self.paper.text(x, y, crate, 12.5, bold=True)

    def draw_heads(self) -> None:
        """What lines and columns mean, above the bands."""
        y = self.y(len(self.layout.rows) - 1) - ROW / 2 - PAD - 16
        self.paper.text((LEFT + RIGHT) / 2, y, "A line leads down to what a crate uses, in the colour of that one; a line that others imply is left out", 11.5)
        for column, group in enumerate(self.crates.beside):
            self.paper.text(BESIDE + column * CHIP + (CHIP - 6) / 2, y, group.name.lower(), 11.5, fill=INK, bold=True)

    def draw_layers(self) -> None:
        """The bands, with what is beside the layers."""
        for layer in self.crates.layers:
            self.draw_band(layer)
            self.draw_chips(layer)

    def draw_crates(self) -> None:
        """The boxes of the crates."""
        for crate in self.layout.row_of:
            self.draw_box(crate)

    def svg(self) -> str:
        """The whole picture."""
        self.draw_heads()
        self.draw_layers()
        for upper, lower in sorted(self.layout.lines):
            self.draw_line(upper, lower)
        self.draw_crates()
        return self.paper.svg()


def text_in(path: str) -> str:
    """The text of a file, or none where there is no such file."""
    if not os.path.isfile(path):
        return ""
    with open(path, encoding="utf-8") as file:
        return file.read()


def mistakes(crates: Crates) -> Iterator[str]:
    """What is wrong with crates.txt, the picture and the page."""
    wrong = list(crates.mistakes())
    yield from wrong
    if not wrong and text_in(PICTURE) != Picture(crates).svg():
        yield "docs/layers.svg isn't as drawn: python3 dev/draw_layers.py draws it"
    named = set(re.findall(r"\w+", text_in(TOUR)))
    yield from (f"docs/TOUR.md doesn't name {crate}" for crate in crates.uses if crate not in named)


def main() -> int:
    parser = parser_of(__doc__)
    kind = parser.add_mutually_exclusive_group()
    kind.add_argument("--text", action="store_true", help="print the layers as text")
    kind.add_argument("--check", action="store_true", help="check the picture in docs and the page")
    given, crates = parser.parse_args(), read_crates()
    if given.check:
        found = list(mistakes(crates))
        print("\n".join([*found, f"{len(crates.uses)} crates, {len(found)} mistakes"]))
        return 1 if found else 0
    for mistake in crates.mistakes():
        stop(mistake)
    if given.text:
        print(text_of(crates), end="")
        return 0
    with open(PICTURE, "w", encoding="utf-8") as file:
        file.write(Picture(crates).svg())
    return 0


if __name__ == "__main__":
    sys.exit(main())
