"""A sheet on which pictures are drawn as SVG, and the text forms that go with them."""
from __future__ import annotations

import math
import unicodedata
from collections.abc import Iterable, Mapping, Sequence
from typing import Any, Callable, Optional

from .terminal_text import centred, on_left, widest

# a point of a sheet; a cell by row and column
Point = tuple[float, float]
Cell = tuple[int, int]

BACKGROUND, INK, FAINT, ACCENT = "#fbfaf7", "#23272e", "#9aa0a8", "#1f5fa8"
FILLS = ["#f4c7ab", "#b8d8ba", "#c9cbe8", "#f3e2a0", "#a9d6e5", "#e6b8cf", "#d3c1a5", "#c4e3d3", "#efb0a1", "#bcd0f0", "#dce3a4", "#d9c2e9"]
MARGIN = 16
# a wider sheet is shown smaller
WIDEST = 1_200


class Paper:
    """Shapes on a sheet whose size grows with what is drawn, so that nothing is cut off."""

    def __init__(self, title: str) -> None:
        self.title = title
        self.shapes: list[str] = []
        self.left = self.top = math.inf
        self.right = self.bottom = -math.inf

    def reach(self, x: float, y: float) -> None:
        self.left, self.top = min(self.left, x), min(self.top, y)
        self.right, self.bottom = max(self.right, x), max(self.bottom, y)

    def add(self, kind: str, reached: Iterable[Point], content: Optional[str] = None, **attributes: object) -> None:
        """Adds a shape that reaches these points."""
        for point in reached:
            self.reach(*point)
        told = "".join(f' {name.replace("_", "-")}="{value}"' for name, value in attributes.items())
        self.shapes.append(f"<{kind}{told}/>" if content is None else f"<{kind}{told}>{escaped(content)}</{kind}>")

    def box(self, x: float, y: float, wide: float, high: float, fill: str = "none", stroke: str = "none", thick: float = 1.0) -> None:
        self.add("rect", [(x, y), (x + wide, y + high)], x=number(x), y=number(y), width=number(wide), height=number(high),
                 fill=fill, stroke=stroke, stroke_width=number(thick))

    def line(self, x: float, y: float, to_x: float, to_y: float, stroke: str = INK, thick: float = 1.0, dashes: str = "") -> None:
        """A line; with dashes, as "3 3", a broken one."""
        broken = {"stroke_dasharray": dashes} if dashes else {}
        self.add("line", [(x, y), (to_x, to_y)], x1=number(x), y1=number(y), x2=number(to_x), y2=number(to_y), stroke=stroke,
                 stroke_width=number(thick), stroke_linecap="round", **broken)

    def circle(self, x: float, y: float, radius: float, fill: str = "none", stroke: str = INK, thick: float = 1.0) -> None:
        self.add("circle", [(x - radius, y - radius), (x + radius, y + radius)], cx=number(x), cy=number(y), r=number(radius), fill=fill,
                 stroke=stroke, stroke_width=number(thick))

    def shape(self, points: Sequence[Point], fill: str = "none", stroke: str = INK, thick: float = 1.0) -> None:
        self.add("polygon", points, points=" ".join(f"{number(x)},{number(y)}" for x, y in points), fill=fill, stroke=stroke,
                 stroke_width=number(thick), stroke_linejoin="round")

    def arc(self, x: float, to_x: float, y: float, stroke: str = INK, thick: float = 1.5) -> None:
        """A half circle above the line from one place to another."""
        radius = (to_x - x) / 2
        curve = f"M {number(x)} {number(y)} A {number(radius)} {number(radius)} 0 0 1 {number(to_x)} {number(y)}"
        self.add("path", [(x, y - radius), (to_x, y)], d=curve, fill="none", stroke=stroke, stroke_width=number(thick))

    def text(self, x: float, y: float, content: str, size: float = 14, anchor: str = "middle", fill: str = INK, bold: bool = False) -> None:
        """A text whose middle line lies at y."""
        wide = text_width(content, size)
        begin = {"start": x, "middle": x - wide / 2, "end": x - wide}[anchor]
        self.add("text", [(begin, y - size * 0.6), (begin + wide, y + size * 0.6)], content, x=number(x), y=number(y + size * 0.35),
                 font_size=number(size), text_anchor=anchor, fill=fill, font_weight="bold" if bold else "normal")

    def svg(self) -> str:
        left, top = self.left - MARGIN, self.top - MARGIN
        wide, high = self.right - self.left + 2 * MARGIN, self.bottom - self.top + 2 * MARGIN
        scale = min(1.0, WIDEST / wide)
        frame = f'x="{number(left)}" y="{number(top)}" width="{number(wide)}" height="{number(high)}"'
        return "\n".join([
            f'<svg xmlns="http://www.w3.org/2000/svg" viewBox="{number(left)} {number(top)} {number(wide)} {number(high)}" '
            f'width="{number(scale * wide)}" height="{number(scale * high)}" font-family="DejaVu Sans, Verdana, Arial, sans-serif" role="img">',
            f"<title>{escaped(self.title)}</title>", f'<rect {frame} fill="{BACKGROUND}"/>', *self.shapes, "</svg>"]) + "\n"


def number(value: float) -> str:
    return f"{value:.2f}".rstrip("0").rstrip(".")


def escaped(text: str) -> str:
    text = "".join(c if c.isprintable() else "\ufffd" for c in text)
    return text.replace("&", "&amp;").replace("<", "&lt;").replace(">", "&gt;")


def text_width(text: str, size: float) -> float:
    """A width that a text surely keeps: Chinese, Japanese and Korean letters are wider than others."""
    return sum(1.05 if unicodedata.east_asian_width(letter) in "WF" else 0.68 for letter in text) * size


def on_circle(count: int, radius: float, place: float) -> Point:
    """The place of one of so many points on a circle, the first at the top."""
    turn = 2 * math.pi * place / count - math.pi / 2
    return radius * math.cos(turn), radius * math.sin(turn)


# ---- boards of cells

class Board:
    """Cells by row and column, each with a label and the area that it belongs to; walls part different areas."""

    def __init__(self, labels: dict[Cell, str], areas: Mapping[Cell, object]) -> None:
        self.labels, self.areas = labels, areas
        self.rows = range(min(r for r, _ in areas), max(r for r, _ in areas) + 1)
        self.columns = range(min(c for _, c in areas), max(c for _, c in areas) + 1)

    def differ(self, cell: Cell, other: Cell) -> bool:
        return self.areas.get(cell) != self.areas.get(other)

    def corner(self, r: int, c: int) -> str:
        around = [(r - 1, c - 1), (r - 1, c), (r, c - 1), (r, c)]
        return "+" if len({self.areas.get(cell) for cell in around}) > 1 else " "

    def wall_line(self, r: int, wide: int) -> str:
        walls = ["".join([self.corner(r, c), ("-" if self.differ((r - 1, c), (r, c)) else " ") * wide]) for c in self.columns]
        return "".join(walls) + self.corner(r, self.columns[-1] + 1)

    def cell_line(self, r: int, wide: int) -> str:
        cells = [("|" if self.differ((r, c - 1), (r, c)) else " ") + centred(self.labels.get((r, c), ""), wide) for c in self.columns]
        return "".join(cells) + ("|" if (r, self.columns[-1]) in self.areas else " ")

    def text(self) -> list[str]:
        wide = max(1, widest([*self.labels.values()])) + 2
        lines = []
        for r in self.rows:
            lines += [self.wall_line(r, wide), self.cell_line(r, wide)]
        return [line.rstrip() for line in lines + [self.wall_line(self.rows[-1] + 1, wide)]]

    def draw(self, paper: Paper, size: float, fill_of: Callable[[Cell], str], text_size: Optional[float] = None,
             style_of: Callable[[Cell], dict[str, Any]] = lambda cell: {}) -> None:
        """Fills, labels and walls of all cells."""
        for (r, c) in sorted(self.areas):
            paper.box(c * size, r * size, size, size, fill_of((r, c)), FAINT, 0.5)
        for (r, c), label in sorted(self.labels.items()):
            fitting = min(text_size or size * 0.42, size * 1.3 / max(1, len(label)))
            paper.text((c + 0.5) * size, (r + 0.5) * size, label, fitting, **style_of((r, c)))
        for (r, c) in sorted(self.areas):
            self.draw_walls(paper, size, r, c)

    def draw_walls(self, paper: Paper, size: float, r: int, c: int) -> None:
        """The walls above and before a cell, and those behind which there is none."""
        x, y = c * size, r * size
        for other, ends in (((r - 1, c), (x, y, x + size, y)), ((r, c - 1), (x, y, x, y + size))):
            if self.differ((r, c), other):
                paper.line(*ends, INK, 2.2)
        for other, ends in (((r + 1, c), (x, y + size, x + size, y + size)), ((r, c + 1), (x + size, y, x + size, y + size))):
            if other not in self.areas:
                paper.line(*ends, INK, 2.2)


# ---- tables

def pieces_of(word: str, wide: float, size: float) -> list[str]:
    """A word in pieces that fit."""
    if text_width(word, size) <= wide:
        return [word]
    pieces = [""]
    for letter in word:
        if pieces[-1] and text_width(pieces[-1] + letter, size) > wide:
            pieces.append("")
        pieces[-1] += letter
    return pieces


def folded(text: str, wide: float, size: float) -> list[str]:
    """A text in lines that fit; a word that doesn't fit is cut in pieces."""
    # (a sum of widths may be a hair too large)
    wide = max(wide, text_width("four", size)) + 0.001
    lines = [""] if text else []
    for word in text.split():
        for piece in pieces_of(word, wide, size):
            if lines[-1] and text_width(f"{lines[-1]} {piece}", size) > wide:
                lines.append("")
            lines[-1] += (" " if lines[-1] else "") + piece
    return lines


def table_text(rows: list[list[str]]) -> list[str]:
    """Lines of a table whose first row is its head."""
    widths = [widest([row[k] for row in rows]) for k in range(len(rows[0]))]
    lines = ["  ".join(map(on_left, row, widths)).rstrip() for row in rows]
    return [lines[0], "  ".join("-" * wide for wide in widths)] + lines[1:]


def draw_table(paper: Paper, rows: list[list[str]], fill_of: Callable[[str], str], size: float = 14) -> None:
    """A table whose first row and first column are heads; `fill_of` tells the colour of a cell's text."""
    high = size * 2.2
    widths = [max(text_width(row[k], size) for row in rows) + 20 for k in range(len(rows[0]))]
    for r, row in enumerate(rows):
        for k, cell in enumerate(row):
            x, is_head = sum(widths[:k]), r == 0 or k == 0
            fill = "#ebe8e0" if is_head else fill_of(cell) if cell else BACKGROUND
            paper.box(x, r * high, widths[k], high, fill, FAINT, 0.8)
            paper.text(x + widths[k] / 2, (r + 0.5) * high, cell, size, bold=is_head)
