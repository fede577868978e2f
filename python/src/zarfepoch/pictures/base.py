"""What all kinds of pictures share: an answer with the names of its problem."""
from __future__ import annotations

import functools
import re
from collections.abc import Iterable
from typing import Optional

from ..boards.cells import cell_of, cell_words
from ..files.cover_files import Option, Problem, shown
from .svg_paper import folded, MARGIN, Paper, WIDEST

# the names of an option
Names = tuple[str, ...]

CELL, LARGEST = 40, 1_000
NONE = "none: the answer is that there is no cover"
# what the comment has that tells how a problem was made
MADE = "zarfepoch generate "
KNOWN_COLOURS = {"red": "#f0a39a", "green": "#b3d9b1", "blue": "#a5c4ee", "yellow": "#f5e08c", "orange": "#f7c08a", "purple": "#cdb3e6",
                 "white": "#ffffff", "grey": "#cccccc", "gray": "#cccccc", "brown": "#cfae8e", "pink": "#f3bfd3"}
# the same in other languages, each a list of words for one of these
OTHER_WORDS = {"red": "rot rouge rojo rosso rood", "green": "gr\u00fcn gruen vert verde groen", "blue": "blau bleu azul blu blauw",
               "yellow": "gelb jaune amarillo giallo geel", "orange": "naranja arancione oranje", "purple": "lila violett violet morado viola paars",
               "white": "wei\u00df weiss blanc blanco bianco wit", "grey": "grau gris grigio grijs", "brown": "braun brun marr\u00f3n marrone bruin",
               "pink": "rosa rose roze"}
KNOWN_COLOURS.update({word: KNOWN_COLOURS[name] for name, words in OTHER_WORDS.items() for word in words.split()})


def known_colour(name: str | None) -> str | None:
    """The colour on a sheet that a word means in some language, in capital or small letters; None for other words."""
    return KNOWN_COLOURS.get((name or "").casefold()) or KNOWN_COLOURS.get((name or "").lower())


def names_of(option: Option) -> Names:
    return tuple(map(shown, option.names))


def without_order(option: Iterable[str]) -> Names:
    """An option without the items that only keep things that are alike in order, as L.1<3."""
    return tuple(name for name in option if not re.fullmatch(r".+<\d+", name))


def without_rules(option: Iterable[str]) -> Names:
    """An option of a timetable without the items that only see to its rules, as maths<apart.Mon; nothing where it only
    keeps somebody free."""
    names = tuple(option)
    return () if "<" in names[0] else tuple(name for name in names if "<" not in name)


def colours_of(option: Option) -> dict[str, str]:
    """The colour of each name that has one."""
    return {shown(name): shown(colour) for name, colour in zip(option.names, option.colours) if colour}


class Kind:
    """An answer to a problem of a kind: the chosen options, and whether the answer is `none`.

    Options are tuples of names; `option_colours` and `chosen_colours` have beside each option the colours that it
    gives.
    """

    # whether the kind is one of problems with colours, or else of those without; None where it may be either
    with_colours: Optional[bool] = False

    def __init__(self, problem: Problem, chosen: list[Option], is_none: bool) -> None:
        self.items = [shown(name) for name in problem.items]
        self.primary = set(self.items[:problem.primary])
        self.options, self.chosen = ([names_of(option) for option in some] for some in (problem.options, chosen))
        self.option_colours, self.chosen_colours = ([colours_of(option) for option in some] for some in (problem.options, chosen))
        self.comments = [shown(comment) for comment in problem.comments]
        self.is_none = is_none

    def is_known(self) -> bool:
        """Whether the problem is of this kind, by its names."""
        raise NotImplementedError

    def all_match(self, pattern: str, items: Iterable[str] | None = None) -> bool:
        return all(re.fullmatch(pattern, item) for item in (self.items if items is None else items))

    def secondary(self) -> list[str]:
        return [item for item in self.items if item not in self.primary]

    @functools.cached_property
    def offset(self) -> int:
        """What is added to rows and columns so that they count from 1: nothing where no cell has a 0, unless the
        package has made the problem, which its comment says."""
        return int(any(MADE in comment for comment in self.comments) or any(0 in cell for cell in map(cell_of, self.items) if cell))

    def item_words(self, item: str) -> str:
        """What an item is in the words of the kind; its name where nothing better is known."""
        cell = cell_of(item)
        return cell_words(cell, self.offset) if cell else item

    def lines(self) -> list[str]:
        """The answer as lines of text."""
        raise NotImplementedError

    def draw(self, paper: Paper) -> None:
        """Draws the answer."""
        raise NotImplementedError

    def text(self) -> list[str]:
        return ([NONE] if self.is_none else []) + self.lines()

    def caption(self, paper: Paper) -> None:
        """Under the picture of an answer without a cover, that there is none."""
        if self.is_none:
            paper.text((paper.left + paper.right) / 2, paper.bottom + 22, "none: there is no cover", 15)


def draw_lines(paper: Paper, lines: list[str], size: int = 14) -> None:
    """Plain lines of text, folded where they are too long for a sheet; an empty picture says so."""
    place = 0
    for line in lines or ["no option is chosen"]:
        for k, part in enumerate(folded(line, WIDEST - 4 * MARGIN, size)):
            paper.text(2 * size if k else 0, place * size * 1.6, part, size, "start")
            place += 1
