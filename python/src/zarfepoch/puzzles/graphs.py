"""Maps that are coloured and graphs that are matched, as exact covers, and how pairs of names are read."""
from __future__ import annotations

import functools
import itertools
import os
import re

from ..command_line.ends import stop
from ..files.cover_files import MAX_NAME
from ..texts.names import as_seen, hint_alike, in_one_case, some_words, want_one_spelling
from ..texts.puzzles import Change, Puzzle, refuse

# two names
Pair = tuple[str, str]


def read_pairs(path: str, of_places: bool = False) -> list[Pair]:
    """The two names of each line; those of places become parts of the names of borders."""
    lines = [(number, words) for number, words in some_words(path) if not (of_places and all("=" in word for word in words))]
    if not lines:
        refuse(path, None, "there is no line with two names")
    for number, words in lines:
        if len(words) != 2 or words[0] == words[1]:
            several = "; a blank, a comma or a semicolon parts names, so write New_York for one name" if len(words) > 2 else ""
            refuse(path, number, f"two different names are expected, and here are {', '.join(words)}{several}")
        wrong = next((word for word in words if of_places and re.search("[-=]", word)), None)
        if wrong:
            refuse(path, number, f"'{wrong}' can't be a place here: '-' and '=' are in the names of borders")
    named = [(number, word) for number, words in lines for word in words]
    want_one_spelling(path, *(("place", named, in_one_case) if of_places else ("name", named, as_seen)))
    hint_alike(path, "place" if of_places else "name", named)
    return list(dict.fromkeys((words[0], words[1]) for _, words in lines))


def matching(edges: list[Pair]) -> Puzzle:
    """A perfect matching: items are vertices, options edges."""
    return Puzzle(list(dict.fromkeys(itertools.chain(*edges))), [], [list(edge) for edge in edges])


# ---- maps

def numbered(places: list[str], colors: list[str]) -> dict[str, str]:
    """Numbers for the places whose names would make those of borders too long."""
    most = (MAX_NAME - 2 - max(len(os.fsencode(color)) for color in colors)) // 2
    long = [place for place in places if len(os.fsencode(place)) > most]
    free = (str(number) for number in itertools.count(1) if str(number) not in places)
    return dict(zip(long, free))


def coloring(borders: list[Pair], colors: list[str], given: dict[str, str]) -> Puzzle:
    """Each place has a colour, one that is given or any; a border has each colour on one side at most."""
    changes = without_color(borders, colors, given)
    numbers = numbered(sorted({place for border in borders for place in border}), colors)
    borders = [(numbers.get(one, one), numbers.get(other, other)) for one, other in borders]
    places = sorted({place for border in borders for place in border})
    edges = ["-".join(sorted(border)) for border in borders]
    options = []
    known = {numbers.get(place, place): color for place, color in given.items()}
    for place in places:
        for color in [known[place]] if place in known else colors:
            options.append([place] + [f"{edge}={color}" for edge in edges if place in edge.split("-")])
    told = [f"name {number}: {place}" for place, number in numbers.items()]
    return Puzzle(places, [f"{edge}={color}" for edge in edges for color in colors], options, told, changes)


def without_color(borders: list[Pair], colors: list[str], given: dict[str, str]) -> list[Change]:
    """A map without each of its given colours, and without each of its borders."""
    freed = [Change(f"without the colour {color} of {place}",
                    functools.partial(coloring, borders, colors, {other: its for other, its in given.items() if other != place}))
             for place, color in given.items()]
    opened = [Change(f"without the border of {one} and {other}",
                     functools.partial(coloring, [pair for pair in borders if pair != (one, other)], colors, given))
              for one, other in borders if len(borders) > 1]
    return freed + opened


def given_colors(path: str, borders: list[Pair], colors: list[str]) -> dict[str, str]:
    """The colours that lines as Tirol=red give to places."""
    places, found = {place for border in borders for place in border}, dict[str, str]()
    for number, words in some_words(path):
        for place, sign, color in (word.partition("=") for word in words if "=" in word):
            if place not in places or color not in colors:
                refuse(path, number, f"'{place}' has no border" if place not in places else f"'{color}' is none of the colours {', '.join(colors)}")
            if found.setdefault(place, color) != color:
                refuse(path, number, f"{place} has the colour {found[place]} already")
    return found


def read_map(path: str, color_names: str) -> Puzzle:
    """A colour for each place of the map whose borders a file has; the names of colours have commas between."""
    borders = read_pairs(path, of_places=True)
    colors = [color.strip() for color in color_names.split(",")]
    if "" in colors or len(set(map(in_one_case, colors))) < len(colors):
        stop(f"--colors takes different names with commas between, not '{color_names}'")
    pairs = dict.fromkeys((min(pair), max(pair)) for pair in borders)
    return coloring(list(pairs), colors, given_colors(path, borders, colors))
