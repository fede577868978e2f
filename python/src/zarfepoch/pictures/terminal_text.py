"""Texts in the columns of a terminal, where some letters take two columns and some none."""
from __future__ import annotations

import unicodedata


def columns(text: str) -> int:
    """How many columns of a terminal a text takes: a Chinese, Japanese, Korean or full-width letter and an emoji two
    each, and a mark that is written over or under the letter before it none."""
    letters = unicodedata.normalize("NFC", text)
    return sum(0 if unicodedata.category(letter) in ("Mn", "Me") else 2 if unicodedata.east_asian_width(letter) in "WF" else 1 for letter in letters)


def widest(texts: list[str]) -> int:
    """The columns of the widest of some texts; 0 of none."""
    return max(map(columns, texts), default=0)


def length_in(text: str, wide: int) -> int:
    """How many characters a text has once blanks fill so many columns."""
    return wide + len(text) - columns(text)


def on_left(text: str, wide: int) -> str:
    """A text with blanks behind it, so that it fills so many columns."""
    return text.ljust(length_in(text, wide))


def on_right(text: str, wide: int) -> str:
    """The same with blanks before it."""
    return text.rjust(length_in(text, wide))


def centred(text: str, wide: int) -> str:
    """The same with blanks on both sides."""
    return text.center(length_in(text, wide))
