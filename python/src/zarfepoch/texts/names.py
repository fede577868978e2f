"""Names in texts: how the words of a line are parted, in each kind alike, and which spellings of a name are one."""
from __future__ import annotations

import os
import re
import unicodedata
from collections.abc import Callable, Iterable

from ..command_line.ends import complain
from ..files.cover_files import shown
from .puzzles import called, refuse, rows_of

# letters whose marks are part of them, and the vowels that some write with an e behind in place of two dots
PLAIN = str.maketrans("\u00f8\u0142\u0111\u0131", "oldi")
DOTTED = str.maketrans({"\u00e4": "ae", "\u00f6": "oe", "\u00fc": "ue"})
# of so many pairs of names that may be one it is told
MOST_TOLD = 10
# so many letters a name has that may be a slip for another, and the word in which both differ
LETTERS, WORD_LETTERS = 5, 3
# a name in quotation marks, or a run of what parts none
WORD = re.compile(r'"([^"]*)"(?=[\s,;]|$)|([^\s,;]+)')


def names_in(path: str, number: int, line: str) -> list[str]:
    """The names of a line. Blanks, commas and semicolons part them; a pair of quotation marks round a name is none of
    it."""
    names = []
    for found in WORD.finditer(line):
        name = found[2] if found[1] is None else found[1].strip()
        if '"' in name or not name or re.search(r"[\s,;]", name):
            refuse(path, number, f"{found[0]} is no name: a name has no blank, comma, semicolon or quotation mark")
        names.append(name)
    return names


def words_of(path: str) -> list[tuple[int, list[str]]]:
    """The names of each line that has any and isn't a comment, with the line's number."""
    lines = [(number, line) for number, line in rows_of(path) if not line.lstrip().startswith(("|", "#"))]
    return [(number, names) for number, names in ((number, names_in(path, number, line)) for number, line in lines) if names]


def some_words(path: str) -> list[tuple[int, list[str]]]:
    """The same of a file that has to have some."""
    return words_of(path) or refuse(path, None, "there is no line with words")


def as_seen(name: str) -> str:
    """A name without characters that nobody sees, and with usual letters in place of full-width and half-width ones."""
    letters = (letter for letter in name if unicodedata.category(letter) != "Cf")
    usual = (unicodedata.normalize("NFKC", letter) if unicodedata.east_asian_width(letter) in "FH" else letter for letter in letters)
    return unicodedata.normalize("NFC", "".join(usual))


def in_one_case(name: str) -> str:
    """What two spellings of a proper name share: capital and small letters are alike, and a full stop at its end isn't
    seen."""
    return as_seen(name).casefold().rstrip(".")


def want_one_spelling(path: str, what: str, names: Iterable[tuple[int, str]], spelled: Callable[[str], str]) -> None:
    """Refuses two spellings of a name, which would be two names; each comes with its line."""
    seen: dict[str, tuple[str, int]] = {}
    for number, name in names:
        before, line = seen.setdefault(spelled(name), (name, number))
        if before != name:
            refuse(path, number, f"the {what} {shown(name.encode())} and the {what} {shown(before.encode())} of line {line} would be two: "
                   f"write one {what} in one way")


def loose(name: str) -> set[str]:
    """What names share that differ in capitals, accents, or blanks, hyphens and full stops alone, which count only
    between digits."""
    seen = re.sub(r"(?<!\d)[\s._-]+|[\s._-]+(?!\d)", "", as_seen(name).casefold())
    plain = "".join(letter for letter in unicodedata.normalize("NFKD", seen) if not unicodedata.combining(letter))
    return {plain.translate(PLAIN), seen.translate(DOTTED)} - {""}


def hint_alike(path: str, what: str, names: Iterable[tuple[int, str]]) -> None:
    """Tells of names that may be one, since they differ in capitals, blanks or accents alone; each comes with its
    line."""
    first: dict[str, int] = {}
    for number, name in names:
        first.setdefault(name, number)
    keys: dict[str, str] = {}
    pairs = dict[tuple[str, str], None]()
    for name in first:
        pairs.update(((name, keys[key]), None) for key in sorted(loose(name)) if key in keys)
        keys.update((key, name) for key in loose(name) if key not in keys)
    for name, before in list(pairs)[:MOST_TOLD]:
        complain(f"{called(path)}, line {first[name]}: note: the {what} {shown(name.encode())} and the {what} {shown(before.encode())} of line "
                 f"{first[before]} count as two; if they are one, write the name in one way")
    if len(pairs) > MOST_TOLD:
        complain(f"{called(path)}: note: {len(pairs) - MOST_TOLD} more names differ from others in capitals, blanks or accents alone")


def is_one_letter(one: str, other: str) -> bool:
    """Whether a letter that is inserted, left out or changed, or two neighbours that are swapped, make one word of the
    other."""
    begin = len(os.path.commonprefix([one, other]))
    end = len(os.path.commonprefix([one[begin:][::-1], other[begin:][::-1]]))
    mine, its = one[begin:len(one) - end], other[begin:len(other) - end]
    return (mine + its).isalpha() and (max(len(mine), len(its)) == 1 or len(mine) == 2 and mine == its[::-1])


def is_slip(name: str, other: str) -> bool:
    """Whether two names differ in one letter of a word, so that one may be a slip for the other; not where they end in
    digits, or count as alike."""
    if any(re.search(r"\d\W*$", one) or sum(map(str.isalpha, one)) < LETTERS for one in (name, other)) or loose(name) & loose(other):
        return False
    words, others = (re.split(r"[\s._-]+", as_seen(one).casefold()) for one in (name, other))
    differing = [pair for pair in zip(words, others) if pair[0] != pair[1]]
    return len(words) == len(others) and len(differing) == 1 and min(map(len, differing[0])) >= WORD_LETTERS and is_one_letter(*differing[0])


def hint_slips(path: str, what: str, names: Iterable[tuple[int, str]]) -> None:
    """Tells of names that stand in one line alone and differ in one letter from a name that stands in more; each comes
    with its line."""
    lines: dict[str, list[int]] = {}
    for number, name in dict.fromkeys(names):
        lines.setdefault(name, []).append(number)
    usual = [name for name, own in lines.items() if len(own) > 1]
    pairs = [(name, other) for name, own in lines.items() if len(own) == 1 for other in usual if is_slip(name, other)]
    for name, other in pairs[:MOST_TOLD]:
        complain(f"{called(path)}, line {lines[name][0]}: note: the {what} {shown(name.encode())}, in this line alone, and the {what} "
                 f"{shown(other.encode())} of line {lines[other][0]} count as two; if they are one, write the name in one way")
    if len(pairs) > MOST_TOLD:
        complain(f"{called(path)}: note: {len(pairs) - MOST_TOLD} more names, in one line alone, differ from others in one letter")
