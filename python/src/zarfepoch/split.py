"""Takes a search apart into parts, each a problem file of its own, which may be searched anywhere and at any time.

    zarfepoch-split FILE --parts N --into FOLDER

The search tree of FILE is taken apart by the branching of the program, breadth first, until at least N prefixes are
open. FOLDER, which is made and must be missing or empty, gets part-1.dlx and so on in the order of the search,
whole.dlx (a copy of FILE), and parts.txt, the list of all prefixes with the numbers of their options from 0. In a part
the options of the prefix and what they bar are gone, and its first lines, which are comments, name the prefix. So the
covers of a part, each with its prefix, are the covers of FILE that extend the prefix. A prefix with an item that has no
option left is closed, and the list says so. If a prefix is a cover, there are no parts, and the list has the cover
alone.

zarfepoch-join FOLDER reads the answers of the parts; docs/MACHINES.md shows how they are searched. FILE may be -, the
standard input. It wants no built program. The exit status is 0, 2 for a mistake on the command line, or 3 for a file
that can't be read or is refused, or where a folder or the standard output can't be written.
"""
from __future__ import annotations

import argparse
import itertools
import os
import shlex
import shutil
import tempfile
from typing import Iterable

from .command_line.ends import run, stop
from .command_line.words import as_called, number_from_one, parser_of
from .files.fault_words import plural
from .files.whole_files import umask
from .search.parts import LIST, MOST_PARTS, WHOLE, Split, list_text, part_name, path_in, read_tree, split, texts_of


def number_of_parts(text: str) -> int:
    """A number of parts on the command line."""
    number = number_from_one(text)
    if number > MOST_PARTS:
        raise argparse.ArgumentTypeError(f"'{text}' is more than {MOST_PARTS}")
    return number


def write_all(folder: str, files: Iterable[tuple[str, bytes]]) -> None:
    """Writes a folder with these files, whole or not at all."""
    folder = os.path.realpath(folder)
    made = tempfile.mkdtemp(prefix=".split-", dir=os.path.dirname(folder))
    try:
        for name, text in files:
            with open(path_in(made, name), "wb") as file:
                file.write(text)
        # (a folder for a time is closed to others, and this one needn't be)
        os.chmod(made, 0o777 & ~umask())
        os.rename(made, folder)
    finally:
        shutil.rmtree(made, ignore_errors=True)


def split_line(found: Split, folder: str) -> str:
    """What was done, in a line."""
    join = as_called(f"zarfepoch-join {shlex.quote(folder)}")
    if found.cover:
        return f"a cover was met; {join} writes it"
    if not found.parts:
        return f"no prefix is open, so there is no cover; {join} says so"
    parts, closed = len(found.parts), len(found.barren)
    return (f"{plural(parts, 'part')} {'is' if parts == 1 else 'are'} in {folder}; "
            f"{f'{closed:,} prefix is' if closed == 1 else f'{closed:,} prefixes are'} closed")


def main() -> None:
    words = parser_of(__doc__)
    words.add_argument("file", metavar="FILE", help="the problem's file, or - for the standard input")
    words.add_argument("--parts", metavar="N", required=True, type=number_of_parts, help=f"at least so many parts (1 to {MOST_PARTS})")
    words.add_argument("--into", metavar="FOLDER", required=True, help="the folder that is made")
    given = words.parse_args()
    if not given.into:
        words.error("--into names no folder: the word behind it is empty")
    text, tree = read_tree(given.file)
    found = split(tree, given.parts)
    parts = ((part_name(number), part) for number, part in enumerate(texts_of(tree, found), 1))
    try:
        write_all(given.into, itertools.chain([(WHOLE, text), (LIST, list_text(found, given.parts))], parts))
    except OSError as why:
        stop(f"{given.into} can't be written: {why.strerror}", 3)
    print(split_line(found, given.into))


if __name__ == "__main__":
    run(main)
