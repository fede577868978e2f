"""Makes problem files of the kinds that stand in the folder examples.

    zarfepoch-generate KIND .. > FILE    writes a problem of this kind on the standard output
    zarfepoch-generate                   writes the larger example files of a clone into its folder examples
    --out FILE                           writes the problem into FILE, and nothing where it is refused

%KINDS%

FILE may be -, the standard input. The first line of each problem is a comment that tells what it is and how it was
made. A problem beyond 1,000 items, 20,000 options, 200,000 occurrences of items in them or 10,000 colours is refused,
since the program reads no such file. It wants no built program. The exit status is 0; 1 where counting shows that there
is no cover, as of more lessons than periods; 2 for a mistake on the command line, a folder or file that can't be
written, or a problem of a kind without a FILE that is refused; 3 for a FILE that can't be read or meant or makes too
large a problem, or where the standard output can't be written.
"""
from __future__ import annotations

import argparse
import itertools
import os
import sys
from argparse import Namespace
from collections.abc import Iterator
from dataclasses import replace
from typing import Optional

from .command_line.ends import complain, run, stop
from .command_line.words import parser_of
from .command_line.written import keep_what_is_read
from .files.whole_files import put_bytes
from .puzzles.examples import examples, FROM_TEXTS
from .puzzles.kinds import kinds_help, kinds_of, problems_of
from .texts.puzzles import Puzzle, refuse

# where examples are in a clone, and the texts that they are made from
EXAMPLES = os.path.join(os.path.dirname(os.path.abspath(__file__)), "..", "..", "..", "examples")


def command_line() -> argparse.ArgumentParser:
    parser = parser_of((__doc__ or "").replace("%KINDS%", kinds_help()))
    for words in kinds_of(parser):
        words.add_argument("--out", metavar="FILE", help="where the problem is written, in place of the standard output")
    return parser


def write(puzzle: Puzzle, path: Optional[str]) -> None:
    """Writes a problem into a file, or on the standard output where none is named."""
    if path is None:
        sys.stdout.buffer.write(puzzle.text())
        return
    try:
        put_bytes(path, puzzle.text())
    except OSError as why:
        stop(f"{path} can't be written: {why.strerror}")


def write_parts(given: Namespace, found: list[Puzzle]) -> None:
    """Writes the parts of a timetable into files of their own."""
    if not given.out:
        refuse(given.file, None, f"this timetable is too large for one file, and is parted into {len(found)} that share nobody and no room: "
               "--out FILE says where they go")
    base, ending = os.path.splitext(given.out)
    for number, puzzle in enumerate(found, 1):
        note, *more = puzzle.comments
        write(replace(puzzle, comments=[f"{note}; part {number} of {len(found)}", *more]), f"{base}-{number}{ending}")
    complain(f"the timetable is parted into {len(found)} files that share nobody and no room: {base}-1{ending} to {base}-{len(found)}{ending}")


def examples_from_texts() -> Iterator[tuple[str, Puzzle]]:
    """The examples that are made from texts, by the names of their files."""
    for name, own in FROM_TEXTS.items():
        words = [os.path.join(EXAMPLES, word) if word.endswith((".txt", ".csv")) else word for word in own]
        yield from ((name, puzzle) for puzzle in problems_of(command_line().parse_args(words), words))


def write_examples(folder: str) -> None:
    """Writes all examples into a folder."""
    for name, puzzle in itertools.chain(examples(), examples_from_texts()):
        write(puzzle, os.path.join(folder, f"{name}.dlx"))


def main() -> int:
    given = command_line().parse_args()
    if given.kind:
        keep_what_is_read(given)
        found = problems_of(given, sys.argv[1:])
        if len(found) == 1:
            write(found[0], given.out or None)
        else:
            write_parts(given, found)
    elif os.path.isdir(EXAMPLES):
        write_examples(EXAMPLES)
    else:
        stop("a KIND is missing; --help lists all of them")
    return 0


if __name__ == "__main__":
    run(main)
