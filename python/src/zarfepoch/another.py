"""Writes a problem whose covers are those of a file that aren't given: it has none where the given ones are all.

    zarfepoch-another FILE ANSWER .. > OTHER

A cover that isn't a given one lacks some option of it. So there is a primary item more for each answer, and for each
option of the answer one that names this item and bars the option: it gives an item of the option's own another colour
than the option does. Where that would be more than the program reads, only options are barred from which the others of
the answer follow, one by one, so each other cover lacks one of them. An answer to OTHER may be an ANSWER too; its
further items are passed over. Of options that stand several times in a file all count as one. The exit status is 0, 2
for a mistake on the command line, 3 for a file or an answer that can't be read, an answer that is no exact cover, a
problem that would be too large, or where the standard output can't be written.
"""
from __future__ import annotations

import re
import sys

from .command_line.ends import run, stop
from .command_line.words import parser_of
from .files.cover_files import lines_of, Problem, read_audited, read_problem, refusal
from .files.whole_files import read_bytes, Unreadable
from .search.other_covers import free_name, others_of, Words


def without_others(text: bytes, other: bytes) -> bytes:
    """An answer's text without the items and options that this script adds."""
    head, *lines = [[word.text for word in words] for words in lines_of(text)] or [[]]
    rest = [words for words in ([word for word in words if not word.startswith(other)] for words in lines) if words]
    added = len(lines) - len(rest)
    # (the head counts all options, and a wrong count stays wrong)
    if added and re.fullmatch(rb"cover [1-9][0-9]{0,5}", b" ".join(head)):
        head = [b"cover", b"%d" % max(0, int(head[1]) - added)]
    return b"".join(b" ".join(words) + b"\n" for words in [head, *rest])


def chosen_options(problem: Problem, file: str, path: str, other: bytes) -> list[Words]:
    """The words of the options in an answer."""
    answer = read_audited(without_others(read_bytes(path), other), problem)
    if answer.faults or answer.kind == "none":
        explained = f"; zarfepoch-explain {file} {path} explains it"
        stop(f"{path} has no cover: {refusal(answer.faults) + explained if answer.faults else 'none'}", 3)
    if answer.uncovered(problem) or answer.covered_twice(problem):
        stop(f"{path} is no exact cover of the file; zarfepoch-explain {file} {path} tells why", 3)
    return list(dict.fromkeys(problem.options[place].words for _, place in answer.chosen))


def main() -> int:
    parser = parser_of(__doc__)
    parser.add_argument("file", metavar="FILE", help="the problem's file")
    parser.add_argument("answers", metavar="ANSWER", nargs="+", help="an answer's file, or - for the standard input")
    given = parser.parse_args()
    if [given.file, *given.answers].count("-") > 1:
        parser.error("- is the standard input, which can be read once")
    try:
        problem = read_problem(read_bytes(given.file))
        if problem.faults:
            stop(f"{given.file} is refused: {refusal(problem.faults)}; zarfepoch-explain {given.file} explains it", 3)
        other = free_name(problem, b"other")
        answers = [chosen_options(problem, given.file, path, other) for path in given.answers]
    except Unreadable as why:
        stop(why, 3)
    text, too_large = others_of(problem, answers, other)
    if too_large:
        stop(f"this would have {too_large}", 3)
    sys.stdout.buffer.write(text)
    return 0


if __name__ == "__main__":
    run(main)
