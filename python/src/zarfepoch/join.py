"""Joins the answers of a search's parts, which zarfepoch-split wrote, to the answer of the whole.

    zarfepoch-join FOLDER [--left] [--certificate OUT]

It writes a cover of the whole file as soon as one part has one: the part's options with those of its prefix, counted
here, in the order of the file. It writes `none` only if each part of the list has the answer `none`, and is to the byte
what zarfepoch-split writes now of FOLDER/whole.dlx; the list is compared too. Else it writes `no answer`, and standard
error names the parts without an answer, as Slurm's --array reads them. The answer of part-7.dlx is what the program
wrote, in part-7.answer. A file that is empty, or says `no answer`, is no answer.

Standard error names each part that was changed or is missing, and each answer that is refused or is no cover. With
--left it writes, in place of an answer, the paths of the parts that are still to be searched, a line each; after a
cover there are none.

With --certificate a part's `none` counts only by a certificate, in part-7.certificate, which is checked here: it takes
the place of the answer. Where all parts have one, OUT gets the certificate of the whole that they make together, which
is checked too. They have to be of one kind, all by cases or all by clauses. (docs/FORMAT.md describes them.) Where the
whole isn't `none`, OUT is left as it was.

It wants no built program. The exit status is 0 for a cover, 1 for `none`, 4 for `no answer`, 2 for a mistake on the
command line, and 3 where, without a cover, something was changed, is missing or wrong, or where the standard output
can't be written.
"""
from __future__ import annotations

import os
import re
import sys
from typing import NamedTuple, Optional

from .command_line.ends import complain, run, stop
from .command_line.words import parser_of
from .command_line.written import real
from .files.cover_files import Answer, lines_of, refusal, shown
from .files.whole_files import Unreadable, read_bytes
from .search.certified_parts import NotRight, body_of, join_certificates, kind_of
from .search.joined_certificates import JOINERS, PartText
from .search.parts import (LIST, MOST_PARTS, WHOLE, Prefix, Split, Tree, answer_name, certificate_name, cover_text, list_text, part_name, path_in,
                           read_tree, split, texts_of)

# so many faults are named; of the others only the number is given
MOST_NAMED = 20


class Part(NamedTuple):
    """What there is of a part: a cover of the whole, `none`, or neither; what is wrong, if anything is; and of a
    certificate its kind."""
    number: int
    cover: Optional[bytes] = None
    is_none: bool = False
    fault: Optional[str] = None
    kind: bytes = b""


def wrong_in(answer: Answer, tree: Tree, prefix: Prefix) -> Optional[str]:
    """Why the answer of a part and its prefix are no cover of the whole, in the program's words. It gets the options of
    the prefix too."""
    if answer.faults:
        return "refused: " + refusal(answer.faults)
    answer.chosen.extend(([], place) for place in prefix.options)
    uncovered, twice = answer.uncovered(tree.problem), answer.covered_twice(tree.problem)
    if uncovered:
        return "wrong: Uncovered " + shown(uncovered[0])
    return "wrong: CoveredTwice " + shown(twice[0][0]) if twice else None


def part_of_answer(number: int, text: bytes, tree: Tree, prefix: Prefix) -> Part:
    """What the answer of a part says."""
    lines = lines_of(text)
    said = [[word.text for word in words] for words in lines]
    if not said or said[0] == [b"no", b"answer"]:
        return Part(number)
    answer = Answer(lines[:-1] if said[-1] == [b"audit", b"clean"] else lines, tree.problem)
    if answer.kind == "none" and not answer.faults:
        return Part(number, is_none=True)
    fault = wrong_in(answer, tree, prefix)
    if fault:
        return Part(number, fault=fault)
    return Part(number, cover=cover_text(tree, [place for _, place in answer.chosen]))


def read_part(folder: str, number: int, tree: Tree, prefix: Prefix) -> Part:
    """What the answer of a part says, if there is one."""
    path = path_in(folder, answer_name(number))
    if not os.path.lexists(path):
        return Part(number)
    try:
        part = part_of_answer(number, read_bytes(path), tree, prefix)
    except Unreadable as why:
        return Part(number, fault=str(why))
    return part._replace(fault=f"{path} is {part.fault}") if part.fault else part


def changed_in(path: str, text: bytes) -> Optional[str]:
    """Why a file isn't what zarfepoch-split writes."""
    try:
        return None if read_bytes(path) == text else f"{path} was changed: zarfepoch-split writes something else"
    except Unreadable as why:
        return str(why)


def compared(part: Part, folder: str, text: bytes) -> Part:
    """A part whose answer counts only if its problem is what zarfepoch-split writes; a cover of the whole was counted,
    and stays one."""
    fault = changed_in(path_in(folder, part_name(part.number)), text)
    return part._replace(is_none=False, fault=fault) if fault else part


def certified(part: Part, folder: str, text: bytes) -> Part:
    """A part that counts as `none` only by a certificate, whatever its answer says; a cover of the whole stays one."""
    path = path_in(folder, certificate_name(part.number))
    if part.cover or part.fault or not os.path.lexists(path):
        return part._replace(is_none=False)
    try:
        return part._replace(is_none=True, kind=kind_of(text, path))
    except (Unreadable, NotRight) as why:
        return part._replace(is_none=False, fault=str(why))


def number_in(folder: str) -> int:
    """The number of parts that zarfepoch-split was given."""
    path = path_in(folder, LIST)
    try:
        head = re.match(rb"at least ([1-9][0-9]{0,5}) parts\n", read_bytes(path))
    except Unreadable as why:
        stop(why, 3)
    if not head or int(head[1]) > MOST_PARTS:
        stop(f"{path} was changed: zarfepoch-split writes something else", 3)
    return int(head[1])


def ranges(numbers: list[int]) -> str:
    """Rising numbers, as 1-3,7."""
    runs: list[list[int]] = []
    for number in numbers:
        if runs and runs[-1][-1] == number - 1:
            runs[-1][1:] = [number]
        else:
            runs.append([number])
    return ",".join("-".join(map(str, run)) for run in runs)


def tell(faults: list[str]) -> None:
    """Names what is wrong."""
    for fault in faults[:MOST_NAMED]:
        complain(fault)
    if len(faults) > MOST_NAMED:
        complain(f"and {len(faults) - MOST_NAMED} more")


def split_in(tree: Tree, folder: str) -> Split:
    """What the tree was taken apart into; ends the script where the list says otherwise."""
    number = number_in(folder)
    found = split(tree, number)
    fault = changed_in(path_in(folder, LIST), list_text(found, number))
    if fault:
        stop(fault, 3)
    return found


def outcome(tree: Tree, found: Split, folder: str, by_certificates: bool) -> tuple[Optional[bytes], list[Part]]:
    """A cover, if there is one, and what there is of each part."""
    if found.cover:
        return cover_text(tree, found.cover.options), []
    parts = []
    for number, (prefix, text) in enumerate(zip(found.parts, texts_of(tree, found)), 1):
        part = compared(read_part(folder, number, tree, prefix), folder, text)
        parts.append(certified(part, folder, text) if by_certificates else part)
    return next((part.cover for part in parts if part.cover), None), parts


def status_of(cover: Optional[bytes], parts: list[Part], left: list[int]) -> int:
    """The exit status."""
    if cover:
        return 0
    if any(part.fault for part in parts):
        return 3
    return 4 if left else 1


def write_certificate(tree: Tree, found: Split, folder: str, parts: list[Part], out: str) -> None:
    """Writes the certificate that those of the parts make together; ends the script where there is none of the whole,
    or it can't be written."""
    other = next((part for part in parts if part.kind != parts[0].kind), None)
    if other:
        stop(f"the certificates of parts 1 and {other.number} are of two kinds, by {parts[0].kind.decode()} and by {other.kind.decode()}, and all have "
             "to be of one", 3)
    texts = (body_of(path_in(folder, certificate_name(part.number))) for part in parts)
    joiner = JOINERS[parts[0].kind if parts else b"cases"](tree, found, map(PartText, found.parts, texts))
    try:
        join_certificates(path_in(folder, WHOLE), joiner, out)
    except (Unreadable, NotRight) as why:
        stop(why, 3)
    except OSError as why:
        stop(f"{out} can't be written: {why.strerror}", 3)


def is_of_split(path: str, folder: str) -> bool:
    """Whether a file is one that a split wrote into its folder, or that is looked for there beside a part."""
    place, name = os.path.split(real(path))
    is_named = name in (WHOLE, LIST) or re.fullmatch(r"part-\d+\.(dlx|answer|certificate)", name) is not None
    return is_named and place == os.path.realpath(folder)


def main() -> int:
    words = parser_of(__doc__)
    words.add_argument("folder", metavar="FOLDER", help="the folder that zarfepoch-split made")
    words.add_argument("--left", action="store_true", help="write the paths of the parts that are still to be searched")
    words.add_argument("--certificate", metavar="OUT", help="count a part's none only by its certificate, and join these")
    given = words.parse_args()
    if given.certificate and is_of_split(given.certificate, given.folder):
        stop(f"--certificate would write over {given.certificate}, which is read here: another file is wanted")
    _, tree = read_tree(path_in(given.folder, WHOLE))
    found = split_in(tree, given.folder)
    cover, parts = outcome(tree, found, given.folder, given.certificate is not None)
    left = [] if cover else [part.number for part in parts if not part.is_none and not part.fault]
    status = status_of(cover, parts, left)
    tell([part.fault for part in parts if part.fault])
    if left:
        complain(f"{len(left)} of {len(parts)} parts have no {'certificate' if given.certificate else 'answer'}: {ranges(left)}")
    if status == 1 and given.certificate and not given.left:
        write_certificate(tree, found, given.folder, parts, given.certificate)
    if given.left:
        print("".join(path_in(given.folder, part_name(number)) + "\n" for number in left), end="")
    elif status != 3:
        sys.stdout.buffer.write({0: cover or b"", 1: b"none\n", 4: b"no answer\n"}[status])
    return status


if __name__ == "__main__":
    run(main)
