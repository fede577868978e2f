"""Tries split.py, join.py and run_part.sh.

Of random problems, with secondary items and colours, the prefixes are compared with those of the branching of
`plain_search.py`, and the covers of the parts, each with its prefix, with the covers of the whole: all of these are
counted out. Of those without a cover a plain search certifies the parts, and what `joined_certificates` makes of these,
by cases and by clauses, has to be a certificate of the whole. Two examples are compared with what was counted by hand.
Then the parts of some problems are searched and joined, and `check` has to find the answer right; and parts, answers
and certificates are deleted, changed, wrong, half written, and stopped by signals. Where GNU parallel is installed, it
runs the parts too, is killed, and goes on.
"""
from __future__ import annotations

import contextlib
import glob
import itertools
import os
import pathlib
import random
import shlex
import shutil
import signal
import subprocess
import sys
import tempfile
import time
from typing import Callable, NamedTuple, Optional

import pytest

from built import TOP
from plain_search import Numbered, branching, live_options, read
from try_certificates import by_script, certificates
from zarfepoch.files.cover_files import read_problem
from zarfepoch.search.joined_certificates import JOINERS, PartText
from zarfepoch.search.parts import Split, Tree, list_text, places_in, split, texts_of

PROGRAM = os.environ["ZARFEPOCH"]
RUN_PART = os.path.join(TOP, "scripts", "run_part.sh")
EXAMPLES = os.path.join(TOP, "examples")


# ---- random problems

def random_text(draw: random.Random) -> str:
    """A problem of a few items, with comments, blank lines and ignored options; secondary items may have colours."""
    primary = [f"p{k}" for k in range(draw.randint(1, 7))]
    secondary = [f"s{k}" for k in range(draw.randint(0, 4))]
    colours = draw.choice([[""], ["", ":a", ":a", ":b"], [":a", ":b"]])
    size = draw.randint(1, 3)
    lines = [primary + (["|"] + secondary if secondary else [])]
    for place in range(draw.randint(len(primary), 13)):
        others = draw.sample(primary, draw.randint(0, min(size, len(primary)) - 1))
        words = list(dict.fromkeys([primary[place % len(primary)], *others])) if draw.random() < 0.95 else []
        words += [item + draw.choice(colours) for item in draw.sample(secondary, draw.randint(0, min(3, len(secondary))))]
        draw.shuffle(words)
        lines += [words] + [words] * (draw.random() < 0.1) + [["| a comment"]] * (draw.random() < 0.1)
    return "\n".join(draw.choice([" ", "\t", "  "]).join(words) for words in lines) + draw.choice(["", "\n", "\r\n\n"])


def is_cover(primary: int, options: list[Numbered]) -> bool:
    """Whether these options are an exact cover: each primary item once, each other once at most or always in one
    colour."""
    uses: dict[int, list[Optional[bytes]]] = {}
    for item, colour in (pair for option in options for pair in option.items()):
        uses.setdefault(item, []).append(colour)
    once = all(len(uses.get(item, [])) == 1 for item in range(primary))
    return once and all(len(some) == 1 or None not in some and len(set(some)) == 1 for item, some in uses.items() if item >= primary)


def covers_of(primary: int, options: list[Numbered]) -> list[frozenset[int]]:
    """All exact covers, found by trying all sets of options."""
    sets = itertools.chain.from_iterable(itertools.combinations(range(len(options)), size) for size in range(primary + 1))
    return [frozenset(some) for some in sets if is_cover(primary, [options[place] for place in some])]


class Taken(NamedTuple):
    """What the plain branching takes a tree apart into."""
    cover: Optional[list[int]]
    parts: list[list[int]]
    barren: list[list[int]]


def taken_apart(primary: int, options: list[Numbered], number: int) -> Taken:
    """The open and barren prefixes, breadth first, until there are so many open ones; or the first cover that is
    met."""
    waiting, barren, born = [], [], [[]]  # type: list[list[int]], list[list[int]], list[list[int]]
    while True:
        for prefix in born:
            choices = branching(primary, options, prefix)
            if choices is None:
                return Taken(prefix, [], [])
            (waiting if choices else barren).append(prefix)
        if not waiting or len(waiting) >= number:
            return Taken(None, sorted(waiting), sorted(barren))
        front = waiting.pop(0)
        born = [front + [option] for option in branching(primary, options, front) or []]


def numbers_of(found: Split) -> Taken:
    """The prefixes of a split by the numbers of their options."""
    parts, barren = ([list(prefix.options) for prefix in some] for some in (found.parts, found.barren))
    return Taken(list(found.cover.options) if found.cover else None, parts, barren)


def try_joined(draw: random.Random, text: bytes, tree: Tree, found: Split) -> None:
    """Joins certificates of the parts of a problem without a cover, of each kind."""
    of_parts = [certificates(draw, part.decode("ascii")) for part in texts_of(tree, found)]
    for place, kind in enumerate((b"cases", b"clauses")):
        parts = [PartText(prefix, [line.encode() for line in both[place][2:]]) for prefix, both in zip(found.parts, of_parts)]
        lines = [line.decode() for line in JOINERS[kind](tree, found, parts).text()]
        assert by_script(text.decode(), lines) == "right", f"a joined certificate of\n{text!r}\n{lines}"


def try_random(draw: random.Random) -> str:
    """Tries one problem, and answers what its split came to."""
    text, number = random_text(draw).encode(), draw.choice([1, 2, 2, 3, 3, 4, 30])
    names, primary, options, _ = read(text)
    tree = Tree(read_problem(text))
    found, wanted = split(tree, number), taken_apart(primary, options, number)
    assert numbers_of(found) == wanted, f"the prefixes of\n{text!r}"
    if wanted.cover is not None:
        assert is_cover(primary, [options[place] for place in wanted.cover]), f"the cover of\n{text!r}"
        return "a cover"
    covers = []
    for prefix, part in zip(wanted.parts, texts_of(tree, found)):
        live = live_options(primary, options, prefix)
        refused = read_problem(part).faults
        assert not refused, f"a part that can be read: {part!r}"
        part_names, part_primary, part_options, ignored = read(part)
        assert not ignored, f"no ignored option: {part!r}"
        assert ([{part_names[item]: colour for item, colour in option.items()} for option in part_options]
               == [{names[item]: colour for item, colour in options[place].items()} for place in live]), f"names and options as they were: {part!r}"
        covers += [frozenset(prefix) | {live[place] for place in cover} for cover in covers_of(part_primary, part_options)]
    whole = covers_of(primary, options)
    assert set(covers) == set(whole) and len(covers) == len(whole), f"the covers of the parts of\n{text!r}"
    if not covers:
        try_joined(draw, text, tree, found)
    return "parts with covers" if covers else "parts without one" if wanted.parts else "no part"


@pytest.mark.parametrize("seeds", (*(range(first, first + 20) for first in range(0, 200, 20)), pytest.param(range(200, 2000), marks=pytest.mark.slow)),
                         ids=lambda seeds: f"{seeds[0]} to {seeds[-1]}")
def test_random_problems(seeds: range) -> None:
    for seed in seeds:
        try_random(random.Random(seed))


# ---- counts by hand

COLOURED = b"""a b c d | x y
a x:1 y
a x:2
b x:1
b x:2 y
c d
c x:1
d y
"""
COLOURED_PARTS = [
    b"| part 1 of 2; its covers are completed by these options:\n| a x:1 y\nb c d | x\nb x:1\nc d\nc x:1\n",
    b"| part 2 of 2; its covers are completed by these options:\n| a x:2\nb c d | x y\nb x:2 y\nc d\nd y\n",
]
COLOURED_LIST = b"at least 2 parts\npart 1: options 0\npart 2: options 1\n"
LANGFORD_PREFIXES = [["4 s1 s6", "3 s3 s7"], ["4 s1 s6", "3 s4 s8"], ["4 s2 s7", "3 s1 s5"], ["4 s2 s7", "3 s4 s8"], ["4 s3 s8"]]
# what the first prefix bars is gone: 4, 3, and all that name s1, s6, s3 or s7
LANGFORD_FIRST = [b"1 2 s2 s4 s5 s8", b"1 s2 s4", b"2 s2 s5", b"2 s5 s8"]


def test_by_hand() -> None:
    """Two examples that were taken apart on paper."""
    tree = Tree(read_problem(COLOURED))
    found = split(tree, 2)
    assert list(texts_of(tree, found)) == COLOURED_PARTS, "the parts of the coloured example"
    assert list_text(found, 2) == COLOURED_LIST, "the list of the coloured example"
    with open(os.path.join(EXAMPLES, "langford-4.dlx"), "rb") as file:
        tree = Tree(read_problem(file.read()))
    found = split(tree, 5)
    words = [[tree.words(place).decode() for place in prefix.options] for prefix in found.parts]
    assert words == LANGFORD_PREFIXES, "five prefixes of Langford pairs"
    assert next(texts_of(tree, found)).split(b"\n")[3:-1] == LANGFORD_FIRST, "the first part of Langford pairs"
    closed = split(Tree(read_problem(b"a b c\na\na b\nb\n")), 3)
    assert list_text(closed, 3) == b"at least 3 parts\nclosed: options , no option is left for c\n", "a file with an item in no option"
    assert places_in(0b10110) == [1, 2, 4], "places in a set"


# ---- folders of parts

class Ran(NamedTuple):
    """How a command ended, and what it wrote."""
    status: int
    output: str
    errors: str


def ran(*words: str, program: str = PROGRAM) -> Ran:
    """Runs a command, for which this is the program."""
    done = subprocess.run(words, capture_output=True, text=True, env={**os.environ, "ZARFEPOCH": program}, stdin=subprocess.DEVNULL)
    return Ran(done.returncode, done.stdout, done.stderr)


def script(name: str, *words: str) -> Ran:
    return ran(sys.executable, "-m", f"zarfepoch.{name}", *words)


def example(name: str) -> str:
    return os.path.join(EXAMPLES, name + ".dlx")


@pytest.fixture
def top(tmp_path: pathlib.Path) -> str:
    """A folder for the folders of parts."""
    return str(tmp_path)


def made(top: str, name: str, number: int) -> str:
    """A folder with the parts of an example."""
    folder = tempfile.mktemp(prefix="parts-", dir=top)
    assert script("split", example(name), "--parts", str(number), "--into", folder).status == 0, f"{name} in {number} parts"
    return folder


def parts_in(folder: str) -> list[str]:
    """The parts of a folder by their numbers."""
    return [os.path.join(folder, f"part-{number}.dlx") for number in range(1, 1 + len(glob.glob(os.path.join(folder, "part-*.dlx"))))]


def answer_of(part: str) -> str:
    return part[:-4] + ".answer"


def write(path: str, text: str) -> None:
    with open(path, "w", encoding="ascii") as file:
        file.write(text)


def text_of(path: str) -> str:
    with open(path, encoding="ascii") as file:
        return file.read()


def joined(folder: str, top: str) -> Ran:
    """What join.py says of a folder; `check` has to find an answer right."""
    said = script("join", folder)
    if said.status in (0, 1):
        answer = os.path.join(top, "answer")
        write(answer, said.output)
        checked = ran(PROGRAM, "check", os.path.join(folder, "whole.dlx"), answer)
        assert (checked.status, checked.output) == (0, "right\n"), f"the joined answer of {folder}: {checked}"
    return said


@pytest.mark.parametrize("name, number", (
    ("mutilated-chessboard", 30), ("tetrominoes-4x5", 20), ("langford-5", 6), ("queens-8", 20), ("fano-plane", 20), ("killer", 10), ("word-square", 3),
    ("squares-3x3", 2), ("sudoku", 500)))
def test_whole_search(top: str, name: str, number: int) -> None:
    """Examples of which all parts are searched, and joined: the answer is that of `alone`."""
    folder = made(top, name, number)
    ended = [ran(RUN_PART, part).status for part in parts_in(folder)]
    alone, said = ran(PROGRAM, "alone", example(name)), joined(folder, top)
    assert said.status == alone.status and said.output.split("\n")[0].split()[0] == alone.output.split()[0], f"{name} joined: {said}"
    assert not ended or (0 in ended) == (said.status == 0), f"{name} by its parts: {ended}"
    assert script("join", folder, "--left").output == "", f"nothing left of {name}"


def test_damaged_parts(top: str) -> None:
    """A board without a cover, of whose parts one is damaged at a time."""
    folder = made(top, "mutilated-chessboard", 6)
    parts = parts_in(folder)
    assert joined(folder, top)[:2] == (4, "no answer\n"), "no answer yet"
    assert script("join", folder, "--left").output.split() == parts, "all are left"
    for part in parts[:-1]:
        assert ran(RUN_PART, part).status == 1, "a part"
    said = joined(folder, top)
    assert (said.status, f"1 of {len(parts)} parts have no answer: {len(parts)}\n" in said.errors) == (4, True), f"one is left: {said}"
    assert script("join", folder, "--left").output.split() == parts[-1:], "one path"
    assert ran(RUN_PART, parts[-1]).status == 1, "the last part"
    assert joined(folder, top) == (1, "none\n", ""), "none"
    whole, listed = os.path.join(folder, "whole.dlx"), os.path.join(folder, "parts.txt")
    for path in (parts[2], whole, listed):
        was = text_of(path)
        for what, text in (("a line less", "\n".join(was.split("\n")[:-2]) + "\n"), ("a line more", was + "x\n"), ("nothing", "")):
            write(path, text)
            said = joined(folder, top)
            assert (said.status, said.output) == (3, "") and (path in said.errors or what == "a line less"), f"{path} with {what}: {said}"
        os.remove(path)
        said = joined(folder, top)
        assert (said.status, said.output) == (3, "") and path in said.errors, f"{path} is missing: {said}"
        write(path, was)
    was = text_of(listed)
    for number in ("7", "999999", "0", "x"):
        write(listed, was.replace("at least 6", f"at least {number}"))
        assert joined(folder, top).status == 3, f"a list of {number} parts"
    write(listed, was)
    assert joined(folder, top) == (1, "none\n", ""), "all as it was"
    shutil.rmtree(folder)


def test_damaged_answers(top: str) -> None:
    """Answers that are none, each in place of a part's `none`."""
    folder = made(top, "mutilated-chessboard", 6)
    parts = parts_in(folder)
    for part in parts:
        write(answer_of(part), "none\n")
    path, first = answer_of(parts[3]), text_of(os.path.join(folder, "whole.dlx")).split("\n")[-2]
    clashing = text_of(parts[3]).split("\n")[1][2:]
    for text, said, status in (
            ("", "4", 4), ("no answer\n", "4", 4), ("\n\n", "4", 4), ("none\naudit clean\n", "", 1), ("none", "", 1),
            ("non", "refused: BadHead", 3), ("cover 5\n" + first + "\n", "refused: WrongCount", 3), ("none\nnone\n", "refused: WrongCount", 3),
            ("none\naudit unclean: MissingBook node 1 incarnation 1\n", "refused: WrongCount", 3),
            ("cover 1\nx y\n", "refused: UnknownOption line 2", 3), ("cover 1\n" + first + "\n", "wrong: Uncovered", 3),
            ("cover 0\n", "wrong: Uncovered", 3), ("cover 1\n" + clashing + "\n", "wrong: ", 3)):
        write(path, text)
        got = joined(folder, top)
        assert got.status == status and said in got.errors and (path in got.errors) == (status == 3), f"{text!r}: {got}"
    os.remove(path)
    os.mkdir(path)
    got = joined(folder, top)
    assert got.status == 3 and path in got.errors, f"a folder for an answer: {got}"
    shutil.rmtree(folder)


def certified(folder: str, out: str) -> Ran:
    """What join.py says of a folder by its certificates; `check` has to find that of the whole right."""
    said = script("join", folder, "--certificate", out)
    if said.status == 1:
        checked = ran(PROGRAM, "check", os.path.join(folder, "whole.dlx"), out)
        assert (checked.status, checked.output) == (0, "right\n"), f"the certificate of {folder}: {checked}"
    return said


def test_certificates_count(top: str) -> None:
    """With --certificate an answer that is written by hand doesn't count, and a certificate counts without an
    answer."""
    folder, out = made(top, "langford-5", 6), os.path.join(top, "whole.certificate")
    parts = parts_in(folder)
    paths = [part[:-4] + ".certificate" for part in parts]
    for part in parts:
        write(answer_of(part), "none\n")
    said = certified(folder, out)
    assert said[:2] == (4, "no answer\n") and f"{len(parts)} of {len(parts)} parts have no certificate" in said.errors, f"answers by hand: {said}"
    assert script("join", folder, "--left", "--certificate", out).output.split() == parts, "all are left"
    for part, path in zip(parts, paths):
        os.remove(answer_of(part))
        assert ran(RUN_PART, part, "learn", "--certificate", path).status == 1, "a part"
        os.remove(answer_of(part))
    said = certified(folder, out)
    assert said == (1, "none\n", ""), f"certificates alone: {said}"
    assert joined(folder, top).status == 4, "they are no answers"
    was, whole = text_of(paths[2]), text_of(out)
    by_cases = "\n".join(certificates(random.Random(1), text_of(parts[2]))[0])
    for text, message in ((was[:-2] + "\n", f"{paths[2]} is wrong: line "), (was + "x\n", "expected the end"), ("", "is wrong: line 1: expected 'none'"),
                          (text_of(paths[3]), f"{paths[2]} is wrong: line "), (by_cases, "parts 1 and 3 are of two kinds, by clauses and by cases")):
        write(paths[2], text)
        said = certified(folder, out)
        assert (said.status, said.output) == (3, "") and message in said.errors and text_of(out) == whole, f"{text[:40]!r}..: {said}"
    write(paths[2], was)
    said = certified(folder, os.path.join(top, "missing", "out"))
    assert (said.status, said.output) == (3, "") and "can't be written" in said.errors, f"no folder: {said}"
    said = script("join", folder, "--certificate", "/dev/full")
    assert (said.status, said.output) == (3, "") and "/dev/full can't be written" in said.errors, f"a full disk: {said}"
    write(answer_of(parts[0]), "cover 0\n")
    said = certified(folder, out)
    assert said.status == 3 and answer_of(parts[0]) in said.errors, f"a wrong answer beside its certificate: {said}"
    os.remove(answer_of(parts[0]))
    assert sorted(os.listdir(top)) == sorted([os.path.basename(folder), "whole.certificate"]), "nothing else was left"
    shutil.rmtree(folder)


def test_covers_win(top: str) -> None:
    """A cover of one part is one of the whole, whatever there is of the others."""
    folder = made(top, "queens-8", 20)
    parts = parts_in(folder)
    found = next(part for part in parts if ran(RUN_PART, part).status == 0)
    for part in parts:
        if part != found and os.path.exists(answer_of(part)):
            os.remove(answer_of(part))
    said = joined(folder, top)
    assert said[::2] == (0, "") and said.output.startswith("cover 8\n"), f"a cover: {said}"
    os.remove(parts[-1])
    write(answer_of(parts[-2]), "cover 1\n")
    said = joined(folder, top)
    assert said.status == 0 and parts[-1] in said.errors and answer_of(parts[-2]) in said.errors, f"a cover beside two that are damaged: {said}"
    os.remove(found)
    assert joined(folder, top).status == 0, "a cover of a part that is missing"
    text = text_of(answer_of(found))
    os.remove(answer_of(found))
    write(answer_of(parts[-3]), text)
    said = joined(folder, top)
    assert said.status == 3 and "wrong: " in said.errors, f"a cover of another part: {said}"
    shutil.rmtree(folder)


def test_odd_words(top: str) -> None:
    """Mistakes on the command lines, and files and folders that can't be used."""
    file, folder, missing = example("queens-8"), os.path.join(top, "odd"), os.path.join(top, "missing")
    for number in ("0", "-1", "x", "10001", "1.5"):
        assert script("split", file, "--parts", number, "--into", folder).status == 2, f"{number} parts"
    assert script("split", file, "--into", folder).status == 2, "no number"
    assert script("split", file, "--parts", "3").status == 2, "no folder"
    refused = os.path.join(top, "refused.dlx")
    write(refused, "a b\na c\n")
    said = script("split", refused, "--parts", "3", "--into", folder)
    assert said.status == 3 and "UnknownItem line 2" in said.errors and not os.path.exists(folder), f"a refused file: {said}"
    assert script("split", missing, "--parts", "3", "--into", folder).status == 3, "no file"
    assert script("split", file, "--parts", "3", "--into", os.path.join(missing, "x")).status == 3, "a folder of no folder"
    os.mkdir(folder)
    assert script("split", file, "--parts", "3", "--into", folder).status == 0, "an empty folder"
    before = {name: text_of(os.path.join(folder, name)) for name in os.listdir(folder)}
    said = script("split", example("langford-4"), "--parts", "3", "--into", folder)
    assert said.status == 3 and before == {name: text_of(os.path.join(folder, name)) for name in os.listdir(folder)}, f"a folder in use: {said}"
    assert sorted(os.listdir(top)) == ["odd", "refused.dlx"], "nothing else was made"
    for words in ((), (folder, folder), ("--right", folder)):
        assert script("join", *words).status == 2, f"join.py {words}"
    assert script("join", missing).status == 3, "no folder to join"
    for words in ((), ("--help",), (file[:-4],)):
        assert ran(RUN_PART, *words).status == 2, f"run_part.sh {words}"
    assert ran(RUN_PART, missing + ".dlx").status == 3, "no part"
    assert ran(RUN_PART, parts_in(folder)[0], program=missing).status == 2, "no program"
    assert ran(RUN_PART, parts_in(folder)[0], "solve", "--nodes", "1").status in (0, 1), "words for the program"
    assert ran(RUN_PART, parts_in(folder)[1], "alone", "--fuel", "1").status == 4, "a search without an answer"
    assert sorted(os.listdir(folder)) == sorted([*before, "part-1.answer"]), "leaves nothing"
    shutil.rmtree(folder)


# ---- searches that are stopped

SLOW = """#!/bin/sh
echo cover 5
sleep {seconds}
exec {program} "$@"
"""


def comes(is_there: Callable[[], bool], seconds: float = 60) -> bool:
    """Whether something comes within some seconds."""
    end = time.monotonic() + seconds
    while not is_there() and time.monotonic() < end:
        time.sleep(0.02)
    return is_there()


def has_some(pattern: str) -> bool:
    """Whether a file of such a name has some text."""
    with contextlib.suppress(FileNotFoundError):
        return any(map(os.path.getsize, glob.glob(pattern)))
    return False


def test_stopped(top: str) -> None:
    """Searches that a signal ends in the middle of an answer, and that go on afterwards."""
    folder, slow = made(top, "mutilated-chessboard", 6), os.path.join(top, "slow")
    # (where this runs in the background these may be ignored, and what it starts would ignore them too)
    signal.signal(signal.SIGINT, signal.default_int_handler)
    signal.signal(signal.SIGHUP, signal.SIG_DFL)
    write(slow, SLOW.format(seconds=60, program=PROGRAM))
    os.chmod(slow, 0o755)
    for number, kill in ((1, signal.SIGTERM), (2, signal.SIGINT), (3, signal.SIGHUP), (4, signal.SIGKILL)):
        part = os.path.join(folder, f"part-{number}.dlx")
        with subprocess.Popen([RUN_PART, part], env={**os.environ, "ZARFEPOCH": slow}, start_new_session=True) as run:
            assert comes(lambda: has_some(answer_of(part) + ".*")), f"an answer begins before {kill.name}"
            os.killpg(run.pid, kill) if kill == signal.SIGKILL else run.send_signal(kill)
            status = run.wait(10)
        assert status == (-9 if kill == signal.SIGKILL else 143) and not os.path.exists(answer_of(part)), f"no answer after {kill.name}"
        assert len(glob.glob(answer_of(part) + ".*")) == (kill == signal.SIGKILL), f"what {kill.name} leaves"
    assert joined(folder, top)[:2] == (4, "no answer\n"), "still none"
    for part in parts_in(folder):
        assert ran(RUN_PART, part).status == 1, "the search goes on"
        assert ran(RUN_PART, part, program="/bin/false").status == 1, "no part is searched twice"
    assert joined(folder, top) == (1, "none\n", ""), "joined after a stop"
    shutil.rmtree(folder)


@pytest.mark.skipif(not shutil.which("parallel"), reason="GNU parallel isn't installed")
def test_by_parallel(top: str) -> None:
    """GNU parallel runs the parts, is stopped, and goes on where it was."""
    folder, slow = made(top, "mutilated-chessboard", 12), os.path.join(top, "slow")
    write(slow, "#!/bin/sh\nsleep 0.3\nexec " + PROGRAM + ' "$@"\n')
    os.chmod(slow, 0o755)
    # (parallel hands its command to a shell once more)
    words = (f"{shlex.join([sys.executable, '-m', 'zarfepoch.join', folder])} --left | "
             f"parallel --will-cite --jobs 2 --joblog {shlex.quote(f'+{folder}/log')} --halt now,success=1 {shlex.quote(shlex.quote(RUN_PART))}")
    with subprocess.Popen(["sh", "-c", words], env={**os.environ, "ZARFEPOCH": slow}, stderr=subprocess.DEVNULL, start_new_session=True) as run:
        assert comes(lambda: len(glob.glob(os.path.join(folder, "*.answer"))) >= 3), "three parts have answers"
        os.killpg(run.pid, signal.SIGTERM)
    assert joined(folder, top).status == 4, "some are left"
    again = ran("sh", "-c", words, program=slow)
    assert joined(folder, top) == (1, "none\n", ""), f"all parts were run: {again}"
    runs = [line.split("\t")[8] for line in text_of(os.path.join(folder, "log")).split("\n") if line.count("\t") == 8 and line[0] != "S"]
    assert len(runs) == len(set(runs)) >= len(parts_in(folder)) - 2, f"no part twice in the log: {runs}"
    shutil.rmtree(folder)
