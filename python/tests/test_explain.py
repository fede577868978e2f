"""Compares what explain.py says with what the built program says.

All examples, some outside cases, and random files, most of them spoilt, are given to both, then each file that can be
read once more with an answer: the program's own, a spoilt one, or a random choice of options. For each it compares the
program's standard error (and the verdict of `check`) with the lines of explain.py that say what the program says, and
the name and the line of the fault with those of the first fault that explain.py explains. With the thousand random
files of the slow test each kind of fault must have been met. What else it says is tested by a table of files with lines
that were worked out by hand.
"""
from __future__ import annotations

import collections
import contextlib
import glob
import io
import os
import pathlib
import random
import re
import subprocess
from collections.abc import Iterator
from typing import Optional

import pytest

from built import TOP
from zarfepoch import explain
from zarfepoch.files.cover_files import shown

FAULTS = ["NoItems", "IllegalByte", "NameTooLong", "BadColour", "DuplicateItem", "SecondBar", "UnknownItem", "DuplicateInOption",
          "ColourOnPrimary", "TooManyItems", "TooManyOptions", "TooManyNodes", "TooManyColours", "BadHead", "WrongCount",
          "UnknownOption", "Uncovered", "CoveredTwice"]
FUEL = "100000"


# ---- files

def joined(draw: random.Random, words: list[bytes]) -> bytes:
    return draw.choice([b" ", b" ", b" ", b"  ", b"\t", b" \v"]).join(words)


def some_names(draw: random.Random, count: int) -> list[bytes]:
    letters = [b"a", b"b", b"c", b"item", b"Z9", b"\xc3\xa9", b"#x", b"x-1", b"\xff", b"k" * 30]
    return [draw.choice(letters) + (b"%d" % k if draw.random() < 0.8 else b"." * k) for k in range(count)]


def coloured(draw: random.Random, name: bytes, is_primary: bool, colours: list[bytes]) -> bytes:
    """A word of an option; a secondary name has a colour where one is drawn."""
    colour = b"" if is_primary else draw.choice(colours)
    return name + b":" + colour if colour else name


def random_problem(draw: random.Random) -> bytes:
    """A lawful problem's text, half the time with colours."""
    names = some_names(draw, draw.randint(1, 9))
    primary, colours = draw.randint(1, len(names)), draw.choice([[b""], [b"", b"red", b"red", b"2", b"\xc3\xa9" * 16]])
    line = names[:primary] + ([b"|"] + names[primary:] if primary < len(names) or draw.random() < 0.2 else [])
    lines = [joined(draw, line)]
    for _ in range(draw.randint(0, 12)):
        some = draw.sample(names, draw.randint(1, min(4, len(names))))
        lines.append(joined(draw, [coloured(draw, name, name in names[:primary], colours) for name in some]))
    for _ in range(draw.choice([0, 0, 1, 3])):
        lines.insert(draw.randint(0, len(lines)), draw.choice([b"| a comment", b"", b" \t", b"|", b"|x : y"]))
    return draw.choice([b"\n", b"\n", b"\r\n"]).join(lines) + draw.choice([b"\n", b"", b"\n\n"])


def spoil_word(draw: random.Random, text: bytes) -> bytes:
    words = [(found.start(), found.end()) for found in re.finditer(rb"[^\s]+", text)]
    if not words:
        return b"a"
    begin, end = draw.choice(words)
    word = text[begin:end]
    other = text[slice(*draw.choice(words))]
    new = draw.choice([word + b" " + word, word + b":red", word + b":", b":" + word, word + b":red:2", word + b":" + b"k" * 33, word * 33,
                       word + b"|", b"|" + word, b"| " + word, word.upper(), b"#" + word, other, word + b",", word + b"\0", b"",
                       word + b"\n", b"zz", b"\xef\xbb\xbf" + word, b"|" + other + b" |" + word, b"||" + word + b" ||" + word])
    return text[:begin] + new + text[end:]


def spoil_line(draw: random.Random, text: bytes) -> bytes:
    lines = text.split(b"\n")
    k = draw.randrange(len(lines))
    what = draw.randrange(5)
    if what == 0:
        del lines[k]
    elif what == 1:
        lines.insert(draw.randrange(len(lines)), lines[k])
    elif what == 2:
        lines.insert(k, draw.choice([b"# note", b"| note", b"what is this", b"cover 3", b"none"]))
    elif what == 3:
        words = lines[k].split()
        draw.shuffle(words)
        lines[k] = b" ".join(words)
    else:
        del lines[k:]
    return b"\n".join(lines)


def spoil_bytes(draw: random.Random, text: bytes) -> bytes:
    place = draw.randint(0, len(text))
    return text[:place] + draw.choice([b"", b"\0", b":", b"|", b" ", b"\n", b"\r", b"\xff", b"e", b"1"]) + text[place + draw.randint(0, 2):]


def spoil_all(draw: random.Random, text: bytes) -> bytes:
    return draw.choice([b"\xef\xbb\xbf" + text, text.decode("latin-1").encode("utf-16"), b"# first\n" + text, text.replace(b"\n", b"\r"), b"",
                        re.sub(rb"(?m)^", b"|", text)])


def spoilt(draw: random.Random, text: bytes, times: int) -> bytes:
    for _ in range(times):
        text = draw.choice([spoil_word, spoil_word, spoil_word, spoil_line, spoil_line, spoil_bytes, spoil_all])(draw, text)
    return text


def outside_cases() -> Iterator[bytes]:
    """Files at the limits, one step below and above each."""
    for count in (1000, 1001):
        names = b" ".join(b"i%d" % k for k in range(count))
        yield names + b"\ni1\n"
        yield b"p | " + names[:names.rindex(b" ")] + b"\np\n"
    for count in (20000, 20001):
        yield b"a | b\nb\n" + b"a\n" * count
    names = b" ".join(b"i%d" % k for k in range(1000))
    yield (names + b"\n") * 201
    yield (names + b"\n") * 201 + b"i7\n"
    yield (names + b"\n") * 202 + b"i7 i8 none\n"
    yield from many_colours()


def many_colours() -> Iterator[bytes]:
    """Files with as many colours as may be, and with more, in options that are kept and in others."""
    for count in (10000, 10001):
        lines = [b"x:c%d\n" % k for k in range(count)]
        yield b"a | x\n" + b"".join(b"a " + line for line in lines)
        yield b"a | x\n" + b"".join(lines) + b"a x:new\n"
    names = [b"i%d" % k for k in range(990)]
    lines = [b"a " + b" ".join(b"%s:c%d" % (name, 990 * k + n) for n, name in enumerate(names)) + b"\n" for k in range(11)]
    for options in (lines, lines[:10] * 20 + lines, lines[:10] * 20 + lines[:1] + lines[10:]):
        yield b"a | " + b" ".join(names) + b"\n" + b"".join(options)


# ---- answers

def random_answer(draw: random.Random, text: bytes) -> bytes:
    """A cover of some lines of the file, with its head."""
    lines = [line for line in text.split(b"\n") if line.split() and not line.split()[0].startswith(b"|")][1:]
    chosen = draw.sample(lines, draw.randint(0, min(4, len(lines))))
    return b"cover %d\n" % len(chosen) + b"".join(line + b"\n" for line in chosen)


def some_answer(draw: random.Random, text: bytes, own: bytes) -> bytes:
    """An answer to a file: the program's own, that one spoilt, or a random one."""
    what = draw.randrange(5)
    if what == 0:
        return own
    if what == 1:
        return b"none\n"
    return spoilt(draw, random_answer(draw, text) if what > 2 else own, draw.choice([0, 0, 1, 1, 2]))


# ---- what is told, by hand

GOOD = b"a b c | x y\na b x\nb a x\na b c\ny\nx\n"
LETTERS = b"a b c d e f g\nc e\na d g\nb c f\na d f\nb g\nd e g\n"
COLOURS = b"p q r | x y\np q x y:A\np r x:A y\np x:B\nq x:A\nr y:B\n"
AUDIT = "the line of an audit is no part of the answer: leave it out, as by grep -v '^audit '"
ONE_WORD = "an item and its colour are one word, as in 'x:red'"
# a file, an answer or none, and lines that have to be told
TOLD: list[tuple[bytes, Optional[bytes], list[str]]] = [
    (GOOD, None, ["5 items (3 primary, 2 secondary), 3 options, 9 occurrences of items in them",
                  "2 options ignored for naming no primary item: lines 5 and 6",
                  "in one option alone, which every cover has: primary item 'c' (line 4)",
                  "in no option, and without effect: secondary item 'y'", "always together, in 3 options: 'a' and 'b'",
                  "the same items in 2 options: lines 2 and 3"]),
    (b"a b\na\n", None, ["in no option, so there is no cover: primary item 'b'"]),
    (b"a b\na\n", b"none\n", ["the program says: right"]),
    (b"a b\nA b\nb cc\na b\nb b\n", None, [
        "line 2, column 1, 'A': UnknownItem: no item has this name; nearest: 'a'",
        "line 3, column 3, 'cc': UnknownItem: no item has this name; the items are 'a' and 'b'",
        "line 5, column 3, 'b': DuplicateInOption: this option names it already; an option names each of its items once"]),
    (b"\xef\xbb\xbfa b\na b\n", None, [
        "the program says: refused: UnknownItem line 2",
        "the file begins with a byte order mark (bytes EF BB BF), which isn't seen and belongs to the first word: "
        "save it as UTF-8 without the mark",
        "apart from this the file can be read"]),
    (b"# mine\na b\na b\na x\n", None, ["the program says: refused: UnknownItem line 2",
                                      "line 4, column 3, 'x': UnknownItem: no item has this name; the items are 'a' and 'b'"]),
    (b"a \xc3\xa9\xc3\xa9  b\n\xc3\xa9\xc3\xa9\tb\tb\n", None, [
        "line 2, column 6, 'b': DuplicateInOption: this option names it already; an option names each of its items once"]),
    (b"a b\na\na x\nb x\n", None, [
        "line 3, column 3, 'x': UnknownItem: no item has this name; the items are 'a' and 'b' (the same in 1 more line: 4)"]),
    (LETTERS, b"cover 3\nc e\na d g\nb g\n", [
        "the program says: wrong: Uncovered f", "uncovered: 'f' (options that name it: lines 4 and 5 of the file)",
        "covered twice: 'g' by line 3 of the answer (line 3 of the file) and line 4 of the answer (line 6 of the file)"]),
    (LETTERS, b"cover 3\ne c\na d f\nb g\n", ["line 2: UnknownOption: names stand in the order of the file: write 'c e' (line 2)"]),
    (LETTERS, b"c e\na d f\nb g\n", ["line 1: BadHead: 'cover 3' is missing before the options"]),
    (LETTERS, b"cover 2\nc e\nc e\n", [
        "line 3: UnknownOption: the file has this option once (line 2), and the answer has it already at line 2"]),
    (LETTERS, b"cover 1\na d f g\n", ["line 2: UnknownOption: no option of the file has these names; nearest: 'a d g' (line 3)"]),
    (LETTERS, b"cover 300\n" + b"a\n" * 300, [
        "line 201: UnknownOption: no option of the file has these names", "and 100 more faults"]),
    (b"a b\na b\n", b"cover 1\n" + b" ".join(b"n%d" % k for k in range(13)), ["line 2: UnknownOption: " + "; ".join(
        [f"no item is named 'n{k}'; the items are 'a' and 'b'" for k in range(12)] + ["and 1 more"])]),
    (LETTERS, b"cover 3\nc e\na d f\nb g\n", ["the program says: right"]),
    (LETTERS, "cover 3\nc e\na d f\nb g\n".encode("utf-16"), [
        "line 1: BadHead: the answer is written in UTF-16, two bytes a character: save it as UTF-8"]),
    ("J\u00f6rg b\nJo\u0308rg\nb\n".encode(), None, [
        "line 2, column 1, 'Jo\u0308rg': UnknownItem: no item has this name; an item looks like it and has other characters, "
        "'J\\xf6rg' and not 'Jo\\u0308rg'"]),
    ("J\u00f6rg Jo\u0308rg\nJ\u00f6rg\nJo\u0308rg\n".encode(), None, ["names that look alike and are different: 'J\\xf6rg' and 'Jo\\u0308rg'"]),
    (LETTERS, b"none\naudit clean\n", [f"line 1: WrongCount: {AUDIT}"]),
    (LETTERS, b"cover 1\nc e\naudit unclean: MissingBook node 1 incarnation 1\n", [f"line 3: UnknownOption: {AUDIT}"]),
    (COLOURS, None, ["5 items (3 primary, 2 secondary), 5 options, 14 occurrences of items in them, 2 colours",
                     "in some options with a colour and in others without, which agree with none: "
                     "secondary items 'x' (line 2) and 'y' (line 3)",
                     "given to no item by two options, and so without effect: colour 'B'"]),
    (b"a b | x y\na x:1 y\nb y x:1\na y x:1\nb x:2\n", None, [
        "the same items and colours in 2 options: lines 2 and 4", "given to no item by two options, and so without effect: colour '2'"]),
    (COLOURS, b"cover 2\np r x:A y\nq x:A\n", [
        "the program says: right", "2 options, each primary item in exactly one of them, no secondary item in two unless in one colour"]),
    (COLOURS, b"cover 2\np q x y:A\nr y:B\n", [
        "the program says: wrong: CoveredTwice y",
        "covered twice: 'y' by line 2 of the answer (line 2 of the file) in 'A' and line 3 of the answer (line 6 of the file) in 'B'"]),
    (COLOURS, b"cover 2\nq x:A\np q x y:A\n", [
        "the program says: wrong: Uncovered r",
        "covered twice: 'q' by line 2 of the answer (line 5 of the file) and line 3 of the answer (line 2 of the file)",
        "covered twice: 'x' by line 2 of the answer (line 5 of the file) in 'A' and line 3 of the answer (line 2 of the file) "
        "without a colour"]),
    (COLOURS, b"cover 2\nq x:B\nq x\n", [
        "line 2: UnknownOption: no option of the file has these names in these colours; nearest: 'q x:A' (line 5)",
        "line 3: UnknownOption: no option of the file has these names in these colours; nearest: 'q x:A' (line 5)"]),
    (COLOURS, b"cover 1\ny:B r\n", ["line 2: UnknownOption: names stand in the order of the file: write 'r y:B' (line 6)"]),
    (b"a | x\na:red x\na x:\na :1\na x:1:2\na x:1 x:2\na : x\na y:red\na x:" + b"k" * 33 + b"\n", None, [
        "the program says: refused: ColourOnPrimary line 2",
        "line 2, column 1, 'a:red': ColourOnPrimary: 'a' is a primary item, which one option of a cover alone names; "
        "only secondary items have colours, those behind the '|' of line 1",
        "line 3, column 3, 'x:': BadColour: no colour stands behind the ':'; 'x' alone names the item without a colour, and " + ONE_WORD,
        "line 4, column 3, ':1': BadColour: no item stands before the ':'; " + ONE_WORD,
        "line 5, column 3, 'x:1:2': IllegalByte: a second ':' stands in it, and no name of an item or of a colour has one; "
        "one ':' parts them, as in 'x:red'",
        "line 6, column 7, 'x:2': DuplicateInOption: this option names it already; an option names each of its items once",
        "line 7, column 3, ':': BadColour: a ':' stands alone; " + ONE_WORD,
        "line 8, column 3, 'y:red': UnknownItem: no item is named 'y', as stands before the ':'; the items are 'a' and 'x'",
        "line 9, column 3, 'x:" + "k" * 33 + "': BadColour: a colour has at most 32 bytes, this one has 33"]),
    (b"a b c | x\na x\nb x\nc\nc x\n", None, [
        "'a' (line 2) and 'b' (line 3) are each in one option alone, and these options clash in 'x', so there is no cover",
        "too little room: 2 places needed, and there is 1, so there is no cover", "  each of these needs one: a and b", "  this one has room for one: x"]),
    (b"a b | x y\na x:1 y:2\nb x:1 y:3\n", None, [
        "'a' (line 2) and 'b' (line 3) are each in one option alone, and these options clash in 'y', so there is no cover"]),
    (b"a | x:red\na x:red\n", None, [
        "the program says: refused: IllegalByte line 1",
        "line 1, column 5, 'x:red': IllegalByte: no name has a ':'; the item line has names alone, and options give colours to "
        "secondary items, as in 'x:red'"]),
    (b"a ||x ||x\na\n", None, [
        "the program says: refused: IllegalByte line 1",
        "line 1, column 7, '||x': DuplicateItem: the item line names it already, at column 3"]),
]


@pytest.mark.parametrize("text, answer, expected", TOLD, ids=[expected[0][:60] for _, _, expected in TOLD])
def test_lines_by_hand(text: bytes, answer: Optional[bytes], expected: list[str]) -> None:
    """Lines that have to be told of a file and an answer."""
    lines, _ = explain.explain(text, answer)
    for line in expected:
        assert line in lines, f"not told of {text[:60]!r} and {answer!r}: {line}"


# ---- the comparison

class Comparing:
    """The program and explain.py side by side, and how often each kind of fault was met."""

    def __init__(self, program: str, folder: str) -> None:
        self.program, self.folder = program, folder
        self.kinds: collections.Counter[str] = collections.Counter()

    def write(self, name: str, text: bytes) -> str:
        path = os.path.join(self.folder, name)
        with open(path, "wb") as opened:
            opened.write(text)
        return path

    @staticmethod
    def content(path: str) -> bytes:
        """How a file begins."""
        with open(path, "rb") as opened:
            return opened.read(500)

    def run(self, *words: str) -> subprocess.CompletedProcess[bytes]:
        return subprocess.run([self.program, *words, "--fuel", FUEL], stdout=subprocess.PIPE, stderr=subprocess.PIPE, timeout=120)

    def explained(self, words: list[str]) -> tuple[list[str], bool, Optional[tuple[str, str]]]:
        """What explain.py says that the program says, whether it leaves the verdict open, and the first fault that it
        explains."""
        said = io.StringIO()
        with contextlib.redirect_stdout(said):
            explain.main(words)
        lines = said.getvalue().split("\n")
        program_says = [line[len(explain.SAYS):] for line in lines if line.startswith(explain.SAYS)]
        faults = (re.match(r"(?:line (\d+)|the file|the answer)\b.*?: ([A-Z][A-Za-z]+): ", line) for line in lines)
        by_search = any(line.startswith(explain.BY_SEARCH) for line in lines)
        return program_says, by_search, next(((found[2], found[1]) for found in faults if found), None)

    def compare(self, words: list[str], ran: subprocess.CompletedProcess[bytes], with_verdict: bool) -> None:
        told = [shown(line) for line in ran.stderr.split(b"\n")[:-1]]
        # (why there is no answer isn't foretold; of a file that can't be read, explain.py names file and cause in its
        # own words)
        told = [line for line in told if not line.startswith(("ended: ", "cannot read: "))]
        verdict = [shown(ran.stdout[:-1])] if with_verdict and ran.stdout.startswith((b"right", b"wrong: ")) else []
        says, by_search, first = self.explained(words)
        agrees = says == verdict + told or (by_search and says == told)
        refused = re.match(r"(?:answer )?refused: (\w+)(?: line (\d+))?", told[0] if told else "")
        if refused:
            agrees = agrees and first is not None and first[0] == refused[1] and refused[2] in (None, first[1])
        found = re.match(r"wrong: (Uncovered|CoveredTwice|a cover exists)", verdict[0] if verdict else "")
        self.kinds[refused[1] if refused else found[1] if found else "no fault"] += 1
        files = [self.content(word) for word in words if os.path.isfile(word)]
        assert agrees, f"the program {verdict + told}, explain.py {says}, first {first} of {files}"

    def file(self, draw: random.Random, text: bytes) -> None:
        """Compares a file, and where it can be read an answer to it."""
        file = self.write("file", text)
        ran = self.run("alone", file)
        self.compare([file], ran, False)
        if ran.returncode == 3:
            return
        answer = self.write("answer", some_answer(draw, text, ran.stdout))
        self.compare([file, answer], self.run("check", file, answer), True)


@pytest.fixture
def comparing(program: str, tmp_path: pathlib.Path) -> Comparing:
    return Comparing(program, str(tmp_path))


@pytest.mark.parametrize("kind", ("file", "answer"))
@pytest.mark.parametrize("cause", ("it is a folder", "there is no such file"))
def test_unreadable(comparing: Comparing, kind: str, cause: str) -> None:
    """Of a folder and a missing file, as the problem's file and as the answer's, both the program and explain.py name
    it."""
    letters = comparing.write("letters", LETTERS)
    path = comparing.folder if "folder" in cause else os.path.join(comparing.folder, "missing")
    words = [path] if kind == "file" else [letters, path]
    ran, said = comparing.run("alone" if kind == "file" else "check", *words), io.StringIO()
    with contextlib.redirect_stdout(said):
        status = explain.main(words)
    agrees = (ran.returncode, status) == (3, 3) and ran.stderr.startswith(f"cannot read: {path}: ".encode())
    agrees = agrees and said.getvalue() == f"{path} can't be read: {cause}\n"
    assert agrees, f"{words}: the program {ran.stderr!r}, explain.py {said.getvalue()!r}"


def examples() -> Iterator[tuple[str, bytes]]:
    """The examples, by their names."""
    for path in sorted(glob.glob(os.path.join(TOP, "examples", "*.dlx"))):
        with open(path, "rb") as opened:
            yield os.path.basename(path), opened.read()


def random_files(draw: random.Random, files: int) -> Iterator[bytes]:
    """So many files, most of them spoilt."""
    small = [text for _, text in examples() if len(text) < 3000]
    for _ in range(files):
        text = draw.choice(small) if draw.random() < 0.2 else random_problem(draw)
        yield spoilt(draw, text, draw.choice([0, 1, 1, 1, 2, 3]))


@pytest.mark.parametrize("name, text", examples(), ids=[name for name, _ in examples()])
def test_example(comparing: Comparing, name: str, text: bytes) -> None:
    comparing.file(random.Random(name), text)


@pytest.mark.parametrize("place", range(len(list(outside_cases()))))
def test_outside_case(comparing: Comparing, place: int) -> None:
    comparing.file(random.Random(place), list(outside_cases())[place])


@pytest.mark.parametrize("seed", range(20))
def test_random_files(comparing: Comparing, seed: int) -> None:
    draw = random.Random(seed)
    for text in random_files(draw, 10):
        comparing.file(draw, text)


@pytest.mark.slow
def test_each_kind_of_fault(comparing: Comparing) -> None:
    """Of a thousand random files, the examples and the outside cases all agree, and each kind of fault is met."""
    draw = random.Random(1)
    for text in (*(text for _, text in examples()), *outside_cases(), *random_files(draw, 1000)):
        comparing.file(draw, text)
    missed = [kind for kind in FAULTS if not comparing.kinds[kind]]
    assert not missed, f"never met: {missed}"
