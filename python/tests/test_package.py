"""Tries the package zarfepoch: its examples, answers and covers beside plain searches, what it raises, and its files.

The examples of the package and those of python/README.md are run as they stand. Of random problems, with items that
aren't texts, secondary items and colours, each answer and all covers are compared with plain searches. Problems are
written and read again.
"""
from __future__ import annotations

import contextlib
import doctest
import itertools
import json
import os
import pathlib
import random
import re
import signal
import stat
import subprocess
import sys
import time
from collections import Counter
from collections.abc import Hashable, Iterable, Iterator
from fractions import Fraction
from typing import Callable, Optional, TypeVar, Union

from hypothesis import HealthCheck, given, settings, strategies as some
import pytest

from built import TOP
from plain_search import clash, Numbered, read, search
from processes import children_called, long_search
import zarfepoch
from zarfepoch import Clique, Colored, Problem, Reason
from zarfepoch.commands import COMMANDS
from zarfepoch.files.cover_files import read_problem
from zarfepoch.problems import RunningQuestion
from zarfepoch.programs import UnprovedNote
from zarfepoch.reasons.even_room import any_reason, even_room, greatest
from zarfepoch.search.all_covers import Covers, Question
from zarfepoch.search.parts import Prefix, Tree

README = os.path.join(TOP, "python", "README.md")
EXAMPLES = os.path.join(TOP, "examples")
LAUNCHER = os.path.join(TOP, "scripts", "zarfepoch")
Raised = TypeVar("Raised", bound=BaseException)
Called = TypeVar("Called")
# what an audit may find
MISSING = "MissingBook node 1 incarnation 1"


def raised(kind: type[Raised], call: Callable[[], object]) -> Optional[Raised]:
    """What a call raises, which is expected to be of this kind."""
    came: object = "an answer"
    try:
        call()
    except Exception as why:
        came = why
    assert isinstance(came, kind), f"{kind.__name__}, and not {came!r}"
    return came


@pytest.fixture(autouse=True)
def top(monkeypatch: pytest.MonkeyPatch) -> None:
    """The examples of the page name files from the top on."""
    monkeypatch.chdir(TOP)


def test_examples_of_the_package() -> None:
    found = doctest.testmod(zarfepoch)
    assert found.attempted > 5 and not found.failed, f"the examples: {found}"


def test_commands_of_pip() -> None:
    """What pip puts on the path are the commands that are listed, each by the name of its module."""
    with open(os.path.join(TOP, "python", "pyproject.toml"), encoding="utf-8") as opened:
        named = dict(re.findall(r'^(zarfepoch[a-z-]*) = "zarfepoch\.commands:(\w+)"$', opened.read(), re.MULTILINE))
    assert named == {name: "zarfepoch" if module == "__main__" else module for name, module in COMMANDS.items()}


@pytest.mark.parametrize("name", COMMANDS)
def test_reader_that_goes_away(name: str) -> None:
    """A command whose output nobody reads ends quietly, as one does whose output can't be written."""
    reader, writer = os.pipe()
    os.close(reader)
    ended = subprocess.run([sys.executable, LAUNCHER, *name.split("-", 1)[1:], "--help"], stdout=writer, stderr=subprocess.PIPE)
    os.close(writer)
    assert (ended.returncode, ended.stderr) == (3, b""), f"{name}: {ended}"


# what pip and scripts/install.sh put on the path: a command by its name
INSTALLED = "import sys; sys.argv[0] = '/some/path/{}'; from zarfepoch.commands import *; command_of(COMMANDS['{}'])()"


@pytest.mark.parametrize("name", COMMANDS)
def test_usage_as_typed(name: str) -> None:
    """The usage of a command begins with the words that were typed, and so does what it says on standard error."""
    tool = name.split("-", 1)[1:]
    typed = {"scripts/zarfepoch": [LAUNCHER], "zarfepoch": ["-c", INSTALLED.format("zarfepoch", "zarfepoch")]}
    calls = [(" ".join([before, *tool]), [*call, *tool]) for before, call in typed.items()]
    for words, call in [*calls, (name, ["-c", INSTALLED.format(name, name)])]:
        ended = subprocess.run([sys.executable, *call, "--no-such-option"], capture_output=True, text=True)
        told = ended.stderr.startswith(f"usage: {words} [-h] ") and f"\n{words}: error: " in ended.stderr
        assert (ended.returncode, ended.stdout) == (2, "") and told, f"{words}: {ended}"


def test_complaint_as_typed() -> None:
    """A command without a usage line names itself as it was typed, too."""
    installed = ["-c", INSTALLED.format("zarfepoch", "zarfepoch")]
    for before, call in (("scripts/zarfepoch", [LAUNCHER]), ("zarfepoch", installed)):
        for word, told in (("sudoku", before), ("why-none", f"{before} why-none")):
            ended = subprocess.run([sys.executable, *call, word, "no-such-file"], capture_output=True, text=True)
            is_told = ended.stderr.startswith(f"{told}: no-such-file can't be read: ")
            assert ended.returncode == 3 and is_told, f"{word}: {ended}"


@pytest.mark.parametrize("text, told", (
    (b"a b\na c\n", "no item is named c"), (b"", "no line names items"), (b"| a\n", "no line names items"),
    (b"a\n\xff\n", "no item is named \\xff"), (None, "can't be read: No such file or directory")))
def test_problems_without_a_certificate(tmp_path: pathlib.Path, text: Optional[bytes], told: str) -> None:
    """Which file has no problem, and why, is said before its certificate is looked at."""
    path = tmp_path / "problem.dlx"
    if text is not None:
        path.write_bytes(text)
    call = [sys.executable, LAUNCHER, "check-certificate", str(path), os.devnull]
    ended = subprocess.run(call, capture_output=True, text=True)
    is_told = str(path) in ended.stderr and told in ended.stderr
    assert (ended.returncode, ended.stdout) == (3, "") and is_told, f"{text!r}: {ended}"


@pytest.mark.parametrize("words", (
    "another - -", "another FILE - -", "check-reason - -", "draw - -", "explain - -"))
def test_standard_input_twice(words: str) -> None:
    """What a command would find the second time is no empty file, of which it could say anything."""
    call = [os.path.join(EXAMPLES, "letters.dlx") if word == "FILE" else word for word in words.split()]
    ended = subprocess.run([sys.executable, LAUNCHER, *call], input="cover 0\n", capture_output=True, text=True)
    told = "- is the standard input, which can be read once" in ended.stderr
    assert (ended.returncode, ended.stdout) == (2, "") and told, f"{words}: {ended}"


@pytest.mark.parametrize("key", ("option", "primry", "secondry"))
def test_keys_of_json(key: str) -> None:
    """A key that says nothing is refused: the problem without it would be another one."""
    text = json.dumps({"options": [["a"]], key: ["a", "b"]})
    ended = subprocess.run([sys.executable, LAUNCHER, "--json", "-"], input=text, capture_output=True, text=True)
    told = f'"{key}" is none of "options", "primary", "secondary"'
    assert (ended.returncode, ended.stdout) == (3, "") and told in ended.stderr, f"{key}: {ended}"


@pytest.mark.parametrize("text, told", (
    ('{"options": [["a"]], "options": [["b"]]}', '"options" stands twice in an object'),
    ('{"options": [["a", NaN], [NaN]]}', "NaN is no number there"),
    ('{"options": [[-Infinity]]}', "-Infinity is no number there")))
def test_what_is_no_json(text: str, told: str) -> None:
    """What Python's reader would pass over or take in JSON's place: another problem would be solved."""
    ended = subprocess.run([sys.executable, LAUNCHER, "--json", "-"], input=text, capture_output=True, text=True)
    assert (ended.returncode, ended.stdout) == (3, "") and told in ended.stderr, f"{text}: {ended}"


def test_mistakes_of_a_command() -> None:
    """A mistake in a command itself, which nobody foresaw, isn't told as `none` is, by status 1."""
    code = "from zarfepoch.command_line.ends import run; run(lambda: [][0])"
    ended = subprocess.run([sys.executable, "-c", code], capture_output=True, text=True)
    assert ended.returncode == 3 and "IndexError" in ended.stderr, f"a mistake: {ended}"


@pytest.mark.parametrize("number", (signal.SIGTERM, signal.SIGHUP, signal.SIGINT))
def test_signals_end_the_program(tmp_path: pathlib.Path, number: signal.Signals) -> None:
    """A command that is ended by a signal, as where its terminal goes, ends the program that it runs."""
    path, begun = tmp_path / "slow", tmp_path / "begun"
    path.write_text(f"#!/bin/sh\necho $$ > {begun}.new; mv {begun}.new {begun}\nexec sleep 100\n", encoding="ascii")
    path.chmod(0o755)
    words = [sys.executable, LAUNCHER, "queens", "4"]
    with subprocess.Popen(words, env={**os.environ, "ZARFEPOCH": str(path)}, stderr=subprocess.PIPE) as run:
        until = time.monotonic() + 30
        while not begun.exists() and time.monotonic() < until:
            time.sleep(0.05)
        run.send_signal(number)
        said = run.communicate(timeout=30)[1]
    assert b"Traceback" not in said, f"signal {number}: {said!r}"
    state, place = "", pathlib.Path("/proc", begun.read_text(encoding="ascii").strip(), "stat")
    with contextlib.suppress(FileNotFoundError, ProcessLookupError):
        state = place.read_text(encoding="ascii").rpartition(")")[2].split()[0]
    # (a process that has ended may wait for whoever asks how)
    assert state in ("", "Z"), f"the program goes on after signal {number}: {state}"


@pytest.mark.parametrize("module", ("fractions", "csv"))
def test_interrupt_while_modules_are_read(tmp_path: pathlib.Path, module: str) -> None:
    """An interrupt ends a command without a word, whichever of the modules that the package uses are read as yet."""
    (tmp_path / f"{module}.py").write_text("import os, signal\nos.kill(os.getpid(), signal.SIGINT)\n", encoding="ascii")
    before = signal.signal(signal.SIGINT, signal.default_int_handler)
    try:
        ended = subprocess.run([sys.executable, LAUNCHER, "--help"], capture_output=True, env={**os.environ, "PYTHONPATH": str(tmp_path)})
    finally:
        signal.signal(signal.SIGINT, before)
    assert (ended.returncode, ended.stdout, ended.stderr) == (-signal.SIGINT, b"", b""), f"{module}: {ended}"


def test_examples_of_the_page() -> None:
    found = doctest.testfile(README, module_relative=False)
    assert found.attempted > 5 and not found.failed, f"the examples: {found}"


# ---- answers

@some.composite
def small_problems(draw: some.DrawFn) -> Problem:
    """Problems of a few items of several kinds, whose options are short."""
    kinds: list[Callable[[int], Hashable]] = [lambda k: k, lambda k: ("p", k), lambda k: f"p{k}", lambda k: float(k) + 0.5]
    primary = [draw(some.sampled_from(kinds))(k) for k in range(draw(some.integers(1, 6)))]
    secondary = [("s", k) for k in range(draw(some.integers(0, 3)))]
    problem = Problem(primary, secondary)
    for _ in range(draw(some.integers(1, 10))):
        words: list[zarfepoch.Word] = list(draw(some.lists(some.sampled_from(primary), max_size=3, unique=True)))
        others = draw(some.lists(some.sampled_from(secondary), unique=True)) if secondary else []
        words += [draw(some.sampled_from([item, Colored(item, "red"), Colored(item, 7)])) for item in others]
        problem.add(*words)
    return problem


def all_covers(problem: Problem) -> set[frozenset[int]]:
    """All exact covers, by trying all sets of options. Options without a primary item are in none: the program passes
    them over."""
    kept = [place for place, option in enumerate(problem) if any(problem.is_primary(item) for item in option)]
    sets = itertools.chain.from_iterable(itertools.combinations(kept, size) for size in range(1, len(problem.primary) + 1))
    return {frozenset(places) for places in sets if problem.is_cover(places)}


def is_right(problem: Problem, chosen: Optional[list[int]]) -> None:
    """Expects that an answer is that of a plain search."""
    _, primary, options, _ = read(problem._numbered_text(problem._numbered_lines()))
    wanted = search(primary, options, [])[0]
    assert (chosen is None) == (wanted is None) and (chosen is None or problem.is_cover(chosen)), f"{list(problem)}: {chosen}"
    assert chosen is None or chosen == sorted(set(chosen)), "places in order"
    reason = problem.reason()
    assert reason is None or wanted is None, f"a reason of {list(problem)}"


@settings(max_examples=100, deadline=None, derandomize=True, database=None, suppress_health_check=[HealthCheck.too_slow])
@given(small_problems())
def test_answers(problem: Problem) -> None:
    is_right(problem, problem.solve())
    is_right(problem, problem.solve(60))


@settings(max_examples=10, deadline=None, derandomize=True, database=None, suppress_health_check=[HealthCheck.too_slow])
@given(small_problems())
def test_answers_of_nodes(problem: Problem) -> None:
    is_right(problem, problem.solve(nodes=2, workers=1, audit=True))


@settings(max_examples=40, deadline=None, derandomize=True, database=None, suppress_health_check=[HealthCheck.too_slow])
@given(small_problems())
def test_covers(problem: Problem) -> None:
    listed = [frozenset(cover) for cover in problem.covers()]
    assert len(set(listed)) == len(listed) and set(listed) == all_covers(problem), f"all covers of {list(problem)}: {listed}"


def test_cliques() -> None:
    """Four exams in three slots, each two of which have a student in common: a reason counts the exams of a slot as a
    clique."""
    pairs = list(itertools.combinations("efgh", 2))
    problem = Problem("efgh", [(pair, slot) for pair in pairs for slot in range(3)])
    for slot in range(3):
        for exam in "efgh":
            problem.add(exam, *((pair, slot) for pair in pairs if exam in pair))
    reason = problem.reason()
    rooms: dict[Hashable, int] = {Clique(tuple(range(4 * slot, 4 * slot + 4))): 1 for slot in range(3)}
    assert reason == Reason(None, {}, dict.fromkeys("efgh", 1), rooms), f"a reason by cliques: {reason!r}"


def twos(people: Iterable[int]) -> list[frozenset[int]]:
    """Each two of some people."""
    return [frozenset(two) for two in itertools.combinations(people, 2)]


@pytest.mark.parametrize("people, size", ((6, 2), (8, 4), (9, 3)))
def test_golfers(people: int, size: int) -> None:
    """People who meet in groups on some evenings, each two at most once: counting tells where each meets others more
    often than there are others, and cases where two of four meet again, since there are two groups on the second
    evening, too."""
    for evenings in range(1, people // (size - 1) + 1):
        options: list[list[Hashable]] = [[*((evening, one) for one in group), *twos(group)] for evening in range(evenings)
                                         for group in itertools.combinations(range(people), size)]
        found = zarfepoch.reasons(options, itertools.product(range(evenings), range(people)), twos(range(people)))
        counted, by_cases = evenings * (size - 1) >= people, (people, size, evenings) == (8, 4, 2)
        assert (found is not None) == (counted or by_cases), f"{people} people in groups of {size}, {evenings} evenings: {found}"
        for one in (found.cases.values() if by_cases else [found]) if found else []:
            assert sum(one.needs.values()) > sum(one.rooms.values()), "what is needed, and what there is"


def test_time_for_a_reason(program: str) -> None:
    """Counting ends where its time is over, in Python and for the commands."""
    threes = [[*(f"{evening}.{one}" for one in three), *("".join(two) for two in itertools.combinations(three, 2))]
              for evening in range(5) for three in itertools.combinations("abcdefghi", 3)]
    people, pairs = [f"{evening}.{one}" for evening in range(5) for one in "abcdefghi"], ["".join(two) for two in itertools.combinations("abcdefghi", 2)]
    text = "\n".join(" ".join(line) for line in [[*people, "|", *pairs], *threes]).encode()
    problem = read_problem(text)
    # (/bin/false stands for a program that finds none)
    assert any_reason(program, text, problem) and any_reason("/bin/false", text, problem, 60.0, 60.0), "a reason"
    for words in ((program, 0.0, 60.0), ("/bin/false", 60.0, 0.0), ("/bin/false", None, 0.0)):
        assert any_reason(words[0], text, problem, *words[1:]) is None, f"no time: {words}"
    late = time.monotonic()
    raised(zarfepoch.TimeIsUp, lambda: even_room(problem, late))
    raised(zarfepoch.TimeIsUp, lambda: greatest([Fraction(1)], [[Fraction(1)]], [Fraction(1)], late))


def plain_covers(primary: int, options: list[Numbered], chosen: list[int], live: list[int]) -> Iterator[frozenset[int]]:
    """All exact covers that begin so and go on with live options, by the first item that isn't covered."""
    covered = {item for place in chosen for item in options[place]}
    item = next((item for item in range(primary) if item not in covered), None)
    if item is None:
        yield frozenset(chosen)
        return
    for place in live:
        if item in options[place]:
            left = [other for other in live if not clash(primary, options[place], options[other])]
            yield from plain_covers(primary, options, [*chosen, place], left)


def large_problem(draw: random.Random) -> Problem:
    """A problem of some more items and options, of which some are equal."""
    primary, secondary = [f"p{k}" for k in range(draw.randint(5, 8))], [f"s{k}" for k in range(draw.randint(0, 3))]
    problem = Problem(primary, secondary)
    for _ in range(draw.randint(12, 24)):
        words = draw.sample(primary, draw.randint(1, 4))
        problem.add(*words, *(Colored(item, draw.choice("ab")) if draw.random() < 0.6 else item for item in secondary if draw.random() < 0.4))
    return problem


class Slow(Covers):
    """The search for all covers that rests at many of its steps, so that the program is asked for most."""

    def __init__(self, tree: Tree, ask: Callable[[Prefix], Question], share: float, draw: random.Random) -> None:
        super().__init__(tree, ask, 0)
        self.share, self.draw = share, draw

    def searched(self) -> Optional[frozenset[int]]:
        return super().searched() if self.draw.random() < self.share else None


class Late:
    """A question that is answered by the covers that are known, after so many looks."""

    def __init__(self, known: set[frozenset[int]], prefix: Prefix, looks: int, draw: random.Random) -> None:
        below = sorted(sorted(cover) for cover in known if cover.issuperset(prefix.options))
        self.cover, self.looks = frozenset(draw.choice(below)) if below else None, looks

    def is_answered(self) -> bool:
        self.looks -= 1
        return self.looks < 0

    def answer(self) -> Optional[frozenset[int]]:
        return self.cover

    def end(self) -> None:
        self.looks = 0


def test_all_by_both() -> None:
    """All covers, where the search and the program meet anywhere: the program is asked from the first step on, and
    answers early or late."""
    questions, counts = 0, Counter[bool]()
    for seed in range(400):
        draw = random.Random(seed)
        problem = large_problem(draw)
        text = problem._numbered_text(problem._numbered_lines())
        tree = Tree(read_problem(text))
        _, primary, options, _ = read(text)
        known = set(plain_covers(primary, options, [], list(range(len(options)))))
        counts[bool(known)] += 1
        asked: list[Prefix] = []

        def ask(prefix: Prefix) -> Late:
            asked.append(prefix)
            return Late(known, prefix, draw.choice([0, 0, 1, 3, 9]), draw)

        listed = list(Slow(tree, ask, draw.choice([0.05, 0.3, 1]), draw).each())
        assert len(set(listed)) == len(listed) and set(listed) == known, f"all covers of {list(problem)} by both: {listed}"
        questions += len(asked)
        if seed < 50:
            program, note = os.environ["ZARFEPOCH"], UnprovedNote()
            listed = list(Slow(tree, lambda prefix: RunningQuestion(program, tree, prefix, note), 0.001, draw).each())
            assert len(set(listed)) == len(listed) and set(listed) == known, f"all covers of {list(problem)} by the program: {listed}"
    assert questions > 1000 and min(counts[True], counts[False]) > 20, f"enough of each: {questions} {counts}"


def test_many_covers() -> None:
    """All covers of problems in which one search for each wouldn't end; who goes on no further leaves no program
    behind."""
    made = subprocess.run([sys.executable, "-m", "zarfepoch.generate", "pentominoes", "3x20"], capture_output=True)
    found = [frozenset(cover) for cover in Problem.parse(made.stdout).covers(seconds=120)]
    assert len(found) == len(set(found)) == 8, f"pentominoes on 3 by 20: {len(found)}"
    queens = subprocess.run([sys.executable, "-m", "zarfepoch.generate", "queens", "9"], capture_output=True)
    assert len({frozenset(cover) for cover in Problem.parse(queens.stdout).covers()}) == 352, "nine queens"
    hard = long_search().covers(seconds=3)
    raised(zarfepoch.TimeIsUp, lambda: next(hard))
    assert children_called(os.path.basename(os.environ["ZARFEPOCH"])) == 0, "no program goes on"


# ---- what is raised, with the option and the item

CASES: list[tuple[type[zarfepoch.ProblemError], Callable[[], object], Optional[int], object]] = [
    (zarfepoch.UnknownItem, lambda: Problem(["a"], options=[["a"], ["b"]]), 1, "b"),
    (zarfepoch.RepeatedItem, lambda: Problem(["a"], options=[["a", "a"]]), 0, "a"),
    (zarfepoch.RepeatedItem, lambda: Problem(["a"], ["x", "a"]), None, "a"),
    (zarfepoch.ColoredPrimary, lambda: Problem(["a"], options=[[Colored("a", 1)]]), 0, "a"),
    (zarfepoch.ProblemError, lambda: Problem(["a"], ["x"], [["a", Colored("x", None)]]), 0, "x"),
    (zarfepoch.ProblemError, lambda: Problem([]), None, None), (zarfepoch.ProblemError, lambda: Problem(), None, None),
    (zarfepoch.ColoredPrimary, lambda: Problem(options=[["a"], ["b", Colored("x", 1)]]), 1, "x"),
    (zarfepoch.ProblemError, lambda: zarfepoch.solve(["ab"]), 0, None),
    (zarfepoch.ProblemError, lambda: zarfepoch.solve([["a"], {"b": 1}]), 1, None),
    (zarfepoch.ProblemError, lambda: zarfepoch.solve([["a"], 1]), 1, None),  # type: ignore[list-item]
    (zarfepoch.ProblemError, lambda: zarfepoch.chosen({"A": ["a"]}), None, None),
    (zarfepoch.ProblemError, lambda: Problem(["a b"]).text(), None, "a b"),
    (zarfepoch.ProblemError, lambda: Problem(["a"], ["x"], [["a", Colored("x", "1:2")]]).text(), 0, "1:2"),
    (zarfepoch.ProblemError, lambda: Problem([3]).text(), None, 3),
    (zarfepoch.ProblemError, lambda: Problem(["\ud800"]).text(), None, "\ud800"),
    (zarfepoch.ProblemError, lambda: Problem(["a"], options=[["a"], []]).text(), 1, None),
    (zarfepoch.TooLarge, lambda: Problem(range(1001)).solve(), None, None),
    (zarfepoch.TooLarge, lambda: Problem([0], options=[[0]] * 20_001).solve(), None, None)]
REFUSED: tuple[tuple[type[zarfepoch.ProblemError], Union[bytes, str], int, str], ...] = (
    (zarfepoch.UnknownItem, b"a b\na c\n", 2, "c"), (zarfepoch.UnknownItem, "a b\na c\n", 2, "c"), (zarfepoch.RepeatedItem, "a\na a\n", 2, "a"),
    (zarfepoch.RepeatedItem, "a a\n", 1, "a"), (zarfepoch.ColoredPrimary, "a\n\na:red\n", 3, "a:red"), (zarfepoch.ProblemError, "a:b\n", 1, "a:b"))
NUMBERS: tuple[dict[str, object], ...] = (
    {"nodes": 0}, {"nodes": 17}, {"nodes": 2.5}, {"nodes": True}, {"workers": 9}, {"seconds": 0}, {"seconds": -1}, {"seconds": float("nan")},
    {"seconds": "3"}, {"seconds": True})


@pytest.mark.parametrize("kind, call, option, item", CASES, ids=[f"{place} {kind.__name__}" for place, (kind, *_) in enumerate(CASES)])
def test_error(kind: type[zarfepoch.ProblemError], call: Callable[[], object], option: Optional[int], item: object) -> None:
    why = raised(kind, call)
    assert isinstance(why, ValueError) and why and (why.option, why.item) == (option, item), f"{kind.__name__}: {why!r}"


@pytest.mark.parametrize("kind, text, line, item", REFUSED, ids=[repr(text) for _, text, _, _ in REFUSED])
def test_refused_text(kind: type[zarfepoch.ProblemError], text: Union[bytes, str], line: int, item: str) -> None:
    why = raised(kind, lambda: Problem.parse(text))
    assert why and (why.line, why.item) == (line, item) and f"'{item}'" in str(why), f"the line and the item of {text!r}: {why!r}"


def test_too_many_items() -> None:
    raised(zarfepoch.TooLarge, lambda: Problem.parse(" ".join(f"i{k}" for k in range(1001)) + "\n"))


@pytest.mark.parametrize("wrong", NUMBERS, ids=str)
def test_wrong_number(wrong: dict[str, object]) -> None:
    number = raised(zarfepoch.WrongNumber, lambda: zarfepoch.solve([["a"]], **wrong))  # type: ignore[arg-type]
    assert isinstance(number, ValueError) and str(number).split(" is a ")[0] in wrong, f"the words on {wrong}: {number}"


def test_places_and_files_that_are_none() -> None:
    raised(zarfepoch.WrongNumber, lambda: zarfepoch.reasons([["a"]], seconds=0))
    place = raised(zarfepoch.ProblemError, lambda: Problem(["a"], options=[["a"]]).is_cover([1]))
    assert place and place.option == 1, f"a place without an option: {place}"
    raised(FileNotFoundError, lambda: Problem.read(os.path.join(TOP, "nothing")))
    nowhere = os.path.join(TOP, "nothing", "problem.dlx")
    lost = raised(FileNotFoundError, lambda: Problem(["a"]).write(nowhere))
    assert lost and lost.filename == nowhere, f"the file that can't be written: {lost!r}"


@pytest.mark.parametrize("late", (zarfepoch.TimeIsUp, TimeoutError, zarfepoch.Error))
def test_time_is_up(late: type[BaseException]) -> None:
    hard, begun = long_search(), time.monotonic()
    raised(late, lambda: hard.solve(seconds=0.3))
    assert time.monotonic() - begun < 5, "ended in time"


@pytest.mark.parametrize("program, failed", (("/bin/true", zarfepoch.ProgramError), ("/bin/false", zarfepoch.ProgramError), ("/dev/null", zarfepoch.NoProgram),
                                             (os.path.join(TOP, "nothing"), zarfepoch.NoProgram)), ids=("true", "false", "null", "nothing"))
def test_programs_that_are_none(program: str, failed: type[BaseException]) -> None:
    with_program(program, lambda: raised(failed, lambda: Problem(["a"], options=[["a"]]).solve()))


def test_words_left_out() -> None:
    """Primary items are all that aren't secondary, an option may be a list, and the options of a cover may be had
    themselves."""
    options: list[list[zarfepoch.Word]] = [["a", Colored("x", 1)], ["b", Colored("x", 2)], ["b", Colored("x", 1)], ["c"]]
    assert zarfepoch.solve([["a", "b"], ["c"], ["b", "c"]]) == [0, 1] and zarfepoch.solve([["a"], ["a", "b"]]) == [1], "all items are primary"
    assert zarfepoch.solve(options, secondary=["x"]) == [0, 2, 3], "all but secondary ones"
    assert zarfepoch.chosen(options, secondary=["x"]) == [options[0], options[2], options[3]], "the options themselves"
    assert zarfepoch.chosen([["a", "b"], ["b", "c"]]) is None and zarfepoch.reasons([["a", "b"], ["b", "c"]]) is not None, "no options"
    problem = Problem(["a", "b", ("c", 1)])
    places = [problem.add(["a", "b"]), problem.add("a"), problem.add({"b"}), problem.add([("c", 1)]), problem.add(("c", 1))]
    assert places == [0, 1, 2, 3, 4] and problem[0] == ("a", "b") and problem[3] == problem[4] == (("c", 1),), "options as lists"
    assert problem.chosen(seconds=10) == [problem[place] for place in problem.solve() or []], "the options of a problem"


@pytest.mark.parametrize("status, output, kind", (
    (4, "no answer", zarfepoch.NoAnswer), (5, "", zarfepoch.OutOfMemory), (5, "", MemoryError), (3, "", zarfepoch.ProgramError),
    (6, f"none\naudit unclean: {MISSING}", zarfepoch.UncleanAudit), (0, "none", zarfepoch.ProgramError),
    (1, "cover 1\n0", zarfepoch.ProgramError), (0, "cover 2\n0", zarfepoch.ProgramError)))
def test_stub_answers(tmp_path: pathlib.Path, status: int, output: str, kind: type[BaseException]) -> None:
    """Programs that end otherwise than ours would here."""
    path = tmp_path / "stub"
    path.write_text(f"#!/bin/sh\ncat > /dev/null\necho '{output}'\nexit {status}\n", encoding="ascii")
    path.chmod(0o755)
    found = with_program(str(path), lambda: raised(kind, lambda: Problem(["a"], options=[["a"]]).solve(audit=True)))
    assert (MISSING in str(found)) == (status == 6), f"what the audit found, of {found}"


@pytest.mark.parametrize("output", ("", "none\nweights"))
def test_stub_reasons(tmp_path: pathlib.Path, output: str) -> None:
    """Programs that end with the status of a reason, and write none."""
    path = tmp_path / "stub"
    path.write_text(f"#!/bin/sh\ncat > /dev/null\nprintf '{output}'\nexit 1\n", encoding="ascii")
    path.chmod(0o755)
    with_program(str(path), lambda: raised(zarfepoch.ProgramError, lambda: zarfepoch.reasons([["a"], ["b"]], ["a", "b"])))


def with_program(path: str, call: Callable[[], Called]) -> Called:
    """Calls with this program in place of ours."""
    ours = os.environ["ZARFEPOCH"]
    os.environ["ZARFEPOCH"] = path
    answer = call()
    os.environ["ZARFEPOCH"] = ours
    return answer


@pytest.mark.parametrize("name", sorted(name for name in os.listdir(EXAMPLES) if name.endswith(".dlx")))
def test_example_is_written_and_read(tmp_path: pathlib.Path, name: str) -> None:
    problem, path = Problem.read(os.path.join(EXAMPLES, name)), str(tmp_path / name)
    problem.write(path)
    again = Problem.read(path)
    same = (problem.primary, problem.secondary, list(problem)) == (again.primary, again.secondary, list(again))
    assert same and stat.S_IMODE(os.stat(path).st_mode) & 0o600 == 0o600, f"{name} written and read"


def test_names_of_all_bytes() -> None:
    odd = Problem.parse("ä \udcff | x\nä \udcff x:é\nx\n".encode("utf-8", "surrogateescape"))
    assert odd.primary == ("ä", "\udcff") and odd[0][2] == Colored("x", "é") and len(odd) == 2, "names of all bytes"
    assert Problem.parse(odd.text()).primary == odd.primary, "all bytes come again"


def test_a_board() -> None:
    """A board of more prefixes than a limit of visits can count: that dominoes don't cover it is decided by a
    reason."""
    cells = {(row, column) for row in range(14) for column in range(14)} - {(0, 0), (13, 13)}
    dominoes = [[(row, column), other] for row, column in sorted(cells) for other in ((row, column + 1), (row + 1, column)) if other in cells]
    assert zarfepoch.solve(dominoes, cells, seconds=60) is None, "a board of 14 by 14"


def test_calls() -> None:
    """Two hundred calls, one behind the other."""
    problem = Problem(["a", "b"], options=[["a"], ["b"]])
    for _ in range(200):
        assert problem.solve() == [0, 1], "a call"
