"""Tries that nobody takes the `none` of a program without proofs for a proved one: what that program says of itself
beside it reaches who called, once, as a warning in Python and on standard error of the commands, whose output stays.
"""
from __future__ import annotations

import json
import os
import pathlib
import subprocess
import sys
import warnings
from collections.abc import Callable

import pytest

from built import TOP
import zarfepoch
from zarfepoch import Problem, UnprovedWarning
from zarfepoch.problems import RunningQuestion
from zarfepoch.programs import UnprovedNote
from zarfepoch.search.all_covers import Covers
from zarfepoch.search.parts import Prefix, Tree

LAUNCHER = os.path.join(TOP, "scripts", "zarfepoch")
NOTE = "unproved: no proof was checked of the program that says none"
# what such a program adds to the answers of the proved one
STUB = f"""#!/bin/sh
if [ "$1" = --version ]; then "$PROVED" --version; echo unproved; exit; fi
answer=$("$PROVED" "$@"); status=$?
echo "$answer"
case "$answer" in none*) echo "{NOTE}" >&2 ;; esac
exit $status
"""


@pytest.fixture(autouse=True)
def unproved(program: str, tmp_path: pathlib.Path, monkeypatch: pytest.MonkeyPatch) -> str:
    """A program that says of itself that nothing about it is proved."""
    path = tmp_path / "unproved"
    path.write_text(STUB, encoding="ascii")
    path.chmod(0o755)
    monkeypatch.setenv("PROVED", program)
    monkeypatch.setenv("ZARFEPOCH", str(path))
    return str(path)


def ran(*words: str, text: str = "") -> tuple[int, str, list[str]]:
    """The exit status of a command, its output and the lines of its standard error."""
    ended = subprocess.run([sys.executable, LAUNCHER, *words], input=text, capture_output=True, text=True, timeout=120)
    return ended.returncode, ended.stdout, ended.stderr.splitlines()


def has_note_once(lines: list[str]) -> bool:
    """Whether these lines have the note once, behind the name of a command."""
    return [line.partition(": ")[2] for line in lines if "unproved" in line] == [NOTE]


def test_json() -> None:
    """The output stays JSON."""
    status, output, errors = ran("--json", "-", text=json.dumps({"options": [["a", "b"], ["b", "c"]]}))
    assert (status, output) == (1, "null\n") and has_note_once(errors), f"null: {errors}"
    status, output, errors = ran("--json", "-", text=json.dumps({"options": [["a", "b"], ["c"]]}))
    assert (status, output, errors) == (0, "[0, 1]\n", []), "a cover rests on nobody's word"


NONE = (["queens", "3"], ["queens", "3", "--count"], ["queens", "3", "--all"], ["sudoku", "12..\n..3.\n....\n...3\n"])


@pytest.mark.parametrize("words", NONE, ids=lambda words: " ".join(words[:3]).split("\n")[0])
def test_no_solution(words: list[str], tmp_path: pathlib.Path) -> None:
    """Each way to ask for what a puzzle hasn't."""
    path = tmp_path / "puzzle"
    path.write_text(words[1], encoding="ascii")
    status, output, errors = ran(*(str(path) if "\n" in word else word for word in words))
    assert status == 1 and "There is no solution." in output and NOTE not in output, f"{output} {errors}"
    assert has_note_once(errors), f"{errors}"


def test_only_one() -> None:
    """That there is no other solution is a `none`, too."""
    status, output, errors = ran("sudoku", os.path.join(TOP, "examples", "sudoku.txt"))
    assert status == 0 and "It is the only solution." in output and has_note_once(errors), f"{errors}"
    status, output, errors = ran("queens", "6")
    assert status == 0 and "another solution" in output and errors == [], f"two covers: {errors}"


@pytest.mark.parametrize("further", ([], ["--search"]))
def test_why_none(further: list[str]) -> None:
    status, _, errors = ran("why-none", os.path.join(TOP, "examples", "langford-5.dlx"), *further)
    assert status == 0 and has_note_once(errors), f"{further}: {errors}"


def test_warnings_that_are_errors(monkeypatch: pytest.MonkeyPatch) -> None:
    """However Python treats warnings, the commands have a line."""
    for how in ("error", "ignore"):
        monkeypatch.setenv("PYTHONWARNINGS", how)
        status, output, errors = ran("queens", "3")
        assert status == 1 and has_note_once(errors), f"{how}: {errors}"


def warned(call: Callable[[], object]) -> tuple[object, list[tuple[str, str]]]:
    """What a call answers, and the texts and files of all its warnings, which have to be of the package's own kind."""
    with warnings.catch_warnings(record=True) as came:
        warnings.simplefilter("always")
        answer = call()
    assert all(issubclass(one.category, UnprovedWarning) for one in came), f"{came}"
    return answer, [(str(one.message), os.path.basename(one.filename)) for one in came]


def test_calls() -> None:
    """Each call that answers None warns once, at the line that called."""
    options, here = [["a", "b"], ["b", "c"]], [(NOTE, os.path.basename(__file__))]
    assert issubclass(UnprovedWarning, UserWarning)
    assert warned(lambda: zarfepoch.solve(options)) == (None, here)
    assert warned(lambda: zarfepoch.chosen(options)) == (None, here)
    assert warned(lambda: zarfepoch.solve(options, nodes=1, workers=1, audit=True)) == (None, here)
    assert warned(Problem(options=options).solve) == (None, here)
    reason, came = warned(lambda: zarfepoch.reasons(options))
    assert reason is not None and came == here
    assert warned(lambda: zarfepoch.solve([["a"]])) == ([0], [])


def test_all_covers(unproved: str) -> None:
    """Of a search that asks often, one warning for all of its answers."""
    problem = Problem(options=[["a", "b"], ["b", "c"], ["c", "d", "a"], ["d"]])
    tree, note = Tree(zarfepoch.files.cover_files.read_problem(problem.text())), UnprovedNote()

    def ask(prefix: Prefix) -> RunningQuestion:
        question = RunningQuestion(unproved, tree, prefix, note)
        question.run.thread.join()
        return question

    class Asking(Covers):
        """A search that leaves all to the program."""

        def searched(self) -> None:
            return None

    def twice() -> list[object]:
        return [list(Asking(tree, ask, 0).each()) for _ in range(2)]

    _, came = warned(twice)
    assert len(came) == 1 and came[0][0] == NOTE, f"{came}"
