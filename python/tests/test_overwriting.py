"""Tries what commands write their files over: never over a file that they read, and never two things into one file; and
what they say of a file that has no name."""
from __future__ import annotations

import os
import pathlib
import shutil
import subprocess
import sys

import pytest

from built import TOP

LETTERS = os.path.join(TOP, "examples", "letters.dlx")
TABLE = "lesson,teacher,class,periods\nart,bob,5a,Mon1-2\nmaths,ann,5a,Mon1-2\n"
TEXTS = {"table.csv": TABLE, "5a.csv": TABLE, "rules.csv": "who,away\nann,Mon2\n",
         "plan.csv": "lesson,class,periods\nart,5a,Mon1\nmaths,5a,Mon2\n",
         "grid.txt": "..\n#.\n", "words.txt": "ab bc\n", "answer.txt": "cover 3\nc e\na d f\nb g\n",
         "none.dlx": "a b\na\n", "sudoku.txt": "." * 16}


def called(folder: pathlib.Path, words: str) -> "subprocess.CompletedProcess[str]":
    """A command in a folder of its own that has the texts."""
    call = [sys.executable, "-m", *words.split()]
    return subprocess.run(call, capture_output=True, text=True, cwd=folder, timeout=300)


@pytest.fixture
def folder(tmp_path: pathlib.Path) -> pathlib.Path:
    """A folder with the texts, a problem, and a link to a table."""
    for name, text in TEXTS.items():
        (tmp_path / name).write_text(text, encoding="utf-8")
    shutil.copy(LETTERS, tmp_path / "letters.dlx")
    os.symlink("table.csv", tmp_path / "link.csv")
    return tmp_path


def bytes_of(folder: pathlib.Path) -> dict[str, bytes]:
    return {path.name: path.read_bytes() for path in folder.iterdir() if path.is_file()}


@pytest.mark.parametrize("words", (
    "zarfepoch timetable table.csv --csv table.csv", "zarfepoch timetable table.csv --csv link.csv",
    "zarfepoch timetable table.csv --grid ./table.csv",
    "zarfepoch timetable table.csv --rules rules.csv --out rules.csv",
    "zarfepoch timetable table.csv --keep plan.csv --grid plan.csv", "zarfepoch timetable 5a.csv --out-dir .",
    "zarfepoch timetable table.csv --problem new --csv new", "zarfepoch sudoku sudoku.txt --out sudoku.txt",
    "zarfepoch sudoku sudoku.txt --problem sudoku.txt", "zarfepoch crossword grid.txt words.txt --out grid.txt",
    "zarfepoch crossword grid.txt words.txt --out words.txt", "zarfepoch board 3x3 --pieces words.txt --out words.txt",
    "zarfepoch.generate timetable table.csv --out table.csv", "zarfepoch.draw letters.dlx answer.txt --svg letters.dlx",
    "zarfepoch.draw letters.dlx answer.txt --svg answer.txt",
    "zarfepoch.draw letters.dlx answer.txt --svg new --csv new",
    "zarfepoch.why_none none.dlx --svg none.dlx"))
def test_nothing_is_lost(folder: pathlib.Path, words: str) -> None:
    """A command that would write over what it reads, or over what it writes, leaves all as it was."""
    before = bytes_of(folder)
    ended = called(folder, words)
    told = "which is read here" in ended.stderr or "would be one file" in ended.stderr
    assert ended.returncode == 2 and told, f"{words}: {ended.stderr}"
    assert bytes_of(folder) == before and not ended.stdout, f"{words}: a file was changed"


def test_parts_are_not_lost(folder: pathlib.Path) -> None:
    """The certificate of a whole isn't written over what a split wrote, nor over the certificate of a part."""
    assert called(folder, f"zarfepoch.split {TOP}/examples/langford-5.dlx --parts 3 --into parts").returncode == 0
    (folder / "parts" / "part-1.certificate").write_text("none\n", encoding="utf-8")
    before = bytes_of(folder / "parts")
    for name in before:
        ended = called(folder, f"zarfepoch.join parts --certificate parts/{name}")
        assert ended.returncode == 2 and "which is read here" in ended.stderr, f"{name}: {ended.stderr}"
    assert bytes_of(folder / "parts") == before, "the parts are as they were"
    assert called(folder, "zarfepoch.join parts --certificate parts/all").returncode == 3, "another name is no mistake"


def test_what_may_be_written(folder: pathlib.Path) -> None:
    """A device keeps nothing, so it takes any number of files. A plan that is kept may make place for the next one."""
    ended = called(folder, "zarfepoch timetable table.csv --csv /dev/null --grid /dev/null --problem /dev/null")
    assert ended.returncode == 0, f"three into a device: {ended.stderr}"
    ended = called(folder, "zarfepoch timetable table.csv --keep plan.csv --csv plan.csv")
    assert ended.returncode == 0, f"a plan in the place of one that is kept: {ended.stderr}"


@pytest.mark.parametrize("words", (
    "zarfepoch sudoku sudoku.txt --out", "zarfepoch sudoku sudoku.txt --problem", "zarfepoch timetable table.csv --csv",
    "zarfepoch timetable table.csv --grid", "zarfepoch timetable table.csv --out-dir",
    "zarfepoch timetable table.csv --rules", "zarfepoch timetable table.csv --keep",
    "zarfepoch board 3x3 --pieces", "zarfepoch.generate sudoku sudoku.txt --out",
    "zarfepoch.draw letters.dlx answer.txt --svg", "zarfepoch.why_none none.dlx --svg",
    "zarfepoch.split letters.dlx --parts 2 --into"))
def test_empty_names(folder: pathlib.Path, words: str) -> None:
    """An option with an empty word, as a variable of the shell leaves it that isn't set, isn't passed over: another
    plan would be made, or none be kept."""
    before = bytes_of(folder)
    call = [sys.executable, "-m", *words.split(), ""]
    ended = subprocess.run(call, capture_output=True, text=True, cwd=folder, timeout=300)
    told = f"{words.split()[-1]} names no f" in ended.stderr
    assert (ended.returncode, ended.stdout) == (2, "") and told, f"{words}: {ended}"
    assert bytes_of(folder) == before, f"{words}: a file was changed"


@pytest.mark.parametrize("words", (
    "zarfepoch sudoku", "zarfepoch timetable", "zarfepoch --json", "zarfepoch.explain", "zarfepoch.why_none"))
def test_files_without_a_name(folder: pathlib.Path, words: str) -> None:
    """That a file has no name is said in words, and not by a gap in the message."""
    call = [sys.executable, "-m", *words.split(), ""]
    ended = subprocess.run(call, capture_output=True, text=True, cwd=folder, timeout=300)
    told = "a file without a name can't be read" in ended.stdout + ended.stderr
    assert ended.returncode == 3 and told, f"{words}: {ended}"
