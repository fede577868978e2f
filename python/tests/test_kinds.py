"""Tries the command zarfepoch KIND: a puzzle or a school from its text to its answer, drawn, with whether it is the
only one.

Of each kind some puzzles are drawn by lot. What is drawn is tested by the kind's own rules, which know nothing of items
and options; whether an answer is the only one is compared with puzzles of which that is known. Reasons are told in the
words of the puzzle, and which of its givens may be mistyped. All solutions are drawn and counted. Sudokus in all
spellings are one, and texts that can't be meant are refused. Pages that are made of the commands' help have all their
options.
"""
from __future__ import annotations

import os
import pathlib
import re
import subprocess
import sys
from typing import Optional
from xml.etree import ElementTree

import pytest

from built import TOP
from drawn_kinds import PUZZLES, drawn_by_lot
from plan_rules import faults

ONLY, OTHER = "It is the only solution.", "There is another solution; --all draws each."
UNIQUE = "8..........36......7..9.2...5...7.......457.....1...3...1....68..85...1..9....4.."
SUDOKU = """5 3 . . 7 . . . .\n6 . . 1 9 5 . . .\n. 9 8 . . . . 6 .\n8 . . . 6 . . . 3\n4 . . 8 . 3 . . 1\n7 . . . 2 . . . 6
. 6 . . . . 2 8 .\n. . . 4 1 9 . . 5\n. . . . 8 . . 7 9\n"""


class Solving:
    def __init__(self, program: str, folder: str) -> None:
        self.folder, self.environment = folder, {**os.environ, "ZARFEPOCH": program}

    def path(self, name: str, text: Optional[str] = None) -> str:
        path = os.path.join(self.folder, name)
        if text is not None:
            with open(path, "w", encoding="utf-8") as opened:
                opened.write(text)
        return path

    def run(self, *words: str, program: Optional[str] = None, module: str = "zarfepoch") -> tuple[int, list[str], str]:
        """The exit status, the lines of the standard output, and standard error."""
        environment = {**self.environment, **({"ZARFEPOCH": program} if program else {})}
        ended = subprocess.run([sys.executable, "-m", module, *words], capture_output=True, text=True, env=environment, timeout=300)
        return ended.returncode, ended.stdout.splitlines(), ended.stderr


@pytest.fixture
def trial(program: str, tmp_path: pathlib.Path) -> Solving:
    return Solving(program, str(tmp_path))


@pytest.mark.parametrize("kind", PUZZLES)
def test_kind(trial: Solving, times: int, kind: str) -> None:
    """Each kind, from its text to the drawn answer, in one command."""
    _, words, further = PUZZLES[kind]
    for number, (texts, is_right) in enumerate(drawn_by_lot(5, times)[kind]):
        paths = [trial.path(f"{kind}-{k}.txt", one) for k, one in enumerate(texts)]
        told = paths if words != ["board"] else [paths[0], "--pieces", paths[1]]
        status, lines, errors = trial.run(*words, *told, *further, "--seconds", "60")
        assert status == 0 and is_right(lines[:-1]), f"{kind} {number}: {errors} {lines}"
        assert lines[-1] in (ONLY, OTHER), f"{kind} {number}: {lines[-1:]}"


def in_files(trial: Solving, words: list[str]) -> list[str]:
    """The words of a command, with a file in place of each that has more than one line."""
    return [trial.path(f"file-{place}.txt", word) if "\n" in word else word for place, word in enumerate(words)]


@pytest.mark.parametrize("words, told", (
    (["sudoku", UNIQUE], ONLY), (["sudoku", "." * 16], OTHER), (["langford", "3"], OTHER), (["queens", "1"], ONLY), (["queens", "6"], OTHER),
    (["killer", os.path.join(TOP, "examples", "killer.txt")], ONLY), (["sudoku", os.path.join(TOP, "examples", "sudoku.txt")], ONLY),
    (["crossword", "..\n#.\n", "ab bc\n"], ONLY), (["crossword", "..\n#.\n", "ab bc bd\n"], OTHER), (["nonogram", "1\n3\n1\n\n1\n3\n1\n"], ONLY),
    (["nonogram", "1\n1\n\n1\n1\n"], OTHER), (["nonogram", "1,,\n3,,\n1,,\n,,\n1,,\n3,,\n1,,\n,,\n"], ONLY),
    (["nonogram", "1;\r\n1;\r\n ; \r\n1;\r\n1;\r\n"], OTHER)), ids=ascii)
def test_only_ones(trial: Solving, words: list[str], told: str) -> None:
    """Whether an answer is the only one."""
    words = in_files(trial, words)
    status, lines, errors = trial.run(*words)
    assert status == 0 and lines[-1] == told, f"{words}: {lines[-1:]} {errors}"
    assert trial.run(*words, "--one")[1][-1] not in (ONLY, OTHER), f"{words} with --one"


def test_a_large_board(trial: Solving) -> None:
    large = trial.path("large.txt", "\n".join(["30"] * 30) + "\n\n" + "\n".join(["30"] * 30) + "\n")
    assert trial.run("nonogram", large)[1][-1] == ONLY, "a board of 30 by 30"


# what can't be, each with words that have to be told
NONE = ((["queens", "3"], "There is no solution."), (["langford", "5"], "each option names an even number of these items"),
        (["board", "3x3", "--pieces", "4*I2 I1"], ""),
        (["dominoes", "4x4", "--without", "0,0", "3,3"], "each of these needs one: row 1 column 2"),
        (["sudoku", "12..\n..3.\n....\n...3\n"], "nothing is possible for a 3 in box 1"),
        (["sudoku", SUDOKU.replace("7 .", "7 2", 1)], "nothing is possible for an 8 in box 2"))


def test_first_case(trial: Solving) -> None:
    """The first of several ways that lead nowhere is told with its colours, and no square as though it were a cell."""
    text = (".T.T..T. 2\n........ 2\n....TT.. 1\n......T. 2\nT....... 0\n.T...... 2\n....T..T 2\nTT...... 1\n"
            "3 0 3 1 1 2 1 1\n")
    status, lines, errors = trial.run("tents", trial.path("tents.txt", text))
    case = next((line for line in lines if line.startswith("  row 2, row 2 column 2 tent")), "")
    square = "the square of four cells that begins in row 1 column 1"
    assert status == 1 and "row 2 column 7 blank" in case and square in case, f"{lines} {errors}"


@pytest.mark.parametrize("words, told", NONE, ids=[told or "a board with a hole" for _, told in NONE])
def test_none(trial: Solving, words: list[str], told: str) -> None:
    """What is told where there is no answer, in the puzzle's words."""
    words = in_files(trial, words)
    status, lines, errors = trial.run(*words)
    assert status == (1 if told else 0) and told in "\n".join(lines), f"{words}: {status} {lines} {errors}"


# what is told where no reason is found without a search, by the further words of the command
KEPT = "--problem FILE.dlx keeps the problem, and zarfepoch-why-none FILE.dlx"
NO_REASON: tuple[tuple[list[str], str, list[str]], ...] = (
    (["board", "6x5", "--pieces", "X F W I V U"], KEPT, []), (["queens", "3", "--count"], KEPT, []),
    (["queens", "3", "--problem", os.devnull, "--seconds", "9"], f"zarfepoch-why-none {os.devnull}", []),
    (["queens", "3", "--out", "FOLDER/none"], KEPT, ["No picture was written, since there is no solution."]))


@pytest.mark.parametrize("words, command, further", NO_REASON, ids=[" ".join(words) for words, *_ in NO_REASON])
def test_no_reason(trial: Solving, words: list[str], command: str, further: list[str]) -> None:
    """What is told where a program finds no reason, and counting none in its time."""
    searching = trial.path("searching", "#!/bin/sh\nif [ \"$1\" = why ]; then cat > /dev/null; echo no reason found; exit 4; fi\n"
                           f"exec {trial.environment['ZARFEPOCH']} \"$@\"\n")
    os.chmod(searching, 0o755)
    status, lines, errors = trial.run(*(word.replace("FOLDER", trial.folder) for word in words), program=searching)
    told = [line.replace("python3 -m zarfepoch.why_none", "zarfepoch-why-none") for line in lines]
    wanted = f"No reason was found without a search; {command} searches for items that can't be covered together."
    assert status == 1 and told == ["There is no solution.", wanted, *further], f"{words}: {status} {lines} {errors}"


# what is said where the program fails after so many answers, and the exit status
FAILING = (
    (["queens", "8"], 0, "ended with status 1, and wrote no answer", 3),
    (["timetable", os.path.join(TOP, "examples", "school.csv"), "--seconds", "12"], 0, "ended with status 1, and wrote no answer", 3),
    (["queens", "8"], 1, "Whether it is the only solution isn't known: the program", 0),
    (["sudoku", SUDOKU.replace("5 3 . .", "5 3 . 2", 1)], 1, "There is no solution.", 1))


@pytest.mark.parametrize("words, answers, told, wanted", FAILING, ids=[f"{words[0]} after {answers}" for words, answers, _, _ in FAILING])
def test_failing(trial: Solving, words: list[str], answers: int, told: str, wanted: int) -> None:
    """A program that ends with the status of `none`, as one does that can't be started, and writes nothing: nothing
    follows from that."""
    count = trial.path("count", "0")
    failing = trial.path("failing", f"#!/bin/sh\nn=$(cat {count})\necho $((n + 1)) > {count}\n[ $n -ge {answers} ] && exit 1\n"
                         f"exec {trial.environment['ZARFEPOCH']} \"$@\"\n")
    os.chmod(failing, 0o755)
    status, lines, errors = trial.run(*in_files(trial, words), program=failing)
    said = "\n".join(lines) + errors
    assert status == wanted and told in said and "Traceback" not in errors, f"{words}: {status} {said}"
    assert not any(claim in said for claim in ("There is no timetable", ONLY, OTHER, "More than one of its")), f"{words}: {said}"


@pytest.mark.parametrize("word, told", (("sudoko", "; did you mean sudoku?\n"), ("answer", "; answer is a command of the program: solve_cli answer ..\n"),
                                        ("q", ")\n")))
def test_unknown_kinds(trial: Solving, word: str, told: str) -> None:
    """What is said of a word that is no kind."""
    status, _, errors = trial.run(word, "x")
    assert status == 2 and errors.endswith(told), f"{word}: {errors}"


def test_plan_of_nobody(trial: Solving) -> None:
    """A plan of a name that nobody has is refused before the program is asked."""
    status, _, errors = trial.run("timetable", os.path.join(TOP, "examples", "school.csv"), "--plan", "nowak", program="/bin/false")
    assert status == 2 and "'nowak' is none of these" in errors, errors


def test_launcher() -> None:
    """The launcher of a clone without a kind."""
    ended = subprocess.run([sys.executable, os.path.join(TOP, "scripts", "zarfepoch")], capture_output=True, text=True)
    assert ended.returncode == 2 and "a KIND is missing" in ended.stderr and "Traceback" not in ended.stderr, ended.stderr


# what has no answer, and what is told of the files that aren't written
UNWRITTEN = (
    (["dominoes", "4x4", "--without", "0,0", "3,3", "--out", "FOLDER/none"], "No picture was written, since there is no solution; --problem FILE.dlx "
     "keeps the problem, and zarfepoch-why-none FILE.dlx --svg OUT.svg draws the reason."),
    (["dominoes", "4x4", "--without", "0,0", "3,3", "--out", "FOLDER/none", "--problem", os.devnull],
     f"No picture was written, since there is no solution; zarfepoch-why-none {os.devnull} --svg OUT.svg draws the reason."),
    (["sudoku", "11" + "." * 14, "--out", "FOLDER/none"], "No picture was written, since there is no solution."),
    (["timetable", "lesson,teacher,class,rooms,periods\na,ann,5a,,1 2\nb,ann,5b,,1 2\nc,ann,5c,,1 2\n", "--csv", "FOLDER/none"],
     "No plan was written, since there is no timetable."),
    (["timetable", "lesson,teacher,class,periods,times,length,a_day\nmaths,ann,5a,Mon-Tue1-2,2,,1\nart,bob,5a,Mon-Tue1-2,1,2,\nmusic,cy,5b,Mon1,1,,\n",
      "--out-dir", "FOLDER/none", "--seconds", "60"], "No plan was written, since there is no timetable."),
    (["dominoes", "4x4", "--without", "0,0", "3,3"], ""))


@pytest.mark.parametrize("words, told", UNWRITTEN, ids=[f"{words[0]} {place}" for place, (words, _) in enumerate(UNWRITTEN)])
def test_unwritten(trial: Solving, words: list[str], told: str) -> None:
    """Where there is no answer it is said in the last line that no picture or plan was written."""
    status, lines, errors = trial.run(*in_files(trial, [word.replace("FOLDER", trial.folder) for word in words]))
    last = lines[-1].replace("python3 -m zarfepoch.why_none", "zarfepoch-why-none") if lines else ""
    assert status == 1 and (last == told if told else "written" not in last), f"{words}: {status} {lines} {errors}"
    assert not os.path.exists(trial.path("none")), f"{words}: nothing is written"


def test_reasons(trial: Solving) -> None:
    """What is told of cubes and of a timetable."""
    cubes = trial.path("cubes.txt", "one r r r r r r\ntwo r r r r r b\n")
    made = trial.path("cubes.dlx")
    trial.run("cubes", cubes, "--out", made, module="zarfepoch.generate")
    told = "\n".join(trial.run(made, module="zarfepoch.why_none")[1])
    assert "the cube two" in told and "b in front" in told, f"cubes: {told}"
    table = trial.path("few.csv", "lesson,teacher,class,rooms,periods\na,ann,5a,r,1 2\nb,ann,5b,r,1 2\nc,bob,5a,,1 2\nd,bob,5b,,2\ne,cy,5b,r,2 3\n")
    status, lines, errors = trial.run("timetable", table)
    assert status in (0, 1), f"a timetable: {status} {lines} {errors}"


# puzzles in which one thing is mistyped: the words of the command, a text, what is changed in it the first time it
# comes, and what has to be told
MISTYPED: tuple[tuple[list[str], str, str, str, str], ...] = (
    (["sudoku"], "sudoku", "8.", "84", "without the 4 in row 1 column 2"),
    (["jigsaw"], "jigsaw", "....5849", "7...5849", "without the 7 in row 2 column 1"),
    (["sudoku", "--hyper"], "hyper", "89..46", "893.46", "without the 3 in row 3 column 4"),
    (["sudoku"], "clash", "8.", "89", "without the 9 in row 1 column 2"),
    (["killer"], "killer", "b=13", "b=12", "without the sum 12 of the cage that begins in row 1 column 2"),
    (["kakuro"], "kakuro", "16\\", "15\\", "without the sum 15 below row 1 column 2"),
    (["kenken"], "kenken", "f=7+", "f=9+", "without the 9+ of the cage f"),
    (["dominosa"], "dominosa", "3 4", "2 4", "with a 3 in place of the 2 in row 1 column 1"),
    (["tents"], "tents", "T. 3", "T. 2", "with 3 in place of the 2 of row 1"),
    (["tents"], "tents", "\n3 0", "\n4 0", "with 3 in place of the 4 of column 1"),
    (["tents"], "tents", "TT......", "T.......", "with a tree in row 8 column 2"),
    (["shikaku"], "shikaku", ". 2", ". 3", "with 2 in place of the 3 in row 1 column 2"),
    (["futoshiki"], "futoshiki", ". < .", ". > .", "without the sign between row 2 column 3 and row 2 column 4"),
    (["futoshiki"], "futoshiki", ".   .   .   .   .", "2   .   .   .   .", "without the 2 in row 1 column 1"),
    (["binairo"], "binairo", ". . . . . . 0", "0 . . . . . 0", "without the 0 in row 1 column 1"),
    (["binairo"], "binairo", "0 . 0 . 1", "0 0 0 . 1", "without the 0 in row 3 column 2"),
    (["nonogram"], "nonogram", "3", "2", "without the numbers of row 2"), (["nonogram"], "straight", "1 1", "2", "without the numbers of row 1"),
    (["coloring", "--colors", "red,green"], "map", "a b", "c b", "without the border of a and c"),
    (["coloring"], "given", "d=red", "b=red", "without the colour red of b"))
TEXTS = {"sudoku": "\n".join(UNIQUE[k:k + 9] for k in range(0, 81, 9)), "clash": "\n".join(UNIQUE[k:k + 9] for k in range(0, 81, 9)),
         "nonogram": "1\n3\n1\n\n1\n3\n1\n", "straight": "1 1\n1\n1 1\n\n1 1\n1\n1 1\n", "map": "a b\nb c\na d\nd c\na c\n",
         "given": "a=red\nd=red\na b\nb c\nc d\n"}


@pytest.mark.parametrize("words, name, before, behind, told", MISTYPED, ids=[told for *_, told in MISTYPED])
def test_mistyped(trial: Solving, words: list[str], name: str, before: str, behind: str, told: str) -> None:
    """Of a puzzle in which one thing is mistyped it is told which, within some seconds."""
    path = os.path.join(TOP, "examples", f"{name}.txt")
    text = TEXTS[name] if name in TEXTS else open(path, encoding="utf-8").read()
    status, lines, errors = trial.run(*words, trial.path("mistyped.txt", text.replace(before, behind, 1)), "--seconds", "60")
    found = [re.fullmatch("There is (?:a|exactly one) solution (.*)[.]", line) for line in lines]
    assert (status == 1 and before in text and
                 told in ", or ".join(match[1] for match in found if match).split(", or ")), f"{words} {told}: {status} {lines} {errors}"


def test_wrong_givens(trial: Solving) -> None:
    """What is told where more than one thing is wrong, and how far it came, where the time is over."""
    text = SUDOKU.replace("3 .", "3 1", 1).replace(". . . . 8", "1 . . . 8", 1)
    status, lines, _ = trial.run("sudoku", trial.path("wrong.txt", text), "--seconds", "60")
    told = "More than one of its 32 givens is wrong: no change of one alone helps."
    assert status == 1 and lines[-1] == told, f"more than one is wrong: {lines}"
    status, lines, _ = trial.run("sudoku", trial.path("wrong.txt", TEXTS["sudoku"].replace("8.", "84", 1)), "--seconds", "60")
    begins = [line[:30] for line in lines[-2:]]
    assert begins == ["There is exactly one solution ", "With one of 20 other changes t"], f"what leaves one solution comes first: {lines}"
    status, lines, _ = trial.run("langford", "5")
    assert status == 1 and not any("solution with" in line or "givens" in line for line in lines), f"nothing is given: {lines}"
    slow = trial.path("slow", f"#!/bin/sh\nsleep 0.2\nexec {trial.environment['ZARFEPOCH']} \"$@\"\n")
    os.chmod(slow, 0o755)
    status, lines, _ = trial.run("sudoku", trial.path("late.txt", TEXTS["sudoku"].replace("8.", "84", 1)), "--seconds", "1", program=slow)
    assert status == 1 and re.fullmatch(r"\([1-9]\d? of 22 givens were looked at, in 1 seconds?\.\)", lines[-1]), f"the time is over: {lines}"


def test_all_solutions(trial: Solving) -> None:
    """All solutions of a puzzle, drawn or counted, and the help of the command and of each kind."""
    for words, count in ((["queens", "6"], 4), (["queens", "8"], 92), (["sudoku", UNIQUE], 1), (["langford", "4"], 2), (["sudoku", "." * 16], 288)):
        status, lines, errors = trial.run(*words, "--count")
        told = f"There are {count} solutions." if count > 1 else "There is 1 solution."
        assert status == 0 and lines == [told], f"{words} counted: {lines} {errors}"
    status, lines, errors = trial.run("queens", "6", "--all")
    drawn = "\n".join(lines[:-1]).strip().split("\n\n")
    assert status == 0 and len(set(drawn)) == len(drawn) == 4 and lines[-1] == "There are 4 solutions.", f"all queens: {lines} {errors}"
    status, lines, _ = trial.run("langford", "5", "--all")
    assert status == 1 and lines[0] == "There is no solution.", f"none of all: {lines}"
    status, lines, _ = trial.run("queens", "20", "--count", "--seconds", "1")
    told = r"There are at least [\d,]+ solutions: the time was over before the end."
    assert status == 0 and re.fullmatch(told, lines[0]), f"too many: {lines}"
    status, lines, _ = trial.run("queens", "20", "--all", "--seconds", "0.000001")
    told = "No solution was found: the time was over before the end."
    assert (status, lines) == (4, [told]), f"none in time: {lines}"
    assert trial.run("queens", "4", "--all", "--out", trial.path("all.svg"))[0] == 2, "a picture of all"
    told = "\n".join(trial.run("--help")[1])
    assert all(re.search(rf"\b{kind}\b", told) for kind in ("queens", "kenken", "word-square", "timetable", "cubes")), "all kinds in the help"
    told = "\n".join(trial.run("timetable", "--help")[1])
    assert all(word in told for word in ("a_day", "apart", "holes", "who,periods,away")), f"the columns of a timetable: {told}"
    assert "--boxes 4x3" in "\n".join(trial.run("sudoku", "--help")[1]), "what a sudoku reads"


def test_schools(trial: Solving) -> None:
    """A school in one command: its plan as a table, and as pictures of some."""
    table, rules = (os.path.join(TOP, "examples", name) for name in ("school.csv", "rules.csv"))
    plan = trial.path("plan.csv")
    status, lines, errors = trial.run("timetable", table, "--rules", rules, "--csv", plan, "--plan", "5a", "bell")
    assert (status == 0 and [line.split()[0] for line in lines if "Mon" in line] == ["bell", "5a"][::-1] or
                 [line.split()[0] for line in lines if "Mon" in line] == ["bell", "5a"]), f"a plan: {status} {errors} {lines[:2]}"
    with open(table, encoding="utf-8") as lessons, open(rules, encoding="utf-8") as ruled, open(plan, encoding="utf-8") as planned:
        found = faults(lessons.read().replace("hours", "times"), ruled.read(), planned.read())
    assert not found, f"the plan is right: {found}"
    status, lines, errors = trial.run("timetable", table, "--rules", rules, "--keep", plan, "--csv", "-")
    with open(plan, encoding="utf-8") as planned:
        assert status == 0 and lines == planned.read().splitlines(), f"the plan is kept: {errors}"
    assert "32 of 32 times of lessons stay" in errors and " from " not in errors, f"all stay: {errors}"
    two = trial.path("one.csv", "lesson;teacher;class;periods;times\nart;ann;5a;Mon1-3 Tue1-3;3\n")
    kept = trial.path("kept.csv", "lesson;class;periods\nart;5a;Mon1\nart;5a;Mon2\nart;5a;Tue2\n")
    for away, count, days in (("Mon1", 2, {"Mon2", "Tue2"}), ("Mon", 1, {"Tue1", "Tue2", "Tue3"})):
        without = trial.path("away.csv", f"who;away\nann;{away}\n")
        status, lines, errors = trial.run("timetable", two, "--rules", without, "--keep", kept, "--csv", "-")
        begins = {line.split(";")[4] for line in lines[1:]}
        assert status == 0 and f"{count} of 3 times of lessons stay" in errors and days <= begins, f"{count} stay without {away}: {status} {errors} {begins}"
        moved = sorted(begins - {"Mon1", "Mon2", "Tue2"})
        assert f"  art of 5a: from {'Mon1' if count == 2 else 'Mon1 Mon2'} to {' '.join(moved)}\n" in errors, f"what moved: {errors}"
    rows = [f"l{k};{one}t{k % 9};{one}{k // 9};;;3;;1" for one in "ab" for k in range(54)]
    large = trial.path("two.csv", "\n".join(["lesson;teacher;class;rooms;periods;times;length;a_day", *rows]) + "\n")
    week = trial.path("week.csv", "who;periods\nall;Mon-Fri1-6\n")
    status, lines, errors = trial.run("timetable", large, "--rules", week, "--csv", trial.path("parts.csv"), "--plan", "classes")
    parts = sorted(name for name in os.listdir(trial.folder) if name.startswith("parts-"))
    assert status == 0 and parts == ["parts-1.csv", "parts-2.csv"], f"two parts: {status} {errors} {parts}"


def test_plan_files(trial: Solving) -> None:
    """Plans as people read them: one table of all that are wanted, and a folder with files of each."""
    week, plan, folder = trial.path("grid.csv"), trial.path("rows.csv"), trial.path("plans")
    status, lines, errors = trial.run("timetable", os.path.join(TOP, "examples", "school.csv"), "--plan", "5a", "teachers", "--grid", week, "--csv", plan,
                                      "--out-dir", folder)
    assert status == 0 and not lines, f"plans in files: {status} {errors}"
    with open(week, encoding="utf-8") as grid, open(plan, encoding="utf-8") as rows:
        blocks, given = grid.read().split("\n\n"), [line.split(";") for line in rows.read().splitlines()[1:]]
    tables = [[row.split(";") for row in block.splitlines()] for block in blocks]
    cells = {(rows[0][0], f"{day}{row[0]}"): cell.split()[0] for rows in tables for row in rows[1:] for day, cell in zip(rows[0][1:], row[1:]) if cell}
    wanted = {(who, period): lesson for lesson, teachers, classes, _, periods, _ in given for period in periods.split()
              for who in f"{teachers}+{classes}".split("+") if who != "5b"}
    assert wanted == cells and len(blocks) == 6, f"periods down and days across: {cells}"
    found = {name: os.path.getsize(os.path.join(folder, name)) for name in os.listdir(folder)}
    assert found.keys() == {f"{who}.{ending}" for who, _ in wanted for ending in ("csv", "svg")} and all(found.values()), f"files of each: {found}"
    for name, block in zip(("5a", "adams", "bell"), blocks):
        with open(os.path.join(folder, f"{name}.csv"), encoding="utf-8") as one:
            assert one.read().strip() == block.strip(), f"the table of {name}"
        assert name in "".join(ElementTree.parse(os.path.join(folder, f"{name}.svg")).getroot().itertext()), f"the picture of {name}"


def test_plan_in_its_own_place(trial: Solving) -> None:
    """How many lessons stay is said of the plan that was there, also where the new one is written over it."""
    table = trial.path("moved.csv", "lesson,teacher,class,periods\nart,bob,5a,Mon2\nmaths,ann,5a,Mon1-2\n")
    plan = trial.path("kept.csv", "lesson,class,periods\nart,5a,Mon1\nmaths,5a,Mon2\n")
    status, _, errors = trial.run("timetable", table, "--keep", plan, "--csv", plan)
    assert status == 0 and "0 of 2 times of lessons stay" in errors, f"the old plan: {errors}"
    with open(plan, encoding="utf-8") as written:
        assert "art,bob,5a,-,Mon2,1" in written.read(), "the new plan"


def test_grid_of_a_crossword(trial: Solving) -> None:
    """The grid of a crossword is no table that is written: it may come from the standard input beside a picture."""
    words = trial.path("few-words.txt", "ab bc\n")
    call = [sys.executable, "-m", "zarfepoch", "crossword", "-", words, "--out", "-"]
    ended = subprocess.run(call, input="..\n#.\n", capture_output=True, text=True, env=trial.environment, timeout=300)
    assert ended.returncode == 0 and ended.stdout.startswith("<svg "), f"a picture: {ended.stderr}"
    grid, others = trial.path("grid.txt", "..\n#.\n"), trial.path("other-words.txt", "ab cd\n")
    status, lines, _ = trial.run("crossword", grid, others)
    assert status == 1 and not any("No picture" in line for line in lines), f"no picture was wanted: {lines}"


def test_odd_plans(trial: Solving) -> None:
    """Plans of names that can't be those of files, plans without days, and what can't be written."""
    odd = trial.path("odd.csv", "lesson;class;teacher;periods\nart;5/a;.;1-3\nmusic;5_a;bob;1-3\nsport;..;cy;1-3\n")
    folder = trial.path("odd-plans")
    status, _, errors = trial.run("timetable", odd, "--plan", "all", "--out-dir", folder)
    found = sorted(name for name in os.listdir(folder) if name.endswith(".svg"))
    assert status == 0 and found == ["5_a-2.svg", "5_a.svg", "_-2.svg", "_.svg", "bob.svg", "cy.svg"], f"names of files: {status} {errors} {found}"
    status, lines, errors = trial.run("timetable", odd, "--plan", "5_a", "--grid", "-")
    assert status == 0 and lines[0] == "5_a;lesson" and len(lines) == 4, f"a plan without days: {lines}"
    for what, wanted, words in (("a folder that is a file", 3, ["--out-dir", odd]), ("two on the standard output", 2, ["--grid", "-", "--csv", "-"]),
                                ("a table nowhere", 3, ["--grid", trial.path("nowhere/x.csv")])):
        status, _, errors = trial.run("timetable", odd, *words)
        assert status == wanted and errors.startswith("zarfepoch: ") and "Traceback" not in errors, f"{what}: {status} {errors}"


def test_written(trial: Solving) -> None:
    """Files that are wanted, and exit statuses."""
    picture, problem = trial.path("picture.svg"), trial.path("problem.dlx")
    status, lines, _ = trial.run("sudoku", UNIQUE, "--out", picture, "--problem", problem)
    assert status == 0 and lines == [ONLY] and ElementTree.parse(picture).getroot().tag.endswith("svg"), "a picture"
    assert trial.run(problem, module="zarfepoch.explain")[0] == 0, "the problem"
    status, lines, _ = trial.run("sudoku", UNIQUE, "--out", "-")
    assert status == 0 and ElementTree.fromstring("\n".join(lines)).tag.endswith("svg"), "a picture on the standard output"
    rows: tuple[tuple[str, list[str], int], ...] = (
        ("no kind", [], 2), ("an unknown kind", ["sudokus", "x"], 2), ("a file that isn't there", ["jigsaw", "nothing.txt"], 3),
        ("plain by counting", ["sudoku", "11" + "." * 14], 1),
        ("a folder that isn't there", ["queens", "4", "--out", "nothing/x.svg"], 3))
    # (a program that says so: nobody knows a problem of a kind that takes longer than a second on any machine)
    why = "ended: the time is over: try more --seconds, or answer"
    late = trial.path("late", f"#!/bin/sh\ncat > /dev/null\necho no answer\necho '{why}' >&2\nexit 4\n")
    os.chmod(late, 0o755)
    status, _, errors = trial.run("langford", "4", "--seconds", "1", program=late)
    assert (status, errors) == (4, "zarfepoch: no answer: the time is over: try more --seconds\n"), f"too little time: {status} {errors}"
    for what, words, wanted in rows:
        status, lines, errors = trial.run(*words)
        assert status == wanted and errors.startswith("zarfepoch: ") | errors.startswith("usage: ") and "Traceback" not in errors, f"{what}: {status} {errors}"
    slow = trial.path("slow", f"#!/bin/sh\nsleep 11\nexec {trial.environment['ZARFEPOCH']} \"$@\"\n")
    os.chmod(slow, 0o755)
    status, lines, errors = trial.run("queens", "4", "--one", program=slow)
    assert status == 0 and "still looking, for 10 seconds now" in errors and "this took 1" in errors, f"it says that it goes on: {errors}"
    status, lines, errors = trial.run("sudoku", "." * 81, "--count", "--seconds", "11")
    assert status == 0 and lines[0].startswith("There are at least "), f"a count that ends with its time: {lines}"
    assert re.search(r"still looking, for 10 seconds now: [\d,]{2,} solutions so far\n", errors), f"a count says how far it is: {errors}"
    for program, wanted in (("/dev/null", 2), ("/bin/false", 3), ("/bin/true", 3)):
        status, _, errors = trial.run("queens", "4", program=program)
        assert status == wanted and "Traceback" not in errors, f"the program {program}: {status} {errors}"


@pytest.mark.parametrize("text", ("nan", "0", "-1", "x", ""))
def test_seconds_that_are_none(trial: Solving, text: str) -> None:
    """A time that is none is a mistake on the command line, and says what is expected."""
    for words in (["queens", "4", f"--seconds={text}"], ["--json", os.devnull, f"--seconds={text}"]):
        status, lines, errors = trial.run(*words)
        assert (status, lines) == (2, []) and f"'{text}' is no number above 0" in errors, f"{words}: {status} {errors}"


@pytest.mark.parametrize("text", ("inf", "1e400", "1e9", "1000001", "1e6"))
def test_seconds_without_end(trial: Solving, text: str) -> None:
    """A time beyond what the program takes is no limit."""
    for words in (["queens", "4"], ["queens", "4", "--count"], ["queens", "3"]):
        status, _, errors = trial.run(*words, "--seconds", text)
        assert (status, errors) == (int(words[1] == "3"), ""), f"{words}: {status} {errors}"


def test_spellings(trial: Solving) -> None:
    """One sudoku in many spellings; boxes in both ways; words in capitals and small letters."""
    bare = SUDOKU.replace(" ", "")
    texts = {"commas": SUDOKU.replace(" ", ",").replace(".", ""), "semicolons": SUDOKU.replace(" ", ";").replace(".", ""),
             "tabs": SUDOKU.replace(" ", "\t").replace(".", ""), "commas at the ends": SUDOKU.replace(" ", ",").replace(".", "").replace("\n", ",\n"),
             "titles": f"# Monday 12 March, hard\n{SUDOKU}\nvery hard\n", "a title and blanks": "No. 123\n" + bare.replace(".", " "),
             "a title in one line": "Sudoku 7\n\n" + bare, **{mark: bare.replace(".", mark) for mark in "-*x?0_\u00b7"}}
    wanted = trial.run("sudoku", trial.path("sudoku.txt", SUDOKU), module="zarfepoch.generate")[1][1:]
    for what, text in texts.items():
        status, lines, errors = trial.run("sudoku", trial.path("sudoku.txt", text), module="zarfepoch.generate")
        assert status == 0 and lines[1:] == wanted, f"a sudoku with {what}: {errors}"
    six = trial.path("six.txt", "6.....\n..6...\n" + "......\n" * 4)
    status, _, errors = trial.run("sudoku", six)
    assert status == 1 and "--boxes 3x2 turns them" in errors and "line 2" in errors, f"boxes of two rows: {errors}"
    status, lines, errors = trial.run("sudoku", six, "--boxes", "3x2", "--one")
    rows = [line.replace("|", " ").split() for line in lines if re.search(r"\d", line)]
    boxes = [{rows[r][c] for r in range(top, top + 3) for c in range(left, left + 2)} for top in (0, 3) for left in (0, 2, 4)]
    assert status == 0 and all(len(box) == 6 for box in boxes), f"boxes of three rows: {lines} {errors}"
    assert trial.run("sudoku", six, "--boxes", "2x2")[0] == 3, "boxes that can't be"
    grid, words = trial.path("grid.txt", "..\n#.\n"), trial.path("words.txt", "AB\nbc\nx\nx1y\n")
    assert trial.run("crossword", grid, words)[0] == 3, "capitals"
    status, _, errors = trial.run("crossword", trial.path("capitals.txt", "AB\n"), trial.path("small.txt", "ab\n"))
    assert status == 1 and "with --ignore-case they are alike" in errors, f"what makes capitals alike: {errors}"
    status, lines, errors = trial.run("word-square", "--ignore-case", "--one", trial.path("square.txt", "Ab\ncd\nac\nbd\n"))
    assert status == 0 and lines in (["a b", "c d"], ["a c", "b d"]), f"a square of words in two cases: {lines} {errors}"
    status, lines, errors = trial.run("crossword", grid, words, "--ignore-case")
    assert status == 0 and lines[:2] == ["a b", "  c"] and "2 words of 4" in errors, f"capitals and small letters: {lines} {errors}"
    pieces = trial.path("pieces.txt", "A\nxx.\n.xx\nB\nxx\n")
    status, _, errors = trial.run("board", "2x3", "--pieces", pieces)
    assert status == 3 and "line 4" in errors and "an empty line parts it" in errors, f"pieces without an empty line: {errors}"
    assert trial.run("board", "2x2", "--pieces", trial.path("capital.txt", "A\nXX\nXX\n"))[0] == 0, "pieces of capitals"


# puzzles of numbers and signs that nobody can mean, or that plainly have no solution: what they are, the exit status,
# the line, the kind and the text
WRONG = (
    ("a grid that is no set of dominoes", 3, None, "dominosa", "0 1\n1 0\n"), ("a number too large", 3, "2", "dominosa", "0 0 1\n1 2 0\n"),
    ("a number too often", 1, None, "dominosa", "0 0 1\n1 0 0\n"), ("a row too short", 3, "2", "dominosa", "0 0 1\n1 1\n"),
    ("a letter in a tents puzzle", 3, "1", "tents", "Tq 1\n.. 0\n1 0\n"), ("a number too few", 3, "2", "tents", "T. 1\n..\n1 0\n"),
    ("more trees than tents", 1, None, "tents", "TT 1\n.. 0\n1 0\n"), ("tents without room", 1, "1", "tents", "T.. 2\n..T 0\n1 1 0\n"),
    ("numbers that don't fill a grid", 1, None, "shikaku", "2 .\n. 3\n"), ("a rectangle without room", 1, "1", "shikaku", "3 .\n1 .\n"),
    ("a letter in a shikaku", 3, "2", "shikaku", "2 .\n. b\n"),
    ("a sign below no cell", 3, "2", "futoshiki", ". . .\n v\n. . .\n. . .\n"), ("a sign at the end", 3, "1", "futoshiki", ". . <\n. .\n"),
    ("a digit too large", 3, "2", "futoshiki", ". .\n. 3\n"), ("a chain too long", 1, "1", "futoshiki", ". < . < .\n. . .\n. . .\n".replace("< .\n", "< 1\n")),
    ("a row of a futoshiki too short", 3, "2", "futoshiki", ". .\n.\n"),
    ("a cage that makes nothing", 3, "1", "kenken", "ab\nab\n\na=3+\n"), ("a difference of three", 3, "1", "kenken", "aab\nacb\nccb\n\na=1- b=6+ c=6+\n"),
    ("a product that can't be", 1, "1", "kenken", "aa\nbb\n\na=5* b=3+\n"), ("no operation", 3, "1", "kenken", "aa\nbb\n\na=3 b=3+\n"),
    ("a cage in two parts", 3, "1", "kenken", "ab\nba\n\na=3+ b=3+\n"), ("two cages of one letter", 3, "4", "kenken", "aa\nbb\n\na=3+ a=3+\n"),
    ("an odd binairo", 3, None, "binairo", "...\n...\n...\n"), ("a two", 3, "1", "binairo", "2.\n..\n"), ("three ones", 1, "2", "binairo", "....\n111.\n....\n....\n"),
    ("a given colour of no place", 3, "2", "coloring", "a b\nc=red\n"), ("a given colour that there isn't", 3, "2", "coloring", "a b\na=pink\n"),
    ("two given colours", 3, "3", "coloring", "a b\na=red\na=blue\n"), ("a hyper sudoku with a digit twice in a window", 1, "3", "hyper", ".........\n.1.......\n..1......\n" + ".........\n" * 6))


@pytest.mark.parametrize("kind", ("dominosa", "tents", "shikaku", "futoshiki", "kenken", "binairo"))
def test_example_of_numbers(trial: Solving, kind: str) -> None:
    """Kinds of numbers and signs: the examples have one solution each."""
    status, lines, errors = trial.run(kind, os.path.join(TOP, "examples", f"{kind}.txt"))
    assert status == 0 and lines[-1] == ONLY, f"{kind}: {lines} {errors}"


@pytest.mark.parametrize("what, wanted, line, kind, text", WRONG, ids=[what for what, *_ in WRONG])
def test_wrong_numbers(trial: Solving, what: str, wanted: int, line: Optional[str], kind: str, text: str) -> None:
    """What can't be is told with its line."""
    words = [kind, trial.path("wrong.txt", text)] if kind != "hyper" else ["sudoku", trial.path("wrong.txt", text), "--hyper"]
    status, _, errors = trial.run(*words)
    assert status == wanted and (line is None or f"line {line}" in errors) and "Traceback" not in errors, f"{what}: {status} {errors}"


# mistakes of one mark, each with the line and the words that name it
NAMED = (
    ("kenken", "aa\nbb\n\na=3+ a=3+\n", "line 4: 'a=3+': the cage a makes something already"),
    ("kenken", "aa\nbb\n\na=3+ b=3+ c=3+\n", "line 4: 'c=3+': there is no cage c"),
    ("kenken", "aa\nbb\n\na=3+ b=3?\n", "line 4: 'b=3?' isn't what a cage makes"),
    ("futoshiki", ". .\n^ x\n. .\n", "line 2: the 'x' at place 3 stands beside a '^'"),
    ("futoshiki", ". .\n. v\n. .\n", "line 2: the '.' at place 1 stands"),
    ("tents", "T.\n.. 1\n0 1\n", "line 1: cells and the number of their tents behind a blank are expected"),
    ("tents", "T. 1\n.. 0\n", "line 2: the last line has the numbers of tents in columns"),
    ("sudoku", "1234\n3412\n2143\n4321\n", "nothing is left to cover: all that has to be found is given"))


@pytest.mark.parametrize("kind, text, told", NAMED, ids=[told for *_, told in NAMED])
def test_named_mistakes(trial: Solving, kind: str, text: str, told: str) -> None:
    """A mistake is named by the mark that is wrong."""
    status, _, errors = trial.run(kind, trial.path("mistake.txt", text))
    assert status == 3 and told in errors, f"{kind} {text!r}: {status} {errors}"


def test_a_jigsaw_is_no_sudoku(trial: Solving) -> None:
    """The letters of regions aren't passed over: with boxes in their place it would be another puzzle."""
    text = "1234\n3412\n2143\n432.\n\naabb\naabb\nccdd\nccdd\n"
    for given in (text, text.replace("\n", "\r\n"), re.sub("(?<=[a-d])(?=[a-d])", " ", text)):
        status, lines, errors = trial.run("sudoku", trial.path("regions.txt", given))
        told = "line 6: letters of regions" in errors and "zarfepoch jigsaw" in errors
        assert (status, lines) == (3, []) and told, f"{given!r}: {lines} {errors}"
        assert trial.run("jigsaw", trial.path("regions.txt", given))[0] == 0, f"a jigsaw: {given!r}"


def test_minus_signs(trial: Solving) -> None:
    """A minus is one in all its spellings."""
    for minus in ("-", "\u2212", "\u2013"):
        path = trial.path("minus.txt", f"aa\nbb\n\na=1{minus} b=1{minus}\n")
        status, lines, errors = trial.run("kenken", path, "--count")
        assert status == 0 and lines == ["There are 2 solutions."], f"{minus}: {lines} {errors}"


def test_windows_and_colours(trial: Solving) -> None:
    status, lines, errors = trial.run("sudoku", os.path.join(TOP, "examples", "hyper.txt"), "--hyper")
    rows = [re.findall(r"\d", line) for line in lines if re.search(r"\d", line)]
    windows = [{rows[r][c] for r in range(top, top + 3) for c in range(left, left + 3)} for top in (1, 5) for left in (1, 5)]
    assert status == 0 and lines[-1] == ONLY and all(len(window) == 9 for window in windows), f"windows: {lines} {errors}"
    borders = trial.path("map.txt", "a b\nb c\nc a\nc d\na=rot, d=rot\n")
    status, lines, errors = trial.run("coloring", borders, "--colors", "rot,gr\u00fcn,blau", "--one", "--out", trial.path("map.svg"))
    with open(trial.path("map.svg"), encoding="utf-8") as opened:
        assert status == 0 and "#f0a39a" in opened.read(), "red is red in German"
    lines = trial.run("coloring", borders, "--colors", "rot,gr\u00fcn,blau", "--one")[1]
    assert lines[0].split() == ["a", "rot"] and lines[3].split() == ["d", "rot"], f"given colours: {lines}"


def command_pages(folder: str) -> tuple[int, list[str], str]:
    """What the script says that writes the pages."""
    ended = subprocess.run([sys.executable, os.path.join(TOP, "dev", "help_pages.py"), "--package", folder], capture_output=True, text=True)
    return ended.returncode, ended.stdout.splitlines(), ended.stderr


def test_pages(trial: Solving) -> None:
    """Man pages and completions of all commands, from their help."""
    folder = trial.path("pages")
    status, _, errors = command_pages(folder)
    assert status == 0 and len(os.listdir(folder)) == 30, f"the pages: {errors}"
    for name, words, options in (("zarfepoch", "zarfepoch timetable --", {"--rules", "--keep", "--csv"}), ("zarfepoch", "zarfepoch sud", {"sudoku"}),
                                 ("zarfepoch-generate", "zarfepoch-generate ", {"timetable", "--help"}), ("zarfepoch-draw", "zarfepoch-draw --", {"--svg"})):
        function = "_" + name.replace("-", "_")
        typed = words.strip() + (" ''" if words.endswith(" ") else "")
        code = ('source "$0"; COMP_WORDS=(' + typed + '); COMP_CWORD=$((${#COMP_WORDS[@]} - 1)); ' + function + '; printf "%s\\n" "${COMPREPLY[@]}"')
        ended = subprocess.run(["bash", "-c", code, os.path.join(folder, f"{name}.bash")], capture_output=True, text=True, cwd="/")
        assert options <= set(ended.stdout.split()), f"completion of {words}: {ended.stdout} {ended.stderr}"
    with open(os.path.join(folder, "zarfepoch-draw.1"), encoding="utf-8") as opened:
        page = opened.read()
    assert page.startswith('.TH ZARFEPOCH-DRAW 1 "" "zarfepoch ') and "\\-\\-csv" in page and "scripts/" not in page, "a man page"
