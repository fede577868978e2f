"""Tests problems that generate.py makes of puzzles drawn by lot, with the built program and draw.py behind it.

Of each kind some puzzles are drawn by lot, from a solution, and written as people write them. The answer is drawn as
text, and this text is tested by the kind's own rules, which know nothing of items and options. Tables and boards that
can't be meant must be refused with their line.
"""
from __future__ import annotations

import os
import pathlib
import random
import re
import subprocess
import sys
from typing import Optional

import pytest

from built import TOP
from drawn_kinds import PUZZLES, drawn_by_lot
from zarfepoch.files.full_names import full_name, full_names, named_numbers
from school_rules import faults, school

HEAD = "lesson,teacher,class,rooms,periods"


class Generating:
    def __init__(self, program: str, folder: str, times: int) -> None:
        self.program, self.folder, self.times = program, folder, times

    def path(self, name: str, text: Optional[str] = None) -> str:
        path = os.path.join(self.folder, name)
        if text is not None:
            with open(path, "w", encoding="utf-8") as opened:
                opened.write(text)
        return path

    @staticmethod
    def python(module: str, *words: str) -> subprocess.CompletedProcess[str]:
        return subprocess.run([sys.executable, "-m", f"zarfepoch.{module}", *words], capture_output=True, text=True)

    def made(self, *words: str) -> str:
        """A problem's file, made by generate.py."""
        path = self.path("made.dlx")
        ended = self.python("generate", *words, "--out", path)
        assert ended.returncode == 0, f"generate.py {words}: {ended.stderr}"
        return path

    def drawn(self, file: str, *words: str, command: str = "alone") -> list[str]:
        """What draw.py prints of the program's answer, by lines; the picture is at most 1,200 pixels wide."""
        answered = subprocess.run([self.program, command, file], capture_output=True, text=True, timeout=300)
        answer, svg = self.path("answer", answered.stdout), self.path("made.svg")
        ended = self.python("draw", file, answer, "--svg", svg, *words)
        assert ended.returncode == 0, f"draw.py {file}: {ended.stderr}"
        return ended.stdout.split("\n")[:-1]

    def solved(self, *words: str) -> list[str]:
        return self.drawn(self.made(*words))

    def refused(self, what: str, status: int, line: Optional[str], *words: str) -> None:
        """Expects that generate.py refuses this with a status, and names a line where one is given."""
        out = self.path("refused.dlx")
        ended = self.python("generate", *words, "--out", out)
        told = line is None or f"line {line}" in ended.stderr or f"lines {line}" in ended.stderr
        assert ended.returncode == status and told and "Traceback" not in ended.stderr, f"{what} is refused: {ended.returncode} {ended.stderr}"
        assert not os.path.exists(out), f"{what} leaves no file"


@pytest.fixture
def trial(program: str, times: int, tmp_path: pathlib.Path) -> Generating:
    return Generating(program, str(tmp_path), times)


# ---- timetables

def test_schools(trial: Generating) -> None:
    for seed in range(1, trial.times + 1):
        table = school(seed)
        file = trial.made("timetable", trial.path("school.csv", table))
        found = faults(table, trial.drawn(file, "--plan", "all", command="solve"))
        assert not found, f"the school {seed}: {found[:3]}"
    table = school(1, 8, 11, 0, 6, 0, 0)
    file = trial.made("timetable", trial.path("large.csv", table))
    with open(file, encoding="utf-8") as opened:
        assert "\n| also " in opened.read(), "rooms without items"
    found = faults(table, trial.drawn(file, "--plan", "all", command="solve"))
    assert not found, f"a school whose rooms have no items: {found[:3]}"
    for seed in range(1, trial.times + 1):
        table = school(seed, 1, 4, 2, 6, 0, 3)
        found = faults(table, trial.drawn(trial.made("timetable", trial.path("class.csv", table)), "--plan", "all"))
        assert not found, f"one class, all periods, {seed}: {found[:3]}"


# all exact covers, each by its options
Covers = set[frozenset[frozenset[str]]]


def exact_covers(primary: list[str], options: list[frozenset[str]], chosen: tuple[frozenset[str], ...] = ()) -> Covers:
    """All exact covers, by their options: at each step the first primary item that isn't covered."""
    covered = frozenset[str]().union(*chosen)
    left = [item for item in primary if item not in covered]
    if not left:
        return {frozenset(chosen)}
    fitting = [option for option in options if left[0] in option and covered.isdisjoint(option)]
    return {cover for option in fitting for cover in exact_covers(primary, options, (*chosen, option))}


def test_same_covers(trial: Generating) -> None:
    """Primary periods change no cover: with all of them secondary the covers are the same."""
    draw, tight = random.Random(4), 0
    week = [f"{day}{number}" for day in ("Mon", "Tue") for number in (1, 2)]
    for table in range(20):
        rows = [f"l{k},{draw.choice(['ann', 'bob'])},{draw.choice(['5a', '5b'])},{draw.choice(['r s', 's t'])},"
                f"{' '.join(sorted(draw.sample(week, draw.randint(1, 4))))}" for k in range(draw.randint(3, 7))]
        ended = trial.python("generate", "timetable", trial.path("small.csv", "\n".join([HEAD, *rows]) + "\n"))
        lines = [line.split() for line in ended.stdout.split("\n") if line and not line.startswith("|")]
        if ended.returncode:
            assert ended.returncode == 1, f"a small table: {ended.stderr}"
            continue
        primary = lines[0][:lines[0].index("|")] if "|" in lines[0] else lines[0]
        lessons, options = [f"l{k}" for k in range(len(rows))], [frozenset(words) for words in lines[1:]]
        tight += len(primary) > len(lessons)
        assert exact_covers(primary, options) == exact_covers(lessons, options), f"the covers of {rows}"
    assert tight > 3, f"tables with primary periods: {tight}"


def test_joint_lessons(trial: Generating) -> None:
    """However several classes and teachers are parted, all of them are busy; one name with a blank stays one."""
    rows = ["a,ann,5a,r,1", "b,bob,5b,r,2", 'c,ann+bob,5a 5b,s,3', 'd,"ann;bob","5a;5b",s,4', 'e,"ann,bob",5a/5b,s,5', "f,Eva Maria Lang,5c,-,1"]
    file = trial.made("timetable", trial.path("joint.csv", "\n".join([HEAD, *rows]) + "\n"))
    with open(file, encoding="utf-8") as opened:
        lines = opened.read().split("\n")
    for lesson, period in (("c", "3"), ("d", "4"), ("e", "5")):
        busy = {f"{who}-{period}" for who in ("ann", "bob", "5a", "5b", "s")}
        assert [set(line.split()[1:]) for line in lines if line.startswith(lesson + " ")] == [busy], f"all are busy in {lesson}"
    assert any(line.startswith("| name ") and line.endswith(": Eva Maria Lang") for line in lines), "one name with blanks"


def test_spellings(trial: Generating) -> None:
    """A letter and its mark are one letter, in one character or in two, and blanks that aren't seen part no name from
    itself."""
    for what, one, other in (("a mark as a character of its own", "J\u00f6rg", "Jo\u0308rg"), ("two blanks", "Ann Lee", "Ann  Lee"),
                             ("a blank that parts no line", "Ann Lee", "Ann\u00a0Lee"), ("a line end in a cell", "Ann Lee", '"Ann\nLee"')):
        table = trial.path("spelt.csv", f"{HEAD}\na,{one},5a,r,1\nb,{other},5b,s,1 2\n")
        file = trial.made("timetable", table)
        with open(file, encoding="utf-8") as opened:
            lines = opened.read().split("\n")
        told = [line for line in lines if line.startswith(("| teachers: ", "| name "))]
        assert told in (["| teachers: J\u00f6rg"], ["| teachers: 1", "| name 1: Ann Lee"]), f"one teacher, by {what}: {lines}"
    plan = trial.drawn(trial.made("timetable", trial.path("plan.csv", f"{HEAD}\na,J\u00f6rg,5a,r,Mon1\n")), "--plan", "Jo\u0308rg")
    assert plan[:1] == ["J\u00f6rg  Mon"], f"the plan of a name with a mark of its own: {plan}"
    borders = trial.path("spelt.txt", "K\u00f6ln Bonn\nKo\u0308ln Aachen\nBonn Aachen\n")
    assert [line.split()[0] for line in trial.drawn(trial.made("coloring", borders))] == ["Aachen", "Bonn", "K\u00f6ln"], "one town of a map"


# what people type, and of which name and line they are told that it may be another one
ALIKE = (("timetable", "a,M\u00fcller,5a,r,Mon1\nb,Muller,5b,s,Mon1\n", "line 3: note: the teacher Muller and the teacher M\u00fcller of line 2"),
         ("timetable", "a,M\u00fcller,5a,r,Mon1\nb,Mueller,5b,s,Mon1\n", "line 3: note: the teacher Mueller and the teacher M\u00fcller of line 2"),
         ("timetable", "a,Ann Lee,5a,r,Mon1\nb,Ann-Lee,5b,s,Mon1\n", "line 3: note: the teacher Ann-Lee and the teacher Ann Lee of line 2"),
         ("timetable", "a,ann,5a,R_1,Mon1\nb,bob,5-a,R1,Mon1\n", "line 3: note: the room R1 and the room R_1 of line 2"),
         ("timetable", "a,ann,5a,r,Mon1\nA,bob,5a,s,Mon2\n", "line 3: note: the lesson A and the lesson a of line 2"),
         ("timetable", "a,ann,6.1,r,Mon1\nA,bob,61,s,Mon1\n", ""), ("timetable", "a,Bauer,5a,r,Mon1\nb,Baur,5b,s,Mon1\n", ""),
         ("coloring", "K\u00e4rnten Tirol\nKarnten Tirol\n", "line 2: note: the place Karnten and the place K\u00e4rnten of line 1"),
         ("matching", "ann Bob\nbob cy\ncy ann\n", "line 2: note: the name bob and the name Bob of line 1"),
         ("cubes", "1 red red red red red r\u00e9d\n", "line 1: note: the colour r\u00e9d and the colour red of line 1"),
         ("matching", "a A\nb B\nc C\nd D\ne E\nf F\ng G\nh H\ni I\nj J\nk K\nl L\n", "note: 2 more names differ"))


# the names of one column by lines, and what is told of them
SLIPS = (("teacher", "Novak Novak Novack", "line 4: note: the teacher Novack, in this line alone, and the teacher Novak of line 2 count as two"),
         ("class", "Oktava Tertia Tertai Tertia", "line 4: note: the class Tertai, in this line alone, and the class Tertia of line 3"),
         ("rooms", "Chemstry Chemistry Chemistry", "line 2: note: the room Chemstry, in this line alone, and the room Chemistry of line 3"),
         ("lesson", "French Frensh French", "line 3: note: the lesson Frensh, in this line alone, and the lesson French of line 2"),
         ("teacher", "Ann_Novak Ann_Novac Ann_Novak", "line 3: note: the teacher Ann_Novac, in this line alone,"),
         ("teacher", "M\u00fcller M\u00fcller Miller", "line 4: note: the teacher Miller, in this line alone,"),
         ("teacher", "M\u00fcller M\u00fcller Miller Miller", ""), ("teacher", "Novak Novack", ""), ("teacher", "Novak Novak Nowack", ""),
         ("rooms", "Room_12 Room_12 Room_13", ""), ("rooms", "Room_1a Room_1a Room_2a", ""), ("rooms", "Wing_A Wing_A Wing_B", ""),
         ("class", "Group4 Group4 Groups4", ""), ("teacher", "Mark Mark Marks", ""), ("lesson", "Latin_I Latin_I Latin_II", ""),
         ("teacher", "Schwarzenbach Schwarzenbach " + " ".join(f"Schw{letter}rzenbach" for letter in "bcdefghijklm"),
          "note: 2 more names, in one line alone, differ from others in one letter"))


@pytest.mark.parametrize("column, names, wanted", SLIPS, ids=[names for _, names, _ in SLIPS])
def test_slips(trial: Generating, column: str, names: str, wanted: str) -> None:
    """Of a name that stands in one line alone, and differs in one letter from one that stands in more, it is told; the
    file is made all the same."""
    rows = [{"lesson": f"l{k}", "teacher": f"t{k}", "class": f"c{k}", "rooms": f"r{k}", "periods": "Mon1-6", column: name}
            for k, name in enumerate(names.split())]
    table = trial.path("slips.csv", "\n".join([HEAD, *(",".join(row.values()) for row in rows)]) + "\n")
    ended = trial.python("generate", "timetable", table)
    told = ended.stderr
    assert ended.returncode == 0 and (wanted in told if wanted else not told) and told.count("\n") <= 11, f"{names}: {told}"


@pytest.mark.parametrize("kind, text, wanted", ALIKE, ids=[repr(text) for _, text, _ in ALIKE])
def test_names_alike(trial: Generating, kind: str, text: str, wanted: str) -> None:
    """Of names that differ in capitals, blanks or accents alone it is told, with both lines; the file is made all the
    same."""
    file = trial.path("alike.csv", f"{HEAD}\n{text}" if kind == "timetable" else text)
    ended = trial.python("generate", kind, file)
    told = ended.stderr
    assert ended.returncode == 0 and (wanted in told if wanted else not told) and told.count("\n") <= 11, f"{text}: {told}"


def test_name_that_a_rule_may_mean(trial: Generating) -> None:
    rules = trial.path("alike-rules.csv", "who,away\nmuller,Mon1\n")
    ended = trial.python("generate", "timetable", trial.path("alike.csv", f"{HEAD}\na,M\u00fcller,5a,r,Mon1-2\n"), "--rules", rules)
    assert (ended.returncode == 3 and "line 2: no lesson has" in ended.stderr
                 and "'muller'; there is M\u00fcller" in ended.stderr), f"the name that a rule may mean: {ended.stderr}"


def test_long_names(trial: Generating) -> None:
    """Names that don't fit into 32 bytes have numbers in the file, and are whole in plans."""
    lesson, teacher = "Mathematics for those who like it", "\u041a\u043e\u043d\u0441\u0442\u0430\u043d\u0442\u0438\u043d\u043e\u0432\u0430" * 2
    table = f"lesson;teacher;class;rooms;periods;hours\n{lesson};{teacher};5a;room;Mon1-2;2\n"
    lines = trial.drawn(trial.made("timetable", trial.path("long.csv", table)), "--plan", "all")
    text = "\n".join(lines)
    names = full_names(["| teachers: 1 bob", "| name 1: Eva Maria Lang"])
    for item, name in (("1", "Eva Maria Lang"), ("1-Mon1", "Eva Maria Lang-Mon1"), ("1.2", "Eva Maria Lang.2"), ("bob-1", "bob-1"), ("11", "11")):
        assert full_name(names, item) == name, f"the full name of {item}"
    told = named_numbers(["| name 1: Eva Maria Lang", "| name 2: Ann"], ["1-2", "2-1"], ["'1-2' stands in line 2"])
    assert told == ["1 means Eva Maria Lang"], "the names of numbers in a text"
    assert text.count(f"{lesson} {teacher} room") == 2 and any(line.startswith(teacher + "  Mon") for line in lines), f"long names: {lines}"


def test_rules_are_tested(trial: Generating) -> None:
    """The test of timetables finds what is wrong with one."""
    table = ";".join(HEAD.split(",")) + ";hours;length\na;ann;5a+5b;r;Mon1-3;1;2\nb;bob;5a;r;Mon1-3;1;1\n"
    lines = trial.drawn(trial.made("timetable", trial.path("small.csv", table)), "--plan", "all")
    assert not faults(table, lines), f"a small timetable: {lines}"
    text = "\n".join(lines)
    for what, old, new in (("a lesson less", "b bob r", "       "), ("another lesson", "b bob r", "c bob r"),
                           ("a class less", "a ann 5a r", "          ")):
        assert old in text and faults(table, text.replace(old, new).split("\n")), f"{what} is found"
    swapped = [line if not line.startswith(("1", "2", "3")) else {"1": "2", "2": "1", "3": "3"}[line[0]] + line[1:] for line in lines]
    assert faults(table, swapped) or faults(table, [line.replace("2", "4", 1) for line in lines]), "a double lesson in two pieces is found"


# tables of lessons that nobody can mean: what they are, the exit status, the line that is told, and the rows; then
# heads with a row
WRONG_TABLES = (
    ("a class with more lessons than periods", 1, "2", ["a,ann,5a,r,1-3", "b,bob,5a,s,1-3", "c,cyd,5a,r,1-3", "d,dan,5a,s,1-3"]),
    ("a teacher with too few periods for some lessons", 1, "2", ["a,ann,5a,r,1", "b,ann,5b,s,1", "c,ann,5c,r,1-9"]),
    ("a room with too many lessons", 1, "2", ["a,ann,5a,r,1", "b,bob,5b,r,1"]),
    ("a missing teacher", 3, "3", ["a,ann,5a,r,1", "b,,5a,r,1"]),
    ("a lesson twice", 3, "3", ["a,ann,5a,r,1", "a,ann,5a,r,2"]),
    ("more columns than the head", 3, "2", ["a,ann,5a,r,1,2,3"]),
    ("a class that may be one or two", 3, "3", ["a,ann,5a,r,1", "b,bob,5a 5b,r,2"]),
    ("two classes by a hyphen", 3, "4", ["a,ann,5a,r,1", "b,ann,5b,r,2", "c,ann,5a-5b,r,3"]),
    ("a class twice", 3, "2", ["a,ann,5a+5a,r,1"]),
    ("nobody beside a plus", 3, "2", ["a,ann+,5a,r,1"]),
    ("a room that may be one or two", 3, "2", ["a,ann,5a,room 12,1"]),
    ("a period twice", 3, "2", ["a,ann,5a,r,1 2 1"]),
    ("a range over two days", 3, "2", ["a,ann,5a,r,Mon1-Tue2"]),
    ("a teacher who is a class too", 3, "2", ["a,5a,5a,r,1"]),
    ("a lesson of nobody, nowhere", 3, "3", ["a,ann,5a,r,1", "b,-,-,-,1 2"]),
    ("a lesson called as a teacher with a period is", 3, "3", ["a,ann,5a,r,1", "ann-1,bob,5b,s,2"]),
    ("a comma in a name", 3, "2", ["a,Smith, Ann,5a,r,1"]),
    ("a day and a number", 3, "2", ["a,ann,5a,r,Mon 1"]),
    ("a day and a range", 3, "2", ["a,ann,5a,r,Mon 1-6"]),
    ("periods with and without a day", 3, "3", ["a,ann,5a,r,Mon1", "b,bob,5a,r,Tue1 2"]),
    ("a range over the week", 3, "2", ["a,ann,5a,r,Mon1-Fri6"]),
    ("a word between rooms", 3, "2", ["a,ann,5a,r and s,1"]),
    ("a sign between rooms of which one is known", 3, "3", ["a,ann,5a,r,1", "b,bob,5b,r&s,2"]),
    ("a room booked twice beside another", 1, "2, 3", ["a,ann,5a,r+s,1", "b,bob,5b,r,1"]),
    ("a slash between rooms", 3, "4", ["a,ann,5a,r,1", "b,ann,5b,s,2", "c,ann,5c,r/s,3"]),
    ("a day written in two ways", 3, "3", ["a,ann,5a,r,Mon1", "b,bob,5b,s,Monday1"]),
    ("a period with a nought", 3, "3", ["a,ann,5a,r,Mon1", "b,ann,5b,s,Mon01"]),
    ("a class with and without a capital", 3, "3", ["a,ann,5a,r,1", "b,bob,5A,r,2"]),
    ("a class in full-width letters too", 3, "3", ["a,ann,5a,r,1", "b,bob,\uff15a,r,2"]),
    ("a teacher with a character that isn't seen", 3, "3", ["a,ann,5a,r,1", "b,ann\u200b,5b,s,1"]),
    ("a time of the clock", 3, "2", ["a,ann,5a,r,8:00"]),
    ("another separator than the head's", 3, "2", ["a;ann;5a;r;1"]),
    ("a quotation mark that nothing ends", 3, "3", ["a,ann,5a,r,1", 'b,"bob,5a,r,2', "c,cyd,5a,r,3"]))
WRONG_HEADS = (
    ("an unknown column", "1", HEAD + ",lenght", "a,ann,5a,r,1,2"),
    ("a column that is missing", "1", "lesson,class", "a,5a"),
    ("no number of hours", "2", HEAD + ",hours", "a,ann,5a,r,1,many"),
    ("a double lesson without days", "2", HEAD + ",length", "a,ann,5a,r,12-30,2"),
    ("a double lesson that runs nowhere", "2", HEAD + ",length", "a,ann,5a,r,Mon1 Tue2,2"),
    ("an unknown column behind a comment", "2", "# a plan\nlesson;teacher;class;rooms;periods;lenght", "a;ann;5a;r;1;2"))


@pytest.mark.parametrize("what, status, line, lines", WRONG_TABLES, ids=[what for what, *_ in WRONG_TABLES])
def test_wrong_table(trial: Generating, what: str, status: int, line: str, lines: list[str]) -> None:
    trial.refused(what, status, line, "timetable", trial.path("wrong.csv", "\n".join([HEAD, *lines]) + "\n"))


@pytest.mark.parametrize("what, line, head, row", WRONG_HEADS, ids=[what for what, *_ in WRONG_HEADS])
def test_wrong_head(trial: Generating, what: str, line: str, head: str, row: str) -> None:
    trial.refused(what, 3, line, "timetable", trial.path("wrong.csv", f"{head}\n{row}\n"))


def test_odd_tables(trial: Generating) -> None:
    trial.refused("double lessons that don't fit into their days", 1, "2", "timetable", trial.path(
        "wrong.csv", HEAD + ",hours,length\na,ann,5a,r,Mon1-5,3,2\n"))
    ended = trial.python("generate", "timetable", trial.path("twice.csv", HEAD + "\na,ann,5a,r,1\na,bob,5a,s,2\n"))
    assert "have two names" in ended.stderr, f"what two lessons of one class need: {ended.stderr}"
    ended = trial.python("generate", "timetable", trial.path("long.csv", f"{HEAD},hours\n{'a' * 40},ann,5a,r,1-3,2\n1.1,bob,5b,s,1-3\n"))
    assert ended.returncode == 0, f"a long name's number is no other name: {ended.stderr}"
    with open(trial.path("old.csv"), "wb") as opened:
        opened.write(HEAD.encode() + b"\ra,ann,5a,r,1\rb,bob,5b,s,1\r")
    assert len(trial.drawn(trial.made("timetable", trial.path("old.csv")))) > 1, "lines that end by a carriage return alone"
    days = trial.made("timetable", trial.path("days.csv", HEAD + "\na,ann,5a,r,M1 T1 W1 Th1 F1\nb,ann,5b,s,Mo1 MoN1 Do1 DoN1\n"))
    assert len(trial.drawn(days)) > 1, "days that begin alike are several"
    ended = trial.python("generate", "timetable", trial.path("many.csv", HEAD + ",hours\na,ann,5a,r,1-3,2\nb,bob,5a,s,1-3,3\n"))
    assert "5a has 5 periods of lessons (a 2, b 3)" in ended.stderr, f"all lessons of a full class are counted: {ended.stderr}"


def test_rooms_at_once(trial: Generating) -> None:
    """A lesson with R1+R2 takes both rooms, as joint lessons take both classes; blanks, `;` and `or` part rooms of
    which it takes one."""
    file = trial.made("timetable", trial.path("rooms.csv", HEAD + "\nsport,ann,5a,R1+R2,1\ndance,bob,5b,R1,1-2\nart,cy,5c,R1 or R2,1-3\n"))
    with open(file, encoding="utf-8") as opened:
        lines = opened.read().split("\n")
    assert [line for line in lines if line.startswith("sport ")] == ["sport ann-1 5a-1 R1-1 R2-1"], f"both rooms: {lines}"
    plan = trial.drawn(file, "--plan", "R1")
    assert [line.split()[1:2] for line in plan[2:]][:2] == [["sport"], ["dance"]], f"a room isn't booked twice: {plan}"
    periods = trial.made("timetable", trial.path("week.csv", HEAD + "\na,ann,5a,r,Mon-Fri1-6\nb,bob,5b,s,Mon1\n"))
    with open(periods, encoding="utf-8") as opened:
        assert sum(line.startswith("a ann") for line in opened) == 30, "five days of six"


def test_names_in_lines(trial: Generating) -> None:
    """Blanks, commas and semicolons part names alike, in each kind whose lines have names."""
    texts = {"coloring": "a b\nb c\nc a\nc d\n", "matching": "a b\nb c\nc d\n", "cubes": "one r g b w r g\ntwo g b w r b b\n", "word-square": "ab ba\n",
             "nonogram": "1 1\n3\n\n2\n1\n2\n"}
    for kind, text in texts.items():
        wanted = [line for line in lines_made(trial, kind, text) if not line.startswith("|")]
        for what, other in (("commas", text.replace(" ", ", ")), ("semicolons", text.replace(" ", ";")), ("tabs", text.replace(" ", "\t")),
                            ("commas alone", text.replace(" ", ",")), ("a comma at the end", text.replace("\n", ",\n").replace("\n,", "\n"))):
            found = [line for line in lines_made(trial, kind, other) if not line.startswith("|")]
            assert found == wanted, f"{kind} with {what}: {found}"
    quoted = lines_made(trial, "coloring", '"a";"b"\nb;c\n')
    assert quoted[1].startswith("a b c | "), f"names in quotation marks: {quoted}"
    triangle = trial.made("coloring", trial.path("triangle.txt", "Salzburg, Tirol\nTirol, K\u00e4rnten\nK\u00e4rnten Salzburg\n"), "--colors", "red,green")
    assert trial.drawn(triangle)[0].startswith("none"), "a triangle has no two colours"
    squares = trial.path("squares.txt", "A,r,g,b,r\nB, r, r, b, g\n")
    assert trial.made("squares", "1x2", squares), "squares with commas"
    grid, words = trial.path("grid.txt", "..\n..\n"), trial.path("words.txt", "ab, ba; bb\nba\n")
    assert trial.solved("crossword", grid, words, "--repeat")[0] in ("a b", "b a", "b b"), "words with commas"
    for kind, text in (("coloring", "a b\nA c\n"), ("coloring", "a b\nb. c\n"), ("coloring", "New York, Ohio\nOhio, Iowa\n"), ("matching", "a b\na\u200b c\n"),
                       ("coloring", 'a "b c"\n'), ("coloring", 'a b"\n'), ("cubes", "one r g b w r g\ntwo R g b w r b\n")):
        trial.refused(f"{kind} {text!r}", 3, None, kind, trial.path("wrong.txt", text))


def lines_made(trial: Generating, kind: str, text: str) -> list[str]:
    """The lines of the problem that generate.py makes of a text."""
    with open(trial.made(kind, trial.path("names.txt", text)), encoding="utf-8") as opened:
        return opened.read().split("\n")


@pytest.mark.parametrize("what, line, content", (
    ("a text in Latin-1", "2", HEAD.encode() + b"\na,J\xf6rg,5a,r,1\n"), ("a text in UTF-16", None, HEAD.encode("utf-16")),
    ("a spreadsheet", None, b"PK\3\4 and so on")), ids=("Latin-1", "UTF-16", "a spreadsheet"))
def test_no_text(trial: Generating, what: str, line: Optional[str], content: bytes) -> None:
    """Tables that are no text in UTF-8."""
    other = trial.path("other.csv")
    with open(other, "wb") as opened:
        opened.write(content)
    trial.refused(what, 3, line, "timetable", other)


# ---- puzzles

@pytest.mark.parametrize("kind", PUZZLES)
def test_puzzle(trial: Generating, kind: str) -> None:
    """Each kind, from a text to the drawn text of its solution."""
    _, words, further = PUZZLES[kind]
    for number, (texts, is_right) in enumerate(drawn_by_lot(1, trial.times)[kind]):
        paths = [trial.path(f"{kind}-{k}.txt", one) for k, one in enumerate(texts)]
        told = paths if words != ["board"] else [paths[0], "--pieces", paths[1]]
        lines = trial.solved(*words, *told, *further)
        assert is_right(lines), f"{kind} {number}: {texts} {lines}"


@pytest.mark.parametrize("kind", ("sudoku of 9", "jigsaw", "killer", "kakuro", "stars", "nonogram"))
def test_other_answers(trial: Generating, kind: str) -> None:
    """What is drawn is tested: a changed digit, star or cell is seen."""
    _, words, further = PUZZLES[kind]
    [([text], is_right)] = drawn_by_lot(2, 1)[kind]
    lines = trial.solved(*words, trial.path("other.txt", text), *further)
    changed = [line.translate(str.maketrans("1234#*", "2143. ")) for line in lines]
    assert is_right(lines) and not (is_right(lines[:1] + changed[1:2] + lines[2:]) and is_right(changed)), f"{kind}: a change is seen"


def test_words_from_input(trial: Generating) -> None:
    """The grid or the list of words may come on the standard input; with --repeat a word may come twice."""
    grid, words = "...\n#.#\n...\n", "ata tat oxo\n"
    paths = [trial.path("grid.txt", grid), trial.path("words.txt", words)]
    for told, text in ((["-", paths[1]], grid), ([paths[0], "-"], words)):
        ended = subprocess.run([sys.executable, "-m", "zarfepoch.generate", "crossword", *told, "--repeat"], input=text,
                               capture_output=True, text=True)
        drawn = trial.drawn(trial.path("input.dlx", ended.stdout))
        assert drawn in (["t a t", "  t", "t a t"], ["a t a", "  a", "a t a"]), f"words from the standard input: {drawn}"
    none = trial.drawn(trial.made("crossword", *paths))
    assert none[0].startswith("none"), "no word twice"


def test_plans_in_order(trial: Generating) -> None:
    """Plans of classes are in the order of their names, and the lessons of a plan differ in colour."""
    rows = [f"l{k},t{k},{'9b' if k % 12 == 0 else '10a'},-,Mon1-8 Tue1-8" for k in range(13)]
    lines = trial.drawn(trial.made("timetable", trial.path("order.csv", "\n".join([HEAD, *rows]) + "\n")), "--plan", "classes")
    assert [line.split()[0] for line in lines if "Mon" in line] == ["9b", "10a"], "the order of plans"
    with open(trial.path("made.svg"), encoding="utf-8") as opened:
        filled = re.findall(r'<rect [^>]*fill="([^"]+)"[^>]*/>\n<text [^>]*>(l\d+)<', opened.read())
    colours = {lesson: fill for fill, lesson in filled}
    assert len(colours) == 13 and colours["l0"] != colours["l12"], f"the colours of lessons: {colours}"


def test_solids(trial: Generating) -> None:
    """Soma: seven pieces fill three layers, each of 27 cells once."""
    lines = trial.solved("board", "3x3x3", "--pieces", "soma")
    counts = {letter: "".join(lines).count(f" {letter} ") for letter in "VLTZABP"}
    assert sorted(counts.values()) == [3, 4, 4, 4, 4, 4, 4] and counts["V"] == 3, f"Soma {counts}"


def covers(trial: Generating, file: str) -> Optional[int]:
    """How many covers a problem has, by another.py."""
    other, found = file, list[str]()
    while True:
        answered = subprocess.run([trial.program, "alone", other], capture_output=True, text=True, timeout=300)
        if answered.returncode:
            return len(found) if answered.stdout == "none\n" else None
        found.append(trial.path(f"cover-{len(found)}", answered.stdout))
        ended = trial.python("another", file, *found)
        other = trial.path("other.dlx", ended.stdout)


@pytest.mark.parametrize("words, count", ((["queens", "6"], 4), (["langford", "4"], 2), (["killer", os.path.join(TOP, "examples", "killer.txt")], 1)),
                         ids=("queens", "langford", "killer"))
def test_all_covers(trial: Generating, words: list[str], count: int) -> None:
    """Six queens have four solutions, Langford's four numbers one and its mirror image, and the example of a killer
    one."""
    assert covers(trial, trial.made(*words)) == count, f"all covers of {words}"


def test_no_answers(trial: Generating) -> None:
    """What another.py refuses: answers that are cut off or no cover, and what would be too large. A file's name may end
    in anything."""
    file, other = trial.path("two.dlx", "a b c\na\nb c\nb\nc\n"), "other-0:used"
    for what, text, status in (("a cover", "cover 2\na\nb c\n", 0), ("a cover, audited", "cover 2\na\nb c\naudit clean\n", 0),
                               ("a cover of its own problem", f"cover 4\na {other}\nb\nc\nother1 other-1:barred\n", 0),
                               ("an answer that was cut off", "cover 2\na\n", 3), ("options that are no cover", "cover 1\na\n", 3),
                               ("an item twice", "cover 3\na\nb c\nb\n", 3), ("none", "none\n", 3),
                               ("a cover of its own problem, cut off", f"cover 4\na {other}\nb\nother1 other-1:barred\n", 3)):
        ended = trial.python("another", file, trial.path("an answer", text))
        assert ended.returncode == status and bool(ended.stdout) == (status == 0), f"{what}: {ended.stderr}"
        assert (f"explain {file}" in ended.stderr) == (status == 3 and what != "none"), f"{what}: {ended.stderr}"
    names = [f"i{k}" for k in range(900)]
    large = "\n".join([" ".join(names), *[" ".join(names)] * 222]) + "\n"
    ended = trial.python("another", trial.path("large.dlx", large), trial.path("answer", f"cover 1\n{' '.join(names)}\n"))
    assert ended.returncode == 3 and "occurrences" in ended.stderr and not ended.stdout, f"too many occurrences: {ended.stderr}"


SQUARE = "aabb\naabb\nccdd\nccdd\n"
EMPTY = "1...\n....\n....\n....\n"
# puzzles that nobody can mean: what they are, the exit status, the line that is told, the kind, and the text
WRONG = (
    ("a letter in a sudoku", 3, "1", ["sudoku"], "12q4\n....\n....\n....\n"), ("a sudoku of five rows", 3, None, ["sudoku"], "12345\n" * 5),
    ("a digit twice in a column", 1, "2", ["sudoku"], "1...\n1...\n....\n....\n"),
    ("a sudoku with a dot too few", 3, "4", ["sudoku"], ".........\n" * 3 + "........\n" + ".........\n" * 5),
    ("a sudoku with a comma too few", 3, "2", ["sudoku"], "1,,,\n,,\n,,,\n,,,\n"), ("a sudoku with an equals sign", 3, "1", ["sudoku"], "12$$\n" + "....\n" * 3),
    ("a sudoku with a digit twice below a title", 1, "3", ["sudoku"], "No. 123\n" + "1...\n" * 4),
    ("a jigsaw with a letter in a wrong place", 3, "6", ["jigsaw"], EMPTY + "\nbaba\naabb\nccdd\nccdd\n"),
    ("a board with blanks for holes", 3, "2", ["board"], "xxxxx\nxx xx\n"),
    ("rows that aren't square", 3, "2", ["sudoku"], "1234\n12\n"),
    ("a region with too many cells", 3, "6", ["jigsaw"], EMPTY + "\naaab\naabb\nccdd\nccdd\n"),
    ("regions with a short row", 3, "8", ["jigsaw"], EMPTY + "\naabb\naabb\nccd\nccdd\n"),
    ("a cage without a sum", 3, "3", ["killer"], SQUARE + "\na=10 b=10 d=10\n"),
    ("a sum without a cage", 3, "6", ["killer"], SQUARE + "\na=10 e=10\n"),
    ("a sum that can't be", 1, "1", ["killer"], SQUARE + "\na=11 b=10 c=10 d=10\n"),
    ("a sum that is no number", 3, "6", ["killer"], SQUARE + "\na=ten\n"),
    ("a letter for two cages", 3, "1", ["killer"], "abba\naccb\nddcc\nddcc\n\na=6 b=8 c=16 d=10\n"),
    ("sums that don't make all digits", 1, None, ["killer"], "aabb\nccdd\neeff\ngghh\n\na=5 b=5 c=5 d=5 e=5 f=5 g=5 h=4\n"),
    ("a run of ten cells", 1, "2", ["kakuro"], "#" + " 4\\" * 10 + "\n\\45" + " ." * 10 + "\n"),
    ("sums across and down that differ", 1, None, ["kakuro"], "# 3\\ 4\\\n\\3 . .\n\\5 . .\n"),
    ("a region in two parts", 3, "1", ["stars"], "aba\nabb\nccc\n"), ("a nonogram's empty row", 3, None, ["nonogram"], "1\n\n1\n\n1\n0\n1\n"),
    ("a kakuro with a short row", 3, "2", ["kakuro"], "# 3\\ 4\\\n\\3 .\n"), ("no cell of a kakuro", 3, "2", ["kakuro"], "# 3\\ 4\\\n\\3 . 7\n"),
    ("a kakuro's sum that can't be", 1, "2", ["kakuro"], "# 3\\ 4\\\n\\30 . .\n\\4 . .\n"),
    ("a white cell without a sum", 3, "3", ["kakuro"], "# 3\\ 4\\\n\\3 . .\n# . .\n"),
    ("regions that aren't square", 3, "2", ["stars"], "aab\nab\nccc\n"), ("too few regions", 1, None, ["stars"], "aaa\naaa\nbbb\n"),
    ("a region without room", 1, "1", ["stars", "--stars", "2"], "aab\nabb\nccb\n"),
    ("blocks that don't fit", 1, "2", ["nonogram"], "1\n2 2\n\n1\n1\n1\n"), ("a nonogram's letter", 3, "2", ["nonogram"], "1\nx\n\n1\n1\n"),
    ("a board of letters", 3, "2", ["board"], "xx\nxy\n"),
    ("a place with a hyphen", 3, "2", ["coloring"], "a b\na b-c\n"), ("no borders", 3, None, ["coloring"], "\n"),
    ("no edges", 3, None, ["matching"], "# none\n"), ("no cubes", 3, None, ["cubes"], ""), ("black cells alone", 3, None, ["kakuro"], "##\n##\n"),
    ("words of two lengths", 3, "2", ["word-square"], "abc cab\nab\n"), ("a capital and a small letter", 3, "1", ["word-square"], "Ab\nba\n"),
    ("two squares of one name", 3, "2", ["squares", "1x2"], "a r r r r\na g g g g\n"),
    ("a square called as a cell", 3, "2", ["squares", "1x2"], "a r r r r\n1 g g g g\n"),
    ("squares that can lie in too many ways", 3, None, ["squares", "20x20"], "".join(f"s{k} a b c {'def'[k % 3]}\n" for k in range(400))))
WRONG_PIECES = (
    ("a piece in two parts", 3, "1", "A\nx.x\n"), ("two pieces of one name", 3, "1", "A\nx\n\nA\nxx\n"),
    ("a piece's name of digits", 3, "1", "12\nxx\n"),
    ("a piece with blanks for holes", 3, "3", "A\nxxx\nx x\n"),
    ("no such piece", 3, "1", "Q\n"), ("too few cells", 1, None, "A 3\nxx\n"),
    ("pieces that never make eight cells", 1, None, "A 3\nxxx\n"))


@pytest.mark.parametrize("what, status, line, words, text", WRONG, ids=[what for what, *_ in WRONG])
def test_wrong_board(trial: Generating, what: str, status: int, line: Optional[str], words: list[str], text: str) -> None:
    # (of squares the size comes first)
    paths = [*words, trial.path("wrong.txt", text)] if words[0] == "squares" else [words[0], trial.path("wrong.txt", text), *words[1:]]
    trial.refused(what, status, line, *paths)


@pytest.mark.parametrize("what, status, line, text", WRONG_PIECES, ids=[what for what, *_ in WRONG_PIECES])
def test_wrong_pieces(trial: Generating, what: str, status: int, line: Optional[str], text: str) -> None:
    trial.refused(what, status, line, "board", "2x4", "--pieces", trial.path("wrong.txt", text))


def test_wrong_words(trial: Generating) -> None:
    trial.refused("a file of pieces that isn't there", 3, None, "board", "2x4", "--pieces", "pieces.txt")
    trial.refused("a word that fits nowhere", 1, "1", "crossword", trial.path("grid.txt", "...\n#.b\n"), trial.path("list.txt", "abc\nda\n"))
    trial.refused("a word with a capital among small ones", 3, "2", "crossword", trial.path("grid.txt", "...\n#..\n"), trial.path(
        "list.txt", "ab\nAbc\n"))
    trial.refused("a word with a dot", 3, "2", "crossword", trial.path("grid.txt", "...\n#..\n"), trial.path("list.txt", "ab\nab.\n"))
    trial.refused("grid and words both from the standard input", 2, None, "crossword", "-", "-")
    words = ["".join(random.Random(number).choices("abcdefghij", k=5)) for number in range(1500)]
    grid, many = trial.path("grid.txt", "\n".join(["....."] * 5)), trial.path("many.txt", "\n".join(words))
    told = trial.python("generate", "crossword", grid, many)
    assert told.returncode == 3 and "with --repeat" in told.stderr, f"what would fit: {told.stderr}"
