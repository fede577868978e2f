"""Tests timetables with rules: what planners say is what the program gets, and plans go back into the sheet.

Of small tables of each rule, drawn by lot, all covers of the problem are compared with all plans, found by trying each
choice of periods, teachers and rooms: a plan is whatever plan_rules.py, which knows nothing of covers, finds no fault
with. Schools of six, eight and nine classes are planned, with each subject at most once a day, no holes, teachers with
free days and joint double lessons; their plans are read back as tables, and planned again with two changes. Tables of
rules that can't be meant are refused with their line, and what counting shows to be impossible is told.
"""
from __future__ import annotations

import functools
import itertools
import os
import pathlib
import random
import subprocess
import sys
from collections.abc import Iterable, Iterator
from typing import Optional

import pytest

from plain_search import branching, read
from plan_rules import choices, faults, Given, joined, read_plan, rows_of, Row, runs_in, times_of
from planned_schools import planned, Tables
from zarfepoch.files.cover_files import read_answer, read_problem
from zarfepoch.pictures.kinds import picture_of
from zarfepoch.pictures.timetables import Timetable
from zarfepoch.timetables.answers import movable, planned as answered
from zarfepoch.timetables.plans import read_plan as kept_plan
from zarfepoch.timetables.problem import timetables
from zarfepoch.timetables.rules import read_school

HEAD = "lesson;teacher;class;rooms;periods;times;length;a_day;apart;fixed;after"
WEEK = "Mon1-3 Tue1-2"
# a plan, whatever the order of its rows
Plan = frozenset[Given]


class Planning:
    def __init__(self, program: str, folder: str) -> None:
        self.program, self.folder = program, folder

    def path(self, name: str, text: str) -> str:
        path = os.path.join(self.folder, name)
        with open(path, "w", encoding="utf-8") as opened:
            opened.write(text)
        return path

    def generate(self, *words: str) -> subprocess.CompletedProcess[str]:
        return subprocess.run([sys.executable, "-m", "zarfepoch.generate", "timetable", *words], capture_output=True, text=True)

    def plan(self, tables: Tables, before: Optional[str] = None) -> str:
        """The plan of a school as CSV, by the program; with one before it, which is to be kept. Nothing where there is
        none."""
        school = read_school(self.path("school.csv", tables.lessons), self.path("rules.csv", tables.rules))
        plan = kept_plan(self.path("before.csv", before), school) if before else None
        [timetable] = timetables(school, plan)
        found = answered(self.program, timetable, plan is not None, 120)
        return plan_of(timetable.text(), found.text) if found and found.status == 0 else ""


@pytest.fixture
def trial(program: str, tmp_path: pathlib.Path) -> Planning:
    return Planning(program, str(tmp_path))


def plan_of(text: bytes, answer: bytes) -> str:
    """The plan of an answer as CSV."""
    problem = read_problem(text)
    picture = picture_of(problem, [problem.options[place] for _, place in read_answer(answer, problem).chosen], False)
    return picture.table() if isinstance(picture, Timetable) else ""


# ---- all plans of small tables

def all_covers(primary: int, options: list[dict[int, Optional[bytes]]], prefix: list[int]) -> Iterator[list[int]]:
    """All exact covers that extend a prefix."""
    live = branching(primary, options, prefix)
    if live is None:
        yield prefix
    for option in live or []:
        yield from all_covers(primary, options, prefix + [option])


def plans_by_covers(text: bytes) -> list[Plan]:
    """The plans of all covers of a problem."""
    _, primary, options, _ = read(text)
    problem = read_problem(text)
    found = []
    for cover in all_covers(primary, options, []):
        lines = [b" ".join(problem.options[place].words) for place in cover]
        answer = b"cover %d\n" % len(lines) + b"".join(line + b"\n" for line in lines)
        found.append(frozenset(read_plan(plan_of(text, answer))))
    return found


def ways_of(row: Row, week: str) -> list[list[Given]]:
    """All ways to give the lesson of a row so often as it should be, whatever else there is."""
    runs = runs_in(times_of(row["periods"] or week), int(row["length"] or 1))
    found = []
    for teachers in choices(row["teacher"]):
        for some in itertools.combinations(runs, int(row["times"] or 1)):
            for rooms in itertools.product(choices(row["rooms"]), repeat=len(some)):
                found.append([Given(row["lesson"], teachers, joined(row["class"]), room, run) for run, room in zip(some, rooms)])
    return found


def as_text(plan: Iterable[Given]) -> str:
    """A plan as a table."""
    lines = ["lesson;teacher;class;rooms;periods"]
    lines += [";".join([given.lesson, *("+".join(sorted(some)) or "-" for some in (given.teachers, given.classes, given.rooms)),
                        " ".join(f"{day}{number}" for day, number in given.times)]) for given in plan]
    return "\n".join(lines) + "\n"


@functools.lru_cache(maxsize=None)
def plans_by_trying(table: str, rules: str) -> set[Plan]:
    """All plans with which plan_rules.py finds no fault."""
    ways = [ways_of(row, WEEK) for row in rows_of(table)]
    plans = (list(itertools.chain.from_iterable(some)) for some in itertools.product(*ways))
    return {frozenset(plan) for plan in plans if not faults(table, rules, as_text(plan))}


# for each rule rows of lessons, in which the lot chooses among what stands between braces, and rows of rules
SMALL: dict[str, tuple[list[str], list[str]]] = {
    "once a day": (["a;{t,u};5a;;;{2,2};;1;;;", "b;t;5a;;;2;;{1,};;;", "c;u;5b;;;1;;;;;"], []),
    "once a day over few days": (["a;t;5a;;Mon1-2 Tue1-2;2;;1;;;", "b;t;5b;;;2;{1,2};1;;;"], []),
    "twice a day": (["a;t;5a;;;3;;2;;;", "b;t;5b;;;1;;;;{Mon1,};"], []),
    "no holes": (["a;t;5a;;;2;;;;;", "b;u;5a;;;{1,2};;;;;", "c;u;5b;;;1;;;;;"], ["5a;;;;0"]),
    "no holes in two periods away": (["a;t;5a;;;2;;;;;", "b;u;5a;;;1;;;;;"], ["5a;;Mon2;;0"]),
    "a hole": (["a;t;5a;;;2;;;;;", "b;t;5b;;;{1,2};;;;;"], ["t;;;;{0,1}"]),
    "few periods a day": (["a;t;5a;;;2;;;;;", "b;t;5b;;;2;;;;;"], ["t;;;2;"]),
    "few periods and no holes": (["a;t;5a;;;2;;;;;", "b;t;5b;;;1;;;;;", "c;u;5a;;;1;;;;;"], ["t;;;2;0"]),
    "away": (["a;t;5a;r;;2;;;;;", "b;u;5b;r;;1;;;;;"], ["t;;{Mon1-2,Tue1-2};;", "r;Mon1-3;;;"]),
    "one of two teachers": (["a;t or u;5a;;Mon1-3;2;;;;;", "b;t;5b;;Mon1-3;{1,2};;;;;", "c;u+v or t;5c;;Mon1-2;1;;;;;"], []),
    "rooms at once": (["a;t;5a;r+s;Mon1-3;1;;;;;", "b;u;5b;r s;Mon1-3;2;;;;;", "c;v;5c;s or r+q;Mon2-3;1;;;;;"], []),
    "fixed": (["a;t;5a;;;2;;{1,};;Mon2;", "b;t;5b;;;2;;;;{Tue1,};"], []),
    "one behind another": (["a;t;5a;;;{1,2};;1;;;", "b;t;5a;;;{1,2};;;;;a", "c;t;5b;;;1;;;;;"], []),
    "a double one behind another": (["a;t;5a;;;1;;;;;", "b;u;5a;;Mon1-3;1;2;;;;a", "c;u;5b;;;1;;;;;"], ["5a;;;;0"]),
    "apart": (["a;t;5a;;;1;;;x;;", "b;u;5a;;;1;;;x {y,};;", "c;u;5b;;;2;;;y;;"], []),
    "one of two teachers, apart, and no holes": (
        ["a;t or u;5a;;;2;;1;;{Mon1,Tue2};", "b;t;5a;;;{1,2};;;x;;", "c;u;5b;;;1;;;x;;"], ["5a;;;;0", "t;;;2;"]),
    "double lessons, rooms and holes": (["a;t;5a;r or s;Mon1-3;1;2;;;;", "b;u;5a;r+s;;1;;;;;", "c;t;5a;;;1;;;;;b"], ["5a;;;;{0,1}"]),
    "a joint lesson and one behind it": (["a;t;5a+5b;;;1;;1;;;", "b;u;5a;;;1;;;;;a", "c;u;5b;;;1;;;;;"], ["u;;Tue2;;0"]),
    "few periods, a hole and a day": (["a;t;5a;;;2;;1;;;", "b;t;5b;;;2;;1;;;"], ["t;;;2;1", "teachers;;{Mon2,Tue1};;"]),
    "twice a day and a hole": (["a;t;5a;;;3;;2;;{Mon1,};", "b;u;5a;;;1;;;;;"], ["classes;;;;1"]),
    "all lessons once a day": (["a;t;5a;;;2;;;;;", "b;t;5b;;;2;;{2,};;;"], ["lessons;;;1;"]),
}


def drawn(draw: random.Random, rows: list[str]) -> str:
    """Rows in which the lot has chosen; of `{1,2}` all become the same one."""
    text = "\n".join(rows)
    for braces in {part[:part.index("}") + 1] for part in (f"{{{rest}" for rest in text.split("{")[1:])}:
        text = text.replace(braces, draw.choice(braces[1:-1].split(",")))
    return text + "\n" if text else ""


@functools.lru_cache(maxsize=None)
def small_tables(times: int) -> dict[str, list[tuple[str, str]]]:
    """So many tables of each rule, drawn by lot: lessons and rules."""
    draw = random.Random(1)
    return {what: [(f"{HEAD}\n{drawn(draw, rows)}", f"who;periods;away;a_day;holes\nall;{WEEK};;;\n{drawn(draw, rules)}") for _ in range(times)]
            for what, (rows, rules) in SMALL.items()}


@pytest.mark.parametrize("what", SMALL)
def test_same_plans(trial: Planning, times: int, what: str) -> None:
    """The covers are the plans: none is lost, and none is added."""
    for table, rule_table in small_tables(times)[what]:
        ended = trial.generate(trial.path("small.csv", table), "--rules", trial.path("rules.csv", rule_table))
        wanted = plans_by_trying(table, rule_table)
        found = plans_by_covers(ended.stdout.encode()) if ended.returncode == 0 else []
        assert set(found) == wanted, f"{what}: {table} {rule_table} {ended.stderr} {len(set(found))} plans and not {len(wanted)}"
        assert ended.returncode in (0, 1), f"{what}: status {ended.returncode}"


def test_small_tables_have_plans(times: int) -> None:
    """Of the tables that are compared most have plans."""
    plans = sum(len(plans_by_trying(*tables)) for some in small_tables(times).values() for tables in some)
    assert plans > 100 * times, f"small tables with plans: {plans}"


# ---- schools

def with_two_changes(tables: Tables, plan: str) -> Tables:
    """The tables with a teacher away on a day on which they had one or two lessons, and another teacher for a
    lesson."""
    busy: dict[tuple[str, str], int] = {}
    for given in read_plan(plan):
        for who in given.teachers:
            busy[who, given.times[0][0]] = busy.get((who, given.times[0][0]), 0) + len(given.times)
    told = {row["who"] for row in rows_of(tables.rules)}
    who, day = next((who, day) for (who, day), count in sorted(busy.items()) if count < 3 and who not in told)
    lines = tables.lessons.split("\n")
    place, cells = next((place, cells) for place, cells in enumerate(line.split(";") for line in lines) if place and cells[1] not in (who, "t1"))
    lines[place] = ";".join([cells[0], "t1", *cells[2:]])
    return Tables("\n".join(lines), f"{tables.rules}{who};;{day}1-9;;\n".replace("1-9", tables.rules.split("Mon-Fri")[1][:3]))


@pytest.mark.parametrize("classes, teachers, per_day", ((6, 12, 6), (8, 13, 5), (9, 13, 5)))
def test_school(trial: Planning, times: int, classes: int, teachers: int, per_day: int) -> None:
    """Schools are planned as their rules say; and planned again after two changes, with most lessons where they
    were."""
    for seed in range(1, times + 1):
        tables = planned(seed, classes, teachers, per_day)
        plan = trial.plan(tables)
        found = faults(tables.lessons, tables.rules, plan) if plan else ["no plan"]
        assert not found, f"{classes} classes, {seed}: {found[:3]}"
        changed = with_two_changes(tables, plan)
        again = trial.plan(changed, plan)
        found = faults(changed.lessons, changed.rules, again) if again else ["no plan"]
        assert not found, f"{classes} classes with two changes, {seed}: {found[:3]}"
        same = len({given[0:1] + given[2:] for given in read_plan(plan)} & {given[0:1] + given[2:] for given in read_plan(again)})
        assert 3 * same > 2 * len(read_plan(plan)), f"{classes} classes: {same} of {len(read_plan(plan))} lessons stay"
        assert sorted(trial.plan(tables, plan).split("\n")) == sorted(plan.split("\n")), "nothing changes where nothing has to"


def test_soon_more(trial: Planning) -> None:
    """Where no time is left, more lessons may move after each search, up to all of them but a third."""
    tables = planned(1)
    school = read_school(trial.path("school.csv", tables.lessons), trial.path("rules.csv", tables.rules))
    [timetable] = timetables(school, kept_plan(trial.path("before.csv", trial.plan(tables)), school))
    sizes = [len(released) for released in movable(timetable, random.Random(1), 0)]
    assert sizes == sorted(set(sizes)) and sizes[0] == 0 and 3 * sizes[-1] >= 2 * len(timetable.lessons), f"ever more lessons may move: {sizes}"


def test_wrong_plans(trial: Planning) -> None:
    """plan_rules.py finds what is wrong with a plan."""
    tables = planned(1)
    plan = trial.plan(tables)
    lines = plan.split("\n")
    double = next(line for line in lines if line.startswith("sport"))
    single = next(line for line in lines if line.startswith("maths"))
    for what, changed in (("a lesson less", [line for line in lines if line != single]), ("a lesson twice", [*lines[:-1], single, ""]),
                          ("another teacher", [line.replace(single, single.replace(single.split(";")[1], "t99")) for line in lines]),
                          ("another room", [line.replace(double, double.replace("hall", "gym")) for line in lines]),
                          ("half a double lesson", [line.replace(double, double.replace(double.split(";")[4], double.split(";")[4].split()[0])) for line in lines]),
                          ("another period", [line.replace(single, single.replace(single.split(";")[4], "Fri6" if "Fri6" not in single else "Mon1")) for line in lines])):
        assert faults(tables.lessons, tables.rules, "\n".join(changed)), f"{what} is found"
    table = f"{HEAD}\na;t;5a;;Mon1-5;3;;;;;\n"
    text = "lesson;teacher;class;rooms;periods\n" + "".join(f"a;t;5a;-;Mon{number}\n" for number in (1, 2, 5))
    for what, rules, row in (("holes", "t;;;;1", ""), ("periods a day", "t;;;2;", ""), ("an hour away", "t;;Mon5;;", ""), ("once a day", "lessons;;;2;", "")):
        rule_table = f"who;periods;away;a_day;holes\n{rules}\n"
        assert len(faults(table, rule_table, text)) == 1, f"{what} are found"
    for row, count in (("b;t;5a;;Mon1-5;1;;;;;a", 0), ("b;u;5a;;Mon1-5;1;;;;;a", 1), ("b;t;5a;;Mon1-5;1;;;;Mon4;", 1)):
        found = faults(f"{table}{row}\n", "", text + f"b;{row[2]};5a;-;Mon{4 if row[2] == 'u' else 3}\n")
        assert len(found) == count, f"{row}: {found}"


# ---- what can't be meant, and what can't be

WRONG_RULES = (
    ("nobody of this name", 3, "2", "bell;;Mon1;;"), ("a name in another case", 3, "2", "ANN;;Mon1;;"), ("two rows of one", 3, "3", "ann;;Mon1;;\nann;;Tue1;;"),
    ("periods and away", 3, "2", "ann;Mon1;Tue1;;"), ("a room with holes", 3, "2", "r;;;;0"), ("all with holes", 3, "2", "all;;;;0"),
    ("lessons with periods", 3, "2", "lessons;Mon1;;;"), ("an unknown period", 3, "2", "ann;;Sat1;;"), ("no number", 3, "2", "ann;;;many;"),
    ("a range that is none", 3, "2", "ann;;Mon-1;;"), ("too many periods a day", 1, "2", "ann;;;1;"),
    ("nobody is there", 1, "3", "bob;;Mon-Tue1-4;;"), ("a room that is never free", 1, "2", "r;;Mon-Tue1-4;;"))
WRONG_ROWS = (
    ("once a day in too few days", 1, "a;ann;5a;;;3;;1;;;"), ("fixed where it may not be", 3, "a;ann;5a;;Mon1-2;1;;;;Tue9;"),
    ("more fixed places than times", 3, "a;ann;5a;;;1;;;;Mon1 Mon2;"), ("fixed twice on a day", 1, "a;ann;5a;;;2;;1;;Mon1 Mon2;"),
    ("after a lesson that isn't there", 3, "a;ann;5a;;;1;;;;;z"), ("after itself", 3, "a;ann;5a;;;1;;;;;a"),
    ("after a lesson that is given more often", 3, "a;ann;5a;;;1;;;;;c"), ("one of one teacher", 3, "a;ann or ann;5a;;;1;;;;;"),
    ("one of nobody", 3, "a;ann or -;5a;;;1;;;;;"), ("one of two classes", 3, "a;ann;5a or 5b;;;1;;;;;"), ("a room twice", 3, "a;ann;5a;r+r;;1;;;;;"),
    ("nobody beside an or", 3, "a;ann or;5a;;;1;;;;;"), ("nobody in front of an or", 3, "a;or ann;5a;;;1;;;;;"),
    ("no room beside an or", 3, "a;ann;5a;r or;;1;;;;;"), ("a lesson behind itself", 3, "a;ann;5a;;;1;;;;;a"),
    ("a room missing beside a plus", 3, "a;ann;5a;r+;;1;;;;;"), ("days that nobody knows", 3, "a;ann;5a;;a-b1-2;1;;;;;"),
    ("a range from nowhere", 3, "a;ann;5a;;-1-3;1;;;;;"), ("a week's range with periods", 3, "a;ann;5a;;Mon1-Fri6;1;;;;;"))


TWO_LESSONS = f"{HEAD}\na;ann;5a;r;Mon-Tue1-4;3;;;;;\nb;bob;5a;;Mon-Tue1-4;1;;;;;\n"


@pytest.mark.parametrize("what, status, line, rows", WRONG_RULES, ids=[what for what, *_ in WRONG_RULES])
def test_wrong_rules(trial: Planning, what: str, status: int, line: str, rows: str) -> None:
    """Rules that can't be meant, with their lines, and what can't be."""
    ended = trial.generate(trial.path("table.csv", TWO_LESSONS), "--rules", trial.path("rules.csv", f"who;periods;away;a_day;holes\n{rows}\n"))
    assert ended.returncode == status and f"line {line}" in ended.stderr.replace("lines", "line"), f"{what}: {ended.returncode} {ended.stderr}"


@pytest.mark.parametrize("row, told", (
    (";;Mon;;", "line 2: who is missing"),
    ("teachers;;Mon-Wed;;", "'Mon-Wed' is no range of periods"), ("teachers;;Mon-Wed;;", "whole days are Mon Tue Wed"),
    ("ann;;x-y;;", "'x-y' is no range of periods, as Mon1-4, 1-30 or Mon-Fri1-6; a period's name has no '-'")))
def test_named_mistakes(trial: Planning, row: str, told: str) -> None:
    """A mistake in the rules is named with what may be meant."""
    rules = trial.path("rules.csv", f"who;periods;away;a_day;holes\n{row}\n")
    ended = trial.generate(trial.path("table.csv", TWO_LESSONS), "--rules", rules)
    assert ended.returncode == 3 and told in ended.stderr, f"{row}: {ended.stderr}"


@pytest.mark.parametrize("what, status, row", WRONG_ROWS, ids=[what for what, *_ in WRONG_ROWS])
def test_wrong_rows(trial: Planning, what: str, status: int, row: str) -> None:
    ended = trial.generate(trial.path("table.csv", f"{HEAD}\nc;bob;5b;;Mon1-2 Tue1-2;2;;;;;\n{row}\n"))
    assert ended.returncode == status and "line 3" in ended.stderr and "Traceback" not in ended.stderr, f"{what}: {ended.returncode} {ended.stderr}"


@pytest.mark.parametrize("first", ("sep=;", "SEP=;", '"sep=;"', "sep=;;;;", "sep=\t"))
def test_line_that_tells_excel_the_separator(trial: Planning, first: str) -> None:
    """A first line as Excel reads and others write it is passed over, and counts as a line."""
    rules = trial.path("rules.csv", f"{first}\nwho;periods;away;a_day;holes\nann;;Mon1;;\n")
    assert trial.generate(trial.path("table.csv", f"{first}\n{TWO_LESSONS}"), "--rules", rules).returncode == 0
    ended = trial.generate(trial.path("table.csv", f"{first}\n{TWO_LESSONS}a;ann;5a;r+r;;1;;;;;\n"))
    assert ended.returncode == 3 and "line 5" in ended.stderr, ended.stderr


def test_lengths_and_weeks(trial: Planning) -> None:
    ended = trial.generate(trial.path("table.csv", f"{HEAD}\nart;ann;5a;;Mon1-3;2;;;;;\nkunst;bob;5a;;Mon1-3;1;2;;;;\n"))
    assert "art 2, kunst" in ended.stderr, f"2 x 2: {ended.stderr}"
    ended = trial.generate(trial.path("table.csv", "lesson,teacher,class\na,ann,5a\n"))
    assert ended.returncode == 3 and "nobody knows the week" in ended.stderr, f"no week: {ended.stderr}"


# tables that have no plan for a reason beyond counting, rules, and what has to be told of them
IMPOSSIBLE = (
    ("a double lesson and one on each day", "maths;ann;5a;;Mon-Tue1-2;2;;1;;;\nart;bob;5a;;Mon-Tue1-2;1;2;;;;\nmusic;cy;5b;;Mon1;1;;;;;\n", "",
     "Of 5a: these 2 rows can't be together:\n  line 2: maths 2, at most 1 a day (ann; 5a), Mon1-2 Tue1-2\n  line 3: art 1 x 2 (bob; 5a), Mon1-2 Tue1-2"),
    ("a day with too many lessons", "".join(f"{one};{one}{one};5a;;Mon1-2 {day}1-2;2;;1;;;\n" for one, day in zip("abc", ("Tue", "Wed", "Thu"))), "",
     "lines 2, 3, 4: there is no timetable: 5a has 3 periods of lessons that have to be on Mon (1 of a 2, 1 of b 2, 1 of c 2), since their other days are too few, and only 2 "
     "there: Mon1-2"),
    ("a day with too many lessons of a teacher", "".join(f"{one};ann;5{one};;Mon1-3 {day}1-2;2;;1;;;\n" for one, day in zip("abc", ("Tue", "Wed", "Thu"))),
     "ann;;;2;\n", "ann has 3 periods of lessons that have to be on Mon (1 of a 2, 1 of b 2, 1 of c 2), since their other days are too few, and at most 2 (line 3 of the rules)"),
    ("a lesson that is fixed", "maths;ann;5a;;Mon-Tue1-2;2;;1;;Mon1;\nart;bob;5a;;Mon-Tue1-2;1;2;;;;\n", "",
     "  line 2: maths 2, at most 1 a day (ann; 5a), Mon1-2 Tue1-2, fixed at Mon1\n"),
    ("a room's rule", "a;gross;5a;hall;Mon-Tue1-3;3;;;;;\nb;bob;5b;;Mon-Tue1-3;1;;;;;\n", "hall;Mon1 Tue1;;;\n",
     "; hall (line 3 of the rules): can be had in Mon1 Tue1"),
    ("a hole that has to be", "maths;ann;5a;;Mon1-3;1;;;;;\nart;bob;5a;;Mon1-3;1;;;;;\nmusic;cy;5b;;Mon1-3;1;;;;;\n", "5a;;;;0\nann;Mon1;;;\nbob;Mon3;;;\n",
     "  ann (line 4 of the rules): can be had in Mon1\n  5a (line 3 of the rules): no holes\n  bob (line 5 of the rules): can be had in Mon3"),
    ("a teacher whose days are full", "a;ann;5a;;Mon-Tue1-3;2;2;;;;\nb;ann;5b;;Mon-Tue1-3;1;;;;;\nc;bob;5a;;Mon1;1;;;;;\n", "ann;;;2;\n", "line 2, 3: there is no timetable: ann has 5"))


@pytest.mark.parametrize("what, rows, rules, told", IMPOSSIBLE, ids=[what for what, *_ in IMPOSSIBLE])
def test_impossible(trial: Planning, what: str, rows: str, rules: str, told: str) -> None:
    """Of what can't be the rows that can't be together are told, and whose rules matter."""
    table, ruled = trial.path("none.csv", f"{HEAD}\n{rows}"), trial.path("none-rules.csv", f"who;periods;away;a_day;holes\nlessons;;;9;\n{rules}")
    words = [sys.executable, "-m", "zarfepoch", "timetable", table, "--rules", ruled]
    ended = subprocess.run(words, capture_output=True, text=True, env={**os.environ, "ZARFEPOCH": trial.program})
    said = ended.stdout + ended.stderr
    assert ended.returncode == 1 and told.replace("line 2, 3", "lines 2, 3") in said, f"{what}: {ended.returncode} {said}"


def test_parts(trial: Planning) -> None:
    """A school that is too large for one file is parted where classes share nobody and no room, and no further."""
    rows = [f"l{k};{one}t{k % 9};{one}{k // 9};;;3;;1;;;" for one in "ab" for k in range(54)]
    table = trial.path("two.csv", "\n".join([HEAD, *rows]) + "\n")
    rules = trial.path("rules.csv", "who;periods\nall;Mon-Fri1-6\n")
    out = os.path.join(trial.folder, "two.dlx")
    ended = trial.generate(table, "--rules", rules, "--out", out)
    made = [name for name in os.listdir(trial.folder) if name.startswith("two") and name.endswith(".dlx")]
    assert sorted(made) == ["two-1.dlx", "two-2.dlx"] and "parted into 2 files" in ended.stderr, f"two files: {ended.stderr} {made}"
    ended = trial.generate(table, "--rules", rules)
    assert ended.returncode == 3 and "--out FILE says where" in ended.stderr, f"two files want a name: {ended.stderr}"
