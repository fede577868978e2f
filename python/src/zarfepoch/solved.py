"""Solves a puzzle or plans a school at once: reads it, asks the program, draws the answer, and says whether it is the
only one.

    zarfepoch KIND .. [--out FILE.svg] [--seconds N]
    zarfepoch --json FILE [--seconds N]

The kinds are %KINDS%;
`zarfepoch KIND --help` says what each reads. The tools are %TOOLS%;
`zarfepoch TOOL --help` says what each does, as `zarfepoch explain FILE` lists the mistakes in a file. Of kinds:

    zarfepoch sudoku puzzle.txt                     draws the answer in the terminal
    zarfepoch killer killer.txt --out killer.svg    draws it as a picture
    zarfepoch timetable school.csv --rules rules.csv --csv plan.csv
                                                    plans a school, and writes the plan as a table too; --plan NAME .. draws the plans of these alone,
                                                    --grid WEEK.csv writes them as people read them, and --out-dir FOLDER each into files of its own

Of each kind but timetables it is said whether the answer is the only one; --one leaves that out. Where there is no
answer, it says why, if a reason is found without a search in what is left of N seconds, ten at most, and what may be
mistyped: the puzzle is tried without each of its digits, sums or signs, for N seconds in all (5 where none are told).
With --seconds N each search ends after N seconds; without, the first goes on until it is decided, and the one for
another answer for 10 seconds. --all draws each solution, and --count says how many there are, or how many were found in
N seconds. A timetable is looked for by many short searches first, since one in which the first choices are wrong seldom
ends. --problem FILE keeps the problem that the program gets, and zarfepoch-why-none FILE --svg OUT draws the reason why
it has no answer.

With --json FILE an object with "options", and perhaps "primary", all other items where it isn't there, and "secondary"
is read, in whose options a list of two is an item with its colour; the answer is printed as a list of places, or null.
Items and colours are texts or numbers; another key is refused. FILE may be -, the standard input.

The exit status is 0 where there is an answer, 1 where there is none, 2 for a mistake on the command line or where there
is no program, 3 where something can't be read, meant or written, and 4 where there is no answer in time; with --json 3
for that too.
"""
from __future__ import annotations

import argparse
import contextlib
import os
import shlex
import sys
import textwrap
import threading
import time
from argparse import Namespace
from collections import Counter
from collections.abc import Callable, Iterator
from typing import Optional

from .command_line.ends import complain, stop
from .command_line.words import as_called, called, parser_of
from .command_line.written import keep_what_is_read
from .commands import COMMANDS
from .errors import NoProgram, OutOfMemory, ProgramError, TimeIsUp
from .files.cover_files import Problem, read_audited, read_problem
from .files.fault_words import plural
from .files.full_names import told_lines
from .files.whole_files import put, write_out
from .pictures.base import Kind
from .pictures.kinds import in_words, picture_of
from .pictures.plan_files import add_tables, with_plans, write_plans
from .pictures.svg_paper import Paper
from .problems import RunningQuestion
from .programs import answer_of, find_program, own_words, ProgramAnswer, UnprovedNote
from .puzzles.kinds import kinds_listed, kinds_of, problems_of
from .puzzles.mistyped import SECONDS as CHANGE_SECONDS, change_lines
from .reasons.even_room import any_reason
from .search.all_covers import Covers
from .search.other_covers import free_name, others_of
from .search.parts import Tree
from .texts.puzzles import Change, PlainlyNone, Puzzle
from .timetables.answers import planned, TRY_SECONDS
from .timetables.impossible import core_of, core_words
from .timetables.plans import Plan, read_plan
from .timetables.problem import Timetable, note_size
from .timetables.weeks import in_order

# a lesson by its title and its classes, in a period
Time = tuple[tuple[str, frozenset[str]], str]

NO_ANSWER = 4
# the program takes a limit of at most a million seconds
MOST_SECONDS = 1_000_000
# how long another answer is looked for where no time is told, and a reason at most
OTHER_SECONDS = 10.0
# every so many seconds it is said that a search goes on, and so many lessons that moved are told
WAITING, MOST_MOVED = 10.0, 20


def command_line() -> argparse.ArgumentParser:
    *tools, last = (name.replace("zarfepoch-", "") for name in COMMANDS if name != "zarfepoch")
    parser = parser_of((__doc__ or "").replace("%KINDS%", textwrap.fill(kinds_listed(), 130)).replace("%TOOLS%", f"{', '.join(tools)} and {last}"))
    parser.add_argument("--json", metavar="FILE", help="a problem in JSON, in place of a kind")
    parser.add_argument("--seconds", metavar="N", type=seconds_of,
                        help="how long a search may take (no limit where it isn't given)")
    for words in kinds_of(parser):
        words.add_argument("--out", metavar="FILE.svg", help="where the picture is written, - for the standard output")
        if not words.prog.endswith("timetable"):
            which = words.add_mutually_exclusive_group()
            which.add_argument("--one", action="store_true", help="don't ask whether the answer is the only one")
            which.add_argument("--all", action="store_true", help="draw each solution, in the terminal")
            which.add_argument("--count", action="store_true", help="say how many solutions there are, and draw none")
        words.add_argument("--problem", metavar="FILE.dlx", help="where the problem is written that the program gets")
        words.add_argument("--seconds", metavar="N", type=seconds_of, default=argparse.SUPPRESS,
                           help="how long a search may take")
        if words.prog.endswith("timetable"):
            add_tables(words)
            words.add_argument("--plan", metavar="NAME", nargs="+", action="extend", default=[], help="whose plans are drawn, as zarfepoch-draw does")
    return parser


def seconds_of(text: str) -> Optional[float]:
    """A number of seconds on the command line, None where they are so many that they are no limit."""
    try:
        number = float(text)
    except ValueError:
        number = 0.0
    if not number > 0:
        raise argparse.ArgumentTypeError(f"'{text}' is no number above 0")
    return number if number <= MOST_SECONDS else None


def answer_of_school(program: str, timetable: Timetable, given: Namespace) -> ProgramAnswer:
    """The program's answer to a timetable: for a third of the time, or two where a plan is kept, or by a part of the
    school that has none, or for the rest of the time."""
    began, limit = time.monotonic(), given.seconds or 3 * TRY_SECONDS
    found = planned(program, timetable, bool(given.keep), (2 if given.keep else 1) * limit / 3)
    if (found is None or found.is_none) and timetable.school:
        # (where it is known that there is none, all of the time is for the reason)
        core = core_of(program, timetable.school, limit - (time.monotonic() - began) if found else limit / 3, found is not None)
        if core:
            print("There is no timetable. " + "\n".join(core_words(timetable.school, core)))
            return ProgramAnswer(1, b"none\n", "")
    answer = found or answer_of(program, timetable.text(), given.seconds and max(1.0, given.seconds - (time.monotonic() - began)))
    if answer.is_none:
        print("There is no timetable.")
    return answer


@contextlib.contextmanager
def told_waiting(so_far: Callable[[], str] = str) -> Iterator[None]:
    """Says every ten seconds that a search goes on, and what it has found so far, if anything is to be said of that; at
    the end how long it took."""
    began, over = time.monotonic(), threading.Event()

    def tell() -> None:
        while not over.wait(WAITING):
            complain(f"still looking, for {time.monotonic() - began:.0f} seconds now{so_far()}")

    thread = threading.Thread(target=tell, daemon=True)
    with contextlib.suppress(RuntimeError):
        # (where no thread can be started nothing is said meanwhile)
        thread.start()
    try:
        yield
    finally:
        over.set()
        if thread.ident is not None:
            thread.join()
    if time.monotonic() - began >= WAITING:
        complain(f"this took {time.monotonic() - began:.0f} seconds")


def answer_or_stop(program: str, puzzle: Puzzle, given: Namespace) -> ProgramAnswer:
    """The program's answer; ends the command where there is none in time, or the program fails."""
    with told_waiting():
        found = answer_of_school(program, puzzle, given) if isinstance(puzzle, Timetable) else answer_of(program, puzzle.text(), given.seconds)
    if found.is_open:
        stop(f"no answer: {own_words(found.why)}" if found.why else "no answer", NO_ANSWER)
    if not (found.is_cover or found.is_none):
        stop(found.failure(program), 3)
    if found.why:
        complain(found.why)
    return found


def only_words(program: str, problem: Problem, answer: bytes, seconds: Optional[float]) -> str:
    """Whether an answer is the only one, in a sentence."""
    chosen = [problem.options[place].words for _, place in read_audited(answer, problem).chosen]
    text, too_large = others_of(problem, [chosen], free_name(problem, b"other"))
    if too_large:
        return f"Whether it is the only solution can't be asked: that problem would have {too_large}."
    limit = seconds or OTHER_SECONDS
    found = answer_of(program, text, limit)
    if found.is_cover:
        return "There is another solution; --all draws each."
    if found.is_none:
        return "It is the only solution."
    if found.is_open:
        return f"Whether it is the only solution wasn't decided in {limit:g} second{'s' * (limit != 1)}; --seconds N gives more."
    return f"Whether it is the only solution isn't known: {found.failure(program)}."


def draw(given: Namespace, picture: Kind, title: str) -> None:
    """Draws an answer in the terminal, or as a picture and as a table where the command line wants them."""
    if given.out:
        paper = Paper(title)
        picture.draw(paper)
        write_out(given.out, paper.svg())
    if given.kind == "timetable":
        write_plans(given, picture, title)
        if given.out_dir or "-" in (given.csv, given.grid):
            return
    if not given.out:
        print("\n".join(picture.text()))


def tell_none(program: str, puzzle: Puzzle, problem: Problem, given: Namespace, began: float) -> None:
    """Says that there is no solution, and why, where that takes no search and no more than what is left of the time,
    and what may be mistyped; where neither is known, how a reason can be searched for."""
    print("There is no solution.", flush=True)
    left = OTHER_SECONDS if given.seconds is None else min(OTHER_SECONDS, given.seconds - (time.monotonic() - began))
    try:
        reason = any_reason(program, puzzle.text(), problem, left)
    except (OSError, ValueError):
        # (the program couldn't be run once more, or wrote something else: no reason is known)
        reason = None
    is_told = reason is not None and reason.holds(problem)
    if reason and is_told:
        print("\n".join(told_lines(problem, reason.words(problem, in_words(problem)))))
    if not tell_changes(program, puzzle.changes, given.seconds) and not is_told:
        print(as_called(f"No reason was found without a search; {why_none_of(given)} searches for items that can't be covered together."))
    tell_unwritten(given, f"; {why_none_of(given)} --svg OUT.svg draws the reason" if is_told else "")


def why_none_of(given: Namespace) -> str:
    """The command that says why the problem of a command line has no solution, and how that is kept if it isn't."""
    return f"zarfepoch-why-none {shlex.quote(given.problem)}" if given.problem else "--problem FILE.dlx keeps the problem, and zarfepoch-why-none FILE.dlx"


def tell_unwritten(given: Namespace, hint: str = "") -> None:
    """Says that no picture or plan was written where the command line wants one, and there is no answer."""
    if any(getattr(given, name, None) for name in ("out", "csv", "grid", "out_dir")):
        what, answer = ("plan", "timetable") if given.kind == "timetable" else ("picture", "solution")
        print(as_called(f"No {what} was written, since there is no {answer}{hint}."))


def tell_changes(program: str, changes: list[Change], seconds: Optional[float]) -> bool:
    """Says after which small changes of the puzzle there is a solution: one of these may be what is mistyped. Whether
    anything is said."""
    sys.stdout.flush()
    lines = change_lines(program, changes, seconds or CHANGE_SECONDS)
    print("".join(line + "\n" for line in lines), end="")
    return bool(lines)


def solved(program: str, puzzle: Puzzle, given: Namespace) -> int:
    """Answers one problem and draws it; the exit status."""
    problem = read_problem(puzzle.text())
    if getattr(given, "plan", []):
        # (a plan of nobody is refused before the search)
        with_plans(picture_of(problem, [], False), given.plan)
    if getattr(given, "all", False) or getattr(given, "count", False):
        return all_solutions(program, puzzle, problem, given)
    began = time.monotonic()
    found = answer_or_stop(program, puzzle, given)
    if found.is_none:
        if isinstance(puzzle, Timetable):
            tell_unwritten(given)
        else:
            tell_none(program, puzzle, problem, given, began)
        return 1
    answer = read_audited(found.text, problem)
    picture = picture_of(problem, [problem.options[place] for _, place in answer.chosen], False)
    kept = ""
    if isinstance(puzzle, Timetable) and puzzle.school and given.keep:
        # (the plan that is kept is read before another one takes its place)
        kept = kept_words(puzzle, found.text, read_plan(given.keep, puzzle.school))
    draw(given, with_plans(picture, getattr(given, "plan", [])), puzzle.comments[0])
    if kept:
        complain(kept)
    if not isinstance(puzzle, Timetable) and not given.one and given.out != "-":
        sys.stdout.flush()
        print(only_words(program, problem, found.text, given.seconds))
    return 0


def all_solutions(program: str, puzzle: Puzzle, problem: Problem, given: Namespace) -> int:
    """Draws or counts all solutions of a puzzle; the exit status."""
    if given.out:
        stop("--out draws one solution, so it doesn't go with --all and --count")
    tree, note, count, began = Tree(problem), UnprovedNote(), 0, time.monotonic()
    found = Covers(tree, lambda prefix: RunningQuestion(program, tree, prefix, note)).each(given.seconds)
    try:
        # (each solution that is drawn says that the search goes on)
        with contextlib.closing(found), contextlib.nullcontext() if given.all else told_waiting(lambda: f": {plural(count, 'solution')} so far"):
            for count, cover in enumerate(found, 1):
                if given.all:
                    print("\n".join(picture_of(problem, [problem.options[place] for place in sorted(cover)], False).text()), end="\n\n", flush=True)
                if given.seconds is not None and time.monotonic() > began + given.seconds:
                    raise TimeIsUp
    except (ProgramError, OutOfMemory) as why:
        stop(why, 3)
    except TimeIsUp:
        found_so_far = f"There {'are' if count != 1 else 'is'} at least {plural(count, 'solution')}"
        print(f"{found_so_far if count else 'No solution was found'}: the time was over before the end.")
        return 0 if count else NO_ANSWER
    if not count:
        tell_none(program, puzzle, problem, given, began)
        return 1
    print(f"There {'are' if count != 1 else 'is'} {plural(count, 'solution')}.")
    return 0


def kept_words(timetable: Timetable, answer: bytes, plan: Plan) -> str:
    """How many times of lessons stay in their periods, whichever of a lesson's times each is, and which lessons
    moved."""
    lines = set(answer.decode("utf-8").splitlines()[1:])
    chosen = [one for one in timetable.ranked if one.lessons and " ".join(one.option) in lines]
    lessons = [timetable.lessons[name] for one in chosen for name in one.lessons]
    found = Counter(zip(((lesson.title, frozenset(lesson.classes)) for lesson in lessons), (period for one in chosen for period in one.begins)))
    own = {(lesson.title, frozenset(lesson.classes)) for lesson in timetable.lessons.values()}
    before = Counter((lesson, place.period) for lesson, places in plan.items() for place in places if lesson in own)
    staying = f"{sum((found & before).values())} of {sum(found.values())} times of lessons stay in their periods"
    return "\n".join([staying, *moved_lines(before - found, found - before)])


def moved_lines(left: Counter[Time], taken: Counter[Time]) -> list[str]:
    """For each lesson that moved a line with the periods that it left, and those that it has in their place."""
    lessons = list(dict.fromkeys(lesson for lesson, _ in [*taken.elements(), *left.elements()]))
    lines = []
    for title, classes in lessons:
        was, has = (in_order([period for lesson, period in some.elements() if lesson == (title, classes)]) for some in (left, taken))
        change = f"from {' '.join(was)} to {' '.join(has)}" if was and has else f"new at {' '.join(has)}" if has else f"no longer at {' '.join(was)}"
        lines.append(f"  {title}{' of ' + '+'.join(sorted(classes)) if classes else ''}: {change}")
    return lines[:MOST_MOVED] + ([f"  and {len(lines) - MOST_MOVED} more lessons"] if len(lines) > MOST_MOVED else [])


def in_parts(given: Namespace, number: int, count: int) -> Namespace:
    """What the command line wants of one of several parts: files have its number in their names."""
    if count == 1:
        return given
    own = Namespace(**vars(given))
    for name in ("out", "csv", "grid", "out_dir", "problem"):
        path = getattr(given, name, None)
        if path and path != "-":
            base, ending = os.path.splitext(path.rstrip("/"))
            setattr(own, name, f"{base}-{number}{ending}")
    return own


def solve_kind(given: Namespace, words: list[str]) -> int:
    """Answers what a kind and its words ask for; the exit status."""
    if [getattr(given, name, None) for name in ("out", "csv", "grid")].count("-") > 1:
        stop("- is the standard output, which takes one of picture and tables")
    keep_what_is_read(given)
    try:
        program = find_program()
    except NoProgram as why:
        stop(why)
    try:
        found = problems_of(given, words)
        if len(found) > 1:
            note_size(found[0])
    except PlainlyNone as why:
        tell_changes(program, why.changes, given.seconds)
        tell_unwritten(given)
        raise
    statuses = []
    for number, puzzle in enumerate(found, 1):
        own = in_parts(given, number, len(found))
        keep_what_is_read(own)
        if own.problem:
            try:
                put(own.problem, puzzle.text().decode())
            except OSError as why:
                stop(f"{own.problem} can't be written: {why.strerror}", 3)
        try:
            statuses.append(solved(program, puzzle, own))
        except ProgramError as why:
            stop(why, 3)
    return max(statuses)


def kind_missing() -> str:
    return as_called(f"a KIND is missing, as in: {called()} sudoku FILE; "
                     "zarfepoch-generate --help describes all of them")
