"""Says why a problem file has no cover, in words that can be checked by hand, and draws it.

    zarfepoch-why-none FILE [--svg OUT] [--search] [--fuel N]

First it asks the program for a reason (solve_cli why FILE): an item in no option; too little room, as 25 lessons for
the 24 periods of their teacher; or weights that each option adds up to 0 modulo some number, and all items together
don't, as the colours of a chessboard. Where it has none, this counts items that are alike, for ten seconds at most:
nine people who meet in threes on five evenings make 45 meetings of two, and there are 36 pairs, each of which may meet
once. That takes no search. It adds the reason up again by itself, and --svg draws it: the board in the colours of the
weights, where the items are cells of one, else the items beside what they weigh, need or have room for. Of reasons for
each option of an item it draws the first. Without a reason there is no picture.

Where the program finds no reason, or with --search, and answers `none`, this takes primary items away as long as it
still does: half of those that are left at a time, then one by one. What is left can't be covered, and would be without
any one of its items. (Where a question isn't answered within N visits, 1,000,000 where no number is given, its items
stay, so there may be more of them than are needed.) It prints these items with the options that name them, and why,
where that is plain: two items any two options of which clash.

It wants the program, and says how to build it where there is none. The exit status is 0 where there is no cover and a
reason or items were found, 1 where there is a cover or the search wasn't finished, 2 for a mistake on the command line
or where the program can't be run, 3 for a file that can't be read or is refused, or where a picture or the standard
output can't be written.
"""
from __future__ import annotations

import itertools
import subprocess
from collections.abc import Iterator
from typing import Callable, Optional

from .command_line.ends import complain, run, stop
from .command_line.words import parser_of
from .command_line.written import keep_what_is_read
from .files.cover_files import Problem, read_problem, refusal, shown
from .files.fault_words import first_few, plural, quoted
from .files.full_names import told_lines
from .files.whole_files import Unreadable, read_bytes, write_out
from .pictures.kinds import in_words
from .pictures.reasons import reason_svg
from .programs import is_program, known_program, missing_program, UnprovedNote
from .reasons.cover_reason import Named, Reason, clash
from .reasons.even_room import any_reason

# the exit status and the first word of each answer
NONE, COVER, SPENT, OUT_OF_MEMORY = (1, b"none"), (0, b"cover"), (4, b"no"), (5, b"")
SHOWN = 12
# for so many seconds items that are alike are counted: who asks why has time for what takes `zarfepoch` and `reasons`
# too long
COUNTING = 10.0


def text_without(problem: Problem, kept: list[bytes]) -> bytes:
    """The problem's text with these primary items alone; the secondary ones stay."""
    gone = set(problem.primary_names()) - set(kept)
    secondary = problem.names()[problem.primary:]
    head = b" ".join(kept) + (b" | " + b" ".join(secondary) if secondary else b"")
    lines = [b" ".join(word for word, name in zip(option.words, option.names) if name not in gone) for option in problem.options]
    return b"\n".join([head, *lines, b""])


class Questions:
    """What the program answers of a problem with some of its primary items."""

    def __init__(self, problem: Problem, program: str, fuel: int) -> None:
        self.problem, self.program, self.fuel, self.asked = problem, program, str(fuel), 0
        self.note = UnprovedNote()

    def answer(self, kept: list[bytes]) -> tuple[int, bytes]:
        """The exit status of the search with these primary items, and the first word of its answer."""
        self.asked += 1
        text = text_without(self.problem, kept)
        try:
            ran = subprocess.run([self.program, "alone", "-", "--fuel", self.fuel], input=text, capture_output=True)
        except OSError as why:
            stop(f"the program can't be run: {why}")
        found = ran.returncode, ran.stdout.partition(b" ")[0].strip()
        if found == NONE:
            self.note.tell(ran.stderr.decode(errors="replace"))
        return found

    def is_none(self, kept: list[bytes]) -> bool:
        return bool(kept) and self.answer(kept) == NONE


def least(kept: list[bytes], is_none: Callable[[list[bytes]], bool]) -> list[bytes]:
    """A part of these items of which none can be taken away: larger pieces are tried before smaller ones."""
    size = len(kept) // 2
    while size:
        place = 0
        while place < len(kept):
            fewer = kept[:place] + kept[place + size:]
            if is_none(fewer):
                kept = fewer
            else:
                place += size
        size = min(size // 2, len(kept) // 2)
    return kept


def clash_always(problem: Problem, by_item: dict[bytes, list[int]], one: bytes, other: bytes) -> bool:
    """Whether any two options that name these items clash, and no option names both."""
    places = by_item[one], by_item[other]
    return set(places[0]).isdisjoint(places[1]) and all(
        clash(problem.options[a], problem.options[b]) for a in places[0] for b in places[1])


def reasons(problem: Problem, kept: list[bytes], named: Named) -> Iterator[str]:
    """Lines that say in words why these items can't be covered together, where that is plain."""
    by_item, is_bare = problem.options_by_item(), named is shown
    for name in kept:
        if not by_item[name]:
            yield f"no option names {quoted(name)}" if is_bare else f"nothing is possible for {named(name)}"
    for one, other in itertools.combinations([name for name in kept if by_item[name]], 2):
        if clash_always(problem, by_item, one, other):
            yield (f"each option that names {quoted(one)} clashes with each that names {quoted(other)}" if is_bare else
                   f"each way for {named(one)} clashes with each for {named(other)}")


def explain(problem: Problem, kept: list[bytes], asked: int) -> Iterator[str]:
    """All lines on the items that were found."""
    by_item = problem.options_by_item()
    searches = f"{asked:,} {'search' if asked == 1 else 'searches'}"
    named = in_words(problem)
    are = f"{plural(len(kept), 'primary item')} of {problem.primary:,} can't be covered" if named is shown else "these can't be had"
    yield f"{are} together ({searches}):"
    for name in kept:
        lines = [problem.options[place].line for place in by_item[name]]
        where = f"in {plural(len(lines), 'option')}, line{'s' * (len(lines) != 1)} {first_few(lines, SHOWN)}" if lines else "in no option"
        yield f"  {shown(name)}: {where}" if named is shown else f"  {named(name)}, in {plural(len(lines), 'way')}"
    yield from reasons(problem, kept, named)


def put_lines(problem: Problem, lines: list[str]) -> None:
    """Prints these lines for readers."""
    print("\n".join(told_lines(problem, lines)))


def read(path: str) -> tuple[bytes, Problem]:
    """The bytes and the problem of a file; ends the script where it can't be read or is refused."""
    try:
        text = read_bytes(path)
    except Unreadable as why:
        stop(why, 3)
    problem = read_problem(text)
    if problem.faults:
        stop(f"{path} is refused: {refusal(problem.faults)}; zarfepoch-explain {path} explains it", 3)
    return text, problem


def explain_reason(problem: Problem, reason: Reason, path: Optional[str]) -> int:
    """Prints why there is no cover, and draws it; the exit status."""
    if not reason.holds(problem):
        stop("the program's reason doesn't hold: added up again, its numbers don't show that there is no cover")
    if path != "-":
        put_lines(problem, reason.words(problem, in_words(problem)))
    if path:
        write_out(path, reason_svg(problem, reason))
    return 0


def explain_by_search(problem: Problem, program: str, fuel: int) -> int:
    """Prints a few items that can't be covered together; the exit status."""
    questions = Questions(problem, program, fuel)
    answer = questions.answer(problem.primary_names())
    if answer != NONE:
        print({COVER: "there is a cover", SPENT: f"no answer within {fuel:,} visits; --fuel allows more",
               OUT_OF_MEMORY: "the program ran out of memory"}.get(answer, f"the program ended with status {answer[0]}"))
        return 1
    kept = least(problem.primary_names(), questions.is_none)
    put_lines(problem, list(explain(problem, kept, questions.asked)))
    return 0


def main() -> int:
    words = parser_of(__doc__)
    words.add_argument("file", metavar="FILE", help="the problem's file, or - for the standard input")
    words.add_argument("--svg", metavar="OUT", help="where a picture of the reason is written, - for the standard output")
    words.add_argument("--search", action="store_true", help="don't ask for a reason: search alone")
    words.add_argument("--fuel", type=int, default=1_000_000, help="how many visits each search may take (default 1,000,000)")
    words.add_argument("--program", default=known_program(), help="the built program")
    given = words.parse_args()
    if not 1 <= given.fuel < 1 << 64:
        words.error("--fuel takes 1 to 18446744073709551615")
    keep_what_is_read(given)
    text, problem = read(given.file)
    if given.program is None or not is_program(given.program):
        stop(missing_program(given.program))
    try:
        reason = None if given.search else any_reason(given.program, text, problem, counting=COUNTING)
    except OSError as why:
        stop(f"the program can't be run: {why}")
    if reason:
        return explain_reason(problem, reason, given.svg)
    if given.svg:
        complain("there is no picture, since the program gives no reason")
    return explain_by_search(problem, given.program, given.fuel)


if __name__ == "__main__":
    run(main)
