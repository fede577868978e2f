"""Problems of exact covering, as items and options of Python, and how the program answers them."""
from __future__ import annotations

import contextlib
import math
import os
import subprocess
import time
from collections.abc import Hashable, Iterable, Iterator, Mapping
from typing import cast, NamedTuple, Optional, Union

from .errors import (
    ColoredPrimary, NoAnswer, OutOfMemory, ProblemError, ProgramError, RepeatedItem, TimeIsUp, TooLarge, UncleanAudit, UnknownItem, WrongNumber)
from .files import cover_files
from .files.cover_files import MAX_COLOURS, MAX_ITEMS, MAX_NAME, MAX_OCCURRENCES, MAX_OPTIONS
from .files.fault_words import fault_words
from .files.whole_files import put_bytes
from .programs import dying_with_parent, find_program, own_words, UnprovedNote
from .reasons import cover_reason
from .reasons.even_room import even_room
from .search.all_covers import Covers, Run
from .search.parts import part_text, places_in, Prefix, Tree

# the program takes a limit of at most a million seconds
MOST_SECONDS = 999_999
# how many nodes, and workers of each, the program takes
MOST_NODES, MOST_WORKERS = 16, 8
# a limit of so many seconds is none: Python waits for a program 24 days at most
LONGEST = 2_000_000


# what is raised for a fault of a file
FAULT_KINDS: dict[str, type[ProblemError]] = {
    "UnknownItem": UnknownItem, "DuplicateItem": RepeatedItem, "DuplicateInOption": RepeatedItem, "ColourOnPrimary": ColoredPrimary,
    "TooManyItems": TooLarge, "TooManyOptions": TooLarge, "TooManyNodes": TooLarge, "TooManyColours": TooLarge}


class Colored(NamedTuple):
    """A secondary item with the colour that an option gives it."""
    item: Hashable
    colour: Hashable


# an item, or one with its colour
Word = Union[Hashable, Colored]


def parts_of(word: Word) -> tuple[Hashable, Optional[Hashable]]:
    """The item of a word, and its colour, if it has one."""
    return (word.item, word.colour) if isinstance(word, Colored) else (word, None)


class Clique(NamedTuple):
    """Options each two of which clash, by their places: a cover has one of them at most, so a clique counts as a
    secondary item of all of them."""
    places: tuple[int, ...]


class Reason(NamedTuple):
    """Why there is no cover, so that anybody can add it up.

    With a `modulus`, the `weights` of each option's items add up to a multiple of it, and all weights together don't.
    Without one, each option brings at least as much room as it needs, and all `needs` together are more than all
    `rooms`. The rest of the items count as 0. Secondary items in `full_rooms` may have weights and needs, too: each
    cover uses them, since each option brings at least as much of this room as it has `full_needs`, and all of these
    together are as much as all of this room. Beside items there may be a `Clique`.

    Or there are `cases`: for each option of an item, by its place, a reason that holds of it and of the options that
    don't clash with it. A cover has just one of them.
    """
    modulus: Optional[int]
    weights: dict[Hashable, int]
    needs: dict[Hashable, int]
    rooms: dict[Hashable, int]
    full_needs: dict[Hashable, int] = {}
    full_rooms: dict[Hashable, int] = {}
    cases: dict[int, Reason] = {}

    def __str__(self) -> str:
        if self.cases:
            return f"none of these {len(self.cases)} options is in a cover, and each cover has one of them"
        if self.modulus:
            return (f"the weights of each option's items add up to a multiple of {self.modulus}, "
                    f"and all weights together are {sum(self.weights.values())}")
        return f"too little room: {sum(self.needs.values())} needed, {sum(self.rooms.values())} there"


def number_in(value: Optional[int], name: str, most: int) -> list[str]:
    """The words of the command line for a number of threads; `WrongNumber` where it is none."""
    if value is None:
        return []
    if isinstance(value, bool) or not isinstance(value, int) or not 1 <= value <= most:
        raise WrongNumber(f"{name} is a whole number from 1 to {most}, and not {value!r}")
    return [f"--{name}", str(value)]


def checked_seconds(seconds: Optional[float]) -> Optional[float]:
    """A limit of time, None where there is none; `WrongNumber` where it is no number above 0."""
    if seconds is None:
        return None
    if isinstance(seconds, bool) or not isinstance(seconds, (int, float)) or not seconds > 0:
        raise WrongNumber(f"seconds is a number above 0, or None for no limit, and not {seconds!r}")
    return None if seconds >= LONGEST else seconds


class Problem:
    """Primary and secondary items, and options, which are lists of them.

    Items are whatever can be a key of a dict; where `primary` isn't told, it is all items of the options that aren't
    secondary. `problem[place]` is an option, `len(problem)` how many there are, and a loop goes over all of them. Each
    option is checked as it is added.
    """

    def __init__(self, primary: Optional[Iterable[Hashable]] = None, secondary: Iterable[Hashable] = (),
                 options: Iterable[Iterable[Word]] = ()) -> None:
        self.secondary = tuple(secondary)
        want_list(options)
        listed = [option_in(option, place) for place, option in enumerate(options)]
        if primary is None:
            others = set(self.secondary)
            primary = dict.fromkeys(item for option in listed for item, _ in map(parts_of, option) if item not in others)
        self.primary = tuple(primary)
        self._places: dict[Hashable, int] = {}
        self._options: list[tuple[Word, ...]] = []
        if not self.primary:
            raise ProblemError("there is no primary item")
        for item in (*self.primary, *self.secondary):
            if item in self._places:
                raise RepeatedItem(f"{item!r} stands twice among the items", item=item)
            self._places[item] = len(self._places)
        for option in listed:
            self._add(option)

    def add(self, *words: Union[Word, Iterable[Word]]) -> int:
        """Adds an option, given as its items or as one list of them, and answers its place."""
        only = words[0] if len(words) == 1 else None
        if isinstance(only, Iterable) and not isinstance(only, Hashable):
            return self._add(tuple(only))
        return self._add(cast("tuple[Word, ...]", words))

    def _add(self, words: tuple[Word, ...]) -> int:
        place, seen = len(self._options), set()
        for word in words:
            item, colour = parts_of(word)
            if item not in self._places:
                raise UnknownItem(f"option {place} names {item!r}, which is neither primary nor secondary", option=place, item=item)
            if item in seen:
                raise RepeatedItem(f"option {place} names {item!r} twice", option=place, item=item)
            if colour is not None and self.is_primary(item):
                raise ColoredPrimary(f"option {place} gives a colour to {item!r}, which is primary", option=place, item=item)
            if isinstance(word, Colored) and colour is None:
                raise ProblemError(f"option {place} gives None to {item!r}, which is no colour", option=place, item=item)
            seen.add(item)
        self._options.append(words)
        return place

    def is_primary(self, item: Hashable) -> bool:
        """Whether an item is primary."""
        return self._places.get(item, len(self.primary)) < len(self.primary)

    def __len__(self) -> int:
        return len(self._options)

    def __getitem__(self, place: int) -> tuple[Word, ...]:
        return self._options[place]

    def __iter__(self) -> Iterator[tuple[Word, ...]]:
        return iter(self._options)

    def __repr__(self) -> str:
        return f"<Problem: {len(self.primary)} primary items, {len(self.secondary)} secondary, {len(self)} options>"

    # ---- answers

    def solve(self, seconds: Optional[float] = None, *, nodes: Optional[int] = None, workers: Optional[int] = None,
              audit: bool = False) -> Optional[list[int]]:
        """The places of the options of one exact cover, in rising order, or None where there is none.

        It takes whatever is first of the ways of `solve_cli answer`, on all processors. With `nodes` (1 to 16) and
        `workers` (1 to 8) several threads search, as `solve_cli solve` does; with `audit` their run is audited, so that
        None is right whatever the network did. Raises `TimeIsUp` after so many seconds, `OutOfMemory`, or a
        `ProgramError`; `WrongNumber` for a number that can't be. An `UnprovedWarning` says that None is the answer of a
        program that was built without proofs.
        """
        threads = number_in(nodes, "nodes", MOST_NODES) + number_in(workers, "workers", MOST_WORKERS)
        words = ["solve", "-", *threads, *["--audit"] * audit] if threads or audit else ["answer", "-"]
        lines = self._numbered_lines()
        status, answer, why = self._ask(words, lines, seconds)
        found = answer.pop() if audit and answer and answer[-1].startswith("audit ") else ""
        chosen = lines_chosen(status, answer, found.partition(": ")[2] if status == 6 else why)
        if chosen is None:
            UnprovedNote().tell(why)
            return None
        return chosen_of(chosen, lines)

    def chosen(self, seconds: Optional[float] = None, *, nodes: Optional[int] = None, workers: Optional[int] = None,
               audit: bool = False) -> Optional[list[tuple[Word, ...]]]:
        """The options themselves of one exact cover, in place of their places: `solve`."""
        places = self.solve(seconds, nodes=nodes, workers=workers, audit=audit)
        return None if places is None else [self[place] for place in places]

    def covers(self, seconds: Optional[float] = None) -> Iterator[list[int]]:
        """Each exact cover once, as the places of its options. A plain search in Python goes through all of them; where
        it meets none for a while, the program is asked meanwhile whether there are any in the rest (`all_covers`).
        `TimeIsUp` where neither a cover nor the end comes in so many seconds. An `UnprovedWarning` says, once, that a
        program without proofs has answered that there are none in some part."""
        limit, program, note = checked_seconds(seconds), find_program(), UnprovedNote()
        tree = Tree(cover_files.read_problem(self._numbered_text(self._numbered_lines())))
        kept = [place for place, option in enumerate(self) if self._is_kept(option)]
        found = Covers(tree, lambda prefix: RunningQuestion(program, tree, prefix, note)).each(limit)
        with contextlib.closing(found):
            yield from (sorted(kept[place] for place in cover) for cover in found)

    def reason(self, seconds: Optional[float] = None) -> Optional[Reason]:
        """Why there is no cover, if the program finds a reason without a search, or counting items that are alike does.
        None says nothing. `TimeIsUp` where neither comes to its end in so many seconds."""
        limit = checked_seconds(seconds)
        until = None if limit is None else time.monotonic() + limit
        status, answer, why = self._ask(["why", "-"], self._numbered_lines(), seconds)
        problem = cover_files.read_problem(self._numbered_text(self._numbered_lines()))
        if (status, answer) == (4, ["no reason found"]):
            found = even_room(problem, until)
            return self._named_reason(found) if found else None
        if status != 1 or answer[:1] != ["none"]:
            raise failure(status, why)
        UnprovedNote().tell(why)
        try:
            found = cover_reason.Reason("\n".join(answer).encode())
        except ValueError as what:
            raise ProgramError(f"the program's reason can't be read: {what}", status) from None
        if not found.holds(problem):
            raise ProgramError("the program's reason doesn't hold", status)
        return self._named_reason(found)

    def _named_reason(self, found: cover_reason.Reason) -> Reason:
        """A reason whose items have numbers for names, with the items themselves."""
        items: dict[bytes, Hashable] = {b"%d" % number: item for number, item in enumerate((*self.primary, *self.secondary))}
        kept = [place for place, option in enumerate(self) if self._is_kept(option)]
        items.update((name, Clique(tuple(kept[number] for number in numbers))) for name, numbers in found.cliques.items())
        weights, needs, rooms, full_needs, full_rooms = ({items[name]: number for name, number in some.items()} for some in (
            found.weights, found.needs, found.rooms, found.full_needs, found.full_rooms))
        cases = {kept[number]: self._named_reason(case) for number, case in found.cases.items()}
        return Reason(found.modulus or None, weights, needs, rooms, full_needs, full_rooms, cases)

    def is_cover(self, places: Iterable[int]) -> bool:
        """Whether the options at these places are an exact cover, by counting; `ProblemError` where there is no option
        at one."""
        places = list(places)
        for place in places:
            if not 0 <= place < len(self):
                raise ProblemError(f"there is no option {place}: the places are 0 to {len(self) - 1}", option=place)
        uses: dict[Hashable, list[Optional[Hashable]]] = {}
        for item, colour in (parts_of(word) for place in places for word in self[place]):
            uses.setdefault(item, []).append(colour)
        once = all(len(uses.get(item, ())) == 1 for item in self.primary)
        return once and all(len(some) == 1 or (None not in some and len(set(some)) == 1) for some in uses.values())

    # ---- what the program reads

    def _numbered_lines(self) -> list[str]:
        """The options as the program gets them: items and colours go by their numbers, so that every name is lawful
        there."""
        colours: dict[Hashable, int] = {}
        lines = []
        for option in self._options:
            parts = [(self._places[item], colour) for item, colour in map(parts_of, option)]
            lines.append(" ".join(str(item) if colour is None else f"{item}:{colours.setdefault(colour, len(colours))}" for item, colour in parts))
        return lines

    def _is_kept(self, option: tuple[Word, ...]) -> bool:
        """Whether an option has a primary item, so that a cover may have it."""
        return any(self.is_primary(parts_of(word)[0]) for word in option)

    def _numbered_text(self, lines: list[str]) -> bytes:
        """The problem as the program gets it. Options without a primary item are left out: no cover has them."""
        kept = [line for option, line in zip(self._options, lines) if self._is_kept(option)]
        words = [word for line in kept for word in line.split()]
        colours = {word.partition(":")[2] for word in words if ":" in word}
        for number, most, what in ((len(self._places), MAX_ITEMS, "items"), (len(kept), MAX_OPTIONS, "options"),
                                   (len(words), MAX_OCCURRENCES, "items in all options together"), (len(colours), MAX_COLOURS, "colours")):
            if number > most:
                raise TooLarge(f"there are {number:,} {what}, and the program reads at most {most:,}")
        names = [str(place) for place in range(len(self._places))]
        names[len(self.primary):len(self.primary)] = ["|"] * bool(self.secondary)
        return "".join(line + "\n" for line in [" ".join(names), *kept]).encode()

    def _ask(self, words: list[str], lines: list[str], seconds: Optional[float]) -> tuple[int, list[str], str]:
        """The program's exit status, the lines that it writes, and what it says on standard error. It reads its
        standard input, so that no file is left behind, whatever ends Python."""
        limit = checked_seconds(seconds)
        text = self._numbered_text(lines)
        # (where the system can't end a program whose Python was killed, it ends by itself, a second after it should
        # have)
        own = ["--seconds", str(math.ceil(limit) + 1)] if limit is not None and limit < MOST_SECONDS and words[0] != "why" else []
        try:
            ran = subprocess.run(dying_with_parent([find_program(), *words, *own]), input=text, capture_output=True, timeout=limit)
        except subprocess.TimeoutExpired:
            raise TimeIsUp(f"no answer after {seconds} seconds") from None
        except OSError as why:
            raise ProgramError(f"the program can't be run: {why}") from None
        return ran.returncode, ran.stdout.decode().splitlines(), ran.stderr.decode(errors="replace").strip()

    # ---- files

    @classmethod
    def parse(cls, text: Union[bytes, str]) -> Problem:
        """The problem that the text of a file says. Items and colours are texts; options without a primary item are
        kept too. A text that is refused raises the error of the first cause, with its line."""
        read = cover_files.read_problem(text.encode("utf-8", "surrogateescape") if isinstance(text, str) else text)
        if read.faults:
            first = read.faults[0]
            word = f" '{name_text(first.word.text)}'" if first.word else ""
            raise FAULT_KINDS.get(first.name, ProblemError)(
                f"the file is refused: {cover_files.refusal(read.faults)}{word}: {fault_words(read, first)}", line=first.line,
                item=first.word and name_text(first.word.text))
        names = [name_text(name) for name in read.items]
        options = sorted([*read.options, *read.ignored], key=lambda option: option.line)
        words = ([name_text(name) if colour is None else Colored(name_text(name), name_text(colour)) for name, colour in zip(option.names, option.colours)]
                 for option in options)
        return cls(names[:read.primary], names[read.primary:], words)

    @classmethod
    def read(cls, path: Union[str, os.PathLike[str]]) -> Problem:
        """The problem of a file; an OSError where it can't be read."""
        with open(path, "rb") as file:
            return cls.parse(file.read())

    def text(self) -> bytes:
        """The text of the problem's file. Items and colours have to be texts that can be names there (docs/FORMAT.md),
        and each option names some."""
        for item in self._places:
            checked_name(item, None)
        for place, option in enumerate(self._options):
            if not option:
                raise ProblemError(f"option {place} names no item, and a file can't have such an option", option=place)
        head = [*map(str, self.primary), *["|"] * bool(self.secondary), *map(str, self.secondary)]
        lines = [[name_of_word(word, place) for word in option] for place, option in enumerate(self._options)]
        return "".join(" ".join(line) + "\n" for line in [head, *lines]).encode("utf-8", "surrogateescape")

    def write(self, path: Union[str, os.PathLike[str]]) -> None:
        """Writes the problem's file, whole or not at all."""
        put_bytes(os.fspath(path), self.text())


class RunningQuestion:
    """What the program answers about a prefix of a problem's search tree, while Python goes on; all questions of a call
    have one note."""

    def __init__(self, program: str, tree: Tree, prefix: Prefix, note: UnprovedNote) -> None:
        self.prefix, self.note = prefix, note
        self.places = {tree.words(place).decode(): place for place in reversed(places_in(prefix.live))}
        try:
            self.run = Run([program, "answer", "-"], part_text(tree, prefix, 1, 1))
        except OSError as why:
            raise ProgramError(f"the program can't be run: {why}") from None

    def is_answered(self) -> bool:
        return self.run.is_over()

    def answer(self) -> Optional[frozenset[int]]:
        why = self.run.errors.decode(errors="replace").strip()
        lines = lines_chosen(self.run.process.returncode, self.run.output.decode().splitlines(), why)
        if lines is None:
            self.note.tell(why)
            return None
        return frozenset([*self.prefix.options, *(self.places[line] for line in lines)])

    def end(self) -> None:
        self.run.end()


def want_list(options: object) -> None:
    """Refuses options that are a dict, of which keys would be taken for options."""
    if isinstance(options, Mapping):
        raise ProblemError("the options are a dict: a list of options is expected, as list(options.values())")


def option_in(option: Iterable[Word], place: int) -> tuple[Word, ...]:
    """An option of a list; `ProblemError` where it is one text or a dict, of which letters or keys would be the items,
    or no list."""
    if isinstance(option, (str, bytes, Mapping)):
        what, item = ("a dict", "item") if isinstance(option, Mapping) else (f"the text {option!r}", repr(option))
        raise ProblemError(f"option {place} is {what}: a list of items is expected, as [{item}]", option=place)
    if not isinstance(option, Iterable):
        raise ProblemError(f"option {place} is {option!r}: a list of items is expected, as [{option!r}]", option=place)
    return tuple(option)


def name_text(name: bytes) -> str:
    """A name of a file as a text, from which the same bytes come again."""
    return name.decode("utf-8", "surrogateescape")


def checked_name(name: Hashable, option: Optional[int]) -> str:
    """A text that can be a name in a file."""
    if not isinstance(name, str):
        raise ProblemError(f"{name!r} is no text, and can't be a name in a file", option=option, item=name)
    try:
        spelled = name.encode("utf-8", "surrogateescape")
    except UnicodeEncodeError:
        spelled = b""
    if not 1 <= len(spelled) <= MAX_NAME or any(byte in b"\0:|\t\n\v\f\r " for byte in spelled):
        raise ProblemError(f"{name!r} can't be a name in a file: 1 to {MAX_NAME} bytes without white space, ':' and '|'", option=option, item=name)
    return name


def name_of_word(word: Word, place: int) -> str:
    """A word of an option as a file has it."""
    item, colour = parts_of(word)
    name = checked_name(item, place)
    return name if colour is None else f"{name}:{checked_name(colour, place)}"


def lines_chosen(status: int, answer: list[str], why: str) -> Optional[list[str]]:
    """The lines of a cover in what the program wrote, or None where it says that there is none; raises what has
    failed."""
    if (status, answer[:1]) == (0, [f"cover {len(answer) - 1}"]):
        return answer[1:]
    if (status, answer) == (1, ["none"]):
        return None
    raise failure(status, why)


def chosen_of(answer: list[str], lines: list[str]) -> list[int]:
    """The places of the options in the lines of an answer; of equal options the first that is free."""
    places: dict[str, list[int]] = {}
    for place in reversed(range(len(lines))):
        places.setdefault(lines[place], []).append(place)
    return sorted(places[line].pop() for line in answer)


def failure(status: int, why: str) -> Exception:
    """What is raised where the program has ended so."""
    if status == 5:
        return OutOfMemory("the program ran out of memory")
    other = f"the program {find_program()} ended with status {status}" + (", and wrote no answer: is it solve_cli?" if status in (0, 1) else "")
    kind, what = {4: (NoAnswer, "no answer"), 6: (UncleanAudit, "the audit is unclean")}.get(status, (ProgramError, other))
    return kind(f"{what}: {own_words(why)}" if why else what, status)
