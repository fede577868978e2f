"""Reasons for `none` as `solve_cli why` writes them: read, added up again, and told in words.

A reason is either weights of primary items modulo a number, or what primary items need and the room that items have for
it. Room that is just enough may stand before it: then each cover uses the items that have some, and they count as
primary behind it. Cliques may stand before that, options each two of which clash: each is an item, too, and a cover has
one option of it at most. Or it is a reason for each option of an item, of what is left beside that one.
`docs/FORMAT.md` has the text; `holds` is all that has to be believed.
"""
from __future__ import annotations

import copy
import itertools
import re
import subprocess
from collections.abc import Callable, Iterable, Iterator
from math import gcd
from typing import Optional

from ..errors import TimeIsUp
from ..files.cover_files import Option, Problem, shown
from ..files.fault_words import first_few, plural, quoted
from ..programs import UnprovedNote

# numbers by the names of their items; what items are called
Amounts = dict[bytes, int]
Named = Callable[[bytes], str]

SHOWN = 12
LINE = re.compile(rb"(weigh|need|room) ([0-9]+) (\S+)")
CLIQUE = re.compile(rb"clique (\S+)((?: [0-9]+)*)")
CASES = re.compile(rb"options of (\S+)")
CASE = re.compile(rb"option ([0-9]+)")
CLIQUES, ENOUGH = b"cliques", b"just enough room"
HEAD = re.compile(rb"weights modulo [0-9]+|too little room|just enough room")


class Reason:
    """The weights, needs and rooms of a reason, by names, and its modulus, 0 where it has none; those of room that is
    just enough before it; and the numbers of the options of cliques, by their names. Or an item, and a reason for each
    of its options, by their numbers."""

    def __init__(self, text: bytes) -> None:
        lines = text.removeprefix(b"none\n").rstrip(b"\n").split(b"\n")
        self.cliques: dict[bytes, list[int]] = {}
        self.modulus, self.item = 0, b""
        self.weights: Amounts = {}
        self.needs: Amounts = {}
        self.rooms: Amounts = {}
        self.full_needs: Amounts = {}
        self.full_rooms: Amounts = {}
        self.cases: dict[int, Reason] = {}
        head = CASES.fullmatch(lines[0])
        if head:
            self.item, self.cases = head[1], read_cases(lines[1:])
        else:
            self.read(lines)

    def read(self, lines: list[bytes]) -> None:
        """Takes up the lines of one kind of numbers, and what may stand before them; a ValueError where they are
        none."""
        if lines[0] == CLIQUES:
            own = list(itertools.takewhile(lambda line: line.startswith(b"clique "), lines[1:]))
            self.cliques = read_cliques(own)
            lines = lines[1 + len(own):] or [b""]
        heads = [line for line in lines if HEAD.fullmatch(line)]
        if heads != lines[:1] + heads[1:] or len(heads) != 1 + (lines[0] == ENOUGH) or heads[-1] == ENOUGH:
            raise ValueError("this is no reason: not one kind, with just enough room before it or not")
        last = lines.index(heads[-1])
        self.modulus = int(lines[last].rpartition(b" ")[2]) if lines[last].startswith(b"weights modulo ") else 0
        read_lines(lines[1:last], {b"need": self.full_needs, b"room": self.full_rooms})
        read_lines(lines[last + 1:], {b"weigh": self.weights, b"need": self.needs, b"room": self.rooms})

    def holds(self, problem: Problem) -> bool:
        """Whether the reason shows that the problem has no cover."""
        if self.item:
            named = [number for number, option in enumerate(problem.options) if self.item in option.names]
            return (self.item in problem.primary_names() and list(self.cases) == named
                    and all(case.holds(beside(problem, number)) for number, case in self.cases.items()))
        coloured = {name for option in problem.options for name, colour in zip(option.names, option.colours) if colour is not None}
        if not are_cliques(problem, self.cliques):
            return False
        options = [[*option.names, *(name for name, numbers in self.cliques.items() if place in numbers)]
                   for place, option in enumerate(problem.options)]

        def fit(needs: Amounts, rooms: Amounts) -> bool:
            return coloured.isdisjoint(rooms) and all(added(needs, names) <= added(rooms, names) for names in options)

        primary = set(problem.primary_names())
        if not (primary.issuperset(self.full_needs) and sum(self.full_rooms.values()) <= sum(self.full_needs.values())
                and fit(self.full_needs, self.full_rooms)):
            return False
        primary.update(name for name, room in self.full_rooms.items() if room)
        if not primary.issuperset([*self.weights, *self.needs]):
            return False
        if self.modulus:
            return (sum(self.weights.values()) % self.modulus != 0
                    and all(added(self.weights, names) % self.modulus == 0 for names in options))
        return sum(self.rooms.values()) < sum(self.needs.values()) and fit(self.needs, self.rooms)

    def words(self, problem: Problem, named: Named = shown) -> list[str]:
        """Lines that say why there is no cover, in which items are named so."""
        if self.item:
            return list(case_words(self, problem, named))
        def named_all(name: bytes) -> str:
            return shown(name) if name in self.cliques else named(name)

        called = named_all if self.cliques else named
        return [*full_words(self, called), *(weight_words(self, problem, called) if self.modulus else room_words(self, called)),
                *clique_words(self, problem, named)]

    def line(self, problem: Problem) -> str:
        """The same in one line."""
        if self.item:
            return f"with none of the {plural(len(self.cases), 'option')} of {shown(self.item)} there is a cover"
        if not self.modulus:
            return f"{sum(self.needs.values()):,} needed, and room for {sum(self.rooms.values()):,}: there is no cover"
        weights = self.signed()
        zero = "0" if is_exact(weights, problem) else f"a multiple of {self.modulus}"
        return f"each option weighs {zero}, all items together {sum(weights.values()):,}: there is no cover"

    def signed(self) -> Amounts:
        """The weights, those above half of the modulus as what is less than 0."""
        return {name: weight if 2 * weight <= self.modulus else weight - self.modulus for name, weight in self.weights.items()}


def read_lines(lines: list[bytes], kinds: dict[bytes, Amounts]) -> None:
    """Adds what lines say of items to the amounts of their kinds; a ValueError where one is no such line."""
    for line in lines:
        found = LINE.fullmatch(line)
        if not found or found[1] not in kinds:
            raise ValueError(f"this is no line of a reason: {shown(line)}")
        kinds[found[1]][found[3]] = int(found[2])


def read_cliques(lines: list[bytes]) -> dict[bytes, list[int]]:
    """The options of cliques by their names; a ValueError where a line is none of a clique, or a name comes twice."""
    cliques: dict[bytes, list[int]] = {}
    for line in lines:
        found = CLIQUE.fullmatch(line)
        if not found or found[1] in cliques:
            raise ValueError(f"this is no line of a reason: {shown(line)}")
        cliques[found[1]] = sorted({int(number) for number in found[2].split()})
    return cliques


def read_cases(lines: list[bytes]) -> dict[int, Reason]:
    """The reasons of cases by the numbers of their options; a ValueError where lines are none of a case, or a number
    comes twice."""
    heads = [place for place, line in enumerate(lines) if CASE.fullmatch(line)]
    numbers = [int(lines[place].split()[1]) for place in heads]
    if (heads[:1] != [0] and lines) or len(set(numbers)) < len(numbers):
        raise ValueError("this is no reason: not one for each case")
    cases = {number: Reason(b"\n".join(lines[head + 1:end])) for number, head, end in zip(numbers, heads, [*heads[1:], len(lines)])}
    if any(case.item or case.cliques or case.full_rooms for case in cases.values()):
        raise ValueError("this is no reason: a case has more than one kind")
    return cases


def beside(problem: Problem, number: int) -> Problem:
    """The problem with an option and those that don't clash with it."""
    left = copy.copy(problem)
    chosen = problem.options[number]
    left.options = [option for option in problem.options if option is chosen or not clash(chosen, option)]
    return left


def clash(one: Option, other: Option) -> bool:
    """Whether two options can't stand together: both name an item, to which they don't give the same colour."""
    colours = dict(zip(other.names, other.colours))
    return any(name in colours and (colour is None or colours[name] != colour) for name, colour in zip(one.names, one.colours))


def are_cliques(problem: Problem, cliques: dict[bytes, list[int]]) -> bool:
    """Whether none of these has the name of an item, and each two options of one clash."""
    return (all(name not in problem.items and b":" not in name and b"|" not in name for name in cliques)
            and all(number < len(problem.options) for numbers in cliques.values() for number in numbers)
            and all(clash(problem.options[one], problem.options[other])
                    for numbers in cliques.values() for one, other in itertools.combinations(numbers, 2)))


def added(amounts: Amounts, names: Iterable[bytes]) -> int:
    return sum(amounts.get(name, 0) for name in names)


def names_line(names: Iterable[bytes], named: Named) -> str:
    return f"  {first_few([named(name) for name in names], SHOWN)}"


# ---- cases

def told_words(option: Option, named: Named) -> list[str]:
    """What an option's items are called, each with its colour."""
    between = ":" if named is shown else " "
    colours = (word.partition(b":")[2] for word in option.words)
    return [named(name) + (between + shown(colour) if colour else "") for name, colour in zip(option.names, colours)]


def case_words(reason: Reason, problem: Problem, named: Named) -> Iterator[str]:
    """That no option of the item leaves a cover, and why for the first of them."""
    called = quoted(reason.item) if named is shown else named(reason.item)
    if not reason.cases:
        yield f"no option names {called}" if named is shown else f"nothing is possible for {called}"
        return
    number, case = next(iter(reason.cases.items()))
    many = len(reason.cases)
    yield (f"each cover has one of the {many:,} options of {called}, and beside none of them there is one:" if many > 1 else
           f"each cover has the only option of {called}, and beside it there is none:")
    yield f"  {first_few(told_words(problem.options[number], named), SHOWN)}"
    yield from (f"    {line}" for line in case.words(beside(problem, number), named))
    if many > 1:
        yield "  each of the others has such a reason, too"


# ---- cliques

def clique_words(reason: Reason, problem: Problem, named: Named) -> Iterator[str]:
    """For whom the options of each clique are."""
    primary = set(problem.primary_names())
    for name, numbers in itertools.islice(reason.cliques.items(), SHOWN):
        owners = dict.fromkeys(next(own for own in problem.options[number].names if own in primary) for number in numbers)
        yield f"  {shown(name)} is {plural(len(numbers), 'option')}, each two of which clash, of {first_few([named(own) for own in owners], SHOWN)}"
    if len(reason.cliques) > SHOWN:
        yield f"  and {len(reason.cliques) - SHOWN:,} more are such, too"


# ---- just enough room

def full_words(reason: Reason, named: Named) -> Iterator[str]:
    if reason.full_rooms:
        yield f"there is just enough room, {plural(sum(reason.full_rooms.values()), 'place')} for as many, so each cover uses each of these:"
        yield names_line(reason.full_rooms, named)


# ---- too little room

def room_words(reason: Reason, named: Named) -> Iterator[str]:
    if len(reason.needs) == 1 and not reason.rooms:
        name = next(iter(reason.needs))
        yield f"no option names {quoted(name)}" if named is shown else f"nothing is possible for {named(name)}"
        return
    needs, rooms = sum(reason.needs.values()), sum(reason.rooms.values())
    yield f"too little room: {plural(needs, 'place')} needed, and there {'is' if rooms == 1 else 'are'} {rooms:,}"
    for amounts, what in (reason.needs, "needs"), (reason.rooms, "has room for"):
        for amount in sorted(set(amounts.values())):
            names = [name for name, own in amounts.items() if own == amount]
            many = "each of these" if len(names) > 1 else "this one"
            yield f"  {many} {what} {amount if amount != 1 else 'one'}: {first_few([named(name) for name in names], SHOWN)}"


# ---- weights

def is_exact(weights: Amounts, problem: Problem) -> bool:
    """Whether each option weighs 0, and not only a multiple of the modulus."""
    return all(added(weights, option.names) == 0 for option in problem.options)


def weight_words(reason: Reason, problem: Problem, named: Named) -> Iterator[str]:
    weights = reason.signed()
    groups: dict[int, list[bytes]] = {}
    for name, weight in weights.items():
        groups.setdefault(weight, []).append(name)
    groups = dict(sorted(groups.items(), reverse=True))
    exact = is_exact(weights, problem)
    if len(groups) == 1:
        yield from one_group(reason.modulus, named, *groups.items())
    elif exact and list(groups) == [1, -1]:
        yield f"each option names as many of the first items as of the second, and there are {len(groups[1]):,} and {len(groups[-1]):,}:"
        yield from (names_line(group, named) for group in groups.values())
    else:
        zero = "0" if exact else f"a multiple of {reason.modulus}"
        yield f"with these weights each option weighs {zero}, and all primary items together weigh {sum(weights.values()):,}:"
        for weight, group in groups.items():
            yield f"  {weight:+d} each: {first_few([named(name) for name in group], SHOWN)}"


def one_group(modulus: int, named: Named, group: tuple[int, list[bytes]]) -> Iterator[str]:
    """Where all that weigh something weigh the same."""
    weight, names = group
    step = modulus // gcd(modulus, weight)
    yield f"each option names {'an even number' if step == 2 else f'a multiple of {step}'} of these items, and there are {len(names):,}:"
    yield names_line(names, named)


# ---- from the program

def found_reason(program: str, text: bytes, seconds: Optional[float] = None) -> Optional[Reason]:
    """The reason that the program gives for the bytes of a problem file, or None where it finds none; an OSError where
    it can't be run, and `TimeIsUp` where it takes more than so many seconds, if they are told."""
    try:
        ran = subprocess.run([program, "why", "-"], input=text, capture_output=True, timeout=None if seconds is None else max(0.0, seconds))
    except subprocess.TimeoutExpired:
        raise TimeIsUp("the time was over before a reason was found") from None
    if ran.returncode != 1 or not ran.stdout.startswith(b"none\n"):
        return None
    UnprovedNote().tell(ran.stderr.decode(errors="replace"))
    return Reason(ran.stdout)
