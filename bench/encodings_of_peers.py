"""Problems as clingo and CaDiCaL read them. For states.py.

Both need an option with each primary item. clingo counts; CaDiCaL gets clauses: of an item's options, or of a secondary
item's colours and its options without one, no two hold. Of up to `PAIRS` of them each pair has a clause; of more each
has a variable that says whether one up to it holds (Carsten Sinz, Towards an Optimal CNF Encoding of Boolean
Cardinality Constraints, 2005).
"""
from __future__ import annotations

from collections.abc import Iterator
from typing import NamedTuple

PAIRS = 40
Clause = tuple[int, ...]


class Problem(NamedTuple):
    """The primary items, the secondary ones, and of each option its items with their colours, which are empty where
    there is none."""
    primary: list[str]
    secondary: list[str]
    options: list[list[tuple[str, str]]]


def read(file: str) -> Problem:
    """The problem of a file that the program reads."""
    with open(file, encoding="ascii") as opened:
        lines = [line.split() for line in opened if line.strip() and not line.lstrip().startswith("|")]
    names = lines[0]
    # (a word that begins with the bar is the separator; a name may follow in it)
    bar = next((place for place, word in enumerate(names) if word.startswith("|")), len(names))
    behind = " ".join(names[bar:])[1:].split()
    options = [[(name, colour) for name, _, colour in (word.partition(":") for word in line)] for line in lines[1:]]
    return Problem(names[:bar], behind, options)


def program_of(file: str) -> Iterator[str]:
    """The problem for clingo: each primary item by one option, each secondary one by at most one or by several of one
    colour."""
    problem = read(file)
    number = {name: place for place, name in enumerate([*problem.primary, *problem.secondary])}
    yield "{x(O) : o(O)}. :- i(I), #count{O : x(O), u(O,I)} != 1. :- s(I), x(O), x(P), O < P, c(O,I,A), c(P,I,B), A != B. "
    yield ":- s(I), x(O), x(P), O < P, u(O,I), u(P,I), not t(O,I). :- s(I), x(O), x(P), O < P, u(O,I), u(P,I), not t(P,I). #show."
    for kind, names in (("i", problem.primary), ("s", problem.secondary)):
        yield from (f"{kind}({number[name]})." for name in names)
    colours: dict[str, int] = {}
    for option, words in enumerate(problem.options):
        yield f"o({option})."
        for name, colour in words:
            yield f"u({option},{number[name]})."
            if colour:
                yield f"t({option},{number[name]}). c({option},{number[name]},{colours.setdefault(colour, len(colours))})."


class Formula:
    """Clauses over variables: the options' own, from 1 on in the order of the file, and more behind them."""

    def __init__(self, options: int) -> None:
        self.variables = options
        self.clauses: list[Clause] = []

    def variable(self) -> int:
        """One variable more."""
        self.variables += 1
        return self.variables

    def at_most_one(self, some: list[int]) -> None:
        """At most one of these variables holds."""
        if len(some) <= PAIRS:
            self.clauses += [(-one, -other) for place, one in enumerate(some) for other in some[:place]]
            return
        earlier = some[0]
        for one in some[1:-1]:
            up_to = self.variable()
            self.clauses += [(-earlier, up_to), (-one, up_to), (-one, -earlier)]
            earlier = up_to
        self.clauses.append((-some[-1], -earlier))

    def colour_of(self, options: list[int]) -> int:
        """A variable that holds where one of these options does, which give an item one colour."""
        if len(options) == 1:
            return options[0]
        colour = self.variable()
        self.clauses += [(-option, colour) for option in options]
        return colour


def formula_of(file: str) -> Iterator[str]:
    """The lines of the problem for CaDiCaL."""
    problem = read(file)
    uses: dict[str, dict[str, list[int]]] = {name: {} for name in [*problem.primary, *problem.secondary]}
    for option, words in enumerate(problem.options, 1):
        for name, colour in words:
            uses[name].setdefault(colour, []).append(option)
    formula = Formula(len(problem.options))
    for name in problem.primary:
        options = uses[name].get("", [])
        formula.clauses.append(tuple(options))
        formula.at_most_one(options)
    for name in problem.secondary:
        without = uses[name].pop("", [])
        formula.at_most_one(without + [formula.colour_of(options) for options in uses[name].values()])
    yield f"p cnf {formula.variables} {len(formula.clauses)}"
    yield from (" ".join(map(str, (*clause, 0))) for clause in formula.clauses)
