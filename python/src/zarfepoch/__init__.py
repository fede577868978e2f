"""Exact covers, by the program of Zarfepoch, whose search is proved.

    solve(options, primary=None, secondary=(), seconds=None, *, nodes=None, workers=None, audit=False)
    chosen(options, primary=None, secondary=(), seconds=None, *, nodes=None, workers=None, audit=False)
    reasons(options, primary=None, secondary=(), seconds=None)

An option is a list of items. Items are whatever can be a key of a dict; a secondary item may stand in an option with a
colour, as Colored(item, colour). Where `primary` isn't told, it is all items that aren't secondary. The answer of
`solve` is the list of the chosen options' places in `options`, that of `chosen` has these options themselves, and both
are None where there is no cover:

    >>> solve([["a", "b"], ["c"], ["b", "c"]])
    [0, 1]
    >>> chosen([["a", "b"], ["c"], ["b", "c"]])
    [['a', 'b'], ['c']]
    >>> solve([["a", "b"], ["b", "c"]], primary=["a", "b", "c"]) is None
    True

Each primary item is in exactly one chosen option, each secondary item in at most one, or in several that give it the
same colour:

    >>> red, blue = Colored("x", "red"), Colored("x", "blue")
    >>> solve([["a", red], ["b", blue], ["b", red]], primary=["a", "b"], secondary=["x"])
    [0, 2]

`reasons` answers why there is no cover, if the program finds a reason without a search:

    >>> print(reasons([["ann", "monday"], ["bob", "monday"]], primary=["ann", "bob"], secondary=["monday"]))
    too little room: 2 needed, 1 there

A `Problem` keeps items and options together, reads and writes files, and is iterated over:

    >>> problem = Problem(["a", "b"], options=[["a"], ["a", "b"]])
    >>> problem.add("b")
    2
    >>> problem.solve(), [" ".join(option) for option in problem]
    ([0, 2], ['a', 'a b', 'b'])

What is raised is an `Error`: a `ProblemError`, which is a ValueError with `option`, `item` and `line`; a `WrongNumber`,
a ValueError, for seconds or threads that can't be; `TimeIsUp`, a TimeoutError, where there is no answer after so many
seconds; `OutOfMemory`, a MemoryError; or a `ProgramError`, a RuntimeError, where there is no program, or it fails. An
`UnprovedWarning` comes beside a `none` of a program that was built without proofs. The program is what ZARFEPOCH names
in the environment, else solve_cli on the path, else, for a package in a clone, what was built there.
"""
from __future__ import annotations

from collections.abc import Hashable, Iterable
from typing import Optional, TypeVar

from .errors import (
    ColoredPrimary, Error, NoAnswer, NoProgram, OutOfMemory, ProblemError, ProgramError, RepeatedItem, TimeIsUp, TooLarge, UncleanAudit, UnknownItem,
    UnprovedWarning, WrongNumber)
from .problems import Clique, Colored, Problem, Reason, want_list, Word
from .programs import find_program

__version__ = "1.0.0"
__all__ = [
    "Clique", "Colored", "ColoredPrimary", "Error", "NoAnswer", "NoProgram", "OutOfMemory", "Problem", "ProblemError", "ProgramError", "Reason",
    "RepeatedItem", "TimeIsUp", "TooLarge", "UncleanAudit", "UnknownItem", "UnprovedWarning", "Word",
    "WrongNumber", "__version__", "chosen", "find_program", "reasons", "solve"]

Option = TypeVar("Option", bound=Iterable[Word])


def solve(options: Iterable[Iterable[Word]], primary: Optional[Iterable[Hashable]] = None, secondary: Iterable[Hashable] = (),
          seconds: Optional[float] = None, *, nodes: Optional[int] = None, workers: Optional[int] = None, audit: bool = False) -> Optional[list[int]]:
    """The places of the options of one exact cover, in rising order, or None where there is none: `Problem.solve`."""
    return Problem(primary, secondary, options).solve(seconds, nodes=nodes, workers=workers, audit=audit)


def chosen(options: Iterable[Option], primary: Optional[Iterable[Hashable]] = None, secondary: Iterable[Hashable] = (),
           seconds: Optional[float] = None, *, nodes: Optional[int] = None, workers: Optional[int] = None, audit: bool = False) -> Optional[list[Option]]:
    """The options of one exact cover, as they were given and in their order, or None where there is none:
    `Problem.chosen`."""
    want_list(options)
    given = list(options)
    places = solve(given, primary, secondary, seconds, nodes=nodes, workers=workers, audit=audit)
    return None if places is None else [given[place] for place in places]


def reasons(options: Iterable[Iterable[Word]], primary: Optional[Iterable[Hashable]] = None, secondary: Iterable[Hashable] = (),
            seconds: Optional[float] = None) -> Optional[Reason]:
    """Why there is no cover, if the program finds a reason without a search; None says nothing: `Problem.reason`."""
    return Problem(primary, secondary, options).reason(seconds)
