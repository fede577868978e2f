"""What the package raises, each an `Error` and one of Python's own kinds beside it, and what it warns of."""
from __future__ import annotations

from typing import Optional


class Error(Exception):
    """Anything that the package raises."""


class ProblemError(Error, ValueError):
    """A problem that can't be meant so.

    `option` is the place of the option that is wrong, from 0, `item` the item, and `line` the line of a file that was
    read; each is None where there is none.
    """

    def __init__(self, why: str, *, option: Optional[int] = None, item: object = None, line: Optional[int] = None) -> None:
        super().__init__(why)
        self.option, self.item, self.line = option, item, line


class UnknownItem(ProblemError):
    """An option names an item that is neither primary nor secondary."""


class RepeatedItem(ProblemError):
    """An item is named twice, in an option or among the items."""


class ColoredPrimary(ProblemError):
    """An option gives a colour to a primary item."""


class TooLarge(ProblemError):
    """There are more items, options, colours or items in options than the program reads."""


class WrongNumber(Error, ValueError):
    """A number of seconds, nodes or workers that can't be."""


class ProgramError(Error, RuntimeError):
    """The program failed, or ended without an answer; its `status` is None where it wasn't run."""

    def __init__(self, why: str, status: Optional[int] = None) -> None:
        super().__init__(why)
        self.status = status


class NoProgram(ProgramError):
    """There is no program to be run."""


class NoAnswer(ProgramError):
    """The program ended without an answer, for a reason of its own."""


class UncleanAudit(ProgramError):
    """An audit found that the run is no run of the protocol, so that nothing follows from its answer."""


class TimeIsUp(Error, TimeoutError):
    """There was no answer after the given seconds."""


class OutOfMemory(Error, MemoryError):
    """The program ran out of memory."""


class UnprovedWarning(UserWarning):
    """The program that says that there is no cover was built without proofs."""
