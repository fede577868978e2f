"""A search that nobody sees the end of, and what processes there are. For the tests that stop one."""
from __future__ import annotations

import contextlib
import os
import random

from zarfepoch import Problem


def long_search() -> Problem:
    """A problem that nobody sees the end of, by searching, reasoning or learning: a cover may be among so few triples,
    but nobody finds it soon."""
    draw = random.Random(1)
    return Problem(range(300), options=[draw.sample(range(300), 3) for _ in range(900)])


def processes_of(group: int) -> int:
    """How many processes of a group there are."""
    count = 0
    for number in filter(str.isdecimal, os.listdir("/proc")):
        with contextlib.suppress(OSError), open(f"/proc/{number}/stat", encoding="ascii", errors="replace") as file:
            count += file.read().rpartition(")")[2].split()[2] == str(group)
    return count


def children_called(called: str) -> int:
    """How many processes with this name were started by this one."""
    count = 0
    for number in filter(str.isdecimal, os.listdir("/proc")):
        with contextlib.suppress(OSError), open(f"/proc/{number}/stat", encoding="ascii", errors="replace") as file:
            name, _, rest = file.read().partition("(")[2].rpartition(")")
            count += rest.split()[1] == str(os.getpid()) and name == called
    return count


def is_alone(group: int) -> bool:
    """Whether no process of this group is left."""
    try:
        os.killpg(group, 0)
    except ProcessLookupError:
        return True
    return False
