"""What a command says and takes, for the benches.

Processor seconds are those of user and system together, of the whole process and of those that it has waited for.
"""
from __future__ import annotations

import os
import resource
import subprocess
import sys
import time
from typing import Any, NamedTuple, Optional

sys.path.insert(0, os.path.join(os.path.dirname(os.path.abspath(__file__)), "..", "trials"))
from built import is_right  # noqa: E402


class Ran(NamedTuple):
    """What a command wrote; its exit status, which is none where its time was over; and its processor and wall
    seconds."""
    text: str
    status: Optional[int]
    processor: float
    wall: float


def processor_seconds(used: resource.struct_rusage) -> float:
    """The processor seconds of what a process used."""
    return used.ru_utime + used.ru_stime


def spent() -> float:
    """The processor seconds of all commands that have ended so far: what one takes is how much more they are after it
    than before."""
    return processor_seconds(resource.getrusage(resource.RUSAGE_CHILDREN))


def run(words: list[str], given: str = "", seconds: Optional[float] = None) -> Ran:
    """Runs a command, with this on its standard input, to its end or for so many seconds at most."""
    before, began = spent(), time.monotonic()
    status: Optional[int] = None
    text = ""
    try:
        ended = subprocess.run(words, input=given, stdout=subprocess.PIPE, stderr=subprocess.DEVNULL, text=True, timeout=seconds)
        text, status = ended.stdout, ended.returncode
    except subprocess.TimeoutExpired:
        pass
    return Ran(text, status, spent() - before, time.monotonic() - began)


def ended(process: subprocess.Popen[Any]) -> resource.struct_rusage:
    """What a process used, once it has ended; its status is known then. (Its memory is at least that of the Python that
    began it.)"""
    used: resource.struct_rusage
    _, status, used = os.wait4(process.pid, 0)
    process.returncode = os.waitstatus_to_exitcode(status)
    return used


def found_cover(file: str, text: str, whose: str) -> Optional[bool]:
    """Whether a command found a cover, by what it wrote; none where it had no answer. A cover that `check` doesn't call
    right ends the bench."""
    if text.startswith("cover"):
        if not is_right(file, text):
            sys.exit(f"a wrong cover{whose}")
        return True
    return False if text.startswith("none\n") else None
