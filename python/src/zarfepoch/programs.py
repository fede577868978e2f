"""The program solve_cli: where it is, and how commands ask it for an answer. It is what ZARFEPOCH names in the
environment, else what is on the path, else what was built in this clone, with proofs or, if there is no other, without
(scripts/build.sh --unproved)."""
from __future__ import annotations

import os
import shutil
import subprocess
import sys
import warnings
from typing import NamedTuple, Optional

from .errors import NoProgram, ProgramError, UnprovedWarning

CLONE = os.path.join(os.path.dirname(os.path.abspath(__file__)), "..", "..", "..")
BUILT_HERE, UNPROVED_HERE = os.path.join(CLONE, "crates", "solve_cli", "out", "solve_cli"), os.path.join(CLONE, "unproved", "solve_cli")

# how the line begins that a program without proofs writes on standard error beside each `none`
UNPROVED = "unproved: "


def is_program(path: str) -> bool:
    """Whether there is a file that may be run."""
    return os.path.isfile(path) and os.access(path, os.X_OK)


def known_program() -> Optional[str]:
    """The program's path, or None where there is none."""
    named = os.environ.get("ZARFEPOCH")
    places: list[Optional[str]] = [named] if named else [shutil.which("solve_cli"), BUILT_HERE, UNPROVED_HERE]
    return next((os.path.abspath(path) for path in places if path and is_program(path)), None)


def dying_with_parent(words: list[str]) -> list[str]:
    """The words of a command that ends with the process that starts it, however that ends; where the system has no
    means for it, as they are."""
    setpriv = shutil.which("setpriv")
    return [setpriv, "--pdeathsig", "KILL", "--", *words] if setpriv else words


def own_words(why: str) -> str:
    """What the program says of a run without an answer, without the commands that it would advise and the package
    hasn't."""
    return why.removeprefix("ended: ").replace(", or answer", "").replace(", or --unlimited", "")


def level_outside() -> int:
    """How many calls the line outside the package that called it is away from who asks: that line is warned of."""
    package, level, frame = f"{__package__}.", 0, sys._getframe(1)
    while frame.f_back and f"{frame.f_globals.get('__name__')}.".startswith(package):
        level, frame = level + 1, frame.f_back
    return level + 1


class UnprovedNote:
    """Warns, once however many answers there are, that a program without proofs says that there is no cover."""

    def __init__(self) -> None:
        self.is_told = False

    def tell(self, why: str) -> str:
        """Warns if standard error, beside a `none`, has the note; what else it has."""
        lines = why.splitlines()
        notes = [line for line in lines if line.startswith(UNPROVED)]
        if notes and not self.is_told:
            self.is_told = True
            warnings.warn(notes[0], UnprovedWarning, stacklevel=level_outside())
        return "\n".join(line for line in lines if line not in notes)


def missing_program(named: Optional[str]) -> str:
    """What is said where there is no program, at the place that is named, if one is."""
    where = named or "solve_cli, neither named by ZARFEPOCH nor on the path"
    return (f"there is no program {where}; at the top of a clone scripts/build.sh builds "
            "crates/solve_cli/out/solve_cli, and ZARFEPOCH may name that; scripts/build.sh --unproved leaves one without proofs in some minutes")


def find_program() -> str:
    """The program's path; `NoProgram` where there is none."""
    path = known_program()
    if path is None:
        raise NoProgram(missing_program(os.environ.get("ZARFEPOCH")))
    return path


class ProgramAnswer(NamedTuple):
    """The program's exit status, what it wrote, and what it said on standard error.

    A status alone is no answer: with 1, that of `none`, much ends that fails before it has begun.
    """
    status: int
    text: bytes
    why: str

    @property
    def is_cover(self) -> bool:
        """Whether it is a cover."""
        return self.status == 0 and self.text.startswith(b"cover ")

    @property
    def is_none(self) -> bool:
        """Whether it is that there is no cover."""
        return self.status == 1 and self.text.startswith(b"none\n")

    @property
    def is_open(self) -> bool:
        """Whether it is that a limit was met before there was an answer."""
        return self.status == 4 and self.text == b"no answer\n"

    def failure(self, program: str) -> str:
        """What is said of a program that answers nothing of these."""
        return f"the program {program} ended with status {self.status}, and wrote no answer" + (f": {self.why}" if self.why else "")


def run_program(program: str, words: list[str], text: bytes) -> ProgramAnswer:
    """What the program answers to a problem on its standard input; `ProgramError` where it can't be run."""
    try:
        ran = subprocess.run([program, *words], input=text, capture_output=True)
    except OSError as why:
        raise ProgramError(f"the program {program} can't be run: {why.strerror}") from None
    return ProgramAnswer(ran.returncode, ran.stdout, ran.stderr.decode(errors="replace").strip())


def answer_of(program: str, text: bytes, seconds: Optional[float] = None) -> ProgramAnswer:
    """The answer to a problem, within so many seconds if they are told. That a `none` isn't proved is a warning."""
    limit = ["--seconds", str(max(1, round(seconds)))] if seconds else []
    found = run_program(program, ["answer", "-", *limit], text)
    return found._replace(why=UnprovedNote().tell(found.why)) if found.is_none else found
