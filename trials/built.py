"""Where the built programs are, and what a script prints if one is missing. For the scripts and benches that run them.

It puts the folder python/src on the path, so that a script imports it before the package zarfepoch.
"""
from __future__ import annotations

import os
import shutil
import subprocess
import sys

TOP = os.path.dirname(os.path.dirname(os.path.abspath(__file__)))
sys.path.insert(0, os.path.join(TOP, "python", "src"))
from zarfepoch.command_line.ends import stop as stop  # noqa: E402
from zarfepoch.command_line.words import number_from_one as number_from_one, parser_of as parser_of  # noqa: E402


def program_of(crate: str) -> str:
    """The program that `rt run` keeps for a crate."""
    return os.path.join(TOP, "crates", crate, "out", crate)


SOLVE_CLI, WORKBENCH = map(program_of, ("solve_cli", "workbench"))


def path_of(text: str) -> str:
    """A path on the command line, from the root on."""
    return os.path.abspath(text)


def want_program(program: str, crate: str = "solve_cli") -> None:
    """Goes on only where there is a program at this place; else tells what builds that of the crate."""
    if not (os.path.isfile(program) and os.access(program, os.X_OK)):
        words = " -- --version" if crate == "solve_cli" else ""
        stop(f"there is no program {os.path.relpath(program)}; at the top of the repository (cd crates/{crate} && rt run{words}) builds it")


def is_right(file: str, answer: str, program: str = SOLVE_CLI) -> bool:
    """Whether `check` calls the text of an answer right."""
    checked = subprocess.run([program, "check", file, "-"], input=answer, capture_output=True, text=True)
    return checked.returncode == 0 and checked.stdout == "right\n"


def want_command(name: str) -> None:
    """Goes on only where this command is on the path."""
    if not shutil.which(name):
        stop(f"there is no command {name} on the path")
