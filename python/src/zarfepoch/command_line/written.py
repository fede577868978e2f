"""The files that a command line wants written: none of them is one that the command reads, and no two are one file."""
from __future__ import annotations

import os
from argparse import Namespace
from collections.abc import Iterable

from .ends import stop

# what command lines call the files that they write, by their options, and those that they read
WRITTEN = ("out", "svg", "csv", "grid", "problem")
READ = ("file", "answer", "given", "cells", "pieces", "rules", "keep")
# and by which options they name a file or a folder
NAMING = (*WRITTEN, "pieces", "rules", "keep", "out_dir")


def real(path: str) -> str:
    """The path that a file has without links, which is written to; empty for a device, a pipe or `-`, which keep
    nothing."""
    return "" if path == "-" or os.path.exists(path) and not os.path.isfile(path) else os.path.realpath(path)


def read_by(given: Namespace, without: Iterable[str] = ()) -> set[str]:
    """The paths of all files that a command line reads, or of others than these."""
    words = [getattr(given, name, None) for name in READ if name not in without]
    return {os.path.realpath(word) for word in words if isinstance(word, str) and os.path.isfile(word)}


def keep_what_is_read(given: Namespace) -> None:
    """Ends a command that would write over a file that it reads, or two things into one file. (A plan that is kept may
    make place for the next one.) A name without a letter, as of a variable of the shell that isn't set, ends it too: as
    though the option weren't there, another plan would be made, or none be written."""
    for name in NAMING:
        if getattr(given, name, None) == "":
            stop(f"--{name.replace('_', '-')} names no file: the word behind it is empty")
    taken: dict[str, str] = {}
    for name in WRITTEN:
        path = getattr(given, name, None)
        if not path or not real(path):
            continue
        if real(path) in read_by(given, ("keep",) if name == "csv" else ()):
            stop(f"--{name} would write over {path}, which is read here: another file is wanted")
        if real(path) in taken:
            stop(f"--{taken[real(path)]} and --{name} would be one file, {path}: two are wanted")
        taken[real(path)] = name
