"""The edits of the folder bugs, for the scripts that try them: how one is read, and what it makes of the code."""
from __future__ import annotations

import os
from collections.abc import Sequence
from typing import Optional

from built import TOP

BUGS = os.path.join(TOP, "bugs")


def read(path: str) -> str:
    with open(path, encoding="utf-8") as opened:
        return opened.read()


def edited(crate: str, bug: str) -> Optional[dict[str, str]]:
    """The files that a bug changes, by their paths from the top, with their texts then; None where it no longer
    applies: its file is missing, or one that it names, or an old text doesn't stand there exactly once, where the
    earlier ones are replaced."""
    texts: dict[str, str] = {}
    file = old = ""
    try:
        for word, _, rest in (line.partition(": ") for line in read(os.path.join(BUGS, crate, bug + ".edit")).splitlines()):
            if word == "file":
                file = os.path.join("crates", crate, rest)
                texts.setdefault(file, read(os.path.join(TOP, file)))
            elif word == "old":
                old = rest
            elif word == "new":
                if texts[file].count(old) != 1:
                    return None
                texts[file] = texts[file].replace(old, rest)
    except FileNotFoundError:
        return None
    return texts


def name_stale(bugs: Sequence[Sequence[str]]) -> int:
    """Names the bugs that no longer apply, each a crate and a name, counts them, and answers the exit status."""
    stale = [f"{crate}/{bug}" for crate, bug in bugs if edited(crate, bug) is None]
    for name in stale:
        print(f"{name}: no longer applies")
    print(f"{len(bugs) - len(stale)} bugs apply, {len(stale)} no longer")
    return 2 if stale else 0
