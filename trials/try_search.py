#!/usr/bin/env python3
"""Runs the program `alone` on random problems with colours, and compares it with the plain search of `plain_search.py`.

    python3 trials/try_search.py [--short] [COUNT]

For each of so many problems (default 600; 100 with --short) the answer has to be the plain search's first cover, or
that there is none. With as much fuel as the plain search has visits it has to be the same, and with one less
`no answer`. It wants the program: (cd crates/solve_cli && rt run -- --version) builds it. The last line counts the
problems, by outcome; the exit status is 0, 1 where a problem differs, or 2 for a mistake on the command line or where
the program is missing.
"""
from __future__ import annotations

import random
import subprocess
import sys
import tempfile
from typing import Optional

from built import SOLVE_CLI, number_from_one, parser_of, want_program
from plain_search import read, search


def random_text(draw: random.Random) -> str:
    """A problem of up to six primary and five secondary items, whose options may give the latter one of three
    colours."""
    primary = [f"p{k}" for k in range(draw.randint(1, 6))]
    secondary = [f"s{k}" for k in range(draw.randint(1, 5))]
    options = []
    for _ in range(draw.randint(0, 14)):
        words = draw.sample(primary, draw.randint(1, min(3, len(primary))))
        for item in draw.sample(secondary, draw.randint(0, len(secondary))):
            words.append(item + draw.choice(["", ":a", ":a", ":b", ":b", ":c"]))
        draw.shuffle(words)
        options.append(words)
    return "\n".join(" ".join(words) for words in [primary + ["|"] + secondary, *options]) + "\n"


def answer_text(text: str, first: Optional[list[int]]) -> str:
    """The answer that has to be written."""
    if first is None:
        return "none\n"
    options = text.split("\n")[1:]
    return "".join(line + "\n" for line in [f"cover {len(first)}", *(options[o] for o in sorted(first))])


def answer_of(path: str, fuel: Optional[int] = None) -> str:
    words = [SOLVE_CLI, "alone", path, *(["--fuel", str(fuel)] if fuel else [])]
    return subprocess.run(words, capture_output=True, text=True).stdout


def agrees(path: str, text: str) -> tuple[bool, bool]:
    """Whether the program says what the plain search does, and whether there is a cover."""
    with open(path, "w") as file:
        file.write(text)
    _, primary, options, _ = read(text.encode())
    first, visits = search(primary, options, [])
    wanted = answer_text(text, first)
    less = answer_of(path, visits - 1) == "no answer\n" if visits > 1 else True
    return answer_of(path) == wanted and answer_of(path, visits) == wanted and less, first is not None


def main() -> int:
    parser = parser_of(__doc__)
    parser.add_argument("count", metavar="COUNT", type=number_from_one, nargs="?", help="how many problems (default 600; 100 with --short)")
    parser.add_argument("--short", action="store_true", help="fewer problems")
    given = parser.parse_args()
    count = given.count or (100 if given.short else 600)
    want_program(SOLVE_CLI)
    draw = random.Random(7221)
    results = []
    with tempfile.NamedTemporaryFile(suffix=".dlx") as file:
        for _ in range(count):
            text = random_text(draw)
            results.append(agrees(file.name, text))
            if not results[-1][0]:
                print(f"differs:\n{text}")
    covers, wrong = sum(cover for _, cover in results), sum(not right for right, _ in results)
    print(f"{count} problems: {covers} covers, {count - covers} none, {wrong} wrong")
    return 1 if wrong else 0


if __name__ == "__main__":
    sys.exit(main())
