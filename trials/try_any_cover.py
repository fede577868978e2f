#!/usr/bin/env python3
"""Runs the program `learn` on random problems with secondary items and colours, and compares it with the plain search
of `plain_search.py`.

    python3 trials/try_any_cover.py [--problems N] [--seed N]

Of N problems (default 2000) a cover has to be found where the plain search finds one, and else that there is none. Each
cover is counted here. The problems are drawn so that about half have a cover, and each has a seed of its own for
`learn`. It runs as many at once as there are processors.

It wants the program: (cd crates/solve_cli && rt run -- --version) builds it. The last line counts the problems, by
outcome; the exit status is 0, 1 where an answer is wrong, 2 for a mistake on the command line or where there is no
program.
"""
from __future__ import annotations

import concurrent.futures
import os
import random
import subprocess
import sys

from built import SOLVE_CLI, number_from_one, parser_of, want_program
from plain_search import Numbered, clash, read, search

# how many problems a process draws at once
AT_ONCE = 100


def random_text(draw: random.Random) -> str:
    """A problem of up to nine primary and four secondary items, whose options may give the latter one of three
    colours."""
    primary = [f"p{k}" for k in range(draw.randint(2, 9))]
    secondary = [f"s{k}" for k in range(draw.randint(0, 4))]
    lines = [" ".join([*primary, "|", *secondary])]
    for _ in range(draw.randint(len(primary) // 2, 3 * len(primary))):
        words = draw.sample(primary, draw.randint(1, min(3, len(primary))))
        for item in draw.sample(secondary, draw.randint(0, min(2, len(secondary)))):
            words.append(item + draw.choice(["", ":a", ":a", ":b", ":b", ":c"]))
        draw.shuffle(words)
        lines.append(" ".join(words))
    return "\n".join(lines) + "\n"


def is_cover(text: str, primary: int, options: list[Numbered], lines: list[str]) -> bool:
    """Whether the lines of an answer are options of the problem, in its order, no two of which clash, and name each
    primary item."""
    places: list[int] = []
    for line in lines:
        # (equal options are told apart by their places)
        later = [place for place, own in enumerate(text.split("\n")[1:]) if own == line and (not places or place > places[-1])]
        if not later:
            return False
        places.append(later[0])
    apart = not any(clash(primary, options[p], options[q]) for p in places for q in places if p < q)
    return apart and set(range(primary)) <= {item for place in places for item in options[place]}


def is_right(text: str, seed: int) -> tuple[bool, bool]:
    """Whether the answer of `learn` is right, and whether there is a cover."""
    _, primary, options, _ = read(text.encode())
    has_cover = search(primary, options, [])[0] is not None
    ran = subprocess.run([SOLVE_CLI, "learn", "-", "--seed", str(seed)], input=text, stdout=subprocess.PIPE, text=True)
    head, *lines = ran.stdout.split("\n")[:-1]
    if has_cover:
        return ran.returncode == 0 and head == f"cover {len(lines)}" and is_cover(text, primary, options, lines), True
    return (ran.returncode, ran.stdout) == (1, "none\n"), False


def drawn(seed: int, problems: int) -> tuple[int, int]:
    """Of so many problems that are drawn by a seed, how many have a cover, and how many answers are wrong."""
    draw, covers, wrong = random.Random(seed), 0, 0
    for number in range(problems):
        text = random_text(draw)
        right, has_cover = is_right(text, seed * AT_ONCE + number)
        covers += has_cover
        if not right:
            wrong += 1
            print(f"wrong:\n{text}", flush=True)
    return covers, wrong


def main() -> int:
    words = parser_of(__doc__)
    words.add_argument("--problems", metavar="N", type=number_from_one, default=2000, help="how many problems (default 2000)")
    words.add_argument("--seed", metavar="N", type=number_from_one, default=1, help="of the first hundred (default 1)")
    given = words.parse_args()
    want_program(SOLVE_CLI)
    whole, rest = divmod(given.problems, AT_ONCE)
    sizes = [AT_ONCE] * whole + [rest] * (rest > 0)
    with concurrent.futures.ProcessPoolExecutor(os.cpu_count()) as pool:
        counts = list(pool.map(drawn, range(given.seed, given.seed + len(sizes)), sizes))
    covers, wrong = (sum(own) for own in zip(*counts))
    print(f"{given.problems} problems: {covers} covers, {given.problems - covers} none, {wrong} wrong")
    return 1 if wrong else 0


if __name__ == "__main__":
    sys.exit(main())
