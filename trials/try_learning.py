#!/usr/bin/env python3
"""Compares what learners find with what the search in the defined order finds, on random problems.

    python3 trials/try_learning.py [--problems N] [--seed N]

It runs the program learn_trials over N random problems (default 100000), in as many processes as there are processors.
A learner has to find a cover where there is one, and else that there is none.

It wants the program: (cd crates/learn_trials && rt run) builds it. The exit status is 0, 1 where two answers differ, 2
for a mistake on the command line or where there is no program.
"""
from __future__ import annotations

import sys

from drawn_runs import counted

NAMES = ["problems", "covers", "conflicts", "differ"]


def main() -> None:
    counts = counted(["learn_trials"], __doc__, 100_000, 5_000, NAMES)
    print("{problems} problems: {covers} covers, {conflicts} conflicts; {differ} differ".format(**counts))
    sys.exit(1 if counts["differ"] else 0)


if __name__ == "__main__":
    main()
