#!/usr/bin/env python3
"""Compares searches that keep states which have no cover with plain ones, on random problems.

    python3 trials/try_states.py [--short] [--problems N] [--seed N]

It runs `workbench states` over N random problems (default 50000; 4000 with --short), in as many processes as there are
processors. Outcome, first cover and visits of each prefix that is searched have to be the same with states kept and
without; the fuels are the visits, one visit less, and numbers that are drawn.

It wants the program: (cd crates/workbench && rt run) builds it. The exit status is 0, 1 where two searches differ, 2
for a mistake on the command line or where there is no program.
"""
from __future__ import annotations

import sys

from drawn_runs import counted

NAMES = ["problems", "searches", "covers", "spent", "differ"]


def main() -> None:
    counts = counted(["workbench", "states"], __doc__, 50_000, 2_000, NAMES, short=4_000)
    print("{problems} problems, {searches} searches: {covers} covers, {spent} spent; {differ} differ".format(**counts))
    sys.exit(1 if counts["differ"] else 0)


if __name__ == "__main__":
    main()
