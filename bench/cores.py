#!/usr/bin/env python3
"""Times the cores.

    python3 bench/cores.py

`cycle` is a steal from the first packet to the last: eight events and four packets, a thousand and ten thousand times
over; each leaves one guest more in the node's table. `share-1`, `share-2` and `share-8` are a Steal and the Give of so
many children to a node that begins, and a redo of each child. The others are packets that are delivered, a million
times each. Beside each, a plain loop only copies the same packets. Both run by turns, three times each, and the least
processor time of the whole process counts, user and system.

It wants the program: (cd crates/workbench && rt run) builds it. The exit status is 0, or 2 for a mistake on the command
line or where there is no program.
"""
from __future__ import annotations

import os
import sys

HERE = os.path.dirname(os.path.abspath(__file__))
sys.path.insert(0, os.path.join(HERE, "..", "trials"))
from built import parser_of, want_program, WORKBENCH  # noqa: E402
from measured import run  # noqa: E402

# what happens, how many events it is, and how many times
ROWS = [("cycle", 8, 1_000), ("cycle", 8, 10_000)] + [
    (f"share-{share}", 2 + share, 100_000) for share in (1, 2, 8)
] + [
    (kind, 1, 1_000_000)
    for kind in ("hello", "members", "steal", "give", "no-work", "return", "accept", "refuse", "abort")
]


def seconds(words: list[str]) -> float:
    """The processor seconds of the program, which has to end well."""
    ran = run([WORKBENCH, *words])
    if ran.status:
        sys.exit(f"the program failed: {words}")
    return ran.processor


def main() -> None:
    parser_of(__doc__).parse_args()
    want_program(WORKBENCH, "workbench")
    print("| Kind | Events | Copies, s | Cores, s | Events a second |")
    print("|---|---|---|---|---|")
    for kind, events, times in ROWS:
        runs = [(seconds(["copy", kind, str(times)]), seconds(["act", kind, str(times)])) for _ in range(3)]
        copied, acted = min(run[0] for run in runs), min(run[1] for run in runs)
        count = events * times
        print(f"| {kind} | {count:,} | {copied:.3f} | {acted:.3f} | {count / max(acted, 0.001):,.0f} |")


if __name__ == "__main__":
    main()
