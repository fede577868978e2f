#!/usr/bin/env python3
"""Times the calls of a site's table.

    python3 bench/table.py

A guest is split into a thousand, a hundred thousand and a million children. All but 200 of them, those of least serial,
are taken up and end with nothing found; this is the first row. Then 20 are taken up and end, 20 are given away and made
ready again, 20 are taken up and split into ten, and these frames are finished by a cover: nine children of each are
aborted, which stand far behind their frame. Then 20 guests that were split into ten are refused, which aborts these. At
the end members come that tell nothing new. Then ten thousand guests are admitted in order, taken up, end, and settle.
Each row has the microseconds that a call took on the average of its calls, the least of three runs.

It wants the program: (cd crates/workbench && rt run) builds it. The exit status is 0, or 2 for a mistake on the command
line or where there is no program.
"""
from __future__ import annotations

import os
import subprocess
import sys
from collections.abc import Sequence

HERE = os.path.dirname(os.path.abspath(__file__))
sys.path.insert(0, os.path.join(HERE, "..", "trials"))
from built import parser_of, want_program, WORKBENCH  # noqa: E402

CHILDREN = (1_000, 100_000, 1_000_000)
GUESTS = (10_000,)
UNITS = {"table": "children", "guests": "guests"}


def micros(what: str, units: int) -> dict[str, float]:
    """What each call took in one run, by its name."""
    told = subprocess.run([WORKBENCH, what, str(units)], check=True, capture_output=True, text=True).stdout
    rows = (line.split(",") for line in told.splitlines())
    return {name: int(nanos) / max(int(calls), 1) / 1_000 for name, calls, nanos in rows}


def least(what: str, units: int) -> dict[str, float]:
    runs = [micros(what, units) for _ in range(3)]
    return {name: min(run[name] for run in runs) for name in runs[0]}


def table(what: str, sizes: Sequence[int]) -> None:
    columns = [least(what, units) for units in sizes]
    print("| Call | " + " | ".join(f"{units:,} {UNITS[what]}" for units in sizes) + " |")
    print("|---|" + "---|" * len(sizes))
    for name in columns[0]:
        print(f"| {name} | " + " | ".join(f"{column[name]:.2f}" for column in columns) + " |")


def main() -> None:
    parser_of(__doc__).parse_args()
    want_program(WORKBENCH, "workbench")
    table("table", CHILDREN)
    print()
    table("guests", GUESTS)


if __name__ == "__main__":
    main()
