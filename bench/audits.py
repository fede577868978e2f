#!/usr/bin/env python3
"""Times audits of the books of real runs.

    python3 bench/audits.py

Four and sixteen nodes of one worker search queens on a torus over links in memory, one visit a search, so that their
books grow long: boards of 10, 12 and 14 rows give some 10,000, 100,000 and 1,000,000 entries. The table has the number
of books and of entries, the seconds of the audit, the megabytes of the run with its books, and those that the audit
adds: the greatest memory of a run with an audit less that of one without.

It wants the program: (cd crates/workbench && rt run) builds it. The exit status is 0, 1 where an audit is unclean, or 2
for a mistake on the command line or where the program is missing.
"""
from __future__ import annotations

import os
import subprocess
import sys
import tempfile

HERE = os.path.dirname(os.path.abspath(__file__))
sys.path.insert(0, os.path.join(HERE, "..", "trials"))
from built import parser_of, want_program, WORKBENCH  # noqa: E402
from instances import NOTE, torus_queens  # noqa: E402
from measured import ended  # noqa: E402
from problems import put  # noqa: E402

ROWS = [10, 12, 14]
NODES = [4, 16]


def run(file: str, nodes: int, what: str) -> tuple[list[str], float]:
    """What a run prints, and its greatest memory in megabytes."""
    process = subprocess.Popen([WORKBENCH, "audits", file, str(nodes), "1", "1", "1", "100000000", what], stdout=subprocess.PIPE, text=True)
    text = process.stdout.read() if process.stdout else ""
    return text.split(maxsplit=3), ended(process).ru_maxrss / 1024


def main() -> None:
    parser_of(__doc__).parse_args()
    want_program(WORKBENCH, "workbench")
    print("| Books | Entries | Seconds | MB of the run | MB of the audit |")
    print("|---|---|---|---|---|")
    is_clean = True
    with tempfile.TemporaryDirectory() as folder:
        file = os.path.join(folder, "torus.dlx")
        for rows in ROWS:
            put(folder, "torus", NOTE, torus_queens(rows))
            for nodes in NODES:
                _, plain = run(file, nodes, "nothing")
                (books, entries, time, found), audited = run(file, nodes, "time")
                is_clean = is_clean and found.strip() == "Ok(Clean)"
                print(f"| {books} | {int(entries):,} | {int(time) / 1e9:.3f} | {plain:,.0f} | {audited - plain:,.0f} |", flush=True)
    sys.exit(0 if is_clean else 1)


if __name__ == "__main__":
    main()
