#!/usr/bin/env python3
"""Times simulated worlds.

    python3 bench/simulate.py [--long]

Each row lets a world of so many nodes take so many turns by chance, from seed 1, and tells turns a second of processor
time, user and system, the packets sent, and the most memory of the process. `letters` and `queens-8` are published
before their turns are over; the chessboard has no cover and a search too long for these turns. On the last rows one
node splits Langford pairs of 13 at each visit, so its table grows: to 26,000 children in 400,000 turns.

It wants the program: (cd crates/workbench && rt run) builds it. The exit status is 0, 1 where the program failed, 2 for
a mistake on the command line or where there is no program.
"""
from __future__ import annotations

import os
import subprocess
import sys
import tempfile
import time
from typing import Optional

HERE = os.path.dirname(os.path.abspath(__file__))
sys.path.insert(0, os.path.join(HERE, "..", "trials"))
from built import parser_of, want_program, WORKBENCH  # noqa: E402
from measured import spent  # noqa: E402

EXAMPLES = os.path.join(HERE, "..", "examples")

# the file, how many nodes, the fuel of a search, how many turns
ROWS = [
    ("letters", 4, 1, 10_000),
    ("queens-8", 4, 10, 10_000),
    ("mutilated-chessboard", 4, 1_000, 10_000),
    ("mutilated-chessboard", 4, 1_000, 100_000),
    ("langford-13", 1, 1, 10_000),
    ("langford-13", 1, 1, 100_000),
    ("langford-13", 1, 1, 400_000),
]
LONG = [("langford-13", 16, 1_000, 1_000_000), ("langford-13", 1, 1, 1_700_000)]


def most_memory(pid: int) -> Optional[int]:
    """The most memory that a process has had so far, in bytes, or none once it has ended."""
    try:
        with open(f"/proc/{pid}/status") as status:
            kilobytes = [line.split()[1] for line in status if line.startswith("VmHWM")]
    except FileNotFoundError:
        return None
    return int(kilobytes[0]) * 1024 if kilobytes else None


def run(words: list[str]) -> tuple[str, float, int]:
    """The output of the program, its processor time, and its greatest memory in bytes, which is looked at each 2
    milliseconds."""
    before, memory = spent(), 0
    with subprocess.Popen([WORKBENCH, *words], stdout=subprocess.PIPE, text=True) as child:
        while child.poll() is None:
            memory = max(memory, most_memory(child.pid) or 0)
            time.sleep(0.002)
        text = child.stdout.read() if child.stdout else ""
    if child.returncode:
        sys.exit(f"the program failed: {words}")
    return text, spent() - before, memory


def main() -> None:
    words = parser_of(__doc__)
    words.add_argument("--long", action="store_true",
                       help="adds a million turns of 16 nodes, and a table that grows further; both take minutes")
    rows = ROWS + (LONG if words.parse_args().long else [])
    want_program(WORKBENCH, "workbench")
    with tempfile.TemporaryDirectory() as folder:
        subprocess.run([sys.executable, os.path.join(HERE, "instances.py"), folder], check=True)
        print("| File | Nodes | Fuel | Turns | Published | Packets | Seconds | Turns a second | Memory, MB |")
        print("|---|---|---|---|---|---|---|---|---|")
        for name, nodes, fuel, turns in rows:
            file = os.path.join(EXAMPLES, name + ".dlx")
            if not os.path.exists(file):
                file = os.path.join(folder, name + ".dlx")
            text, seconds, memory = run(["measure", file, str(nodes), "1", str(fuel), "0", str(turns)])
            taken, packets, published = text.split()
            rate = int(taken) / max(seconds, 0.001)
            print(f"| {name} | {nodes} | {fuel:,} | {int(taken):,} | {published} | {int(packets):,} | {seconds:.3f} "
                  f"| {rate:,.0f} | {memory / 1e6:.1f} |", flush=True)


if __name__ == "__main__":
    main()
