#!/usr/bin/env python3
"""Times how certificates that there is no cover are written and checked.

    python3 bench/certificates.py [--times N] [--checker PROGRAM] [NAME ..]

Each instance that is named, or each of some without a cover, is answered by `alone --unlimited` with and without
--certificate, and by `learn` with and without; both certificates are checked by `check`, by scripts/zarfepoch
check-certificate, and by PROGRAM, which gets the same two files and ends with status 0. The least user and system time
of a process counts, in seconds; those that have no answer in a minute have a dash. Lines are those of the certificate,
beside its size as it is and by gzip.

It wants the program: (cd crates/solve_cli && rt run -- --version) builds it. The exit status is 0, 1 where a
certificate is refused, 2 for a mistake on the command line or where there is no program.
"""
from __future__ import annotations

import gzip
import os
import sys
import tempfile
from typing import Optional

HERE = os.path.dirname(os.path.abspath(__file__))
sys.path.insert(0, os.path.join(HERE, "..", "trials"))
from built import number_from_one, parser_of, SOLVE_CLI, stop, want_program  # noqa: E402
from measured import run  # noqa: E402
from states import write_instances  # noqa: E402

NAMES = ("langford-13", "pigeons-12", "torus-queens-14", "torus-queens-15", "torus-queens-16", "triples-19", "triples-22", "word-squares-4")
WAYS = {"alone": ["alone", "--unlimited"], "learn": ["learn"]}
CHECK = [sys.executable, os.path.join(HERE, "..", "scripts", "zarfepoch"), "check-certificate"]
SECONDS = 60


def least(words: list[str], status: int, times: int) -> str:
    """The least time of a process that has to end with this status, as text; a dash where it took longer than a
    minute."""
    runs = []
    for _ in range(times):
        ran = run(words, seconds=SECONDS)
        if ran.status is None:
            return "-"
        if ran.status != status:
            raise ValueError(f"{' '.join(words)}: status {ran.status}")
        runs.append(ran.processor)
    return f"{min(runs):.2f}"


def size_of(path: str) -> list[str]:
    """How many lines a file has, its kilobytes, and those of its gzipped form, as text."""
    with open(path, "rb") as file:
        text = file.read()
    return [f"{text.count(10):,}", f"{len(text) / 1000:,.0f}", f"{len(gzip.compress(text, 6)) / 1000:,.0f}"]


def row(name: str, file: str, way: str, times: int, checker: Optional[str]) -> str:
    """What one way to write a certificate of a file takes, as a row of a table."""
    with tempfile.TemporaryDirectory() as folder:
        out = os.path.join(folder, "certificate.txt")
        words = [SOLVE_CLI, WAYS[way][0], file, *WAYS[way][1:]]
        plain = least(words, 1, times)
        written = "-" if plain == "-" else least([*words, "--certificate", out], 1, times)
        if written == "-" or not os.path.exists(out):
            return f"| {name} | {way} | {plain} | {written} |" + " - |" * 6
        checks = [[SOLVE_CLI, "check", file, out], [*CHECK, file, out], *([[checker, file, out]] if checker else [])]
        took = [least(check, 0, times) for check in checks]
        return f"| {name} | {way} | " + " | ".join([plain, written, *size_of(out), *took, *([] if checker else ["-"])]) + " |"


def main() -> int:
    parser = parser_of(__doc__)
    parser.add_argument("--times", metavar="N", type=number_from_one, default=3, help="how often each process runs (default 3)")
    parser.add_argument("--checker", metavar="PROGRAM", help="a further checker, which gets the problem's and the certificate's file")
    parser.add_argument("names", nargs="*", metavar="NAME", help="an instance, in place of all")
    given = parser.parse_args()
    want_program(SOLVE_CLI)
    with tempfile.TemporaryDirectory() as folder:
        write_instances(folder)
        print("| Instance | Command | Answered | With certificate | Lines | kB | gzip, kB | `check` | Python | Other |")
        print("|---|---|---|---|---|---|---|---|---|---|")
        for name in given.names or NAMES:
            file = os.path.join(folder, f"{name}.dlx")
            if not os.path.exists(file):
                stop(f"there is no instance {name}")
            for way in WAYS:
                try:
                    print(row(name, file, way, given.times, given.checker), flush=True)
                except ValueError as error:
                    print(error)
                    return 1
    return 0


if __name__ == "__main__":
    sys.exit(main())
