#!/usr/bin/env python3
"""Runs whole command lines of the program on small files, one after the other in one folder, and compares their exit
statuses.

    python3 trials/try_statuses.py [--program PATH]

Of what a run writes nothing is compared: engines' tests and `try_program.py` do that. A certificate that one line
writes is tested by the next.

It wants the program: (cd crates/solve_cli && rt run -- --version) builds it. The last line is 'N passed, M failed'. The
exit status is 0 where all passed, 1 where something failed, 2 for a mistake on the command line or where there is no
program.
"""
from __future__ import annotations

import os
import subprocess
import sys
import tempfile

from built import SOLVE_CLI, parser_of, path_of, want_program
from expected import Trial

# the files of the folder: a problem with a cover, one without, an answer of each kind, and a certificate for the second
# problem
FILES = {
    "p.dlx": "a\na\n",
    "q.dlx": "a b\na\n",
    "cover.txt": "cover 1\na\n",
    "none.txt": "none\n",
    "clauses.txt": "none\nclauses 2 1\n1\n",
}
# words, with '' for one that is empty, and the exit status
ROWS = [
    ("", 2),
    ("--help", 0),
    ("check --help", 0),
    ("alone p.dlx --fuel 0", 2),
    ("alone no/such/file", 3),
    ("alone ''", 3),
    ("check no/such/file cover.txt", 3),
    ("check p.dlx no/such/file", 3),
    ("alone p.dlx", 0),
    ("alone p.dlx --fuel 1", 4),
    ("check p.dlx cover.txt", 0),
    ("check p.dlx none.txt", 1),
    ("check p.dlx none.txt --fuel 1", 4),
    ("check cover.txt p.dlx", 3),
    ("check q.dlx clauses.txt", 0),
    ("check p.dlx clauses.txt", 1),
    ("alone p.dlx --unlimited", 0),
    ("alone q.dlx --unlimited --progress", 1),
    ("alone p.dlx --unlimited --fuel 1", 2),
    ("check p.dlx none.txt --unlimited", 1),
    ("alone p.dlx --seconds 9", 0),
    ("alone q.dlx --seconds 9 --unlimited", 1),
    ("alone p.dlx --seconds 9 --fuel 1", 4),
    ("alone p.dlx --seconds 9 --progress", 0),
    ("check p.dlx none.txt --seconds 9", 1),
    ("alone .", 3),
    ("solve no/such/file", 3),
    ("why --help", 0),
    ("why no/such/file", 3),
    ("why p.dlx", 4),
    ("why q.dlx", 1),
    ("answer no/such/file", 3),
    ("answer p.dlx", 0),
    ("answer q.dlx --progress", 1),
    ("answer q.dlx --seconds 9", 1),
    ("learn no/such/file", 3),
    ("learn p.dlx", 0),
    ("learn q.dlx --progress", 1),
    ("learn p.dlx --seconds 9 --seed 7", 0),
    ("learn q.dlx --certificate c.txt", 1),
    ("check q.dlx c.txt", 0),
    ("check p.dlx c.txt", 1),
    ("learn p.dlx --certificate c.txt", 0),
    # (where there is a cover, the file stays as it was)
    ("check q.dlx c.txt", 0),
    ("learn q.dlx --certificate q.dlx", 3),
    ("learn q.dlx --certificate no/such", 3),
    ("simulate p.dlx", 0),
    ("simulate p.dlx --fuel 1", 0),
    ("solve p.dlx --turns 0", 4),
    ("solve p.dlx --turns 0 --audit", 4),
]


def main() -> int:
    parser = parser_of(__doc__)
    parser.add_argument("--program", type=path_of, default=SOLVE_CLI, help="the program, in place of the built one")
    program = parser.parse_args().program
    want_program(program)
    trial = Trial()
    with tempfile.TemporaryDirectory() as folder:
        for name, text in FILES.items():
            with open(os.path.join(folder, name), "w", encoding="ascii") as file:
                file.write(text)
        for line, wanted in ROWS:
            words = [word.strip("'") for word in line.split()]
            ran = subprocess.run([program, *words], cwd=folder, capture_output=True, timeout=60)
            trial.expect(f"{line}: status {ran.returncode}, not {wanted}", ran.returncode == wanted)
    return trial.end()


if __name__ == "__main__":
    sys.exit(main())
