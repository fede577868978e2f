"""Runs of a program that draws problems, compares two answers to each, and prints its counts: for try_states.py and
try_learning.py."""
from __future__ import annotations

import concurrent.futures
import os
import re
import subprocess
from typing import Optional

from built import number_from_one, parser_of, program_of, stop, want_program


def counts_of(command: list[str], seed: int, problems: int, names: list[str]) -> list[int]:
    """What the command counts, of so many problems that it draws by this seed."""
    ran = subprocess.run([*command, str(seed), str(problems)], capture_output=True, text=True)
    numbers = [int(word) for word in re.findall("[0-9]+", ran.stdout)]
    if ran.returncode not in (0, 1) or len(numbers) != len(names):
        stop(f"{os.path.basename(command[0])} {seed} {problems} ended with status {ran.returncode}: {ran.stdout}{ran.stderr}")
    return numbers


def counted(command: list[str], doc: str, problems: int, at_once: int, names: list[str], short: Optional[int] = None) -> dict[str, int]:
    """The sums of what a command counts, by name, over as many problems as the command line asks for, or else so many;
    with --short so few, where there is such a word. The command's first word is a crate that is a program.

    Each process draws so many at once; as many run side by side as there are processors.
    """
    words = parser_of(doc)
    if short:
        words.add_argument("--short", dest="problems", action="store_const", const=short, default=problems, help=f"{short} problems")
    words.add_argument("--problems", metavar="N", type=number_from_one, default=problems, help=f"how many problems (default {problems})")
    words.add_argument("--seed", metavar="N", type=number_from_one, default=1, help="of the first process (default 1)")
    given, program = words.parse_args(), program_of(command[0])
    want_program(program, command[0])
    whole, rest = divmod(given.problems, at_once)
    sizes = [at_once] * whole + [rest] * (rest > 0)
    with concurrent.futures.ThreadPoolExecutor(os.cpu_count()) as pool:
        seen = pool.map(lambda place: counts_of([program, *command[1:]], given.seed + place, sizes[place], names), range(len(sizes)))
        return dict(zip(names, map(sum, zip(*seen))))
