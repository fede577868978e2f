#!/usr/bin/env python3
"""Runs `solve`, `answer` and `learn` where threads can't be started or memory runs out, and shows how each run ended.

    python3 trials/try_shortage.py [--short] [--growths N] [--limit SECONDS]

The small problem with one cover is solved. First, with the usual four nodes of two workers, so many threads can be
started as the table says, from none to all. Then one growth of memory is refused: with one node of one worker each
growth of a run in turn, and with eight workers N (100) of them, spread over a run. Then, with eight workers, all
growths are refused from one of them on, in a quarter as many runs. `refuse_growth.c`, which is built here and loaded
before the C library, refuses them. Each answer has to be the right one. A run has to end within the limit (60 seconds).
Where memory ran out and there is no answer, the status has to be 5 and standard error has to say so; but a thread whose
growth is refused at its start is one that can't be started, and then status 4 is right, too.

`answer` is run with no, one and two further threads, and with each growth refused, and all from each on, in as many
runs: it ends with the answer, since its search needs no further thread, or where memory was refused with status 5. So
is `learn`.

Then `answer`, `alone` and `learn` write a certificate of a problem without a cover, with each growth refused. Their
answer is `none` or, with status 5, nothing; `certificate right` is said of a file just if there is one that `check`
calls right; and no part of a certificate is left beside it.

Then the address space of `answer` and `learn` is limited, down to what the program begins with: there is no room for
the stack of a further thread. The problem takes `answer` longer than its search has for itself, so that all lanes begin
if they can.

Last it is solved in a network namespace without a loopback device, where the system allows one: status 3 and
`cannot bind` within a second.

--short refuses 25 growths where else it would be each or a hundred, and three numbers of threads. It wants cc and the
program: (cd crates/solve_cli && rt run -- --version) builds it. The exit status is 0, 1 where a run went wrong, 2 for a
mistake on the command line or where something is missing.
"""
from __future__ import annotations

import collections
import os
import re
import resource
import subprocess
import sys
import tempfile
import time
from collections.abc import Mapping, Sequence
from typing import NamedTuple, Optional

from built import SOLVE_CLI, TOP, number_from_one, parser_of, want_command, want_program
from zarfepoch.puzzles import by_number
from zarfepoch.texts.puzzles import Puzzle

LETTERS = "a b c d e f g\nc e\na d g\nb c f\na d f\nb g\nd e g\n"
ANSWER = "cover 3\nc e\na d f\nb g\n"
# the same without the last but one option, so that there is no cover
BARREN = "a b c d e f g\nc e\na d g\nb c f\na d f\nd e g\n"
# by the search, or by another lane where the search has no memory
REASONED = re.compile(re.escape(ANSWER) + r"by (search of 5 states|[0-9]+ learned clauses?|a run of [0-9]+ workers?)\n")
THREADS = (0, 1, 2, 4, 8, 12, 16)
ALONE = ("--nodes", "1", "--workers", "1")
USUAL: Sequence[str] = ()
WITH_REASON = ("--reason",)
# which commands write certificates
CERTIFYING = (("answer",), ("alone", "--unlimited"), ("learn",))
# the address space in megabytes that `answer` and `learn` are left
SPACES = (12, 16, 24, 32, 48, 64, 96, 128, 256)
FEW = 25
ONE, ALL = "refuse_growth", "refuse_from"
# what is refused where nothing is
NOTHING: Mapping[str, int] = {}


class Ended(NamedTuple):
    """How a run ended: its status, the text on standard output and on standard error, and its seconds."""
    status: Optional[int]
    text: str
    why: str
    seconds: float


class Trial:
    """Runs of the program with something refused."""

    def __init__(self, folder: str, limit: float) -> None:
        self.folder, self.limit, self.wrong = folder, limit, 0
        self.library = os.path.join(folder, "refuse_growth.so")
        self.file = os.path.join(folder, "letters.dlx")
        self.count = os.path.join(folder, "growths")
        self.barren = os.path.join(folder, "barren.dlx")
        self.out = os.path.join(folder, "certificate")
        subprocess.run(["cc", "-O2", "-shared", "-fPIC", "-o", self.library, os.path.join(TOP, "trials", "refuse_growth.c"), "-ldl", "-lpthread"],
                       check=True)
        for path, text in (self.file, LETTERS), (self.barren, BARREN):
            with open(path, "w", encoding="ascii") as file:
                file.write(text)

    def run(self, words: Sequence[str] = USUAL, mode: str = "solve", file: Optional[str] = None, refused: Mapping[str, int] = NOTHING) -> Ended:
        """One run with these words and refusals; a run that doesn't end within twice the limit is stopped."""
        given = {name.upper(): str(value) for name, value in refused.items()}
        env = dict(os.environ, LD_PRELOAD=self.library, GROWTHS_FILE=self.count, **given)
        if os.path.exists(self.count):
            os.remove(self.count)
        start = time.monotonic()
        try:
            ran = subprocess.run([SOLVE_CLI, mode, file or self.file, *words], capture_output=True, text=True, env=env, timeout=2 * self.limit)
        except subprocess.TimeoutExpired:
            return Ended(None, "", "", time.monotonic() - start)
        return Ended(ran.returncode, ran.stdout, ran.stderr, time.monotonic() - start)

    def wrongly(self, ended: Ended) -> None:
        """Counts a run that went wrong, and prints how."""
        self.wrong += 1
        print(f"wrong: status {ended.status}, {ended.text!r}, {ended.why!r}, {ended.seconds:.1f} s")

    def growths(self) -> tuple[int, int, list[int]]:
        """How many growths the last run asked for, the place that asked for the refused one, and the places that ask
        for a thread's."""
        with open(self.count, encoding="ascii") as file:
            count, refused, *starts = map(int, file.read().split())
        return count, refused, starts

    def judge(self, ended: Ended, memory: bool) -> None:
        """Counts a run that went wrong, and prints how. Without `memory` there may be no answer since threads can't be
        started."""
        is_answer = ended.status == 0 and (ended.text == ANSWER or REASONED.fullmatch(ended.text))
        is_unanswered = ended.status == 4 and ended.text == "no answer\n" and not memory
        is_refused = memory and ended.status == 5 and "out of memory" in ended.why and not ended.text
        right = is_answer or is_unanswered or is_refused
        if not right or ended.seconds > self.limit:
            self.wrongly(ended)

    def judge_certificate(self, ended: Ended) -> None:
        """Counts a run that wrote a certificate which isn't right, or says so of none, or left a part of one."""
        is_there = os.path.exists(self.out)
        is_said = ended.why.endswith(f"certificate right: {self.out}\n")
        checked = is_there and subprocess.run([SOLVE_CLI, "check", self.barren, self.out], capture_output=True).returncode == 0
        others = sorted(set(os.listdir(self.folder)) - {os.path.basename(path) for path in (self.library, self.file, self.barren, self.count, self.out)})
        fails = ended.status in (3, 5) and (ended.text == "none\n" or ended.status == 5 and not ended.text)
        if is_there != checked or is_said and not is_there or others or not (fails or ended.status == 1 and ended.text == "none\n" and is_said):
            self.wrongly(ended)
            print(f"certificate: there {is_there}, right {checked}; beside it {others}")
        if is_there:
            os.remove(self.out)


def threads(trial: Trial, numbers: Sequence[int], mode: str = "solve") -> None:
    print(f"| Threads of {mode} | Status | Seconds |")
    print("|---|---|---|")
    for most in numbers:
        ended = trial.run(mode=mode, refused={"most_threads": most})
        trial.judge(ended, False)
        trial.wrong += mode == "answer" and ended.status == 4
        print(f"| {most} | {ended.status} | {ended.seconds:.2f} |", flush=True)


def growths(trial: Trial, name: str, words: Sequence[str], what: str, count: int, mode: str = "solve") -> None:
    """Runs with a refusal at so many growths of a run with these words, or at each of them, as one row of a table."""
    trial.judge(trial.run(words, mode), False)
    all_of, _, starts = trial.growths()
    places = sorted({1 + all_of * place // count for place in range(count)}) if count else list(range(1, all_of + 1))
    ended: list[Ended] = []
    unstarted = 0
    for place in places:
        ended.append(trial.run(words, mode, refused={what: place}))
        is_start = what == ONE and ended[-1].status is not None and trial.growths()[1] in starts
        unstarted += is_start
        trial.judge(ended[-1], not is_start)
    counts = collections.Counter(one.status for one in ended)
    cells = [name, all_of, len(ended), unstarted, counts[0], counts[4], counts[5], f"{max(one.seconds for one in ended):.2f}"]
    print(f"| {' | '.join(map(str, cells))} |", flush=True)


def certificates(trial: Trial, mode: str, words: Sequence[str], count: int) -> None:
    """Runs that write a certificate, with a refusal at so many growths, or at each of them, as one row of a table."""
    words = (*words, "--certificate", trial.out)
    trial.judge_certificate(trial.run(words, mode, trial.barren))
    all_of, _, _ = trial.growths()
    places = sorted({1 + all_of * place // count for place in range(count)}) if count else list(range(1, all_of + 1))
    counts: collections.Counter[Optional[int]] = collections.Counter()
    for place in places:
        ended = trial.run(words, mode, trial.barren, {ONE: place})
        trial.judge_certificate(ended)
        counts[ended.status] += 1
    print(f"| {mode} | {all_of} | {len(places)} | {counts[1]} | {counts[3]} | {counts[5]} |", flush=True)


def langford(folder: str, pairs: int) -> str:
    """A file of so many Langford pairs."""
    path = os.path.join(folder, f"langford-{pairs}.dlx")
    with open(path, "wb") as file:
        file.write(Puzzle(*by_number.langford(pairs)).text())
    return path


def spaces(trial: Trial, mode: str, words: Sequence[str], pairs: int, megabytes: Sequence[int]) -> None:
    """Runs on Langford pairs, which there aren't, in so much address space, as rows of a table: each says so, or that
    memory ran out."""
    with tempfile.TemporaryDirectory(prefix="try-shortage-") as folder:
        file = langford(folder, pairs)
        for most in megabytes:
            limited = most << 20
            start = time.monotonic()
            ran = subprocess.run([SOLVE_CLI, mode, file, *words], capture_output=True, text=True, timeout=2 * trial.limit,
                                 preexec_fn=lambda: resource.setrlimit(resource.RLIMIT_AS, (limited, limited)))
            ended = Ended(ran.returncode, ran.stdout, ran.stderr, time.monotonic() - start)
            if not (ended.status == 1 and ended.text == "none\n" or ended.status == 5 and (ended.text, ended.why) == ("", "out of memory\n")):
                trial.wrongly(ended)
            print(f"| {mode} | {most} | {ended.status} | {ended.seconds:.2f} |", flush=True)


def loopback(trial: Trial) -> None:
    """A run without a loopback device: it is told at once."""
    lonely = ["unshare", "--user", "--map-root-user", "--net"]
    if subprocess.run([*lonely, "true"], capture_output=True).returncode:
        print("without a loopback device: not tried, as the system allows no namespace")
        return
    begun = time.monotonic()
    ran = subprocess.run([*lonely, SOLVE_CLI, "solve", trial.file], capture_output=True, text=True, timeout=trial.limit)
    seconds = time.monotonic() - begun
    is_told = (ran.returncode, ran.stdout, ran.stderr) == (3, "", "cannot bind\n") and seconds < 1
    trial.wrong += not is_told
    print(f"without a loopback device: status {ran.returncode} after {seconds:.2f} s, {ran.stderr.strip()}")


def main() -> int:
    words = parser_of(__doc__)
    words.add_argument("--short", action="store_true", help="fewer runs")
    words.add_argument("--growths", metavar="N", type=number_from_one, default=100)
    words.add_argument("--limit", metavar="SECONDS", type=float, default=60)
    given = words.parse_args()
    want_program(SOLVE_CLI)
    want_command("cc")
    some = FEW if given.short else given.growths
    with tempfile.TemporaryDirectory(prefix="try-shortage-") as folder:
        trial = Trial(folder, given.limit)
        threads(trial, THREADS[::3] if given.short else THREADS)
        threads(trial, (0, 1, 2), "answer")
        print("\n| Refused | Growths | Runs | At a thread's start | Answers | No answer | Out of memory | Longest, s |\n|---|---|---|---|---|---|---|---|")
        growths(trial, "one of a run with one worker", ALONE, ONE, FEW if given.short else 0)
        growths(trial, "one of a run with eight workers", USUAL, ONE, some)
        growths(trial, "all from one on", USUAL, ALL, max(some // 4, 1))
        growths(trial, "one of `answer`", WITH_REASON, ONE, FEW if given.short else 0, "answer")
        growths(trial, "all of `answer` from one on", WITH_REASON, ALL, FEW if given.short else 0, "answer")
        growths(trial, "one of `learn`", USUAL, ONE, FEW if given.short else 0, "learn")
        growths(trial, "all of `learn` from one on", USUAL, ALL, FEW if given.short else 0, "learn")
        print("\n| Certificate of | Growths | Runs | Right | Not written | Out of memory |\n|---|---|---|---|---|---|")
        for mode, *more in CERTIFYING:
            certificates(trial, mode, more, FEW if given.short else 0)
        print("\n| Address space of | MB | Status | Seconds |\n|---|---|---|---|")
        spaces(trial, "answer", ("--threads", "10"), 10, SPACES[::3] if given.short else SPACES)
        spaces(trial, "learn", (), 6, SPACES[::3] if given.short else SPACES)
        loopback(trial)
    print(f"{trial.wrong} runs went wrong")
    return 1 if trial.wrong else 0


if __name__ == "__main__":
    sys.exit(main())
