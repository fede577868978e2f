#!/usr/bin/env python3
"""Writes certificates of random problems without a cover, and has them checked by the program and by
check_certificate.py.

    python3 trials/try_certificates.py [COUNT]

A plain search in this script writes them: by cases, with kept cases, jumps, dropped cases and reasons where these are
found, and by clauses, one for each case, some of which are forgotten. Two more are written by the program, by `alone`
and by `answer`. Of so many random problems without a cover (default 300) both checkers have to accept all four. In
copies some lines or words are changed: both have to say the same of it, and to name the same line. Of as many problems
with a cover all that is tried has to be refused: certificates of the problem without an option of the cover, with the
counts of the whole one, and copies of them in which lines or words are changed. Whether there is a cover says the
search of `plain_search.py`.

It wants the programs check_certificate and solve_cli: (cd crates/check_certificate && rt run) and (cd crates/solve_cli
&& rt run -- --version) build them. The last line is 'N passed, M failed'. The exit status is 0 where all passed, 1
where something failed, 2 for a mistake on the command line or where there is no program.
"""
from __future__ import annotations

import itertools
import os
import random
import subprocess
import sys
import tempfile
from typing import Optional

from built import SOLVE_CLI, number_from_one, parser_of, program_of, want_program
from expected import Trial
from plain_search import Numbered, clash, live_options, read, search
from zarfepoch.check_certificate import Checker, Wrong

CHECK_CERTIFICATE = program_of("check_certificate")
trial = Trial()
expect = trial.expect


# ---- a writer of certificates

class Writer:
    """Refutes a problem without a cover by a plain search over sets, and writes what it does, line by line."""

    def __init__(self, draw: random.Random, items: int, primary: int, options: list[Numbered]) -> None:
        self.draw, self.items, self.primary, self.options = draw, items, primary, options
        self.lines: list[str] = []
        self.reasons = 0
        # of each kept case the items that were used and the live options that name one of them
        self.kept: list[Optional[tuple[set[int], set[int]]]] = []
        self.coloured = {item for option in options for item, colour in option.items() if colour}

    def named(self, items: set[int], live: set[int]) -> set[int]:
        return {option for option in live if items.intersection(self.options[option])}

    def reason(self, live: set[int], free: set[int]) -> Optional[tuple[str, set[int]]]:
        """The line of a reason that holds of a case, and its items: an odd number of them, of which each live option
        has an even number, or more than there are secondary items of which each live option with one of them has
        one."""
        rooms = [item for item in range(self.primary, self.items) if item not in self.coloured]
        for size in range(1, min(len(free), 5) + 1):
            for some in itertools.combinations(sorted(free), size):
                named = [self.options[option] for option in self.named(set(some), live)]
                if size % 2 and all(len(set(some).intersection(option)) % 2 == 0 for option in named):
                    return "weights 2 " + " ".join(f"{item} 1" for item in some), set(some)
                for own in itertools.combinations(rooms, size - 1):
                    if all(len(set(some).intersection(option)) <= len(set(own).intersection(option)) for option in named):
                        return f"room {size} " + " ".join(f"{item} 1" for item in some + own), set(some)
        return None

    def leaf(self, live: set[int], free: set[int]) -> Optional[set[int]]:
        """The items by which a case is refuted in one line, which is written."""
        for number, case in enumerate(self.kept):
            if case and case[0] <= free and self.named(case[0], live) <= case[1]:
                self.lines.append(f"={number}")
                return case[0]
        found = self.reason(live, free) if self.draw.random() < 0.1 else None
        if found:
            self.lines += [found[0], f"*{self.reasons}"]
            self.reasons += 1
            return found[1]
        return None

    def note(self) -> None:
        """Drops a kept case now and then."""
        if self.kept and self.draw.random() < 0.05:
            number = self.draw.randrange(len(self.kept))
            self.kept[number] = None
            self.lines.append(f"-{number}")

    def refute(self, live: set[int], free: set[int], depth: int = 0) -> set[int]:
        """The items that were used to refute a case."""
        self.note()
        used = self.leaf(live, free)
        if used is None:
            item = min(free, key=lambda item: (len(self.named({item}, live)), item)) if self.draw.random() < 0.7 else self.draw.choice(sorted(free))
            self.lines.append(str(item))
            used = {item}
            for option in sorted(self.named({item}, live)):
                left = {other for other in live if not clash(self.primary, self.options[option], self.options[other])}
                below = self.refute(left, free.difference(self.options[option]), depth + 1)
                if self.draw.random() < 0.8 and self.named(below, live) <= left:
                    self.lines.append(f"^{depth}")
                    used = below
                    break
                used |= below
        if self.draw.random() < 0.4:
            self.kept.append((set(used), self.named(used, live)))
            self.lines.append(f"!{depth}")
        return used


class ClauseWriter:
    """Refutes a problem without a cover by a plain search, and writes of each case that one of its chosen options is
    left."""

    def __init__(self, draw: random.Random, primary: int, options: list[Numbered]) -> None:
        self.draw, self.primary, self.options = draw, primary, options
        self.lines: list[str] = []
        self.next = primary

    def refute(self, chosen: list[int]) -> int:
        """The number of the clause that not all of these are chosen, whose line and those before it are written."""
        live = live_options(self.primary, self.options, chosen)
        item = self.draw.choice([item for item in range(self.primary) if not any(item in self.options[option] for option in chosen)])
        naming = [option for option, items in enumerate(self.options) if item in items]
        below = {option: self.refute([*chosen, option]) for option in naming if option in live}
        hints = [str(below[option]) if option in below else self.clash_with(chosen, option) for option in naming]
        self.draw.shuffle(hints)
        self.lines.append(" ".join([f"-{option}" for option in self.draw.sample(chosen, len(chosen))] + hints + [str(item)]))
        self.lines += [f"d {number}" for number in below.values() if chosen and self.draw.random() < 0.5]
        self.next += 1
        return self.next - 1

    def clash_with(self, chosen: list[int], option: int) -> str:
        """The hint that a chosen option clashes with this one."""
        pair = [next(other for other in chosen if clash(self.primary, self.options[other], self.options[option])), option]
        self.draw.shuffle(pair)
        return f"{pair[0]}:{pair[1]}"


def certificates(draw: random.Random, text: str) -> list[list[str]]:
    """The lines of certificates of a problem without a cover, by cases and by clauses, with those at the head."""
    names, primary, options, _ = read(text.encode())
    cases, clauses = Writer(draw, len(names), primary, options), ClauseWriter(draw, primary, options)
    cases.refute(set(range(len(options))), set(range(primary)))
    clauses.refute([])
    return [["none", f"cases {len(names)} {len(options)}", *cases.lines], ["none", f"clauses {len(names)} {len(options)}", *clauses.lines]]


def searched(folder: str, text: str, *words: str) -> tuple[list[str], tuple[bytes, bytes, int]]:
    """The lines of the certificate that the program's own search writes, or with a word another command's, if any, and
    what the run comes to."""
    file, path = (os.path.join(folder, name) for name in ("searched", "written"))
    with open(file, "w", encoding="ascii") as opened:
        opened.write(text)
    ran = subprocess.run([SOLVE_CLI, *(words or ("alone", "--unlimited")), file, "--certificate", path], capture_output=True)
    lines = []
    if os.path.exists(path):
        with open(path, encoding="ascii") as opened:
            lines = opened.read().splitlines()
        os.remove(path)
    return lines, (ran.stdout, ran.stderr.replace(path.encode(), b"FILE"), ran.returncode)


def with_another_number(draw: random.Random, line: str) -> str:
    """A line in which one word behind the first is another number."""
    words = line.split(" ")
    if len(words) > 1:
        words[draw.randrange(1, len(words))] = draw.choice(["0", "1", "2", "3", "03", "5", "65535", "65536", "4294967296", "x"])
    return " ".join(words)


def with_other_words(draw: random.Random, line: str) -> str:
    """A line of a clause with a word left out, repeated, replaced by another one, or put elsewhere."""
    words, numbers = line.split(" "), [draw.randrange(8), draw.randrange(8)]
    place, other = draw.randrange(len(words)), draw.choice(["+{}", "-{}", "{}", "{}:{}", "{}:", ":{}", "+", "d", "x", "", "0{}", "4294967296"])
    taken = words.pop(place) if draw.random() < 0.7 else words[place]
    words.insert(draw.randint(0, len(words)), taken if draw.random() < 0.3 else other.format(*numbers))
    return " ".join(words if draw.random() < 0.9 else words[1:])


def changed(draw: random.Random, lines: list[str]) -> list[str]:
    """The lines with one to three of them left out, repeated, replaced by another one, or with another number or
    word."""
    lines = list(lines)
    clauses = lines[1].startswith("clauses")
    for _ in range(draw.randint(1, 3)):
        if len(lines) < 3:
            break
        place = draw.randrange(2, len(lines))
        reasons = [number for number, line in enumerate(lines) if line[:1] in "wr"]
        way = draw.randrange(7)
        if way == 0:
            del lines[place]
        elif clauses and way > 2:
            lines[place] = with_other_words(draw, lines[place])
        elif way == 1:
            lines.insert(place, lines[place])
        elif way == 2:
            lines[place] = draw.choice(lines[2:])
        elif way == 3:
            lines.insert(place, draw.choice("=^!-*") + str(draw.randrange(4)))
        elif way == 4:
            lines[place] = lines[place][:1] + str(draw.randrange(5)) if lines[place][:1] in "=^!-*" else str(draw.randrange(6))
        elif way == 5 and reasons:
            place = draw.choice(reasons)
            lines[place] = with_another_number(draw, lines[place])
        else:
            del lines[place:]
    return lines


# ---- the two checkers

def by_script(text: str, lines: list[str]) -> str:
    """What check_certificate.py says, up to the number of the line."""
    checker = Checker(text.encode(), [line.encode() + b"\n" for line in lines])
    try:
        checker.check()
    except Wrong:
        return f"wrong: line {checker.read}"
    return "right"


def by_program(folder: str, text: str, lines: list[str]) -> str:
    """What the program says, up to the number of the line."""
    paths = [os.path.join(folder, name) for name in ("problem", "certificate")]
    for path, content in zip(paths, (text, "".join(line + "\n" for line in lines))):
        with open(path, "w", encoding="ascii") as opened:
            opened.write(content)
    ran = subprocess.run([CHECK_CERTIFICATE, *paths], capture_output=True, text=True)
    said = ":".join(ran.stdout.strip().split(":")[:2])
    return said if ran.returncode == (0 if said == "right" else 1) else f"status {ran.returncode}: {ran.stderr}"


def random_text(draw: random.Random) -> str:
    """A problem of a few items, whose options are short; secondary items may have colours."""
    primary = [f"p{k}" for k in range(draw.randint(1, 7))]
    secondary = [f"s{k}" for k in range(draw.randint(0, 4))]
    colours = draw.choice([[""], [""], ["", ":a", ":a", ":b"]])
    size = draw.randint(1, 3)
    options = []
    for _ in range(draw.randint(1, 14)):
        words = draw.sample(primary, min(draw.choice([size, size, size, 1]), len(primary)))
        words += [item + draw.choice(colours) for item in draw.sample(secondary, draw.randint(0, min(2, len(secondary))))]
        options.append(words)
    return "\n".join(" ".join(words) for words in [primary + (["|"] + secondary if secondary else []), *options]) + "\n"


def try_without_cover(folder: str, draw: random.Random, text: str) -> None:
    written = []
    for words in (), ("answer",):
        lines, came = searched(folder, text, *words)
        is_right = came[0] == b"none\n" and came[2] == 1 and came[1].endswith(b"certificate right: FILE\n")
        expect(f"a search writes a certificate, not {came}, of\n{text}", is_right)
        written.append(lines)
    for lines in [*written, *certificates(draw, text)]:
        expect(f"the certificate of\n{text}" + "\n".join(lines), by_script(text, lines) == by_program(folder, text, lines) == "right")
        other = changed(draw, lines)
        said = by_script(text, other), by_program(folder, text, other)
        expect(f"both say the same, not {said}, of\n{text}" + "\n".join(other), said[0] == said[1])


def try_with_cover(folder: str, draw: random.Random, text: str) -> None:
    """Certificates of the problem without the options of its covers, one after the other, with the counts of the whole
    one."""
    lines, came = searched(folder, text, *draw.choice(((), ("answer",))))
    expect(f"a cover has no certificate: {came}, {lines}, of\n{text}", came[2] == 0 and not lines and b"certificate" not in came[1])
    head, *options = text.splitlines()
    rest = text
    while True:
        _, primary, numbered, _ = read(rest.encode())
        cover = search(primary, numbered, [])[0]
        if cover is None:
            break
        del options[draw.choice(cover)]
        rest = "\n".join([head, *options]) + "\n"
    names, _, kept, _ = read(text.encode())
    for lines in [searched(folder, rest)[0], *certificates(draw, rest)]:
        lines[1] = f"{lines[1].split()[0]} {len(names)} {len(kept)}"
        for other in (lines, changed(draw, lines), changed(draw, lines)):
            said = by_script(text, other), by_program(folder, text, other)
            expect(f"it is refused at one line, not {said}:\n{text}" + "\n".join(other), said[0] == said[1] and said[0].startswith("wrong"))


def main() -> int:
    parser = parser_of(__doc__)
    parser.add_argument("count", metavar="COUNT", type=number_from_one, nargs="?", default=300, help="how many problems of each kind (default 300)")
    count = parser.parse_args().count
    want_program(CHECK_CERTIFICATE, "check_certificate")
    want_program(SOLVE_CLI)
    draw, left = random.Random(96), {True: count, False: count}
    with tempfile.TemporaryDirectory() as folder:
        while any(left.values()):
            text = random_text(draw)
            _, primary, options, _ = read(text.encode())
            has_cover = search(primary, options, [])[0] is not None
            if left[has_cover]:
                left[has_cover] -= 1
                (try_with_cover if has_cover else try_without_cover)(folder, draw, text)
    return trial.end()


if __name__ == "__main__":
    sys.exit(main())
