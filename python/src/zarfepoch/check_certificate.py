"""Checks that a certificate shows that a problem has no exact cover.

docs/FORMAT.md describes both files. Nothing else is used, so that whoever doubts an answer can read all that checks it.
It prints `right` with status 0, or `wrong: line N: ` and what was expected with 1; status 2 is for other words, 3 for
an unread file."""
import argparse
import functools
import sys
from typing import Iterable, Iterator, Optional

KEPT, CLAUSE = "the number of a case that is kept", "'d' and a number, or literals and hints"
Clause = list[tuple[int, bool]]         # options, each with whether it is chosen; one of these statements is true
PASSED: Clause = [(-1, True)] * 2       # a clause that is passed over, since two of its literals are never false


class Wrong(Exception):
    """What was expected in place of a line."""


def expect(is_so: object, what: str) -> None:
    if not is_so:
        raise Wrong(what)


def members(number: int) -> Iterator[int]:          # of a set: a number whose bit k, from 0, is item or option k
    return (bit for bit in range(number.bit_length()) if number >> bit & 1)


def number_of(digits: bytes) -> int:                # the value of decimal digits, below 2^32; else -1, which nothing has
    number = int(digits.lstrip(b"0")[:11] or b"0") if digits.isdigit() else -1
    return number if number < 1 << 32 else -1


class Checker:      # once `check` has returned, there is no exact cover; it raises `Wrong` at the first line that is wrong

    def __init__(self, text: bytes, lines: Iterable[bytes]) -> None:
        rows = [words for words in map(bytes.split, text.split(b"\n")) if words and not words[0].startswith(b"|")]
        primary, _, secondary = b" ".join(rows[0]).partition(b"|")
        names = {name: item for item, name in enumerate(primary.split() + secondary.split())}
        self.primary, self.items = len(primary.split()), len(names)
        coloured = [[(names[word.partition(b":")[0]], word.partition(b":")[2]) for word in row] for row in rows[1:]]
        coloured = [option for option in coloured if any(item < self.primary for item, _ in option)]    # (others don't count, and have no number)
        self.options = [[item for item, _ in option] for option in coloured]            # the items of each option
        self.with_colour = {item for option in coloured for item, colour in option if colour}
        self.naming = [0] * self.items                                                  # of each item the options that name it
        tints: dict[tuple[int, bytes], int] = {}                                        # and those that give it a colour
        for bit, (item, colour) in ((bit, tint) for bit, option in enumerate(coloured) for tint in option):
            self.naming[item] |= 1 << bit
            tints[item, colour] = tints.get((item, colour), 0) | (1 << bit if colour else 0)
        self.covers = [sum(1 << item for item in option if item < self.primary) for option in self.options]     # of each one its primary items,
        self.clash = [functools.reduce(int.__or__, (self.naming[tint[0]] & ~tints[tint] for tint in option)) for option in coloured]  # and clashes
        self.lines, self.read = (line.removesuffix(b"\n") or line for line in lines), 0     # those that are left, and the number of `line`
        self.kept: list[Optional[tuple[int, int]]] = []     # items that can't be covered, and options with one of them that weren't live
        self.reasons: list[tuple[int, list[dict[int, int]]]] = []       # modulus, 0 for room; weights or needs, and rooms
        self.clauses = {item: [(option, True) for option in members(self.naming[item])] for item in range(self.primary)}

    def advance(self) -> None:
        self.line, self.read = next(self.lines, b""), self.read + 1

    def naming_some(self, items: int) -> int:       # the options that name an item of a set
        return functools.reduce(int.__or__, (self.naming[item] for item in members(items)), 0)

    def take_note(self) -> None:                    # a line in front of that of a case
        word, *words = self.line.split(b" ")
        first, *numbers = [number_of(digits) for digits in words or [self.line[1:]]]
        if self.line[:1] == b"-":
            expect(not words and 0 <= first < len(self.kept), KEPT)
            self.kept[first] = None
            return self.advance()
        is_kind, pairs = word == b"room" and first >= 0 or word == b"weights" and 2 <= first <= 65536, list(zip(numbers[::2], numbers[1::2]))
        own, rooms = (pairs[:first], pairs[first:]) if word == b"room" else (pairs, [])
        are_lawful = all(0 <= item < most and 0 <= more < 65536 for side, most in ((own, self.primary), (rooms, self.items)) for item, more in side)
        expect(is_kind and len(numbers) % 2 == 0 and are_lawful, "'weights' or 'room' with numbers of items and their amounts")
        self.reasons.append((first * (word == b"weights"), [{item: more for item, more in dict(side).items() if more} for side in (own, rooms)]))
        self.advance()

    def used_by(self, number: int, live: int, free: int) -> int:        # the items of a reason, which holds of these options and items
        expect(0 <= number < len(self.reasons), "the number of a reason")
        modulus, (own, rooms) = self.reasons[number]
        used, whole = sum(1 << item for item in own), sum(own.values()) - sum(rooms.values())
        each = [sum(own.get(item, 0) - rooms.get(item, 0) for item in self.options[option]) for option in members(live & self.naming_some(used))]
        excludes = whole % modulus and not any(more % modulus for more in each) if modulus else whole > 0 and all(more <= 0 for more in each)
        expect(excludes and self.with_colour.isdisjoint(rooms) and not used & ~free, "a reason that holds here")
        return used

    def check(self) -> None:
        self.advance()
        expect(self.line == b"none", "'none'")
        self.advance()
        word, *numbers = self.line.split(b" ")
        expect(word in (b"cases", b"clauses") and [*map(number_of, numbers)] == [self.items, len(self.options)], "'cases' or 'clauses' and sizes")
        self.advance()
        self.check_cases() if word == b"cases" else self.check_clauses()
        expect(not self.line, "the end")

    def check_cases(self) -> None:      # live options, items to be covered, options still to be chosen, items used, by how many options are chosen
        live, free, left, used = ([0] * (self.primary + 1) for _ in range(4))
        live[0], free[0], depth = (1 << len(self.options)) - 1, (1 << self.primary) - 1, 0
        while True:
            while self.line[:1] in (b"-", b"w", b"r"):
                self.take_note()
            number = number_of(self.line[self.line[:1] in (b"=", b"*"):])
            if self.line[:1] == b"=":
                expect(0 <= number < len(self.kept) and self.kept[number], KEPT)
                used[depth], dead = self.kept[number] or (0, 0)
                expect(not (dead & live[depth] or used[depth] & ~free[depth]), "a kept case of items to be covered, by no other options than there")
            elif self.line[:1] == b"*":
                used[depth] = self.used_by(number, live[depth], free[depth])
            else:
                expect(number >= 0, "the number of an item, or = or * and a number")
                expect(free[depth] >> number & 1, "an item that is still to be covered")
                used[depth], left[depth] = 1 << number, self.naming[number] & live[depth]
            self.advance()
            while not left[depth]:                  # (the case is refuted, and maybe those that it was the last of)
                if self.line[:1] == b"!" and number_of(self.line[1:]) == depth:
                    self.kept.append((used[depth], self.naming_some(used[depth]) & ~live[depth]))
                    self.advance()
                if depth == 0:
                    return
                depth, below = depth - 1, used[depth]
                if self.line[:1] == b"^" and number_of(self.line[1:]) == depth:
                    expect(not self.naming_some(below) & live[depth] & ~live[depth + 1], "a line that goes back over a choice that plays no part")
                    used[depth], left[depth] = 0, 0
                    self.advance()
                used[depth] |= below
            option = (left[depth] & -left[depth]).bit_length() - 1
            left[depth] &= left[depth] - 1
            live[depth + 1], free[depth + 1], depth = live[depth] & ~self.clash[option], free[depth] & ~self.covers[option], depth + 1

    def hinted(self, word: bytes) -> Clause:        # a clause by its number, or that not both of two options are chosen, which clash
        numbers = [number_of(digits) for digits in word.split(b":", 1)]
        expect(min(numbers) >= 0 and (len(numbers) == 1 or max(numbers) < len(self.options)), CLAUSE)
        pair = [(option, False) for option in numbers] if len(set(numbers)) == 2 and self.clash[numbers[0]] >> numbers[1] & 1 else PASSED
        return pair if b":" in word else self.clauses.get(numbers[0], PASSED)

    def check_clauses(self) -> None:
        number, clause = self.primary, PASSED
        while clause:
            words = self.line.split(b" ")
            if words[0][:1] == b"d":
                expect(words[0] == b"d" and len(words) == 2 and number_of(words[1]) in self.clauses, "the number of a clause that there is")
                del self.clauses[number_of(words[1])]
            else:
                clause = [(number_of(word[1:]), word[:1] == b"+") for word in words if word[:1] in (b"+", b"-")]
                expect(all(0 <= option < len(self.options) for option, _ in clause), CLAUSE)
                self.follow(clause, [self.hinted(word) for word in words if word[:1] not in (b"+", b"-")])
                self.clauses[number], number = clause, number + 1
            self.advance()

    def follow(self, clause: Clause, hints: list[Clause]) -> None:      # where the clause is false, one of the hints' is, in the end
        assumed, left = {option: not is_chosen for option, is_chosen in clause}, PASSED
        for hint in hints:
            if left:
                left = [(option, is_chosen) for option, is_chosen in hint if assumed.get(option, is_chosen) == is_chosen]
                assumed.update(left if len(left) == 1 else [])
        expect(not left, "a clause that follows along its hints")


def main() -> int:
    whole = sys.argv[0] if " " in sys.argv[0] else None     # (the words of a command that calls this one, and no path)
    words = argparse.ArgumentParser(whole, description=__doc__, formatter_class=argparse.RawDescriptionHelpFormatter)
    for name, what in (("file", "the problem's file"), ("certificate", "the certificate's file, or - for the standard input")):
        words.add_argument(name, metavar=name.upper(), help=what)
    given, said, status = words.parse_args(), "right", 0
    try:
        with open(given.file, "rb") as file, sys.stdin.buffer if given.certificate == "-" else open(given.certificate, "rb") as lines:
            checker = Checker(file.read(), lines)
            checker.check()
    except Wrong as why:
        said, status = f"wrong: line {checker.read}: expected {why}", 1
    except OSError as why:
        said, status = f"{why.filename or 'a file'} can't be read: {why.strerror}", 3
    except KeyError as why:
        name = why.args[0].decode(errors="backslashreplace")
        said, status = f"{given.file} is no problem: no item is named {name}", 3
    except IndexError:
        said, status = f"{given.file} is no problem: no line names items", 3
    print(said, file=sys.stderr if status == 3 else sys.stdout)
    return status


if __name__ == "__main__":
    sys.exit(main())
