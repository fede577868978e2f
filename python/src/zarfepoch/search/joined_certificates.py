"""Certificates of a search's parts, joined to one of the whole, as docs/FORMAT.md describes them. For the script that
joins.

By cases, the lines of the whole choose the branch item of each prefix, and the lines of a part's certificate stand
where its prefix is the case. By clauses, each clause of a part holds only below its prefix, so it gets a literal for
each option of it, and what a prefix that is no part rests on is the clauses of its children. Either way items, options,
kept cases, reasons and clauses get their numbers in the whole.
"""
from __future__ import annotations

from typing import Iterable, Iterator, NamedTuple

from .parts import Prefix, Split, Tree, items_left, places_in


class PartText(NamedTuple):
    """A part with the lines of its certificate behind the two at the head."""
    prefix: Prefix
    lines: Iterable[bytes]


class Joiner:
    """What both kinds have in common: the head, the tree down to the parts, and the numbers in the whole of a part's
    items."""

    kind = b""

    def __init__(self, tree: Tree, found: Split, parts: Iterable[PartText]) -> None:
        self.tree, self.parts = tree, iter(parts)
        self.numbers = {name: number for number, name in enumerate(tree.problem.names())}
        self.open = {prefix.options for prefix in found.parts}

    def text(self) -> Iterator[bytes]:
        """All lines of the certificate of the whole."""
        yield b"none"
        yield b"%s %d %d" % (self.kind, len(self.tree.problem.items), len(self.tree.problem.options))
        yield from self.below(self.tree.root())

    def below(self, prefix: Prefix) -> Iterator[bytes]:
        """The lines that show that a prefix has no cover, those of its parts among them."""
        raise NotImplementedError

    def items_of(self, prefix: Prefix) -> list[int]:
        """The items of a part, in its order, by their numbers in the whole."""
        return [self.numbers[name] for some in items_left(self.tree, prefix) for name in some]

    def branch_item(self, prefix: Prefix) -> int:
        return self.numbers[prefix.item or b""]


class CaseJoiner(Joiner):
    """Joins certificates by cases."""

    kind = b"cases"

    def __init__(self, tree: Tree, found: Split, parts: Iterable[PartText]) -> None:
        super().__init__(tree, found, parts)
        self.kept, self.reasons = 0, 0
        self.due: list[bytes] = []

    def below(self, prefix: Prefix) -> Iterator[bytes]:
        """The lines of a case and of those below it."""
        yield from self.due
        self.due = []
        if prefix.options in self.open:
            yield from self.mapped(next(self.parts))
            return
        yield b"%d" % self.branch_item(prefix)
        for child in self.tree.children(prefix):
            yield from self.below(child)

    def mapped(self, part: PartText) -> Iterator[bytes]:
        """The lines of a part. What it keeps is forgotten behind it, in front of the next case."""
        items, depth = self.items_of(part.prefix), len(part.prefix.options)
        first_kept, first_reason, dropped = self.kept, self.reasons, set()
        for line in part.lines:
            sign, number = line[:1], line[1:]
            if sign == b"w" or sign == b"r":
                self.reasons += 1
                yield with_items(line, items)
            elif sign == b"!" or sign == b"^":
                self.kept += sign == b"!"
                yield sign + b"%d" % (int(number) + depth)
            elif sign == b"*":
                yield sign + b"%d" % (int(number) + first_reason)
            elif sign == b"=" or sign == b"-":
                yield sign + b"%d" % (int(number) + first_kept)
                dropped.update([int(number) + first_kept] if sign == b"-" else [])
            else:
                yield b"%d" % items[int(line)]
        self.due = [b"-%d" % number for number in range(first_kept, self.kept) if number not in dropped]


def with_items(line: bytes, items: list[int]) -> bytes:
    """The line of a reason with the numbers that a part's items have in the whole."""
    word, first, *pairs = line.split(b" ")
    pairs[::2] = [b"%d" % items[int(item)] for item in pairs[::2]]
    return b" ".join([word, first, *pairs])


class ClauseJoiner(Joiner):
    """Joins certificates by clauses."""

    kind = b"clauses"

    def __init__(self, tree: Tree, found: Split, parts: Iterable[PartText]) -> None:
        super().__init__(tree, found, parts)
        # the first clauses are there from the start, one for each primary item
        self.next = tree.problem.primary

    def clause(self, literals: Iterable[bytes], hints: Iterable[bytes]) -> bytes:
        """The line of a clause, which gets the next number."""
        self.next += 1
        return b" ".join([*literals, *hints])

    def barred(self, prefix: Prefix, option: int) -> bytes:
        """The hint that an option clashes with one of the prefix."""
        return b"%d:%d" % (next(place for place in prefix.options if self.tree.barred_by(place) >> option & 1), option)

    def without(self, prefix: Prefix) -> list[bytes]:
        """The literals of which one is true wherever the prefix isn't chosen."""
        return [b"-%d" % place for place in prefix.options]

    def naming(self, item: int) -> list[int]:
        """The options that name an item."""
        return places_in(self.tree.naming[self.tree.problem.names()[item]])

    def below(self, prefix: Prefix) -> Iterator[bytes]:
        """The lines up to that of the clause that the prefix isn't chosen whole."""
        if prefix.options in self.open:
            yield from self.mapped(next(self.parts))
            return
        item, barren = self.branch_item(prefix), {}
        for child in self.tree.children(prefix):
            yield from self.below(child)
            barren[child.options[-1]] = self.next - 1
        hints = [b"%d" % barren[option] if option in barren else self.barred(prefix, option) for option in self.naming(item)]
        yield self.clause(self.without(prefix), [*hints, b"%d" % item])
        yield from (b"d %d" % number for number in barren.values() if prefix.options)

    def firsts(self, prefix: Prefix, items: list[int]) -> Iterator[bytes]:
        """The lines of the clauses that a part has from the start: of each primary item that is left, that one of its
        live options is chosen."""
        for item in items:
            naming = self.naming(item)
            live = [option for option in naming if prefix.live >> option & 1]
            hints = [self.barred(prefix, option) for option in naming if option not in live]
            yield self.clause(self.without(prefix) + [b"+%d" % option for option in live], [*hints, b"%d" % item])

    def mapped(self, part: PartText) -> Iterator[bytes]:
        """The lines of a part. All its clauses but the last are forgotten behind it."""
        options, primary = places_in(part.prefix.live), len(items_left(self.tree, part.prefix)[0])
        first = self.next
        yield from self.firsts(part.prefix, self.items_of(part.prefix)[:primary])
        forgotten = set()
        for line in part.lines:
            words = line.split(b" ")
            if words[0] == b"d":
                forgotten.add(first + int(words[1]))
                yield b"d %d" % (first + int(words[1]))
            else:
                literals = [word[:1] + b"%d" % options[int(word[1:])] for word in words if word[:1] in (b"+", b"-")]
                hints = [hinted(word, first, options) for word in words if word and word[:1] not in (b"+", b"-")]
                yield self.clause(self.without(part.prefix) + literals, hints)
        if part.prefix.options:
            yield from (b"d %d" % number for number in range(first, self.next - 1) if number not in forgotten)


def hinted(word: bytes, first: int, options: list[int]) -> bytes:
    """A hint of a part with the numbers that its clauses and options have in the whole."""
    one, colon, other = word.partition(b":")
    return b"%d:%d" % (options[int(one)], options[int(other)]) if colon else b"%d" % (first + int(one))


JOINERS: dict[bytes, type[Joiner]] = {joiner.kind: joiner for joiner in (CaseJoiner, ClauseJoiner)}
