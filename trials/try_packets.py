#!/usr/bin/env python3
"""Offers packets to all sites at each moment of the worked runs, by a plain model of the protocol, and compares with a
test's table.

    python3 trials/try_packets.py [--print]

The model keeps to docs/PROTOCOL.md and shares no code with the crates. It plays the five worked runs of two nodes,
whose last packets and published answer it tests. At each moment each packet of OFFERED is delivered to the registry and
to both nodes, each time from the same moment on. What comes of it is one character: how many packets are put out where
it moved something, `-` where it is ignored, and for a refusal `s` OtherSite, `o` Over, `n` NamesSpent, `c` BadCover,
`p` BadPrefix. A row has those of all packets, and the moment from which on it is so. The table of core_tests, which
does the same by the code, has to have these rows; --print prints them.

It wants no program. The exit status is 0, 1 where a row isn't in the table or a run ends otherwise, 2 for a mistake on
the command line.
"""
from __future__ import annotations

import copy
import os
import re
import sys
from collections.abc import Iterable, Sequence
from typing import Any, Optional, Union

from built import parser_of, TOP
from plain_search import live_options, read, search

LAST = 2**32 - 1
OPEN = ("Ready", "Here", "Split", "Out", "Finished")
LETTERS = "a b c d e f g\nc e\na d g\nb c f\na d f\nb g\nd e g\n"
REGISTRY, ONE, TWO, TWO_AGAIN = (0, 1), (1, 1), (2, 1), (2, 2)
ROOT, ROOT_REDONE, STOLEN = ((REGISTRY, 0), 1), ((REGISTRY, 0), 2), ((ONE, 0), 1)


# a node and an incarnation; a guest by its owner, serial and attempt; a unit that is a guest, or an own child by its
# serial; and a packet
Site = tuple[int, int]
Guest = tuple[tuple[Site, int], int]
Name = Union[int, Guest]
Packet = tuple[Site, Site, str, tuple[Any, ...]]


class Refused(Exception):
    """Nothing changes; the text is the fault's character."""


class File:
    """A problem."""

    def __init__(self, text: str) -> None:
        _, self.primary, self.options, _ = read(text.encode())

    def is_prefix(self, prefix: list[int]) -> bool:
        return all(o in range(len(self.options)) and o in live_options(self.primary, self.options, prefix[:place])
                   for place, o in enumerate(prefix))

    def is_exact(self, cover: list[int]) -> bool:
        return self.is_prefix(cover) and set(range(self.primary)) <= {item for o in cover for item in self.options[o]}

    def search(self, prefix: list[int]) -> tuple[Optional[list[int]], int]:
        return search(self.primary, self.options, prefix)

    def children(self, prefix: list[int]) -> list[list[int]]:
        """The prefixes below, by an item with the fewest live options."""
        covered = {item for o in prefix for item in self.options[o]}
        live = live_options(self.primary, self.options, prefix)
        choices = [[o for o in live if item in self.options[o]] for item in range(self.primary) if item not in covered]
        return [prefix + [o] for o in min(choices, key=len)]


class Unit:
    """An own child or a guest."""

    def __init__(self, prefix: list[int], attempt: int = 1, parent: Optional[Name] = None) -> None:
        self.status, self.prefix, self.attempt, self.parent = "Ready", prefix, attempt, parent
        self.thief: Optional[Site] = None
        self.result: Optional[list[int]] = None


class Place:
    """A site: a node, or the registry with the root as its child."""

    def __init__(self, file: File, site: Site, nodes: int = 2) -> None:
        self.file, self.site, self.nodes, self.over = file, site, nodes, False
        self.known = {node: 1 for node in range(nodes + 1)}
        self.own = [Unit([])] if site[0] == 0 else []
        self.guests: dict[Guest, Unit] = {}
        self.out: list[Packet] = []

    def put(self, to: Site, kind: str, *said: Any) -> None:
        self.out.append((self.site, to, kind, said))

    def unit(self, name: Name) -> Unit:
        return self.own[name] if isinstance(name, int) else self.guests[name]

    def to(self, node: int) -> Site:
        return node, self.known[node]

    def below(self, name: Name) -> list[int]:
        """The serials of all children below, in ascending order."""
        found: set[Name] = set()
        for serial, child in enumerate(self.own):
            if child.parent == name or child.parent in found:
                found.add(serial)
        return sorted(name for name in found if isinstance(name, int))

    def abort_below(self, names: Iterable[Name]) -> None:
        """Aborts all open units below these; an Abort for each that was out."""
        for serial in sorted({serial for name in names for serial in self.below(name)}):
            child = self.own[serial]
            if child.status in OPEN:
                if child.status == "Out" and child.thief:
                    self.put(child.thief, "Abort", serial, child.attempt)
                child.status = "Aborted"

    def end(self, name: Name, result: Optional[list[int]]) -> None:
        """The unit has its result, and a guest returns it."""
        unit = self.unit(name)
        unit.status, unit.result = ("Done" if isinstance(name, int) else "Finished"), result
        if not isinstance(name, int):
            self.put(name[0][0], "Return", name[0][1], name[1], result)

    # ---- what a node does

    def take(self, name: Name) -> None:
        self.unit(name).status = "Here"

    def post(self, name: Name, fuel: int) -> None:
        unit = self.unit(name)
        first, visits = self.file.search(unit.prefix)
        if visits <= fuel:
            self.end(name, first)
            return
        unit.status = "Split"
        self.own += [Unit(prefix, 1, name) for prefix in self.file.children(unit.prefix)]

    def finish(self, name: Name) -> None:
        results = [child.result for child in self.own if child.parent == name and child.status == "Done"]
        covers = [cover for cover in results if cover is not None]
        self.abort_below([name])
        self.end(name, covers[0] if covers else None)

    def redo(self, serial: int) -> None:
        child = self.own[serial]
        if child.attempt == LAST:
            raise Refused("n")
        child.status, child.attempt = "Ready", child.attempt + 1

    # ---- what a packet does

    def deliver(self, packet: Packet) -> None:
        sender, receiver, kind, said = packet
        if receiver != self.site or sender[0] > self.nodes:
            raise Refused("s")
        if self.over and self.site[0]:
            raise Refused("o")
        getattr(self, "hear_" + kind)(sender, *said)

    def hear_Steal(self, sender: Site) -> None:
        if self.site[0] == 0 and self.own[0].status == "Done":
            self.put(sender, "Over")
            return
        ready = [serial for serial, child in enumerate(self.own) if child.status == "Ready"]
        if sender[1] < self.known[sender[0]] or not ready:
            self.put(sender, "NoWork")
            return
        first = self.own[ready[0]]
        chosen = [serial for serial in ready if self.own[serial].parent == first.parent] if first.parent is not None else ready[:1]
        chosen = chosen[:min((len(chosen) + 1) // 2, 8)]
        for serial in chosen:
            self.own[serial].status, self.own[serial].thief = "Out", sender
        self.put(sender, "Give", [(serial, self.own[serial].attempt, self.own[serial].prefix) for serial in chosen])

    def hear_Give(self, sender: Site, gifts: list[tuple[int, int, list[int]]]) -> None:
        fresh = [gift for gift in gifts if ((sender, gift[0]), gift[1]) not in self.guests]
        if sender[1] < self.known[sender[0]] or not fresh:
            return
        if not all(self.file.is_prefix(prefix) for _, _, prefix in fresh):
            raise Refused("p")
        self.guests.update({((sender, serial), attempt): Unit(prefix, attempt) for serial, attempt, prefix in fresh})

    def hear_Return(self, sender: Site, serial: int, attempt: int, result: Optional[list[int]]) -> None:
        if serial >= len(self.own) or attempt > self.own[serial].attempt:
            self.put(sender, "Refuse", serial, attempt, 3)
            return
        child = self.own[serial]
        enters = child.status == "Out" and child.thief == sender and child.attempt == attempt
        if child.status == "Aborted":
            self.put(sender, "Refuse", serial, attempt, 1)
            return
        if child.status != "Done" and not enters:
            self.put(sender, "Refuse", serial, attempt, 2)
            return
        if enters and self.site[0] == 0 and result is not None and not self.file.is_exact(result):
            raise Refused("c")
        if enters:
            child.status, child.result = "Done", result
        self.put(sender, "Accept", serial, attempt, child.result)
        if enters and self.site[0] == 0:
            for node in range(1, self.nodes + 1):
                self.put(self.to(node), "Over")

    def hear_Accept(self, sender: Site, serial: int, attempt: int, result: Optional[list[int]]) -> None:
        guest = self.guests.get(((sender, serial), attempt))
        if guest and guest.status == "Finished":
            guest.status, guest.result = "Settled", result

    def drop(self, names: Iterable[Guest]) -> None:
        names = [name for name in names if self.guests[name].status in OPEN]
        for name in names:
            self.guests[name].status = "Dropped"
        self.abort_below(names)

    def hear_Refuse(self, sender: Site, serial: int, attempt: int, _cause: Optional[int] = None) -> None:
        self.drop([name for name in self.guests if name == ((sender, serial), attempt)])

    hear_Abort = hear_Refuse

    def learn(self, node: int, run: int) -> None:
        if node <= self.nodes and node != self.site[0]:
            self.known[node] = max(self.known[node], run)

    def redo_lost(self) -> None:
        for serial, child in enumerate(self.own):
            if child.status == "Out" and child.thief and child.thief[1] < self.known[child.thief[0]]:
                self.redo(serial)

    def hear_Members(self, _sender: Site, runs: list[int]) -> None:
        for node, run in enumerate(runs, 1):
            self.learn(node, run)
        self.redo_lost()
        self.drop([name for name in self.guests if name[0][0][1] < self.known[name[0][0][0]]])

    def hear_Hello(self, sender: Site) -> None:
        self.learn(*sender)
        self.redo_lost()
        for node in range(1, self.nodes + 1):
            self.put(self.to(node), "Members", [self.known[it] for it in range(1, self.nodes + 1)])

    def hear_Over(self, _sender: Site) -> None:
        self.over = True

    def hear_NoWork(self, _sender: Site) -> None:
        pass

    def state(self) -> tuple[Any, ...]:
        return self.over, self.known, [vars(child) for child in self.own], {name: vars(guest) for name, guest in self.guests.items()}


class World:
    """The registry and two nodes, and all packets ever sent."""

    def __init__(self, text: str) -> None:
        self.file = File(text)
        self.places = [Place(self.file, (node, 1)) for node in range(3)]
        self.sent: list[Packet] = []

    def happen(self, what: str, *words: Any) -> None:
        if what == "Restart":
            self.places[words[0]] = Place(self.file, (words[0], words[1]))
            return
        packet = self.sent[words[0]] if what == "Deliver" else None
        place = self.places[packet[1][0] if packet else words[0]]
        place.out = []
        try:
            if packet:
                place.deliver(packet)
            elif what == "Ask":
                place.put(place.to(words[1]), "Steal")
            elif what == "Greet":
                place.put(REGISTRY, "Hello")
            else:
                getattr(place, what.lower())(*words[1:])
            self.sent += place.out
        except Refused:
            pass


def offer(world: World, node: int, packet: Packet) -> str:
    """What comes of a packet at a site, as a character."""
    place = copy.deepcopy(world.places[node])
    place.out, before = [], copy.deepcopy(place.state())
    try:
        place.deliver(packet)
    except Refused as fault:
        return str(fault)
    return str(len(place.out)) if place.out or place.state() != before else "-"


STOLEN_CHILD: list[tuple[Any, ...]] = [
    ("Ask", 1, 0), ("Deliver", 0), ("Deliver", 1), ("Take", 1, ROOT), ("Post", 1, ROOT, 1), ("Ask", 2, 1), ("Deliver", 2),
    ("Deliver", 3), ("Take", 2, STOLEN), ("Post", 2, STOLEN, 2)]
# the problem, the events, how many packets are sent in all, and the root's result
RUNS: dict[str, tuple[str, Sequence[tuple[Any, ...]], int, tuple[str, Optional[list[int]]]]] = {
    "NO_COVER": ("a\n", [("Ask", 1, 0), ("Deliver", 0), ("Deliver", 1), ("Take", 1, ROOT), ("Post", 1, ROOT, 1), ("Deliver", 2),
                         ("Deliver", 2), ("Deliver", 3)], 7, ("Done", None)),
    "OVERTAKEN": ("a\na\na\n", [
        ("Ask", 1, 0), ("Deliver", 0), ("Redo", 0, 0), ("Ask", 2, 0), ("Deliver", 2), ("Deliver", 1), ("Deliver", 3), ("Take", 1, ROOT),
        ("Post", 1, ROOT, 2), ("Take", 2, ROOT_REDONE), ("Post", 2, ROOT_REDONE, 1), ("Take", 2, 1), ("Post", 2, 1, 1),
        ("Finish", 2, ROOT_REDONE), ("Deliver", 5), ("Deliver", 4), ("Deliver", 9), ("Deliver", 6)], 10, ("Done", [1])),
    "LATE_RESULT": (LETTERS, STOLEN_CHILD + [("Take", 1, 1), ("Post", 1, 1, 3), ("Finish", 1, ROOT), ("Deliver", 4), ("Deliver", 7),
                                             ("Deliver", 6)], 11, ("Done", [3, 4, 0])),
    "THIEF_ANEW": (LETTERS, STOLEN_CHILD + [("Restart", 2, 2), ("Greet", 2), ("Deliver", 5), ("Deliver", 6), ("Deliver", 4), ("Deliver", 3),
                                            ("Deliver", 8)], 9, ("Out", None)),
    "TWO_TOGETHER": ("a\na\na\na\na\n", [
        ("Ask", 1, 0), ("Deliver", 0), ("Deliver", 1), ("Take", 1, ROOT), ("Post", 1, ROOT, 1), ("Ask", 2, 1), ("Deliver", 2),
        ("Deliver", 3), ("Deliver", 3), ("Take", 2, STOLEN), ("Post", 2, STOLEN, 1), ("Deliver", 4), ("Finish", 1, ROOT), ("Deliver", 6),
        ("Deliver", 7)], 11, ("Done", [0])),
}
# first those of wire_tests, in their order
OFFERED: list[Packet] = [
    (REGISTRY, TWO, "Give", ([(0, 1, [])],)), (TWO, REGISTRY, "Return", (0, 1, None)), (TWO, REGISTRY, "Return", (0, 1, [3, 4, 0])),
    (TWO, REGISTRY, "Steal", ()), ((16, 0x01020304), REGISTRY, "Hello", ()), (REGISTRY, (2, 3), "Members", ([1, 256],)),
    (ONE, TWO, "NoWork", ()), (TWO, (1, 5), "Accept", (7, 2, [19999])), (REGISTRY, ONE, "Refuse", (0, 1, 2)),
    (ONE, TWO, "Abort", (256, LAST)), (REGISTRY, (1, 9), "Over", ()), (ONE, TWO, "Give", ([(0, 1, [0]), (1, 1, [1])],)),
    (TWO_AGAIN, REGISTRY, "Hello", ()), (REGISTRY, ONE, "Members", ([1, 2],)), (REGISTRY, TWO, "Members", ([2, 1],)),
    (REGISTRY, ONE, "Accept", (0, 1, None)), (REGISTRY, TWO, "Accept", (0, 2, [1])), (ONE, TWO, "Abort", (0, 1)),
    (REGISTRY, ONE, "Over", ()), (TWO, ONE, "Steal", ()), (TWO, ONE, "Return", (0, 1, None)), (ONE, TWO, "Give", ([(0, 1, [0])],)),
    (ONE, REGISTRY, "Return", (0, 1, [0])), (REGISTRY, ONE, "Give", ([(0, 1, [])],)),
]


def rows_of(text: str, events: Sequence[tuple[Any, ...]]) -> tuple[list[list[tuple[int, str]]], World]:
    """For each site the rows that differ from those before, each with its first moment, and the world at the end."""
    world = World(text)
    rows: list[list[tuple[int, str]]] = [[], [], []]
    for moment in range(len(events) + 1):
        for node in range(3):
            row = "".join(offer(world, node, packet) for packet in OFFERED)
            if not rows[node] or rows[node][-1][1] != row:
                rows[node].append((moment, row))
        if moment < len(events):
            world.happen(*events[moment])
    return rows, world


def main() -> int:
    parser = parser_of(__doc__)
    parser.add_argument("--print", action="store_true", help="print the rows")
    given = parser.parse_args()
    with open(os.path.join(TOP, "crates/core_tests/src/tests/offered.rt"), encoding="utf-8") as opened:
        source = re.sub(r"\s+", "", opened.read()).replace(",)", ")").replace(",]", "]")
    count = wrong = 0
    for name, (text, events, sent, (status, result)) in RUNS.items():
        rows, world = rows_of(text, events)
        root = world.places[0].own[0]
        if (len(world.sent), root.status, root.result) != (sent, status, result):
            wrong += 1
            print(f"{name} ends otherwise: {len(world.sent)} packets, {root.status} {root.result}")
        for node, of_node in enumerate(rows):
            text = "&[" + ",".join(f'({moment},"{row}")' for moment, row in of_node) + "]"
            if given.print:
                print(name, node, text)
            count += len(of_node)
            if text not in source:
                wrong += 1
                print(f"{name}, site {node}: other rows than {text}")
    print(f"{count} rows of {len(OFFERED)} packets, {wrong} wrong")
    return 1 if wrong else 0


if __name__ == "__main__":
    sys.exit(main())
