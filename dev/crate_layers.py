"""The crates of crates.txt in their layers, and which ones use which.

A line of crates.txt is `CRATE: USED ..`. A comment `# N NAME: WORDS` begins layer N, and `# NAME: WORDS`, where NAME is
a single word, a group that is beside the layers. Other comments are passed over.
"""
from __future__ import annotations

import os
import re
from collections.abc import Iterator
from dataclasses import dataclass, field

from built import TOP, stop

FILE = os.path.join(TOP, "crates.txt")
HEAD = r"# (?:(\d+) )?(\w+(?(1)[\w ]*)): (.+)"


@dataclass
class Group:
    """A layer, or a group beside the layers, which has the number 0."""
    number: int
    name: str
    words: str
    crates: list[str] = field(default_factory=list)

    def title(self) -> str:
        """Its name, behind its number if it has one."""
        return f"{self.number} {self.name}" if self.number else self.name


def groups_of(text: str) -> tuple[list[Group], dict[str, list[str]]]:
    """The groups of a text like that of crates.txt, and what each crate uses, libraries of the toolchain too."""
    groups: list[Group] = []
    uses: dict[str, list[str]] = {}
    for line in text.splitlines():
        head = re.fullmatch(HEAD, line)
        crate, _, used = line.partition("#")[0].partition(":")
        if head:
            groups.append(Group(int(head[1] or 0), head[2], head[3]))
        elif crate.strip() and not groups:
            stop(f"crates.txt: {crate.strip()} is before the first layer")
        elif crate.strip():
            groups[-1].crates.append(crate.strip())
            uses[crate.strip()] = used.split()
    return groups, uses


class Crates:
    """All crates of the repository, by their layers."""

    def __init__(self, text: str) -> None:
        groups, uses = groups_of(text)
        self.layers = [group for group in groups if group.number]
        self.beside = [group for group in groups if not group.number]
        self.uses = {crate: [it for it in used if it in uses] for crate, used in uses.items()}
        self.below: dict[str, set[str]] = {}
        for crate in self.uses:
            self.find_below(crate)

    def find_below(self, crate: str) -> set[str]:
        """All crates that one is built on."""
        if crate not in self.below:
            self.below[crate] = set()
            self.below[crate] = set(self.uses[crate]).union(*map(self.find_below, self.uses[crate]))
        return self.below[crate]

    def direct(self, crate: str) -> list[str]:
        """What a crate uses, without what another crate that it uses is built on."""
        used = self.uses[crate]
        return [it for it in used if not any(it in self.below[other] for other in used if other != it)]

    def layer_of(self, crate: str) -> int:
        """The number of a crate's layer; beside the layers, of the highest one that it is built on, or else of the
        first."""
        own = [group.number for group in self.layers if crate in group.crates]
        reached = [group.number for group in self.layers if self.below[crate] & set(group.crates)]
        return max(own or reached or [1])

    def depth(self, crate: str, among: list[str]) -> int:
        """How many of these crates there are on the longest way from a crate down to one that uses none of them."""
        return max((1 + self.depth(it, among) for it in self.direct(crate) if it in among), default=0)

    def at(self, group: Group, number: int) -> list[str]:
        """The crates of a group beside the layers that belong to the layer with this number."""
        return [crate for crate in group.crates if self.layer_of(crate) == number]

    def mistakes(self) -> Iterator[str]:
        """What is wrong with crates.txt, so that no picture can be drawn: a layer without crates, or a line above one
        that it uses."""
        seen: set[str] = set()
        if not self.layers or not all(group.crates for group in self.layers):
            yield "crates.txt: no layer, or one without crates"
        for crate, used in self.uses.items():
            late = sorted(set(used) - seen)
            seen.add(crate)
            yield from (f"crates.txt: {crate} is above {it}, which it uses" for it in late)


def read_crates() -> Crates:
    """The crates of the repository."""
    with open(FILE, encoding="utf-8") as file:
        return Crates(file.read())


def layer_text(crates: Crates, layer: Group) -> list[str]:
    """The lines of one layer: each crate with what it uses, then the groups beside it."""
    wide = max(map(len, crates.uses))
    rows = [f"    {crate.ljust(wide)}  {' '.join(crates.direct(crate))}".rstrip() for crate in layer.crates]
    found = [(group.name.lower(), crates.at(group, layer.number)) for group in crates.beside]
    beside = [f"    {name}: {' '.join(those)}" for name, those in found if those]
    return [f"{layer.title()}: {layer.words}", *rows, *beside]


def text_of(crates: Crates) -> str:
    """All layers as text, lowest first."""
    blocks = ["\n".join(layer_text(crates, layer)) for layer in crates.layers]
    return "\n\n".join(["Behind each crate is what it uses, without what these are built on themselves.", *blocks]) + "\n"
