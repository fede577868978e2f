#!/usr/bin/env python3
"""Audits the books of real runs, as they are and with one entry changed at random, and compares the audit with one of
its own.

    python3 trials/try_audit.py [--short] [--changes N] [--runs N] [--seed N] [--program PATH] [FILE ..]

Of each file, so many runs are made by `workbench audits`, which prints the books of all sites, and so many times the
book of one site in which one entry was changed: an event left out, repeated, or put behind the next one, a packet with
another bit, or the packet of another entry. This script reads the books as text and merges them in the plainest way: it
goes round all books, takes each entry that delivers nothing or a packet that was put out, and ends where a round takes
none. A later incarnation of a node waits for the earlier one.

The table has a row for each kind of change, of a delivery and of an event of the site's own: how many were tried, how
many left the book as it was, how many were found clean and unclean, and in how many both audits differ. A clean one is
lawful: a network may lose, repeat and reorder packets, and a site may choose what to do next. The exit status is 0
where both audits always agree, changes were tried and the unchanged books are clean, else 1, and 2 for a mistake on the
command line or where there is no program.
"""
from __future__ import annotations

import argparse
import collections
import os
import re
import subprocess
import sys
from collections.abc import Iterable, Iterator
from typing import NamedTuple, Optional

from built import TOP, WORKBENCH, number_from_one, parser_of, want_program

FILES = ["letters", "queens-8", "langford-4", "langford-5", "tetrominoes-4x5"]
KINDS = ["Dropped", "Repeated", "Swapped", "Altered", "Exchanged"]
REGISTRY = (0, 1)
# a site by its node and incarnation
Site = tuple[int, int]


class Entry(NamedTuple):
    """An entry of a book: the event, the packet that it delivered, if it did, and the packets that it put out."""
    event: str
    packet: Optional[str]
    out: list[str]


Books = dict[Site, list[Entry]]
# for each kind of change, of a delivery or not, what is counted
Table = dict[tuple[str, bool], collections.Counter[str]]


def sender(packet: str) -> Site:
    """The node and incarnation that a packet names as its sender."""
    found = re.match(r"Packet \{ from: Site \{ node: (\d+), incarnation: (\d+) \}", packet)
    if not found:
        raise ValueError(f"no packet: {packet}")
    return int(found[1]), int(found[2])


def entry_of(event: str) -> Entry:
    """An entry without packets put out so far."""
    packet = event[len("Deliver("):-1] if event.startswith("Deliver(") else None
    return Entry(event, packet, [])


def parts(lines: Iterable[str]) -> Iterator[tuple[list[str], Books, str]]:
    """The printed books of each audit: what comes before (the words of a change, or none), the books, and what was
    found."""
    change: list[str] = []
    books: Books = {}
    for line in lines:
        word, _, rest = line.rstrip("\n").partition(" ")
        if word == "change":
            change = rest.split()
        elif word == "book":
            node, incarnation = map(int, rest.split())
            entries = books.setdefault((node, incarnation), [])
        elif word == "event":
            entries.append(entry_of(rest))
        elif word == "out":
            entries[-1].out.append(rest)
        elif word == "found":
            yield change, books, rest
            change, books = [], {}


def site_text(site: Site) -> str:
    return f"Site {{ node: {site[0]}, incarnation: {site[1]} }}"


def missing(books: Books) -> Optional[Site]:
    """The least site that should have a book and has none."""
    wanted = {REGISTRY} | {sender(entry.packet) for entries in books.values() for entry in entries if entry.packet}
    return min(wanted - books.keys(), default=None)


def may_go_on(books: Books, taken: dict[Site, int], site: Site) -> bool:
    """Whether the books of all earlier incarnations of the site's node are used up."""
    return all(taken[other] == len(books[other]) for other in books if other[0] == site[0] and other[1] < site[1])


def take(books: Books, taken: dict[Site, int], sent: set[str], site: Site) -> int:
    """Takes entries of one site as far as it can, and tells how many."""
    before, entries = taken[site], books[site]
    while taken[site] < len(entries):
        entry = entries[taken[site]]
        if entry.packet is not None and entry.packet not in sent:
            break
        sent.update(entry.out)
        taken[site] += 1
    return taken[site] - before


def audit(books: Books) -> str:
    """What an audit finds, as `workbench audits` prints it."""
    site = missing(books)
    if site:
        return f"Err(MissingBook({site_text(site)}))"
    taken, sent = dict.fromkeys(books, 0), set[str]()
    while sum(take(books, taken, sent, site) for site in sorted(books) if may_go_on(books, taken, site)):
        pass
    left = [site for site in sorted(books) if taken[site] < len(books[site]) and may_go_on(books, taken, site)]
    return f"Err(NeverSent({site_text(left[0])}, {taken[left[0]]}))" if left else "Ok(Clean)"


def count_change(table: Table, books: Books, change: list[str], tail: Books, found: str) -> None:
    """Counts one change in its row of the table."""
    kind, place = change[0], int(change[1])
    (site, entries), = tail.items()
    changed = dict(books)
    changed[site] = books[site][:place] + entries
    is_delivery = books[site][place].packet is not None
    row = table[kind, is_delivery]
    row["tried"] += 1
    row["same"] += changed[site] == books[site]
    row["clean" if found == "Ok(Clean)" else "unclean"] += 1
    if audit(changed) != found:
        row["differ"] += 1
        print(f"{kind} at {place} of {site}: found {found}, here {audit(changed)}")


def try_run(given: argparse.Namespace, file: str, seed: int, table: Table) -> bool:
    """Makes a run and its changes; whether its books are clean by both audits."""
    words = [given.program, "audits", file, "3", "2", str(seed), "1", "100000", str(given.changes)]
    run = subprocess.Popen(words, stdout=subprocess.PIPE, text=True)
    audits = parts(run.stdout or [])
    _, books, found = next(audits)
    is_clean = found == audit(books) == "Ok(Clean)"
    for change, tail, found in audits:
        count_change(table, books, change, tail, found)
    if run.wait() != 0 or not is_clean:
        print(f"{file}, seed {seed}: found {found}, status {run.returncode}")
        return False
    return True


def main() -> None:
    parser = parser_of(__doc__)
    parser.add_argument("--short", action="store_true", help="fewer runs and changes")
    parser.add_argument("--changes", type=number_from_one, help="how many changes are tried in each run (default 100; 20 with --short)")
    parser.add_argument("--runs", type=number_from_one, help="how many runs of each file (default 2; 1 with --short)")
    parser.add_argument("--seed", type=int, default=1, help="the seed of the first run (default 1)")
    parser.add_argument("--program", default=WORKBENCH, help="the program, in place of the built one")
    parser.add_argument("files", metavar="FILE", nargs="*", help="problems (default: five examples)")
    given = parser.parse_args()
    given.changes = given.changes or (20 if given.short else 100)
    given.runs = given.runs or (1 if given.short else 2)
    want_program(given.program, "workbench")
    files = given.files or [os.path.join(TOP, "examples", f"{name}.dlx") for name in FILES]
    table: Table = collections.defaultdict(collections.Counter)
    good = [try_run(given, file, given.seed + number, table) for file in files for number in range(given.runs)]
    columns = ["tried", "same", "clean", "unclean", "differ"]
    print(f"{'change':<12} {'of':<10}", *[f"{word:>8}" for word in columns])
    for kind in KINDS:
        for is_delivery in (True, False):
            row = table[kind, is_delivery]
            if row["tried"]:
                print(f"{kind:<12} {'delivery' if is_delivery else 'own event':<10}", *[f"{row[word]:>8}" for word in columns])
    tried, differ = (sum(row[word] for row in table.values()) for word in ("tried", "differ"))
    sys.exit(0 if all(good) and not differ and tried else 1)


if __name__ == "__main__":
    main()
