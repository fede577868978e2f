"""Which places are taken however lessons are laid into them, and which lessons have too few.

A lesson wants one of several places: periods of a class, say, or rooms at periods. A matching gives each its own place.
Where there is none, some lessons together have fewer places than they are (Hall's theorem). Else a place is always busy
if no matching leaves it free.
"""
from __future__ import annotations

from collections.abc import Hashable, Sequence
from typing import Any, TypeVar

Place = TypeVar("Place", bound=Hashable)


class Shortage(Exception):
    """Lessons that together have fewer places than they are; `wanting` are their numbers."""

    def __init__(self, wanting: list[int], places: Sequence[Any]) -> None:
        super().__init__("too few places")
        self.wanting, self.places = wanting, places


def moved(place: Place | None, came_from: dict[Place, int], place_of: dict[int, Place], holder: dict[Place, int]) -> None:
    """Gives a free place to the lesson that reached it, the place that this one had to the lesson before, and so on."""
    while place is not None:
        lesson = came_from[place]
        before = place_of.get(lesson)
        holder[place], place_of[lesson] = lesson, place
        place = before


def seat(lesson: int, wanted: Sequence[Sequence[Place]], place_of: dict[int, Place], holder: dict[Place, int]) -> None:
    """Finds a place for one more lesson by moving others; raises `Shortage` where it has none, with all lessons that
    want no other places."""
    came_from, reached = {}, [lesson]
    for one in reached:
        for place in wanted[one]:
            if place in came_from:
                continue
            came_from[place] = one
            if place not in holder:
                moved(place, came_from, place_of, holder)
                return
            reached.append(holder[place])
    raise Shortage([k for k, places in enumerate(wanted) if came_from.keys() >= set(places)], list(came_from))


def matching(wanted: Sequence[Sequence[Place]]) -> dict[int, Place]:
    """For each number of a lesson a place of its own, of those that it wants."""
    place_of: dict[int, Place] = {}
    holder: dict[Place, int] = {}
    for lesson in range(len(wanted)):
        seat(lesson, wanted, place_of, holder)
    return place_of


def always_busy(wanted: Sequence[Sequence[Place]]) -> set[Place]:
    """The places that no matching leaves free; `Shortage` where there is no matching at all."""
    place_of = matching(wanted)
    wanting: dict[Place, list[int]] = {}
    for lesson, places in enumerate(wanted):
        for place in places:
            wanting.setdefault(place, []).append(lesson)
    taken = set(place_of.values())
    queue = [place for place in wanting if place not in taken]
    can_be_free = set(queue)
    for free in queue:
        left = {place_of[lesson] for lesson in wanting[free]} - can_be_free
        can_be_free |= left
        queue.extend(left)
    return set(wanting) - can_be_free
