"""Schools drawn by lot with rules: each subject at most once a day, no holes for a class, teachers with free days,
joint double lessons. A plan is drawn first, and the tables are read off it, so that there is one."""
from __future__ import annotations

import itertools
import random
from typing import NamedTuple, Optional

from plan_rules import DAYS, Time

Subject = tuple[str, str]


class Tables(NamedTuple):
    """A table of lessons and one of rules."""
    lessons: str
    rules: str


class Drawn:
    """A plan by lot: for each class on each day, from the first period on, a subject and its teacher."""

    def __init__(self, seed: int, classes: int, teachers: int, per_day: int, free: int) -> None:
        self.draw, self.per_day = random.Random(seed), per_day
        self.classes = [f"{5 + k // 2}{'ab'[k % 2]}" for k in range(classes)]
        self.teachers = [f"t{k}" for k in range(1, teachers + 1)]
        self.free = free
        self.plan: dict[tuple[str, Time], tuple[str, str]] = {}
        self.busy: set[tuple[str, Time]] = set()
        self.load: dict[str, int] = {}

    def lengths(self) -> list[int]:
        """How many periods a class has on each day: some days end early."""
        lengths = [self.per_day] * len(DAYS)
        for _ in range(self.free):
            lengths[self.draw.choice([k for k, length in enumerate(lengths) if length > self.per_day - 2])] -= 1
        return lengths

    def give(self, classes: list[str], subject: str, teacher: str, times: list[Time]) -> bool:
        who = [teacher, *classes]
        if any((one, time) in self.busy for one in who for time in times):
            return False
        self.busy |= {(one, time) for one in who for time in times}
        self.plan.update({(one, time): (subject, teacher) for one in classes for time in times})
        return True

    def joint(self, pair: list[str], lengths: list[int]) -> bool:
        """A double lesson of sport for two classes, by one teacher."""
        day = self.draw.randrange(len(DAYS))
        first = self.draw.randint(1, lengths[day] - 1)
        times = [(DAYS[day], first), (DAYS[day], first + 1)]
        return self.give(pair, "sport", self.draw.choice(self.teachers), times)

    def subjects(self, one: str, left: int) -> Optional[list[list[Subject]]]:
        """The subjects of a class on each day, each at most once a day, with their teachers."""
        counts, names = [], iter("maths english german history biology physics music art latin geography religion ethics".split())
        while left:
            counts.append(min(left, self.draw.choice([4, 4, 3, 3, 2])))
            left -= counts[-1]
        days: list[list[Subject]] = [[] for _ in DAYS]
        room = [len([time for time in self.open_times(one, day)]) for day in DAYS]
        for count, name in zip(sorted(counts, reverse=True), names):
            teacher = self.teacher(count)
            best = sorted(range(len(DAYS)), key=lambda day: (-(room[day] - len(days[day])), self.draw.random()))[:count]
            for day in best:
                days[day].append((name, teacher))
        return days if [len(some) for some in days] == room else None

    def teacher(self, count: int) -> str:
        """A teacher who has time for so many lessons more, of some by lot the one with the fewest."""
        some = self.draw.sample(self.teachers, min(4, len(self.teachers)))
        one = min(some, key=lambda teacher: self.load.get(teacher, 0))
        self.load[one] = self.load.get(one, 0) + count
        return one

    def open_times(self, one: str, day: str) -> list[Time]:
        lengths = self.day_lengths[one]
        return [(day, number) for number in range(1, lengths[DAYS.index(day)] + 1) if (one, (day, number)) not in self.busy]

    def fill_day(self, one: str, day: str, subjects: list[Subject]) -> bool:
        """The subjects of a day in an order in which all their teachers are free."""
        times = self.open_times(one, day)
        for order in itertools.permutations(subjects):
            if all((teacher, time) not in self.busy for (_, teacher), time in zip(order, times)):
                return all(self.give([one], name, teacher, [time]) for (name, teacher), time in zip(order, times))
        return False

    def fill(self) -> bool:
        """The whole plan; False where the lot gave none."""
        pairs = [self.classes[k:k + 2] for k in range(0, len(self.classes), 2)]
        self.day_lengths: dict[str, list[int]] = {}
        for pair in pairs:
            lengths = self.lengths()
            self.day_lengths.update((one, lengths) for one in pair)
            while not self.joint(pair, lengths):
                pass
        return all(any(self.fill_class(one) for _ in range(40)) for one in self.classes)

    def fill_class(self, one: str) -> bool:
        """The week of a class; where the lot gives none, all is as before."""
        before = dict(self.plan), set(self.busy), dict(self.load)
        days = self.subjects(one, sum(len(self.open_times(one, day)) for day in DAYS))
        if days is not None and all(self.fill_day(one, day, some) for day, some in zip(DAYS, days)):
            return True
        self.plan, self.busy, self.load = before
        return False

    def tables(self, away: int) -> Tables:
        """The tables: subjects with their numbers, and so many teachers who are away on a day on which they have
        nothing."""
        counts: dict[tuple[str, str, tuple[str, ...]], int] = {}
        at: dict[tuple[str, str, Time], list[str]] = {}
        for (one, time), (subject, teacher) in self.plan.items():
            at.setdefault((subject, teacher, time), []).append(one)
        for (subject, teacher, _), those in at.items():
            key = (subject, teacher, tuple(sorted(those)))
            counts[key] = counts.get(key, 0) + 1
        lines = ["lesson;teacher;class;rooms;periods;times;length"]
        for (subject, teacher, classes), count in sorted(counts.items()):
            is_joint = subject == "sport"
            lines.append(f"{subject};{teacher};{'+'.join(classes)};{'hall' if is_joint else ''};;{1 if is_joint else count};{2 if is_joint else 1}")
        rules = ["who;periods;away;a_day;holes", f"all;Mon-Fri1-{self.per_day};;;", "classes;;;;0", f"teachers;;;{self.most()};", "lessons;;;1;"]
        idle = [(teacher, day) for teacher in self.teachers for day in DAYS
                if not any((teacher, (day, number)) in self.busy for number in range(1, self.per_day + 1))]
        self.draw.shuffle(idle)
        rules += [f"{teacher};;{day}1-{self.per_day};;" for teacher, day in list(dict(idle).items())[:away]]
        return Tables("\n".join(lines) + "\n", "\n".join(rules) + "\n")

    def most(self) -> int:
        """The most periods that a teacher has on a day."""
        return max(sum((teacher, (day, number)) in self.busy for number in range(1, self.per_day + 1)) for teacher in self.teachers for day in DAYS)


def planned(seed: int, classes: int = 6, teachers: int = 13, per_day: int = 6, free: int = 2, away: int = 4) -> Tables:
    """The tables of a school that has a plan."""
    for further in range(200):
        drawn = Drawn(seed * 10_000 + further, classes, teachers, per_day, free)
        if drawn.fill():
            return drawn.tables(away)
    raise ValueError("no such school was found")
