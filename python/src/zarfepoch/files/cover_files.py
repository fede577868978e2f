"""Problem files and answers as docs/FORMAT.md describes them, for the scripts that explain and draw.

The program decides what a file says. This reader stands beside it: it goes on after a fault, so that all can be told.
"""
from __future__ import annotations

import functools
import re
from typing import Iterator, NamedTuple, Optional, Sequence

BAR, COLON, ILLEGAL = b"|", b":", b"\0:|"
WITHOUT_LINE = {"NoItems", "BadHead", "WrongCount"}
MAX_NAME, MAX_ITEMS, MAX_OPTIONS, MAX_OCCURRENCES, MAX_COLOURS = 32, 1_000, 20_000, 200_000, 10_000


class Word(NamedTuple):
    """A word with its place, counted from 1, the column in characters."""
    line: int
    column: int
    text: bytes


class Fault(NamedTuple):
    """A fault by the program's name for it; `word` is None where it is a fault of a whole line, `line` where it is one
    of the file."""
    name: str
    line: Optional[int]
    word: Optional[Word]


class Option(NamedTuple):
    """An option with the number of its line: its words as they stand, and of each the item's name and the colour, None
    where it has none."""
    line: int
    words: tuple[bytes, ...]
    names: tuple[bytes, ...]
    colours: tuple[Optional[bytes], ...]


# the words of a line, and what a main function may answer
Line = list[Word]


@functools.lru_cache(maxsize=1 << 16)
def shown(name: bytes) -> str:
    """A name for readers: its text where it is UTF-8, and bytes that can't be seen by their numbers."""
    text = name.decode("utf-8", "backslashreplace")
    return "".join(c if c.isprintable() else c.encode("unicode_escape").decode("ascii") for c in text)


def width(piece: bytes) -> int:
    """How many characters the bytes are; bytes that aren't UTF-8 count as one each."""
    return len(piece.decode("utf-8", "surrogateescape"))


def words_of(number: int, line: bytes) -> Line:
    """The words of a line, each with its place."""
    words, column, behind = [], 1, 0
    for found in re.finditer(rb"[^\t\v\f\r ]+", line):
        column += width(line[behind:found.start()])
        words.append(Word(number, column, found[0]))
        column, behind = column + width(found[0]), found.end()
    return words


def lines_of(text: bytes) -> list[Line]:
    """The words of each line that has any."""
    lines = (words_of(number, line) for number, line in enumerate(text.split(b"\n"), 1))
    return [words for words in lines if words]


def is_comment(words: Line) -> bool:
    return words[0].text.startswith(BAR)


def name_part(text: bytes) -> bytes:
    """What a word of the item line names: behind the separator's bar perhaps nothing."""
    return text[1:] if text.startswith(BAR) else text


def parts_of(text: bytes) -> tuple[bytes, Optional[bytes]]:
    """What a word of an option says: an item's name, and behind the first colon a colour's; None where no colon
    stands."""
    name, colon, colour = text.partition(COLON)
    return name, colour if colon else None


def option_of(words: Line) -> Option:
    """The option of a line with these words."""
    texts = tuple(word.text for word in words)
    names, colours = zip(*map(parts_of, texts))
    return Option(words[0].line, texts, names, colours)


def is_illegal(name: bytes) -> bool:
    return name.translate(None, ILLEGAL) != name


def name_faults(name: bytes, word: Word) -> Iterator[Fault]:
    if is_illegal(name):
        yield Fault("IllegalByte", word.line, word)
    if len(name) > MAX_NAME:
        yield Fault("NameTooLong", word.line, word)


def part_faults(name: bytes, colour: Optional[bytes], word: Word) -> Iterator[Fault]:
    """The faults that an option's word has by itself."""
    if is_illegal(name) or is_illegal(colour or b""):
        yield Fault("IllegalByte", word.line, word)
    if len(name) > MAX_NAME:
        yield Fault("NameTooLong", word.line, word)
    if colour is not None and not (name and 1 <= len(colour) <= MAX_NAME):
        yield Fault("BadColour", word.line, word)


class Problem:
    """What a problem file says, with all its faults in reading order.

    `items` leads each name to its number, in the order of the item line; the first `primary` are primary. `options` are
    kept, `ignored` name no primary item, `comments` are texts. `colours` leads each colour of options that are kept to
    its number from 1, in the order in which they first stand. After a fault these are what the rest of the file says.
    """

    def __init__(self, lines: list[Line]) -> None:
        self.items: dict[bytes, int] = {}
        self.primary, self.occurrences = 0, 0
        self.colours: dict[bytes, int] = {}
        self.options: list[Option] = []
        self.ignored: list[Option] = []
        self.item_line: Optional[int] = None
        self.faults: list[Fault] = []
        self.places: dict[bytes, Word] = {}
        content = [words for words in lines if not is_comment(words)]
        self.comments = [b" ".join(word.text for word in words) for words in lines if is_comment(words)]
        if not content:
            self.faults.append(Fault("NoItems", None, None))
            return
        self.item_line = content[0][0].line
        self.faults.extend(self.read_items(content[0]))
        for words in content[1:]:
            self.faults.extend(self.read_option(words))

    def read_items(self, words: Line) -> Iterator[Fault]:
        divided = False
        for word in words:
            name = name_part(word.text)
            yield from name_faults(name, word)
            if name in self.items:
                yield Fault("DuplicateItem", word.line, word)
            if word.text.startswith(BAR):
                if divided:
                    yield Fault("SecondBar", word.line, word)
                divided = True
            name, _ = parts_of(name)  # so that a colour on the item line hides no item from the options
            if name and name not in self.items:
                self.items[name] = len(self.items)
                self.places[name] = word
                self.primary += not divided
                if len(self.items) == MAX_ITEMS + 1:
                    yield Fault("TooManyItems", word.line, word)

    def is_primary(self, name: bytes) -> bool:
        return self.items.get(name, self.primary) < self.primary

    def read_option(self, words: Line) -> Iterator[Fault]:
        option, seen = option_of(words), set()
        for word, name, colour in zip(words, option.names, option.colours):
            yield from part_faults(name, colour, word)
            if name not in self.items:
                yield Fault("UnknownItem", word.line, word)
            if name and name in seen:
                yield Fault("DuplicateInOption", word.line, word)
            if colour is not None and self.is_primary(name):
                yield Fault("ColourOnPrimary", word.line, word)
            seen.add(name)
        if any(map(self.is_primary, seen)):
            yield from self.keep(option)
        else:
            self.ignored.append(option)

    def keep(self, option: Option) -> Iterator[Fault]:
        """Takes an option, and counts what is limited; each limit is told once."""
        before, self.occurrences = self.occurrences, self.occurrences + len(option.words)
        fewer = len(self.colours)
        self.options.append(option)
        for colour in filter(None, option.colours):
            self.colours.setdefault(colour, len(self.colours) + 1)
        if len(self.options) == MAX_OPTIONS + 1:
            yield Fault("TooManyOptions", option.line, None)
        if before <= MAX_OCCURRENCES < self.occurrences:
            yield Fault("TooManyNodes", option.line, None)
        if fewer <= MAX_COLOURS < len(self.colours):
            yield Fault("TooManyColours", option.line, None)

    def names(self) -> list[bytes]:
        return list(self.items)

    def primary_names(self) -> list[bytes]:
        return self.names()[:self.primary]

    def options_by_item(self) -> dict[bytes, list[int]]:
        """For each item the options that name it, as places in `options`."""
        by_item: dict[bytes, list[int]] = {name: [] for name in self.items}
        for place, option in enumerate(self.options):
            for name in set(option.names):
                by_item.setdefault(name, []).append(place)
        return by_item


def read_problem(text: bytes) -> Problem:
    return Problem(lines_of(text))


class Answer:
    """What an answer says of a problem, with all its faults in the order of the program's tests.

    `kind` is "none", "cover" or None where the head is neither. `chosen` has a pair for each line behind the head that
    is an option: its words, and the option's place in the problem. Where the head is missing all lines are read as
    options.
    """

    def __init__(self, lines: list[Line], problem: Problem) -> None:
        self.kind: Optional[str] = None
        self.count: Optional[int] = None
        self.faults: list[Fault] = []
        self.chosen: list[tuple[Line, int]] = []
        self.head = lines[0] if lines else None
        self.rest = lines[1:]
        self.read_head([word.text for word in self.head or []])
        if self.kind is None:
            self.faults.append(Fault("BadHead", self.head[0].line if self.head else None, None))
            self.rest = self.rest if self.head and self.head[0].text == b"cover" else lines
        elif self.head and self.count != len(self.rest):
            self.faults.append(Fault("WrongCount", self.head[0].line, None))
        if self.kind != "none":
            self.read_options(problem)

    def read_head(self, head: list[bytes]) -> None:
        if head == [b"none"]:
            self.kind, self.count = "none", 0
        elif len(head) == 2 and head[0] == b"cover" and head[1].isdigit() and len(head[1]) <= 5:
            self.kind, self.count = "cover", int(head[1])

    def read_options(self, problem: Problem) -> None:
        free: dict[tuple[bytes, ...], list[int]] = {}
        for place in reversed(range(len(problem.options))):
            free.setdefault(problem.options[place].words, []).append(place)
        for words in self.rest:
            places = free.get(tuple(word.text for word in words))
            if places:
                self.chosen.append((words, places.pop()))
            else:
                self.faults.append(Fault("UnknownOption", words[0].line, words[0]))

    def uncovered(self, problem: Problem) -> list[bytes]:
        """The primary items in none of the chosen options, in the order of the item line."""
        used = {name for _, place in self.chosen for name in problem.options[place].names}
        return [name for name in problem.primary_names() if name not in used]

    def covered_twice(self, problem: Problem) -> list[tuple[bytes, list[int]]]:
        """Each item that several chosen options name and don't all give one colour, with these: places in `chosen`."""
        users: dict[bytes, list[tuple[int, Optional[bytes]]]] = {}
        for k, (_, place) in enumerate(self.chosen):
            option = problem.options[place]
            for name, colour in zip(option.names, option.colours):
                users.setdefault(name, []).append((k, colour))
        several = ((name, users.get(name, [])) for name in problem.items)
        return [(name, [k for k, _ in by]) for name, by in several if len(by) > 1 and not in_one_colour(by)]


def in_one_colour(users: Sequence[tuple[int, Optional[bytes]]]) -> bool:
    """Whether all of these places and colours have one and the same colour."""
    colours = {colour for _, colour in users}
    return len(colours) == 1 and None not in colours


def read_answer(text: bytes, problem: Problem) -> Answer:
    return Answer(lines_of(text), problem)


def is_audit(words: Line) -> bool:
    """Whether a line is the one in which `solve --audit` says what it found."""
    return [word.text for word in words[:2]] in ([b"audit", b"clean"], [b"audit", b"unclean:"])


def is_basis(words: Line) -> bool:
    """Whether a line is one in which `answer --reason` says what an answer rests on, and not a reason's."""
    texts = [word.text for word in words]
    return len(texts) > 2 and texts[0] == b"by" and texts[-1].rstrip(b"s") in (b"state", b"clause", b"worker")


def is_reason(words: Line) -> bool:
    """Whether a line is the first of a reason, as it stands behind `none`."""
    return words[0].text in (b"weights", b"too", b"just", b"cliques", b"options")


def answer_lines(lines: list[Line]) -> list[Line]:
    """An answer's lines without what `solve --audit` and `answer --reason` write behind it."""
    if lines and (is_audit(lines[-1]) or is_basis(lines[-1])):
        return lines[:-1]
    return lines[:1] if len(lines) > 1 and lines[0][0].text == b"none" and is_reason(lines[1]) else lines


def read_audited(text: bytes, problem: Problem) -> Answer:
    """An answer, without what is written behind it if that is what is wrong with it: the line of an audit, or what it
    rests on."""
    lines = lines_of(text)
    answer = Answer(lines, problem)
    return Answer(answer_lines(lines), problem) if answer.faults else answer


def refusal(faults: Sequence[Fault]) -> str:
    """The first fault as the program tells it, without what stands before its name."""
    first = faults[0]
    return first.name if first.name in WITHOUT_LINE else f"{first.name} line {first.line}"
