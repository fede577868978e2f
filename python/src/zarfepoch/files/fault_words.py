"""What each fault of a problem file or of an answer means, in words, with what was expected and the nearest name there
is."""
from __future__ import annotations

import difflib
import re
import unicodedata
from collections.abc import Iterator, Sequence
from typing import Callable, Optional

from .cover_files import MAX_COLOURS, MAX_ITEMS, MAX_NAME, MAX_OCCURRENCES, MAX_OPTIONS, Answer, Fault, Line, Option, Problem, Word
from .cover_files import is_audit, name_part, option_of, parts_of, shown

FEW = 12
# faults that aren't told where the same word has an earlier one
FOLLOWS = ("UnknownItem", "NameTooLong", "BadColour")
AUDIT = "the line of an audit is no part of the answer: leave it out, as by grep -v '^audit '"


# ---- plain English

def plural(count: int, what: str, with_count: bool = True) -> str:
    ending = what if count == 1 else what + "s"
    return f"{count:,} {ending}" if with_count else ending


def with_article(mark: object) -> str:
    """A digit, a number or a letter behind `a` or `an`, as people say it."""
    return ("an " if re.fullmatch(r"8\d?|11|18|[AEFHILMNORSXaefhilmnorsx]", str(mark)) else "a ") + str(mark)


def quoted(name: bytes) -> str:
    text = shown(name)
    return f"'{text}'" if len(text) <= 60 else f"'{text[:40]}..{text[-10:]}' ({len(name):,} bytes)"


def first_few(things: Sequence[object], most: int) -> str:
    """The first of some things, and how many more there are."""
    told = [str(thing) for thing in things[:most]]
    if len(things) > most:
        return ", ".join(told) + f" and {len(things) - most:,} more"
    return " and ".join(filter(None, [", ".join(told[:-1]), told[-1]])) if told else "none"


# ---- names that exist

def nearest(names: list[bytes], name: bytes) -> list[str]:
    """Up to three of the names that look most like this one."""
    texts = {shown(there): there for there in names}
    folded = [text for text in texts if text.lower() == shown(name).lower()]
    return folded or difflib.get_close_matches(shown(name), texts, 3, 0.6)


def looks(name: bytes) -> str:
    """What a name looks like: a letter with a mark is the same in one character or in two."""
    return unicodedata.normalize("NFC", shown(name))


def instead(names: list[bytes], name: bytes) -> str:
    """What to write for a name that doesn't exist."""
    near = nearest(names, name)
    alike = next((there for there in names if looks(there) == looks(name)), None)
    if alike:
        return f"an item looks like it and has other characters, {ascii(shown(alike))} and not {ascii(shown(name))}"
    commas = [there for there in names if there.strip(b",;") == name]
    if commas:
        return f"the item is named {quoted(commas[0])}: names are parted by white space alone, so the comma belongs to it"
    if near:
        return "nearest: " + " or ".join(f"'{text}'" for text in near)
    if len(names) <= FEW:
        return "the items are " + first_few([quoted(there) for there in names], FEW)
    return "no item has a name like it"


def unknown_words(problem: Problem, word: Word) -> str:
    name, colour = parts_of(word.text)
    names, bare = problem.names(), name.strip(b",;")
    if name.startswith(b"#"):
        return "no item has this name; a comment begins with '|', not with '#'"
    if bare != name and (not bare or bare in problem.items):
        return "no item has this name; names are parted by white space, not by commas"
    which = "no item has this name" if colour is None else f"no item is named {quoted(name)}, as stands before the ':'"
    return f"{which}; {instead(names, name)}"


def illegal_words(problem: Problem, word: Word) -> str:
    if b"\0" in word.text:
        return "byte 0 stands in it, which no name has; is the file a text in UTF-8?"
    if b":" in word.text and word.line == problem.item_line:
        return "no name has a ':'; the item line has names alone, and options give colours to secondary items, as in 'x:red'"
    if word.line == problem.item_line:
        return "a '|' stands within the word; the separator begins a word, as in 'a b | x y'"
    if word.text.count(b":") > 1:
        return "a second ':' stands in it, and no name of an item or of a colour has one; one ':' parts them, as in 'x:red'"
    return "an option has no '|'; it parts primary from secondary items on the item line, or begins a line that is a comment"


def bad_colour_words(word: Word) -> str:
    name, colour = parts_of(word.text)
    if name.startswith(b"#"):
        return "a ':' parts an item from its colour; if this is a note, a comment begins with '|', not with '#'"
    if not name and not colour:
        return "a ':' stands alone; an item and its colour are one word, as in 'x:red'"
    if not name:
        return "no item stands before the ':'; an item and its colour are one word, as in 'x:red'"
    if not colour:
        return (f"no colour stands behind the ':'; {quoted(name)} alone names the item without a colour, and an item and its colour are "
                "one word, as in 'x:red'")
    return f"a colour has at most {MAX_NAME} bytes, this one has {len(colour)}"


def primary_words(problem: Problem, word: Word) -> str:
    name, _ = parts_of(word.text)
    return (f"{quoted(name)} is a primary item, which one option of a cover alone names; only secondary items have colours, those behind "
            f"the '|' of line {problem.item_line}")


# ---- faults of a problem

def earlier_column(problem: Problem, word: Word) -> int:
    return problem.places[name_part(word.text)].column


def no_items_words(problem: Problem) -> str:
    return "no line names items; lines that begin with '|' are comments, so at least one primary item must stand before the separator"


def fault_words(problem: Problem, fault: Fault) -> str:
    """What a fault of a problem means, and what was expected."""
    name, word = fault.name, fault.word
    if word is None:
        return whole_words(problem, name)
    if name == "IllegalByte":
        return illegal_words(problem, word)
    if name == "UnknownItem":
        return unknown_words(problem, word)
    if name == "NameTooLong":
        item = name_part(word.text) if word.line == problem.item_line else parts_of(word.text)[0]
        return f"a name has at most {MAX_NAME} bytes, this one has {len(item)}"
    if name == "BadColour":
        return bad_colour_words(word)
    if name == "ColourOnPrimary":
        return primary_words(problem, word)
    if name == "DuplicateItem":
        return f"the item line names it already, at column {earlier_column(problem, word)}"
    return {
        "SecondBar": "the separator stands on the item line already; one is expected, between primary and secondary items",
        "DuplicateInOption": "this option names it already; an option names each of its items once",
        "TooManyItems": f"the item line has {len(problem.items):,} names, at most {MAX_ITEMS:,} are read",
    }[name]


def whole_words(problem: Problem, name: str) -> str:
    """What a fault of a whole line or file means."""
    return {
        "NoItems": no_items_words(problem),
        "TooManyOptions": f"{len(problem.options):,} options name a primary item, at most {MAX_OPTIONS:,} are read",
        "TooManyNodes": f"the options have {problem.occurrences:,} items together, at most {MAX_OCCURRENCES:,} are read",
        "TooManyColours": f"the options have {len(problem.colours):,} different colours, at most {MAX_COLOURS:,} are read",
    }[name]


def same_fault(fault: Fault) -> tuple[str, Optional[bytes]]:
    """Faults that are told together: the same fault of the same word, and all of a line that begins with '#'."""
    return fault.name, fault.word.text if fault.word else None


def plain_faults(problem: Problem) -> Iterator[Fault]:
    """The faults without those that follow from another one of the same word or line."""
    hashed: set[int] = set()
    cause: dict[Word, str] = {}
    for fault in problem.faults:
        word = fault.word
        if word is None:
            yield fault
            continue
        if word.line in hashed:
            continue
        if fault.name == "UnknownItem" and word.text.startswith(b"#"):
            hashed.add(word.line)
        if cause.setdefault(word, fault.name) == fault.name or fault.name not in FOLLOWS:
            yield fault


def grouped(problem: Problem) -> Iterator[tuple[Fault, list[int]]]:
    """Each fault that is told, with the further lines that have the same."""
    groups: dict[tuple[str, Optional[bytes]], list[Fault]] = {}
    for fault in plain_faults(problem):
        groups.setdefault(same_fault(fault), []).append(fault)
    for faults in groups.values():
        further = sorted({fault.line for fault in faults if fault.line is not None and fault.line != faults[0].line})
        yield faults[0], further


# ---- faults of an answer

def head_words(answer: Answer) -> str:
    if answer.head is None:
        return "the answer is empty; 'none' is expected, or 'cover' and a number, and then that many lines"
    first = " ".join(shown(word.text) for word in answer.head)
    if answer.head[0].text.startswith(b"\xef\xbb\xbf"):
        return "the answer begins with a byte order mark (bytes EF BB BF), which isn't seen: save it as UTF-8 without the mark"
    if answer.head[0].text.startswith((b"\xff\xfe", b"\xfe\xff")):
        return "the answer is written in UTF-16, two bytes a character: save it as UTF-8"
    if first == "no answer":
        return "'no answer' says that the search was stopped; that is nothing to check"
    if answer.head[0].text == b"cover":
        return f"'cover' and a number of one to five digits are expected, not '{first}'"
    if answer.head[0].text.startswith((b"|", b"#")):
        return "an answer has no comments; 'none' is expected, or 'cover' and a number"
    if len(answer.chosen) == len(answer.rest):
        return f"'cover {len(answer.rest)}' is missing before the options"
    return f"'none' is expected, or 'cover' and a number, not '{first}'"


def count_words(answer: Answer) -> str:
    if is_audit(answer.rest[-1] if answer.rest else []):
        return AUDIT
    if answer.kind == "none":
        return f"nothing stands behind 'none', but {plural(len(answer.rest), 'line')} here; did you mean 'cover {len(answer.rest)}'?"
    return f"the head says {plural(answer.count or 0, 'line')}, but there {'is' if len(answer.rest) == 1 else 'are'} {len(answer.rest):,}"


def lines_where(options: list[Option], is_so: Callable[[Option], bool]) -> list[int]:
    return [option.line for option in options if is_so(option)]


def option_words(problem: Problem, answer: Answer, words: Line) -> str:
    """Why a line of an answer is no option that is left, and what may be meant."""
    line = option_of(words)
    if line.words[0].startswith((b"|", b"#")):
        return "an answer has no comments"
    if is_audit(words):
        return AUDIT
    unknown = list(dict.fromkeys(name for name in line.names if name not in problem.items))
    if unknown:
        more = [f"and {len(unknown) - FEW:,} more"] if len(unknown) > FEW else []
        return "; ".join([f"no item is named {quoted(name)}; {instead(problem.names(), name)}" for name in unknown[:FEW]] + more)
    same = lines_where(problem.options, lambda option: option.words == line.words)
    if same:
        earlier = [words[0].line for words, place in answer.chosen if problem.options[place].words == line.words]
        return (f"the file has this option {'once' if len(same) == 1 else f'{len(same)} times'} (line{'s' * (len(same) > 1)} "
                f"{first_few(same, FEW)}), and the answer has it already at line{'s' * (len(earlier) > 1)} {first_few(earlier, FEW)}")
    if lines_where(problem.ignored, lambda option: set(option.words) == set(line.words)):
        return "the file's option with these names is ignored, since it names no primary item; no answer has it"
    words_of_line = set(line.words)  # (those of an option are all different)
    turned = [option for option in problem.options if len(option.words) == len(line.words) and words_of_line.issuperset(option.words)]
    if turned:
        return f"names stand in the order of the file: write '{option_text(turned[0])}' (line {turned[0].line})"
    return near_option_words(problem, line)


def option_text(option: Option) -> str:
    return " ".join(map(shown, option.words))


def near_option_words(problem: Problem, line: Option) -> str:
    """The option that has most of these words and fewest others, where names count before colours."""
    names, words = set(line.names), set(line.words)
    others = [len(names.symmetric_difference(option.names)) for option in problem.options]
    fewest = min(others, default=len(line.names))
    if fewest >= len(line.names):
        return "no option of the file has these names"
    nearest_options = (option for option, count in zip(problem.options, others) if count == fewest)
    near = min(nearest_options, key=lambda option: len(words.symmetric_difference(option.words)))
    what = "these names in these colours" if near.names == line.names else "these names"
    return f"no option of the file has {what}; nearest: '{option_text(near)}' (line {near.line})"


def answer_fault_words(problem: Problem, answer: Answer, fault: Fault) -> str:
    """What a fault of an answer means, and what was expected."""
    if fault.name == "BadHead":
        return head_words(answer)
    if fault.name == "WrongCount":
        return count_words(answer)
    words = next(words for words in answer.rest if words[0].line == fault.line)
    return option_words(problem, answer, words)
