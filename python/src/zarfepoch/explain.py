"""Explains a problem file, and an answer to it: lists the mistakes, or what the file has.

    zarfepoch-explain FILE [ANSWER]

docs/FORMAT.md has the format; one of the files may be `-`, the standard input. For a file that the program refuses it
lists the first 200 mistakes, each with its line, its column (in characters, from 1; a tab is one), the word, and what
was expected; the first line is what the program says of it. For a right file it prints the counts, the options that are
ignored, and what may surprise: primary items in no option or in only one, forced options that clash and what both need,
too little room (as 25 lessons for 24 periods, where the program is built and finds it), items that always go together,
options that name the same items, items that have a colour in some options and none in others, colours that no two
options give. For an answer it lists the first 200 mistakes, each uncovered item, and for each item that is covered
twice the options that do it, with the colours that they give it.

It explains and decides nothing: whether an answer is right, and above all `none`, only the program can say. The exit
status is 0 if nothing is wrong, 1 if something is, 2 for a mistake on the command line, 3 for a file that can't be read
or where the standard output can't be written.
"""
from __future__ import annotations

import contextlib
from collections.abc import Iterator, Sequence
from typing import Optional

from .command_line.ends import run
from .command_line.words import parser_of
from .files.cover_files import MAX_COLOURS, MAX_ITEMS, MAX_OCCURRENCES, MAX_OPTIONS, Answer, Fault, Line, Word
from .files.cover_files import is_comment, lines_of, Problem, read_answer, read_problem, refusal, shown
from .files.fault_words import answer_fault_words, fault_words, first_few, grouped, looks, plural, quoted
from .files.full_names import told_lines
from .files.whole_files import TooLarge, Unreadable, read_bytes
from .programs import known_program
from .reasons.even_room import any_reason

SAYS = "the program says: "
BY_SEARCH = "that there is no cover is decided by the program's search alone"
BYTE_ORDER_MARK = b"\xef\xbb\xbf"
# for each item the places of the options that name it
Places = dict[bytes, list[int]]

MANY = 10
# so many faults are explained; of the others only the number is given
MOST = 200


# ---- what a file was perhaps meant to be

def without_hashes(lines: list[Line]) -> list[Line]:
    return [words for words in lines if not words[0].text.startswith(b"#")]


def first_word(lines: list[Line]) -> Optional[Word]:
    """The first word of the item line, as the program finds it."""
    content = [words for words in lines if not is_comment(words)]
    return content[0][0] if content else None


def repaired_text(text: bytes) -> tuple[bytes, list[str]]:
    """The text without what editors put in unseen, and a remark on each such thing."""
    remarks = []
    if text[:2] in (b"\xff\xfe", b"\xfe\xff") and b"\0" in text:
        remarks.append("the file is written in UTF-16, two bytes a character: save it as UTF-8")
        text = text.decode("utf-16", "replace").encode("utf-8")
    if text.startswith(BYTE_ORDER_MARK):
        remarks.append("the file begins with a byte order mark (bytes EF BB BF), which isn't seen and belongs to the first word: "
                       "save it as UTF-8 without the mark")
        text = text[3:]
    if b"\r" in text and b"\n" not in text:
        remarks.append("its lines end with byte 13 alone, so the program sees one line: end them with byte 10")
        text = text.replace(b"\r", b"\n")
    return text, remarks


def as_meant(text: bytes) -> tuple[Problem, list[str]]:
    """The problem that was perhaps meant, and a remark on each thing that was passed over to read it."""
    text, remarks = repaired_text(text)
    lines = lines_of(text)
    word = first_word(lines)
    if word and word.text.startswith(b"#") and Problem(lines).faults:
        remarks.append(f"line {word.line} begins with '#' and is read as the item line: a comment begins with '|'; what follows is "
                       "said as though lines that begin with '#' were comments")
        lines = without_hashes(lines)
    return Problem(lines), remarks


def is_item_line_missing(problem: Problem) -> bool:
    """Whether most words of options are no items, so that the item line is perhaps an option."""
    options = [option for option in problem.options + problem.ignored if not option.names[0].startswith(b"#")]
    words = [name for option in options for name in option.names]
    unknown = [name for name in words if name not in problem.items]
    return len(set(unknown)) > 2 and 2 * len(unknown) > len(words)


# ---- a file that is refused

def place_of(fault: Fault) -> str:
    if fault.word is None:
        return f"line {fault.line}" if fault.line else "the file"
    return f"line {fault.word.line}, column {fault.word.column}, {quoted(fault.word.text)}"


def fault_line(problem: Problem, fault: Fault, further: list[int]) -> str:
    again = f" (the same in {plural(len(further), 'more line')}: {first_few(further, MANY)})" if further else ""
    return f"{place_of(fault)}: {fault.name}: {fault_words(problem, fault)}{again}"


def explain_refused(problem: Problem, meant: Problem, remarks: list[str]) -> list[str]:
    """Lines on a file that is refused: the program's fault first, then the others of what was meant."""
    told = [fault_line(problem, problem.faults[0], [])] if remarks else []
    told += remarks
    if is_item_line_missing(meant):
        told.append(f"most words of the options are no items: line {meant.item_line} is read as the item line; is that line missing?")
    groups = list(grouped(meant))
    told += [fault_line(meant, fault, further) for fault, further in groups[:MOST]]
    if len(groups) > MOST:
        told.append(f"and {len(groups) - MOST:,} more faults")
    if remarks and not meant.faults:
        told.append("apart from this the file can be read")
    return told


# ---- a file that is right

def near_limits(problem: Problem) -> Iterator[str]:
    for count, limit, what in ((len(problem.items), MAX_ITEMS, "items"), (len(problem.options), MAX_OPTIONS, "options"),
                               (problem.occurrences, MAX_OCCURRENCES, "occurrences"), (len(problem.colours), MAX_COLOURS, "colours")):
        if 10 * count >= 9 * limit:
            yield f"near a limit: {count:,} {what}, at most {limit:,} are read"


def counts(problem: Problem) -> str:
    secondary = len(problem.items) - problem.primary
    colours = f", {plural(len(problem.colours), 'colour')}" if problem.colours else ""
    return (f"{plural(len(problem.items), 'item')} ({problem.primary:,} primary, {secondary:,} secondary), "
            f"{plural(len(problem.options), 'option')}, {plural(problem.occurrences, 'occurrence')} of items in them{colours}")


def rare_items(problem: Problem, by_item: Places) -> Iterator[str]:
    """Lines on items that stand in no option, or in one alone."""
    primary = problem.primary_names()
    missing = [quoted(name) for name in primary if not by_item[name]]
    if missing:
        yield f"in no option, so there is no cover: primary {plural(len(missing), 'item', False)} {first_few(missing, MANY)}"
    forced = [f"{quoted(name)} (line {problem.options[by_item[name][0]].line})" for name in primary if len(by_item[name]) == 1]
    if forced:
        yield f"in one option alone, which every cover has: primary {plural(len(forced), 'item', False)} {first_few(forced, MANY)}"
    idle = [quoted(name) for name in problem.names()[problem.primary:] if not by_item[name]]
    if idle:
        yield f"in no option, and without effect: secondary {plural(len(idle), 'item', False)} {first_few(idle, MANY)}"


def forced_clashes(problem: Problem, by_item: Places) -> Iterator[str]:
    """Lines on items that two options need, each the only one of some primary item."""
    needed: dict[bytes, dict[int, tuple[bytes, Optional[bytes]]]] = {}
    for name in problem.primary_names():
        if len(by_item[name]) == 1:
            option = problem.options[by_item[name][0]]
            for item, colour in zip(option.names, option.colours):
                needed.setdefault(item, {})[option.line] = name, colour
    for item, users in list(needed.items()):
        colours = {colour for _, colour in users.values()}
        if len(users) > 1 and (len(colours) > 1 or None in colours):
            each = [f"{quoted(name)} (line {line})" for line, (name, _) in users.items()]
            yield f"{first_few(each, MANY)} are each in one option alone, and these options clash in {quoted(item)}, so there is no cover"


def room_words(problem: Problem, text: bytes) -> Iterator[str]:
    """Lines on primary items that need more than there is room for, where the program finds such."""
    program, reason = known_program(), None
    # (the reason is an extra, so a program that can't be run takes nothing away)
    with contextlib.suppress(OSError):
        reason = any_reason(program, text, problem) if program else None
    if reason and not reason.modulus and reason.rooms and reason.holds(problem):
        first, *others = reason.words(problem)
        yield f"{first}, so there is no cover"
        yield from others


def items_together(by_item: Places) -> Iterator[str]:
    """Lines on items that the same options name."""
    groups: dict[tuple[int, ...], list[str]] = {}
    for name, places in by_item.items():
        if places:
            groups.setdefault(tuple(places), []).append(quoted(name))
    together = [(len(places), names) for places, names in groups.items() if len(names) > 1]
    for count, names in together[:MANY]:
        yield f"always together, in {plural(count, 'option')}: {first_few(names, MANY)}"
    if len(together) > MANY:
        yield f"and {len(together) - MANY:,} more groups of items are always together"


def equal_options(problem: Problem) -> Iterator[str]:
    """Lines on options that name the same items in the same colours, in whatever order."""
    groups: dict[frozenset[bytes], list[int]] = {}
    for option in problem.options:
        groups.setdefault(frozenset(option.words), []).append(option.line)
    equal = [lines for lines in groups.values() if len(lines) > 1]
    same = "the same items and colours" if problem.colours else "the same items"
    for lines in equal[:MANY]:
        yield f"{same} in {plural(len(lines), 'option')}: lines {first_few(lines, MANY)}"
    if len(equal) > MANY:
        yield f"and {len(equal) - MANY:,} more groups of options name {same}"


def lines_by_colour(problem: Problem) -> dict[bytes, dict[Optional[bytes], list[int]]]:
    """For each secondary item the lines of the options that name it, by the colour that they give it."""
    by_item: dict[bytes, dict[Optional[bytes], list[int]]] = {name: {} for name in problem.names()[problem.primary:]}
    for option in problem.options:
        for name, colour in zip(option.names, option.colours):
            if name in by_item:
                by_item[name].setdefault(colour, []).append(option.line)
    return by_item


def colour_habits(problem: Problem) -> Iterator[str]:
    """Lines on colours that can't do what colours are for: to be given by several options."""
    if not problem.colours:
        return
    by_item = lines_by_colour(problem)
    mixed = [f"{quoted(name)} (line{'s' * (len(by[None]) > 1)} {first_few(by[None], 3)})" for name, by in by_item.items()
             if None in by and len(by) > 1]
    if mixed:
        yield ("in some options with a colour and in others without, which agree with none: secondary "
               f"{plural(len(mixed), 'item', False)} {first_few(mixed, MANY)}")
    several = {colour for by in by_item.values() for colour, lines in by.items() if len(lines) > 1}
    alone = [quoted(colour) for colour in problem.colours if colour not in several]
    if alone:
        yield f"given to no item by two options, and so without effect: {plural(len(alone), 'colour', False)} {first_few(alone, MANY)}"


def strange_names(problem: Problem) -> Iterator[str]:
    """Lines on names that are allowed but perhaps not meant."""
    names = list(problem.items) + list(problem.colours)
    commas = [quoted(name) for name in names if name[-1:] in (b",", b";")]
    if commas:
        yield f"words are parted by white space, so the comma belongs to the name in {first_few(commas, MANY)}"
    unseen = [quoted(name) for name in names if shown(name) != name.decode("utf-8", "replace")]
    if unseen:
        yield f"characters that can't be seen stand in the {plural(len(unseen), 'name', False)} {first_few(unseen, MANY)}"
    alike: dict[str, list[str]] = {}
    for name in dict.fromkeys(names):
        alike.setdefault(looks(name), []).append(ascii(shown(name)))
    for some in alike.values():
        if len(some) > 1:
            yield f"names that look alike and are different: {first_few(some, MANY)}"


def explain_good(problem: Problem, text: bytes) -> Iterator[str]:
    by_item = problem.options_by_item()
    yield counts(problem)
    yield from near_limits(problem)
    if problem.ignored:
        lines = first_few([option.line for option in problem.ignored], MANY)
        yield f"{plural(len(problem.ignored), 'option')} ignored for naming no primary item: line{'s' * (len(problem.ignored) > 1)} {lines}"
    yield from rare_items(problem, by_item)
    yield from forced_clashes(problem, by_item)
    yield from room_words(problem, text)
    yield from items_together(by_item)
    yield from equal_options(problem)
    yield from colour_habits(problem)
    yield from strange_names(problem)


# ---- an answer

def colour_words(problem: Problem, name: bytes, places: list[int]) -> list[str]:
    """What each of the options gives the item, behind its place; nothing where none of them gives it a colour."""
    options = [problem.options[place] for place in places]
    colours = [option.colours[option.names.index(name)] for option in options]
    return [(f" in {quoted(colour)}" if colour else " without a colour") if any(colours) else "" for colour in colours]


def explain_cover(problem: Problem, answer: Answer) -> Iterator[str]:
    """Lines on each item that the chosen options leave out or name twice."""
    by_item = problem.options_by_item()
    for name in answer.uncovered(problem):
        lines = [problem.options[place].line for place in by_item[name]]
        which = f"options that name it: line{'s' * (len(lines) > 1)} {first_few(lines, MANY)} of the file" if lines else "no option names it"
        yield f"uncovered: {quoted(name)} ({which})"
    for name, users in answer.covered_twice(problem):
        chosen = [answer.chosen[k] for k in users]
        colours = colour_words(problem, name, [place for _, place in chosen])
        options = [f"line {words[0].line} of the answer (line {problem.options[place].line} of the file){colour}"
                   for (words, place), colour in zip(chosen, colours)]
        yield f"covered {'twice' if len(users) == 2 else f'{len(users)} times'}: {quoted(name)} by {first_few(options, MANY)}"


def verdict(problem: Problem, answer: Answer) -> Optional[str]:
    """What the program says of an answer that it reads; None where only its search can tell."""
    if answer.kind == "none":
        by_item = problem.options_by_item()
        return None if all(by_item[name] for name in problem.primary_names()) else "right"
    uncovered, twice = answer.uncovered(problem), answer.covered_twice(problem)
    if uncovered:
        return "wrong: Uncovered " + shown(uncovered[0])
    return "wrong: CoveredTwice " + shown(twice[0][0]) if twice else "right"


def explain_answer(problem: Problem, answer: Answer) -> Iterator[str]:
    for fault in answer.faults[:MOST]:
        place = f"line {fault.line}" if fault.line else "the answer"
        yield f"{place}: {fault.name}: {answer_fault_words(problem, answer, fault)}"
    if len(answer.faults) > MOST:
        yield f"and {len(answer.faults) - MOST:,} more faults"
    if answer.kind == "none":
        if verdict(problem, answer) is None:
            yield BY_SEARCH + ": solve_cli check FILE ANSWER"
        return
    wrong = list(explain_cover(problem, answer))
    if answer.faults and answer.chosen:
        yield f"of the {plural(len(answer.chosen), 'line')} that can be read:" + ("" if wrong else " no item is uncovered or covered twice")
        yield from wrong
    elif not answer.faults:
        yield from wrong
        colours = " unless in one colour" if problem.colours else ""
        exact = ", each primary item in exactly one of them, no secondary item in two" + colours
        yield plural(len(answer.chosen), "option") + (": no exact cover" if wrong else exact)


# ---- the whole

def beside(fault: Fault) -> list[str]:
    """What the program writes beside a refusal: the name that no item has."""
    if fault.name != "UnknownItem" or fault.word is None:
        return []
    return ["no item is named " + shown(fault.word.text.partition(b":")[0])]


def program_lines(problem: Problem, answer: Optional[Answer]) -> list[str]:
    """What the program writes on standard error, and of an answer its verdict, so far as counting tells it."""
    if problem.faults:
        return ["refused: " + refusal(problem.faults), *beside(problem.faults[0])]
    if answer and answer.faults:
        return ["answer refused: " + refusal(answer.faults)]
    ignored = [f"ignored {len(problem.ignored)}"] if problem.ignored else []
    told = verdict(problem, answer) if answer else None
    return ([told] if told else []) + ignored


def explain(text: bytes, answer_text: Optional[bytes] = None) -> tuple[list[str], bool]:
    """All lines on a problem's text and perhaps an answer's, and whether nothing is wrong."""
    problem = read_problem(text)
    meant, remarks = as_meant(text)
    answer = read_answer(answer_text, problem) if answer_text is not None and not problem.faults else None
    lines = [SAYS + line for line in program_lines(problem, answer)]
    if problem.faults:
        lines += explain_refused(problem, meant, remarks)
        if answer_text is not None:
            lines.append("the answer is tested once the file can be read")
        return lines, False
    lines += remarks + list(explain_good(problem, text))
    if answer:
        lines += list(explain_answer(problem, answer))
    return told_lines(problem, lines), not (answer and (answer.faults or (verdict(problem, answer) or "right") != "right"))


def main(words: Optional[Sequence[str]] = None) -> int:
    parser = parser_of(__doc__)
    parser.add_argument("file", metavar="FILE", help="the problem's file, or - for the standard input")
    parser.add_argument("answer", metavar="ANSWER", nargs="?", help="an answer to it, as the program writes or checks it, or -")
    given = parser.parse_args(words)
    if given.file == given.answer == "-":
        parser.error("- is the standard input, which can be read once")
    try:
        text = read_bytes(given.file)
        answer_text = None if given.answer is None else read_bytes(given.answer)
    except TooLarge as why:
        print(why)
        return 3
    except Unreadable as why:
        print(why)
        return 3
    lines, is_good = explain(text, answer_text)
    print("\n".join(lines))
    return 0 if is_good else 1


if __name__ == "__main__":
    run(main)
