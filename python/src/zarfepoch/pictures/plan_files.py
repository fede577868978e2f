"""Plans of a timetable as files: as CSV that people read, and a folder with a picture and such a table for each class,
teacher or room; and what command lines have for them."""
from __future__ import annotations

import os
import re
from argparse import ArgumentParser, Namespace
from collections.abc import Iterable

from ..command_line.ends import stop
from ..command_line.written import read_by
from ..files.whole_files import put, write_out
from .base import Kind
from .svg_paper import Paper
from .timetables import draw_plans, Timetable

# the longest name of a file here, in bytes and without what stands behind the dot
LONGEST = 200


def timetable_of(picture: Kind, option: str) -> Timetable:
    """A picture that is a timetable with a plan; ends the script where it is none, and so can't be written as an option
    of the command wants."""
    if not isinstance(picture, Timetable):
        return stop(f"{option} is for timetables, and this is none")
    if picture.is_none:
        stop(f"there is no plan, so {option} writes none", 3)
    return picture


def grid_of(picture: Kind) -> str:
    """The plans that are wanted, or of all, as CSV with periods down and days across; ends the script where there are
    none."""
    timetable = timetable_of(picture, "--grid")
    return timetable.grid(timetable.wanted() or timetable.called("all"))


def file_names(names: Iterable[str]) -> list[str]:
    """For each name that of a file, without what a system can't have in one; none is another one's in other
    capitals."""
    found: dict[str, str] = {}
    for name in names:
        # (no system has these, and a name that begins with a dot isn't seen)
        plain = re.sub(r'[\x00-\x1f<>:"/\\|?*]|^\.', "_", name).encode()[:LONGEST].decode(errors="ignore").rstrip(". ") or "_"
        tries = (plain + (f"-{number}" if number > 1 else "") for number in range(1, len(found) + 2))
        free = next(one for one in tries if one.casefold() not in found)
        found[free.casefold()] = free
    return list(found.values())


def write_each(folder: str, picture: Kind, title: str, read: set[str]) -> None:
    """Writes a picture and a table for each of whom a plan is wanted, or for all, over none of the files that are
    read; a lesson has one colour in all of them."""
    timetable = timetable_of(picture, "--out-dir")
    wanted = timetable.wanted() or timetable.called("all")
    plans = [timetable.plan(who) for who in wanted]
    fills = timetable.fills(plans)
    paths = [os.path.join(folder, name) for name in file_names(map(timetable.full, wanted))]
    files = (path + ending for path in paths for ending in (".svg", ".csv"))
    over = next((file for file in files if os.path.realpath(file) in read), None)
    if over:
        stop(f"--out-dir would write over {over}, which is read here: another folder is wanted")
    try:
        os.makedirs(folder, exist_ok=True)
        for who, plan, path in zip(wanted, plans, paths):
            paper = Paper(f"{title}: {timetable.full(who)}")
            draw_plans(paper, [plan], fills)
            put(f"{path}.svg", paper.svg())
            put(f"{path}.csv", timetable.grid([who]))
    except OSError as why:
        stop(f"{why.filename or folder} can't be written: {why.strerror}", 3)


# ---- command lines

def add_tables(parser: ArgumentParser) -> None:
    """Adds what a command has for the plans of a timetable as files."""
    parser.add_argument("--csv", metavar="PLAN.csv", help="of a timetable, where the plan is written as a table with a row for each time of a lesson")
    parser.add_argument("--grid", metavar="WEEK.csv", help="of a timetable, where plans are written as a table that people read, with days across")
    parser.add_argument("--out-dir", metavar="FOLDER", help="of a timetable, where each plan is written as a picture and a table of its own")


def with_plans(picture: Kind, words: list[str]) -> Kind:
    """The picture with the plans that are wanted; ends the script where it has none of these."""
    if not words:
        return picture
    if not isinstance(picture, Timetable):
        stop("--plan is for timetables, and this is none")
    picture.plans = words
    if picture.unknown_plans():
        names = [picture.full(name) for name in picture.everybody()]
        stop(f"--plan takes classes, teachers, rooms, all, or a name of {', '.join(names)}; '{picture.unknown_plans()[0]}' is none of these")
    return picture


def write_plans(given: Namespace, picture: Kind, title: str) -> None:
    """Writes the plans of a timetable as the tables and into the folder that the command line wants."""
    if given.csv:
        write_out(given.csv, timetable_of(picture, "--csv").table())
    if given.grid:
        write_out(given.grid, grid_of(picture))
    if given.out_dir:
        write_each(given.out_dir, picture, title, read_by(given))
