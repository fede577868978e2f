"""Draws an answer to a problem file: as text in the terminal, and as a picture in SVG.

    zarfepoch-draw FILE ANSWER [--svg OUT] [--plan NAME ..] [--csv PLAN.csv] [--grid WEEK.csv] [--out-dir FOLDER]
    solve_cli answer FILE | zarfepoch-draw FILE -

The kind of picture follows from the names of the items: tilings (cells are named by row and column, as 07, 0011 or
3-12) and solids (by layer, row and column, as 0-1-2), queens (r0 c0 and diagonals), sudokus (p00 r01 c01 b01, with
regions of any shape, diagonals x1 y1, cages k0.1), kakuros (12 a5.8 d2.8), Langford pairs (1 s1 s3), timetables
(ann-1), map colourings (A-B=red), perfect matchings of a graph (options of two items), lines through points (12 13 23);
of problems with colours squares with coloured sides (12 h12:red v13:blue ..), words that cross (12:b 13:e), nonograms
and star battles (row0 00:black ..), and cubes in a row. What isn't known is written as a list. Of the answer `none` the
empty board is drawn where there is one; what `solve --audit` or `answer --reason` writes behind it is passed over. One
of FILE and ANSWER may be `-`, the standard input. Where OUT is `-` the SVG is written in place of the text.

Of a timetable whose periods have their days (Mon1) a plan is drawn for each class, or for those whom --plan names:
names of classes, teachers or rooms, or classes, teachers, rooms or all. A week begins with Monday, and a sheet is at
most 1,200 pixels wide. --csv writes the plan as a table, a row for each time that a lesson is given, for a spreadsheet
and for zarfepoch-generate timetable --keep. --grid writes the same plans as are drawn, as a table that people read,
with a row for each number of a period and a column for each day. Where one of these files is `-`, it is written in
place of the text. --out-dir writes a picture NAME.svg and such a table NAME.csv into a folder for each of those whose
plans are drawn.

Comments of the file that zarfepoch-generate writes say what items can't: the given digits of a sudoku, its regions and
the marks for its digits (`| given: 4.3. ..`, `| regions: aabb ..`, `| digits: 0123..`), the grid of a crossword
(`| grid: ..#.. ..`), the size of a kakuro, the shapes of pieces that have no item (`| piece L: xxx/x..`), who is a
teacher, a class or a room (`| teachers: ann bob`), the order of periods, who takes part in a lesson without an item
(`| also maths: hall`), the lesson that another follows (`| follows lab: chemistry`), their lengths and titles, and the
names that numbers mean (`| name 7: Mathematics for beginners`). Where a comment contradicts the items it is passed
over.

The picture shows what the answer says; whether that is right is for the program to say (solve_cli check FILE ANSWER).
The exit status is 0, 2 for a mistake on the command line, 3 for a file or an answer that can't be read, or where a
picture or the standard output can't be written.
"""
from __future__ import annotations

from argparse import Namespace

from .command_line.ends import complain, run, stop
from .command_line.words import parser_of
from .command_line.written import keep_what_is_read
from .files.cover_files import Answer, Problem, read_audited, read_problem, refusal, shown
from .files.whole_files import Unreadable, read_bytes, write_out
from .pictures.kinds import picture_of
from .pictures.plan_files import add_tables, with_plans, write_plans
from .pictures.svg_paper import Paper
from .texts.puzzles import called


def title_of(text: bytes, file: str) -> str:
    """The file's first comment, else its name."""
    for line in text.split(b"\n"):
        if line.strip():
            comment = line.strip()
            return shown(comment[1:].strip()) if comment.startswith(b"|") and comment[1:].strip() else file
    return file


def want_answer(path: str, text: bytes) -> None:
    """Ends the script where there is no answer that could be drawn."""
    if not text.strip():
        stop(f"{called(path)} is empty: the program wrote no answer, and said on standard error why", 3)
    if text.split(b"\n")[0].strip() == b"no answer":
        stop(f"{called(path)} says 'no answer': the search ended before it knew one, so there is nothing to draw", 3)


def read_files(given: Namespace) -> tuple[Problem, str, Answer]:
    """The problem, its title, and the answer."""
    try:
        text = read_bytes(given.file)
        answer_text = read_bytes(given.answer)
    except Unreadable as why:
        stop(why, 3)
    problem = read_problem(text)
    if problem.faults:
        stop(f"{called(given.file)} is refused: {refusal(problem.faults)}; zarfepoch-explain {given.file} explains it", 3)
    want_answer(given.answer, answer_text)
    answer = read_audited(answer_text, problem)
    if answer.faults:
        stop(f"{called(given.answer)} is refused: {refusal(answer.faults)}; zarfepoch-explain {given.file} {given.answer} explains it", 3)
    return problem, title_of(text, given.file), answer


def main() -> int:
    parser = parser_of(__doc__)
    parser.add_argument("file", metavar="FILE", help="the problem's file, or - for the standard input")
    parser.add_argument("answer", metavar="ANSWER", help="the answer's file, or - for the standard input")
    parser.add_argument("--svg", metavar="OUT", help="where the picture is written, - for the standard output")
    parser.add_argument("--plan", metavar="NAME", nargs="+", action="extend", default=[],
                        help="of a timetable, whose plans are drawn: names, or classes, teachers, rooms or all")
    add_tables(parser)
    given = parser.parse_args()
    if given.file == given.answer == "-":
        parser.error("- is the standard input, which can be read once")
    if [given.svg, given.csv, given.grid].count("-") > 1:
        parser.error("- is the standard output, which takes one of picture and tables")
    keep_what_is_read(given)
    problem, title, answer = read_files(given)
    chosen = [problem.options[place] for _, place in answer.chosen]
    picture = with_plans(picture_of(problem, chosen, answer.kind == "none"), given.plan)
    if given.svg:
        paper = Paper(title)
        picture.draw(paper)
        write_out(given.svg, paper.svg())
    write_plans(given, picture, title)
    if "-" not in (given.svg, given.csv, given.grid):
        print("\n".join(picture.text()))
    if answer.kind == "cover" and (answer.uncovered(problem) or answer.covered_twice(problem)):
        complain(f"this is no exact cover; zarfepoch-explain {given.file} {given.answer} tells why")
    return 0


if __name__ == "__main__":
    run(main)
