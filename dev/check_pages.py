#!/usr/bin/env python3
"""Checks the pages: the names in them, their links, words and tables of options.

    python3 dev/check_pages.py [PAGE ..]

Without a PAGE it checks every page (*.md) of the repository. Names are read in backquotes, outside of blocks of code:

- a word with `_`, or with a capital and a small letter, is a whole word of the code;
- in `crate::name` the name is in that crate, and in `Type::name` both words are in one file;
- on the page of a crate, a small word in brackets is the name of a clause there;
- a path is that of a file or folder, from the top or from some folder on; a file of definitions may lack its ending.

Words of capitals alone are places that a reader fills in. The code is what is in crates, scripts, trials, dev, bench,
examples and python, without pages, bugs and the comments of Rattle; names of files count too.

The target of each link exists, and its heading. Outside of code no page uses a word of REFUSED. No comment of Rattle
uses a word of REFUSED_IN_COMMENTS. The options in the tables of COMMANDS, SOLVE and SIMULATE are those of the program's
help, and COMMANDS has a row for each command. The version is the same in the program, in the package for Python, in
CITATION.cff and at the top of CHANGELOG.md.

Each mistake is printed with its page and line, and a last line counts them. The exit status is 1 if there is any, else
0, or 2 for a mistake on the command line.
"""
from __future__ import annotations

import glob
import os
import re
import sys
from collections.abc import Iterator

sys.path.insert(0, os.path.join(os.path.dirname(os.path.abspath(__file__)), "..", "trials"))
from built import TOP, parser_of, stop  # noqa: E402

CODE = ("crates", "scripts", "trials", "dev", "bench", "examples", "python")
PASSED = {".git", "out", "__pycache__", "build"}
ENDINGS = (".md", ".rt", ".antt", ".py", ".dlx", ".edit", ".csv", ".svg", ".c", ".txt")
# of the system or the language, so not in the code
KNOWN = {"/dev/stdin", "/usr/bin/python3"}
# words that no page uses
REFUSED = ("tells", "stands", "anew", "want of memory", "of which no clause speaks", "comes to", "told by")
# words that no comment in crates uses
REFUSED_IN_COMMENTS = ("anew", "want of", "tells whether", "tells of", "told by")
# where a comment begins in Rattle's files
COMMENT_MARKS = {".rt": "//", ".antt": "--"}
# the command whose options a page's table lists, and the file that has the help
TABLES = {"docs/SOLVE.md": "solve", "docs/SIMULATE.md": "simulate"}
# the page that has a table of the commands
ALL_COMMANDS = "docs/COMMANDS.md"
# where the version stands, each with what stands around it; it is the same in all
VERSIONS = {
    "crates/command_line/src/commands.rt": r'^const VERSION: &str = "(.*)";$', "python/src/zarfepoch/__init__.py": r'^__version__ = "(.*)"$',
    "CITATION.cff": r"^version: (.*)$", "CHANGELOG.md": r"^## ([0-9.]+)\b"}
# the number of a line and what is wrong there
Mistake = tuple[int, str]
COMMANDS = "crates/command_line/src/commands.rt"


def all_paths() -> list[str]:
    """The paths of all files and folders, from the top on."""
    found = []
    for folder, folders, files in os.walk(TOP):
        folders[:] = sorted(set(folders) - PASSED)
        found += [os.path.relpath(os.path.join(folder, name), TOP) for name in folders + files]
    return found


def without_comments(path: str, text: str) -> str:
    """A file's text without its comments: what only they name isn't there."""
    mark = COMMENT_MARKS.get(os.path.splitext(path)[1])
    return re.sub(rf"{mark}.*", "", text) if mark else text


def words_of_files(paths: list[str]) -> dict[str, set[str]]:
    """The words of each file of code."""
    words = {}
    for path in paths:
        full = os.path.join(TOP, path)
        if path.split(os.sep)[0] in CODE and os.path.isfile(full) and not path.endswith((".md", ".edit")):
            with open(full, encoding="utf-8", errors="replace") as file:
                words[path] = set(re.findall(r"\w+", without_comments(path, file.read())))
    return words


def clauses_of(crate: str) -> set[str]:
    """The names of the clauses in the contracts of a crate."""
    names = set()
    for path in glob.glob(os.path.join(TOP, "crates", crate, "src", "*.rt")):
        with open(path, encoding="utf-8") as file:
            names.update(re.findall(r"\b(?:ensures|requires) (\w+) \{", file.read()))
    return names


class Repository:
    """What there is to be named."""

    def __init__(self) -> None:
        self.paths = all_paths()
        self.files = words_of_files(self.paths)
        self.words = set().union(*self.files.values())
        self.words |= {os.path.basename(path).split(".")[0] for path in self.paths}
        self.crates = set(os.listdir(os.path.join(TOP, "crates")))
        self.clauses = {crate: clauses_of(crate) for crate in self.crates}

    def lacks_clause(self, page: str, name: str) -> bool:
        """Whether the page is that of a crate without a clause of this name."""
        crate = re.fullmatch(r"crates/(\w+)/README\.md", os.path.relpath(page, TOP).replace(os.sep, "/"))
        return crate is not None and name not in self.clauses[crate[1]]

    def has_path(self, path: str) -> bool:
        """Whether some path ends so, at the beginning of a name."""
        parts = path.removeprefix("./").strip("/").split("/")
        pattern = "/".join("[^/]+" if part.isupper() else re.escape(part) for part in parts)
        ends = re.compile(rf"(^|/){pattern}(\.antt)?$")
        return any(ends.search(known) for known in self.paths)

    def has_both(self, first: str, second: str) -> bool:
        """Whether both words stand in one file, or the second in the crate that is the first."""
        if first in self.crates:
            inside = f"crates/{first}/"
            return any(second in words for path, words in self.files.items() if path.startswith(inside))
        return any(first in words and second in words for words in self.files.values())

    def has_name(self, name: str) -> bool:
        """Whether a name is there, with those that it belongs to."""
        parts = name.split("::")
        if len(parts) == 1:
            return name in self.words
        return all(self.has_both(first, second) for first, second in zip(parts, parts[1:]))


def is_name(word: str) -> bool:
    """Whether a word looks like a name of the code."""
    if not re.fullmatch(r"[A-Za-z_]\w*(::\w+)*", word):
        return False
    return "_" in word.strip("_") or "::" in word or bool(re.search("[a-z]", word) and re.search("[A-Z]", word))


def is_path(word: str) -> bool:
    """Whether a word looks like the path of a file."""
    return bool(re.fullmatch(r"[\w./-]+", word)) and (word.endswith(ENDINGS) or "/" in word.strip("/"))


def named_in(quoted: str) -> Iterator[tuple[str, bool]]:
    """The names and paths in what stands between backquotes."""
    for word in quoted.split():
        word = word.strip(",:;()[]{}<>&'\"=")
        if is_path(word):
            if word not in KNOWN and not PASSED & set(word.split("/")):
                yield word, True
        elif "-" not in word:
            for name in filter(is_name, re.findall(r"\w+(?:::\w+)*", word)):
                yield name, False


def heading_slugs(path: str) -> set[str]:
    """The names under which the headings of a page are linked."""
    with open(path, encoding="utf-8") as file:
        heads = [line.lstrip("#").strip().lower() for line in file if line.startswith("#")]
    return {re.sub(r"[^\w -]", "", head).replace(" ", "-") for head in heads}


def is_link_there(page: str, target: str) -> bool:
    """Whether the target of a link of a page is there."""
    path, _, heading = target.partition("#")
    full = os.path.join(os.path.dirname(page), path) if path else page
    if not os.path.exists(full):
        return False
    return not heading or heading in heading_slugs(full)


def prose_of(page: str) -> str:
    """The text of a page, with empty lines in place of blocks of code: what is indented behind an empty line."""
    lines = ["\n"]
    with open(page, encoding="utf-8") as file:
        for line in file:
            is_code = line.startswith("    ") and lines[-1] == "\n"
            lines.append("\n" if is_code else line)
    return "".join(lines[1:])


def found_in(prose: str, pattern: str) -> Iterator[tuple[int, str]]:
    """What a pattern's group finds, each with the number of its line."""
    for found in re.finditer(pattern, prose):
        yield prose.count("\n", 0, found.start()) + 1, found[1]


def missing_in(page: str, prose: str, repository: Repository) -> Iterator[Mistake]:
    """What a page names that isn't there, with the number of the line."""
    for number, quoted in found_in(prose, r"`((?:[^`\n]|\n(?!\n))+)`"):
        for name, path in named_in(quoted):
            if not (repository.has_path(name) if path else repository.has_name(name)):
                yield number, name
    for number, group in found_in(prose, r"\(((?:`[a-z]+`(?:,\s|\sand\s)?)+)\)"):
        for name in re.findall(r"`(\w+)`", group):
            if repository.lacks_clause(page, name):
                yield number, name
    for number, target in found_in(prose, r"\]\(([^)\s]+)\)"):
        if not re.match(r"[a-z]+:", target) and not is_link_there(page, target):
            yield number, target


def comments_of(path: str) -> str:
    """The lines of comments of a file, without their marks, and empty lines in place of the others."""
    mark = COMMENT_MARKS[os.path.splitext(path)[1]]
    with open(path, encoding="utf-8") as file:
        return "\n".join(line.strip().lstrip("/!-") if line.lstrip().startswith(mark) else "" for line in file)


def refused_in(prose: str, refused: tuple[str, ...]) -> Iterator[Mistake]:
    """The words of a text that nobody would say, with the number of the line."""
    plain = re.sub(r"`(?:[^`\n]|\n(?!\n))+`", lambda quoted: "\n" * quoted[0].count("\n"), prose)
    words = "|".join(re.sub(" ", r"\\s+", word) for word in refused)
    for number, word in found_in(plain, rf"(?i)\b({words})\b"):
        yield number, f'"{" ".join(word.split())}" is no plain English'


def options_of(function: str, bodies: dict[str, str]) -> set[str]:
    """The options that a function of the program's help adds, with those of the functions that it calls."""
    body = bodies[function]
    called = set(re.findall(r"\b(\w+)\(", body)) & set(bodies) - {function}
    own = re.findall(r'\.long\("([\w-]+)"\)|_argument\(\s*alloc,\s*"([\w-]+)"', body)
    return {name for pair in own for name in pair if name}.union(*(options_of(other, bodies) for other in called))


def options_in_help() -> dict[str, set[str]]:
    """The options of each subcommand, as the code of the help has them."""
    with open(os.path.join(TOP, COMMANDS), encoding="utf-8") as file:
        parts = re.split(r"^(?:pub )?fn (\w+)", file.read(), flags=re.MULTILINE)
    bodies = dict(zip(parts[1::2], parts[2::2]))
    return {name[:-8]: options_of(name, bodies) for name in bodies if name.endswith("_command")}


def commands() -> set[str]:
    """The subcommands, as the code names them."""
    with open(os.path.join(TOP, COMMANDS), encoding="utf-8") as file:
        return set(re.findall(r'Mode::\w+ => "(\w+)"', file.read()))


def options_in_page(page: str, name: str) -> Iterator[tuple[int, str, set[str]]]:
    """The options of each subcommand in the tables of a page, with the number of the line."""
    with open(page, encoding="utf-8") as file:
        text = file.read()
    if name in TABLES:
        yield 1, TABLES[name], set(re.findall(r"^\| `--([\w-]+)`", text, re.MULTILINE))
    elif name == ALL_COMMANDS:
        for number, row in found_in(text, r"(?m:^)\| `solve_cli (\w+ [^`]*)`"):
            yield number, row.split()[0], set(re.findall(r"--([\w-]+)", row))


def options_wrong_in(page: str, name: str) -> Iterator[Mistake]:
    """Options in a page's tables that the help lacks, or the other way round."""
    helped, rows = options_in_help(), list(options_in_page(page, name))
    for number, command, options in rows:
        for option in sorted(options ^ helped.get(command, set())):
            yield number, f"--{option} of {command} is not in the {'help' if option in options else 'table'}"
    if name == ALL_COMMANDS:
        for command in sorted(commands() - {command for _, command, _ in rows}):
            yield 1, f"{command} is not in the table"


def refused_in_comments(paths: list[str]) -> Iterator[str]:
    """The words in comments of the crates that nobody would say, each with its file and line."""
    for path in paths:
        if path.startswith("crates" + os.sep) and path.endswith(tuple(COMMENT_MARKS)):
            for number, what in refused_in(comments_of(os.path.join(TOP, path)), REFUSED_IN_COMMENTS):
                yield f"{path}:{number}: {what}"


def versions() -> dict[str, str]:
    """The version that each file says that has one: the first there."""
    found = {}
    for path, pattern in VERSIONS.items():
        with open(os.path.join(TOP, path), encoding="utf-8") as file:
            said = re.search(pattern, file.read(), re.MULTILINE)
        found[path] = said[1] if said else "none"
    return found


def mistakes_in(page: str, repository: Repository) -> tuple[list[Mistake], list[Mistake]]:
    """The names of a page that aren't there, and its other mistakes, each with the number of the line."""
    name = os.path.relpath(page, TOP).replace(os.sep, "/")
    prose = prose_of(page)
    names = list(missing_in(page, prose, repository))
    others = [*refused_in(prose, REFUSED), *options_wrong_in(page, name)]
    return names, others


def main() -> int:
    parser = parser_of(__doc__)
    parser.add_argument("pages", nargs="*", metavar="PAGE", help="a page to read, in place of all")
    given = parser.parse_args().pages
    for page in given:
        if not os.path.isfile(page):
            stop(f"there is no page {page}")
    repository = Repository()
    pages = given or [os.path.join(TOP, path) for path in sorted(repository.paths) if path.endswith(".md")]
    missing, wrong = 0, 0
    for page in pages:
        names, others = mistakes_in(page, repository)
        for number, what in sorted(names + others):
            print(f"{os.path.relpath(page, TOP)}:{number}: {what}")
        missing, wrong = missing + len(names), wrong + len(others)
    for what in () if given else refused_in_comments(repository.paths):
        print(what)
        wrong += 1
    said = versions()
    if len(set(said.values())) > 1 and not given:
        print("the versions differ: " + ", ".join(f"{path} {version}" for path, version in said.items()))
        wrong += 1
    print(f"{len(pages)} pages, {missing} names that are not there, {wrong} other mistakes")
    return 1 if missing or wrong else 0


if __name__ == "__main__":
    sys.exit(main())
