"""Tests the order of the package's modules: each takes only from those before it on the page of the package, and a
subpackage says from which."""
from __future__ import annotations

import ast
import graphlib
import os
import pathlib
import re
from collections.abc import Iterator

import pytest

from built import TOP

PACKAGE = pathlib.Path(TOP, "python", "src", "zarfepoch")
PATHS = sorted(PACKAGE.rglob("*.py"))
SUBPACKAGES = sorted(path.parent.name for path in PATHS if path.name == "__init__.py" and path.parent != PACKAGE)
# the package itself is a part of it, and comes behind all that the page lists
ITSELF = "__init__"


def module_of(path: pathlib.Path) -> tuple[str, ...]:
    """A module of the package by its names from the top on; a subpackage has one, and the package itself none."""
    names = path.relative_to(PACKAGE).with_suffix("").parts
    return names[:-1] if names[-1] == "__init__" else names


MODULES = {module_of(path) for path in PATHS}


def imported(path: pathlib.Path) -> Iterator[tuple[str, ...]]:
    """The modules of the package that a file of it imports."""
    folder = path.relative_to(PACKAGE).parts[:-1]
    for node in ast.walk(ast.parse(path.read_text(encoding="utf-8"))):
        if isinstance(node, ast.Import) or isinstance(node, ast.ImportFrom) and not node.level:
            names = [name.name for name in node.names] if isinstance(node, ast.Import) else [node.module or ""]
            assert not any(name.split(".")[0] == "zarfepoch" for name in names), f"{path}, line {node.lineno}: the package imports its own by dots"
        elif isinstance(node, ast.ImportFrom):
            base = (*folder[:len(folder) + 1 - node.level], *(node.module.split(".") if node.module else ()))
            yield from ((*base, name.name) if (*base, name.name) in MODULES else base for name in node.names)


def part_of(module: tuple[str, ...]) -> str:
    """The part of a module: its subpackage, or itself where it is in none."""
    return module[0] if module else ITSELF


def listed() -> list[str]:
    """The parts in the order of the page, from low to high."""
    with open(os.path.join(TOP, "python", "README.md"), encoding="utf-8") as page:
        section = page.read().partition("\n## Modules\n")[2].partition("\n## ")[0]
    lines = re.findall(r"^\d+\. ([^:]*):", section, re.MULTILINE)
    return [name for line in lines for name in re.findall(r"`(\w+)`", line)]


def rank_of(part: str, order: list[str]) -> int:
    """The place of a part in the order; what isn't listed comes last, as nobody takes anything from it."""
    return [*order, ITSELF, part].index(part)


def test_listed() -> None:
    """The page lists each subpackage, and each part once."""
    order = listed()
    parts = set(map(part_of, MODULES))
    assert len(order) == len(set(order)) and set(SUBPACKAGES) <= set(order) <= parts, f"the page of the package lists {order}"


@pytest.mark.parametrize("path", PATHS, ids=lambda path: str(path.relative_to(PACKAGE)))
def test_order(path: pathlib.Path) -> None:
    """A module takes from its own subpackage, and else from parts that come before its own."""
    order, own = listed(), part_of(module_of(path))
    taken = {part_of(module) for module in imported(path)} - ({own} if own in SUBPACKAGES else set())
    above = [part for part in sorted(taken) if rank_of(part, order) >= rank_of(own, order)]
    assert not above, f"{own} takes from {', '.join(above)}, which doesn't come before it"


def test_no_circle() -> None:
    """No module imports itself by way of others, inside a subpackage either."""
    graphlib.TopologicalSorter({module_of(path): set(imported(path)) for path in PATHS}).prepare()


@pytest.mark.parametrize("name", SUBPACKAGES)
def test_subpackage(name: str) -> None:
    """A subpackage has a text alone, which says what is in it and on which parts it stands: those that its modules take
    from, in order."""
    tree = ast.parse((PACKAGE / name / "__init__.py").read_text(encoding="utf-8"))
    text = ast.get_docstring(tree) or ""
    said = re.findall(r"`(\w+)`", text.partition("\n\nIt stands on ")[2])
    taken = {part_of(module) for path in (PACKAGE / name).glob("*.py") for module in imported(path)} - {name}
    order = listed()
    assert len(tree.body) == 1 and said == sorted(taken, key=lambda part: rank_of(part, order)), f"{name} stands on {taken}"
