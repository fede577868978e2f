"""What all tests of the package share: the program, the options of the command line, and the package's folder for the
Pythons that they start."""
from __future__ import annotations

import os

import pytest

from built import SOLVE_CLI, TOP, path_of

SRC = os.path.join(TOP, "python", "src")


def pytest_addoption(parser: pytest.Parser) -> None:
    parser.addoption("--program", type=path_of, default=SOLVE_CLI, metavar="PROGRAM", help="the built program (default crates/solve_cli/out/solve_cli)")
    parser.addoption("--times", type=int, default=1, metavar="N", help="how many puzzles, tables and schools of each kind are drawn by lot (default 1)")


def pytest_configure(config: pytest.Config) -> None:
    """The program and the package for all that a test starts."""
    program = str(config.getoption("--program"))
    if not config.getoption("--collect-only") and not os.access(program, os.X_OK):
        raise pytest.UsageError(f"there is no program {program}; at the top of the repository scripts/build.sh builds it")
    os.environ["ZARFEPOCH"] = program
    os.environ["PYTHONPATH"] = SRC


@pytest.fixture(scope="session")
def program(pytestconfig: pytest.Config) -> str:
    """The path of the program."""
    return str(pytestconfig.getoption("--program"))


@pytest.fixture(scope="session")
def times(pytestconfig: pytest.Config) -> int:
    """How many of each kind are drawn by lot."""
    return int(pytestconfig.getoption("--times"))
