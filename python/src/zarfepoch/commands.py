"""The commands that pip and scripts/install.sh put on the path, each the main function of a module of the package:
`zarfepoch-explain` is that of `explain`, `zarfepoch-why-none` that of `why_none`, and `zarfepoch` that of the package.
This is the list of them; pip has it once more, in pyproject.toml, and finds each by the name of its module, or of the
package.
"""
from __future__ import annotations

import importlib
from collections.abc import Callable
from typing import NoReturn

from .command_line.ends import run, Status


def command_of(module: str) -> Callable[[], NoReturn]:
    """What runs the main function of a module of the package to its exit status. The module is read only then."""
    def main() -> Status:
        found: Status = importlib.import_module(f"{__package__}.{module}").main()
        return found

    def command() -> NoReturn:
        run(main)
    return command


# the commands by their names on the path, each with the module of its main function
COMMANDS = {"zarfepoch": "__main__", **{"zarfepoch-" + name.replace("_", "-"): name for name in (
    "another", "check_certificate", "check_reason", "draw", "explain", "generate", "join", "split", "why_none")}}


def __getattr__(name: str) -> Callable[[], NoReturn]:
    """A command as pip calls it."""
    module = "__main__" if name == __package__ else name
    if module not in COMMANDS.values():
        raise AttributeError(f"module {__name__!r} has no attribute {name!r}")
    return command_of(module)
