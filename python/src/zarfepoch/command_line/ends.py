"""How the commands end: their exit status, and the line on standard error that tells why."""
from __future__ import annotations

import io
import os
import signal
import sys
import traceback
import warnings
from typing import Callable, NoReturn, Optional, TextIO, Union

from .words import as_called, called

Status = Union[int, str, None]


def complain(why: object) -> None:
    """Writes a line on standard error, if that is open."""
    if sys.stderr is not None:
        print(as_called(f"{called()}: {why}"), file=sys.stderr)


def stop(why: object, status: int = 2) -> NoReturn:
    """Ends the script with this status and tells why."""
    complain(why)
    sys.exit(status)


def show_warning(message: Union[Warning, str], category: type[Warning], filename: str, lineno: int,
                 file: Optional[TextIO] = None, line: Optional[str] = None) -> None:
    """Writes a warning as a line of the command's own, without the place in the code that is of no use to its users."""
    complain(message)


def status_of(main: Callable[[], Status]) -> Status:
    """The exit status of a main function, whether it returns it or ends the script."""
    try:
        return main()
    except SystemExit as ended:
        return ended.code


def run(main: Callable[[], Status]) -> NoReturn:
    """Runs a script's main function to its exit status.

    A reader that goes away, as `head` does, ends it quietly, with status 3. Where the standard output is closed or
    takes no more, or memory runs out, standard error has a line, too. A mistake of the script's own is never status 1,
    which would be an answer. A signal that ends it also ends the program that it runs; an interrupt is told nowhere. A
    warning of the package is a line on standard error.
    """
    if signal.getsignal(signal.SIGINT) is signal.SIG_DFL:
        # (what starts a command leaves interrupts to the system until its modules are read)
        signal.signal(signal.SIGINT, signal.default_int_handler)
    signal.signal(signal.SIGTERM, lambda number, frame: sys.exit(128 + number))
    if signal.getsignal(signal.SIGHUP) is signal.SIG_DFL:
        # (below nohup it is ignored, and stays so)
        signal.signal(signal.SIGHUP, lambda number, frame: sys.exit(128 + number))
    if sys.stdout is None:
        complain("the standard output can't be written: it is closed")
        sys.exit(3)
    if isinstance(sys.stdout, io.TextIOWrapper):
        sys.stdout.reconfigure(errors="backslashreplace")
    # (each text once, whatever the environment has Python do with warnings)
    warnings.simplefilter("once", UserWarning)
    warnings.showwarning = show_warning
    try:
        status = status_of(main)
        sys.stdout.flush()
    except MemoryError:
        complain("out of memory")
        status = 3
    except KeyboardInterrupt:
        signal.signal(signal.SIGINT, signal.SIG_DFL)
        os.kill(os.getpid(), signal.SIGINT)
    except OSError as why:
        # what is still buffered goes nowhere, so that the interpreter's own end doesn't fail once more
        os.dup2(os.open(os.devnull, os.O_WRONLY), sys.stdout.fileno())
        status = 3
        if not isinstance(why, BrokenPipeError):
            complain(f"the standard output can't be written: {why.strerror}")
    except Exception:
        # (the interpreter's own status is 1, that of what has no solution)
        traceback.print_exc()
        status = 3
    sys.exit(status)
