"""The certificates of a search's parts: each checked against the part's file, and all joined to one of the whole, which
is checked again."""
from __future__ import annotations

import contextlib
import os
import shutil
import tempfile
from typing import BinaryIO, Callable, Iterable, Iterator

from ..check_certificate import Checker, Wrong
from ..files.whole_files import Unreadable, read_bytes, umask
from .joined_certificates import Joiner


class NotRight(Exception):
    """A certificate that is wrong; its text names the file and the line."""


def opened(path: str) -> BinaryIO:
    """A certificate, to be read line by line; `Unreadable` where the system refuses it."""
    try:
        return open(path, "rb")
    except OSError as why:
        raise Unreadable(f"{path} can't be read: {why.strerror}") from None


def check(problem: bytes, lines: Iterable[bytes], name: str) -> None:
    """Checks that these lines are a certificate of a problem; `NotRight` with this name where they aren't."""
    checker = Checker(problem, lines)
    try:
        checker.check()
    except Wrong as why:
        raise NotRight(f"{name} is wrong: line {checker.read}: expected {why}") from None
    except OSError as why:
        raise Unreadable(f"{name} can't be read: {why.strerror}") from None


def kind_of(problem: bytes, path: str) -> bytes:
    """Whether a right certificate of a problem is by cases or by clauses."""
    with opened(path) as lines:
        check(problem, lines, path)
    with opened(path) as lines:
        return lines.read(64).split()[1]


def body_of(path: str) -> Iterator[bytes]:
    """The lines of a certificate behind the two at its head."""
    with opened(path) as lines:
        for number, line in enumerate(lines):
            if number > 1:
                yield line.removesuffix(b"\n")


def write_tested(path: str, write: Callable[[BinaryIO], None], test: Callable[[str], None]) -> None:
    """Writes a file whole or not at all, once what was written under another name has passed a test; what is no plain
    file, as a device or a pipe, gets a copy."""
    real = os.path.realpath(path)
    is_plain = os.path.isfile(real) or not os.path.exists(real)
    handle, part = tempfile.mkstemp(prefix=".part-", dir=os.path.dirname(real) if is_plain else None)
    try:
        with open(handle, "wb") as file:
            write(file)
        test(part)
        if is_plain:
            os.chmod(part, 0o666 & ~umask())
            os.replace(part, real)
        else:
            shutil.copyfile(part, real)
    finally:
        with contextlib.suppress(OSError):
            os.remove(part)


def join_certificates(whole: str, joiner: Joiner, out: str) -> None:
    """Writes the certificate of the problem in a file that those of its parts make together."""
    def write(file: BinaryIO) -> None:
        file.writelines(line + b"\n" for line in joiner.text())

    def test(written: str) -> None:
        with opened(written) as lines:
            check(read_bytes(whole), lines, "the certificate of the whole")

    write_tested(out, write, test)
