"""Files that are read to their end, or not at all, and written whole, or not at all."""
from __future__ import annotations

import contextlib
import os
import shutil
import sys
import tempfile
from typing import BinaryIO

from ..command_line.ends import stop

# kept options take some 15 MB at the limits of a problem; a file of far more, by comments and options that are ignored,
# is not read here
LARGEST = 1 << 26


class Unreadable(Exception):
    """A file that can't be read; its text names the file and the cause."""


class TooLarge(Unreadable):
    """A file that is not read here, and that the program may read."""


def all_bytes(opened: BinaryIO, path: str) -> bytes:
    """All bytes of an opened file; `TooLarge` where there are more than a script reads."""
    text = opened.read(LARGEST + 1)
    if len(text) > LARGEST:
        raise TooLarge(f"{path} has more than {LARGEST:,} bytes, and this script reads no more")
    return text


def standard_input() -> bytes:
    """All bytes of the standard input; `Unreadable` where it is closed or refused by the system."""
    if sys.stdin is None:
        raise Unreadable("the standard input can't be read: it is closed")
    try:
        return all_bytes(sys.stdin.buffer, "the standard input")
    except OSError as why:
        raise Unreadable(f"the standard input can't be read: {why.strerror}") from None


def read_bytes(path: str) -> bytes:
    """All bytes of a file, or of the standard input, which is `-`; `Unreadable` where it is missing, a folder, too
    large, or refused by the system."""
    if path == "-":
        return standard_input()
    if not path:
        raise Unreadable("a file without a name can't be read")
    if os.path.isdir(path):
        raise Unreadable(f"{path} can't be read: it is a folder")
    try:
        with open(path, "rb") as opened:
            return all_bytes(opened, path)
    except FileNotFoundError:
        folder = os.path.dirname(path) or "."
        where = "" if os.path.isdir(folder) else f", and neither is the folder {folder}"
        raise Unreadable(f"{path} can't be read: there is no such file{where}") from None
    except PermissionError:
        raise Unreadable(f"{path} can't be read: this user may not read it") from None
    except (OSError, ValueError) as why:
        raise Unreadable(f"{path} can't be read: {getattr(why, 'strerror', None) or why}") from None


def put(path: str, text: str) -> None:
    """Writes a text into a file, whole or not at all."""
    put_bytes(path, text.encode("utf-8"))


def put_bytes(path: str, text: bytes) -> None:
    """Writes a file whole or not at all; what is no plain file, as a device or a pipe, is written as it stands."""
    if os.path.exists(path) and not os.path.isfile(path):
        with open(path, "wb") as file:
            file.write(text)
        return
    real = os.path.realpath(path)
    # (a name that no other file and no other run has, in the same folder, since only there a new name takes no copy)
    try:
        handle, part = tempfile.mkstemp(prefix=".part-", dir=os.path.dirname(real))
    except OSError as why:
        raise OSError(why.errno, why.strerror, path) from None
    try:
        with open(handle, "wb") as file:
            file.write(text)
        os.chmod(part, 0o666 & ~umask())
        if os.path.exists(real):
            shutil.copymode(real, part)
        os.replace(part, real)
    finally:
        with contextlib.suppress(OSError):
            os.remove(part)


def write_out(path: str, text: str) -> None:
    """Writes a picture or a table into a file, or on the standard output; ends the script where it can't be written."""
    if path == "-":
        sys.stdout.buffer.write(text.encode("utf-8"))
        return
    try:
        put(path, text)
    except OSError as why:
        stop(f"{path} can't be written: {why.strerror}", 3)


def umask() -> int:
    """The rights that this process takes from each new file. (It can only be read by setting it.)"""
    own = os.umask(0o077)
    os.umask(own)
    return own
