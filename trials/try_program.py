#!/usr/bin/env python3
"""Runs the built program on the examples, on bad input, on failing outputs, installed and from Python, and compares
what it writes.

    python3 trials/try_program.py [PROGRAM]

It wants cc and the program, which is crates/solve_cli/out/solve_cli where none is named: (cd crates/solve_cli && rt run
-- --version) builds that. Each cover of an example is given back to `check`, and counted here once more. Of some runs
of `solve`, `record_sends.c`, which is built here and loaded before the C library, notes the packets that they send. The
last line is 'N passed, M failed'. The exit status is 0 where all passed, 1 where something failed, 2 for a mistake on
the command line or where there is no program.
"""
from __future__ import annotations

import doctest
import glob
import itertools
import os
import pty
import random
import re
import struct
import subprocess
import sys
import tempfile
import time
from typing import IO, Any, Callable, NamedTuple, Optional, Union

from built import parser_of, SOLVE_CLI, TOP, want_command, want_program
from expected import Trial
import zarfepoch
from zarfepoch import commands

PROGRAM = SOLVE_CLI
# what runs the commands of the package from a clone
LAUNCHER = os.path.join(TOP, "scripts", "zarfepoch")
# a word of a command line
Word = Union[str, bytes]
LINE = re.compile(r"\d+ s: \d+ visits, +\d+\.\d{4} % of the tree, \d+ jobs? out, fullest book \d+ %(?:, some \d+ (?:s|min|h|days) left)?")
LEARNED = re.compile(r"\d+ s: \d+ conflicts, \d+ clauses, \d+ restarts")
# what an answer rests on, where that is no reason
BASIS = re.compile(rb"by (search of (1 state|\d+ states)|(1 learned clause|\d+ learned clauses)|a run of (1 worker|\d workers))\n")
SPENT = b"ended: the fuel is spent: try more --fuel, or --unlimited\n"
# the header of a packet: magic, version, kind, the sender's node and incarnation, and the receiver's
HEADER = struct.Struct(">2sBBBIBI")
STEAL = 3
# the commands that install.sh installs, and all that it writes
COMMANDS = ("solve_cli", *commands.COMMANDS)
INSTALLED = ("share/zarfepoch/VERSION", *(path for name in COMMANDS for path in (
    f"bin/{name}", f"share/man/man1/{name}.1", f"share/bash-completion/completions/{name}", f"share/zsh/site-functions/_{name}")),
             "share/zarfepoch/zarfepoch")
# the examples without a cover
NONE = {"langford-5.dlx", "tetrominoes-4x5.dlx", "mutilated-chessboard.dlx"}
trial = Trial()
expect = trial.expect


def run(*words: Word, stdin: Optional[bytes] = None, stdout: Union[int, IO[bytes]] = subprocess.PIPE) -> tuple[bytes, bytes, int]:
    ended = subprocess.run([PROGRAM, *words], input=stdin, stdout=stdout, stderr=subprocess.PIPE, timeout=120)
    return ended.stdout, ended.stderr, ended.returncode


def on_terminal(*words: str) -> tuple[bytes, int]:
    """All that is written where both outputs are one terminal, and the status."""
    ours, its = pty.openpty()
    with subprocess.Popen([PROGRAM, *words], stdin=subprocess.DEVNULL, stdout=its, stderr=its) as process:
        os.close(its)
        text = b""
        try:
            while part := os.read(ours, 4096):
                text += part
        except OSError:
            pass  # (the terminal's other end is closed)
        os.close(ours)
    return text, process.returncode


def is_exact(file: str, answer: bytes) -> bool:
    """Whether the lines are options of the file in its order, and an exact cover, by counting."""
    with open(file, "rb") as opened:
        lines = [line.split() for line in opened.read().split(b"\n")]
    lines = [words for words in lines if words and not words[0].startswith(b"|")]
    bar = [place for place, word in enumerate(lines[0]) if word.startswith(b"|")]
    primary = set(lines[0][: bar[0]] if bar else lines[0])
    chosen = [line.split() for line in answer.split(b"\n")[1:-1]]
    places = [place for option in chosen for place, words in enumerate(lines[1:]) if words == option]
    used = [word.partition(b":") for option in chosen for word in option]
    names = [name for name, _, _ in used]
    shared = all(names.count(name) == 1 or colour and used.count((name, colon, colour)) == names.count(name) for name, colon, colour in used)
    return shared and primary <= set(names) and places == sorted(places)


def examples(folder: str) -> None:
    for name in sorted(os.listdir(os.path.join(TOP, "examples"))):
        if not name.endswith(".dlx"):
            continue
        file = os.path.join(TOP, "examples", name)
        out, errors, status = run("alone", file)
        ignored = b"ignored 1\n" if name == "ignored.dlx" else b""
        expect(name + " status", status == (1 if name in NONE else 0) and errors == ignored)
        expect(name + " answer", out == b"none\n" if name in NONE else is_exact(file, out))
        answer = os.path.join(folder, name + ".answer")
        with open(answer, "wb") as opened:
            opened.write(out)
        expect(name + " checked", run("check", file, answer) == (b"right\n", ignored, 0))
        with open(answer, "wb") as opened:
            opened.write(b"cover 0\n" if name in NONE else b"none\n")
        out, _, status = run("check", file, answer)
        expect(name + " wrong answer", out.startswith(b"wrong: ") and status == 1)


# the edges of a triangle in two colours: only with the colours' places primary, which each cover would use, weights
# show that there is none
JUST_ENOUGH = "ab ac bc | ra rb rc ua ub uc\nab ra rb\nab ua ub\nac ra rc\nac ua uc\nbc rb rc\nbc ub uc\n"
# two lessons in a room that has one lamp: once the one is chosen, no option is left for the other
LAMP = "maths art | lamp\nmaths lamp:red\nmaths lamp:blue\nart lamp:green\n"
# with which words certificates are written, and what `check` expects in place of a line that is cut off
CERTIFYING = {("learn",): "'d' and a number, or literals and hints", ("alone", "--unlimited"): "the number of an item, or = or * and a number"}


def certificates(folder: str) -> None:
    """A certificate is written where there is no cover, tested by the program and by a script, and there is none
    else."""
    for words, expected in CERTIFYING.items():
        for name in ("letters.dlx", "langford-5.dlx", "tetrominoes-4x5.dlx"):
            certified(folder, name, words, expected)
    answered_certificates(os.path.join(folder, "answered"))
    board = os.path.join(TOP, "examples", "mutilated-chessboard.dlx")
    path = os.path.join(folder, "why.certificate")
    reason = run("why", board)[0]
    expect("a reason certified", run("why", board, "--certificate", path) == (reason, f"certificate right: {path}\n".encode(), 1))
    with open(path, "rb") as opened:
        expect("a reason is one line", len(opened.read().splitlines()) == 4)
    expect("a reason checked", run("check", board, path) == (b"right\n", b"", 0))
    letters, path = os.path.join(TOP, "examples", "letters.dlx"), os.path.join(folder, "none.certificate")
    expect("no reason", run("why", letters, "--certificate", path) == (b"no reason found\n", b"", 4) and not os.path.exists(path))
    expect("a certificate and fuel", run("alone", letters, "--certificate", path)[2] == 2 and not os.path.exists(path))
    for problem, kind in (JUST_ENOUGH, b"just enough room"), (LAMP, b"options of art"):
        unsaid = os.path.join(folder, "unsaid.dlx")
        with open(unsaid, "w", encoding="ascii") as opened:
            opened.write(problem)
        said = run("why", unsaid, "--certificate", path)
        expect(f"no line for {kind!r}", said[0].startswith(b"none\n" + kind + b"\n") and said[1].startswith(b"no certificate: ") and said[2] == 3)
        expect(f"no file for {kind!r}", not os.path.exists(path))
        checked = run("check", unsaid, put(os.path.join(folder, "unsaid.reason"), said[0]))
        expect(f"{kind!r} is no certificate", checked[0] == b"" and b"WrongCount" in checked[1] and checked[2] == 3)
    expect("the full disk is still there", os.path.exists("/dev/full"))
    kept_certificates(os.path.join(folder, "kept"))
    uncreated_certificates(os.path.join(folder, "uncreated"))
    killed_certificate(os.path.join(folder, "killed"))
    piped_certificates(os.path.join(folder, "piped"))


def answered_certificates(folder: str) -> None:
    """`answer` keeps the certificate of whichever of its lanes is first, and nothing of the other."""
    os.mkdir(folder)
    path = os.path.join(folder, "out")
    right = f"certificate right: {path}\n".encode()
    # (within a tenth of a second the search decides; of the boards there is a reason, and pigeons without one are
    # sooner learned than searched)
    for file, words in ((os.path.join(TOP, "examples", "langford-5.dlx"), b"cases"), (board(folder, 18), b"cases")):
        expect(f"{file} answered and certified", run("answer", file, "--certificate", path) == (b"none\n", right, 1))
        expect(f"{file} by its lines", content(path).split(b"\n")[1].startswith(words) and run("check", file, path) == (b"right\n", b"", 0))
    out, errors, status = run("answer", board(folder, 18), "--certificate", path, "--reason", "--progress")
    expect("a reason beside a certificate", (out, status) == (run("why", board(folder, 18))[0], 1) and errors.endswith(b"answered by a reason\n" + right))
    letters = os.path.join(TOP, "examples", "letters.dlx")
    expect("a cover has no certificate", is_exact(letters, run("answer", letters, "--certificate", path)[0]) and content(path).startswith(b"none\n"))
    late = run("answer", search_of_years(folder), "--seconds", "1", "--certificate", path)
    expect("no answer, no certificate", late == (b"no answer\n", b"ended: the time is over: try more --seconds\n", 4))
    expect("no part of either is left", sorted(os.listdir(folder)) == ["dominoes-18.dlx", "long", "out"] and content(path).startswith(b"none\n"))
    for device in "/dev/full", "/dev/stdout":
        said = run("answer", letters, "--certificate", device)
        expect(f"two certificates to {device}", said[0] == b"" and said[1].startswith(f"cannot create: {device}: answer writes".encode()) and said[2] == 3)


def content(path: str) -> bytes:
    """The bytes of a file."""
    with open(path, "rb") as opened:
        return opened.read()


def put(path: str, text: bytes) -> str:
    """Writes a file, and returns its path."""
    with open(path, "wb") as opened:
        opened.write(text)
    return path


def kept_certificates(folder: str) -> None:
    """A file that is there is replaced by a whole certificate, and by nothing else; no part of one is left."""
    os.mkdir(folder)
    path, link = put(os.path.join(folder, "out"), b"old\n"), os.path.join(folder, "link")
    os.symlink("out", link)
    letters, langford = (os.path.join(TOP, "examples", name) for name in ("letters.dlx", "langford-5.dlx"))
    for words in (("learn", letters), ("alone", letters, "--unlimited"), ("why", letters), ("learn", search_of_years(folder), "--seconds", "1")):
        status = run(*words, "--certificate", path)[2]
        expect(f"{words} leaves a file as it was", status in (0, 4) and content(path) == b"old\n")
    expect("a refused problem leaves it as it was", run("learn", "/dev/null", "--certificate", path)[2] == 3 and content(path) == b"old\n")
    expect("a link is followed", run("learn", langford, "--certificate", link)[1] == f"certificate right: {link}\n".encode() and os.path.islink(link))
    expect("a file is replaced", content(path).startswith(b"none\nclauses ") and run("check", langford, path)[2] == 0)
    expect("no part is left", sorted(os.listdir(folder)) == ["link", "long", "out"])


def uncreated_certificates(folder: str) -> None:
    """Why a certificate can't be made; the problem's file isn't harmed, by whatever name."""
    os.mkdir(folder)
    with open(os.path.join(TOP, "examples", "langford-5.dlx"), "rb") as opened:
        text = opened.read()
    file, link, locked = put(os.path.join(folder, "file"), text), os.path.join(folder, "link"), put(os.path.join(folder, "locked"), b"old\n")
    os.symlink(file, link)
    os.chmod(locked, 0o400)
    causes = [(file, "it is the problem's file"), (link, "it is the problem's file"), (os.path.join(folder, ".", "file"), "it is the problem's file"),
              (os.path.join(folder, "none", "out"), "no such folder"), (os.path.join(file, "out"), "a part of its path is no directory"),
              (folder, "is a directory"), (os.path.join(folder, "x" * 252), "the name is too long")]
    causes += [(locked, "permission denied")] if os.geteuid() else []
    for path, cause in causes:
        expect(f"no certificate: {cause}", run("learn", file, "--certificate", path) == (b"", f"cannot create: {path}: {cause}\n".encode(), 3))
    with open(file, "rb") as opened:
        ran = subprocess.run([PROGRAM, "learn", "-", "--certificate", file], stdin=opened, capture_output=True)
    expect("nor standard input's file", (ran.stdout, ran.stderr) == (b"", f"cannot create: {file}: it is the problem's file\n".encode()))
    expect("all are as they were", content(file) == text and content(locked) == b"old\n" and sorted(os.listdir(folder)) == ["file", "link", "locked"])


def killed_certificate(folder: str) -> None:
    """A run that is killed leaves a part under a name that no other run takes, and the file as it was."""
    os.mkdir(folder)
    path, long = put(os.path.join(folder, "out"), b"old\n"), search_of_years(folder)
    for number in 1, 2:
        with subprocess.Popen([PROGRAM, "learn", long, "--certificate", path], stdout=subprocess.DEVNULL, stderr=subprocess.DEVNULL) as process:
            began = time.monotonic()
            while not os.path.exists(f"{path}.part{number}") and time.monotonic() - began < 30:
                time.sleep(0.01)
            process.kill()
    expect("killed runs leave parts", sorted(os.listdir(folder)) == ["long", "out", "out.part1", "out.part2"] and content(path) == b"old\n")
    langford = os.path.join(TOP, "examples", "langford-5.dlx")
    expect("a run beside their parts", run("learn", langford, "--certificate", path)[2] == 1 and content(path).startswith(b"none\nclauses "))
    expect("their parts stay", sorted(os.listdir(folder)) == ["long", "out", "out.part1", "out.part2"])


def piped_certificates(folder: str) -> None:
    """A pipe gets the lines as they are written, and a file that is standard output is replaced by a whole
    certificate."""
    os.mkdir(folder)
    langford, device = os.path.join(TOP, "examples", "langford-5.dlx"), "/dev/stdout"
    untested = f"certificate not tested: {device}\n".encode()
    for words in (("learn", langford), ("alone", langford, "--unlimited")):
        out, errors, status = run(*words, "--certificate", device)
        expect(f"a pipe by {words[0]}", (errors, status) == (untested, 1) and sorted(out.split(b"none\n"))[:2] == [b"", b""])
        path = os.path.join(folder, words[0])
        with open(path, "wb") as opened:
            told = run(*words, "--certificate", device, stdout=opened)
        expect(f"redirected by {words[0]}", told[1:] == (f"certificate right: {device}\n".encode(), 1) and run("check", langford, path)[2] == 0)
    expect("no part is left of what was redirected", sorted(os.listdir(folder)) == ["alone", "learn"] and os.path.islink(device))


def certified(folder: str, name: str, words: tuple[str, ...], expected: str) -> None:
    """A certificate of an example is written by these words, if it has no cover."""
    file, path = os.path.join(TOP, "examples", name), os.path.join(folder, name + ".certificate")
    command, *options = words
    out, errors, status = run(command, file, *options, "--certificate", path)
    said = f"{name} by {command}: "
    if name not in NONE:
        expect(said + "no certificate", is_exact(file, out) and (errors, status) == (b"", 0) and not os.path.exists(path))
        return
    expect(said + "certified", (out, errors, status) == (b"none\n", f"certificate right: {path}\n".encode(), 1))
    expect(said + "certificate checked", run("check", file, path) == (b"right\n", b"", 0))
    ran = subprocess.run([sys.executable, LAUNCHER, "check-certificate", file, path], capture_output=True)
    expect(said + "certificate checked by the script", (ran.stdout, ran.returncode) == (b"right\n", 0))
    lines = content(path).splitlines(keepends=True)
    # (cases that are kept at the end are for nothing more)
    while lines[-1].startswith(b"!"):
        lines.pop()
    put(path, b"".join(lines[:-1]))
    cut = f"wrong: line {len(lines)}: expected {expected}\n".encode()
    expect(said + "certificate cut off", run("check", file, path) == (cut, b"", 1))
    full = run(command, file, *options, "--certificate", "/dev/full")
    expect(said + "to a full disk", full == (b"none\n", b"cannot write: /dev/full\n", 3))


def unread(name: str, why: str) -> bytes:
    """The line of a file that can't be read."""
    return f"cannot read: {name}: {why}\n".encode()


def bad_input(folder: str) -> None:
    def file(name: str, content: bytes) -> str:
        path = os.path.join(folder, name)
        with open(path, "wb") as opened:
            opened.write(content)
        return path

    letters = os.path.join(TOP, "examples", "letters.dlx")
    cover = b"cover 3\nc e\na d f\nb g\n"
    missing = os.path.join(folder, "none")
    for words in (("answer",), ("alone",), ("alone", "--seconds", "9"), ("why",), ("learn",), ("simulate",), ("solve",)):
        expect(f"a missing file, {words}", run(*words, missing) == (b"", unread(missing, "no such file"), 3))
        expect(f"a folder, {words}", run(*words, folder) == (b"", unread(folder, "is a directory"), 3))
        expect(f"a read that fails, {words}", run(*words, "/proc/self/mem") == (b"", unread("/proc/self/mem", "a read failed"), 3))
    expect("no folder on the way", run("alone", letters + "/x") == (b"", unread(letters + "/x", "a part of its path is no directory"), 3))
    locked = file("locked", b"a\na\n")
    os.chmod(locked, 0)
    refused = (b"", unread(locked, "permission denied"), 3)
    expect("a file that may not be read", run("alone", locked) == (refused if os.geteuid() else (b"cover 1\na\n", b"", 0)))
    expect("an empty file", run("alone", file("empty", b"")) == (b"", b"refused: NoItems\n", 3))
    unknown = (b"", b"refused: UnknownItem line 3\nno item is named c\n", 3)
    stray = b"a b\na\nb c:red\n"
    expect("a name that no item has", [run(mode, file("stray", stray)) for mode in ("answer", "alone", "solve", "simulate", "why", "learn")] == 6 * [unknown])
    expect("the same to check", run("check", file("stray", stray), file("nothing", b"none\n")) == unknown)
    expect("the same in standard input", run("alone", "-", stdin=stray) == unknown)
    long = b"|" * 2_000_000 + b"\n" + stray
    unknown = (b"", b"refused: UnknownItem line 4\nno item is named c\n", 3)
    expect("the same behind two megabytes", [run("alone", file("long", long)), run("alone", "-", stdin=long)] == 2 * [unknown])
    expect("binary bytes", run("alone", file("binary", bytes(range(256)))) == (b"", b"refused: IllegalByte line 1\n", 3))
    expect("a pipe", run("alone", "/dev/stdin", stdin=b"a\na\n") == (b"cover 1\na\n", b"", 0))
    expect("fuel 6", run("alone", letters, "--fuel", "6") == (cover, b"", 0))
    expect("fuel 5", run("alone", letters, "--fuel", "5") == (b"no answer\n", SPENT, 4))
    for words in (("--seconds", "9"), ("--seconds", "9", "--unlimited"), ("--seconds", "9", "--progress")):
        expect(f"alone {words}", run("alone", letters, *words) == (cover, b"", 0))
    expect("fuel 5 within time", run("alone", letters, "--fuel", "5", "--seconds", "9") == (b"no answer\n", SPENT, 4))
    expect("no answer to check", run("check", letters, missing) == (b"", unread(missing, "no such file"), 3))
    expect("nothing to check", run("check", missing, letters) == (b"", unread(missing, "no such file"), 3))
    expect("a file that can't be read is named", run("check", "/proc/self/mem", letters) == (b"", unread("/proc/self/mem", "a read failed"), 3))
    expect("an answer that can't be read is named", run("check", letters, "/proc/self/mem") == (b"", unread("/proc/self/mem", "a read failed"), 3))
    expect("a folder as the answer", run("check", letters, folder) == (b"", unread(folder, "is a directory"), 3))
    none = file("none.answer", b"none\n")
    expect("none with fuel 5", run("check", letters, none, "--fuel", "5") == (b"no answer\n", SPENT, 4))
    for words in (("--seconds", "9"), ("--seconds", "9", "--unlimited")):
        expect(f"check {words}", run("check", letters, none, *words) == (b"wrong: a cover exists\n", b"", 1))
    ignored = file("ignored", b"a | x\nx\na\n")
    expect("an ignored option before the reason", run("alone", ignored, "--fuel", "1") == (b"no answer\n", b"ignored 1\n" + SPENT, 4))
    head = file("head.answer", b"no cover\n")
    expect("a bad head", run("check", letters, head) == (b"", b"answer refused: BadHead\n", 3))
    line = file("line.answer", b"cover 1\ne c\n")
    expect("no option", run("check", letters, line) == (b"", b"answer refused: UnknownOption line 2\n", 3))
    with open("/dev/full", "wb") as full:
        out, errors, status = run("alone", letters, stdout=full)
    expect("a full disk", errors == b"cannot write\n" and status == 3)
    reader, writer = os.pipe()
    os.close(reader)
    out, errors, status = run("alone", letters, stdout=writer)
    os.close(writer)
    expect("a closed pipe", (errors == b"cannot write\n" and status == 3) or status == -13)


def progress() -> None:
    """Standard output is the same with `--progress`; a run that can't go on says why on standard error."""
    letters = os.path.join(TOP, "examples", "letters.dlx")
    cover = b"cover 3\nc e\na d f\nb g\n"
    expect("alone with progress", run("alone", letters, "--progress") == (cover, b"", 0))
    expect("solve with progress", run("solve", letters, "--progress") == (cover, b"", 0))
    expect("learn with progress", run("learn", letters, "--progress") == (cover, b"", 0))
    for more in ((), ("--progress",)):
        turns = run("solve", letters, "--turns", "0", *more)
        expect(f"no turns {more}", turns == (b"no answer\n", b"ended: the turns of a site are over: try more --turns\n", 4))
        full = run("solve", letters, "--entries", "1", *more)
        expect(f"a full book {more}", full == (b"no answer\n", b"ended: a book is full: try more --entries, or answer\n", 4))
    long = os.path.join(TOP, "examples", "mutilated-chessboard.dlx")
    for more in ((), ("--progress",)):
        out, errors, status = run("solve", long, "--fuel", "1", "--megabytes", "1", *more)
        large = b"ended: the books are as large as they may be: try more --megabytes, or answer\n"
        expect(f"large books {more}", (out, status) == (b"no answer\n", 4) and errors.endswith(large))
    out, errors, status = run("solve", long, "--fuel", "1", "--seconds", "2", "--progress")
    lines = errors.decode().splitlines()
    expect("a limit", (out, status) == (b"no answer\n", 4) and lines[-1] == "ended: the time is over: try more --seconds")
    expect("a line each second", lines[:-1] and all(LINE.fullmatch(line) for line in lines[:-1]))
    text, status = on_terminal("solve", long, "--fuel", "1", "--seconds", "2", "--progress")
    expect("one line on a terminal", status == 4 and re.fullmatch(rb"(\r\d+ s: [^\r\n]*)+\r\nended: the time is over: try more --seconds\r\nno answer\r\n", text))


def search_of_years(folder: str) -> str:
    """A file whose search by one thread nobody sees the end of."""
    path, names, by_chance = os.path.join(folder, "long"), [str(place) for place in range(180)], random.Random(1)
    with open(path, "w", encoding="ascii") as file:
        # (a cover may be among so few triples, but nobody finds it soon)
        file.writelines(" ".join(words) + "\n" for words in [names, *(by_chance.sample(names, 3) for _ in range(450))])
    return path


def timed(folder: str) -> None:
    """A search of years, by one thread, that ends after a second."""
    path, none = search_of_years(folder), os.path.join(folder, "none")
    with open(none, "w", encoding="ascii") as file:
        file.write("none\n")
    late = b"ended: the time is over: try more --seconds, or answer\n"
    for words in (("answer", path), ("alone", path), ("alone", path, "--unlimited"), ("check", path, none), ("check", path, none, "--unlimited")):
        began = time.monotonic()
        why = late.replace(b", or answer", b"") if words[0] == "answer" else late
        expect(f"a second of {words}", run(*words, "--seconds", "1") == (b"no answer\n", why, 4))
        expect(f"the seconds of {words}", 1 <= time.monotonic() - began < 15)


def learning(folder: str) -> None:
    """The answers of `answer` and `learn` to the examples, the lines of progress of `learn`, and when it ends."""
    names = [name for name in sorted(os.listdir(os.path.join(TOP, "examples"))) if name.endswith(".dlx")]
    for mode, name in itertools.product(("answer", "learn"), names):
        file = os.path.join(TOP, "examples", name)
        out, errors, status = run(mode, file)
        expect(f"{mode} {name} status", status == (1 if name in NONE else 0) and errors == (b"ignored 1\n" if name == "ignored.dlx" else b""))
        expect(f"{mode} {name} answer", out == b"none\n" if name in NONE else is_exact(file, out))
    path = search_of_years(folder)
    for seed in "1", "18446744073709551615":
        began = time.monotonic()
        out, errors, status = run("learn", path, "--seconds", "2", "--seed", seed, "--progress")
        lines = errors.decode().splitlines()
        expect(f"two seconds of learn: {status}", (out, status) == (b"no answer\n", 4) and 2 <= time.monotonic() - began < 15)
        expect("why learn ends", lines[-1:] == ["ended: the time is over: try more --seconds, or answer"])
        expect("a line of learn each second", lines[:-1] and all(map(LEARNED.fullmatch, lines[:-1])))


def reasoned(folder: str) -> None:
    """What `answer --reason` writes behind an answer: whose lines stay as they are; a reason as `why` writes it;
    nothing where there is no answer."""
    for name in sorted(NONE | {"letters.dlx", "ignored.dlx"}):
        file = os.path.join(TOP, "examples", name)
        plain, (out, errors, status) = run("answer", file), run("answer", file, "--reason")
        expect(f"the answer before the reason of {name}", out.startswith(plain[0]) and (errors, status) == plain[1:])
        behind = out[len(plain[0]):]
        expect(f"the reason of {name}: {behind!r}", BASIS.fullmatch(behind) or out == run("why", file)[0])
    letters = os.path.join(TOP, "examples", "letters.dlx")
    cover = b"cover 3\nc e\na d f\nb g\nby search of 5 states\n"
    expect("states that were counted by hand", run("answer", letters, "--reason") == (cover, b"", 0))
    told = run("answer", letters, "--reason", "--progress")
    expect(f"what answered, and the reason: {told}", told == (cover, b"answered by the search\n", 0))
    path = board(folder, 18)
    for threads in "2", "4":
        out, errors, status = run("answer", path, "--reason", "--progress", "--threads", threads)
        expect(f"a reason by {threads} threads: {out!r} {errors!r}", (out, status) == (run("why", path)[0], 1) and errors.endswith(b"answered by a reason\n"))
    late = b"ended: the time is over: try more --seconds\n"
    expect("no reason without an answer", run("answer", search_of_years(folder), "--reason", "--seconds", "1") == (b"no answer\n", late, 4))
    with open("/dev/full", "wb") as full:
        expect("a reason on a full disk", run("answer", letters, "--reason", stdout=full)[1:] == (b"cannot write\n", 3))


def sites_of(*words: str) -> tuple[int, int]:
    """How many sockets and threads a run of `solve` has after a second."""
    long = os.path.join(TOP, "examples", "mutilated-chessboard.dlx")
    with subprocess.Popen([PROGRAM, "solve", long, "--fuel", "1", "--seconds", "3", *words], stdout=subprocess.DEVNULL, stderr=subprocess.DEVNULL) as process:
        time.sleep(1)
        folder = f"/proc/{process.pid}"
        ends = [os.readlink(f"{folder}/fd/{name}") for name in os.listdir(f"{folder}/fd")]
        return sum(end.startswith("socket:") for end in ends), len(os.listdir(f"{folder}/task"))


class Sent(NamedTuple):
    """A packet that was sent: its kind, the sender's node and incarnation, and the receiver's node."""
    kind: int
    sender: int
    incarnation: int
    receiver: int


def sent_in(file: str) -> list[Sent]:
    """The packets whose headers are in a file, in the order in which they were sent."""
    if not os.path.exists(file):
        return []
    with open(file, "rb") as opened:
        heads = opened.read()
    whole = len(heads) - len(heads) % HEADER.size
    return [Sent(kind, node, incarnation, receiver) for _, _, kind, node, incarnation, receiver, _ in HEADER.iter_unpack(heads[:whole])]


def sends_of(folder: str, is_enough: Callable[[list[Sent]], bool], *words: str) -> list[Sent]:
    """The packets that a run of `solve` on a search of years has sent when they are enough, or when it has ended. A job
    has no end in it, so the other workers do nothing but ask."""
    file = os.path.join(folder, "sends")
    if os.path.exists(file):
        os.remove(file)
    environment = {**os.environ, "LD_PRELOAD": os.path.join(folder, "record_sends.so"), "SENDS_FILE": file}
    command = [PROGRAM, "solve", search_of_years(folder), "--workers", "1", "--fuel", "1000000000000", "--seconds", "60", *words]
    with subprocess.Popen(command, stdout=subprocess.DEVNULL, stderr=subprocess.DEVNULL, env=environment) as process:
        while process.poll() is None and not is_enough(sent_in(file)):
            time.sleep(0.02)
        process.terminate()
    return sent_in(file)


def first_asked(sent: list[Sent]) -> dict[int, int]:
    """Of each node that asked for work, whom it asked first."""
    return {packet.sender: packet.receiver for packet in reversed(sent) if packet.kind == STEAL}


def packets_of_solve(folder: str) -> None:
    """The seed draws whom the nodes ask, and node 1 restarts as often as it should: by the packets that are sent."""
    source, library = os.path.join(TOP, "trials", "record_sends.c"), os.path.join(folder, "record_sends.so")
    subprocess.run(["cc", "-O2", "-shared", "-fPIC", "-o", library, source], check=True)
    asked = [first_asked(sends_of(folder, lambda sent: len(first_asked(sent)) == 16, "--nodes", "16", "--seed", seed)) for seed in "112"]
    expect(f"--seed: {asked}", len(asked[0]) == len(asked[2]) == 16 and asked[0] == asked[1] != asked[2])
    # (node 2, which never restarts, would end the run after four times the turns that each start of node 1 has)
    for words, incarnations in (("--restarts", "3"), {1, 2, 3, 4}), ((), {1}):
        sent = sends_of(folder, lambda sent: False, "--nodes", "2", "--turns", "200", *words)
        expect(f"--restarts {words}: {len(sent)} packets", {packet.incarnation for packet in sent if packet.sender == 1} == incarnations)


def options_of_solve(folder: str) -> None:
    """Each option of `solve` reaches the run: by its sockets, threads and packets, by the reason of an end, or by what
    is written."""
    sockets, threads = sites_of("--nodes", "2", "--workers", "1")
    more_sockets, more_threads = sites_of("--nodes", "3", "--workers", "1")
    expect("--nodes", (sockets, more_sockets) == (3, 4) and more_threads > threads)
    _, three = sites_of("--nodes", "2", "--workers", "3")
    expect("--workers", three == threads + 4)
    letters = os.path.join(TOP, "examples", "letters.dlx")
    cover = b"cover 3\nc e\na d f\nb g\n"
    expect("--audit", run("solve", letters, "--audit") == (cover + b"audit clean\n", b"", 0))
    packets_of_solve(folder)


def command_line() -> None:
    given: list[tuple[tuple[Word, ...], int]] = [
        ((), 2), (("--help",), 0), (("--version",), 0), (("alone", "--help"), 0), (("alone",), 2),
                          (("alone", "x", "--fuel", "0"), 2), (("alone", "x", "--fuel", "+1"), 2),
                          (("alone", "x", "--audit"), 2), (("solve", "x", "--audit"), 3), (("solve", "x"), 3), (("alone", b"\xff"), 2)]
    for words, status in given:
        out, errors, ended = run(*words)
        expect(f"words {words}", ended == status and (bool(out), bool(errors)) == (status == 0, status != 0))


def install(folder: str, *words: str, **how: Any) -> subprocess.CompletedProcess[str]:
    """Runs install.sh with its files below a folder."""
    environment = {**os.environ, "DESTDIR": folder, **how.pop("env", {})}
    script = os.path.join(TOP, "scripts", "install.sh")
    return subprocess.run(["sh", script, *words], env=environment, capture_output=True, text=True, **how)


def installing(folder: str) -> None:
    """What install.sh writes, with a prefix and without, and what it takes away again."""
    prefixes: tuple[tuple[list[str], str], ...] = (([], "/usr/local"), (["/opt"], "/opt"))
    for words, prefix in prefixes:
        ended = install(folder, *words)
        written = [f"{folder}{prefix}/{file}" for file in INSTALLED]
        expect(f"install.sh {words}", ended.returncode == 0 and ended.stdout.split() == written and all(map(os.path.exists, written)))
    installed_tools(f"{folder}/opt")
    with open(f"{folder}/opt/share/zarfepoch/VERSION", encoding="ascii") as said:
        lines = said.read().splitlines()
    expect(f"VERSION: {lines}", lines[0] == run("--version")[0].decode().strip() and [line.split()[0] for line in lines[1:]] == ["commit", "toolchain"])
    with open(f"{folder}/opt/share/man/man1/solve_cli.1", encoding="utf-8") as page:
        expect("the man page has the version", f'"{lines[0]}"' in page.readline())
    with open(f"{folder}/opt/share/other", "w", encoding="ascii"):
        pass
    for words, prefix, left in (["--remove"], "/usr/local", []), (["/opt", "--remove"], "/opt", ["other"]):
        ended = install(folder, *words)
        gone = [f"{folder}{prefix}/{file}" for file in INSTALLED]
        there = [name for _, _, names in os.walk(folder + prefix) for name in names]
        expect(f"install.sh {words}", ended.returncode == 0 and ended.stdout.split() == gone and there == left and not os.path.exists(f"{folder}{prefix}/bin"))


def installed_tools(prefix: str) -> None:
    """The commands that are installed: from another folder, and with the program beside them."""
    for name in COMMANDS[1:]:
        ended = subprocess.run([f"{prefix}/bin/{name}", "--help"], cwd="/", capture_output=True, text=True)
        expect(f"{name}: {ended.stderr}", ended.returncode == 0 and ended.stdout.startswith(f"usage: {name} "))
    ended = subprocess.run([f"{prefix}/bin/zarfepoch", "queens", "1"], cwd="/", capture_output=True, text=True)
    expect(f"zarfepoch queens: {ended}", ended.returncode == 0 and ended.stdout.endswith("It is the only solution.\n"))
    unnamed = {name: text for name, text in os.environ.items() if name != "ZARFEPOCH"}
    board = os.path.join(TOP, "examples", "mutilated-chessboard.dlx")
    ended = subprocess.run([f"{prefix}/bin/zarfepoch-why-none", board], cwd="/", env=unnamed, capture_output=True, text=True)
    expect(f"a command finds the program beside it: {ended.stderr}", ended.returncode == 0 and ended.stdout)


def installing_again(folder: str) -> None:
    """An install that is stopped, one under another CDPATH, words that are refused, and what bash completes."""
    install(folder, "/opt", check=True)
    room, stopped = os.path.join(folder, "room"), os.path.join(folder, "python3")
    os.makedirs(room)
    with open(stopped, "w", encoding="ascii") as file:
        file.write("#!/bin/sh\nkill -TERM $PPID\n")
    os.chmod(stopped, 0o755)
    ended = install(folder, env={"PATH": folder + os.pathsep + os.environ["PATH"], "TMPDIR": room})
    expect("install.sh leaves nothing when it is stopped", ended.returncode == 1 and not os.listdir(room))
    for name in ("a b", "a*c", "axc"):
        open(os.path.join(room, name), "w", encoding="ascii").close()
    complete = 'source "$0"; COMP_WORDS=(solve_cli alone a); COMP_CWORD=2; _solve_cli; printf "%s\\n" "${COMPREPLY[@]}"'
    completions = f"{folder}/opt/share/bash-completion/completions/solve_cli"
    completed = subprocess.run(["bash", "-c", complete, completions], cwd=room, capture_output=True, text=True)
    expect("files are completed", sorted(completed.stdout.splitlines()) == ["a b", "a*c", "axc"])
    completed = subprocess.run(["bash", "-c", complete.replace("alone a)", "help so)"), completions], cwd=room, capture_output=True, text=True)
    expect("help completes commands", completed.stdout.split() == ["solve"])
    environment = {**os.environ, "DESTDIR": folder, "CDPATH": TOP}
    ended = subprocess.run(["sh", "scripts/install.sh", "/path"], cwd=TOP, env=environment, capture_output=True, text=True)
    expect("install.sh with CDPATH", ended.returncode == 0 and os.path.isfile(os.path.join(folder, "path", INSTALLED[0])))
    ended = install(folder, "--help")
    expect("install.sh --help", ended.returncode == 0 and ended.stdout.startswith("Installs ") and "set -eu" not in ended.stdout)
    for words in ([""], ["-x"], ["/opt", "/usr"]):
        ended = install(folder, *words)
        expect(f"install.sh {words} is refused", ended.returncode == 2 and ended.stderr.startswith("usage: "))


def by_json(text: bytes, *words: str, **how: Any) -> tuple[bytes, int]:
    """What zarfepoch prints of a problem in JSON, and its status."""
    ended = subprocess.run([sys.executable, LAUNCHER, "--json", "-", *words], input=text, capture_output=True, **how)
    expect(f"JSON {text!r} {words}: {ended.stderr!r}", b"Traceback" not in ended.stderr and bool(ended.stderr) == (ended.returncode > 1))
    return ended.stdout, ended.returncode


def from_python() -> None:
    """The examples of the package, and problems in JSON."""
    found = doctest.testmod(zarfepoch)
    expect("the examples of the package", found.attempted and not found.failed)
    for text, answer, status in ((b'{"options": [["a", ["x", "red"]], ["x"]], "primary": ["a"], "secondary": ["x"]}', b"[0]\n", 0),
                                 (b'{"options": [["a"]], "primary": ["a", "b"]}', b"null\n", 1), (b"[]", b"", 3), (b"{", b"", 3),
                                 (b'\xef\xbb\xbf{"options": [["\xc3\xa9"]], "primary": ["\xc3\xa9"]}', b"[0]\n", 0), (b'{"a\xff": 1}', b"", 3),
                                 (b'{"options": [[true]], "primary": [1]}', b"", 3), (b'{"options": [["a"]], "primary": ["a", null]}', b"", 3),
                                 (b'{"options": [["a", ["x", null]]], "primary": ["a"], "secondary": ["x"]}', b"", 3),
                                 (b'{"options": [["b"]], "primary": ["a"]}', b"", 3), (b'{"options": ["a"], "primary": ["a"]}', b"", 3)):
        expect(f"JSON {text!r}", by_json(text) == (answer, status))
    small = b'{"options": [["a"]], "primary": ["a"]}'
    for seconds, answer, status in (("60", b"[0]\n", 0), ("1e9", b"[0]\n", 0), ("inf", b"[0]\n", 0), ("0", b"", 2), ("nan", b"", 2)):
        expect(f"{seconds} seconds", by_json(small, "--seconds", seconds) == (answer, status))
    folder, name = os.path.split(PROGRAM)
    for program, answer, status in ((name, b"[0]\n", 0), ("/bin/true", b"", 3), ("/bin/false", b"", 3), ("/dev/null", b"", 3)):
        expect(f"the program {program}", by_json(small, cwd=folder, env={**os.environ, "ZARFEPOCH": program}) == (answer, status))


def help_on(output: Union[int, IO[bytes]], *words: str) -> tuple[int, str]:
    """The status of a script that writes its help on this output, and its standard error; its output is buffered, as it
    is for users."""
    buffered = {name: text for name, text in os.environ.items() if name != "PYTHONUNBUFFERED"}
    ended = subprocess.run([sys.executable, *words, "--help"], stdout=output, stderr=subprocess.PIPE, env=buffered, text=True)
    return ended.returncode, ended.stderr


def board(folder: str, side: int) -> str:
    """A file of dominoes on a square board without two corners, which have no cover."""
    last = side - 1
    cells = [(row, column) for row in range(side) for column in range(side) if (row, column) not in ((0, 0), (last, last))]
    names = {cell: f"r{cell[0]}c{cell[1]}" for cell in cells}
    pairs = [((row, column), other) for row, column in cells for other in ((row, column + 1), (row + 1, column)) if other in names]
    path = os.path.join(folder, f"dominoes-{side}.dlx")
    with open(path, "w", encoding="ascii") as file:
        print(*names.values(), file=file)
        print(*(f"{names[one]} {names[other]}" for one, other in pairs), sep="\n", file=file)
    return path


def many_visits(folder: str) -> None:
    """A search of 10^15 visits ends, since few of its states differ, and its count is exact: with one visit less there
    is no answer. A count in C gave the visits, state by state."""
    path = board(folder, 12)
    visits = 1_455_115_025_598_703
    expect("as many visits as it takes", run("alone", path, "--fuel", str(visits)) == (b"none\n", b"", 1))
    expect("one visit less", run("alone", path, "--fuel", str(visits - 1)) == (b"no answer\n", SPENT, 4))
    expect("no limit", run("alone", path, "--unlimited") == (b"none\n", b"", 1))


def helps() -> None:
    """Each script that can be run writes its help, so that all it imports is there, and so do the package's commands,
    by the launcher of a clone."""
    paths = [path for folder in ("trials", "dev", "bench") for path in sorted(glob.glob(os.path.join(TOP, folder, "*.py")))]
    tools = [[LAUNCHER, *name.split("-", 1)[1:]] for name in COMMANDS[1:]]
    for words in [*([path] for path in paths if os.access(path, os.X_OK)), *tools]:
        ended = subprocess.run([sys.executable, *words, "--help"], capture_output=True, text=True)
        expect(f"the help of {words}: {ended.stderr}", ended.returncode == 0 and ended.stdout.startswith("usage: "))


def failing_outputs() -> None:
    """What scripts say where their output takes no more, or nobody reads it."""
    for module in ("explain", "draw", "why_none", "__main__", "generate"):
        words = ("-m", f"zarfepoch.{module}")
        name = "zarfepoch" if module == "__main__" else module
        with open("/dev/full", "wb") as full:
            told = help_on(full, *words)
        expect(f"{name} on a full disk", told == (3, f"{name}: the standard output can't be written: No space left on device\n"))
        reader, writer = os.pipe()
        os.close(reader)
        expect(f"{name} on a closed pipe", help_on(writer, *words) == (3, ""))
        os.close(writer)
    unknown, refused = os.path.join(TOP, "nothing"), os.path.join(TOP, "README.md")
    for given, status in ((["draw", unknown, unknown], 3), (["why-none", refused], 3), (["--json", unknown], 3), (["generate", "queens", "999"], 2)):
        ended = subprocess.run(["sh", "-c", 'exec "$@" 2>&-', "sh", sys.executable, LAUNCHER, *given], capture_output=True)
        expect(f"{given} without standard error", (ended.stdout, ended.returncode) == (b"", status))


def main() -> int:
    global PROGRAM
    parser = parser_of(__doc__)
    parser.add_argument("program", nargs="?", metavar="PROGRAM", default=SOLVE_CLI, help="the built program")
    PROGRAM = os.path.abspath(parser.parse_args().program)
    want_program(PROGRAM)
    want_command("cc")
    os.environ["ZARFEPOCH"] = PROGRAM
    os.environ["PYTHONPATH"] = os.path.join(TOP, "python", "src")
    with tempfile.TemporaryDirectory() as folder:
        examples(folder)
        certificates(folder)
        bad_input(folder)
        many_visits(folder)
        timed(folder)
        learning(folder)
        reasoned(folder)
        installing(os.path.join(folder, "dest"))
        installing_again(os.path.join(folder, "dest"))
        options_of_solve(folder)
    from_python()
    helps()
    failing_outputs()
    progress()
    command_line()
    return trial.end()


if __name__ == "__main__":
    sys.exit(main())
