"""All exact covers of a problem, each once: a plain search from one end of the search tree, and the program from the
other.

The open prefixes of the tree wait in its order. The plain search takes one end of them: of a prefix it puts the
children in its place, and each cover that it meets is told. Where it has met none for a while, the program is asked
meanwhile about the prefix at the other end. If there is no cover below that, it goes; if there is one, this is told at
once, and passed over where the search comes to it. So the end is known when no prefix is left, and neither a hard part
nor many covers keep the rest from being told.
"""
from __future__ import annotations

import collections
import subprocess
import threading
import time
from collections.abc import Generator
from typing import Callable, Optional, Protocol

from ..errors import TimeIsUp
from ..programs import dying_with_parent
from .parts import Prefix, Tree

# the options of a cover, by their places
Cover = frozenset[int]
# for so many seconds the plain search meets no cover before the program is asked
PATIENCE = 0.2


class Question(Protocol):
    """Whether a prefix has a cover below it: asked, and answered later."""

    def is_answered(self) -> bool:
        """Whether the answer is there."""

    def answer(self) -> Optional[Cover]:
        """A cover below the prefix, with the prefix's own options, or None where there is none."""

    def end(self) -> None:
        """Ends it, whether it was answered or not."""


class Run:
    """A run of a program that reads a text and goes on beside Python."""

    def __init__(self, words: list[str], text: bytes) -> None:
        self.process = subprocess.Popen(dying_with_parent(words), stdin=subprocess.PIPE, stdout=subprocess.PIPE, stderr=subprocess.PIPE)
        self.output, self.errors = b"", b""
        self.thread = threading.Thread(target=self.read, args=(text,), daemon=True)
        self.thread.start()

    def read(self, text: bytes) -> None:
        self.output, self.errors = self.process.communicate(text)

    def is_over(self) -> bool:
        return not self.thread.is_alive()

    def end(self) -> None:
        self.process.kill()
        self.thread.join()


class Covers:
    """The covers of a tree that weren't told yet."""

    def __init__(self, tree: Tree, ask: Callable[[Prefix], Question], patience: float = PATIENCE) -> None:
        self.tree, self.ask, self.patience = tree, ask, patience
        self.waiting = collections.deque([tree.root()])
        # covers that the program found, which the search will come to
        self.ahead: set[Cover] = set()
        self.asked: Optional[tuple[Prefix, Question]] = None
        self.searched_since = time.monotonic()

    def each(self, seconds: Optional[float] = None) -> Generator[Cover, None, None]:
        """Each cover once; `TimeIsUp` where none comes within so many seconds, nor the end."""
        since = time.monotonic()
        try:
            while self.waiting:
                found = self.searched() or self.answered()
                if found:
                    yield found
                    since = time.monotonic()
                elif seconds is not None and time.monotonic() - since > seconds:
                    raise TimeIsUp(f"neither a further cover nor the end after {seconds} seconds")
        finally:
            if self.asked:
                self.asked[1].end()

    def open_children(self, prefix: Prefix) -> list[Prefix]:
        """The children below which there may be a cover."""
        return [child for child in self.tree.children(prefix) if child.choices or child.item is None]

    def met(self, cover: Cover) -> Optional[Cover]:
        """A cover that is met in the tree; nothing where it was told already."""
        if cover not in self.ahead:
            return cover
        self.ahead.remove(cover)
        return None

    def searched(self) -> Optional[Cover]:
        """One step of the plain search: a cover that it meets and that wasn't told yet."""
        prefix = self.waiting.pop()
        if prefix.item is not None:
            self.waiting.extend(reversed(self.open_children(prefix)))
            return None
        self.searched_since = time.monotonic()
        return self.met(frozenset(prefix.options))

    def answered(self) -> Optional[Cover]:
        """A cover that the program has found, if it answers now with one that wasn't told yet. Where it isn't asked, it
        is from now on."""
        if self.asked is None:
            return self.ask_first() if time.monotonic() - self.searched_since >= self.patience else None
        prefix, question = self.asked
        if not question.is_answered():
            return None
        self.asked, cover = None, question.answer()
        if cover is None:
            self.leave_out(prefix)
        elif any(cover.issuperset(other.options) for other in self.waiting):
            self.ahead.add(cover)
            return cover
        return None

    def ask_first(self) -> Optional[Cover]:
        """Asks about the first prefix, or about children of it where it is known to have a cover below it. A cover, if
        the first prefix is one that wasn't told yet."""
        while self.waiting:
            first = self.waiting[0]
            if first.item is not None and not any(cover.issuperset(first.options) for cover in self.ahead):
                self.asked = first, self.ask(first)
                return None
            self.waiting.popleft()
            if first.item is None:
                return self.met(frozenset(first.options))
            self.waiting.extendleft(reversed(self.open_children(first)))
        return None

    def leave_out(self, prefix: Prefix) -> None:
        """Leaves a prefix out that has no cover below it, and what is left of its children: they are the first that
        wait."""
        depth = len(prefix.options)
        while self.waiting and self.waiting[0].options[:depth] == prefix.options:
            self.waiting.popleft()
