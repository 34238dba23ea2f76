"""How far long work is, on standard error where that is a terminal."""
from __future__ import annotations

import sys
import time
from typing import BinaryIO, Optional

STEP = 0.2
"""Seconds between two lines at least."""

MIB = 1 << 20


class Progress:
    """Tells how far work is, in bytes of so many, or of None where nobody knows how many there are;
    nothing where standard error is no terminal."""

    def __init__(self, what: str, total: Optional[int]) -> None:
        self.what, self.total, self.done = what, total, 0
        self._shown = False
        self._next = time.monotonic() + STEP
        self._is_terminal = sys.stderr.isatty()

    def reach(self, done: int) -> None:
        """Notes how far it is."""
        self.done = done
        now = time.monotonic()
        if self._is_terminal and now >= self._next:
            self._next, self._shown = now + STEP, True
            of = "" if self.total is None else f"of {self.total / MIB:,.1f} "
            print(f"\r{self.what}: {done / MIB:,.1f} {of}MiB\033[K",
                  end="", file=sys.stderr, flush=True)

    def add(self, more: int) -> None:
        """Notes that so much more is done."""
        self.reach(self.done + more)

    def __enter__(self) -> Progress:
        return self

    def __exit__(self, *_: object) -> None:
        if self._shown:
            print("\r\033[K", end="", file=sys.stderr, flush=True)


class Watched:
    """A source of bytes that tells how far it was read."""

    def __init__(self, source: BinaryIO, progress: Progress) -> None:
        self.source, self.progress = source, progress

    def read(self, count: int) -> bytes:
        """The next bytes, so many at most."""
        piece = self.source.read(count)
        self.progress.add(len(piece))
        return piece
