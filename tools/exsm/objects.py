"""What a store asks of objects, as lines of digits. A session that takes bytes has its own."""
from __future__ import annotations

from contextlib import closing
from typing import Callable, Generator, Iterable

LINE_MOST = 1_048_576
"""Bytes of a line, without its line feed."""

WORDS_ROOM = 128
"""What a line of data needs at most beside its digits: its word, an identifier, a position."""

PIECE = (LINE_MOST - WORDS_ROOM) // 2
"""Bytes of data that fit on a line, each as two digits."""

READ_PIECE = 1 << 20
"""Bytes that are asked for at a time; a line may ask for at most 16,777,216."""

Ask = Callable[[str], "list[str]"]
"""Sends a line, and gives the words of its reply behind `ok` and the first word."""

Bind = Callable[[str], str]
"""Makes a version by a line to which a name is added, and gives its identifier."""

AskEach = Callable[[Iterable[str]], "Generator[list[str], None, None]"]
"""Sends lines, each made while the session is at the one before, and gives the words of replies."""


def data_of(words: list[str]) -> bytes:
    """The bytes that a reply gives: their number, and their digits where there are some."""
    return bytes.fromhex(words[1]) if len(words) > 1 else b""


class Objects:
    """Calls on objects, each a line."""

    piece = PIECE
    """Bytes that a call gives at most."""

    read_piece = READ_PIECE
    """Bytes that a call asks for at most."""

    def __init__(self, ask: Ask, bind: Bind, ask_each: AskEach) -> None:
        self._ask, self._bind, self._ask_each = ask, bind, ask_each

    def create(self, file: str) -> str:
        """Makes an empty object in a file, and gives its identifier."""
        return self._bind(f"create {file}")

    def freeze(self, oid: str) -> str:
        """Puts a frozen copy of a version before it, and gives the copy's identifier."""
        return self._bind(f"freeze {oid}")

    def derive(self, oid: str) -> str:
        """Makes a current version of a frozen one, and gives its identifier."""
        return self._bind(f"derive {oid}")

    def size(self, oid: str) -> int:
        """The bytes of a version."""
        return int(self._ask(f"size {oid}")[0])

    def digest(self, oid: str) -> bytes:
        """The SHA-256 of a version's bytes."""
        return bytes.fromhex(self._ask(f"digest {oid}")[0])

    def read(self, oid: str, position: int, length: int) -> bytes:
        """Bytes from a position on."""
        return data_of(self._ask(f"read {oid} {position} {length}"))

    def append(self, oid: str, data: bytes) -> None:
        """Puts bytes at the end."""
        self._ask(f"append {oid} hex:{data.hex()}")

    def append_each(self, oid: str, pieces: Iterable[bytes]) -> None:
        """Puts pieces at the end, each of them made while the session is at the one before."""
        with closing(self._ask_each(f"append {oid} hex:{it.hex()}" for it in pieces)) as replies:
            for _ in replies:
                pass

    def insert(self, oid: str, position: int, data: bytes) -> None:
        """Puts bytes in before the one at a position."""
        self._ask(f"insert {oid} {position} hex:{data.hex()}")

    def replace(self, oid: str, position: int, data: bytes) -> None:
        """Puts bytes over those from a position on."""
        self._ask(f"replace {oid} {position} hex:{data.hex()}")

    def delete(self, oid: str, position: int, length: int) -> None:
        """Takes bytes out."""
        self._ask(f"delete {oid} {position} {length}")

    def next(self, scan: str, length: int) -> bytes:
        """The next bytes of a scan."""
        return data_of(self._ask(f"next {scan} {length}"))

    def next_each(self, scan: str, length: int, count: int) -> Generator[bytes, None, None]:
        """The next pieces of a scan, so many; the session is at the one behind meanwhile."""
        with closing(self._ask_each([f"next {scan} {length}"] * count)) as replies:
            yield from map(data_of, replies)
