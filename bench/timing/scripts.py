"""Lines of scripts: what is timed, and what makes the volume before."""
from __future__ import annotations

import random
from typing import Iterable

MIB = 1 << 20
# The object of most workloads, and a piece of it.
SIZE, PIECE = 12 * MIB, 4096
OBJECT = "258.0.1"
# The most bytes that a line gives.
LINE_MOST = 16 * MIB

Lines = list[str]


def appended(size: int, piece: int = 256 * 1024) -> Lines:
    """An object of so many bytes, given in hexadecimal digits."""
    lines = ["begin", "file docs", "create docs as @d"]
    digits = bytes(i * 31 % 256 for i in range(piece)).hex()
    lines += [f"append @d hex:{digits[: 2 * min(piece, size - at)]}"
              for at in range(0, size, piece)]
    return [*lines, "commit"]


def repeated(size: int) -> Lines:
    """The same by lines that repeat one byte."""
    lines = ["begin", "file docs", "create docs as @d"]
    lines += [f"append @d rep:{min(LINE_MOST, size - at)}:61" for at in range(0, size, LINE_MOST)]
    return [*lines, "commit"]


def inserts(count: int, at: int) -> Lines:
    """So many inserts of a byte at a position, in one transaction."""
    return ["begin", *[f"insert {OBJECT} {at} hex:2a"] * count, "commit"]


def commits(places: Iterable[int]) -> Lines:
    """A transaction for each insert of 100 bytes."""
    return [line for at in places
            for line in ("begin", f"insert {OBJECT} {at} rep:100:62", "commit")]


def reads(places: Iterable[int], length: int) -> Lines:
    """Reads of so many bytes."""
    return [f"read {OBJECT} {at} {length}" for at in places]


def deletes(places: Iterable[int]) -> Lines:
    """Deletes of a piece, in one transaction."""
    return ["begin", *[f"delete {OBJECT} {at} {PIECE}" for at in places], "commit"]


def creations(count: int, block: int = 40) -> Lines:
    """Objects of 100 bytes in one file, so many a transaction."""
    lines = ["begin", "file small", "commit"]
    for first in range(0, count, block):
        lines.append("begin")
        for number in range(first, min(first + block, count)):
            lines += [f"create small as @n{number}", f"append @n{number} rep:100:63"]
        lines.append("commit")
    return lines


def versions(places: Iterable[int]) -> Lines:
    """A frozen version before each commit."""
    lines: Lines = []
    for number, at in enumerate(places):
        lines += ["begin", f"freeze {OBJECT} as @v{number}", f"replace {OBJECT} {at} rep:100:62",
                  "commit"]
    return lines


def scanned(size: int, length: int) -> Lines:
    """A scan of all bytes."""
    return [f"scan {OBJECT} as s", *[f"next s {length}"] * (size // length), "close s"]


def in_blocks(lines: Lines, block: int = 40) -> Lines:
    """So many lines a transaction."""
    return [line for at in range(0, len(lines), block)
            for line in ("begin", *lines[at:at + block], "commit")]


def places(count: int, size: int, seed: int = 1) -> list[int]:
    """Random positions."""
    chance = random.Random(seed)
    return [chance.randrange(size) for _ in range(count)]
