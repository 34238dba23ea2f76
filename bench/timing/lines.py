"""Work on objects that several stores do: lines in which an object is named by its number.

The stores beside take the lines as they are, and exsm as `spelled` has them: in one file, objects
by their identifiers, of which the last number is the object's where nothing but objects was made.
"""
from __future__ import annotations

from typing import Iterable, Iterator, NamedTuple, Optional

from timing.scripts import MIB, PIECE, SIZE, places

FILE = "all"
# The objects of a block of creations or removals: so many a transaction.
BLOCK = 40
APPENDED = 256 * 1024

Lines = list[str]


class Work(NamedTuple):
    """What is timed: its parts, what stands before it, its lines, and the most that exsm is to take
    of SQLite's time."""

    name: str
    parts: int
    before: Lines
    lines: Lines
    most: Optional[float] = None


class Sizes(NamedTuple):
    """How often a work is done."""

    commits: int
    reads: int
    deletes: int
    objects: int
    bytes: int = SIZE
    """Of the large object."""


TIMED = Sizes(300, 5000, 100, 10000)
COUNTED = Sizes(100, 300, 50, 1000)
QUICK = Sizes(50, 200, 20, 400, 2 * MIB)


def filled(size: int) -> Lines:
    """The making of object 1, of so many bytes."""
    digits = bytes(i * 31 % 256 for i in range(APPENDED)).hex()
    return ["begin", "create 1", *[f"append 1 hex:{digits}"] * (size // APPENDED), "commit"]


def committed(lines: Iterable[str]) -> Lines:
    """A transaction for each line."""
    return [line for it in lines for line in ("begin", it, "commit")]


def in_blocks(parts: list[Lines]) -> Lines:
    """A transaction for each block of parts."""
    lines: Lines = []
    for at in range(0, len(parts), BLOCK):
        lines += ["begin", *(line for part in parts[at:at + BLOCK] for line in part), "commit"]
    return lines


def creations(count: int) -> Lines:
    """The making of so many objects of 100 bytes."""
    return in_blocks([[f"create {it}", f"append {it} rep:100:63"] for it in range(1, count + 1)])


def large_works(of: Sizes) -> Iterator[Work]:
    """On an object of some MiB, and its making."""
    spots = places(max(of.commits, of.reads), of.bytes - 65536)
    gone = places(of.deletes, of.bytes - 2 * of.deletes * PIECE)
    rows, made = range(0, of.bytes, 65536), filled(of.bytes)
    yield Work(f"append {of.bytes // MIB} MiB, a MiB", of.bytes // MIB, [], made, 0.5)
    yield Work("512 inserts of a byte, one transaction", 512, made,
               ["begin", *[f"insert 1 {of.bytes // 2} rep:1:2a"] * 512, "commit"], 2.5)
    yield Work("insert of 100 bytes and commit", of.commits, made,
               committed(f"insert 1 {at} rep:100:62" for at in spots[:of.commits]), 1)
    yield Work("random read of 4 KiB", of.reads, made,
               [f"read 1 {at} {PIECE}" for at in spots[:of.reads]], 0.8)
    yield Work("sequential read of 64 KiB", len(rows), made,
               [f"read 1 {at} 65536" for at in rows])
    yield Work("delete of 4 KiB, one transaction", of.deletes, made,
               ["begin", *(f"delete 1 {at} {PIECE}" for at in gone), "commit"], 1)


def small_works(of: Sizes) -> Iterator[Work]:
    """On objects of 100 bytes, and their making."""
    count, numbers = of.objects, range(1, of.objects + 1)
    told = f"{count:,} objects"
    yield Work(f"create and append, {told}", count, [], creations(count), 2.5)
    yield Work(f"read one of {told}", count, creations(count),
               [f"read {it} 0 100" for it in numbers], 1.2)
    yield Work(f"list one of {told}", 10 * count, creations(count), ["list"] * 10, 1)
    yield Work(f"destroy one of {told}", count, creations(count),
               in_blocks([[f"destroy {it}"] for it in numbers]))


def works(of: Sizes) -> Iterator[Work]:
    """All of them, in the order in which they are told."""
    yield from large_works(of)
    yield from small_works(of)


def openings(of: Sizes) -> Iterator[Work]:
    """What is opened: an object of some MiB, and many small ones."""
    yield Work(f"open {of.bytes // MIB} MiB, a process", 1, filled(of.bytes), [], 0.3)
    yield Work(f"open {of.objects:,} objects, a process", 1, creations(of.objects), [])


def spelled(lines: Lines, oids: list[str]) -> Lines:
    """The lines as exsm takes them; `oids` has the identifiers of the objects that are there."""
    made: set[str] = set()
    spelt: Lines = []
    for line in lines:
        word, *rest = line.split()
        if word == "create":
            made.add(rest[0])
            spelt.append(f"create {FILE} as @n{rest[0]}")
        elif word == "list":
            spelt.append(f"list {FILE}")
        elif rest:
            name = f"@n{rest[0]}" if rest[0] in made else oids[int(rest[0]) - 1]
            spelt.append(" ".join([word, name, *rest[1:]]))
        else:
            spelt.append(word)
    return spelt
