"""The workloads of one program beside others."""
from __future__ import annotations

from typing import Callable, Iterator, NamedTuple, Optional

from timing import scripts
from timing.scripts import OBJECT, PIECE, SIZE, Lines

# Lines on the small objects whose identifiers are given.
OfOids = Callable[[list[str]], Lines]


class Workload(NamedTuple):
    """What is timed: its parts, and the script that ran before on the volume."""

    name: str
    parts: int
    before: Lines
    lines: OfOids
    # The number of small objects.
    small: int = 0
    # The most microseconds of one part.
    goal: Optional[float] = None


def one_object(name: str, parts: int, lines: Lines, goal: Optional[float] = None) -> Workload:
    """On an object of 12 MiB."""
    return Workload(name, parts, scripts.appended(SIZE), lambda oids: lines, 0, goal)


def fresh(name: str, parts: int, lines: Lines, goal: Optional[float] = None) -> Workload:
    """On an empty volume."""
    return Workload(name, parts, [], lambda oids: lines, 0, goal)


def many_objects(name: str, parts: int, count: int, lines: OfOids) -> Workload:
    """On so many small objects in one file."""
    return Workload(name, parts, scripts.creations(count), lines, count)


def large(spots: list[int]) -> Iterator[Workload]:
    """On an object of 12 MiB, and on its making."""
    gone = scripts.places(100, SIZE - 200 * PIECE)
    few, many, rows = spots[:300], spots * 5, range(0, SIZE, 65536)
    yield fresh("append 12 MiB, hex, a MiB", 12, scripts.appended(SIZE), 4000)
    yield fresh("append 12 MiB, rep, a MiB", 12, scripts.repeated(SIZE))
    yield one_object("512 inserts, one transaction", 512, scripts.inserts(512, 6000000), 18)
    yield one_object("insert and commit", 300, scripts.commits(few))
    yield one_object("random read of 4 KiB", 5000, scripts.reads(many, 4096), 8)
    yield one_object("random read of 16 bytes", 5000, scripts.reads(many, 16))
    yield one_object("sequential read of 64 KiB", len(rows), scripts.reads(rows, 65536))
    yield one_object("scan, 64 KiB a line", len(rows), scripts.scanned(SIZE, 65536))
    yield one_object("100 deletes of 4 KiB, one transaction", 100, scripts.deletes(gone))
    yield one_object("freeze, replace of 100 bytes and commit", 300, scripts.versions(few))
    yield one_object("size", 20000, [f"size {OBJECT}"] * 20000, 1.5)
    yield one_object("begin and abort", 10000, ["begin", "abort"] * 10000)
    yield one_object("files", 10000, ["files"] * 10000)


def small(count: int) -> Iterator[Workload]:
    """On so many objects of 100 bytes, and on their making."""
    told = f"of {count:,} objects"
    yield fresh(f"create and append, {count:,} objects", count, scripts.creations(count), 18)
    yield many_objects(f"read one {told}", count, count,
                       lambda oids: [f"read {oid} 0 100" for oid in oids])
    yield many_objects(f"list one {told}", 10 * count, count, lambda oids: ["list small"] * 10)
    yield many_objects(f"destroy one {told}", count, count,
                       lambda oids: scripts.in_blocks([f"destroy {oid}" for oid in oids]))


def workloads(quick: bool) -> Iterator[Workload]:
    """All of them, in the order in which they are told."""
    yield from large(scripts.places(1000, SIZE - 65536))
    for count in [1000] if quick else [1000, 10000]:
        yield from small(count)
