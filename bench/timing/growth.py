"""How times grow with an object's size, and with the number of objects in a file."""
from __future__ import annotations

import os
from typing import NamedTuple

from timing import scripts
from timing.plot import Panel, Point, Series
from timing.program import Exsm
from timing.scripts import MIB, PIECE
from timing.times import unit

# The largest object in MiB, and the most bytes of one.
LARGEST, MOST = 4096, (1 << 32) - MIB
# A program whose run took more seconds than this has no larger ones.
PATIENCE = 10
# The edits of a point, and how often its places are read.
EDITS, AGAIN = 200, 5


class BySize(NamedTuple):
    """By MiB of an object: an insert with its commit, a read of 4 KiB, and an opening."""

    edits: list[Point]
    reads: list[Point]
    openings: list[Point]


def by_size(program: Exsm, sizes: list[int], runs: int) -> BySize:
    """A program's times by MiB of an object; its memory is printed."""
    found = BySize([], [], [])
    for mib in sizes:
        size = min(mib * MIB, MOST)
        made = program.volume(scripts.repeated(size), segs=16384 + mib * 256)
        spots = scripts.places(EDITS, size - PIECE)
        lines = scripts.reads(spots * AGAIN, PIECE)
        found.reads.append((mib, program.again(made, lines, runs).processor / len(lines)))
        edits = program.again(made, scripts.commits(spots), runs).processor / EDITS
        found.edits.append((mib, edits))
        opening = program.opening(made, runs).processor
        found.openings.append((mib, opening))
        print(f"{program.name}: opening {mib:,} MiB | {unit(opening)} | "
              f"{program.memory(made):.1f} MiB of memory", flush=True)
        os.remove(made)
    return found


def by_number(program: Exsm, counts: list[int], runs: int) -> list[Point]:
    """By objects in a file: create and append."""
    points: list[Point] = []
    for count in counts:
        seconds = program.best(program.volume(segs=65536), scripts.creations(count),
                               runs if count <= 10000 else 1).processor
        points.append((count, seconds / count))
        if seconds > PATIENCE:
            break
    return points


def growth(programs: list[Exsm], runs: int, quick: bool, large: bool) -> list[Panel]:
    """Panels of the plot: a title, and for each label pairs of a size or number and a time."""
    sizes = [1, 4, 16] if quick else [1, 4, 16, 64, 256, *([1024, LARGEST] if large else [])]
    counts = [500, 1000, 2000] if quick else [1000, 2000, 5000, 10000, 20000, 100000]
    edits: Series = {}
    reads: Series = {}
    openings: Series = {}
    makes: Series = {}
    for program in programs:
        name = program.name
        edits[name], reads[name], openings[name] = by_size(program, sizes, runs)
        makes[name] = by_number(program, counts, runs)
    return [
        ("insert and commit, us by MiB of the object", edits),
        ("read of 4 KiB, us by MiB of the object", reads),
        ("opening, us by MiB of the object", openings),
        ("create and append, us by objects in the file", makes),
    ]
