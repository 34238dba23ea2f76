#!/usr/bin/env python3
"""Times what is to cost the same however many objects or versions there are; tells how it grows.

Of 1,000 objects of 100 bytes in one file up to 1,000,000: the steady state, in which one at random
is destroyed, and another one created and appended to; the first create after an abort; a list, for
each object; the opening of the volume, and how much memory it takes for each object. Of 100 drafts
of one frozen version up to 30,000: the destruction of a draft. Processor time, of user and system,
of whole runs without their opening, medians of N runs, in a new folder below FOLDER (/dev/shm where
none is told). `--most` ends at fewer objects. Behind each row stands how much more the last one
takes than the first, and the most that it is to be.
"""
from __future__ import annotations

import argparse
import os
import random
import subprocess
import sys
import tempfile
from pathlib import Path
from typing import NamedTuple, Optional

sys.dont_write_bytecode = True

from timing import scripts  # noqa: E402
from timing.folder import MEMORY, words_of  # noqa: E402
from timing.program import Exsm  # noqa: E402
from timing.scripts import OBJECT, Lines  # noqa: E402
from timing.tables import table  # noqa: E402
from timing.times import Times, middle, unit  # noqa: E402

TOP = Path(__file__).resolve().parent.parent
FIGURES = TOP / "tools" / "dev" / "figures.py"
COUNTS = [1_000, 10_000, 100_000, 1_000_000]
DRAFTS = [100, 1_000, 10_000, 30_000]

GROWTH_MOST = 2.0
"""How much more the last row of a work takes at most than the first, where the work is the same."""

MEMORY_MOST = 64
"""The bytes that an opening takes for each object at most."""

CHURNED, ABORTED, LISTED, DESTROYED = 400, 100, 200_000, 80
"""How often a work is done in a run; of lists, of how many objects together."""

MADE_AT_ONCE = 50_000
"""The objects that one run makes: it keeps the name of each."""


class Grown(NamedTuple):
    """A work, what a part of it takes by the number of objects or versions, and the most that it
    is to grow."""

    name: str
    seconds: list[float]
    most: Optional[float]

    def cells(self) -> list[str]:
        """A row of the table."""
        share = self.seconds[-1] / self.seconds[0]
        told = "" if self.most is None else (
            f"{self.most:g}: {'kept' if share <= self.most else 'missed'}")
        return [self.name, *map(unit, self.seconds), f"{share:.2f}", told]


def creations(first: int, count: int) -> Lines:
    """The making of so many objects of 100 bytes in the file that is there."""
    return scripts.in_blocks([f"{line}" for it in range(first, first + count)
                              for line in (f"create small as @n{it}", f"append @n{it} rep:100:63")],
                             80)


def objects(program: Exsm, count: int) -> str:
    """A volume with so many objects in one file."""
    # (an object that outgrows what its page has left lies in a unit)
    made = program.volume(["begin", "file small", "commit"], pages=count // 12 + 4096,
                          segs=count // 12 + 256)
    for first in range(0, count, MADE_AT_ONCE):
        program.run(made, creations(first, min(MADE_AT_ONCE, count - first)))
    return made


def churn(program: Exsm, made: str, chance: random.Random) -> Times:
    """One at random goes, and another one comes: what so many of them take."""
    oids = program.oids(made)
    gone = chance.sample(oids, min(CHURNED, len(oids)))
    lines: Lines = []
    for at in range(0, len(gone), 40):
        lines.append("begin")
        for number, oid in enumerate(gone[at:at + 40], at):
            lines += [f"destroy {oid}", f"create small as @n{number}",
                      f"append @n{number} rep:100:64"]
        lines.append("commit")
    times = program.run(made, lines)
    return Times(times.clock / len(gone), times.processor / len(gone))


def by_objects(program: Exsm, counts: list[int], runs: int) -> tuple[list[Grown], list[str]]:
    """The rows of objects, and the cells of the memory for each object."""
    names = ["destroy one at random, create, append", "first create after an abort",
             "list, an object", "opening, a process"]
    most = [GROWTH_MOST, GROWTH_MOST, GROWTH_MOST, None]
    rows: list[list[float]] = [[] for _ in names]
    chance = random.Random(5)
    memory = []
    for count in counts:
        made = objects(program, count)
        aborts = ["begin", "create small as @x", "abort"] * ABORTED
        lists = ["list small"] * max(1, LISTED // count)
        rows[0].append(middle([churn(program, made, chance) for _ in range(runs)]).processor)
        rows[1].append(program.again(made, aborts, runs).processor / ABORTED)
        rows[2].append(program.again(made, lists, runs).processor / len(lists) / count)
        rows[3].append(program.opening(made, runs).processor)
        memory.append(program.memory(made) * scripts.MIB)
        os.remove(made)
    empty = program.memory(program.volume(pages=4096, segs=256)) * scripts.MIB
    told = [f"{max(0, it - empty) / count:.0f} bytes" for it, count in zip(memory, counts)]
    return [Grown(*it) for it in zip(names, rows, most)], told


def drafts(program: Exsm, count: int) -> str:
    """A volume with an object of 1 MiB, of which so many drafts are derived from one version."""
    made = program.volume(scripts.repeated(scripts.MIB), pages=count // 12 + 4096, segs=2048)
    program.run(made, ["begin", f"freeze {OBJECT} as @v", "commit"])
    frozen = next(oid for oid in program_answer(program, made, f"versions {OBJECT}")[3:]
                  if oid != OBJECT)
    for first in range(0, count, MADE_AT_ONCE):
        numbers = range(first, min(first + MADE_AT_ONCE, count))
        program.run(made, scripts.in_blocks([f"derive {frozen} as @d{it}" for it in numbers]))
    return made


def program_answer(program: Exsm, made: str, line: str) -> list[str]:
    """The words of a line's reply."""
    program.run(made, [line])
    return program.answers()[0].split()


def by_drafts(program: Exsm, counts: list[int], runs: int) -> list[Grown]:
    """The row of drafts."""
    seconds = []
    for count in counts:
        made = drafts(program, count)
        times = []
        for _ in range(min(runs, count // DESTROYED)):
            oids = program_answer(program, made, "list docs")[3:]
            lines = scripts.in_blocks([f"destroy {oid}" for oid in oids[-DESTROYED:]])
            times.append(program.run(made, lines))
        seconds.append(middle(times).processor / DESTROYED)
        os.remove(made)
    return [Grown("destroy a draft", seconds, GROWTH_MOST)]


def tell(program: Exsm, counts: list[int], versions: list[int], runs: int) -> None:
    """Prints the tables."""
    ends = ["last to first", "at most"]
    rows, memory = by_objects(program, counts, runs)
    last = float(memory[-1].split()[0])
    state = "kept" if last <= MEMORY_MOST else "missed"
    of_memory = ["memory of an opening, an object", *memory, "", f"{MEMORY_MOST} bytes: {state}"]
    print(table(["Processor time, objects in one file", *(f"{it:,}" for it in counts), *ends],
                [*(row.cells() for row in rows), of_memory]))
    print()
    print(table(["Processor time, drafts of one version", *(f"{it:,}" for it in versions), *ends],
                [row.cells() for row in by_drafts(program, versions, runs)]))


def at_most(counts: list[int], most: int) -> list[int]:
    """The counts up to one."""
    return [it for it in counts if it <= most]


def count_word(word: str) -> int:
    """A number of objects for which there is a row to compare with."""
    if not word.isdecimal() or int(word) < COUNTS[0]:
        raise argparse.ArgumentTypeError(f"{word!r} is no number of {COUNTS[0]:,} and more")
    return int(word)


def main() -> int:
    """Measures a program, and gives the exit status."""
    parser = words_of(__doc__, folder=MEMORY)
    parser.add_argument("--runs", type=int, default=3, metavar="N")
    parser.add_argument("--most", type=count_word, default=COUNTS[-1], metavar="N",
                        help="the most objects, and versions, of a row")
    parser.add_argument("--write", action="store_true",
                        help="writes the figures into docs/SPEED.md, in place of those there")
    words = parser.parse_args()
    if words.write:
        given = [it for it in sys.argv[1:] if it != "--write"]
        return subprocess.call([sys.executable, str(FIGURES), "bench/scale.py", *given])
    with tempfile.TemporaryDirectory(dir=words.folder) as folder:
        tell(Exsm(words.program, folder), at_most(COUNTS, words.most),
             at_most(DRAFTS, words.most), words.runs)
    return 0


if __name__ == "__main__":
    sys.exit(main())
