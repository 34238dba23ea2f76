#!/usr/bin/env python3
"""Times lines on versions of one object, and how they grow with the number of its versions.

Each PROGRAM is a built exsm, so that two builds can be compared. Volumes lie in a new folder below
FOLDER (/dev/shm where there is none given). For each count an object of 1 MiB gets so many frozen
versions, one behind the other, and another one so many drafts derived from one frozen version.
What is told is the processor time of one line: a freeze, a derive, a `versions`, a read of one
byte of a version in the middle, a replace of a draft's byte, a drop from the oldest one on, a
destroy of a draft, and an opening of the volume. A time is that of a process without its opening
of the volume, the median of N runs. Of many drafts just the first ones are destroyed: a destroy
among drafts of one version reads their file.
"""
from __future__ import annotations

import os
import sys
import tempfile
from typing import Iterator

sys.dont_write_bytecode = True

from timing.folder import MEMORY, words_of  # noqa: E402
from timing.plot import Series, plot  # noqa: E402
from timing.program import Exsm  # noqa: E402
from timing.scripts import MIB, Lines, in_blocks  # noqa: E402
from timing.times import unit  # noqa: E402

UPDATES = 100
CHAIN, DRAFTS = "258.0.1", "258.1.2"
PAGES, SEGS = 65536, 4096
REPEATS = 20
READS = 1000
REPLACES = 2000
DESTROYS = 200


def transactions(lines: Lines) -> Lines:
    """The lines, so many a transaction."""
    return in_blocks(lines, UPDATES)


def base() -> Lines:
    """Two objects of 1 MiB."""
    lines = ["begin", "file a"]
    for name in ("chain", "drafts"):
        lines += [f"create a as @{name}", f"append @{name} rep:{MIB}:61"]
    return lines + ["commit"]


def oids_in(program: Exsm, volume: str, oid: str) -> list[str]:
    """The identifiers of all versions of an object, as `versions` tells them."""
    program.run(volume, [f"versions {oid}"])
    return program.answers()[0].split()[3:]


def freezes(count: int) -> Lines:
    """So many frozen versions, one behind the other."""
    return transactions([f"freeze {CHAIN} as @v{number}" for number in range(count)])


def derives(count: int) -> Lines:
    """So many drafts of one frozen version."""
    drafts = transactions([f"derive @first as @d{number}" for number in range(count)])
    return ["begin", f"freeze {DRAFTS} as @first", "commit", *drafts]


def rows(program: Exsm, count: int, runs: int) -> Iterator[tuple[str, float]]:
    """Each kind of line with the time of one.

    What is timed on the volume stays there for what follows.
    """
    made = program.volume(base(), pages=PAGES, segs=SEGS)

    def best(lines: Lines, parts: int) -> float:
        return program.best(made, lines, runs).processor / parts

    yield "freeze", best(freezes(count), count)
    yield "derive", best(derives(count), count)
    yield "opening", program.opening(made, runs).processor
    chain, drafts = oids_in(program, made, CHAIN), oids_in(program, made, DRAFTS)[2:]
    middle, draft = chain[len(chain) // 2], drafts[len(drafts) // 2]
    yield "versions, a chain", best([f"versions {middle}"] * REPEATS, REPEATS)
    yield "versions, drafts of one", best([f"versions {draft}"] * REPEATS, REPEATS)
    yield "read", best([f"read {middle} {MIB // 2} 1"] * READS, READS)
    edits = [f"replace {draft} {number * 500} hex:62" for number in range(REPLACES)]
    yield "replace", best(transactions(edits), REPLACES)
    yield "drop", best(transactions([f"drop {oid}" for oid in chain[:-1]]), count)
    few = drafts[:DESTROYS]
    yield "destroy", best(transactions([f"destroy {oid}" for oid in few]), len(few))
    os.remove(made)


def main() -> None:
    """Times each kind of line on each program and count."""
    words = words_of(__doc__, many=True, folder=MEMORY)
    words.add_argument("--counts", nargs="+", type=int, default=[10, 100, 1000, 10000],
                       metavar="N")
    words.add_argument("--runs", type=int, default=3)
    words.add_argument("--plot", metavar="FILE.svg")
    given = words.parse_args()
    times: dict[str, Series] = {}
    for path in given.programs:
        with tempfile.TemporaryDirectory(dir=given.folder) as folder:
            program = Exsm(path, folder)
            for count in given.counts:
                for kind, seconds in rows(program, count, given.runs):
                    series = times.setdefault(kind, {})
                    series.setdefault(program.name, []).append((count, seconds))
                    print(f"{program.name} | {count} versions | {kind} | {unit(seconds)}",
                          flush=True)
    if given.plot:
        plot(given.plot, [(f"{kind}, us by versions", series) for kind, series in times.items()])


if __name__ == "__main__":
    main()
