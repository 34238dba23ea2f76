#!/usr/bin/env python3
"""Times exsm on whole workloads, and draws how times grow.

Each PROGRAM is a built exsm, so that two builds can be compared; the first one stands first in the
ratios. Volumes and databases lie in a new folder below FOLDER (/dev/shm where there is none
given): in memory, where syncs cost nothing, a time is the program's own. A time is that of a whole
process, which reads its script from a pipe and writes its replies into a file, the median of N
runs, without its opening of the volume. All times are the processor's, of user and system, which
other work on the machine changes less than the clock's. Where a part has a goal, it is told whether
the first program keeps it. A program that lacks a workload's lines has no time there, and one whose
run took more than ten seconds none of larger ones. `--large` goes up to an object of 4 GiB less
1 MiB, for which the folder needs room. bench/peers.py has SQLite and LMDB beside it.
"""
from __future__ import annotations

import sys
import tempfile
from typing import Optional

sys.dont_write_bytecode = True

from timing import scripts  # noqa: E402
from timing.folder import MEMORY, words_of  # noqa: E402
from timing.growth import growth  # noqa: E402
from timing.plot import Panel, plot  # noqa: E402
from timing.program import Exsm, Lacking  # noqa: E402
from timing.scripts import SIZE  # noqa: E402
from timing.times import kept, ratio, unit  # noqa: E402
from timing.workloads import Workload, workloads  # noqa: E402

# The goal of an opening of the largest geometry, in microseconds.
OPENING_GOAL = 10000

Seconds = list[Optional[float]]


def tell(name: str, times: Seconds, goal: Optional[float] = None) -> None:
    """One row: the times of one part, and the ratios of the first program's to the others'."""
    ratios = [ratio(times[0], other) for other in times[1:]]
    print(" | ".join([name, *map(unit, times), *ratios, kept(times[0], goal)]), flush=True)


def timed(program: Exsm, load: Workload, runs: int) -> Optional[float]:
    """The seconds of one part, of a program that has its lines."""
    try:
        made = program.volume(load.before)
        lines = load.lines(program.oids(made) if load.small else [])
        return program.best(made, lines, runs).processor / load.parts
    except Lacking:
        return None


def compare_openings(programs: list[Exsm], runs: int, count: int) -> None:
    """The rows of openings: of one object, of many, and of the largest geometry."""
    times: Seconds = [it.opening(it.volume(scripts.appended(SIZE)), runs).processor
                      for it in programs]
    tell("opening 12 MiB, a process", times)
    times = [it.opening(it.volume(scripts.creations(count)), runs).processor for it in programs]
    tell(f"opening {count:,} objects, a process", times)
    times = [it.opening(it.volume(pages=4000000, segs=4000000), runs).processor
             for it in programs]
    tell("opening the largest geometry, empty", times, OPENING_GOAL)


def compare(programs: list[Exsm], runs: int, quick: bool) -> None:
    """All rows, below their head."""
    heads = [*(it.name for it in programs), *(f"to {it.name}" for it in programs[1:])]
    print(" | ".join(["processor time of one part", *heads, "goal"]), flush=True)
    for load in workloads(quick):
        tell(load.name, [timed(it, load, runs) for it in programs], load.goal)
    compare_openings(programs, runs, 1000 if quick else 10000)


def tell_growth(panels: list[Panel]) -> None:
    """A row for each line of the plots: its times, and how much longer the last one is."""
    for title, series in panels:
        for label, points in series.items():
            told = ", ".join(f"{x:,}: {y * 1e6:.2f}" for x, y in points)
            grown = ratio(points[-1][1], points[0][1])
            print(f"{title} | {label} | {told} | last to first {grown}")


def main() -> None:
    """Compares the programs, and draws how their times grow where a plot is asked for."""
    parser = words_of(__doc__, many=True, folder=MEMORY)
    parser.add_argument("--plot", metavar="FILE.svg")
    parser.add_argument("--runs", type=int, default=5, metavar="N")
    parser.add_argument("--quick", action="store_true", help="fewer and smaller workloads")
    parser.add_argument("--large", action="store_true", help="objects of up to 4 GiB")
    words = parser.parse_args()
    with tempfile.TemporaryDirectory(dir=words.folder) as folder:
        programs = [Exsm(path, folder) for path in words.programs]
        compare(programs, words.runs, words.quick)
        if words.plot:
            panels = growth(programs, words.runs, words.quick, words.large)
            tell_growth(panels)
            plot(words.plot, panels)


if __name__ == "__main__":
    main()
