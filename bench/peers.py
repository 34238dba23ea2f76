#!/usr/bin/env python3
"""Times exsm beside SQLite and LMDB, which are called from C, in one run, and checks that all give
the same bytes.

Each PROGRAM is a built exsm; ratios are those of the first one. SQLite (a write-ahead log,
synchronous=FULL, exclusive) and LMDB (each commit synced) stand under the same chunk layer of
bench/peers: a small object in a row of its own, a large one in rows of at most 4,000 bytes, whose
lengths are kept in memory; each edit reads and writes its rows at once. They are called within
their process on lines that were read before, while exsm reads its lines from a pipe, its bytes as
digits, and gives its replies into a pipe: what a client pays is in exsm's times, and not in theirs.

A time is the median of N runs, the stores in turn, each on a copy of what was made before, in a
new folder below FOLDER (/dev/shm where none is told: in memory, where a sync costs nothing). Told
are the processor's time, of user and system, the clock's, and with --instructions how many
instructions callgrind counts, where the C library copies and fills by no instruction that repeats
itself. All works of all stores are also done once with a digest of what was read, and of all
objects at the end: where two differ, no figure is told, and the status is 1. Where headers of a
store aren't there it is said which package has them, with status 2.
"""
from __future__ import annotations

import os
import shutil
import subprocess
import sys
import tempfile
import time
from pathlib import Path
from typing import NamedTuple, Optional, Union

sys.dont_write_bytecode = True

from timing import lines  # noqa: E402
from timing.folder import MEMORY, words_of  # noqa: E402
from timing.lines import Sizes, Work  # noqa: E402
from timing.peers import Missing, Peer, counted, peers  # noqa: E402
from timing.piped import Piped, Refused  # noqa: E402
from timing.tables import table  # noqa: E402
from timing.times import Times, middle, ratio, unit  # noqa: E402

TOP = Path(__file__).resolve().parent.parent
FIGURES = TOP / "tools" / "dev" / "figures.py"

Store = Union[Piped, Peer]


class Differs(Exception):
    """Two stores gave other bytes for the same work."""


class Row(NamedTuple):
    """A work, and the times and instructions of one part by each store, in their order."""

    work: Work
    times: list[Times]
    instructions: list[Optional[int]]


def part_of(times: Times, work: Work) -> Times:
    """The times of one part."""
    return Times(times.clock / work.parts, times.processor / work.parts)


def checked(stores: list[Store], work: Work) -> list[str]:
    """What was made before the work, by each store, once all gave the same bytes for it."""
    made = [it.made(work) for it in stores]
    digests = {it.short: it.digest(place, work) for it, place in zip(stores, made)}
    if len(set(digests.values())) != 1:
        raise Differs(f"{work.name}: other bytes: {digests}")
    return made


def timed(stores: list[Store], work: Work, runs: int) -> list[Times]:
    """The times of one part, by each store."""
    made = checked(stores, work)
    times: list[list[Times]] = [[] for _ in stores]
    for _ in range(runs):
        for place, store in enumerate(stores):
            times[place].append(store.time(made[place], work))
    return [part_of(middle(it), work) for it in times]


def opened(stores: list[Store], work: Work, runs: int) -> list[Times]:
    """The times of a process that opens what was made, by each store."""
    made = checked(stores, work)
    times: list[list[Times]] = [[] for _ in stores]
    for _ in range(runs):
        for place, store in enumerate(stores):
            words = store.opening(made[place])
            start = time.perf_counter()
            with subprocess.Popen(words, stdin=subprocess.DEVNULL,
                                  stdout=subprocess.DEVNULL) as child:
                _, status, used = os.wait4(child.pid, 0)
                child.returncode = os.waitstatus_to_exitcode(status)
            if child.returncode:
                raise Refused(f"{' '.join(words)} ended with status {child.returncode}")
            times[place].append(Times(time.perf_counter() - start,
                                      used.ru_utime + used.ru_stime))
    return [middle(it) for it in times]


def instructions(store: Store, work: Work) -> int:
    """The instructions of one part, less those of an opening."""
    made = store.made(work)
    if isinstance(store, Peer):
        return counted(store.stepping(made, work), only="run") // work.parts
    script = store.script(lines.spelled(work.lines, store.oids(made)))
    whole = counted(store.opening(made), script)
    return (whole - counted(store.opening(made), store.script([]))) // work.parts


def rows_of(stores: list[Store], sizes: Sizes, runs: int, counts: bool) -> list[Row]:
    """All rows."""
    rows = [Row(work, timed(stores, work, runs), []) for work in lines.works(sizes)]
    if counts:
        for row, work in zip(rows, lines.works(lines.COUNTED)):
            row.instructions.extend(instructions(store, work) for store in stores)
    rows += [Row(work, opened(stores, work, runs), []) for work in lines.openings(sizes)]
    return rows


def told(stores: list[Store], rows: list[Row]) -> str:
    """The tables: of the processor's time, of the clock's, and of instructions where they are."""
    names = [it.name for it in stores]
    ratios = [f"{stores[0].short} to {it.short}" for it in stores[1:]]
    sqlite = next(place for place, it in enumerate(stores) if it.short == "SQLite")
    parts = [table(["Processor time of one", *names, *ratios, "to SQLite at most"], [
        [row.work.name, *(unit(it.processor) for it in row.times),
         *(ratio(row.times[0].processor, it.processor) for it in row.times[1:]),
         kept(row, sqlite)] for row in rows])]
    parts.append(table(["Clock of one", *names, *ratios], [
        [row.work.name, *(unit(it.clock) for it in row.times),
         *(ratio(row.times[0].clock, it.clock) for it in row.times[1:])] for row in rows]))
    counts = [row for row in rows if row.instructions]
    if counts:
        parts.append(table(["Instructions of one", *names, *ratios], [
            [row.work.name, *(f"{it:,}" for it in row.instructions),
             *(ratio(row.instructions[0], it) for it in row.instructions[1:])]
            for row in counts]))
    return "\n\n".join(parts)


def kept(row: Row, sqlite: int) -> str:
    """The most of SQLite's time that a work is to take, and whether it is kept."""
    if row.work.most is None:
        return ""
    share = row.times[0].processor / row.times[sqlite].processor
    return f"{row.work.most:g}: {'kept' if share <= row.work.most else 'missed'}"


def measure(programs: list[str], top: Optional[str], runs: int, sizes: Sizes,
            counts: bool) -> int:
    """Measures all, tells it, and gives the exit status."""
    try:
        with tempfile.TemporaryDirectory(dir=top) as folder:
            beside = peers(folder)
            stores: list[Store] = [*(Piped(it, folder) for it in programs), *beside]
            print(told(stores, rows_of(stores, sizes, runs, counts)))
    except Missing as fault:
        print(f"peers: {fault}", file=sys.stderr)
        return 2
    except (Differs, Refused) as fault:
        print(f"peers: {fault}", file=sys.stderr)
        return 1
    return 0


def main() -> int:
    """Measures the programs, and gives the exit status."""
    parser = words_of(__doc__, many=True, folder=MEMORY)
    parser.add_argument("--runs", type=int, default=5, metavar="N")
    parser.add_argument("--quick", action="store_true", help="smaller works, to try the bench")
    parser.add_argument("--instructions", action="store_true",
                        help="counts instructions too, by valgrind")
    parser.add_argument("--write", action="store_true",
                        help="writes the figures into docs/SPEED.md, in place of those there")
    words = parser.parse_args()
    if words.instructions and shutil.which("valgrind") is None:
        print("peers: valgrind isn't there: apt-get install valgrind", file=sys.stderr)
        return 2
    if words.write:
        given = [it for it in sys.argv[1:] if it != "--write"]
        return subprocess.call([sys.executable, str(FIGURES), "bench/peers.py", *given])
    return measure(words.programs, words.folder, words.runs,
                   lines.QUICK if words.quick else lines.TIMED, words.instructions)


if __name__ == "__main__":
    sys.exit(main())
