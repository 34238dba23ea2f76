#!/usr/bin/env python3
"""Times `exsm dump` and `exsm load` on volumes of several sizes, and what they take of memory.

Each PROGRAM is a built exsm. Volumes lie in a new folder below FOLDER (/dev/shm where there is none
given). A dump that is timed goes to /dev/null, and a load is of one that was kept there, into a
volume that was just made. A figure is the least of RUNS runs of a whole process, the opening
included: time of the processor for each MiB of the stream, beside that of `cat` of the volume's
file, and the most memory that the process had. Volumes of an object of 16 MiB and up to 1 GiB, in
leaves of 4,096 bytes, tell how the time grows, which is to be at most 1.3 times for a MiB, and at
most 1.5 ms for a dump and 3 ms for a load; the largest is dumped and loaded by processes that may
take 200 MiB. And one of 100,000 objects of 100 bytes in a file, which is to be dumped in at most
half a second and loaded in one. `--quick` goes up to 64 MiB and 10,000 objects.
"""
from __future__ import annotations

import argparse
import os
import resource
import subprocess
import sys
import tempfile
from typing import Callable, Iterator, NamedTuple, Optional

from timing.tables import table

MIB = 1 << 20
RUNS = 3
PIECE = 4 * MIB
MEMORY_MOST = 200 * MIB
GROWTH_MOST = 1.3
DUMP_MIB_MOST, DUMP_SMALL_MOST = 0.0015, 0.5
LOAD_MIB_MOST, LOAD_SMALL_MOST = 0.003, 1.0
SIZES, QUICK_SIZES = (16, 128, 1024), (16, 64)
SMALL, QUICK_SMALL = 100_000, 10_000
SMALL_AT_ONCE = 200


class Ran(NamedTuple):
    """A run: seconds of the processor, and MiB of memory."""

    processor: float
    memory: float


def ran(words: list[str], source: str = os.devnull, sink: str = os.devnull,
        memory: Optional[int] = None) -> Ran:
    """Runs a command to its end, which may take so many bytes of memory."""
    def limit() -> None:
        if memory is not None:
            resource.setrlimit(resource.RLIMIT_AS, (memory, memory))
    with open(source, "rb") as given, open(sink, "wb") as taken:
        child = subprocess.Popen(words, stdin=given, stdout=taken, preexec_fn=limit)
        _, status, used = os.wait4(child.pid, 0)
        child.returncode = os.waitstatus_to_exitcode(status)
    if child.returncode:
        sys.exit(f"streams.py: {' '.join(words)} ended with status {child.returncode}")
    return Ran(used.ru_utime + used.ru_stime, used.ru_maxrss / 1024)


def one_object(mib: int) -> Iterator[str]:
    """A script that makes an object of so many MiB, none of whose pieces is another one."""
    yield from ("begin", "file docs", "create docs as @d")
    for number in range(mib * MIB // PIECE):
        yield f"append @d rep:{PIECE}:{number % 256:02x}"
    yield "commit"


def small_objects(count: int) -> Iterator[str]:
    """A script that makes so many objects of 100 bytes in one file."""
    yield from ("begin", "file small", "commit")
    for first in range(0, count, SMALL_AT_ONCE):
        yield "begin"
        for number in range(first, first + SMALL_AT_ONCE):
            yield from (f"create small as @n{number}", f"append @n{number} rep:100:63")
        yield "commit"


class Streams:
    """Dumps and loads of a program, of volumes in a folder."""

    def __init__(self, program: str, folder: str) -> None:
        self.program = os.path.abspath(program)
        self.volume, self.loaded, self.stream, self.script = (
            os.path.join(folder, name) for name in ("volume", "loaded", "stream", "script"))
        self.sizes: list[str] = []

    def format(self, volume: str) -> None:
        """Makes a volume of the sizes at hand."""
        if os.path.exists(volume):
            os.remove(volume)
        ran([self.program, "format", volume, *self.sizes])

    def fill(self, pages: int, segs: int, lines: Iterator[str]) -> None:
        """Makes a volume, and runs a script on it."""
        self.sizes = ["--pages", str(pages), "--segs", str(segs)]
        self.format(self.volume)
        with open(self.script, "w", encoding="ascii") as file:
            file.writelines(f"{line}\n" for line in lines)
        ran([self.program, "run", self.volume], self.script)

    def make(self, pages: int, segs: int, lines: Iterator[str]) -> None:
        """Makes a volume, runs a script on it, and keeps its stream."""
        self.fill(pages, segs, lines)
        ran([self.program, "dump", self.volume], sink=self.stream)

    def dump(self, memory: Optional[int] = None) -> Ran:
        """The least of some dumps."""
        return least([ran([self.program, "dump", self.volume], memory=memory)
                      for _ in range(RUNS)])

    def load(self, memory: Optional[int] = None) -> Ran:
        """The least of some loads."""
        runs: list[Ran] = []
        for _ in range(RUNS):
            self.format(self.loaded)
            runs.append(ran([self.program, "load", self.loaded], self.stream, memory=memory))
        return least(runs)

    def cat(self) -> Ran:
        """The least of some copies of the volume's file to nowhere."""
        return least([ran(["cat", self.volume]) for _ in range(RUNS)])


def least(runs: list[Ran]) -> Ran:
    """The least of each figure of some runs."""
    return Ran(min(it.processor for it in runs), min(it.memory for it in runs))


def kept(value: float, most: float) -> str:
    """Whether a value is within its limit."""
    return "kept" if value <= most else "missed"


class Table:
    """The rows of a table on dumps or on loads."""

    def __init__(self, head: str, mib_most: float, small_most: float) -> None:
        self.head, self.mib_most, self.small_most = head, mib_most, small_most
        self.rows: list[list[str]] = []
        self.for_mib: list[float] = []

    def add(self, mib: int, run: Ran, beside: Ran) -> None:
        """A run over an object of so many MiB, beside `cat`."""
        for_mib = run.processor / mib
        self.for_mib.append(for_mib)
        self.rows.append([f"an object of {mib:,} MiB", f"{run.processor * 1000:,.0f} ms",
                          f"{for_mib * 1000:.2f} ms", f"{beside.processor / mib * 1000:.2f} ms",
                          f"{run.memory:.1f} MiB", kept(for_mib, self.mib_most)])

    def end(self, sizes: tuple[int, ...], small: int, run: Ran) -> str:
        """The table, with how the time grew and a run over small objects."""
        growth = self.for_mib[-1] / self.for_mib[0]
        self.rows.append([f"growth from {sizes[0]} to {sizes[-1]:,} MiB", "", f"{growth:.2f}", "",
                          "", kept(growth, GROWTH_MOST)])
        self.rows.append([f"{small:,} objects of 100 bytes", f"{run.processor * 1000:,.0f} ms", "",
                          "", f"{run.memory:.1f} MiB", kept(run.processor, self.small_most)])
        return table([self.head, "Processor", "A MiB", "`cat` of the file", "Memory", ""],
                     self.rows)


def tell(streams: Streams, sizes: tuple[int, ...], small: int) -> None:
    """Measures, and prints two tables."""
    dumped = Table("Dumped", DUMP_MIB_MOST, DUMP_SMALL_MOST)
    loaded = Table("Loaded", LOAD_MIB_MOST, LOAD_SMALL_MOST)
    for mib in sizes:
        streams.make(16_384, mib * 256 + 1024, one_object(mib))
        memory, beside = MEMORY_MOST if mib == sizes[-1] else None, streams.cat()
        dumped.add(mib, streams.dump(memory), beside)
        loaded.add(mib, streams.load(memory), beside)
    streams.make(64_000, 1024, small_objects(small))
    print(dumped.end(sizes, small, streams.dump()), loaded.end(sizes, small, streams.load()),
          sep="\n\n")


def time_programs(about: Optional[str], measure: Callable[[str, str, bool], None]) -> None:
    """Measures each program that the words name in a folder of its own, or at small sizes."""
    parser = argparse.ArgumentParser(
        description=about, formatter_class=argparse.RawDescriptionHelpFormatter)
    parser.add_argument("programs", metavar="PROGRAM", nargs="+")
    parser.add_argument("--folder", default="/dev/shm")
    parser.add_argument("--quick", action="store_true")
    words = parser.parse_args()
    for program in words.programs:
        with tempfile.TemporaryDirectory(dir=words.folder) as folder:
            measure(program, folder, words.quick)


def measure_streams(program: str, folder: str, quick: bool) -> None:
    """Times the dumps and loads of a program."""
    tell(Streams(program, folder), QUICK_SIZES if quick else SIZES,
         QUICK_SMALL if quick else SMALL)


if __name__ == "__main__":
    time_programs(__doc__, measure_streams)
