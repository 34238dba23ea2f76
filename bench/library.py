#!/usr/bin/env python3
"""Times calls of the library within a process, from C and from Python, beside SQLite and LMDB.

PROGRAM is a built exsm, which makes the volumes; the library is that of `library/build`. SQLite and
LMDB are measured where bench/peers has its chunk layer and their headers are there, else left out,
which is said. Each time is the median of N runs, the stores in turn, each run on a new volume in a
new folder below FOLDER (/dev/shm where none is told: in memory, where a sync costs nothing). Told
is the clock's time of one part, and the most memory that the process had. `later` is the library
with commits that may wait. `--scale` makes the works larger: 6 is 300 MB in and out.
"""
from __future__ import annotations

import argparse
import os
import resource
import statistics
import subprocess
import sys
import tempfile
import time
from pathlib import Path
from typing import Callable, Iterator, NamedTuple

sys.dont_write_bytecode = True

from timing.times import unit  # noqa: E402

TOP = Path(__file__).resolve().parent.parent
SOURCES = TOP / "bench" / "library"
PEERS = TOP / "bench" / "peers"
LIBRARY = TOP / "library" / "out"
SHAPE = ("--page-size", "4096", "--pages", "16000", "--segs", "240000", "--seg-len", "1",
         "--fan", "169")
LATER = "2"
PIECE = 8 << 20
MEMORY = "most memory"
FLAGS = ("-std=gnu99", "-O2", "-Wall", "-Wextra", "-Werror")

Times = dict[str, float]
"""Seconds of one part, by the work; of `MEMORY` the KiB."""


class Failed(Exception):
    """A measure couldn't be made, and why."""


class Measured(NamedTuple):
    """What is measured, and how it is run: on a new folder, to the times."""

    name: str
    run: Callable[[str], Times]


def times_of(text: str) -> Times:
    """The times that a measure wrote."""
    times: Times = {}
    for line in text.splitlines():
        work, *numbers = line.split(" | ")
        parts, seconds = (1, numbers[0]) if len(numbers) == 1 else (int(numbers[0]), numbers[1])
        times[work] = float(seconds) / parts
    return times


def run(words: list[str], **variables: str) -> str:
    """What a command wrote."""
    ran = subprocess.run(words, capture_output=True, text=True, check=False,
                         env={**os.environ, **variables})
    if ran.returncode != 0:
        raise Failed(f"{words[0]}: {(ran.stderr.splitlines() or ['it failed'])[-1]}")
    return ran.stdout


def compiled(to: str, *words: object) -> str:
    """A measure in C, compiled to a file."""
    run([os.environ.get("CC", "cc"), *FLAGS, str(SOURCES / "measure.c"), *map(str, words), "-o",
         to])
    return to


def new_volume(program: str, folder: str) -> None:
    """Makes a volume in a folder."""
    run([program, "format", os.path.join(folder, "v"), *SHAPE])


def of_library(program: str, measure: str, scale: int, flags: str) -> Callable[[str], Times]:
    """Runs of the measure of the library, whose volumes are opened with flags."""
    def step(folder: str) -> Times:
        new_volume(program, folder)
        return times_of(run([measure, folder, str(scale)], EXSM_FLAGS=flags))
    return step


def of_python(program: str, library: str, scale: int) -> Callable[[str], Times]:
    """Runs of the same works from Python, each in a process of its own."""
    def step(folder: str) -> Times:
        new_volume(program, folder)
        return times_of(run([sys.executable, str(Path(__file__).resolve()), "--works",
                             os.path.join(folder, "v"), "--scale", str(scale)],
                            EXSM_LIBRARY=library))
    return step


def of_peer(measure: str, scale: int) -> Callable[[str], Times]:
    """Runs of the measure of another store."""
    return lambda folder: times_of(run([measure, folder, str(scale)]))


def works(volume: str, scale: int) -> Iterator[tuple[str, int, float]]:
    """Does the works of bench/library/measure.c from Python: each with its parts and the clock's
    seconds of all."""
    sys.path.insert(0, str(TOP / "tools"))
    from exsm.client import Store

    size, piece = scale * 6 * PIECE, os.urandom(PIECE)
    places = [(it * 7_919_771) % (size - 4096) for it in range(1000)]
    with Store(volume) as store:
        with store.transaction():
            store.file("bench")
            large, middle = store.create("bench"), store.create("bench")
            store.append(middle, piece[:1 << 20])
        begun = time.perf_counter()
        for _ in range(0, size, PIECE):
            with store.transaction():
                store.append(large, piece)
        yield "bytes in, a MB", size // 1_000_000, time.perf_counter() - begun
        begun = time.perf_counter()
        for at in range(0, size, PIECE):
            read = store.read(large, at, PIECE)
        yield "bytes out, a MB", size // 1_000_000, time.perf_counter() - begun
        if read != piece:
            raise Failed("bytes out: other bytes than were put")
        begun = time.perf_counter()
        for _ in range(10_000 * scale):
            store.size(large)
        yield "size", 10_000 * scale, time.perf_counter() - begun
        for work, length in (("read of 16 bytes", 16), ("read of 4 KiB", 4096)):
            begun = time.perf_counter()
            for _ in range(10 * scale):
                for at in places:
                    store.read(large, at, length)
            yield work, 10_000 * scale, time.perf_counter() - begun
        begun = time.perf_counter()
        for count in range(500 * scale):
            with store.transaction():
                store.insert(middle, places[count % 1000] % (1 << 20), piece[:100])
        yield "insert of 100 bytes into 1 MiB and commit", 500 * scale, time.perf_counter() - begun
        begun = time.perf_counter()
        for _ in range(100 * scale):
            with store.transaction():
                for _ in range(5):
                    store.append(store.create("bench"), piece[:100])
        yield "object of 100 bytes, five a commit", 500 * scale, time.perf_counter() - begun


def tell_works(volume: str, scale: int) -> None:
    """Does the works, and writes their times as the measure in C does."""
    for work, parts, seconds in works(volume, scale):
        print(f"{work} | {parts} | {seconds:.9f} | 0", flush=True)
    print(f"{MEMORY} | {resource.getrusage(resource.RUSAGE_SELF).ru_maxrss}")


def peers(folder: str, scale: int) -> Iterator[Measured]:
    """The other stores that can be measured here."""
    for name, source, library in (("SQLite", "sqlite.c", "sqlite3"), ("LMDB", "lmdb.c", "lmdb")):
        try:
            if not PEERS.is_dir():
                raise Failed("there is no bench/peers")
            measure = compiled(os.path.join(folder, name), "-Wno-unused-function", f"-I{PEERS}",
                               f"-I{SOURCES}", PEERS / "chunks.c", PEERS / source, f"-l{library}")
            yield Measured(name, of_peer(measure, scale))
        except Failed as fault:
            print(f"library: {name} is left out: {fault}", file=sys.stderr)


def measured(program: str, library: Path, folder: str, scale: int) -> list[Measured]:
    """All that is measured."""
    measure = compiled(os.path.join(folder, "measure"), f"-I{library}", f"-I{SOURCES}",
                       SOURCES / "exsm_objects.c", library / "libexsm.a")
    return [Measured("C", of_library(program, measure, scale, "0")),
            Measured("C, later", of_library(program, measure, scale, LATER)),
            Measured("Python", of_python(program, str(library / "libexsm.so"), scale)),
            *peers(folder, scale)]


def tell(stores: list[Measured], runs: list[list[Times]]) -> None:
    """The table: a row for each work, a column for each store."""
    print(" | ".join(["one part", *(it.name for it in stores)]))
    for work in runs[0][0]:
        middles = [statistics.median(times[work] for times in of_store) for of_store in runs]
        told = [f"{it / 1024:.1f} MiB" if work == MEMORY else unit(it) for it in middles]
        print(" | ".join([work, *told]))


def main() -> int:
    """Measures, and gives the exit status."""
    parser = argparse.ArgumentParser(
        description=__doc__, formatter_class=argparse.RawDescriptionHelpFormatter)
    parser.add_argument("program", metavar="PROGRAM")
    parser.add_argument("--library", metavar="FOLDER", type=Path, default=LIBRARY,
                        help="where the library was built; library/out where it isn't told")
    parser.add_argument("--folder", default="/dev/shm" if os.path.isdir("/dev/shm") else None)
    parser.add_argument("--runs", type=int, default=5, metavar="N")
    parser.add_argument("--scale", type=int, default=6, metavar="N")
    parser.add_argument("--works", action="store_true", help=argparse.SUPPRESS)
    words = parser.parse_args()
    try:
        if words.works:
            tell_works(words.program, words.scale)
            return 0
        with tempfile.TemporaryDirectory(dir=words.folder) as folder:
            stores = measured(os.path.abspath(words.program), words.library.resolve(), folder,
                              words.scale)
            runs: list[list[Times]] = [[] for _ in stores]
            for _ in range(words.runs):
                for times, store in zip(runs, stores):
                    with tempfile.TemporaryDirectory(dir=words.folder) as place:
                        times.append(store.run(place))
            tell(stores, runs)
    except (Failed, OSError) as fault:
        print(f"library: {fault}", file=sys.stderr)
        return 1
    return 0


if __name__ == "__main__":
    sys.exit(main())
