#!/usr/bin/env python3
"""Times `exsm check` on volumes of several sizes, and `exsm gen`.

PROGRAM is a built exsm. Volumes lie in a new folder below FOLDER (/dev/shm where there is none
given). Each figure is the least of three runs: time of the clock, time of the processor, and the
most memory that the process had, of which the system can't tell less than what Python has, some
14 MiB. The volumes: one object of 100 MiB, one of 4 GiB, and 100,000 objects of 100 bytes in one
file; and an empty script is run on the largest geometry. `gen` makes 10,000 and 100,000 lines on
a volume of 64,000 pages. `--quick` leaves out what takes more than some seconds.
"""
from __future__ import annotations

import os
import subprocess
import sys
import tempfile
import time
from typing import Iterable, Iterator, NamedTuple

sys.dont_write_bytecode = True

from timing.folder import MEMORY, words_of  # noqa: E402

MIB = 1 << 20
LINE_MOST = 16 * MIB
RUNS = 3


class Ran(NamedTuple):
    """A run: seconds of the clock and of the processor, MiB, and what was sent."""

    clock: float
    processor: float
    memory: float
    sent: str


def once(words: list[object], lines: Iterable[str] = ()) -> Ran:
    """Runs a command on a script."""
    with tempfile.TemporaryFile() as source, tempfile.TemporaryFile() as sink:
        source.writelines(f"{line}\n".encode() for line in lines)
        source.seek(0)
        start = time.perf_counter()
        child = subprocess.Popen([str(word) for word in words], stdin=source, stdout=sink)
        _, status, used = os.wait4(child.pid, 0)
        wall = time.perf_counter() - start
        child.returncode = os.waitstatus_to_exitcode(status)
        sink.seek(0)
        sent = sink.read().decode()
    if child.returncode:
        sys.exit(f"check.py: {' '.join(map(str, words))} ended with status {child.returncode}")
    return Ran(wall, used.ru_utime + used.ru_stime, used.ru_maxrss / 1024, sent)


def tell(what: str, runs: list[Ran]) -> None:
    """Prints the least of some runs, and what the first one sent."""
    clock = min(it.clock for it in runs)
    processor = min(it.processor for it in runs)
    memory = min(it.memory for it in runs)
    print(f"{what}: {clock * 1000:.1f} ms, {processor * 1000:.1f} ms of the processor, "
          f"{memory:.1f} MiB; {runs[0].sent.strip()}", flush=True)


def one_object(size: int) -> Iterator[str]:
    """A script that makes an object of so many bytes."""
    yield from ("begin", "file docs", "create docs as @d")
    for at in range(0, size, LINE_MOST):
        yield f"append @d rep:{min(LINE_MOST, size - at)}:61"
    yield "commit"


def small_objects(count: int, block: int = 200) -> Iterator[str]:
    """A script that makes so many objects of 100 bytes in one file."""
    yield from ("begin", "file small", "commit")
    for first in range(0, count, block):
        yield "begin"
        for number in range(first, min(first + block, count)):
            yield from (f"create small as @n{number}", f"append @n{number} rep:100:63")
        yield "commit"


def volume(program: str, path: str, pages: int, segs: int, page_size: int = 4096,
           fan: int = 169) -> None:
    """Makes a new volume."""
    if os.path.exists(path):
        os.remove(path)
    once([program, "format", path, "--page-size", page_size, "--pages", pages, "--segs", segs,
          "--seg-len", 1, "--fan", fan])


def checked(program: str, path: str, what: str, pages: int, segs: int,
            lines: Iterable[str]) -> None:
    """Times `check` of a volume on which a script ran."""
    volume(program, path, pages, segs)
    once([program, "run", path], lines)
    tell(f"check of {what}", [once([program, "check", path]) for _ in range(RUNS)])


def generated(program: str, path: str, count: int) -> None:
    """Times `gen` of so many lines."""
    runs = []
    for _ in range(RUNS):
        volume(program, path, 64_000, 64_000)
        runs.append(once([program, "gen", path, "--seed", 1, "--count", count]))
    tell(f"gen of {count:,} lines", runs)


def largest(program: str, path: str) -> None:
    """Times an empty script on the largest geometry."""
    volume(program, path, 4_000_000, 4_000_000, 512, 2)
    tell("an empty script on the largest geometry",
         [once([program, "run", path]) for _ in range(RUNS)])


def main() -> None:
    """Times all of it on one program."""
    parser = words_of(__doc__, folder=MEMORY)
    parser.add_argument("--quick", action="store_true")
    asked = parser.parse_args()
    program = os.path.abspath(asked.program)
    with tempfile.TemporaryDirectory(dir=asked.folder) as folder:
        path = os.path.join(folder, "volume")
        checked(program, path, "one object of 100 MiB", 1024, 32_000, one_object(100 * MIB))
        generated(program, path, 10_000)
        if not asked.quick:
            checked(program, path, "one object of 4 GiB", 16_000, 1_100_000,
                    one_object(4096 * MIB - 1))
            largest(program, path)
            checked(program, path, "100,000 objects of 100 bytes", 64_000, 1024,
                    small_objects(100_000))
            generated(program, path, 100_000)


if __name__ == "__main__":
    main()
