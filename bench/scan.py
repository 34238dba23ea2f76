#!/usr/bin/env python3
"""Times scans of large objects, beside reads of as many bytes and reading the volume file.

Each PROGRAM is a built exsm, so that two builds can be compared. Volumes lie in a new folder below
FOLDER (/dev/shm where there is none given). A run opens a scan and takes all bytes in pieces of
one length; its replies, two digits a byte, go to /dev/null. What is told is the processor time of
the process without that of a run of no piece, the least of N runs, as MiB a second of the object's
bytes, and the most memory that the process had. Beside it stand `read` lines of the same pieces,
and `cat` of the volume file, by its wall time.
"""
from __future__ import annotations

import os
import subprocess
import sys
import tempfile
import time

sys.dont_write_bytecode = True

from timing.folder import MEMORY, words_of  # noqa: E402

MIB = 1 << 20
PAGE, FAN = 4096, 169
LENGTHS = (64 << 10, MIB)


def process(words: list[object], script: bytes = b"") -> tuple[float, float]:
    """Runs a program on a script: its processor seconds, and the most MiB that it had."""
    with tempfile.TemporaryFile() as lines:
        lines.write(script)
        lines.seek(0)
        run = subprocess.Popen(list(map(str, words)), stdin=lines, stdout=subprocess.DEVNULL)
        _, status, used = os.wait4(run.pid, 0)
    if status != 0:
        sys.exit(f"scan.py: {words} ended with {status}")
    return used.ru_utime + used.ru_stime, used.ru_maxrss / 1024


def volume_of(program: str, path: str, size: int) -> None:
    """Makes a volume with one object of so many MiB, each of another byte."""
    segs = size * (MIB // PAGE) + 4096
    process([program, "format", path, "--page-size", PAGE, "--pages", 8192, "--segs", segs,
             "--seg-len", 1, "--fan", FAN])
    appends = [f"append @d rep:{MIB}:{index % 256:02x}" for index in range(size)]
    lines = ["begin", "file docs", "create docs as @d", *appends, "commit", "checkpoint"]
    process([program, "run", path], "".join(f"{line}\n" for line in lines).encode())


def pieces(kind: str, size: int, length: int) -> list[str]:
    """The lines that take all bytes of the object."""
    count = size * MIB // length
    if kind == "scan":
        steps = [f"next s {length}"] * count
        return ["group g 8 mru", "scan 258.0.1 as s in g", *steps, "close s"]
    return [f"read 258.0.1 {index * length} {length}" for index in range(count)]


def timed(program: str, path: str, lines: list[str], runs: int) -> tuple[float, float]:
    """The least processor time of the lines, less that of an empty script, and the most memory."""
    script = "".join(f"{line}\n" for line in lines).encode()
    empty = min(process([program, "run", path])[0] for _ in range(runs))
    all_runs = [process([program, "run", path], script) for _ in range(runs)]
    return min(seconds for seconds, _ in all_runs) - empty, max(memory for _, memory in all_runs)


def file_rate(path: str, runs: int) -> float:
    """The MiB a second at which `cat` reads the volume file."""
    times = []
    for _ in range(runs):
        start = time.perf_counter()
        subprocess.run(["cat", path], stdout=subprocess.DEVNULL, check=True)
        times.append(time.perf_counter() - start)
    return os.path.getsize(path) / MIB / min(times)


def tell(program: str, path: str, size: int, runs: int) -> None:
    """Prints what scans and reads of an object take, in pieces of each length."""
    rate = file_rate(path, runs)
    print(f"{program}, an object of {size} MiB; cat of the file {rate:,.0f} MiB/s")
    for length in LENGTHS:
        for kind in ("scan", "read"):
            seconds, memory = timed(program, path, pieces(kind, size, length), runs)
            print(f"  {kind} in pieces of {length // 1024:,} KiB: {size / seconds:,.0f} MiB/s, "
                  f"{memory:.1f} MiB of memory")


def main() -> None:
    """Times each program on each size."""
    words = words_of(__doc__, many=True, folder=MEMORY)
    words.add_argument("--sizes", nargs="+", type=int, default=[16, 256], metavar="MIB")
    words.add_argument("--runs", type=int, default=3)
    given = words.parse_args()
    with tempfile.TemporaryDirectory(dir=given.folder) as room:
        path = os.path.join(room, "v")
        for program in given.programs:
            for size in given.sizes:
                volume_of(program, path, size)
                tell(program, path, size, given.runs)
                os.remove(path)


if __name__ == "__main__":
    main()
