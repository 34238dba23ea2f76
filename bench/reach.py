#!/usr/bin/env python3
"""Times what frees units: commits of an edit, and an abort of many, on objects of several sizes.

Each PROGRAM is a built exsm, so that two builds can be compared. Volumes lie in a new folder below
FOLDER (/dev/shm where there is none given): in memory, where syncs cost nothing, a time is the
program's own. A run is driven line by line; the time of some lines is from the first of them to
the last reply, the least of N runs, and their calls are the reads and writes of the process
meanwhile, as the system counts them: of the volume, the lines and the replies. Of each size there
are 100 commits of one insert of 100 bytes, and the abort of 512 such inserts into the middle,
without these.
"""
from __future__ import annotations

import os
import subprocess
import sys
import tempfile
import time
from typing import Callable

sys.dont_write_bytecode = True

from timing.folder import MEMORY, words_of  # noqa: E402

MIB = 1 << 20
PAGE, FAN = 4096, 169
COMMITS, EDITS = 100, 512
STEP = 7_368_787

# The least of some runs: seconds, and calls of the system.
Cost = tuple[float, int]


class Run:
    """A run of a program on a volume, driven line by line."""

    def __init__(self, program: str, volume: str) -> None:
        self.process = subprocess.Popen([program, "run", volume], stdin=subprocess.PIPE,
                                        stdout=subprocess.PIPE)

    def calls(self) -> int:
        """How often the process has read and written so far."""
        with open(f"/proc/{self.process.pid}/io", encoding="ascii") as counts:
            return sum(int(line.split()[1]) for line in counts
                       if line.startswith(("syscr", "syscw")))

    def lines(self, lines: list[str]) -> Cost:
        """Sends lines: the seconds until the last was answered, and the calls meanwhile."""
        assert self.process.stdin and self.process.stdout
        before, start = self.calls(), time.perf_counter()
        for line in lines:
            self.process.stdin.write(line.encode() + b"\n")
            self.process.stdin.flush()
            reply = self.process.stdout.readline()
            if not reply.startswith(b"ok"):
                sys.exit(f"reach.py: {line} was answered {reply!r}")
        return time.perf_counter() - start, self.calls() - before

    def end(self) -> None:
        """Ends the script, and with it the run."""
        assert self.process.stdin
        self.process.stdin.close()
        self.process.wait()


def volume_of(program: str, path: str, size: int) -> None:
    """Makes a volume with one object of so many MiB."""
    if os.path.exists(path):
        os.remove(path)
    segs = size * (MIB // PAGE) * 3 + 4096
    words = ["format", path, "--page-size", PAGE, "--pages", 16384, "--segs", segs,
             "--seg-len", 1, "--fan", FAN]
    subprocess.run([program, *map(str, words)], check=True, capture_output=True)
    run = Run(program, path)
    piece = min(size, 8) * MIB
    appends = [f"append @d rep:{piece}:61"] * (size * MIB // piece)
    run.lines(["begin", "file docs", "create docs as @d", *appends, "commit", "checkpoint"])
    run.end()


def insert(position: int) -> str:
    """An insert of 100 bytes."""
    return f"insert 258.0.1 {position} rep:100:62"


def commits(run: Run, size: int) -> Cost:
    """Commits of one insert each, at places far from each other."""
    places = [i * STEP % (size * MIB) for i in range(COMMITS)]
    return run.lines([line for at in places for line in ("begin", insert(at), "commit")])


def abort(run: Run, size: int) -> Cost:
    """An abort of many inserts into the middle, without these."""
    run.lines(["begin", *[insert(size * MIB // 2)] * EDITS])
    return run.lines(["abort"])


def least(program: str, path: str, size: int, work: Callable[[Run, int], Cost],
          runs: int) -> Cost:
    """The least of some runs of a work, each on a new volume."""
    measured = []
    for _ in range(runs):
        volume_of(program, path, size)
        run = Run(program, path)
        measured.append(work(run, size))
        run.end()
    return min(measured)


def main() -> None:
    """Times both works on each program and size."""
    parser = words_of(__doc__, many=True, folder=MEMORY)
    parser.add_argument("--sizes", type=int, nargs="+", default=[1, 16, 256])
    parser.add_argument("--runs", type=int, default=3)
    asked = parser.parse_args()
    with tempfile.TemporaryDirectory(dir=asked.folder) as folder:
        path = os.path.join(folder, "volume")
        for program in map(os.path.abspath, asked.programs):
            print(program)
            for size in asked.sizes:
                told = []
                for name, work in ((f"{COMMITS} commits of one insert", commits),
                                   (f"abort of {EDITS} inserts", abort)):
                    seconds, calls = least(program, path, size, work, asked.runs)
                    told.append(f"{name}: {seconds * 1000:.2f} ms, {calls:,} calls")
                print(f"  {size} MiB: {'; '.join(told)}")


if __name__ == "__main__":
    main()
