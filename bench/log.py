#!/usr/bin/env python3
"""Counts the bytes that commits add to the log, and times them.

Each PROGRAM is a built exsm, so that two builds can be compared. Volumes lie in a new folder below
FOLDER (/dev/shm where there is none given): in memory, where syncs cost nothing, a time is the
program's own. There are 1,000 commits without `--commits`, each with one insert of 100 bytes into
an object of 1 MiB, with one append of 100 bytes to a small object, another one each time, or with
one create. The bytes are those of the records that stand in the log after the run, from the second
one on: the first one has whole pages. A time is that of a whole run, the least of N, less the
least of an empty script.
"""
from __future__ import annotations

import os
import shutil
import statistics
import subprocess
import sys
import tempfile
import time
from typing import Iterable

sys.dont_write_bytecode = True

from timing.folder import MEMORY, words_of  # noqa: E402

MIB = 1 << 20
PAGE, PAGES, SEGS, FAN = 4096, 16384, 16384, 169
LOG_PAGES = 256


def run(program: str, words: list[object], lines: Iterable[str] = ()) -> tuple[float, list[str]]:
    """Seconds of the clock and the lines that were sent."""
    script = "".join(f"{line}\n" for line in lines).encode()
    start = time.perf_counter()
    ran = subprocess.run([program, *map(str, words)], input=script, capture_output=True,
                         check=False)
    seconds = time.perf_counter() - start
    if ran.returncode or b"\nno " in b"\n" + ran.stdout:
        sys.exit(f"log.py: {program} {words[0]} ended with status {ran.returncode}: "
                 f"{ran.stdout[-200:]!r} {ran.stderr!r}")
    return seconds, ran.stdout.decode().splitlines()


def record_lengths(path: str) -> list[int]:
    """The lengths of the records that count."""
    with open(path, "rb") as volume:
        volume.seek(PAGE)
        log = volume.read(LOG_PAGES * PAGE)
    lengths: list[int] = []
    at = 0
    while log[at] == 1:
        lengths.append(int.from_bytes(log[at + 2 : at + 6], "big"))
        at += lengths[-1]
    return lengths


def volume_of(program: str, path: str, lines: Iterable[str]) -> list[str]:
    """A new volume on which a script ran, and what that sent."""
    if os.path.exists(path):
        os.remove(path)
    run(program, ["format", path, "--page-size", PAGE, "--pages", PAGES, "--segs", SEGS,
                  "--seg-len", 1, "--fan", FAN])
    return run(program, ["run", path], lines)[1]


def inserts(program: str, path: str, count: int) -> list[str]:
    """Commits of one insert into an object of 1 MiB."""
    volume_of(program, path, ["begin", "file docs", "create docs as @d",
                              f"append @d rep:{MIB}:61", "commit"])
    return [line for i in range(count)
            for line in ("begin", f"insert 258.0.1 {i * 997 % MIB} rep:100:62", "commit")]


def appends(program: str, path: str, count: int) -> list[str]:
    """Commits of one append to a small object, another one each time."""
    lines = ["begin", "file small", "commit"]
    for first in range(0, count, 100):
        few = range(first, min(first + 100, count))
        lines += ["begin", *(f"create small as @n{i}" for i in few), "commit"]
    sent = volume_of(program, path, lines)
    names = [line.split()[2] for line in sent if line.startswith("ok create ")]
    return [line for name in names for line in ("begin", f"append {name} rep:100:62", "commit")]


def creates(program: str, path: str, count: int) -> list[str]:
    """Commits of one create."""
    volume_of(program, path, ["begin", "file small", "commit"])
    return [line for i in range(count) for line in ("begin", f"create small as @n{i}", "commit")]


def measured(program: str, path: str, lines: list[str], runs: int) -> tuple[float, list[int]]:
    """The least seconds of a script on copies, less an empty one's, and the records it leaves."""
    copy = path + ".copy"

    def least(script: list[str]) -> float:
        seconds = []
        for _ in range(runs):
            shutil.copyfile(path, copy)
            seconds.append(run(program, ["run", copy], script)[0])
        return min(seconds)

    empty = least([])
    return least(lines) - empty, record_lengths(copy)


def main() -> None:
    """Measures each kind of commit on each program."""
    parser = words_of(__doc__, many=True, folder=MEMORY)
    parser.add_argument("--commits", type=int, default=1000)
    parser.add_argument("--runs", type=int, default=3)
    asked = parser.parse_args()
    with tempfile.TemporaryDirectory(dir=asked.folder) as folder:
        path = os.path.join(folder, "volume")
        for program in map(os.path.abspath, asked.programs):
            print(program)
            for name, make in (("insert", inserts), ("append", appends), ("create", creates)):
                lines = make(program, path, asked.commits)
                seconds, lengths = measured(program, path, lines, asked.runs)
                later = lengths[1:] or lengths
                print(
                    f"  {asked.commits:,} commits of one {name}: {seconds * 1000:.0f} ms; "
                    f"{len(lengths):,} records in the log, {statistics.median(later):,.0f} bytes "
                    f"each in the middle, {max(later):,} at most"
                )


if __name__ == "__main__":
    main()
