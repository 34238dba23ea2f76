#!/usr/bin/env python3
"""Measures sessions on a real file, beside plain writes of as many bytes.

PROGRAM is a built exsm. Its volume lies in a new folder below FOLDER, which must lie on the disk
that is to be measured (the temporary folder where there is none given). Each figure is a whole
run, less the run of an empty script on the same volume. Beside it stands a plain write and
fdatasync of as many bytes; and where a script commits more than once, one in as many pieces, each
with its fdatasync, since that is as durable, and what the syncs of the commits take by themselves:
a commit has two, one behind its record and one behind its gate.
"""
from __future__ import annotations

import os
import subprocess
import sys
import tempfile
import time
from typing import Iterator

sys.dont_write_bytecode = True

from timing.folder import in_new_folder  # noqa: E402
from timing.scripts import MIB, OBJECT, Lines, creations, repeated  # noqa: E402

SHAPE = ("--page-size", "4096", "--pages", "4096", "--segs", "16384", "--seg-len", "1",
         "--fan", "169")
SIZE = 12 * MIB
INSERTS, COMMITS, READS, OBJECTS = 512, 100, 1000, 10_000


def milliseconds(begun: float) -> int:
    """The whole milliseconds since a moment."""
    return int((time.perf_counter() - begun) * 1000)


def in_pieces(path: str, size: int, pieces: int) -> int:
    """The milliseconds of a plain write of so many bytes, with a sync behind each piece."""
    file = os.open(path, os.O_WRONLY | os.O_CREAT | os.O_TRUNC)
    begun = time.perf_counter()
    for piece in range(pieces):
        os.write(file, bytes(size * (piece + 1) // pieces - size * piece // pieces))
        os.fdatasync(file)
    took = milliseconds(begun)
    os.close(file)
    return took


def syncs_alone(path: str, count: int) -> int:
    """The milliseconds of writes of one byte into a file that stands, with a sync behind each."""
    file = os.open(path, os.O_WRONLY | os.O_CREAT | os.O_TRUNC)
    os.write(file, bytes(count))
    os.fsync(file)
    begun = time.perf_counter()
    for at in range(count):
        os.pwrite(file, b"+", at)
        os.fdatasync(file)
    took = milliseconds(begun)
    os.close(file)
    return took


def run(program: str, volume: str, lines: Lines) -> int:
    """The milliseconds of a whole run of a script, none of whose lines is refused."""
    script = "".join(f"{line}\n" for line in lines).encode()
    with tempfile.TemporaryFile() as source, tempfile.TemporaryFile() as sink:
        source.write(script)
        source.seek(0)
        begun = time.perf_counter()
        ran = subprocess.run([program, "run", volume], stdin=source, stdout=sink, check=False)
        took = milliseconds(begun)
        sink.seek(0)
        refused = [line for line in sink if line.startswith(b"no ")]
    if ran.returncode or refused:
        sys.exit(f"objects.py: {program} ended with {ran.returncode}, {refused[:1]}")
    return took


def workloads() -> Iterator[tuple[str, Lines, int]]:
    """What is measured: a script, and how many bytes it gives or asks for."""
    yield "append 12 MiB and commit", repeated(SIZE), SIZE
    inserts = [f"insert {OBJECT} 6000000 hex:2a"] * INSERTS
    yield (f"{INSERTS} inserts of one byte at 6,000,000 and commit",
           ["begin", *inserts, "commit"], INSERTS)
    commits = [line for i in range(1, COMMITS + 1)
               for line in ("begin", f"insert {OBJECT} {i * 100_000} rep:100:62", "commit")]
    yield f"{COMMITS} commits of one insert of 100 bytes", commits, COMMITS * 100
    reads = [f"read {OBJECT} {i * 12_289} 4096" for i in range(READS)]
    yield f"{READS:,} reads of 4 KiB", reads, READS * 4096
    yield (f"{OBJECTS:,} objects of 100 bytes in {OBJECTS // 40} commits", creations(OBJECTS),
           OBJECTS * 100)


def measure(program: str, folder: str) -> None:
    """Measures each workload on one volume, one behind the other."""
    volume, plain = os.path.join(folder, "volume"), os.path.join(folder, "plain")
    subprocess.run([program, "format", volume, *SHAPE], check=True, stdout=subprocess.DEVNULL)
    for name, lines, size in workloads():
        empty = run(program, volume, [])
        whole = run(program, volume, lines)
        told = (f"{name}: {whole - empty} ms, a plain write of {size} bytes "
                f"{in_pieces(plain, size, 1)} ms")
        commits = lines.count("commit")
        if commits > 1:
            told += (f", in {commits} synced pieces {in_pieces(plain, size, commits)} ms, "
                     f"{2 * commits} syncs alone {syncs_alone(plain, 2 * commits)} ms")
        print(told, flush=True)


if __name__ == "__main__":
    in_new_folder(__doc__, measure)
