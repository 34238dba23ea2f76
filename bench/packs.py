#!/usr/bin/env python3
"""Times `exsm pack` on volumes of several sizes, and what it takes of memory.

Each PROGRAM is a built exsm. Volumes lie in a new folder below FOLDER (/dev/shm where there is none
given). A figure is the least of RUNS runs of a whole process, the opening included: time of the
processor. A volume has an object in leaves of 4,096 bytes that came behind another one of half its
size, which is gone: so half of its leaves are high. A pack that moves these is to take at most 3
times as long as a plain copy of as many bytes of the volume's file by blocks of a leaf, with as
many syncs; and a pack of what is packed then at most as long as `check` and a read of each node.
The largest object has 1 GiB, and with `--quick` 64 MiB.
"""
from __future__ import annotations

import os
import shutil
import subprocess
import sys
import time
from typing import Iterator

from streams import MIB, PIECE, RUNS, Ran, Streams, kept, least, ran, time_programs
from timing.tables import table

LEAF = 4096
COPY_MOST, READ_MOST = 3.0, 1.0
SYNCS = 7
"""An opening's sync and two of its checkpoint; two of the commit of the one version that is moved,
and two of the checkpoint behind it."""
SIZES, QUICK_SIZES = (16, 128, 1024), (16, 64)


def behind(mib: int) -> Iterator[str]:
    """A script that makes an object of so many MiB behind one of half its size, which goes."""
    yield from ("begin", "file docs", "create docs as @gone")
    for number in range(mib * MIB // PIECE // 2):
        yield f"append @gone rep:{PIECE}:{number % 256:02x}"
    yield "create docs as @d"
    for number in range(mib * MIB // PIECE):
        yield f"append @d rep:{PIECE}:{number % 256:02x}"
    yield from ("commit", "begin", "destroy @gone", "commit")


class Packs(Streams):
    """Packs of a program, of volumes in a folder."""

    def pack(self, again: bool) -> Ran:
        """The least of some packs of the volume as it was made, or of one that is packed."""
        runs: list[Ran] = []
        for _ in range(RUNS):
            if not again:
                shutil.copyfile(self.volume, self.loaded)
            runs.append(ran([self.program, "pack", self.loaded]))
        return least(runs)

    def check(self) -> float:
        """The least of some openings of the volume that is packed, and of some reads of as many
        pages as it has in use, among which are its nodes."""
        told = subprocess.run([self.program, "check", self.loaded], stdout=subprocess.PIPE,
                              check=True).stdout.split()
        pages = int(told[told.index(b"pages") + 1])
        opened = least([ran([self.program, "check", self.loaded]) for _ in range(RUNS)])
        return opened.processor + min(read(self.loaded, pages) for _ in range(RUNS))

    def copy(self, count: int) -> float:
        """The least of the processor's time for some copies of so many bytes, leaf by leaf."""
        return min(copied(self.volume, self.loaded, count) for _ in range(RUNS))


def read(path: str, count: int) -> float:
    """Reads so many pages of a file, and gives the processor's time."""
    with open(path, "rb", buffering=0) as source:
        begun = time.process_time()
        for _ in range(count):
            source.read(LEAF)
        return time.process_time() - begun


def copied(path: str, to: str, count: int) -> float:
    """Copies so many bytes of a file to another one, with syncs, and gives the processor's time."""
    with open(path, "rb", buffering=0) as source, open(to, "wb", buffering=0) as sink:
        begun = time.process_time()
        for _ in range(count // LEAF):
            sink.write(source.read(LEAF))
        for _ in range(SYNCS):
            os.fsync(sink.fileno())
        return time.process_time() - begun


def tell(packs: Packs, sizes: tuple[int, ...]) -> None:
    """Measures, and prints a table."""
    rows = []
    for mib in sizes:
        packs.fill(16_384, mib * 256 * 3 // 2 + 1024, behind(mib))
        copy = packs.copy(mib * MIB // 2)
        moved = packs.pack(again=False)
        again, checked = packs.pack(again=True), packs.check()
        share = moved.processor / copy
        rows.append([f"{mib // 2:,} MiB of {mib:,} MiB are high",
                     f"{moved.processor * 1000:,.0f} ms", f"{copy * 1000:,.0f} ms",
                     f"{share:.2f}", f"{moved.memory:.1f} MiB", kept(share, COPY_MOST)])
        share = again.processor / checked
        rows.append([f"none of {mib:,} MiB is", f"{again.processor * 1000:,.0f} ms",
                     f"{checked * 1000:,.0f} ms (`check`)", f"{share:.2f}",
                     f"{again.memory:.1f} MiB", kept(share, READ_MOST)])
    print(table(["Packed", "Processor", "A copy", "To that", "Memory", ""], rows))


def measure_packs(program: str, folder: str, quick: bool) -> None:
    """Times the packs of a program."""
    tell(Packs(program, folder), QUICK_SIZES if quick else SIZES)


if __name__ == "__main__":
    time_programs(__doc__, measure_packs)
