"""The five numbers of a volume of about a size, and the volume that they make."""
from __future__ import annotations

import math
import os
import re
import stat
import subprocess
import sys
from fractions import Fraction
from typing import Optional

from exsm.client import AnyPath, ProgramMissing, find_program
from exsm.geometry import CATALOG, Geometry
from exsm.lines import reason_of

PAGE_SIZE = 4096
FAN = (PAGE_SIZE - 20) // 24
UNITS_MOST = 4_000_000
UNIT_PAGES = (1, 2, 4, 8, 16)

PARTS_FOR_PAGES = {"mixed": Fraction(1, 5), "large": Fraction(1, 20), "small": Fraction(4, 5)}
"""The part of a volume that is for records, indexes and nodes, by what it is mostly to hold; the
other part is for units, in which large objects lie."""

MIXED = "mixed"
"""What a volume is for where nothing is told."""

KEPT_FREE = Fraction(1, 3)
"""The part that is best kept free: an edit writes before what it replaces is free."""

BYTES_OF_UNIT = {
    "": 1, "k": 1 << 10, "m": 1 << 20, "g": 1 << 30, "kib": 1 << 10, "mib": 1 << 20, "gib": 1 << 30,
    "kb": 1000, "mb": 1000 ** 2, "gb": 1000 ** 3}
"""The bytes of what stands behind a number of a size."""

SIZE = re.compile(r"([0-9]{1,12})(?:\.([0-9]{1,9}))?([kmg]?|[kmg]i?b)", re.IGNORECASE | re.ASCII)
MIB = 1 << 20
LEAST, MOST = 2 << 20, 259 << 30
SMALLEST, LARGEST = "2M", "259G"
"""The least and the greatest size, in bytes and as a word."""

SIGNS_LEN = 1 << 20
"""How many bytes at both ends of a device are looked at: file systems and partitions have their
signs there."""


class WrongSize(Exception):
    """A word names no size that a volume may have; the text says what does."""


def size_of(word: str) -> int:
    """The bytes that a word as `80M` or `1.5G` names, of a volume that may be made."""
    found = SIZE.fullmatch(word)
    if found is None:
        raise WrongSize(f"{word!r} is no size: a number and K, M or G, as in 80M or 1.5G")
    number = Fraction(f"{found[1]}.{found[2] or 0}")
    size = int(number * BYTES_OF_UNIT[found[3].lower()])
    if not LEAST <= size <= MOST:
        raise WrongSize(
            f"{word} is no size of {SMALLEST} to {LARGEST}; for others use `exsm format`")
    return size


def geometry_of(size: int, kind: str = MIXED) -> Geometry:
    """The numbers of a volume of at most so many bytes: the shortest units that reach so far."""
    room = size // PAGE_SIZE - CATALOG
    for seg_len in UNIT_PAGES:
        pages = min(int(room * PARTS_FOR_PAGES[kind]), UNITS_MOST)
        segs = (room - pages) // seg_len
        if segs <= UNITS_MOST:
            return Geometry(PAGE_SIZE, pages, segs, seg_len, FAN)
    raise ValueError(f"no volume has {size} bytes")


def room_text(numbers: Geometry) -> str:
    """What a volume has room for."""
    large, small = numbers.segs * numbers.unit, numbers.pages * numbers.page_size
    return (f"it has room for {large / MIB:,.1f} MiB in large objects, and on its pages for "
            f"{small / MIB:,.1f} MiB in objects below a page and in what leads to the large ones; "
            "keep a third free")


def size_that_holds(large: int, on_pages: int) -> Optional[str]:
    """The size, as a word, of a volume that holds so many bytes in units and so many on pages, and
    has a third free; None where there is none so large."""
    part = PARTS_FOR_PAGES[MIXED]
    wanted = max(large / (1 - part), on_pages / part) / (1 - KEPT_FREE) + CATALOG * PAGE_SIZE
    size = max(math.ceil(wanted / MIB) + 1, LEAST // MIB)
    return f"{size}M" if size * MIB <= MOST else None


def is_device(path: AnyPath) -> bool:
    """Whether a path names a block device."""
    try:
        return stat.S_ISBLK(os.stat(path).st_mode)
    except OSError:
        return False


def room_of_device(path: AnyPath) -> int:
    """The bytes of a block device, which no file system or other program has to itself, and which
    holds nothing that tells what it is."""
    device = os.open(path, os.O_RDONLY | os.O_EXCL)
    try:
        size = os.lseek(device, 0, os.SEEK_END)
        for place in (0, max(size - SIGNS_LEN, 0)):
            if os.pread(device, SIGNS_LEN, place).strip(b"\0"):
                sys.exit(f"exsm_new: {os.fspath(path)} holds something, and `exsm format` would "
                         "write over it: clear it first, as `blkdiscard -z` does")
        return size
    finally:
        os.close(device)


def size_on_device(path: AnyPath, size: Optional[int]) -> int:
    """The size of a volume on a block device: what is asked for, or all of the device as far as a
    volume goes."""
    room = room_of_device(path)
    if room < (size or LEAST):
        sys.exit(f"exsm_new: {os.fspath(path)} has {room} bytes, the volume is to have "
                 f"{size or LEAST}")
    return size or min(room, MOST)


def size_for(volume: AnyPath, size: Optional[int]) -> int:
    """The size of a volume that may be made there."""
    if is_device(volume):
        return size_on_device(volume, size)
    if os.path.lexists(volume):
        sys.exit(f"exsm_new: {os.fspath(volume)} is there already, and `exsm format` would write "
                 "over it: remove it first")
    if size is None:
        sys.exit(f"exsm_new: {os.fspath(volume)} is no block device, so its volume needs a SIZE")
    return size


def make(volume: AnyPath, size: Optional[int] = None, kind: str = MIXED) -> int:
    """Makes a volume of at most so many bytes, or one that fills a block device, and gives the exit
    status: that of exsm, or 1."""
    try:
        numbers = geometry_of(size_for(volume, size), kind)
        line = ["format", os.fspath(volume), *numbers.words()]
        print("exsm " + " ".join(line), file=sys.stderr)
        status = subprocess.call([find_program(), *line])
    except (ProgramMissing, OSError) as fault:
        sys.exit(f"exsm_new: {reason_of(fault)}")
    if status == 0:
        print(f"exsm_new: {room_text(numbers)}", file=sys.stderr)
    return status
