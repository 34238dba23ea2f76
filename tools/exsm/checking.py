"""Tells what an opening says of a volume, and makes a copy good where only idle bytes are wrong."""
from __future__ import annotations

import json
import os
import shutil
import sys
from typing import BinaryIO, NamedTuple, Optional

from exsm.lines import reason_of
from exsm.opening import Fault, Opening
from exsm.records import BadVolume
from exsm.volume import Volume


class CantMend(Exception):
    """A volume can't be made good so; the text says why, and what else to do."""


def opening_of(file: BinaryIO) -> Opening:
    """The tests of an opening over a file."""
    def read(position: int, length: int) -> bytes:
        file.seek(position)
        return file.read(length)
    return Opening(read, file.seek(0, os.SEEK_END))


class Counts(NamedTuple):
    """How many objects and versions of a volume can be read, and how many versions whole."""

    objects: int
    versions: int
    whole: int

    def __str__(self) -> str:
        told = f"{counted(self.objects, 'object')}, {counted(self.versions, 'version')}"
        return told if self.whole == self.versions else f"{told}, {self.whole} of them whole"


def counts_of(path: str) -> Optional[Counts]:
    """What can be read of a volume, or None where nothing can."""
    try:
        with Volume(path) as volume:
            whole = sum(volume.is_whole(record) for record in volume.all())
            return Counts(len(volume.objects), len(volume.all()), whole)
    except BadVolume:
        return None


def counted(count: int, noun: str) -> str:
    """A number of things: `1 fault`, `2 faults`."""
    return f"{count:,} {noun}" if count == 1 else f"{count:,} {noun}s"


def can_be_mended(opening: Opening, faults: list[Fault]) -> bool:
    """Whether zeros over the bytes of the faults make the volume good: no version reads them, and
    no record of the log says other bytes of their pages."""
    return all(fault.span for fault in faults) and not opening.records


def way_on(path: str, mends: bool) -> str:
    """What helps a volume with faults."""
    if mends:
        return f"`exsm_volume.py {path} mend COPY` makes a copy without them"
    return f"`exsm_volume.py {path} save FOLDER` writes what can be read"


def check(path: str, as_json: bool) -> int:
    """Tells the first part that an opening refuses, with its faults; then the status is 1."""
    with open(path, "rb") as file:
        opening = opening_of(file)
        part, faults = opening.first_bad()
    mends = bool(faults) and can_be_mended(opening, faults)
    counts = counts_of(path)
    if as_json:
        print(json.dumps({
            "part": part or None, "faults": [fault.text for fault in faults],
            "mends": mends,
            **(counts._asdict() if counts else Counts(0, 0, 0)._asdict())}))
        return 1 if faults else 0
    for fault in faults:
        print(f"{part}: {fault.text}")
    told = f"{counted(len(faults), 'fault')}, {counts or 'nothing can be read'}"
    print(f"{told}: {way_on(path, mends)}" if faults else told)
    return 1 if faults else 0


def mend(path: str, copy: str) -> int:
    """Copies a volume, with zeros where bytes are wrong that no version reads."""
    if os.path.exists(copy):
        raise CantMend(f"{copy} is there already")
    part_name = f"{copy}.part"
    try:
        shutil.copyfile(path, part_name)
        with open(part_name, "r+b") as file:
            pieces = mended(file)
            os.fsync(file.fileno())
        os.rename(part_name, copy)
    finally:
        if os.path.exists(part_name):
            os.remove(part_name)
    print(f"{copy}: zeros in {counted(pieces, 'place')} that no version reads; {counts_of(copy)}")
    return 0


def mended(file: BinaryIO) -> int:
    """Writes zeros over wrong bytes that no version reads, until the volume opens; how often."""
    pieces = 0
    while True:
        opening = opening_of(file)
        part, faults = opening.first_bad()
        if not faults:
            return pieces
        for fault in faults:
            if fault.span is None:
                raise CantMend(f"{part}: {fault.text}: no copy is made; "
                               "`save` writes what can be read")
        if opening.records:
            raise CantMend(f"the log holds {counted(len(opening.records), 'record')}, and what it "
                           "says of these pages isn't at home yet: no copy is made; `save` writes "
                           "what can be read")
        for fault in faults:
            page, start, end = fault.span or (0, 0, 0)
            file.seek(page * opening.geometry.page_size + start)
            file.write(bytes(end - start))
            pieces += 1
        file.flush()


def ended(path: str, fault: Exception) -> int:
    """Tells why nothing could be done, and gives the exit status."""
    print(f"exsm_volume: {reason_of(fault, path)}", file=sys.stderr)
    return 1
