"""The lock of a volume, as the program takes it: while a tool has it, no run can open the volume.

A reader takes none, so that it keeps no run from opening; it tells where a run has it meanwhile.
"""
from __future__ import annotations

import fcntl
import os
import sys
import time
from contextlib import contextmanager
from typing import Iterator

from exsm.transport import DISK_FAULT, WAIT_STEP, AnyPath, Locked


@contextmanager
def held(volume: AnyPath, wait: float = 0) -> Iterator[None]:
    """Has a volume's lock; `Locked` where another run has it, still after so many seconds."""
    until = time.monotonic() + wait
    with open(volume, "rb") as file:
        while True:
            try:
                fcntl.flock(file, fcntl.LOCK_EX | fcntl.LOCK_NB)
                break
            except BlockingIOError:
                if time.monotonic() >= until:
                    raise Locked(DISK_FAULT,
                                 f"exsm: {os.fspath(volume)}: another run has it open") from None
            time.sleep(WAIT_STEP)
        yield


def is_held(volume: AnyPath) -> bool:
    """Whether another run has a volume's lock, as the system's list of locks tells it; where there
    is no such list, nothing is known, and it counts as free."""
    try:
        told = os.stat(volume)
        with open("/proc/locks", encoding="ascii") as locks:
            lines = [line.split() for line in locks]
    except OSError:
        return False
    place = f"{os.major(told.st_dev):02x}:{os.minor(told.st_dev):02x}:{told.st_ino}"
    return any(words[1:2] == ["FLOCK"] and words[3] == "WRITE" and words[5] == place
               for words in lines if len(words) > 5)


@contextmanager
def told_where_held(volume: AnyPath, tool: str) -> Iterator[None]:
    """Tells, at the end, where a run had the volume meanwhile: then what was read may be of two
    moments, and a fault may be none."""
    before = is_held(volume)
    try:
        yield
    finally:
        if before or is_held(volume):
            print(f"{tool}: {os.fspath(volume)}: a run has it open, so what was read may be of "
                  "several moments, and a fault may be none: read again once the run has ended",
                  file=sys.stderr)
