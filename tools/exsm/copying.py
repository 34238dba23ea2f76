"""A copy of a volume that nobody changes meanwhile."""
from __future__ import annotations

import json
import os
from contextlib import contextmanager
from typing import Iterator, Optional

from exsm.client import AnyPath, Ended, Locked, NoVolume, ProgramMissing, Refused
from exsm.commands import failed, interrupted, store_of
from exsm.hints import no_volume
from exsm.lines import reason_of
from exsm.lock import held
from exsm.progress import MIB, Progress
from exsm.spelling import meaning
from exsm.whole import copy_volume


@contextmanager
def unchanged(volume: AnyPath, socket: Optional[AnyPath], wait: Optional[float]) -> Iterator[None]:
    """Keeps all others from changes: by the program's lock, or at a server by a transaction."""
    if socket is None:
        with held(volume, wait or 0):
            yield
    else:
        with store_of(volume, socket, wait) as store, store.snapshot():
            yield


def copy(volume: AnyPath, path: AnyPath, socket: Optional[AnyPath], wait: Optional[float],
         as_json: bool) -> None:
    """Copies a volume, and tells its size and the number of its last commit."""
    with unchanged(volume, socket, wait), open(volume, "rb") as file:
        size = file.seek(0, os.SEEK_END)
        with Progress(os.fspath(path), size) as progress:
            commit = copy_volume(volume, path, progress.reach)
    if as_json:
        print(json.dumps({"bytes": size, "commit": commit}))
    else:
        print(f"{size / MIB:,.1f} MiB, commit {commit}, checked")


def fault_text(fault: Exception, volume: str, path: str) -> str:
    """What a fault says, and what would do."""
    if isinstance(fault, Locked):
        return (f"{volume}: another run has it open; in that program: store.backup({path!r}); "
                "at a server: --socket SOCKET")
    if isinstance(fault, NoVolume):
        return f"{no_volume(volume, fault)}; no copy was made"
    if isinstance(fault, Refused):
        return meaning(fault.line, fault.name, fault.values)
    return reason_of(fault)


def run(volume: str, path: str, socket: Optional[str], wait: Optional[float], as_json: bool) -> int:
    """Copies a volume, tells a fault, and gives the exit status."""
    try:
        copy(volume, path, socket, wait, as_json)
    except (Ended, ProgramMissing, Refused, OSError) as fault:
        return failed("exsm_copy", fault_text(fault, volume, path), fault)
    except KeyboardInterrupt:
        return interrupted("exsm_copy", "no copy was made")
    return 0
