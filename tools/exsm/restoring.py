"""A new volume of a dump: made by the program with room to spare, and loaded."""
from __future__ import annotations

import json
import math
import os
import subprocess

from exsm.client import Ended, ProgramMissing
from exsm.commands import failed, interrupted
from exsm.geometry import Geometry
from exsm.lines import reason_of
from exsm.new import KEPT_FREE, UNITS_MOST
from exsm.progress import MIB
from exsm.stream_files import as_json, holds, tested_file
from exsm.streams import BadStream, Head, Stream
from exsm.transport import USAGE, ended_by, find_program
from exsm.whole import refuse_there, remove_left, whole_file


class TooLarge(Exception):
    """A dump needs more units than a volume has."""


def with_spare(need: int, name: str) -> int:
    """How many units hold so many, with a part kept free, as far as a volume goes."""
    if need > UNITS_MOST:
        raise TooLarge(f"it needs {need:,} {name}, and a volume has at most {UNITS_MOST:,}")
    return min(math.ceil(need / (1 - KEPT_FREE)), UNITS_MOST)


def geometry_for(head: Head) -> Geometry:
    """The numbers of a volume that has room for a dump, and of each area a third free."""
    pages = 1 + head.nodes + head.pages            # the catalog's is in use on an empty volume
    return Geometry(head.page_size, with_spare(pages, "pages"), with_spare(head.leaves, "segs"),
                    head.seg_len, head.fan)


def call(*words: str, source: str = os.devnull) -> None:
    """Runs the program on a file as its standard input. `Ended` where its status isn't 0."""
    with open(source, "rb") as given:
        ran = subprocess.run([find_program(), *words], stdin=given, stdout=subprocess.DEVNULL,
                             stderr=subprocess.PIPE, check=False)
    if ran.returncode != 0:
        raise ended_by(ran.returncode, ran.stderr.decode(errors="replace"))


def restore(path: str, volume: str) -> tuple[Stream, Geometry]:
    """Loads a dump, which was tested before, into a new volume, which has its name once that was
    done; its sizes are those that the dump tells, with room to spare."""
    refuse_there(volume)
    remove_left([volume])
    stream = tested_file(path)
    geometry = geometry_for(stream.head)
    with whole_file(volume) as part:
        call("format", part, *geometry.words())
        call("load", part, source=path)
    return stream, geometry


def fault_text(fault: Exception, path: str) -> str:
    """What a fault says, and what would do."""
    if isinstance(fault, Ended) and fault.status == USAGE:
        return "the program exsm has no `load`: take a newer one"
    if isinstance(fault, (BadStream, TooLarge)):
        return f"{path}: {'no dump: ' if isinstance(fault, BadStream) else ''}{fault}"
    return reason_of(fault)


def run(path: str, volume: str, is_json: bool) -> int:
    """Restores a volume, tells a fault, and gives the exit status."""
    try:
        stream, geometry = restore(path, volume)
    except (BadStream, Ended, OSError, ProgramMissing, TooLarge) as fault:
        return failed("exsm_backup", f"{fault_text(fault, path)}; no volume was made", fault)
    except KeyboardInterrupt:
        return interrupted("exsm_backup", "no volume was made")
    if is_json:
        print(json.dumps({**json.loads(as_json(stream)), "bytes": geometry.bytes,
                          "room_pages": geometry.pages, "room_segs": geometry.segs}))
    else:
        print(f"{geometry.bytes / MIB:,.1f} MiB of {geometry.pages:,} pages and "
              f"{geometry.segs:,} segs, {holds(stream)}; loaded")
    return 0
