"""A volume's whole history, dumped by the program to a file, and tested without it."""
from __future__ import annotations

import json
import os
import subprocess
import time
from typing import BinaryIO

from exsm.client import Ended, Locked, NoVolume, ProgramMissing
from exsm.commands import failed, interrupted
from exsm.hints import no_volume
from exsm.lines import reason_of
from exsm.progress import MIB, STEP, Progress
from exsm.stream_files import as_json, holds, tested_file
from exsm.streams import BadStream, Stream
from exsm.transport import USAGE, WAIT_STEP, ended_by, find_program
from exsm.whole import refuse_there, remove_left, whole_file


def dump(volume: str, out: BinaryIO, name: str) -> None:
    """Dumps a volume to an empty file by the program. `Ended` where its status isn't 0."""
    with Progress(name, None) as progress, \
            subprocess.Popen([find_program(), "dump", volume], stdin=subprocess.DEVNULL,
                             stdout=out, stderr=subprocess.PIPE) as run:
        try:
            while True:
                try:
                    _, said = run.communicate(timeout=STEP)
                    break
                except subprocess.TimeoutExpired:
                    progress.reach(os.fstat(out.fileno()).st_size)
        except BaseException:
            run.kill()
            raise
    if run.returncode != 0:
        raise ended_by(run.returncode, said.decode(errors="replace"))


def dump_when_free(volume: str, part: str, name: str, wait: float) -> None:
    """Dumps a volume to a new file, once no other run has it, within so many seconds."""
    until = time.monotonic() + wait
    while True:
        try:
            with open(part, "wb") as out:
                return dump(volume, out, name)
        except Locked:
            if time.monotonic() >= until:
                raise
        time.sleep(WAIT_STEP)


def back_up(volume: str, path: str, wait: float) -> tuple[Stream, int]:
    """Dumps a volume to a file, which has its name once its stream was tested; and its size."""
    refuse_there(path)
    remove_left([path])
    with whole_file(path) as part:
        dump_when_free(volume, part, path, wait)
        return tested_file(part), os.path.getsize(part)


def fault_text(fault: Exception, volume: str) -> str:
    """What a fault says, and what would do."""
    if isinstance(fault, Locked):
        return (f"{volume}: another run has it open; copy it by exsm_copy.py VOLUME COPY --socket "
                "SOCKET where a server has it, and back up the copy")
    if isinstance(fault, NoVolume):
        return no_volume(volume, fault)
    if isinstance(fault, Ended) and fault.status == USAGE:
        return "the program exsm has no `dump`: take a newer one"
    if isinstance(fault, BadStream):
        return f"{volume}: what the program wrote is no dump: {fault}"
    return reason_of(fault)


def run(volume: str, path: str, wait: float, is_json: bool) -> int:
    """Backs a volume up, tells a fault, and gives the exit status."""
    try:
        stream, size = back_up(volume, path, wait)
    except (BadStream, Ended, OSError, ProgramMissing) as fault:
        return failed("exsm_backup", f"{fault_text(fault, volume)}; no backup was made", fault)
    except KeyboardInterrupt:
        return interrupted("exsm_backup", "no backup was made")
    if is_json:
        print(json.dumps({"bytes": size, **json.loads(as_json(stream))}))
    else:
        print(f"{size / MIB:,.1f} MiB, {holds(stream)}; tested")
    return 0
