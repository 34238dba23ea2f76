"""Streams in files: tested, listed, read, and made of a volume's file without exsm."""
from __future__ import annotations

import errno
import json
import os
import stat
import sys
from contextlib import contextmanager
from typing import BinaryIO, Iterator, Optional

from exsm.checking import counted
from exsm.client import Locked
from exsm.lines import reason_of
from exsm.lock import held
from exsm.progress import MIB, Progress, Watched
from exsm.records import BadVolume
from exsm.stream_making import Plan
from exsm.streams import BadStream, Stream, StreamVersion, read_stream
from exsm.volume import Volume
from exsm.whole import refuse_there, remove_left, whole_file

STANDARD_INPUT = "-"


class NoNumber(Exception):
    """No version of a stream has the number."""


@contextmanager
def opened(path: str) -> Iterator[BinaryIO]:
    """A stream's file, or standard input."""
    if path == STANDARD_INPUT:
        yield sys.stdin.buffer
    else:
        with open(path, "rb") as source:
            yield source


def size_of(source: BinaryIO) -> Optional[int]:
    """How many bytes a source has, where that is known."""
    told = os.fstat(source.fileno())
    return told.st_size if stat.S_ISREG(told.st_mode) else None


def tested(source: BinaryIO, name: str) -> Stream:
    """Reads a stream to its end, and tests it whole; a terminal is told how far it is."""
    with Progress(name, size_of(source)) as progress:
        return read_stream(Watched(source, progress))


def tested_file(path: str) -> Stream:
    """Reads the stream of a file to its end, and tests it whole."""
    with opened(path) as source:
        return tested(source, path)


def holds(stream: Stream) -> str:
    """What a stream holds, and of which sizes the volume was."""
    head = stream.head
    counts = [counted(head.files, "file"), counted(stream.objects(), "object"),
              counted(sum(1 for _ in stream.versions()), "version"),
              f"{len(stream.leaves):,} {'leaf' if len(stream.leaves) == 1 else 'leaves'}",
              counted(len(stream.nodes), "node")]
    return (f"commit {head.last}: {', '.join(counts)}; page size {head.page_size}, seg len "
            f"{head.seg_len}, fan {head.fan}")


def as_json(stream: Stream) -> str:
    """What a stream holds, as JSON."""
    return json.dumps({"fault": None, **stream.head._asdict(), "objects": stream.objects(),
                       "versions": sum(1 for _ in stream.versions())})


def check(path: str, is_json: bool) -> int:
    """Tests a stream, and tells what it holds; status 1 where it is no dump."""
    try:
        stream = tested_file(path)
    except BadStream as fault:
        print(json.dumps({"fault": str(fault)}) if is_json else f"no dump: {fault}")
        return 1
    print(as_json(stream) if is_json else holds(stream))
    return 0


def list_versions(path: str, is_json: bool) -> int:
    """Tells the versions of a stream."""
    stream = tested_file(path)
    if is_json:
        print(json.dumps([
            {"number": version.unique, "size": version.size, "file": file.name,
             "frozen": version.frozen, "older": version.older or None}
            for file in stream.files for version in file.versions]))
        return 0
    for file in stream.files:
        for version in file.versions:
            state = " (frozen)" if version.frozen else ""
            print(f"{version.size:10}  {version.unique:14} {file.name}{state}")
    return 0


def version_of(stream: Stream, number: int) -> StreamVersion:
    """The version of a number."""
    for version in stream.versions():
        if version.unique == number:
            return version
    raise NoNumber(f"no version has number {number}")


def get(path: str, number: int) -> int:
    """Writes a version's bytes to standard output."""
    with opened(path) as source:
        if not source.seekable():
            raise OSError(errno.ESPIPE, "a version is read from a file alone, and not from a pipe",
                          path)
        stream = tested(source, path)
        sys.stdout.buffer.writelines(stream.pieces(version_of(stream, number), source))
    sys.stdout.buffer.flush()
    return 0


def make(path: str, volume_path: str, wait: float) -> int:
    """Makes the stream of a volume that no run has open, and tests it before it has its name."""
    refuse_there(path)
    remove_left([path])
    with held(volume_path, wait), Volume(volume_path) as volume, whole_file(path) as part:
        if volume.faults:
            raise BadVolume(volume.faults[0])
        plan = Plan(volume)
        with Progress(path, plan.leaf_bytes) as progress, open(part, "xb") as out:
            for piece in plan.pieces():
                out.write(piece)
                progress.reach(min(out.tell(), plan.leaf_bytes))
        stream = tested_file(part)
        size = os.path.getsize(part)
    print(f"{size / MIB:,.1f} MiB, {holds(stream)}")
    return 0


def ended(path: str, fault: Exception) -> int:
    """Tells why nothing could be done, and gives the exit status."""
    if isinstance(fault, BadVolume):
        text = f"{fault}; `exsm_volume.py VOLUME save FOLDER` writes what can be read of a volume"
    elif isinstance(fault, Locked):
        text = fault.text.partition(": ")[2]
    else:
        text = reason_of(fault, path)
    print(f"exsm_stream: {text}", file=sys.stderr)
    return 1
