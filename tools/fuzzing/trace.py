"""The calls of a run on its volume and its streams, as they were noted."""
from __future__ import annotations

from enum import IntEnum
from typing import NamedTuple

from fuzzing.outside import NOTE


class CallKind(IntEnum):
    """What a call does, by its number in outside.c."""

    READ = 1
    WRITE = 2
    SYNC = 3
    TAKE = 4
    PUT = 5
    REFUSED = 6


class Call(NamedTuple):
    """A call: what a write or a put moved, and where; a write that failed may have moved some."""

    kind: CallKind
    at: int = 0
    data: bytes = b""
    failed: bool = False


def calls_of(notes: bytes) -> list[Call]:
    """The calls of a run, in their order."""
    calls, place = [], 0
    while place < len(notes):
        kind, failed, at, length = NOTE.unpack_from(notes, place)
        place += NOTE.size
        is_given = kind in (CallKind.WRITE, CallKind.PUT)
        data = notes[place:place + length] if is_given else b""
        place += len(data)
        calls.append(Call(CallKind(kind), at, data, bool(failed)))
    return calls


def written(base: bytes, calls: list[Call]) -> bytes:
    """What a volume holds once the calls of a run were made on it."""
    image = bytearray(base)
    for call in calls:
        if call.kind == CallKind.WRITE:
            image[call.at:call.at + len(call.data)] = call.data
    return bytes(image)
