"""Records of versions as docs/FORMATS.md has them, and the objects that their links make."""
from __future__ import annotations

import struct
from collections import defaultdict
from dataclasses import dataclass
from typing import Iterator, NamedTuple, Optional

RECORD_HEAD = struct.Struct(">BBQIHIHH")
LARGE_BODY = struct.Struct(">QI")
FORM_SMALL, FORM_LARGE = 1, 2
STATE_CURRENT, STATE_FROZEN = 1, 2
BODY_LEAST = LARGE_BODY.size
HEIGHT_MOST = 255
OBJECT_MOST = (1 << 40) - 1


class BadVolume(Exception):
    """What the file holds isn't what names it. The text begins with the part that fails."""


class Place(NamedTuple):
    """Where a record lies: a page and a slot."""

    page: int
    slot: int


NOWHERE = Place(0, 0)
"""The place in a link that names no record."""


@dataclass(frozen=True)
class Record:
    """A version's record. A small one has no height, and its bytes in `data`."""

    place: Place
    unique: int
    size: int
    frozen: bool = False
    older: Place = NOWHERE
    newer: Place = NOWHERE
    height: Optional[int] = None
    root: int = 0
    data: bytes = b""

    @property
    def oid(self) -> str:
        """The version's identifier."""
        return f"{self.place.page}.{self.place.slot}.{self.unique}"


def record_of(page: int, slot: int, body: bytes, most: int = OBJECT_MOST) -> Record:
    """The record that a slot's bytes are, of a version of at most so many bytes."""
    where = f"body: page {page}, slot {slot}"
    if len(body) < RECORD_HEAD.size + BODY_LEAST:
        raise BadVolume(f"{where} has {len(body)} bytes")
    form, state, unique, *links, number = RECORD_HEAD.unpack_from(body)
    if state not in (STATE_CURRENT, STATE_FROZEN) or form not in (FORM_SMALL, FORM_LARGE):
        raise BadVolume(f"{where} has form {form} and state {state}")
    wanted = RECORD_HEAD.size + (max(BODY_LEAST, number) if form == FORM_SMALL else BODY_LEAST)
    if len(body) != wanted:
        raise BadVolume(f"{where} has {len(body)} bytes, not {wanted}")
    place, older, newer = Place(page, slot), Place(*links[:2]), Place(*links[2:])
    frozen = state == STATE_FROZEN
    if form == FORM_SMALL:
        data = body[RECORD_HEAD.size:RECORD_HEAD.size + number]
        return Record(place, unique, number, frozen, older, newer, data=data)
    size, root = LARGE_BODY.unpack_from(body, RECORD_HEAD.size)
    if size > most or number > HEIGHT_MOST or (root == 0) != (size == 0):
        raise BadVolume(f"{where} has size {size}, height {number}, root {root}")
    return Record(place, unique, size, frozen, older, newer, number, root)


class Links:
    """The versions of a file by their places, and which of them are derived from which."""

    def __init__(self, records: list[Record]) -> None:
        self.at = {record.place: record for record in records}
        self.derived: dict[Place, list[Record]] = defaultdict(list)
        for record in records:
            if record.older != NOWHERE:
                self.derived[record.older].append(record)

    def faults(self) -> Iterator[str]:
        """The links that no tree of versions has."""
        for record in self.at.values():
            if record.older != NOWHERE and not self._is_older(record):
                yield (f"body: the older place of {record.oid} names no version that it may be "
                       "derived from")
            if record.newer != self._newer(record):
                yield (f"body: the newer place of {record.oid} isn't that of the only version "
                       "derived from it")
            if record.frozen and not self.derived[record.place]:
                yield f"body: no version is derived from {record.oid}, which is frozen"

    def _is_older(self, record: Record) -> bool:
        older = self.at.get(record.older)
        if older is None or not older.frozen:
            return False
        return not record.frozen or older.unique < record.unique

    def _newer(self, record: Record) -> Place:
        """What the newer place is to name: the only version derived from a frozen one."""
        derived = self.derived[record.place] if record.frozen else []
        return derived[0].place if len(derived) == 1 else NOWHERE

    def objects(self) -> list[list[Record]]:
        """The objects, each the versions that older places join, in order of their numbers."""
        of_first: dict[Place, list[Record]] = defaultdict(list)
        for record in sorted(self.at.values(), key=lambda record: record.unique):
            of_first[self._first(record).place].append(record)
        return list(of_first.values())

    def _first(self, record: Record) -> Record:
        """The version that a version's older places lead to."""
        seen = {record.place}
        while record.older in self.at and record.older not in seen:
            record = self.at[record.older]
            seen.add(record.place)
        return record
