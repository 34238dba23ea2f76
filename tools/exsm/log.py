"""The log of a volume: the records that count, and what they leave of the pages that they name."""
from __future__ import annotations

import struct
from typing import Iterator, NamedTuple, Optional

from exsm.geometry import CATALOG

HEAD = struct.Struct(">BBIQHHH")
NOTE_BYTES = 31
PAGE_NUMBER = struct.Struct(">I")
COUNT = struct.Struct(">H")
KIND_IMAGES, KIND_ENTRIES = 1, 2
FORM_IMAGE, FORM_SLOTS, FORM_FILES = 1, 2, 3

KIND_CATALOG, KIND_FILE_PAGE = 1, 3
CATALOG_HEAD = struct.Struct(">BxH4xQQ8x")
CATALOG_ENTRY = struct.Struct(">B32sBxxII4x")
FILE_PAGE_HEAD = struct.Struct(">BxH4xI4x")
SLOT = struct.Struct(">HH")
SLOTS_HEAD = struct.Struct(">4xH")
FILES_HEAD = struct.Struct(">QQ")


class BadLog(Exception):
    """What stands at a record's place is none, or one of its entries doesn't apply."""


class PageEntry(NamedTuple):
    """What a record says of a page, in one of three forms."""

    page: int
    form: int
    fields: bytes


class LogRecord(NamedTuple):
    """A record of the log that counts: where it stands, and what it says."""

    offset: int
    length: int
    transaction: int
    notes: int
    entries: list[PageEntry]
    freed: list[int]


def numbers(of: struct.Struct, data: bytes, at: int, count: int) -> list[int]:
    """So many numbers of one kind that stand one behind the other."""
    return [number for number, in of.iter_unpack(data[at:at + of.size * count])]


def fields_len(form: int, log: bytes, at: int, page_size: int) -> int:
    """The bytes of the fields of an entry that stand at a place."""
    if form == FORM_IMAGE:
        return page_size
    if form == FORM_SLOTS:
        behind = at + SLOTS_HEAD.size
        for _ in range(SLOTS_HEAD.unpack_from(log, at)[0]):
            behind += SLOT.size + SLOT.unpack_from(log, behind)[1]
        return behind - at
    if form == FORM_FILES:
        behind = at + FILES_HEAD.size
        behind += COUNT.size + PAGE_NUMBER.size * COUNT.unpack_from(log, behind)[0]
        return behind + COUNT.size + CATALOG_ENTRY.size * COUNT.unpack_from(log, behind)[0] - at
    raise BadLog(f"log: an entry of form {form} at {at}")


def record_at(log: bytes, offset: int, page_size: int) -> LogRecord:
    """The record behind the gate at a place."""
    try:
        _, kind, length, transaction, notes, pages, freed = HEAD.unpack_from(log, offset)
        if kind not in (KIND_IMAGES, KIND_ENTRIES):
            raise BadLog(f"log: no record at {offset}")
        at = offset + HEAD.size + NOTE_BYTES * notes
        entries = []
        for _ in range(pages):
            page, = PAGE_NUMBER.unpack_from(log, at)
            at += PAGE_NUMBER.size
            form = FORM_IMAGE
            if kind == KIND_ENTRIES:
                form = log[at]
                at += 1
            behind = at + fields_len(form, log, at, page_size)
            entries.append(PageEntry(page, form, log[at:behind]))
            at = behind
    except (struct.error, IndexError):
        raise BadLog(f"log: no room for a record at {offset}") from None
    end = at + PAGE_NUMBER.size * freed
    if length != end - offset or end >= len(log):
        raise BadLog(f"log: no record at {offset}")
    freed_pages = numbers(PAGE_NUMBER, log, at, freed)
    return LogRecord(offset, length, transaction, notes, entries, freed_pages)


def records_of(log: bytes, page_size: int) -> Iterator[LogRecord]:
    """The records that count, in their order."""
    offset = 0
    while log[offset] == 1:
        record = record_at(log, offset, page_size)
        yield record
        offset += record.length


def with_slots(page: bytes, fields: bytes) -> bytes:
    """A page of a file with other bodies in the slots that fields name."""
    kind, count, file_number = FILE_PAGE_HEAD.unpack_from(page)
    if kind != KIND_FILE_PAGE:
        raise BadLog("log: slots of a page that is of no file")
    if FILE_PAGE_HEAD.size + SLOT.size * count > len(page):
        raise BadLog(f"log: slots of a page that names {count} slots and hasn't room for them")
    slots = {}
    for slot in range(count):
        at, length = SLOT.unpack_from(page, len(page) - SLOT.size * (slot + 1))
        slots[slot] = page[at:at + length]
    at = SLOTS_HEAD.size
    for _ in range(SLOTS_HEAD.unpack_from(fields)[0]):
        slot, length = SLOT.unpack_from(fields, at)
        at += SLOT.size
        slots[slot] = fields[at:at + length]
        at += length
    live = {slot: body for slot, body in slots.items() if body}
    count = max(live, default=-1) + 1
    bodies, places = b"", b""
    for slot in range(count):
        body = live.get(slot, b"")
        offset = FILE_PAGE_HEAD.size + len(bodies) if body else 0
        places = SLOT.pack(offset, len(body)) + places
        bodies += body
    gap = len(page) - FILE_PAGE_HEAD.size - len(bodies) - len(places)
    if gap < 0:
        raise BadLog("log: slots that have no room on their page")
    return FILE_PAGE_HEAD.pack(kind, count, file_number) + bodies + bytes(gap) + places


def with_files(page: bytes, fields: bytes) -> bytes:
    """The catalog with other numbers and files, as fields name them."""
    kind, count, _, _ = CATALOG_HEAD.unpack_from(page)
    if kind != KIND_CATALOG:
        raise BadLog("log: files of a page that is no catalog")
    if CATALOG_HEAD.size + CATALOG_ENTRY.size * count > len(page):
        raise BadLog(f"log: files of a catalog that names {count} files and hasn't room for them")
    entries = {entry[4]: entry for entry in CATALOG_ENTRY.iter_unpack(
        page[CATALOG_HEAD.size:CATALOG_HEAD.size + CATALOG_ENTRY.size * count])}
    next_unique, last = FILES_HEAD.unpack_from(fields)
    at = FILES_HEAD.size
    removed, = COUNT.unpack_from(fields, at)
    at += COUNT.size
    for number in numbers(PAGE_NUMBER, fields, at, removed):
        if entries.pop(number, None) is None:
            raise BadLog(f"log: a file {number} is removed that isn't there")
    at += PAGE_NUMBER.size * removed + COUNT.size
    for entry in CATALOG_ENTRY.iter_unpack(fields[at:]):
        entries[entry[4]] = entry
    there = sorted(entries.values(), key=lambda entry: entry[1][:entry[0]])
    whole = CATALOG_HEAD.pack(kind, len(there), next_unique, last)
    whole += b"".join(CATALOG_ENTRY.pack(*entry) for entry in there)
    if len(whole) > len(page):
        raise BadLog("log: files that have no room in the catalog")
    return whole + bytes(len(page) - len(whole))


def page_after(entry: PageEntry, so_far: Optional[bytes]) -> bytes:
    """A page after an entry, where this was left of it so far."""
    if entry.form == FORM_IMAGE:
        return entry.fields
    if so_far is None:
        raise BadLog(f"log: a change of page {entry.page}, which no record before it leaves")
    if entry.form == FORM_SLOTS:
        return with_slots(so_far, entry.fields)
    if entry.page != CATALOG:
        raise BadLog(f"log: files on page {entry.page}")
    return with_files(so_far, entry.fields)


def leave(record: LogRecord, images: dict[int, bytes]) -> None:
    """Changes images to what a record leaves of them."""
    for entry in record.entries:
        images[entry.page] = page_after(entry, images.get(entry.page))
    for page in record.freed:
        images.pop(page, None)
