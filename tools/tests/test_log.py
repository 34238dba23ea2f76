"""The log as the tools read it: what each form of entry leaves of a page, and what is no record."""
from __future__ import annotations

import unittest

from exsm.geometry import CATALOG
from exsm.log import (
    CATALOG_ENTRY, CATALOG_HEAD, COUNT, FILES_HEAD, FILE_PAGE_HEAD, FORM_FILES, FORM_SLOTS,
    HEAD, KIND_CATALOG, KIND_FILE_PAGE, PAGE_NUMBER, SLOT, SLOTS_HEAD, BadLog, PageEntry, leave,
    page_after, records_of)

PAGE = 512
FILE = 258


def file_page(*bodies: bytes) -> bytes:
    """A page of file 7 with these bodies in its slots."""
    packed, places = b"", b""
    for body in bodies:
        offset = FILE_PAGE_HEAD.size + len(packed) if body else 0
        places = SLOT.pack(offset, len(body)) + places
        packed += body
    head = FILE_PAGE_HEAD.pack(KIND_FILE_PAGE, len(bodies), 7) + packed
    return head + bytes(PAGE - len(head) - len(places)) + places


def slots(*changes: tuple[int, bytes]) -> PageEntry:
    """The entry that changes these slots."""
    fields = SLOTS_HEAD.pack(len(changes))
    for slot, body in changes:
        fields += SLOT.pack(slot, len(body)) + body
    return PageEntry(FILE, FORM_SLOTS, fields)


def catalog(last: int, *files: tuple[str, int]) -> bytes:
    """A catalog with these files, each of one page."""
    head = CATALOG_HEAD.pack(KIND_CATALOG, len(files), 9, last)
    head += b"".join(file_entry(name, number) for name, number in files)
    return head + bytes(PAGE - len(head))


def file_entry(name: str, number: int) -> bytes:
    return CATALOG_ENTRY.pack(len(name), name.encode(), 0, 300 + number, number)


def files(last: int, removed: list[int], *put: tuple[str, int]) -> PageEntry:
    """The entry that removes and puts files."""
    fields = FILES_HEAD.pack(9, last) + COUNT.pack(len(removed))
    fields += b"".join(map(PAGE_NUMBER.pack, removed)) + COUNT.pack(len(put))
    return PageEntry(CATALOG, FORM_FILES,
                     fields + b"".join(file_entry(name, number) for name, number in put))


class LogTest(unittest.TestCase):
    def test_slots(self) -> None:
        """slots are set, emptied and added, and vacant ones at the end go"""
        page = file_page(b"one", b"two", b"three")
        self.assertEqual(page_after(slots((0, b"first"), (1, b"")), page),
                         file_page(b"first", b"", b"three"))
        self.assertEqual(page_after(slots((2, b"")), page), file_page(b"one", b"two"))
        self.assertEqual(page_after(slots((4, b"five")), page),
                         file_page(b"one", b"two", b"three", b"", b"five"))

    def test_files(self) -> None:
        """files are removed, replaced by number and added, in order of their names"""
        page = catalog(3, ("a", 1), ("c", 2))
        self.assertEqual(page_after(files(4, [1], ("b", 3)), page), catalog(4, ("b", 3), ("c", 2)))
        self.assertEqual(page_after(files(4, [], ("z", 1)), page), catalog(4, ("c", 2), ("z", 1)))

    def test_no_entry(self) -> None:
        """a change that doesn't apply is told"""
        for entry, so_far in (
                (slots((0, b"x")), None), (slots((0, b"x")), catalog(1)),
                (slots((0, bytes(PAGE))), file_page()), (files(4, [5]), catalog(3, ("a", 1))),
                (files(4, [])._replace(page=FILE), catalog(3))):
            with self.subTest(entry), self.assertRaises(BadLog):
                page_after(entry, so_far)

    def test_records(self) -> None:
        """records of both kinds are read; what stands behind an open gate and is none is told"""
        image = catalog(1)
        old = HEAD.pack(1, 1, 536, 1, 0, 1, 0) + PAGE_NUMBER.pack(CATALOG) + image
        entry = files(2, [], ("a", 1))
        new = PAGE_NUMBER.pack(CATALOG) + bytes([entry.form]) + entry.fields
        new = HEAD.pack(1, 2, HEAD.size + len(new), 2, 0, 1, 0) + new
        log = old + new + bytes(PAGE)
        images: dict[int, bytes] = {}
        for record in records_of(log, PAGE):
            leave(record, images)
        self.assertEqual(images, {CATALOG: catalog(2, ("a", 1))})
        with self.assertRaises(BadLog):
            list(records_of(old[:1] + b"\3" + old[2:] + bytes(PAGE), PAGE))
