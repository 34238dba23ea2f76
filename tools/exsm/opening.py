"""The tests of an opening, part by part, as docs/FORMATS.md has them.

The parts are tested in their order, each over the whole volume; the first that fails is told with
all faults of it that are found. A fault has a span where the bytes that are wrong mean nothing: no
version reads them, and a volume with zeros there has this fault no more.
"""
from __future__ import annotations

import re
import struct
from typing import Callable, Iterator, NamedTuple, Optional

from exsm.geometry import CATALOG, LOG_PAGES, Geometry
from exsm.log import (CATALOG_ENTRY, CATALOG_HEAD, COUNT, FILE_PAGE_HEAD, FILES_HEAD, FORM_FILES,
                      FORM_IMAGE, FORM_SLOTS, HEAD, KIND_CATALOG, KIND_ENTRIES, KIND_FILE_PAGE,
                      NOTE_BYTES, PAGE_NUMBER, SLOT, SLOTS_HEAD, BadLog, LogRecord, PageEntry,
                      leave, numbers, records_of)
from exsm.records import RECORD_HEAD, BadVolume, Links, Record, record_of

MAGIC = b"EXSMVOL1"
FORMATS = (1, 2)
PAGE_SIZES = (512, 1024, 2048, 4096, 8192)
AREA_MOST, SEG_LEN_MOST, FAN_LEAST = 4_000_000, 16, 2
SUPERBLOCK = struct.Struct(">8s6I")
INDEX_HEAD = struct.Struct(">BBH4xI4x")
INDEX_ENTRY = struct.Struct(">II")
INDEX_LEVEL_MOST, INDEX_ROOT_LEAST = 5, 2
NODE_HEAD = struct.Struct(">BBH4x")
PAIRS = {2: struct.Struct(">II"), 5: struct.Struct(">QI")}
"""The pairs of a node, by the node's kind: a count of four bytes or of eight, and a page."""

HEIGHT_MOST, OBJECT_MOST = 64, (1 << 40) - 1
SIZE_END = (1 << 64) - 1
"""The greatest size that a record has room for."""
NAME = re.compile(rb"[a-z0-9_]{1,32}")
KIND_INDEX = 4
NOTES_MOST, PAGES_MOST = 512, 128
NOTE_KINDS = range(1, 12)


class Span(NamedTuple):
    """Bytes of a page that are to be zero."""

    page: int
    start: int
    end: int


class Fault(NamedTuple):
    """What fails a part, in words, and the bytes that mean nothing, where these are all of it."""

    text: str
    span: Optional[Span] = None


class Node(NamedTuple):
    """A node of a tree: the bytes up to the end of each child, and where the children lie."""

    counts: list[int]
    pages: list[int]


Faults = Iterator[Fault]


def zeros(where: str, image: bytes, span: Span) -> Faults:
    """Bytes of a page that are to be zero and aren't: the first of them."""
    if image.count(0, span.start, span.end) == span.end - span.start:
        return
    for at in range(span.start, span.end):
        if image[at]:
            yield Fault(f"{where}: byte {at} is {image[at]:02x}, and all from {span.start} to "
                        f"{span.end - 1} are to be 0; no version reads them", span)
            return


class Opening:
    """What an opening finds, over the bytes of a disk. Pages are read as the log leaves them."""

    def __init__(self, read: Callable[[int, int], bytes], disk_bytes: int) -> None:
        self.read, self.disk_bytes = read, disk_bytes
        self.sizes: Optional[Geometry] = None
        self.is_cut = False
        self.images: dict[int, bytes] = {}
        self.records: list[LogRecord] = []
        self.pages: dict[int, list[int]] = {}
        self.named: set[int] = {CATALOG}
        self.bodies: dict[int, list[Record]] = {}
        self.parts: list[tuple[str, Callable[[], Faults]]] = [
            ("super", self.superblock), ("log", self.log), ("catalog", self.catalog),
            ("file", self.files), ("page", self.file_pages), ("body", self.versions),
            ("node", self.nodes), ("balance", self.balances), ("unique", self.uniques)]

    def first_bad(self) -> tuple[str, list[Fault]]:
        """The first part that fails, with its faults; none where the volume opens."""
        for part, test in self.parts:
            faults = list(test())
            if faults:
                return part, faults
        return "", []

    @property
    def geometry(self) -> Geometry:
        """The sizes that page 0 tells."""
        if self.sizes is None:
            raise BadVolume("super: page 0 tells no sizes")
        return self.sizes

    def page(self, page: int) -> bytes:
        """A page as the log leaves it."""
        size = self.geometry.page_size
        return self.images.get(page) or self.read(page * size, size)

    # The superblock.

    def superblock(self) -> Faults:
        """The sizes of the volume, and whether the disk has room for it."""
        head = self.read(0, SUPERBLOCK.size)
        if len(head) < SUPERBLOCK.size or not head.startswith(MAGIC):
            yield Fault("the file doesn't begin as a volume does")
            return
        _, page_size, pages, segs, seg_len, fan, form = SUPERBLOCK.unpack(head)
        if page_size not in PAGE_SIZES:
            yield Fault(f"the page size is {page_size}")
            return
        limits = {"pages": (pages, 1, AREA_MOST), "segs": (segs, 0, AREA_MOST),
                  "seg len": (seg_len, 1, SEG_LEN_MOST),
                  "fan": (fan, FAN_LEAST, (page_size - 20) // 24), "format": (form, *FORMATS)}
        bad = [Fault(f"{name} is {value}, and {least} to {most} may be")
               for name, (value, least, most) in limits.items() if not least <= value <= most]
        yield from bad
        self.sizes = Geometry(page_size, pages, segs, seg_len, fan)
        self.is_cut = not bad and self.disk_bytes < self.sizes.bytes
        if self.is_cut:
            yield Fault(f"the file has {self.disk_bytes} bytes, the volume {self.sizes.bytes}")
        elif self.disk_bytes >= page_size:
            yield from zeros("page 0", self.read(0, page_size), Span(0, SUPERBLOCK.size, page_size))

    # The log.

    def log(self) -> Faults:
        """The records that count, each followed by the pages that it leaves."""
        log = self.read(self.geometry.page_size, LOG_PAGES * self.geometry.page_size)
        try:
            for record in records_of(log, self.geometry.page_size):
                yield from self._record(log, record)
                yield from self._changed(record, "changes")
                leave(record, self.images)
                yield from self._changed(record, "leaves")
                self.records.append(record)
        except BadLog as fault:
            yield Fault(str(fault).removeprefix("log: "))

    def _record(self, log: bytes, record: LogRecord) -> Faults:
        """What a record says by itself, and behind the one before it."""
        where = f"the record at {record.offset}"
        pages = [entry.page for entry in record.entries]
        if record.notes > NOTES_MOST or len(pages) + len(record.freed) > PAGES_MOST:
            yield Fault(f"{where} has {record.notes} notes, {len(pages)} pages and "
                        f"{len(record.freed)} freed ones")
        for numbers_of, kind in ((pages, "pages"), (record.freed, "freed pages")):
            if any(low >= high for low, high in zip(numbers_of, numbers_of[1:])):
                yield Fault(f"the {kind} of {where} don't rise")
            if any(not CATALOG <= page < self.geometry.first_unit for page in numbers_of):
                yield Fault(f"{where} has {kind} outside of the page area")
        if CATALOG not in pages or set(pages) & set(record.freed):
            yield Fault(f"{where} doesn't have page {CATALOG}, or has a page that it frees")
        if self.records and record.transaction != self.records[-1].transaction + 1:
            yield Fault(f"{where} is of transaction {record.transaction}, behind "
                        f"{self.records[-1].transaction}")
        for number in range(record.notes):
            kind = log[record.offset + HEAD.size + NOTE_BYTES * number]
            if kind not in NOTE_KINDS:
                yield Fault(f"note {number} of {where} is of kind {kind}")
        for entry in record.entries:
            yield from self._entry(where, entry)

    def _entry(self, where: str, entry: PageEntry) -> Faults:
        """What an entry says by itself."""
        if entry.form == FORM_SLOTS:
            yield from self._slots_entry(where, entry.fields)
        if entry.form == FORM_FILES:
            yield from self._files_entry(where, entry.fields)

    def _slots_entry(self, where: str, fields: bytes) -> Faults:
        """The slots of a page of a file rise."""
        if any(fields[:4]):
            yield Fault(f"slots of {where} begin with {fields[:4].hex()}, and four zeros are to")
        at, before = SLOTS_HEAD.size, -1
        for _ in range(SLOTS_HEAD.unpack_from(fields)[0]):
            slot, length = SLOT.unpack_from(fields, at)
            if slot <= before:
                yield Fault(f"slots of {where} don't rise")
                return
            before, at = slot, at + SLOT.size + length

    def _files_entry(self, where: str, fields: bytes) -> Faults:
        """The files of a catalog that leave rise, and those that come are such as a catalog has."""
        next_unique, last = FILES_HEAD.unpack_from(fields)
        removed, = COUNT.unpack_from(fields, FILES_HEAD.size)
        at = FILES_HEAD.size + COUNT.size
        gone = numbers(PAGE_NUMBER, fields, at, removed)
        behind = at + PAGE_NUMBER.size * removed
        put, = COUNT.unpack_from(fields, behind)
        entries = fields[behind + COUNT.size:]
        most = (self.geometry.page_size - CATALOG_HEAD.size) // CATALOG_ENTRY.size
        if removed > most or put > most:
            yield Fault(f"files of {where} are more than a catalog has room for")
            return
        size = self.geometry.page_size
        page = CATALOG_HEAD.pack(KIND_CATALOG, put, next_unique, last) + entries
        faults = list(self.catalog_page(page + bytes(size - len(page))))
        come = [entry[4] for entry in CATALOG_ENTRY.iter_unpack(entries)]
        if any(low >= high for low, high in zip(gone, gone[1:])) or set(gone) & set(come):
            faults.append(Fault("those that leave don't rise, or come too"))
        if any(number == 0 for number in gone):
            faults.append(Fault("a file 0 leaves"))
        yield from (Fault(f"files of {where}: {fault.text}") for fault in faults)

    def _changed(self, record: LogRecord, verb: str) -> Faults:
        """The pages that a record changes are in their grammar, before it and after it."""
        for entry in record.entries:
            image = self.images.get(entry.page)
            if entry.form == FORM_IMAGE or image is None:
                continue
            is_catalog_now = entry.form == FORM_FILES
            faults = (self.catalog_page(image) if is_catalog_now
                      else self._slotted_page(image, entry.page, "it"))
            yield from (Fault(f"the record at {record.offset} {verb} page {entry.page}: "
                              f"{fault.text}") for fault in faults)

    # The catalog.

    def catalog(self) -> Faults:
        """The page of the catalog, and that its last number is the log's."""
        yield from self.catalog_page(self.page(CATALOG))
        last = CATALOG_HEAD.unpack_from(self.page(CATALOG))[3]
        if self.records and last != self.records[-1].transaction:
            yield Fault(f"the last number is {last}, and that of the log's last record "
                        f"{self.records[-1].transaction}")

    @staticmethod
    def catalog_page(page: bytes) -> Faults:
        """A page that is to be a catalog."""
        where = f"page {CATALOG}"
        kind, count, next_unique, _ = CATALOG_HEAD.unpack_from(page)
        if kind != KIND_CATALOG or CATALOG_HEAD.size + count * CATALOG_ENTRY.size > len(page):
            yield Fault(f"{where} is of kind {kind} and has {count} files")
            return
        yield from zeros(where, page, Span(CATALOG, 1, 2))
        yield from zeros(where, page, Span(CATALOG, 4, 8))
        yield from zeros(where, page, Span(CATALOG, 24, 32))
        if next_unique == 0:
            yield Fault("the next unique number is 0")
        before, seen = b"", set()
        for place in range(count):
            at = CATALOG_HEAD.size + place * CATALOG_ENTRY.size
            length, padded, level, root, number = CATALOG_ENTRY.unpack_from(page, at)
            name, entry = padded[:length], f"entry {place}"
            if not 1 <= length <= 32 or not NAME.fullmatch(name):
                yield Fault(f"{entry} has the name {name.decode('latin-1')!r}, of {length} bytes")
                continue
            yield from zeros(f"{where}, {entry}", page, Span(CATALOG, at + 1 + length, at + 33))
            yield from zeros(f"{where}, {entry}", page, Span(CATALOG, at + 34, at + 36))
            yield from zeros(f"{where}, {entry}", page, Span(CATALOG, at + 44, at + 48))
            if name <= before:
                yield Fault(f"{entry}, {name.decode()}, doesn't stand behind {before.decode()}")
            if number == 0 or number in seen:
                yield Fault(f"{entry} has the file number {number}, which can't be its own")
            if level > INDEX_LEVEL_MOST or (root == 0 and level != 0):
                yield Fault(f"{entry} has an index of level {level} and root {root}")
            before = name
            seen.add(number)
        end = CATALOG_HEAD.size + count * CATALOG_ENTRY.size
        yield from zeros(where, page, Span(CATALOG, end, len(page)))

    # Indexes and pages of files.

    def entries(self) -> list[tuple[str, int, int, int]]:
        """The files: name, level and root of the index, and number."""
        page = self.page(CATALOG)
        count = CATALOG_HEAD.unpack_from(page)[1]
        found = (CATALOG_ENTRY.unpack_from(page, CATALOG_HEAD.size + place * CATALOG_ENTRY.size)
                 for place in range(count))
        return [(name[:length].decode(), level, root, number)
                for length, name, level, root, number in found]

    def files(self) -> Faults:
        """The indexes of all files."""
        for name, level, root, number in self.entries():
            self.pages[number] = []
            if root:
                yield from self._index(name, number, root, level, is_root=True)
            pages = self.pages[number]
            if any(low >= high for low, high in zip(pages, pages[1:])):
                yield Fault(f"the pages of {name} don't rise over its index")

    def _index(self, name: str, number: int, page: int, level: int, is_root: bool = False,
               key: Optional[int] = None) -> Faults:
        """A page of a file, or of its index with all below it, where a key is asked of it."""
        if not self.geometry.has_page(page) or page in self.named:
            yield Fault(f"{name} names page {page}, which can't be its own")
            return
        self.named.add(page)
        if level == 0:
            self.pages[number].append(page)
            return
        image, where = self.page(page), f"page {page} of the index of {name}"
        kind, there, count, of_file = INDEX_HEAD.unpack_from(image)
        most = (len(image) - INDEX_HEAD.size) // INDEX_ENTRY.size
        least = INDEX_ROOT_LEAST if is_root else most // 2
        if (kind, there, of_file) != (KIND_INDEX, level, number) or not least <= count <= most:
            yield Fault(f"{where} is of kind {kind}, level {there}, file {of_file}, and has "
                        f"{count} entries")
            return
        end = INDEX_HEAD.size + count * INDEX_ENTRY.size
        found = list(INDEX_ENTRY.iter_unpack(image[INDEX_HEAD.size:end]))
        for start, behind in ((4, 8), (12, 16), (end, len(image))):
            yield from zeros(where, image, Span(page, start, behind))
        keys = [entry_key for entry_key, _ in found]
        if any(low >= high for low, high in zip(keys, keys[1:])):
            yield Fault(f"the keys of {where} don't rise")
        if key is not None and keys[0] != key:
            yield Fault(f"{where} begins at key {keys[0]}, and is named with {key}")
        for entry_key, child in found:
            if level == 1 and child != entry_key:
                yield Fault(f"{where} names page {child} under key {entry_key}")
            yield from self._index(name, number, child, level - 1, key=entry_key)

    def file_pages(self) -> Faults:
        """The pages of all files."""
        for name, _, _, number in self.entries():
            for page in self.pages[number]:
                image = self.page(page)
                yield from self._slotted_page(image, page, f"page {page} of {name}")
                kind, count, of_file = FILE_PAGE_HEAD.unpack_from(image)
                if kind == KIND_FILE_PAGE and (of_file != number or count == 0):
                    yield Fault(f"page {page} of {name} is of file {of_file} and has {count} slots")

    @staticmethod
    def _slotted_page(image: bytes, page: int, where: str) -> Faults:
        """A page that is to be one of a file."""
        kind, count, _ = FILE_PAGE_HEAD.unpack_from(image)
        slots = len(image) - SLOT.size * count
        if kind != KIND_FILE_PAGE or slots < FILE_PAGE_HEAD.size:
            yield Fault(f"{where} is of kind {kind} and has {count} slots")
            return
        for start, behind in ((1, 2), (4, 8), (12, 16)):
            yield from zeros(where, image, Span(page, start, behind))
        at = FILE_PAGE_HEAD.size
        for slot in range(count):
            offset, length = SLOT.unpack_from(image, len(image) - SLOT.size * (slot + 1))
            if (offset, length) == (0, 0) and slot < count - 1:
                continue
            if offset != at or length == 0 or at + length > slots:
                yield Fault(f"{where}, slot {slot}: {length} bytes at {offset}, where {at} is next")
                return
            at += length
        yield from zeros(where, image, Span(page, at, slots))

    # Records.

    def versions(self) -> Faults:
        """The records of all files, and their links."""
        for name, _, _, number in self.entries():
            self.bodies[number] = []
            for page in self.pages[number]:
                yield from self._records(page, self.bodies[number])
            yield from (Fault(text.removeprefix("body: "))
                        for text in Links(self.bodies[number]).faults())

    def _records(self, page: int, found: list[Record]) -> Faults:
        """The records of a page."""
        image = self.page(page)
        for slot in range(FILE_PAGE_HEAD.unpack_from(image)[1]):
            offset, length = SLOT.unpack_from(image, len(image) - SLOT.size * (slot + 1))
            if not length:
                continue
            where, body = f"page {page}, slot {slot}", image[offset:offset + length]
            try:
                record = record_of(page, slot, body, SIZE_END)
            except BadVolume as fault:
                yield Fault(str(fault).removeprefix("body: "))
                continue
            found.append(record)
            if record.height is None:
                span = Span(page, offset + RECORD_HEAD.size + record.size, offset + length)
                yield from zeros(f"{record.oid} on page {page}", image, span)
            for link, place in (("older", record.older), ("newer", record.newer)):
                if place.page == 0 and place.slot != 0:
                    yield Fault(f"the {link} place of {record.oid} is slot {place.slot} of no page")
            if record.height and record.size == 0:
                yield Fault(f"{record.oid} has no bytes and height {record.height}")

    # Trees.

    def objects(self) -> Iterator[list[Record]]:
        """The objects of all files, each its versions."""
        for records in self.bodies.values():
            yield from Links(records).objects()

    def node(self, page: int, level: int) -> Node:
        """A node that is to have a level. One that isn't in its grammar is raised."""
        image = self.page(page)
        kind, there, count = NODE_HEAD.unpack_from(image)
        pair_of = PAIRS.get(kind)
        if pair_of is None or there != level or not 1 <= count <= 2 * self.geometry.fan + 1:
            raise BadVolume(f"is of kind {kind} and level {there} and has {count} pairs, "
                            f"where a node of level {level} is to be")
        end = NODE_HEAD.size + count * pair_of.size
        if end > len(image):
            raise BadVolume(f"has {count} pairs, for which it has no room")
        pairs = list(pair_of.iter_unpack(image[NODE_HEAD.size:end]))
        counts = [count for count, _ in pairs]
        if any(low >= high for low, high in zip([0, *counts], counts)):
            raise BadVolume("has counts that don't rise")
        return Node(counts, [child for _, child in pairs])

    def nodes(self) -> Faults:
        """The nodes and leaves of all trees, and that no unit is of two objects."""
        owner: dict[int, str] = {}
        for versions in self.objects():
            levels: dict[int, int] = {}
            for record in versions:
                if record.height is not None and record.root:
                    yield from self._tree(record, levels)
            name = versions[0].oid
            for page in levels:
                if owner.setdefault(page, name) != name:
                    yield Fault(f"page {page} is of {owner[page]} and of {name}")

    def _tree(self, record: Record, levels: dict[int, int]) -> Faults:
        """The nodes and leaves below a root, each once; their levels are noted."""
        if record.height > HEIGHT_MOST:
            yield Fault(f"the height of {record.oid} is {record.height}")
            return
        todo = [(record.root, record.height)]
        while todo:
            page, level = todo.pop()
            where = f"page {page} of {record.oid}"
            if page in levels:
                if levels[page] != level:
                    yield Fault(f"{where} is named at level {level} and at {levels[page]}")
                continue
            levels[page] = level
            if level == 0:
                if not self.geometry.has_unit(page):
                    yield Fault(f"{where} is no first page of a unit")
                continue
            if not self.geometry.has_page(page) or page in self.named:
                yield Fault(f"{where} can't be a node's")
                continue
            try:
                node = self.node(page, level)
            except BadVolume as fault:
                yield Fault(f"{where} {fault}")
                continue
            image = self.page(page)
            end = NODE_HEAD.size + len(node.pages) * PAIRS[image[0]].size
            yield from zeros(where, image, Span(page, 4, 8))
            yield from zeros(where, image, Span(page, end, len(image)))
            todo.extend((child, level - 1) for child in node.pages)

    def balances(self) -> Faults:
        """The totals of nodes, and how full leaves and nodes are."""
        for versions in self.objects():
            seen: set[tuple[int, int, int, bool]] = set()
            for record in versions:
                if record.size > OBJECT_MOST:
                    yield Fault(f"{record.oid} has {record.size} bytes")
                elif record.height is not None and record.root:
                    yield from self._full(record, seen)

    def _full(self, record: Record, seen: set[tuple[int, int, int, bool]]) -> Faults:
        """What each node and leaf below a root is named with."""
        fan, unit = self.geometry.fan, self.geometry.unit
        todo = [(record.root, record.height or 0, record.size, True)]
        while todo:
            page, level, size, is_root = at = todo.pop()
            if at in seen:
                continue
            seen.add(at)
            where = f"page {page} of {record.oid}"
            if level == 0:
                least = 1 if is_root else -(-unit // 2)
                if not least <= size <= unit:
                    yield Fault(f"{where} is a leaf of {size} bytes")
                continue
            node = self.node(page, level)
            if node.counts[-1] != size:
                yield Fault(f"{where} has {node.counts[-1]} bytes, and is named with {size}")
                continue
            if not (2 if is_root else fan) <= len(node.pages) <= 2 * fan + 1:
                yield Fault(f"{where} has {len(node.pages)} pairs")
            starts = [0, *node.counts]
            todo.extend((child, level - 1, end - start, False)
                        for start, end, child in zip(starts, node.counts, node.pages))

    # Numbers.

    def uniques(self) -> Faults:
        """The unique numbers of all versions."""
        next_unique = CATALOG_HEAD.unpack_from(self.page(CATALOG))[2]
        seen: dict[int, str] = {}
        for record in (record for records in self.bodies.values() for record in records):
            if not 1 <= record.unique < next_unique:
                yield Fault(f"the number of {record.oid} isn't from 1 to below {next_unique}")
            if seen.setdefault(record.unique, record.oid) != record.oid:
                yield Fault(f"{record.oid} and {seen[record.unique]} have one number")


def is_catalog(page: bytes, page_size: int) -> bool:
    """Whether a page of a size is in the grammar of a catalog."""
    return len(page) == page_size and not list(Opening.catalog_page(page))
