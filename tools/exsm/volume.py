"""Reads a volume file as docs/FORMATS.md describes it, without exsm, and never writes to it."""
from __future__ import annotations

import os
from dataclasses import dataclass
from typing import BinaryIO, Callable, Iterator, NamedTuple, Optional

from exsm.geometry import CATALOG, LOG_PAGES, Geometry
from exsm.log import (CATALOG_ENTRY, CATALOG_HEAD, FILE_PAGE_HEAD, KIND_CATALOG, KIND_FILE_PAGE,
                      SLOT, BadLog, LogRecord, leave, records_of)
from exsm.opening import (INDEX_ENTRY, INDEX_HEAD, KIND_INDEX, NAME, NODE_HEAD, PAGE_SIZES,
                          PAIRS, SEG_LEN_MOST, Opening, is_catalog)
from exsm.records import BadVolume, Links, Record, record_of


class NoVersion(Exception):
    """No version that can be read has the identifier or the name."""


class Entry(NamedTuple):
    """A file, as the catalog has it."""

    name: str
    level: int
    root: int
    number: int


class Pair(NamedTuple):
    """A child of a node: the bytes up to its end within the node's part, and where it lies."""

    count: int
    page: int


class Leaf(NamedTuple):
    """Bytes of an object in a unit: their position in the object, the unit's page, their number."""

    position: int
    page: int
    length: int


class Use(NamedTuple):
    """What a page or a unit is in use for: its kind, the file or object, the bytes it holds."""

    kind: str
    owner: str
    used: int


@dataclass(frozen=True)
class Guessed(Geometry):
    """The sizes of a volume without a superblock: of them the page size alone is known, by the
    catalog. Any page of the file may be one of the page area and the first of a unit."""

    @staticmethod
    def of(page_size: int, disk_bytes: int) -> Guessed:
        """What is known of a file of so many bytes, where its catalog tells the page size."""
        pages = max(1, disk_bytes // page_size - CATALOG)
        return Guessed(page_size, pages, 0, SEG_LEN_MOST, (page_size - 20) // 24)

    def has_unit(self, page: int) -> bool:
        """Whether a unit may begin at the page."""
        return self.has_page(page)


class Volume:
    """What a volume holds, by its path, or by an open file. Faults below the catalog are gathered
    in `faults`."""

    def __init__(self, path: str, file: Optional[BinaryIO] = None) -> None:
        self.path = path
        self.faults: list[str] = []
        self.uses: dict[int, Use] = {}
        self._file = open(path, "rb") if file is None else file
        self.disk_bytes = self._file.seek(0, os.SEEK_END)
        self.geometry = self._superblock()
        self.records, self.images = self._log()
        self.next_unique, self.last_commit, self.files = self._catalog()
        self.versions = {entry.name: self._versions_of(entry) for entry in self.files}
        self.objects = self._objects()

    def __enter__(self) -> Volume:
        return self

    def __exit__(self, *_: object) -> None:
        self._file.close()

    # Pages.

    def _read(self, position: int, length: int) -> bytes:
        self._file.seek(position)
        return self._file.read(length)

    def home(self, page: int) -> bytes:
        """A page as it stands at its place; behind the end of a file that was cut all is 0."""
        size = self.geometry.page_size
        return self._read(page * size, size).ljust(size, b"\0")

    def page(self, page: int) -> bytes:
        """A page as the log leaves it."""
        return self.images.get(page) or self.home(page)

    def guarded(self, step: Callable[[], None]) -> None:
        """Makes a step, and notes its fault; what was read before the fault stays."""
        try:
            step()
        except BadVolume as fault:
            self.faults.append(str(fault))

    # The superblock, the log, the catalog: without them nothing can be read.

    def opening(self) -> Opening:
        """The tests that the program's opening makes, over the bytes of the file."""
        return Opening(self._read, self.disk_bytes)

    def _superblock(self) -> Geometry:
        """The sizes of the volume; where the superblock is damaged, what its catalog tells."""
        opening = self.opening()
        faults = [fault for fault in opening.superblock() if fault.span is None]
        self.faults.extend(f"super: {fault.text}" for fault in faults)
        if opening.sizes is not None and len(faults) == opening.is_cut:
            return opening.sizes
        for page_size in PAGE_SIZES:
            if is_catalog(self._read(CATALOG * page_size, page_size), page_size):
                self.faults.append(f"super: page {CATALOG} is a catalog at page size {page_size}: "
                                   "read so, without the other sizes")
                return Guessed.of(page_size, self.disk_bytes)
        raise BadVolume(self.faults[-1])

    def _log(self) -> tuple[list[LogRecord], dict[int, bytes]]:
        """The records that count, and the images that they leave. A fault ends the log there."""
        size = LOG_PAGES * self.geometry.page_size
        log = self._read(self.geometry.page_size, size).ljust(size, b"\0")
        records: list[LogRecord] = []
        images: dict[int, bytes] = {}
        try:
            for record in records_of(log, self.geometry.page_size):
                leave(record, images)
                records.append(record)
        except BadLog as fault:
            self.faults.append(str(fault))
        return records, images

    def _catalog(self) -> tuple[int, int, list[Entry]]:
        page = self.page(CATALOG)
        kind, count, next_unique, last_commit = CATALOG_HEAD.unpack_from(page)
        if kind != KIND_CATALOG or CATALOG_HEAD.size + count * CATALOG_ENTRY.size > len(page):
            raise BadVolume(f"catalog: page {CATALOG} is of kind {kind} and has {count} files")
        files = []
        for place in range(count):
            at = CATALOG_HEAD.size + place * CATALOG_ENTRY.size
            length, name, level, root, number = CATALOG_ENTRY.unpack_from(page, at)
            files.append(Entry(self._name(place, name[:length], files), level, root, number))
        self.uses[CATALOG] = Use("catalog", "", CATALOG_HEAD.size + count * CATALOG_ENTRY.size)
        return next_unique, last_commit, files

    def _name(self, place: int, name: bytes, before: list[Entry]) -> str:
        """The name of an entry; where it can't be one, or stands before too, one by its place."""
        text = name.decode("latin-1")
        if NAME.fullmatch(name) and text not in (entry.name for entry in before):
            return text
        self.faults.append(f"catalog: entry {place} has the name {text!r}")
        return f"entry_{place}"

    # Files.

    def _versions_of(self, entry: Entry) -> list[Record]:
        """The versions of a file whose records can be read, in order of their numbers."""
        pages: list[int] = []
        records: list[Record] = []
        if entry.root != 0:
            self.guarded(lambda: self._index(entry, entry.root, entry.level, pages))
        for page in pages:
            self.guarded(lambda page=page: self._file_page(entry, page, records))
        return sorted(records, key=lambda record: record.unique)

    def _objects(self) -> list[list[Record]]:
        """The objects, file by file, each its versions in order of their numbers."""
        objects = []
        for records in self.versions.values():
            links = Links(records)
            self.faults.extend(links.faults())
            objects.extend(links.objects())
        return objects

    def _index(self, entry: Entry, page: int, level: int, pages: list[int]) -> None:
        """Gathers the pages of a file below a page of its index."""
        if not self.geometry.has_page(page) or page in self.uses:
            raise BadVolume(f"file: {entry.name} names page {page}, which can't be its own")
        if level == 0:
            self.uses[page] = Use("file page", entry.name, 0)
            pages.append(page)
            return
        image = self.page(page)
        kind, there, count, number = INDEX_HEAD.unpack_from(image)
        size = INDEX_HEAD.size + count * INDEX_ENTRY.size
        if (kind, there, number) != (KIND_INDEX, level, entry.number) or size > len(image):
            raise BadVolume(f"file: page {page} isn't of level {level} of {entry.name}'s index")
        self.uses[page] = Use("index", entry.name, size)
        for _, child in INDEX_ENTRY.iter_unpack(image[INDEX_HEAD.size:size]):
            self.guarded(lambda child=child: self._index(entry, child, level - 1, pages))

    def _file_page(self, entry: Entry, page: int, records: list[Record]) -> None:
        """Gathers the records of a page of a file."""
        image = self.page(page)
        kind, count, number = FILE_PAGE_HEAD.unpack_from(image)
        used = FILE_PAGE_HEAD.size + count * SLOT.size
        if (kind, number) != (KIND_FILE_PAGE, entry.number) or used > len(image):
            raise BadVolume(f"page: {page} is no page of file {entry.name}")
        for slot in range(count):
            offset, length = SLOT.unpack_from(image, len(image) - SLOT.size * (slot + 1))
            if offset != 0:
                body = image[offset:offset + length]
                used += length
                self.guarded(lambda slot=slot, body=body:
                             records.append(record_of(page, slot, body)))
        self.uses[page] = Use("file page", entry.name, used)

    # Trees.

    def node(self, record: Record, page: int, level: int, size: int) -> tuple[list[Pair], int]:
        """The pairs of a node of this level and size, and the bytes of its page that it fills."""
        image = self.home(page) if self.geometry.has_page(page) else bytes(NODE_HEAD.size)
        kind, there, count = NODE_HEAD.unpack_from(image)
        pair_of = PAIRS.get(kind)
        if pair_of is None or there != level or not 1 <= count <= 2 * self.geometry.fan + 1:
            raise BadVolume(f"node: page {page} of {record.oid} is no node of level {level}")
        end = NODE_HEAD.size + count * pair_of.size
        pairs = [Pair(*pair) for pair in pair_of.iter_unpack(image[NODE_HEAD.size:end])]
        counts = [0, *(pair.count for pair in pairs)]
        if end > len(image) or any(low >= high for low, high in zip(counts, counts[1:])):
            raise BadVolume(f"node: page {page} of {record.oid} has counts that don't rise")
        if counts[-1] != size:
            raise BadVolume(f"balance: page {page} of {record.oid} has {counts[-1]} bytes, "
                            f"not {size}")
        return pairs, end

    def leaves(self, record: Record, fault: Callable[[BadVolume, int, int], None],
               seen: Callable[[int, Use], bool] = lambda page, use: True) -> Iterator[Leaf]:
        """The leaves of a large version, from left to right.

        `fault` is told of each fault with the range of positions that it hides, and `seen` of each
        page and unit with its use; where it answers false, what lies below is left out.
        """
        todo = [(0, record.root, record.height or 0, record.size)] if record.root else []
        while todo:
            position, page, level, size = todo.pop()
            try:
                if level == 0:
                    self._test_leaf(record, page, size)
                    if seen(page, Use("leaf", record.oid, size)):
                        yield Leaf(position, page, size)
                    continue
                pairs, used = self.node(record, page, level, size)
            except BadVolume as found:
                fault(found, position, position + size)
                continue
            if seen(page, Use("node", record.oid, used)):
                starts = [0, *(pair.count for pair in pairs)]
                todo.extend((position + start, pair.page, level - 1, pair.count - start)
                            for start, pair in reversed(list(zip(starts, pairs))))

    def _test_leaf(self, record: Record, page: int, size: int) -> None:
        if not self.geometry.has_unit(page) or not 0 < size <= self.geometry.unit:
            raise BadVolume(f"node: {record.oid} names leaf {page} of {size} bytes")
        if page * self.geometry.page_size + size > self.disk_bytes:
            raise BadVolume(f"super: leaf {page} of {record.oid} lies behind the end of the file")

    def walk(self) -> Volume:
        """Notes the use of each page and unit of all trees, and the faults of their nodes."""
        for versions in self.objects:
            for record in versions:
                for _ in self.leaves(record, self._note_fault, self._note_for(versions[0].oid)):
                    pass
        return self

    def _note_fault(self, fault: BadVolume, *_: int) -> None:
        self.faults.append(str(fault))

    def _note_for(self, owner: str) -> Callable[[int, Use], bool]:
        """Notes uses for an object, which its least version's identifier names.

        What is noted already isn't walked again: its versions may share it, and another
        object's is a fault.
        """
        def note(page: int, use: Use) -> bool:
            own = use._replace(owner=owner)
            there = self.uses.setdefault(page, own)
            if there.owner != owner:
                self.faults.append(
                    f"node: {use.owner} names {page}, a {there.kind} of {there.owner}")
            return there is own
        return note

    # Versions.

    def all(self) -> list[Record]:
        """All versions whose records can be read, file by file."""
        return [record for records in self.versions.values() for record in records]

    def find(self, oid: str) -> Record:
        """The version of an identifier."""
        for record in self.all():
            if record.oid == oid:
                return record
        raise NoVersion(f"no version has the identifier or the name {oid}")

    def pieces(self, record: Record) -> Iterator[bytes]:
        """The bytes of a version, a piece at a time. A fault in its tree is raised."""
        if record.height is None:
            yield record.data
        for leaf in self.leaves(record, raised):
            yield self._read(leaf.page * self.geometry.page_size, leaf.length)

    def is_whole(self, record: Record) -> bool:
        """Whether each byte of a version can be read."""
        faults: list[BadVolume] = []
        seen: set[int] = set()

        def is_new(page: int, _: Use) -> bool:
            return not (page in seen or seen.add(page))
        for _ in self.leaves(record, lambda fault, *_: faults.append(fault), is_new):
            pass
        return not faults

    def bytes_of(self, record: Record) -> bytes:
        """The bytes of a version. A fault in its tree is raised."""
        return b"".join(self.pieces(record))

    def save(self, record: Record, path: str) -> list[tuple[int, int]]:
        """Writes what can be read of a version to a file, and gives the ranges that can't be."""
        missing: list[tuple[int, int]] = []
        with open(path, "wb") as out:
            out.write(record.data)
            for leaf in self.leaves(record, lambda _, *bounds: missing.append(bounds)):
                out.seek(leaf.position)
                out.write(self._read(leaf.page * self.geometry.page_size, leaf.length))
            out.truncate(record.size)
        return missing


def raised(fault: BadVolume, *_: int) -> None:
    """Raises a fault of a tree."""
    raise fault
