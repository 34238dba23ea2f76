"""The whole history of a volume as one stream, read and tested without exsm.

All numbers are big-endian: the head; each leaf, its length and its bytes; each node, its level and
its pairs of a count and a child; each file, its name and its versions. Leaves and nodes are
numbered from 1 in the order in which a walk over files, versions and pairs first leaves them. Of
leaves the lengths alone are kept, so a stream may be longer than memory.
"""
from __future__ import annotations

import struct
from dataclasses import dataclass
from itertools import accumulate
from typing import BinaryIO, Callable, Iterator, NamedTuple, NoReturn, Optional, Protocol

from exsm.log import CATALOG_ENTRY, CATALOG_HEAD, FILE_PAGE_HEAD, SLOT
from exsm.opening import FAN_LEAST, NAME, PAGE_SIZES, SEG_LEN_MOST
from exsm.records import (BODY_LEAST, FORM_LARGE, FORM_SMALL, OBJECT_MOST, RECORD_HEAD,
                          STATE_CURRENT, STATE_FROZEN)
from exsm.volume import Pair

MAGIC = b"EXSMDMP1"
HEAD = struct.Struct(">8sIIIQQIIII")
LEAF_HEAD = struct.Struct(">I")
NODE_HEAD = struct.Struct(">BH")
PAIR = struct.Struct(">QI")
NAME_LENGTH = struct.Struct(">B")
VERSIONS = struct.Struct(">I")
VERSION_HEAD = struct.Struct(">QBQB")
SMALL_LENGTH = struct.Struct(">H")
LARGE = struct.Struct(">QBI")
READ_AT_ONCE = 1 << 20


class BadStream(Exception):
    """The bytes are no dump: at which of them that was seen, and why."""


class Source(Protocol):
    """Where a stream is read."""

    def read(self, count: int, /) -> bytes:
        """The next bytes, so many at most; none at the end."""


class Head(NamedTuple):
    """The numbers with which a stream begins."""

    page_size: int
    seg_len: int
    fan: int
    next_unique: int
    last: int
    files: int
    leaves: int
    nodes: int
    pages: int

    @property
    def unit(self) -> int:
        """The most bytes of a leaf."""
        return self.seg_len * self.page_size

    @property
    def files_most(self) -> int:
        """The most files for which a catalog has room."""
        return (self.page_size - CATALOG_HEAD.size) // CATALOG_ENTRY.size


class StreamNode(NamedTuple):
    """A node: its level, and its children by their numbers."""

    level: int
    pairs: list[Pair]

    @property
    def total(self) -> int:
        """The bytes below it."""
        return self.pairs[-1].count


@dataclass(frozen=True)
class StreamVersion:
    """A version. A small one has no height, and its bytes in `data`."""

    unique: int
    frozen: bool
    older: int
    size: int
    height: Optional[int] = None
    root: int = 0
    data: bytes = b""

    @property
    def record_size(self) -> int:
        """The bytes of its record on a page."""
        return RECORD_HEAD.size + max(BODY_LEAST, len(self.data))


class StreamFile(NamedTuple):
    """A file, with its versions in order of their numbers."""

    name: str
    versions: list[StreamVersion]


class Stream(NamedTuple):
    """A stream, but for the bytes of its leaves, of which it has the lengths."""

    head: Head
    leaves: list[int]
    nodes: list[StreamNode]
    files: list[StreamFile]

    def versions(self) -> Iterator[StreamVersion]:
        """All versions, file by file."""
        for file in self.files:
            yield from file.versions

    def objects(self) -> int:
        """The number of objects."""
        return sum(len(set(first_versions(file).values())) for file in self.files)

    def pieces(self, version: StreamVersion, source: BinaryIO) -> Iterator[bytes]:
        """The bytes of a version, a leaf at a time, out of the file that was read."""
        if version.height is None:
            yield version.data
            return
        starts = list(accumulate((LEAF_HEAD.size + length for length in self.leaves),
                                 initial=HEAD.size + LEAF_HEAD.size))
        todo = [(version.root, version.height, version.size)] if version.root else []
        while todo:
            number, level, size = todo.pop()
            if level == 0:
                source.seek(starts[number - 1])
                yield source.read(size)
                continue
            pairs = self.nodes[number - 1].pairs
            lows = [0, *(pair.count for pair in pairs)]
            todo.extend((pair.page, level - 1, pair.count - low)
                        for low, pair in reversed(list(zip(lows, pairs))))


def pages_filled(page_size: int, file: StreamFile) -> int:
    """How many pages the records of a file fill, each on the newest page where it fits there."""
    pages = room = 0
    for version in file.versions:
        wanted = version.record_size + SLOT.size
        if wanted > room:
            pages, room = pages + 1, page_size - FILE_PAGE_HEAD.size
        room -= wanted
    return pages


def pages_of(page_size: int, files: list[StreamFile]) -> int:
    """How many pages of files and of their indexes a volume is to have room for."""
    filled = [pages_filled(page_size, file) for file in files]
    return sum(pages + pages // 16 + 4 for pages in filled)


# Reading.


class Reader:
    """Takes items from a source, and counts its bytes."""

    def __init__(self, source: Source) -> None:
        self.source, self.at = source, 0

    def bad(self, why: str) -> NoReturn:
        """Says that the stream is no dump."""
        raise BadStream(f"byte {self.at}: {why}")

    def take(self, count: int, what: str) -> bytes:
        """The next bytes, all of them."""
        taken = self.source.read(count)
        while len(taken) < count and (more := self.source.read(count - len(taken))):
            taken += more
        self.at += len(taken)
        if len(taken) < count:
            self.bad(f"the stream ends in {what}")
        return taken

    def fields(self, of: struct.Struct, what: str) -> tuple[int, ...]:
        """The next fields."""
        return of.unpack(self.take(of.size, what))

    def leaf(self, head: Head, keep: Callable[[bytes], None]) -> int:
        """The length of the next leaf, whose bytes are handed on."""
        length, = self.fields(LEAF_HEAD, "the length of a leaf")
        if not 1 <= length <= head.unit:
            self.bad(f"a leaf has {length} bytes, where 1 to {head.unit} may be")
        left = length
        while left:
            piece = self.take(min(left, READ_AT_ONCE), "a leaf")
            keep(piece)
            left -= len(piece)
        return length

    def node(self, head: Head, before: int) -> StreamNode:
        """The next node, which stands behind so many."""
        level, count = self.fields(NODE_HEAD, "a node")
        if level == 0 or not 1 <= count <= 2 * head.fan + 1:
            self.bad(f"a node has level {level} and {count} pairs")
        pairs = [Pair(*pair) for pair in PAIR.iter_unpack(self.take(count * PAIR.size, "a node"))]
        most = head.leaves if level == 1 else before
        for low, pair in zip([0, *(pair.count for pair in pairs)], pairs):
            if pair.count <= low:
                self.bad("the counts of a node don't rise")
            if not 1 <= pair.page <= most:
                self.bad(f"a node names child {pair.page}, where 1 to {most} may be")
        return StreamNode(level, pairs)

    def file(self, head: Head) -> StreamFile:
        """The next file."""
        length, = self.fields(NAME_LENGTH, "the name of a file")
        name = self.take(length, "the name of a file")
        if not NAME.fullmatch(name):
            self.bad(f"a file has the name {name!r}")
        count, = self.fields(VERSIONS, "the number of versions of a file")
        return StreamFile(name.decode("ascii"), [self.version(head) for _ in range(count)])

    def version(self, head: Head) -> StreamVersion:
        """The next version."""
        unique, state, older, form = self.fields(VERSION_HEAD, "a version")
        if state not in (STATE_CURRENT, STATE_FROZEN) or form not in (FORM_SMALL, FORM_LARGE):
            self.bad(f"a version has state {state} and form {form}")
        is_frozen = state == STATE_FROZEN
        if form == FORM_SMALL:
            length, = self.fields(SMALL_LENGTH, "a version")
            most = head.page_size - FILE_PAGE_HEAD.size - RECORD_HEAD.size - SLOT.size
            if length > most:
                self.bad(f"a small version has {length} bytes, where {most} may be")
            data = self.take(length, "a version")
            return StreamVersion(unique, is_frozen, older, length, data=data)
        size, height, root = self.fields(LARGE, "a version")
        most = head.nodes if height else head.leaves
        if root > most or (root == 0) != (size == 0) or (root == 0 and height):
            self.bad(f"a version of {size} bytes has height {height} and root {root}")
        if size > OBJECT_MOST:
            self.bad(f"a version has {size} bytes")
        return StreamVersion(unique, is_frozen, older, size, height, root)


def read_head(reader: Reader) -> Head:
    """The head of a stream, of sizes that a volume may have."""
    magic, *numbers = HEAD.unpack(reader.take(HEAD.size, "its head"))
    head = Head(*numbers)
    if magic != MAGIC:
        reader.bad("the stream doesn't begin as a dump does")
    if head.page_size not in PAGE_SIZES or not 1 <= head.seg_len <= SEG_LEN_MOST \
            or not FAN_LEAST <= head.fan <= (head.page_size - 20) // 24:
        reader.bad(f"no volume has page size {head.page_size}, seg len {head.seg_len} and fan "
                   f"{head.fan}")
    if head.next_unique == 0 or head.files > head.files_most:
        reader.bad(f"no volume has next number {head.next_unique} and {head.files} files")
    return head


def read_stream(source: Source, keep: Callable[[bytes], None] = lambda piece: None) -> Stream:
    """Reads a stream to its end, and tests it whole. The bytes of leaves are handed on."""
    reader = Reader(source)
    head = read_head(reader)
    leaves = [reader.leaf(head, keep) for _ in range(head.leaves)]
    nodes: list[StreamNode] = []
    while len(nodes) < head.nodes:
        nodes.append(reader.node(head, len(nodes)))
    stream = Stream(head, leaves, nodes, [reader.file(head) for _ in range(head.files)])
    if source.read(1):
        reader.bad("something stands behind the last file")
    for fault in faults_of(stream):
        reader.bad(fault)
    return stream


# Testing.


def faults_of(stream: Stream) -> Iterator[str]:
    """What makes a stream no dump whose items are whole, each by itself."""
    yield from faults_of_numbers(stream)
    for file in stream.files:
        yield from faults_of_links(file)
    yield from Trees(stream).faults()
    needed = pages_of(stream.head.page_size, stream.files)
    if needed != stream.head.pages:
        yield f"the head has {stream.head.pages} pages, where the files need {needed}"


def faults_of_numbers(stream: Stream) -> Iterator[str]:
    """Names and numbers that are out of order, or twice there."""
    names = [file.name for file in stream.files]
    if any(low >= high for low, high in zip(names, names[1:])):
        yield "the names of files are out of order"
    seen: set[int] = set()
    for file in stream.files:
        numbers = [version.unique for version in file.versions]
        if any(low >= high for low, high in zip(numbers, numbers[1:])):
            yield f"the versions of {file.name} are out of order"
        for number in numbers:
            if not 1 <= number < stream.head.next_unique:
                yield f"version {number} has a number outside of 1 to below the next one"
            if number in seen:
                yield f"two versions have number {number}"
            seen.add(number)


def faults_of_links(file: StreamFile) -> Iterator[str]:
    """Versions that are derived from none that they may be derived from."""
    by_number = {version.unique: version for version in file.versions}
    derived = {version.older for version in file.versions}
    for version in file.versions:
        if version.older:
            older = by_number.get(version.older)
            if older is None or not older.frozen \
                    or (version.frozen and older.unique >= version.unique):
                yield f"version {version.unique} can't be derived from {version.older}"
        if version.frozen and version.unique not in derived:
            yield f"no version is derived from {version.unique}, which is frozen"


class Trees:
    """The trees of a stream: how full they are, and that each leaf and node is of one object."""

    def __init__(self, stream: Stream) -> None:
        self.stream = stream
        self.longest = [0] * (len(stream.leaves) + 1)
        self.leaf_owner = [0] * (len(stream.leaves) + 1)
        self.node_owner = [0] * (len(stream.nodes) + 1)

    def faults(self) -> Iterator[str]:
        """What is wrong in them."""
        yield from self._nodes()
        for file in self.stream.files:
            firsts = first_versions(file)
            for version in file.versions:
                if version.height is not None and version.root:
                    yield from self._tree(version, firsts[version.unique])
        yield from self._named()

    def _nodes(self) -> Iterator[str]:
        """What each node says of its children, whose bytes are told by the parent's counts."""
        fan, unit = self.stream.head.fan, self.stream.head.unit
        for number, node in enumerate(self.stream.nodes, 1):
            for low, pair in zip([0, *(pair.count for pair in node.pairs)], node.pairs):
                size = pair.count - low
                if node.level == 1:
                    self.longest[pair.page] = max(self.longest[pair.page], size)
                    if size < -(-unit // 2):
                        yield f"node {number} names {size} bytes of leaf {pair.page}"
                    continue
                child = self.stream.nodes[pair.page - 1]
                if (child.level, child.total) != (node.level - 1, size) or len(child.pairs) < fan:
                    yield f"node {number} can't have node {pair.page} as a child"

    def _tree(self, version: StreamVersion, owner: int) -> Iterator[str]:
        """The tree of a version, whose leaves and nodes are of an object."""
        if version.height == 0:
            self.longest[version.root] = max(self.longest[version.root], version.size)
            yield from self._take(self.leaf_owner, version.root, owner, "leaf")
            return
        root = self.stream.nodes[version.root - 1]
        if (root.level, root.total) != (version.height, version.size) or len(root.pairs) < 2:
            yield f"version {version.unique} can't have node {version.root} as its root"
            return
        todo = [version.root]
        while todo:
            number = todo.pop()
            if self.node_owner[number] == owner:
                continue                           # and so is all below it
            yield from self._take(self.node_owner, number, owner, "node")
            node = self.stream.nodes[number - 1]
            if node.level > 1:
                todo.extend(pair.page for pair in node.pairs)
                continue
            for pair in node.pairs:
                yield from self._take(self.leaf_owner, pair.page, owner, "leaf")

    @staticmethod
    def _take(owners: list[int], number: int, owner: int, kind: str) -> Iterator[str]:
        """Notes that a leaf or node is of an object, which its first version's number names."""
        if owners[number] not in (0, owner):
            yield f"{kind} {number} is of two objects"
        owners[number] = owner

    def _named(self) -> Iterator[str]:
        """Leaves and nodes that no tree names, and leaves that are longer or shorter than named."""
        for number, owner in enumerate(self.node_owner):
            if number and not owner:
                yield f"no tree has node {number}"
        for number, length in enumerate(self.stream.leaves, 1):
            if not self.leaf_owner[number]:
                yield f"no tree has leaf {number}"
            elif self.longest[number] != length:
                yield f"leaf {number} has {length} bytes, and {self.longest[number]} are named"


def first_versions(file: StreamFile) -> dict[int, int]:
    """The number of the first version of each version's object."""
    by_number = {version.unique: version for version in file.versions}
    firsts: dict[int, int] = {}
    for version in file.versions:
        path, at = [version.unique], version
        while at.unique not in firsts and at.older in by_number and at.older not in path:
            at = by_number[at.older]
            path.append(at.unique)
        first = firsts.get(at.unique, at.unique)
        firsts.update((number, first) for number in path)
    return firsts
