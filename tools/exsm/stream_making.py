"""The stream of a volume's whole history, made of the bytes of its file without exsm."""
from __future__ import annotations

from typing import Iterator

from exsm.geometry import Geometry
from exsm.records import FORM_LARGE, FORM_SMALL, STATE_CURRENT, STATE_FROZEN, Record
from exsm.streams import (HEAD, LARGE, LEAF_HEAD, MAGIC, NAME_LENGTH, NODE_HEAD, PAIR,
                          SMALL_LENGTH, VERSION_HEAD, VERSIONS, Head, StreamFile, StreamNode,
                          StreamVersion, pages_of)
from exsm.volume import Pair, Volume


class Plan:
    """The history of a volume: its leaves and nodes in the order in which a walk leaves them."""

    def __init__(self, volume: Volume) -> None:
        self.volume = volume
        self.leaf_numbers: dict[int, int] = {}
        self.lengths: list[int] = []
        self.node_numbers: dict[int, int] = {}
        self.nodes: list[StreamNode] = []
        self.files: list[StreamFile] = []
        for entry in sorted(volume.files):
            file = StreamFile(entry.name, [])
            uniques = {record.place: record.unique for record in volume.versions[entry.name]}
            for record in volume.versions[entry.name]:
                file.versions.append(self._version(record, uniques.get(record.older, 0)))
            self.files.append(file)
        geometry: Geometry = volume.geometry
        self.head = Head(geometry.page_size, geometry.seg_len, geometry.fan, volume.next_unique,
                         volume.last_commit, len(self.files), len(self.lengths), len(self.nodes),
                         pages_of(geometry.page_size, self.files))

    def _version(self, record: Record, older: int) -> StreamVersion:
        """The version of a record. Its tree is walked, but for what was walked before."""
        if record.height is None:
            return StreamVersion(record.unique, record.frozen, older, record.size,
                                 data=record.data)
        root = self._number(record, record.root, record.height, record.size) if record.root else 0
        return StreamVersion(record.unique, record.frozen, older, record.size, record.height, root)

    def _number(self, record: Record, page: int, level: int, size: int) -> int:
        """The number of the leaf or node on a page, and of all below it."""
        if level == 0:
            number = self.leaf_numbers.setdefault(page, len(self.lengths) + 1)
            if number > len(self.lengths):
                self.lengths.append(0)
            self.lengths[number - 1] = max(self.lengths[number - 1], size)
            return number
        if page not in self.node_numbers:
            pairs, _ = self.volume.node(record, page, level, size)
            lows = [0, *(pair.count for pair in pairs)]
            named = [Pair(pair.count, self._number(record, pair.page, level - 1, pair.count - low))
                     for low, pair in zip(lows, pairs)]
            self.nodes.append(StreamNode(level, named))
            self.node_numbers[page] = len(self.nodes)
        return self.node_numbers[page]

    @property
    def leaf_bytes(self) -> int:
        """The bytes of all leaves, which are most of the stream."""
        return sum(self.lengths)

    def pieces(self) -> Iterator[bytes]:
        """The bytes of the stream, item by item."""
        yield HEAD.pack(MAGIC, *self.head)
        for page, length in zip(self.leaf_numbers, self.lengths):
            yield LEAF_HEAD.pack(length) + self._leaf(page, length)
        for node in self.nodes:
            pairs = b"".join(PAIR.pack(*pair) for pair in node.pairs)
            yield NODE_HEAD.pack(node.level, len(node.pairs)) + pairs
        for file in self.files:
            name = file.name.encode("ascii")
            yield NAME_LENGTH.pack(len(name)) + name + VERSIONS.pack(len(file.versions))
            yield from map(version_item, file.versions)

    def _leaf(self, page: int, length: int) -> bytes:
        """The bytes of a leaf."""
        pages = range(page, page + -(-length // self.head.page_size))
        return b"".join(map(self.volume.home, pages))[:length]


def version_item(version: StreamVersion) -> bytes:
    """The bytes of a version."""
    state = STATE_FROZEN if version.frozen else STATE_CURRENT
    form = FORM_SMALL if version.height is None else FORM_LARGE
    head = VERSION_HEAD.pack(version.unique, state, version.older, form)
    if version.height is None:
        return head + SMALL_LENGTH.pack(len(version.data)) + version.data
    return head + LARGE.pack(version.size, version.height, version.root)


def stream_of(volume: Volume) -> Iterator[bytes]:
    """The stream of a volume's whole history, item by item."""
    return Plan(volume).pieces()
