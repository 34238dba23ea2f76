"""What a pack makes of a volume, reckoned from the volume's bytes alone."""
from __future__ import annotations

from dataclasses import dataclass, field
from typing import Iterator, NamedTuple, Optional

from exsm.geometry import CATALOG
from exsm.opening import INDEX_ENTRY, INDEX_HEAD
from exsm.records import Record
from exsm.volume import Pair, Volume


class Node(NamedTuple):
    """A node of a tree: its level, and its children."""

    level: int
    pairs: tuple[Pair, ...]


@dataclass
class Trees:
    """The trees of a volume: the nodes by their pages, the root of each large version by its
    identifier, and the pages of the catalog and of files."""

    nodes: dict[int, Node] = field(default_factory=dict)
    roots: dict[str, tuple[int, int]] = field(default_factory=dict)
    others: set[int] = field(default_factory=set)
    objects: list[list[str]] = field(default_factory=list)

    @staticmethod
    def of(volume: Volume) -> Trees:
        """The trees of a volume that opens."""
        trees = Trees(others={CATALOG})
        for entry in volume.files:
            if entry.root:
                trees.others.update(file_pages(volume, entry.root, entry.level))
        for versions in volume.objects:
            large = [record for record in versions if record.root]
            trees.objects.append([record.oid for record in large])
            for record in large:
                trees.roots[record.oid] = (record.height or 0, record.root)
                trees.read(volume, record, record.root, record.height or 0, record.size)
        return trees

    def read(self, volume: Volume, record: Record, page: int, level: int, size: int) -> None:
        """Reads the nodes of a tree that weren't read yet."""
        if not level or page in self.nodes:
            return
        pairs, _ = volume.node(record, page, level, size)
        self.nodes[page] = Node(level, tuple(pairs))
        start = 0
        for pair in pairs:
            self.read(volume, record, pair.page, level - 1, pair.count - start)
            start = pair.count

    def below(self, level: int, page: int, seen: set[int]) -> Iterator[tuple[int, int]]:
        """The nodes and leaves of a tree that weren't seen: levels and pages, leaves at level 0."""
        if page in seen:
            return
        seen.add(page)
        yield level, page
        if level:
            for pair in self.nodes[page].pairs:
                yield from self.below(level - 1, pair.page, seen)

    def reached(self) -> tuple[set[int], set[int]]:
        """The pages that are in use, and the leaves."""
        pages, leaves, seen = set(self.others), set(), set()
        for height, root in self.roots.values():
            for level, page in self.below(height, root, seen):
                (pages if level else leaves).add(page)
        return pages, leaves

    def shape(self, oid: str) -> list[tuple[int, int]]:
        """The levels and pages of a version's tree, each node before what is below it."""
        return list(self.below(*self.roots[oid], set()))


def file_pages(volume: Volume, page: int, level: int) -> Iterator[int]:
    """The pages of a file: those of its index, and those with records."""
    yield page
    if level:
        image = volume.page(page)
        count = INDEX_HEAD.unpack_from(image)[2]
        for _, child in INDEX_ENTRY.iter_unpack(
                image[INDEX_HEAD.size:INDEX_HEAD.size + count * INDEX_ENTRY.size]):
            yield from file_pages(volume, child, level - 1)


class Lack(NamedTuple):
    """An object has so many nodes above high leaves, and so many pages are free."""

    need: int
    free: int


class Packer:
    """Packs the trees of a volume, in the order in which a pack is to do it."""

    def __init__(self, volume: Volume) -> None:
        self.sizes = volume.geometry
        self.trees = Trees.of(volume)
        _, leaves = self.trees.reached()
        self.segs = len(leaves)
        self.moved = sum(self.is_high(leaf) for leaf in leaves)
        self.installs = 0
        self.came_from: dict[int, int] = {}
        self.lack: Optional[Lack] = None

    def is_high(self, leaf: int) -> bool:
        """Whether a leaf isn't in one of the lowest units."""
        return (leaf - self.sizes.first_unit) // self.sizes.seg_len >= self.segs

    def pack(self) -> Packer:
        """Moves what is high, object by object, until one lacks pages."""
        for versions in self.trees.objects:
            self.lack = self.lacking(versions)
            if self.lack:
                break
            moves: dict[int, int] = {}
            for oid in versions:
                self.move(oid, moves)
        return self

    def leads(self, level: int, page: int) -> bool:
        """Whether a tree has a high leaf."""
        if not level:
            return self.is_high(page)
        return any(self.leads(level - 1, pair.page) for pair in self.trees.nodes[page].pairs)

    def lacking(self, versions: list[str]) -> Optional[Lack]:
        """What an object lacks."""
        seen: set[int] = set()
        need = sum(level > 0 and self.leads(level, page) for oid in versions
                   for level, page in self.trees.below(*self.trees.roots[oid], seen))
        free = self.sizes.pages - len(self.trees.reached()[0])
        return Lack(need, free) if need > free else None

    def move(self, oid: str, moves: dict[int, int]) -> None:
        """Moves the tree of a version, and gives up what nothing names then."""
        height, root = self.trees.roots[oid]
        pages, leaves = self.trees.reached()
        first, last, step = self.sizes.first_unit, self.segs, self.sizes.seg_len
        free_pages = iter([page for page in range(CATALOG, first) if page not in pages])
        free_units = iter([unit for unit in range(first, first + last * step, step)
                           if unit not in leaves])

        def copy(level: int, page: int) -> int:
            if page in moves or not self.leads(level, page):
                return moves.get(page, page)
            if level:
                pairs = tuple(Pair(pair.count, copy(level - 1, pair.page))
                              for pair in self.trees.nodes[page].pairs)
                moves[page] = next(free_pages)
                self.trees.nodes[moves[page]] = Node(level, pairs)
            else:
                moves[page] = next(free_units)
                self.came_from[moves[page]] = self.came_from.get(page, page)
            return moves[page]

        made = copy(height, root)
        if made != root:
            self.trees.roots[oid] = (height, made)
            self.installs += 1

    @property
    def line(self) -> str:
        """What a pack is told as."""
        if self.lack:
            return f"16 no pages need {self.lack.need} free {self.lack.free}"
        return f"ok pack moved {self.moved} segs {self.segs}"


def is_dense(volume: Volume) -> bool:
    """Whether the leaves of a volume are in the lowest units."""
    sizes = volume.geometry
    _, leaves = Trees.of(volume).reached()
    return leaves == {sizes.first_unit + at * sizes.seg_len for at in range(len(leaves))}
