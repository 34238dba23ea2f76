"""What two versions of an object don't share, by their leaves: a leaf of both is read of
neither."""
from __future__ import annotations

from bisect import bisect_left, bisect_right
from typing import Iterator, NamedTuple

from exsm.records import Record
from exsm.volume import Leaf, Volume, raised

TRIMMED_MOST = 16 << 20
"""Bytes of a range that are compared, to leave out those that are alike at its ends."""


class Change(NamedTuple):
    """Bytes of one version, from `start` to `end`, in whose place another has its own."""

    start: int
    end: int
    new_start: int
    new_end: int


class Body:
    """The bytes of a version, to be read at any place."""

    def __init__(self, volume: Volume, record: Record) -> None:
        self.volume, self.record, self.size = volume, record, record.size
        self.leaves = list(volume.leaves(record, raised))
        self._starts = [leaf.position for leaf in self.leaves]

    def pieces(self, start: int, end: int) -> Iterator[bytes]:
        """The bytes from a position to another, a leaf's at a time."""
        if self.record.height is None:
            yield self.record.data[start:end]
            return
        for place in range(bisect_right(self._starts, start) - 1, len(self.leaves)):
            leaf = self.leaves[place]
            if leaf.position >= end:
                return
            yield self._leaf(leaf)[max(0, start - leaf.position):end - leaf.position]

    def _leaf(self, leaf: Leaf) -> bytes:
        geometry = self.volume.geometry
        pages = range(leaf.page, leaf.page + -(-leaf.length // geometry.page_size))
        return b"".join(map(self.volume.home, pages))[:leaf.length]

    def between(self, start: int, end: int) -> bytes:
        """The bytes from a position to another."""
        return b"".join(self.pieces(start, end))


def pairs_of(old: list[Leaf], new: list[Leaf]) -> list[tuple[int, int]]:
    """The leaves of both that stand in the same order in both: their places, as many as may be.

    A leaf that one version names more than once isn't among them.
    """
    once_old, once_new = places_of(old), places_of(new)
    found = [(place, once_new[key]) for key, place in once_old.items()
             if place >= 0 and once_new.get(key, -1) >= 0]
    found.sort()
    return rising(found)


def places_of(leaves: list[Leaf]) -> dict[tuple[int, int], int]:
    """The place of each leaf by its page and length; -1 where there are more."""
    places: dict[tuple[int, int], int] = {}
    for place, leaf in enumerate(leaves):
        key = leaf.page, leaf.length
        places[key] = -1 if key in places else place
    return places


def rising(pairs: list[tuple[int, int]]) -> list[tuple[int, int]]:
    """A longest part of pairs, which rise in their first numbers, that rises in the second too."""
    ends: list[int] = []                           # of parts of each length the least last number
    last: list[int] = []                           # and which pair that is
    before: list[int] = []
    for place, (_, number) in enumerate(pairs):
        length = bisect_left(ends, number)
        before.append(last[length - 1] if length else -1)
        ends[length:length + 1], last[length:length + 1] = [number], [place]
    chosen: list[tuple[int, int]] = []
    place = last[-1] if last else -1
    while place >= 0:
        chosen.append(pairs[place])
        place = before[place]
    return chosen[::-1]


def gaps(old: Body, new: Body) -> Iterator[Change]:
    """The ranges between leaves that both versions have, from left to right."""
    at = new_at = 0
    for place, new_place in pairs_of(old.leaves, new.leaves):
        leaf, new_leaf = old.leaves[place], new.leaves[new_place]
        if (leaf.position, new_leaf.position) != (at, new_at):
            yield Change(at, leaf.position, new_at, new_leaf.position)
        at, new_at = leaf.position + leaf.length, new_leaf.position + new_leaf.length
    if (at, new_at) != (old.size, new.size):
        yield Change(at, old.size, new_at, new.size)


def alike(first: bytes, second: bytes) -> int:
    """How many bytes are the same at the beginning of both."""
    low, high = 0, min(len(first), len(second))
    if first[:high] == second[:high]:
        return high
    while high - low > 1:                      # the first `low` are alike, the first `high` aren't
        middle = (low + high) // 2
        if first[low:middle] == second[low:middle]:
            low = middle
        else:
            high = middle
    return low


def trimmed(old: Body, new: Body, gap: Change) -> Change:
    """A range without the bytes that are alike at its ends."""
    if gap.end - gap.start + gap.new_end - gap.new_start > TRIMMED_MOST:
        return gap
    first = old.between(gap.start, gap.end)
    second = new.between(gap.new_start, gap.new_end)
    head = alike(first, second)
    tail = alike(first[head:][::-1], second[head:][::-1])
    return Change(gap.start + head, gap.end - tail, gap.new_start + head, gap.new_end - tail)


def changes(old: Body, new: Body) -> Iterator[Change]:
    """The ranges in which two versions of an object differ, from left to right."""
    for gap in gaps(old, new):
        change = trimmed(old, new, gap)
        if change.start != change.end or change.new_start != change.new_end:
            yield change
