"""What an update needs and touches at most, as docs/RULES.md has it."""
from __future__ import annotations

from typing import NamedTuple

from exsm.geometry import Geometry

CHARGES = {"insert": 1, "append": 1, "replace": 1, "delete": 1, "create": 16, "freeze": 16,
           "derive": 16,
           "file": 2, "unfile": 2, "destroy": 16, "drop": 16}
"""Logged pages that an update touches at most."""

HEIGHTS = range(0, 65)
"""The heights that a tree may have."""


class Units(NamedTuple):
    """Units of both areas."""

    pages: int
    segs: int


def need(word: str, length: int, height: int, sizes: Geometry) -> Units:
    """What an update of a word needs at most, which gives so many bytes to a tree of a height."""
    unit, fan = sizes.unit, sizes.fan
    if word in ("insert", "append"):
        segs = length // unit + 5
        return Units(segs // fan + 4 * (height + 3), segs)
    if word == "replace":
        segs = 2 * length // unit + 3
        return Units(segs // (fan - 1) + 4 * (height + 1), segs)
    if word == "delete":
        return Units(8 * (height + 2), 4)
    return Units({"create": 16, "freeze": 16, "derive": 16, "file": 2}.get(word, 0), 0)
