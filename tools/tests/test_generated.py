"""Tests of the generated script, beside a second writing of its rules."""
from __future__ import annotations

import hashlib
from collections.abc import Iterator

from tests.support import InFolder

HEAD = ["begin", "file gen", *(f"create gen as @g{j}" for j in range(4))]
TAIL = [*(f"digest @g{j}" for j in range(4)), "space", "commit"]
DEFAULT_BYTES = 84_938_752


class Draws:
    """The numbers that are drawn."""

    def __init__(self, seed: int) -> None:
        self.state = seed

    def next(self) -> int:
        """One of 31 bits."""
        self.state = (self.state * 6364136223846793005 + 1442695040888963407) % 2 ** 64
        return self.state >> 33


def command(index: int, draws: Draws, sizes: list[int]) -> str:
    """The line of the command of that number, where the objects have so many bytes."""
    kind, one, place, amount = draws.next() % 16, draws.next() % 4, draws.next(), draws.next()
    size, name = sizes[one], f"@g{one}"
    at, byte = place % (size + 1), f"{amount % 256:02x}"
    if kind <= 4:
        sizes[one] += amount % 3000
        return f"append {name} rep:{amount % 3000}:{byte}"
    if kind <= 8:
        sizes[one] += amount % 500
        return f"insert {name} {at} rep:{amount % 500}:{byte}"
    if kind <= 11:
        return f"replace {name} {at} rep:{min(amount % 1000, size - at)}:{byte}"
    if kind <= 13:
        gone = min(amount % 2000, size - at)
        sizes[one] -= gone
        return f"delete {name} {at} {gone}"
    if kind == 14:
        return f"freeze {name} as @v{index}"
    return f"read {name} {at} {min(amount % 200, size - at)}"


def script(seed: int, count: int) -> Iterator[str]:
    """Its lines."""
    yield from HEAD
    draws, sizes = Draws(seed), [0] * 4
    for index in range(count):
        if index > 0 and index % 100 == 0:
            yield from ("commit", "begin")
        yield command(index, draws, sizes)
    yield from TAIL


class Generated(InFolder):
    """Runs of `gen`."""

    def same_by_hand(self, seed: int, count: int, lines: int) -> None:
        """`gen` tells the same on two fresh volumes, and what a run of the lines by hand
        replies."""
        text = "".join(f"{line}\n" for line in script(seed, count))
        self.assertEqual(text.count("\n"), lines)
        first, second, hand = (f"{name}-{count}" for name in ("first", "second", "hand"))
        for name in (first, second, hand):
            self.assertEqual(self.exsm("format", name).lines, [f"ok format {DEFAULT_BYTES}"])
        replies = self.exsm("run", hand, given=text.encode())
        told = replies.lines
        accepted = sum(line.startswith("ok ") for line in told)
        digest = hashlib.sha256(replies.out).hexdigest()
        line = f"ok gen {lines} {accepted} {lines - accepted} {digest}"
        self.assertEqual((replies.status, len(told)), (0, lines))
        for name in (first, second):
            ran = self.exsm("gen", name, "--seed", seed, "--count", count)
            self.assertEqual((ran.status, ran.lines, ran.errors), (0, [line], []))
        counted = self.exsm("check", hand).lines
        self.assertEqual([self.exsm("check", name).lines for name in (first, second)],
                         [counted] * 2)

    def test_200_commands(self) -> None:
        """gen: 200 commands make 214 lines, answered as by hand, on two fresh default volumes"""
        self.same_by_hand(1, 200, 214)

    def test_2000_commands(self) -> None:
        """gen: 2,000 commands make 2,050 lines, answered as by hand, on two default volumes"""
        self.same_by_hand(7, 2000, 2050)

    def test_few_commands(self) -> None:
        """gen: one command, and one more than a transaction has"""
        self.same_by_hand(0, 1, 13)
        self.same_by_hand(2 ** 64 - 1, 101, 115)
