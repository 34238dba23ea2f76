"""The independent reader and writer of streams: rows by their bytes, and what is no dump."""
from __future__ import annotations

import io
import os
from typing import Callable, Optional

from exsm.stream_making import stream_of
from exsm.streams import BadStream, Stream, read_stream
from exsm.volume import Volume
from tests.support import BASE, OfRows

HEAD = ("4558534d444d5031 {page_size:08x} {seg_len:08x} {fan:08x} {next:016x} {last:016x} "
        "{files:08x} {leaves:08x} {nodes:08x} {pages:08x}")
FREEZES = BASE + "".join(
    f"begin\nfreeze @x as @y{number}\nreplace @x 0 hex:{number}\ncommit\n" for number in (41, 42))
DERIVED = BASE + "begin\nfreeze @x as @f\nderive @f as @y\nreplace @y 0 hex:42\ncommit\n"
SMALL = ("begin\nfile a\ncreate a as @x\nappend @x rep:468:61\nfile b\ncreate b as @y\n"
         "append @y rep:600:62\ndelete @y 0 600\nfile c\ncommit\n")


def head(next_unique: int, last: int, files: int, leaves: int, nodes: int, pages: int,
         fan: int = 2) -> str:
    """The digits of a head."""
    return HEAD.format(page_size=512, seg_len=1, fan=fan, next=next_unique, last=last, files=files,
                       leaves=leaves, nodes=nodes, pages=pages)


def leaf(*parts: tuple[str, int]) -> str:
    """The digits of a leaf of bytes, each so many times."""
    length = sum(count for _, count in parts)
    return f"{length:08x}" + "".join(byte * count for byte, count in parts)


def node(level: int, *pairs: tuple[int, int]) -> str:
    """The digits of a node."""
    return f"{level:02x}{len(pairs):04x}" + "".join(f"{n:016x}{child:08x}" for n, child in pairs)


def file(name: str, count: int) -> str:
    """The digits of a file's name and number of versions."""
    return f"{len(name):02x}{name.encode().hex()}{count:08x}"


def large(unique: int, state: int, older: int, size: int, height: int, root: int) -> str:
    """The digits of a large version."""
    return f"{unique:016x}{state:02x}{older:016x}02{size:016x}{height:02x}{root:08x}"


def small(unique: int, state: int, older: int, data: str) -> str:
    """The digits of a small version."""
    return f"{unique:016x}{state:02x}{older:016x}01{len(data) // 2:04x}{data}"


def joined(*digits: str) -> bytes:
    """Bytes of digits."""
    return bytes.fromhex("".join(digits))


HALVES = node(1, (500, 1), (1000, 2))
ONE = joined(head(2, 1, 1, 2, 1, 5), leaf(("61", 500)), leaf(("61", 500)), HALVES,
             file("a", 1), large(1, 1, 0, 1000, 1, 1))


def told(stream: bytes) -> Optional[str]:
    """Why bytes are no dump, or nothing where they are one."""
    try:
        read_stream(io.BytesIO(stream))
    except BadStream as fault:
        return str(fault)
    return None


class StreamsTest(OfRows):
    """Streams of volumes, and streams by hand."""

    def stream(self, script: str) -> bytes:
        """The stream of the small volume behind a script."""
        self.small()
        self.replies(script)
        with Volume("v") as volume:
            self.assertEqual(volume.faults, [])
            return b"".join(stream_of(volume))

    def wanted(self, script: str, *digits: str) -> None:
        """The stream behind a script has these bytes, and is a dump."""
        stream = self.stream(script)
        self.assertEqual(stream.hex(), joined(*digits).hex())
        self.assertIsNone(told(stream))

    def test_object(self) -> None:
        """an object of 1,000 bytes: two leaves, a node, a file with a version"""
        self.assertEqual(len(ONE), 1124)
        self.assertEqual(self.stream(BASE), ONE)
        self.assertIsNone(told(ONE))

    def test_empty(self) -> None:
        """a volume that was just made: a head alone"""
        self.wanted("", head(1, 0, 0, 0, 0, 0))

    def test_freezes(self) -> None:
        """two freezes with a replace behind each: four leaves and three nodes for three versions"""
        self.wanted(
            FREEZES, head(4, 3, 1, 4, 3, 5),
            leaf(("42", 1), ("61", 499)), leaf(("61", 500)), leaf(("61", 500)),
            leaf(("41", 1), ("61", 499)),
            HALVES, node(1, (500, 3), (1000, 2)), node(1, (500, 4), (1000, 2)),
            file("a", 3), large(1, 1, 3, 1000, 1, 1), large(2, 2, 0, 1000, 1, 2),
            large(3, 2, 2, 1000, 1, 3))

    def test_derived(self) -> None:
        """two versions derived from one that is frozen"""
        self.wanted(
            DERIVED, head(4, 2, 1, 3, 2, 5),
            leaf(("61", 500)), leaf(("61", 500)), leaf(("42", 1), ("61", 499)),
            HALVES, node(1, (500, 3), (1000, 2)), file("a", 3),
            large(1, 1, 2, 1000, 1, 1), large(2, 2, 0, 1000, 1, 1), large(3, 1, 2, 1000, 1, 2))

    def test_small(self) -> None:
        """a small version that fills its page, an empty large one, and an empty file"""
        stream = self.stream(SMALL)
        self.assertEqual(len(stream), 589)
        self.assertEqual(stream, joined(
            head(3, 1, 3, 0, 0, 14), file("a", 1), small(1, 1, 0, "61" * 468),
            file("b", 1), large(2, 1, 0, 0, 0, 0), file("c", 0)))
        self.assertIsNone(told(stream))

    def test_same_again(self) -> None:
        """what is read is what was written, whatever the volume held"""
        self.format(pages=600, segs=600, fan=3)
        ran = self.exsm("gen", "v", "--seed", 5, "--count", 3000)
        self.assertEqual(ran.status, 0, ran.errors)
        with Volume("v") as volume:
            stream = b"".join(stream_of(volume))
            leaves: list[bytes] = []
            read: Stream = read_stream(io.BytesIO(stream), leaves.append)
            there = {version.unique for version in read.versions()}
            self.assertEqual(there, {record.unique for record in volume.all()})
            self.assertEqual(sum(map(len, leaves)), sum(read.leaves))
            for version in read.versions():
                record = next(it for it in volume.all() if it.unique == version.unique)
                told_by_stream = b"".join(read.pieces(version, io.BytesIO(stream)))
                self.assertEqual(told_by_stream, volume.bytes_of(record))

    def test_dump(self) -> None:
        """what `dump` writes is the stream that the reader of the volume's bytes makes"""
        self.small()
        if self.exsm("dump", "v").status == 2:
            self.skipTest("the program has no `dump`")
        for seed, page_size, seg_len, fan, count in (
                (1, 512, 1, 2, 2000), (2, 512, 3, 5, 2000), (3, 1024, 1, 2, 3000),
                (4, 4096, 1, 169, 3000), (5, 8192, 16, 2, 1000)):
            with self.subTest(seed):
                os.remove("v")
                self.format(page_size=page_size, pages=900, segs=900, seg_len=seg_len, fan=fan)
                ran = self.exsm("gen", "v", "--seed", seed, "--count", count)
                self.assertEqual(ran.status, 0, ran.errors)
                ran = self.exsm("dump", "v")
                self.assertEqual((ran.status, ran.errors), (0, []))
                with Volume("v") as volume:
                    self.assertEqual(ran.out, b"".join(stream_of(volume)))
                self.assertIsNone(told(ran.out))

    def test_by_hand(self) -> None:
        """streams that no volume of the program is needed for"""
        one, other = leaf(("61", 500)), leaf(("61", 256))
        def of(*items: str, leaves: int, nodes: int, files: int = 1, pages: int = 5,
               numbers: int = 2) -> bytes:
            return joined(head(numbers, 1, files, leaves, nodes, pages), *items)
        twice = of(one, node(1, (500, 1), (900, 1)), file("a", 1), large(1, 1, 0, 900, 1, 1),
                   leaves=1, nodes=1)
        self.assertIsNone(told(twice), "a leaf that is named with two lengths")
        half = of(one, other, node(1, (500, 1), (756, 2)), file("a", 1),
                  large(1, 1, 0, 756, 1, 1), leaves=2, nodes=1)
        self.assertIsNone(told(half), "a leaf that is half full")
        five = of(one, node(1, *((500 * n, 1) for n in range(1, 6))), file("a", 1),
                  large(1, 1, 0, 2500, 1, 1), leaves=1, nodes=1)
        self.assertIsNone(told(five), "a node with as many pairs as there may be")
        ten = of(*(file(name, 0) for name in "abcdefghij"), leaves=0, nodes=0, files=10, pages=40)
        self.assertIsNone(told(ten), "as many files as a catalog has room for")
        less = of(one, leaf(("61", 255)), node(1, (500, 1), (755, 2)), file("a", 1),
                  large(1, 1, 0, 755, 1, 1), leaves=2, nodes=1)
        self.assertIn("names 255 bytes of leaf 2", told(less) or "")
        six = of(one, node(1, *((500 * n, 1) for n in range(1, 7))), file("a", 1),
                 large(1, 1, 0, 3000, 1, 1), leaves=1, nodes=1)
        self.assertIn("level 1 and 6 pairs", told(six) or "")
        more = of(file("a", 1), small(1, 1, 0, "61" * 469), leaves=0, nodes=0)
        self.assertIn("469 bytes, where 468 may be", told(more) or "")
        eleven = of(*(file(name, 0) for name in "abcdefghijk"), leaves=0, nodes=0, files=11,
                    pages=44)
        self.assertIn("11 files", told(eleven) or "")

    def test_no_dump(self) -> None:
        """each change of a stream that makes it none, and why"""
        cases: dict[str, Callable[[bytearray], object]] = {
            "ends in its head": lambda s: s.__delitem__(slice(40, None)),
            "doesn't begin": lambda s: s.__setitem__(0, 0x46),
            "stands behind": lambda s: s.append(0),
            "ends in a version": lambda s: s.pop(),
            "no volume has page size 513": lambda s: s.__setitem__(11, 1),
            "no volume has next number 0": lambda s: s.__setitem__(27, 0),
            "outside of 1 to below": lambda s: s.__setitem__(27, 1),
            "head has 6 pages": lambda s: s.__setitem__(51, 6),
            "leaf has 0 bytes": lambda s: s.__setitem__(slice(52, 56), bytes(4)),
            "level 0": lambda s: s.__setitem__(1060, 0),
            "don't rise": lambda s: s.__setitem__(slice(1063, 1071), bytes(8)),
            "names child 0": lambda s: s.__setitem__(1074, 0),
            "names child 3": lambda s: s.__setitem__(1074, 3),
            "no tree has leaf 2": lambda s: s.__setitem__(1086, 1),
            "leaf 1 has 500 bytes, and 499": lambda s: s.__setitem__(1070, 0xF3),
            "the name b'A'": lambda s: s.__setitem__(1088, 0x41),
            "state 3": lambda s: s.__setitem__(1101, 3),
            "form 3": lambda s: s.__setitem__(1110, 3),
            "can't be derived from 1": lambda s: s.__setitem__(1109, 1),
            "which is frozen": lambda s: s.__setitem__(1101, 2),
            "as its root": lambda s: s.__setitem__(1118, 0xE9),
            "height 1 and root 2": lambda s: s.__setitem__(1123, 2),
        }
        for why, change in cases.items():
            with self.subTest(why):
                stream = bytearray(ONE)
                change(stream)
                self.assertIn(why, told(bytes(stream)) or "a dump")
        for cut in range(len(ONE)):
            self.assertIsNotNone(told(ONE[:cut]), f"{cut} bytes")

    def test_two_objects(self) -> None:
        """a leaf of two objects; the same of two versions of one object is none"""
        def of(older: int, state: int) -> bytes:
            return joined(head(3, 1, 1, 1, 0, 5), leaf(("61", 500)), file("a", 2),
                          large(1, state, 0, 500, 0, 1), large(2, 1, older, 500, 0, 1))
        self.assertIsNone(told(of(1, 2)))
        self.assertIn("leaf 1 is of two objects", told(of(0, 1)) or "")
