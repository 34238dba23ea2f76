"""The reader's check beside the program's opening: the same verdict on damaged volumes."""
from __future__ import annotations

import os
import random
import re
from collections import Counter
from typing import NamedTuple

from exsm.client import Store
from exsm.opening import Opening
from exsm.volume import Volume
from tests.support import InFolder

FLIPS = 5_000
HEAD = 40
"""Bytes of a page in which more than half of the flips fall."""

PARTS = {"super", "log", "catalog", "file", "page", "body", "node", "balance", "unique"}
BAD_VOLUME = 6


class Shape(NamedTuple):
    """A volume of the test: its sizes, and whether its log holds records."""

    page_size: int
    pages: int
    segs: int
    fan: int
    has_records: bool


SHAPES = [Shape(512, 220, 120, 2, True), Shape(512, 220, 120, 3, False),
          Shape(1024, 90, 90, 2, True)]


class OpeningTest(InFolder):
    def make(self, shape: Shape) -> None:
        """Makes a volume with an index, versions as a tree, large ones of two levels, and a gap."""
        chance = random.Random(9)
        self.format("v", shape.page_size, shape.pages, shape.segs, 1, shape.fan)
        with Store("v") as store:
            with store.transaction():
                for name in ("documents", "empty", "people"):
                    store.file(name)
                for size in (0, 7, 9_000):
                    store.append(store.create("documents"), chance.randbytes(size))
            with store.transaction():
                for _ in range(90):
                    store.append(store.create("people"), chance.randbytes(chance.randint(0, 60)))
            with store.transaction():
                for oid in store.list("documents"):
                    first = store.freeze(oid)
                    store.append(store.derive(first), b"more")
                    second = store.freeze(store.derive(first))
                    store.derive(second)
                    store.derive(second)
            if not shape.has_records:
                store.checkpoint()
                return
            with store.transaction():
                store.file("late")
                store.append(store.create("late"), b"words")
                store.unfile("empty")
                for oid in store.list("people")[3:9]:
                    store.destroy(oid)
            with store.transaction():
                store.append(store.list("people")[0], b"!")

    def places(self) -> list[tuple[int, int]]:
        """The ranges of bytes in which flips fall, of the superblock, the log and each page."""
        with Volume("v") as volume:
            size, numbers = volume.geometry.page_size, volume.geometry
            pages = [page for page in volume.walk().uses if page < numbers.first_unit]
            log = sum(record.length for record in volume.records) + 1
        return [(0, 64), (size, log), (size, min(log, HEAD)),
                *((page * size, size) for page in sorted(pages))]

    def told(self, volume: str) -> str:
        """The part that the program refuses, or nothing where it opens the volume."""
        ran = self.exsm("check", volume)
        self.assertIn(ran.status, (0, BAD_VOLUME), ran.errors)
        found = re.search(r"part (\w+)", "\n".join(ran.errors))
        return found[1] if found else ""

    def test_flips(self) -> None:
        """single flipped bits: the reader's check names the part that the program refuses"""
        chance, seen = random.Random(11), Counter()
        for shape in SHAPES:
            self.make(shape)
            places = self.places()
            with open("v", "rb") as file:
                data = bytearray(file.read())
            os.remove("v")
            for _ in range(FLIPS // len(SHAPES) + 1):
                start, length = chance.choice(places[:3] * 6 + places[3:])
                length = min(length, HEAD) if chance.random() < 0.6 else length
                place, bit = start + chance.randrange(length), 1 << chance.randrange(8)
                data[place] ^= bit
                with open("flipped", "wb") as out:
                    out.write(data)
                opening = Opening(lambda at, count: bytes(data[at:at + count]), len(data))
                part, faults = opening.first_bad()
                self.assertEqual(part, self.told("flipped"), (shape, place, bit, faults[:1]))
                data[place] ^= bit
                seen[part] += 1
        self.assertEqual(PARTS - set(seen), set())
        self.assertGreater(seen[""], FLIPS // 20)

    def test_mend(self) -> None:
        """of flips that no version reads a mended copy opens, with each byte as before"""
        self.make(SHAPES[1])
        chance = random.Random(13)
        with open("v", "rb") as file:
            data = bytearray(file.read())
        with Volume("v") as volume:
            wanted = {record.oid: volume.bytes_of(record) for record in volume.all()}
            pages = [page for page, use in volume.walk().uses.items() if use.kind != "leaf"]
        mended = 0
        for page in chance.choices(pages, k=60):
            place = page * 512 + chance.randrange(HEAD, 512)
            data[place] ^= 1
            with open("flipped", "wb") as out:
                out.write(data)
            data[place] ^= 1
            ran = self.tool("exsm_volume", "flipped", "mend", "copy")
            if ran.status == 0:
                self.assertEqual(self.told("copy"), "")
                with Volume("copy") as volume:
                    now = {record.oid: volume.bytes_of(record) for record in volume.all()}
                if self.told("flipped"):
                    self.assertEqual(now, wanted)
                    mended += 1
                os.remove("copy")
            self.assertEqual(sorted(os.listdir()), ["flipped", "v"])
        self.assertGreater(mended, 3)

    def test_mend_refused(self) -> None:
        """no copy over a file that is there, of a log with records, or of bytes that count"""
        self.make(SHAPES[0])
        ran = self.tool("exsm_volume", "v", "mend", "v")
        self.assertEqual((ran.status, ran.errors), (1, ["exsm_volume: v: v is there already"]))
        with open("v", "r+b") as file:
            file.seek(257 * 512 + 1)
            file.write(b"\1")
        self.assertEqual(self.tool("exsm_volume", "v", "mend", "copy").status, 0)
        os.remove("copy")
        with Volume("v") as volume:
            page = max(page for page, use in volume.walk().uses.items() if use.kind == "node")
        with open("v", "r+b") as file:
            file.seek(page * 512 + 500)
            file.write(b"\1")
        ran = self.tool("exsm_volume", "v", "mend", "copy")
        self.assertEqual(ran.status, 1)
        self.assertIn("the log holds ", ran.errors[0])
        self.assertIn(" save FOLDER` writes", self.tool("exsm_volume", "v", "check").lines[-1])
        self.assertFalse(os.path.exists("copy") or os.path.exists("copy.part"))

    def test_check_way_on(self) -> None:
        """the check tells what to do: mend where no version reads the bytes, else save"""
        self.make(SHAPES[1])
        with Volume("v") as volume:
            page = max(page for page, use in volume.walk().uses.items() if use.kind == "node")
            versions = len(volume.all())
        for place, way in ((page * 512 + 500, "mend COPY"), (page * 512 + 1, "save FOLDER")):
            with open("v", "r+b") as file:
                file.seek(place)
                file.write(b"\7")
            ran = self.tool("exsm_volume", "v", "check")
            self.assertEqual(ran.status, 1)
            self.assertRegex(ran.lines[0], "^node: page ")
            self.assertIn(way, ran.lines[-1])
            self.assertIn(f"{versions} versions", ran.lines[-1])
