"""The maker of volumes."""
from __future__ import annotations

import os
import re
from pathlib import Path

from exsm.client import Refused, Store
from exsm.new import MIB, geometry_of, room_text, size_of, size_that_holds
from tests.support import InFolder

SPELLINGS = {
    "80m": 80 * MIB, "80M": 80 * MIB, "80MiB": 80 * MIB, "80mib": 80 * MIB, "80MB": 80_000_000,
    "1.5G": 3 << 29, "0.1g": (1 << 30) // 10, "2.5MB": 2_500_000, "3000k": 3000 << 10,
    "4194304": 4 << 20,
}
"""Sizes as people write them, and their bytes."""

SIZES = ("2M", "2500K", "80M", "1G", "16G", "19G", "100G", "259G")


class NewTest(InFolder):
    def test_sizes(self) -> None:
        """sizes of 2 MiB to 259 GiB make volumes that open"""
        for size in SIZES:
            with self.subTest(size):
                ran = self.tool("exsm_new", "v", size)
                numbers = geometry_of(size_of(size))
                self.assertEqual((ran.status, ran.lines), (0, [f"ok format {numbers.bytes}"]))
                told = " ".join(["exsm format v", *numbers.words()])
                self.assertEqual(ran.errors, [told, f"exsm_new: {room_text(numbers)}"])
                self.assertLessEqual(numbers.bytes, size_of(size))
                self.assertGreater(numbers.bytes, 0.99 * size_of(size))
                with Store("v") as store:
                    self.assertEqual(store.space()[1:], (numbers.pages, 0, numbers.segs))
                os.remove("v")

    def test_there_already(self) -> None:
        """a file that is there keeps its bytes"""
        Path("v").write_bytes(b"precious")
        os.symlink("nowhere", "w")
        for name in ("v", "w"):
            ran = self.tool("exsm_new", name, "80M")
            self.assertEqual((ran.status, ran.lines), (1, []))
            self.assertTrue(ran.errors[0].startswith(f"exsm_new: {name} is there already"))
        self.assertEqual(Path("v").read_bytes(), b"precious")
        self.assertFalse(os.path.exists("nowhere"))

    def test_spellings(self) -> None:
        """a size is told by parts of a number, in small letters, and by units of 1000"""
        for word, size in SPELLINGS.items():
            self.assertEqual(size_of(word), size, word)

    def test_wrong_sizes(self) -> None:
        """other sizes make nothing"""
        for size in ("1M", "260G", "0", "80X", "80BM", "1.G", ".5G", "1,5G", "-1G", "", "1T",
                     "\u0661M"):
            ran = self.tool("exsm_new", "v", size)
            self.assertEqual((ran.status, ran.lines, os.path.exists("v")), (2, [], False), size)

    def test_for(self) -> None:
        """a volume is shared out by what it is to hold"""
        for kind, least, most in (("large", 0.04, 0.051), ("mixed", 0.19, 0.201),
                                  ("small", 0.78, 0.801)):
            ran = self.tool("exsm_new", "v", "16M", "--for", kind)
            self.assertEqual(ran.status, 0, ran.errors)
            with Store("v") as store:
                _, pages, _, segs = store.space()
            self.assertTrue(least < pages / (pages + segs) < most, (kind, pages, segs))
            os.remove("v")
        self.assertEqual(self.tool("exsm_new", "v", "16M", "--for", "huge").status, 2)

    def test_room(self) -> None:
        """what a volume is told to have room for goes into it, and no more does"""
        ran = self.tool("exsm_new", "v", "8M")
        told = re.search(r"room for ([0-9.]+) MiB in large objects", ran.errors[1])
        room = int(float(told[1]) * MIB)
        with Store("v") as store:
            with store.transaction():
                store.file("a")
                store.append(store.create("a"), b"x" * (room - MIB // 10))
            with self.assertRaises(Refused), store.transaction():
                store.append(store.create("a"), b"x" * (MIB // 4))

    def test_size_that_holds(self) -> None:
        """the size that is told for some bytes makes a volume that holds them and a half as much"""
        for large, on_pages in ((0, 0), (5 * MIB, 0), (0, 5 * MIB), (1 << 30, 1 << 20),
                                (130 << 30, 1 << 30)):
            numbers = geometry_of(size_of(size_that_holds(large, on_pages)))
            self.assertGreaterEqual(numbers.segs * numbers.unit, 1.5 * large)
            self.assertGreaterEqual(numbers.pages * numbers.page_size, 1.5 * on_pages)
        self.assertIsNone(size_that_holds(200 << 30, 0))
