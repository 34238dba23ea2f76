"""Packs, against what is reckoned from the volume's bytes: places, what stays, and what lacks."""
from __future__ import annotations

import json
import os
import random
import re
import shutil
from typing import Iterator

from exsm.volume import Volume
from tests.packs import Packer, Trees, is_dense
from tests.support import BASE, OfRows

HIGH = (BASE + "begin\ncreate a as @y\nappend @y rep:1000:62\ncommit\n"
        "begin\ndestroy @x\ncommit\n")
SIZES = ((512, 400, 600, 1, 2), (512, 600, 500, 3, 5), (1024, 500, 300, 2, 3),
         (4096, 300, 400, 1, 9))


def script_of(seed: int, unit: int) -> Iterator[str]:
    """Lines that make objects and versions of random sizes in three files, and remove some."""
    draw, names = random.Random(seed), 0
    live: list[str] = []
    yield from ("begin", "file a", "file b", "file c", "commit")
    for _ in range(12):
        yield "begin"
        for _ in range(draw.randrange(1, 9)):
            kind = draw.randrange(10)
            name = draw.choice(live) if live else ""
            if kind < 3 or not live:
                names += 1
                live.append(f"@x{names}")
                yield f"create {draw.choice('abc')} as @x{names}"
                yield f"append @x{names} rep:{draw.randrange(1, 12 * unit)}:{names % 250:02x}"
            elif kind < 5:
                names += 1
                live.append(f"@x{names}")
                yield f"{draw.choice(('freeze', 'derive'))} {name} as @x{names}"
            elif kind < 8:
                yield f"insert {name} {draw.randrange(unit)} rep:{draw.randrange(1, unit)}:ee"
            elif kind == 8:
                yield f"drop {name}"
            else:
                yield f"destroy {name}"
        yield "commit"
    for name in live[:len(live) // 2]:
        yield from ("begin", f"drop {name}", f"destroy {name}", "commit")


class PacksTest(OfRows):
    """Packs of volumes, by their bytes before and after."""

    def setUp(self) -> None:
        super().setUp()
        self.small()
        if self.exsm("pack", "v").status == 2:
            self.skipTest("the program has no `pack`")
        os.remove("v")

    def told(self, name: str) -> str:
        """What a pack of a volume tells: its line, or the status with the numbers that it says."""
        ran = self.exsm("pack", name)
        if ran.status == 0:
            self.assertEqual(ran.errors, [])
            return ran.out.decode().removesuffix("\n")
        self.assertEqual((ran.out, ran.errors[-1]), (b"", f"exsm: status {ran.status} no pages"))
        need, free = re.findall(r"needs (\d+) .* has (\d+);", ran.errors[0])[0]
        return f"{ran.status} no pages need {need} free {free}"

    def pack(self) -> Packer:
        """Packs the volume v, and compares what comes of it with what is reckoned."""
        self.assertEqual(self.exsm("check", "v").status, 0)
        shutil.copyfile("v", "before")
        stream = self.exsm("dump", "before").out
        with Volume("before") as volume:
            wanted = Packer(volume).pack()
        self.assertEqual(self.told("v"), wanted.line)
        with Volume("v") as volume, Volume("before") as before:
            self.assertEqual(volume.walk().faults, [])
            self.assertEqual(volume.records, [])
            trees = Trees.of(volume)
            self.assertEqual(trees.roots, wanted.trees.roots)
            self.assertEqual(trees.reached(), wanted.trees.reached())
            for page, node in trees.nodes.items():
                self.assertEqual(node, wanted.trees.nodes[page])
            for leaf in trees.reached()[1]:
                self.assertEqual(unit_of(volume, leaf),
                                 unit_of(before, wanted.came_from.get(leaf, leaf)))
            if not wanted.lack:
                self.assertTrue(is_dense(volume))
        self.assertEqual(self.exsm("dump", "v").out, stream)
        return wanted

    def pack_again(self, packer: Packer) -> None:
        """A volume that was packed is packed again, and stays byte for byte."""
        shutil.copyfile("v", "packed")
        self.assertEqual(self.told("v"), f"ok pack moved 0 segs {packer.segs}")
        with open("v", "rb") as now, open("packed", "rb") as was:
            self.assertEqual(now.read(), was.read())

    def test_row(self) -> None:
        """the leaves of an object and its node, once a lower object is gone"""
        self.small()
        self.replies(HIGH)
        packer = self.pack()
        self.assertEqual((packer.line, packer.installs), ("ok pack moved 2 segs 2", 1))
        self.assertEqual(packer.trees.roots, {"258.1.2": (1, 259)})
        self.pack_again(packer)

    def test_map(self) -> None:
        """the map tells how much a pack would move, and of a packed volume where its use ends"""
        self.small()
        self.replies(HIGH)
        for told, high, end in (("2 high", 2, 166_400),
                                ("packed, nothing from byte 165,376 on", 0, 165_376)):
            line = next(it for it in self.tool("exsm_map", "v").lines if "segment area" in it)
            self.assertTrue(line.endswith(f"% filled, {told}"), line)
            use = json.loads(self.tool("exsm_map", "v", "--json").out)
            self.assertEqual((use["high_units"], use["end_of_use"]), (high, end))
            self.pack()

    def test_random(self) -> None:
        """after random scripts: where each node and leaf lies, what it holds, and the same dump"""
        moved = 0
        for seed in range(24):
            page_size, pages, segs, seg_len, fan = SIZES[seed % len(SIZES)]
            with self.subTest(seed):
                self.format("v", page_size, pages, segs, seg_len, fan)
                lines = script_of(seed, page_size * seg_len)
                ran = self.exsm("run", "v", given="".join(f"{it}\n" for it in lines).encode())
                self.assertEqual(ran.status, 0, ran.errors)
                packer = self.pack()
                moved += packer.moved
                self.pack_again(packer)
            os.remove("v")
        self.assertGreater(moved, 100)

    def test_lacks(self) -> None:
        """with pages filled up by small objects, to each number: the object that lacks pages is
        told, and those before it are moved"""
        lines = ["begin", "file 0", "create 0 as @z", "append @z rep:15000:61", "commit",
                 "begin", "file a", "create a as @x", "append @x rep:1000:62", "file b",
                 "create b as @y", "append @y rep:12000:63"]
        for number in range(1, 9):
            lines += [f"freeze @y as @y{number}", f"replace @y {1400 * number} hex:{number:02x}"]
        lines += ["file c", "create c as @w", "append @w rep:2000:64", "commit",
                  "begin", "destroy @z", "commit"]
        told = set()
        for fill in range(50, 66):
            with self.subTest(fill):
                self.format("v", pages=100, segs=200, fan=2)
                self.replies("".join(f"{line}\n" for line in lines))
                self.replies("begin\nfile d\n" + "".join(
                    f"create d as @f{number}\nappend @f{number} rep:468:00\n"
                    for number in range(fill)) + "commit\n")
                told.add(self.pack().line)
            os.remove("v")
        self.assertGreater(sum("no pages" in line for line in told), 2)
        self.assertGreater(sum("moved" in line for line in told), 0)


def unit_of(volume: Volume, leaf: int) -> bytes:
    """All bytes of a unit."""
    sizes = volume.geometry
    return b"".join(volume.home(leaf + at) for at in range(sizes.seg_len))
