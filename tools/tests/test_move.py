"""Moves of all objects to another volume: trees, bytes, names, what is shared."""
from __future__ import annotations

import json
import os
import random
import time
from pathlib import Path

from exsm.client import Refused, Store
from exsm.move import MAP_HEAD
from exsm.records import Links
from exsm.volume import Volume
from tests.kills import KILLS, killed
from tests.support import InFolder

SEEDS = 4
STEPS = 60


class MoveTest(InFolder):
    def fill(self, seed: int, name: str = "v") -> None:
        """Fills a volume with objects, with trees of versions and with edits."""
        chance = random.Random(seed)
        with Store(name) as store:
            with store.transaction():
                for file in ("documents", "empty", "small"):
                    store.file(file)
                for size in (0, 30, 5_000, 120_000):
                    store.append(store.create("documents"), chance.randbytes(size))
                for size in range(40):
                    store.append(store.create("small"), chance.randbytes(size))
            for _ in range(STEPS):
                with store.transaction():
                    self.change(store, chance, chance.choice(store.list("documents")))

    def change(self, store: Store, chance: random.Random, oid: str) -> None:
        """Freezes, derives, removes or edits a version."""
        try:
            what = chance.random()
            if what < 0.2:
                store.derive(store.freeze(oid))
            elif what < 0.3:
                store.freeze(oid)
            elif what < 0.35:
                store.destroy(oid)
            size = store.size(oid)
            place = chance.randint(0, size)
            store.insert(oid, place, chance.randbytes(chance.choice((0, 3, 900))))
            store.delete(oid, place // 2, min(size - place // 2, chance.choice((0, 5, 1_000))))
            store.replace(oid, 0, chance.randbytes(min(7, store.size(oid))))
        except Refused as no:
            if no.name not in ("has_versions", "no_object"):
                raise

    def shape(self, name: str) -> dict[str, list]:
        """The objects of a volume without faults, by their files: trees of bytes, state and what is
        derived."""
        with Volume(name) as volume:
            self.assertEqual(volume.walk().faults, [])
            return {file: [self.tree(volume, links, next(
                        it for it in versions if it.older not in links.at))
                    for versions in links.objects()]
                    for file, links in ((file, Links(records))
                                        for file, records in volume.versions.items())}

    def tree(self, volume: Volume, links: Links, record) -> tuple:
        """A version, and in any order those that are derived from it."""
        return (volume.bytes_of(record), record.frozen,
                sorted((self.tree(volume, links, it) for it in links.derived[record.place]),
                       key=repr))

    def space(self, name: str) -> tuple[int, int]:
        """Pages and units in use."""
        with Store(name) as store:
            told = store.space()
            return told.pages, told.segs

    def test_trees(self) -> None:
        """each tree of versions, each byte; the map names them, and what is shared stays shared"""
        for seed in range(SEEDS):
            with self.subTest(seed=seed):
                self.format("v", page_size=512, pages=2_000, segs=3_000, seg_len=2, fan=6)
                self.fill(seed)
                for target, page_size in (("same", 512), ("other", 4096)):
                    self.format(target, page_size=page_size, pages=2_000, segs=3_000,
                                seg_len=2 if page_size == 512 else 1, fan=6)
                    ran = self.tool("exsm_move", "v", target)
                    self.assertEqual((ran.status, ran.errors), (0, []))
                    self.assertEqual(self.shape(target), self.shape("v"))
                    self.check_map("v", target)
                pages, segs = self.space("v")
                new_pages, new_segs = self.space("same")
                self.assertLessEqual(new_segs, 1.1 * segs + 3)
                self.assertLessEqual(new_pages, 1.1 * pages + 3)
                for name in ("v", "same", "same.map", "other", "other.map"):
                    os.unlink(name)

    def check_map(self, old: str, new: str) -> None:
        """Compares the map with the bytes of both volumes."""
        head, *lines = Path(f"{new}.map").read_text(encoding="ascii").splitlines()
        self.assertEqual(head, MAP_HEAD)
        with Volume(old) as before, Volume(new) as after:
            rows = [line.split() for line in lines]
            self.assertEqual(sorted(row[0] for row in rows),
                             sorted(record.oid for record in before.all()))
            self.assertEqual(sorted(row[1] for row in rows),
                             sorted(record.oid for record in after.all()))
            for was, now in rows:
                self.assertEqual(before.bytes_of(before.find(was)), after.bytes_of(after.find(now)))

    def test_names(self) -> None:
        """names of files and of versions go along, and the tools go on with them"""
        self.format("v", page_size=4096, pages=100, segs=600, fan=169)
        for name in ("one", "two words"):
            Path(name).write_bytes(name.encode() * 5_000)
        self.assertEqual(self.tool("exsm_files", "v", "put", "one", "two words").status, 0)
        oid = json.loads(self.tool("exsm_files", "v", "ls", "--json").out)[1]["oid"]
        with Store("v") as store, store.transaction():
            unfit = store.create("names")
            store.destroy(unfit)
            store.freeze(oid)
            store.append(oid, b"!")
        ran = self.tool("exsm_move", "v", "new", "--size", "20M", "--json")
        told = json.loads(ran.out)
        self.assertEqual(told, {"objects": 5, "versions": 6, "names": 2, "bytes": told["bytes"],
                                "map": str(self.folder / "new.map")})
        for name, data in (("one", b"one" * 5_000), ("two words", b"two words" * 5_000 + b"!")):
            self.assertEqual(self.tool("exsm_files", "new", "get", name).out, data)
        self.assertEqual(self.tool("exsm_files", "new", "verify", "one").status, 0)
        self.assertEqual(self.tool("exsm_files", "new", "put", "one").status, 0)

    def test_many(self) -> None:
        """many objects that fill a page each, and many that share one, all go"""
        self.format("v", page_size=512, pages=2_000, segs=100, fan=6)
        with Store("v") as store:
            store.ask("begin")
            store.file("a")
            store.ask("commit")
            for start in range(0, 600, 50):
                with store.transaction():
                    for place in range(start, start + 50):
                        store.append(store.create("a"),
                                     bytes([place % 251]) * (430 if place < 400 else 3))
        self.format("new", page_size=512, pages=2_000, segs=100, fan=6)
        ran = self.tool("exsm_move", "v", "new")
        self.assertEqual((ran.status, ran.errors), (0, []))
        self.assertEqual(self.shape("new"), self.shape("v"))

    def test_refused(self) -> None:
        """what can't be the new volume is refused, and stays as it was"""
        self.format("v", page_size=512, pages=900, segs=1_500, fan=6)
        self.fill(1)
        self.format("full", page_size=512, pages=100, segs=100)
        with Store("full") as store, store.transaction():
            store.file("a")
        self.format("tiny", page_size=512, pages=300, segs=20, fan=6)
        self.format("tight", page_size=512, pages=40, segs=700, fan=6)
        self.format("open", page_size=512, pages=100, segs=100)
        Path("text").write_bytes(b"precious")
        Path("new.map").write_bytes(b"precious")
        files = {path.name: path.read_bytes() for path in self.folder.iterdir()}
        table = [(["v", "full"], 1, "full isn't empty: it has 1 files; it is as it was"),
                 (["v", "tiny"], 1, "tiny is too small: the objects have "),
                 (["v", "tight"], 1, "tight is too small: the line may need "),
                 (["v", "text"], 1, "text: super: the file doesn't begin as a volume does"),
                 (["v", "nowhere"], 1, "nowhere isn't there: make it by `exsm_new.py`, or tell "),
                 (["v", "new", "--size", "2M"], 1, f"{self.folder}/new.map is there, and no map"),
                 (["missing", "x", "--size", "2M"], 1, "missing: No such file or directory"),
                 (["v", "v"], 1, "v is the volume that is to be moved"),
                 (["v", "open"], 5, "open: another run has it open"),
                 (["open", "x", "--size", "2M"], 5, "open: another run has it open")]
        with Store("open"):
            for words, status, error in table:
                with self.subTest(words):
                    ran = self.tool("exsm_move", *words)
                    self.assertEqual((ran.status, ran.lines), (status, []), ran.errors)
                    self.assertTrue(ran.errors[0].startswith(f"exsm_move: {error}"), ran.errors)
        self.assertEqual({path.name: path.read_bytes() for path in self.folder.iterdir()}, files)

    def test_kills(self) -> None:
        """kills while it moves: the old volume is whole, the new one named once it is whole"""
        self.format("v", page_size=512, pages=2_000, segs=3_000, seg_len=2, fan=6)
        self.fill(3)
        wanted, old = self.shape("v"), Path("v").read_bytes()
        begun = time.monotonic()
        self.assertEqual(self.tool("exsm_move", "v", "new", "--size", "4M").status, 0)
        taken = time.monotonic() - begun
        chance, made = random.Random(17), 0
        for kill in range(KILLS):
            for name in ("new", "new.map"):
                Path(name).unlink(missing_ok=True)
            words = ["--size", "4M"]
            if kill % 2:
                self.format("new", page_size=1024, pages=900, segs=1_900, fan=6)
                words = []
            empty = Path("new").read_bytes() if kill % 2 else None
            status = killed(chance, 1.1 * taken, "exsm_move", "v", "new", *words)
            there = Path("new").read_bytes() if os.path.exists("new") else None
            if there == empty:
                self.assertNotEqual(status, 0)
                ran = self.tool("exsm_move", "v", "new", *words)     # begins anew
                self.assertEqual((ran.status, ran.errors), (0, []))
            else:
                made += 1
            self.assertEqual(self.shape("new"), wanted)
            self.check_map("v", "new")
            self.assertEqual(Path("v").read_bytes(), old)
            if there == empty:
                self.assertEqual(sorted(os.listdir()), ["new", "new.map", "v"])
        self.assertLess(made, KILLS)
