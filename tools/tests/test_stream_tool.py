"""The tools that test, list, read and make streams, and those that back up and restore by them."""
from __future__ import annotations

import json
import os
import random
import subprocess
import sys
import time
from pathlib import Path

from exsm.client import Store
from exsm.restoring import TooLarge, geometry_for
from exsm.stream_making import stream_of
from exsm.streams import Head
from exsm.volume import Volume
from tests.kills import KILLS, killed
from tests.support import TOOLS, InFolder
from tests.test_streams import ONE, SMALL, file, head, joined, leaf, small

HALF = joined(head(4, 7, 2, 1, 0, 10), leaf(("62", 300)), file("a", 2),
              "0000000000000001" "02" "0000000000000000" "02" "000000000000012c" "00" "00000001",
              "0000000000000002" "01" "0000000000000001" "02" "0000000000000100" "00" "00000001",
              file("b", 1), small(3, 1, 0, "68690a"))
"""A frozen version of 300 bytes, one derived from it that has 256 of them, and a small one."""


BEING_MADE = ".exsm-new-"
"""What a volume is called while `format` makes it: one that is killed may leave it."""


class StreamToolTest(InFolder):
    """Streams that no program is needed for."""

    def setUp(self) -> None:
        super().setUp()
        Path("one").write_bytes(ONE)
        Path("half").write_bytes(HALF)
        Path("cut").write_bytes(ONE[:-1])

    def test_check(self) -> None:
        """a stream is tested, from a file or a pipe, and what it holds is told"""
        told = ("commit 1: 1 file, 1 object, 1 version, 2 leaves, 1 node; page size 512, "
                "seg len 1, fan 2")
        ran = self.tool("exsm_stream", "one", "check")
        self.assertEqual((ran.status, ran.lines, ran.errors), (0, [told], []))
        self.assertEqual(self.tool("exsm_stream", "-", "check", given=ONE).lines, [told])
        self.assertEqual(self.tool("exsm_stream", "half", "check").lines, [
            "commit 7: 2 files, 2 objects, 3 versions, 1 leaf, 0 nodes; page size 512, seg len 1, "
            "fan 2"])
        self.assertEqual(json.loads(self.tool("exsm_stream", "one", "check", "--json").out), {
            "fault": None, "page_size": 512, "seg_len": 1, "fan": 2, "next_unique": 2, "last": 1,
            "files": 1, "leaves": 2, "nodes": 1, "pages": 5, "objects": 1, "versions": 1})

    def test_no_dump(self) -> None:
        """of what is no dump it is told why, and nothing else"""
        why = "byte 1123: the stream ends in a version"
        ran = self.tool("exsm_stream", "cut", "check")
        self.assertEqual((ran.status, ran.lines, ran.errors), (1, [f"no dump: {why}"], []))
        ran = self.tool("exsm_stream", "cut", "check", "--json")
        self.assertEqual((ran.status, json.loads(ran.out)), (1, {"fault": why}))
        for words in (["list"], ["get", 1]):
            ran = self.tool("exsm_stream", "cut", *words)
            self.assertEqual((ran.status, ran.out, ran.errors),
                             (1, b"", [f"exsm_stream: cut: {why}"]))

    def test_list(self) -> None:
        """the versions of a stream are told with sizes, numbers, files and states"""
        self.assertEqual(self.tool("exsm_stream", "half", "list").lines, [
            "       300               1 a (frozen)", "       256               2 a",
            "         3               3 b"])
        self.assertEqual(json.loads(self.tool("exsm_stream", "half", "list", "--json").out), [
            {"number": 1, "size": 300, "file": "a", "frozen": True, "older": None},
            {"number": 2, "size": 256, "file": "a", "frozen": False, "older": 1},
            {"number": 3, "size": 3, "file": "b", "frozen": False, "older": None}])

    def test_get(self) -> None:
        """a version's bytes are written, small or large, and no other version's"""
        self.assertEqual(self.tool("exsm_stream", "one", "get", 1).out, b"a" * 1000)
        self.assertEqual(self.tool("exsm_stream", "half", "get", 1).out, b"b" * 300)
        self.assertEqual(self.tool("exsm_stream", "half", "get", 2).out, b"b" * 256)
        self.assertEqual(self.tool("exsm_stream", "half", "get", 3).out, b"hi\n")
        for words, error in [
                (["half", "get", 4], "half: no version has number 4"),
                (["-", "get", 1], "-: a version is read from a file alone, and not from a pipe"),
                (["nowhere", "check"], "nowhere: No such file or directory")]:
            ran = self.tool("exsm_stream", *words, given=HALF)
            self.assertEqual((ran.status, ran.out, ran.errors),
                             (1, b"", [f"exsm_stream: {error}"]))


class MadeStreamTest(InFolder):
    """Streams of volumes."""

    def setUp(self) -> None:
        super().setUp()
        self.format(pages=64, segs=16, fan=2)
        self.assertEqual(self.exsm("run", "v", given=SMALL.encode()).status, 0)
        with Volume("v") as volume:
            self.wanted = b"".join(stream_of(volume))

    def test_make(self) -> None:
        """the stream of a volume's file is made without the program, and is a dump"""
        before = Path("v").read_bytes()
        os.chmod("v", 0o444)
        ran = self.tool("exsm_stream", "made", "make", "v")
        self.assertEqual((ran.status, ran.errors), (0, []))
        self.assertEqual(ran.lines, [
            "0.0 MiB, commit 1: 3 files, 2 objects, 2 versions, 0 leaves, 0 nodes; page size 512, "
            "seg len 1, fan 2"])
        self.assertEqual(Path("made").read_bytes(), self.wanted)
        self.assertEqual(Path("v").read_bytes(), before)
        self.assertEqual(sorted(os.listdir()), ["made", "v"])

    def test_make_refused(self) -> None:
        """a name that is there, an open volume and a damaged one make no stream"""
        Path("there").write_bytes(b"precious")
        Path("hurt").write_bytes(b"?" + Path("v").read_bytes()[1:])
        for words, error in [
                (["there", "make", "v"], "there: it is there already"),
                (["made", "make", "nowhere"], "nowhere: No such file or directory")]:
            ran = self.tool("exsm_stream", *words)
            self.assertEqual((ran.status, ran.lines, ran.errors),
                             (1, [], [f"exsm_stream: {error}"]))
        ran = self.tool("exsm_stream", "made", "make", "hurt")
        self.assertEqual((ran.status, ran.lines), (1, []))
        self.assertTrue(ran.errors[0].startswith("exsm_stream: super: "), ran.errors)
        with Store("v"):
            ran = self.tool("exsm_stream", "made", "make", "v")
            self.assertEqual((ran.status, ran.errors),
                             (1, ["exsm_stream: v: another run has it open"]))
        self.assertEqual(Path("there").read_bytes(), b"precious")
        self.assertEqual(sorted(os.listdir()), ["hurt", "there", "v"])


class BackupTest(InFolder):
    """Backups of volumes by the program."""

    def setUp(self) -> None:
        super().setUp()
        self.format(page_size=4096, pages=400, segs=5000, fan=169)
        if self.exsm("dump", "v").status == 2:
            self.skipTest("the program has no `dump`")
        chance = random.Random(2)
        with Store("v") as store, store.transaction():
            store.file("a")
            for place in range(40):
                store.append(store.create("a"), chance.randbytes(place * 4_000))
        with Volume("v") as volume:
            self.wanted = b"".join(stream_of(volume))

    def test_backup(self) -> None:
        """a backup is the volume's stream, as the reader of its bytes makes it"""
        ran = self.tool("exsm_backup", "v", "b")
        self.assertEqual((ran.status, ran.errors), (0, []))
        self.assertEqual(ran.lines, [
            f"{len(self.wanted) / (1 << 20):,.1f} MiB, commit 1: 1 file, 40 objects, 40 versions, "
            f"{self.leaves():,} leaves, 38 nodes; page size 4096, seg len 1, fan 169; tested"])
        self.assertEqual(Path("b").read_bytes(), self.wanted)
        told = json.loads(self.tool("exsm_backup", "v", "c", "--json").out)
        self.assertEqual((told["bytes"], told["last"], told["fault"]), (len(self.wanted), 1, None))
        self.assertEqual(sorted(os.listdir()), ["b", "c", "v"])

    def leaves(self) -> int:
        """How many leaves the stream has."""
        return int.from_bytes(self.wanted[40:44], "big")

    def test_refused(self) -> None:
        """a name that is there, an open volume and what holds none make no backup"""
        Path("there").write_bytes(b"precious")
        Path("none").write_bytes(bytes(100_000))
        for volume, path, status, error in [
                ("v", "there", 1, "there: it is there already"),
                ("v", "nowhere/b", 1, "nowhere: No such file or directory"),
                ("none", "b", 6, "none: no volume, or a damaged one (part super); "
                 "`exsm_volume.py none save FOLDER` saves what can be read")]:
            ran = self.tool("exsm_backup", volume, path)
            self.assertEqual((ran.status, ran.lines, ran.errors),
                             (status, [], [f"exsm_backup: {error}; no backup was made"]))
        with Store("v"):
            ran = self.tool("exsm_backup", "v", "b")
            self.assertEqual(ran.status, 5)
            self.assertIn("v: another run has it open", ran.errors[0])
        self.assertEqual(Path("there").read_bytes(), b"precious")
        self.assertEqual(sorted(os.listdir()), ["none", "there", "v"])

    def test_waits(self) -> None:
        """an open volume is waited for"""
        with Store("v"):
            run = subprocess.Popen([sys.executable, str(TOOLS / "exsm_backup.py"), "v", "b",
                                    "--wait", "30"], stdout=subprocess.DEVNULL)
            time.sleep(0.5)
            self.assertIsNone(run.poll())
        self.assertEqual(run.wait(60), 0)
        self.assertEqual(Path("b").read_bytes(), self.wanted)

    def test_kills(self) -> None:
        """kills while it backs up: a backup has its name only when it is whole"""
        begun = time.monotonic()
        self.assertEqual(self.tool("exsm_backup", "v", "b").status, 0)
        taken = time.monotonic() - begun
        os.unlink("b")
        chance = random.Random(4)
        for _ in range(KILLS):
            status = killed(chance, 1.2 * taken, "exsm_backup", "v", "b")
            if os.path.exists("b"):
                self.assertEqual(Path("b").read_bytes(), self.wanted)
                os.unlink("b")
            else:
                self.assertNotEqual(status, 0)
        self.assertEqual(self.tool("exsm_backup", "v", "b").status, 0)
        self.assertEqual(sorted(os.listdir()), ["b", "v"])


class WithOtherProgram(InFolder):
    """A folder in which another program may stand in exsm's place."""

    def program(self, text: str) -> None:
        """Puts a program in exsm's place."""
        Path("program").write_text(f"#!/bin/sh\n{text}\n", encoding="ascii")
        os.chmod("program", 0o755)
        before = os.environ["EXSM"]
        os.environ["EXSM"] = str(self.folder / "program")
        self.addCleanup(os.environ.__setitem__, "EXSM", before)


class NoDumpTest(WithOtherProgram):
    """A program that has no `dump`, or writes none."""

    def test_usage(self) -> None:
        """a program without `dump` makes no backup"""
        self.program("echo exsm: status 2 usage >&2; exit 2")
        ran = self.tool("exsm_backup", "v", "b")
        self.assertEqual((ran.status, ran.lines, ran.errors), (2, [], [
            "exsm_backup: the program exsm has no `dump`: take a newer one; no backup was made"]))
        self.assertEqual(os.listdir(), ["program"])

    def test_bad(self) -> None:
        """what is no dump gets no name, though the program's status is 0"""
        self.program("printf EXSMDMP1")
        ran = self.tool("exsm_backup", "v", "b")
        self.assertEqual((ran.status, ran.lines, ran.errors), (1, [], [
            "exsm_backup: v: what the program wrote is no dump: byte 8: the stream ends in its "
            "head; no backup was made"]))
        self.assertEqual(os.listdir(), ["program"])

    def test_whole(self) -> None:
        """a dump gets its name once it was tested"""
        Path("one").write_bytes(ONE)
        self.program("[ \"$1 $2\" = 'dump v' ] && cat one")
        ran = self.tool("exsm_backup", "v", "b")
        self.assertEqual((ran.status, ran.errors), (0, []))
        self.assertTrue(ran.lines[0].endswith("fan 2; tested"))
        self.assertEqual(Path("b").read_bytes(), ONE)


class RestoreTest(WithOtherProgram):
    """Volumes made of dumps, by a program that notes how it is called, and by exsm itself."""

    def test_calls(self) -> None:
        """a volume of the sizes that a dump needs, a third of them free, is made and loaded"""
        Path("one").write_bytes(ONE)
        self.program('for word; do case "$word" in v.part*) ;; *) echo "$word" >>said; esac; done; '
                     'if [ "$1" = format ]; then echo made >"$2"; else cat - >>"$2"; fi')
        ran = self.tool("exsm_backup", "--restore", "one", "v")
        self.assertEqual((ran.status, ran.errors), (0, []))
        self.assertTrue(ran.lines[0].endswith("fan 2; loaded"), ran.lines)
        nodes, pages, leaves = (int.from_bytes(ONE[at:at + 4], "big") for at in (44, 48, 40))
        self.assertEqual(Path("said").read_text(encoding="ascii").split(), [
            "format", "--page-size", "512", "--pages", str(-(-(1 + nodes + pages) * 3 // 2)),
            "--segs", str(-(-leaves * 3 // 2)), "--seg-len", "1", "--fan", "2", "load"])
        self.assertEqual(Path("v").read_bytes(), b"made\n" + ONE)
        self.assertEqual(sorted(os.listdir()), ["one", "program", "said", "v"])

    def test_refused(self) -> None:
        """what is no dump, a name that is there and a program without `load` make no volume"""
        Path("one").write_bytes(ONE)
        Path("cut").write_bytes(ONE[:-1])
        self.program('[ "$1" = format ] && echo made >"$2" && exit 0; '
                     'echo exsm: status 2 usage >&2; exit 2')
        for path, volume, status, error in [
                ("one", "one", 1, "one: it is there already"),
                ("none", "v", 1, "none: No such file or directory"),
                ("one", "v", 2, "the program exsm has no `load`: take a newer one")]:
            ran = self.tool("exsm_backup", "--restore", path, volume)
            self.assertEqual((ran.status, ran.lines, ran.errors),
                             (status, [], [f"exsm_backup: {error}; no volume was made"]))
        ran = self.tool("exsm_backup", "--restore", "cut", "v")
        self.assertEqual((ran.status, ran.lines), (1, []))
        self.assertTrue(ran.errors[0].startswith("exsm_backup: cut: no dump: byte "), ran.errors)
        self.assertEqual(Path("one").read_bytes(), ONE)
        self.assertEqual(sorted(os.listdir()), ["cut", "one", "program"])

    def test_too_large(self) -> None:
        """a dump that needs more than a volume has is told as such"""
        head = Head(512, 1, 2, 1, 0, 0, 4_000_001, 0, 0)
        with self.assertRaisesRegex(
                TooLarge, "it needs 4,000,001 segs, and a volume has at most 4,000,000"):
            geometry_for(head)
        self.assertEqual(geometry_for(head._replace(leaves=3_000_000)).segs, 4_000_000)

    def backed_up(self) -> None:
        """Makes a volume, v, and its backup, b."""
        self.format(page_size=4096, pages=400, segs=5000, fan=169)
        if self.exsm("load", "v").status == 2:
            self.skipTest("the program has no `load`")
        with Store("v") as store, store.transaction():
            store.file("a")
            for place in range(40):
                store.append(store.create("a"), bytes([place]) * (place * 4_000))
        self.assertEqual(self.tool("exsm_backup", "v", "b").status, 0)

    def test_loaded(self) -> None:
        """what is restored has the same history: its dump is the one that it was made of"""
        self.backed_up()
        self.assertEqual(self.tool("exsm_backup", "--restore", "b", "w").status, 0)
        self.assertEqual(self.tool("exsm_backup", "w", "c").status, 0)
        self.assertEqual(Path("c").read_bytes(), Path("b").read_bytes())
        self.assertEqual(sorted(os.listdir()), ["b", "c", "v", "w"])

    def test_kills(self) -> None:
        """kills while it restores: a volume has its name only when all of the dump is there"""
        self.backed_up()
        begun = time.monotonic()
        self.assertEqual(self.tool("exsm_backup", "--restore", "b", "w").status, 0)
        taken = time.monotonic() - begun
        os.unlink("w")
        chance = random.Random(5)
        for _ in range(KILLS):
            status = killed(chance, 1.2 * taken, "exsm_backup", "--restore", "b", "w")
            if os.path.exists("w"):
                self.assertEqual(self.exsm("dump", "w").out, Path("b").read_bytes())
                os.unlink("w")
            else:
                self.assertNotEqual(status, 0)
        self.assertEqual(self.tool("exsm_backup", "--restore", "b", "w").status, 0)
        names = [name for name in os.listdir() if not name.startswith(BEING_MADE)]
        self.assertEqual(sorted(names), ["b", "v", "w"])
