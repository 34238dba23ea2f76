"""Copies of volumes that no run has open."""
from __future__ import annotations

import json
import os
import random
import shutil
import subprocess
import sys
import time
from pathlib import Path

from exsm.client import Store
from exsm.volume import Volume
from tests.kills import KILLS, killed, killed_command
from tests.support import TOOLS, InFolder

OBJECTS = 40
WRITER = """
import sys
sys.path.insert(0, {tools!r})
from exsm.client import Store
with Store("v", wait=30) as store:
    one, other = store.list("a")[:2]
    with store.transaction():
        store.append(one, b"1")
        store.append(other, b"2")
    store.backup("copy")
"""


class CopyingTest(InFolder):
    def setUp(self) -> None:
        super().setUp()
        self.format(page_size=4096, pages=400, segs=5000, fan=169)
        chance = random.Random(2)
        with Store("v") as store, store.transaction():
            store.file("a")
            for place in range(OBJECTS):
                store.append(store.create("a"), chance.randbytes(place * 4_000))
        self.wanted = self.bytes_in("v")

    def bytes_in(self, name: str) -> dict[str, bytes]:
        """The bytes of all objects of a volume without faults."""
        with Volume(name) as volume:
            self.assertEqual(volume.walk().faults, [])
            return {record.oid: volume.bytes_of(record) for record in volume.all()}

    def test_copy(self) -> None:
        """a copy holds all that the volume does, and the volume stays as it is"""
        before = Path("v").read_bytes()
        ran = self.tool("exsm_copy", "v", "copy")
        self.assertEqual((ran.status, ran.errors), (0, []))
        self.assertEqual(ran.lines, [f"{len(before) / (1 << 20):,.1f} MiB, commit 1, checked"])
        self.assertEqual(self.bytes_in("copy"), self.wanted)
        told = json.loads(self.tool("exsm_copy", "v", "other", "--json").out)
        self.assertEqual(told, {"bytes": len(before), "commit": 1})
        self.assertEqual(Path("v").read_bytes(), before)
        self.assertEqual(sorted(os.listdir()), ["copy", "other", "v"])

    def test_refused(self) -> None:
        """a name that is there, an open volume and what holds none are refused, and make nothing"""
        Path("there").write_bytes(b"precious")
        os.symlink("nowhere", "link")
        shutil.copy("v", "cut")
        os.truncate("cut", 100_000)
        table = [("v", "there", 1, "there: it is there already"),
                 ("v", "link", 1, "link: it is there already"),
                 ("v", "nowhere/copy", 1, "nowhere: No such file or directory"),
                 ("missing", "copy", 1, "missing: No such file or directory"),
                 ("cut", "copy", 6, "cut: no volume, or a damaged one (part super); "
                  "`exsm_volume.py cut save FOLDER` saves what can be read; no copy was made")]
        names = sorted(os.listdir())
        for volume, copy, status, error in table:
            ran = self.tool("exsm_copy", volume, copy)
            self.assertEqual((ran.status, ran.lines, ran.errors),
                             (status, [], [f"exsm_copy: {error}"]))
        with Store("v"):
            ran = self.tool("exsm_copy", "v", "copy")
            self.assertEqual((ran.status, ran.errors), (5, [
                "exsm_copy: v: another run has it open; in that program: store.backup('copy'); "
                "at a server: --socket SOCKET"]))
        self.assertEqual(sorted(os.listdir()), names)
        self.assertEqual(Path("there").read_bytes(), b"precious")

    def test_device(self) -> None:
        """a volume on a block device is copied to a file"""
        if shutil.which("losetup") is None:
            self.skipTest("losetup isn't there for a loop device")
        shutil.copy("v", "disk")
        ran = self.run_words("losetup", "-f", "--show", "disk")
        if ran.status:
            self.skipTest("this user may make no loop device")
        self.addCleanup(subprocess.run, ["losetup", "-d", ran.lines[0]], check=True)
        self.assertEqual(self.tool("exsm_copy", ran.lines[0], "copy").status, 0)
        self.assertEqual(self.bytes_in("copy"), self.wanted)
        self.assertEqual(self.tool("exsm_copy", "/dev/null", "other").errors,
                         ["exsm_copy: /dev/null: it is neither a file nor a block device"])

    def test_backup_kills(self) -> None:
        """kills while a program commits and backs up: the copy is whole, and of one commit"""
        command = [sys.executable, "-c", WRITER.format(tools=str(TOOLS))]
        begun = time.monotonic()
        self.assertEqual(self.run_words(*command).status, 0)
        taken = time.monotonic() - begun
        os.unlink("copy")
        chance = random.Random(23)
        first, second = list(self.wanted)[:2]
        for _ in range(KILLS):
            killed_command(chance, 1.2 * taken, command)
            if os.path.exists("copy"):
                copy = self.bytes_in("copy")
                self.assertEqual(len(copy[first]), len(copy[second]) - len(self.wanted[second]))
                os.unlink("copy")
        self.assertEqual(self.run_words(*command).status, 0)
        self.assertEqual(sorted(os.listdir()), ["copy", "v"])
        self.assertEqual(self.bytes_in("copy"), self.bytes_in("v"))

    def test_kills(self) -> None:
        """kills while it copies: a copy has its name only when it is whole, and no part stays"""
        begun = time.monotonic()
        self.assertEqual(self.tool("exsm_copy", "v", "copy").status, 0)
        taken = time.monotonic() - begun
        os.unlink("copy")
        chance, made = random.Random(4), 0
        for _ in range(KILLS):
            status = killed(chance, 1.2 * taken, "exsm_copy", "v", "copy")
            if os.path.exists("copy"):
                made += 1
                self.assertEqual(self.bytes_in("copy"), self.wanted)
                os.unlink("copy")
            else:
                self.assertNotEqual(status, 0)
            self.assertEqual(self.bytes_in("v"), self.wanted)
        self.assertLess(made, KILLS)
        self.assertEqual(self.tool("exsm_copy", "v", "copy").status, 0)
        self.assertEqual(sorted(os.listdir()), ["copy", "v"])
