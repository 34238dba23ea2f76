"""A volume on a block device, and on one that outlives a node."""
from __future__ import annotations

import os
import shutil
import subprocess
import sys
from pathlib import Path

from exsm.new import geometry_of, room_text
from tests.support import SECONDS, TOOLS, InFolder

SMALL = "--page-size 512 --pages 64 --segs 16 --seg-len 1 --fan 2".split()
BYTES = (257 + 64 + 16) * 512
DEVICE_BYTES = 4 << 20
FAILOVER_SECONDS = 600

SESSION = b"""begin
file a
create a as @x
append @x rep:3000:61
insert @x 1000 hex:6263
freeze @x as @f
derive @f as @d
commit
begin
delete @x 5 2000
abort
stat @x
digest @x
versions @x
read @x 998 5
bogus
space
log
checkpoint
"""


class DeviceTest(InFolder):
    """A loop device is one of its file, and a volume on it is as one in a file."""

    def setUp(self) -> None:
        super().setUp()
        if shutil.which("losetup") is None:
            self.skipTest("losetup isn't there for a loop device")
        with open("disk", "wb") as disk:
            disk.truncate(DEVICE_BYTES)
        ran = self.run_words("losetup", "-f", "--show", "disk")
        if ran.status:
            self.skipTest("this user may make no loop device")
        self.device = ran.lines[0]
        self.addCleanup(subprocess.run, ["losetup", "-d", self.device], check=True)

    def test_session(self) -> None:
        """a session on a block device is answered as one on a file, and leaves the same bytes"""
        with open("file", "wb") as file:
            file.truncate(DEVICE_BYTES)
        commands: list[tuple[list[str], bytes]] = [
            (["format", *SMALL], b""), (["run"], SESSION), (["check"], b""),
            (["gen", "--seed", "7", "--count", "400"], b""), (["run"], b"files\nspace\nlog\n"),
            (["check"], b"")]
        for (command, *options), given in commands:
            with self.subTest(command):
                ran = self.exsm(command, self.device, *options, given=given)
                same = self.exsm(command, "file", *options, given=given)
                self.assertEqual((ran.status, ran.out, ran.errors), (0, same.out, []))
                self.assertEqual(same.status, 0)
        self.assertEqual(Path(self.device).read_bytes(), Path("file").read_bytes())
        for tool, *words in (("exsm_volume", "check"), ("exsm_volume", "list"), ("exsm_map",)):
            told, same = self.tool(tool, self.device, *words), self.tool(tool, "file", *words)
            self.assertEqual((told.status, told.errors), (0, []))
            self.assertEqual(told.out.replace(self.device.encode(), b"file"), same.out)

    def test_texts(self) -> None:
        """what is refused on a device is told of a device, and nothing is written"""
        before = Path(self.device).read_bytes()
        ran = self.exsm("format", self.device, "--page-size", "512")
        need = (257 + 4096 + 16384) * 512
        text = (
            f"exsm: {self.device} has {DEVICE_BYTES} bytes, the volume needs {need}; nothing was "
            f"written. "
                "Make a smaller volume, or remove it if it is a file")
        self.assertEqual((ran.status, ran.errors), (10, [text, "exsm: status 10 too small"]))
        ran = self.exsm("run", self.device)
        text = (
            f"exsm: {self.device} holds no volume, or a damaged one: part super, the first page, "
            f"which names "
                "the sizes, or the size of the file or device. It is as it was; "
                f"exsm_volume.py {self.device} save FOLDER saves what can be read")
        self.assertEqual((ran.status, ran.errors), (6, [text, "exsm: status 6 bad volume super"]))
        self.assertEqual(Path(self.device).read_bytes(), before)
        self.assertEqual(self.exsm("format", self.device, *SMALL).status, 0)
        ran = self.exsm("format", self.device, *SMALL)
        text = (
            f"exsm: {self.device} begins as a volume does; nothing was written. To make it anew, "
            f"remove the "
                "file, or write zeros over the front of the device")
        self.assertEqual((ran.status, ran.errors), (9, [text, "exsm: status 9 already a volume"]))

    def test_made_anew(self) -> None:
        """as the text says, zeros over its front make room for a new volume"""
        self.exsm("format", self.device, *SMALL)
        self.exsm("run", self.device, given=SESSION)
        self.run_words("dd", "if=/dev/zero", f"of={self.device}", "bs=512", "count=1", "conv=fsync")
        self.assertEqual(self.exsm("format", self.device, *SMALL).lines, [f"ok format {BYTES}"])
        self.assertEqual(self.exsm("run", self.device, given=b"files\n").lines, ["ok files 0"])

    def test_one_run(self) -> None:
        """one run at a time has a device"""
        self.exsm("format", self.device, *SMALL)
        with subprocess.Popen([os.environ["EXSM"], "run", self.device], stdin=subprocess.PIPE,
                              stdout=subprocess.PIPE) as first:
            first.stdin.write(b"begin\n")
            first.stdin.flush()
            self.assertEqual(first.stdout.readline(), b"ok begin 1\n")
            for words in (["run", self.device], ["format", self.device, *SMALL]):
                ran = self.exsm(*words, given=b"files\n")
                text = f"exsm: {self.device}: another run has it open"
                self.assertEqual((ran.status, ran.lines), (5, []))
                self.assertEqual(ran.errors, [text, "exsm: status 5 disk fault"])
            first.stdin.close()
            self.assertEqual(first.wait(timeout=SECONDS), 0)

    def test_the_maker(self) -> None:
        """the maker of volumes fills a device that holds nothing, and leaves all others alone"""
        ran = self.tool("exsm_new", self.device)
        numbers = geometry_of(DEVICE_BYTES)
        self.assertEqual((ran.status, ran.lines), (0, [f"ok format {numbers.bytes}"]))
        told = " ".join(["exsm format", self.device, *numbers.words()])
        self.assertEqual(ran.errors, [told, f"exsm_new: {room_text(numbers)}"])
        before = Path(self.device).read_bytes()
        ran = self.tool("exsm_new", self.device)
        self.assertEqual((ran.status, ran.lines), (1, []))
        self.assertTrue(ran.errors[0].startswith(f"exsm_new: {self.device} holds something"),
                        ran.errors)
        self.assertEqual(Path(self.device).read_bytes(), before)

    def test_signs_at_the_end(self) -> None:
        """a device with a sign at its end holds something, and one that is too small is told"""
        self.assertEqual(self.tool("exsm_new", self.device, "16M").status, 1)
        self.assertEqual(Path(self.device).read_bytes(), bytes(DEVICE_BYTES))
        with open(self.device, "r+b") as device:
            device.seek(-1, os.SEEK_END)
            device.write(b"x")
        self.assertEqual(self.tool("exsm_new", self.device).status, 1)
        with open(self.device, "r+b") as device:
            device.seek(-1, os.SEEK_END)
            device.write(b"\0")
        self.assertEqual(self.tool("exsm_new", self.device, "2M").status, 0)

    def test_a_mounted_device(self) -> None:
        """the maker leaves a device alone that a file system has"""
        if shutil.which("mkfs.ext4") is None:
            self.skipTest("mkfs.ext4 isn't there")
        self.run_words("mkfs.ext4", "-q", self.device)
        os.mkdir("mounted")
        if self.run_words("mount", self.device, "mounted").status:
            self.skipTest("this user may mount nothing")
        self.addCleanup(subprocess.run, ["umount", str(self.folder / "mounted")], check=True)
        ran = self.tool("exsm_new", self.device)
        self.assertEqual((ran.status, ran.lines), (1, []))
        self.assertIn("Device or resource busy", ran.errors[0])


class FailoverTest(InFolder):
    def fails_over(self, *words: str) -> tuple[int, str]:
        """Runs the test of failover, where its packages are."""
        with subprocess.Popen([sys.executable, TOOLS / "test_failover", *words], text=True,
                              stdout=subprocess.PIPE, stderr=subprocess.STDOUT) as run:
            try:
                text = run.communicate(timeout=FAILOVER_SECONDS)[0]
            finally:
                run.terminate()
        if "isn't there for this user" in text:
            self.skipTest(text.removeprefix("test_failover: ").strip())
        return run.returncode, text

    def test_failover(self) -> None:
        """the second of two nodes has each answered commit; one that drops syncs is found out"""
        status, text = self.fails_over("--cuts", "4")
        self.assertEqual(status, 0, text)
        self.assertIn("4 cuts on a", text)

    def test_dropped_syncs(self) -> None:
        """with a second node that drops syncs the test of failover fails"""
        status, text = self.fails_over("--drop-syncs")
        self.assertEqual(status, 1, text)
        self.assertIn("syncs dropped", text)
