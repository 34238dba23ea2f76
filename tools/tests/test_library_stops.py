"""What is left of a volume where the library for C stops at some call on its file, and its lists of
calls by themselves."""
from __future__ import annotations

import random
from pathlib import Path

from exsm.geometry import Geometry
from fuzzing.crashes import ask_image, images_of, moments_of
from fuzzing.model import Model
from fuzzing.program import reader_part, same_table, volume_of
from fuzzing.scripts import lines_of
from fuzzing.table import Table
from fuzzing.trace import written
from fuzzing.writer import Writer
from tests.library import (
    BUILT, COMMITS, FLAGS, KILLED, LAST, LATER, LAYER, LINES, NEEDS_LIBRARY, READ_ALL, SANITIZERS,
    VALGRIND, VERSION, Core, OfLibrary, fronts_of)
from tests.support import Ran

GEOMETRY = Geometry(512, 64, 64, 1, 2)
SYNC = "sync"
"""A line that the program of steps takes for a call of exsm_sync."""

MOMENTS_OF = 12
"""Sessions of random lines of which each moment is tried."""


class Stepped(OfLibrary):
    """Tests that step COMMITS on a small volume."""

    def setUp(self) -> None:
        super().setUp()
        self.format("base", pages=64, segs=64, fan=2)
        self.base = Path("base").read_bytes()
        self.model = Model(GEOMETRY, Table({}, 1), 0)

    def renew(self) -> None:
        """Makes the volume anew, as it was."""
        Path("v").write_bytes(self.base)

    def learn(self, lines: list[str], replies: list[str]) -> None:
        """Steps the model, which holds that the replies are right."""
        self.assertEqual(len(lines), len(replies))
        for line, reply in zip(lines, replies):
            self.model.step(line.encode(), reply)

    def last_of(self, image: bytes) -> int:
        """The last commit of an image, which opens and has that commit's table."""
        self.assertEqual(reader_part(image), ("", []))
        with volume_of(image) as volume:
            last, table = volume.last_commit, Table.of(volume)
        same_table(table, self.model.tables[last])
        return last

    def last_on_file(self) -> int:
        """The last commit of the volume, which the program opens, and then has that commit's
        table."""
        found = self.last_of(Path("v").read_bytes())
        ran = self.exsm("check", "v")
        told = ran.status, ran.lines[0].split()[:4]
        self.assertEqual(told, (0, ["ok", "check", "last", str(found)]))
        self.assertEqual(self.last_of(Path("v").read_bytes()), found)
        return found


@NEEDS_LIBRARY
class StopsTest(Stepped):
    """What is left of the volume where the library stops at some call on its file."""

    def steps(self, *words: object, lines: list[str] = LINES, by: tuple[object, ...] = ()) -> Ran:
        """Steps lines on the volume anew, by the program that counts the calls."""
        self.renew()
        given = "".join(f"{line}\n" for line in lines).encode()
        return self.ran(*by, self.folder / "steps", "v", *words, given=given)

    def compile_steps(self, *words: object) -> None:
        """Compiles that program over the whole library."""
        self.of_layer("steps", "steps.c", *words, core=(BUILT / "libexsm.a",))

    def counted(self, flags: int, lines: list[str] = LINES) -> tuple[int, int]:
        """How many calls on the file the lines make, and how many allocations; their replies are
        right."""
        ran = self.steps(flags, lines=lines)
        self.assertEqual((ran.status, ran.errors), (0, []))
        *replies, told = ran.lines
        self.learn([line for line in lines if line != SYNC],
                   [reply for reply in replies if reply != "synced"])
        self.assertEqual(self.last_on_file(), LAST)
        words = told.split()
        return int(words[1]), int(words[3])

    def test_kills(self) -> None:
        """killed at each call on the file: each answered commit is there, and at most one more"""
        self.compile_steps()
        count, _ = self.counted(0)
        self.assertGreater(count, 40)
        more = 0
        for outcome in ("kills", "tears"):
            for at in range(1, count + 1):
                ran = self.steps(0, outcome, at)
                self.assertEqual(ran.status, KILLED)
                answered = sum(line.startswith("ok commit ") for line in ran.lines)
                last = self.last_on_file()
                self.assertIn(last, (answered, answered + 1))
                more += last > answered
        self.assertGreater(more, 0)

    def test_later_kills(self) -> None:
        """commits that wait, killed at each call: what was synced is there, none out of order"""
        self.compile_steps()
        lines = [*COMMITS[0], *COMMITS[1], SYNC, *COMMITS[2], *COMMITS[3], *COMMITS[4], *COMMITS[5]]
        self.counted(LATER, lines)
        seen = set()
        for outcome in ("kills", "tears"):
            at = 0
            while True:
                at += 1
                ran = self.steps(LATER, outcome, at, lines=lines)
                if ran.status == 0:
                    break
                self.assertEqual(ran.status, KILLED)
                synced = 2 if "synced" in ran.lines else 0
                last = self.last_on_file()
                self.assertIn(last, range(synced, LAST + 1))
                seen.add(last)
        self.assertEqual(seen, set(range(LAST + 1)))

    def test_later_writes_nothing(self) -> None:
        """under EXSM_LATER no call is made on the file before it is asked for"""
        self.compile_steps()
        self.assertEqual(self.steps(LATER, "kills", 1, lines=LINES).lines[-1], "ok commit 5")

    def test_failed_calls(self) -> None:
        """each call on the file fails once: the reason is told, each answered commit is there"""
        self.compile_steps()
        count, _ = self.counted(0)
        for at in range(1, count + 1):
            ran = self.steps(0, "fails", at)
            *replies, fault, told = ran.lines
            self.assertEqual((fault, told.split()[:2]), ("fault 101 28", ["calls", str(at)]))
            answered = sum(line.startswith("ok commit ") for line in replies)
            self.assertIn(self.last_on_file(), (answered, answered + 1))

    def test_refused_memory(self) -> None:
        """each allocation is refused once: each answered commit is there"""
        self.compile_steps()
        _, count = self.counted(0)
        down = 0
        for at in range(1, count + 1, max(count // 150, 1)):
            ran = self.steps(0, "memory", at)
            self.assertEqual((ran.status, ran.errors), (0, []))
            replies = ran.lines[:-1]
            if replies[-1].startswith("fault "):
                self.assertEqual(replies.pop(), "fault 100 0")
                down += 1
            answered = sum(line.startswith("ok commit ") for line in replies)
            self.assertIn(self.last_on_file(), (answered, answered + 1))
        self.assertGreater(down, 50)

    def test_valgrind(self) -> None:
        """valgrind finds nothing in steps of the library, also where memory is refused"""
        self.found("valgrind")
        self.compile_steps()
        _, count = self.counted(0)
        refused = ((0, "memory", count * part // 10) for part in range(1, 10))
        for words in ((0,), (READ_ALL,), (LATER,), *refused):
            ran = self.steps(*words, by=VALGRIND)
            self.assertEqual((ran.status, ran.errors), (0, []))

    def test_sanitizers(self) -> None:
        """sanitizers of addresses and of undefined steps find nothing in steps of the library"""
        core = (*LAYER, VERSION, BUILT / "libexsm.a")
        self.of_layer("steps", "steps.c", *SANITIZERS, "-Wl,--allow-multiple-definition", core=core)
        for flags in FLAGS:
            self.counted(flags)
            self.model = Model(GEOMETRY, Table({}, 1), 0)


@NEEDS_LIBRARY
class ListTest(Stepped):
    """The lists of calls of the core by itself."""

    def test_cut_lists(self) -> None:
        """lists are cut at each place and within writes: each answered commit is there"""
        core = Core(self.base)
        replies = [core.line(line.encode()).decode().rstrip("\n") for line in LINES]
        core.close()
        self.learn(LINES, replies)
        cuts = 0
        for image, answered in fronts_of(self.base, core.calls):
            self.assertIn(self.last_of(image), (answered, answered + 1))
            cuts += 1
            if cuts % 10 == 0:
                Path("v").write_bytes(image)
                self.last_on_file()
        self.assertGreater(cuts, 60)

    def test_image_is_list(self) -> None:
        """after each line the image is what the listed calls make of the one before"""
        core, image = Core(self.base), bytearray(self.base)
        for line in LINES:
            before = len(core.calls)
            core.line(line.encode())
            image[:] = written(bytes(image), core.calls[before:])
            self.assertEqual(core.image, image)
        core.close()
        other = Core(bytes(image))
        self.assertEqual(other.line(b"files"), b"ok files 1 a\n")
        other.close()

    def test_moments(self) -> None:
        """random lines as the model: of writes since a sync any may be lost, torn or noise"""
        images = 0
        for seed in range(MOMENTS_OF):
            with self.subTest(seed=seed):
                chance = random.Random(seed)
                model = Model(GEOMETRY, Table({}, 1), 0)
                core = Core(self.base)
                for line in lines_of(chance, Writer(chance, model), 60):
                    reply = core.line(line)
                    if reply:
                        model.step(line, reply.decode("latin-1").removesuffix("\n"))
                core.close()
                for moment in moments_of(self.base, core.calls, 0):
                    for image in images_of(chance, moment):
                        ask_image(image, model.tables, moment.acknowledged)
                        images += 1
        self.assertGreater(images, 1000)
