"""Versions of objects as trees: what lines on them are answered, what they keep, and what a stop
leaves."""
from __future__ import annotations

import os
import random
import subprocess
from pathlib import Path
from shutil import which
from typing import Callable, Optional

from exsm.client import Store
from exsm.log import SLOT
from exsm.records import Record
from exsm.volume import Volume
from fuzzing.versions import Trees, Version, number_of
from tests.support import BASE, SECONDS, OfRows, processor_seconds

SEED = 17
TRANSACTIONS = 150
LINES_MOST = 9
OLDER_SLOT = 15
STATE_AND_LINKS = (1, *range(10, 22))
MANY = 1000
WIDE = 100
SLOWER_MOST = 40
TICK = 1 / os.sysconf("SC_CLK_TCK")
"""The least time of a processor that can be told."""
BRANCHES = (
    "begin\nfreeze @x as @v\nderive @v as @y\nreplace @y 0 hex:42\nversions @x\ndrop @v\ndestroy "
    "@x\n"
            "versions @y\ndestroy @y\nderive @y as @z\ndrop @v\ncommit\nspace\nlist a\n")

# Scripts that begin with BASE, and what their lines behind it are answered.
AFTER_BASE = {
    "a frozen version keeps its bytes, and shares what it has in common": (
        "begin\nfreeze @x as @v\nspace\nreplace @x 600 hex:42\nspace\nread @x 600 1\nread @v 600 "
        "1\n"
        "append @v hex:00\ncommit\nbegin\ndrop @x\ndestroy @x\ndrop @v\nspace\ncommit\nspace\n",
        ["ok begin 2", "ok freeze 258.1.2", "ok space pages 3 of 64 segs 2 of 16",
         "ok replace 1000",
         "ok space pages 4 of 64 segs 3 of 16", "ok read 1 42", "ok read 1 61", "no 12 frozen",
         "ok commit 2",
         "ok begin 3", "no 13 current", "no 15 has_versions", "ok drop 258.1.2",
         "ok space pages 4 of 64 segs 3 of 16", "ok commit 3",
         "ok space pages 3 of 64 segs 2 of 16"]),
    "each version stands before what is derived from it": (
        "begin\nfreeze @x as @v\nreplace @x 0 hex:41\nfreeze @x as @w\nreplace @x 0 hex:42\n"
        "commit\nversions @v\nspace\n"
        "begin\ndrop @w\ncommit\nversions @x\nspace\nread @v 0 1\nread @x 0 1\n",
        ["ok begin 2", "ok freeze 258.1.2", "ok replace 1000", "ok freeze 258.2.3",
         "ok replace 1000", "ok commit 2",
         "ok versions 3 258.1.2 258.2.3 258.0.1", "ok space pages 5 of 64 segs 4 of 16",
         "ok begin 3",
         "ok drop 258.2.3", "ok commit 3", "ok versions 2 258.1.2 258.0.1",
         "ok space pages 4 of 64 segs 3 of 16",
         "ok read 1 61", "ok read 1 42"]),
    "two branches, of which the first one ends": (
        BRANCHES,
        ["ok begin 2", "ok freeze 258.1.2", "ok derive 258.2.3", "ok replace 1000",
         "ok versions 3 258.1.2 258.0.1 258.2.3", "no 24 branches 2", "ok destroy 258.0.1",
         "ok versions 2 258.1.2 258.2.3", "no 15 has_versions", "no 13 current", "ok drop 258.1.2",
         "ok commit 2",
         "ok space pages 3 of 64 segs 2 of 16", "ok list 1 258.2.3"]),
    "neither freeze nor derive takes a unit of the segment area or a node": (
        "space\nbegin\nfreeze @x as @v\nderive @v as @y\nfreeze @y as @w\nderive @w as @z\ncommit\n"
        "space\n",
        ["ok space pages 3 of 64 segs 2 of 16", "ok begin 2", "ok freeze 258.1.2",
         "ok derive 258.2.3",
         "ok freeze 258.3.4", "ok derive 258.4.5", "ok commit 2",
         "ok space pages 3 of 64 segs 2 of 16"]),
    "an abort takes versions, their names and their numbers back": (
        "begin\nfreeze @x as @v\nderive @v as @y\nreplace @x 0 hex:42\nabort\nread @v 0 1\n"
        "versions @x\nread @x 0 1\n"
        "space\nbegin\nfreeze @x as @v\n",
        ["ok begin 2", "ok freeze 258.1.2", "ok derive 258.2.3", "ok replace 1000", "ok abort",
         "no 6 no_name",
         "ok versions 1 258.0.1", "ok read 1 61", "ok space pages 3 of 64 segs 2 of 16",
         "ok begin 2",
         "ok freeze 258.1.2"]),
    "two objects have versions of their own": (
        "begin\ncreate a as @o\nappend @o hex:6f\nfreeze @o as @p\nfreeze @x as @v\nderive @v as "
        "@y\n"
        "versions @o\nversions @y\nunfile a\ndestroy @o\ndestroy @x\ndrop @v\nversions @y\nlist "
        "a\n",
        ["ok begin 2", "ok create 258.1.2", "ok append 1", "ok freeze 258.2.3", "ok freeze 258.3.4",
         "ok derive 258.4.5", "ok versions 2 258.2.3 258.1.2",
         "ok versions 3 258.3.4 258.0.1 258.4.5",
         "no 14 not_empty", "no 15 has_versions", "ok destroy 258.0.1", "ok drop 258.3.4",
         "ok versions 1 258.4.5",
         "ok list 2 258.1.2 258.4.5"]),
    "a scan of a frozen version outlives the version": (
        "begin\nfreeze @x as @v\nreplace @x 0 rep:1000:42\nscan @v as s\ndrop @v\ncommit\nspace\n"
        "next s 2\nclose s\n"
        "space\n",
        ["ok begin 2", "ok freeze 258.1.2", "ok replace 1000", "ok scan s 1000", "ok drop 258.1.2",
         "ok commit 2",
         "ok space pages 4 of 64 segs 4 of 16", "ok next 2 6161", "ok close s",
         "ok space pages 3 of 64 segs 2 of 16"]),
    "of the refusals that apply the one with the least number comes": (
        "freeze @q as @x\nderive 258.0.9 as @x\ndrop @q\nversions @q\nversions 258.0.9\nbegin\n"
        "freeze @q as @x\n"
        "freeze 258.0.9 as @x\nfreeze 258.0.9 as @v\nfreeze @x as @v\nfreeze @v as @v\nfreeze @v "
        "as @w\n"
        "derive @q as @x\nderive 258.0.9 as @v\nderive @x as @v\nderive @x as @w\ndrop 258.0.9\n"
        "drop @x\n"
        "derive @v as @y\ndestroy @v\ndrop @v\ninsert @v 2000 hex:61\nreplace @v 2000 hex:61\n"
        "delete @v 2000 1\n"
        "append @v rep:1:61\nsize @v\nfreeze @x\nderive @x as y\nversions\ndrop @x @v\n",
        ["no 4 no_txn", "no 4 no_txn", "no 4 no_txn", "no 6 no_name", "no 11 no_object",
         "ok begin 2", "no 6 no_name",
         "no 7 name_taken", "no 11 no_object", "ok freeze 258.1.2", "no 7 name_taken",
         "no 12 frozen", "no 6 no_name",
         "no 7 name_taken", "no 7 name_taken", "no 13 current", "no 11 no_object", "no 13 current",
         "ok derive 258.2.3", "no 12 frozen", "no 24 branches 2", "no 12 frozen", "no 12 frozen",
         "no 12 frozen",
         "no 12 frozen", "ok size 1000", "no 2 syntax", "no 2 syntax", "no 2 syntax",
         "no 2 syntax"]),
}

STOP = r"""
#define _GNU_SOURCE
#include <dlfcn.h>
#include <signal.h>
#include <stdlib.h>
#include <sys/types.h>
#include <unistd.h>

/* Ends the process at the call of that number that writes or syncs, before the call or after it. */
static long calls;

static void stop(int after)
{
    const char *at = getenv("STOP_AT"), *then = getenv("STOP_AFTER");
    if (at && atol(at) == calls && (then != 0) == after) kill(getpid(), SIGKILL);
}

#define STOPPED(type, name, parameters, arguments)                      \
    type name parameters                                                \
    {                                                                   \
        type (*real) parameters = dlsym(RTLD_NEXT, #name), result;      \
        calls++;                                                        \
        stop(0);                                                        \
        result = real arguments;                                        \
        stop(1);                                                        \
        return result;                                                  \
    }

STOPPED(ssize_t, pwrite, (int f, const void *b, size_t n, off_t p), (f, b, n, p))
STOPPED(ssize_t, pwrite64, (int f, const void *b, size_t n, off_t p), (f, b, n, p))
STOPPED(ssize_t, write, (int f, const void *b, size_t n), (f, b, n))
STOPPED(int, fdatasync, (int f), (f))
STOPPED(int, fsync, (int f), (f))
"""


class Random:
    """Random lines of a run on the versions of a file, each held against the trees of the model."""

    WORDS = ("create", "freeze", "freeze", "derive", "derive", "drop", "destroy", "insert",
             "replace", "append")

    def __init__(self, test: Versions, chance: random.Random, store: Store) -> None:
        self.test, self.chance, self.store, self.names = test, chance, store, 0

    def send(self, line: str) -> str:
        """A line's reply."""
        return self.store.exchange(line.encode()) or ""

    def line(self, trees: Trees) -> None:
        """A line, done to the trees too where it is accepted, and refused where they refuse it."""
        self.names += 1
        word = self.chance.choice(self.WORDS)
        if word == "create" or not trees.all:
            oid = self.send(f"create a as @n{self.names}").removeprefix("ok create ")
            trees.all[number_of(oid)] = Version(oid, False, None, b"")
            return
        number = self.chance.choice(sorted(trees.all))
        refusal = trees.refusal(word, number)
        reply, done = self.of(word, trees, number)
        if refusal is not None:
            self.test.assertEqual(reply, refusal)
        else:
            self.test.assertRegex(reply, f"^ok {word} ")
            done(reply.split()[-1])

    def of(self, word: str, trees: Trees, number: int) -> tuple[str, Callable[[str], None]]:
        """The reply to a line on a version, and what the line does to the trees with the reply's
        last word."""
        oid, data = trees.all[number].oid, trees.all[number].data
        if word == "freeze":
            return self.send(f"freeze {oid} as @n{self.names}"), lambda copy: trees.freeze(number,
                                                                                           copy)
        if word == "derive":
            return self.send(f"derive {oid} as @n{self.names}"), lambda copy: trees.derive(number,
                                                                                           copy)
        if word in ("drop", "destroy"):
            return self.send(f"{word} {oid}"), lambda _: trees.remove(number)
        new = self.chance.randbytes(self.chance.choice((1, 30, 400, 1500)))
        place = len(data) if word == "append" else self.chance.randrange(len(data) + 1)
        if word == "replace":
            new = new[:len(data) - place]
        at = "" if word == "append" else f" {place}"
        after = data[:place] + new + data[place + (len(new) if word == "replace" else 0):]
        return self.send(f"{word} {oid}{at} hex:{new.hex()}"), lambda _: trees.edit(number, after)

    def compare(self, trees: Trees) -> None:
        """Compares all that the run tells of the versions with the trees."""
        self.test.assertEqual(self.store.list("a"), trees.current())
        for number, version in trees.all.items():
            self.test.assertEqual(self.store.read(version.oid), version.data)
            self.test.assertEqual(self.store.versions(version.oid), trees.listed(number))


class Versions(OfRows):
    def test_rows(self) -> None:
        """versions: scripts and their replies"""
        self.check_rows(AFTER_BASE)

    def test_random_trees(self) -> None:
        """versions: random lines, committed and aborted, beside a model and the reader"""
        chance = random.Random(SEED)
        self.format(pages=4000, segs=6000)
        with Store("v") as store:
            with store.transaction():
                store.file("a")
        trees = Trees()
        for _ in range(TRANSACTIONS):
            with Store("v") as store:
                run, after = Random(self, chance, store), Trees(trees.all)
                run.send("begin")
                for _ in range(chance.randrange(1, LINES_MOST)):
                    run.line(after)
                run.compare(after)
                kept = chance.randrange(4) > 0
                run.send("commit" if kept else "abort")
                trees = after if kept else trees
                run.compare(trees)
                space = store.space()
            self.read_back(trees, space.pages, space.segs)
        self.assertGreater(len(trees.all), 10)
        self.assertGreater(max(len(trees.listed(number)) for number in trees.all), 5)

    def read_back(self, trees: Trees, pages: int, segs: int) -> None:
        """Compares what the reader finds with the trees and with the units that the run told."""
        with Volume("v") as volume:
            uses = volume.walk().uses
            self.assertEqual(volume.faults, [])
            self.assertEqual({record.oid: volume.bytes_of(record) for record in volume.all()},
                             {version.oid: version.data for version in trees.all.values()})
            self.assertEqual([sorted(record.unique for record in versions)
                              for versions in volume.objects],
                             self.objects_of(trees))
            self.assertEqual([self.older_of(volume, record) for record in volume.all()],
                             [trees.all[number].older for number in sorted(trees.all)])
            units = [page >= volume.geometry.first_unit for page in uses]
            self.assertEqual((units.count(False), units.count(True)), (pages, segs))

    @staticmethod
    def objects_of(trees: Trees) -> list[list[int]]:
        """The numbers of each object's versions, objects in order of their least one."""
        return sorted(sorted(map(number_of, trees.listed(first))) for first in trees.derived(None))

    @staticmethod
    def older_of(volume: Volume, record: Record) -> Optional[int]:
        """The number of the version that a record's older place names."""
        return next((other.unique for other in volume.all() if other.place == record.older), None)

    def test_a_thousand(self) -> None:
        """versions: a thousand of one object, listed and dropped in time that grows with them"""
        self.format(pages=4000, segs=600)
        taken = {}
        for many in (MANY // 10, MANY):
            began = processor_seconds()
            with Store("v") as store:
                with store.transaction():
                    store.file(f"f{many}")
                    oid = store.create(f"f{many}")
                    store.append(oid, bytes(3000))
                frozen = []
                for start in range(0, many, 500):
                    with store.transaction():
                        frozen += [store.freeze(oid) for _ in range(start, min(start + 500, many))]
                self.assertEqual(store.versions(oid), [*frozen, oid])
                self.assertEqual(store.read(frozen[many // 2]), bytes(3000))
                for start in range(0, many, 25):
                    with store.transaction():
                        for version in frozen[start:start + 25]:
                            store.drop(version)
                self.assertEqual(store.versions(oid), [oid])
            taken[many] = processor_seconds() - began
        self.assertLess(taken[MANY], SLOWER_MOST * max(taken[MANY // 10], TICK))

    def test_wide_and_deep(self) -> None:
        """versions: a hundred derived from one, and a chain of as many, taken out in any order"""
        chance = random.Random(SEED)
        self.format(pages=4000, segs=600)
        with Store("v") as store:
            with store.transaction():
                store.file("a")
                trunk = store.create("a")
                store.append(trunk, b"trunk")
                base = store.freeze(trunk)
                wide = [store.derive(base) for _ in range(WIDE)]
                for oid in wide:
                    store.append(oid, oid.encode())
            self.assertEqual(store.versions(wide[7]), [base, trunk, *wide])
            tip, chain = trunk, []
            with store.transaction():
                for _ in range(WIDE):
                    chain.append(store.freeze(tip))
                    tip = store.derive(chain[-1])
            self.assertEqual(len(store.versions(tip)), 2 + 3 * WIDE)
            chance.shuffle(wide)
            with store.transaction():
                for oid in wide:
                    store.destroy(oid)
            self.assertEqual(store.read(tip), b"trunk")
            self.assertEqual(len(store.list("a")), 1 + WIDE)
        with Volume("v") as volume:
            self.assertEqual(volume.walk().faults, [])

    def test_links(self) -> None:
        """versions: of each flipped bit of state and links program and reader say the same"""
        self.small()
        self.replies(
            BASE + "begin\nfreeze @x as @v\nderive @v as @y\nfreeze @y as @w\ncreate a as @o\n"
                     "freeze @o as @p\ncommit\ncheckpoint\n")
        with Volume("v") as volume:
            places, size = [record.place for record in volume.all()], volume.geometry.page_size
            image = volume.home(places[0].page)
        whole = 0
        for _, slot in places:
            begin = places[0].page * size + SLOT.unpack_from(image,
                                                             size - SLOT.size * (slot + 1))[0]
            for at, bit in ((at, bit) for at in STATE_AND_LINKS for bit in range(8)):
                self.flip(begin + at, bit)
                with Volume("v") as volume:
                    faults = volume.walk().faults
                ran = self.exsm("check", "v")
                self.assertEqual(ran.status, 6 if faults else 0, f"{slot} {at} {bit}: {faults}")
                if faults:
                    self.assertEqual(ran.errors[-1], "exsm: status 6 bad volume body")
                whole += not faults
                self.flip(begin + at, bit)
        self.assertEqual((whole, self.exsm("check", "v").status), (0, 0))

    def test_a_link_that_lies(self) -> None:
        """versions: a link that is written over under an open run is told as damage"""
        self.small()
        self.replies(BASE + "begin\nfreeze @x as @v\nderive @v as @y\ncommit\ncheckpoint\n")
        with Volume("v") as volume:
            size, image = volume.geometry.page_size, volume.home(258)
        begin = 258 * size + SLOT.unpack_from(image, size - SLOT.size)[0]
        with subprocess.Popen([os.environ["EXSM"], "run", "v"], stdin=subprocess.PIPE,
                              stdout=subprocess.PIPE,
                              stderr=subprocess.PIPE) as run:
            run.stdin.write(b"log\n")
            run.stdin.flush()
            told = run.stdout.readline()
            with open("v", "r+b") as file:
                file.seek(begin + OLDER_SLOT)
                file.write(bytes([7]))
            out, errors = run.communicate(b"destroy 258.0.1\nbegin\ndestroy 258.0.1\n",
                                          timeout=SECONDS)
        self.assertEqual((told, out), (b"ok log 0\n", b"no 4 no_txn\nok begin 3\n"))
        self.assertEqual(run.returncode, 8)
        self.assertEqual(errors.decode().splitlines()[-2:],
                         [
                             "exsm: page 258: wanted kind 4, level 0, total 7; found kind 0, level "
                             "0, total 0",
                          "exsm: status 8 damaged"])

    @staticmethod
    def flip(place: int, bit: int) -> None:
        """Flips a bit of the volume."""
        with open("v", "r+b") as file:
            file.seek(place)
            byte = file.read(1)[0]
            file.seek(place)
            file.write(bytes([byte ^ 1 << bit]))

    def test_stops(self) -> None:
        """versions: a run with two branches, ended before and after each call that writes"""
        compiler = which("cc") or which("clang") or which("gcc")
        if compiler is None:
            self.skipTest("there is no C compiler here")
        Path("stop.c").write_text(STOP, encoding="ascii")
        made = self.run_words(compiler, "-shared", "-fPIC", "-O1", "-o", "stop.so", "stop.c")
        self.assertEqual((made.status, made.errors), (0, []))
        script, wanted = BASE + BRANCHES, ["ok list 1 258.0.1", "ok list 1 258.2.3"]
        call, ended = 0, -1
        while ended != 0:
            call += 1
            for after in (False, True):
                self.small()
                ended, sent = self.stopped(script, call, after)
                told = self.exsm("run", "v", given=b"list a\n").lines
                allowed = wanted[
                    1:] if "ok commit 2" in sent else wanted if "ok commit 1" in sent else \
                    ["no 8 no_file", *wanted]
                self.assertIn(told[0], allowed, f"call {call}")
                with Volume("v") as volume:
                    self.assertEqual(volume.walk().faults, [])
                os.remove("v")
        self.assertGreater(call, 30)

    @staticmethod
    def stopped(script: str, call: int, after: bool) -> tuple[int, list[str]]:
        """Runs a script up to a call, and gives the status and the whole replies that were sent."""
        variables = {**os.environ, "LD_PRELOAD": "./stop.so", "STOP_AT": str(call)}
        if after:
            variables["STOP_AFTER"] = "1"
        run = subprocess.run([os.environ["EXSM"], "run", "v"], input=script.encode(),
                             capture_output=True,
                             env=variables, timeout=SECONDS, check=False)
        return run.returncode, run.stdout.decode().split("\n")[:-1]
