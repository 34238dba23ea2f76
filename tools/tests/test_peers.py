"""The stores beside exsm: their chunk layer, and what the bench refuses."""
from __future__ import annotations

import os
import random
import subprocess
import sys
from pathlib import Path

from tests.support import TOP, InFolder, Ran

sys.path.insert(0, str(TOP / "bench"))
from timing import lines, peers, piped  # noqa: E402  (the path comes first)

STEPS = 1500
LIES = '#!/bin/sh\n"$EXSM" "$@" | sed "s/^\\(ok read [0-9]* \\)../\\1ff/"\n'
"""A program whose reads begin with another byte."""

BARE = '#!/bin/sh\nexit 1\n'
"""A compiler that finds no header."""


class Objects:
    """Objects of bytes, and lines that change them, made at random."""

    def __init__(self, chance: random.Random) -> None:
        self.chance = chance
        self.all: dict[int, bytearray] = {}
        self.made = 0

    def data(self) -> tuple[str, bytes]:
        """A word of data, and its bytes."""
        if self.chance.random() < 0.5:
            data = self.chance.randbytes(self.chance.choice((1, 90, 900, 3_900, 13_000)))
            return f"hex:{data.hex()}", data
        count, byte = self.chance.choice((1, 200, 5_000)), self.chance.randrange(256)
        return f"rep:{count}:{byte:02x}", bytes([byte]) * count

    def step(self) -> tuple[str, bytes]:
        """A line, and what it gives."""
        kind = self.chance.choice(("create", "append", "insert", "insert", "insert", "delete",
                                   "destroy", "read", "read"))
        if kind == "create" or not self.all:
            self.made += 1
            self.all[self.made] = bytearray()
            return f"create {self.made}", b""
        number = self.chance.choice(list(self.all))
        whole = self.all[number]
        place = self.chance.choice((0, len(whole) // 2, self.chance.randint(0, len(whole))))
        if kind == "destroy" and len(self.all) > 3 and len(whole) < 100_000:
            del self.all[number]
            return f"destroy {number}", b""
        if kind in ("append", "insert", "destroy"):
            word, data = self.data()
            if kind == "append":
                whole += data
                return f"append {number} {word}", b""
            whole[place:place] = data
            return f"insert {number} {place} {word}", b""
        length = self.chance.randint(0, min(len(whole) - place, 20_000))
        if kind == "delete":
            if length == 0:
                return f"read {number} 0 0", b""
            del whole[place:place + length]
            return f"delete {number} {place} {length}", b""
        return f"read {number} {place} {length}", bytes(whole[place:place + length])


class PeersTest(InFolder):
    def setUp(self) -> None:
        super().setUp()
        try:
            self.stores = peers.peers(str(self.folder))
        except peers.Missing as lacking:
            self.skipTest(str(lacking))

    def test_chunks(self) -> None:
        """random edits of objects over SQLite and LMDB give what a plain model gives"""
        for seed in range(3):
            objects = Objects(random.Random(seed))
            script, wanted = ["begin"], b""
            for number in range(STEPS):
                line, data = objects.step()
                script.append(line)
                wanted += data
                if number % 40 == 39:
                    script += ["commit", "begin"]
            script += ["commit", "list"]
            wanted += "".join(f"{number}\n" for number in sorted(objects.all)).encode()
            wanted += b"".join(bytes(objects.all[number]) for number in sorted(objects.all))
            for store in self.stores:
                made = store.made(lines.Work("", 1, [], []))
                path = store.script(script)
                told = subprocess.run([store.program, made, "tell", path], check=True,
                                      capture_output=True).stdout
                self.assertEqual(told, wanted, (store.name, seed))
                again = subprocess.run([store.program, made, "tell", store.script(["list"])],
                                       check=True, capture_output=True).stdout
                self.assertTrue(wanted.endswith(again), (store.name, seed))

    def test_one_place(self) -> None:
        """a thousand inserts at one place, which leave no room between two chunks, are whole"""
        script = ["begin", "create 1", "append 1 rep:20000:61",
                  *[f"insert 1 8000 rep:3900:{number % 256:02x}" for number in range(1000)],
                  "commit"]
        whole = b"".join(bytes([number % 256]) * 3900 for number in reversed(range(1000)))
        for store in self.stores:
            made = store.made(lines.Work("", 1, [], []))
            told = subprocess.run([store.program, made, "tell", store.script(script)], check=True,
                                  capture_output=True).stdout
            self.assertEqual(told, b"a" * 8000 + whole + b"a" * 12000)

    def test_same_work(self) -> None:
        """each work of the bench is one for exsm and the stores: the same bytes come of it"""
        program = piped.Piped(os.environ["EXSM"], str(self.folder))
        small = lines.Sizes(5, 5, 5, 50, lines.MIB)
        for work in lines.works(small):
            digests = {store.digest(store.made(work), work)
                       for store in [program, *self.stores]}
            self.assertEqual(len(digests), 1, work.name)

    def bench(self, *words: object, **variables: str) -> Ran:
        """Runs the bench."""
        ran = subprocess.run([sys.executable, str(TOP / "bench" / "peers.py"), *map(str, words)],
                             capture_output=True, check=False, timeout=600,
                             env={**os.environ, **variables})
        return Ran(ran.returncode, ran.stdout, ran.stderr)

    def program(self, name: str, text: str) -> Path:
        """A program of this text."""
        path = self.folder / name
        path.write_text(text, encoding="utf-8")
        path.chmod(0o755)
        return path

    def test_other_bytes(self) -> None:
        """no figure is told where a store gives other bytes"""
        ran = self.bench(self.program("lies", LIES), "--quick", "--runs", 1)
        self.assertEqual((ran.status, ran.lines), (1, []))
        self.assertIn("append 2 MiB, a MiB: other bytes:", ran.errors[-1])

    def test_no_headers(self) -> None:
        """where the headers of a store aren't there, the package that has them is told"""
        ran = self.bench(os.environ["EXSM"], CC=str(self.program("bare", BARE)))
        self.assertEqual((ran.status, ran.lines), (2, []))
        self.assertEqual(ran.errors, [
            "peers: sqlite3.h and lmdb.h can't be included: apt-get install libsqlite3-dev "
            "liblmdb-dev"])
