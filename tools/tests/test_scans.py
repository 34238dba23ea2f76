"""Scans and groups: what they give while the object is changed, and what they keep in use."""
from __future__ import annotations

import os
import random
import subprocess

from exsm.client import Refused, Store
from tests.support import BASE, SECONDS, OfRows

SEED = 9
SCANS = 64
STEPS = 300
# Scripts that begin with BASE, and what its lines behind it are answered.
AFTER_BASE = {
    "a scan outlives an abort, and keeps what it reaches in use": (
        "begin\ninsert @x 0 hex:41\nscan @x as s\nabort\nspace\nnext s 2\nnext s 0\nclose s\n"
        "space\nnext s 1\n",
        ["ok begin 2", "ok insert 1001", "ok scan s 1001", "ok abort",
         "ok space pages 4 of 64 segs 3 of 16", "ok next 2 4161", "ok next 0", "ok close s",
         "ok space pages 3 of 64 segs 2 of 16", "no 16 no_scan"]),
    "a scan outlives the object and a commit": (
        "scan 258.0.1 as s\nbegin\ndestroy @x\ncommit\nspace\nnext s 1\nclose s\nspace\n",
        ["ok scan s 1000", "ok begin 2", "ok destroy 258.0.1", "ok commit 2",
         "ok space pages 2 of 64 segs 2 of 16", "ok next 1 61", "ok close s",
         "ok space pages 1 of 64 segs 0 of 16"]),
    "scans of one object share its units, and the last to close frees them": (
        "scan @x as s\nscan @x as t\nbegin\ndestroy @x\ncommit\nclose s\nspace\nnext t 1000\nclose "
        "t\nspace\n",
        ["ok scan s 1000", "ok scan t 1000", "ok begin 2", "ok destroy 258.0.1", "ok commit 2",
         "ok close s", "ok space pages 2 of 64 segs 2 of 16", "ok next 1000 " + "61" * 1000,
         "ok close t", "ok space pages 1 of 64 segs 0 of 16"]),
    "a scan of a small object holds its bytes": (
        "begin\ncreate a as @y\nappend @y hex:616263\nscan @y as s\nreplace @y 0 hex:78\nnext s 2\n"
        "abort\nnext s 9\nnext s 9\n",
        ["ok begin 2", "ok create 258.1.2", "ok append 3", "ok scan s 3", "ok replace 3",
         "ok next 2 6162", "ok abort", "ok next 1 63", "ok next 0"]),
    "a checkpoint leaves scans": (
        "scan @x as s\nnext s 400\nbegin\nreplace @x 0 rep:1000:62\ncommit\ncheckpoint\nnext s "
        "600\n",
        ["ok scan s 1000", "ok next 400 " + "61" * 400, "ok begin 2", "ok replace 1000",
         "ok commit 2", "ok checkpoint", "ok next 600 " + "61" * 600]),
    "names are of one thing, and refusals stand in their order": (
        "group @x 1 lru\ngroup x 1 lru\ngroup g 0 lru\ngroup g 1025 mru\ngroup g 1 fifo\ngroup g "
        "1024 mru\n"
        "group g 1 lru\nscan @y as x\nscan 258.0.9 as x\nscan 258.0.9 as s in h\nscan @x as s in "
        "h\n"
        "scan @x as s in g\nscan @x as g\ngroup s 1 lru\nclose g\nnext x 1\nnext s 16777217\nclose "
        "s\nclose s\n"
        "scan @x as s in main\n",
        ["no 2 syntax", "no 7 name_taken", "no 2 syntax", "no 2 syntax", "no 2 syntax",
         "ok group g",
         "no 7 name_taken", "no 6 no_name", "no 7 name_taken", "no 11 no_object", "no 17 no_group",
         "ok scan s 1000", "no 7 name_taken", "no 7 name_taken", "no 16 no_scan", "no 16 no_scan",
         "no 3 data_limit", "ok close s", "no 16 no_scan", "ok scan s 1000"]),
}

# A script on an empty volume, and its replies.
REFUSALS = (
    "commit\nbegin\nbegin\ncheckpoint\nfile a\nfile a\ncreate b as @x\ncreate a as @x\ncreate a as "
    "@x\nunfile a\n"
    "scan @x as s\nscan @x as s\nscan @x as t in h\ngroup main 4 mru\nclose s\nabort\nsize @x\n"
    "checkpoint\n",
    ["no 4 no_txn", "ok begin 1", "no 5 txn_open", "no 5 txn_open", "ok file a", "no 9 file_exists",
     "no 8 no_file", "ok create 258.0.1", "no 7 name_taken", "no 14 not_empty", "ok scan s 0",
     "no 7 name_taken", "no 17 no_group", "no 7 name_taken", "ok close s", "ok abort",
     "no 6 no_name",
     "ok checkpoint"])


class Bytes:
    """An object's bytes as a user sees them, with random changes of them."""

    def __init__(self, picks: random.Random, data: bytes) -> None:
        self.picks, self.data = picks, data

    def changed(self) -> str:
        """A line that changes them, once the change is made here."""
        place = self.picks.randrange(len(self.data) + 1)
        byte, count = self.picks.randrange(256), self.picks.randrange(1, 700)
        kind = self.picks.choice(("insert", "replace", "delete"))
        if kind == "insert":
            self.data = self.data[:place] + bytes([byte]) * count + self.data[place:]
            return f"insert @x {place} rep:{count}:{byte:02x}"
        count = min(count, len(self.data) - place)
        rest = self.data[place + count:]
        if kind == "replace":
            self.data = self.data[:place] + bytes([byte]) * count + rest
            return f"replace @x {place} rep:{count}:{byte:02x}"
        self.data = self.data[:place] + rest
        return f"delete @x {place} {count}"


class Scans(OfRows):
    """What lines on scans and groups are answered."""

    def test_rows(self) -> None:
        """scripts and their replies"""
        self.check_rows(AFTER_BASE)
        self.small()
        self.assertEqual(self.replies(REFUSALS[0]), REFUSALS[1])

    def test_limits(self) -> None:
        """64 scans, and 64 groups"""
        self.small()
        names = [f"s{index}" for index in range(SCANS)]
        script = "begin\nfile a\ncreate a as @x\n"
        script += "".join(f"scan @x as {name}\n"
                          for name in [*names, "more"]) + "close s7\nscan @x as more\n"
        script += "".join(f"group g{index} 1 mru\n"
                          for index in range(SCANS)) + "group more 1 lru\ngroup h 1 lru\n"
        wanted = ["ok begin 1", "ok file a", "ok create 258.0.1",
                  *(f"ok scan {name} 0" for name in names),
                  "no 20 too_many scans", "ok close s7", "ok scan more 0",
                  *(f"ok group g{index}" for index in range(SCANS)), "no 7 name_taken",
                  "no 20 too_many groups"]
        self.assertEqual(self.replies(script), wanted)

    def test_opened_bytes(self) -> None:
        """64 scans over one object while it is changed, committed, aborted and destroyed"""
        self.format(pages=3000, segs=3000)
        picks = random.Random(SEED)
        now = Bytes(picks, b"a" * 3000)
        script, wanted = "begin\nfile a\ncreate a as @x\nappend @x rep:3000:61\ncommit\n", []
        groups = ["main", "lru", "mru"]
        script += "group lru 3 lru\ngroup mru 2 mru\n"
        opened: dict[str, list] = {}
        committed = now.data
        for step in range(STEPS):
            script += "begin\n"
            for _ in range(picks.randrange(1, 4)):
                script += now.changed() + "\n"
                if len(opened) < SCANS:
                    name = f"s{step}_{len(opened)}"
                    script += f"scan @x as {name} in {picks.choice(groups)}\n"
                    opened[name] = [now.data, 0]
                script, wanted = self.next_of(picks, opened, script, wanted)
            if picks.randrange(3):
                committed = now.data
                script += "commit\n"
            else:
                now.data = committed
                script += "abort\n"
            if picks.randrange(5) == 0 and len(opened) > SCANS // 2:
                name = picks.choice(sorted(opened))
                script += f"close {name}\n"
                del opened[name]
        script += "begin\ndestroy @x\ncommit\n"
        for name, (data, pos) in opened.items():
            script += f"next {name} {len(data)}\nclose {name}\n"
            wanted.append(reply_of(data[pos:]))
        script += "space\n"
        lines = self.replies(script)
        self.assertEqual([line for line in lines if line.startswith("ok next")], wanted)
        self.assertEqual([line for line in lines if line.startswith("no ")], [])
        self.assertEqual(lines[-1], "ok space pages 1 of 3000 segs 0 of 3000")

    @staticmethod
    def next_of(picks: random.Random, opened: dict[str, list], script: str,
                wanted: list[str]) -> tuple[str, list[str]]:
        """A line that takes the next bytes of a scan, and its reply."""
        name = picks.choice(sorted(opened))
        data, pos = opened[name]
        count = picks.randrange(900)
        opened[name][1] = min(len(data), pos + count)
        return script + f"next {name} {count}\n", [*wanted, reply_of(data[pos:pos + count])]

    def test_client(self) -> None:
        """a scan of the client, in a transaction that goes on and fails"""
        self.format()
        data = bytes(range(256)) * 40
        with Store("v") as store:
            with store.transaction():
                store.file("a")
                oid = store.create("a")
                store.append(oid, data)
            with store.scan(oid) as scan:
                self.assertEqual((scan.size, scan.next(300)), (len(data), data[:300]))
                with self.assertRaises(Refused), store.transaction():
                    store.delete(oid, 0, 5000)
                    self.assertEqual(scan.next(20), data[300:320])
                    store.delete(oid, 0, len(data))
                self.assertEqual(b"".join(scan), data[320:])
                self.assertEqual(scan.next(1), b"")
            with self.assertRaises(Refused):
                scan.next(1)
            self.assertEqual(store.read(oid), data)

    def test_a_page_that_lies(self) -> None:
        """a node that is written over under an open scan"""
        self.small()
        self.replies(BASE)
        with subprocess.Popen([os.environ["EXSM"], "run", "v"], stdin=subprocess.PIPE,
                              stdout=subprocess.PIPE,
                              stderr=subprocess.PIPE) as run:
            run.stdin.write(b"group g 1 lru\nscan 258.0.1 as s in g\n")
            run.stdin.flush()
            told = [run.stdout.readline(), run.stdout.readline()]
            with open("v", "r+b") as volume:
                volume.seek(259 * 512)
                volume.write(bytes(512))
            out, errors = run.communicate(b"next s 1\n", timeout=SECONDS)
        self.assertEqual((told, out), ([b"ok group g\n", b"ok scan s 1000\n"], b""))
        self.assertEqual(run.returncode, 8)
        self.assertIn("259", errors.decode())


def reply_of(data: bytes) -> str:
    """What `next` is answered where it gives these bytes."""
    return f"ok next {len(data)}" + (f" {data.hex()}" if data else "")
