"""The tool that shows versions: trees, names, differences."""
from __future__ import annotations

import difflib
import json
import os
import random
import re
import shutil
import time
from contextlib import contextmanager
from datetime import datetime, timezone
from pathlib import Path
from typing import Iterator

from exsm.client import Store
from exsm.volume import Volume
from tests.kills import KILLS, killed
from tests.support import InFolder

STEPS = 150
TREE = """\
258.1.2      1,000 B  frozen   published
├ 258.2.3    1,001 B  frozen   v2, the second
│ └ 258.0.1  1,002 B  current
└ 258.3.4        0 B  current  branch one
"""


class VersionToolTest(InFolder):
    @contextmanager
    def drafted(self, data: bytes) -> Iterator[tuple[Store, str]]:
        """A transaction on a new volume of small pages, in which an object has these bytes."""
        self.format(page_size=512, pages=900, segs=2_500, fan=6)
        with Store("v") as store, store.transaction():
            store.file("a")
            draft = store.create("a")
            store.append(draft, data)
            yield store, draft

    def tool_lines(self, *words: object, status: int = 0) -> list[str]:
        """What the tool tells: its lines, or of a refusal the errors."""
        ran = self.tool("exsm_versions", "v", *words)
        self.assertEqual(ran.status, status, ran.errors)
        return ran.errors if status else ran.lines

    def branch(self) -> str:
        """Makes an object with four versions, and gives the identifier of its first one."""
        self.format(pages=200, segs=200)
        with Store("v") as store, store.transaction():
            store.file("a")
            draft = store.create("a")
            store.append(draft, b"x" * 1_000)
            published = store.freeze(draft)
            store.append(draft, b"y")
            store.freeze(draft)
            store.append(draft, b"z")
            store.delete(store.derive(published), 0, 1_000)
            store.create("a")
        return draft

    def test_tree(self) -> None:
        """the tree of an object, with states, sizes and names"""
        draft = self.branch()
        for oid, name in (("258.1.2", "published"), ("258.2.3", "v2"), ("v2", "the second"),
                          ("258.3.4", "branch one")):
            self.assertEqual(self.tool_lines("name", oid, name), [])
        for word in (draft, "published", "branch one", "258.2.3"):
            self.assertEqual(self.tool_lines("tree", word), TREE.splitlines())
        self.assertEqual(self.tool_lines("tree"),
                         [*TREE.splitlines(), "objects of one version: 3"])
        told, = json.loads(self.tool("exsm_versions", "v", "tree", "v2", "--json").out)
        second, branch = told["derived"]
        self.assertEqual((told["oid"], told["names"], told["state"], told["size"]),
                         ("258.1.2", ["published"], "frozen", 1_000))
        self.assertEqual((second["names"], branch["names"]), (["v2", "the second"], ["branch one"]))
        self.assertEqual([it["oid"] for it in second["derived"]], [draft])

    def test_names(self) -> None:
        """a name goes to one version, moves when that is asked for, and can be removed"""
        draft = self.branch()
        self.tool_lines("name", draft, "now")
        self.tool_lines("name", draft, "now")
        self.assertEqual(self.tool_lines("name", "258.1.2", "now", status=1), [
            "exsm_versions: now names another version already: --replace moves the name to this "
            "one"])
        self.assertEqual(self.tool_lines("freeze", draft, "now", status=1),
                         ["exsm_versions: now names another version already"])
        self.tool_lines("name", "--replace", "258.1.2", "now")
        self.assertTrue(self.tool_lines("tree", draft)[0].endswith("frozen   now"))
        self.tool_lines("unname", "now")
        self.assertEqual(self.tool_lines("unname", "now", status=1),
                         ["exsm_versions: no version has the name now"])
        for wrong in ("", "1.2.3", "two\nlines"):
            self.assertIn("can't be a name", self.tool_lines("name", draft, wrong, status=1)[0])
        self.assertEqual(self.tool_lines("name", "1.2.3", "x", status=1),
                         ["exsm_versions: no version has the identifier or the name 1.2.3"])
        frozen, = self.tool_lines("freeze", draft, "third")
        self.assertTrue(self.tool_lines("tree", draft)[2].startswith(f"│ └ {frozen} "))
        self.assertIn("frozen", self.tool_lines("freeze", "third", "x", status=1)[0])

    def test_times(self) -> None:
        """when a version was named last is kept, and goes with its last name"""
        draft = self.branch()
        before = datetime.now(timezone.utc).replace(microsecond=0)
        for words in (["name", "258.1.2", "first"], ["freeze", draft, "third"],
                      ["name", "third", "the third"]):
            self.tool_lines(*words)
        rows = self.tool_lines("tree", "-t", draft)
        times = [re.search(r"  (\d{4}-\d\d-\d\d \d\d:\d\d:\d\dZ)$", row) for row in rows]
        self.assertEqual([found is not None for found in times], [True, False, True, False, False])
        for found in filter(None, times):
            moment = datetime.fromisoformat(found[1].replace("Z", "+00:00"))
            self.assertLessEqual(before, moment)
            self.assertLessEqual(moment, datetime.now(timezone.utc))
        told, = json.loads(self.tool("exsm_versions", "v", "tree", draft, "--json").out)
        self.assertEqual(told["time"], times[0][1].replace(" ", "T"))
        self.tool_lines("unname", "the third")
        self.assertIn("third  2", self.tool_lines("tree", "-t", draft)[2])
        self.tool_lines("unname", "third")
        with Store("v") as store:
            kept = store.read(store.list("version_times")[0])
        self.assertEqual(kept.count(b"\n"), 1)

    def test_back(self) -> None:
        """a current version gets the bytes of another one, by what differs, and keeps its names"""
        chance = random.Random(5)
        with self.drafted(chance.randbytes(300_000)) as (store, draft):
            first = store.freeze(draft)
            for _ in range(20):
                place = chance.randrange(250_000)
                store.delete(draft, place, chance.randrange(1, 900))
                store.insert(draft, place, chance.randbytes(chance.randrange(1, 900)))
            second = store.freeze(draft)
            store.append(draft, b"more")
            other = store.create("a")
        self.tool_lines("name", draft, "now")
        for wanted in (first, second, first):
            told, = self.tool_lines("back", "now", wanted)
            taken = int(re.search(r"for ([0-9,]+), in", told)[1].replace(",", ""))
            self.assertLess(taken, 60_000)
            with Store("v") as store:
                self.assertEqual(store.digest(draft), store.digest(wanted))
            self.assertEqual(self.tool_lines("diff", draft, wanted), [])
        self.assertEqual(self.tool_lines("back", "now", first),
                         [f"{draft}: 0 bytes for 0, in 0 places"])
        self.assertIn("versions of two objects", self.tool_lines("back", draft, other, status=1)[0])
        self.assertIn("a frozen version keeps its bytes",
                      self.tool_lines("back", second, first, status=1)[0])

    def test_file_names(self) -> None:
        """the names of files name their objects' versions too"""
        self.format(page_size=4096, pages=100, segs=100, fan=169)
        Path("text").write_text("one\n", encoding="ascii")
        self.tool("exsm_files", "v", "put", "text")
        frozen, = self.tool_lines("freeze", "text", "published")
        Path("text").write_text("two\n", encoding="ascii")
        self.assertEqual(self.tool("exsm_files", "v", "put", "text").status, 0)
        self.assertEqual([line.split()[-1] for line in self.tool_lines("tree", "text")],
                         ["published", "(text)"])
        self.assertEqual(self.tool_lines("diff", "published", "text", "--text"), [
            "--- published", "+++ text", "@@ -1 +1 @@", "-one", "+two"])
        self.tool_lines("freeze", "text", "text", status=0)
        self.assertIn("names several versions", self.tool_lines("tree", "text", status=1)[0])
        self.assertEqual(self.tool_lines("diff", frozen, frozen), [])

    def test_picture(self) -> None:
        """a picture calls an object as its file is called, else by the names of its versions"""
        self.branch()
        Path("text").write_text("one\n", encoding="ascii")
        self.tool("exsm_files", "v", "put", "text")
        self.tool_lines("name", "258.1.2", "first")
        self.tool_lines("name", "258.2.3", "second")
        self.tool_lines("name", "text", "noted")
        self.assertEqual(self.tool("exsm_map", "v", "map.svg").errors, [])
        drawn = Path("map.svg").read_text(encoding="utf-8")
        self.assertIn(">258.0.1 first, second 1002 B, ", drawn)
        self.assertRegex(drawn, r">[\d.]+ text +4 B, small<")
        self.assertNotIn("noted", drawn)

    def test_diff(self) -> None:
        """what is told to differ makes one version of the other, and few leaves are read for it"""
        chance = random.Random(3)
        with self.drafted(chance.randbytes(400_000)) as (store, draft):
            states = [store.freeze(draft)]
            for _ in range(STEPS):
                size = store.size(draft)
                place, length = chance.randrange(size), chance.choice((0, 1, 70))
                what = chance.choice(("insert", "replace", "delete"))
                if what == "delete":
                    store.delete(draft, place, min(length, size - place))
                elif what == "insert":
                    store.insert(draft, place, chance.randbytes(length))
                else:
                    store.replace(draft, place, chance.randbytes(min(length, size - place)))
                if chance.random() < 0.1:
                    states.append(store.freeze(draft))
            data = {oid: store.read(oid) for oid in [*states, draft]}
        for old, new in zip(states, [*states[1:], draft]):
            for first, second in ((old, new), (new, old), (states[0], new)):
                told = json.loads(self.tool("exsm_versions", "v", "diff", first, second,
                                            "--json").out)
                made, at = b"", 0
                for change in told:
                    made += data[first][at:change["start"]]
                    made += data[second][change["new_start"]:change["new_end"]]
                    at = change["end"]
                self.assertEqual(made + data[first][at:], data[second])
                self.assertLess(sum(it["new_end"] - it["new_start"] for it in told), 100_000)
        self.assertEqual(self.tool_lines("diff", draft, draft), [])

    def test_words(self) -> None:
        """differences in words and in lines of text"""
        text = [f"line {number}\n" for number in range(4_000)]
        whole = "".join(text).encode()
        with self.drafted(whole) as (store, draft):
            old = store.freeze(draft)
        with Store("v") as store:
            with store.transaction():
                store.replace(draft, 3, b"M")
                store.insert(draft, whole.index(b"line 700\n"), b"a new one\n")
                position = whole.index(b"line 3000\n") + len(b"a new one\n")
                store.delete(draft, position, len(b"line 3000\n"))
                other = store.create("a")
        new = list(text)
        new[0], new[700:700], new[3001:3002] = "linM 0\n", ["a new one\n"], []
        self.assertEqual(self.tool_lines("diff", old, draft), [
            "byte 3: 1 for 1", f"byte {whole.index(b'line 700'):,}: 10 more",
            f"byte {whole.index(b'line 3000') + len('line 300'):,}: 10 less"])
        wanted = "".join(difflib.unified_diff(text, new, old, draft)).splitlines()
        self.assertEqual(self.tool_lines("diff", old, draft, "--text"), wanted)
        self.assertEqual(self.tool_lines("diff", old, other, status=1),
                         [f"exsm_versions: {old} and {other} are versions of two objects"])

    def test_faults(self) -> None:
        """an open volume, one that isn't there and a damaged one are told"""
        self.branch()
        with Store("v"):
            for words in (["tree"], ["diff", "258.0.1", "258.1.2"], ["name", "258.0.1", "x"]):
                ran = self.tool("exsm_versions", "v", *words)
                self.assertEqual((ran.status, ran.errors),
                                 (5, ["exsm: v: another run has it open"]))
        self.assertEqual(self.tool("exsm_versions", "missing", "tree").errors,
                         ["exsm_versions: missing: No such file or directory"])
        Path("v").write_bytes(b"x" * 2_000)
        self.assertEqual(self.tool("exsm_versions", "v", "tree").errors,
                         ["exsm_versions: v: super: the file doesn't begin as a volume does"])

    def test_kills(self) -> None:
        """kills while it names and freezes: a frozen version has its name, a name its version"""
        self.branch()
        begun = time.monotonic()
        self.tool_lines("freeze", "258.0.1", "k")
        taken = time.monotonic() - begun
        chance = random.Random(19)
        for kill in range(KILLS):
            killed(chance, taken, "exsm_versions", "v", "freeze", "258.0.1", f"k{kill}")
            with Volume("v") as volume:
                self.assertEqual(volume.walk().faults, [])
                names, = volume.versions["version_names"]
                numbers = [int(line.split()[0]) for line in volume.bytes_of(names).splitlines()]
                frozen = [record.unique for record in volume.all() if record.frozen]
            self.assertEqual(sorted(numbers), sorted(frozen)[2:])
