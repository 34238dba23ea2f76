"""Files under their names: there and back, and in step with their objects after a kill."""
from __future__ import annotations

import fcntl
import hashlib
import json
import os
import pty
import random
import re
import signal
import subprocess
import sys
import termios
import time
from contextlib import redirect_stderr
from io import StringIO
from pathlib import Path

from exsm.client import PIECE, UPDATES_MOST, Store
from exsm.files import INTERRUPTED, Names, run
from exsm.new import MIB
from exsm.putting import PUT_UPDATES
from exsm.volume import Volume
from tests.kills import KILLS, killed, killed_command
from tests.support import TOOLS, InFolder

FILES = 20
INTERRUPTED_FILES = 2000
SIZES = (0, 1, 2, 100, 511, 512, 513, 5_000, 49_151, 317_000, 2_000_003)


def take_terminal() -> None:
    """In a child: its input is its terminal, and Ctrl-C ends it, though the tests were begun in
    the background, where a shell has it ignored."""
    fcntl.ioctl(0, termios.TIOCSCTTY, 0)
    signal.signal(signal.SIGINT, signal.SIG_DFL)


IN_PARTS = """
import sys
sys.path.insert(0, {tools!r})
import exsm.putting
exsm.putting.PUT_PIECES, exsm.putting.PUT_MOST = 2, 2 * {piece}
import exsm_files
sys.exit(exsm_files.main())
"""


class FilesTest(InFolder):
    def setUp(self) -> None:
        super().setUp()
        self.format(page_size=4096, pages=400, segs=6000, fan=169)

    def make(self, count: int, seed: int = 1) -> dict[str, bytes]:
        """Makes files of many sizes in `in/`, and gives their bytes."""
        chance = random.Random(seed)
        os.makedirs("in", exist_ok=True)
        made = {}
        for place in range(count):
            name = f"Datei {place}.dat" if place % 3 else f"f{place}-\u00e4"
            made[name] = chance.randbytes(SIZES[place % len(SIZES)])
            with open(f"in/{name}", "wb") as out:
                out.write(made[name])
        return made

    def stored(self) -> dict[str, bytes]:
        """What the volume keeps under its names, read past the program."""
        with Volume("v") as volume:
            self.assertEqual(volume.walk().faults, [])
            if not volume.versions:
                return {}
            names = b"".join(volume.bytes_of(record) for record in volume.versions["names"])
            of_unique = {record.unique: record for record in volume.versions["blobs"]}
            lines = [line.split(b" ", 1) for line in names.splitlines()]
            self.assertEqual(sorted(int(unique) for unique, _ in lines), sorted(of_unique))
            return {os.fsdecode(name): volume.bytes_of(of_unique[int(unique)])
                    for unique, name in lines}

    def test_there_and_back(self) -> None:
        """twenty files there and back, byte for byte"""
        made = self.make(FILES)
        put = self.tool("exsm_files", "v", "put", *(f"in/{name}" for name in made))
        self.assertEqual((put.status, put.errors, len(put.lines)), (0, [], FILES))
        self.assertEqual(self.stored(), made)
        os.mkdir("out")
        for name in made:
            self.assertEqual(self.tool("exsm_files", "v", "get", name, f"out/{name}").status, 0)
        self.assertEqual(self.run_words("diff", "-r", "in", "out").status, 0)
        name = list(made)[3]
        self.assertEqual(self.tool("exsm_files", "v", "get", name).out, made[name])
        rows = [line.split(maxsplit=2) for line in self.tool("exsm_files", "v", "ls").lines]
        self.assertEqual({row[2]: int(row[0]) for row in rows},
                         {name: len(data) for name, data in made.items()})

    def test_names(self) -> None:
        """a name is stored anew, and names are removed all or none"""
        made = self.make(6)
        names = list(made)
        self.tool("exsm_files", "v", "put", *(f"in/{name}" for name in names))
        with open(f"in/{names[2]}", "wb") as out:
            out.write(b"new")
        self.tool("exsm_files", "v", "put", f"in/{names[2]}")
        self.assertEqual(self.stored(), {**made, names[2]: b"new"})
        ran = self.tool("exsm_files", "v", "rm", names[0], "nothing")
        self.assertEqual((ran.status, ran.errors), (1, ["exsm_files: no such name: nothing"]))
        self.assertEqual(self.stored(), {**made, names[2]: b"new"})
        self.assertEqual(self.tool("exsm_files", "v", "rm", names[0], names[1], names[0]).status, 0)
        self.assertEqual(sorted(self.stored()), sorted(names[2:]))

    def put(self, *words: object, status: int = 0, given: bytes = b"") -> list[str]:
        """Puts, and gives what is told: the lines, or of a refusal the errors."""
        ran = self.tool("exsm_files", "v", "put", *words, given=given)
        self.assertEqual(ran.status, status, ran.errors)
        return ran.errors if status else ran.lines

    def tree(self) -> dict[str, bytes]:
        """Makes a folder with files of one name, names with spaces, an umlaut and a dash."""
        made = {"a/README.md": b"one", "a/sub/README.md": b"two", "a/with space": b"3",
                "a/\u00e4 \u2013 x": b"4", "a/-dash": b"5", "a/sub/deep/empty": b""}
        for name, data in made.items():
            path = Path(name)
            path.parent.mkdir(parents=True, exist_ok=True)
            path.write_bytes(data)
        return made

    def test_twice(self) -> None:
        """a name that comes twice, or stands for another path, is refused without --replace"""
        self.tree()
        paths = ("a/README.md", "a/sub/README.md")
        self.assertEqual(self.put(*paths, status=1), [
            "exsm_files: README.md comes twice, as a/README.md and as a/sub/README.md: -r names "
            "files by their paths, and --replace keeps the last; nothing was put"])
        self.assertEqual(self.stored(), {})
        self.put("a/README.md")
        self.assertEqual(self.put("a/with space", "a/sub/README.md", status=1), [
            f"exsm_files: README.md is there already, put from {self.folder}/a/README.md: "
            "--replace puts it anew, -n NAME or -r names this one otherwise; nothing was put"])
        self.assertEqual(self.stored(), {"README.md": b"one"})
        Path("a/README.md").write_bytes(b"anew")
        self.put("a/README.md")
        self.assertEqual(self.stored(), {"README.md": b"anew"})
        self.put("--replace", *paths)
        self.assertEqual(self.stored(), {"README.md": b"two"})

    def test_folder(self) -> None:
        """a folder goes in under its paths and comes back alike; a part that is no file is told"""
        made = self.tree()
        os.symlink("nowhere", "a/link")
        ran = self.tool("exsm_files", "v", "put", "-r", "./a/")
        self.assertEqual((ran.status, ran.errors),
                         (0, ["exsm_files: left out: ./a/link is no file"]))
        self.assertEqual(self.stored(), made)
        os.unlink("a/link")
        os.mkdir("with")
        os.link("v", "with/volume")
        ran = self.tool("exsm_files", "v", "put", "-r", "with")
        self.assertEqual((ran.status, ran.lines, ran.errors),
                         (0, [], ["exsm_files: left out: with/volume is the volume itself"]))
        self.assertEqual(self.put("v", status=1), ["exsm_files: v is the volume itself"])
        ran = self.tool("exsm_files", "v", "get", "-d", "out")
        self.assertEqual((ran.status, ran.lines, ran.errors), (0, [], []))
        self.assertEqual(self.run_words("diff", "-r", "a", "out/a").status, 0)
        self.assertEqual(self.put("a", status=1),
                         ["exsm_files: a is a folder: `put -r` puts the files in it"])

    def test_get_is_careful(self) -> None:
        """get writes over nothing unasked, and nothing outside of its folder"""
        self.tree()
        self.put("a/README.md", "a/with space")
        Path("out").mkdir()
        Path("out/with space").write_bytes(b"precious")
        for words in (("-d", "out"), ("with space", "out/with space")):
            ran = self.tool("exsm_files", "v", "get", *words)
            self.assertEqual((ran.status, ran.errors), (1, [
                "exsm_files: out/with space is there already: --replace writes it anew"]))
        self.assertEqual(os.listdir("out"), ["with space"])
        self.assertEqual(Path("out/with space").read_bytes(), b"precious")
        self.tool("exsm_files", "v", "get", "-d", "out", "--replace", "with space")
        self.assertEqual(Path("out/with space").read_bytes(), b"3")
        self.assertEqual(os.listdir("out"), ["with space"])
        os.mkfifo("pipe")
        ran = self.tool("exsm_files", "v", "get", "--replace", "with space", "pipe")
        self.assertEqual(ran.errors, ["exsm_files: pipe is there already, and is no file that can "
                                      "be replaced"])
        with Store("v") as store, store.transaction():
            names = store.list("names")[0]
            store.replace(names, store.read(names).index(b"README.md"), b"../READ.m")
        ran = self.tool("exsm_files", "v", "get", "-d", "out", "../READ.m")
        self.assertEqual(ran.status, 1)
        self.assertIn("can't be a name", ran.errors[0])
        self.put("-n", "with space/x", "a/README.md")
        ran = self.tool("exsm_files", "v", "get", "-d", "new", "with space", "with space/x")
        self.assertEqual(ran.errors, ["exsm_files: new/with space would be a file and a folder: "
                                      "get these names one by one"])
        self.assertFalse(os.path.exists("new"))

    def test_standard_input(self) -> None:
        """standard input goes in under a name, short and long"""
        long = random.Random(5).randbytes(17 * PIECE + 5)
        self.put("-n", "in/short", "-", given=b"abc")
        self.put("-n", "long", "-", given=long)
        self.assertEqual(self.stored(), {"in/short": b"abc", "long": long})
        self.assertEqual(self.put("-n", "long", "-", status=1, given=b"x"), [
            "exsm_files: long is there already, put from -: --replace puts it anew, -n NAME or -r "
            "names this one otherwise; nothing was put"])
        self.put("-n", "long", "--replace", "-", given=b"x")
        self.assertEqual(self.stored(), {"in/short": b"abc", "long": b"x"})
        for name in ("", "/a", "a//b", "../a", "a/./b", "a\nb"):
            self.assertIn("can't be a name", self.put("-n", name, "-", status=1)[0])

    def test_lists(self) -> None:
        """names with spaces and other bytes are told safely"""
        made = self.tree()
        odd = b"a/\xff odd"
        Path(os.fsdecode(odd)).write_bytes(b"odd")
        self.assertEqual(self.tool("exsm_files", "v", "put", "-r", "a").status, 0)
        names = sorted([*map(os.fsencode, made), odd])
        ran = self.tool("exsm_files", "v", "ls", "-0")
        self.assertEqual(sorted(ran.out.split(b"\0")[:-1]), names)
        told = json.loads(self.tool("exsm_files", "v", "ls", "--json").out)
        self.assertEqual(sorted(os.fsencode(row["name"]) for row in told), names)
        with Store("v") as store:
            for row in told:
                data = odd[4:] if os.fsencode(row["name"]) == odd else made[row["name"]]
                self.assertEqual((store.read(row["oid"]), row["size"]), (data, len(data)))
        self.assertEqual(len(self.tool("exsm_files", "v", "ls").out.splitlines()), len(names))

    def test_mv(self) -> None:
        """mv changes a name and nothing else; a name that is there is kept"""
        self.tree()
        self.put("-r", "a")
        before = {row["name"]: row["oid"] for row in self.listed()}
        self.assertEqual(self.tool("exsm_files", "v", "mv", "a/with space", "new name").status, 0)
        after = {row["name"]: row["oid"] for row in self.listed()}
        self.assertEqual(after, {name.replace("a/with space", "new name"): oid
                                 for name, oid in before.items()})
        ran = self.tool("exsm_files", "v", "mv", "new name", "a/-dash")
        self.assertEqual((ran.status, ran.errors), (
            1, ["exsm_files: a/-dash is there already: --replace removes it"]))
        self.assertEqual(self.tool("exsm_files", "v", "mv", "nothing", "x").status, 1)
        ran = self.tool("exsm_files", "v", "mv", "--replace", "new name", "a/-dash")
        self.assertEqual((ran.status, self.stored()["a/-dash"]), (0, b"3"))

    def listed(self) -> list[dict]:
        """What `ls --json` tells."""
        return json.loads(self.tool("exsm_files", "v", "ls", "--json").out)

    def test_versions(self) -> None:
        """a name whose object has frozen versions is put anew, and removed with them"""
        Path("text").write_bytes(b"old" * 3_000)
        self.put("text")
        oid = self.listed()[0]["oid"]
        with Store("v") as store, store.transaction():
            published = store.freeze(oid)
            branch = store.derive(published)
            frozen = store.freeze(branch)
        Path("text").write_bytes(b"new" * 2_000)
        self.put("text")
        with Store("v") as store:
            self.assertEqual(store.read(published), b"old" * 3_000)
            self.assertEqual(store.read(oid), b"new" * 2_000)
            self.assertEqual(store.versions(oid), [published, oid, frozen, branch])
        ran = self.tool("exsm_files", "v", "rm", "text")
        self.assertEqual((ran.status, ran.errors), (1, [
            "exsm_files: text has 4 versions: `rm --versions` removes all of them"]))
        self.assertEqual(self.tool("exsm_files", "v", "rm", "--versions", "text").status, 0)
        with Store("v") as store:
            self.assertEqual((store.list("blobs"), self.listed_without(store)), ([], []))
        self.assertEqual(self.stored(), {})

    def listed_without(self, store: Store) -> list[bytes]:
        """The names that a store has."""
        return list(Names(store).uniques)

    def test_faults(self) -> None:
        """what can't be stored or got is told, and leaves the volume"""
        self.make(1)
        table = [("put", "nothing", "nothing: No such file or directory"),
                 ("get", "nothing", "no such name: nothing"),
                 ("rm", "nothing", "no such name: nothing")]
        for command, word, error in table:
            ran = self.tool("exsm_files", "v", command, word)
            self.assertEqual((ran.status, ran.lines, ran.errors), (1, [], [f"exsm_files: {error}"]))
        self.assertEqual(self.stored(), {})
        self.assertEqual(self.tool("exsm_files", "missing", "ls").status, 5)
        with Store("v"):
            self.assertEqual(self.tool("exsm_files", "v", "ls").status, 5)

    def test_gone(self) -> None:
        """a name whose object another line destroyed is told, and rm removes it"""
        Path("a").write_bytes(b"a")
        self.put("a")
        with Store("v") as store, store.transaction():
            store.destroy(store.list("blobs")[0])
        told = self.tool("exsm_files", "v", "get", "a").errors
        self.assertEqual(told, ["exsm_files: the object of a is gone, some other line destroyed "
                                "it: `rm` removes the name"])
        self.assertEqual(self.tool("exsm_files", "v", "rm", "a").status, 0)
        self.assertEqual(self.tool("exsm_files", "v", "ls").lines, [])

    def test_interrupt(self) -> None:
        """Ctrl-C in a terminal: what was told is in, and the rest isn't"""
        os.remove("v")
        self.format(page_size=4096, pages=2000, segs=20000, fan=169)
        for place in range(INTERRUPTED_FILES):
            Path(f"f{place}").write_bytes(bytes(20_000))
        status, seen = self.interrupted_put()
        self.assertEqual(status, 130, seen[-2000:])
        self.assertIn(b"interrupted; what was told is done", seen)
        self.assertNotIn(b"Traceback", seen)
        told = {name.decode() for name in re.findall(rb"(f\d+) 20000 bytes", seen)}
        stored = set(self.stored())                # those of a transaction may be in untold
        self.assertLessEqual(told, stored)
        self.assertLessEqual(len(stored), len(told) + UPDATES_MOST // PUT_UPDATES)
        self.assertLess(len(stored), INTERRUPTED_FILES)

    def test_interrupted_close(self) -> None:
        """where Ctrl-C ends the program first, and closing the volume fails, it was Ctrl-C"""
        class Closing:
            """A store in whose first line Ctrl-C comes, and whose program is gone behind it."""

            def __enter__(self) -> "Closing":
                return self

            def __exit__(self, *_: object) -> None:
                raise BrokenPipeError

            def __getattr__(self, name: str) -> None:
                raise KeyboardInterrupt

        with redirect_stderr(StringIO()) as told:
            self.assertEqual(run(Closing, lambda _: None), INTERRUPTED)
        self.assertIn("interrupted; what was told is done", told.getvalue())

    def interrupted_put(self) -> tuple[int, bytes]:
        """Puts files in a terminal and presses Ctrl-C after the second; the status, and what
        came."""
        side, other = pty.openpty()
        paths = [f"f{place}" for place in range(INTERRUPTED_FILES)]
        run = subprocess.Popen(
            [sys.executable, str(TOOLS / "exsm_files.py"), "v", "put", *paths],
            stdin=other, stdout=other, stderr=other, start_new_session=True,
            preexec_fn=take_terminal)
        os.close(other)
        seen = b""
        while b"f1 20000 bytes" not in seen:
            seen += os.read(side, 4096)
        os.write(side, b"\x03")
        try:
            while more := os.read(side, 65536):
                seen += more
        except OSError:
            pass                                   # the terminal's other side is closed
        os.close(side)
        return run.wait(30), seen

    def test_full(self) -> None:
        """of a full volume it is told what is in, and what would do"""
        for place in range(4):
            Path(f"f{place}").write_bytes(bytes(8_000_000))
        errors = self.put(*(f"f{place}" for place in range(4)), status=1)
        told = re.match(r"exsm_files: f3: the volume is full: it needs \d+ units and \d+ are "
                        r"free\. 3 of 4 files are in\. A volume of (\d+)M holds this and a half as "
                        r"much besides: `exsm_move\.py VOLUME NEW --size \1M` makes one of all "
                        r"that is there$", errors[0])
        self.assertGreaterEqual(int(told[1]) * MIB, 1.5 * 32_000_000)
        self.assertLess(int(told[1]) * MIB, 2.1 * 32_000_000)
        self.assertEqual(sorted(self.stored()), ["f0", "f1", "f2"])
        Path("f1").write_bytes(b"x" * 20_000_000)
        self.assertTrue(self.put("f1", status=1)[0].endswith("so `rm` may also do"))
        self.assertEqual(self.stored()["f1"], bytes(8_000_000))

    def small(self, count: int, size: int, seed: int) -> dict[str, bytes]:
        """Makes small files, and gives their bytes."""
        chance = random.Random(seed)
        made = {f"s{place}": chance.randbytes(size) for place in range(count)}
        for name, data in made.items():
            Path(name).write_bytes(data)
        return made

    def commits(self) -> int:
        """The number of the last transaction."""
        with Store("v") as store, store.transaction():
            return store.begun - 1

    def test_together(self) -> None:
        """small files that follow each other are put in few transactions, in order, also anew"""
        made = self.small(100, 300, 5)
        self.put(*made)
        before = self.commits()
        for name in ("s1", "s50", "s98"):
            made[name] = b"anew"
            Path(name).write_bytes(made[name])
        Path("large").write_bytes(bytes(9 * PIECE))
        lines = self.put(*made, "large", "s1", "--replace")
        self.assertEqual([it.split()[0] for it in lines], [*made, "large", "s1"])
        self.assertEqual(self.stored(), {**made, "large": bytes(9 * PIECE)})
        self.assertLessEqual(self.commits() - before, 6)

    def test_together_refused(self) -> None:
        """of small files in a row each before the one that is refused is in, and none behind it"""
        made = self.small(30, 1000, 6)
        made["s20"] = bytes(3_900_000)
        Path("s20").write_bytes(made["s20"])
        Path("fills").write_bytes(bytes(22_000_000))
        errors = self.put("fills", *made, status=1)
        self.assertRegex(errors[0], r"exsm_files: s20: the volume is full: it needs \d+ units and "
                                    r"\d+ are free\. 21 of 31 files are in\.")
        self.assertEqual(self.stored(), {"fills": bytes(22_000_000),
                                         **{f"s{it}": made[f"s{it}"] for it in range(20)}})

    def test_together_killed(self) -> None:
        """after a kill in a put of small files a front of them is in, each whole"""
        made = self.small(400, 700, 7)
        chance = random.Random(8)
        words = [sys.executable, str(TOOLS / "exsm_files.py"), "v", "put", *made]
        begun = time.monotonic()
        self.assertEqual(self.run_words(*words).status, 0)
        taken = time.monotonic() - begun
        for _ in range(KILLS):
            self.tool("exsm_files", "v", "rm", *self.stored())
            killed_command(chance, taken, words)
            stored = self.stored()
            self.assertEqual(stored, {name: made[name] for name in list(made)[:len(stored)]})

    def in_parts(self, *words: str) -> list[str]:
        """A command whose transactions hold few pieces, so that a short file takes several."""
        return [sys.executable, "-c", IN_PARTS.format(tools=str(TOOLS), piece=PIECE), "v", *words]

    def test_parts(self) -> None:
        """a file of several transactions: whole, also over versions; old or new after a kill"""
        chance = random.Random(11)
        states = [chance.randbytes(9 * PIECE + 17), chance.randbytes(7 * PIECE)]
        Path("big").write_bytes(states[0])
        begun = time.monotonic()
        self.assertEqual(self.run_words(*self.in_parts("put", "big")).status, 0)
        taken = time.monotonic() - begun
        self.assertEqual(self.stored(), {"big": states[0]})
        now = 0
        for kill in range(KILLS):
            Path("big").write_bytes(states[1 - now])
            killed_command(chance, taken, self.in_parts("put", "big"))
            self.assertEqual(self.tool("exsm_files", "v", "ls").status, 0)
            self.tool("exsm_files", "v", "mv", "big", "big")          # cleans what was left
            stored = self.stored()["big"]
            self.assertIn(stored, states)
            now = states.index(stored)
        with Store("v") as store:
            oid = Names(store).oid(b"big")
            with store.transaction():
                published = store.freeze(oid)
        Path("big").write_bytes(b"over" * PIECE)
        self.assertEqual(self.run_words(*self.in_parts("put", "big")).status, 0)
        with Store("v") as store:
            current = Names(store).oid(b"big")
            self.assertEqual(store.versions(published), [published, current])
            self.assertEqual(store.read(published), states[now])
            self.assertEqual(store.read(current), b"over" * PIECE)

    def test_facts(self) -> None:
        """modes and times come back by get -p, and each file's digest is kept with its bytes"""
        for place, mode in enumerate((0o644, 0o755, 0o400)):
            path = Path(f"f{place}")
            path.write_bytes(b"%d" % place * 900_000)
            path.chmod(mode)
            os.utime(path, ns=(1, 1_000_000_007 * 10 ** 9 + place))
        self.put("f0", "f1", "f2")
        self.run_words(*self.in_parts("put", "-n", "parts", "f1"))
        self.run_words(sys.executable, TOOLS / "exsm_files.py", "v", "put", "-n", "typed", "-",
                       given=b"typed")
        self.assertEqual(self.tool("exsm_files", "v", "get", "-p", "-d", "out").status, 0)
        for name, source in (("f0", "f0"), ("f1", "f1"), ("f2", "f2"), ("parts", "f1")):
            got, put = os.stat(f"out/{name}"), os.stat(source)
            self.assertEqual((got.st_mode, got.st_mtime_ns), (put.st_mode, put.st_mtime_ns), name)
        self.assertGreater(os.stat("out/typed").st_mtime, time.time() - 1000)
        told = {it["name"]: it
                for it in json.loads(self.tool("exsm_files", "v", "ls", "--json").out)}
        self.assertEqual((told["f1"]["mode"], told["f1"]["time"]),
                         ("755", "2001-09-09T01:46:47+00:00"))
        self.assertEqual((told["typed"]["mode"], told["typed"]["time"]), (None, None))
        for name, data in self.stored().items():
            self.assertEqual(told[name]["sha256"], hashlib.sha256(data).hexdigest())
        self.tool("exsm_files", "v", "get", "f1", "plain")
        self.assertNotEqual(os.stat("plain").st_mtime_ns, os.stat("f1").st_mtime_ns)
        self.tool("exsm_files", "v", "rm", *told)
        with Store("v") as store:
            self.assertEqual(store.size(store.list("put_facts")[0]), 0)

    def test_verify(self) -> None:
        """a byte that isn't what was put, by a line or by damage, is told by verify"""
        Path("a").write_bytes(b"a" * 3_000)
        Path("b").write_bytes(b"needle" * 9_000)
        Path("c").write_bytes(b"c")
        self.put("a", "b", "c")
        ran = self.tool("exsm_files", "v", "verify")
        self.assertEqual((ran.status, ran.lines),
                         (0, ["3 of 3 files have the bytes that were put"]))
        with Store("v") as store, store.transaction():
            store.replace(Names(store).oid(b"c"), 0, b"d")
        with Store("v") as store:
            store.checkpoint()
        data = bytearray(Path("v").read_bytes())
        data[data.rindex(b"needleneedle")] ^= 1
        Path("v").write_bytes(data)
        self.assertEqual(self.exsm("check", "v").status, 0)
        ran = self.tool("exsm_files", "v", "verify")
        more = "other bytes than were put: changed since by other lines, or damaged"
        self.assertEqual((ran.status, ran.lines), (
            1, [f"b: {more}", f"c: {more}", "1 of 3 files have the bytes that were put"]))
        self.assertEqual(ran.errors, ["exsm_files: 2 of 3 files have other bytes than were put"])
        self.assertEqual(self.tool("exsm_files", "v", "verify", "a").status, 0)
        with Store("v") as store, store.transaction():
            facts, = store.list("put_facts")
            store.delete(facts, 0, store.size(facts))
        self.assertEqual(self.tool("exsm_files", "v", "verify", "a", "c").lines, [
            "0 of 2 files have the bytes that were put; of 2 no digest is kept"])

    def test_old_volumes(self) -> None:
        """a volume whose names have no paths beside them is read, none replaced unasked"""
        with Store("v") as store, store.transaction():
            store.file("blobs")
            store.file("names")
            oid = store.create("blobs")
            store.append(oid, b"old")
            store.append(store.create("names"), b"%s text\n" % oid.rsplit(".", 1)[1].encode())
        self.assertEqual(self.stored(), {"text": b"old"})
        self.assertEqual(self.tool("exsm_files", "v", "get", "text").out, b"old")
        Path("text").write_bytes(b"new")
        self.assertEqual(self.put("text", status=1), [
            "exsm_files: text is there already: --replace puts it anew, -n NAME or -r names this "
            "one otherwise; nothing was put"])
        self.put("--replace", "text")
        self.assertEqual(self.stored(), {"text": b"new"})
        self.put("text")

    def test_killed_writers(self) -> None:
        """kills in mv, rm and get: names and objects in step, no file in part under its name"""
        made = self.make(6)
        names = list(made)
        self.put(*(f"in/{name}" for name in names))
        chance = random.Random(13)
        for kill in range(KILLS):
            words = [("mv", names[3], "moved"), ("rm", names[4]), ("get", "-d", "out")][kill % 3]
            killed(chance, 0.4, "exsm_files", "v", *words)
            stored = self.stored()
            self.assertEqual({**made, "moved": made[names[3]], **stored},
                             {**made, "moved": made[names[3]]})
            self.assertEqual(names[3] in stored, "moved" not in stored)
            for path in Path("out").glob("*") if Path("out").is_dir() else ():
                if ".part-" not in path.name:
                    self.assertEqual(path.read_bytes(), stored[path.name])
            self.tool("exsm_files", "v", "get", "-d", "out", "--replace")
            self.assertEqual({path.name for path in Path("out").glob("*.part-*")}, set())
            self.tool("exsm_files", "v", "mv", "moved", names[3])
            self.put(f"in/{names[4]}")
            for path in Path("out").glob("*"):
                path.unlink()
        self.assertEqual(self.stored(), made)

    def test_reading(self) -> None:
        """what only reads changes nothing"""
        for words, status in ((["ls"], 0), (["get", "x"], 1), (["rm", "x"], 1)):
            self.assertEqual(self.tool("exsm_files", "v", *words).status, status)
        with Store("v") as store:
            self.assertEqual(store.files(), [])

    def test_other_names(self) -> None:
        """a file `names` that has other text is told"""
        self.make(1)
        self.tool("exsm_files", "v", "put", "in/f0-\u00e4")
        with Store("v") as store, store.transaction():
            store.append(store.list("names")[0], b"other text")
        ran = self.tool("exsm_files", "v", "ls")
        self.assertEqual(ran.errors,
                         ["exsm_files: the volume's file `names` has other text than names"])

    def test_kills(self) -> None:
        """kills in a put: names and objects in step, each file whole, old or new"""
        chance = random.Random(7)
        versions = [self.make(FILES, seed) for seed in (1, 2)]
        self.tool("exsm_files", "v", "put", *(f"in/{name}" for name in versions[1]))
        begun = time.monotonic()
        self.tool("exsm_files", "v", "put", *(f"in/{name}" for name in versions[1]))
        whole_put = time.monotonic() - begun
        for kill in range(KILLS):
            self.make(FILES, 1 + kill % 2)
            self.killed_put([f"in/{name}" for name in versions[0]], chance.random() * whole_put)
            for name, data in self.stored().items():
                self.assertIn(data, [version[name] for version in versions])
            with Store("v") as store:
                self.assertEqual(len(Names(store).uniques), FILES)

    def killed_put(self, paths: list[str], seconds: float) -> None:
        """Begins a put, and kills it and its run."""
        run = subprocess.Popen([sys.executable, str(TOOLS / "exsm_files.py"), "v", "put", *paths],
                               stdout=subprocess.DEVNULL, start_new_session=True)
        time.sleep(seconds)
        os.killpg(run.pid, 9)
        run.wait()
