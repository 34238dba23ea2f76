"""The library for C: its layer over a file by itself, the whole of it beside the program, and its
clients."""
from __future__ import annotations

import hashlib
import os
import re
import shutil
import subprocess
import sys
from pathlib import Path
from typing import Optional

from exsm.client import Locked, Store
from exsm.library import LibraryMissing, LibraryRun
from tests import test_client
from tests.library import (
    BUILT, FLAGS, KILLED, LAYER, LIBRARY, LINES, NEEDS_LIBRARY, SANITIZERS, SOURCES, VALGRIND,
    VERSION, OfLibrary, declared)
from tests.support import TOOLS, TOP
from tests.test_generated import DEFAULT_BYTES, script

FILE_LAYER = tuple(LIBRARY / name for name in ("exsm_file.c", "heap.c"))
DIALECTS = {"c": ("c99", "c11", "c17"), "c++": ("c++11", "c++17")}


class LayerTest(OfLibrary):
    """The layer over a core that lists what a line says."""

    def layer(self, *words: object, compiler: Optional[str] = None) -> Path:
        """The tests of the layer, compiled."""
        core = (SOURCES / "fake_core.c", *FILE_LAYER, VERSION)
        if compiler is not None:
            core += ("-Wno-unused-command-line-argument",)
        return self.of_layer("layer", "layer.c", *words, core=core)

    def holds(self, *words: object, **variables: str) -> None:
        """Runs the tests of the layer, each of which must hold."""
        ran = self.ran(*words, **variables)
        self.assertEqual((ran.status, ran.errors), (0, []))
        text = (SOURCES / "layer.c").read_text(encoding="utf-8")
        names = re.findall(r'^    \{"(\w+)"', text, re.M)
        self.assertGreater(len(names), 20)
        self.assertEqual(ran.lines, [f"ok {name}" for name in names])

    def test_layer(self) -> None:
        """listed calls are made in order, whole, before the reply, and none after a failed one"""
        self.holds(self.layer("-O2"))

    def test_valgrind(self) -> None:
        """valgrind finds nothing in the tests of the layer, and no leak"""
        self.found("valgrind")
        self.holds(*VALGRIND, self.layer("-O1"))

    def test_sanitizers(self) -> None:
        """sanitizers of addresses and of undefined steps find nothing in the tests of the layer"""
        self.holds(self.layer(*SANITIZERS), ASAN_OPTIONS="detect_leaks=1")


@NEEDS_LIBRARY
class HeaderTest(OfLibrary):
    """The header, and what the built libraries show."""

    def test_dialects(self) -> None:
        """the header compiles alone, in each dialect, without a warning, and links either way"""
        source = '#include "exsm.h"\nint main(void) { return exsm_close(0); }\n'
        made = 0
        for language, dialects in DIALECTS.items():
            name = f"program.{'c' if language == 'c' else 'cc'}"
            Path(name).write_text(source, encoding="ascii")
            for compiler in ("gcc", "clang") if language == "c" else ("g++", "clang++"):
                for dialect in dialects if shutil.which(compiler) else ():
                    for linked in ([BUILT / "libexsm.a"],
                                   [f"-L{BUILT}", "-lexsm", f"-Wl,-rpath,{BUILT}"]):
                        program = self.compiled("program", f"-std={dialect}", "-pedantic", name,
                                                *linked, compiler=compiler)
                        self.assertEqual(self.run_words(program).status, 0)
                        made += 1
        self.assertGreater(made, 5)

    def test_names(self) -> None:
        """both libraries show the functions of the header and nothing else"""
        nm, names = self.found("nm"), declared()
        self.assertIn("exsm_open", names)
        for words in (["-D", BUILT / "libexsm.so"], ["-g", BUILT / "libexsm.a"]):
            shown = [line.split() for line in self.run_words(nm, "--defined-only", *words).lines]
            self.assertEqual(sorted(line[2] for line in shown if len(line) == 3), names)

    def test_needs(self) -> None:
        """the shared library needs the C library alone"""
        ran = self.run_words(self.found("readelf"), "-d", BUILT / "libexsm.so")
        needed = [line.split("[")[1] for line in ran.lines if "(NEEDED)" in line]
        self.assertEqual(needed, ["libc.so.6]"])


@NEEDS_LIBRARY
class SameTest(OfLibrary):
    """What the library answers and leaves, beside the program."""

    def by_library(self, volume: str, lines: list[str], flags: int) -> bytes:
        """Steps lines by the library, and gives the replies."""
        run = LibraryRun(volume, str(BUILT / "libexsm.so"), flags)
        replies = b""
        for line in lines:
            run.send(line.encode())
            replies += run.receive().encode() + b"\n"
        run.end()
        return replies

    def hold_same(self, lines: list[str], form: dict[str, int]) -> bytes:
        """Holds that the program and the library, however it is opened, reply the same and leave
        the same bytes; gives the replies."""
        self.format("by_program", **form)
        for flags in FLAGS:
            self.format(f"by_library_{flags}", **form)
        ran = self.exsm("run", "by_program", given="".join(f"{line}\n" for line in lines).encode())
        self.assertEqual((ran.status, ran.errors), (0, []))
        for flags in FLAGS:
            with self.subTest(flags=flags):
                self.assertEqual(self.by_library(f"by_library_{flags}", lines, flags), ran.out)
                self.hold_same_bytes(f"by_library_{flags}", "by_program")
        return ran.out

    def test_generated(self) -> None:
        """the lines of `exsm gen` give the same hash of replies and the same bytes of the volume"""
        for seed, count in ((1, 200), (7, 2000)):
            lines = list(script(seed, count))
            replies = self.hold_same(lines, {"page_size": 4096, "pages": 4096, "segs": 16384,
                                             "fan": 169})
            accepted = replies.count(b"\nok ") + replies.startswith(b"ok ")
            self.assertEqual(self.exsm("format", "told").lines, [f"ok format {DEFAULT_BYTES}"])
            ran = self.exsm("gen", "told", "--seed", seed, "--count", count)
            digest = hashlib.sha256(replies).hexdigest()
            refused = len(lines) - accepted
            self.assertEqual(ran.lines, [f"ok gen {len(lines)} {accepted} {refused} {digest}"])
            self.hold_same_bytes("told", "by_library_0")
            for name in ("told", "by_program", *(f"by_library_{flags}" for flags in FLAGS)):
                os.remove(name)

    def test_lines(self) -> None:
        """refusals, scans, an open transaction at the end: the same replies and bytes"""
        refused = [
            "frob", "append @x hex:0", "begin", "begin", "read @x 0 16777217",
            "insert @x 999999 hex:00", "file a", "unfile a", "drop @new", "scan @x as s in none",
            "group g 4 mru", "scan @x as s in g", "next s 600", "next s 600", "delete @x 0 100",
            "stat @x", "versions @x", "space", "log", "digest @x", "x" * 1_048_577,
            "append @x rep:16777216:7a", "append @x rep:2000:7a"]
        self.hold_same(LINES + refused, {})


VALUES = LINES + [
    "begin", "begin", "insert @x 999999 hex:00", "file a", "unfile a", "drop @new", "file b",
    "scan @x as s in none", "group g 4 mru", "scan @x as s in g", "next s 600", "next s 60000",
    "next s 5", "delete @x 0 100", "stat @x", "versions @x", "space", "log", "digest @x",
    "append @x rep:2000000:7a", "append @x rep:2000:7a", "read @x 0 20", "read @x 99999 3",
    "list a", "list b", "files", "size @x", "close s", "close s", "commit", "size 1.2.3",
    "destroy @old", "append @x hex:", "begin", "append @x hex:00ff", "unfile b",
    "freeze @old as @no", "abort"]
"""Lines of which each has a call by values."""

LEAVES = re.compile(rb"^(ok stat large \d+ height \d+ leaves \d+).*$", re.M)
"""A reply of which a call by values doesn't tell the end."""


@NEEDS_LIBRARY
class ValuesTest(OfLibrary):
    """The calls by values, beside the lines that do the same."""

    def hold_values(self, lines: list[str], *by: object) -> None:
        """Holds that calls by values from C reply and leave what the lines do by the program."""
        given = "".join(f"{line}\n" for line in lines).encode()
        self.assertEqual(self.exsm("format", "lines").status, 0)
        for flags in FLAGS:
            shutil.copy("lines", f"values_{flags}")
        told = LEAVES.sub(rb"\1", self.exsm("run", "lines", given=given).out)
        shutil.copy("lines", "left")               # (a check writes what the log has home)
        told += self.exsm("check", "lines").out
        for flags in FLAGS:
            ran = self.ran(*by, self.folder / "typed", f"values_{flags}", flags, given=given)
            self.assertEqual((ran.status, ran.errors), (0, []))
            self.assertEqual(ran.out, told)
            self.hold_same_bytes(f"values_{flags}", "left")
        for name in ("lines", "left", *(f"values_{flags}" for flags in FLAGS)):
            os.remove(name)

    def typed(self, *words: object) -> None:
        """Compiles the program that does lines by calls by values."""
        self.compiled("typed", "-std=gnu99", SOURCES / "typed.c", *words)

    def test_calls(self) -> None:
        """each call by values, from C, replies what its line does and leaves the same bytes"""
        self.typed("-O2", BUILT / "libexsm.a")
        self.hold_values(VALUES)

    def test_generated(self) -> None:
        """the lines of `exsm gen` by calls by values, from C: the same replies and bytes"""
        self.typed("-O2", BUILT / "libexsm.a")
        self.hold_values(list(script(7, 600)))

    def test_findings(self) -> None:
        """valgrind and the sanitizers find nothing in calls by values"""
        self.found("valgrind")
        self.typed("-O1", BUILT / "libexsm.a")
        self.hold_values(VALUES, *VALGRIND)
        self.typed(*SANITIZERS, *LAYER, VERSION, "-Wl,--allow-multiple-definition",
                   BUILT / "libexsm.a")
        self.hold_values(VALUES)

    def test_python(self) -> None:
        """the lines of `exsm gen` by the client, over the library: the same replies and bytes"""
        lines = [line for line in script(3, 400) if "rep:0:" not in line]
        self.assertEqual(self.exsm("format", "lines").status, 0)
        shutil.copy("lines", "values")
        told = self.exsm("run", "lines", given="".join(f"{it}\n" for it in lines).encode()).lines
        with Store.over(LibraryRun("values", str(BUILT / "libexsm.so"))) as store:
            names: dict[str, str] = {}
            for line, reply in zip(lines, told):
                word, *rest = line.split()
                if word in ("create", "freeze"):
                    made = getattr(store, word)(names.get(rest[0], rest[0]))
                    names[rest[2]] = made
                    self.assertEqual(reply, f"ok {word} {made}")
                elif word in ("append", "insert", "replace", "delete"):
                    oid, *values = names[rest[0]], *rest[1:]
                    if word != "delete":
                        count, byte = values.pop().split(":")[1:]
                        values.append(bytes.fromhex(byte) * int(count))
                    getattr(store, word)(oid, *(int(it) if isinstance(it, str) else it
                                                for it in values))
                    self.assertEqual(reply, f"ok {word} {store.size(oid)}")
                elif word == "read":
                    read = store.objects.read(names[rest[0]], int(rest[1]), int(rest[2]))
                    self.assertEqual(reply, f"ok read {len(read)} {read.hex()}".rstrip())
                elif word == "digest":
                    self.assertEqual(reply, f"ok digest {store.digest(names[rest[0]]).hex()}")
                else:
                    self.assertEqual(reply, store.exchange(line.encode()))
        self.hold_same_bytes("values", "lines")


FORMAT = """
import ctypes, resource, signal, sys
class Why(ctypes.Structure):
    _fields_ = [("code", ctypes.c_int), ("os_error", ctypes.c_int), ("rest", ctypes.c_uint64 * 16)]
library, path, sizes, most = sys.argv[1], sys.argv[2], sys.argv[3].split(","), int(sys.argv[4])
if most:
    signal.signal(signal.SIGXFSZ, signal.SIG_IGN)
    resource.setrlimit(resource.RLIMIT_FSIZE, (most, most))
why = Why()
code = ctypes.CDLL(library).exsm_format(path.encode(), (ctypes.c_uint32 * 5)(*map(int, sizes)),
                                        ctypes.byref(why))
assert why.code == code
print(code, why.os_error)
"""
"""Makes a volume by exsm_format: the library, the path, the five sizes, and the limit of a file."""


@NEEDS_LIBRARY
class FormatTest(OfLibrary):
    """Volumes that the library makes."""

    def made(self, path: str, sizes: str, most: int = 0) -> str:
        """What exsm_format answers, and the system's reason."""
        ran = self.ran(sys.executable, "-c", FORMAT, BUILT / "libexsm.so", path, sizes, most)
        self.assertEqual((ran.status, ran.errors), (0, []))
        return ran.lines[0]

    def test_made(self) -> None:
        """a volume that the library makes has the bytes of one that the program makes"""
        for sizes in ("512,64,16,1,2", "4096,300,900,2,169"):
            options = ("--page-size", "--pages", "--segs", "--seg-len", "--fan")
            words = zip(options, sizes.split(","))
            self.assertEqual(self.made(f"l{sizes}", sizes), "0 0")
            ran = self.exsm("format", f"p{sizes}", *(it for pair in words for it in pair))
            self.assertEqual(ran.status, 0)
            self.hold_same_bytes(f"l{sizes}", f"p{sizes}")

    def test_not_made(self) -> None:
        """wrong sizes, a file that is there, and one that can't be filled: nothing is left of it"""
        Path("there").write_bytes(b"precious")
        for sizes in ("1000,64,16,1,2", "512,0,16,1,2", "512,64,16,17,2", "512,64,16,1,1",
                      "4294967295,4294967295,4294967295,4294967295,4294967295"):
            self.assertEqual(self.made("v", sizes), "104 0", sizes)
        self.assertEqual(self.made("there", "512,64,16,1,2"), "106 17")
        self.assertEqual(self.made("none/v", "512,64,16,1,2"), "106 2")
        self.assertEqual(self.made("v", "512,64,16,1,2", 100_000), "101 27")
        self.assertEqual(sorted(os.listdir()), ["there"])
        self.assertEqual(Path("there").read_bytes(), b"precious")


DOCUMENT = TOP / "docs" / "LIBRARY.md"


@NEEDS_LIBRARY
class ExamplesTest(OfLibrary):
    """The examples of the document for users, each on a new volume."""

    def example(self, language: str, name: str) -> str:
        """Writes the example of a language to a file, and gives what it says that it prints."""
        text = DOCUMENT.read_text(encoding="utf-8").split(f"```{language}\n")[1].split("```")[0]
        Path(name).write_text(text, encoding="utf-8")
        self.format()
        told = [line for line in text.splitlines() if "print" in line]
        return re.split(r"/\*|//|#", told[-1])[1].removesuffix("*/").strip()

    def test_c(self) -> None:
        """the example in C compiles without a warning, and prints what it says"""
        told = self.example("c", "program.c")
        shutil.copy(LIBRARY / "exsm.h", "exsm.h")
        program = self.compiled("program", "-std=c99", "-I.", "program.c", BUILT / "libexsm.a")
        ran = self.run_words(program)
        self.assertEqual((ran.status, ran.lines, ran.errors), (0, [told], []))

    def test_python(self) -> None:
        """the example in Python prints what it says"""
        told = self.example("python", "program.py")
        ran = self.ran(sys.executable, "program.py", PYTHONPATH=str(TOOLS),
                       EXSM_LIBRARY=str(BUILT / "libexsm.so"))
        self.assertEqual((ran.status, ran.lines, ran.errors), (0, [told], []))

    def test_rust(self) -> None:
        """the example in Rust compiles without a warning, and prints what it says"""
        rustc = self.found("rustc")
        told = self.example("rust", "main.rs")
        shutil.copy(LIBRARY / "exsm.rs", "exsm.rs")
        ran = self.ran(rustc, "--edition", "2021", "-D", "warnings", "-L", BUILT, "-C",
                       f"link-arg=-Wl,-rpath,{BUILT}", "main.rs")
        self.assertEqual((ran.status, ran.errors), (0, []))
        ran = self.run_words(self.folder / "main")
        self.assertEqual((ran.status, ran.lines, ran.errors), (0, [told], []))


@NEEDS_LIBRARY
class SharingTest(OfLibrary):
    """The library and the program at one volume."""

    def test_program_has_it(self) -> None:
        """a volume that a run or another handle has is refused, and free once that ended"""
        self.format()
        library = str(BUILT / "libexsm.so")
        run = subprocess.Popen([os.environ["EXSM"], "run", "v"], stdin=subprocess.PIPE,
                               stdout=subprocess.PIPE)
        run.stdin.write(b"log\n")
        run.stdin.flush()
        self.assertEqual(run.stdout.readline(), b"ok log 0\n")
        self.assertRaises(Locked, LibraryRun, "v", library)
        run.communicate()
        first = LibraryRun("v", library)
        self.assertRaises(Locked, LibraryRun, "v", library)
        ran = self.exsm("check", "v")
        self.assertEqual((ran.status, ran.errors[-1]), (5, "exsm: status 5 disk fault"))
        first.end()
        self.assertEqual(self.exsm("check", "v").status, 0)

    def test_killed_process(self) -> None:
        """a process that is killed leaves the volume free, with what it committed"""
        self.format()
        program = ("import os\nfrom exsm.client import Store\nstore = Store('v')\n"
                   "with store.transaction(): store.file('a')\n"
                   "store.ask('begin'); store.file('b'); os.kill(os.getpid(), 9)")
        ran = self.ran(sys.executable, "-c", program, PYTHONPATH=str(TOOLS),
                       EXSM_LIBRARY=str(BUILT / "libexsm.so"))
        self.assertEqual(ran.status, KILLED)
        with Store("v", os.environ["EXSM"]) as store:
            self.assertEqual(store.files(), ["a"])


@NEEDS_LIBRARY
class ClientOnLibraryTest(test_client.ClientTest):
    """The tests of the client, of which each store is a session of the library."""

    def setUp(self) -> None:
        super().setUp()
        os.environ["EXSM_LIBRARY"] = str(BUILT / "libexsm.so")
        self.addCleanup(os.environ.pop, "EXSM_LIBRARY")

    def test_is_library(self) -> None:
        """a store is a session of the library, and a run of the program where one is named"""
        self.format()
        with Store("v") as store:
            self.assertIsInstance(store._transport, LibraryRun)
        with Store("v", os.environ["EXSM"]) as store:
            self.assertNotIsInstance(store._transport, LibraryRun)
        os.environ["EXSM_LIBRARY"] = ""
        with Store("v") as store:
            self.assertNotIsInstance(store._transport, LibraryRun)

    def test_ended(self) -> None:
        """a store that is forgotten or closed leaves its volume free"""
        self.format()
        store = Store("v")
        store.close()
        store.close()
        self.assertRaises(ValueError, store.files)
        store = Store("v")
        del store
        Store("v").close()


@NEEDS_LIBRARY
class InstalledTest(OfLibrary):
    """What is installed of the library."""

    def test_installed(self) -> None:
        """what is installed links by pkg-config, and Python finds the package and the library"""
        ran = self.run_words(TOOLS / "install", "there")
        self.assertEqual((ran.status, ran.errors), (0, []))
        prefix = self.folder / "there"
        self.format()
        variables = {name: it for name, it in os.environ.items() if not name.startswith("EXSM")}
        variables["PYTHONUSERBASE"] = str(prefix)
        program = ("from exsm.client import Store\nwith Store('v') as store:\n"
                   "    print(type(store._transport).__name__, store.files())")
        ran = subprocess.run([sys.executable, "-c", program], env=variables, capture_output=True,
                             text=True, check=False)
        self.assertEqual((ran.stdout, ran.stderr), ("LibraryRun []\n", ""))
        flags = self.ran(self.found("pkg-config"), "--cflags", "--libs", "exsm",
                         PKG_CONFIG_PATH=str(prefix / "lib" / "pkgconfig")).lines[0].split()
        Path("program.c").write_text("#include <exsm.h>\n#include <stdio.h>\n"
                                     "int main(void) { return puts(exsm_version()) < 0; }\n",
                                     encoding="ascii")
        made = self.compiled("program", "program.c", *flags, f"-Wl,-rpath,{prefix / 'lib'}")
        version = (TOP / "VERSION").read_text(encoding="ascii").strip()
        self.assertEqual(self.run_words(made).lines, [version])

    def test_words(self) -> None:
        """build and install tell their words, refuse wrong ones, and say what isn't there"""
        for name in ("build", "install"):
            ran = self.run_words(LIBRARY / name, "--help")
            self.assertEqual((ran.status, ran.errors), (0, []))
            self.assertIn("library", ran.out.decode())
            self.assertEqual(self.run_words(LIBRARY / name, "--frob").status, 2)
        ran = self.run_words(LIBRARY / "build", "none.a", "--to", "out")
        self.assertEqual((ran.status, ran.errors), (1, ["build: none.a isn't there"]))
        self.assertFalse(Path("out").exists())

    def test_library_missing(self) -> None:
        """a library that isn't there, or that is another one, is told as such"""
        self.format()
        for path, said in (("none.so", "none.so"), ("v", "v")):
            with self.assertRaises(LibraryMissing) as caught:
                LibraryRun("v", str(self.folder / path))
            self.assertIn(said, str(caught.exception))
