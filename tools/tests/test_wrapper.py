"""The installed program: help, a hint at a word that is no command, no `gen` on a volume in use."""
from __future__ import annotations

import os
import pty
import shutil
import subprocess
import sys
from pathlib import Path

from tests.support import SECONDS, TOOLS, TOP, InFolder, Ran
from tests.test_edge import WORDS

HINT = "exsm: `exsm help` tells all words"
USAGE = "exsm: status 2 usage"
UNKNOWN = {
    "Format v": "format", "RUN v": "run", "chek v": "check", "fromat": "format", "rnu": "run",
    "gne v --seed 1": "gen", "hlep": "help", "checks": "check", "mkfs v": "format",
    "fsck v": "check", "-V": "--version", "version": "--version", "v check": "check v",
    "backup v": "dump", "dunp v": "dump", "restore v": "load", "laod v": "load",
    "compact v": "pack", "pakc v": "pack",
    "v --pages 3": None, "xyzzy": None, "r": None,
    "--pages": None, "a\nb": None,
}
"""Words whose first is no command, and what they are taken to mean."""

COMMANDS = ("format", "run", "check", "gen", "clients", "dump", "load", "pack")
MORE = "           with --anyway also where VOLUME holds data"
"""What the help of `gen` has that the program's usage hasn't."""

HELD = r"^exsm: v holds data \(last \d+ files 1 .*\), and gen adds generated objects: nothing was"
ANYWAY = ["exsm: to add them all the same, say --anyway", USAGE]
"""What is said of a volume to which `gen` would add."""

KNOWN = [words for words, _, _ in WORDS if words.split(" ")[0] in COMMANDS]
"""Wrong words behind a command."""


class WrapperTest(InFolder):
    def setUp(self) -> None:
        super().setUp()
        ran = self.run_words(TOOLS / "install", "prefix")
        self.assertEqual(ran.status, 0, ran.errors)
        self.installed = str(self.folder / "prefix" / "bin" / "exsm")

    def test_unknown_words(self) -> None:
        """of a word that is no command the cause is told, and what it may mean, in four lines"""
        for words, meant in UNKNOWN.items():
            with self.subTest(words):
                split = words.split(" ")
                ran, by_itself = self.run_words(self.installed, *split), self.exsm(*split)
                told = [f"exsm: did you mean `exsm {meant}`?"] if meant else []
                self.assertEqual(ran.errors, [by_itself.errors[0], *told, HINT, USAGE])
                self.assertEqual((ran.status, ran.out, by_itself.errors[-1]), (2, b"", USAGE))

    def test_known_words(self) -> None:
        """of wrong words behind a command what the program says comes through, byte for byte"""
        for words in ["", *KNOWN]:
            with self.subTest(words):
                split = words.split(" ") if words else []
                ran, by_itself = self.run_words(self.installed, *split), self.exsm(*split)
                self.assertEqual((ran.status, ran.out, ran.errors),
                                 (by_itself.status, by_itself.out, by_itself.errors))
                self.assertLessEqual(len(ran.errors), 4 if words else 14)

    def test_help(self) -> None:
        """help tells all words, or those of one command, with status 0"""
        usage = (TOOLS / "usage.txt").read_text(encoding="utf-8").splitlines()
        for words in (["help"], ["--help"], ["-h"], ["help", "frob"]):
            ran = self.run_words(self.installed, *words)
            self.assertEqual((ran.status, ran.lines, ran.errors), (0, usage, []))
        for command in COMMANDS:
            wanted = self.exsm(command).errors[1:-1] + ([MORE] if command == "gen" else [])
            for words in (["help", command], [command, "--help"]):
                ran = self.run_words(self.installed, *words)
                self.assertEqual((ran.status, ran.lines, ran.errors), (0, wanted, []))

    def test_same_process(self) -> None:
        """a run is the program's own process, so that a signal reaches it"""
        self.format()
        with subprocess.Popen([self.installed, "run", "v"], stdin=subprocess.PIPE,
                              stdout=subprocess.PIPE) as run:
            assert run.stdin is not None and run.stdout is not None
            run.stdin.write(b"log\n")
            run.stdin.flush()
            self.assertEqual(run.stdout.readline(), b"ok log 0\n")
            place = self.folder / "prefix" / "lib" / "exsm" / "program"
            self.assertTrue(os.path.samefile(f"/proc/{run.pid}/exe", place))

    def test_gen(self) -> None:
        """`gen` spares a volume that holds files, in a terminal too, unless --anyway is there"""
        self.format(pages=600, segs=600)
        gen = (self.installed, "gen", "v", "--seed", "1", "--count", "20")
        ran = self.run_words(*gen)
        self.assertEqual((ran.status, ran.errors, ran.out[:7]), (0, [], b"ok gen "))
        self.exsm("check", "v")                    # an opening writes home what the log has
        before = Path("v").read_bytes()
        for words in (gen, (self.installed, "gen", "--count=20", "--seed", "1", "v")):
            ran = self.run_words(*words)
            self.assertEqual((ran.status, ran.out, ran.errors[1:]), (2, b"", ANYWAY))
            self.assertRegex(ran.errors[0], HELD)
            self.assertEqual(Path("v").read_bytes(), before)
        ran = self.at_terminal(*gen)
        self.assertEqual((ran.status, ran.errors[1:], Path("v").read_bytes()), (2, ANYWAY, before))
        for place in range(2, len(gen) + 1):
            ran = self.run_words(*gen[:place], "--anyway", *gen[place:])
            self.assertEqual((ran.status, ran.errors, ran.out[:7]), (0, [], b"ok gen "))
        self.assertEqual(self.run_words(*gen).status, 2)
        for name in ("ümlaut", "two\nlines\n", "with space"):
            os.rename("v", name)
            ran = self.run_words(self.installed, "gen", "--seed", "1", name, "--count", "20")
            self.assertEqual((ran.status, ran.errors[1:]), (2, ANYWAY))
            shown = name if name == "with space" else "the volume"
            self.assertTrue(ran.errors[0].startswith(f"exsm: {shown} holds data (last "))
            os.rename(name, "v")

    def test_gen_on_nothing(self) -> None:
        """behind `gen` a volume without files goes to the program, and no --anyway does"""
        self.format("w", pages=600, segs=600)
        gone = b"begin\nfile a\ncommit\nbegin\nunfile a\ncommit\n"
        self.assertEqual(self.exsm("run", "w", given=gone).lines[-1], "ok commit 2")
        Path("no").write_bytes(b"no volume" * 1000)
        for words in ("w --seed 1", "--anyway", "no --seed 1 --count 2", "gone --seed 1 --count 2",
                      "w --seed 1 --count 20", "w x --anyway", "--seed --anyway --count 1 w"):
            with self.subTest(words):
                split = words.split(" ")
                shutil.copy("w", "kept")
                ran = self.run_words(self.installed, "gen", *split)
                shutil.copy("kept", "w")
                by_itself = self.exsm("gen", *(it for it in split if it != "--anyway"))
                shutil.copy("kept", "w")
                self.assertEqual((ran.status, ran.out, ran.errors),
                                 (by_itself.status, by_itself.out, by_itself.errors))

    def at_terminal(self, *words: str) -> Ran:
        """Runs a program whose input and messages are a terminal, at which nothing is typed."""
        side, other = pty.openpty()
        with subprocess.Popen(words, stdin=other, stderr=other, stdout=subprocess.PIPE) as run:
            os.close(other)
            out = run.communicate(timeout=SECONDS)[0]
        said = b""
        try:
            while more := os.read(side, 65536):
                said += more
        except OSError:                            # the other side is closed
            pass
        os.close(side)
        return Ran(run.returncode, out, said.replace(b"\r", b""))

    def test_removal(self) -> None:
        """what was installed is removed, and nothing else"""
        Path("prefix/bin/mine").write_text("mine", encoding="ascii")
        Path("prefix/share/man/man1/other.1").write_text("other", encoding="ascii")
        self.run_words(sys.executable, self.folder / "prefix" / "lib" / "exsm" / "exsm_new.py",
                       "v", "2M")
        ran = self.run_words(TOOLS / "install", "--remove", "prefix")
        self.assertEqual((ran.status, ran.lines, ran.errors), (0, ["removed from prefix"], []))
        left = sorted(str(path) for path in Path("prefix").rglob("*") if not path.is_dir())
        self.assertEqual(left, ["prefix/bin/mine", "prefix/share/man/man1/other.1"])
        self.assertEqual(sorted(path.name for path in Path("prefix").rglob("*") if path.is_dir()),
                         ["bin", "man", "man1", "share"])
        ran = self.run_words(TOOLS / "install", "--remove", "prefix")
        self.assertEqual(ran.status, 1)
        self.assertIn("nothing was installed below prefix", ran.errors[0])

    def test_package(self) -> None:
        """the package of the tools is made by its description, and finds the program on the path"""
        self.run_words(sys.executable, "-m", "venv", "env")
        python = self.folder / "env" / "bin" / "python"
        if self.run_words(python, "-c", "import setuptools").status != 0:
            self.skipTest("setuptools isn't there")
        os.makedirs("source/docs")
        for name in ("pyproject.toml", "VERSION", "LICENSE", "docs/PYTHON.md"):
            shutil.copy(TOP / name, f"source/{name}")
        shutil.copytree(TOOLS / "exsm", "source/tools/exsm",
                        ignore=shutil.ignore_patterns("__pycache__"))
        for path in TOOLS.glob("exsm_*.py"):
            shutil.copy(path, f"source/tools/{path.name}")
        os.chdir("source")
        ran = self.run_words(python, "-c", "from setuptools import setup; setup()", "--quiet",
                             "build", "--build-lib", "../there", "--build-scripts", "../scripts")
        os.chdir("..")
        self.assertEqual(ran.status, 0, ran.errors)
        self.assertEqual(sorted(os.listdir("scripts")),
                         sorted(path.name for path in TOOLS.glob("exsm_*.py")))
        self.format()
        variables = {**os.environ, "PYTHONPATH": str(self.folder / "there"),
                     "PATH": f"{self.folder / 'prefix' / 'bin'}:{os.environ['PATH']}"}
        del variables["EXSM"]
        program = "from exsm.client import Store\nwith Store('v') as store: print(store.files())"
        done = subprocess.run([sys.executable, "-c", program], capture_output=True, check=False,
                              env=variables)
        self.assertEqual((done.stdout, done.stderr), (b"[]\n", b""))
