"""The programs of benches: which copy of the crates each is run in, and what is refused."""
from __future__ import annotations

import contextlib
import io
import os
import shutil
import sys
from pathlib import Path

from tests.support import TOP, InFolder, Ran

sys.path.insert(0, str(TOP / "bench"))
import scale  # noqa: E402  (the path comes first)
from scale import Grown  # noqa: E402
from timing.program import Exsm  # noqa: E402

CRATES = "# base: numbers\nlow: byteorder\nhigh: low\nother: low\nproofs_of: low\n"
PROGRAM = """[program]
about =
    Times a thing.
crate = high_bench
below = high

[taken]
proofs/rounds/grown/Answers.antt = proofs_of/proofs/tests/grown/Answers.antt
"""
FILES = {
    "HANDLES": "none\n",
    "crates.txt": CRATES,
    "crates/low/src/lib.rt": "//! Low.\n",
    "crates/low/out/low": "built",
    "crates/high/src/lib.rt": "struct High {\n    one: u8,\n}\n",
    "crates/other/src/lib.rt": "//! Other.\n",
    "crates/proofs_of/proofs/tests/grown/Answers.antt":
        "use Rattle.proofs_of.proofs.tests.grown.Goals as goal\n",
    "bench/programs/high/program.ini": PROGRAM,
    "bench/programs/high/src/main.rt.txt": "fn main() {}\n",
    "bench/programs/high/edits/high/a_field_more.edit":
        "file: src/lib.rt\nold:     one: u8,\nnew:     one: u8,\nnew:     two: u8,\n",
}


class ProgramsTest(InFolder):
    """Programs of benches in a small repository."""

    def setUp(self) -> None:
        super().setUp()
        for name, text in FILES.items():
            self.write(name, text)
        shutil.copy(TOP / "bench" / "run.py", "bench/run.py")

    def write(self, name: str, text: str) -> None:
        """Writes a file of the repository."""
        Path(name).parent.mkdir(parents=True, exist_ok=True)
        Path(name).write_text(text, encoding="utf-8")

    def bench(self, *words: str) -> Ran:
        """Runs the driver."""
        return self.run_words(sys.executable, "bench/run.py", *words)

    def test_copy(self) -> None:
        """a bench's copy has its crate, those below it, edited, and proofs under its own names"""
        ran = self.bench("high", "--make", "made")
        self.assertEqual((ran.status, ran.errors), (0, []))
        self.assertEqual(ran.lines[:3], ["low: byteorder", "high: low", "high_bench: high"])
        files = sorted(str(it.relative_to("made")) for it in Path("made").rglob("*")
                       if it.is_file())
        own = "crates/high_bench"
        self.assertEqual(files, [
            "HANDLES", "crates.txt", "crates/high/src/lib.rt",
            f"{own}/proofs/rounds/grown/Answers.antt", f"{own}/src/main.rt",
            "crates/low/src/lib.rt"])
        self.assertEqual(Path("made/crates/high/src/lib.rt").read_text(encoding="utf-8"),
                         "struct High {\n    one: u8,\n    two: u8,\n}\n")
        taken = Path(f"made/{own}/proofs/rounds/grown/Answers.antt").read_text(encoding="utf-8")
        self.assertEqual(taken, "use Rattle.high_bench.proofs.rounds.grown.Goals as goal\n")

    def test_refused(self) -> None:
        """a bench is refused whose edit, crate or taken proof isn't there, and the crates stay"""
        for name, text, reason in (
                ("crates/high/src/lib.rt", "struct High;\n", "doesn't stand once in its file"),
                ("crates.txt", "low: byteorder\n", "crates.txt names no crate high"),
                ("bench/programs/high/program.ini", PROGRAM.replace("tests/grown", "tests/gone"),
                 "there is no crates/proofs_of/proofs/tests/gone/Answers.antt")):
            with self.subTest(name):
                self.write(name, text)
                ran = self.bench("high", "--make", "made")
                self.assertEqual((ran.status, ran.out), (1, b""))
                self.assertIn(reason, ran.errors[-1])
                self.assertEqual(Path(name).read_text(encoding="utf-8"), text)
                self.write(name, FILES[name])
                shutil.rmtree("made")

    def test_words(self) -> None:
        """the driver of benches tells its programs by --help, and refuses another's name"""
        told = self.bench("--help")
        self.assertEqual((told.status, told.errors), (0, []))
        self.assertIn("high: Times a thing.", told.lines)
        self.assertEqual((self.bench("none").status, self.bench().status), (2, 2))
        Path("made").mkdir()
        self.assertEqual(self.bench("high", "--make", "made").status, 2)

    def test_benches(self) -> None:
        """each bench tells its words by --help, and refuses to run without a program"""
        for path in sorted(TOP.glob("bench/*.py")):
            with self.subTest(path.name):
                told = self.run_words(sys.executable, path, "--help")
                self.assertEqual((told.status, told.errors), (0, []))
                ran = self.run_words(sys.executable, path)
                self.assertEqual((ran.status, ran.lines), (2, []))

    def test_scale(self) -> None:
        """how times grow is told by the last to the first, and by what it is to be at most"""
        self.assertEqual(Grown("a", [2e-6, 9e-3, 5e-6], 2).cells(),
                         ["a", "2.00 us", "9.00 ms", "5.00 us", "2.50", "2: missed"])
        self.assertEqual(Grown("a", [2e-6, 4e-6], 2).cells()[2:], ["4.00 us", "2.00", "2: kept"])
        self.assertEqual(Grown("a", [2e-6, 1e-6], None).cells()[2:], ["1.00 us", "0.50", ""])
        told = io.StringIO()
        with contextlib.redirect_stdout(told):
            scale.tell(Exsm(os.environ["EXSM"], str(self.folder)), [200, 400], [100, 200], 1)
        rows = [line.split(" | ") for line in told.getvalue().splitlines() if line]
        self.assertEqual([len(row) for row in rows], [5] * 10)
        self.assertEqual([row[0] for row in rows if "---" not in row[0]], [
            "| Processor time, objects in one file", "| destroy one at random, create, append",
            "| first create after an abort", "| list, an object", "| opening, a process",
            "| memory of an opening, an object", "| Processor time, drafts of one version",
            "| destroy a draft"])
        self.assertNotIn("volume", os.listdir())
        ran = self.run_words(sys.executable, TOP / "bench" / "scale.py", "v", "--most", "10")
        self.assertEqual((ran.status, ran.lines), (2, []))
        self.assertIn("'10' is no number of 1,000 and more", ran.errors[-1])

    def test_all(self) -> None:
        """each program of a bench can be made of the crates as they are, and names no other's"""
        programs = sorted(it.parent.name for it in TOP.glob("bench/programs/*/program.ini"))
        self.assertEqual(len(programs), 7)
        for name in programs:
            with self.subTest(name):
                ran = self.run_words(sys.executable, TOP / "bench" / "run.py", name, "--make", name)
                self.assertEqual((ran.status, ran.errors), (0, []))
                crates = [it.split(":") for it in ran.lines if ": " in it]
                seen: set[str] = set()
                for crate, below in crates:
                    self.assertEqual([it for it in below.split() if Path(TOP, "crates", it).is_dir()
                                      and it not in seen], [], crate)
                    seen.add(crate)
                own = crates[-1][0]
                for path in Path(name, "crates", own).rglob("*.antt"):
                    text = path.read_text(encoding="utf-8")
                    named = {it.split(".")[0] for it in text.split("Rattle.")[1:]}
                    self.assertEqual(named - seen - {"std"}, set(), path)
