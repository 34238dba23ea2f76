"""The pages that scripts write into: each writes between its marks alone, else nothing."""
from __future__ import annotations

import json
import shutil
import sys
from pathlib import Path

from tests.support import TOP, InFolder, Ran


class PagesTest(InFolder):
    def setUp(self) -> None:
        super().setUp()
        for name in ("tools/dev", "tools/tests", "bench", "docs"):
            Path(name).mkdir(parents=True)
        for name in ("figures.py", "fuzzed.py", "tested.py", "marks.py", "words.py"):
            shutil.copy(TOP / "tools" / "dev" / name, "tools/dev")

    def script(self, name: str, *words: str) -> Ran:
        """Runs a script of tools/dev."""
        return self.run_words(sys.executable, f"tools/dev/{name}", *words)

    def test_figures(self) -> None:
        """a bench's figures stand between the marks that name it; where it fails the page stays"""
        page = ("before\n<!-- figures of bench/a.py -->\n\nold\n\n<!-- end of figures -->\n"
                "after\n")
        Path("docs/SPEED.md").write_text(page, encoding="utf-8")
        Path("bench/a.py").write_text("import sys\nprint('took', sys.argv[1:])\n", encoding="utf-8")
        Path("bench/fails.sh").write_text("exit 3\n", encoding="utf-8")
        ran = self.script("figures.py", "bench/fails.sh")
        self.assertEqual((ran.status, Path("docs/SPEED.md").read_text(encoding="utf-8")), (1, page))
        self.assertIn("<!-- figures of bench/fails.sh -->", ran.errors[0])
        self.assertEqual(self.script("figures.py", "bench/a.py", "v", "--runs", "3").status, 0)
        lines = Path("docs/SPEED.md").read_text(encoding="utf-8").splitlines()
        self.assertEqual(lines[:3] + lines[4:], [
            "before", "<!-- figures of bench/a.py -->", "", "", "```",
            "took ['v', '--runs', '3']", "```", "", "<!-- end of figures -->", "after"])
        self.assertTrue(lines[3].startswith("`bench/a.py v --runs 3`, "), lines[3])
        Path("bench/a.py").write_text("print('| a |\\n|---|')\n", encoding="utf-8")
        self.assertEqual(self.script("figures.py", "bench/a.py").status, 0)
        lines = Path("docs/SPEED.md").read_text(encoding="utf-8").splitlines()
        self.assertEqual(lines[4:], ["", "| a |", "|---|", "", "<!-- end of figures -->", "after"])
        Path("bench/a.py").write_text("sys.exit(1)\n", encoding="utf-8")
        was = Path("docs/SPEED.md").read_bytes()
        self.assertEqual(self.script("figures.py", "bench/a.py").status, 1)
        self.assertEqual(Path("docs/SPEED.md").read_bytes(), was)

    def test_figures_of_a_program(self) -> None:
        """where a mark names a bench with a word, the figures of that call stand behind it alone"""
        page = "".join(f"<!-- figures of bench/a.py{it} -->\n\nold\n\n<!-- end of figures -->\n"
                       for it in (" trees", ""))
        Path("docs/SPEED.md").write_text(page, encoding="utf-8")
        Path("bench/a.py").write_text("import sys\nprint('of', sys.argv[1])\n", encoding="utf-8")
        self.assertEqual(self.script("figures.py", "bench/a.py", "trees").status, 0)
        self.assertEqual(self.script("figures.py", "bench/a.py", "units").status, 0)
        lines = Path("docs/SPEED.md").read_text(encoding="utf-8").splitlines()
        places = [lines.index(it) for it in (
            "<!-- figures of bench/a.py trees -->", "of trees",
            "<!-- figures of bench/a.py -->", "of units")]
        self.assertEqual(places, sorted(places))
        self.assertNotIn("old", lines)

    def test_marks(self) -> None:
        """the pages have the marks that scripts write between, and each bench that one names"""
        speed = (TOP / "docs" / "SPEED.md").read_text(encoding="utf-8")
        benches = [part.split(" -->")[0] for part in speed.split("<!-- figures of ")[1:]]
        self.assertGreater(len(benches), 5)
        self.assertEqual([it for it in benches if not (TOP / it.split()[0]).is_file()], [])
        programs = [it.split()[1] for it in benches if it.startswith("bench/run.py")]
        self.assertEqual([it for it in programs
                          if not (TOP / "bench" / "programs" / it).is_dir()], [])
        self.assertEqual(speed.count("<!-- end of figures -->"), len(benches))
        gate = (TOP / "docs" / "GATE.md").read_text(encoding="utf-8")
        for mark in ("<!-- written by tools/dev/gate_log.py -->",
                     "<!-- written by tools/first_build -->",
                     "<!-- written by tools/first_build --forecast -->"):
            self.assertEqual(gate.count(mark), 1, mark)

    def test_tested(self) -> None:
        """the page of tests has the sentences of their files, and --check tells an old one"""
        Path("tools/tests/test_one.py").write_text(
            '"""One thing.\n\nMore.\n"""\nclass A:\n    def test_a(self):\n        """it holds\n'
            '        on two lines"""\n    def test_b_c(self):\n        pass\n'
            '    def other(self):\n        pass\n', encoding="utf-8")
        Path("docs/TESTS.md").write_text(
            "head\n<!-- written by tools/dev/tested.py -->\n<!-- end of what it writes -->\ntail\n",
            encoding="utf-8")
        self.assertEqual(self.script("tested.py", "--check").status, 1)
        self.assertEqual(self.script("tested.py", "--write").status, 0)
        lines = Path("docs/TESTS.md").read_text(encoding="utf-8").splitlines()
        self.assertEqual(lines[3:9], ["2 tests in 1 files.", "", "**test_one.py**: one thing.", "",
                                      "- it holds on two lines", "- b c"])
        self.assertEqual(self.script("tested.py", "--check").status, 0)

    def test_fuzzed(self) -> None:
        """what campaigns of one program tried is added and stands in the page; others not"""
        page = ("head\n<!-- written by tools/dev/fuzzed.py -->\nold\n"
                "<!-- end of what the fuzzer tried -->\ntail\n")
        Path("docs/TESTS.md").write_text(page, encoding="utf-8")
        for name, program, kind, count in (
                ("a", "ab" * 32, "scripts", 1200), ("b", "ab" * 32, "scripts", 300),
                ("c", "ab" * 32, "damage", 5), ("d", "cd" * 32, "damage", 5)):
            told = {"program": program, "seed": "7", "counts": {kind: {"things": count}},
                    "seconds": {kind: 30.0}, "is_cut": False, "differ": []}
            Path(name).write_text(json.dumps(told), encoding="utf-8")
        ran = self.script("fuzzed.py", "--about", "it", "--write", "a", "b", "c")
        self.assertEqual(ran.status, 0)
        lines = Path("docs/TESTS.md").read_text(encoding="utf-8").splitlines()
        self.assertEqual(lines, [
            "head", "<!-- written by tools/dev/fuzzed.py -->", "",
            f"On it (SHA-256 {'ab' * 8}..), seed 7, in 2 minutes of a processor: none differed.",
            "",
            "| Kind | Tried | In a minute of a processor |", "|---|---|---|",
            "| `scripts` | 1,500 things | 1,500 things |",
            "| `damage` | 5 things | 10 things |", "",
            "<!-- end of what the fuzzer tried -->", "tail"])
        Path("e").write_text("{}", encoding="utf-8")
        for files, error in ((["a", "d"], "d is of the program cdcd"),
                             (["e"], "e tells of no campaign: KeyError"),
                             (["none"], "none tells of no campaign: FileNotFoundError")):
            ran = self.script("fuzzed.py", "--write", *files)
            self.assertEqual((ran.status, ran.lines), (1, []))
            self.assertIn(error, ran.errors[-1])
        self.assertEqual(Path("docs/TESTS.md").read_text(encoding="utf-8").splitlines(), lines)
        self.assert_beside(lines)

    def assert_beside(self, lines: list[str]) -> None:
        """With --beside another program's table stands before the others, and all are summed."""
        for _ in range(2):
            ran = self.script("fuzzed.py", "--about", "that", "--beside", "--write", "d")
            self.assertEqual(ran.status, 0)
            self.assertEqual(Path("docs/TESTS.md").read_text(encoding="utf-8").splitlines(), [
                *lines[:3],
                f"On that (SHA-256 {'cd' * 8}..), seed 7, in 0 minutes of a processor: none "
                "differed.", "", *lines[5:7], "| `damage` | 5 things | 10 things |", "",
                *lines[3:10], "Together: 1,510 things.", "", *lines[10:]])
