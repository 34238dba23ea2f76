"""The tool that tries the edits that the gate leaves out."""
from __future__ import annotations

import os
import sys
from pathlib import Path

from tests.support import TOOLS, TOP, InFolder, Ran

# Stands in for rt: tells its words and what the folder has that it runs in, and refuses all edits
# but those of `trees`.
RT = """#!/bin/sh
echo "$@"
cat crates.txt
ls crates/$2/must-fail
test "$2" != trees
"""


class TryEditsTest(InFolder):
    def try_edits(self, *words: str) -> Ran:
        """Runs the tool, with a program in place of rt."""
        return self.run_words(sys.executable, TOOLS / "try_edits", *words)

    def with_rt(self) -> None:
        """Puts a program in the place of rt."""
        self.addCleanup(os.environ.__setitem__, "PATH", os.environ["PATH"])
        os.environ["PATH"] = f"{self.folder}:{os.environ['PATH']}"
        Path("rt").write_text(RT)
        os.chmod("rt", 0o755)

    def test_edits_can_be_applied(self) -> None:
        """each text that an edit replaces stands once in its crate"""
        for edit in sorted((TOP / "tools" / "edits").glob("*/*.edit")):
            with self.subTest(edit.stem):
                lines = edit.read_text().splitlines()
                self.assertEqual([line.split(":")[0] for line in lines], ["file", "old", "new"])
                name, old, new = (line.split(": ", 1)[1] for line in lines)
                text = (TOP / "crates" / edit.parent.name / name).read_text()
                self.assertEqual(text.count(old), 1)
                self.assertNotEqual(old, new)

    def test_none_of_the_gate(self) -> None:
        """no edit stands both in the gate and beside it"""
        kept = {(it.parent.name, it.name) for it in (TOP / "tools" / "edits").glob("*/*.edit")}
        tried = {(it.parent.parent.name, it.name)
                 for it in (TOP / "crates").glob("*/must-fail/*.edit")}
        self.assertEqual((kept & tried, bool(kept)), (set(), True))

    def test_listed(self) -> None:
        """the list has those of the crates that are named"""
        ran = self.try_edits("--list", "trees")
        names = sorted(it.stem for it in (TOP / "tools" / "edits" / "trees").glob("*.edit"))
        self.assertEqual((ran.status, ran.lines), (0, [f"trees/{name}" for name in names]))

    def test_a_copy_is_tried(self) -> None:
        """rt runs on a copy that has the crate, those below it, and these edits alone"""
        self.with_rt()
        before = sorted((TOP / "crates").glob("*/must-fail/*.edit"))
        ran = self.try_edits("runs")
        edits = sorted(it.name for it in (TOP / "tools" / "edits" / "runs").glob("*.edit"))
        self.assertEqual((ran.status, ran.errors), (0, []))
        self.assertEqual(ran.lines[:2], [f"runs: trying {len(edits)} edits", "must-fail runs"])
        self.assertIn("ex_base: byteorder thiserror", ran.lines)
        self.assertFalse([line for line in ran.lines if line.startswith(("trees:", "generated:"))])
        self.assertEqual(ran.lines[-len(edits) - 1:],
                         [*edits, "1 of 1 crates refused all of their edits"])
        self.assertEqual(sorted((TOP / "crates").glob("*/must-fail/*.edit")), before)

    def test_one_is_not_refused(self) -> None:
        """the status says that a crate lets an edit through, and the other crates are tried"""
        self.with_rt()
        ran = self.try_edits("trees", "runs")
        self.assertEqual((ran.status, ran.lines[-1]),
                         (1, "1 of 2 crates refused all of their edits"))

    def test_words(self) -> None:
        """help is on standard output, and wrong words try nothing"""
        ran = self.try_edits("--help")
        self.assertEqual((ran.status, ran.errors, ran.lines[0].split(" ")[0]), (0, [], "usage:"))
        for words in ((), ("nowhere",), ("runs", "--all"), ("--nothing",)):
            with self.subTest(words):
                ran = self.try_edits(*words)
                self.assertEqual((ran.status, ran.lines, bool(ran.errors)), (2, [], True))
        os.environ["PATH"], was = str(self.folder), os.environ["PATH"]
        self.addCleanup(os.environ.__setitem__, "PATH", was)
        self.assertEqual(self.try_edits("runs").status, 2)
