"""The tool that tries wrong bodies by the functions that they change."""
from __future__ import annotations

import os
import sys
from pathlib import Path

from tests.support import TOOLS, TOP, InFolder, Ran

EDIT = TOP / "tools" / "edits" / "trees" / "narrow_node_refused.edit"
FUNCTION = "reads::has_frame"
# Stands in for rt: tells of the crate as it is what `whole` has, and with the edit what `edited`
# has. It keeps its words.
RT = """#!/bin/sh
echo "$@" >>words
sed -n 's/^new: *//p' {edit} >{folder}/new
if grep -qFf {folder}/new src/*; then cat {folder}/edited; else cat {folder}/whole; fi
"""
WHOLE = "fn trees::reads::has_frame: no holes\nonly=2 holes=0\n"
# A goal that a proof file lacks, and one whose answer there names what is gone.
FALSE = ("note: src/reads.rt:{line}:5: it is not proved that the function ensures this "
         "(`returns-clause`)\nonly=2 holes=0\n")
NAMED = """proofs/reads/has_frame/Answers.antt:1:1: error: `some`: c.kind is not in scope
only=2 holes=0
"""


class WrongBodiesTest(InFolder):
    def setUp(self) -> None:
        super().setUp()
        Path("rt").write_text(RT.format(edit=EDIT, folder=self.folder))
        os.chmod("rt", 0o755)
        Path("whole").write_text(WHOLE)
        old = EDIT.read_text().split("old: ")[1].split("\n")[0]
        text = (TOP / "crates" / "trees" / "src" / "reads.rt").read_text()
        self.false = FALSE.format(line=text[:text.index(old)].count("\n") + 1)

    def try_edit(self, told: str, *words: object) -> Ran:
        """Tries an edit with which the check tells this."""
        Path("edited").write_text(told)
        return self.run_words(sys.executable, TOOLS / "dev" / "wrong_bodies.py",
                              "--check", self.folder / "rt", "--room", "room", EDIT, *words)

    def lines(self, ran: Ran) -> list[list[str]]:
        """The fields of each line but the seconds."""
        return [line.split("\t")[:-1] for line in ran.lines]

    def test_refused(self) -> None:
        """an edit is refused where a goal is open: its function and the goal are told"""
        ran = self.try_edit(self.false)
        self.assertEqual((ran.status, ran.errors), (0, []))
        self.assertEqual(self.lines(ran),
                         [["trees", EDIT.stem, FUNCTION, "refused by returns-clause"]])
        asked = Path("room/crates/trees/words").read_text().splitlines()
        self.assertEqual(asked, [f"--only {FUNCTION} --allow-holes"] * 2)

    def test_copied(self) -> None:
        """the copy has the crate and those below it alone, and is as it was behind a try"""
        self.try_edit(self.false)
        self.assertEqual(sorted(os.listdir("room/crates")), ["ex_base", "trees"])
        for file in (TOP / "crates" / "trees" / "src").iterdir():
            copy = Path("room/crates/trees/src") / file.name
            self.assertEqual(copy.read_text(), file.read_text())

    def test_not_refused(self) -> None:
        """an edit isn't refused where all goals hold, or where a proof lacks a name alone"""
        for told, wanted in ((WHOLE, "not refused"),
                             (NAMED, "refused only as a proof names what it took away")):
            with self.subTest(wanted):
                ran = self.try_edit(told)
                self.assertEqual(ran.status, 1)
                self.assertTrue(self.lines(ran)[0][3].startswith(wanted), ran.lines)

    def test_not_tried(self) -> None:
        """one that can't be applied, one of a crate that isn't proved as it is, and a check that
        tells nothing or comes to no end"""
        Path("trees").mkdir()
        Path("trees/lost.edit").write_text("file: src/reads.rt\nold: no such text\nnew: this\n")
        ran = self.try_edit(self.false, "trees/lost.edit")
        self.assertEqual((ran.status, len(ran.lines)), (1, 2))
        self.assertTrue(self.lines(ran)[0][3].startswith("bad edit"), ran.lines)
        ran = self.try_edit("error: no such crate\n")
        self.assertEqual(ran.status, 1)
        self.assertTrue(self.lines(ran)[0][3].startswith("not tried"), ran.lines)
        Path("whole").write_text(self.false)
        ran = self.try_edit(self.false)
        self.assertEqual((ran.status, self.lines(ran)[0][1]), (1, "as it is"))
        self.assertEqual(self.try_edit(self.false, "--skip-whole").status, 0)

    def test_words(self) -> None:
        """help is on standard output, and wrong words try nothing"""
        script = TOOLS / "dev" / "wrong_bodies.py"
        ran = self.run_words(sys.executable, script, "--help")
        self.assertEqual((ran.status, ran.errors, ran.lines[0].split(" ")[0]), (0, [], "usage:"))
        for words in ((), ("--nothing",)):
            ran = self.run_words(sys.executable, script, *words)
            self.assertEqual((ran.status, ran.lines, bool(ran.errors)), (2, [], True))
