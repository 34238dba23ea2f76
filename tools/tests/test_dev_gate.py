"""The gate's log, and the table that is written of it."""
from __future__ import annotations

import os
import sys
from pathlib import Path

from tests.toy import GIT, InToy

PAGE = ("# Gate\n\n<!-- written by tools/dev/gate_log.py -->\n"
        "| `low` | 7 | 3 | 5 (2) |\n| `exsm_run` | 1,200* | no tests | no edits |\n"
        "<!-- end of what it writes -->\n\nAfter.\n")
LOG = """gate: begun 2026-01-02 03:04 UTC, 4 processors, commit abc, rt ci
[     1.0] rt: low: 1 of its 2 must-fail edits were tried by an earlier run
gate: work proof low 12.4
gate: work proof low 0.2
gate: work edit low 30.0
gate: work run exsm 2.0
gate: work tests test_low 99.5
[   100.0] 12 passed, 0 failed
gate: ended with status 0, wall 600.0 seconds, processors 1200.0 seconds
"""


class GateTest(InToy):
    """The gate's scripts on the small repository."""

    def setUp(self) -> None:
        super().setUp()
        self.write("docs/GATE.md", PAGE)

    def test_table(self) -> None:
        """the table has what a log measured, else earlier figures with a star, else `kept`"""
        self.write("log", LOG)
        ran = self.script("gate_log.py", "log")
        self.assertEqual((ran.status, ran.lines),
                         (0, ["docs/GATE.md has its table; 3 fields say `kept`"]))
        lines = self.text("docs/GATE.md").splitlines()
        # One edit of two was measured, and what two cost says nothing of the one that is there.
        self.assertEqual([it for it in lines if it.startswith("| `")], [
            "| `low` | 13 | no tests | kept (1) |",
            "| `exsm_run` | 1,200* | no tests | no edits |",
            "| `exsm` | kept | no tests | no edits |",
            "| `test_low` | kept | 100 | no edits |"])
        self.assertIn("| all, in minutes | 20 | 2 | 0 (1) |", lines)
        self.assertIn("took 10 minutes by the clock on 4 processors, of which it used 20 processor "
                      "minutes of that machine",
                      "\n".join(lines))
        self.assertIn("Its last line: `12 passed, 0 failed`.", "\n".join(lines))
        self.assertEqual((lines[0], lines[-1]), ("# Gate", "After."))

    def test_speed(self) -> None:
        """figures of a machine of another speed are brought into the measure of the table"""
        measured = LOG.replace("gate: work run", "gate: work proof ex_base 112.0\ngate: work run")
        own = ["| `ex_base` | 112 | no tests | no edits |", "| `low` | 13 | no tests | kept (1) |"]
        scaled = ["| `ex_base` | 56 | no tests | no edits |", "| `low` | 6 | no tests | kept (1) |"]
        told = ("What the last run measured was divided by 2.00: so many times as long as in the "
                "table before its proofs took in the middle, of 1 that both have.")
        page = PAGE.replace("| `low`", "| `ex_base` | 56 | no tests | no edits |\n| `low`")
        self.write("crates.txt", f"ex_base:\n{self.text('crates.txt')}")
        for before, words, rows, is_told in (
                (PAGE, [], own, False),                         # nothing to compare with
                (page, [], scaled, True),                       # figures stay of exsm_run
                (page.replace("1,200*", "none"), [], own, False),
                (page.replace("1,200*", "none"), ["--scaled"], scaled, True)):
            self.write("docs/GATE.md", before)
            self.write("log", measured)
            lines = self.script("gate_log.py", "--print", *words, "log").lines
            self.assertEqual([it for it in lines if it in own + scaled], rows)
            self.assertEqual(told in "\n".join(lines), is_told)
            self.assertIn("of which it used 20 processor minutes of that machine", "\n".join(lines))

    def test_same(self) -> None:
        """proofs that became lighter tell nothing of the machine"""
        self.write("crates.txt", f"ex_base:\n{self.text('crates.txt')}")
        self.write("docs/GATE.md", PAGE.replace(
            "| `low` | 7 |", "| `ex_base` | 56 | no tests | no edits |\n| `low` | 70 |"))
        self.write("crates/ex_base/src/lib.rt", "pub struct Units;\n")
        for words in (["init", "-q"], ["add", "."], ["commit", "-qm", "low: pages"]):
            self.run_words(*GIT, *words)
        self.change("crates/low/src/pages.rt", "number.min(MOST)", "MOST.min(number)")
        self.write("log", LOG.replace("gate: work run", "gate: work proof ex_base 112.0\n"
                                                        "gate: work run"))
        ran = self.script("gate_log.py", "--print", "--same", "HEAD", "log")
        self.assertIn("| `ex_base` | 56 | no tests | no edits |", ran.lines)
        self.assertIn("| `low` | 6 | no tests | kept (1) |", ran.lines)
        self.assertIn("was divided by 2.00: so many times as long as in the table before its "
                      "proofs took in the middle, of 1 that both have and that are as they were.",
                      "\n".join(ran.lines))
        ran = self.script("gate_log.py", "--print", "--same", "none", "log")
        self.assertEqual((ran.status, ran.lines), (1, []))

    def test_kept(self) -> None:
        """of the last run it is told how many proofs it kept"""
        self.write("log", LOG)
        self.assertIn("it kept no proof of earlier runs.", self.script(
            "gate_log.py", "--print", "log").out.decode())
        kept = "[     1.0] rt: low is kept: an earlier run on this machine proved the same files\n"
        self.write("log", LOG.replace("gate: work edit", f"{kept}gate: work edit"))
        self.assertIn("it kept 1 proof of earlier runs.", self.script(
            "gate_log.py", "--print", "log").out.decode())

    def test_refused(self) -> None:
        """what is no log is refused, and the page stays"""
        self.write("log", "12 passed, 0 failed\n")
        for words, status in ((["log"], 1), (["none"], 1), ([], 2)):
            ran = self.script("gate_log.py", *words)
            self.assertEqual((ran.status, ran.lines, bool(ran.errors)), (status, [], True))
        self.assertEqual(self.text("docs/GATE.md"), PAGE)
        self.write("log", LOG)
        self.assertEqual(self.script("gate_log.py", "--print", "log").status, 0)
        self.assertEqual(self.text("docs/GATE.md"), PAGE)

    def test_run(self) -> None:
        """the gate's lines are handed on between its own, and its status is rt's"""
        self.write("bin/rt", "#!/bin/sh\necho \"$@\"\necho '1 passed, 2 failed' >&2\nexit 4\n")
        Path("bin/rt").chmod(0o755)
        ran = self.run_words("env", f"PATH={self.folder}/bin:{os.environ['PATH']}",
                             sys.executable, "tools/dev/gate", "low", "--anew")
        self.assertEqual((ran.status, ran.errors, len(ran.lines)), (4, [], 4))
        self.assertRegex(ran.lines[0], r"^gate: begun .*, rt ci low --anew$")
        self.assertRegex(ran.lines[1], r"^\[ +\d+\.\d\] ci low --anew$")
        self.assertRegex(ran.lines[2], r"^\[ +\d+\.\d\] 1 passed, 2 failed$")
        self.assertRegex(ran.lines[3], r"^gate: ended with status 4, wall [\d.]+ seconds, ")

    def test_words(self) -> None:
        """each script for maintainers tells its words by --help, and refuses wrong ones with 2"""
        for name in ("alike.py", "crates.py", "figures.py", "fuzzed.py", "gate", "gate_log.py",
                     "promises.py", "tested.py"):
            with self.subTest(name):
                told = self.script(name, "--help")
                self.assertEqual((told.status, told.errors), (0, []))
                self.assertIn("usage:", told.lines[0])
                ran = self.script(name, "--none")
                self.assertEqual((ran.status, ran.lines), (2, []))
