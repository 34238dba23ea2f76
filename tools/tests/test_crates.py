"""The rules on crates and their edits, on a copy of the repository's text."""
from __future__ import annotations

import shutil
import sys
from pathlib import Path

from tests.support import TOP, InFolder

NAMED = "crates/op_log/must-fail/gate_before_body_is_synced.edit"


class CratesTest(InFolder):
    def setUp(self) -> None:
        super().setUp()
        for name in ("tools", "crates", "docs"):
            shutil.copytree(TOP / name, name, ignore=shutil.ignore_patterns("out", "__pycache__"))
        for name in ("README.md", "crates.txt"):
            shutil.copy(TOP / name, name)

    def broken(self) -> list[str]:
        """The rules that the copy breaks."""
        ran = self.run_words(sys.executable, "tools/dev/crates.py", "--check")
        self.assertEqual((ran.errors, ran.status), ([], 1 if len(ran.lines) > 1 else 0))
        return ran.lines[:-1]

    def test_edits_that_must_stand(self) -> None:
        """an edit that docs/EDITS.md names may not go, and doesn't count among a crate's four"""
        named = Path(NAMED)
        for number in range(4):
            shutil.copy(named, named.with_name(f"own_{number}.edit"))
        self.assertEqual(self.broken(), [])
        named.rename(named.with_name("own_4.edit"))
        self.assertEqual(self.broken(), [
            "op_log has 5 must-fail edits beside those of docs/EDITS.md, above 4",
            "docs/EDITS.md names op_log/gate_before_body_is_synced, and there is no such edit",
        ])

    def test_seconds_of_the_heaviest_chain(self) -> None:
        """the heaviest chain is that of the seconds in the table of docs/GATE.md"""
        Path("crates.txt").write_text("# base: a\na:\nb: a\nc: a\n# top: d\nd: b c\n")
        shutil.rmtree("crates")
        for name in "abcd":
            Path(f"crates/{name}/src").mkdir(parents=True)
            Path(f"crates/{name}/src/lib.rt").write_text(f"//! {name}\nfn {name}() {{}}\n")
        Path("docs/GATE.md").write_text(
            "| `a` | 10 | no tests | 1 (1) |\n| `b` | 30* | 5 | 1 |\n| `c` | 20 | 5 | 1 |\n| `d` | "
            "1 | 5 | 1 |\n")
        Path("tools/dev/crates.py").write_text(Path("tools/dev/crates.py").read_text().replace(
            'PROGRAM = "exsm"', 'PROGRAM = "d"'))
        ran = self.run_words(sys.executable, "tools/dev/crates.py")
        self.assertEqual((ran.status, ran.errors), (0, []))
        self.assertIn(
            "The proofs of the heaviest chain take 41 of all 61 seconds of docs/GATE.md: `a` (10) "
            "← `b` (30) ← `d` (1).", ran.lines)
