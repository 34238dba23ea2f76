"""The script that lists clauses and definitions which changed or went since a commit."""
from __future__ import annotations

import subprocess

from tests.toy import GIT, InToy


class AgainstTest(InToy):
    """The small repository, as it is beside what it was at a commit."""

    def setUp(self) -> None:
        super().setUp()
        for words in (["init", "-q"], ["add", "."], ["commit", "-qm", "low: pages"]):
            subprocess.run([*GIT, *words], check=True)

    def told(self) -> list[str]:
        """What is told of the repository beside its last commit."""
        ran = self.script("promises.py", "--against", "HEAD")
        self.assertEqual((ran.status, ran.errors), (0, []))
        return ran.lines

    def test_same(self) -> None:
        """where nothing changed nothing is told, also where a clause is laid out otherwise"""
        self.assertEqual(self.told(), ["0 clauses and definitions are new"])
        self.change("crates/low/src/pages.rt",
                    "ensures most {\n            result.number ≤ MOST\n"
                    "        }", "ensures most { result.number ≤ MOST }")
        self.assertEqual(self.told(), ["0 clauses and definitions are new"])

    def test_changed(self) -> None:
        """a clause that changed is told with both texts, one that went, and how many came"""
        self.change("crates/low/src/pages.rt", "result.number ≤ 9", "result.number ≤ 10")
        self.change("crates/low/src/pages.rt",
                    "        ensures number { result.number ≡ number.now }\n",
                    "        requires number < 2 ^ 16\n")
        self.assertEqual(self.told(), [
            "low: ensures Page::of, number went", "  was result.number ≡ number.now",
            "low: ensures fitted changed", "  was result.number ≤ 9",
            "  is  result.number ≤ 10",
            "0 clauses and definitions are new"])

    def test_heads(self) -> None:
        """clauses of a trait's method, of a law without a body, and behind a `;` are read too"""
        path = "crates/low/src/pages.rt"
        law = "\n/// A law.\npub fn law(bytes: [u8; 4])\n    ensures few { 4 ≤ 9 }\n{}\n"
        self.write(path, self.text(path) + law)
        self.assertEqual(self.told(), ["1 clauses and definitions are new"])
        subprocess.run([*GIT, "commit", "-qam", "low: a law"], check=True)
        self.change(path, "ensures few { 4 ≤ 9 }", "ensures few { 4 ≤ 10 }")
        self.change(path, "ensures number { IsTrue ready };", "ensures number { ready };")
        self.assertEqual(self.told(), [
            "low: ensures Reads::read, number changed", "  was IsTrue ready", "  is  ready",
            "low: ensures law, few changed", "  was 4 ≤ 9", "  is  4 ≤ 10",
            "0 clauses and definitions are new"])

    def test_definitions(self) -> None:
        """a definition that changed is told, but for its comments"""
        path = "crates/low/specs/Pages.antt"
        text = self.text(path)
        self.write(path, text + "\n-- a bound\nabbrev pub bound : ℕ\nbound = 9\n")
        self.assertEqual(self.told()[-1], "1 clauses and definitions are new")
        subprocess.run([*GIT, "commit", "-qam", "low: a bound"], check=True)
        self.write(path, text + "\n-- the most\nabbrev pub bound : ℕ\nbound = 10\n")
        self.assertEqual(self.told(), [
            "low: definition bound changed", "  was bound = 9", "  is  bound = 10",
            "0 clauses and definitions are new"])
