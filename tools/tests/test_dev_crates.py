"""The script of the crates' rules: each rule is seen to be broken, and the layers are written."""
from __future__ import annotations


from tests.toy import CRATES, InToy

FEW = "fn one() {}\n"
# A change of one file, and what is then told beside that the layers are old.
BROKEN = {
    "two boxes": (
        "docs/ARCHITECTURE.md", "[low]", "[low exsm]",
        ["exsm stands in 2 boxes of docs/ARCHITECTURE.md's picture, not in one"]),
    "no box": (
        "docs/ARCHITECTURE.md", "[low]", "",
        ["low stands in 0 boxes of docs/ARCHITECTURE.md's picture, not in one"]),
    "a box with another crate": (
        "docs/ARCHITECTURE.md", "[low]", "[low test_low]",
        ["docs/ARCHITECTURE.md's picture has a crate test_low, on which exsm doesn't stand"]),
    "a crate of no file": (
        "crates.txt", "low: byteorder", "low: byteorder hex",
        ["low names hex in crates.txt, and no file of it does"]),
    "an edge up": (
        "crates.txt", CRATES, CRATES.replace("low: byteorder\n", "") + "low: byteorder\n",
        ["an edge goes up: exsm_run stands in crates.txt before low, on which it stands",
         "an edge goes up: test_low stands in crates.txt before low, on which it stands"]),
    "no band": (
        "crates.txt", "# base: pages\n", "",
        ["low stands in no band of crates.txt: a band begins with a line '# NAME: what it is'"]),
    "no words": (
        "crates/low/src/lib.rt", "//! Pages", "// Pages",
        ["low has no line //! that says what it is"]),
    "no folder": (
        "crates.txt", "test_low: low\n", "test_low: low\ntest_none:\n",
        ["test_none stands in crates.txt and has no folder"]),
    "trust that README doesn't name": (
        "README.md", "**Trusted**: `byteorder`.", "**Trusted**: nothing.",
        ["README.md doesn't say that byteorder is trusted"]),
    "trust that the promises don't name": (
        "docs/PROMISES.md", "Trusted: `byteorder`.", "Trusted: nothing.",
        ["docs/PROMISES.md doesn't say that byteorder is trusted"]),
    "an edit that isn't there": (
        "docs/EDITS.md", "`low/number_is_lost`", "`exsm/number_is_lost`",
        ["docs/EDITS.md names exsm/number_is_lost, and there is no such edit"]),
    "an edit of a crate that isn't there": (
        "docs/EDITS.md", "`low/number_is_lost`", "`none/number_is_lost`",
        ["docs/EDITS.md names none/number_is_lost, and there is no such crate"]),
    "too many functions": (
        "crates/exsm/src/main.rt", "fn main() {", FEW * 100 + "fn main() {",
        ["exsm has 101 functions, above 100"]),
}
OLD = "docs/ARCHITECTURE.md has old layers: run tools/dev/crates.py --write"


class CratesTest(InToy):
    """The script on the small repository."""

    def setUp(self) -> None:
        super().setUp()
        self.assertEqual(self.script("crates.py", "--write").status, 0)

    def faults(self) -> list[str]:
        """The rules that --check says are broken, but that the layers are old."""
        ran = self.script("crates.py", "--check")
        faults, last = ran.lines[:-1], ran.lines[-1]
        self.assertEqual((ran.status, ran.errors), (1 if faults else 0, []))
        self.assertTrue(last.endswith(f" crates, {len(faults)} rules broken"), last)
        return [it for it in faults if it != OLD]

    def test_layers(self) -> None:
        """the layers are drawn from the top down, with the longest and the heaviest chain"""
        text = self.text("docs/ARCHITECTURE.md")
        _, _, drawn = text.partition("--write -->\n\n")
        self.assertEqual(drawn.split("\n")[:9], [
            "```", "TESTS: for tests alone", "  test_low  Tests of pages", "",
            "PROGRAMS: exsm", "  exsm      The program", "",
            "TOP: the line", "  exsm_run  The line"])
        self.assertIn("The longest chain to `exsm` has 3 crates: `low` ← `exsm_run` ← `exsm`.",
                      drawn)
        self.assertEqual(self.script("crates.py", "--check").lines, ["4 crates, 0 rules broken"])

    def test_broken(self) -> None:
        """each rule that is broken is told, and the status is 1"""
        for what, (name, old, new, told) in BROKEN.items():
            with self.subTest(what):
                was = self.text(name)
                self.change(name, old, new)
                faults = self.faults()
                self.write(name, was)
                self.assertEqual(faults, told)

    def test_chain(self) -> None:
        """a chain of eleven crates to the program is too long, and one of ten isn't"""
        for length, is_long in ((10, False), (11, True)):
            between = [f"c{number}" for number in range(length - 3)]
            text = CRATES.replace("exsm_run: low", "\n".join(
                f"{it}: {below}" for it, below in zip(between, ["low", *between]))
                + f"\nexsm_run: low {between[-1]}")
            self.write("crates.txt", text)
            for it, below in zip(between, ["low", *between]):
                self.write(f"crates/{it}/src/lib.rt", f"//! One.\nuse {below}::Page;\n")
            self.write("crates/exsm_run/src/lib.rt",
                       f"//! The line.\nuse low::Page;\nuse {between[-1]}::Page;\n")
            self.change("docs/ARCHITECTURE.md", "[low", f"[low {' '.join(between)} ")
            told = [it for it in self.faults() if "longest chain" in it]
            self.change("docs/ARCHITECTURE.md", f"[low {' '.join(between)} ", "[low")
            self.assertEqual(told, [
                f"the longest chain to exsm has 11 crates, above 10: low {' '.join(between)} "
                "exsm_run exsm"] if is_long else [])

    def test_edits(self) -> None:
        """a fifth must-fail edit of a crate beside those that must stand is one too many"""
        for number in range(5):
            self.assertEqual(self.faults(), [])
            self.write(f"crates/low/must-fail/edit_{number}.edit", "")
        self.assertEqual(self.faults(), [
            "low has 5 must-fail edits beside those of docs/EDITS.md, above 4"])

    def test_old(self) -> None:
        """old layers are told, --write makes them new, and without the marks nothing is written"""
        self.change("crates/low/src/lib.rt", "Pages and", "Sheets and")
        self.assertEqual(self.script("crates.py", "--check").lines[:-1], [OLD])
        self.assertEqual(self.script("crates.py", "--write").status, 0)
        self.assertEqual(self.faults(), [])
        self.change("docs/ARCHITECTURE.md", "<!-- end of what it writes -->", "")
        was = self.text("docs/ARCHITECTURE.md")
        ran = self.script("crates.py", "--write")
        self.assertEqual((ran.status, self.text("docs/ARCHITECTURE.md")), (1, was))
        self.assertIn("docs/ARCHITECTURE.md has no place for the layers", ran.errors[0])

    def test_report(self) -> None:
        """without a word levels, sizes and edges are printed, and nothing is written"""
        was = self.text("docs/ARCHITECTURE.md")
        lines = self.script("crates.py").lines
        self.assertEqual(lines[:4], ["level  crates", "    1  low", "    2  exsm_run test_low",
                                     "    3  exsm"])
        row, = (it.split() for it in lines if it.startswith("low   "))
        # Four heads of functions, and what stands in the definitions but for the comment.
        self.assertEqual((row[2], row[5], row[8], row[9]), ("4", "5", "1", "3"))
        self.assertIn("  exsm <- exsm_run", lines)
        self.assertIn("The proofs of the heaviest chain take 10 of all 12 seconds of docs/GATE.md: "
                      "`low` (7) ← `exsm_run` (2) ← `exsm` (1).", lines)
        self.assertEqual(self.text("docs/ARCHITECTURE.md"), was)
