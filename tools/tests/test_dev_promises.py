"""The script that holds the documents against the sources: what it finds gone, and its map."""
from __future__ import annotations

from pathlib import Path

from tests.toy import InToy

LAST = "3 promises, 4 names of clauses, {} names that are gone; 0 must-fail edits go with none"
FIRST_ROW = "low: A page has its number"
# A change of one file, and what is then told.
GONE = {
    "a clause that the promises name": (
        "docs/PROMISES.md", "`kept` (", "`lost` (",
        ["exsm_run: A run keeps all: `lost`: no clause of `run`",
         "exsm_run: A run keeps all: `run` has none of the clauses of its part: "
         "`lost` (`whole` of `Spelled`)"]),
    "the clause in the code": (
        "crates/low/src/pages.rt", "ensures most {", "ensures least {",
        [f"{FIRST_ROW}: `number` .. `most`: no clause of `Page::of`",
         f"{FIRST_ROW}: `Page::of` has none of the clauses of its part: `number` .. `most`"]),
    "a call": (
        "docs/PROMISES.md", "| `fitted` |", "| `fitting` |",
        ["low: It is within the most: there is no call `fitting` in low",
         "low: It is within the most: `fitting` has no single clause"]),
    "a field of a record": (
        "docs/PROMISES.md", "`whole` of", "`later` of",
        ["exsm_run: A run keeps all: `later` is no field of the record `Spelled`",
         "docs/PROMISES.md: `later` of `Spelled` is neither a clause nor a field"]),
    "a clause of README": (
        "README.md", "is kept | `kept`", "is kept | `lost`",
        ["README.md: `lost` is no clause of `run`"]),
    "a field of README": (
        "README.md", "| all | `whole`", "| all | `later`",
        ["README.md: `later` is no field of `Spelled`"]),
    "the record above a table": (
        "README.md", "the record `Spelled`", "a record",
        ["README.md: a table of fields has no record in the words above: The fields of a record:"]),
    "a function of the tour": (
        "docs/TOUR.md", "`fitted`", "`fitting`",
        ["docs/TOUR.md: there is no `fitting` in crates/low/src/pages.rt"]),
    "a file of a way": (
        "docs/TOUR.md", "| Line | 2 |", "| Line | 3 |",
        ["docs/TOUR.md: a line passes 2 files, not 3"]),
    "a section of a way": (
        "docs/TOUR.md", "| Line | 2 |", "| Line, End | 2 |",
        ["docs/TOUR.md: there is no section `End`"]),
    "a word of the glossary": (
        "docs/GLOSSARY.md", "`MOST`", "`LEAST`",
        ["docs/GLOSSARY.md: there is no `LEAST` in crates/low/src/pages.rt"]),
    "a file of the glossary": (
        "docs/GLOSSARY.md", "low/src/pages.rt` | `Page`, `MOST`", "low/src/page.rt` | `Page`",
        ["docs/GLOSSARY.md: there is no `Page` in crates/low/src/page.rt",
         "docs/GLOSSARY.md: there is no crates/low/src/page.rt"]),
    "a file that a document names": (
        "docs/DECISIONS.md", "None.", "See `crates/low/specs/Gone.antt`.",
        ["docs/DECISIONS.md: there is no crates/low/specs/Gone.antt"]),
    "a clause of a call in a sentence": (
        "docs/DECISIONS.md", "None.", "As `kept` of `run` says, and `lost` of the call `run`.",
        ["docs/DECISIONS.md: `lost` of `run` is neither a clause nor a field"]),
    "a clause in a sentence": (
        "docs/DECISIONS.md", "None.", "By the clause `most` and the clause `lost`.",
        ["docs/DECISIONS.md: there is no clause `lost`"]),
    "a field in a sentence": (
        "docs/DECISIONS.md", "None.", "By the field `last` and the field `later`.",
        ["docs/DECISIONS.md: there is no field `later`"]),
    "a test that a sentence names": (
        "docs/DECISIONS.md", "None.", "As `no_page_is_ever_lost` shows.",
        ["docs/DECISIONS.md: `no_page_is_ever_lost` stands nowhere"]),
    "a heading of scenarios": (
        "docs/DECISIONS.md", "None.", "As scenarios show (\"A page is lost\").",
        ["docs/DECISIONS.md: no scenarios have the heading \"A page is lost\""]),
    "the text that an edit changes": (
        "crates/low/src/pages.rt", "number.min(MOST)", "number.max(MOST)",
        ["crates/low/must-fail/number_is_lost.edit: its old text doesn't stand once in its file"]),
}


class PromisesTest(InToy):
    """The script on the small repository."""

    def test_passes(self) -> None:
        """documents whose names are there pass, and --check writes nothing"""
        ran = self.script("promises.py", "--check")
        self.assertEqual((ran.status, ran.lines), (1, [
            "docs/MAP.md is old: run tools/dev/promises.py", LAST.format(0)]))
        self.assertFalse(Path("docs/MAP.md").exists())
        for words in ([], ["--check"]):
            ran = self.script("promises.py", *words)
            self.assertEqual((ran.status, ran.lines, ran.errors), (0, [LAST.format(0)], []))

    def test_map(self) -> None:
        """the map has each promise's clauses, and each call's edits, tests and stored programs"""
        self.assertEqual(self.script("promises.py").status, 0)
        rows = [it for it in self.text("docs/MAP.md").splitlines() if it.startswith("| ")]
        self.assertEqual([it for it in rows if not it.startswith(("| Promise", "| Call"))], [
            "| A page has its number | `low` `Page::of`: `number` .. `most`<br>"
            "`low` `read`: `number` |",
            "| It is within the most | `low` `fitted`: its clause |",
            "| `read` | `low/src/pages.rt` | none | `test_low/a_page_keeps_its_number` |",
            "| `Page::of` | `low/src/pages.rt` | `low/number_is_lost` | "
            "`test_low/a_page_keeps_its_number` |",
            "| `fitted` | `low/src/pages.rt` | `low/number_is_lost` | through `low` `Page::of` |",
            "| A run keeps all | `exsm_run` `run`: `kept` |",
            "| `run` | `exsm_run/src/lib.rt` | none | `exsm (stored)` |"])

    def test_stored(self) -> None:
        """a stored program counts as a test of what it calls in crates that are for tests alone"""
        self.change("crates.txt", "test_low: low\n",
                    "test_low: low\npictures: low\nshown: pictures\n")
        self.write("crates/pictures/src/lib.rt",
                   "//! Pictures of pages.\nuse low::pages::MOST;\n\n/// A page's picture.\n"
                   "pub fn picture(number: u32) -> u32\n    ensures { result ≤ 9 }\n{\n"
                   "    lines_of(number)\n}\n\n"
                   "fn lines_of(number: u32) -> u32\n    ensures { result ≤ 9 }\n{\n"
                   "    number.min(MOST)\n}\n")
        self.write("crates/shown/src/main.rt",
                   "//! Shows a page.\nuse pictures::picture;\n\nfn main() {\n    picture(1);\n}\n")
        self.write("crates/shown/stdout", "1\n")
        self.write("docs/PROMISES.md", self.text("docs/PROMISES.md")
                   + "\n## pictures\n\n| Promise | Call | Clauses |\n|---|---|---|\n"
                   "| A picture has few lines | `picture`, `lines_of` | its clause |\n")
        self.assertEqual(self.script("promises.py").status, 0)
        rows = self.text("docs/MAP.md").splitlines()
        self.assertEqual([it for it in rows if it.startswith(("| `picture`", "| `lines_of`"))], [
            "| `picture` | `pictures/src/lib.rt` | none | `shown (stored)` |",
            "| `lines_of` | `pictures/src/lib.rt` | none | through `pictures` `picture` |"])

    def test_gone(self) -> None:
        """each kind of name that is gone is told, with its document and row, and the status is 1"""
        for what, (name, old, new, told) in GONE.items():
            with self.subTest(what):
                was = self.text(name)
                self.change(name, old, new)
                ran = self.script("promises.py")
                self.write(name, was)
                self.assertEqual((ran.status, ran.errors), (1, []))
                self.assertEqual(ran.lines[:-1], told)
                self.assertIn(f" {len(told)} names that are gone", ran.lines[-1])

    def test_kept(self) -> None:
        """an edit that the gate leaves out is in brackets in the map, and is held to its text"""
        self.write("tools/edits/exsm_run/first_page_is_read.edit",
                   "file: src/lib.rt\nold:     Page::of(number).read()\n"
                   "new:     Page::of(1).read()\n")
        self.assertEqual(self.script("promises.py").status, 0)
        self.assertIn("| `run` | `exsm_run/src/lib.rt` | (`exsm_run/first_page_is_read`) | ",
                      self.text("docs/MAP.md"))
        self.change("crates/exsm_run/src/lib.rt", "Page::of(number).read()", "number")
        ran = self.script("promises.py")
        self.assertEqual((ran.status, ran.lines[:-1]), (1, [
            "tools/edits/exsm_run/first_page_is_read.edit: its old text doesn't stand once in its "
            "file"]))

    def test_lone(self) -> None:
        """an edit that no promised call leads to is told, and passes"""
        self.write("crates/exsm/must-fail/another_number.edit",
                   "file: src/main.rt\nold:     run(1);\nnew:     run(2);\n")
        ran = self.script("promises.py")
        self.assertEqual((ran.status, ran.lines[-1].split("; ")[1]),
                         (0, "1 must-fail edits go with none"))
        self.assertIn("\n`exsm/another_number`\n", self.text("docs/MAP.md"))
