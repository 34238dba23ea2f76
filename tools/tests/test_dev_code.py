"""The reader of the crates' text that the maintainers' scripts stand on."""
from __future__ import annotations

import sys
from unittest import mock

from tests.support import TOP
from tests.toy import InToy

sys.path.append(str(TOP / "tools" / "dev"))

import crate_code  # noqa: E402


class CodeTest(InToy):
    """The small repository, as it is read."""

    def setUp(self) -> None:
        super().setUp()
        patch = mock.patch.object(crate_code, "TOP", self.folder)
        patch.start()
        self.addCleanup(patch.stop)

    def function(self, sources: crate_code.Sources, name: str, crate: str = "low"
                 ) -> crate_code.Function:
        """The one function that a name means."""
        found, = sources.find(name, [crate])
        return found

    def test_functions(self) -> None:
        """functions are read with file, lines, type and clauses, over lines and comments"""
        sources = crate_code.Sources()
        lines = self.text("crates/low/src/pages.rt").splitlines()
        of = self.function(sources, "Page::of")
        self.assertEqual((of.path, of.owner, of.of_trait, of.is_public, of.is_test),
                         ("crates/low/src/pages.rt", "Page", None, True, False))
        self.assertEqual(lines[of.line - 1].strip(), "pub fn of(number: u32) -> Page")
        self.assertEqual(of.clauses, ["number", "most"])
        self.assertEqual(of.calls, {"fitted", "number"})
        fitted = self.function(sources, "fitted")
        self.assertEqual((fitted.owner, fitted.clauses, fitted.is_public, fitted.full()),
                         (None, [""], False, "fitted"))
        self.assertEqual(fitted.end, len(lines) + 1)

    def test_exports(self) -> None:
        """an exported function is read as any other"""
        path = self.folder / "crates" / "low" / "src" / "calls.rt"
        path.write_text('#[unsafe(no_mangle)]\npub extern "C" fn low_size(x: u32) -> u32\n'
                        "    ensures code { result ≡ 0 }\n{\n    0\n}\n", encoding="utf-8")
        sizes = self.function(crate_code.Sources(), "low_size")
        self.assertEqual((sizes.clauses, sizes.is_public), (["code"], True))

    def test_traits(self) -> None:
        """a method without clauses has those of its trait, and the ghosts of its impl"""
        sources = crate_code.Sources()
        self.assertEqual(sources.members["Reads"], {"ready"})
        read = [it for it in sources.functions["low"] if it.full() == "Page::read"][0]
        self.assertEqual((read.of_trait, read.clauses, read.ghosts),
                         ("Reads", ["number"], {"ready"}))
        self.assertTrue(read.promises("number") and read.promises("ready"))
        self.assertFalse(read.promises("most"))
        self.assertEqual(sources.types, {"Page", "Reads"})

    def test_records(self) -> None:
        """the fields of a record end where another definition begins"""
        self.assertEqual(dict(crate_code.Sources().fields), {"Spelled": {"whole", "last"}})

    def test_names(self) -> None:
        """a name means a function, a method of its type, or all methods of a type"""
        sources = crate_code.Sources()
        self.assertEqual({it.full() for it in sources.find("Page", ["low"])},
                         {"Page::of", "Page::read"})
        self.assertEqual({it.full() for it in sources.find("read", ["low"])},
                         {"Reads::read", "Page::read"})
        self.assertEqual(sources.find("gone", ["low"]), [])
        self.assertEqual(sources.find("a_page_keeps_its_number", ["test_low"]), [])
        self.assertEqual(sources.crates_of("low, exsm and more"), ["low", "exsm"])

    def test_callers(self) -> None:
        """who calls a function, through others and in the crates that stand on its own"""
        sources = crate_code.Sources()
        fitted = self.function(sources, "fitted")
        names = [it.full() for it in sources.leads_to(["low", "exsm_run"], [fitted])]
        self.assertEqual(names, ["fitted", "Page::of", "run"])
        of = self.function(sources, "Page::of")
        self.assertEqual({it.full() for it in sources.callers(of)}, {"run", "made"})
        self.assertFalse(sources.knows("exsm", "low"))

    def test_crates(self) -> None:
        """the crates are those of crates.txt in its order, with what each names"""
        self.assertEqual(crate_code.named_crates(), {
            "low": ["byteorder"], "exsm_run": ["low"], "exsm": ["exsm_run"], "test_low": ["low"]})
        self.write("crates/low/out/src/built.rt", "")
        self.assertEqual(list(crate_code.files_below("crates/low", ".rt")),
                         ["crates/low/src/lib.rt", "crates/low/src/pages.rt"])
