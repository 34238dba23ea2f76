"""A small repository of four crates, on which the scripts of tools/dev are tried."""
from __future__ import annotations

import shutil
import sys
from pathlib import Path

from tests.support import TOP, InFolder, Ran

# git as someone whom the machine needn't know.
GIT = ["git", "-c", "user.name=toy", "-c", "user.email=toy@example.org"]

CRATES = """# The crates, lowest first.

# base: pages
low: byteorder

# top: the line
exsm_run: low

# programs: exsm
exsm: exsm_run

# tests: for tests alone
test_low: low
"""

PAGES = """ghost use Rattle.low.specs.Pages.{Spelled};

use byteorder::BigEndian;

/// The most pages.
pub const MOST: u32 = 9;

/// A page.
pub struct Page {
    number: u32,
}

/// What gives numbers.
pub trait Reads {
    ghost ready: Type;

    fn read(&self) -> u32
        ensures number { IsTrue ready };
}

impl Reads for Page {
    ghost ready = ℕ;

    fn read(&self) -> u32 {
        self.number
    }
}

impl Page {
    /// A page of a number.
    pub fn of(number: u32) -> Page
        ensures number { result.number ≡ number.now }
        ensures most {
            result.number ≤ MOST
        }
    {
        // never gone(number)
        fitted(number)
    }
}

/// A number within the most.
fn fitted(number: u32) -> Page
    ensures { result.number ≤ 9 }
{
    Page { number: number.min(MOST) }
}
"""

EDIT = """file: src/pages.rt
old:     Page { number: number.min(MOST) }
new:     Page { number: 0 }
"""

ARCHITECTURE = """# Architecture

## The picture

What stands in brackets are the crates, see [TOUR](TOUR.md).

```
 1 LINE  what is asked
   |    [exsm
   |     exsm_run]
 2 PAGES  what is kept
        [low]
```

## The layers

<!-- written by tools/dev/crates.py --write -->
<!-- end of what it writes -->
"""

PROMISES = """# Promises

Trusted: `byteorder`.

## low

| Promise | Call | Clauses |
|---|---|---|
| A page has its number | `Page::of`; `read` | `number` .. `most`; `number` |
| It is within the most | `fitted` | its clause |

## exsm_run

| Promise | Call | Clauses |
|---|---|---|
| A run keeps all | `run` | `kept` (`whole` of `Spelled`) |
"""

README = """# Toy

**Trusted**: `byteorder`.

| What | Clause of `run` |
|---|---|
| all is kept | `kept` |

The fields of the record `Spelled`:

| What | Field |
|---|---|
| all | `whole` |
"""

TOUR = """# Tour

## Line

| Step | File | Functions |
|---|---|---|
| a run | `exsm_run/src/lib.rt` | `run` |
| a page | `low/src/pages.rt` | `Page::of`, `fitted` |

## Ways

| Way | Sections | Files | Why |
|---|---|---|---|
| a line | Line | 2 | all |
"""

FILES = {
    "crates.txt": CRATES,
    "crates/low/src/lib.rt": "//! Pages and their numbers.\npub mod pages;\n",
    "crates/low/src/pages.rt": PAGES,
    "crates/low/specs/Pages.antt":
        "-- What a run keeps.\npub record Spelled where\n    whole : ℕ\n    last : ℕ\n"
        "other : ℕ\n    later : ℕ\n",
    "crates/low/must-fail/number_is_lost.edit": EDIT,
    "crates/exsm_run/src/lib.rt":
        "//! The line. More of it.\nuse low::pages::Page;\n\n/// Runs.\n"
        "pub fn run(number: u32) -> u32\n    ensures kept { Spelled result }\n{\n"
        "    Page::of(number).read()\n}\n",
    "crates/exsm/src/main.rt":
        "//! The program.\nuse exsm_run::run;\n\nfn main() {\n    run(1);\n}\n",
    "crates/exsm/stdout": "1\n",
    "crates/test_low/src/lib.rt":
        "//! Tests of pages.\nuse low::pages::Page;\n\n#[test]\n"
        "fn a_page_keeps_its_number() {\n    assert(made().read() == 1);\n}\n\n"
        "fn made() -> Page {\n    Page::of(1)\n}\n",
    "README.md": README,
    "docs/ARCHITECTURE.md": ARCHITECTURE,
    "docs/DECISIONS.md": "# Decisions\n\n## Blocks that stand alike\n\nNone.\n\n## Others\n",
    "docs/EDITS.md": "# Edits\n\n| Edit | What |\n|---|---|\n| `low/number_is_lost` | lost |\n",
    "docs/GATE.md": "# Gate\n\n| `low` | 7 | 3 | 5 (2) |\n| `exsm_run` | 2* | 0 | 0 |\n"
                    "| `exsm` | 1 | 0 | 0 |\n| `test_low` | 2 | 1 | 0 |\n",
    "docs/GLOSSARY.md":
        "# Glossary\n\n| Word | What | File | Name |\n|---|---|---|---|\n"
        "| page | what is read | `low/src/pages.rt` | `Page`, `MOST` |\n",
    "docs/PROMISES.md": PROMISES,
    "docs/TOUR.md": TOUR,
}


class InToy(InFolder):
    """A test in the small repository, which has the scripts of tools/dev."""

    def setUp(self) -> None:
        super().setUp()
        for name, text in FILES.items():
            self.write(name, text)
        shutil.copytree(TOP / "tools" / "dev", "tools/dev",
                        ignore=shutil.ignore_patterns("__pycache__"))

    def write(self, name: str, text: str) -> None:
        """Writes a file of the repository."""
        Path(name).parent.mkdir(parents=True, exist_ok=True)
        Path(name).write_text(text, encoding="utf-8")

    def text(self, name: str) -> str:
        """The text of a file of the repository."""
        return Path(name).read_text(encoding="utf-8")

    def change(self, name: str, old: str, new: str) -> None:
        """Changes a text that stands once in a file."""
        self.assertEqual(self.text(name).count(old), 1, (name, old))
        self.write(name, self.text(name).replace(old, new))

    def script(self, name: str, *words: object) -> Ran:
        """Runs a script of tools/dev."""
        return self.run_words(sys.executable, f"tools/dev/{name}", *words)
