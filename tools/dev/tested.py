#!/usr/bin/env python3
"""Writes what the tools' tests cover into docs/TESTS.md: the sentences of tools/tests.

    tools/dev/tested.py            prints them
    tools/dev/tested.py --write    writes them into the page, between its marks
    tools/dev/tested.py --check    ends with status 1 where the page doesn't have them
"""
from __future__ import annotations

import ast
import sys
from pathlib import Path

sys.dont_write_bytecode = True

from marks import Marks, NoMarks  # noqa: E402
from words import parser_of  # noqa: E402

TOP = Path(__file__).resolve().parent.parent.parent
TESTS = TOP / "tools" / "tests"
PAGE = TOP / "docs" / "TESTS.md"
MARKS = Marks("<!-- written by tools/dev/tested.py -->", "<!-- end of what it writes -->")


def sentence(node: ast.AST) -> str:
    """The first sentence that stands at the head of a file or a function, on one line."""
    text = ast.get_docstring(node) or ""  # type: ignore[arg-type]
    return " ".join(text.split("\n\n")[0].split()).rstrip(".")


def tests_of(module: ast.Module) -> list[str]:
    """What each test of a file says."""
    classes = [it for it in module.body if isinstance(it, ast.ClassDef)]
    found = [it for of in classes for it in of.body
             if isinstance(it, ast.FunctionDef) and it.name.startswith("test_")]
    return [sentence(it) or it.name.removeprefix("test_").replace("_", " ") for it in found]


def text() -> str:
    """A part for each file of tests, and how many there are."""
    parts, count = [], 0
    for file in sorted(TESTS.glob("test_*.py")):
        module = ast.parse(file.read_text(encoding="utf-8"))
        tests = tests_of(module)
        count += len(tests)
        about = sentence(module)
        head = f"**{file.name}**: {about[:1].lower()}{about[1:]}.\n\n"
        parts.append(head + "\n".join(f"- {it}" for it in tests))
    return "\n\n".join([f"{count} tests in {len(parts)} files.", *parts])


def main() -> int:
    """Prints, writes or checks, and gives the exit status."""
    parser = parser_of(__doc__)
    parser.add_argument("--write", action="store_true", help="write the page")
    parser.add_argument("--check", action="store_true", help="compare the page")
    words = parser.parse_args()
    if not words.write and not words.check:
        print(text())
        return 0
    page = PAGE.read_text(encoding="utf-8")
    try:
        whole = MARKS.replaced(page, text())
    except NoMarks as fault:
        sys.exit(f"tested: docs/TESTS.md has no place for them: {fault}")
    if words.write:
        PAGE.write_text(whole, encoding="utf-8")
    elif page != whole:
        print("docs/TESTS.md is old: run tools/dev/tested.py --write")
        return 1
    return 0


if __name__ == "__main__":
    sys.exit(main())
