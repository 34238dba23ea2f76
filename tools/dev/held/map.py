"""MAP: each promise with its clauses, and each call with its must-fail edits and tests.

A must-fail edit goes with the calls of its crate that lead to the function that it edits. A test
goes with the calls that its function or a helper of it names; a stored program goes with `run`.
"""
from __future__ import annotations

from collections import defaultdict

from crate_code import Function, Sources
from held.checks import (
    Call, Edit, Tests, edits_by_function, edits_of_crate, tests_by_name, told_tests)
from held.promises import Calls, Page, Row

PAGE = "docs/MAP.md"
HEAD = """# Map

Each promise of [PROMISES.md](PROMISES.md) with the clauses that carry it, and each call with \
the must-fail edits that change what it leads to and the tests that name it. An edit that the \
gate leaves out, of `tools/edits`, stands in brackets, and a test of a call above as `through`. \
Written by `tools/dev/promises.py`, which fails where a name is gone."""


def promise_row(row: Row, shown: Calls) -> str:
    """A row of the first table, which notes the calls that it shows."""
    by_call: dict[str, list[str]] = defaultdict(list)
    for names, clause in row.told:
        for name in names or [""]:
            by_call[name].append(clause)
    cells = []
    for name, clauses in by_call.items():
        functions = row.calls.get(name, [])
        # A type or a trait stands for all its methods.
        full = functions[0].full() if len(functions) == 1 else name
        shown.setdefault(full, functions)
        words = [*(it.crate for it in functions[:1]), name]
        called = " ".join(f"`{it}`" for it in words if it)
        cells.append(f"{called}: {', '.join(dict.fromkeys(clauses))}")
    return f"| {row.promise} | {'<br>'.join(cells)} |"


def call_row(sources: Sources, label: str, functions: list[Function],
             edits: dict[Call, list[Edit]], tests: Tests) -> tuple[str, list[Edit]]:
    """A row of the second table, and the edits that it tells."""
    told = list(dict.fromkeys(
        edit for it in functions for edit in edits.get((it.crate, it.full()), [])))
    of_edits = ", ".join(it.told() for it in told) or "none"
    of_tests = ", ".join(told_tests(sources, tests, functions)) or "none"
    where = functions[0].path[len("crates/"):]
    return f"| `{label}` | `{where}` | {of_edits} | {of_tests} |", told


def section_of(page: Page, section: str, tests: Tests, told: set[Edit]) -> list[str]:
    """The lines of a section, which notes the edits that it tells."""
    sources = page.sources
    edits = edits_by_function(sources, sources.crates_of(section))
    shown: Calls = {}
    text = ["", f"## {section}", "", "| Promise | Clauses |", "|---|---|"]
    text += [promise_row(it, shown) for it in page.rows if it.section == section]
    text += ["", "| Call | Where | Must-fail edits | Tests |", "|---|---|---|---|"]
    in_order = sorted(shown.items(), key=lambda pair: [(it.path, it.line) for it in pair[1]])
    for label, functions in in_order:
        if functions:
            line, those = call_row(sources, label, functions, edits, tests)
            text.append(line)
            told |= set(those)
    return text


def the_map(page: Page) -> tuple[str, list[str]]:
    """The text of the page, and the edits that go with none of its calls."""
    tests = tests_by_name(page.sources)
    text, told = [HEAD], set[Edit]()
    for section in dict.fromkeys(it.section for it in page.rows):
        text += section_of(page, section, tests, told)
    edits = [edit for crate in page.sources.crates for edit in edits_of_crate(crate)]
    lone = [edit.told() for edit in edits if edit not in told]
    if lone:
        text += ["", "## Edits that no call of that page leads to", "", ", ".join(lone)]
    return "\n".join(text) + "\n", lone
