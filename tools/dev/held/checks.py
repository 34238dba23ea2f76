"""The must-fail edits and the tests that go with a call."""
from __future__ import annotations

import re
from collections import defaultdict
from pathlib import Path
from typing import Iterator, NamedTuple, Optional

from crate_code import (Function, Sources, edits_of, has_file, kept_edits_of, text_of,
                        with_below)

# The most tests that are told of one call.
TESTS_MOST = 4

# A call: its crate and its full name.
Call = tuple[str, str]
Tests = dict[Call, list[str]]


class Edit(NamedTuple):
    """A must-fail edit of a crate, and whether it is one of those that the gate tries."""

    crate: str
    path: str
    is_tried: bool

    def told(self) -> str:
        """Its name as the map has it, in brackets where the gate leaves it out."""
        name = f"`{self.crate}/{Path(self.path).stem}`"
        return name if self.is_tried else f"({name})"


def edits_of_crate(crate: str) -> Iterator[Edit]:
    """The must-fail edits of a crate, those that the gate tries first."""
    yield from (Edit(crate, path, True) for path in edits_of(crate))
    yield from (Edit(crate, path, False) for path in kept_edits_of(crate))


def edited_functions(sources: Sources, crate: str, path: str) -> Optional[list[Function]]:
    """The functions that an edit changes, or those that name the constant that it changes.

    None where it can't be applied, since its old text doesn't stand once in its file.
    """
    text = text_of(path)
    of, old = re.search(r"(?m)^file: (\S+)", text), re.search(r"(?m)^old: (.*)", text)
    if not of or not old or not has_file(f"crates/{crate}/{of[1]}"):
        return None
    file = f"crates/{crate}/{of[1]}"
    code = text_of(file)
    if code.count(old[1]) != 1:
        return None
    line = code[: code.index(old[1])].count("\n") + 1
    functions = sources.functions[crate]
    inside = [it for it in functions if it.path == file and it.line <= line <= it.end]
    constant = re.search(r"const (\w+)", old[1])
    if not inside and constant:
        return [it for it in functions if constant[1] in it.names]
    return inside[-1:]


def edits_by_function(sources: Sources, crates: list[str]) -> dict[Call, list[Edit]]:
    """For each call of some crates, the must-fail edits that change something it leads to."""
    found: dict[Call, list[Edit]] = defaultdict(list)
    for crate in crates:
        for edit in edits_of_crate(crate):
            for it in sources.leads_to(crates, edited_functions(sources, crate, edit.path) or []):
                found[it.crate, it.full()].append(edit)
    return found


def faults_of_edits(sources: Sources) -> Iterator[str]:
    """The must-fail edits that can't be applied."""
    for crate in sources.crates:
        for edit in edits_of_crate(crate):
            if edited_functions(sources, crate, edit.path) is None:
                yield f"{edit.path}: its old text doesn't stand once in its file"


def reached_by(test: Function, functions: list[Function]) -> tuple[set[str], set[str]]:
    """The names that a test and its helpers call, and all names that they have."""
    # In a crate that has code of its own, helpers are those of the test's file.
    is_alone = not any(it.is_public and not it.is_test for it in functions)
    reached, calls, names = [test], set[str](), set[str]()
    for it in reached:
        calls |= it.calls
        names |= it.names
        reached += [other for other in functions if other.name in it.calls
                    and (is_alone or other.path == it.path) and other not in reached]
    return calls, names


def tests_by_name(sources: Sources) -> Tests:
    """For each call, the tests that call it, or whose helpers do, and stored programs."""
    found: Tests = defaultdict(list)
    for crate, functions in sources.functions.items():
        for test in (it for it in functions if it.is_test):
            calls, names = reached_by(test, functions)
            for other in (crate, *sources.below.get(crate, [])):
                for it in sources.functions.get(other, []):
                    # Many types have a method of one name, so it counts with its type's alone.
                    if it.name in calls and (not it.owner or it.owner in names):
                        found[other, it.full()].append(f"{crate}/{test.name}")
    for crate in sources.crates:
        if has_file(f"crates/{crate}/stdout"):
            for call in stored_calls(sources, crate):
                found[call].append(f"{crate} (stored)")
    return found


def stored_calls(sources: Sources, crate: str) -> Iterator[Call]:
    """What a stored program calls: the `run` of crates, and anything of those for tests alone."""
    products = set(with_below("exsm"))
    for below in sources.below[crate]:
        for it in sources.functions.get(below, []):
            of_tests = below not in products and it.is_public and not it.of_trait
            if it.full() == "run" or of_tests and any(
                    it.is_called_by(own) for own in sources.functions[crate]):
                yield it.crate, it.full()


def through(sources: Sources, tests: Tests, function: Function) -> list[str]:
    """The nearest calls above a function that tests name."""
    ring, seen = [function], {function}
    while ring:
        above = [caller for it in ring for caller in sources.callers(it)]
        ring = [it for it in dict.fromkeys(above) if it not in seen]
        seen |= set(ring)
        tried = [it for it in ring if tests.get((it.crate, it.full()))]
        if tried:
            return [f"through `{it.crate}` `{it.full()}`" for it in tried[:2]]
    return []


def told_tests(sources: Sources, tests: Tests, functions: list[Function]) -> list[str]:
    """What is told of the tests of some functions."""
    found = list(dict.fromkeys(
        test for it in functions for test in tests.get((it.crate, it.full()), [])))
    if not found:
        above = (it for function in functions for it in through(sources, tests, function))
        return list(dict.fromkeys(above))[:2]
    more = [f"and {len(found) - TESTS_MOST} more"] if len(found) > TESTS_MOST else []
    return [*(f"`{it}`" for it in found[:TESTS_MOST]), *more]
