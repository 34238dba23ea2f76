#!/usr/bin/env python3
"""Prints how the crates of crates.txt hang together: levels, chains, sizes, edges and layers.

    tools/dev/crates.py            prints all of it
    tools/dev/crates.py --check    says what breaks a rule, with status 1 where something does
    tools/dev/crates.py --write    writes the layers into docs/ARCHITECTURE.md, between two marks

The rules: the longest chain to a top, exsm or exsm_c, has at most ten crates, a crate at most 100
functions and four must-fail edits beside those of docs/EDITS.md, which are all there; each crate
stands in a band of crates.txt behind all that it stands on, and each crate of a top in one box of
ARCHITECTURE's picture; no crate is named that no file uses; the documents name each ported crate
among what is trusted, and have the layers that --write would write.

A level is one more than the highest level below. A weight is a crate's lines of code, contracts
and proofs. Lines are counted without blank ones and comments; a contract is a clause or a ghost
item; what stands in specs/ is a definition, in proofs/ a proof. The seconds of a chain are those
that the table of docs/GATE.md has for the proofs of its crates.
"""
from __future__ import annotations

import os
import re
import sys
from pathlib import Path
from typing import Iterable, Iterator

sys.dont_write_bytecode = True

from crate_code import (  # noqa: E402
    TOP, edits_of, files_below, named_crates, text_of, write_text)
from marks import Marks, NoMarks  # noqa: E402
from words import parser_of  # noqa: E402

PROGRAM = "exsm"
# The static library beside the program.
LIBRARY = "exsm_c"
CHAIN_MOST, FUNCTIONS_MOST, EDITS_MOST = 10, 100, 4
ROW_MOST = 92
PAGE, EDITS, GATE = "docs/ARCHITECTURE.md", "docs/EDITS.md", "docs/GATE.md"
MARKS = Marks("<!-- written by tools/dev/crates.py --write -->", "<!-- end of what it writes -->")
# The section of the page with the boxes. What stands in brackets are the crates of a box.
PICTURE = "## The picture\n"
# Where the documents say which ported crates are trusted.
TRUSTED = (("README.md", "**Trusted**"), ("docs/PROMISES.md", "Trusted:"))

CLAUSE = re.compile(r"(requires|ensures|ghost|decreases|invariant)\b")
FUNCTION = re.compile(r"(pub(\([a-z]+\))? )?(const )?(unsafe )?fn \w")
COLUMNS = ("functions", "code", "contract", "spec", "proof", "tests", "edits")


def named_edits() -> list[str]:
    """The must-fail edits that docs/EDITS.md names, each as CRATE/NAME."""
    return re.findall(r"(?m)^\| `(\w+/\w+)` \|", text_of(EDITS))


def seconds_of_proofs() -> dict[str, int]:
    """The seconds of each crate's proof that the table of docs/GATE.md has."""
    rows = re.findall(r"(?m)^\| `(\w+)` \| ([\d,]+)\*? \|", text_of(GATE))
    return {name: int(seconds.replace(",", "")) for name, seconds in rows}


def short(words: str) -> str:
    """The first words of a sentence, up to a mark, where it is too long for a row."""
    if len(words) <= ROW_MOST:
        return words
    for marks, least in (("[:;] ", 36), (", ", 16)):
        found = [it.start() for it in re.finditer(marks, words) if least <= it.start() <= ROW_MOST]
        if found:
            return words[: found[-1]]
    return words[:ROW_MOST].rsplit(" ", 1)[0] + " .."


class Crate:
    """A crate of crates.txt: its band, what it stands on, and what its files hold."""

    def __init__(self, name: str, band: str, named: list[str], own: Iterable[str]) -> None:
        self.name, self.band = name, band
        self.below = [it for it in named if it in own]
        self.of_kit = [it for it in named if it not in own]
        self.folder = f"crates/{name}"
        self.functions = self.tests = self.code = self.contract = self.spec = self.proof = 0
        self.about = ""
        # The crates that the code, the definitions and the proofs name.
        self.uses: dict[str, set[str]] = {"code": set(), "specs": set(), "proofs": set()}
        for part in ("src", "specs", "proofs"):
            for path in files_below(f"crates/{name}/{part}", ".rt"):
                self._read_code(path)
            for path in files_below(f"crates/{name}/{part}", ".antt"):
                self._read_definitions(path, part)
        found = {f"{name}/{Path(it).stem}" for it in edits_of(name)}
        must_stand = {it for it in named_edits() if it.startswith(f"{name}/")}
        self.edits, self.own_edits = len(found), len(found - must_stand)
        self.lost_edits = sorted(must_stand - found)

    def _read_code(self, path: str) -> None:
        """Counts the lines of a file of code, and notes what it names."""
        text = text_of(path)
        if os.path.relpath(path, f"{self.folder}/src") in ("lib.rt", "main.rt"):
            about = " ".join(it[3:].strip() for it in text.split("\n") if it.startswith("//!"))
            self.about = short(about.split(". ")[0].rstrip("."))
        self.uses["specs"] |= set(re.findall(r"\bRattle\.(\w+)\.", text))
        # How many brackets an open clause still has.
        open_clause = 0
        for line in (it.strip() for it in text.split("\n")):
            if not line or line.startswith("//"):
                continue
            if open_clause or CLAUSE.match(line):
                self.contract += 1
                open_clause += line.count("{") - line.count("}")
                continue
            self.code += 1
            self.functions += bool(FUNCTION.match(line))
            self.tests += line == "#[test]"
            self.uses["code"] |= set(re.findall(r"\b([a-z_0-9]+)::", line))
            self.uses["code"] |= set(re.findall(r"^(?:pub )?use (\w+)", line))

    def _read_definitions(self, path: str, part: str) -> None:
        """Counts the lines of a file of definitions or proofs, and notes what it names."""
        for line in (it.strip() for it in text_of(path).split("\n")):
            if line and not line.startswith("--"):
                if part == "specs":
                    self.spec += 1
                else:
                    self.proof += 1
                self.uses[part] |= set(re.findall(r"\bRattle\.(\w+)\.", line))

    def weight(self) -> int:
        """Its lines that are checked."""
        return self.code + self.contract + self.proof

    def used_in(self, other: str) -> list[str]:
        """Which parts of this crate name the other."""
        return [part for part, names in self.uses.items() if other in names]


Crates = dict[str, Crate]


def read_crates() -> tuple[Crates, dict[str, str]]:
    """The crates in the order of crates.txt, and the bands with their words in that order."""
    named = named_crates()
    crates: Crates = {}
    bands: dict[str, str] = {}
    band = ""
    for line in text_of("crates.txt").split("\n"):
        of_band = re.fullmatch(r"# (\w[\w ]*): (.*)", line)
        if of_band:
            band = of_band[1]
            bands[band] = of_band[2]
        elif ":" in line and not line.startswith("#"):
            name = line.split(":")[0].split()[0]
            crates[name] = Crate(name, band, named[name], named)
    return crates, bands


class Graph:
    """The crates with their levels, all that is below each, and their heaviest chains."""

    def __init__(self, crates: Crates) -> None:
        self.crates = crates
        self.levels: dict[str, int] = {}
        self.all_below: dict[str, set[str]] = {}
        self.heaviest: dict[str, int] = {}
        for name in crates:
            self._note(name)

    def _note(self, name: str) -> int:
        """Notes what is known of a crate once it is known of those that it stands on."""
        if name not in self.levels:
            crate = self.crates[name]
            self.levels[name] = 1 + max((self._note(it) for it in crate.below), default=0)
            self.all_below[name] = set(crate.below).union(
                *(self.all_below[it] for it in crate.below))
            self.heaviest[name] = crate.weight() + max(
                (self.heaviest[it] for it in crate.below), default=0)
        return self.levels[name]

    def chain(self, name: str, by: dict[str, int]) -> list[str]:
        """The chain to a crate that has the most by a measure of chains, the crate last."""
        found = [name]
        while self.crates[found[0]].below:
            found.insert(0, max(self.crates[found[0]].below, key=lambda it: (by[it], it)))
        return found

    def sums(self, measure: dict[str, int]) -> dict[str, int]:
        """The greatest sum of a measure along a chain to each crate."""
        found: dict[str, int] = {}
        for name in sorted(self.crates, key=lambda it: self.levels[it]):
            below = (found[it] for it in self.crates[name].below)
            found[name] = measure.get(name, 0) + max(below, default=0)
        return found

    def reduced(self, name: str) -> list[str]:
        """What a crate stands on that no other crate below it stands on."""
        below = self.crates[name].below
        return [it for it in below if not any(it in self.all_below[other] for other in below)]

    def above(self, name: str) -> list[str]:
        """The crates that stand on a crate, or on one that does."""
        return [it for it in self.crates if name in self.all_below[it]]


def layers(crates: Crates, bands: dict[str, str]) -> str:
    """Draws the bands from the top down, each crate with the first line of its code."""
    rows: list[str] = []
    width = max((len(it) for it in crates), default=0)
    for band in reversed(bands):
        inside = [it for it in crates.values() if it.band == band]
        rows += ["", f"{band.upper()}: {bands[band]}"]
        rows += [f"  {it.name:{width}}  {it.about}".rstrip() for it in reversed(inside)]
    return "\n".join(["```", *rows[1:], "```"])


def arrows(names: list[str]) -> str:
    """A chain, the lowest crate first."""
    return " ← ".join(f"`{it}`" for it in names)


def chains(graph: Graph) -> str:
    """Says the longest chain to the program and the heaviest one of all."""
    longest = graph.chain(PROGRAM, graph.levels)
    top = max(graph.crates, key=lambda it: graph.heaviest[it])
    whole = sum(it.weight() for it in graph.crates.values())
    share = 100 * graph.heaviest[top] / whole
    return (
        f"The longest chain to `{PROGRAM}` has {len(longest)} crates: {arrows(longest)}.\n\n"
        f"The heaviest chain has {graph.heaviest[top]:,} of all {whole:,} lines of code, "
        f"contracts and proofs, {share:.0f} %: {arrows(graph.chain(top, graph.heaviest))}. A gate "
        "that proves all takes at least as long as these crates take one after the other, however "
        "many processors there are."
    )


def seconds_of_chains(graph: Graph) -> str:
    """Says the chain whose proofs take the most seconds by docs/GATE.md."""
    seconds = seconds_of_proofs()
    sums = graph.sums(seconds)
    top = max(graph.crates, key=lambda it: sums[it])
    ways = " ← ".join(f"`{it}` ({seconds.get(it, 0)})" for it in graph.chain(top, sums))
    return (f"The proofs of the heaviest chain take {sums[top]:,} of all "
            f"{sum(seconds.values()):,} seconds of {GATE}: {ways}.")


def page_with(crates: Crates, bands: dict[str, str], graph: Graph) -> str:
    """The page with its layers and chains."""
    return MARKS.replaced(text_of(PAGE), f"{layers(crates, bands)}\n\n{chains(graph)}")


def boxes() -> list[list[str]]:
    """The crates that stand in each box of the page's picture."""
    section = text_of(PAGE).partition(PICTURE)[2].partition("\n## ")[0]
    drawn = "".join(section.split("```")[1:2])
    return [re.findall(r"\w+", it) for it in re.findall(r"\[([^\]]*)\]", drawn)]


def tops(graph: Graph) -> list[str]:
    """The crates that are built for users: the program and the library."""
    return [it for it in (PROGRAM, LIBRARY) if it in graph.crates]


def faults_of_boxes(graph: Graph) -> Iterator[str]:
    """The crates of the tops that don't stand in one box, and others that stand in one."""
    if PROGRAM not in graph.crates:
        return
    found = tops(graph)
    product = [it for it in graph.crates
               if it in found or any(it in graph.all_below[top] for top in found)]
    drawn = [name for box in boxes() for name in box]
    for name in product:
        if drawn.count(name) != 1:
            yield f"{name} stands in {drawn.count(name)} boxes of {PAGE}'s picture, not in one"
    for name in dict.fromkeys(drawn):
        if name not in product:
            yield f"{PAGE}'s picture has a crate {name}, on which {PROGRAM} doesn't stand"


def unused(crates: Crates) -> list[tuple[str, str]]:
    """The edges that no file uses."""
    return [(it.name, other) for it in crates.values() for other in (*it.below, *it.of_kit)
            if not it.used_in(other)]


def for_proofs(crates: Crates) -> list[tuple[str, str]]:
    """The edges that proofs alone use."""
    return [(it.name, other) for it in crates.values() for other in it.below
            if it.used_in(other) == ["proofs"]]


def faults_of_crates(crates: Crates) -> Iterator[str]:
    """The rules about a crate by itself that are broken."""
    for edit in named_edits():
        if edit.split("/")[0] not in crates:
            yield f"{EDITS} names {edit}, and there is no such crate"
    seen: set[str] = set()
    for it in crates.values():
        if it.functions > FUNCTIONS_MOST:
            yield f"{it.name} has {it.functions} functions, above {FUNCTIONS_MOST}"
        if it.own_edits > EDITS_MOST:
            yield (f"{it.name} has {it.own_edits} must-fail edits beside those of {EDITS}, above "
                   f"{EDITS_MOST}")
        for edit in it.lost_edits:
            yield f"{EDITS} names {edit}, and there is no such edit"
        if not it.band:
            yield (f"{it.name} stands in no band of crates.txt: a band begins with a line "
                   "'# NAME: what it is'")
        if not os.path.isdir(TOP / it.folder / "src"):
            yield f"{it.name} stands in crates.txt and has no folder"
        elif not it.about:
            yield f"{it.name} has no line //! that says what it is"
        for other in it.below:
            if other not in seen:
                yield (f"an edge goes up: {it.name} stands in crates.txt before {other}, on "
                       "which it stands")
        seen.add(it.name)
    for name, other in unused(crates):
        yield f"{name} names {other} in crates.txt, and no file of it does"


def faults_of_trust(crates: Crates) -> Iterator[str]:
    """The ported crates that a document doesn't name among what is trusted."""
    ported = sorted({other for it in crates.values() for other in it.of_kit if it.used_in(other)})
    for path, word in TRUSTED:
        trusted = text_of(path).partition(word)[2].partition("\n\n")[0]
        for name in ported:
            if f"`{name}`" not in trusted:
                yield f"{path} doesn't say that {name} is trusted"


def faults_of(crates: Crates, bands: dict[str, str], graph: Graph) -> Iterator[str]:
    """A line for each rule that is broken."""
    for top in tops(graph):
        longest = graph.chain(top, graph.levels)
        if len(longest) > CHAIN_MOST:
            yield (f"the longest chain to {top} has {len(longest)} crates, above {CHAIN_MOST}: "
                   f"{' '.join(longest)}")
    yield from faults_of_crates(crates)
    yield from faults_of_trust(crates)
    yield from faults_of_boxes(graph)
    try:
        if page_with(crates, bands, graph) != text_of(PAGE):
            yield f"{PAGE} has old layers: run tools/dev/crates.py --write"
    except NoMarks as fault:
        yield f"{PAGE} has no place for the layers: {fault}"


def report_sizes(crates: Crates, graph: Graph) -> None:
    """Prints the table of sizes, the heaviest crate first."""
    print("crate             level  functions   code  contract   spec   proof  tests  edits  above")
    widths = (9, 5, 8, 5, 6, 5, 5)
    for it in sorted(crates.values(), key=lambda it: -it.weight()):
        numbers = "  ".join(f"{getattr(it, part):{width}}"
                            for part, width in zip(COLUMNS, widths))
        above = len(graph.above(it.name))
        print(f"{it.name:16}  {graph.levels[it.name]:5}  {numbers}  {above:5}")
    whole = "  ".join(f"{sum(getattr(it, part) for it in crates.values()):{width}}"
                      for part, width in zip(COLUMNS, widths))
    print(f"{'all':16}         {whole}\n")


def report_edges(crates: Crates, graph: Graph) -> None:
    """Prints the edges that say more than the others do, and those that say too much."""
    edges = sum(len(it.below) for it in crates.values())
    print(f"{edges} edges; those that no longer way also makes:")
    for name in crates:
        if crates[name].below:
            print(f"  {name} <- {' '.join(graph.reduced(name))}")
    for what, pairs in (("that no file uses", unused(crates)),
                        ("for proofs alone", for_proofs(crates))):
        print(f"\nedges {what}:")
        for name, other in pairs:
            print(f"  {name} <- {other}")


def report(crates: Crates, bands: dict[str, str], graph: Graph) -> None:
    """Prints all that is known of the crates."""
    print("level  crates")
    for level in range(1, max(graph.levels.values()) + 1):
        print(f"{level:5}  {' '.join(it for it in crates if graph.levels[it] == level)}")
    print(f"\n{chains(graph)}\n\n{seconds_of_chains(graph)}\n")
    report_sizes(crates, graph)
    report_edges(crates, graph)
    for what, part, most in (("functions", "functions", FUNCTIONS_MOST),
                             ("must-fail edits of their own", "own_edits", EDITS_MOST)):
        more = [f"{it.name} ({getattr(it, part)})" for it in crates.values()
                if getattr(it, part) > most]
        print(f"\ncrates above {most} {what}: {' '.join(more) or 'none'}", end="")
    print(f"\n\n{layers(crates, bands)}")


def main() -> int:
    """Prints, writes or checks, and gives the exit status."""
    parser = parser_of(__doc__)
    parser.add_argument("--check", action="store_true", help="say what breaks a rule")
    parser.add_argument("--write", action="store_true", help="write the layers into the page")
    words = parser.parse_args()
    crates, bands = read_crates()
    graph = Graph(crates)
    if words.write:
        try:
            write_text(PAGE, page_with(crates, bands, graph))
        except NoMarks as fault:
            sys.exit(f"{PAGE} has no place for the layers: {fault}")
    if words.check:
        found = list(faults_of(crates, bands, graph))
        print("\n".join([*found, f"{len(crates)} crates, {len(found)} rules broken"]))
        return 1 if found else 0
    if not words.write:
        report(crates, bands, graph)
    return 0


if __name__ == "__main__":
    sys.exit(main())
