#!/usr/bin/env python3
"""Finds blocks that stand alike in two crates, in code, definitions or proofs.

    tools/dev/alike.py                  prints each pair of such blocks, the longest first
    tools/dev/alike.py --check          ends with status 1 where a pair stands that DECISIONS
                                        doesn't name; of two files of one crate too, from 30 lines
    tools/dev/alike.py --least N        blocks of N lines and more (21)
    tools/dev/alike.py --within         blocks that stand alike in two files of one crate too
    tools/dev/alike.py --same           only blocks that are the same to the letter
    tools/dev/alike.py --near           blocks of so many alike lines with up to four others
                                        between, or in one of the two
    tools/dev/alike.py --lemmas         lemmas of two crates that state the same, but for the
                                        names that they bind

Blank lines, comments and imports don't count, and a statement that is laid out over several lines
counts them all. Two blocks are alike where they are the same but for names, and each name of one
is always the same name of the other.

A pair is accepted where docs/DECISIONS.md has a line of its section "Blocks that stand alike"
with the paths of both files in backticks and the reason behind them. A line there that no pair
needs any more fails the check too. Answers to goals of two functions pass as they are: the prover
names each goal by its function, so that no answer can stand for both.
"""
from __future__ import annotations

import itertools
import os
import re
import sys
from collections import defaultdict
from typing import Callable, Iterator, NamedTuple

sys.dont_write_bytecode = True

from crate_code import TOP, files_below, text_of  # noqa: E402
from words import parser_of  # noqa: E402

SECTION = "## Blocks that stand alike"
# The least lines of a block in two crates, and of one in two files of a crate.
LEAST, LEAST_WITHIN = 21, 30
# A name: letters of any script, digits, and the signs that may stand inside of one.
NAME = re.compile(r"[^\W\d](?:[\w'’◌≡-]*[\w'’◌])?")
IMPORT = re.compile(r"(pub(\([a-z]+\))? )?((ghost |unfoldable )?use|mod)\b")
LEMMA = re.compile(r"(?:pub )?([^\s:(){}=]+) : (.*)")
BOUND = re.compile(r"[({]\s*([^\s:(){},][^:(){},]*?) :|λ ([^.]*)\.")
# More places than this for one window is a shape that everything has.
TOO_COMMON = 40
# Of blocks with others between: the least lines of a piece, and the most between two.
PIECE_LEAST, BETWEEN_MOST = 5, 4
# The least characters of a statement that is told where it stands twice.
STATEMENT_LEAST = 30
# Files of proofs that are laid out by the prover, whose names are those of goals.
OF_GOALS = ("Answers.antt", "Invariants.antt", "Proof.antt")


class Source:
    """The lines of a file that count, with their numbers in the file."""

    def __init__(self, path: str) -> None:
        self.path = path
        self.crate = path.split("/")[1]
        comment = "//" if path.endswith(".rt") else "--"
        self.numbers: list[int] = []
        self.lines: list[str] = []
        # How many braces an import has opened.
        opened = 0
        for number, line in enumerate(text_of(path).split("\n"), 1):
            line = " ".join(line.split())
            if not line or line.startswith(comment):
                continue
            if opened or IMPORT.match(line):
                opened += line.count("{") - line.count("}")
                continue
            self.numbers.append(number)
            self.lines.append(line)
        self.shapes = [NAME.sub("_", it) for it in self.lines]

    def place(self, at: int, length: int) -> str:
        """Where a block stands."""
        return f"{self.path}:{self.numbers[at]}-{self.numbers[at + length - 1]}"


class Pair(NamedTuple):
    """Two blocks that stand alike, by the places of their first lines and their length."""

    one: Source
    at: int
    other: Source
    to: int
    length: int
    how: str

    def files(self) -> frozenset[str]:
        """The paths of both."""
        return frozenset((self.one.path, self.other.path))

    def overlaps(self, pair: Pair) -> bool:
        """Whether both blocks of two pairs of the same files have lines in common."""
        if self.one is not pair.one or self.other is not pair.other:
            return False
        return (self.at < pair.at + pair.length and pair.at < self.at + self.length
                and self.to < pair.to + pair.length and pair.to < self.to + self.length)

    def holds(self, pair: Pair) -> bool:
        """Whether the other pair is a part of this one."""
        return (self.files() == pair.files() and self.at - self.to == pair.at - pair.to
                and self.one.path == pair.one.path
                and self.at <= pair.at and pair.at + pair.length <= self.at + self.length)

    def is_of_goals(self) -> bool:
        """Whether both stand in files of goals, where each name is that of its function."""
        return all(os.path.basename(it) in OF_GOALS for it in self.files())

    def line(self) -> str:
        """What is told of it."""
        return (f"{self.length:4} lines, {self.how}: {self.one.place(self.at, self.length)} ~ "
                f"{self.other.place(self.to, self.length)}")


def sources() -> list[Source]:
    """The files of all crates."""
    return [Source(path) for crate in sorted(os.listdir(TOP / "crates"))
            for part in ("src", "specs", "proofs")
            for path in sorted_by_folder(f"crates/{crate}/{part}")]


def sorted_by_folder(folder: str) -> list[str]:
    """The files of a folder with code, definitions or proofs."""
    return [it for it in files_below(folder, "") if it.endswith((".rt", ".antt"))]


def windows_of(files: list[Source], least: int, key: Callable[[Source], list[str]]) -> list[
        list[tuple[int, int]]]:
    """The places, by file and line, at which the same so many keys stand."""
    windows: dict[int, list[tuple[int, int]]] = defaultdict(list)
    for number, file in enumerate(files):
        keys = key(file)
        for at in range(len(keys) - least + 1):
            windows[hash(tuple(keys[at:at + least]))].append((number, at))
    return [it for it in windows.values() if 1 < len(it) <= TOO_COMMON]


def runs(files: list[Source], least: int, key: Callable[[Source], list[str]], within: bool,
         how: str) -> Iterator[Pair]:
    """The runs of at least so many lines in which two files have the same keys."""
    starts: dict[tuple[int, int, int], set[int]] = defaultdict(set)
    for places in windows_of(files, least, key):
        for (one, at), (other, to) in itertools.combinations(places, 2):
            if files[one].crate != files[other].crate or within and one != other:
                starts[one, other, at - to].add(at)
    for (one, other, apart), begun in starts.items():
        for at in sorted(begun):
            if at - 1 not in begun:
                length = least
                while at + length - least + 1 in begun:
                    length += 1
                yield Pair(files[one], at, files[other], at - apart, length, how)


def consistent(run: Pair, least: int) -> Iterator[Pair]:
    """The parts of a run in which each name of one always stands for one name of the other."""
    begin, step = 0, 0
    forth: dict[str, str] = {}
    back: dict[str, str] = {}

    def part() -> Pair:
        return run._replace(at=run.at + begin, to=run.to + begin, length=step - begin)

    while step < run.length:
        pairs = zip(NAME.findall(run.one.lines[run.at + step]),
                    NAME.findall(run.other.lines[run.to + step]))
        if all(forth.setdefault(a, b) == b and back.setdefault(b, a) == a for a, b in pairs):
            step += 1
            continue
        if step - begin >= least:
            yield part()
        # The next part can begin behind the first line with one of the names that don't agree.
        begin = begin + 1 if step > begin else step + 1
        forth, back, step = {}, {}, begin
    if step - begin >= least:
        yield part()


def alike(files: list[Source], least: int, within: bool, same: bool) -> list[Pair]:
    """The pairs of blocks that are alike, the longest first; of overlapping ones the longest."""
    found = list(runs(files, least, lambda it: it.lines, within, "the same"))
    if not same:
        by_files: dict[frozenset[str], list[Pair]] = defaultdict(list)
        for pair in found:
            by_files[pair.files()].append(pair)
        for run in runs(files, least, lambda it: it.shapes, within, "but for names"):
            found += [part for part in consistent(run, least)
                      if not any(it.holds(part) for it in by_files[part.files()])]
    kept: list[Pair] = []
    for pair in sorted(found, key=lambda it: (-it.length, it.one.path, it.at, it.other.path)):
        if not any(pair.overlaps(it) for it in kept):
            kept.append(pair)
    return kept


def continues(chain: list[Pair], piece: Pair) -> bool:
    """Whether a piece stands behind a chain of pieces, with few lines between."""
    end, to_end = chain[-1].at + chain[-1].length, chain[-1].to + chain[-1].length
    return 0 <= piece.at - end <= BETWEEN_MOST and 0 <= piece.to - to_end <= BETWEEN_MOST


def chains_of(pieces: list[Pair]) -> Iterator[list[Pair]]:
    """The chains that pieces of two files make, one behind the other."""
    chain: list[Pair] = []
    for piece in sorted(pieces, key=lambda it: (it.at, it.to)):
        if chain and continues(chain, piece):
            chain.append(piece)
            continue
        last = chain[-1] if chain else None
        if last and piece.at < last.at + last.length and piece.to < last.to + last.length:
            # It lies inside of what the chain has.
            continue
        if chain:
            yield chain
        chain = [piece]
    if chain:
        yield chain


def near(files: list[Source], least: int) -> list[tuple[int, str]]:
    """Blocks put together of alike pieces with few other lines between: how long, and where."""
    pieces: dict[frozenset[str], list[Pair]] = defaultdict(list)
    for run in runs(files, PIECE_LEAST, lambda it: it.shapes, False, ""):
        for part in consistent(run, PIECE_LEAST):
            pieces[part.files()].append(part)
    found = []
    for chain in (chain for those in pieces.values() for chain in chains_of(those)):
        first, last = chain[0], chain[-1]
        one = first.one.place(first.at, last.at + last.length - first.at)
        other = first.other.place(first.to, last.to + last.length - first.to)
        found.append((sum(it.length for it in chain), f"{one} ~ {other}"))
    return sorted((it for it in found if it[0] >= least), key=lambda it: -it[0])


def statement(text: str) -> str:
    """A lemma's type with its bound names numbered in the order in which they come."""
    names = [name for pair in BOUND.findall(text) for name in " ".join(pair).split()]
    number = {name: f"x{at}" for at, name in enumerate(dict.fromkeys(names))}
    return NAME.sub(lambda it: number.get(it[0], it[0]), text)


class Place(NamedTuple):
    """Where a lemma stands."""

    crate: str
    place: str
    name: str


def lemmas(files: list[Source]) -> dict[str, list[Place]]:
    """The statements that lemmas of more than one crate have, with the places of each."""
    found: dict[str, list[Place]] = defaultdict(list)
    for file in files:
        if "/proofs/" not in file.path or not file.path.endswith(".antt"):
            continue
        if os.path.basename(file.path) in OF_GOALS:
            continue
        for number, line in zip(file.numbers, file.lines):
            of = LEMMA.fullmatch(line)
            if of and ("→" in of[2] or "≡" in of[2]) and len(of[2]) > STATEMENT_LEAST:
                place = Place(file.crate, f"{file.path}:{number}", of[1])
                found[statement(of[2])].append(place)
    return {text: places for text, places in found.items()
            if len({it.crate for it in places}) > 1}


def accepted() -> dict[frozenset[str], str]:
    """The pairs of paths that DECISIONS names, each with its line."""
    section = text_of("docs/DECISIONS.md").partition(SECTION)[2].partition("\n## ")[0]
    pairs: dict[frozenset[str], str] = {}
    for line in section.split("\n"):
        paths = re.findall(r"`(crates/[^`]+)`", line)
        for one, other in itertools.combinations(paths, 2):
            pairs[frozenset((one, other))] = line
    return pairs


def tell_lemmas(files: list[Source]) -> None:
    """Prints the lemmas that state the same."""
    same = sorted(lemmas(files).items(), key=lambda it: (-len(it[1]), it[1]))
    for text, places in same:
        print(f"{len(places)} times: {text[:200]}")
        for it in places:
            print(f"    {it.name}  {it.place}")
    copies = sum(len(places) - 1 for _, places in same)
    print(f"{len(same)} statements, {copies} copies more than one")


def tell_pairs(found: list[Pair], what: str, files: list[Source]) -> None:
    """Prints how many pairs there are."""
    lines = sum(it.length for it in found)
    print(f"{len(found)} pairs of blocks of {what}, {lines} lines; {len(files)} files read")


def check(files: list[Source], least: int, within: int) -> int:
    """Prints what DECISIONS doesn't name, or names in vain, and gives the exit status."""
    found = alike(files, least, False, False)
    found += [it for it in alike(files, within, True, False) if it.one.crate == it.other.crate]
    named = accepted()
    bad = [it.line() for it in found if not it.is_of_goals() and it.files() not in named]
    needed = {it.files() for it in found}
    bad += [f"docs/DECISIONS.md names a pair that isn't alike any more: {line[:120]}"
            for pair, line in named.items() if pair not in needed]
    print("".join(f"{it}\n" for it in bad), end="")
    tell_pairs(found, f"{least} lines and more in two crates, {within} in one", files)
    return 1 if bad else 0


def main() -> int:
    """Prints or checks, and gives the exit status."""
    parser = parser_of(__doc__)
    kinds = parser.add_mutually_exclusive_group()
    kinds.add_argument("--check", action="store_true", help="say what DECISIONS doesn't name")
    kinds.add_argument("--near", action="store_true", help="blocks with others between")
    kinds.add_argument("--lemmas", action="store_true", help="lemmas that state the same")
    parser.add_argument("--least", type=int, default=LEAST, metavar="N")
    parser.add_argument("--within", action="store_true", help="of one crate too")
    parser.add_argument("--same", action="store_true", help="the same to the letter")
    words = parser.parse_args()
    files = sources()
    if words.check:
        return check(files, words.least, max(words.least, LEAST_WITHIN))
    if words.lemmas:
        tell_lemmas(files)
    elif words.near:
        for length, places in near(files, words.least):
            print(f"{length:4} lines: {places}")
    else:
        found = alike(files, words.least, words.within, words.same)
        print("".join(f"{it.line()}\n" for it in found), end="")
        tell_pairs(found, f"{words.least} lines and more", files)
    return 0


if __name__ == "__main__":
    sys.exit(main())
