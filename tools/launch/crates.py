"""The crates that the program stands on, and how long their proofs are likely to take."""
from __future__ import annotations

import functools
import heapq
import re
from dataclasses import dataclass
from pathlib import Path
from typing import Collection, Iterable

TOP = Path(__file__).resolve().parent.parent.parent
PROGRAM = "exsm"
FOLDER = TOP / "crates" / PROGRAM
BUILT = FOLDER / "out" / PROGRAM
FIGURES = TOP / "docs" / "GATE.md"
# The folders of a crate that its proof reads.
PARTS = ("src", "specs", "proofs")
# The seconds of a proof that has no figure.
UNKNOWN = 60.0
# As many seconds at the pace of docs/GATE.md stand beside what this machine took so far, so that
# the first crates say little.
PRIOR = 300.0


@dataclass(frozen=True)
class Crate:
    """A crate of crates.txt, all that it stands on, and the processor seconds of its proof in
    docs/GATE.md."""

    name: str
    below: tuple[str, ...]
    seconds: float

    def is_kept(self) -> bool:
        """Whether an earlier build is likely to have left its library, by times; rt goes by the
        texts."""
        stamp = TOP / "crates" / self.name / "out" / "rlib" / "stamp"
        texts = (file for name in (*self.below, self.name) for file in texts_of(name))
        return stamp.is_file() and all(file.stat().st_mtime <= stamp.stat().st_mtime
                                       for file in texts)


@functools.lru_cache(maxsize=None)
def texts_of(name: str) -> list[Path]:
    """The files of a crate that its proof reads."""
    return [it for part in PARTS for it in (TOP / "crates" / name / part).rglob("*")
            if it.is_file()]


def named() -> dict[str, list[str]]:
    """The crates of crates.txt, each with the crates that it names."""
    lines = (TOP / "crates.txt").read_text(encoding="utf-8").splitlines()
    rows = [line.partition("#")[0].partition(":") for line in lines]
    found = {row[0].split()[0]: row[2].split() for row in rows if row[0].split()}
    return {name: [it for it in names if it in found] for name, names in found.items()}


def figures() -> dict[str, float]:
    """The seconds of proofs that the table of docs/GATE.md has."""
    text = FIGURES.read_text(encoding="utf-8") if FIGURES.is_file() else ""
    rows = re.findall(r"^\| `(\w+)` \| ([\d,]+)\*? ", text, re.M)
    return {name: float(seconds.replace(",", "")) for name, seconds in rows}


def crates_of_program() -> list[Crate]:
    """The program and all crates below it, those with fewest crates below them first, as `rt all`
    takes them."""
    names, seconds = named(), figures()
    below: dict[str, tuple[str, ...]] = {}

    def visit(name: str) -> None:
        if name not in below:
            for it in names[name]:
                visit(it)
            whole = dict.fromkeys(other for it in names[name] for other in (*below[it], it))
            below[name] = tuple(whole)

    visit(PROGRAM)
    crates = [Crate(name, under, seconds.get(name, UNKNOWN)) for name, under in below.items()]
    return sorted(crates, key=lambda it: len(it.below))


class Forecast:
    """How long a build is likely to take. It plays through how `rt all` takes the crates, with the
    seconds of docs/GATE.md, and stretches what is left by how much longer this machine took so
    far."""

    def __init__(self, crates: Iterable[Crate], lanes: int, kept: Collection[str] = ()) -> None:
        self.seconds = {it.name: 0.0 if it.name in kept else it.seconds for it in crates}
        free, ends = [0.0] * lanes, {}
        for it in crates:
            # A lane takes the next crate, and waits in it for those below.
            begins = max([heapq.heappop(free), *(ends[name] for name in it.below)])
            ends[it.name] = begins + self.seconds[it.name]
            heapq.heappush(free, ends[it.name])
        self.ends = sorted((end, name) for name, end in ends.items())
        self.whole = max(ends.values())

    def reached(self, done: Iterable[str]) -> float:
        """The second of the forecast in which as much was proved as now."""
        work = sum(self.seconds[name] for name in done)
        for end, name in self.ends:
            work -= self.seconds[name]
            if work <= 0:
                return end
        return self.whole

    def left(self, done: Collection[str], then: float, now: float) -> float:
        """The seconds that are left now, where these crates were done then, in seconds since the
        build began."""
        reached = self.reached(done) if done else 0.0
        pace = (then + PRIOR) / (reached + PRIOR)
        return max((self.whole - reached) * pace - (now - then), 0.0)
