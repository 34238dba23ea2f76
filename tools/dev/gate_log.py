#!/usr/bin/env python3
"""Writes the table of docs/GATE.md from logs of tools/dev/gate.

    tools/dev/gate_log.py LOG ..            writes the table; of two logs that measured the same
                                            the later one holds
    tools/dev/gate_log.py --scaled LOG ..   writes it in the measure of the table that stands there
    tools/dev/gate_log.py --same COMMIT LOG ..  the same, by the crates that are as in the commit
    tools/dev/gate_log.py --again           writes it anew for the crates of crates.txt, with the
                                            figures that stand there
    tools/dev/gate_log.py --print LOG ..    prints it only

What no log measured, since the run kept an earlier proof, is taken from the table that stands
there, with a star. Where that has none either, the field says `kept`. So a table without stars
comes from a run of `tools/dev/gate --anew`, or from the logs of all parts of one.

The seconds of a table are those of one machine. Where figures of the table that stands there stay,
and with --scaled, all that the logs measured is divided by how many times as long as there the
proofs that both have took in them, by the middle one of these ratios: one proof tells little where
other work ran beside some. Logs that share no proof with the table are taken as they are. Where
many proofs became lighter since the table was written, only the others tell of the machine: --same
takes the ratio of those crates alone whose code, definitions and proofs are as in that commit.
"""
from __future__ import annotations

import re
import subprocess
import sys
from pathlib import Path
from statistics import median
from typing import Iterator, NamedTuple, Optional

sys.dont_write_bytecode = True

from crate_code import edits_of, files_below, named_crates, text_of, write_text  # noqa: E402
from marks import Marks, NoMarks  # noqa: E402
from words import parser_of  # noqa: E402

PAGE = "docs/GATE.md"
MARKS = Marks("<!-- written by tools/dev/gate_log.py -->", "<!-- end of what it writes -->")
KINDS = ("proof", "tests", "edit")
NONE = {"tests": "no tests", "edit": "no edits"}
# How many crates are told as the most dear.
DEAR = 5

# What a figure is of: a kind of work, and a crate.
Key = tuple[str, str]
# Proofs by which machines are compared take so many seconds at least.
TELLING = 10
# From how many times as long on a machine is told to be of another speed.
OTHER_SPEED = 1.05

WORK = re.compile(r"gate: work (\w+) (\w+) ([\d.]+)")
BEGUN = re.compile(r"gate: begun (.*), (\d+) processors, .*")
KEPT = re.compile(r"rt: \w+ is kept: ")
ENDED = re.compile(
    r"gate: ended with status \d+, wall ([\d.]+) seconds, processors ([\d.]+) seconds")
# Where all edits were tried before, the log that measured them holds.
KEPT_EDITS = re.compile(
    r"rt: (\w+): (\d+) of its (\d+) must-fail edits were tried by an earlier run")
LAST = re.compile(r"\[ *[\d.]+\] (\d+ passed, \d+ failed.*)")


class NoLog(Exception):
    """A file isn't a log of tools/dev/gate."""


class NoCommit(Exception):
    """git knows no such commit."""


def changed_since(commit: str) -> set[str]:
    """The crates whose code, definitions or proofs aren't as in a commit."""
    ran = subprocess.run(["git", "diff", "--name-only", commit, "--", "crates"],
                         capture_output=True, text=True, check=False)
    if ran.returncode:
        raise NoCommit(f"{commit} is no commit: {ran.stderr.strip()}")
    return {it[1] for it in re.finditer(r"(?m)^crates/(\w+)/(?:src|specs|proofs)/", ran.stdout)}


class Log:
    """What a log of tools/dev/gate says."""

    def __init__(self, path: Path) -> None:
        self.seconds: dict[Key, float] = {}
        # What it measured of a part of a crate's edits alone.
        self.part: set[Key] = set()
        self.begun: Optional[str] = None
        self.number = 0
        # How many crates it kept the proofs of.
        self.kept = 0
        self.wall: Optional[float] = None
        self.processors = 0.0
        self.last: Optional[str] = None
        for line in path.read_text(encoding="utf-8", errors="replace").split("\n"):
            self._read(line)
        if not self.begun:
            raise NoLog(f"{path} is no log of tools/dev/gate: rt's own log has no times")

    def _read(self, line: str) -> None:
        """Takes a line."""
        if work := WORK.fullmatch(line):
            key = work[1], work[2]
            self.seconds[key] = self.seconds.get(key, 0) + float(work[3])
        elif begun := BEGUN.fullmatch(line):
            self.begun, self.number = begun[1], int(begun[2])
        elif ended := ENDED.fullmatch(line):
            self.wall, self.processors = float(ended[1]), float(ended[2])
        elif (part := KEPT_EDITS.search(line)) and part[2] != part[3]:
            self.part.add(("edit", part[1]))
        elif KEPT.search(line):
            self.kept += 1
        elif last := LAST.fullmatch(line):
            self.last = last[1]


def has_work(kind: str, crate: str) -> bool:
    """Whether a crate has work of a kind."""
    if kind == "tests":
        return any("#[test]" in text_of(it) for it in files_below(f"crates/{crate}/src", ".rt"))
    return kind != "edit" or bool(edits_of(crate))


def earlier() -> dict[Key, int]:
    """The figures of the table that stands in the page."""
    found: dict[Key, int] = {}
    for row in re.findall(r"(?m)^\| `(\w+)` \|(.*)\|$", text_of(PAGE)):
        for kind, field in zip(KINDS, row[1].split("|")):
            number = re.match(r"\s*([\d,]+)\*?(?: \((\d+)\))?\s*$", field)
            # What the edits cost says nothing once there are others.
            if number and (kind != "edit" or int(number[2] or 0) == len(edits_of(row[0]))):
                found[kind, row[0]] = int(number[1].replace(",", ""))
    return found


class Speed(NamedTuple):
    """How many times as long proofs took in the logs as in the table, and of which that is."""

    factor: float
    proofs: str


class Table:
    """The rows of the table, and what they come to."""

    def __init__(self, logs: list[Log], scaled: bool = False,
                 changed: frozenset[str] = frozenset()) -> None:
        self.seconds: dict[Key, float] = {}
        for log in logs:
            self.seconds.update({key: it for key, it in log.seconds.items()
                                 if key not in log.part})
        self.before = earlier()
        self.speed = self._scale(scaled, changed)
        self.sums: dict[str, int] = dict.fromkeys(KINDS, 0)
        self.of_crate: dict[str, int] = {}
        self.starred = False
        # What has no figure.
        self.kept: list[Key] = []
        self.rows = [f"| `{crate}` | {' | '.join(self._field(kind, crate) for kind in KINDS)} |"
                     for crate in named_crates()]

    def _scale(self, always: bool, changed: frozenset[str]) -> Optional[Speed]:
        """Brings what the logs measured into the measure of the table that stands there, where
        some of its figures stay, and gives by what; none where that isn't known or wanted. What
        changed tells nothing of the machine."""
        times = [it / self.before[key] for key, it in self.seconds.items()
                 if key[0] == "proof" and key[1] not in changed
                 and self.before.get(key, 0) >= TELLING]
        stays = any(key in self.before and key not in self.seconds and has_work(*key)
                    for key in ((kind, crate) for crate in named_crates() for kind in KINDS))
        if not times or not (always or stays):
            return None
        alike = " and that are as they were" if changed else ""
        speed = Speed(median(times), f"{len(times)} that both have{alike}")
        self.seconds = {key: it / speed.factor for key, it in self.seconds.items()}
        return speed

    def measure(self) -> Iterator[str]:
        """By what the seconds of another machine were divided."""
        if self.speed and not 1 / OTHER_SPEED < self.speed.factor < OTHER_SPEED:
            yield (f"What the last run measured was divided by {self.speed.factor:.2f}: so many "
                   f"times as long as in the table before its proofs took in the middle, of "
                   f"{self.speed.proofs}.")

    def _field(self, kind: str, crate: str) -> str:
        """What stands of a kind of work of a crate."""
        if not has_work(kind, crate):
            return NONE[kind]
        key, star = (kind, crate), ""
        behind = f" ({len(edits_of(crate))})" if kind == "edit" else ""
        if key in self.seconds:
            number = round(self.seconds[key])
        elif key in self.before:
            number, star, self.starred = self.before[key], "*", True
        else:
            self.kept.append(key)
            return f"kept{behind}"
        self.sums[kind] += number
        self.of_crate[crate] = self.of_crate.get(crate, 0) + number
        return f"{number:,}{star}{behind}"

    def sentences(self, last: Optional[Log]) -> Iterator[str]:
        """What stands below the rows."""
        minutes = {it: self.sums[it] / 60 for it in KINDS}
        edits = sum(len(edits_of(it)) for it in named_crates())
        whole = "Of what has a figure" if self.kept else "In all"
        yield (f"{whole} {sum(minutes.values()):.0f} processor minutes: {minutes['proof']:.0f} "
               f"for proofs, {minutes['tests']:.0f} for tests, {minutes['edit']:.0f} for edits, "
               f"of which there are {edits}.")
        dear = sorted(self.of_crate, key=lambda it: -self.of_crate[it])[:DEAR]
        told = ", ".join(f"`{it}` ({self.of_crate[it] / 60:.0f} minutes)" for it in dear)
        yield f"Most dear: {told}."
        yield from self.measure()
        yield of_last(last)
        if self.starred:
            yield "A star marks what an earlier run measured, and the last one didn't."
        if self.kept:
            yield "`kept` stands for what was done in an earlier run, if at all, and not measured."

    def text(self, last: Optional[Log]) -> str:
        """The table, and what stands below it."""
        minutes = [f"{self.sums[it] / 60:.0f}" for it in KINDS]
        edits = sum(len(edits_of(it)) for it in named_crates())
        whole = f"| all, in minutes | {' | '.join(minutes)} ({edits}) |"
        head = ["| Crate | Proof | Tests | Edits |", "|---|---|---|---|"]
        return "\n".join([*head, *self.rows, whole, "", *self.sentences(last)])


def of_last(last: Optional[Log]) -> str:
    """What is told of the last run."""
    if not last:
        return "No run of these crates as a whole was measured."
    if not last.wall:
        return f"The last run, of {last.begun}, was cut off."
    ended = f" Its last line: `{last.last}`." if last.last else ""
    kept = f"{last.kept} proof{'s' * (last.kept > 1)}" if last.kept else "no proof"
    return (f"The last run, of {last.begun}, took {last.wall / 60:.0f} minutes by the clock on "
            f"{last.number} processors, of which it used {last.processors / 60:.0f} processor "
            f"minutes of that machine; it kept {kept} of earlier runs.{ended}")


def main() -> int:
    """Prints or writes the table, and gives the exit status."""
    parser = parser_of(__doc__)
    parser.add_argument("logs", metavar="LOG", nargs="*", type=Path)
    parser.add_argument("--again", action="store_true", help="with the figures that stand there")
    parser.add_argument("--scaled", action="store_true",
                        help="in the measure of the table that stands there")
    parser.add_argument("--same", metavar="COMMIT", help="by the crates that are as in a commit")
    parser.add_argument("--print", dest="shows", action="store_true", help="print the table only")
    words = parser.parse_args()
    if not words.logs and not words.again:
        parser.error("no LOG, and no --again")
    try:
        logs = [Log(it) for it in words.logs]
        changed = frozenset(changed_since(words.same) if words.same else ())
    except (NoLog, NoCommit, OSError) as fault:
        sys.exit(f"gate_log: {fault}")
    table = Table(logs, words.scaled or bool(words.same), changed)
    text = table.text(logs[-1] if logs else None)
    if words.shows:
        print(text)
        return 0
    try:
        write_text(PAGE, MARKS.replaced(text_of(PAGE), text))
    except NoMarks as fault:
        sys.exit(f"{PAGE} has no place for the table: {fault}")
    print(f"{PAGE} has its table; {len(table.kept)} fields say `kept`")
    return 0


if __name__ == "__main__":
    sys.exit(main())
