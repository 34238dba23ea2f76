"""A trial: what is done to a volume, as it is written down and done again."""
from __future__ import annotations

import json
import struct
from dataclasses import dataclass, field
from pathlib import Path
from typing import Callable, NamedTuple, Optional

from exsm.geometry import Geometry
from exsm.records import BadVolume
from fuzzing.differs import Differs
from fuzzing.program import Program

Harm = list
"""A word that says how bytes are damaged, and the numbers that it takes."""

Report = Callable[[str], None]
"""Is told the name of each thing that was tried."""


class NoTrial(Exception):
    """A file holds no trial."""


@dataclass
class Trial:
    """The scripts that are run on a new volume, one after the other, and the damage that is done
    then."""

    kind: str
    seed: str
    sizes: Geometry
    runs: list[list[bytes]] = field(default_factory=list)
    harms: list[Harm] = field(default_factory=list)
    about: str = ""

    def text(self) -> str:
        """The trial as a file has it; a byte of a line is a character."""
        return json.dumps({"about": self.about, "kind": self.kind, "seed": self.seed,
                           "sizes": vars(self.sizes),
                           "runs": [[line.decode("latin-1") for line in run] for run in self.runs],
                           "harms": self.harms}, indent=1) + "\n"

    @staticmethod
    def read(path: Path) -> Trial:
        """The trial of a file; of any other file it is told why it is none."""
        try:
            told = json.loads(path.read_text(encoding="ascii"))
            runs = [[line.encode("latin-1") for line in run] for run in told["runs"]]
            return Trial(told["kind"], told["seed"], Geometry(**told["sizes"]), runs, told["harms"],
                         told.get("about", ""))
        except (LookupError, TypeError, ValueError, AttributeError) as fault:
            raise NoTrial(f"{path} holds no trial: {fault!r}") from None


class Kind(NamedTuple):
    """How trials of a kind are made, and how one is done again.

    `explore` makes a trial from its seed while it does it, and `replay` does one that is written
    down. Each raises `Differs` where something differs, and the trial has then all that led to it.
    `widened` gives a trial that is tried in more ways, so that it may differ still where it is made
    smaller.
    """

    explore: Callable[[Trial, Program, Report], None]
    replay: Callable[[Trial, Program, Report], None]
    widened: Callable[[Trial], Trial] = lambda trial: trial


def done(step: Callable[[Trial, Program, Report], None], trial: Trial, program: Program,
         report: Report) -> Optional[Differs]:
    """Does a trial. A reader or a model that fails is a difference too."""
    try:
        step(trial, program, report)
    except Differs as differs:
        return differs
    except (BadVolume, AssertionError, struct.error, ArithmeticError, LookupError, ValueError,
            RecursionError) as fault:
        return Differs(f"the reader or the model fails: {fault!r}", "no fault of theirs")
    return None
