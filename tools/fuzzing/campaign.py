"""Tries trials until a time or a number is reached, keeps what differs, and tells what was
tried."""
from __future__ import annotations

import hashlib
import itertools
import json
import multiprocessing
import os
import random
import shutil
import signal
import sys
import tempfile
import time
from collections import Counter, defaultdict
from contextlib import closing
from multiprocessing.connection import Connection
from pathlib import Path
from typing import Callable, NamedTuple, Optional

from fuzzing import writer
from fuzzing.crashes import CRASHES
from fuzzing.damage import DAMAGE
from fuzzing.differs import Differs
from fuzzing.faults import FAULTS
from fuzzing.outside import NotServed, Served, Started
from fuzzing.program import Program
from fuzzing.scripts import SCRIPTS
from fuzzing.shrink import shrunk
from fuzzing.trials import Kind, Report, Trial, done

KINDS: dict[str, Kind] = {
    "scripts": SCRIPTS, "damage": DAMAGE, "crashes": CRASHES, "faults": FAULTS}
NOTED = ("crashes", "faults")
"""The kinds that want the calls of a run."""

BYTES_MOST = {"scripts": 1 << 23, "damage": 1 << 20, "crashes": 1 << 19, "faults": 1 << 19}
"""Bytes of a volume: less where many images of it are made."""

MEMORY = Path("/dev/shm")
"""A folder in memory, where volumes lie if it is there: a sync costs nothing then."""


def processor_seconds(program: Program) -> float:
    """The processor time of this run and of the programs that it ran to their ends."""
    times = os.times()
    own = times.user + times.system + times.children_user + times.children_system
    return own + program.runs.seconds


class Limits(NamedTuple):
    """When a campaign ends: a time, and a number of trials of each kind."""

    seconds: float
    count: Optional[int]

    def are_met(self, began: float, tried: int) -> bool:
        """Whether a time, and so many trials of a kind, are enough."""
        is_late = time.monotonic() >= began + self.seconds
        return is_late or self.count is not None and tried >= self.count


class Share(NamedTuple):
    """Which of the trials one of several campaigns makes that go on beside each other."""

    first: int = 0
    jobs: int = 1


class Tried:
    """What was tried, by kind, in which processor time, and where what differs was kept."""

    def __init__(self) -> None:
        self.counts: dict[str, Counter[str]] = defaultdict(Counter)
        self.seconds: Counter[str] = Counter()
        self.differ: list[Path] = []
        self.is_cut = False
        """Whether it was ended before its time."""

    def add(self, other: Tried) -> None:
        """Adds what another campaign tried."""
        for kind, counts in other.counts.items():
            self.counts[kind].update(counts)
        self.seconds.update(other.seconds)
        self.differ += other.differ
        self.is_cut |= other.is_cut

    def json(self, program: Path, seed: str) -> str:
        """What was tried of a program, by a seed."""
        digest = hashlib.sha256(program.read_bytes()).hexdigest()
        return json.dumps({"program": digest, "seed": seed, "counts": self.counts,
                           "seconds": self.seconds, "is_cut": self.is_cut,
                           "differ": [str(folder) for folder in self.differ]}, indent=1) + "\n"

    def tell(self) -> None:
        """Prints what was tried, by kind, and how fast."""
        for kind, counts in self.counts.items():
            seconds = self.seconds[kind]
            told = ", ".join(
                f"{count:,} {what} ({count * 60 / seconds:,.0f} a minute)" if seconds else
                f"{count:,} {what}" for what, count in sorted(counts.items()))
            print(f"{kind}: {told} in {seconds:.1f} s of a processor")
        if self.is_cut:
            print("stopped before the end")
        print(f"{len(self.differ)} differ")


class Campaign:
    """Trials of some kinds, by a seed."""

    def __init__(self, path: Path, built: Optional[Path], seed: str, kinds: list[str], finds: Path,
                 shrink_seconds: float) -> None:
        self.path, self.built, self.seed, self.kinds, self.finds = path, built, seed, kinds, finds
        self.shrink_seconds = shrink_seconds
        self.tried = Tried()
        self._shown = 0.0

    def run(self, corpus: dict[str, Trial], limits: Limits, share: Share = Share()) -> None:
        """Tries the trials of a corpus, then new ones, each of the kind that had the least time."""
        began = time.monotonic()
        with room_of() as room, closing(runs_of(self.path, self.built)) as runs:
            kinds = [kind for kind in self.kinds if kind not in NOTED or isinstance(runs, Served)]
            program = Program(runs, Path(room, "v"))
            for name, trial in corpus.items():
                if trial.kind in kinds:
                    self.of_corpus(trial, program, name)
            made = {kind: share.first for kind in kinds}
            while going := [kind for kind, number in made.items()
                            if not limits.are_met(began, number)]:
                kind = min(going, key=lambda kind: self.tried.seconds[kind])
                self.new(kind, made[kind], program)
                made[kind] += share.jobs
        if sys.stderr.isatty():
            print(file=sys.stderr)

    def tried_by(self, corpus: dict[str, Trial], limits: Limits, share: Share = Share()) -> Tried:
        """Runs to its end, or to a signal that ends it."""
        try:
            self.run(corpus, limits, share)
        except KeyboardInterrupt:
            self.tried.is_cut = True
        return self.tried

    def of_corpus(self, trial: Trial, program: Program, name: str) -> None:
        """Tries a trial of the corpus."""
        self.tried.counts["corpus"]["trials"] += 1
        differs = self.timed("corpus", KINDS[trial.kind].replay, trial, program)
        if differs is not None:
            self.keep(trial, differs, program, f"corpus-{name}")

    def new(self, kind: str, number: int, program: Program) -> None:
        """Makes and tries a trial; one that differs is made smaller and kept."""
        seed = f"{self.seed}/{kind}/{number}"
        trial = Trial(kind, seed, writer.sizes(random.Random(f"{seed} sizes"), BYTES_MOST[kind]))
        differs = self.timed(kind, KINDS[kind].explore, trial, program)
        if differs is not None:
            self.keep(trial, differs, program, f"{kind}-{self.seed}-{number}")

    def timed(self, kind: str, step: Callable[[Trial, Program, Report], None], trial: Trial,
              program: Program) -> Optional[Differs]:
        """Does a trial, and notes what it tried and what processor time it took."""
        began = processor_seconds(program)

        def report(what: str) -> None:
            if kind != "corpus":
                self.tried.counts[kind][what] += 1
            self.show()
        differs = done(step, trial, program, report)
        self.tried.seconds[kind] += processor_seconds(program) - began
        return differs

    def show(self) -> None:
        """Tells on a terminal how far it is, ten times a second at most."""
        now = time.monotonic()
        if sys.stderr.isatty() and now > self._shown + 0.1:
            self._shown = now
            counts = "  ".join(f"{name} {of[name]:,}" for of in self.tried.counts.values()
                               for name in list(of)[:1])
            differ = len(self.tried.differ)
            print(f"\r{counts}  differ {differ}", end="", file=sys.stderr, flush=True)

    def keep(self, trial: Trial, differs: Differs, program: Program, name: str) -> None:
        """Writes a trial that differs to a new folder: as it came, and as small as it was made."""
        folder = new_folder(self.finds, name)
        self.tried.differ.append(folder)
        (folder / "first.json").write_text(trial.text(), encoding="ascii")
        write_find(folder, trial, differs, program)
        kind = KINDS[trial.kind]

        def fails(smaller: Trial) -> bool:
            return done(kind.replay, smaller, program, lambda _: None) is not None
        again = next((it for it in (kind.widened(trial), trial) if fails(it)), None)
        if again is not None:
            small = shrunk(again, fails, self.shrink_seconds)
            differs = done(kind.replay, small, program, lambda _: None) or differs
            write_find(folder, small, differs, program)
        print(f"{folder}: {differs}", flush=True)


def new_folder(finds: Path, name: str) -> Path:
    """Makes a folder of a name that isn't there yet."""
    names = itertools.chain([name], (f"{name}-again-{number}" for number in itertools.count(2)))
    folder = next(finds / it for it in names if not (finds / it).exists())
    folder.mkdir(parents=True)
    return folder


def write_find(folder: Path, trial: Trial, differs: Differs, program: Program) -> None:
    """Writes a trial, its scripts, what was told and wanted, and the volume as it stands."""
    (folder / "trial.json").write_text(trial.text(), encoding="ascii")
    (folder / "told").write_text(differs.told + "\n", encoding="utf-8")
    (folder / "wanted").write_text(differs.wanted + "\n", encoding="utf-8")
    for script in folder.glob("script-*"):
        script.unlink()
    for number, lines in enumerate(trial.runs, 1):
        (folder / f"script-{number}").write_bytes(b"".join(line + b"\n" for line in lines))
    if program.volume.exists():
        shutil.copy(program.volume, folder / "volume")


def corpus_of(folder: Path) -> dict[str, Trial]:
    """The trials of a corpus, by their names."""
    return {path.parent.name: Trial.read(path) for path in sorted(folder.glob("*/trial.json"))}


def room_of() -> tempfile.TemporaryDirectory[str]:
    """A folder of a campaign, in memory where that may be."""
    folder = MEMORY if os.access(MEMORY, os.W_OK) else None
    return tempfile.TemporaryDirectory(prefix="exsm-fuzz-", dir=folder)


def runs_of(path: Path, built: Optional[Path]) -> Started:
    """What runs the program: with the library, where there is one and the program takes it."""
    if built is None:
        return Started(path)
    served = Served(path, built)
    try:
        served.server(["check", os.devnull])
    except NotServed:
        return Started(path)
    return served


def left_out(path: Path, built: Optional[Path], kinds: list[str]) -> Optional[str]:
    """Which of the kinds can't be tried here, and why."""
    noted = [kind for kind in kinds if kind in NOTED]
    with closing(runs_of(path, built)) as runs:
        if not noted or isinstance(runs, Served):
            return None
    return (f"{' and '.join(noted)} left out: "
            "the calls of the program can't be noted without a C compiler")


def beside(campaign: Campaign, corpus: dict[str, Trial], limits: Limits, jobs: int) -> Tried:
    """Goes on with a campaign in several processes, of which the first one has the corpus too."""
    tried = Tried()
    pipes = []
    for first in range(jobs):
        own, other = multiprocessing.Pipe(duplex=False)
        words = (campaign, corpus if first == 0 else {}, limits, Share(first, jobs), other)
        work = multiprocessing.Process(target=share_of, args=words)
        work.start()
        other.close()
        pipes.append((work, own))
    signal.signal(signal.SIGINT, signal.SIG_IGN)
    signal.signal(signal.SIGTERM, lambda *_: [work.terminate() for work, _ in pipes])
    for work, own in pipes:
        try:
            tried.add(own.recv())
        except EOFError:
            print("a part of the campaign ended without a word", file=sys.stderr)
            tried.is_cut = True
        work.join()
    return tried


def share_of(campaign: Campaign, corpus: dict[str, Trial], limits: Limits, share: Share,
             told: Connection) -> None:
    """Makes a share of the trials in a process, and tells what was tried."""
    told.send(campaign.tried_by(corpus, limits, share))


def idle() -> None:
    """Takes from now on only the processor time that nothing else wants."""
    os.sched_setscheduler(0, os.SCHED_IDLE, os.sched_param(0))
    try:
        Path("/proc/self/autogroup").write_text("19", encoding="ascii")
    except OSError:
        pass                                       # (the system has no groups of processes)
