"""Makes a trial that differs smaller: fewer lines, fewer operations of damage, shorter data."""
from __future__ import annotations

import re
import time
from dataclasses import replace
from typing import Callable, Iterator

from fuzzing.trials import Trial

Fails = Callable[[Trial], bool]
"""Whether a trial still differs."""


def without_runs(trial: Trial) -> Iterator[Trial]:
    """The trial without one of its runs."""
    for index in range(len(trial.runs)):
        yield replace(trial, runs=trial.runs[:index] + trial.runs[index + 1:])


def with_run(trial: Trial, index: int, lines: list[bytes]) -> Trial:
    """The trial with other lines in a run."""
    return replace(trial, runs=[*trial.runs[:index], lines, *trial.runs[index + 1:]])


def without_harms(trial: Trial) -> Iterator[Trial]:
    """The trial without one operation of damage."""
    for index in range(len(trial.harms)):
        yield replace(trial, harms=trial.harms[:index] + trial.harms[index + 1:])


def shorter(line: bytes) -> Iterator[bytes]:
    """The line with half of its data, and with a byte less."""
    for found in re.finditer(rb"rep:([0-9]+)", line):
        count = int(found[1])
        for less in {count // 2, count - 1} - {count, -1}:
            yield line[:found.start(1)] + str(less).encode() + line[found.end(1):]
    for found in re.finditer(rb"hex:([0-9a-f]*)", line):
        digits = found[1]
        for less in {len(digits) // 4 * 2, len(digits) - 2} - {len(digits), -2}:
            yield line[:found.start(1)] + digits[:less] + line[found.end(1):]


def with_less_data(trial: Trial) -> Iterator[Trial]:
    """The trial with shorter data in one line."""
    for index, run in enumerate(trial.runs):
        for place, line in enumerate(run):
            for less in shorter(line):
                yield with_run(trial, index, [*run[:place], less, *run[place + 1:]])


class Shrinker:
    """Makes a trial smaller as long as it differs still, up to a time."""

    def __init__(self, trial: Trial, fails: Fails, seconds: float) -> None:
        self.trial, self.fails, self.end = trial, fails, time.monotonic() + seconds

    @property
    def is_over(self) -> bool:
        """Whether the time is over."""
        return time.monotonic() > self.end

    def take(self, smaller: Trial) -> bool:
        """Goes on with a smaller trial, where it differs."""
        if self.is_over or not self.fails(smaller):
            return False
        self.trial = smaller
        return True

    def by(self, smaller_of: Callable[[Trial], Iterator[Trial]]) -> None:
        """Goes from one smaller trial to the next, until none differs."""
        while any(self.take(smaller) for smaller in smaller_of(self.trial)):
            pass

    def drop_lines(self, index: int, most: int) -> bool:
        """Drops as many lines that stand together as can be spared of a run, from the last ones
        on."""
        dropped = False
        for start in reversed(range(0, len(self.trial.runs[index]), most)):
            run = self.trial.runs[index]
            dropped |= self.take(with_run(self.trial, index, run[:start] + run[start + most:]))
        return dropped

    def by_lines(self) -> None:
        """Drops lines: many at once, then fewer, at last one by one until none can be spared."""
        most = max((len(run) for run in self.trial.runs), default=0)
        while most > 0:
            dropped = [self.drop_lines(index, most) for index in range(len(self.trial.runs))]
            if most > 1 or not any(dropped):
                most //= 2


def shrunk(trial: Trial, fails: Fails, seconds: float) -> Trial:
    """The least trial that was found within a time to differ still."""
    shrinker = Shrinker(trial, fails, seconds)
    shrinker.by(without_runs)
    shrinker.by_lines()
    shrinker.by(without_harms)
    shrinker.by(with_less_data)
    shrinker.by(without_runs)
    return shrinker.trial
