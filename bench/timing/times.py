"""Seconds, by the clock and by the processor, and how they are told."""
from __future__ import annotations

import os
import statistics
import subprocess
import time
from typing import NamedTuple, Optional


class Times(NamedTuple):
    """The seconds of some work: of the clock, and of the processor, of user and system."""

    clock: float
    processor: float


def on_processor(process: int) -> float:
    """The seconds that a process has had of the processor."""
    with open(f"/proc/{process}/schedstat", encoding="ascii") as told:
        return int(told.read().split()[0]) / 1e9


def rest_of(child: subprocess.Popen[bytes], given: bytes) -> Times:
    """What a process still takes that is given these bytes, and then no more."""
    assert child.stdin
    before, start = on_processor(child.pid), time.perf_counter()
    child.stdin.write(given)
    child.stdin.close()
    _, status, used = os.wait4(child.pid, 0)
    clock = time.perf_counter() - start
    child.returncode = os.waitstatus_to_exitcode(status)
    return Times(clock, used.ru_utime + used.ru_stime - before)


def middle(times: list[Times]) -> Times:
    """The medians."""
    return Times(statistics.median(it.clock for it in times),
                 statistics.median(it.processor for it in times))


def unit(value: Optional[float]) -> str:
    """A time as it is told."""
    if value is None:
        return "-"
    return f"{value * 1000:.2f} ms" if value >= 0.001 else f"{value * 1e6:.2f} us"


def ratio(one: Optional[float], other: Optional[float]) -> str:
    """How much longer one takes than the other."""
    return f"{one / other:.2f}" if one and other else "-"


def kept(value: Optional[float], goal: Optional[float]) -> str:
    """Whether a time is within its goal of microseconds."""
    if goal is None or value is None:
        return ""
    return f"{unit(goal / 1e6)}: {'kept' if value * 1e6 <= goal else 'missed'}"
