"""Kills of tools at random moments: of the tool, of the program that it started, or of both."""
from __future__ import annotations

import os
import random
import signal
import subprocess
import sys
import time
from typing import Sequence

from tests.support import SECONDS, TOOLS

KILLS = int(os.environ.get("EXSM_KILLS", "12"))
"""Kills of each tool; `tools/test --kills N` makes others."""


def children(process: int) -> list[int]:
    """The processes that a process started."""
    try:
        with open(f"/proc/{process}/task/{process}/children", encoding="ascii") as told:
            return [int(child) for child in told.read().split()]
    except (FileNotFoundError, ProcessLookupError):
        return []


def kill_one(process: int) -> None:
    """Kills a process where it is there."""
    try:
        os.kill(process, signal.SIGKILL)
    except ProcessLookupError:
        pass


def killed(chance: random.Random, seconds: float, name: str, *words: object) -> int:
    """Runs a tool, and at a random moment within so many seconds kills it, its program or both.

    Gives its status: 0 where it was done before, else that of a killed tool or of its refusal.
    """
    return killed_command(chance, seconds, [sys.executable, str(TOOLS / f"{name}.py"), *words])


def killed_command(chance: random.Random, seconds: float, command: Sequence[object]) -> int:
    """Runs a command, and kills it as `killed` does."""
    run = subprocess.Popen([str(word) for word in command], stdin=subprocess.DEVNULL,
                           stdout=subprocess.DEVNULL, stderr=subprocess.DEVNULL)
    time.sleep(chance.random() * seconds)
    programs = children(run.pid)
    what = chance.choice(("tool", "program", "both")) if programs else "tool"
    if what != "program":
        kill_one(run.pid)
    if what != "tool":
        for program in programs:
            kill_one(program)
    status = run.wait(60)
    wait_gone(programs)
    return status


def wait_gone(programs: Sequence[int], seconds: float = SECONDS) -> None:
    """Waits until programs have ended: they may still step what they read before."""
    until = time.monotonic() + seconds
    while any(is_there(program) for program in programs) and time.monotonic() < until:
        time.sleep(0.01)


def is_there(process: int) -> bool:
    """Whether a process runs; one that has ended and that nobody waited for doesn't."""
    try:
        with open(f"/proc/{process}/stat", encoding="ascii", errors="replace") as told:
            return told.read().rsplit(")", 1)[1].split()[0] != "Z"
    except (FileNotFoundError, ProcessLookupError):
        return False
