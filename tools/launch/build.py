"""Builds the program: `rt all` proves the crates that it stands on beside each other, and `rt run`
builds it.

The scheduling, the locks and what stays of a build that was stopped are rt's own; what is here
tells how far it is.
"""
from __future__ import annotations

import contextlib
import fcntl
import os
import queue
import re
import shutil
import signal
import subprocess
import sys
import threading
import time
from pathlib import Path
from types import FrameType
from typing import Iterator, TextIO

from launch.crates import BUILT, FOLDER, TOP, Forecast, crates_of_program
from launch.note import Begun

LOG = FOLDER / "out" / "build.log"
# A proof takes 1 to 4 GB, seldom so much at once in all of them.
MEMORY_OF_PROOF = 3_000_000_000
QUOTA = Path("/sys/fs/cgroup/cpu.max")
# What the program, called without words, says last.
USAGE = "exsm: status 2 usage"
LINES_SHOWN = 60
STOPPED = 130


class Stopped(Exception):
    """The build is to stop: Ctrl-C, or a signal."""


def say(text: str, end: str = "\n") -> None:
    """Tells something on standard error."""
    print(f"exsm: {text}", end=end, file=sys.stderr, flush=True)


def minutes(seconds: float) -> str:
    """A time in words."""
    return "less than a minute" if seconds < 60 else f"about {seconds / 60:.0f} min"


def lanes() -> int:
    """How many proofs run beside each other: one a processor, as many as the free memory holds."""
    found = len(os.sched_getaffinity(0))
    quota = QUOTA.read_text(encoding="ascii").split() if QUOTA.is_file() else ["max"]
    if quota[0] != "max":
        found = min(found, max(int(quota[0]) // int(quota[1]), 1))
    free = re.search(r"^MemAvailable: +(\d+) kB", Path("/proc/meminfo").read_text(encoding="ascii"),
                     re.M)
    return max(min(found, int(free[1]) * 1024 // MEMORY_OF_PROOF), 1) if free else found


class Blocks:
    """What `rt all` says: a block for each crate that is done, begun by `== NAME`, and last a
    summary."""

    def __init__(self) -> None:
        self.logs: dict[str, list[str]] = {}
        self.rest: list[str] = []
        self.failed: list[str] = []
        self._lines = self.rest
        self._in_summary = False

    def take(self, line: str) -> str | None:
        """Reads a line, and gives the crate whose block it begins."""
        if line == "== summary":
            self._in_summary, self._lines = True, self.rest
        elif line.startswith("== "):
            self._lines = self.logs.setdefault(line[3:], [])
            return line[3:]
        else:
            self._lines.append(line)
            failed = re.fullmatch(r"(\w+): (failed \(.*\)|not run, .*)", line)
            if self._in_summary and failed:
                self.failed.append(failed[1])
        return None


class Progress:
    """Tells how many crates are proved and about how long the others take: one line that stands in
    a terminal, else a line for each crate."""

    def __init__(self, forecast: Forecast, names: set[str]) -> None:
        self.forecast, self.names = forecast, names
        self.done: list[str] = []
        self.began = self.last = time.monotonic()
        self.is_terminal = sys.stderr.isatty()

    def take(self, name: str) -> None:
        """Notes that a crate is done."""
        if name in self.names and name not in self.done:
            self.done.append(name)
            self.last = time.monotonic()
            if not self.is_terminal:
                say(f"{self.text()}; last {name}")

    def text(self) -> str:
        """How far the build is."""
        now = time.monotonic()
        left = self.forecast.left(self.done, self.last - self.began, now - self.began)
        count, most = len(self.done), len(self.names)
        return (f"{count} of {most} crates proved, {most - count} left, {minutes(left)} "
                f"({(now - self.began) / 60:.0f} min so far)")

    def show(self) -> None:
        """Writes the line anew that stands in a terminal."""
        if self.is_terminal:
            say(self.text(), end="\033[K\r")

    def clear(self) -> None:
        """Takes that line away."""
        if self.is_terminal:
            print("\033[K", end="", file=sys.stderr, flush=True)


def lines_of(process: subprocess.Popen[str]) -> Iterator[str | None]:
    """The lines that a process writes, and None for each second without one."""
    said: queue.Queue[str | None] = queue.Queue()

    def read(stream: TextIO) -> None:
        for line in stream:
            said.put(line.rstrip("\n"))
        said.put(None)

    assert process.stdout is not None
    threading.Thread(target=read, args=(process.stdout,), daemon=True).start()
    while True:
        try:
            line = said.get(timeout=1)
        except queue.Empty:
            yield None
            continue
        if line is None:
            return
        yield line


class Run:
    """A command of rt in the program's folder, whose lines go to the log. It ends when this
    ends."""

    def __init__(self, log: TextIO, *words: str) -> None:
        self.log = log
        self.process = subprocess.Popen(
            ["rt", *words], cwd=FOLDER, stdin=subprocess.DEVNULL, stdout=subprocess.PIPE,
            stderr=subprocess.STDOUT, text=True, errors="replace")

    def lines(self) -> Iterator[str | None]:
        """Its lines, each written to the log, and None for each second without one."""
        for line in lines_of(self.process):
            if line is not None:
                self.log.write(f"{line}\n")
                self.log.flush()
            yield line

    def end(self) -> int:
        """Waits for its end, and gives its status."""
        return self.process.wait()

    def stop(self) -> None:
        """Stops it, with all that it began."""
        self.process.terminate()
        self.process.wait()


def prove(log: TextIO, count: int) -> bool:
    """Proves the crates, and tells whether all are proved."""
    crates = crates_of_program()
    kept = [it.name for it in crates if it.is_kept()]
    forecast = Forecast(crates, count, kept)
    progress, blocks = Progress(forecast, {it.name for it in crates}), Blocks()
    beside = f", {count} beside each other" if count > 1 else ""
    say(f"{len(crates) - len(kept)} of {len(crates)} crates are to be proved{beside}, "
        f"{minutes(forecast.whole)} on a machine like that of docs/GATE.md; a look through all "
        f"sources comes first")
    run = Run(log, "all", "check", "--jobs", str(count))
    try:
        for line in run.lines():
            name = blocks.take(line) if line is not None else None
            if line is not None and line.startswith("rt: waiting for another rt"):
                progress.clear()
                say("rt is at work here for another call: this one waits for it")
            if name:
                progress.take(name)
            progress.show()
    except Stopped:
        run.stop()
        progress.clear()
        proved = sum(it.is_kept() for it in crates)
        say(f"stopped: {proved} of {len(crates)} crates are proved, which stays; call it again to "
            f"go on there")
        raise
    finally:
        progress.clear()
    if run.end() == 0:
        return True
    tell_failure(blocks)
    return False


def tell_failure(blocks: Blocks) -> None:
    """Shows the logs of what failed."""
    for name in blocks.failed:
        log = blocks.logs.get(name, [])
        if log:
            say(f"{name} is not proved; what rt said of it:")
            print("\n".join(log[-LINES_SHOWN:]), file=sys.stderr)
    if not blocks.failed:
        print("\n".join(blocks.rest[-LINES_SHOWN:]), file=sys.stderr)
    names = f": {', '.join(blocks.failed)}" if blocks.failed else ""
    say(f"the build failed{names}. The whole log is {LOG.relative_to(TOP)}")


def link(log: TextIO) -> bool:
    """Builds the program of what is proved, and tells whether it is there and runs."""
    run, said = Run(log, "run"), []
    try:
        said = [line for line in run.lines() if line is not None]
    except Stopped:
        run.stop()
        say("stopped: all crates are proved, which stays; call it again to build the program")
        raise
    run.end()
    # Without words the program ends with its status for wrong usage, and says so last: then it was
    # built.
    if os.access(BUILT, os.X_OK) and said[-1:] == [USAGE]:
        return True
    print("\n".join(said[-LINES_SHOWN:]), file=sys.stderr)
    say(f"the build failed. The whole log is {LOG.relative_to(TOP)}")
    return False


@contextlib.contextmanager
def in_turn() -> Iterator[None]:
    """Waits while another build is at work here: two would write one log."""
    held = os.open(LOG.parent, os.O_RDONLY)
    try:
        try:
            fcntl.flock(held, fcntl.LOCK_EX | fcntl.LOCK_NB)
        except BlockingIOError:
            say("another build is at work here: this one waits for it")
            fcntl.flock(held, fcntl.LOCK_EX)
        yield
    finally:
        os.close(held)


def stop(_number: int, _frame: FrameType | None) -> None:
    """Ends the build, as Ctrl-C does."""
    raise Stopped


def build(why: str) -> int:
    """Builds the program for a reason, and gives the exit status."""
    if shutil.which("rt") is None:
        say(f"{why}, and rt isn't on PATH to build it: it comes with the Rattle kit (README, "
            f"\"Build\")")
        return 1
    for number in (signal.SIGINT, signal.SIGTERM, signal.SIGHUP):
        signal.signal(number, stop)
    say(f"building, since {why}. What was proved stays, so the build may be stopped and begun "
        f"again")
    LOG.parent.mkdir(parents=True, exist_ok=True)
    try:
        with in_turn(), open(LOG, "w", encoding="utf-8") as log:
            begun = Begun()
            if not prove(log, lanes()) or not link(log):
                return 1
            begun.write()
    except Stopped:
        return STOPPED
    say("built")
    return 0
