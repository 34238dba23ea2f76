#!/usr/bin/env python3
"""Times one client's schedule beside a script, and users who read at once through a server.

PROGRAM is a built exsm. Volumes and sockets lie in a new folder below FOLDER (/dev/shm where there
is none given). First workloads of one client, as `clients` steps them, beside the same lines in a
`run`: the processor time of a process without its opening of the volume, the median of N runs in
turn, and whether it is at most 1.1 times as long. Then so many connections at once to
`tools/exsm_serve.py`, each of which sends a read of 16 bytes and waits for its reply, again and
again for some seconds: the reads a second of the slowest connection and the longest wait for one
reply, and whether each got 1,000 and waited at most 100 ms. These times are the clock's, so other
work on the machine counts; all users are one process of Python. Last, the lines of a script that
one connection sends without waiting.
"""
from __future__ import annotations

import os
import selectors
import socket
import subprocess
import sys
import tempfile
import time
from pathlib import Path
from typing import Iterator, NamedTuple

sys.dont_write_bytecode = True

from timing import scripts  # noqa: E402
from timing.folder import MEMORY, words_of  # noqa: E402
from timing.program import Exsm  # noqa: E402
from timing.scripts import OBJECT, SIZE, Lines  # noqa: E402
from timing.times import Times, middle, unit  # noqa: E402

SERVER = Path(__file__).resolve().parent.parent / "tools" / "exsm_serve.py"
RATIO_MOST = 1.1
READS_LEAST = 1000
WAIT_MOST = 0.1
CONNECTIONS = (1, 4, 16)
STREAMED = 100_000


class Load(NamedTuple):
    """A workload of one client: its name, its parts and its lines."""

    name: str
    parts: int
    lines: Lines


def loads() -> Iterator[Load]:
    """The workloads, on an object of 12 MiB."""
    spots = scripts.places(5000, SIZE - 65536)
    yield Load("random read of 16 bytes", len(spots), scripts.reads(spots, 16))
    yield Load("random read of 4 KiB", len(spots), scripts.reads(spots, 4096))
    yield Load("size", 20000, [f"size {OBJECT}"] * 20000)
    yield Load("begin and abort", 10000, ["begin", "abort"] * 10000)
    yield Load("insert and commit", 300, scripts.commits(spots[:300]))
    yield Load("512 inserts, one transaction", 512, scripts.inserts(512, 6000000))


def schedules(program: str, folder: str, runs: int) -> None:
    """Rows of one client's schedule beside the script; each kind in turn on copies of a volume."""
    script, schedule = Exsm(program, folder), Exsm(program, folder, client=1)
    print("one client's schedule | run | clients | ratio | at most 1.1")
    for load in loads():
        made = script.volume(scripts.appended(SIZE))
        times: tuple[list[Times], list[Times]] = ([], [])
        for _ in range(runs):
            for it, found in zip((script, schedule), times):
                found.append(it.best(made, load.lines, 1))
        one, other = (middle(found).processor for found in times)
        told = "kept" if other <= RATIO_MOST * one else "missed"
        print(f"{load.name} | {unit(one / load.parts)} | {unit(other / load.parts)} | "
              f"{other / one:.2f} | {told}", flush=True)


class Served:
    """A server of a volume, to which one connects."""

    def __init__(self, program: str, volume: str) -> None:
        self.path = f"{volume}.socket"
        self.process = subprocess.Popen(
            [sys.executable, str(SERVER), volume, self.path], stdout=subprocess.PIPE,
            env={**os.environ, "EXSM": program})
        assert self.process.stdout
        if not self.process.stdout.readline():
            sys.exit("clients.py: the server ended at once")

    def connect(self) -> socket.socket:
        """A connection."""
        side = socket.socket(socket.AF_UNIX)
        side.connect(self.path)
        return side

    def __enter__(self) -> Served:
        return self

    def __exit__(self, *_: object) -> None:
        self.process.terminate()
        self.process.wait()


class Reader:
    """A user that reads, and waits for the reply before the next read."""

    def __init__(self, side: socket.socket, line: bytes, wanted: bytes) -> None:
        self.side, self.line, self.wanted = side, line, wanted
        self.replies, self.longest, self.sent = 0, 0.0, 0.0

    def send(self) -> None:
        """Sends the next read."""
        self.sent = time.perf_counter()
        self.side.send(self.line)

    def take(self) -> None:
        """Takes a reply, which comes whole, since it is short."""
        reply = self.side.recv(4096)
        self.longest = max(self.longest, time.perf_counter() - self.sent)
        if reply != self.wanted:
            sys.exit(f"clients.py: a read is answered {reply!r}")
        self.replies += 1


def read_at_once(served: Served, count: int, seconds: float) -> None:
    """The row of so many users who read at once."""
    line = f"read {OBJECT} 5000000 16\n".encode()
    first = served.connect()
    first.send(line)
    wanted = first.recv(4096)
    first.close()
    readers = [Reader(served.connect(), line, wanted) for _ in range(count)]
    with selectors.DefaultSelector() as selector:
        for reader in readers:
            selector.register(reader.side, selectors.EVENT_READ, reader)
            reader.send()
        start = time.perf_counter()
        while time.perf_counter() < start + seconds:
            for key, _ in selector.select():
                key.data.take()
                key.data.send()
        taken = time.perf_counter() - start
    for reader in readers:
        reader.side.close()
    least = min(reader.replies for reader in readers) / taken
    longest = max(reader.longest for reader in readers)
    is_kept = least >= READS_LEAST and longest <= WAIT_MOST
    print(f"{count} | {least:,.0f} | {longest * 1000:.1f} ms | {'kept' if is_kept else 'missed'}",
          flush=True)


def stream(served: Served) -> None:
    """The row of a script that one connection sends without waiting."""
    side = served.connect()
    text = f"read {OBJECT} 5000000 16\n".encode() * STREAMED
    start, taken, came = time.perf_counter(), 0, 0
    side.setblocking(False)
    with selectors.DefaultSelector() as selector:
        selector.register(side, selectors.EVENT_READ | selectors.EVENT_WRITE)
        while came < STREAMED:
            for _, mask in selector.select():
                if mask & selectors.EVENT_WRITE:
                    taken += side.send(text[taken:taken + 65536])
                    if taken == len(text):
                        selector.modify(side, selectors.EVENT_READ)
                if mask & selectors.EVENT_READ:
                    came += side.recv(1 << 20).count(b"\n")
    side.close()
    print(f"{STREAMED:,} reads that one connection sends without waiting: "
          f"{unit((time.perf_counter() - start) / STREAMED)} each")


def main() -> None:
    """Times schedules, then users of a server."""
    parser = words_of(__doc__, folder=MEMORY)
    parser.add_argument("--runs", type=int, default=5, metavar="N")
    parser.add_argument("--seconds", type=float, default=3.0)
    words = parser.parse_args()
    program = os.path.abspath(words.program)
    with tempfile.TemporaryDirectory(dir=words.folder) as folder:
        schedules(program, folder, words.runs)
        volume = Exsm(program, folder).volume(scripts.appended(SIZE))
        print("connections at once | reads a second of the slowest | longest wait | "
              "1,000 and 100 ms")
        with Served(program, volume) as served:
            for count in CONNECTIONS:
                read_at_once(served, count, words.seconds)
            stream(served)


if __name__ == "__main__":
    main()
