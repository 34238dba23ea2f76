"""Runs of the program: begun without a start of their own, noted call by call, or with a call that
fails.

A small library is built by the C compiler and preloaded (outside.c). Where there is no compiler,
each run is a process of its own, and neither are calls noted nor do they fail.
"""
from __future__ import annotations

import os
import signal
import socket
import struct
import subprocess
from pathlib import Path
from shutil import which
from typing import BinaryIO, NamedTuple, Optional, Protocol, Sequence

SECONDS = 1200
"""How long a run may take that has to wait for a processor. Of one it has less, by outside.c."""

SOURCE = Path(__file__).with_suffix(".c")
PLAN, NOTE, ANSWER = struct.Struct("=5Q"), struct.Struct("=4Q"), struct.Struct("=2q")
READY = ANSWER.pack(0, 0)


class Plan(NamedTuple):
    """What is done about the calls of a run, as outside.c has it."""

    noted: bool = False
    fails: int = 0
    error: int = 0
    thousandths: int = 0
    refuses: int = 0


class Late(Exception):
    """A run didn't end in time."""


class NotServed(Exception):
    """A program doesn't take the library."""


class Ended(NamedTuple):
    """How a run ended, what it wrote, and the notes of its calls."""

    status: int
    out: bytes
    errors: bytes
    notes: bytes = b""


class Talk(Protocol):
    """A run that is sent lines and replies to them."""

    given: BinaryIO
    replies: BinaryIO

    def kill(self) -> None:
        """Kills it."""

    def end(self) -> Ended:
        """Ends the input, and waits for the end of the run."""


def library(folder: Path) -> Optional[Path]:
    """Builds the library in a folder; there is none where no C compiler can."""
    compiler = which("cc") or which("gcc") or which("clang")
    if compiler is None:
        return None
    made = folder / "outside.so"
    words = [compiler, "-shared", "-fPIC", "-O2", "-o", str(made), str(SOURCE)]
    ran = subprocess.run(words, capture_output=True, check=False)
    return made if ran.returncode == 0 else None


# Each run a process of its own.

class StartedTalk:
    """A run with pipes."""

    def __init__(self, words: Sequence[str]) -> None:
        self.run = subprocess.Popen(words, stdin=subprocess.PIPE, stdout=subprocess.PIPE,
                                    stderr=subprocess.PIPE)
        assert self.run.stdin and self.run.stdout
        self.given, self.replies = self.run.stdin, self.run.stdout

    def kill(self) -> None:
        """Kills it."""
        self.run.kill()

    def end(self) -> Ended:
        """Ends the input, and waits for the end of the run."""
        out, errors = self.run.communicate()
        return Ended(self.run.returncode, out, errors)


class Started:
    """Runs that are started, each as a process of its own."""

    def __init__(self, program: Path) -> None:
        self.program = str(program)

    @property
    def seconds(self) -> float:
        """The processor time of runs that aren't processes of this one's own."""
        return 0.0

    def ended(self, words: Sequence[str], given: bytes) -> Ended:
        """Runs the program on an input to its end."""
        return self.once(words, given)

    def once(self, words: Sequence[str], given: bytes) -> Ended:
        """Runs it as a process of its own."""
        try:
            ran = subprocess.run([self.program, *words], input=given, capture_output=True,
                                 timeout=SECONDS, check=False)
        except subprocess.TimeoutExpired:
            raise Late from None
        return Ended(ran.returncode, ran.stdout, ran.stderr)

    def talk(self, words: Sequence[str]) -> Talk:
        """Begins a run that is sent lines."""
        return StartedTalk([self.program, *words])

    def close(self) -> None:
        """Ends what waits for runs."""


# Runs that go on from a program that was stopped before it began.

class Server:
    """A program with its words, stopped before it begins."""

    def __init__(self, built: Path, words: Sequence[str]) -> None:
        self.socket, other = socket.socketpair(socket.AF_UNIX, socket.SOCK_SEQPACKET)
        variables = {**os.environ, "LD_PRELOAD": str(built), "EXSM_OUTSIDE": str(other.fileno())}
        with other:
            self.process = subprocess.Popen(
                words, env=variables, pass_fds=[other.fileno()], stdin=subprocess.DEVNULL,
                stdout=subprocess.DEVNULL, stderr=subprocess.DEVNULL)
        self.socket.settimeout(SECONDS)
        self.running: Optional[int] = None
        self.seconds = 0.0
        if self.socket.recv(ANSWER.size) != READY:
            raise NotServed(words[0])

    def begin(self, plan: Plan, descriptors: list[int]) -> int:
        """Begins a run, and gives its process."""
        socket.send_fds(self.socket, [PLAN.pack(*plan)], descriptors)
        self.running = self._answer()[0]
        return self.running

    def end(self, process: int) -> int:
        """Waits for the end of a run; gives its status, or below 0 the signal that killed it."""
        try:
            status, taken = self._answer()
        except socket.timeout:
            os.kill(process, signal.SIGKILL)
            self._answer()
            raise Late from None
        finally:
            self.running = None
        self.seconds += taken / 1e6
        return status

    def _answer(self) -> tuple[int, int]:
        told = self.socket.recv(ANSWER.size)
        if not told:
            raise EOFError("the program that waited for runs is gone")
        first, second = ANSWER.unpack(told)
        return first, second

    def close(self) -> None:
        """Ends it, and a run that still waits for lines."""
        if self.running is not None:
            os.kill(self.running, signal.SIGKILL)
            self.running = None
        self.socket.close()
        self.process.wait()


class Stream:
    """A file in memory that stands for a stream of runs, one after the other."""

    def __init__(self, name: str) -> None:
        self.file = os.memfd_create(name)

    def give(self, data: bytes) -> int:
        """Has these bytes, to be read from the first one on; gives its descriptor."""
        os.ftruncate(self.file, 0)
        os.lseek(self.file, 0, os.SEEK_SET)
        if data:
            with open(self.file, "wb", closefd=False) as writer:
                writer.write(data)
            os.lseek(self.file, 0, os.SEEK_SET)
        return self.file

    def data(self) -> bytes:
        """Its bytes."""
        return os.pread(self.file, os.fstat(self.file).st_size, 0)


class ServedTalk:
    """A run whose input and output are pipes."""

    def __init__(self, server: Server, errors: Stream, notes: Stream) -> None:
        self.server, self.errors = server, errors
        source, given = os.pipe()
        replies, sink = os.pipe()
        self.process = server.begin(Plan(), [source, sink, errors.give(b""), notes.give(b"")])
        os.close(source)
        os.close(sink)
        self.given, self.replies = open(given, "wb"), open(replies, "rb")

    def kill(self) -> None:
        """Kills it."""
        os.kill(self.process, signal.SIGKILL)

    def end(self) -> Ended:
        """Ends the input, and waits for the end of the run."""
        with self.replies:
            try:
                self.given.close()
            except BrokenPipeError:
                pass
            out = self.replies.read()
            return Ended(self.server.end(self.process), out, self.errors.data())


class Served(Started):
    """Runs that go on from where the program was stopped; for each words one program waits."""

    def __init__(self, program: Path, built: Path) -> None:
        super().__init__(program)
        self.built = built
        self.servers: dict[tuple[str, ...], Server] = {}
        self.streams = [Stream(name) for name in ("given", "out", "errors", "notes")]

    def server(self, words: Sequence[str]) -> Server:
        """The program with these words."""
        found = self.servers.get(tuple(words))
        if found is None:
            found = self.servers[tuple(words)] = Server(self.built, [self.program, *words])
        return found

    def ended(self, words: Sequence[str], given: bytes, plan: Plan = Plan()) -> Ended:
        """Runs the program on an input to its end."""
        server = self.server(words)
        source, *others = self.streams
        process = server.begin(plan, [source.give(given), *(stream.give(b"") for stream in others)])
        status = server.end(process)
        return Ended(status, *(stream.data() for stream in others))

    @property
    def seconds(self) -> float:
        """The processor time of all runs."""
        return sum(server.seconds for server in self.servers.values())

    def talk(self, words: Sequence[str]) -> Talk:
        """Begins a run that is sent lines."""
        return ServedTalk(self.server(words), *self.streams[2:])

    def close(self) -> None:
        """Ends the programs that wait."""
        for server in self.servers.values():
            server.close()
