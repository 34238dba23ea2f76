"""One run of `exsm clients VOLUME` on pipes that don't block."""
from __future__ import annotations

import os
import signal
import subprocess
import tempfile
from typing import Optional

from exsm.transport import AnyPath, Ended, ended_by, find_program

MAX_BYTES = str((1 << 64) - 1)
"""Bytes of lines that a run takes: so many that no server comes to its end."""

READ_AT_ONCE = 1 << 20
WRITTEN_AT_ONCE = 1 << 16

HELD_OFF = (signal.SIGINT, signal.SIGTERM, signal.SIGHUP)
"""Signals that end the server, and not the program, which then ends with its input."""


class ClientsRun:
    """A run whose lines and replies have a client's number before them."""

    def __init__(self, volume: AnyPath, program: Optional[str] = None) -> None:
        self._said = tempfile.TemporaryFile()
        words = [program or find_program(), "clients", os.fspath(volume), "--max-bytes", MAX_BYTES]
        before = signal.pthread_sigmask(signal.SIG_BLOCK, HELD_OFF)   # as the program keeps them
        try:
            self._run = subprocess.Popen(words, stdin=subprocess.PIPE, stdout=subprocess.PIPE,
                                         stderr=self._said)
        except BaseException:
            self._said.close()
            raise
        finally:
            signal.pthread_sigmask(signal.SIG_SETMASK, before)
        self.input, self.output = self._run.stdin.fileno(), self._run.stdout.fileno()
        for pipe in (self.input, self.output):
            os.set_blocking(pipe, False)
        self._unsent = bytearray()
        self._part: list[bytes] = []
        self.is_open = False                       # the first reply came, so the volume is open
        self.is_ending = False
        self.ask(1, [b"log"])

    def ask(self, number: int, lines: list[bytes]) -> None:
        """Adds lines of a client to those that are to be sent."""
        for line in lines:
            self._unsent += b"%d %s\n" % (number, line)

    @property
    def has_unsent(self) -> bool:
        """Whether lines are still to be sent."""
        return bool(self._unsent)

    def write(self) -> None:
        """Sends what the pipe takes now. Where the program has ended, its output tells so."""
        try:
            while self._unsent:
                with memoryview(self._unsent) as unsent:
                    sent = os.write(self.input, unsent[:WRITTEN_AT_ONCE])
                del self._unsent[:sent]
        except BlockingIOError:
            pass
        except BrokenPipeError:
            self._unsent.clear()

    def read(self) -> Optional[list[bytes]]:
        """The replies that came whole; None at the end of the program's output."""
        try:
            piece = os.read(self.output, READ_AT_ONCE)
        except BlockingIOError:
            return []
        if not piece:
            return None
        *replies, last = piece.split(b"\n")
        if replies and self._part:
            replies[0] = b"".join([*self._part, replies[0]])
            self._part.clear()
        if last:
            self._part.append(last)
        return replies

    def end(self) -> None:
        """Ends the schedule, which aborts what is open."""
        self.is_ending = True
        self._unsent.clear()
        self._run.stdin.close()

    def ended(self) -> Ended:
        """How the program ended, once its output has come to its end."""
        status = self._run.wait()
        self._said.seek(0)
        fault = ended_by(status, self._said.read().decode(errors="replace"))
        self.close()
        return fault

    def close(self) -> None:
        """Ends the schedule where that wasn't done, and waits for the program."""
        self._unsent.clear()                       # the pipe's number may be another file's now
        self._run.stdin.close()
        self._run.stdout.close()
        self._run.wait()
        self._said.close()
