"""How lines reach a run of exsm and how its replies come back, and why a run ended.

`Store` speaks to whatever is a `Transport`: a run of the program on pipes, which stands here, the
library within this process (`exsm.library`), or a connection to a server (`exsm.sockets`).
"""
from __future__ import annotations

import os
import re
import shutil
import subprocess
import tempfile
import time
from pathlib import Path
from typing import Callable, NoReturn, Optional, Protocol, Union

STATUS_NAMES = {
    2: "usage", 3: "script fault", 4: "output fault", 5: "disk fault", 6: "bad volume",
    7: "memory", 8: "damaged", 9: "already a volume", 10: "too small", 11: "script long",
    12: "not empty", 13: "bad dump", 14: "misfit", 15: "no room", 16: "no pages",
}
"""The program's statuses but 0, as the README has them."""

USAGE, DISK_FAULT, BAD_VOLUME = 2, 5, 6

WAIT_STEP = 0.05
"""Seconds between two tries to have a volume that another run has."""

READ_AT_ONCE = 1 << 16
"""Bytes of replies that are read at once. Long ones take three times as long in steps of 8 KiB."""

AnyPath = Union[str, "os.PathLike[str]"]


class Ended(Exception):
    """The program ended before its script did, with `status`; below 0 it is a signal's number.

    `text` is what the program wrote to standard error. Its last line is `exsm: status CODE NAME`.
    """

    def __init__(self, status: int, text: str) -> None:
        self.status, self.text = status, text.strip()
        super().__init__(self.text or f"exsm: {status_words(status)}")


class Locked(Ended):
    """Another run has the volume open. Status 5."""


class Missing(Ended):
    """There is no file of the volume's name. Status 5."""


class Denied(Ended):
    """The volume's file may not be read and written. Status 5."""


class NoVolume(Ended):
    """The file holds no volume, or a damaged one; `part` is the first part that fails. Status 6."""

    def __init__(self, status: int, text: str) -> None:
        super().__init__(status, text)
        self.part = self.text.rpartition(" ")[2]


class Cut(ConnectionError):
    """The connection to a server ended before a reply: whether its line was done isn't known."""


class ProgramMissing(Exception):
    """There is no program `exsm` where the tools look for one."""


CAUSES: list[tuple[int, re.Pattern[str], type[Ended]]] = [
    (DISK_FAULT, re.compile(r": another run has it open$", re.M), Locked),
    (DISK_FAULT, re.compile(r" \(os error 2\)( \([^()]*\))?$", re.M), Missing),
    (DISK_FAULT, re.compile(r" \(os error (1|13|30)\)( \([^()]*\))?$", re.M), Denied),
    (BAD_VOLUME, re.compile(r"^exsm: status 6 bad volume \w+$", re.M), NoVolume),
]
"""How a status and what the program said tell a cause. The file's name stands before both."""


def status_words(status: int) -> str:
    """A status in words: `status 5 disk fault`, or the signal that ended the program."""
    if status < 0:
        return f"ended by signal {-status}"
    return f"status {status} {STATUS_NAMES.get(status, '')}".rstrip()


def ended_by(status: int, text: str) -> Ended:
    """The exception of an end: the one of its cause, where what was said tells it."""
    for code, said, cause in CAUSES:
        if status == code and said.search(text.strip()):
            return cause(status, text)
    return Ended(status, text)


def find_program() -> str:
    """The program: `$EXSM`, else the one that this repository built, that was installed or
    unpacked, else `PATH`'s."""
    tools = Path(__file__).resolve().parent.parent
    built = tools.parent / "crates" / "exsm" / "out" / "exsm"
    if "EXSM" in os.environ:
        return os.environ["EXSM"]
    for program in (built, tools / "program"):
        if os.access(program, os.X_OK):
            return str(program)
    found = shutil.which("exsm")
    if found is None:
        raise ProgramMissing("there is no program exsm: build it by ./exsm, or name it by EXSM")
    return found


class Transport(Protocol):
    """What carries lines to a session of one volume, and its replies back."""

    def send(self, line: bytes) -> None:
        """Sends a line, which has no line feed. `Ended` where the session ended."""

    def receive(self) -> str:
        """The next reply, without its line feed. `Ended` where the session ended before it."""

    def end(self) -> None:
        """Ends the script, which aborts an open transaction. `Ended` tells a status but 0."""

    def goes_on(self) -> bool:
        """Whether the session is there."""


class ProgramRun:
    """One run of `exsm run VOLUME`, on pipes."""

    def __init__(self, volume: AnyPath, program: Optional[str] = None) -> None:
        self._said = tempfile.TemporaryFile()
        try:
            self._run = subprocess.Popen(
                [program or find_program(), "run", os.fspath(volume)], bufsize=READ_AT_ONCE,
                stdin=subprocess.PIPE, stdout=subprocess.PIPE, stderr=self._said)
        except BaseException:
            self._said.close()
            raise

    def send(self, line: bytes) -> None:
        """Sends a line."""
        try:
            self._run.stdin.write(line + b"\n")
            self._run.stdin.flush()
        except BrokenPipeError:
            self._ended()

    def receive(self) -> str:
        """The next reply."""
        reply = self._run.stdout.readline()
        if not reply.endswith(b"\n"):
            self._ended()
        return reply[:-1].decode("ascii")

    def _ended(self) -> NoReturn:
        """Raises what tells the end, once the program has ended."""
        status = self._run.wait()
        self._said.seek(0)
        raise ended_by(status, self._said.read().decode(errors="replace"))

    def goes_on(self) -> bool:
        """Whether the program runs."""
        return self._run.poll() is None

    def end(self) -> None:
        """Ends the script; a second call does nothing."""
        if self._said.closed:
            return
        try:
            try:
                self._run.stdin.close()
            except BrokenPipeError:
                pass                               # what was left to send: its status tells why
            self._run.stdout.read()                # a reply that wasn't read is no output fault
            if self._run.wait() != 0:
                self._ended()
        finally:
            self._run.stdout.close()
            self._said.close()


def begun(volume: AnyPath, program: Optional[str] = None) -> ProgramRun:
    """A run that has the volume open.

    The first line asks for the log, which changes nothing: its reply says that the volume is open.
    """
    run = ProgramRun(volume, program)
    try:
        run.send(b"log")
        run.receive()
        return run
    except BaseException:
        try:
            run.end()
        except Ended:
            pass                                   # the first fault is the one to tell
        raise


def waited(start: Callable[[], Transport], wait: float = 0) -> Transport:
    """A session that is started, and that is tried again for so many seconds where another one has
    the volume."""
    until = time.monotonic() + wait
    while True:
        try:
            return start()
        except Locked:
            if time.monotonic() >= until:
                raise
        time.sleep(WAIT_STEP)
