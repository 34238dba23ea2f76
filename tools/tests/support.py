"""What the tests share: a folder of their own, and runs of programs there."""
from __future__ import annotations

import os
import pty
import select
import signal
import subprocess
import sys
import tempfile
import time
import unittest
from pathlib import Path

TOOLS = Path(__file__).resolve().parent.parent
TOP = TOOLS.parent
SECONDS = 600
"""How long a test waits for what must come, also on a machine that does much else. No test is
slower for it, but one that fails."""


class Ran:
    """How a program ended, and what it wrote."""

    def __init__(self, status: int, out: bytes, err: bytes) -> None:
        self.status, self.out, self.errors = status, out, err.decode().splitlines()

    @property
    def lines(self) -> list[str]:
        """The lines of standard output."""
        return self.out.decode().splitlines()


class InFolder(unittest.TestCase):
    """A test that runs in a new folder."""

    def setUp(self) -> None:
        room = tempfile.TemporaryDirectory(prefix="exsm-test-")
        self.addCleanup(room.cleanup)
        self.addCleanup(os.chdir, os.getcwd())
        self.folder = Path(room.name)
        os.chdir(room.name)

    def run_words(self, *words: object, given: bytes = b"") -> Ran:
        """Runs a program on bytes of standard input."""
        run = subprocess.run([str(word) for word in words], input=given, capture_output=True,
                             timeout=SECONDS, check=False)
        return Ran(run.returncode, run.stdout, run.stderr)

    def tool(self, name: str, *words: object, given: bytes = b"") -> Ran:
        """Runs a tool."""
        return self.run_words(sys.executable, TOOLS / f"{name}.py", *words, given=given)

    def exsm(self, *words: object, given: bytes = b"") -> Ran:
        """Runs the program."""
        return self.run_words(os.environ["EXSM"], *words, given=given)

    def format(self, volume: str = "v", page_size: int = 512, pages: int = 600, segs: int = 600,
               seg_len: int = 1, fan: int = 3) -> str:
        """Makes a volume."""
        ran = self.exsm("format", volume, "--page-size", page_size, "--pages", pages,
                        "--segs", segs, "--seg-len", seg_len, "--fan", fan)
        self.assertEqual((ran.status, ran.errors), (0, []))
        return volume


# An object of 1,000 bytes, with which the scripts of rows begin.
BASE = "begin\nfile a\ncreate a as @x\nappend @x rep:1000:61\ncommit\n"


class OfRows(InFolder):
    """A test of scripts and their replies on a small volume."""

    def small(self) -> None:
        """Makes the volume of the rows: 64 pages and 16 units."""
        self.format(pages=64, segs=16, fan=2)

    def replies(self, script: str) -> list[str]:
        """What a script is answered, in a run that comes to its end."""
        ran = self.exsm("run", "v", given=script.encode())
        self.assertEqual(ran.status, 0, ran.errors)
        return ran.lines

    def check_rows(self, rows: dict[str, tuple[str, list[str]]]) -> None:
        """Runs each script behind BASE on a new volume, and compares the replies to its own
        lines."""
        for name, (script, wanted) in rows.items():
            with self.subTest(name):
                self.small()
                self.assertEqual(self.replies(BASE + script)[BASE.count("\n"):], wanted)
                os.remove("v")


def processor_seconds() -> float:
    """What this process, and those that it started and that ended, took of processors."""
    return sum(os.times()[:4])


def process_state(process: int) -> str:
    """The letter of a process's state, as `S` of one that waits."""
    told = Path(f"/proc/{process}/stat").read_text(encoding="ascii", errors="replace")
    return told.rsplit(")", 1)[1].split()[0]


class Terminal:
    """The runner in a terminal, its history in the folder of the test."""

    def __init__(self, volume: str, until: str = "exsm> ", **more: str) -> None:
        self.side, other = pty.openpty()
        variables = {**os.environ, "HOME": ".", "TERM": "dumb", "COLUMNS": "200", **more}
        self.run = subprocess.Popen(
            [sys.executable, str(TOOLS / "exsm_do.py"), volume], stdin=other, stdout=other,
            stderr=other, start_new_session=True, env=variables)
        os.close(other)
        if "TERM" in more:
            self.read_on(until)
        else:
            self.read_to(until)

    def type(self, keys: str, until: str) -> str:
        """Types keys, and gives what comes up to a prompt that ends it."""
        os.write(self.side, keys.encode())
        return self.read_to(until)

    def read_to(self, until: str, seconds: float = SECONDS) -> str:
        """What comes until it ends with a text."""
        seen, end = "", time.monotonic() + seconds
        while not (seen.endswith(until) and "\n" in seen or seen == until) and until:
            if not select.select([self.side], [], [], max(0, end - time.monotonic()))[0]:
                raise AssertionError(f"no {until!r} came, but {seen!r}")
            try:
                seen += os.read(self.side, 65536).decode(errors="replace")
            except OSError:                        # the runner ended, and nothing is left
                raise AssertionError(f"no {until!r} came, but {seen!r}") from None
        return seen

    def read_on(self, until: str, seconds: float = SECONDS) -> str:
        """What comes until a text is somewhere in it."""
        seen, end = "", time.monotonic() + seconds
        while until not in seen:
            if not select.select([self.side], [], [], max(0, end - time.monotonic()))[0]:
                raise AssertionError(f"no {until!r} came, but {seen!r}")
            seen += os.read(self.side, 65536).decode(errors="replace")
        return seen

    def read_on_after(self, keys: str, until: str) -> str:
        """Types keys, and gives what comes until a text is somewhere in it."""
        os.write(self.side, keys.encode())
        return self.read_on(until)

    def interrupt(self, typed: str) -> str:
        """Types a line without its end and then Ctrl-C, and gives what comes up to the next prompt.

        Python hears of a signal at a prompt only where it waits for a key. So the signal is sent
        once the keys were shown, and the runner sleeps again.
        """
        os.write(self.side, typed.encode())
        self.read_to(typed)
        while process_state(self.run.pid) != "S":
            time.sleep(0.001)
        os.kill(self.run.pid, signal.SIGINT)
        return self.read_to("exsm*> ")

    def close(self) -> None:
        """Ends the runner where it is there, and closes the terminal."""
        if self.run.poll() is None:
            self.run.kill()
            self.run.wait()
        os.close(self.side)
