"""Runs of a built exsm on volumes in a folder."""
from __future__ import annotations

import os
import shutil
import subprocess
import sys
import time
from typing import Optional

from timing.scripts import Lines
from timing.times import Times, middle, rest_of


class Lacking(Exception):
    """A program has no such line."""


class Exsm:
    """A built program. Its volumes lie in a folder. A script is that of a run, or of one client."""

    def __init__(self, program: str, folder: str, client: Optional[int] = None) -> None:
        self.program = os.path.abspath(program)
        self.name = os.path.basename(program)
        self.folder = folder
        self.word = "run" if client is None else "clients"
        self.mark = "" if client is None else f"{client} "

    def volume(self, script: Optional[Lines] = None, page_size: int = 4096, pages: int = 16384,
               segs: int = 65536) -> str:
        """A new volume, on which a script ran."""
        path = os.path.join(self.folder, "volume")
        if os.path.exists(path):
            os.remove(path)
        words = ["--page-size", page_size, "--pages", pages, "--segs", segs, "--seg-len", 1,
                 "--fan", 169]
        subprocess.run([self.program, "format", path, *map(str, words)], check=True,
                       stdout=subprocess.DEVNULL)
        if script:
            self.run(path, script)
        return path

    def run(self, volume: str, lines: Lines) -> Times:
        """What a script takes, without the opening of the volume before its first line."""
        replies = os.path.join(self.folder, "replies")
        text = "".join(f"{self.mark}{line}\n" for line in lines).encode()
        with open(replies, "wb") as sink:
            child = subprocess.Popen([self.program, self.word, volume], stdin=subprocess.PIPE,
                                     stdout=sink)
            assert child.stdin
            child.stdin.write(f"{self.mark}files\n".encode())
            child.stdin.flush()
            while os.path.getsize(replies) == 0 and child.poll() is None:
                time.sleep(0.001)
            time.sleep(0.001)
            taken = rest_of(child, text)
        self._look_at_replies(child.returncode)
        return taken

    def _look_at_replies(self, status: int) -> None:
        """Ends the bench where a script failed, but for a line that the program lacks."""
        refused = next((line for line in self.answers() if line.startswith("no ")), None)
        if refused == "no 2 syntax":
            raise Lacking
        if status or refused:
            sys.exit(f"bench: {self.program} ended with {status}, {refused}")

    def answers(self) -> Lines:
        """The replies to the script that ran last."""
        with open(os.path.join(self.folder, "replies"), encoding="utf-8") as told:
            return [line.removeprefix(self.mark) for line in told.read().splitlines()[1:]]

    def best(self, made: str, lines: Lines, runs: int) -> Times:
        """The middle times of a script on copies of a volume."""
        kept = shutil.copy(made, os.path.join(self.folder, "kept"))
        whole = middle([self.run(shutil.copy(kept, made), lines) for _ in range(runs)])
        os.remove(kept)
        return whole

    def again(self, made: str, lines: Lines, runs: int) -> Times:
        """The same on one volume, where what a run changes hardly changes the next one."""
        return middle([self.run(made, lines) for _ in range(runs)])

    def opening(self, made: str, runs: int) -> Times:
        """The middle times of a whole process with an empty script."""
        def once() -> Times:
            start = time.perf_counter()
            child = subprocess.Popen([self.program, "run", made], stdin=subprocess.DEVNULL,
                                     stdout=subprocess.DEVNULL)
            _, _, used = os.wait4(child.pid, 0)
            child.returncode = 0
            return Times(time.perf_counter() - start, used.ru_utime + used.ru_stime)

        return middle([once() for _ in range(runs)])

    def oids(self, made: str) -> list[str]:
        """The identifiers of the small objects, as `list` tells them."""
        self.run(made, ["list small"])
        return self.answers()[0].split()[3:]

    def memory(self, made: str) -> float:
        """The most MiB that the process has had when it answers the first line."""
        child = subprocess.Popen([self.program, "run", made], stdin=subprocess.PIPE,
                                 stdout=subprocess.PIPE)
        assert child.stdin and child.stdout
        child.stdin.write(b"files\n")
        child.stdin.flush()
        child.stdout.readline()
        with open(f"/proc/{child.pid}/status", encoding="ascii") as status:
            most, = (int(line.split()[1]) for line in status if line.startswith("VmHWM"))
        child.communicate()
        return most / 1024
