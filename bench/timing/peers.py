"""SQLite and LMDB as stores beside exsm: programs in C over one chunk layer, on the same work."""
from __future__ import annotations

import hashlib
import os
import shutil
import subprocess
from pathlib import Path
from typing import NamedTuple, Optional

from timing.lines import Work
from timing.times import Times

SOURCES = Path(__file__).resolve().parent.parent / "peers"
FLAGS = ["-std=c11", "-D_GNU_SOURCE", "-O2", "-Wall", "-Wextra", "-Werror"]


class Kind(NamedTuple):
    """A store: its file of the driver, its header, the library, and the package that has both."""

    source: str
    header: str
    library: str
    package: str


KINDS = [
    Kind("sqlite.c", "sqlite3.h", "sqlite3", "libsqlite3-dev"),
    Kind("lmdb.c", "lmdb.h", "lmdb", "liblmdb-dev"),
]


class Missing(Exception):
    """What the stores are built with isn't there; the text says what."""


def compiler() -> str:
    """The C compiler."""
    found = os.environ.get("CC") or shutil.which("cc")
    if found is None:
        raise Missing("there is no C compiler `cc`, by which the stores beside are built")
    return found


def has_header(header: str) -> bool:
    """Whether the compiler finds a header."""
    ran = subprocess.run([compiler(), "-E", "-"], input=f"#include <{header}>\n".encode(),
                         capture_output=True, check=False)
    return ran.returncode == 0


def refuse_missing() -> None:
    """Refuses where a header isn't there, and says which package has it."""
    lacking = [it for it in KINDS if not has_header(it.header)]
    if lacking:
        headers = " and ".join(it.header for it in lacking)
        packages = " ".join(it.package for it in lacking)
        raise Missing(f"{headers} can't be included: apt-get install {packages}")


class Peer:
    """A store that is built. Its files lie in a folder."""

    def __init__(self, kind: Kind, folder: str) -> None:
        self.folder = folder
        self.program = os.path.join(folder, f"peer_{kind.library}")
        sources = [str(SOURCES / name) for name in ("driver.c", "chunks.c", kind.source)]
        subprocess.run([compiler(), *FLAGS, "-o", self.program, *sources, f"-l{kind.library}"],
                       check=True)
        self.name = self._run("name").decode().strip()
        self.short = self.name.split()[0]

    def _run(self, *words: str) -> bytes:
        """What the driver writes."""
        return subprocess.run([self.program, *words], check=True, stdout=subprocess.PIPE).stdout

    def script(self, lines: list[str]) -> str:
        """A file with these lines."""
        path = os.path.join(self.folder, "peer.script")
        Path(path).write_text("".join(f"{line}\n" for line in lines), encoding="ascii")
        return path

    def made(self, work: Work) -> str:
        """A store in which what stands before a work was done."""
        path = os.path.join(self.folder, f"{self.short}.kept")
        shutil.rmtree(path, ignore_errors=True)
        os.mkdir(path)
        self._run(path, "fill", self.script(work.before))
        return path

    def _copied(self, made: str) -> str:
        """A copy of a store."""
        path = os.path.join(self.folder, self.short)
        shutil.rmtree(path, ignore_errors=True)
        return shutil.copytree(made, path)

    def time(self, made: str, work: Work) -> Times:
        """What the lines of a work take on a copy of a store, without its opening."""
        told = self._run(self._copied(made), "time", self.script(work.lines)).split()
        return Times(float(told[1]), float(told[0]))

    def digest(self, made: str, work: Work) -> str:
        """The SHA-256 of all that a work reads and lists, and of all objects behind it."""
        told = self._run(self._copied(made), "tell", self.script(work.lines))
        return hashlib.sha256(told).hexdigest()

    def opening(self, made: str) -> list[str]:
        """The words of a process that opens a store, ready for an edit."""
        return [self.program, self._copied(made), "open"]

    def stepping(self, made: str, work: Work) -> list[str]:
        """The words of a process that does a work on a copy of a store."""
        return [self.program, self._copied(made), "fill", self.script(work.lines)]


def peers(folder: str) -> list[Peer]:
    """The stores, built in a folder."""
    refuse_missing()
    return [Peer(kind, folder) for kind in KINDS]


def counted(words: list[str], given: Optional[str] = None, only: str = "") -> int:
    """The instructions of a process on a file as its input, or those within one of its functions.

    The C library copies and fills by one instruction that repeats itself, of which the counter
    takes each byte as an instruction; so it is told to use none of these.
    """
    most = 1 << 31
    plain = (f"glibc.cpu.x86_rep_movsb_threshold={most}:"
             f"glibc.cpu.x86_rep_stosb_threshold={most}")
    with open(given or os.devnull, "rb") as source:
        ran = subprocess.run(
            ["valgrind", "--tool=callgrind", "--callgrind-out-file=/dev/null",
             *([f"--toggle-collect={only}"] if only else []), *words],
            stdin=source, stdout=subprocess.DEVNULL, stderr=subprocess.PIPE, check=True, text=True,
            env={**os.environ, "GLIBC_TUNABLES": plain})
    line = next(it for it in ran.stderr.splitlines() if "Collected :" in it)
    return int(line.split()[-1])
