"""Runs of exsm whose replies go into a pipe, as a client has them."""
from __future__ import annotations

import hashlib
import os
import subprocess
from pathlib import Path

from timing.lines import FILE, Lines, Work, spelled
from timing.scripts import MIB
from timing.times import Times, rest_of

SIZES = ["--page-size", "4096", "--pages", "16384", "--segs", "65536", "--seg-len", "1",
         "--fan", "169"]
"""The sizes of the volumes: some 320 MB, most of it holes."""


class Refused(Exception):
    """A line was refused, or the program ended otherwise than well."""


class Piped:
    """A built program, whose volumes lie in a folder."""

    def __init__(self, program: str, folder: str) -> None:
        self.program = os.path.abspath(program)
        self.name = self.short = os.path.basename(program)
        self.folder = folder

    def made(self, work: Work) -> str:
        """A volume on which what stands before a work was done."""
        path = os.path.join(self.folder, f"{self.short}.kept")
        Path(path).unlink(missing_ok=True)
        subprocess.run([self.program, "format", path, *SIZES], check=True,
                       stdout=subprocess.DEVNULL)
        self.replies(path, ["begin", f"file {FILE}", "commit", *spelled(work.before, [])])
        return path

    def replies(self, volume: str, lines: Lines) -> list[str]:
        """What a script is answered; a refusal ends the bench."""
        script = "".join(f"{line}\n" for line in lines).encode("ascii")
        ran = subprocess.run([self.program, "run", volume], input=script, stdout=subprocess.PIPE,
                             check=True)
        told = ran.stdout.decode("ascii").splitlines()
        refused = next((line for line in told if line.startswith("no ")), None)
        if refused is not None:
            raise Refused(f"{self.program}: {refused}")
        return told

    def oids(self, volume: str) -> list[str]:
        """The identifiers of the objects, as `list` tells them."""
        return self.replies(volume, [f"list {FILE}"])[0].split()[3:]

    def _copied(self, made: str) -> str:
        """A copy of a volume, its holes as holes."""
        path = os.path.join(self.folder, self.short)
        Path(path).unlink(missing_ok=True)
        subprocess.run(["cp", "--sparse=always", made, path], check=True)
        return path

    def time(self, made: str, work: Work) -> Times:
        """What the lines of a work take on a copy of a volume, without its opening."""
        script = "".join(f"{it}\n" for it in spelled(work.lines, self.oids(made))).encode("ascii")
        with subprocess.Popen([self.program, "run", self._copied(made)], stdin=subprocess.PIPE,
                              stdout=subprocess.PIPE) as child:
            assert child.stdin and child.stdout
            child.stdin.write(b"log\n")
            child.stdin.flush()
            child.stdout.readline()                # the volume is open
            with subprocess.Popen(["cat"], stdin=child.stdout, stdout=subprocess.DEVNULL):
                child.stdout.close()
                taken = rest_of(child, script)
        if child.returncode:
            raise Refused(f"{self.program} ended with status {child.returncode}")
        return taken

    def digest(self, made: str, work: Work) -> str:
        """The SHA-256 of all that a work reads and lists, and of all objects behind it."""
        digest = hashlib.sha256()
        volume = self._copied(made)
        for reply in self.replies(volume, spelled(work.lines, self.oids(made))):
            digest.update(told_by(reply))
        oids = self.oids(volume)
        sizes = [int(it.split()[2]) for it in self.replies(volume, [f"size {it}" for it in oids])]
        reads = [f"read {oid} {at} {min(MIB, size - at)}" for oid, size in zip(oids, sizes)
                 for at in range(0, size, MIB)]
        for reply in self.replies(volume, reads):
            digest.update(told_by(reply))
        return digest.hexdigest()

    def opening(self, made: str) -> list[str]:
        """The words of a process that opens a volume, where its script is empty."""
        return [self.program, "run", self._copied(made)]

    def script(self, lines: Lines) -> str:
        """A file with these lines."""
        path = os.path.join(self.folder, f"{self.short}.script")
        Path(path).write_text("".join(f"{line}\n" for line in lines), encoding="ascii")
        return path


def told_by(reply: str) -> bytes:
    """What a reply gives: the bytes of a read, the numbers of a list on lines, or nothing."""
    words = reply.split()
    if words[1] == "read":
        return bytes.fromhex(words[3])
    if words[1] == "list":
        return "".join(f"{oid.rsplit('.', 1)[1]}\n" for oid in words[3:]).encode("ascii")
    return b""
