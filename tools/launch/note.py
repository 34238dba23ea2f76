"""The note beside the program: of what it was built, by which the launcher tells whether it is to
be built again.

It lies beside the program as `exsm.by`, with a line `kit`, `rt`, `commit`, `crates`, `parts` and
`program`: the kit's identity, where its command lies, the commit whose text was built (`edited`
where the text was no commit's), the crates that the program stands on, their folders of text, and
the SHA-256 of the program. Its time is that at which the build began to read the text.
"""
from __future__ import annotations

import hashlib
import os
import shutil
import subprocess
import time
from pathlib import Path

from launch.crates import BUILT, PARTS, TOP, crates_of_program

NOTE = BUILT.with_name(f"{BUILT.name}.by")
EDITED = "edited"
TEXT = ("crates", "crates.txt")
# Longer than a step of the clock that stamps files.
STEP = 0.05


def digest_of(path: Path) -> str:
    """The SHA-256 of a file, in digits."""
    return hashlib.sha256(path.read_bytes()).hexdigest()


def git(*words: str) -> str | None:
    """What git says of this repository, or None where it fails or isn't there."""
    try:
        ran = subprocess.run(["git", "-C", str(TOP), "--no-optional-locks", *words], text=True,
                             stdin=subprocess.DEVNULL, capture_output=True, check=False)
    except OSError:
        return None
    return ran.stdout if ran.returncode == 0 else None


def commit_of_text(text: tuple[str, ...] = TEXT) -> str:
    """The commit whose crates, or other text, stand here, or `edited`."""
    whose = git("rev-parse", "--show-toplevel")
    if whose is None or Path(whose.strip()).resolve() != TOP:
        return EDITED
    changed = git("-c", "core.excludesFile=", "status", "--porcelain", "--untracked-files=all",
                  "--", *text)
    commit = git("rev-parse", "--verify", "--quiet", "HEAD")
    return commit.strip() if commit and changed == "" else EDITED


def kit_of(rt: str) -> str:
    """The identity of the kit that a command rt belongs to, or nothing where it has none."""
    identity = Path(rt).parent.parent / "KIT-ID"
    lines = identity.read_text(encoding="utf-8").splitlines() if identity.is_file() else []
    return lines[0].strip() if lines else ""


class Begun:
    """A build that begins now: what it reads changed before this, or changes after it."""

    def __init__(self) -> None:
        NOTE.parent.mkdir(parents=True, exist_ok=True)
        marker = NOTE.with_name(f"{NOTE.name}.begun")
        marker.touch()
        self.at = marker.stat().st_mtime_ns
        marker.unlink()
        time.sleep(STEP)
        self.commit = commit_of_text()

    def write(self) -> None:
        """Writes the note of the program that was built."""
        rt = os.path.realpath(shutil.which("rt") or "")
        commit = self.commit if commit_of_text() == self.commit else EDITED
        names = [it.name for it in crates_of_program()]
        parts = [f"{name}/{part}" for name in names for part in PARTS
                 if (TOP / "crates" / name / part).is_dir()]
        rows = {"kit": kit_of(rt), "rt": rt, "commit": commit, "crates": " ".join(names),
                "parts": " ".join(parts), "program": digest_of(BUILT)}
        part = NOTE.with_name(f"{NOTE.name}.part")
        part.write_text("".join(f"{key} {value}\n" for key, value in rows.items()),
                        encoding="utf-8")
        os.utime(part, ns=(self.at, self.at))
        os.replace(part, NOTE)


def read(note: Path = NOTE) -> dict[str, str]:
    """The rows of the note, none where there is no note."""
    lines = note.read_text(encoding="utf-8").splitlines() if note.is_file() else []
    return {key: value for key, _, value in (line.partition(" ") for line in lines)}
