"""Makes the archive of a release: the program and the library for C as they were built of this
commit's text, tools, documents and licence.

The archive is the same, byte for byte, whenever it is made of one commit and one program: names
stand in order, times are the commit's, owners are left out.
"""
from __future__ import annotations

import gzip
import hashlib
import io
import os
import shutil
import subprocess
import sys
import tarfile
from pathlib import Path
from typing import NamedTuple

from launch import library_note
from launch.crates import BUILT, TOP
from launch.note import EDITED, TEXT, Begun, commit_of_text, digest_of, git, read

PLATFORM = f"{os.uname().sysname.lower()}-{os.uname().machine}"
# What goes into the archive as it stands, by how its path begins.
TAKEN = ("LICENSE", "CHANGELOG.md", "README.md", "VERSION", "docs/", "examples/", "tools/exsm/",
         "tools/exsm_", "tools/exsm.bash", "tools/exsm.fish", "tools/exsm.sh", "tools/exsm.zsh",
         "tools/install", "tools/usage.txt", "tools/words.sh", "pyproject.toml")
# And of the library: header, layer and bindings, and how it is installed.
TAKEN_OF_LIBRARY = ("library/exsm", "library/heap.", "library/layer.h", "library/install")
WRAPPER, PROGRAM, VERSION_TOLD, SUMS = "exsm", "tools/program", "tools/version.txt", "SHA256SUMS"
GATE = TOP / ".ci" / "run"


class Packed(NamedTuple):
    """A file of the archive: what it holds and whether it is run, or what a link points to."""

    data: bytes
    is_run: bool = False
    link: str = ""


class Refused(Exception):
    """No archive is made, and why."""


def asked(*words: str) -> str:
    """What git says, where it must say something."""
    said = git(*words)
    if said is None:
        raise Refused(
            f"git {words[0]} fails in {TOP}: a release is made of a commit of its repository")
    return said


def hold_text() -> None:
    """Refuses where a file isn't what the commit has."""
    changed = asked("status", "--porcelain", "--untracked-files=no").splitlines()
    if changed or commit_of_text() == EDITED:
        first = changed[0][3:] if changed else "a file below crates"
        raise Refused(f"{first} isn't as the commit has it: a release is made of a commit")


def hold_program() -> None:
    """Refuses a program of which its note doesn't say that it was built of this commit's text."""
    gate = "`tools/release --gate FOLDER` runs the gate first, and takes what it built"
    note = read()
    if not BUILT.is_file() or not note:
        raise Refused(f"nothing says of what text {BUILT.relative_to(TOP)} was built: {gate}")
    if note.get("program") != digest_of(BUILT):
        raise Refused(
            f"{BUILT.relative_to(TOP)} isn't the program that its note was written of: {gate}")
    built = note.get("commit", EDITED)
    if built == EDITED or git("diff", "--quiet", built, "HEAD", "--", *TEXT) is None:
        raise Refused(
            f"{BUILT.relative_to(TOP)} was built of other text than this commit's: {gate}")


def run_gate() -> None:
    """Runs the gate, whose last line tells how it ended, and notes of what it built the program."""
    begun = Begun()
    last = ""
    with subprocess.Popen(["bash", str(GATE)], cwd=TOP, stdin=subprocess.DEVNULL,
                          stdout=subprocess.PIPE, text=True,
                          errors="replace") as run:
        assert run.stdout is not None
        for line in run.stdout:
            last = line.strip() or last
            print(line, end="", file=sys.stderr, flush=True)
    if run.returncode != 0 or not last.endswith(" 0 failed") or not BUILT.is_file():
        raise Refused(f"the gate didn't pass: {last or f'status {run.returncode}'}")
    begun.write()


def hold_library() -> None:
    """Refuses a library of which its note doesn't say that it was built of this commit's text."""
    why = library_note.why_not()
    if why is not None:
        raise Refused(f"{why}: `library/build` builds it, and `tools/release --program-alone "
                      "FOLDER` makes an archive without it")


def library() -> dict[str, Packed]:
    """The files of the library that was built, by name, with the link by which programs find it."""
    files = library_note.built_files()
    found = {str(it.relative_to(TOP)): Packed(it.read_bytes(), it.suffix not in (".a", ".h"))
             for it in files}
    shared = next(it for it in files if it.name.startswith("libexsm.so"))
    found[str(shared.parent.relative_to(TOP) / "libexsm.so")] = Packed(b"", link=shared.name)
    return found


def contents(with_library: bool) -> dict[str, Packed]:
    """The files of the archive by name."""
    taken = TAKEN + (TAKEN_OF_LIBRARY if with_library else ())
    names = [it for it in asked("ls-files", "-z").split("\0") if it.startswith(taken)]
    found = {it: Packed((TOP / it).read_bytes(), os.access(TOP / it, os.X_OK)) for it in names}
    if with_library:
        found.update(library())
    told = subprocess.run([str(TOP / "exsm"), "--version"], capture_output=True, check=True).stdout
    found[WRAPPER] = found["tools/exsm.sh"]
    found[PROGRAM] = Packed(BUILT.read_bytes(), True)
    found[VERSION_TOLD] = Packed(told)
    return found


def archive_of(files: dict[str, Packed], folder: str, seconds: int) -> bytes:
    """A tar archive, compressed, with the files below a folder."""
    plain, packed = io.BytesIO(), io.BytesIO()
    with tarfile.open(fileobj=plain, mode="w", format=tarfile.USTAR_FORMAT) as archive:
        for name, file in sorted(files.items()):
            entry = tarfile.TarInfo(f"{folder}/{name}")
            entry.size, entry.mtime = len(file.data), seconds
            entry.mode = 0o755 if file.is_run else 0o644
            if file.link:
                entry.type, entry.linkname, entry.mode = tarfile.SYMTYPE, file.link, 0o777
            archive.addfile(entry, io.BytesIO(file.data))
    with gzip.GzipFile(filename="", mode="wb", fileobj=packed, mtime=0) as archive:
        archive.write(plain.getvalue())
    return packed.getvalue()


def sums(digests: dict[str, str]) -> bytes:
    """Digests as `sha256sum --check` reads them."""
    return "".join(f"{digest}  {name}\n" for name, digest in sorted(digests.items())).encode()


def make(to: Path, with_gate: bool, with_library: bool) -> Path:
    """Makes the archive and the file with its SHA-256 in a folder, and gives the archive."""
    hold_text()
    if with_gate:
        run_gate()
    hold_program()
    if with_library:
        hold_library()
    files = contents(with_library)
    files[SUMS] = Packed(sums({name: hashlib.sha256(file.data).hexdigest()
                               for name, file in files.items() if not file.link}))
    version = (TOP / "VERSION").read_text(encoding="ascii").strip()
    folder = f"exsm-{version}-{PLATFORM}"
    data = archive_of(files, folder, int(asked("log", "-1", "--format=%ct")))
    to.mkdir(parents=True, exist_ok=True)
    archive = to / f"{folder}.tar.gz"
    for path, text in ((archive, data), (archive.with_name(f"{archive.name}.sha256"),
                                         sums({archive.name: hashlib.sha256(data).hexdigest()}))):
        part = path.with_name(f"{path.name}.part")
        part.write_bytes(text)
        os.replace(part, path)
    return archive


def release(to: Path, with_gate: bool, with_library: bool) -> int:
    """Makes a release, and gives the exit status."""
    try:
        if with_gate and shutil.which("rt") is None:
            raise Refused("rt isn't on PATH to run the gate: it comes with the Rattle kit (README, "
                          "\"Build\")")
        archive = make(to, with_gate, with_library)
    except (Refused, OSError) as fault:
        print(f"release: {fault}", file=sys.stderr)
        return 1
    print(archive.with_name(f"{archive.name}.sha256").read_text(encoding="ascii"), end="")
    return 0
