"""The note beside the library for C: of which commit's text it was built.

It lies beside the library as `libexsm.by`, with a line `commit` (`edited` where the text was no
commit's, or where the static library of the crate was named and not made of it) and one for each
file that was built, with its SHA-256.
"""
from __future__ import annotations

from pathlib import Path
from typing import Iterable

from launch.crates import TOP
from launch.note import EDITED, TEXT, commit_of_text, digest_of, git, read

OUT = TOP / "library" / "out"
NOTE = "libexsm.by"
# What the library is built of.
LIBRARY_TEXT = (*TEXT, "library", "VERSION")


def commit_of_library() -> str:
    """The commit whose text the library would be built of now, or `edited`."""
    return commit_of_text(LIBRARY_TEXT)


def write(folder: Path, commit: str, files: Iterable[str]) -> None:
    """Writes the note of files that were built in a folder, of the text that a commit had before
    the build: `edited` where it changed meanwhile."""
    rows = {"commit": commit if commit == commit_of_library() else EDITED}
    rows.update({name: digest_of(folder / name) for name in files})
    (folder / NOTE).write_text("".join(f"{key} {value}\n" for key, value in rows.items()),
                               encoding="utf-8")


def built_files() -> list[Path]:
    """The files of the library that was built, or none."""
    return [OUT / name for name in read(OUT / NOTE) if name != "commit"]


def why_not() -> str | None:
    """Why nothing says that the library was built of this commit's text, or None where it was."""
    rows = read(OUT / NOTE)
    place = OUT.relative_to(TOP)
    files = [name for name in rows if name != "commit"]
    if not files:
        return f"nothing says of what text a library in {place} was built"
    for name in files:
        if not (OUT / name).is_file() or digest_of(OUT / name) != rows[name]:
            return f"{place / name} isn't the file that its note was written of"
    built = rows.get("commit", EDITED)
    if built == EDITED or git("diff", "--quiet", built, "HEAD", "--", *LIBRARY_TEXT) is None:
        return f"the library in {place} was built of other text than this commit's"
    return None
