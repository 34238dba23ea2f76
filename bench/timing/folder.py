"""The words of measures of programs in a new folder."""
from __future__ import annotations

import argparse
import os
import tempfile
from typing import Callable, Optional

MEMORY = "/dev/shm" if os.path.isdir("/dev/shm") else None
"""Where files lie in memory; none where the system has no such folder."""


def words_of(text: Optional[str], many: bool = False,
             folder: Optional[str] = None) -> argparse.ArgumentParser:
    """Takes a program, or many, and the folder below which volumes lie, of a command that a text
    describes; it is the temporary folder where none is told."""
    parser = argparse.ArgumentParser(
        description=text, formatter_class=argparse.RawDescriptionHelpFormatter)
    if many:
        parser.add_argument("programs", metavar="PROGRAM", nargs="+")
    else:
        parser.add_argument("program", metavar="PROGRAM")
    parser.add_argument("--folder", default=folder)
    return parser


def in_new_folder(text: Optional[str], measure: Callable[[str, str], None]) -> None:
    """Takes the words of a command that a text describes, and measures in a new folder."""
    words = words_of(text).parse_args()
    with tempfile.TemporaryDirectory(dir=words.folder) as folder:
        measure(os.path.abspath(words.program), folder)
