"""Names that a volume keeps: objects of lines `NUMBER TEXT`, NUMBER the last one of an identifier.

The file `names` has the names of files and `blobs` their objects, `put_sources` the paths that
they were put from, `put_facts` their modes, times and digests then, `version_names` the names of
versions and `version_times` when they were given. Each but `blobs` has one object.
"""
from __future__ import annotations

import re
from typing import Optional

from exsm.client import Store

NAMES_FILE, BLOBS_FILE, SOURCES_FILE = "names", "blobs", "put_sources"
FACTS_FILE = "put_facts"
VERSION_NAMES_FILE, VERSION_TIMES_FILE = "version_names", "version_times"
LISTS = (NAMES_FILE, SOURCES_FILE, FACTS_FILE, VERSION_NAMES_FILE, VERSION_TIMES_FILE)
"""The files whose one object is a list of names."""

NAME_LINE = re.compile(rb"(\d+) ([^\n]+)\n")


class Wrong(Exception):
    """What was asked for can't be done; the text says why."""


def line_of(unique: int, text: bytes) -> bytes:
    """The line of a name."""
    return b"%d %s\n" % (unique, text)


def unique_of(oid: str) -> int:
    """The last number of an identifier."""
    return int(oid.rsplit(".", 1)[1])


def lines_in(text: bytes) -> Optional[list[tuple[int, bytes]]]:
    """The numbers and names of a list, or None where it has other text."""
    lines = [(int(unique), name) for unique, name in NAME_LINE.findall(text)]
    return lines if b"".join(line_of(*line) for line in lines) == text else None


class NameList:
    """A list that a volume keeps in the one object of a file; made where a line is first added."""

    def __init__(self, store: Store, file: str, files: list[str]) -> None:
        self.store, self.file = store, file
        self.object = ""
        self.lines: list[tuple[int, bytes]] = []
        if file in files:
            self._read()

    def _read(self) -> None:
        objects = self.store.list(self.file)
        if len(objects) != 1:
            raise Wrong(f"the volume's file `{self.file}` has {len(objects)} objects, not one")
        self.object = objects[0]
        lines = lines_in(self.store.read(self.object))
        if lines is None:
            raise Wrong(f"the volume's file `{self.file}` has other text than names")
        self.lines = lines

    def prepare(self) -> None:
        """Makes file and object where they aren't there, in the open transaction."""
        if not self.object:
            self.store.file(self.file)
            self.object = self.store.create(self.file)

    def add(self, unique: int, text: bytes) -> None:
        """Adds a line at the end."""
        self.store.append(self.object, line_of(unique, text))
        self.lines.append((unique, text))

    def remove(self, unique: int, text: Optional[bytes] = None) -> None:
        """Removes the line of a number, or just the one with a text; nothing where there is
        none."""
        position = 0
        for place, line in enumerate(self.lines):
            length = len(line_of(*line))
            if line[0] == unique and text in (None, line[1]):
                self.store.delete(self.object, position, length)
                del self.lines[place]
                return
            position += length

    def change(self, unique: int, text: bytes) -> None:
        """Gives the line of a number another text, at its place."""
        position = 0
        for place, line in enumerate(self.lines):
            if line[0] == unique:
                self.store.delete(self.object, position, len(line_of(*line)))
                self.store.insert(self.object, position, line_of(unique, text))
                self.lines[place] = (unique, text)
                return
            position += len(line_of(*line))
