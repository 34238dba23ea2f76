"""The grammar of lines, as docs/RULES.md has it."""
from __future__ import annotations

import re
from typing import NamedTuple, Optional, Union

from exsm.client import LINE_MOST

DATA_MOST = 16_777_216
"""Bytes that one line gives or asks for."""

NUMBER = re.compile("[0-9]{1,20}")
NAME = re.compile("[a-z0-9_]{1,32}")
HEX, REP = re.compile("hex:([0-9a-fA-F]{2})*"), re.compile("rep:([0-9]{1,20}):([0-9a-fA-F]{2})")
BLANKS = re.compile("[ \t]+")
NUMBER_END = 1 << 64
FRAMES_MOST = 1024

UPDATES = frozenset(
    "file unfile create destroy insert append replace delete freeze derive drop".split())
"""The words of the commands that change the working table."""

FORMS = {
    "begin": "", "commit": "", "abort": "", "checkpoint": "", "log": "", "files": "", "space": "",
    "file": "F", "unfile": "F", "list": "F", "create": "F as W", "destroy": "X", "size": "X",
    "stat": "X",
    "digest": "X", "read": "X N L", "insert": "X N D", "append": "X D", "replace": "X N D",
    "delete": "X N L",
    "freeze": "X as W", "derive": "X as W", "versions": "X", "drop": "X", "group": "F G O",
    "scan": "X as F",
    "next": "F L", "close": "F",
}
"""What stands behind the word of each command: a letter for each word, or the word itself."""


class Data(NamedTuple):
    """The bytes that a line gives: a piece, so many times."""

    piece: bytes
    count: int

    @property
    def length(self) -> int:
        """The number of bytes."""
        return len(self.piece) * self.count

    def whole(self) -> bytes:
        """The bytes themselves; asked for only where the length is within its limit."""
        return self.piece * self.count


Value = Union[str, int, Data]


class Command(NamedTuple):
    """A line that is spelled right: its word and the values behind it, in their order."""

    word: str
    values: list[Value]


def number(text: str) -> Optional[int]:
    """A number of a line."""
    if not NUMBER.fullmatch(text) or int(text) >= NUMBER_END:
        return None
    return int(text)


def data(text: str) -> Optional[Data]:
    """The bytes that a word gives."""
    if HEX.fullmatch(text):
        return Data(bytes.fromhex(text[4:]), 1)
    found = REP.fullmatch(text)
    count = number(found[1]) if found else None
    return Data(bytes.fromhex(found[2]), count) if found and count is not None else None


def named(text: str) -> Optional[str]:
    """A name."""
    return text if NAME.fullmatch(text) else None


def version(text: str) -> Optional[str]:
    """What names a version: `@` and a name, or an identifier without needless zeros."""
    if text.startswith("@"):
        return text if named(text[1:]) else None
    parts = [number(part) for part in text.split(".")]
    return None if len(parts) != 3 or None in parts else ".".join(map(str, parts))


def value(form: str, text: str) -> Optional[Value]:
    """The value of a word of a form."""
    if form == "F":
        return named(text)
    if form == "W":
        return named(text[1:]) if text.startswith("@") else None
    if form == "X":
        return version(text)
    if form in "NL":
        return number(text)
    if form == "D":
        return data(text)
    if form == "O":
        return text if text in ("lru", "mru") else None
    frames = number(text)
    return frames if frames is not None and 1 <= frames <= FRAMES_MOST else None


def words_of(line: bytes) -> list[str]:
    """The words of a line, without the carriage return at its end."""
    text = line.removesuffix(b"\r").decode("latin-1")
    return [word for word in BLANKS.split(text) if word]


def command_of(line: bytes) -> Optional[Command]:
    """The command that a line spells, or none."""
    words = words_of(line)
    if not words or words[0] not in FORMS:
        return None
    forms = FORMS[words[0]].split()
    if words[0] == "scan" and len(words) == 6:
        forms += ["in", "F"]
    if len(words) != len(forms) + 1:
        return None
    values: list[Value] = []
    for form, text in zip(forms, words[1:]):
        if form in ("as", "in"):
            if text != form:
                return None
            continue
        found = value(form, text)
        if found is None:
            return None
        values.append(found)
    return Command(words[0], values)


def is_long(line: bytes) -> bool:
    """Whether a line is over its limit."""
    return len(line) > LINE_MOST
