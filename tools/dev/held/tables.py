"""Rows of the documents' tables, and the names in them."""
from __future__ import annotations

import re
from typing import Optional

# A name in backticks, with what stands in brackets behind it or the name that a range ends with.
Name = tuple[str, Optional[str]]
# A part of a cell, and its names.
Part = tuple[str, list[Name]]

NAME = re.compile(r"`([^`]+)` \.\. `([^`]+)`|`([^`]+)`(?: \(([^)]*)\))?")


def cells_of(line: str, by: str = " | ") -> list[str]:
    """The cells of a row of a table, none where the line is no row."""
    return [it.strip() for it in line.strip("|").split(by)] if line.startswith("|") else []


def groups(cell: str) -> list[Part]:
    """The parts of a cell, each with its names; a pair of names with .. between is one."""
    parts: list[Part] = []
    for part in cell.split(";"):
        names = [(it[1], it[2]) if it[1] else (it[3], it[4]) for it in NAME.finditer(part)]
        parts.append((part.strip(), names))
    return parts


def is_range(part: str, first: str, more: Optional[str]) -> bool:
    """Whether a part has the range from one name to another."""
    return bool(more) and f"`{first}` .. `{more}`" in part


def path_and_names(line: str, ending: str) -> tuple[Optional[str], list[str]]:
    """The file below crates/ in a row's last column but one, if any, and the last one's names."""
    cells = cells_of(line, "|")
    path = re.fullmatch(rf"`([^`]+\.(?:{ending}))`", cells[-2]) if len(cells) > 2 else None
    return (path[1], re.findall(r"`([^`]+)`", cells[-1])) if path else (None, [])
