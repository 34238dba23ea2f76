"""A line that was refused, and what a refusal is told with."""
from __future__ import annotations

SHOWN_MOST = 72
"""Characters of a line that the text of `Refused` shows."""

NAMES = [
    "", "line_long", "syntax", "data_limit", "no_txn", "txn_open", "no_name", "name_taken",
    "no_file", "file_exists", "files_full", "no_object", "frozen", "current", "not_empty",
    "has_versions", "no_scan", "no_group", "range", "too_large", "too_many", "ids_spent",
    "long_txn", "full", "branches", "busy"]
"""The names of refusals, by their numbers."""


def shortened(line: str) -> str:
    """The line, or its beginning and its length where it is long."""
    if len(line) <= SHOWN_MOST:
        return line
    return f"{line[:SHOWN_MOST]} .. ({len(line)} bytes)"


class Refused(Exception):
    """A line was answered `no NUMBER NAME VALUE..`. It changed nothing, and the run goes on."""

    def __init__(self, line: str, number: int, name: str, values: list[str]) -> None:
        self.line, self.number, self.name, self.values = line, number, name, values
        super().__init__(f"{shortened(line)}: {' '.join([str(number), name, *values])}")
