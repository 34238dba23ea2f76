"""Pages of which a script writes a part, between two marks."""
from __future__ import annotations

from typing import NamedTuple


class NoMarks(Exception):
    """A page has no place for a part: its message names the lines."""


class Marks(NamedTuple):
    """The lines between which a part stands."""

    begin: str
    end: str

    def cut(self, page: str) -> tuple[str, str, str]:
        """What stands before its part, the part, and what stands behind it."""
        before, begin, rest = page.partition(self.begin)
        part, end, after = rest.partition(self.end)
        if not begin or not end or self.begin in rest:
            raise NoMarks(f"the lines {self.begin} and {self.end}")
        return before, part, after

    def part(self, page: str) -> str:
        """The part as it stands."""
        return self.cut(page)[1].strip()

    def replaced(self, page: str, text: str) -> str:
        """The page with a text in the place of its part."""
        before, _, after = self.cut(page)
        return f"{before}{self.begin}\n\n{text}\n\n{self.end}{after}"
