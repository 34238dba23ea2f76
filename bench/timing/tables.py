"""Tables as a page has them."""
from __future__ import annotations


def table(heads: list[str], rows: list[list[str]]) -> str:
    """A table with a row of heads."""
    return "\n".join("| " + " | ".join(row) + " |"
                     for row in [heads, ["---"] * len(heads), *rows])
