"""A difference between what the program or a volume told and what was wanted."""
from __future__ import annotations

import re


class Differs(Exception):
    """What was told isn't what was wanted."""

    def __init__(self, told: object, wanted: object) -> None:
        self.told, self.wanted = str(told), str(wanted)
        super().__init__(f"told {self.told[:300]}, wanted {self.wanted[:300]}")


def same(told: object, wanted: object, what: str = "") -> None:
    """Asks that what was told is what was wanted."""
    if told != wanted:
        raise Differs(f"{what}{told}", f"{what}{wanted}")


def match(told: str, pattern: str) -> re.Match[str]:
    """Asks that a reply is of a form."""
    found = re.fullmatch(pattern, told)
    if found is None:
        raise Differs(told, pattern)
    return found
