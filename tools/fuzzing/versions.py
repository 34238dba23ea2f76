"""The versions of a file as a user sees them, apart from how a volume lays them out."""
from __future__ import annotations

from dataclasses import dataclass, replace
from typing import Optional


@dataclass(frozen=True)
class Version:
    """A version as a user sees it: by its number, with the number of the one that it is derived
    from."""

    oid: str
    frozen: bool
    older: Optional[int]
    data: bytes


def number_of(oid: str) -> int:
    """The number of a version."""
    return int(oid.rsplit(".", 1)[1])


class Trees:
    """The versions of one file by their numbers, with what lines do to them and are answered."""

    def __init__(self, versions: Optional[dict[int, Version]] = None) -> None:
        self.all = dict(versions or {})

    def derived(self, number: Optional[int]) -> list[int]:
        """The versions derived from one, in order of their numbers; from None the first of each
        object."""
        return sorted(it for it, version in self.all.items() if version.older == number)

    def listed(self, number: int) -> list[str]:
        """All versions of the object: each, then those derived from it, each with all below it."""
        first = number
        while (older := self.all[first].older) is not None:
            first = older
        return self._from(first)

    def _from(self, number: int) -> list[str]:
        below = [oid for it in self.derived(number) for oid in self._from(it)]
        return [self.all[number].oid, *below]

    def current(self) -> list[str]:
        """The current versions, in order of their numbers."""
        return [self.all[number].oid for number in sorted(self.all) if not self.all[number].frozen]

    def freeze(self, number: int, copy: str) -> None:
        """Puts a frozen copy between a current version and its older one."""
        version = self.all[number]
        self.all[number_of(copy)] = replace(version, oid=copy, frozen=True)
        self.all[number] = replace(version, older=number_of(copy))

    def derive(self, number: int, copy: str) -> None:
        """Adds a current version with the bytes of a frozen one."""
        self.all[number_of(copy)] = Version(copy, False, number, self.all[number].data)

    def remove(self, number: int) -> None:
        """Takes a version out; what is derived from it is derived from its older one."""
        for it in self.derived(number):
            self.all[it] = replace(self.all[it], older=self.all[number].older)
        del self.all[number]

    def edit(self, number: int, data: bytes) -> None:
        """Gives a version other bytes."""
        self.all[number] = replace(self.all[number], data=data)

    def refusal(self, word: str, number: int) -> Optional[str]:
        """The refusal of a line on a version, where there is one."""
        version, derived = self.all[number], len(self.derived(number))
        if word in ("derive", "drop") and not version.frozen:
            return "no 13 current"
        if word not in ("derive", "drop") and version.frozen:
            return "no 12 frozen"
        is_alone = version.older is not None and len(self.derived(version.older)) == 1
        if word == "destroy" and is_alone:
            return "no 15 has_versions"
        return f"no 24 branches {derived}" if word == "drop" and derived > 1 else None
