"""The table of a volume: its files, and of each the versions of its objects."""
from __future__ import annotations

from typing import NamedTuple, Optional

from exsm.records import NOWHERE
from exsm.volume import Volume
from fuzzing.versions import Trees, Version


class Found(NamedTuple):
    """A version, and where the table has it."""

    trees: Trees
    number: int
    version: Version


class Table:
    """Files by their names, and the next number of a version.

    What `stat` or the reader told of a version is kept until the version is edited: its height, and
    whether it is large, which it stays.
    """

    def __init__(self, files: dict[str, Trees], next_number: int) -> None:
        self.files, self.next_number = files, next_number
        self.heights: dict[int, int] = {}
        self.large: set[int] = set()

    @staticmethod
    def of(volume: Volume) -> Table:
        """The table that a reader finds in a volume."""
        files: dict[str, Trees] = {}
        table = Table(files, volume.next_unique)
        for name, records in volume.versions.items():
            numbers = {record.place: record.unique for record in records}
            files[name] = Trees({record.unique: Version(
                record.oid, record.frozen,
                None if record.older == NOWHERE else numbers[record.older],
                volume.bytes_of(record)) for record in records})
            table.heights.update({record.unique: record.height or 0 for record in records})
            table.large.update(record.unique for record in records if record.height is not None)
        return table

    def copy(self) -> Table:
        """A table that changes by itself."""
        other = Table({name: Trees(trees.all) for name, trees in self.files.items()},
                      self.next_number)
        other.heights, other.large = dict(self.heights), set(self.large)
        return other

    def find(self, oid: str) -> Optional[Found]:
        """The version of an identifier."""
        number = int(oid.rsplit(".", 1)[1])
        for trees in self.files.values():
            version = trees.all.get(number)
            if version is not None and version.oid == oid:
                return Found(trees, number, version)
        return None

    def places(self) -> set[str]:
        """Where the records of all versions lie, as identifiers without the number."""
        return {version.oid.rsplit(".", 1)[0] for trees in self.files.values()
                for version in trees.all.values()}

    def forget(self, number: int) -> None:
        """Drops what was told of the height of a version."""
        self.heights.pop(number, None)

    def shown(self) -> dict[str, dict[int, Version]]:
        """Files and versions, to be compared."""
        return {name: trees.all for name, trees in sorted(self.files.items())}
