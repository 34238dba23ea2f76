"""The shape of a volume: its five numbers, and which pages its areas have.

docs/FORMATS.md says how a volume is laid out.
"""
from __future__ import annotations

from dataclasses import dataclass

LOG_PAGES = 256
CATALOG = 1 + LOG_PAGES
"""The page of the catalog, the first of the page area: before it lie the superblock and the log."""


@dataclass(frozen=True)
class Geometry:
    """The five numbers of a volume, and its areas."""

    page_size: int
    pages: int
    segs: int
    seg_len: int
    fan: int

    def words(self) -> list[str]:
        """The five options of `exsm format`."""
        return ["--page-size", str(self.page_size), "--pages", str(self.pages), "--segs",
                str(self.segs), "--seg-len", str(self.seg_len), "--fan", str(self.fan)]

    @property
    def unit(self) -> int:
        """The bytes of a full leaf."""
        return self.seg_len * self.page_size

    @property
    def first_unit(self) -> int:
        """The first page of the segment area."""
        return CATALOG + self.pages

    @property
    def bytes(self) -> int:
        """The bytes of the volume."""
        return (CATALOG + self.pages + self.segs * self.seg_len) * self.page_size

    def has_page(self, page: int) -> bool:
        """Whether a page of the page area, but the catalog, has the number."""
        return CATALOG < page < self.first_unit

    def has_unit(self, page: int) -> bool:
        """Whether a unit of the segment area begins at the page."""
        place = page - self.first_unit
        return 0 <= place < self.segs * self.seg_len and place % self.seg_len == 0
