"""What a volume file is used for, as lines of text and as a picture."""
from __future__ import annotations

import colorsys
import json
import os
import sys
from collections import Counter, defaultdict
from dataclasses import dataclass
from html import escape
from typing import Iterator, NamedTuple, Optional

from exsm.checking import counted
from exsm.geometry import CATALOG, LOG_PAGES
from exsm.lines import reason_of
from exsm.lock import told_where_held
from exsm.named import told_names
from exsm.records import BadVolume, Record
from exsm.volume import Guessed, Use, Volume

PAGE_COLORS = {"catalog": "#1b1b1b", "index": "#7b4ea3", "file page": "#c7761b", "node": "#2f6db5"}
FREE, LOG, LEAVES, TEXT, WHITE = "#ececec", "#b03a48", "#3f8f4f", "#222", "#fff"
WIDTH, MARGIN = 900, 16
CELLS_MOST = 16_384
AREA_HEIGHT = 330
SIDE_LEAST, SIDE_MOST = 4, 22
BAR, GAP, TITLE = 14, 30, 18
LISTED_MOST = 12
GOLDEN_TURN = 0.381966
FAINT = 0.4
SIZES = ("B", "KiB", "MiB", "GiB")


def human(count: float) -> str:
    """A number of bytes, in the unit that suits it."""
    for unit in SIZES[:-1]:
        if count < 1024:
            return f"{count:.0f} B" if unit == "B" else f"{count:.1f} {unit}"
        count /= 1024
    return f"{count:.1f} {SIZES[-1]}"


def percent(part: float, whole: float) -> str:
    """A part of a whole in percent."""
    return f"{100 * part / whole:.1f} %" if whole else "-"


def contents(volume: Volume) -> str:
    """How many files and objects a volume has, and versions where an object has several."""
    objects, versions = len(volume.objects), len(volume.all())
    more = f", {counted(versions, 'version')}" if versions > objects else ""
    return f"{counted(len(volume.files), 'file')}, {counted(objects, 'object')}{more}"


class Area(NamedTuple):
    """An area of a volume: its cells are units of so many pages and bytes."""

    name: str
    first: int
    units: int
    pages: int
    room: int
    uses: dict[int, Use]

    @property
    def used(self) -> int:
        """The bytes that the units in use hold."""
        return sum(use.used for use in self.uses.values())

    @property
    def reach(self) -> int:
        """The units up to the last one in use."""
        return (max(self.uses) - self.first) // self.pages + 1 if self.uses else 0

    @property
    def high(self) -> int:
        """The units in use that aren't among as many of the lowest ones: a pack moves these."""
        return sum((page - self.first) // self.pages >= len(self.uses) for page in self.uses)

    @property
    def end(self) -> int:
        """The byte of the volume behind the last unit in use."""
        return self.first * self.room // self.pages + self.reach * self.room

    @property
    def packed(self) -> str:
        """How much a pack has to move, or from which byte on nothing is in use."""
        return f"{self.high} high" if self.high else f"packed, nothing from byte {self.end:,} on"

    @property
    def filled(self) -> str:
        """How full the units in use are."""
        return percent(self.used, len(self.uses) * self.room)


def areas_of(volume: Volume) -> tuple[Area, Area]:
    """The page area and the segment area with what is in use there."""
    numbers = volume.geometry
    if isinstance(numbers, Guessed):
        raise BadVolume("super: without its sizes the use of a volume can't be told; "
                        "exsm_volume.py saves what can be read")
    pages = {page: use for page, use in volume.uses.items() if page < numbers.first_unit}
    units = {page: use for page, use in volume.uses.items() if page >= numbers.first_unit}
    return (Area("page area", CATALOG, numbers.pages, 1, numbers.page_size, pages),
            Area("segment area", numbers.first_unit, numbers.segs, numbers.seg_len, numbers.unit,
                 units))


# Use as numbers and as text.

def numbers_of(volume: Volume) -> dict[str, object]:
    """The use of a volume, for a program."""
    sizes = volume.geometry
    page_area, segment_area = areas_of(volume)
    areas = {area.name.replace(" ", "_"): {
        "units": area.units, "used": len(area.uses), "unit_bytes": area.room,
        "bytes": area.used, "kinds": dict(Counter(use.kind for use in area.uses.values()))}
        for area in (page_area, segment_area)}
    files = {name: {"versions": len(records), "bytes": sum(record.size for record in records)}
             for name, records in volume.versions.items()}
    return {
        "bytes": sizes.bytes, "page_size": sizes.page_size, "unit": sizes.unit, "fan": sizes.fan,
        "last_commit": volume.last_commit, "next_number": volume.next_unique,
        "objects": len(volume.objects), "versions": len(volume.all()),
        "log": {"records": len(volume.records), "pages_not_home": len(volume.images),
                "bytes": sum(record.length for record in volume.records)},
        **areas, "high_units": segment_area.high,
        "end_of_use": segment_area.end, "files": files, "faults": volume.faults}


def usage(volume: Volume) -> Iterator[str]:
    """Lines on the use of a volume, in the manner of `btrfs filesystem usage`."""
    numbers = volume.geometry
    yield (f"{volume.path}: {human(numbers.bytes)}; page {numbers.page_size}, "
           f"unit {numbers.unit} bytes, fan {numbers.fan}")
    if volume.disk_bytes > numbers.bytes:
        yield f"  the file has {human(volume.disk_bytes - numbers.bytes)} more than the volume"
    yield (f"  last commit {volume.last_commit}, next number {volume.next_unique}, "
           f"{contents(volume)}")
    log, room = sum(record.length for record in volume.records), LOG_PAGES * numbers.page_size
    yield (f"  log          {human(log):>9} of {human(room):>9}  {percent(log, room):>7}  "
           f"{counted(len(volume.records), 'record')}, "
           f"{counted(len(volume.images), 'page')} not home")
    page_area, segment_area = areas_of(volume)
    yield area_line(page_area)
    yield from kind_lines(page_area)
    yield f"{area_line(segment_area)}, {segment_area.filled} filled, {segment_area.packed}"
    for name, records in volume.versions.items():
        yield file_line(name, records)
    for fault in volume.faults:
        yield f"  FAULT {fault}"


def area_line(area: Area) -> str:
    """The line of an area."""
    used = len(area.uses)
    return (f"  {area.name:12} {used:9} of {area.units:9}  {percent(used, area.units):>7}  "
            f"in use, {human(used * area.room)}")


def kind_lines(area: Area) -> Iterator[str]:
    """A line for each kind of page."""
    for kind in PAGE_COLORS:
        of_kind = [use.used for use in area.uses.values() if use.kind == kind]
        if of_kind:
            room = len(of_kind) * area.room
            yield (f"    {kind:10} {len(of_kind):9}  {human(room)}, "
                   f"{percent(sum(of_kind), room)} filled")


def file_line(name: str, records: list[Record]) -> str:
    """The line of a file: its versions."""
    small = [record.size for record in records if record.height is None]
    large = [record.size for record in records if record.height is not None]
    return (f"  file {name:10} {len(records):5} versions, {len(small):5} small with "
            f"{human(sum(small))}, {len(large):5} large with {human(sum(large))}")


# The picture.

class Drawing:
    """Shapes of an SVG file, and how far down it is drawn."""

    def __init__(self) -> None:
        self.shapes: list[str] = []
        self.patterns: list[str] = []
        self.y = TITLE

    def rectangle(self, x: float, y: float, width: float, height: float, fill: str,
                  title: str = "", opacity: float = 1) -> None:
        """A rectangle; its title is told where the mouse points at it."""
        see_through = "" if opacity == 1 else f' fill-opacity="{opacity:g}"'
        inside = f"><title>{escape(title)}</title></rect>" if title else "/>"
        self.shapes.append(f'<rect x="{x:.6g}" y="{y:.6g}" width="{width:.6g}" '
                           f'height="{height:.6g}" fill="{fill}"{see_through}{inside}')

    def text(self, x: float, words: str, size: int = 12, weight: str = "normal") -> None:
        """A text on the line that the drawing has come to."""
        self.shapes.append(f'<text x="{x:g}" y="{self.y}" font-size="{size}" '
                           f'font-weight="{weight}" fill="{TEXT}">{escape(words)}</text>')

    def grid(self, width: int, height: int, side: int) -> None:
        """A field of free cells."""
        name = f"cells{len(self.patterns)}"
        self.patterns.append(
            f'<pattern id="{name}" y="{self.y}" width="{side}" height="{side}" '
            f'patternUnits="userSpaceOnUse"><rect width="{side - 1}" height="{side - 1}" '
            f'fill="{FREE}"/></pattern>')
        self.shapes.append(f'<rect x="0" y="{self.y}" width="{width}" height="{height}" '
                           f'fill="url(#{name})"/>')

    def finished(self) -> str:
        """The whole file."""
        width, height = WIDTH + 2 * MARGIN, self.y + 2 * MARGIN
        patterns, shapes = "".join(self.patterns), "\n".join(self.shapes)
        return (f'<svg xmlns="http://www.w3.org/2000/svg" viewBox="{-MARGIN} {-MARGIN} {width} '
                f'{height}" width="{width}" font-family="sans-serif"><defs>{patterns}</defs>\n'
                f'<rect x="{-MARGIN}" y="{-MARGIN}" width="{width}" height="{height}" '
                f'fill="{WHITE}"/>\n{shapes}\n</svg>\n')


@dataclass(frozen=True)
class Cells:
    """How the units of an area lie in a drawing: so many to a cell, cells of a side, in rows."""

    per_cell: int
    cells: int
    side: int

    @staticmethod
    def of(area: Area) -> Cells:
        """The cells of an area up to its last unit in use: as large as the height allows."""
        units = max(1, area.reach)
        per_cell = max(1, -(-units // CELLS_MOST))
        cells = -(-units // per_cell)
        fitting = int((WIDTH * AREA_HEIGHT / max(1, cells)) ** 0.5)
        return Cells(per_cell, cells, max(SIDE_LEAST, min(SIDE_MOST, fitting)))

    @property
    def in_row(self) -> int:
        """The cells of a row."""
        return WIDTH // self.side

    @property
    def rows(self) -> int:
        """The rows, of which the last may be short."""
        return -(-self.cells // self.in_row)


def hue(place: int) -> str:
    """The colour of the object at a place: neighbours differ much."""
    parts = colorsys.hls_to_rgb((place * GOLDEN_TURN) % 1, 0.42 + 0.1 * (place % 3), 0.62)
    return "#" + "".join(f"{int(255 * part):02x}" for part in parts)


def title_of(area: Area, page: int, use: Use) -> str:
    """What a cell says of its unit."""
    place = "page" if area.pages == 1 and use.kind != "leaf" else "unit"
    owner = f" of {use.owner}" if use.owner else ""
    return f"{place} {page}: {use.kind}{owner}, {use.used} of {area.room} bytes"


def draw_file(drawing: Drawing, volume: Volume) -> None:
    """The whole file to scale, each part at least two pixels wide."""
    numbers = volume.geometry
    parts = [("superblock", numbers.page_size, PAGE_COLORS["catalog"]),
             ("log", LOG_PAGES * numbers.page_size, LOG),
             ("page area", numbers.pages * numbers.page_size, PAGE_COLORS["file page"]),
             ("segment area", numbers.segs * numbers.unit, LEAVES)]
    x = 0.0
    for name, size, color in parts:
        width = max(2.0, (WIDTH - 8) * size / numbers.bytes)
        drawing.rectangle(x, drawing.y, width, BAR, color, f"{name}, {human(size)}")
        x += width
    drawing.y += BAR + BAR
    draw_legend(drawing, [(f"{name}, {human(size)}", color) for name, size, color in parts], 200)
    drawing.y += GAP


def draw_legend(drawing: Drawing, rows: list[tuple[str, str]], step: int) -> None:
    """What colours mean, side by side."""
    for place, (words, color) in enumerate(rows):
        drawing.rectangle(place * step, drawing.y - 10, 11, 11, color)
        drawing.text(place * step + 16, words)


def draw_log(drawing: Drawing, volume: Volume) -> None:
    """The log with its records, each as wide as it is long."""
    room = LOG_PAGES * volume.geometry.page_size
    used = sum(record.length for record in volume.records)
    drawing.text(0, f"log: {human(used)} of {human(room)}, "
                    f"{counted(len(volume.records), 'record')}, "
                    f"{counted(len(volume.images), 'page')} not yet at home", 13, "bold")
    drawing.y += 8
    drawing.rectangle(0, drawing.y, WIDTH, BAR, FREE)
    for record in volume.records:
        width = max(1.0, WIDTH * record.length / room - 1)
        pages = ", ".join(str(entry.page) for entry in record.entries)
        title = f"commit {record.transaction}: {counted(record.notes, 'update')}, pages {pages}"
        drawing.rectangle(WIDTH * record.offset / room, drawing.y, width, BAR, LOG, title)
    drawing.y += BAR + GAP


class Run(NamedTuple):
    """Cells side by side that look alike: the first, the last, their first page, how full."""

    first: int
    last: int
    page: int
    share: float


def runs_of(area: Area, colors: dict[int, str], cells: Cells) -> Iterator[Run]:
    """The cells in use, joined where those of a row have one owner, one colour and one fill."""
    inside: dict[int, list[int]] = defaultdict(list)
    for page in sorted(area.uses):
        inside[(page - area.first) // area.pages // cells.per_cell].append(page)
    run: Optional[Run] = None
    for cell, pages in sorted(inside.items()):
        share = sum(area.uses[page].used for page in pages) / (area.room * cells.per_cell)
        use = area.uses[pages[0]]
        if (run is not None and run.last + 1 == cell and cell % cells.in_row
                and run.share == share and colors[run.page] == colors[pages[0]]
                and area.uses[run.page][:2] == use[:2]):
            run = run._replace(last=cell)
            continue
        if run is not None:
            yield run
        run = Run(cell, cell, pages[0], share)
    if run is not None:
        yield run


def run_title(area: Area, run: Run, cells: Cells, names: dict[str, str]) -> str:
    """What the cells of a run say of their units."""
    use = area.uses[run.page]
    if use.owner in names:
        use = use._replace(owner=f"{names[use.owner]} ({use.owner})")
    if run.first == run.last:
        return title_of(area, run.page, use)
    units = (run.last - run.first + 1) * cells.per_cell
    last = run.page + (units - 1) * area.pages
    noun = "pages" if area.pages == 1 and use.kind != "leaf" else "units"
    return (f"{noun} {run.page} to {last}: {use.kind} of {use.owner}, "
            f"{percent(run.share, 1)} filled")


def draw_area(drawing: Drawing, area: Area, colors: dict[int, str],
              names: dict[str, str]) -> None:
    """An area as cells, each filled from below by the bytes that its units hold."""
    cells = Cells.of(area)
    drawing.y += 8
    drawing.grid(min(cells.cells, cells.in_row) * cells.side, cells.rows * cells.side, cells.side)
    for run in runs_of(area, colors, cells):
        row, column = divmod(run.first, cells.in_row)
        x, y = column * cells.side, drawing.y + row * cells.side
        width, height = (run.last - run.first + 1) * cells.side - 1, cells.side - 1
        color, title = colors[run.page], run_title(area, run, cells, names)
        drawing.rectangle(x, y, width, height, color, title, FAINT)
        drawing.rectangle(x, y + height * (1 - run.share), width, height * run.share, color)
    last = cells.cells % cells.in_row
    if last and cells.rows > 1:
        drawing.rectangle(last * cells.side, drawing.y + (cells.rows - 1) * cells.side,
                          (cells.in_row - last) * cells.side, cells.side, WHITE)
    drawing.y += cells.rows * cells.side + BAR
    if area.units > area.reach:
        drawing.text(0, f"{area.units - area.reach:,} free ones behind these aren't drawn")
    drawing.y += GAP


def cell_words(area: Area) -> str:
    """What a cell stands for."""
    per_cell = Cells.of(area).per_cell
    return f"; a cell is {human(per_cell * area.room)}"


def draw_pages(drawing: Drawing, area: Area, names: dict[str, str]) -> None:
    """The page area, a colour for each kind of page, and their numbers."""
    drawing.text(0, f"page area: {len(area.uses):,} of {area.units:,} pages in use"
                    f"{cell_words(area)}", 13, "bold")
    draw_area(drawing, area, {page: PAGE_COLORS[use.kind] for page, use in area.uses.items()},
              names)
    kinds = [(kind, sum(use.kind == kind for use in area.uses.values())) for kind in PAGE_COLORS]
    rows = [(f"{kind} {count:,}", PAGE_COLORS[kind]) for kind, count in kinds]
    draw_legend(drawing, [*rows, (f"free {area.units - len(area.uses):,}", FREE)], 130)
    drawing.y += GAP


def draw_units(drawing: Drawing, area: Area, order: dict[str, int],
               names: dict[str, str]) -> None:
    """The segment area, a colour for each object."""
    drawing.text(0, f"segment area: {len(area.uses):,} of {area.units:,} units in use, "
                    f"{area.filled} filled; a colour is an object{cell_words(area)}", 13, "bold")
    draw_area(drawing, area, {page: hue(order[use.owner]) for page, use in area.uses.items()},
              names)


def largest_of(versions: list[Record]) -> Record:
    """The largest of an object's versions."""
    return max(versions, key=lambda record: record.size)


def draw_largest(drawing: Drawing, volume: Volume, largest: list[list[Record]],
                 names: dict[str, str]) -> None:
    """The largest objects with their colours."""
    held: dict[str, list[int]] = defaultdict(list)
    for use in volume.uses.values():
        if use.kind == "leaf":
            held[use.owner].append(use.used)
    for place, versions in enumerate(largest[:LISTED_MOST]):
        drawing.rectangle(0, drawing.y - 10, 11, 11, hue(place))
        record, shape = largest_of(versions), "small"
        if record.height is not None:
            leaves = held[versions[0].oid]
            shape = (f"height {record.height}, {counted(len(leaves), 'unit')}, "
                     f"{percent(sum(leaves), len(leaves) * volume.geometry.unit)} filled")
        if len(versions) > 1:
            shape += f", {len(versions)} versions"
        name = names.get(record.oid, "")
        told = f"{record.oid} {name}" if name else record.oid
        drawing.text(16, f"{told:14} {human(record.size)}, {shape}")
        drawing.y += 17


def picture(volume: Volume) -> str:
    """The picture of a volume as an SVG file."""
    drawing = Drawing()
    drawing.text(0, f"{os.path.basename(volume.path)}: {human(volume.geometry.bytes)}, "
                    f"last commit {volume.last_commit}, {contents(volume)}", 17, "bold")
    drawing.y += 12
    draw_file(drawing, volume)
    draw_log(drawing, volume)
    largest = sorted(volume.objects, key=lambda versions: -largest_of(versions).size)
    names = told_names(volume)
    page_area, segment_area = areas_of(volume)
    draw_pages(drawing, page_area, names)
    if segment_area.units:
        order = {versions[0].oid: place for place, versions in enumerate(largest)}
        draw_units(drawing, segment_area, order, names)
    draw_largest(drawing, volume, largest, names)
    return drawing.finished()


def run(path: str, out: Optional[str], as_json: bool) -> int:
    """Tells the use of a volume, draws its picture to a file, and gives the exit status."""
    try:
        with told_where_held(path, "exsm_map"), Volume(path) as volume:
            volume.walk()
            told = [json.dumps(numbers_of(volume))] if as_json else list(usage(volume))
            if out is not None:
                with open(out, "w", encoding="utf-8") as drawn:
                    drawn.write(picture(volume))
            print("\n".join(told))
    except (BadVolume, OSError) as fault:
        sys.exit(f"exsm_map: {reason_of(fault, path)}")
    return 0
