"""What helps beside what a fault says, as far as it can be asked: what saves a damaged volume, the
size of an object, and the size of a volume that would do."""
from __future__ import annotations

from typing import Optional

from exsm.client import AnyPath, NoVolume, Refused, Store
from exsm.new import size_that_holds
from exsm.opening import Opening


def no_volume(volume: AnyPath, fault: NoVolume) -> str:
    """What is said of a file that holds no volume, or a damaged one."""
    return (f"{volume}: no volume, or a damaged one (part {fault.part}); "
            f"`exsm_volume.py {volume} save FOLDER` saves what can be read")


def page_and_unit(path: str) -> Optional[tuple[int, int]]:
    """The bytes of a page and of a unit of a volume, as its superblock has them."""
    with open(path, "rb") as file:
        def read(position: int, length: int) -> bytes:
            file.seek(position)
            return file.read(length)
        opening = Opening(read, 0)
        list(opening.superblock())
    return None if opening.sizes is None else (opening.sizes.page_size, opening.sizes.unit)


def larger(store: Store, units: int = 0, pages: int = 0, size: int = 0) -> Optional[str]:
    """The volume that holds what a store's volume has, and so many units, pages and bytes of large
    objects more; None where none does or the volume's sizes can't be read."""
    try:
        sizes = None if store.volume is None else page_and_unit(store.volume)
        space = store.space()
    except (OSError, Refused):
        return None                                # at a server the file may be another user's
    if sizes is None:
        return None
    page, unit = sizes
    word = size_that_holds((space.segs + units) * unit + size, (space.pages + pages) * page)
    if word is None:
        return None
    return (f"A volume of {word} holds this and a half as much besides: `exsm_move.py VOLUME NEW "
            f"--size {word}` makes one of all that is there")


def more_of(store: Store, line: str, name: str, values: list[str]) -> Optional[str]:
    """What helps against a refusal of a line, beside its meaning; the run is asked for it."""
    words = line.split()
    if name == "full":
        need = int(values[1])
        return larger(store, units=need) if values[0] == "segs" else larger(store, pages=need)
    if name == "range" and words[0] in ("read", "insert", "replace", "delete"):
        try:
            return f"{words[1]} has {store.size(words[1]):,} bytes"
        except Refused:
            return None
    return None
