"""Moves all objects of a volume, each with its versions as a tree, to another volume."""
from __future__ import annotations

import hashlib
import json
import os
import stat
import subprocess
from contextlib import ExitStack
from dataclasses import asdict, dataclass
from typing import Callable, Iterable, Iterator, Optional, TypeVar

from exsm.client import (
    PIECE, AnyPath, Broken, Ended, Locked, ProgramMissing, Refused, Store, find_program)
from exsm.commands import failed, interrupted
from exsm.geometry import Geometry
from exsm.leaves import Body, changes
from exsm.lines import reason_of
from exsm.lock import held
from exsm.log import CATALOG_ENTRY, CATALOG_HEAD
from exsm.names import BLOBS_FILE, LISTS, NAMES_FILE, Wrong, line_of, lines_in
from exsm.new import geometry_of
from exsm.progress import MIB, Progress
from exsm.records import BadVolume, Links, Record
from exsm.spelling import meaning
from exsm.volume import Volume
from exsm.whole import checked, remove_left, whole_file

Result = TypeVar("Result")

UPDATES_AT_ONCE = 400
"""Updates of a transaction of a move: below those that a transaction may have."""

MADE_AT_ONCE = 100
"""Versions that a transaction of a move makes."""

WRITTEN = 128 << 20
"""Bytes of a new volume that are written with zeros, as `format` does, so that they have room."""

MAP_HEAD = "# identifiers before and after exsm_move.py"


@dataclass
class Moved:
    """What was moved."""

    objects: int = 0
    versions: int = 0
    bytes: int = 0
    names: int = 0


class Batch:
    """Updates of a store in transactions of a few hundred; each may stand in any of them."""

    def __init__(self, store: Store) -> None:
        self.store = store
        self._updates = self._made = 0
        self._is_open = False

    def do(self, step: Callable[[], Result], makes: bool = False) -> Result:
        """Makes an update in a transaction that has room for it, and gives what it gives."""
        if self._updates >= UPDATES_AT_ONCE or self._made >= MADE_AT_ONCE:
            self.end()
        self._begin(makes)
        try:
            return step()
        except Refused as no:
            if no.name != "long_txn" or self._updates == 1:
                raise
        self.end()
        self._begin(makes)
        return step()

    def _begin(self, makes: bool) -> None:
        """Opens a transaction where none is, and counts an update."""
        if not self._is_open:
            self.store.ask("begin")
            self._is_open, self._updates, self._made = True, 0, 0
        self._updates += 1
        self._made += makes

    def end(self) -> None:
        """Commits what is open."""
        if self._is_open:
            self.store.ask("commit")
            self._is_open, self._updates, self._made = False, 0, 0

    def append(self, oid: str, pieces: Iterable[bytes]) -> None:
        """Puts bytes at the end."""
        for piece in lines_of(pieces):
            self.do(lambda piece=piece: self.store.append(oid, piece))

    def insert(self, oid: str, position: int, pieces: Iterable[bytes]) -> None:
        """Puts bytes in."""
        for piece in lines_of(pieces):
            self.do(lambda at=position, piece=piece: self.store.insert(oid, at, piece))
            position += len(piece)

    def replace(self, oid: str, position: int, pieces: Iterable[bytes]) -> None:
        """Puts bytes over others."""
        for piece in lines_of(pieces):
            self.do(lambda at=position, piece=piece: self.store.replace(oid, at, piece))
            position += len(piece)


def lines_of(pieces: Iterable[bytes]) -> Iterator[bytes]:
    """The same bytes in pieces that fill a line, but for the last one."""
    kept = bytearray()
    for piece in pieces:
        kept += piece
        while len(kept) >= PIECE:
            yield bytes(kept[:PIECE])
            del kept[:PIECE]
    if kept:
        yield bytes(kept)


class Move:
    """A move from a volume, which is read by its format, to a new one, which the program writes."""

    def __init__(self, old: Volume, store: Store, progress: Progress) -> None:
        self.old, self.store, self.progress = old, store, progress
        self.batch = Batch(store)
        self.oids: dict[str, str] = {}
        self.uniques: dict[int, int] = {}
        self.moved = Moved()

    def all(self) -> Moved:
        """Moves files and objects; lists of names last, since they speak of the others' numbers."""
        for entry in self.old.files:
            self.batch.do(lambda name=entry.name: self.store.file(name), makes=True)
        lists = [name for name in LISTS if name in self.old.versions]
        for name in [*(name for name in self.old.versions if name not in lists), *lists]:
            links = Links(self.old.versions[name])
            for versions in links.objects():
                self._object(name, versions, links)
        self.batch.end()
        return self.moved

    def _object(self, file: str, versions: list[Record], links: Links) -> None:
        """Moves an object: its first version by its bytes, each other one from its older one."""
        first = next(record for record in versions if record.older not in links.at)
        created = self.batch.do(lambda: self.store.create(file), makes=True)
        self.batch.append(created, self._pieces(file, first))
        todo = [(first, created)]
        while todo:
            record, oid = todo.pop()
            if not record.frozen:
                self._done(file, record, oid)
                continue
            frozen = self.batch.do(lambda oid=oid: self.store.freeze(oid), makes=True)
            self._done(file, record, frozen)
            for place, newer in enumerate(links.derived[record.place]):
                if place > 0:
                    oid = self.batch.do(lambda: self.store.derive(frozen), makes=True)
                self._become(oid, file, record, newer)
                todo.append((newer, oid))
        self.moved.objects += 1

    def _pieces(self, file: str, record: Record) -> Iterable[bytes]:
        """The bytes of a version as they are to be in the new volume."""
        if file in LISTS:
            lines = lines_in(self.old.bytes_of(record))
            if lines is not None:
                return [b"".join(line_of(self.uniques.get(unique, unique), name)
                                 for unique, name in lines)]
        return self.old.pieces(record)

    def _become(self, oid: str, file: str, record: Record, newer: Record) -> None:
        """Gives an object that has a version's bytes those of a newer one."""
        if file not in LISTS:
            self._edit(oid, record, newer)
            return
        self._delete(oid, 0, self.store.size(oid))
        self.batch.append(oid, self._pieces(file, newer))

    def _delete(self, oid: str, position: int, length: int) -> None:
        self.batch.do(lambda: self.store.delete(oid, position, length))

    def _edit(self, oid: str, record: Record, newer: Record) -> None:
        """Changes an object that has a version's bytes where those of a newer one differ."""
        body, new_body = Body(self.old, record), Body(self.old, newer)
        for start, end, new_start, new_end in changes(body, new_body):
            pieces = new_body.pieces(new_start, new_end)
            if end - start == new_end - new_start:
                self.batch.replace(oid, new_start, pieces)
                continue
            if end > start:
                self._delete(oid, new_start, end - start)
            self.batch.insert(oid, new_start, pieces)

    def _done(self, file: str, record: Record, oid: str) -> None:
        """Compares a version's bytes with those that it has in the new volume, and notes its
        place."""
        digest = hashlib.sha256()
        for piece in self._pieces(file, record):
            digest.update(piece)
        if self.store.digest(oid) != digest.digest():
            raise Wrong(f"{record.oid} has other bytes in the new volume: nothing was made")
        self.oids[record.oid] = oid
        self.uniques[record.unique] = int(oid.rpartition(".")[2])
        self.moved.versions += 1
        self.moved.bytes += record.size
        if file == NAMES_FILE and not record.frozen and BLOBS_FILE in self.old.versions:
            self.moved.names += len(lines_in(self.old.bytes_of(record)) or ())
        self.progress.add(record.size)


def need_of(old: Volume) -> tuple[int, int]:
    """The bytes of large objects that stand in leaves, what is shared once, and those of small
    ones."""
    leaves: dict[int, int] = {}
    small = 0
    for record in old.all():
        if record.height is None:
            small += record.size
        for leaf in Body(old, record).leaves if record.root else ():
            leaves[leaf.page] = max(leaf.length, leaves.get(leaf.page, 0))
    return sum(leaves.values()), small


def refuse_small(old: Volume, new: Geometry, name: str) -> None:
    """Refuses a volume in which the objects have no room, however they lie."""
    room = (new.page_size - CATALOG_HEAD.size) // CATALOG_ENTRY.size
    if len(old.files) > room:
        raise Wrong(f"{name} is too small: its catalog holds {room} files, and {old.path} has "
                    f"{len(old.files)}; it is as it was")
    large, small = need_of(old)
    if large > new.segs * new.unit or large + small > new.bytes:
        raise Wrong(f"{name} is too small: the objects have {(large + small) / MIB:,.1f} MiB, of "
                    f"which {large / MIB:,.1f} in units, and its units hold "
                    f"{new.segs * new.unit / MIB:,.1f} MiB; it is as it was")


def is_map(path: str) -> bool:
    """Whether a file is what an earlier call wrote as a map."""
    try:
        with open(path, encoding="ascii") as lines:
            return lines.readline().rstrip("\n") == MAP_HEAD
    except (OSError, UnicodeDecodeError):
        return False


def write_map(oids: dict[str, str], path: str) -> None:
    """Writes which identifier became which."""
    with whole_file(path, replace=True) as part, open(part, "x", encoding="ascii") as out:
        out.write(f"{MAP_HEAD}\n")
        out.writelines(f"{old} {new}\n" for old, new in oids.items())


def geometry_there(path: str) -> Geometry:
    """The numbers of the empty volume that is to be filled; what else is there is refused."""
    if not stat.S_ISREG(os.stat(path).st_mode):
        raise Wrong(f"{path} is no regular file, so it can't be made beside its name")
    with read(path) as volume:
        if volume.faults:
            raise Wrong(f"{path} is damaged: {volume.faults[0]}")
        if volume.files:
            raise Wrong(f"{path} isn't empty: it has {len(volume.files)} files; it is as it was")
        return volume.geometry


def read(path: str) -> Volume:
    """A volume, read by its format."""
    mode = os.stat(path).st_mode
    if not (stat.S_ISREG(mode) or stat.S_ISBLK(mode)):
        raise Wrong(f"{path} is neither a file nor a block device")
    try:
        return Volume(path)
    except BadVolume as fault:
        raise Wrong(f"{path}: {fault}") from None


def make(path: str, geometry: Geometry) -> None:
    """Makes an empty volume. Where `format` made the file itself, a kill would leave its part."""
    with open(path, "xb") as file:
        for start in range(0, min(WRITTEN, geometry.bytes), MIB):
            file.write(bytes(min(MIB, geometry.bytes - start)))
        file.truncate(geometry.bytes)
    ran = subprocess.run([find_program(), "format", path, *geometry.words()], check=False,
                         stdin=subprocess.DEVNULL, capture_output=True)
    if ran.returncode != 0:
        raise Wrong(ran.stderr.decode(errors="replace").strip())


def fill(old: Volume, path: str, geometry: Geometry) -> Move:
    """Makes a volume of the objects of another, and checks it."""
    make(path, geometry)
    with Progress("exsm_move", sum(record.size for record in old.all())) as progress:
        with Store(path) as store:
            move = Move(old, store, progress)
            move.all()
    checked(path)
    return move


def move(source: str, target: str, size: Optional[int], wait: float) -> tuple[Moved, str]:
    """Moves a volume's objects, and gives what was moved and the name of the map.

    The new volume is made beside its name, and gets it last; the map gets its name before it.
    """
    path = os.path.realpath(target)
    path_of_map = f"{path}.map"
    with ExitStack() as stack:
        stack.enter_context(held(source, wait))
        is_there = os.path.lexists(path)
        if is_there:
            if os.path.samefile(source, path):
                raise Wrong(f"{target} is the volume that is to be moved")
            stack.enter_context(held(target, wait))
            geometry = geometry_there(target)
        elif size is None:
            raise Wrong(f"{target} isn't there: make it by `exsm_new.py`, or tell its --size")
        else:
            geometry = geometry_of(size)
        if os.path.lexists(path_of_map) and not is_map(path_of_map):
            raise Wrong(f"{path_of_map} is there, and no map of this tool: remove it first")
        remove_left([path, path_of_map])
        old = stack.enter_context(read(source))
        if old.walk().faults:
            raise Wrong(f"{source} is damaged: {old.faults[0]}; `exsm_volume.py {source} save "
                        "FOLDER` saves what can be read")
        refuse_small(old, geometry, target)
        with whole_file(path, replace=is_there) as part:
            done = fill(old, part, geometry)
            if is_there:
                os.chmod(part, stat.S_IMODE(os.stat(path).st_mode))
            write_map(done.oids, path_of_map)
    return done.moved, path_of_map


def tell(moved: Moved, path_of_map: str, as_json: bool) -> None:
    """Tells what was moved."""
    if as_json:
        print(json.dumps({**asdict(moved), "map": path_of_map}))
    else:
        print(f"{moved.objects} objects, {moved.versions} versions, {moved.bytes / MIB:,.1f} MiB, "
              f"each digest compared; {moved.names} names; identifiers are in "
              f"{os.path.basename(path_of_map)}")


def fault_text(fault: Exception, target: str) -> str:
    """What a fault says, and what would do."""
    if isinstance(fault, Refused) and fault.name in ("full", "files_full"):
        return (f"{target} is too small: {meaning(fault.line, fault.name, fault.values)}; it is as "
                "it was: make a larger one")
    if isinstance(fault, Locked):
        return fault.text.splitlines()[0].removeprefix("exsm: ")
    return reason_of(fault)


def run(source: str, target: str, size: Optional[int], wait: float, as_json: bool) -> int:
    """Moves a volume's objects, tells a fault, and gives the exit status."""
    try:
        tell(*move(source, target, size, wait), as_json)
    except (Ended, Refused, Broken, Wrong, ProgramMissing, OSError) as fault:
        return failed("exsm_move", fault_text(fault, target), fault)
    except KeyboardInterrupt:
        return interrupted("exsm_move", f"{target} is as it was")
    return 0
