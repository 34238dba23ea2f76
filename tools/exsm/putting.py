"""Puts files of the file system into a volume: under which names, and in how many transactions."""
from __future__ import annotations

import hashlib
import os
import stat
import sys
from contextlib import nullcontext
from itertools import chain, islice
from typing import BinaryIO, ContextManager, Iterable, Iterator, NamedTuple, Optional

from exsm.client import PIECE, UPDATES_MOST, Refused
from exsm.files import Facts, Names, name_of, refusal_text
from exsm.hints import larger
from exsm.names import Wrong
from exsm.progress import Progress
from exsm.volume import Volume

PUT_UPDATES = 12
"""Updates of a `put` beside its bytes: an old object, its name and its source go, new ones come."""

PUT_PIECES = UPDATES_MOST - PUT_UPDATES
"""Pieces of bytes that one transaction of a `put` holds."""

PUT_MOST = PUT_PIECES * PIECE
"""Bytes of a file that one transaction holds."""

GROUP_MOST = 8 * PIECE
"""Bytes of small files that are put in one transaction."""

MODE_KEPT = 0o777
"""The bits of a mode that are kept: who may read, write and run a file."""

TRIED_PIECES = 16
"""Pieces of standard input that are kept, to see whether it has more."""

STANDARD_INPUT = "-"


class Put(NamedTuple):
    """A file that is to be put: its name, its path or `-`, its size where that is known."""

    name: bytes
    path: str
    size: Optional[int]

    @property
    def source(self) -> bytes:
        """The path as the volume keeps it, in one line; only a space where it can't be kept."""
        path = os.fsencode(self.path if self.path == STANDARD_INPUT else os.path.abspath(self.path))
        return b" " if b"\n" in path else path

    def opened(self) -> ContextManager[BinaryIO]:
        """The file, opened to be read."""
        if self.path == STANDARD_INPUT:
            return nullcontext(sys.stdin.buffer)
        return open(self.path, "rb")


class Done(NamedTuple):
    """A file that is in: its name, its object's identifier, its size."""

    name: bytes
    oid: str
    size: int


def put_of(path: str, name: str) -> Put:
    """The file of a path, which is to be there."""
    told = os.stat(path)
    try:
        kept = name_of(name)
    except Wrong as fault:
        raise Wrong(f"{fault}; nothing was put: -n NAME puts one file under another name") from None
    if not stat.S_ISREG(told.st_mode):
        return Put(kept, path, None)               # a pipe or a device: read to its end
    return Put(kept, path, told.st_size)


def is_volume(path: str, volume: Optional[str]) -> bool:
    """Whether a path names the volume's file, where that is known."""
    return volume is not None and os.path.exists(volume) and os.path.samefile(path, volume)


def puts_below(folder: str, volume: Optional[str]) -> Iterator[Put]:
    """The files of a folder and of those in it but the volume, named by their paths as given."""
    for top, folders, files in os.walk(folder, onerror=raised):
        folders.sort()
        for path in (os.path.join(top, file) for file in sorted(files)):
            if not os.path.isfile(path):
                print(f"exsm_files: left out: {path} is no file", file=sys.stderr)
            elif is_volume(path, volume):
                print(f"exsm_files: left out: {path} is the volume itself", file=sys.stderr)
            else:
                yield put_of(path, given(path))


def raised(fault: OSError) -> None:
    """Raises a fault."""
    raise fault


def given(path: str) -> str:
    """A path as given, as a name: without a leading `./` or `/`."""
    return os.path.normpath(path).lstrip("/")


def plan(paths: Iterable[str], name: Optional[str], recursive: bool,
         volume: Optional[str]) -> list[Put]:
    """The files that the words name, in their order, to be put into a volume."""
    puts: list[Put] = []
    for path in paths:
        if path == STANDARD_INPUT and name is not None:
            puts.append(Put(name_of(name), path, None))
        elif os.path.isdir(path):
            if not recursive:
                raise Wrong(f"{path} is a folder: `put -r` puts the files in it")
            puts.extend(puts_below(path, volume))
        elif is_volume(path, volume):
            raise Wrong(f"{path} is the volume itself")
        elif name is not None:
            puts.append(put_of(path, name))
        else:
            puts.append(put_of(path, given(path) if recursive else os.path.basename(path)))
    return puts


def refuse_traps(names: Names, puts: list[Put]) -> None:
    """Refuses a name that comes twice, or that stands for another path."""
    seen: dict[bytes, str] = {}
    for it in puts:
        name = os.fsdecode(it.name)
        if it.name in seen:
            raise Wrong(f"{name} comes twice, as {seen[it.name]} and as {it.path}: -r names files "
                        "by their paths, and --replace keeps the last; nothing was put")
        seen[it.name] = it.path
        refuse_other(names, it, "; nothing was put")


def refuse_other(names: Names, it: Put, done: str = "") -> None:
    """Refuses a name that stands for another path."""
    if it.name in names and (it.path == STANDARD_INPUT or names.source(it.name) != it.source):
        there = names.source(it.name)
        of = f", put from {os.fsdecode(there)}" if there and there != b" " else ""
        raise Wrong(f"{os.fsdecode(it.name)} is there already{of}: --replace puts it anew, "
                    f"-n NAME or -r names this one otherwise{done}")


def put(names: Names, paths: list[str], name: Optional[str], recursive: bool,
        replace: bool) -> None:
    """Stores files under their names, each anew where it was put from the same path."""
    puts = plan(paths, name, recursive, names.store.volume)
    if not replace:
        refuse_traps(names, puts)
    names.prepare()
    done = 0
    with Progress("exsm_files: put", sum(it.size or 0 for it in puts)) as progress:
        for group in groups(puts):
            if len(group) > 1 and put_together(names, group, replace, progress):
                done += len(group)
                continue
            for it in group:
                try:
                    tell([Done(it.name, *put_one(names, it, replace, progress))])
                except Refused as no:
                    raise Wrong(full_text(names, puts, no, done)) from None
                done += 1


def tell(done: Iterable[Done]) -> None:
    """Tells of files that are in, at once."""
    lines = (f"{os.fsdecode(it.name)} {it.size} bytes, {it.oid}\n" for it in done)
    print("".join(lines), end="", flush=True)


class Cost(NamedTuple):
    """What files that are put together take of a transaction."""

    size: int = 0
    updates: int = 0

    @classmethod
    def of(cls, it: Put) -> Cost:
        """That of one file; of one whose size isn't known, more than a group may have."""
        size = GROUP_MOST + 1 if it.size is None else it.size
        return cls(size, PUT_UPDATES + -(-size // PIECE))

    def with_other(self, other: Cost) -> Cost:
        """Both together."""
        return Cost(self.size + other.size, self.updates + other.updates)

    def is_small(self) -> bool:
        """Whether they go together."""
        return self.size <= GROUP_MOST and self.updates <= UPDATES_MOST


def groups(puts: list[Put]) -> Iterator[list[Put]]:
    """The files as they are put: small ones that follow each other together, others alone."""
    group: list[Put] = []
    taken = Cost()
    for it in puts:
        cost = Cost.of(it)
        taken = taken.with_other(cost)
        if group and not taken.is_small():
            yield group
            group, taken = [], cost
        group.append(it)
    if group:
        yield group


def full_text(names: Names, puts: list[Put], no: Refused, done: int) -> str:
    """What the refusal of a file's bytes means, how many files are in, and what would do."""
    it = puts[done]
    text = f"{os.fsdecode(it.name)}: {refusal_text(no)}"
    if len(puts) > 1:
        text += f". {done} of {len(puts)} files are in"
    if no.name == "full":
        text += f". {room_for(names, puts[done:])}"
        if it.name in names:
            text += "; the old file and the new one are there at once, so `rm` may also do"
    return text


def room_for(names: Names, left: list[Put]) -> str:
    """What has room for the files that are left too, where their sizes are known."""
    size = sum(it.size or 0 for it in left)
    told = larger(names.store, size=size) if all(it.size is not None for it in left) else None
    return told or "`exsm_move.py` carries all to a larger volume"


class Reading:
    """A file as it is read: how many bytes it had so far, and what is kept of it."""

    def __init__(self, source: BinaryIO, progress: Progress) -> None:
        self._source, self._progress = source, progress
        self._told = os.fstat(source.fileno())
        self._digest = hashlib.sha256()
        self.size = 0

    def pieces(self) -> Iterator[bytes]:
        """The bytes, in pieces that fit on a line."""
        while piece := self._source.read(PIECE):
            self._digest.update(piece)
            self.size += len(piece)
            self._progress.add(len(piece))
            yield piece

    def facts(self) -> Facts:
        """What is kept of it, once all is read."""
        digest = self._digest.hexdigest()
        if not stat.S_ISREG(self._told.st_mode):
            return Facts(None, None, digest)
        return Facts(stat.S_IMODE(self._told.st_mode) & MODE_KEPT, self._told.st_mtime_ns, digest)


def put_one(names: Names, it: Put, replace: bool, progress: Progress) -> tuple[str, int]:
    """Stores a file under its name; gives the identifier and the size."""
    with it.opened() as source:
        read = Reading(source, progress)
        pieces = read.pieces()
        if it.size is not None and it.size <= PUT_MOST:
            oid = put_at_once(names, it, replace, pieces, read)
        else:
            first = list(islice(pieces, TRIED_PIECES))
            if len(first) < TRIED_PIECES:
                oid = put_at_once(names, it, replace, first, read)
            else:
                oid = put_in_parts(names, it, replace, chain(first, pieces), read)
        return oid, read.size


def put_together(names: Names, group: list[Put], replace: bool, progress: Progress) -> bool:
    """Stores small files in one transaction and tells them; where one can't be read or is refused
    none is in, the names are as they were, and each is to be put by itself."""
    before = progress.done
    told: list[Done] = []
    try:
        with names.transaction():
            for it in group:
                with it.opened() as source:
                    read = Reading(source, progress)
                    oid = put_within(names, it, replace, read.pieces(), read)
                told.append(Done(it.name, oid, read.size))
    except (Refused, Wrong, OSError):
        progress.reach(before)
        names.read()
        return False
    tell(told)
    return True


def put_at_once(names: Names, it: Put, replace: bool, pieces: Iterable[bytes],
                read: Reading) -> str:
    """Stores a file in one transaction."""
    with names.transaction():
        return put_within(names, it, replace, pieces, read)


def put_within(names: Names, it: Put, replace: bool, pieces: Iterable[bytes],
               read: Reading) -> str:
    """Stores a file within a transaction. An object with versions keeps them, and its current one
    changes."""
    if not replace:
        refuse_other(names, it)                    # another user may have put it meanwhile
    if it.name in names and len(names.versions(it.name)) > 1:
        oid = names.oid(it.name)
        names.store.delete(oid, 0, names.store.size(oid))
    else:
        oid = names.create()
    names.store.append_each(oid, pieces)
    names.put_from(oid, it.source)
    names.name(it.name, oid, read.facts())
    return oid


def put_in_parts(names: Names, it: Put, replace: bool, pieces: Iterator[bytes],
                 read: Reading) -> str:
    """Stores a file in several transactions. Its name comes with the last one; until then its
    source alone is kept, by which `Names.clean` finds what a stop left."""
    with names.transaction():
        older = older_of(names, it.name)
        oid = names.create() if older is None else names.derive(older)
        names.put_from(oid, it.source)
    while part := list(islice(pieces, 1)):
        with names.transaction():
            names.store.append_each(oid, chain(part, islice(pieces, PUT_PIECES - 1)))
    try:
        with names.transaction():
            if not replace:
                refuse_other(names, it)
            names.name(it.name, oid, read.facts())
    except Wrong:
        with names.transaction():
            names.give_up(oid)
        raise
    return oid


def older_of(names: Names, name: bytes) -> Optional[str]:
    """The frozen version that a name's version is derived from, as the volume's file has it."""
    if name not in names or len(names.versions(name)) < 2:
        return None
    if names.store.volume is None:
        raise Wrong(f"{os.fsdecode(name)} has versions, for which so large a file needs the "
                    "volume's file: name it as VOLUME, and the server's socket by --socket")
    with Volume(names.store.volume) as volume:
        older = volume.find(names.oid(name)).older
        return next(record.oid for record in volume.all() if record.place == older)
