"""What each line that is no update does to the session, and what it is answered."""
from __future__ import annotations

import hashlib
from typing import TYPE_CHECKING, Callable

from fuzzing.commands import Value
from fuzzing.differs import Differs, match, same

if TYPE_CHECKING:
    from fuzzing.model import Model

SHOWN_LEAVES = 16
"""Leaves whose lengths `stat` tells."""


def begin(model: Model, _: list[Value], reply: str) -> None:
    """Opens a transaction."""
    same(reply, f"ok begin {model.last + 1}")
    model.begin()


def commit(model: Model, _: list[Value], reply: str) -> None:
    """Commits it."""
    same(reply, f"ok commit {model.last + 1}")
    model.commit()


def abort(model: Model, _: list[Value], reply: str) -> None:
    """Drops it."""
    same(reply, "ok abort")
    model.abort()


def checkpoint(_: Model, __: list[Value], reply: str) -> None:
    """Empties the log."""
    same(reply, "ok checkpoint")


def log(model: Model, _: list[Value], reply: str) -> None:
    """The records of the log."""
    if int(match(reply, "ok log ([0-9]+)")[1]) > model.last:
        raise Differs(reply, f"at most {model.last} records")


def files(model: Model, _: list[Value], reply: str) -> None:
    """The names of the files."""
    names = sorted(model.table.files)
    same(reply, " ".join(["ok files", str(len(names)), *names]))


def space(model: Model, _: list[Value], reply: str) -> None:
    """The units in use: as they were known, or at most as many as may be."""
    sizes, used, most = model.sizes, model.used, model.most
    found = match(reply, f"ok space pages ([0-9]+) of {sizes.pages} segs ([0-9]+) of {sizes.segs}")
    pages, segs = int(found[1]), int(found[2])
    is_known = (pages,
                segs) == used if used is not None else pages <= most.pages and segs <= most.segs
    if not is_known or pages < 1:
        raise Differs(reply, f"{used} in use, at most {most}")
    model.count(pages, segs)


def list_current(model: Model, values: list[Value], reply: str) -> None:
    """The current versions of a file."""
    oids = model.table.files[str(values[0])].current()
    same(reply, " ".join(["ok list", str(len(oids)), *oids]))


def size(model: Model, values: list[Value], reply: str) -> None:
    """The bytes of a version."""
    same(reply, f"ok size {len(model.find(str(values[0])).version.data)}")


def digest(model: Model, values: list[Value], reply: str) -> None:
    """The digest of its bytes."""
    same(reply, "ok digest " + hashlib.sha256(model.find(str(values[0])).version.data).hexdigest())


def read(model: Model, values: list[Value], reply: str) -> None:
    """Some of its bytes."""
    at, length = int(values[1]), int(values[2])  # type: ignore[arg-type]
    given = model.find(str(values[0])).version.data[at:at + length]
    same(reply, f"ok read {len(given)} {given.hex()}".rstrip())


def stat(model: Model, values: list[Value], reply: str) -> None:
    """The shape of an object: leaves add up, are filled, and a large one never becomes small."""
    found = model.find(str(values[0]))
    whole = len(found.version.data)
    is_small = found.number in model.table.heights and found.number not in model.table.large
    if is_small or found.number not in model.table.large and reply.startswith("ok stat small "):
        model.table.heights[found.number] = 0
        return same(reply, f"ok stat small {whole}")
    told = match(reply, "ok stat large ([0-9]+) height ([0-9]+) leaves ([0-9]+)((?: [0-9]+)*)")
    same(told[1], str(whole), "size by stat: ")
    height, count, lengths = int(told[2]), int(told[3]), [int(word) for word in told[4].split()]
    unit = model.sizes.unit
    least = 1 if count == 1 else -(-unit // 2)
    is_right = (len(lengths) == min(count, SHOWN_LEAVES)
                and all(least <= length <= unit for length in lengths)
                and (sum(lengths) == whole if count <= SHOWN_LEAVES
                     else count * least <= whole <= count * unit)
                and (height == 0) == (count <= 1) and (count == 0) == (whole == 0)
                and model.table.heights.get(found.number, height) == height)
    if not is_right:
        raise Differs(reply,
                      f"leaves of {least} to {unit} bytes that have {whole} bytes, and the height "
                      f"of before")
    model.table.heights[found.number] = height
    model.table.large.add(found.number)


def versions(model: Model, values: list[Value], reply: str) -> None:
    """The versions of an object."""
    found = model.find(str(values[0]))
    oids = found.trees.listed(found.number)
    same(reply, " ".join(["ok versions", str(len(oids)), *oids]))


def group(model: Model, values: list[Value], reply: str) -> None:
    """Makes a group of frames."""
    same(reply, f"ok group {values[0]}")
    model.groups.add(str(values[0]))


def scan(model: Model, values: list[Value], reply: str) -> None:
    """Opens a scan."""
    from fuzzing.model import Scan
    data = model.find(str(values[0])).version.data
    same(reply, f"ok scan {values[1]} {len(data)}")
    model.scans[str(values[1])] = Scan(data)


def next_bytes(model: Model, values: list[Value], reply: str) -> None:
    """Takes the next bytes of a scan."""
    opened = model.scans[str(values[0])]
    given = opened.data[opened.given:opened.given + int(values[1])]  # type: ignore[arg-type]
    same(reply, f"ok next {len(given)} {given.hex()}".rstrip())
    opened.given += len(given)


def close(model: Model, values: list[Value], reply: str) -> None:
    """Closes a scan."""
    same(reply, f"ok close {values[0]}")
    del model.scans[str(values[0])]
    model.used = None


ANSWERS: dict[str, Callable[[Model, list[Value], str], None]] = {
    "begin": begin, "commit": commit, "abort": abort, "checkpoint": checkpoint, "log": log,
    "files": files,
    "space": space, "list": list_current, "size": size, "stat": stat, "digest": digest,
    "read": read,
    "versions": versions, "group": group, "scan": scan, "next": next_bytes, "close": close}
