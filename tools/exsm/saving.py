"""Lists, reads and saves versions of a volume that the program may refuse."""
from __future__ import annotations

import json
import os
import sys
from collections import Counter
from pathlib import PurePosixPath

from exsm.named import find_version, is_plain_path, names_of, version_names_of
from exsm.records import Record
from exsm.volume import Volume

DAMAGED = ".damaged"
"""What is put behind the path of a version that is saved in part."""

PART_MOST = 255 - len(DAMAGED)
"""Bytes of a part of a path, which a file system takes also with what is put behind it."""


def list_versions(volume: Volume, form: str, with_versions: bool = False) -> int:
    """Tells the versions that can be read, with the names that exsm_files.py keeps; or the names
    alone, those of versions too where that is asked for, a zero byte behind each; or all as
    JSON."""
    names = names_of(volume)
    if form == "zeros":
        told = list(names.values())
        if with_versions:
            told += [name for _, name in version_names_of(volume)]
        sys.stdout.buffer.writelines(os.fsencode(name) + b"\0" for name in told)
        sys.stdout.buffer.flush()
        return 0
    if form == "json":
        print(json.dumps([
            {"oid": record.oid, "size": record.size, "file": file, "frozen": record.frozen,
             "name": names.get(record.oid)}
            for file, records in volume.versions.items() for record in records]))
        return 0
    for file, records in volume.versions.items():
        for record in records:
            name = f" {names[record.oid]}" if record.oid in names else ""
            state = " (frozen)" if record.frozen else ""
            print(f"{record.size:10}  {record.oid:14} {file}{state}{name}")
    return 0


def get(volume: Volume, word: str) -> int:
    """Writes the bytes of the version of an identifier or a name to standard output."""
    record = find_version(volume, word, version_names_of(volume), names_of(volume))
    sys.stdout.buffer.writelines(volume.pieces(record))
    sys.stdout.buffer.flush()
    return 0


def save_version(volume: Volume, record: Record, path: str) -> bool:
    """Saves what can be read of a version, and tells what can't be; whether it is whole."""
    os.makedirs(os.path.dirname(path), exist_ok=True)
    missing = volume.save(record, path)
    for start, end in missing:
        print(f"{record.oid}: bytes {start} to {end - 1} of {record.size} are missing")
    if missing:
        os.replace(path, f"{path}{DAMAGED}")
    return not missing


def all_names(volume: Volume) -> dict[str, str]:
    """The names of versions, by identifier: that of a file which exsm_files.py put, else the first
    one that exsm_versions.py gave."""
    lines = version_names_of(volume)
    oids = {record.unique: record.oid for record in volume.all()}
    named = {oids[unique]: name for unique, name in reversed(lines) if unique in oids}
    return {**named, **names_of(volume)}


def places_of(records: list[Record], names: dict[str, str]) -> dict[str, str]:
    """Where the versions of a file are saved in its folder, by identifier: each under its name,
    and under its identifier where it has none, or one that can't be a path beside the others."""
    oids = {record.oid for record in records}
    paths = {oid: PurePosixPath(names[oid]) for oid in oids
             if oid in names and is_plain_path(names[oid])}
    taken = Counter(paths.values())
    folders = {folder for path in paths.values() for folder in path.parents}

    def stands(path: PurePosixPath) -> bool:
        return (taken[path] == 1 and path not in folders and path.parts[0] not in oids
                and not any(part.endswith(DAMAGED) or len(os.fsencode(part)) > PART_MOST
                            for part in path.parts))

    return {oid: str(paths[oid]) if oid in paths and stands(paths[oid]) else oid for oid in oids}


def save_all(volume: Volume, top: str) -> int:
    """Writes each version that can be read to a file of a folder below this one."""
    names = all_names(volume)
    paths, named = {}, 0
    for file, records in volume.versions.items():
        os.makedirs(os.path.join(top, file), exist_ok=True)
        places = places_of(records, names)
        named += sum(place != oid for oid, place in places.items())
        paths.update({oid: os.path.join(top, file, place) for oid, place in places.items()})
    show = sys.stderr.isatty()
    whole = 0
    for place, record in enumerate(volume.all(), 1):
        whole += save_version(volume, record, paths[record.oid])
        if show:
            print(f"\r{place} of {len(paths)}", end="", file=sys.stderr)
    if show:
        print(file=sys.stderr)
    for fault in volume.faults:
        print(fault)
    told = f"; {named} of them under their names" if named else ""
    print(f"{whole} versions saved whole, {len(paths) - whole} in part{told}")
    return 1 if whole < len(paths) or volume.faults else 0
