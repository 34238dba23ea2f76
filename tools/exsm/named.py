"""The names that exsm_files.py and exsm_versions.py keep in a volume, as a reader of its bytes
finds them."""
from __future__ import annotations

import os
import re
from pathlib import PurePosixPath

from exsm.files import BLOBS_FILE, NAME_LINE, NAMES_FILE
from exsm.names import VERSION_NAMES_FILE, lines_in
from exsm.records import BadVolume, Record
from exsm.volume import NoVersion, Volume

OID = re.compile(r"\d+\.\d+\.\d+")


def names_of(volume: Volume) -> dict[str, str]:
    """The names of objects of the volume, by identifier; none where the names can't be read."""
    kept = volume.versions.get(NAMES_FILE, [])
    blobs = volume.versions.get(BLOBS_FILE, [])
    if len(kept) != 1:
        return {}
    try:
        lines = NAME_LINE.findall(volume.bytes_of(kept[0]))
    except BadVolume:
        return {}
    oids = {record.unique: record.oid for record in blobs}
    return {oids[int(unique)]: name.decode("utf-8", "surrogateescape")
            for unique, name in lines if int(unique) in oids}


def lines_of(volume: Volume, file: str) -> list[tuple[int, str]]:
    """The numbers and texts of a list that the volume keeps; of another text none."""
    records = [it for it in volume.versions.get(file, ()) if not it.frozen]
    lines = lines_in(volume.bytes_of(records[0])) if len(records) == 1 else None
    return [(unique, os.fsdecode(text)) for unique, text in lines or ()]


def version_names_of(volume: Volume) -> list[tuple[int, str]]:
    """The names that exsm_versions.py keeps, each behind its version's number; none where they
    can't be read."""
    try:
        return lines_of(volume, VERSION_NAMES_FILE)
    except BadVolume:
        return []


def find_version(volume: Volume, word: str, named: list[tuple[int, str]],
                 files: dict[str, str]) -> Record:
    """The version of an identifier, of a version's name or of a file's; the names are given."""
    if OID.fullmatch(word):
        return volume.find(word)
    uniques = {unique for unique, name in named if name == word}
    found = [it for it in volume.all() if it.unique in uniques or files.get(it.oid) == word]
    if not found:
        raise NoVersion(f"no version has the identifier or the name {word}")
    if len(found) > 1:
        raise NoVersion(f"{word} names several versions: {' '.join(it.oid for it in found)}")
    return found[0]


def told_names(volume: Volume) -> dict[str, str]:
    """What a picture calls each version's object: by the name that exsm_files.py keeps, else by
    all names of its versions."""
    files, lines, named = names_of(volume), version_names_of(volume), {}
    for versions in volume.objects:
        uniques = {record.unique for record in versions}
        name = (next((files[it.oid] for it in versions if it.oid in files), "")
                or ", ".join(name for unique, name in lines if unique in uniques))
        if name:
            named.update((record.oid, name) for record in versions)
    return named


def is_plain_path(name: str) -> bool:
    """Whether a name may be used as a path below a folder: it leads to no other place."""
    parts = PurePosixPath(name).parts
    return (bool(parts) and not name.startswith("/") and ".." not in parts
            and not re.search(r"[\0\n]", name))
