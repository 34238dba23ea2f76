"""Files of the file system as objects of a volume, with the names that the volume keeps of them."""
from __future__ import annotations

import json
import os
import re
import signal
import sys
from contextlib import contextmanager
from datetime import datetime, timezone
from typing import Callable, Iterable, Iterator, NamedTuple, Optional

from exsm.client import Broken, Ended, ProgramMissing, Refused, Store, leave_output
from exsm.commands import INTERRUPTED, status_of
from exsm.lines import reason_of
from exsm.names import (
    BLOBS_FILE, FACTS_FILE, NAME_LINE, NAMES_FILE, SOURCES_FILE, NameList, Wrong, unique_of)
from exsm.progress import Progress
from exsm.spelling import meaning
from exsm.whole import remove_left, whole_file

__all__ = ["BLOBS_FILE", "NAMES_FILE", "NAME_LINE", "Names", "Wrong"]

INTERRUPTION = ("exsm_files: interrupted; what was told is done, and no file is in the volume in "
                "part")

FACTS = re.compile(rb"(-|[0-7]{1,4}) (-|-?[0-9]{1,20}) ([0-9a-f]{64})")
"""What is kept of a file: its mode in octal digits, its time in nanoseconds, its SHA-256."""


class Facts(NamedTuple):
    """What is kept of a file beside its bytes: its mode and its time, where it was a file that has
    them, and the SHA-256 of its bytes."""

    mode: Optional[int]
    time: Optional[int]
    """Nanoseconds since 1970."""
    sha256: str

    def text(self) -> bytes:
        """The facts as the volume keeps them."""
        mode = "-" if self.mode is None else f"{self.mode:o}"
        return f"{mode} {'-' if self.time is None else self.time} {self.sha256}".encode()

    @classmethod
    def of(cls, text: Optional[bytes]) -> Optional[Facts]:
        """The facts that a volume keeps; None of another text."""
        found = FACTS.fullmatch(text or b"")
        if found is None:
            return None
        mode, time, digest = (part.decode() for part in found.groups())
        return cls(None if mode == "-" else int(mode, 8), None if time == "-" else int(time),
                   digest)

    def as_json(self) -> dict[str, Optional[str]]:
        """The facts as a program reads them."""
        time = None if self.time is None else datetime.fromtimestamp(
            self.time / 10 ** 9, timezone.utc).isoformat(timespec="seconds")
        return {"mode": None if self.mode is None else f"{self.mode:o}", "time": time,
                "sha256": self.sha256 or None}


NO_FACTS = Facts(None, None, "")
"""What is kept of a file that was put before facts were."""


class Names:
    """The names that a volume keeps, in the order in which they were put."""

    def __init__(self, store: Store) -> None:
        self.store = store
        self.read()

    def read(self) -> None:
        """Reads the names, as they are committed."""
        with self.store.snapshot():
            self._read()

    def _read(self) -> None:
        """Reads the names, of one moment."""
        self._last = self.store.begun - 1          # at a server: the commit that they are of
        files = self.store.files()
        self._list = NameList(self.store, NAMES_FILE, files)
        self._sources = NameList(self.store, SOURCES_FILE, files)
        self._facts = NameList(self.store, FACTS_FILE, files)
        self._has_blobs = BLOBS_FILE in files
        self.uniques = {name: unique for unique, name in self._list.lines}
        self.sources = dict(self._sources.lines)
        self._facts_of = dict(self._facts.lines)
        self.places: dict[int, str] = {}
        if self._has_blobs:
            self.places = {unique_of(oid): oid for oid in self.store.list(BLOBS_FILE)}

    @contextmanager
    def transaction(self) -> Iterator[None]:
        """A transaction of the store; what other users committed meanwhile is read first."""
        with self.store.transaction():
            self._read_anew()
            yield
        self._last = self.store.begun

    @contextmanager
    def snapshot(self) -> Iterator[None]:
        """What is read within is of one moment, and so are the names."""
        with self.store.snapshot():
            self._read_anew()
            yield

    def _read_anew(self) -> None:
        """Reads the names again, where other users committed meanwhile."""
        if self.store.is_shared and self.store.begun - 1 != self._last:
            self._read()

    def prepare(self) -> None:
        """Makes the files where the volume doesn't have them, and removes what a stop left."""
        if not (self._has_blobs and all(it.object for it in self._lists())):
            with self.transaction():
                if not self._has_blobs:
                    self.store.file(BLOBS_FILE)
                    self._has_blobs = True
                for it in self._lists():
                    it.prepare()
        self.clean()

    def _lists(self) -> tuple[NameList, ...]:
        """The lists that a volume keeps of its files."""
        return self._list, self._sources, self._facts

    def clean(self) -> None:
        """Removes the objects of files whose put was stopped: they have a source and no name.

        At a server nothing is removed: another user may be at it.
        """
        if self.store.is_shared:
            return
        named = set(self.uniques.values())
        for unique in [unique for unique in self.sources if unique not in named]:
            with self.transaction():
                if unique in self.places:
                    self.store.destroy(self.places.pop(unique))
                self._sources.remove(unique)
                del self.sources[unique]

    def __contains__(self, name: bytes) -> bool:
        return name in self.uniques

    def source(self, name: bytes) -> Optional[bytes]:
        """The path that a name was put from, where it is known."""
        return self.sources.get(self.uniques[name])

    def facts(self, name: bytes) -> Optional[Facts]:
        """What was kept of a name's file when it was put, where it was."""
        return Facts.of(self._facts_of.get(self.uniques[name]))

    def oid(self, name: bytes) -> str:
        """The identifier of a name's object."""
        unique = self.uniques.get(name)
        if unique is None:
            raise Wrong(f"no such name: {os.fsdecode(name)}")
        if unique not in self.places:
            raise Wrong(f"the object of {os.fsdecode(name)} is gone, some other line destroyed it: "
                        "`rm` removes the name")
        return self.places[unique]

    def versions(self, name: bytes) -> list[str]:
        """The versions of a name's object; none where it is gone."""
        oid = self.places.get(self.uniques[name])
        return self.store.versions(oid) if oid is not None else []

    # Within a transaction.

    def create(self) -> str:
        """Makes an object without a name."""
        oid = self.store.create(BLOBS_FILE)
        self.places[unique_of(oid)] = oid
        return oid

    def derive(self, oid: str) -> str:
        """Makes an empty version without a name, derived from a frozen one."""
        derived = self.store.derive(oid)
        self.store.delete(derived, 0, self.store.size(derived))
        self.places[unique_of(derived)] = derived
        return derived

    def put_from(self, oid: str, source: bytes) -> None:
        """Notes the path that a version without a name is put from."""
        unique = unique_of(oid)
        if unique in self.sources:
            self._sources.remove(unique)
        self._sources.add(unique, source)
        self.sources[unique] = source

    def give_up(self, oid: str) -> None:
        """Removes a version that gets no name, and its source."""
        unique = unique_of(oid)
        self.store.destroy(self.places.pop(unique))
        self._sources.remove(unique)
        del self.sources[unique]

    def name(self, name: bytes, oid: str, facts: Facts) -> None:
        """Names a version whose bytes are there; the one that has the name goes."""
        unique = unique_of(oid)
        if unique in self._facts_of:
            self._facts.change(unique, facts.text())
        else:
            self._facts.add(unique, facts.text())
        self._facts_of[unique] = facts.text()
        if self.uniques.get(name) == unique:
            return
        if name in self:
            self._forget(name)
        self._list.add(unique, name)
        self.uniques[name] = unique

    def _forget(self, name: bytes) -> None:
        """Removes a name and its version."""
        unique = self.uniques.pop(name)
        if unique in self.places:
            self.store.destroy(self.places.pop(unique))
        self._list.remove(unique, name)
        if self._facts_of.pop(unique, None) is not None:
            self._facts.remove(unique)
        if self.sources.pop(unique, None) is not None:
            self._sources.remove(unique)

    def remove(self, name: bytes, with_versions: bool) -> None:
        """Removes a name and its object, with all its versions where that is asked for."""
        if name not in self:
            raise Wrong(f"no such name: {os.fsdecode(name)}")
        versions = self.versions(name)
        if len(versions) > 1:
            if not with_versions:
                raise Wrong(f"{os.fsdecode(name)} has {len(versions)} versions: "
                            "`rm --versions` removes all of them")
            self._leave_one(versions, self.oid(name))
        self._forget(name)

    def _leave_one(self, versions: list[str], kept: str) -> None:
        """Removes all versions of an object but one current one."""
        gone = set(versions) - {kept}
        while gone:
            for oid in list(gone):
                is_current = unique_of(oid) in self.places
                try:
                    self.store.ask(f"{'destroy' if is_current else 'drop'} {oid}")
                except Refused as no:
                    if no.name not in ("has_versions", "branches"):
                        raise
                    continue                       # it goes once what is derived beside it went
                gone.discard(oid)
                self.places.pop(unique_of(oid), None)

    def rename(self, old: bytes, new: bytes, replace: bool) -> None:
        """Gives an object another name; the object that has it goes where that is asked for."""
        unique = unique_of(self.oid(old))
        if new in self and new != old:
            if not replace:
                raise Wrong(f"{os.fsdecode(new)} is there already: --replace removes it")
            self.remove(new, with_versions=False)
        self._list.change(unique, new)
        self.uniques = {new if name == old else name: it for name, it in self.uniques.items()}


def name_of(text: str) -> bytes:
    """The name that a text is: a path without empty parts, `.` and `..`, in one line."""
    name = os.fsencode(text)
    is_plain = all(part not in (b"", b".", b"..") for part in name.split(b"/"))
    if b"\n" in name or b"\0" in name or not is_plain:
        raise Wrong(f"{text!r} can't be a name: a name is one line, and a path without `.` and "
                    "`..`")
    return name


# The commands but put.

class Writing(NamedTuple):
    """How files are made of objects."""

    replace: bool = False
    """Whether a file that is there is written anew, and not refused."""
    preserve: bool = False
    """Whether it gets the mode and the time that it had when it was put."""


def get(names: Names, name: str, out: Optional[str], how: Writing) -> None:
    """Writes the bytes under a name to a file, or else to standard output."""
    oid = names.oid(os.fsencode(name))
    if out is not None:
        write_all(names, {os.fsencode(name): out}, how)
        return
    with names.store.scan(oid) as scan:
        scan.each(sys.stdout.buffer.write)
    sys.stdout.buffer.flush()


def get_all(names: Names, wanted: list[str], folder: str, how: Writing) -> None:
    """Writes what stands under names, or under all, to files of a folder, and tells each."""
    targets = {}
    for name in map(os.fsencode, wanted) if wanted else names.uniques:
        names.oid(name)                            # refuses a name that isn't there
        targets[name] = os.path.join(folder, os.fsdecode(name_of(os.fsdecode(name))))
    folders = {parent for path in targets.values() for parent in parents(path, folder)}
    for path in targets.values():
        if path in folders:
            raise Wrong(f"{path} would be a file and a folder: get these names one by one")
    write_all(names, targets, how)


def parents(path: str, top: str) -> Iterable[str]:
    """The folders between a folder and a path below it."""
    while (path := os.path.dirname(path)) not in (top, ""):
        yield path


def write_all(names: Names, targets: dict[bytes, str], how: Writing) -> None:
    """Makes files of objects; what is there is refused before anything is written, or replaced."""
    for path in filter(os.path.lexists, targets.values()):
        if not how.replace:
            raise Wrong(f"{path} is there already: --replace writes it anew")
        if not os.path.isfile(path):
            raise Wrong(f"{path} is there already, and is no file that can be replaced")
    remove_left(targets.values())
    sizes = {name: names.store.size(names.oid(name)) for name in targets}
    with Progress("exsm_files: get", sum(sizes.values())) as progress:
        for name, path in targets.items():
            os.makedirs(os.path.dirname(path) or ".", exist_ok=True)
            with whole_file(path, how.replace, sync=False) as part:
                with open(part, "xb") as out, names.store.scan(names.oid(name)) as scan:
                    scan.each(lambda piece: progress.add(out.write(piece)))
                if how.preserve:
                    restore(part, names.facts(name))


def restore(path: str, facts: Optional[Facts]) -> None:
    """Gives a file the mode and the time that are kept of it."""
    if facts is not None and facts.mode is not None:
        os.chmod(path, facts.mode)
    if facts is not None and facts.time is not None:
        os.utime(path, ns=(facts.time, facts.time))


def verify(names: Names, wanted: list[str]) -> None:
    """Compares the bytes under names, or under all, with those that were put, and tells the names
    of which they differ."""
    differ = unknown = 0
    told = [os.fsencode(name) for name in wanted] or list(names.uniques)
    with Progress("exsm_files: verify", sum(names.store.size(names.oid(it)) for it in told)) as bar:
        for name in told:
            with names.snapshot():
                oid, facts = names.oid(name), names.facts(name)
                digest = None if facts is None else names.store.digest(oid).hex()
            if facts is None:
                unknown += 1
            elif digest != facts.sha256:
                differ += 1
                print(f"{os.fsdecode(name)}: other bytes than were put: changed since by other "
                      "lines, or damaged")
            bar.add(names.store.size(oid))
    more = f"; of {unknown} no digest is kept" if unknown else ""
    print(f"{len(told) - differ - unknown} of {len(told)} files have the bytes that were put{more}")
    if differ:
        raise Wrong(f"{differ} of {len(told)} files have other bytes than were put")


def ls(names: Names, form: str) -> None:
    """Tells sizes, identifiers and names; or the names, a zero byte behind each; or all as JSON."""
    if form == "zeros":
        sys.stdout.buffer.writelines(name + b"\0" for name in names.uniques)
        sys.stdout.buffer.flush()
        return
    with names.snapshot():
        rows = [(names.store.size(names.oid(it)), names.oid(it), it) for it in names.uniques]
    if form == "json":
        print(json.dumps([{"name": os.fsdecode(name), "size": size, "oid": oid,
                           **(names.facts(name) or NO_FACTS).as_json()}
                          for size, oid, name in rows]))
        return
    for size, oid, name in rows:
        print(f"{size:10}  {oid:14} {os.fsdecode(name)}")


def rm(names: Names, gone: list[str], with_versions: bool) -> None:
    """Removes the files of these names, all or none."""
    names.clean()
    try:
        with names.transaction():
            for name in dict.fromkeys(map(os.fsencode, gone)):
                names.remove(name, with_versions)
    except Refused as no:
        if no.name != "long_txn":
            raise
        raise Wrong("one transaction doesn't hold so many: remove fewer at once; all are "
                    "there") from None


def mv(names: Names, old: str, new: str, replace: bool) -> None:
    """Gives a file another name; its bytes stay where they are."""
    names.clean()
    with names.transaction():
        names.rename(os.fsencode(old), name_of(new), replace)


def refusal_text(no: Refused) -> str:
    """What a refusal means, and what would do."""
    if no.name == "full":
        what = "units" if no.values[0] == "segs" else "pages"
        return f"the volume is full: it needs {no.values[1]} {what} and {no.values[2]} are free"
    return meaning(no.line, no.name, no.values)


def fault_text(fault: Exception) -> str:
    """What a fault says."""
    return refusal_text(fault) if isinstance(fault, Refused) else reason_of(fault)


def interrupted(fault: Optional[BaseException]) -> bool:
    """Whether Ctrl-C came first, and the fault is one of putting things in order behind it."""
    while fault is not None and not isinstance(fault, KeyboardInterrupt):
        fault = fault.__context__
    return fault is not None


def told(fault: Exception) -> int:
    """Tells why a step didn't end well, and gives the exit status."""
    if interrupted(fault):
        print(INTERRUPTION, file=sys.stderr)
        return INTERRUPTED
    if isinstance(fault, Ended):
        print(INTERRUPTION if fault.status == -signal.SIGINT else fault, file=sys.stderr)
        return status_of(fault)
    if isinstance(fault, BrokenPipeError):
        leave_output()
    else:
        print(f"exsm_files: {fault_text(fault)}", file=sys.stderr)
    return 1


def run(opened: Callable[[], Store], step: Callable[[Names], None]) -> int:
    """Makes a step on the names of a volume, tells a fault, and gives the exit status."""
    sys.stdout.reconfigure(errors="surrogateescape")
    try:
        with opened() as store:
            step(Names(store))
    except KeyboardInterrupt:
        print(INTERRUPTION, file=sys.stderr)
        return INTERRUPTED
    except (Ended, Refused, Broken, Wrong, ProgramMissing, OSError) as fault:
        return told(fault)
    return 0
