"""Versions of objects as trees, the names that a volume keeps of them, and where they differ."""
from __future__ import annotations

import difflib
import json
import os
import re
import sys
from contextlib import contextmanager
from datetime import datetime, timezone
from itertools import accumulate
from typing import Callable, Iterator, NamedTuple, Optional

from exsm.checking import counted
from exsm.client import Broken, Ended, Locked, ProgramMissing, Refused, Store, leave_output
from exsm.commands import CYAN, GREEN, RED, coloured, is_coloured, status_of, store_of
from exsm.leaves import Body, Change, changes, trimmed
from exsm.lines import reason_of
from exsm.lock import held
from exsm.named import OID, find_version, lines_of, names_of
from exsm.names import VERSION_NAMES_FILE, VERSION_TIMES_FILE, NameList, Wrong, unique_of
from exsm.records import BadVolume, Links, Record
from exsm.sockets import is_socket
from exsm.spelling import meaning
from exsm.volume import NoVersion, Volume


REFINED_MOST = 1 << 20
"""Bytes of a range whose lines are compared, so that what differs in it is told apart."""

TEXT_MOST = 8 << 20
"""Bytes between the first and the last difference that `--text` compares line by line."""

CONTEXT = 3
"""Lines that `--text` shows before and behind what differs."""

CONTEXT_BYTES = 4096
"""Bytes in which these lines are looked for."""


class Branch(NamedTuple):
    """A version in a tree, and the lines that join it to the one that it is derived from."""

    record: Record
    rule: str


class Shown:
    """A volume whose versions are shown: their trees and their names."""

    def __init__(self, volume: Volume) -> None:
        self.volume = volume
        self.links = {name: Links(records) for name, records in volume.versions.items()}
        self.names = lines_of(volume, VERSION_NAMES_FILE)
        self.times = dict(lines_of(volume, VERSION_TIMES_FILE))
        self.files = names_of(volume)

    def time_of(self, record: Record) -> Optional[str]:
        """When a version was given a name last, where it has one that was given by this tool."""
        return self.times.get(record.unique) if self.names_of(record) else None

    def names_of(self, record: Record) -> list[str]:
        """The names of a version."""
        return [name for unique, name in self.names if unique == record.unique]

    def file_name(self, record: Record) -> Optional[str]:
        """The name that exsm_files.py keeps for a version's object, where it names this one."""
        return self.files.get(record.oid)

    def find(self, word: str) -> Record:
        """The version of an identifier, a version's name or a file's name."""
        try:
            return find_version(self.volume, word, self.names, self.files)
        except NoVersion as no:
            raise Wrong(str(no)) from None

    def object_of(self, record: Record) -> list[Record]:
        """All versions of a version's object."""
        return next(versions for versions in self.volume.objects if record in versions)

    def derived(self, record: Record) -> list[Record]:
        """The versions that are derived from one."""
        links = next(it for it in self.links.values() if it.at.get(record.place) is record)
        return links.derived.get(record.place, [])

    def first(self, versions: list[Record]) -> Record:
        """The version of an object that has no older one."""
        places = {record.place for record in versions}
        return next(record for record in versions if record.older not in places)

    def branches(self, versions: list[Record]) -> Iterator[Branch]:
        """The versions of an object, each before those derived from it, with the lines that join
        them."""
        todo = [(self.first(versions), "", "")]
        while todo:
            record, rule, below = todo.pop()
            yield Branch(record, rule)
            derived = self.derived(record)
            for place, newer in reversed(list(enumerate(derived))):
                is_last = place == len(derived) - 1
                todo.append((newer, below + ("└ " if is_last else "├ "),
                             below + ("  " if is_last else "│ ")))


def state(record: Record) -> str:
    """The state of a version."""
    return "frozen" if record.frozen else "current"


# tree

def rows_of(shown: Shown, versions: list[Record],
            with_times: bool) -> list[tuple[str, str, str, str]]:
    """The rows of a tree: identifier, size, state, and names, with when they were given last."""
    rows = []
    for record, rule in shown.branches(versions):
        names = shown.names_of(record)
        file_name, time = shown.file_name(record), shown.time_of(record)
        told = ", ".join(names) + (f" ({file_name})" if file_name else "")
        if with_times and time:
            told += f"  {time.replace('T', ' ')}"
        rows.append((f"{rule}{record.oid}", f"{record.size:,} B", state(record), told.strip()))
    return rows


def tree_lines(rows: list[tuple[str, str, str, str]]) -> Iterator[str]:
    """The lines of a tree, in columns."""
    oids, sizes = (max(len(row[column]) for row in rows) for column in (0, 1))
    for oid, size, told, names in rows:
        yield f"{oid:{oids}}  {size:>{sizes}}  {told:7}  {names}".rstrip()


def tree_json(shown: Shown, versions: list[Record]) -> dict:
    """A tree for a program: of each version what is known, and those that are derived from it."""
    made: dict[str, dict] = {}
    for record, _ in shown.branches(versions):
        made[record.oid] = {
            "oid": record.oid, "size": record.size, "state": state(record),
            "names": shown.names_of(record), "time": shown.time_of(record),
            "file": shown.file_name(record), "derived": []}
    for record in versions:
        made[record.oid]["derived"] = [made[newer.oid] for newer in shown.derived(record)]
    return made[shown.first(versions).oid]


def tree(shown: Shown, word: Optional[str], form: str) -> None:
    """Shows the tree of one object, or of each one that has several versions."""
    if word is not None:
        objects = [shown.object_of(shown.find(word))]
    else:
        objects = [versions for versions in shown.volume.objects if len(versions) > 1]
    if form == "json":
        print(json.dumps([tree_json(shown, versions) for versions in objects]))
        return
    for versions in objects:
        print("\n".join(tree_lines(rows_of(shown, versions, form == "times"))))
    if word is None:
        print(f"objects of one version: {len(shown.volume.objects) - len(objects)}")


# diff

def told_change(change: Change) -> str:
    """A difference in words."""
    taken, put = change.end - change.start, change.new_end - change.new_start
    if not taken:
        return f"byte {change.start:,}: {put:,} more"
    if not put:
        return f"byte {change.start:,}: {taken:,} less"
    return f"byte {change.start:,}: {put:,} for {taken:,}"


def diff(shown: Shown, old: str, new: str, form: str) -> None:
    """Shows where two versions of an object differ: as ranges of bytes, as lines of text, or as
    JSON."""
    records = shown.find(old), shown.find(new)
    if records[1] not in shown.object_of(records[0]):
        raise Wrong(f"{old} and {new} are versions of two objects")
    bodies = Body(shown.volume, records[0]), Body(shown.volume, records[1])
    found = [part for change in changes(*bodies) for part in parts_of(bodies, change)]
    if form == "json":
        print(json.dumps([change._asdict() for change in found]))
    elif form == "text":
        for line in text_lines(bodies, found, (old, new)):
            sys.stdout.write(coloured_line(line) if is_coloured(sys.stdout) else line)
    else:
        for change in found:
            print(told_change(change))


def parts_of(bodies: tuple[Body, Body], whole: Change) -> Iterator[Change]:
    """The parts of a range that differ, as far as lines tell them apart; of a long range itself."""
    if max(whole.end - whole.start, whole.new_end - whole.new_start) > REFINED_MOST:
        yield whole
        return
    texts = [body.between(*part).splitlines(keepends=True)
             for body, part in zip(bodies, (whole[:2], whole[2:]))]
    starts = [[*accumulate(map(len, text), initial=part)]
              for text, part in zip(texts, (whole.start, whole.new_start))]
    for tag, *lines in difflib.SequenceMatcher(None, *texts).get_opcodes():
        if tag != "equal":
            yield trimmed(*bodies, Change(*(starts[0][at] for at in lines[:2]),
                                          *(starts[1][at] for at in lines[2:])))


def text_lines(bodies: tuple[Body, Body], found: list[Change],
               words: tuple[str, str]) -> Iterator[str]:
    """The lines of two texts that differ, as `diff -u` shows them."""
    if not found:
        return
    bounds = [(found[0].start, found[-1].end), (found[0].new_start, found[-1].new_end)]
    if max(end - start for start, end in bounds) > TEXT_MOST:
        raise Wrong("the texts differ in places that are too far apart: without --text the "
                    "ranges are told")
    starts = [whole_lines(body, *part) for body, part in zip(bodies, bounds)]
    back = max(part[0] - start for part, (start, _) in zip(bounds, starts))
    texts, before = [], []
    for body, part, (_, end) in zip(bodies, bounds, starts):
        start = part[0] - back
        text = body.between(start, end).decode(errors="replace")
        texts.append(text.splitlines(keepends=True))
        before.append(sum(piece.count(b"\n") for piece in body.pieces(0, start)))
    for line in difflib.unified_diff(*texts, *words, n=CONTEXT):
        line = shifted(line, before) if line.startswith("@@") else line
        yield line if line.endswith("\n") else f"{line}\n\\ No newline at end of file\n"


def coloured_line(line: str) -> str:
    """A line that `diff -u` shows, in the colour that it mostly has."""
    for begins, colour in (("+", GREEN), ("-", RED), ("@@", CYAN)):
        if line.startswith(begins):
            return coloured(line.rstrip("\n"), colour) + "\n"
    return line


def whole_lines(body: Body, start: int, end: int) -> tuple[int, int]:
    """A range with the lines at its ends whole, and a few lines of context."""
    head = body.between(max(0, start - CONTEXT_BYTES), start)
    feeds = [match.end() for match in re.finditer(rb"\n", head)][-CONTEXT - 1:]
    whole = start - len(head) + (feeds[0] if len(feeds) > CONTEXT else 0)
    tail = body.between(end, min(body.size, end + CONTEXT_BYTES))
    feeds = [match.end() for match in re.finditer(rb"\n", tail)][:CONTEXT + 1]
    return whole, end + (feeds[-1] if len(feeds) > CONTEXT else len(tail))


def shifted(line: str, before: list[int]) -> str:
    """The head of a hunk, with the numbers that its lines have in the whole texts."""
    def number(match: re.Match) -> str:
        return f"{match[1]}{int(match[2]) + before['-+'.index(match[1])]}"
    return re.sub(r"(?<= )([-+])(\d+)", number, line)


# names

class Kept:
    """The names of versions that a volume keeps, and when each version was given one last."""

    def __init__(self, store: Store) -> None:
        files = store.files()
        self.names = NameList(store, VERSION_NAMES_FILE, files)
        self._times = NameList(store, VERSION_TIMES_FILE, files)

    def uniques(self, text: str) -> list[int]:
        """The numbers of the versions that have a name."""
        return [unique for unique, told in self.names.lines if os.fsdecode(told) == text]

    def add(self, unique: int, text: str) -> None:
        """Names a version, in the open transaction."""
        self.names.prepare()
        self._times.prepare()
        self.names.add(unique, os.fsencode(text))
        self._times.remove(unique)
        now = datetime.now(timezone.utc)
        self._times.add(unique, f"{now:%Y-%m-%dT%H:%M:%SZ}".encode())

    def remove(self, text: str) -> None:
        """Removes a name, in the open transaction; the time goes with a version's last name."""
        for unique in self.uniques(text):
            self.names.remove(unique, os.fsencode(text))
            if unique not in (number for number, _ in self.names.lines):
                self._times.remove(unique)


def name(kept: Kept, version: Record, text: str, replace: bool) -> None:
    """Names a version."""
    check_name(text)
    there = kept.uniques(text)
    if there and there != [version.unique] and not replace:
        raise Wrong(f"{text} names another version already: --replace moves the name to this one")
    kept.remove(text)
    kept.add(version.unique, text)


def check_name(text: str) -> None:
    """Refuses what can't be a name of a version."""
    if not text or "\n" in text or "\0" in text or OID.fullmatch(text):
        raise Wrong(f"{text!r} can't be a name: a name is one line, and no identifier")


def unname(kept: Kept, text: str) -> None:
    """Removes a name of a version; the version stays."""
    if not kept.uniques(text):
        raise Wrong(f"no version has the name {text}")
    kept.remove(text)


def freeze(store: Store, kept: Kept, version: Record, text: str) -> str:
    """Freezes a current version, names the frozen copy, and gives its identifier."""
    check_name(text)
    if kept.uniques(text):
        raise Wrong(f"{text} names another version already")
    frozen = store.freeze(version.oid)
    kept.add(unique_of(frozen), text)
    return frozen


# back

def back(place: Place, new: str, old: str) -> None:
    """Gives a current version the bytes that another version of its object has, in one
    transaction, by what differs alone; its identifier and its names stay."""
    with place.store() as store:
        try:
            with store.transaction(), Volume(place.volume) as volume:
                told = gone_back(store, Shown(volume), new, old)
        except Refused as no:
            if no.name != "long_txn":
                raise
            raise Wrong(f"{new} and {old} differ in more than one transaction holds: derive "
                        "another version of a frozen one instead") from None
    print(told)


def gone_back(store: Store, shown: Shown, new: str, old: str) -> str:
    """Goes back within a transaction, and gives what is told of it."""
    record, wanted = shown.find(new), shown.find(old)
    if wanted not in shown.object_of(record):
        raise Wrong(f"{new} and {old} are versions of two objects")
    bodies = Body(shown.volume, record), Body(shown.volume, wanted)
    found = list(changes(*bodies))
    for change_ in found:
        edit(store, record.oid, bodies[1], change_)
    taken = sum(it.end - it.start for it in found)
    put = sum(it.new_end - it.new_start for it in found)
    return f"{record.oid}: {put:,} bytes for {taken:,}, in {counted(len(found), 'place')}"


def edit(store: Store, oid: str, wanted: Body, change_: Change) -> None:
    """Changes a version, which up to a place has the wanted bytes, in a range that differs."""
    start, end, new_start, new_end = change_
    if end > start:
        store.delete(oid, new_start, end - start)
    for piece in wanted.pieces(new_start, new_end):
        store.insert(oid, new_start, piece)
        new_start += len(piece)


# Runs.

class Place(NamedTuple):
    """A volume, and the socket of the server that has it, where one has."""

    volume: str
    socket: Optional[str]
    wait: Optional[float]

    def store(self) -> Store:
        """A store over it. Besides that the volume's file is read."""
        if is_socket(self.volume):
            raise Wrong(f"{self.volume} is a server's socket: versions are read in the volume's "
                        "file, so name that as VOLUME, and the socket by --socket")
        return store_of(self.volume, self.socket, self.wait)

    @contextmanager
    def held(self) -> Iterator[None]:
        """Keeps all others from changes: by the program's lock, or at a server by a transaction."""
        if self.socket is None and not is_socket(self.volume):
            with held(self.volume, self.wait or 0):
                yield
        else:
            with self.store() as store, store.snapshot():
                yield


def show(place: Place, step: Callable[[Shown], None]) -> None:
    """Makes a step on a volume that nobody changes meanwhile."""
    with place.held():
        try:
            with Volume(place.volume) as volume:
                step(Shown(volume))
        except BadVolume as fault:
            raise Wrong(f"{place.volume}: {fault}") from None


def change(place: Place, word: Optional[str],
           step: Callable[[Store, Kept, Optional[Record]], Optional[str]]) -> None:
    """Makes a step on the names of versions, in one transaction, and tells what it gives."""
    with place.store() as store:
        with store.transaction():
            version = None
            if word is not None:
                with Volume(place.volume) as volume:
                    version = Shown(volume).find(word)
            told = step(store, Kept(store), version)
        if told is not None:
            print(told)


def run(step: Callable[[], None]) -> int:
    """Makes a step, tells a fault, and gives the exit status."""
    sys.stdout.reconfigure(encoding="utf-8", errors="surrogateescape")
    try:
        step()
        sys.stdout.flush()
    except Ended as fault:
        text = fault.text.splitlines()[0] if isinstance(fault, Locked) else str(fault)
        print(text, file=sys.stderr)
        return status_of(fault)
    except BrokenPipeError:
        leave_output()
        return 1
    except Refused as no:
        print(f"exsm_versions: {meaning(no.line, no.name, no.values)}", file=sys.stderr)
        return 1
    except (BadVolume, Broken, Wrong, ProgramMissing, OSError) as fault:
        print(f"exsm_versions: {reason_of(fault)}", file=sys.stderr)
        return 1
    return 0
