"""Rows among the scenarios, held against what is told without exsm: those of random edits against
plain lists of bytes, and those of loads against the reader of streams."""
from __future__ import annotations

import hashlib
import io
import re
import unittest
from dataclasses import dataclass, field
from typing import Optional

from exsm.geometry import Geometry
from exsm.opening import INDEX_ENTRY, INDEX_HEAD
from exsm.streams import HEAD, MAGIC, BadStream, Head, Stream, pages_filled, read_stream
from tests.support import TOP

FOLDER = TOP / "crates" / "scenarios"

EDITS = "Random edits of one object, held against a list of its bytes"
KINDS = "Trees of nodes of both kinds are edited: an edit writes the newer kind on its way alone"
OBJECTS = "Random objects of one file come, grow, shrink and go, held against a list of them"


def sections(name: str) -> dict[str, list[str]]:
    """The lines behind each heading of a file, without blank ones and comments."""
    found: dict[str, list[str]] = {}
    lines: list[str] = []
    for line in (FOLDER / name).read_text(encoding="ascii").splitlines():
        if line.startswith("= "):
            lines = found[line[2:]] = []
        elif line and not line.startswith("#"):
            lines.append(line)
    return found


def given(word: str) -> bytes:
    """The bytes that a data word gives."""
    kind, *rest = word.split(":")
    return bytes.fromhex(rest[0]) if kind == "hex" else bytes.fromhex(rest[1]) * int(rest[0])


@dataclass
class Plain:
    """The objects of a volume as lists of bytes, by the numbers of their identifiers."""

    objects: dict[int, bytearray] = field(default_factory=dict)
    made: int = 0

    def copy(self) -> Plain:
        """The same again."""
        return Plain({number: bytearray(it) for number, it in self.objects.items()}, self.made)

    def create(self) -> int:
        """A new object, by its number."""
        self.made += 1
        self.objects[self.made] = bytearray()
        return self.made


class Run:
    """The lines of a script, stepped over plain lists. What is asked of an object is answered."""

    def __init__(self, plain: Plain) -> None:
        self.plain = plain
        self.names: dict[str, int] = {}

    def number(self, word: str) -> int:
        """The number of the version that a word names."""
        return self.names[word[1:]] if word.startswith("@") else int(word.split(".")[2])

    def step(self, line: str) -> str:
        """The answer of a line that asks for bytes; of another one its first word."""
        word, *rest = line.split(" ")
        if word == "create":
            self.names[rest[2][1:]] = self.plain.create()
        elif word == "destroy":
            del self.plain.objects[self.number(rest[0])]
        elif word not in ("begin", "commit", "checkpoint", "file", "list", "space", "stat"):
            return self.on(word, self.plain.objects[self.number(rest[0])], rest[1:])
        return word

    @staticmethod
    def on(word: str, data: bytearray, rest: list[str]) -> str:
        """Edits an object's bytes, or answers what is asked of them."""
        at = 0 if word in ("size", "digest", "append") else int(rest[0])
        if word == "append":
            data += given(rest[0])
        elif word == "insert":
            data[at:at] = given(rest[1])
        elif word == "replace":
            new = given(rest[1])
            data[at:at + len(new)] = new
        elif word == "delete":
            del data[at:at + int(rest[1])]
        elif word == "size":
            return f"ok size {len(data)}"
        elif word == "digest":
            return f"ok digest {hashlib.sha256(data).hexdigest()}"
        else:
            part = data[at:at + int(rest[1])]
            return f"ok read {len(part)} {part.hex()}".rstrip()
        return word


class Rows:
    """The lines of a section beside what they write, with the plain lists of each disk."""

    WRITES = re.compile(r"(on|show|same|file:|real:) ")

    def __init__(self, title: str) -> None:
        said, told = sections("stdin")[title], iter(sections("stdout")[title])
        self.plains: dict[str, Plain] = {}
        self.texts: dict[str, list[str]] = {}
        self.compared = 0
        for line in said:
            self.step(line, next(told) if self.WRITES.match(line) else "")
        assert next(told, None) is None, title

    def step(self, line: str, told: str) -> None:
        """Steps over a line of scenarios; what it asks of objects was answered so."""
        head, _, lines = line.partition(": ")
        words = head.split(" ")
        if words[0] == "disk":
            self.plains.pop(words[1], None)
        elif words[0] == "text":
            self.texts.setdefault(words[1], []).extend(lines.split(" / "))
        elif words[0] == "copy" and words[3] in self.texts:
            self.texts[words[1]] = list(self.texts[words[3]])
        elif words[0] == "on" and lines.startswith("run "):
            options = dict(zip(words[2::2], words[3::2]))
            script = lines.partition(" < ")[2].split(" / ")
            self.run(words[1], options, self.texts.get(options.get("from", ""), script), told)

    def run(self, disk: str, options: dict[str, str], script: list[str], told: str) -> None:
        """Steps over a run's script, and compares the last answers where they are of bytes."""
        run = Run(self.plains.get(disk, Plain()).copy())
        answers = [run.step(line) for line in script]
        if "leaves" in options:
            self.plains[options["leaves"]] = run.plain
        last = answers[-int(options["last"]):] if "last" in options else []
        if last and all(it.startswith("ok ") for it in last):
            assert told == " / ".join(last), (told, last)
            self.compared += len(last)


LOADS = (
    "A dump is loaded by one commit: the same history, in the lowest units",
    "What is loaded is dumped byte for byte, whatever its versions share",
    "Dumps that no volume wrote are loaded too, and what is nearly one isn't",
    "A dump of another volume's sizes, or without room, is told as such",
    "No dump is loaded, whatever is wrong in it, and the volume stays empty")
"""The sections whose loads are told here too."""


def pages_used(stream: Stream) -> int:
    """How many pages of a volume a stream's files and nodes have, with the catalog's."""
    used = 1 + len(stream.nodes)
    fan = (stream.head.page_size - INDEX_HEAD.size) // INDEX_ENTRY.size
    for file in stream.files:
        level = pages_filled(stream.head.page_size, file)
        used += level
        while level > 1:
            level = -(-level // fan)
            used += level
    return used


@dataclass
class Loadable:
    """A volume of these sizes, and what was loaded into it: a stream, or what it came to hold in
    another way."""

    sizes: Geometry
    stream: Optional[bytes] = None
    is_told: bool = True

    @property
    def is_empty(self) -> bool:
        """Whether a load is taken."""
        return self.is_told and (self.stream is None or self.head.next_unique == 1
                                 and not self.head.last and not self.head.files)

    @property
    def head(self) -> Head:
        """The head of what was loaded."""
        return Head(*HEAD.unpack(self.stream[:HEAD.size])[1:])

    def refusal(self, stream: bytes) -> str:
        """Why a stream isn't loaded, or nothing."""
        if not self.is_empty:
            return "12 not empty"
        if len(stream) < HEAD.size or stream[:len(MAGIC)] != MAGIC:
            return "13 bad dump"
        head, sizes = Head(*HEAD.unpack(stream[:HEAD.size])[1:]), self.sizes
        for number, dump, volume in ((1, head.page_size, sizes.page_size),
                                     (2, head.seg_len, sizes.seg_len), (3, head.fan, sizes.fan)):
            if dump != volume:
                return f"14 misfit field {number} dump {dump} volume {volume}"
        for units, need, free in (("pages", head.nodes + head.pages, sizes.pages - 1),
                                  ("segs", head.leaves, sizes.segs)):
            if need > free:
                return f"15 no room {units} need {need} free {free}"
        try:
            read_stream(io.BytesIO(stream))
        except BadStream:
            return "13 bad dump"
        return ""

    def load(self, stream: bytes) -> tuple[str, Loadable]:
        """What a load is told as, and the volume that it leaves."""
        refusal = self.refusal(stream)
        if refusal:
            return f"nothing; {refusal}", self
        read = read_stream(io.BytesIO(stream))
        count = sum(1 for _ in read.versions())
        return (f"ok load versions {count} segs {len(read.leaves)}", Loadable(self.sizes, stream))

    def check(self) -> str:
        """What `check` tells."""
        if self.stream is None:
            return "ok check last 0 files 0 objects 0 versions 0 pages 1 segs 0"
        read = read_stream(io.BytesIO(self.stream))
        return (f"ok check last {read.head.last} files {read.head.files} objects {read.objects()} "
                f"versions {sum(1 for _ in read.versions())} pages {pages_used(read)} "
                f"segs {len(read.leaves)}")


class LoadRows:
    """The lines of all sections, with the streams that they spell and the volumes that they make;
    of some sections what comes of loads, checks and dumps is compared."""

    FORMAT = re.compile(r"format v --page-size (\d+) --pages (\d+) --segs (\d+) --seg-len (\d+) "
                        r"--fan (\d+)")

    def __init__(self) -> None:
        self.volumes: dict[str, Loadable] = {}
        self.bytes: dict[str, bytes] = {}
        self.compared = 0
        written = sections("stdout")
        for title, lines in sections("stdin").items():
            told = iter(written[title]) if title in LOADS else None
            for line in lines:
                self.step(line, next(told) if told and Rows.WRITES.match(line) else None)
            assert told is None or next(told, None) is None, title

    def step(self, line: str, told: Optional[str]) -> None:
        """Steps over a line, which writes this where that is to be compared."""
        head, _, lines = line.partition(": ")
        words = head.split(" ")
        if words[0] == "copy":
            for kept in (self.volumes, self.bytes):
                if words[3] in kept:
                    kept[words[1]] = kept[words[3]]
        elif words[0] == "fill":
            self.bytes[words[1]] = (self.bytes.get(words[1], b"")
                                    + bytes.fromhex(words[3]) * int(words[2]))
        elif words[0] == "cut" and words[1] in self.bytes:
            self.bytes[words[1]] = self.bytes[words[1]][:int(words[2])]
        elif words[0] == "set" and words[1] in self.bytes:
            at, new, was = int(words[2]), bytes.fromhex(words[3]), self.bytes[words[1]]
            self.bytes[words[1]] = was[:at] + new + was[at + len(new):]
        elif words[0] == "on":
            self.run(words[1], dict(zip(words[2::2], words[3::2])), lines, told)

    def run(self, disk: str, options: dict[str, str], line: str, told: Optional[str]) -> None:
        """Steps over a command line."""
        made = self.FORMAT.match(line)
        volume = self.volumes.get(disk)
        left, want = volume, None
        if made:
            left = Loadable(Geometry(*map(int, made.groups())))
        elif volume is None:
            return
        elif line == "load v" and options["from"] in self.bytes:
            want, left = volume.load(self.bytes[options["from"]])
        elif line == "check v" and volume.is_told:
            want = volume.check()
        elif line == "dump v" and volume.stream is not None:
            want = f"{len(volume.stream)} bytes"
            self.bytes[options["sends"]] = volume.stream
        elif line == "dump v":
            self.bytes.pop(options.get("sends", ""), None)
        elif not line.startswith(("check", "dump")) and ("commit" in line or "from" in options):
            left = Loadable(volume.sizes, is_told=False)
        if "leaves" in options:
            self.volumes[options["leaves"]] = left
        if told is not None and want is not None:
            assert told == want, (line, told, want)
            self.compared += 1


class Scenarios(unittest.TestCase):
    """What stands in the stored program's stdin and stdout."""

    def test_edits(self) -> None:
        """after random edits, on six sizes of pages and leaves, an object's bytes are the list's"""
        self.assertEqual(Rows(EDITS).compared, 2 * 44)

    def test_both_kinds(self) -> None:
        """after random edits of trees with nodes of both kinds their bytes are the list's"""
        self.assertEqual(Rows(KINDS).compared, 2 * 20)

    def test_objects(self) -> None:
        """after a thousand steps on objects of a file, the sizes and last bytes are the list's"""
        self.assertEqual(Rows(OBJECTS).compared, 2 * (335 + 263))

    def test_loads(self) -> None:
        """what comes of each load, and of a check and a dump of what was loaded, is what the
        reader of streams says"""
        self.assertGreater(LoadRows().compared, 100)

    def test_headings(self) -> None:
        """what must come has the headings of the scenarios in their order; each line is known"""
        self.assertEqual(list(sections("stdin")), list(sections("stdout")))
        told = (FOLDER / "stdout").read_text(encoding="ascii")
        self.assertNotIn("what is '", told)
