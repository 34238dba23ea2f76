"""Random lines of all commands, most of which a run takes and some of which are refused."""
from __future__ import annotations

import random

from exsm.client import LINE_MOST
from exsm.geometry import Geometry
from fuzzing.commands import DATA_MOST, UPDATES
from fuzzing.model import Model
from fuzzing.refusals import OF_VERSION
from fuzzing.versions import Version

WORDS = {
    "file": 4, "unfile": 1, "create": 8, "destroy": 2, "insert": 12, "append": 12, "replace": 8,
    "delete": 8,
    "freeze": 6, "derive": 5, "drop": 3, "read": 3, "size": 1, "stat": 4, "digest": 2, "list": 2,
    "files": 1,
    "versions": 3, "space": 6, "log": 1, "group": 1, "scan": 3, "next": 4, "close": 2, "begin": 3,
    "commit": 4,
    "abort": 1, "checkpoint": 1, "noise": 2}
"""The commands, by how often a line is of one."""

STYLES: list[dict[str, int]] = [
    {}, {}, {"freeze": 4, "derive": 4, "drop": 4, "destroy": 4},
    {"append": 3, "insert": 3, "commit": 2},
    {"scan": 30, "group": 60, "close": 0}, {"create": 4, "file": 3, "commit": 0}]
"""Runs of which some commands are more often than in others, or not at all."""

LONG_STYLE = {"commit": 0, "abort": 0, "create": 3, "unfile": 3}

FILES = ["a", "b", "c", "docs", "main", "x" * 32]
MANY_FILES = [f"f{index}" for index in range(12)]
NOISE = [b"", b"#", b" \t", b"begin now", b"commit\r", b"\tfiles ", b"read @x 0",
         b"append @x hex:0", b"frobnicate",
         b"\xff\xfe", b"file A", b"file " + b"y" * 33, b"size 1.2", b"size 99999999999.0.1",
         b"list a\r\r",
         b"insert @n1 18446744073709551616 hex:00", b"append @n1 rep:16777217:00", b"group g 0 lru",
         b"group g 1025 mru", b"scan @n1 as s in none", b"read @n1 0 16777217", b"next s0 16777217",
         b"files\0"]
LONGEST, LONGEST_SHARE = b"#" * (LINE_MOST + 1), 0.02
"""A line that is over its limit, and the share of it among lines that are no command."""

LENGTHS = (1, 3, 40, 200, 512, 900, 3000, 9000)
PAGE_SIZES = (512, 512, 512, 512, 512, 1024, 1024, 4096)


def sizes(chance: random.Random, bytes_most: int) -> Geometry:
    """The sizes of a volume of at most so many bytes: most are small, and some have no room for
    many updates."""
    while True:
        pages, segs = chance.choice(((20, 8), (64, 16), (100, 60), (400, 300), (400, 300)))
        seg_len, fan = chance.choice((1, 1, 2, 3)), chance.choice((2, 2, 3, 5))
        found = Geometry(chance.choice(PAGE_SIZES), pages, segs, seg_len, fan)
        if found.bytes <= bytes_most:
            return found


class Writer:
    """Writes lines for a run whose model is known."""

    def __init__(self, chance: random.Random, model: Model, is_long: bool = False) -> None:
        """A run that is long has one transaction, which comes to its limits."""
        self.chance, self.model = chance, model
        self.files = chance.choice((FILES, FILES, MANY_FILES))
        style = LONG_STYLE if is_long else chance.choice(STYLES)
        self.weights = {word: weight * style.get(word, 1) for word, weight in WORDS.items()}
        self.scans = 80 if style.get("scan") else 8
        self.named = 0

    def line(self) -> bytes:
        """A line."""
        word = self.chance.choices(list(self.weights), list(self.weights.values()))[0]
        if self.model.working is None and self.chance.random() < (0.8 if word in UPDATES else 0.1):
            return b"begin"
        if not self.versions() and word in OF_VERSION and self.chance.random() < 0.9:
            word = "create" if self.model.table.files else "file"
        if word == "noise":
            return LONGEST if self.chance.random() < LONGEST_SHARE else self.chance.choice(NOISE)
        return self.of(word).encode("ascii")

    def of(self, word: str) -> str:
        """A line of a command."""
        if word in ("file", "unfile", "list"):
            return f"{word} {self.chance.choice(self.files)}"
        if word == "create":
            there = sorted(self.model.table.files)
            name = self.chance.choice(there if there and self.chance.random() < 0.9 else self.files)
            return f"create {name} as @{self.new_name()}"
        if word in ("freeze", "derive"):
            return f"{word} {self.version(word == 'derive')} as @{self.new_name()}"
        if word in ("destroy", "drop", "size", "stat", "digest", "versions"):
            return f"{word} {self.version(word == 'drop')}"
        if word in ("insert", "append", "replace", "delete", "read"):
            return self.of_bytes(word)
        if word in ("group", "scan", "next", "close"):
            return self.of_scan(word)
        return word

    def new_name(self) -> str:
        """A name to be bound, which may be taken."""
        self.named += 1
        if self.chance.random() < 0.05:
            return self.chance.choice(["main", "s0", "n1"])
        return f"n{self.named}"

    def version(self, is_frozen: bool = False) -> str:
        """What names a version, mostly one that is there, and frozen or not as is asked for."""
        if self.chance.random() < 0.04:
            return self.chance.choice(["@none", "258.0.99", "1.1.1", "4294967296.65536.7"])
        there = self.versions()
        fit = [it for it in there if it.frozen == is_frozen]
        if not there:
            return "@n1"
        oid = self.chance.choice(fit if fit and self.chance.random() < 0.9 else there).oid
        names = [name for name, bound in self.model.names.items() if bound == oid]
        return f"@{names[0]}" if names and self.chance.random() < 0.5 else oid

    def versions(self) -> list[Version]:
        """All versions of the table."""
        return [it for trees in self.model.table.files.values() for it in trees.all.values()]

    def of_bytes(self, word: str) -> str:
        """A line that gives, takes or asks for bytes."""
        name = self.version()
        found = self.model.table.find(self.model.oid_of(name) or "0.0.0")
        size = len(found.version.data) if found else 0
        place = self.chance.choice((0, size, self.chance.randint(0, size),
                                    self.chance.randint(0, size)))
        room = size - place
        length = self.chance.randint(0, self.chance.choice(LENGTHS))
        if word in ("replace", "delete", "read") and self.chance.random() < 0.95:
            length = self.chance.choice((min(length, room), min(length, room),
                                         self.chance.randint(0, room)))
        if self.chance.random() < 0.03:
            place += 1
        if word in ("delete", "read"):
            return f"{word} {name} {place} {length}"
        at = "" if word == "append" else f" {place}"
        return f"{word} {name}{at} {self.data(length)}"

    def data(self, length: int) -> str:
        """Bytes of a length, as a line gives them."""
        if self.chance.random() < 0.01:
            return f"rep:{DATA_MOST + 1}:00"
        if length > 64 and self.chance.random() < 0.7:
            return f"rep:{length}:{self.chance.randrange(256):02x}"
        return f"hex:{self.chance.randbytes(length).hex()}"

    def of_scan(self, word: str) -> str:
        """A line on scans and groups."""
        if word == "group":
            frames = self.chance.choice((1, 2, 8, 1024))
            rule = self.chance.choice(("lru", "mru"))
            return f"group g{self.chance.randrange(90)} {frames} {rule}"
        if word == "scan":
            there = [f" in {it}" for it in sorted(self.model.groups)]
            group = self.chance.choice(["", "", " in g1", *there])
            name = self.version(self.chance.random() < 0.3)
            return f"scan {name} as s{self.chance.randrange(self.scans)}{group}"
        opened = sorted(self.model.scans)
        name = self.chance.choice(opened if opened and self.chance.random() < 0.9 else ["s0", "s9"])
        if word == "close":
            return f"close {name}"
        return f"next {name} {self.chance.choice((0, 1, 100, 700, 5000))}"

    def last_lines(self) -> list[bytes]:
        """Lines that end a run so that the units in use are those of the committed table."""
        lines = [] if self.model.working is None else [self.chance.choice((b"commit", b"abort"))]
        return [*lines, *(f"close {name}".encode() for name in self.model.scans), b"space"]

    def looks(self) -> list[bytes]:
        """Lines that ask for all that a volume holds."""
        lines = [b"files", b"space"]
        lines += [f"list {name}".encode() for name in self.model.table.files]
        for it in self.versions():
            lines += [f"{ask} {it.oid}".encode() for ask in ("stat", "versions", "digest")]
            lines.append(f"read {it.oid} 0 {len(it.data)}".encode())
        return lines
