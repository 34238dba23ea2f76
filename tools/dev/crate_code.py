"""Reads the text of the crates: functions with their clauses and calls, types, and records.

It goes by lines and regular expressions, and relies on how `rt fmt` lays code out: an item begins
in the first column, and a member of it four columns on.
"""
from __future__ import annotations

import os
import re
from collections import defaultdict
from dataclasses import dataclass, field
from pathlib import Path
from typing import Iterable, Iterator, Optional

TOP = Path(__file__).resolve().parent.parent.parent


def text_of(path: str) -> str:
    """The text of a file of the repository."""
    return (TOP / path).read_text(encoding="utf-8")


def write_text(path: str, text: str) -> None:
    """Writes a file of the repository."""
    (TOP / path).write_text(text, encoding="utf-8")


def has_file(path: str) -> bool:
    """Whether the repository has a file."""
    return (TOP / path).is_file()


def named_crates() -> dict[str, list[str]]:
    """The crates of crates.txt in its order, each with those that it names."""
    lines = [it.split(":", 1) for it in text_of("crates.txt").split("\n")
             if ":" in it and not it.startswith("#")]
    return {name.split()[0]: names.split() for name, names in lines}


def with_below(crate: str) -> list[str]:
    """A crate and all that are below it, in the order of crates.txt."""
    named, found = named_crates(), {crate}
    for name in reversed(named):
        if name in found:
            found |= set(named[name]) & set(named)
    return [name for name in named if name in found]


def files_below(folder: str, ending: str) -> Iterator[str]:
    """The files below a folder whose names end so, but for what a build left."""
    for at, folders, names in os.walk(TOP / folder):
        folders[:] = sorted(it for it in folders if it != "out")
        for name in sorted(names):
            if name.endswith(ending):
                yield os.path.relpath(f"{at}/{name}", TOP)


def edits_of(crate: str) -> list[str]:
    """The files of a crate's must-fail edits."""
    return list(files_below(f"crates/{crate}/must-fail", ".edit"))


def kept_edits_of(crate: str) -> list[str]:
    """The files of a crate's must-fail edits that the gate leaves out."""
    return list(files_below(f"tools/edits/{crate}", ".edit"))


@dataclass(eq=False)
class Function:
    """A function: where it stands, what it belongs to, its clauses, and the names in its text."""

    crate: str
    path: str
    line: int
    # The type or trait whose member it is, and the trait that is implemented there.
    owner: Optional[str]
    of_trait: Optional[str]
    name: str
    clauses: list[str] = field(default_factory=list)
    is_test: bool = False
    is_public: bool = False
    end: int = 0
    # What its text calls, and all names that it has.
    calls: set[str] = field(default_factory=set)
    names: set[str] = field(default_factory=set)
    # The ghost members that stand in its impl: of some traits they are what a method promises.
    ghosts: set[str] = field(default_factory=set)

    def full(self) -> str:
        """Its name behind that of its type or trait."""
        return f"{self.owner}::{self.name}" if self.owner else self.name

    def promises(self, clause: str) -> bool:
        """Whether it has a clause, or its impl a ghost member, of this name."""
        return clause in self.clauses or clause in self.ghosts

    def is_called_by(self, other: Function) -> bool:
        """Whether the other's text calls it, and, of a method, speaks of its type or trait too."""
        if self.name not in other.calls or self is other:
            return False
        if not self.owner or self.owner == other.owner or self.crate == other.crate:
            return True
        return self.owner in other.names or self.of_trait in other.names

    def read_line(self, line: str, is_head: bool) -> None:
        """Takes a line of the function's text: a clause, or code."""
        clause = re.match(r"\s*ensures\*?( \w+)? \{", line)
        if clause:
            self.clauses.append((clause[1] or "").strip())
        elif not line.strip().startswith("//"):
            self.names |= set(re.findall(r"\w+", line))
            # What is called, and what is handed on by its name.
            self.calls |= set() if is_head else set(re.findall(r"(\w+)(?:::<[^()]*>)?\(", line))
            self.calls |= set(re.findall(r"[(,] ?(\w+)\)", line))


ITEM = re.compile(
    r"(?:unsafe )?(?:(impl)(?:<[^{]*?>)? (?:([\w:]+)(?:<[^{]*>)? for )?([\w:]+)"
    r"|(?:pub(?:\([a-z]+\))? )?(trait) (\w+))")
HEAD = re.compile(
    r"\s*((?:pub(?:\([a-z]+\))? )?)(?:const )?(?:unsafe )?(?:extern \"C\" )?fn (\w+)")


def read_functions(crate: str, path: str) -> list[Function]:
    """The functions of a file, with what each says."""
    found: list[Function] = []
    owner: Optional[str] = None
    of_trait: Optional[str] = None
    current: Optional[Function] = None
    is_test, ghosts = False, set[str]()
    for number, line in enumerate(text_of(path).split("\n"), 1):
        item = ITEM.match(line)
        if item:
            owner = (item[3] or item[5]).split("::")[-1]
            of_trait = item[2].split("::")[-1] if item[2] else None
            current, ghosts = None, set()
        elif line.startswith("}"):
            owner = of_trait = None
        ghost = re.match(r"    ghost (\w+) = ", line)
        if ghost and of_trait:
            ghosts.add(ghost[1])
        head = HEAD.match(line)
        if head:
            inside = line.startswith(" ")
            current = Function(crate, path, number, owner if inside else None,
                               of_trait if inside else None, head[2])
            current.is_test, is_test = is_test, False
            current.is_public = head[1] == "pub " or of_trait is not None
            current.ghosts = ghosts if inside else set()
            found.append(current)
        elif line.strip() == "#[test]":
            is_test = True
        if current:
            current.end = number
            current.read_line(line, bool(head))
    return found


class Sources:
    """The crates with their functions, types and records."""

    def __init__(self) -> None:
        # The crates that each crate of crates.txt names.
        self.below = named_crates()
        self.crates: list[str] = sorted(os.listdir(TOP / "crates"))
        self.functions: dict[str, list[Function]] = {}
        self.types: set[str] = set()
        # The fields of records, and the ghost members of traits.
        self.fields: dict[str, set[str]] = defaultdict(set)
        self.members: dict[str, set[str]] = defaultdict(set)
        for crate in self.crates:
            self.functions[crate] = []
            for path in files_below(f"crates/{crate}/src", ".rt"):
                self.functions[crate] += read_functions(crate, path)
                self._read_types(text_of(path))
            for path in files_below(f"crates/{crate}/specs", ".antt"):
                self._read_records(text_of(path))
        # The crates of the traits that have a method.
        self.traits: dict[tuple[Optional[str], str], set[str]] = defaultdict(set)
        self._hand_clauses_down()

    def _read_types(self, text: str) -> None:
        """Notes the types of a file of code, and the ghost members of its traits."""
        self.types |= set(re.findall(r"(?m)^pub (?:trait|struct|enum) (\w+)", text))
        for trait, body in re.findall(r"(?m)^pub trait (\w+)[^\n]*\{\n(.*?)^\}", text, re.S):
            self.members[trait] |= set(re.findall(r"(?m)^    ghost (\w+):", body))

    def _read_records(self, text: str) -> None:
        """Notes the fields of the records that a file of definitions has."""
        record: Optional[str] = None
        for line in text.split("\n"):
            head = re.match(r"(?:pub )?record (?:pub )?([\w-]+)", line)
            if head:
                record = head[1]
            elif line and not line.startswith((" ", "\t")):
                record = None
            of_field = re.match(r"\s+(?:pub )?(\w+) :", line)
            if record and of_field:
                self.fields[record].add(of_field[1])

    def all_functions(self) -> Iterator[Function]:
        """The functions of all crates."""
        return (it for functions in self.functions.values() for it in functions)

    def _hand_clauses_down(self) -> None:
        """Gives a method that writes no clause those that its trait has."""
        traits: dict[tuple[Optional[str], str], Function] = {}
        for it in self.all_functions():
            if it.owner and not it.of_trait:
                traits.setdefault((it.owner, it.name), it)
                self.traits[it.owner, it.name].add(it.crate)
        for it in self.all_functions():
            if it.of_trait and not it.clauses and (it.of_trait, it.name) in traits:
                it.clauses = traits[it.of_trait, it.name].clauses

    def of_crates(self, crates: Iterable[str]) -> list[Function]:
        """The functions of some crates, but for tests."""
        return [it for crate in crates for it in self.functions.get(crate, []) if not it.is_test]

    def find(self, name: str, crates: Iterable[str]) -> list[Function]:
        """What a name means in some crates: a function, a method, or all methods of a type."""
        among = self.of_crates(crates)
        owner, _, last = name.rpartition("::")
        if owner:
            return [it for it in among if it.name == last and owner in (it.owner, it.of_trait)]
        found = [it for it in among if it.name == name]
        return found or [it for it in among if name in (it.owner, it.of_trait)]

    def leads_to(self, crates: list[str], edited: list[Function]) -> list[Function]:
        """The functions of some crates that lead to one of these functions, themselves too."""
        found = list(edited)
        for it in found:
            among = self.of_crates(crate for crate in crates if self.knows(crate, it.crate))
            found += [other for other in among if it.is_called_by(other) and other not in found]
        return found

    def knows(self, crate: str, other: str) -> bool:
        """Whether a crate is another one, or names it."""
        return crate == other or other in self.below.get(crate, ())

    def callers(self, function: Function) -> list[Function]:
        """The functions that call one, or the trait's method that it is."""
        found: list[Function] = []
        for of in {function.crate, *self.traits.get((function.of_trait, function.name), ())}:
            among = self.of_crates(crate for crate in self.crates if self.knows(crate, of))
            found += [it for it in among if function.is_called_by(it)]
        return found

    def crates_of(self, section: str) -> list[str]:
        """The crates that a section's head names."""
        return [it for it in re.split(r", | and ", section) if it in self.crates]
