"""What clauses and definitions are, beside what they were at a commit."""
from __future__ import annotations

import io
import re
import subprocess
import tarfile
import tempfile
from pathlib import Path
from typing import Iterator, NamedTuple

from crate_code import TOP

HEAD = re.compile(
    r"\s*(?:pub(?:\([a-z]+\))? )?(?:const )?(?:unsafe )?(?:extern \"C\" )?fn (\w+)")
ITEM = re.compile(r"(?:unsafe )?impl(?:<[^{]*?>)? (?:[\w:]+(?:<[^{]*>)? for )?([\w:]+)"
                  r"|(?:pub(?:\([a-z]+\))? )?trait (\w+)")
CLAUSE = re.compile(r"\b(requires|ensures)\*?(?: (\w+))? \{")
OPENS = re.compile(r"\b(?:requires|ensures)\*?(?: \w+)? \Z")
DEFINITION = re.compile(r"(?:unfoldable )?(?:abbrev |record |data )?(?:pub )?"
                        r"(?:unfoldable )?(?:abbrev |record |data )?(?:pub )?([^\s:(]+)")


class Said(NamedTuple):
    """A clause or a definition: where it stands, and its name."""

    crate: str
    kind: str
    name: str


def in_one_line(text: str) -> str:
    """A text without what the layout makes of it."""
    return " ".join(text.split())


def braced(text: str, start: int) -> str:
    """What stands in the braces that open at a place."""
    depth = 0
    for at in range(start, len(text)):
        depth += {"{": 1, "}": -1}.get(text[at], 0)
        if depth == 0:
            return text[start + 1:at]
    return text[start + 1:]


def head_end(text: str, start: int) -> int:
    """Where the head ends of the function that begins at a place: at its body, or at its `;`."""
    depth = 0
    for at in range(start, len(text)):
        char = text[at]
        if depth == 0 and (char == ";" or char == "{" and not OPENS.search(text[start:at])):
            return at
        depth += {"{": 1, "(": 1, "[": 1, "}": -1, ")": -1, "]": -1}.get(char, 0)
    return len(text)


def heads_of(text: str) -> Iterator[tuple[str, str]]:
    """The functions of a file by name, each with the text from its head to its body."""
    text = re.sub(r"(?m)^\s*//.*$", "", text)
    owner, start = "", 0
    for line in text.split("\n"):
        item = ITEM.match(line)
        if item:
            owner = (item[1] or item[2]).split("::")[-1] + "::"
        elif line.startswith("}"):
            owner = ""
        if found := HEAD.match(line):
            name = (owner if line.startswith(" ") else "") + found[1]
            yield name, text[start:head_end(text, start)]
        start += len(line) + 1


def clauses_of(crate: str, text: str) -> Iterator[tuple[Said, str]]:
    """The clauses of a file of code."""
    for function, head in heads_of(text):
        for found in CLAUSE.finditer(head):
            name = f"{function}, {found[2]}" if found[2] else function
            yield Said(crate, found[1], name), in_one_line(braced(head, found.end() - 1))


def definitions_of(crate: str, text: str) -> Iterator[tuple[Said, str]]:
    """The definitions of a file of specs: a block each, which begins in the first column."""
    blocks = re.split(r"\n(?=\S)", "\n" + re.sub(r"(?m)^\s*--.*$", "", text))
    for block in (it.strip() for it in blocks):
        found = DEFINITION.match(block)
        if found and not block.startswith(("use ", "pub mod ", "mod ")):
            yield Said(crate, "definition", found[1]), in_one_line(block)


def said_below(top: Path) -> dict[Said, list[str]]:
    """All that the crates below a folder say, each with its texts in order."""
    found: dict[Said, list[str]] = {}
    for path in sorted((top / "crates").glob("*/src/**/*.rt")):
        crate = path.relative_to(top / "crates").parts[0]
        for said, text in clauses_of(crate, path.read_text(encoding="utf-8")):
            found.setdefault(said, []).append(text)
    for path in sorted((top / "crates").glob("*/specs/**/*.antt")):
        crate = path.relative_to(top / "crates").parts[0]
        for said, text in definitions_of(crate, path.read_text(encoding="utf-8")):
            found.setdefault(said, []).append(text)
    return found


def said_at(commit: str) -> dict[Said, list[str]]:
    """The same at a commit."""
    packed = subprocess.run(["git", "archive", commit, "crates"], cwd=TOP, capture_output=True,
                            check=True).stdout
    with tempfile.TemporaryDirectory() as room:
        with tarfile.open(fileobj=io.BytesIO(packed)) as files:
            files.extractall(room)
        return said_below(Path(room))


def changes(commit: str) -> Iterator[str]:
    """A line for each clause and definition that changed or went, with both texts."""
    was, now = said_at(commit), said_below(TOP)
    for said in sorted(was):
        if said in now and sorted(was[said]) == sorted(now[said]):
            continue
        crate, kind, name = said
        yield f"{crate}: {kind} {name} {'changed' if said in now else 'went'}"
        kept = list(now.get(said, []))
        for text in was[said]:
            if text in kept:
                kept.remove(text)
            else:
                yield f"  was {text}"
        yield from (f"  is  {text}" for text in kept if text not in was[said])
    new = sum(said not in was for said in now)
    yield f"{new} clauses and definitions are new"
