"""All documents that are written by hand: the files, clauses and fields that they name."""
from __future__ import annotations

import os
import re
from collections import defaultdict
from typing import Iterator

from crate_code import TOP, Function, Sources, files_below, has_file, text_of
from held.map import PAGE as MAP

FILE = re.compile(r"`(?:crates/)?(\w+/(?:src|specs|proofs|must-fail)/[\w/.+-]+\.\w+)`")
OWNED = re.compile(r"`(\w+)` of (?:the (?:call|clause|record|trait) )?`([\w:]+)`")
# A name of three words or more: of a test, a lemma, an edit; no short word of a command is one.
LONG_NAME = re.compile(r"`([a-z0-9]+(?:_[a-z0-9]+){2,})`")
# The headings of scenarios that a document cites, in quotes within brackets.
CITED = re.compile(r"\((\"[^()\"]+\"(?:, \"[^()\"]+\")*)\)")
SCENARIOS = "crates/scenarios/stdin"
# Where a name of ours stands.
SOURCES = (("crates", (".rt", ".antt", ".edit", "stdin")), ("tools", ("",)), ("bench", ("",)))
# Names of others.
FOREIGN = {"rbd_cache_writethrough_until_flush"}


def documents() -> list[str]:
    """The documents that are written by hand."""
    names = sorted(f"docs/{it}" for it in os.listdir(TOP / "docs") if it.endswith(".md"))
    return ["README.md", *(it for it in names if it != MAP)]


def faults_of_paths() -> Iterator[str]:
    """The files of crates that a document names and that aren't there."""
    for path in documents():
        for name in FILE.findall(text_of(path)):
            if not has_file(f"crates/{name}"):
                yield f"{path}: there is no crates/{name}"


def faults_of_names() -> Iterator[str]:
    """The long names that stand nowhere, and the headings of scenarios that aren't there."""
    known = set(FOREIGN)
    for folder, endings in SOURCES:
        for path in files_below(folder, ""):
            if path.endswith(endings):
                known.update(re.findall(r"\w+", text_of_any(path)), re.findall(r"\w+", path))
    headings = [it[2:] for it in text_of_any(SCENARIOS).split("\n") if it.startswith("= ")]
    for path in documents():
        text = text_of(path)
        for name in sorted(set(LONG_NAME.findall(text)) - known):
            yield f"{path}: `{name}` stands nowhere"
        if "scenarios" not in text.lower():
            continue
        for cited in CITED.findall(text):
            for heading in re.findall(r"\"([^\"]+)\"", cited):
                if not any(it.startswith(heading.rstrip(".")) for it in headings):
                    yield f"{path}: no scenarios have the heading \"{heading}\""


def text_of_any(path: str) -> str:
    """The text of a file that may not be there, or not be a text."""
    try:
        return (TOP / path).read_text(encoding="utf-8", errors="replace")
    except OSError:
        return ""


def faults_of_sentences(sources: Sources) -> Iterator[str]:
    """The clauses and fields that aren't there: `x` of `y`, the clause `x`, the field `x`."""
    by_name: dict[str, list[Function]] = defaultdict(list)
    for it in sources.all_functions():
        by_name[it.name].append(it)
        by_name[it.full()].append(it)
    clauses = {clause for it in sources.all_functions() for clause in (*it.clauses, *it.ghosts)}
    fields = set[str]().union(*sources.fields.values())
    for path in documents():
        text = text_of(path)
        for name, owner in OWNED.findall(text):
            parts = sources.fields.get(owner, set()) | sources.members.get(owner, set())
            is_known = owner in by_name or bool(parts) or owner in clauses
            has_it = name in parts or any(it.promises(name) for it in by_name.get(owner, ()))
            if is_known and not has_it and owner not in sources.crates:
                yield f"{path}: `{name}` of `{owner}` is neither a clause nor a field"
        for kind, name in re.findall(r"\bthe (clause|field) `(\w+)`", text):
            if name not in (clauses if kind == "clause" else fields):
                yield f"{path}: there is no {kind} `{name}`"
