"""TOUR: the functions in its rows, and how many files the ways through its sections pass."""
from __future__ import annotations

from collections import defaultdict
from typing import Iterator

from crate_code import Sources, text_of
from held.tables import cells_of, path_and_names

PAGE = "docs/TOUR.md"


def faults_of_rows(sources: Sources) -> Iterator[str]:
    """What rows name that isn't there. Their last two columns are a file and functions of it."""
    for line in text_of(PAGE).split("\n"):
        path, names = path_and_names(line, "rt")
        inside = [it for it in sources.all_functions() if it.path == f"crates/{path}"]
        for name in names:
            if not any(name in (it.name, it.full()) for it in inside):
                yield f"{PAGE}: there is no `{name}` in crates/{path}"


def faults_of_ways() -> Iterator[str]:
    """The ways whose number of files isn't that of the files in the sections that they name."""
    section, files = "", defaultdict[str, set[str]](set)
    for line in text_of(PAGE).split("\n"):
        section = line.lstrip("# ") if line.startswith("#") else section
        cells, path = cells_of(line, "|"), path_and_names(line, "rt")[0]
        if path:
            files[section].add(path)
        elif len(cells) == 4 and cells[2].isdigit():
            sections = cells[1].split(", ")
            yield from (f"{PAGE}: there is no section `{it}`" for it in sections
                        if it not in files)
            number = len(set[str]().union(*(files[it] for it in sections)))
            if number != int(cells[2]):
                yield f"{PAGE}: {cells[0]} passes {number} files, not {cells[2]}"
