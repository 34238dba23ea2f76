#!/usr/bin/env python3
"""Writes the manual pages of the tools, docs/man/exsm_NAME.py.1, from what each tells by --help.

    tools/dev/manuals.py            writes them
    tools/dev/manuals.py --check    writes nothing; status 1 where a page is old, or is no tool's
"""
from __future__ import annotations

import os
import re
import subprocess
import sys
from pathlib import Path
from typing import Iterator

sys.dont_write_bytecode = True

from words import parser_of  # noqa: E402

TOP = Path(__file__).resolve().parent.parent.parent
PAGES = TOP / "docs" / "man"
COLUMNS = "78"
PARTS = {"positional arguments:": "WORDS", "options:": "OPTIONS", "optional arguments:": "OPTIONS"}
"""The heads of argparse's lists, and those of a manual page."""


def told(tool: Path, *words: str) -> list[str]:
    """The lines that a tool tells by --help, or one of its commands."""
    ran = subprocess.run([sys.executable, tool, *words, "--help"], capture_output=True, text=True,
                         env={**os.environ, "COLUMNS": COLUMNS}, check=True)
    return ran.stdout.splitlines()


def commands_of(lines: list[str]) -> list[str]:
    """The commands of a tool, where it has some: they stand below COMMAND, further in."""
    return [found[1] for line in lines if (found := re.match(r" {4}(\w+)(?: {2,}|$)", line))]


def spelled(line: str) -> str:
    """A line of text for a manual page."""
    line = line.replace("\\", "\\e").replace("-", "\\-")
    return f"\\&{line}" if line[:1] in (".", "'") else line


def parts_of(lines: list[str]) -> Iterator[tuple[str, list[str]]]:
    """The usage, the text and the lists of what was told, each with its head."""
    head, part = "SYNOPSIS", []
    for line in lines:
        if line in PARTS or head == "SYNOPSIS" and not line:
            yield head, part
            head, part = PARTS.get(line, "DESCRIPTION"), []
        else:
            part.append(line)
    yield head, part


def as_it_stands(lines: list[str]) -> list[str]:
    """Lines that keep their ends and their blanks."""
    return [".nf", *(spelled(line) for line in lines), ".fi"]


def paragraphs(lines: list[str]) -> list[str]:
    """Lines of text, a paragraph behind each blank one."""
    text = "\n".join(lines).strip("\n").split("\n\n")
    rows: list[str] = []
    for paragraph in text:
        rows += [".PP", *(spelled(line) for line in paragraph.split("\n"))]
    return rows


def section(head: str, lines: list[str]) -> list[str]:
    """A section of a page; none where nothing stands in it."""
    while lines and not lines[-1]:
        lines = lines[:-1]
    if not lines:
        return []
    is_text = head == "DESCRIPTION"
    body = paragraphs(lines) if is_text else as_it_stands([line[2:] if line.startswith("  ")
                                                           else line for line in lines])
    return [f".SH {head}", *body]


def page_of(tool: Path) -> str:
    """The manual page of a tool."""
    lines = told(tool)
    version = (TOP / "VERSION").read_text(encoding="utf-8").strip()
    about = next(line for head, part in parts_of(lines) if head == "DESCRIPTION" for line in part)
    about = re.sub(r"(?:, .*|: .*|\. .*|\.)$", "", about)
    rows = [f'.TH {tool.name.upper()} 1 "" "exsm {version}"', ".SH NAME",
            f"{tool.name} \\- {spelled(about[:1].lower() + about[1:])}"]
    for head, part in parts_of(lines):
        rows += section(head, part)
    for command in commands_of(lines):
        rows += [f".SH {command.upper()}", *as_it_stands(told(tool, "VOLUME", command))]
    return "\n".join([*rows, ".SH SEE ALSO", ".BR exsm (1)"]) + "\n"


def main() -> int:
    """Writes or checks the pages, and gives the exit status."""
    parser = parser_of(__doc__)
    parser.add_argument("--check", action="store_true")
    check = parser.parse_args().check
    pages = {f"{tool.name}.1": page_of(tool)
             for tool in sorted((TOP / "tools").glob("exsm_*.py"))}
    PAGES.mkdir(exist_ok=True)
    there = {path.name: path.read_text(encoding="utf-8") for path in PAGES.glob("*.1")}
    faults = [name for name in sorted({*pages, *there}) if pages.get(name) != there.get(name)]
    for name in faults:
        if check:
            print(f"docs/man/{name} is old: run tools/dev/manuals.py")
        elif name in pages:
            (PAGES / name).write_text(pages[name], encoding="utf-8")
        else:
            (PAGES / name).unlink()
    return 1 if check and faults else 0


if __name__ == "__main__":
    sys.exit(main())
