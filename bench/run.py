#!/usr/bin/env python3
"""Times a part of exsm by a small program in Rattle, proved, built and run in a copy of crates.

    bench/run.py NAME                  runs the program bench/programs/NAME
    bench/run.py NAME --make FOLDER    makes the copy in FOLDER, prints its files, and runs nothing

The copy has the program's crate and all crates that it stands on, as crates.txt names them, and
it is removed after the run. A program's folder has `program.ini`, which says what it times, the
name of its crate, the crates below it, which of the lines that come are told (all, where it
doesn't say), and the proofs that it takes from other crates, under the name that they get. Its
files stand as in a crate, with `.txt` behind their names, since no `.rt` or `.antt` file stands
outside of a crate. `edits/CRATE/` has edits of the copy of a crate, in the form of must-fail
edits; a `new:` for each line.
"""
from __future__ import annotations

import argparse
import configparser
import re
import shutil
import subprocess
import sys
import tempfile
from pathlib import Path
from typing import Iterator, NamedTuple

TOP = Path(__file__).resolve().parent.parent
PROGRAMS = TOP / "bench" / "programs"
ENDING = ".txt"
# What a build leaves, and what only a gate reads.
LEFT_OUT = shutil.ignore_patterns("out", "must-fail")


class Refused(Exception):
    """A program that can't be made of the crates as they are."""


class Program(NamedTuple):
    """A program as its folder says it."""

    folder: Path
    about: str
    crate: str
    below: list[str]
    told: re.Pattern[str] | None
    # The proofs that it takes from other crates, by the names that they get.
    taken: dict[str, str]


def names() -> list[str]:
    """The programs that are there."""
    return sorted(it.parent.name for it in PROGRAMS.glob("*/program.ini"))


def program(name: str) -> Program:
    """Reads what a program's folder says."""
    parser = configparser.ConfigParser(interpolation=None, delimiters=("=",))
    parser.optionxform = str  # type: ignore[assignment,method-assign]
    parser.read(PROGRAMS / name / "program.ini", encoding="utf-8")
    said = parser["program"]
    told = re.compile(said["told"]) if "told" in said else None
    taken = dict(parser["taken"]) if parser.has_section("taken") else {}
    return Program(PROGRAMS / name, said["about"].strip(), said["crate"], said["below"].split(),
                   told, taken)


def lines_of_crates() -> dict[str, str]:
    """The lines of crates.txt, by crate, in their order."""
    lines = (TOP / "crates.txt").read_text(encoding="utf-8").splitlines()
    return {it.split(":")[0]: it for it in lines if ":" in it and not it.startswith("#")}


def crates_below(made: Program) -> list[str]:
    """All crates that a program stands on, the lowest first."""
    lines = lines_of_crates()
    found, left = set(), list(made.below)
    while left:
        name = left.pop()
        if name not in lines:
            raise Refused(f"crates.txt names no crate {name}")
        if name not in found:
            found.add(name)
            left += [it for it in lines[name].split(":")[1].split() if it in lines]
    return [it for it in lines if it in found]


def module_of(path: str) -> str:
    """The module in which a file of proofs stands, as proofs name it."""
    return "Rattle." + ".".join(Path(path).parent.parts)


def take(made: Program, folder: Path) -> None:
    """Copies the proofs of other crates, under the program's own modules."""
    for name, of in made.taken.items():
        source = TOP / "crates" / of
        if not source.is_file():
            raise Refused(f"there is no crates/{of}, which {made.folder.name} takes")
        text = source.read_text(encoding="utf-8")
        place = folder / name
        place.parent.mkdir(parents=True, exist_ok=True)
        own = module_of(f"{made.crate}/{name}")
        place.write_text(text.replace(module_of(of), own), encoding="utf-8")


def edit(path: Path, crate: Path) -> None:
    """Makes an edit of the copy of a crate."""
    parts: dict[str, list[str]] = {"file": [], "old": [], "new": []}
    for line in path.read_text(encoding="utf-8").splitlines():
        word, _, text = line.partition(": ")
        parts[word].append(text)
    file = crate / parts["file"][0]
    old, new = ("\n".join(parts[it]) for it in ("old", "new"))
    text = file.read_text(encoding="utf-8") if file.is_file() else ""
    if text.count(old) != 1:
        raise Refused(f"the old text of {path.relative_to(TOP)} doesn't stand once in its file")
    file.write_text(text.replace(old, new), encoding="utf-8")


def make(made: Program, top: Path) -> Path:
    """Makes the copy in a folder, and gives that of the program's crate."""
    lines, below = lines_of_crates(), crates_below(made)
    for name in below:
        shutil.copytree(TOP / "crates" / name, top / "crates" / name, ignore=LEFT_OUT)
    for path in sorted(made.folder.glob("edits/*/*.edit")):
        edit(path, top / "crates" / path.parent.name)
    folder = top / "crates" / made.crate
    for source in sorted(made.folder.rglob(f"*{ENDING}")):
        place = folder / source.relative_to(made.folder).with_suffix("")
        place.parent.mkdir(parents=True, exist_ok=True)
        shutil.copyfile(source, place)
    take(made, folder)
    shutil.copyfile(TOP / "HANDLES", top / "HANDLES")
    own = f"{made.crate}: {' '.join(made.below)}"
    text = "".join(f"{it}\n" for it in [*(lines[name] for name in below), own])
    (top / "crates.txt").write_text(text, encoding="utf-8")
    return folder


def told_lines(made: Program, out: str) -> Iterator[str]:
    """The lines of a run that are told."""
    return (it for it in out.splitlines() if made.told is None or made.told.search(it))


def run(made: Program) -> int:
    """Makes the copy, runs the program there, and gives its status."""
    with tempfile.TemporaryDirectory(prefix="exsm-bench-") as room:
        folder = make(made, Path(room))
        if made.told is None:
            return subprocess.run(["rt", "run"], cwd=folder, check=False).returncode
        ran = subprocess.run(["rt", "run"], cwd=folder, stdout=subprocess.PIPE,
                             stderr=subprocess.STDOUT, text=True, check=False)
        lines = list(told_lines(made, ran.stdout))
        print("\n".join(lines or ran.stdout.splitlines()))
        return ran.returncode or (0 if lines else 1)


def show(made: Program, top: Path) -> int:
    """Makes the copy, and prints which crates it has and the files of the program's own."""
    top.mkdir(parents=True)
    folder = make(made, top)
    print((top / "crates.txt").read_text(encoding="utf-8"), end="")
    for path in sorted(it for it in folder.rglob("*") if it.is_file()):
        print(path.relative_to(top))
    return 0


def main() -> int:
    """Runs or shows a program, and gives the exit status."""
    parser = argparse.ArgumentParser(
        description=__doc__, formatter_class=argparse.RawDescriptionHelpFormatter,
        epilog="\n".join(f"{it}: {' '.join(program(it).about.split())}" for it in names()))
    parser.add_argument("name", metavar="NAME", choices=names(), help="one of those below")
    parser.add_argument("--make", metavar="FOLDER", type=Path, help="a folder that isn't there yet")
    words = parser.parse_args()
    if words.make and words.make.exists():
        parser.error(f"{words.make} is there")
    try:
        return show(program(words.name), words.make) if words.make else run(program(words.name))
    except Refused as fault:
        print(f"run.py: {fault}", file=sys.stderr)
        return 1


if __name__ == "__main__":
    sys.exit(main())
