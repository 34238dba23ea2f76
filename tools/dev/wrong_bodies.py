#!/usr/bin/env python3
"""Tries wrong bodies by the functions that they change alone, and tells which goals refuse them.

An EDIT is a file in the form of a must-fail edit, in a folder that has its crate's name, or in
crates/CRATE/must-fail/. A copy of the crate and of those below it is made in a folder, with the
libraries that `rt check` built of them here. There the functions that the edits change are checked
as they are, so that what refuses an edit is the edit, and then with each of the edits. That takes
less than a check of the whole crate, as tools/try_edits makes it, and gives no verdict: an edit
isn't refused where all goals of its functions hold, since callers see their clauses alone. Where a
proof file names a step or a goal that has another name with the edit, the copy's file gets that
name, and the check is made again. The status is 1 where an edit isn't refused, or wasn't tried.
"""
from __future__ import annotations

import argparse
import re
import shutil
import subprocess
import sys
import tempfile
import time
from pathlib import Path
from typing import NamedTuple, Optional

sys.dont_write_bytecode = True

from crate_code import TOP, read_functions, with_below  # noqa: E402

PARTS = ("src", "specs", "proofs")
# How often proof files get the names that steps have since an edit.
RENAMES_MOST = 4
# What is told of a proof file where the edit took a name away, and not a fact.
NAMES = re.compile(r"has no field|is not in scope|has no `|was not admitted|is no name")


class BadEdit(Exception):
    """An edit can't be applied: its message says why."""


class Change(NamedTuple):
    """A text of a file, and what stands in its place."""

    path: str
    old: str
    new: str


class Edit(NamedTuple):
    """A wrong body: what it changes, and the functions that it changes, as a check names them."""

    crate: str
    name: str
    changes: list[Change]
    functions: list[str]

    def has(self, function: str, goal: str) -> bool:
        """Whether a goal is of a function that it changes: one of its own, or of its cycle."""
        module, _, last = function.rpartition("::")
        if not last.startswith("+"):
            return function in self.functions
        names = [it.split("::")[-1] for it in self.functions if it.startswith(f"{module}::")]
        return any(last == f"+{it}" or goal.startswith(f"{it}-") for it in names)


class Open(NamedTuple):
    """What a check doesn't accept: of which function, which goal, and whether only as a name is
    gone."""

    function: str
    goal: str
    is_name: bool


class Renamed(NamedTuple):
    """A step or a goal that a proof file names, and what it is called with the edit."""

    path: str
    old: str
    new: str


class Told(NamedTuple):
    """What a check told: what is open, what has other names, and what stopped it before its
    end."""

    open: list[Open]
    renamed: list[Renamed]
    stopped: str


def text_in(crate: str, path: str) -> str:
    """The text of a file of a crate."""
    file = TOP / "crates" / crate / path
    if not file.is_file():
        raise BadEdit(f"there is no file {path}")
    return file.read_text(encoding="utf-8")


def edited(text: str, change: Change) -> str:
    """A text with a change."""
    count = text.count(change.old)
    if count != 1:
        raise BadEdit(f"an old text stands in {change.path} {count} times")
    return text.replace(change.old, change.new)


def function_at(crate: str, path: str, line: int) -> str:
    """The function that a line is in, as a check names it, or else the module."""
    module = re.sub(r"^src/|(^|/)(lib|main|mod)\.rt$|\.rt$", "", path).replace("/", "::")
    names = [it for it in read_functions(crate, f"crates/{crate}/{path}")
             if it.line <= line <= it.end]
    if not names:
        return module
    last = names[-1]
    owner = f"{last.owner}+{last.of_trait}" if last.of_trait else last.owner
    return "::".join(it for it in (module, owner, last.name) if it)


def read_edit(file: Path) -> Edit:
    """The edit that a file says."""
    folder = file.resolve().parent
    crate = (folder.parent if folder.name == "must-fail" else folder).name
    path = old = ""
    changes: list[Change] = []
    for line in file.read_text(encoding="utf-8").split("\n"):
        if line.startswith("file: "):
            path = line.removeprefix("file: ").strip()
        elif line.startswith("old: "):
            old = line.removeprefix("old: ")
        elif line.startswith("new:"):
            changes.append(Change(path, old, line.removeprefix("new:").removeprefix(" ")))
    functions: list[str] = []
    for change in changes:
        text = text_in(crate, change.path)
        edited(text, change)
        at = text[:text.index(change.old)].count("\n") + 1
        functions += [function_at(crate, change.path, at)] if change.path.endswith(".rt") else []
    if not functions:
        raise BadEdit("it changes no code")
    return Edit(crate, file.stem, changes, functions)


class Copy(NamedTuple):
    """A copy of a crate, and how it is checked there."""

    crate: str
    room: Path
    command: list[str]
    seconds: float
    logs: Optional[Path]

    def folder(self) -> Path:
        """Where the copy stands."""
        return self.room / "crates" / self.crate

    def make(self) -> None:
        """Makes the top of a repository that has the crate and those below it, with what was built
        of these."""
        for name in with_below(self.crate):
            source, copy = TOP / "crates" / name, self.room / "crates" / name
            for part in PARTS:
                shutil.rmtree(copy / part, ignore_errors=True)
                if (source / part).is_dir():
                    shutil.copytree(source / part, copy / part)
            if name != self.crate and (source / "out" / "rlib").is_dir():
                shutil.copytree(source / "out" / "rlib", copy / "out" / "rlib", dirs_exist_ok=True)
        for name in ("crates.txt", "HANDLES"):
            shutil.copy(TOP / name, self.room / name)

    def put(self, edit: Edit) -> None:
        """Writes the files that an edit changes, with it."""
        texts = {it.path: text_in(self.crate, it.path) for it in edit.changes}
        for it in edit.changes:
            texts[it.path] = edited(texts[it.path], it)
        for path, text in texts.items():
            (self.folder() / path).write_text(text, encoding="utf-8")

    def rename(self, renamed: list[Renamed]) -> None:
        """Writes the names that steps and goals have now into the proof files."""
        for it in renamed:
            file = self.folder() / it.path
            text = file.read_text(encoding="utf-8")
            text = re.sub(rf"(?<![\w-]){re.escape(it.old)}(?![\w-])", it.new, text)
            # A goal's name has the condition of a branch in it.
            if it.old.startswith("if-") and it.new.startswith("if-"):
                text = text.replace(it.old.removeprefix("if-"), it.new.removeprefix("if-"))
            file.write_text(text, encoding="utf-8")

    def path_of(self, path: str) -> str:
        """The path in the crate that a check names."""
        return re.sub(rf"^(\./|.*/crates/{self.crate}/)", "", path)

    def open_in(self, said: str) -> list[Open]:
        """What a complaint of a check says isn't accepted."""
        at = re.match(r"(?:note: )?(\S+?):(\d+):\d+: (.*)", said)
        if not at:
            return []
        path = self.path_of(at[1])
        if path.startswith("src/") and "it is not proved" in at[3]:
            function = function_at(self.crate, path, int(at[2]))
            return [Open(function, goal, False) for goal in re.findall(r"\(`([^`]+)`\)", at[3])]
        is_name = bool(NAMES.search(at[3]))
        if path.startswith("proofs/") and (is_name or at[3].startswith("error")):
            function = "::".join(path.split("/")[1:-1])
            goal = re.match(r"error: `([^`]+)`", at[3])
            return [Open(function, goal[1] if goal else f"line {at[2]}", is_name)]
        return []

    def renamed_in(self, said: str, found: list[Open]) -> list[Renamed]:
        """The step, or the goal of the same clause, that a complaint says has another name."""
        at = re.match(r"(\S+?):\d+:\d+: .*\(nearest: \.([\w-]+).* has no field `([^`]+)`", said)
        if at:
            return [Renamed(self.path_of(at[1]), at[3], at[2])]
        at = re.match(r"(\S+?):\d+:\d+: .*`goal\.([^`]+)`: module \S+ has no `\2`", said)
        if not at or "-clause-" not in at[2]:
            return []
        clause = at[2].rpartition("-clause-")[2]
        likely = [it.goal for it in found if not it.is_name
                  and it.goal.rpartition("-clause-")[2] == clause
                  and it.goal.split("-")[:2] == at[2].split("-")[:2]]
        return [Renamed(self.path_of(at[1]), at[2], likely[0])] if len(likely) == 1 else []

    def check(self, functions: list[str], label: str) -> Told:
        """Checks functions of the copy."""
        words = [it.format(crate=self.crate, top=self.room) for it in self.command]
        words += [it for name in functions for it in ("--only", name)] + ["--allow-holes"]
        try:
            ran = subprocess.run(words, cwd=self.folder(), check=False, stdin=subprocess.DEVNULL,
                                 stdout=subprocess.PIPE, stderr=subprocess.STDOUT,
                                 errors="replace", timeout=self.seconds)
        except subprocess.TimeoutExpired:
            return Told([], [], f"no end after {self.seconds:.0f} s")
        if self.logs:
            (self.logs / f"{self.crate}-{label}.log").write_text(ran.stdout, encoding="utf-8")
        # A complaint goes on in lines that stand further in.
        lines = re.sub(r"\n +", " ", ran.stdout).split("\n")
        found = list(dict.fromkeys(it for line in lines for it in self.open_in(line)))
        renamed = list(dict.fromkeys(it for line in lines for it in self.renamed_in(line, found)))
        if not re.search(r"^only=\d+ holes=\d+$", ran.stdout, re.M):
            said = [it for it in lines if re.search(r"\berror(\[[\w-]+\])?:", it)] or lines[-2:]
            return Told([], [], said[0].strip() or "the check told nothing")
        if ran.returncode and not found:
            return Told([], [], f"its status is {ran.returncode}, and no goal is open")
        return Told(found, renamed, "")

    def check_renamed(self, functions: list[str], label: str) -> Told:
        """Checks functions, and again as long as what proofs name has other names."""
        told, tries = self.check(functions, label), 0
        while told.renamed and tries < RENAMES_MOST:
            tries += 1
            self.rename(told.renamed)
            told = self.check(functions, f"{label}-{tries}")
        return told


def verdict(edit: Edit, told: Told) -> tuple[bool, str]:
    """Whether an edit is refused, and what is told of it."""
    if told.stopped:
        return False, f"not tried: {told.stopped}"
    own = [it for it in told.open if edit.has(it.function, it.goal)]
    goals = list(dict.fromkeys(it.goal for it in own if not it.is_name))
    if goals:
        return True, f"refused by {', '.join(goals)}"
    if own:
        return False, "refused only as a proof names what it took away: " + ", ".join(
            dict.fromkeys(it.goal for it in own))
    others = [f"{it.function}: {it.goal}" for it in told.open]
    return False, " beside ".join(["not refused", *others[:3]])


def tell(crate: str, name: str, functions: list[str], what: str, began: float) -> None:
    """Writes a line of what came of an edit."""
    fields = [crate, name, ", ".join(functions), what, f"{time.monotonic() - began:.0f} s"]
    print("\t".join(fields), flush=True)


def try_edit(copy: Copy, edit: Edit) -> bool:
    """Tries an edit, and tells whether it is refused."""
    began = time.monotonic()
    copy.put(edit)
    try:
        told = copy.check_renamed(edit.functions, edit.name)
    finally:
        copy.make()
    is_refused, what = verdict(edit, told)
    tell(edit.crate, edit.name, edit.functions, what, began)
    return is_refused


def try_crate(copy: Copy, edits: list[Edit], skips_whole: bool) -> bool:
    """Tries the edits of a crate, and tells whether all are refused."""
    copy.make()
    began = time.monotonic()
    functions = list(dict.fromkeys(it for edit in edits for it in edit.functions))
    told = Told([], [], "") if skips_whole else copy.check(functions, "whole")
    if told.stopped or told.open:
        what = told.stopped or ", ".join(f"{it.function}: {it.goal}" for it in told.open)
        tell(copy.crate, "as it is", functions, f"not proved: {what}", began)
        return False
    return all([try_edit(copy, edit) for edit in edits])


def read_edits(files: list[Path]) -> tuple[dict[str, list[Edit]], bool]:
    """The edits by crate, and whether each can be applied."""
    found: dict[str, list[Edit]] = {}
    is_good = True
    for file in files:
        try:
            edit = read_edit(file)
            found.setdefault(edit.crate, []).append(edit)
        except (BadEdit, OSError) as why:
            tell(file.resolve().parent.name, file.stem, [], f"bad edit: {why}", time.monotonic())
            is_good = False
    return found, is_good


def main(words: list[str]) -> int:
    """Tries the edits that the words name, and gives the exit status."""
    parser = argparse.ArgumentParser(prog="wrong_bodies", description=__doc__,
                                     formatter_class=argparse.RawDescriptionHelpFormatter)
    parser.add_argument("edits", metavar="EDIT", nargs="+", type=Path, help="the file of an edit")
    parser.add_argument("--check", metavar="WORDS", default="rt check",
                        help="what checks a crate in its folder, with {crate} and {top} for its "
                             "name and the copy's top (default: %(default)s)")
    parser.add_argument("--room", metavar="FOLDER", type=Path,
                        help="where the copies are made and stay (default: one that goes)")
    parser.add_argument("--logs", metavar="FOLDER", type=Path,
                        help="where what each check told is kept")
    parser.add_argument("--seconds", metavar="N", type=float, default=3600,
                        help="how long a check may take (default: %(default)s)")
    parser.add_argument("--skip-whole", action="store_true",
                        help="don't check the functions as they are")
    asked = parser.parse_args(words)
    by_crate, is_refused = read_edits(asked.edits)
    with tempfile.TemporaryDirectory(prefix="exsm-bodies-") as other:
        room = (asked.room or Path(other)).resolve()
        room.mkdir(parents=True, exist_ok=True)
        for name, edits in by_crate.items():
            copy = Copy(name, room, asked.check.split(), asked.seconds, asked.logs)
            is_refused = try_crate(copy, edits, asked.skip_whole) and is_refused
    return 0 if is_refused else 1


if __name__ == "__main__":
    sys.exit(main(sys.argv[1:]))
