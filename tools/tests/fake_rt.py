#!/usr/bin/env python3
"""Stands for the kit's command `rt` in tests of the launcher: it proves nothing, and does at once
what the launcher asks for.

It notes each call in the file `calls` beside it. Files beside it say how it behaves: `fails` has
the name of a crate whose proof fails, `waits` one at which a build waits until it is stopped,
`tries` the lines that `rt try` says behind what the program says, `status` the status of a program
that is tried, and `builds` the program that comes of a build.
"""
from __future__ import annotations

import os
import shutil
import subprocess
import sys
import tempfile
import time
from pathlib import Path

HERE = Path(__file__).resolve().parent
TOP = next(it for it in (Path.cwd(), *Path.cwd().parents) if (it / "crates.txt").is_file())
SAID = "checked: ended status={0}\nrun=ended status={0} runners=1 proved=no\n"
PROGRAM = """#!/bin/sh
[ $# = 0 ] && { echo "exsm: status 2 usage" >&2; exit 2; }
echo "ran $*"
"""
# What the program that is tried does with its volume and its input, and its status.
TRIED = """
import os, sys
volume = sys.argv[-1]
held = open(volume, "rb+").read() if os.path.isfile(volume) else b"none"
words = " ".join(sys.argv[1:]).encode()
sys.stdout.buffer.write(words + b"|" + held[:9] + b"|" + sys.stdin.buffer.read())
sys.stderr.write("exsm: said\\n")
sys.exit(int(os.environ["STATUS"]))
"""


def text_of(name: str) -> str:
    """The text of a file beside this one, nothing where it isn't there."""
    file = HERE / name
    return file.read_text(encoding="utf-8").strip("\n") if file.is_file() else ""


def rows() -> dict[str, list[str]]:
    """The crates of the checkout, each with those that it names."""
    lines = (TOP / "crates.txt").read_text(encoding="utf-8").splitlines()
    return {line.split(":")[0]: line.split(":")[1].split() for line in lines}


def prove_all() -> int:
    """Does what `rt all check` does."""
    failed: list[str] = []
    (HERE.parent.parent / "rattle-kept").mkdir(exist_ok=True)
    for name, below in rows().items():
        library = TOP / "crates" / name / "out" / "rlib" / "stamp"
        if name == text_of("waits"):
            (HERE / "waiting").touch()
            time.sleep(600)
        if any(it in failed for it in below):
            failed.append(name)
        elif name == text_of("fails"):
            failed.append(name)
            print(f"== {name}\nsrc/lib.rt:3:1: error: this does not follow\nlogic=not-proved",
                  flush=True)
        else:
            is_kept = library.is_file()
            library.parent.mkdir(parents=True, exist_ok=True)
            library.touch()
            print(f"== {name}" + ("" if is_kept else "\nlogic=proved functions=1"), flush=True)
    print("== summary")
    for name in rows():
        is_cause = name == text_of("fails")
        why = "failed (1)" if is_cause else f"not run, since {text_of('fails')} failed"
        print(f"{name}: {why if name in failed else 'ok'}")
    return 1 if failed else 0


def build() -> int:
    """Does what `rt run` does."""
    program = TOP / "crates" / "exsm" / "out" / "exsm"
    program.parent.mkdir(parents=True, exist_ok=True)
    if text_of("builds"):
        shutil.copyfile(text_of("builds"), program)
    else:
        program.write_text(PROGRAM, encoding="utf-8")
    program.chmod(0o755)
    print("exsm: status 2 usage")
    return 2


def gate() -> int:
    """Does what `rt ci` does."""
    if text_of("fails"):
        print("0 passed, 1 failed")
        return 1
    os.chdir(TOP / "crates" / "exsm")
    build()
    print("4 passed, 0 failed")
    return 0


def try_unproved(words: list[str]) -> int:
    """Does what `rt try` does: a program in a folder of its own, with copies of files."""
    place = words.index("--")
    flags, called = words[:place], words[place + 1:]
    with tempfile.TemporaryDirectory() as folder:
        for flag, value in zip(flags[::2], flags[1::2]):
            if flag == "--data":
                name, _, file = value.partition("=")
                to = Path(folder, name)
                to.parent.mkdir(parents=True, exist_ok=True)
                shutil.copyfile(file, to)
        status = subprocess.call([
            sys.executable, "-c", TRIED, *called], cwd=folder,
            env={**os.environ, "STATUS": text_of("status") or "7"})
    sys.stderr.write(text_of("tries") + "\n" if text_of("tries") else SAID.format(status))
    return status


def main(words: list[str]) -> int:
    """Does what a call asks for."""
    with open(HERE / "calls", "a", encoding="utf-8") as calls:
        print(" ".join(words), file=calls)
    if words[:2] == ["all", "check"]:
        return prove_all()
    if words == ["run"]:
        return build()
    if words == ["ci"]:
        return gate()
    if words[:1] == ["try"]:
        return try_unproved(words[1:])
    print(f"fake rt: {words}", file=sys.stderr)
    return 2


if __name__ == "__main__":
    sys.exit(main(sys.argv[1:]))
