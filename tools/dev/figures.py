#!/usr/bin/env python3
"""Runs a bench and puts what it tells between the marks that name it in docs/SPEED.md.

As in `tools/dev/figures.py bench/scan.py crates/exsm/out/exsm`, or in
`tools/dev/figures.py bench/run.py release`, whose mark names the program too. What stood there
goes. Above the lines stand the words of the call, the day, the processors, and the commit.
"""
from __future__ import annotations

import argparse
import os
import subprocess
import sys
import time
from pathlib import Path

sys.dont_write_bytecode = True

from marks import Marks, NoMarks  # noqa: E402
from words import parser_of  # noqa: E402

TOP = Path(__file__).resolve().parent.parent.parent
PAGE = TOP / "docs" / "SPEED.md"


def marks_of(bench: str) -> Marks:
    """The marks of a bench's figures."""
    return Marks(f"<!-- figures of {bench} -->", "<!-- end of figures -->")


def marked(page: str, bench: str, words: list[str]) -> Marks:
    """The marks of a call: those that name the bench with its first word, or the bench alone."""
    with_word = marks_of(" ".join([bench, *words[:1]]))
    return with_word if with_word.begin in page else marks_of(bench)


def about(call: str) -> str:
    """What was called, when, on how many processors, and of which commit."""
    commit = subprocess.run(["git", "-C", str(TOP), "rev-parse", "--short", "HEAD"],
                            capture_output=True, text=True, check=False).stdout.strip()
    day = time.strftime("%-d %B %Y", time.gmtime())
    processors = len(os.sched_getaffinity(0))
    return f"`{call}`, {day}, {processors} processors, commit {commit or 'none'}:"


def as_told(text: str) -> str:
    """What a bench tells: tables as they are, and all else as lines that keep their ends."""
    return text if text.startswith("| ") else f"```\n{text}\n```"


def write_figures(bench: str, words: list[str]) -> int:
    """Runs the bench, writes what it tells, and gives its status where it fails."""
    page = PAGE.read_text(encoding="utf-8")
    marks = marked(page, bench, words)
    marks.replaced(page, "")
    runner = [sys.executable] if bench.endswith(".py") else ["bash"]
    ran = subprocess.run([*runner, str(TOP / bench), *words], stdout=subprocess.PIPE, text=True,
                         check=False)
    if ran.returncode or not ran.stdout.strip():
        print(f"figures: {bench} ended with status {ran.returncode}, and docs/SPEED.md stays as "
              "it was", file=sys.stderr)
        return ran.returncode or 1
    text = f"{about(' '.join([bench, *words]))}\n\n{as_told(ran.stdout.rstrip())}"
    PAGE.write_text(marks.replaced(page, text), encoding="utf-8")
    return 0


def main() -> int:
    """Writes a bench's figures, and gives the exit status."""
    parser = parser_of(__doc__)
    parser.add_argument("bench", metavar="BENCH", help="a file below bench/")
    parser.add_argument("words", metavar="WORD", nargs=argparse.REMAINDER, help="its words")
    words = parser.parse_args()
    try:
        return write_figures(words.bench, words.words)
    except NoMarks as fault:
        sys.exit(f"figures: {PAGE.relative_to(TOP)} has no place for them: {fault}")


if __name__ == "__main__":
    sys.exit(main())
