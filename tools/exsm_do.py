#!/usr/bin/env python3
"""Runs a script on a volume and stops at the first refused line.

Replies go to standard output as exsm gives them. At a refusal an open transaction is aborted, the
line is told on standard error with its number and what it means, and the status is 1; so it is
where the script ends in an open transaction. A status of exsm's own is handed on.

In a terminal there are a prompt (`exsm> `, and `exsm*> ` in a transaction), a history, completion
by Tab, and words beside the program's: `show X` tells bytes as text, `put PATH in FILE as @NAME`
stores a file, `source PATH` runs lines, DATA may be text:"..", `help WORD` tells what a line does,
and `quit` ends. A refused line is told and the session goes on; Ctrl-C drops the line.

Where a server has the volume (exsm_serve.py), name its socket by --socket, or in VOLUME's place.
"""
from __future__ import annotations

import os
import sys

from exsm.client import Store
from exsm.commands import add_socket, parser_of, store_of
from exsm.do import run, run_lines
from exsm.prompt import talk


def main() -> int:
    """Runs what the words name, and gives the exit status."""
    parser = parser_of(__doc__, "VOLUME")
    parser.add_argument("script", metavar="SCRIPT", nargs="?",
                        help="a file with the lines; standard input where it isn't told")
    add_socket(parser)
    words = parser.parse_args()

    def opened() -> Store:
        return store_of(words.volume, words.socket, words.wait)

    if words.script is None and sys.stdin.isatty():
        return run(opened, lambda runner: talk(runner, os.fspath(words.volume)))
    return run(opened, lambda runner: run_lines(runner, words.script))


if __name__ == "__main__":
    sys.exit(main())
