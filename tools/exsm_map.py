#!/usr/bin/env python3
"""Tells what a volume file is used for, and draws it.

It reads the file as docs/FORMATS.md describes it and never writes to it. What it shows is what
a run would find; what a session that has the volume open holds beside it isn't in the file yet.
"""
from __future__ import annotations

import signal
import sys

from exsm.commands import add_json, parser_of
from exsm.map import run


def main() -> int:
    """Tells the use, draws the picture, and gives the exit status."""
    parser = parser_of(__doc__, "VOLUME")
    parser.add_argument("out", metavar="OUT.svg", nargs="?",
                        help="the picture, which is written anew")
    add_json(parser)
    words = parser.parse_args()
    if words.out is not None and not words.out.endswith(".svg"):
        parser.error(f"the picture is an SVG file, and {words.out!r} doesn't end with .svg")
    return run(words.volume, words.out, words.json)


if __name__ == "__main__":
    signal.signal(signal.SIGPIPE, signal.SIG_DFL)
    sys.exit(main())
