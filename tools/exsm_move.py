#!/usr/bin/env python3
"""Moves all objects of a volume to a larger one, as in `exsm_move.py v larger --size 1G`.

Each object goes with its versions as a tree, and what these share is shared again; the names that
exsm_files.py and exsm_versions.py keep go along. The digest of each version is compared. NEW isn't
there, and --size makes it, or it is an empty volume, as exsm_new.py makes one; OLD is only read.
Identifiers change: NEW.map has a line for each version, its old and its new one.

NEW is written beside its name and gets it last, so a stop at any moment leaves it as it was.
"""
from __future__ import annotations

import sys

from exsm.commands import add_json, add_wait, parser_of, size
from exsm.move import run


def main() -> int:
    """Moves the objects, and gives the exit status."""
    parser = parser_of(__doc__, "VOLUME", "NEW")
    parser.add_argument("--size", metavar="SIZE", type=size,
                        help="the size of NEW where it isn't there, as 1G")
    add_wait(parser)
    add_json(parser)
    words = parser.parse_args()
    return run(words.volume, words.new, words.size, words.wait, words.json)


if __name__ == "__main__":
    sys.exit(main())
