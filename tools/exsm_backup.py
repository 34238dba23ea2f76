#!/usr/bin/env python3
"""Backs up a volume by `exsm dump`, as in `exsm_backup.py v v.dump`, and restores it by `load`.

FILE gets the volume's whole history: all files, objects and versions, each leaf once, and nothing
of what is free, so it is no larger than what the volume holds. It has its name only once it is
whole, synced and tested by a reader that shares nothing with the program; a file that is there is
left alone. `exsm_stream.py FILE` tests, lists and reads it without exsm.

`exsm_backup.py --restore FILE VOLUME` tests a dump and loads it into a new volume, which has its
name only once all of it is there: of the sizes that the dump needs, and of each area a third free.
`exsm load` loads it into a volume of other sizes that `exsm format` just made.
"""
from __future__ import annotations

import sys

from exsm import backup, restoring
from exsm.commands import add_json, add_wait, parser_of


def main() -> int:
    """Backs the volume up, or restores it, and gives the exit status."""
    parser = parser_of(__doc__, "VOLUME")
    parser.add_argument("file", metavar="FILE", nargs="?")
    parser.add_argument("--restore", metavar="FILE", help="makes VOLUME of this dump")
    add_wait(parser)
    add_json(parser)
    words = parser.parse_args()
    if words.restore is not None:
        if words.file is not None:
            parser.error(f"--restore takes FILE and VOLUME alone, and not {words.file!r}")
        return restoring.run(words.restore, words.volume, words.json)
    if words.file is None:
        parser.error("the following arguments are required: FILE")
    return backup.run(words.volume, words.file, words.wait, words.json)


if __name__ == "__main__":
    sys.exit(main())
