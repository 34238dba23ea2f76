#!/usr/bin/env python3
"""Copies a volume that no run has open, as in `exsm_copy.py v backup`.

It has the program's lock meanwhile, so no run can change what is copied. The copy is synced, and
the program opens and checks it, before it gets its name; a file that is there is left alone. Where
a run has the volume, its own program copies it: `store.backup("backup")` of exsm.client. Where a
server has it (exsm_serve.py), --socket names its socket, and other users' lines wait meanwhile.
"""
from __future__ import annotations

import sys

from exsm.commands import add_json, add_socket, parser_of
from exsm.copying import run


def main() -> int:
    """Copies the volume, and gives the exit status."""
    parser = parser_of(__doc__, "VOLUME", "COPY")
    add_socket(parser)
    add_json(parser)
    words = parser.parse_args()
    return run(words.volume, words.copy, words.socket, words.wait, words.json)


if __name__ == "__main__":
    sys.exit(main())
