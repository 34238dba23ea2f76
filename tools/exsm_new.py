#!/usr/bin/env python3
"""Makes a volume of about a size, as in `exsm_new.py v 80M`.

SIZE is a number, as 80 or 1.5, and K, M or G, of 1024 each, or KB, MB or GB, of 1000; the volume
has that many bytes at most. A block device needs no SIZE: the volume is as large as the device. A
file that is there is left alone, and so is a device that is in use or isn't zeros at both ends. The
line that makes the volume, and what it has room for, are told on standard error.
"""
from __future__ import annotations

import sys

from exsm.commands import parser_of, size
from exsm.new import MIXED, PARTS_FOR_PAGES, make


def main() -> int:
    """Makes the volume, and gives the exit status: that of exsm, or 1."""
    parser = parser_of(__doc__, "VOLUME")
    parser.add_argument("size", metavar="SIZE", type=size, nargs="?")
    parser.add_argument(
        "--for", dest="kind", choices=PARTS_FOR_PAGES, default=MIXED,
        help="what it is mostly to hold: `large` objects have all but a twentieth of it, `small` "
             "ones, below a page, four fifths; with `mixed` a fifth is for pages")
    words = parser.parse_args()
    return make(words.volume, words.size, words.kind)


if __name__ == "__main__":
    sys.exit(main())
