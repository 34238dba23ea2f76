#!/usr/bin/env python3
"""Tests, lists and reads a stream, as `exsm dump v > STREAM` writes it, without exsm.

A stream is a volume's whole history, each leaf and node once; docs/FORMATS.md has its bytes.
`check` tests all of it, in memory that doesn't grow with the bytes of objects; `-` is standard
input. `get` writes the bytes of the version of a number, as `list` tells them: numbers stay where
a volume is dumped, and pages and slots don't. `make` writes the stream of a volume that no run has
open, also of one on media that can't be written.
"""
from __future__ import annotations

import argparse
import signal
import sys

from exsm.client import Ended
from exsm.commands import INTERRUPTED, add_json, add_wait, parser_of
from exsm.records import BadVolume
from exsm.stream_files import NoNumber, check, ended, get, list_versions, make
from exsm.streams import BadStream


def parser_of_words() -> argparse.ArgumentParser:
    """Reads the words."""
    parser = parser_of(__doc__, "STREAM")
    commands = parser.add_subparsers(metavar="COMMAND", required=True)
    checking = commands.add_parser(
        "check", help="tells what a stream holds; status 1 where it is no dump, with the reason")
    add_json(checking)
    checking.set_defaults(step=lambda words: check(words.stream, words.json))

    listing = commands.add_parser("list", help="tells the versions: size, number, file")
    add_json(listing)
    listing.set_defaults(step=lambda words: list_versions(words.stream, words.json))

    getting = commands.add_parser("get", help="writes a version's bytes to standard output")
    getting.add_argument("number", metavar="NUMBER", type=int)
    getting.set_defaults(step=lambda words: get(words.stream, words.number))

    making = commands.add_parser(
        "make", help="makes STREAM of a volume's file, and tests it before it has its name")
    making.add_argument("volume", metavar="VOLUME")
    add_wait(making)
    making.set_defaults(step=lambda words: make(words.stream, words.volume, words.wait))
    return parser


def main() -> int:
    """Does what the words say, and gives the exit status."""
    words = parser_of_words().parse_args()
    try:
        return words.step(words)
    except (BadStream, BadVolume, Ended, NoNumber, OSError) as fault:
        return ended(words.stream, fault)
    except KeyboardInterrupt:
        print("exsm_stream: interrupted", file=sys.stderr)
        return INTERRUPTED


if __name__ == "__main__":
    signal.signal(signal.SIGPIPE, signal.SIG_DFL)
    sys.exit(main())
