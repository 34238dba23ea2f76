#!/usr/bin/env python3
"""Reads a volume file as docs/FORMATS.md describes it, without exsm. It never writes to the volume.

It reads volumes that exsm refuses as bad, and media that can't be written; without a superblock,
and of a file that was cut off, it reads what the catalog leads to. Beside a run it may tell faults
that are none, and says that the run is there. `check` makes the tests that an opening makes, and
tells the part that it refuses. Of a version with a fault in its tree, `save` writes what the rest
of the tree names, each byte at its position, to FOLDER/FILE/OID.damaged, and tells the ranges that
are missing, which are zeros there. What exsm_files.py put is saved under its name, and a version
that exsm_versions.py named under that one, but where a name can't be a path beside the others.
`mend` copies a volume of which only bytes are wrong that no version reads.
"""
from __future__ import annotations

import argparse
import signal
import sys

from exsm.checking import CantMend, check, ended, mend
from exsm.commands import add_forms, add_json, parser_of
from exsm.lock import told_where_held
from exsm.records import BadVolume
from exsm.saving import get, list_versions, save_all
from exsm.volume import NoVersion, Volume


def parser_of_words() -> argparse.ArgumentParser:
    """Reads the words."""
    parser = parser_of(__doc__, "VOLUME")
    commands = parser.add_subparsers(metavar="COMMAND", dest="command", required=True)
    checking = commands.add_parser(
        "check", help="tells the part that an opening refuses; status 1 where there is one")
    add_json(checking)

    listing = commands.add_parser(
        "list", help="tells the versions that can be read: size, identifier, file")
    add_forms(listing, "the names that exsm_files.py keeps alone, a zero byte behind each")
    listing.add_argument("--versions", action="store_true",
                         help="with -0 also the names that exsm_versions.py keeps")
    listing.set_defaults(
        step=lambda volume, words: list_versions(volume, words.form, words.versions))

    getting = commands.add_parser("get", help="writes a version's bytes to standard output")
    getting.add_argument("version", metavar="OID|NAME")
    getting.set_defaults(step=lambda volume, words: get(volume, words.version))

    saving = commands.add_parser(
        "save", help="writes each version that can be read to FOLDER/FILE/NAME, or FOLDER/FILE/OID "
                      "where it has no name")
    saving.add_argument("folder", metavar="FOLDER")
    saving.set_defaults(step=lambda volume, words: save_all(volume, words.folder))

    mending = commands.add_parser(
        "mend", help="makes COPY, with zeros where bytes are wrong that no version reads")
    mending.add_argument("copy", metavar="COPY")
    return parser


def step(words: argparse.Namespace) -> int:
    """Does what the words say, and gives the exit status."""
    if words.command == "check":
        return check(words.volume, words.json)
    if words.command == "mend":
        return mend(words.volume, words.copy)
    with Volume(words.volume) as volume:
        return words.step(volume, words)


def main() -> int:
    """Does what the words say, and gives the exit status."""
    words = parser_of_words().parse_args()
    try:
        with told_where_held(words.volume, "exsm_volume"):
            return step(words)
    except (BadVolume, NoVersion, CantMend, OSError) as fault:
        return ended(words.volume, fault)


if __name__ == "__main__":
    signal.signal(signal.SIGPIPE, signal.SIG_DFL)
    sys.exit(main())
