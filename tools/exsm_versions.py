#!/usr/bin/env python3
"""Shows the versions of objects as trees, names them, tells in what two of them differ, and goes
back to one.

A VERSION is an identifier, as 258.1.2, a name that was given here, or the name of a file that
exsm_files.py keeps. Names of versions stand in the volume, in its file `version_names`, and when
they were given in `version_times`. What differs is told by the leaves that two versions don't
share, so what is common isn't read.

Where a server has the volume (exsm_serve.py), name its socket by --socket. Versions are read in the
volume's file, so other users' lines wait meanwhile.
"""
from __future__ import annotations

import argparse
import sys

from exsm.commands import add_socket, parser_of
from exsm.versions import Place, back, change, diff, freeze, name, run, show, tree, unname


def place_of(words: argparse.Namespace) -> Place:
    """The volume that the words name, and the server that has it."""
    return Place(words.volume, words.socket, words.wait)


def parser_of_words() -> argparse.ArgumentParser:
    """Reads the words."""
    parser = parser_of(__doc__, "VOLUME")
    add_socket(parser)
    commands = parser.add_subparsers(metavar="COMMAND", required=True)
    add_shows(commands)
    add_names(commands)
    add_back(commands)
    return parser


def add_shows(commands) -> None:
    """Reads the words of `tree` and `diff`."""
    showing = commands.add_parser(
        "tree", help="shows an object's versions; without VERSION those of all that have several")
    showing.add_argument("version", metavar="VERSION", nargs="?")
    forms = showing.add_mutually_exclusive_group()
    forms.add_argument("-t", "--times", dest="form", action="store_const", const="times",
                       default="plain", help="tells when each version was given its name too")
    forms.add_argument("--json", dest="form", action="store_const", const="json",
                       help="tells it as JSON")
    showing.set_defaults(step=lambda words: show(
        place_of(words), lambda shown: tree(shown, words.version, words.form)))

    telling = commands.add_parser("diff", help="tells where two versions of an object differ")
    telling.add_argument("old", metavar="VERSION")
    telling.add_argument("new", metavar="VERSION")
    forms = telling.add_mutually_exclusive_group()
    forms.add_argument("--text", dest="form", action="store_const", const="text", default="bytes",
                       help="as lines of text, as `diff -u` shows them")
    forms.add_argument("--json", dest="form", action="store_const", const="json",
                       help="as JSON")
    telling.set_defaults(step=lambda words: show(
        place_of(words), lambda shown: diff(shown, words.old, words.new, words.form)))


def add_names(commands) -> None:
    """Reads the words of `name`, `unname` and `freeze`."""
    naming = commands.add_parser("name", help="gives a version a name")
    naming.add_argument("--replace", action="store_true",
                        help="takes the name from another version that has it")
    naming.add_argument("version", metavar="VERSION")
    naming.add_argument("name", metavar="NAME")
    naming.set_defaults(step=lambda words: change(
        place_of(words), words.version, lambda store, kept, version: name(
            kept, version, words.name, words.replace)))

    removing = commands.add_parser("unname", help="removes a name; the version stays")
    removing.add_argument("name", metavar="NAME")
    removing.set_defaults(step=lambda words: change(
        place_of(words), None, lambda store, kept, _: unname(kept, words.name)))

    freezing = commands.add_parser(
        "freeze", help="keeps what a current version holds now, under a name")
    freezing.add_argument("version", metavar="VERSION")
    freezing.add_argument("name", metavar="NAME")
    freezing.set_defaults(step=lambda words: change(
        place_of(words), words.version, lambda store, kept, version: freeze(
            store, kept, version, words.name)))


def add_back(commands) -> None:
    """Reads the words of `back`."""
    going = commands.add_parser(
        "back", help="gives a current version the bytes of another version of its object")
    going.add_argument("version", metavar="VERSION")
    going.add_argument("older", metavar="OLDER")
    going.set_defaults(step=lambda words: back(place_of(words), words.version, words.older))


def main() -> int:
    """Does what the words say, and gives the exit status."""
    words = parser_of_words().parse_args()
    return run(lambda: words.step(words))


if __name__ == "__main__":
    sys.exit(main())
