#!/usr/bin/env python3
"""Keeps files of the file system as objects of a volume, under their names.

exsm gives objects no names, so they stand in the volume too: its file `names` has one object of
lines `NUMBER NAME`, its file `blobs` the objects, `put_sources` where they came from, and
`put_facts` the modes, times and digests that they had then. A file's bytes and its name change in
one transaction, so a stop at any moment leaves them in step; a file above some 260 MB takes
several, and has its name with the last one.

A name is the last part of a path, or with -r the path as given. A name that comes twice, or that is
there and was put from another path, is refused, unless --replace is given.

Where a server has the volume (exsm_serve.py), name its socket by --socket, or in VOLUME's place.
"""
from __future__ import annotations

import argparse
import sys

from exsm.commands import add_forms, add_socket, parser_of, store_of
from exsm.files import Writing, get, get_all, ls, mv, rm, run, verify
from exsm.putting import STANDARD_INPUT, put


def add_replace(parser: argparse.ArgumentParser, what: str) -> None:
    """Takes whether what is there is replaced."""
    parser.add_argument("--replace", action="store_true", help=what)


def parser_of_words() -> argparse.ArgumentParser:
    """Reads the words."""
    parser = parser_of(__doc__, "VOLUME")
    add_socket(parser)
    commands = parser.add_subparsers(metavar="COMMAND", dest="command", required=True)
    add_put_and_get(commands)
    add_others(commands)
    return parser


def add_put_and_get(commands) -> None:
    """Reads the words of `put` and `get`."""
    putting = commands.add_parser(
        "put", help="stores each file under its name, anew where it came from the same path")
    putting.add_argument("-r", "--recursive", action="store_true",
                         help="also the files of folders; names are the paths as given")
    putting.add_argument("-n", "--name", metavar="NAME",
                         help="the name of the one file; `-` is standard input")
    add_replace(putting, "stores it also where the name is there for another path, or comes twice")
    putting.add_argument("paths", metavar="FILE", nargs="+")
    putting.set_defaults(step=lambda names, words: put(
        names, words.paths, words.name, words.recursive, words.replace))

    getting = commands.add_parser(
        "get", usage="%(prog)s [-h] [--replace] [-p] (NAME [OUT] | -d DIR [NAME ...])",
        help="writes the bytes to OUT, else to standard output; or files to a folder")
    getting.add_argument("-d", "--folder", metavar="DIR",
                         help="writes the files of the names, or all, to this folder")
    add_replace(getting, "writes over files that are there")
    getting.add_argument("-p", "--preserve", action="store_true",
                         help="gives them the modes and times that they had when they were put")
    getting.add_argument("names", metavar="NAME", nargs="*")
    getting.set_defaults(step=step_get)


def add_others(commands) -> None:
    """Reads the words of `ls`, `verify`, `mv` and `rm`."""
    listing = commands.add_parser("ls", help="tells sizes, identifiers and names")
    add_forms(listing, "the names alone, a zero byte behind each, as `xargs -0` reads them")
    listing.set_defaults(step=lambda names, words: ls(names, words.form))

    verifying = commands.add_parser(
        "verify", help="compares the bytes of the files, or of all, with those that were put")
    verifying.add_argument("names", metavar="NAME", nargs="*")
    verifying.set_defaults(step=lambda names, words: verify(names, words.names))

    moving = commands.add_parser("mv", help="gives a file another name")
    add_replace(moving, "removes the file that has the new name")
    moving.add_argument("old", metavar="OLD")
    moving.add_argument("new", metavar="NEW")
    moving.set_defaults(step=lambda names, words: mv(names, words.old, words.new, words.replace))

    removing = commands.add_parser("rm", help="removes the files, all or none")
    removing.add_argument("--versions", action="store_true",
                          help="also files that have several versions, with all of them")
    removing.add_argument("names", metavar="NAME", nargs="+")
    removing.set_defaults(step=lambda names, words: rm(names, words.names, words.versions))


def step_get(names, words: argparse.Namespace) -> None:
    """Does what the words of `get` say."""
    how = Writing(words.replace, words.preserve)
    if words.folder is not None:
        get_all(names, words.names, words.folder, how)
    else:
        get(names, words.names[0], (words.names[1:] or [None])[0], how)


def test(parser: argparse.ArgumentParser, words: argparse.Namespace) -> None:
    """Refuses words that the parser takes by themselves, and that don't go together."""
    if words.command == "put":
        if words.name is not None and (len(words.paths) > 1 or words.recursive):
            parser.error("argument -n/--name: it names one FILE, without -r")
        if STANDARD_INPUT in words.paths and words.name is None:
            parser.error("standard input wants a name: put -n NAME -")
    if words.command == "get" and words.folder is None:
        if not words.names:
            parser.error("the following arguments are required: NAME")
        if len(words.names) > 2:
            parser.error("several names want a folder: get -d DIR NAME ..")


def main() -> int:
    """Does what the words say, and gives the exit status."""
    parser = parser_of_words()
    words = parser.parse_args()
    test(parser, words)
    return run(lambda: store_of(words.volume, words.socket, words.wait),
               lambda names: words.step(names, words))


if __name__ == "__main__":
    sys.exit(main())
