"""What the commands share: how they take words, and how they end where the program ended."""
from __future__ import annotations

import argparse
import os
import sys
from typing import IO, Optional

from exsm.client import BUSY_WAIT, AnyPath, Ended, Store
from exsm.new import WrongSize, size_of
from exsm.sockets import is_socket


def parser_of(text: Optional[str], *names: str) -> argparse.ArgumentParser:
    """Takes the words of a command that a text describes, those of these names first; `--help`
    writes the text as it stands."""
    parser = argparse.ArgumentParser(
        description=text, formatter_class=argparse.RawDescriptionHelpFormatter)
    for name in names:
        parser.add_argument(name.lower(), metavar=name)
    return parser


def seconds(word: str) -> float:
    """Seconds to wait, at least 0."""
    try:
        told = float(word)
    except ValueError:
        told = -1.0
    if not 0 <= told < float("inf"):
        raise argparse.ArgumentTypeError(f"{word!r} is no number of seconds")
    return told


def size(word: str) -> int:
    """The bytes that a word names, as 80M."""
    try:
        return size_of(word)
    except WrongSize as fault:
        raise argparse.ArgumentTypeError(str(fault)) from None


RED, GREEN, CYAN = "31", "32", "36"
"""Colours, by their numbers in a terminal."""


def is_coloured(stream: IO[str]) -> bool:
    """Whether colours may be written to a stream: a terminal that has them, unless NO_COLOR is
    set."""
    return (stream.isatty() and not os.environ.get("NO_COLOR")
            and os.environ.get("TERM", "dumb") != "dumb")


def coloured(text: str, colour: str) -> str:
    """A text in a colour of the terminal."""
    return f"\x1b[{colour}m{text}\x1b[0m"


def add_wait(parser: argparse.ArgumentParser) -> None:
    """Takes how long to wait for a volume."""
    parser.add_argument("--wait", metavar="SECONDS", type=seconds, default=0.0,
                        help="how long to wait where another run has the volume; 0 where it isn't "
                             "told")


def add_socket(parser: argparse.ArgumentParser) -> None:
    """Takes the socket of a server that has the volume, and how long to wait."""
    parser.add_argument("--socket", metavar="SOCKET",
                        help="the socket of a server, exsm_serve.py, that has the volume")
    parser.add_argument("--wait", metavar="SECONDS", type=seconds,
                        help="how long to wait where another run has the volume, 0 where it isn't "
                             "told; at a server, where another user's transaction is open, "
                             f"{BUSY_WAIT:.0f}")


def store_of(volume: AnyPath, socket: Optional[AnyPath], wait: Optional[float]) -> Store:
    """A store over a volume, or over the server that has it; VOLUME may also be its socket."""
    if socket is None and is_socket(volume):
        return Store.connect(volume, busy_wait=BUSY_WAIT if wait is None else wait)
    if socket is None:
        return Store(volume, wait=wait or 0)
    return Store.connect(socket, wait or 0, BUSY_WAIT if wait is None else wait, volume)


def add_json(parser: argparse.ArgumentParser) -> None:
    """Takes whether a program is to read what is told."""
    parser.add_argument("--json", action="store_true", help="tells it as JSON")


def add_forms(parser: argparse.ArgumentParser, zeros: str) -> None:
    """Takes how a list is told: as lines, as JSON, or by the names alone, of which a text says
    more."""
    forms = parser.add_mutually_exclusive_group()
    forms.add_argument("-0", dest="form", action="store_const", const="zeros", default="lines",
                       help=zeros)
    forms.add_argument("--json", dest="form", action="store_const", const="json",
                       help="tells it as JSON")


INTERRUPTED = 130
"""The exit status after Ctrl-C."""


def status_of(fault: Ended) -> int:
    """The status of a command where the program ended: that of a signal as a shell tells it."""
    return fault.status if fault.status > 0 else 128 - fault.status


def failed(command: str, text: str, fault: Exception) -> int:
    """Tells by a text why a command wasn't done, and gives the exit status of the fault."""
    print(f"{command}: {text}", file=sys.stderr)
    return status_of(fault) if isinstance(fault, Ended) else 1


def interrupted(command: str, text: str) -> int:
    """Tells that Ctrl-C ended a command, and how things stand; gives the exit status."""
    print(f"{command}: interrupted; {text}", file=sys.stderr)
    return INTERRUPTED
