#!/usr/bin/env python3
"""Serves a volume to several users at once, at a socket of the file system.

A connection speaks the language of `exsm run`: `Store.connect("v.sock")` of exsm.client, a tool
with --socket v.sock, or whatever sends lines. Transactions take turns: while one user's is open,
lines of the others are refused as `busy`, but for `next`, `close` and `group`. So keep them short,
or give --idle. What a connection bound, opened and made is its own; when it ends, or is cut off,
its open transaction is aborted and its scans are closed.

The run has 16 clients. A connection is one of them while it has a name, a group, a scan or a
transaction; where none is left that nobody used, a further one waits until a new run can begin.
Whoever may write to the socket's file may do everything to the volume. SIGTERM ends the server:
lines that came whole are answered, open transactions aborted, and the socket is removed.
"""
from __future__ import annotations

import sys

from exsm.commands import add_wait, parser_of, seconds
from exsm.serve import run


def main() -> int:
    """Serves the volume, and gives the exit status."""
    parser = parser_of(__doc__, "VOLUME")
    parser.add_argument("socket", metavar="SOCKET",
                        help="where it is served; a file that no server answers at is replaced "
                             "where it is a socket")
    parser.add_argument("--idle", metavar="SECONDS", type=seconds,
                        help="aborts a transaction whose user said nothing for so long; it stays "
                             "open where this isn't told")
    add_wait(parser)
    words = parser.parse_args()
    return run(words.volume, words.socket, words.idle, words.wait)


if __name__ == "__main__":
    sys.exit(main())
