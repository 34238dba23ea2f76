"""A connection of a server: its lines, each once it is whole, and replies that aren't read yet."""
from __future__ import annotations

import socket
from collections import deque
from typing import Optional

from exsm.client import LINE_MOST, is_answered
from exsm.seats import Seat
from exsm.transport import READ_AT_ONCE

SERVED_MOST = LINE_MOST - len("16 ")
"""Bytes of a line of a connection: the program counts the number before it too."""

LINE_LONG = b"no 1 line_long"
"""The reply to a line of more bytes, which the program would give to no client."""

PENDING_MOST = 1 << 18
"""Bytes of whole lines above which no more are read, until some were taken."""

UNREAD_MOST = 4 << 20
"""Bytes of unread replies above which a connection's lines wait."""

BATCH_MOST = 16
"""Lines of a connection that the program has at once."""

QUICK_MOST = 4096
"""Bytes of a line whose reply may be waited for by the one behind it."""

QUICK = {b"begin", b"file", b"create", b"freeze", b"derive", b"insert", b"append", b"replace",
         b"size", b"log", b"space", b"scan", b"close", b"group"}
"""First words of lines that take little time and have short replies."""


def is_quick(line: bytes) -> bool:
    """Whether a line surely takes little time and has a short reply, so others may go with it."""
    if len(line) > QUICK_MOST or b"rep:" in line:
        return False
    words = line.split(None, 4)
    if words[:1] in ([b"read"], [b"next"]):
        return len(words) < 5 and len(words[-1]) < 5     # at most 9,999 bytes
    return bool(words) and words[0] in QUICK


class Connection:
    """A user's end of the socket. It has a number while it holds something or waits for replies."""

    __slots__ = ("socket", "seat", "pending", "pending_size", "unread", "unread_size", "in_flight",
                 "unasked", "is_queued", "has_ended", "is_leaving", "is_deaf", "moved", "events",
                 "_part", "_is_over")

    def __init__(self, side: socket.socket, now: float) -> None:
        self.socket = side
        self.seat: Optional[Seat] = None
        self.pending: deque[Optional[bytes]] = deque()   # whole lines; None is one that is too long
        self.pending_size = 0
        self.unread: deque[memoryview] = deque()
        self.unread_size = 0
        self.in_flight = 0                               # lines that the program has
        self.unasked = 0                                 # of these the first that no user sent
        self.is_queued = False
        self.has_ended = False                           # no more comes from it
        self.is_leaving = False                          # it is closed once its replies are sent
        self.is_deaf = False                             # nobody reads its replies any more
        self.moved = now
        self.events = 0
        self._part = bytearray()
        self._is_over = False

    # Lines.

    def read(self) -> bool:
        """Takes what has come, and says whether there was something."""
        try:
            piece = self.socket.recv(READ_AT_ONCE)
        except (BlockingIOError, InterruptedError):
            return False
        except OSError:
            piece = b""
        if piece:
            self.feed(piece)
        else:
            self.has_ended = True
        return piece != b""

    def feed(self, piece: bytes) -> None:
        """Takes bytes: lines that a line feed ends are pending then."""
        *lines, last = piece.split(b"\n")
        for line in lines:
            if self._part or self._is_over:
                self._keep(line)
                line = bytes(self._part)
                self._part.clear()
            self._end(line)
        if last:
            self._keep(last)

    def _keep(self, part: bytes) -> None:
        """Keeps a part of a line that isn't whole; of one that is too long nothing."""
        if len(self._part) + len(part) > LINE_MOST:
            self._is_over = True
            self._part.clear()
        if not self._is_over:
            self._part += part

    def _end(self, line: bytes) -> None:
        """Notes a whole line; one that has no reply is left out."""
        if self._is_over or len(line) > LINE_MOST:
            self._is_over = False
            self.pending.append(None)
        elif line[:1].islower() or is_answered(line):
            self.pending.append(line if len(line) <= SERVED_MOST else None)
            self.pending_size += len(line) if len(line) <= SERVED_MOST else 0

    @property
    def reads_more(self) -> bool:
        """Whether more is to be read from it."""
        return not self.has_ended and self.pending_size <= PENDING_MOST

    @property
    def wants_turn(self) -> bool:
        """Whether its next line may be taken, once there is a turn and a number."""
        return bool(self.pending) and not self.in_flight and self.unread_size <= UNREAD_MOST

    def answer_long(self) -> bool:
        """Answers the lines that are too long and stand first, and says whether there was one."""
        if not self.pending or self.pending[0] is not None:
            return False
        while self.pending and self.pending[0] is None:
            self.pending.popleft()
            self.put(LINE_LONG)
        return True

    def take(self) -> list[bytes]:
        """The next lines: up to the first whose time or reply may be long."""
        taken: list[bytes] = []
        while self.pending and self.pending[0] is not None and len(taken) < BATCH_MOST:
            line = self.pending.popleft()
            self.pending_size -= len(line)
            taken.append(line)
            if not self.pending or not is_quick(line):
                break
        return taken

    # Replies.

    def put(self, reply: bytes) -> None:
        """Adds a reply to those that are to be sent."""
        if not self.is_deaf:
            self.unread.append(memoryview(reply + b"\n"))
            self.unread_size += len(reply) + 1

    def write(self) -> None:
        """Sends what can be sent now."""
        while self.unread:
            if len(self.unread) > 1 and len(self.unread[0]) < READ_AT_ONCE:
                self._join()
            try:
                sent = self.socket.send(self.unread[0])
            except (BlockingIOError, InterruptedError):
                return
            except OSError:
                self.turn_deaf()
                return
            self.unread_size -= sent
            if sent < len(self.unread[0]):
                self.unread[0] = self.unread[0][sent:]
                return
            self.unread.popleft()

    def turn_deaf(self) -> None:
        """Drops all replies that aren't sent, and those to come."""
        self.is_deaf = True
        self.unread.clear()
        self.unread_size = 0

    def _join(self) -> None:
        """Joins the first replies to one piece."""
        joined: list[memoryview] = []
        size = 0
        while self.unread and size < READ_AT_ONCE:
            joined.append(self.unread.popleft())
            size += len(joined[-1])
        self.unread.appendleft(memoryview(b"".join(joined)))
