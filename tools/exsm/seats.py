"""The numbers of the clients of one run, and what the one that has a number holds in it."""
from __future__ import annotations

from typing import TYPE_CHECKING, Callable, Optional

if TYPE_CHECKING:
    from exsm.connections import Connection

SEATS = 16
"""Clients of one run; they are numbered from 1 on."""

HEAD_MOST = 48
"""Bytes of a reply in which `ok`, its word and a name stand whole."""


class Seat:
    """A client's number. What its connection bound, opened or made is told by the replies to it."""

    __slots__ = ("number", "connection", "names", "names_before", "groups", "scans",
                 "in_transaction")

    def __init__(self, number: int) -> None:
        self.number = number
        self.connection: Optional[Connection] = None
        self.names = self.names_before = self.groups = 0
        self.scans: set[bytes] = set()
        self.in_transaction = False

    @property
    def holds(self) -> bool:
        """Whether a name is bound, a group made, a scan or a transaction open."""
        return bool(self.in_transaction or self.names or self.scans or self.groups)

    def note(self, reply: bytes) -> None:
        """Notes what a reply says that this client holds now."""
        head = reply[:HEAD_MOST].split(b" ", 3)
        step = STEPS.get(head[1]) if head[0] == b"ok" else None
        if step is not None:
            step(self, head)

    def to_be_closed(self) -> list[bytes]:
        """The lines after which no transaction and no scan is open."""
        lines = [b"abort"] if self.in_transaction else []
        return [*lines, *(b"close " + name for name in sorted(self.scans))]

    # What an accepted line of each kind does.

    def _begin(self, _: list[bytes]) -> None:
        self.in_transaction, self.names_before = True, self.names

    def _commit(self, _: list[bytes]) -> None:
        self.in_transaction = False

    def _abort(self, _: list[bytes]) -> None:
        self.in_transaction, self.names = False, self.names_before

    def _bind(self, _: list[bytes]) -> None:
        self.names += 1

    def _group(self, _: list[bytes]) -> None:
        self.groups += 1

    def _scan(self, head: list[bytes]) -> None:
        self.scans.add(head[2])

    def _close(self, head: list[bytes]) -> None:
        self.scans.discard(head[2])


STEPS: dict[bytes, Callable[[Seat, list[bytes]], None]] = {
    b"begin": Seat._begin, b"commit": Seat._commit, b"abort": Seat._abort,
    b"create": Seat._bind, b"freeze": Seat._bind, b"derive": Seat._bind,
    b"group": Seat._group, b"scan": Seat._scan, b"close": Seat._close,
}
"""What the first words of accepted lines do to what a client holds; all others do nothing."""


class Seats:
    """The numbers of a run: those that a connection may have are such of which nothing is left."""

    def __init__(self) -> None:
        self.all = [Seat(number) for number in range(1, SEATS + 1)]
        self.by_number = {b"%d" % seat.number: seat for seat in self.all}
        self.free = self.all[::-1]

    def give(self, connection: Connection) -> None:
        """Gives a number that is free to a connection that has none."""
        seat = self.free.pop()
        seat.connection, connection.seat = connection, seat

    def take_back(self, connection: Connection) -> None:
        """Takes a connection's number back; it is free where nothing is left of it."""
        seat, connection.seat = connection.seat, None
        if seat is not None:
            seat.connection = None
            if not seat.holds:
                self.free.append(seat)

    def in_use(self) -> list[Seat]:
        """Those that a connection has."""
        return [seat for seat in self.all if seat.connection is not None]

    def has_left(self) -> bool:
        """Whether a connection that has ended left names or groups."""
        return any(seat.holds for seat in self.all if seat.connection is None)

    def owner(self) -> Optional[Connection]:
        """The connection whose transaction is open."""
        return next((seat.connection for seat in self.all if seat.in_transaction), None)
