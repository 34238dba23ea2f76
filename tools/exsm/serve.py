"""Serves one volume to several users at once, over one run of `exsm clients VOLUME`.

Each turn of the loop takes what has come from users and from the program, and hands lines of users
to the program: of each connection a few, and the next ones once these are answered. A connection
has a number of the program's clients while it holds something there or waits for a reply.
"""
from __future__ import annotations

import os
import resource
import selectors
import signal
import socket
import sys
import time
from collections import deque
from contextlib import contextmanager
from functools import partial
from typing import Iterator, Optional

from exsm.client import leave_output
from exsm.clients_run import HELD_OFF, ClientsRun
from exsm.commands import status_of
from exsm.connections import Connection
from exsm.lines import reason_of
from exsm.seats import SEATS, Seat, Seats
from exsm.sockets import Listening, refuse_taken, told_end
from exsm.transport import WAIT_STEP, AnyPath, Ended, Locked, ProgramMissing

GRACE = 5.0
"""Seconds for which an ending server waits for users that don't read their replies."""

READS_AT_END = 64
"""Reads of a connection, of 64 KiB at most, from which an ending server takes lines."""

RESERVED = 32
"""Files that a server may open beside connections."""

READ, WRITE = selectors.EVENT_READ, selectors.EVENT_WRITE


def tell(text: str) -> None:
    """Writes a line to standard error, where somebody reads it."""
    try:
        print(f"exsm_serve: {text}", file=sys.stderr, flush=True)
    except OSError:
        pass


def connections_most() -> float:
    """The connections that may be open at once, as the system limits files."""
    files = resource.getrlimit(resource.RLIMIT_NOFILE)[0]
    return float("inf") if files == resource.RLIM_INFINITY else max(1, files - RESERVED)


class Server:
    """A run of the program on a volume, and the connections that share it."""

    def __init__(self, volume: AnyPath, idle: Optional[float], wait: float) -> None:
        self.volume, self.idle = volume, idle
        self.fault: Optional[Ended] = None         # how the program ended, where it did by itself
        self._selector = selectors.DefaultSelector()
        self._connections: set[Connection] = set()
        self._ready: deque[Connection] = deque()   # with lines, for their turn
        self._waiting: deque[Connection] = deque() # with lines, for a number
        self._touched: set[Connection] = set()     # with replies to be sent
        self._listening: Optional[Listening] = None
        self._is_listening = self._is_ending = self._is_done = False
        self._is_draining = False                  # no lines are taken until a new run has begun
        self._told_wait = False
        self._most = connections_most()
        self._now = self._moved = time.monotonic()
        self._until = self._now + wait             # how long another run's volume is waited for
        self._tries_at: Optional[float] = None     # when it is tried next
        self._begin_run()

    # The loop.

    def open(self) -> None:
        """Opens the volume. `Ended` where that fails."""
        while not (self.run.is_open or self._is_ending):
            self._turn()
            if self.fault is not None:
                raise self.fault
        self._until = float("inf")

    def serve(self, path: AnyPath) -> None:
        """Serves the volume at a socket, until a signal or the program ends it."""
        if not self._is_ending:
            self._listening = Listening(path)
            self._listen()
            print(f"{os.fspath(self.volume)}: served at {os.fspath(path)}", flush=True)
        while not self._is_done:
            self._turn()

    def close(self) -> None:
        """Leaves nothing behind: no socket, no connection, no program."""
        if self._listening is not None:
            self._listening.close()
        self._cut_all()
        self.run.close()
        self._selector.close()

    def _turn(self) -> None:
        """Takes what has come, and hands on what can be handed on."""
        events = self._selector.select(self._timeout())
        self._now = time.monotonic()
        if events:
            self._moved = self._now
        for key, mask in events:
            key.data(mask)
        self._look_at_times()
        self._hand_on()
        while self._touched:
            self._send(self._touched.pop())
            if not self._touched:
                self._hand_on()
        self._look_at_end()

    def _hand_on(self) -> None:
        """Hands to the program what it can take."""
        if self.run.is_open and not self.run.is_ending:
            self._hand_out()
            self._renew()
        self._write_run()

    def _timeout(self) -> Optional[float]:
        """The seconds until something is to be done that no event tells of."""
        times = [] if self._tries_at is None else [self._tries_at]
        if self._waits_for_users():
            times.append(self._moved + GRACE)
        if self.idle is not None:
            owner = self._seats.owner()
            if owner is not None and not owner.in_flight:
                times.append(owner.moved + self.idle)
        return max(0.0, min(times) - time.monotonic()) if times else None

    def _look_at_times(self) -> None:
        """Does what is due: another try to open, the abort of an idle transaction, an end."""
        if self._tries_at is not None and self._now >= self._tries_at:
            self._tries_at = None
            self._begin_run()
        if self.idle is not None:
            owner = self._seats.owner()
            if owner is not None and not owner.in_flight and self._now >= owner.moved + self.idle:
                tell(f"a transaction is aborted: its user said nothing for {self.idle:g} seconds")
                self._ask(owner, [b"abort"], unasked=1)
        if self._now >= self._moved + GRACE and self._waits_for_users():
            self._cut_all()

    def _waits_for_users(self) -> bool:
        """Whether nothing but users that don't read keeps the server from its end."""
        return ((self._is_ending or self.fault is not None)
                and not any(connection.in_flight for connection in self._connections))

    def _look_at_end(self) -> None:
        """Ends the run once an ending server has no connection left."""
        if self._connections:
            return
        if self.fault is not None or self._is_ending and self._tries_at is not None:
            self._is_done = True
        elif self._is_ending and self.run.is_open and not self.run.is_ending:
            self.run.end()

    # The program.

    def _begin_run(self) -> None:
        """Begins a run, of which no number has anything yet."""
        self.run = ClientsRun(self.volume)
        self._seats = Seats()
        self._writes_run = False
        self._selector.register(self.run.output, READ, self._from_run)
        self._write_run()

    def _from_run(self, _: int) -> None:
        """Takes replies, or the program's end."""
        replies = self.run.read()
        if replies is None:
            self._run_ended()
            return
        for reply in replies:
            if self.run.is_open:
                number, _, text = reply.partition(b" ")
                self._answered(self._seats.by_number[number], text)
            self.run.is_open = True                # the first reply is to the server's own line

    def _answered(self, seat: Seat, text: bytes) -> None:
        """Takes a reply to a client."""
        seat.note(text)
        connection = seat.connection
        assert connection is not None
        connection.in_flight -= 1
        if connection.unasked:
            connection.unasked -= 1
        else:
            connection.put(text)
            self._touched.add(connection)
        if not connection.in_flight:
            connection.moved = self._now
            self._settle(connection)

    def _write_run(self) -> None:
        """Sends lines to the program, and hears when its pipe takes more."""
        if self.run.has_unsent:
            self.run.write()
        if self.run.has_unsent != self._writes_run:
            self._writes_run = self.run.has_unsent
            if self._writes_run:
                self._selector.register(self.run.input, WRITE, lambda mask: None)
            else:
                self._selector.unregister(self.run.input)

    def _run_ended(self) -> None:
        """Begins the next run where this one was to end; else the server ends, and tells why."""
        self._selector.unregister(self.run.output)
        if self._writes_run:
            self._selector.unregister(self.run.input)
            self._writes_run = False
        was_open = self.run.is_open
        fault = self.run.ended()
        if self.run.is_ending and fault.status == 0:
            if self._is_ending and not self._connections:
                self._is_done = True
            else:
                self._begin_run()
        elif isinstance(fault, Locked) and not was_open and self._now < self._until:
            self._tries_at = self._now + WAIT_STEP
        else:
            self._fail(fault)

    def _fail(self, fault: Ended) -> None:
        """Tells all connections how the program ended, and ends with it."""
        self.fault = fault
        if self._is_listening:
            self._accept(READ)
        self._stop_listening()
        self._ready.clear()
        self._waiting.clear()
        for connection in list(self._connections):
            connection.pending.clear()
            connection.in_flight = 0
            connection.has_ended = connection.is_leaving = True
            connection.put(told_end(fault).encode(errors="replace"))
            self._touched.add(connection)

    # Numbers and turns.

    def _settle(self, connection: Connection) -> None:
        """Hands a connection on of which the program has no line: to its turn, or to its end."""
        if connection.in_flight or connection not in self._connections:
            return
        if connection.seat is not None and not connection.seat.holds:
            self._seats.take_back(connection)
        if connection.answer_long():
            self._touched.add(connection)
        if connection.wants_turn and not connection.is_queued:
            connection.is_queued = True
            self._ready.append(connection)
        elif connection.has_ended and not connection.pending:
            self._leave(connection)

    def _hand_out(self) -> None:
        """Hands lines to the program, each connection in its turn; first who waits for a number."""
        if self._is_draining:
            return
        while self._waiting and self._seats.free:
            self._take(self._waiting.popleft())
        while self._ready:
            connection = self._ready.popleft()
            if connection.seat is None and not self._seats.free:
                self._waiting.append(connection)
            else:
                self._take(connection)

    def _take(self, connection: Connection) -> None:
        """Hands a few lines of a connection to the program."""
        connection.is_queued = False
        if connection.seat is None:
            self._seats.give(connection)
        self._ask(connection, connection.take())
        if connection.events & READ == 0:
            self._watch(connection)

    def _ask(self, connection: Connection, lines: list[bytes], unasked: int = 0) -> None:
        """Hands lines to the program for a connection; `unasked` ones its user didn't send."""
        assert connection.seat is not None
        connection.in_flight += len(lines)
        connection.unasked = unasked
        self.run.ask(connection.seat.number, lines)

    def _renew(self) -> None:
        """Begins a new run where a connection waits for a number that none that is there holds."""
        if not self._is_draining and (not self._waiting or self._seats.free):
            return
        in_use = self._seats.in_use()
        if any(seat.holds for seat in in_use):
            self._is_draining = False
            self._tell_wait()
        elif in_use:
            self._is_draining = self._seats.has_left()
        else:
            self._is_draining = False
            self.run.end()

    def _tell_wait(self) -> None:
        """Tells once that connections wait for a number."""
        if not self._told_wait:
            self._told_wait = True
            tell(f"a connection waits: each of the {SEATS} clients of the run has a name, a group, "
                 "a scan or a transaction, or is left with names or groups of a connection that "
                 "ended; a new run begins once no open connection has any")

    def _leave(self, connection: Connection) -> None:
        """Aborts and closes what a connection that ended has open; then it goes."""
        if connection.is_leaving:
            return
        lines = connection.seat.to_be_closed() if connection.seat is not None else []
        if lines:
            self._ask(connection, lines, unasked=len(lines))
            return
        self._seats.take_back(connection)
        connection.is_leaving = True
        self._touched.add(connection)

    # Connections.

    def _accept(self, _: int) -> None:
        """Takes the connections that wait at the socket."""
        while self._listening is not None:
            if len(self._connections) >= self._most:
                self._listen(False)                # until a connection goes
                return
            try:
                side, _address = self._listening.socket.accept()
            except OSError:
                return                             # none waits, or it is gone
            side.setblocking(False)
            connection = Connection(side, self._now)
            self._connections.add(connection)
            self._watch(connection)

    def _listen(self, does: bool = True) -> None:
        """Hears of new connections, or doesn't."""
        if self._listening is not None and does != self._is_listening:
            self._is_listening = does
            if does:
                self._selector.register(self._listening.socket, READ, self._accept)
            else:
                self._selector.unregister(self._listening.socket)

    def _stop_listening(self) -> None:
        """Takes no connection any more, and removes the socket."""
        if self._listening is not None:
            self._listen(False)
            self._listening.close()
            self._listening = None

    def _from_user(self, connection: Connection, mask: int) -> None:
        """Takes what came from a connection, and sends what it reads now."""
        connection.moved = self._now
        if mask & READ:
            connection.read()
            self._settle(connection)
        if mask & WRITE:
            self._touched.add(connection)
        if mask & READ and not connection.reads_more:
            self._watch(connection)

    def _send(self, connection: Connection) -> None:
        """Sends replies to a connection; closes one that is to go once all are sent."""
        if connection not in self._connections:
            return
        connection.write()
        if connection.is_leaving and not connection.unread:
            self._close(connection)
            return
        if connection.pending or connection.has_ended:
            self._settle(connection)               # its lines may have waited until it read more
        if bool(connection.unread) != bool(connection.events & WRITE):
            self._watch(connection)

    def _watch(self, connection: Connection) -> None:
        """Hears when a connection has more, and when it reads more, as far as that is wanted."""
        wanted = READ * connection.reads_more | WRITE * bool(connection.unread)
        if wanted == connection.events:
            return
        if not connection.events:
            self._selector.register(connection.socket, wanted, partial(self._from_user, connection))
        elif wanted:
            self._selector.modify(connection.socket, wanted, partial(self._from_user, connection))
        else:
            self._selector.unregister(connection.socket)
        connection.events = wanted

    def _close(self, connection: Connection) -> None:
        """Closes a connection."""
        if connection.events:
            self._selector.unregister(connection.socket)
            connection.events = 0
        connection.turn_deaf()
        connection.socket.close()
        self._connections.discard(connection)
        self._listen()

    # The end.

    def end(self) -> None:
        """Answers the lines that came whole, and ends; at a second call, or later ones, at once."""
        if self._is_ending:
            self._cut_all()
            return
        self._is_ending = True
        if self._is_listening:
            self._accept(READ)
        self._stop_listening()
        for connection in list(self._connections):
            for _ in range(READS_AT_END):
                if connection.has_ended or not connection.read():
                    break
            connection.has_ended = True
            self._settle(connection)
            self._watch(connection)

    def _cut_all(self) -> None:
        """Closes all connections, whatever they still have."""
        self._ready.clear()
        self._waiting.clear()
        for connection in list(self._connections):
            self._close(connection)

    @contextmanager
    def ended_by_signals(self) -> Iterator[None]:
        """Ends the server within at a signal that ends programs."""
        side, other = socket.socketpair()
        with side, other:
            side.setblocking(False)
            other.setblocking(False)
            self._selector.register(other, READ, lambda mask: self._signalled(other))
            before = {number: signal.signal(number, lambda *_: None) for number in HELD_OFF}
            signal.set_wakeup_fd(side.fileno(), warn_on_full_buffer=False)
            try:
                yield
            finally:
                signal.set_wakeup_fd(-1)
                for number, handler in before.items():
                    signal.signal(number, handler)

    def _signalled(self, side: socket.socket) -> None:
        """Ends, where a signal was one that ends programs."""
        if any(number in HELD_OFF for number in side.recv(64)):
            self.end()


def run(volume: AnyPath, path: AnyPath, idle: Optional[float], wait: float) -> int:
    """Serves a volume at a socket, tells a fault, and gives the exit status."""
    try:
        refuse_taken(os.fspath(path))
        server = Server(volume, idle, wait)
        try:
            with server.ended_by_signals():
                server.open()
                server.serve(path)
        finally:
            server.close()
        if server.fault is not None:
            raise server.fault
    except Ended as fault:
        print(fault, file=sys.stderr)
        return status_of(fault)
    except BrokenPipeError:
        leave_output()
        return 1
    except (ProgramMissing, OSError) as fault:
        tell(reason_of(fault))
        return 1
    return 0
