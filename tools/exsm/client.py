"""Drives one run of exsm, line by line: a reply is read before the next line is sent.

    with Store("v", wait=5) as store:
        with store.transaction():
            store.file("docs")
            note = store.create("docs")
            store.append(note, b"some bytes")
        store.read(note, 5, 5)                   # b"bytes"
        store.backup("v.backup")

A line that is refused raises `Refused`, and the transaction that it stands in is then aborted.
`Store.connect(SOCKET)` speaks to a server, `exsm_serve.py`, beside other users. Where the program
ends before its script does, `Ended` has its status and what it said; `Locked`, `Missing`, `Denied`
and `NoVolume` are the causes that can be told. docs/PYTHON.md has it all.
"""
from __future__ import annotations

import itertools
import os
import random
import sys
import threading
import time
import weakref
from contextlib import closing, contextmanager, suppress
from typing import Callable, Generator, Iterable, Iterator, NamedTuple, Optional

from exsm.library import LibraryMissing, opened
from exsm.objects import LINE_MOST, PIECE, READ_PIECE, Objects
from exsm.refusals import Refused, shortened
from exsm.sockets import SocketRun
from exsm.transport import (
    STATUS_NAMES, AnyPath, Cut, Denied, Ended, Locked, Missing, NoVolume, ProgramMissing, Transport,
    find_program, status_words)
from exsm.whole import copy_volume

__all__ = [
    "AnyPath", "Broken", "Cut", "Denied", "Ended", "LINE_MOST", "LibraryMissing", "Locked",
    "Missing", "NoVolume", "PIECE", "ProgramMissing", "Refused", "STATUS_NAMES", "Scan", "Shape",
    "Space", "Store", "Transport", "UPDATES_MOST", "find_program", "is_answered", "leave_output",
    "shortened", "status_words"]

UPDATES_MOST = 512
"""Updates of a transaction."""

BUSY_WAIT = 10.0
"""Seconds for which a line waits for another user's transaction where nothing else is told."""

OWN = b"client_"
"""What the names begin with that a store binds by itself."""

KEEPING = ([b"create"], [b"freeze"], [b"derive"], [b"scan"], [b"group"])
"""The first words of lines that bind a name, or open something."""

BUSY = "no 25 busy "
"""What the refusal of a line begins with that another user's transaction keeps off."""

PAUSE_LEAST, PAUSE_MOST = 0.001, 0.1
"""Seconds between two tries of a line that is refused as busy: they double, up to the most."""

Words = list[str]
"""Words of a reply."""


class Broken(Exception):
    """A line was sent whose reply wasn't read, so no later reply can be told from it."""


class Space(NamedTuple):
    """Units in use, and all that there are."""

    pages: int
    of_pages: int
    segs: int
    of_segs: int


class Shape(NamedTuple):
    """What `stat` tells of an object. A small one has no height and no leaves."""

    size: int
    height: Optional[int]
    leaves: int
    first_lengths: list[int]


def is_answered(line: bytes) -> bool:
    """Whether a line gets a reply: it has a word, and the first doesn't begin with `#`.

    One carriage return at the end is no part of a word. A line that is over the limit is refused,
    whatever it holds.
    """
    if len(line) > LINE_MOST:
        return True
    words = (line[:-1] if line.endswith(b"\r") else line).strip(b" \t")
    return words != b"" and not words.startswith(b"#")


def words_of(line: bytes, reply: Optional[str]) -> Words:
    """The words of a reply to a line behind `ok` and the first word; `Refused` where it says no."""
    # One space stands between two words. To look for any kind of space takes far longer.
    words = (reply or "").split(" ")
    if words[0] == "no":
        raise Refused(line.decode("ascii"), int(words[1]), words[2], words[3:])
    return words[2:]


def leave_output() -> None:
    """Leaves standard output, whose reader is gone: what is still to be written goes nowhere."""
    os.dup2(os.open(os.devnull, os.O_WRONLY), sys.stdout.fileno())


class Scan:
    """An open scan: the bytes of an object as they were when it was opened, whatever becomes of it.

    At most 64 are open at once.
    """

    def __init__(self, store: Store, name: str, oid: str) -> None:
        self._store, self._name = store, name
        self.size = int(store.ask(f"scan {oid} as {name}")[1])
        """How many bytes it gives in all."""

    def next(self, length: int) -> bytes:
        """The next bytes, or all that are left where they are fewer."""
        return self._store.objects.next(self._name, length)

    def __iter__(self) -> Iterator[bytes]:
        while piece := self.next(READ_PIECE):
            yield piece

    def each(self, take: Callable[[bytes], object]) -> None:
        """Hands a scan that was just opened to a function, piece by piece. The program is at the
        next piece meanwhile, so the function asks nothing of this store."""
        count = -(-self.size // READ_PIECE)
        with closing(self._store.objects.next_each(self._name, READ_PIECE, count)) as pieces:
            for piece in pieces:
                take(piece)

    def close(self) -> None:
        """Closes it: what it alone kept in use is free."""
        self._store.ask(f"close {self._name}")


class Store:
    """One run of `exsm run VOLUME`, or a connection to a server that has one with other users.

    Threads may share it. A line and its reply stay together, and a transaction belongs to the
    thread that began it: lines of the others wait until it ends. At a server a line also waits
    while another user's transaction is open, for `busy_wait` seconds at most.
    """

    is_shared = False
    """Whether other users' lines come between those of this store: it is a server's."""

    busy_wait = 0.0
    """Seconds for which a line that is refused as busy is tried again."""

    begun = 0
    """The number that the commit of the transaction has that was begun last."""

    def __init__(self, volume: AnyPath, program: Optional[str] = None, wait: float = 0) -> None:
        """Opens the volume, and waits so many seconds where another run has it.

        Where it can't be opened: `Locked`, `Missing`, `Denied`, `NoVolume`, or another `Ended`.
        """
        self._begin(opened(volume, program, wait), volume)

    @classmethod
    def connect(cls, path: AnyPath, wait: float = 0, busy_wait: float = BUSY_WAIT,
                volume: Optional[AnyPath] = None) -> Store:
        """A store over a connection to the server of a socket, `exsm_serve.py VOLUME SOCKET`.

        It waits so many seconds for a server that isn't there yet; else `OSError` says why there
        is none. A line that is refused since another user's transaction is open is tried again
        for `busy_wait` seconds. `backup` wants the name of the volume's file.
        """
        store = cls.over(SocketRun(path, wait), volume)
        store.is_shared, store.busy_wait = True, busy_wait
        return store

    @classmethod
    def over(cls, transport: Transport, volume: Optional[AnyPath] = None) -> Store:
        """A store whose lines go over a transport. `backup` wants the name of the volume's file."""
        store = cls.__new__(cls)
        store._begin(transport, volume)
        return store

    def _begin(self, transport: Transport, volume: Optional[AnyPath]) -> None:
        self.volume = None if volume is None else os.path.abspath(os.fspath(volume))
        self._transport = transport
        self._lock = threading.RLock()
        self._names = itertools.count(1)
        self._waits = False
        self._bound = False                        # whether a call of this store bound a name
        self._scans = 0                            # those of `scan` that are open
        self._keeps = False                        # whether lines of the caller bound or opened
        this = weakref.proxy(self)                 # so that a store that is forgotten goes at once
        of_session = getattr(transport, "objects", Objects)
        self.objects: Objects = of_session(lambda line: this.ask(line),
                                           lambda line: this._bind(line),
                                           lambda lines: this.ask_each(lines))
        """The calls on objects: lines, or those of the session, where it takes bytes."""

    # Lines.

    def exchange(self, line: bytes) -> Optional[str]:
        """Sends a line, which has no line feed, and gives its reply, or None where none comes."""
        with self._lock:
            self._send(line)
            return self._receive(line)

    def _send(self, line: bytes) -> None:
        """Sends a line, whose reply is to be read before another one is sent."""
        if b"\n" in line:
            raise ValueError("a line has no line feed")
        if self._waits:
            raise Broken("the wait for the reply to an earlier line was broken off, so no later "
                         "reply can be told from it: close this store, open another")
        self._waits = True
        self._keeps = self._keeps or line.split(None, 1)[:1] in KEEPING and OWN not in line
        self._transport.send(line)

    def _receive(self, line: bytes) -> Optional[str]:
        """The reply to the line that was sent, or None where none comes."""
        reply = self._transport.receive() if is_answered(line) else None
        self._waits = False
        return reply

    def patient_exchange(self, line: bytes, busy_wait: Optional[float] = None) -> Optional[str]:
        """Exchanges a line; where another user's transaction is open it is tried again.

        That is done with growing pauses, for so many seconds, or for `self.busy_wait`.
        """
        until = time.monotonic() + (self.busy_wait if busy_wait is None else busy_wait)
        pause = PAUSE_LEAST
        while True:
            reply = self.exchange(line)
            left = until - time.monotonic()
            if reply is None or not reply.startswith(BUSY) or left <= 0:
                return reply
            time.sleep(min(left, pause * random.uniform(0.5, 1)))
            pause = min(2 * pause, PAUSE_MOST)

    def ask(self, line: str, busy_wait: Optional[float] = None) -> Words:
        """Sends a line, and gives the words of its reply behind `ok` and the first word.

        A line that is refused changed nothing; one that is refused as busy is tried again.
        """
        sent = line.encode("ascii")
        if not is_answered(sent):
            raise ValueError(f"no reply comes to this line: {shortened(line)}")
        return words_of(sent, self.patient_exchange(sent, busy_wait))

    def ask_each(self, lines: Iterable[str]) -> Generator[Words, None, None]:
        """Sends lines that each get a reply, and gives the words of the replies, as `ask` does.

        A line is made while the session is at the one before, and sent before the words of that
        one's reply are given. So nothing else is asked until the iterator has ended or is closed.
        """
        with self._lock:
            sent: list[bytes] = []                 # the line whose reply is to be read
            try:
                for line in map(str.encode, lines):
                    told = [self._answer(sent.pop())] if sent else []
                    self._send(line)
                    sent.append(line)
                    yield from told
                if sent:
                    yield self._answer(sent.pop())
            finally:
                if sent:
                    with suppress(Ended, Cut):     # what led here is the fault to tell
                        self._receive(sent.pop())

    def _answer(self, sent: bytes) -> Words:
        """The words of the reply to a line that was sent, which is sent again while it is busy."""
        reply = self._receive(sent)
        if reply is not None and reply.startswith(BUSY):
            reply = self.patient_exchange(sent)
        return words_of(sent, reply)

    def close(self) -> None:
        """Ends the script, which aborts an open transaction. `Ended` tells a status but 0."""
        self._transport.end()

    def __enter__(self) -> Store:
        return self

    def __exit__(self, kind: object, *_: object) -> None:
        try:
            self.close()
        except (Ended, Cut):
            if kind is None:                       # else the first fault is the one to tell
                raise

    # Transactions and files.

    @contextmanager
    def transaction(self, busy_wait: Optional[float] = None) -> Iterator[Store]:
        """Commits what is done within; a fault of any kind aborts it and goes on to the caller.

        Where another user's transaction is open, its `begin` is tried again for so many seconds,
        or for `self.busy_wait`; then `Refused` says `busy`.
        """
        with self._lock:
            self.begun = int(self.ask("begin", busy_wait)[0])
            try:
                yield self
            except (Ended, Broken, Cut):
                raise
            except BaseException:
                self._give_up()
                raise
            self.ask("commit")
            self._let_go()

    def _let_go(self) -> None:
        """At a server, gives up names that nobody asks for again, and with them its client.

        They are bound as long as the connection stays, so the next line begins another one.
        """
        is_served = isinstance(self._transport, SocketRun)
        if is_served and self._bound and not self._keeps and not self._scans:
            self._bound = False
            self._transport.pause()

    def _bind(self, line: str) -> str:
        """Makes a version by a line to which a name is added, and gives its identifier."""
        oid, = self.ask(f"{line} as @{OWN.decode()}{next(self._names)}")
        self._bound = True
        return oid

    def _give_up(self) -> None:
        """Aborts the open transaction, where lines can be sent and the server hasn't done so.

        Where the run has ended meanwhile, what led here is the fault to tell, and `close` tells it.
        """
        if not self._waits:
            try:
                self.ask("abort")
            except Refused as no:
                if no.name != "no_txn":
                    raise
            except (Ended, Cut):
                pass

    @contextmanager
    def snapshot(self) -> Iterator[Store]:
        """What is read within is of one moment: at a server no user commits meanwhile.

        There it is a transaction, which is aborted at the end; else nothing comes between anyway.
        """
        with self._lock:
            if self.is_shared:
                self.begun = int(self.ask("begin")[0])
            try:
                yield self
            finally:
                if self.is_shared and self.is_usable():
                    self._give_up()

    def backup(self, path: AnyPath) -> int:
        """Copies the volume as the last commit left it, and gives that commit's number.

        The copy is synced and opened by the program before it gets its name. Lines of other
        threads wait meanwhile; an open transaction goes on, and isn't in the copy. At a server a
        transaction of this store keeps other users from commits. A file that is there is refused
        by `FileExistsError`.
        """
        if self.volume is None:
            raise ValueError("this store has no file of a volume that could be copied")
        with self._lock:
            try:
                with self.snapshot():
                    return copy_volume(self.volume, path)
            except Refused as no:
                if no.name != "txn_open":          # this store's own keeps the others off
                    raise
                return copy_volume(self.volume, path)

    def checkpoint(self) -> None:
        """Writes logged pages home and empties the log."""
        self.ask("checkpoint")

    def log(self) -> int:
        """The records of the log that count."""
        return int(self.ask("log")[0])

    def space(self) -> Space:
        """Units in use, and all that there are."""
        words = self.ask("space")
        return Space(int(words[1]), int(words[3]), int(words[5]), int(words[7]))

    def file(self, name: str) -> None:
        """Makes an empty file."""
        self.ask(f"file {name}")

    def unfile(self, name: str) -> None:
        """Removes a file without objects."""
        self.ask(f"unfile {name}")

    def files(self) -> Words:
        """The names of all files, in byte order."""
        return self.ask("files")[1:]

    def list(self, name: str) -> Words:
        """The identifiers of a file's current versions, in order of their numbers."""
        return self.ask(f"list {name}")[1:]

    # Objects. A version is named by its identifier, as `create`, `list` and `versions` give it.

    def create(self, file: str) -> str:
        """Makes an empty object in a file, and gives its identifier."""
        with self._lock:
            return self.objects.create(file)

    def destroy(self, oid: str) -> None:
        """Removes a current version, and its object where it is the only one."""
        self.ask(f"destroy {oid}")

    def freeze(self, oid: str) -> str:
        """Puts a frozen copy of a current version before it, and gives the copy's identifier."""
        with self._lock:
            return self.objects.freeze(oid)

    def derive(self, oid: str) -> str:
        """Makes a current version with the bytes of a frozen one, and gives its identifier."""
        with self._lock:
            return self.objects.derive(oid)

    def versions(self, oid: str) -> Words:
        """The identifiers of all versions of an object, each before those derived from it."""
        return self.ask(f"versions {oid}")[1:]

    def drop(self, oid: str) -> None:
        """Removes a frozen version; what is derived from it is derived from its older one."""
        self.ask(f"drop {oid}")

    def size(self, oid: str) -> int:
        """The bytes of an object."""
        with self._lock:
            return self.objects.size(oid)

    def stat(self, oid: str) -> Shape:
        """Whether an object is small or large, and how a large one lies."""
        form, size, *words = self.ask(f"stat {oid}")
        if form == "small":
            return Shape(int(size), None, 0, [])
        return Shape(int(size), int(words[1]), int(words[3]), [int(word) for word in words[4:]])

    def digest(self, oid: str) -> bytes:
        """The SHA-256 of an object's bytes, which the session reads itself."""
        with self._lock:
            return self.objects.digest(oid)

    def _pieces_of(self, data: bytes) -> Iterator[tuple[int, bytes]]:
        """Bytes in pieces that a call takes, each with its place among them."""
        piece = self.objects.piece
        if len(data) <= piece:
            if data:
                yield 0, data
            return
        for start in range(0, len(data), piece):
            yield start, data[start:start + piece]

    def append(self, oid: str, data: bytes) -> None:
        """Puts bytes at the end, in as many calls as they need."""
        for _, piece in self._pieces_of(data):
            with self._lock:
                self.objects.append(oid, piece)

    def append_each(self, oid: str, pieces: Iterable[bytes]) -> None:
        """Puts pieces at the end. Each is made while the program is at the one before, so what
        makes them asks nothing of this store."""
        parts = (part for piece in pieces for _, part in self._pieces_of(piece))
        with self._lock:
            self.objects.append_each(oid, parts)

    def insert(self, oid: str, position: int, data: bytes) -> None:
        """Puts bytes in before the one at a position, in as many calls as they need."""
        for start, piece in self._pieces_of(data):
            with self._lock:
                self.objects.insert(oid, position + start, piece)

    def replace(self, oid: str, position: int, data: bytes) -> None:
        """Puts bytes over those from a position on, in as many calls as they need."""
        for start, piece in self._pieces_of(data):
            with self._lock:
                self.objects.replace(oid, position + start, piece)

    def delete(self, oid: str, position: int, length: int) -> None:
        """Takes bytes out."""
        with self._lock:
            self.objects.delete(oid, position, length)

    def pieces(self, oid: str, position: int = 0, length: Optional[int] = None) -> Iterator[bytes]:
        """The bytes from a position on, as many as told or all, a piece at a time."""
        end = self.size(oid) if length is None else position + length
        while position < end:
            with self._lock:
                piece = self.objects.read(oid, position,
                                          min(self.objects.read_piece, end - position))
            position += len(piece)
            yield piece

    def read(self, oid: str, position: int = 0, length: Optional[int] = None) -> bytes:
        """The bytes from a position on, as many as told or all."""
        return b"".join(self.pieces(oid, position, length))

    # Scans.

    @contextmanager
    def scan(self, oid: str) -> Iterator[Scan]:
        """Opens a scan of an object's bytes as they are now; the end of the block closes it."""
        self._scans += 1
        try:
            scan = Scan(self, f"{OWN.decode()}scan_{next(self._names)}", oid)
            try:
                yield scan
            finally:
                if self.is_usable():
                    scan.close()
        finally:
            self._scans -= 1

    def is_usable(self) -> bool:
        """Whether lines can be sent: the run goes on, and each reply was read."""
        return not self._waits and self._transport.goes_on()
