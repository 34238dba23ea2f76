"""A session of a volume within this process, by the library for C: no other process, no pipe.

`Store` takes it where the library is there and no program is named; `docs/LIBRARY.md` says more.
"""
from __future__ import annotations

import ctypes
import errno
import os
import re
import weakref
from functools import lru_cache
from pathlib import Path
from typing import Any, Callable, Generator, Iterable, Optional

from exsm.objects import Ask, AskEach, Bind, Objects
from exsm.refusals import NAMES, Refused
from exsm.transport import (
    BAD_VOLUME, DISK_FAULT, AnyPath, Denied, Ended, Locked, Missing, NoVolume, Transport, begun,
    status_words, waited)

OK, MISUSE, NOMEM, DISK, DAMAGED, BAD, IN_USE, OS = 0, 51, 100, 101, 102, 104, 105, 106
"""Results of the library's calls, as exsm.h has them."""

READ_ALL, LATER = 1, 2
"""Flags of an opening, as exsm.h has them."""

PARTS = ("super", "log", "catalog", "file", "page", "body", "node", "balance", "unique")
"""The parts of a volume, by their numbers from 1 on."""

DATA_MOST = 16_777_216
"""Bytes that a call gives or asks for at most."""

ROOM = 65_536
"""Bytes of the buffer that short reads share."""

DIGEST_LEN = 32

IDENTIFIER = re.compile(r"([0-9]{1,20})\.([0-9]{1,20})\.([0-9]{1,20})")
NAME = re.compile(r"[a-z0-9_]{1,32}")

STATUSES = {NOMEM: 7, DISK: DISK_FAULT, DAMAGED: 8, BAD: BAD_VOLUME, IN_USE: DISK_FAULT,
            OS: DISK_FAULT}
"""The status of a run of the program that meets the same fault."""

KINDS = {BAD: NoVolume, IN_USE: Locked}
"""The exceptions of faults of an opening."""

KINDS_BY_REASON = {errno.ENOENT: Missing, errno.EACCES: Denied, errno.EPERM: Denied,
                   errno.EROFS: Denied}
"""The exceptions of a file that can't be opened, by the system's reason."""


class LibraryMissing(Exception):
    """There is no library where `EXSM_LIBRARY` names one, or it is none of exsm."""


class Reason(ctypes.Structure):
    """`exsm_reason`: what the core knows of a call that wasn't done."""

    _fields_ = [
        ("code", ctypes.c_uint32), ("scans", ctypes.c_uint8), ("area", ctypes.c_uint8),
        ("updates", ctypes.c_uint32), ("touched", ctypes.c_uint32), ("need", ctypes.c_uint64),
        ("free", ctypes.c_uint64), ("derived", ctypes.c_uint64), ("page", ctypes.c_uint32),
        ("want_kind", ctypes.c_uint8), ("want_level", ctypes.c_uint8),
        ("got_kind", ctypes.c_uint8), ("got_level", ctypes.c_uint8),
        ("want_total", ctypes.c_uint64), ("got_total", ctypes.c_uint64)]

    def values(self) -> list[str]:
        """The values that a refusal is told with."""
        name = NAMES[self.code] if self.code < len(NAMES) else ""
        return {
            "too_many": ["scans" if self.scans else "groups"],
            "long_txn": [str(self.updates), str(self.touched)],
            "full": ["segs" if self.area else "pages", str(self.need), str(self.free)],
            "branches": [str(self.derived)],
        }.get(name, [])


class Why(ctypes.Structure):
    """`exsm_why`: what is known of a call that wasn't done."""

    _fields_ = [("code", ctypes.c_int), ("os_error", ctypes.c_int), ("part", ctypes.c_uint8),
                ("told", Reason)]


class Oid(ctypes.Structure):
    """`exsm_oid`: the identifier of a version."""

    _fields_ = [("page", ctypes.c_uint32), ("slot", ctypes.c_uint16), ("unique", ctypes.c_uint64)]

    def __str__(self) -> str:
        return f"{self.page}.{self.slot}.{self.unique}"


HANDLE, TO, BYTES = ctypes.c_void_p, ctypes.c_void_p, ctypes.c_char_p
SIZE, NUMBER = ctypes.c_size_t, ctypes.c_uint64

CALLS: dict[str, tuple[Any, ...]] = {
    "close": (HANDLE,), "sync": (HANDLE,), "open": (BYTES, ctypes.c_uint, TO, TO),
    "line": (HANDLE, BYTES, SIZE, TO, TO),
    "create": (HANDLE, BYTES, TO), "freeze": (HANDLE, TO, TO), "derive": (HANDLE, TO, TO),
    "size": (HANDLE, TO, TO), "digest": (HANDLE, TO, TO),
    "read": (HANDLE, TO, NUMBER, TO, SIZE), "append": (HANDLE, TO, BYTES, SIZE, TO),
    "insert": (HANDLE, TO, NUMBER, BYTES, SIZE, TO),
    "replace": (HANDLE, TO, NUMBER, BYTES, SIZE, TO),
    "delete": (HANDLE, TO, NUMBER, NUMBER, TO), "next": (HANDLE, BYTES, TO, SIZE, TO)}
"""The calls that answer a result, and the types of what they take."""


@lru_cache(maxsize=None)
def loaded(path: str) -> ctypes.CDLL:
    """The library of a path, with the types of its calls."""
    try:
        library = ctypes.CDLL(path)
        for name, words in CALLS.items():
            getattr(library, f"exsm_{name}").argtypes = words
        library.exsm_text.argtypes, library.exsm_text.restype = (ctypes.c_int,), BYTES
        library.exsm_version.restype = BYTES
        library.exsm_last.argtypes, library.exsm_last.restype = (HANDLE, TO), None
    except (OSError, AttributeError) as fault:
        raise LibraryMissing(f"{path}: {fault}") from None
    return library


def find_library() -> Optional[str]:
    """The library: `$EXSM_LIBRARY`, where that is empty none; else, where `$EXSM` names no program,
    the one that this repository built or that was installed."""
    if "EXSM_LIBRARY" in os.environ:
        return os.environ["EXSM_LIBRARY"] or None
    if "EXSM" in os.environ:
        return None
    tools = Path(__file__).resolve().parent.parent
    for folder in (tools.parent / "library" / "out", tools.parent):
        if (folder / "libexsm.so").is_file():
            return str(folder / "libexsm.so")
    return None


class LibraryRun:
    """One session of a volume, which the library has open in this process."""

    def __init__(self, volume: AnyPath, library: Optional[str] = None, flags: int = 0) -> None:
        """Opens the volume by the library of a path, or by the one that is found.

        Where it can't be opened: `Locked`, `Missing`, `Denied`, `NoVolume`, or another `Ended`.
        """
        path = library or find_library()
        if path is None:
            raise LibraryMissing("there is no library exsm: build it by library/build, or name it "
                                 "by EXSM_LIBRARY")
        self._library, self._volume = loaded(path), os.fsencode(volume)
        self._handle, why = ctypes.c_void_p(), Why()
        self._why: Optional[Why] = None
        self._reply, self._reply_len = ctypes.c_void_p(), ctypes.c_size_t()
        self._reply_to = ctypes.byref(self._reply), ctypes.byref(self._reply_len)
        if self._library.exsm_open(self._volume, flags, ctypes.byref(self._handle),
                                   ctypes.byref(why)) != OK:
            raise self._fault_of(why)
        # (It is closed too where the run is forgotten, and where this process ends.)
        self._close = weakref.finalize(self, self._library.exsm_close, self._handle)

    def send(self, line: bytes) -> None:
        """Steps on a line."""
        self._hold(self._library.exsm_line(self.handle, line, len(line), *self._reply_to))

    def receive(self) -> str:
        """The reply of the last line."""
        return ctypes.string_at(self._reply, self._reply_len.value).decode("ascii")

    def sync(self) -> None:
        """Under `LATER`, makes the commits that were answered outlast a loss of power."""
        self._hold(self._library.exsm_sync(self.handle))

    def objects(self, ask: Ask, bind: Bind, ask_each: AskEach) -> ObjectsByValue:
        """The calls on objects, which pass bytes as they are."""
        return ObjectsByValue(self, ask, bind, ask_each)

    def call(self, name: str, line: Callable[[], str], *values: Any) -> None:
        """Makes a call by values; where it is refused, `Refused` says so of the line like it."""
        code = getattr(self._library, f"exsm_{name}")(self.handle, *values)
        if code == OK:
            return
        self._hold(code)
        why = Why()
        self._library.exsm_last(self._handle, ctypes.byref(why))
        raise Refused(line(), code, NAMES[code], why.told.values())

    def goes_on(self) -> bool:
        """Whether the session is open, and met no fault."""
        return self._close.alive and self._why is None

    def end(self) -> None:
        """Closes the session; a second call does nothing."""
        if not self._close.alive:
            return
        code = self._close()
        if self._why is not None:
            raise self._fault_of(self._why)
        if code != OK:
            raise self._fault_of(Why(code))

    @property
    def handle(self) -> ctypes.c_void_p:
        """The handle of the session, where it goes on."""
        if not self._close.alive:
            raise ValueError("the session is closed")
        if self._why is not None:
            raise self._fault_of(self._why)
        return self._handle

    def _hold(self, code: int) -> None:
        """Raises where a call wasn't done: after a fault the session is down."""
        if code == MISUSE:
            raise RuntimeError("the session is in another call, or is that of the parent process")
        if code >= NOMEM:
            self._why = Why()
            self._library.exsm_last(self._handle, ctypes.byref(self._why))
            raise self._fault_of(self._why)

    def _fault_of(self, why: Why) -> Ended:
        """The exception of a fault, with the texts that the program has for it."""
        status, volume = STATUSES[why.code], os.fsdecode(self._volume)
        text = self._library.exsm_text(why.code).decode("ascii")
        if why.os_error:
            text = f"{os.strerror(why.os_error)} (os error {why.os_error})"
        kind = KINDS.get(why.code, Ended)
        if why.code == OS:
            kind = KINDS_BY_REASON.get(why.os_error, Ended)
        said = status_words(status)
        if why.code == BAD and 0 < why.part <= len(PARTS):
            text, said = f"{text}, part {PARTS[why.part - 1]}", f"{said} {PARTS[why.part - 1]}"
        return kind(status, f"exsm: {volume}: {text}\nexsm: {said}")


class ObjectsByValue(Objects):
    """Calls on objects of a session of the library, by bytes. What they don't take, as a bound
    name in an identifier's place, goes as a line."""

    piece = read_piece = DATA_MOST

    def __init__(self, run: LibraryRun, ask: Ask, bind: Bind, ask_each: AskEach) -> None:
        super().__init__(ask, bind, ask_each)
        self._run = run
        self._made, self._number, self._length = Oid(), ctypes.c_uint64(), ctypes.c_size_t()
        self._room = ctypes.create_string_buffer(ROOM)

    @staticmethod
    def _oid(text: str) -> Optional[Oid]:
        """The identifier of a text, where it is one and its numbers fit their fields."""
        found = IDENTIFIER.fullmatch(text)
        if found is None:
            return None
        page, slot, unique = map(int, found.groups())
        fits = page >> 32 == 0 and slot >> 16 == 0 and unique >> 64 == 0
        return Oid(page, slot, unique) if fits else None

    def create(self, file: str) -> str:
        if NAME.fullmatch(file) is None:
            return super().create(file)
        self._run.call("create", lambda: f"create {file} as @new", file.encode("ascii"),
                       ctypes.byref(self._made))
        return str(self._made)

    def _made_of(self, word: str, text: str) -> Optional[str]:
        """The identifier of a version that a call makes of another one."""
        oid = self._oid(text)
        if oid is None:
            return None
        self._run.call(word, lambda: f"{word} {text} as @new", ctypes.byref(oid),
                       ctypes.byref(self._made))
        return str(self._made)

    def freeze(self, oid: str) -> str:
        return self._made_of("freeze", oid) or super().freeze(oid)

    def derive(self, oid: str) -> str:
        return self._made_of("derive", oid) or super().derive(oid)

    def size(self, oid: str) -> int:
        x = self._oid(oid)
        if x is None:
            return super().size(oid)
        self._run.call("size", lambda: f"size {oid}", ctypes.byref(x), ctypes.byref(self._number))
        return self._number.value

    def digest(self, oid: str) -> bytes:
        x = self._oid(oid)
        if x is None:
            return super().digest(oid)
        self._run.call("digest", lambda: f"digest {oid}", ctypes.byref(x), self._room)
        return ctypes.string_at(self._room, DIGEST_LEN)

    def _filled(self, length: int, fill: Callable[[Any], int]) -> bytes:
        """Bytes of a buffer of a length that a call fills, as many as it says."""
        if length <= ROOM:
            return ctypes.string_at(self._room, fill(self._room))
        room = bytearray(length)
        count = fill((ctypes.c_char * length).from_buffer(room))
        return bytes(memoryview(room)[:count])

    def read(self, oid: str, position: int, length: int) -> bytes:
        x = self._oid(oid)
        if x is None or not (0 <= position < 1 << 64 and 0 <= length <= DATA_MOST):
            return super().read(oid, position, length)

        def fill(room: Any) -> int:
            self._run.call("read", lambda: f"read {oid} {position} {length}", ctypes.byref(x),
                           position, room, length)
            return length
        return self._filled(length, fill)

    def next(self, scan: str, length: int) -> bytes:
        if not 0 <= length <= DATA_MOST:
            return super().next(scan, length)

        def fill(room: Any) -> int:
            self._run.call("next", lambda: f"next {scan} {length}", scan.encode("ascii"), room,
                           length, ctypes.byref(self._length))
            return self._length.value
        return self._filled(length, fill)

    def next_each(self, scan: str, length: int, count: int) -> Generator[bytes, None, None]:
        for _ in range(count):
            yield self.next(scan, length)

    def append(self, oid: str, data: bytes) -> None:
        x = self._oid(oid)
        if x is None:
            return super().append(oid, data)
        return self._run.call("append", lambda: f"append {oid} hex:..", ctypes.byref(x),
                              bytes(data), len(data), None)

    def append_each(self, oid: str, pieces: Iterable[bytes]) -> None:
        for piece in pieces:
            self.append(oid, piece)

    def insert(self, oid: str, position: int, data: bytes) -> None:
        x = self._oid(oid)
        if x is None or not 0 <= position < 1 << 64:
            return super().insert(oid, position, data)
        return self._run.call("insert", lambda: f"insert {oid} {position} hex:..", ctypes.byref(x),
                              position, bytes(data), len(data), None)

    def replace(self, oid: str, position: int, data: bytes) -> None:
        x = self._oid(oid)
        if x is None or not 0 <= position < 1 << 64:
            return super().replace(oid, position, data)
        return self._run.call("replace", lambda: f"replace {oid} {position} hex:..",
                              ctypes.byref(x), position, bytes(data), len(data), None)

    def delete(self, oid: str, position: int, length: int) -> None:
        x = self._oid(oid)
        if x is None or not (0 <= position < 1 << 64 and 0 <= length < 1 << 64):
            return super().delete(oid, position, length)
        return self._run.call("delete", lambda: f"delete {oid} {position} {length}",
                              ctypes.byref(x), position, length, None)


def opened(volume: AnyPath, program: Optional[str] = None, wait: float = 0) -> Transport:
    """A session that has the volume open: of the library where it is there and no program is named,
    else a run of the program. Where another one has it, it is tried again for so many seconds."""
    library = None if program else find_library()
    if library is None:
        return waited(lambda: begun(volume, program), wait)
    return waited(lambda: LibraryRun(volume, library), wait)
