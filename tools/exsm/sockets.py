"""The file of a socket, and a session over the connection to one."""
from __future__ import annotations

import errno
import os
import re
import select
import socket
import stat
import time
from typing import NoReturn

from exsm.transport import (
    READ_AT_ONCE, WAIT_STEP, AnyPath, Cut, Ended, ended_by, status_words)

PATH_MOST = 107
"""Bytes of the path of a socket."""

TOLD = "exsm: "
"""What begins each line in which a server tells how the program ended. No reply begins so."""

STATUS_TOLD = re.compile(r"^exsm: (?:status (\d+)( .*)?|ended by signal (\d+))$")
"""The last of these lines."""

BACKLOG = 128

NOT_THERE = (FileNotFoundError, ConnectionRefusedError)


def told_end(fault: Ended) -> str:
    """The lines in which a server tells how the program ended; the last one has the status."""
    lines = [line for line in fault.text.splitlines() if line.startswith(TOLD)]
    if not lines or not STATUS_TOLD.match(lines[-1]):
        lines.append(TOLD + status_words(fault.status))
    return "\n".join(lines)


def is_socket(path: AnyPath) -> bool:
    """Whether a path names a socket."""
    try:
        return stat.S_ISSOCK(os.stat(path).st_mode)
    except OSError:
        return False


def new_socket() -> socket.socket:
    """A socket of the file system."""
    return socket.socket(socket.AF_UNIX, socket.SOCK_STREAM)


def part_of(path: str) -> str:
    """The name of a socket until it can be connected to."""
    return f"{path}.{os.getpid()}"


def refuse_taken(path: str) -> None:
    """Refuses a socket's path that is too long, or has another file or a server that answers."""
    more = len(os.fsencode(part_of(path))) - PATH_MOST
    if more > 0:
        raise OSError(errno.ENAMETOOLONG, "the path of a socket has at most "
                      f"{len(os.fsencode(path)) - more} bytes", path)
    try:
        if not stat.S_ISSOCK(os.lstat(path).st_mode):
            raise FileExistsError(errno.EEXIST, "it is there already, and is no socket", path)
    except FileNotFoundError:
        return
    with new_socket() as side:
        side.setblocking(False)
        try:
            side.connect(path)
        except ConnectionRefusedError:
            return                                 # left by a server that was killed
        except OSError as fault:
            if fault.errno != errno.EAGAIN:        # its queue is full, so it is there
                raise OSError(fault.errno, fault.strerror, path) from None
    raise OSError(errno.EADDRINUSE, "a server answers there already", path)


class Listening:
    """A socket that has its name once it can be connected to, and while it listens."""

    def __init__(self, path: AnyPath) -> None:
        self.path = os.fspath(path)
        part = part_of(self.path)
        refuse_taken(self.path)
        self.socket = new_socket()
        try:
            self.socket.bind(part)
            self.socket.listen(BACKLOG)
            self.socket.setblocking(False)
            self._made = os.lstat(part).st_ino
            os.rename(part, self.path)
        except OSError as fault:
            self.socket.close()
            raise OSError(fault.errno, fault.strerror, self.path) from None

    def close(self) -> None:
        """Listens no more, and removes the file where it is still this socket's."""
        try:
            if os.lstat(self.path).st_ino == self._made:
                os.unlink(self.path)
        except OSError:
            pass                                   # it is gone, or its folder is
        self.socket.close()


class SocketRun:
    """A session over a connection to a server, `exsm_serve.py`: a `Transport`."""

    def __init__(self, path: AnyPath, wait: float = 0) -> None:
        """Connects, and waits so many seconds for a server that isn't there yet."""
        self._path = os.fspath(path)
        self._is_there = self._is_paused = False
        self._connect(wait)

    def _connect(self, wait: float) -> None:
        """Connects."""
        until = time.monotonic() + wait
        while True:
            self._socket = new_socket()
            try:
                self._socket.connect(self._path)
                break
            except BaseException as fault:
                self._socket.close()
                if not isinstance(fault, NOT_THERE) or time.monotonic() >= until:
                    raise self._told(fault) from None
            time.sleep(WAIT_STEP)
        self._is_there, self._is_paused = True, False
        self._replies = self._socket.makefile("rb", buffering=READ_AT_ONCE)

    def _told(self, fault: BaseException) -> BaseException:
        """A fault of the connecting, with the socket's name."""
        if isinstance(fault, ConnectionRefusedError):
            return ConnectionRefusedError(fault.errno, "no server answers there", self._path)
        if isinstance(fault, OSError):
            return OSError(fault.errno or errno.ENAMETOOLONG, fault.strerror or str(fault),
                           self._path)
        return fault

    def send(self, line: bytes) -> None:
        """Sends a line."""
        if self._is_paused:
            self._connect(0)
        try:
            self._socket.sendall(line + b"\n")
        except ConnectionError:
            self.receive()                         # tells why, where the server told it
            self._cut()

    def receive(self) -> str:
        """The next reply."""
        try:
            reply = self._replies.readline()
            if reply.startswith(TOLD.encode()):
                self._ended(reply + self._replies.read())
        except ConnectionError:
            self._cut()
        if not reply.endswith(b"\n"):
            self._cut()
        return reply[:-1].decode("ascii")

    def _ended(self, told: bytes) -> NoReturn:
        """Raises what the server told of the program's end."""
        self._is_there = False
        text = told.decode(errors="replace")
        status = STATUS_TOLD.match(text.splitlines()[-1])
        if status is None:
            self._cut()                            # it was cut off while it told
        raise ended_by(int(status[1]) if status[1] else -int(status[3]), text)

    def _cut(self) -> NoReturn:
        """Raises that the connection has ended."""
        self._is_there = False
        raise Cut(errno.ECONNRESET, "the server ended, or was cut off", self._path)

    def goes_on(self) -> bool:
        """Whether the server is there, as far as it is known."""
        if self._is_paused or not self._is_there:
            return self._is_paused
        try:
            if select.select([self._socket], [], [], 0)[0]:
                self._is_there = self._socket.recv(1, socket.MSG_PEEK) != b""
        except (ConnectionError, ValueError):
            self._is_there = False
        return self._is_there

    def pause(self) -> None:
        """Gives up what the connection holds: it ends, and the next line begins another one."""
        try:
            self.end()
        except Ended:
            pass                                   # the next line finds no server
        self._is_paused = True

    def end(self) -> None:
        """Ends the lines, and waits until the server aborted what is open; once."""
        self._is_paused = False
        if self._socket.fileno() < 0:
            return
        try:
            self._finish()
        finally:
            self._is_there = False
            self._replies.close()
            self._socket.close()

    def _finish(self) -> None:
        """Tells the server that no line follows, and reads what it still sends."""
        try:
            self._socket.shutdown(socket.SHUT_WR)
        except OSError:
            pass                                   # the server is gone; what it told is still there
        try:
            for reply in self._replies:
                if reply.startswith(TOLD.encode()):
                    self._ended(reply + self._replies.read())
        except ConnectionError:
            pass
