"""A server of a volume, and users that speak to it line by line."""
from __future__ import annotations

import os
import select
import signal
import socket
import subprocess
import sys
from typing import Optional

from tests.kills import children
from tests.support import SECONDS, TOOLS, OfRows


class User:
    """A connection to a socket."""

    def __init__(self, path: str = "s") -> None:
        self.side = socket.socket(socket.AF_UNIX)
        self.side.settimeout(SECONDS)
        self.side.connect(path)
        self.came = b""

    def send(self, *lines: str) -> None:
        """Sends lines."""
        self.side.sendall("".join(f"{line}\n" for line in lines).encode())

    def reply(self) -> Optional[str]:
        """The next line that comes; None at the end."""
        while b"\n" not in self.came:
            piece = self.side.recv(1 << 20)
            if not piece:
                assert not self.came, self.came
                return None
            self.came += piece
        line, _, self.came = self.came.partition(b"\n")
        return line.decode()

    def ask(self, *lines: str) -> list[Optional[str]]:
        """Sends lines one after the other, and gives what each is answered."""
        replies = []
        for line in lines:
            self.send(line)
            replies.append(self.reply())
        return replies

    def rest(self) -> list[str]:
        """All that comes until the end."""
        lines = []
        while (line := self.reply()) is not None:
            lines.append(line)
        return lines

    def hears_nothing(self, seconds: float = 0.3) -> bool:
        """Whether nothing comes for some time."""
        return not self.came and not select.select([self.side], [], [], seconds)[0]

    def says_no_more(self) -> None:
        """Ends its lines."""
        self.side.shutdown(socket.SHUT_WR)

    def cut(self) -> None:
        """Goes without a word."""
        self.side.close()


class InServed(OfRows):
    """A test of servers."""

    def serve(self, *options: str, volume: str = "v", path: str = "s",
              files: int = 1024) -> subprocess.Popen[bytes]:
        """Starts a server, which is killed at the end of the test, and may open so many files."""
        server = subprocess.Popen(
            ["bash", "-c", f'ulimit -n {files} && exec "$@"', "bash", sys.executable,
             str(TOOLS / "exsm_serve.py"), volume, path, *options],
            stdin=subprocess.DEVNULL, stdout=subprocess.PIPE, stderr=subprocess.PIPE)
        self.addCleanup(self.kill, server)
        told = server.stdout.readline().decode()
        self.assertEqual(told, f"{volume}: served at {path}\n", server.stderr.read()
                         if not told else b"")
        return server

    @staticmethod
    def kill(server: subprocess.Popen[bytes]) -> None:
        """Kills a server that is still there."""
        if server.poll() is None:
            server.kill()
            server.wait(SECONDS)
        server.stdout.close()
        server.stderr.close()

    @staticmethod
    def program(server: subprocess.Popen[bytes]) -> int:
        """The process of a server's program."""
        return children(server.pid)[0]

    def user(self, path: str = "s") -> User:
        """A user, who goes at the end of the test."""
        user = User(path)
        self.addCleanup(user.cut)
        return user

    def end(self, server: subprocess.Popen[bytes], status: int = 0) -> list[str]:
        """Ends a server, which leaves no socket, and gives what it told."""
        server.send_signal(signal.SIGTERM)
        return self.ended(server, status)

    def ended(self, server: subprocess.Popen[bytes], status: int) -> list[str]:
        """Waits for the end of a server, which leaves no socket, and gives what it told."""
        self.assertEqual(server.wait(SECONDS), status)
        self.assertFalse(os.path.lexists("s"))
        return server.stderr.read().decode().splitlines()

    def lines_of_run(self, *lines: str, volume: str = "v") -> list[str]:
        """What a run on the volume is answered."""
        ran = self.exsm("run", volume, given="".join(f"{line}\n" for line in lines).encode())
        self.assertEqual((ran.status, ran.errors), (0, []))
        return ran.lines

    def made(self, data: str = "616263") -> str:
        """Makes a volume with an object, and gives its identifier."""
        self.format()
        return self._object(f"hex:{data}")

    def made_of_a_mib(self) -> str:
        """Makes a larger volume with an object of 1 MiB, and gives its identifier."""
        self.format(page_size=4096, pages=200, segs=2000, fan=169)
        return self._object("rep:1048576:00")

    def _object(self, data: str) -> str:
        """Makes an object with what a word of data says, and gives its identifier."""
        return self.lines_of_run("begin", "file a", "create a as @x", f"append @x {data}",
                                 "commit")[2].split()[2]
