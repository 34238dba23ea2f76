"""What the tests of the library for C share: where it was built, programs in C, and its core by
itself."""
from __future__ import annotations

import ctypes
import filecmp
import os
import re
import shutil
import subprocess
import unittest
from pathlib import Path
from typing import Iterator, Optional

from fuzzing.trace import Call, CallKind
from tests.support import TOP, InFolder, Ran

LIBRARY = TOP / "library"
SOURCES = LIBRARY / "tests"
BUILT = Path(os.environ.get("EXSM_LIBRARY_FOLDER", LIBRARY / "out"))
"""Where the library was built; `tools/test --library FOLDER` names another folder."""

WARNINGS = ("-Wall", "-Wextra", "-Werror")
WRAPPED = ("pwrite", "pread", "fdatasync", "flock", "mmap", "madvise", "malloc", "calloc",
           "realloc")
"""The calls of the layer that tests/calls.c stands in front of."""

SANITIZERS = ("-fsanitize=address,undefined", "-fno-sanitize-recover=all", "-O1")
VALGRIND = ("valgrind", "-q", "--error-exitcode=99", "--leak-check=full",
            "--show-leak-kinds=definite,indirect,possible",
            "--errors-for-leak-kinds=definite,indirect", "--child-silent-after-fork=yes")
LATER, READ_ALL = 2, 1
SECONDS = 600
LAYER = tuple(LIBRARY / f"{name}.c" for name in ("exsm_file", "exsm_calls", "exsm_format", "heap"))
VERSION = '-DEXSM_VERSION="0.0.0"'
FLAGS = (0, READ_ALL, LATER)
KILLED = -9

COMMITS = [
    ["begin", "file a", "create a as @x", "append @x rep:3000:61", "commit"],
    ["begin", "insert @x 1000 rep:700:62", "create a as @y", "append @y hex:79", "commit"],
    ["begin", "freeze @x as @old", "replace @x 10 rep:2000:63", "commit"],
    ["begin", "delete @x 5 1500", "append @y rep:900:64", "commit", "checkpoint"],
    ["begin", "append @x rep:5000:65", "abort"],
    ["begin", "destroy @y", "derive @old as @new", "insert @new 3 rep:600:66", "commit"],
]
"""Lines whose commits change small and large objects, and versions."""

LINES = [line for part in COMMITS for line in part]
LAST = LINES.count("commit")


def is_built() -> bool:
    """Whether the library was built."""
    return (BUILT / "libexsm.so").is_file()


NEEDS_LIBRARY = unittest.skipUnless(is_built(), f"{BUILT} has no library: library/build builds it")


class OfLibrary(InFolder):
    """A test that compiles programs in C."""

    def compiler(self) -> str:
        """The compiler, where there is one."""
        return self.found("cc", "gcc", "clang")

    def found(self, *names: str) -> str:
        """The first program of these that is there; skips the test where none is."""
        for name in names:
            path = shutil.which(name)
            if path is not None:
                return path
        self.skipTest(f"there is no {names[0]} here")

    def compiled(self, name: str, *words: object, compiler: Optional[str] = None) -> Path:
        """A program of C, made in the folder of the test."""
        ran = self.run_words(compiler or self.compiler(), *WARNINGS, "-g", f"-I{LIBRARY}",
                             f"-I{SOURCES}", *words, "-o", name)
        self.assertEqual((ran.status, ran.errors), (0, []))
        return self.folder / name

    def of_layer(self, name: str, source: str, *words: object, core: tuple[object, ...]) -> Path:
        """A program over the layer, of which calls on the system go through tests/calls.c."""
        wraps = f"-Wl,{','.join(f'--wrap={call}' for call in WRAPPED)}"
        return self.compiled(name, "-std=gnu99", SOURCES / source, SOURCES / "calls.c", *core,
                             "-pthread", wraps, *words)

    def hold_same_bytes(self, one: str, other: str) -> None:
        """Holds that two files have the same bytes."""
        is_same = filecmp.cmp(one, other, shallow=False)
        self.assertTrue(is_same, f"{one} has other bytes than {other}")

    def ran(self, *words: object, given: bytes = b"", **variables: str) -> Ran:
        """Runs a program with variables of its own."""
        run = subprocess.run([str(word) for word in words], input=given, capture_output=True,
                             timeout=SECONDS, check=False, env={**os.environ, **variables})
        return Ran(run.returncode, run.stdout, run.stderr)


class Asked(ctypes.Structure):
    """`exsm_asked`: a call that is to be made on the disk."""

    _fields_ = [("is_write", ctypes.c_uint8), ("at", ctypes.c_uint64), ("len", ctypes.c_uint64)]


class Refused(Exception):
    """The core met a fault, by its number."""


class Core:
    """The core over an image in memory, and the calls that it asked for, with its replies between
    them."""

    def __init__(self, image: bytes) -> None:
        self._library = ctypes.CDLL(str(BUILT / "libexsm.so"))
        for call in (self._library.exsm_core_asked, self._library.exsm_core_text_len):
            call.restype = ctypes.c_size_t
        self.image = bytearray(image)
        lent = (ctypes.c_uint8 * len(image)).from_buffer(self.image)
        self._lent = lent, ctypes.c_size_t(len(image))
        self._core = ctypes.c_void_p()
        self.calls: list[Call] = []
        part = ctypes.c_uint8()
        self._hold(self._library.exsm_core_open(ctypes.byref(self._core), *self._lent,
                                                ctypes.byref(part)))
        self._take_calls()

    def _hold(self, code: int) -> None:
        if code >= 100 or code in (50, 51):
            raise Refused(code)

    def _take_calls(self) -> None:
        """Notes the calls that are listed, and that they were made."""
        asked = Asked()
        for number in range(self._library.exsm_core_asked(ctypes.byref(self._core))):
            to = ctypes.byref(self._core), ctypes.c_size_t(number), ctypes.byref(asked)
            self._hold(self._library.exsm_core_call(*to, None, ctypes.c_size_t(0)))
            if not asked.is_write:
                self.calls.append(Call(CallKind.SYNC))
                continue
            data = ctypes.create_string_buffer(asked.len)
            self._hold(self._library.exsm_core_call(*to, data, ctypes.c_size_t(asked.len)))
            self.calls.append(Call(CallKind.WRITE, asked.at, data.raw))
        self._library.exsm_core_made(ctypes.byref(self._core))

    def line(self, line: bytes) -> bytes:
        """Steps on a line, and gives its reply."""
        self._hold(self._library.exsm_core_line(ctypes.byref(self._core), *self._lent, line,
                                                ctypes.c_size_t(len(line))))
        length = self._library.exsm_core_text_len(ctypes.byref(self._core))
        text = ctypes.create_string_buffer(length)
        self._hold(self._library.exsm_core_text(ctypes.byref(self._core), text,
                                                ctypes.c_size_t(length)))
        self._take_calls()
        self.calls.append(Call(CallKind.PUT, data=text.raw))
        return text.raw

    def close(self) -> None:
        """Closes it."""
        self._library.exsm_core_close(ctypes.byref(self._core))


def fronts_of(base: bytes, calls: list[Call]) -> Iterator[tuple[bytes, int]]:
    """The images that a list cut at each place leaves, also in the midst of a write, and how many
    commits were answered before."""
    image, answered = bytearray(base), 0
    for call in calls:
        if call.kind == CallKind.PUT:
            answered += call.data.count(b"ok commit ")
        elif call.kind == CallKind.WRITE:
            half = len(call.data) // 2
            image[call.at:call.at + half] = call.data[:half]
            yield bytes(image), answered
            image[call.at:call.at + len(call.data)] = call.data
            yield bytes(image), answered


def declared() -> list[str]:
    """The functions that the header declares."""
    text = re.sub(r"/\*.*?\*/", "", (LIBRARY / "exsm.h").read_text(encoding="utf-8"), flags=re.S)
    return sorted(re.findall(r"\b(exsm_\w+)\(", text))
