#!/usr/bin/env python3
"""Makes an object of more than 4 GiB, and times how it is made, opened and read.

PROGRAM is a built exsm. The volume lies in a new folder below FOLDER (the temporary folder where
there is none given) and takes as much room as the object, 6 GiB without `--gib`. It has pages of
8,192 bytes and units of 16 pages. The object is made by appends of 16 MiB, each in a transaction,
whose bytes differ; then pieces of 64 bytes are read at both ends, on each side of 4 GiB and in the
middle, and compared.
"""
from __future__ import annotations

import os
import subprocess
import sys
import tempfile
import time
from typing import Iterable

sys.dont_write_bytecode = True

from timing.folder import words_of  # noqa: E402

MIB = 1 << 20
PIECE = 16 * MIB
PAGE, SEG_LEN, FAN = 8192, 16, 340
READ = 64


def run(words: list[object], lines: Iterable[str] = ()) -> tuple[float, list[str]]:
    """Seconds of the clock, and the lines that were sent."""
    script = "".join(f"{line}\n" for line in lines).encode()
    start = time.perf_counter()
    ran = subprocess.run([str(word) for word in words], input=script, capture_output=True,
                         check=False)
    seconds = time.perf_counter() - start
    if ran.returncode or b"\nno " in ran.stdout:
        sys.exit(f"wide.py: {' '.join(map(str, words))} ended with status {ran.returncode}: "
                 f"{ran.stdout[-200:]!r} {ran.stderr!r}")
    return seconds, ran.stdout.decode().splitlines()


def make(program: str, path: str, size: int) -> None:
    """Makes a volume with an object of so many bytes, and tells how long it took."""
    segs = size // (PAGE * SEG_LEN) + 1024
    run([program, "format", path, "--page-size", PAGE, "--pages", 4096, "--segs", segs,
         "--seg-len", SEG_LEN, "--fan", FAN])
    lines = ["begin", "file wide", "create wide as @w", "commit"]
    for number in range(size // PIECE):
        lines += ["begin", f"append @w rep:{PIECE}:{number % 256:02x}", "commit"]
    seconds, _ = run([program, "run", path], lines)
    print(f"made {size:,} bytes in {seconds:.1f} s, {size / MIB / seconds:.0f} MiB/s")


def read(program: str, path: str, size: int) -> None:
    """Opens the volume and reads pieces, compares them, and tells how long it took."""
    places = [0, 4096 * MIB - READ // 2, size // 2, size - READ]
    places = [at for at in places if at + READ <= size]
    script = ["size 258.0.1", *(f"read 258.0.1 {at} {READ}" for at in places)]
    opening = min(run([program, "run", path])[0] for _ in range(3))
    seconds, told = run([program, "run", path], script)
    if told[0] != f"ok size {size}":
        sys.exit(f"wide.py: {told[0]}")
    for at, line in zip(places, told[1:]):
        wanted = bytes((at + i) // PIECE % 256 for i in range(READ)).hex()
        if wanted not in line:
            sys.exit(f"wide.py: at {at}: {line}, not {wanted}")
    print(f"opened in {opening * 1000:.0f} ms; opened, and {len(places)} pieces read as they were "
          f"written, in {seconds * 1000:.0f} ms")


def main() -> None:
    """Makes and reads the object."""
    parser = words_of(__doc__)
    parser.add_argument("--gib", type=int, default=6, metavar="N")
    asked = parser.parse_args()
    program = os.path.abspath(asked.program)
    size = asked.gib * 1024 * MIB
    with tempfile.TemporaryDirectory(dir=asked.folder) as folder:
        path = os.path.join(folder, "volume")
        make(program, path, size)
        read(program, path, size)


if __name__ == "__main__":
    main()
