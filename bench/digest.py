#!/usr/bin/env python3
"""Measures the line `digest` on a volume of a real file, beside sha256sum of as many bytes.

PROGRAM is a built exsm. Its volume lies in a new folder below FOLDER, which must lie on the disk
that is to be measured, with 600 MB free (the temporary folder where there is none given). An
object of 256 MiB is appended by 16 lines of one byte each and committed, and its digest is told in
a run of its own, less the run of an empty script on the same volume. The digests are compared.
"""
from __future__ import annotations

import os
import subprocess
import sys
import time
from typing import Sequence

sys.dont_write_bytecode = True

from timing.folder import in_new_folder  # noqa: E402
from timing.scripts import LINE_MOST, OBJECT  # noqa: E402

SHAPE = ("--page-size", "4096", "--pages", "4096", "--segs", "69632", "--seg-len", "1",
         "--fan", "169")
# The byte of each line.
VALUES = range(0x61, 0x71)


def output(words: list[str], lines: Sequence[str] = ()) -> tuple[int, str]:
    """The milliseconds of a command on a script, and what it writes."""
    script = "".join(f"{line}\n" for line in lines).encode()
    begun = time.perf_counter()
    ran = subprocess.run(words, input=script, stdout=subprocess.PIPE, check=False)
    took = int((time.perf_counter() - begun) * 1000)
    text = ran.stdout.decode()
    if ran.returncode or "\nno " in f"\n{text}":
        sys.exit(f"digest.py: {' '.join(words)} ended with {ran.returncode}: {text[-200:]}")
    return took, text.strip()


def measure(program: str, folder: str) -> None:
    """Makes the object, and measures its digest."""
    volume, plain = os.path.join(folder, "volume"), os.path.join(folder, "bytes")
    output([program, "format", volume, *SHAPE])
    appends = [f"append @d rep:{LINE_MOST}:{value:02x}" for value in VALUES]
    made, _ = output([program, "run", volume],
                     ["begin", "file docs", "create docs as @d", *appends, "commit"])
    print(f"append 256 MiB and commit: {made} ms", flush=True)
    with open(plain, "wb") as file:
        for value in VALUES:
            file.write(bytes([value]) * LINE_MOST)
    empty, _ = output([program, "run", volume])
    whole, told = output([program, "run", volume], [f"digest {OBJECT}"])
    beside, wanted = output(["sha256sum", plain])
    print(f"digest of 256 MiB: {whole - empty} ms, sha256sum of as many bytes {beside} ms")
    if told != f"ok digest {wanted.split()[0]}":
        sys.exit(f"digest.py: told {told}, and sha256sum {wanted}")


if __name__ == "__main__":
    in_new_folder(__doc__, measure)
