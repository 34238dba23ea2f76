"""Files that are there under their names only once they are whole, and copies of volumes."""
from __future__ import annotations

import errno
import itertools
import os
import re
import stat
import subprocess
from contextlib import contextmanager
from typing import Callable, Iterable, Iterator

from exsm.transport import AnyPath, ended_by, find_program

PART = re.compile(r"\.part-(\d+)-\d+$")
COPIED_AT_ONCE = 8 << 20
CHECKED = re.compile(r"ok check last (\d+) ")

_counted = itertools.count(1)


def is_running(process: int) -> bool:
    """Whether a process of the number is there."""
    try:
        os.kill(process, 0)
    except ProcessLookupError:
        return False
    except PermissionError:
        pass
    return True


def remove_left(paths: Iterable[AnyPath]) -> None:
    """Removes the parts of files whose makers were stopped."""
    names = {os.fspath(path) for path in paths}
    for folder in {os.path.dirname(path) for path in names}:
        for there in os.listdir(folder or ".") if os.path.isdir(folder or ".") else ():
            part = PART.search(there)
            if part is not None and not is_running(int(part[1])):
                if os.path.join(folder, there[:part.start()]) in names:
                    os.unlink(os.path.join(folder, there))


def sync_folder(path: str) -> None:
    """Syncs the folder in which a file lies, so that its name stays."""
    folder = os.open(os.path.dirname(path) or ".", os.O_RDONLY)
    try:
        os.fsync(folder)
    finally:
        os.close(folder)


def name_new(part: str, path: str) -> None:
    """Gives a file its name, where no file has it."""
    try:
        os.link(part, path, follow_symlinks=False)
        os.unlink(part)
    except OSError as fault:
        if fault.errno not in (errno.EPERM, errno.ENOTSUP, errno.ENOSYS, errno.EMLINK):
            raise
        refuse_there(path)                         # a file system without links
        os.rename(part, path)


def refuse_there(path: AnyPath) -> None:
    """Refuses a name that a file has."""
    if os.path.lexists(path):
        raise FileExistsError(errno.EEXIST, "it is there already", os.fspath(path))


@contextmanager
def whole_file(path: AnyPath, replace: bool = False, sync: bool = True) -> Iterator[str]:
    """The name under which a file is to be made; at the end of the block it gets its own name.

    A fault in the block removes it. A file that has its name is refused, or replaced where that
    is asked for. A call that was killed leaves a part beside it, which `remove_left` removes.
    """
    path = os.fspath(path)
    os.stat(os.path.dirname(path) or ".")          # tells a folder that isn't there by its own name
    if not replace:
        refuse_there(path)
    part = f"{path}.part-{os.getpid()}-{next(_counted)}"
    try:
        yield part
        if sync:
            sync_file(part)
        if replace:
            os.replace(part, path)
        else:
            name_new(part, path)
        if sync:
            sync_folder(path)
    finally:
        if os.path.lexists(part):
            os.unlink(part)


def sync_file(path: str) -> None:
    """Syncs a file's bytes."""
    file = os.open(path, os.O_RDONLY)
    try:
        os.fsync(file)
    finally:
        os.close(file)


def data_of(file: int, size: int) -> Iterator[tuple[int, int]]:
    """The ranges of a file that hold data, the holes between them left out."""
    end = 0
    while end < size:
        try:
            start = os.lseek(file, end, os.SEEK_DATA)
            end = os.lseek(file, start, os.SEEK_HOLE)
        except OSError as fault:
            if fault.errno == errno.ENXIO:
                return                             # a hole up to the end
            start, end = end, size                 # a file system that tells no holes
        yield start, end


def copy_bytes(source: str, target: str, tell: Callable[[int], None]) -> int:
    """Copies a file, its holes as holes, and gives its size; `tell` hears how far it is."""
    with open(source, "rb") as whole, open(target, "xb") as part:
        size = whole.seek(0, os.SEEK_END)          # of a device too
        part.truncate(size)
        for start, end in data_of(whole.fileno(), size):
            whole.seek(start)
            part.seek(start)
            while start < end and (piece := whole.read(min(COPIED_AT_ONCE, end - start))):
                part.write(piece)
                start += len(piece)
                tell(start)
        part.flush()
        os.fsync(part.fileno())
    return size


def checked(volume: AnyPath) -> int:
    """Opens a volume by the program, which tests it whole, and gives the number of its last
    commit."""
    ran = subprocess.run([find_program(), "check", os.fspath(volume)], stdin=subprocess.DEVNULL,
                         capture_output=True, check=False)
    told = CHECKED.match(ran.stdout.decode("ascii", "replace"))
    if ran.returncode != 0 or told is None:
        raise ended_by(ran.returncode, ran.stderr.decode(errors="replace"))
    return int(told[1])


def copy_volume(volume: AnyPath, path: AnyPath,
                tell: Callable[[int], None] = lambda done: None) -> int:
    """Copies a volume that no run changes meanwhile, and gives the number of its last commit.

    The copy is synced, opened and checked before it gets its name; a file that is there is refused.
    """
    source = os.fspath(volume)
    mode = os.stat(source).st_mode
    if not (stat.S_ISREG(mode) or stat.S_ISBLK(mode)):
        raise OSError(errno.EINVAL, "it is neither a file nor a block device", source)
    refuse_there(path)
    remove_left([path])
    with whole_file(path) as part:
        copy_bytes(source, part, tell)
        return checked(part)
