"""Measures what a newcomer waits for: the look before any proof, and the first build, in a clone
where nothing is kept."""
from __future__ import annotations

import os
import re
import shutil
import subprocess
import sys
import tempfile
import time
from dataclasses import dataclass
from pathlib import Path
from typing import Iterable

from launch.crates import FOLDER, TOP, Forecast, crates_of_program

PAGE = TOP / "docs" / "GATE.md"
MEASURED = "<!-- written by tools/first_build -->", "<!-- end of what it writes -->"
FORECAST = "<!-- written by tools/first_build --forecast -->", "<!-- end of what it forecasts -->"
FORECAST_FOR = (1, 2, 4, 8)
# Where rt keeps what it proved, beside the kit.
STORE = "rattle-kept"
# What the first lines of README's session are answered.
MADE = b"ok format 84938752\n"
CHECKED = b"ok check last 0 files 0 objects 0 versions 0 pages 1 segs 0\n"


class Unmeasured(Exception):
    """Nothing was measured, and why."""


@dataclass(frozen=True)
class Figures:
    """Seconds of the clock that a try and a build took on so many processors."""

    processors: int
    trial: float
    build: float


def second_kit(folder: Path) -> Path:
    """Makes a kit that keeps what it proves in a folder of its own: rt keeps it beside the kit that
    its text lies in, so that is a copy, and all else leads to the kit on the path. Gives the folder
    for the path."""
    rt = shutil.which("rt")
    if rt is None:
        raise Unmeasured("rt isn't on PATH: it comes with the Rattle kit (README, \"Build\")")
    kit, second = Path(rt).resolve().parent.parent, folder / "kit"
    (second / "bin").mkdir(parents=True)
    for entry in kit.iterdir():
        if entry.name != "bin":
            (second / entry.name).symlink_to(entry)
    for entry in (kit / "bin").iterdir():
        is_text = entry.name == "rt" or entry.suffix == ".py"
        to = second / "bin" / entry.name
        shutil.copy(entry, to) if is_text else to.symlink_to(entry)
    return second / "bin"


def on(processors: int, words: list[str], folder: Path, path: Path,
       **given: object) -> subprocess.Popen[bytes]:
    """Starts a command that may use so many processors."""
    first = sorted(os.sched_getaffinity(0))[:processors]
    return subprocess.Popen(  # type: ignore[call-overload]
        words, cwd=folder, env={**os.environ, "PATH": f"{path}:{os.environ['PATH']}"},
        preexec_fn=lambda: os.sched_setaffinity(0, first), **given)


def try_session(processors: int, clone: Path, path: Path) -> float:
    """Tries the stored session of the program, and gives the seconds that it took."""
    crate = clone / FOLDER.relative_to(TOP)
    words = (crate / "args").read_text(encoding="utf-8").split()
    began = time.monotonic()
    with open(crate / "stdin", "rb") as script:
        run = on(processors, [str(clone / "exsm"), "try", *words], crate / "data", path,
                 stdin=script, stdout=subprocess.PIPE)
        replies, _ = run.communicate()
    seconds = time.monotonic() - began
    if run.returncode or replies != (crate / "stdout").read_bytes():
        raise Unmeasured(
            f"./exsm try {' '.join(words)} ended with status {run.returncode}, and not as the "
            f"stored session")
    return seconds


def build(processors: int, clone: Path, path: Path) -> float:
    """Builds, and gives the seconds that it took until the first command was answered."""
    began, store = time.monotonic(), path.parent.parent / STORE
    run = on(processors, [str(clone / "exsm"), "build"], clone, path)
    try:
        while run.poll() is None:
            time.sleep(0.2)
            if not store.is_dir() and any(clone.glob("crates/*/out/rlib/stamp")):
                raise Unmeasured(
                    f"this kit keeps what it proves elsewhere than in {store}: it wants a machine "
                    f"where nothing is kept")
    finally:
        if run.poll() is None:
            run.terminate()
            run.wait()
    if run.returncode:
        raise Unmeasured(f"./exsm build ended with status {run.returncode}")
    for words, reply in ((["format", "v"], MADE), (["check", "v"], CHECKED)):
        said = on(processors, [str(clone / "exsm"), *words], clone, path,
                  stdout=subprocess.PIPE).communicate()[0]
        if said != reply:
            raise Unmeasured(f"./exsm {' '.join(words)} answered {said!r}")
    return time.monotonic() - began


def measure(processors: int) -> Figures:
    """Measures both on a fresh clone of this commit."""
    with tempfile.TemporaryDirectory(prefix="exsm-first-") as room:
        clone = Path(room) / "exsm"
        subprocess.run(["git", "clone", "-q", "--no-hardlinks", str(TOP), str(clone)], check=True)
        path = second_kit(Path(room))
        return Figures(processors, try_session(processors, clone, path),
                       build(processors, clone, path))


def machine() -> str:
    """The machine in words: its processor, its memory, and how much else it did."""
    model = re.search(r"^model name\s*: (.*)$", Path("/proc/cpuinfo").read_text(encoding="utf-8"),
                      re.M)
    memory = re.search(r"^MemTotal: +(\d+) kB", Path("/proc/meminfo").read_text(encoding="ascii"),
                       re.M)
    room = int(memory[1]) / (1 << 20) if memory else 0
    return f"{model[1] if model else os.uname().machine}, {room:.0f} GiB of memory"


def spent(seconds: float) -> str:
    """A time as the page has it."""
    return f"{seconds:.0f} s" if seconds < 180 else f"{seconds / 60:.0f} min"


def table(figures: Iterable[Figures], began_with: float) -> str:
    """What is written into the page."""
    commit = subprocess.run(["git", "-C", str(TOP), "rev-parse", "--short", "HEAD"], text=True,
                            capture_output=True, check=False)
    day = time.strftime("%-d %B %Y", time.gmtime())
    rows = [f"| {it.processors} | {spent(it.trial)} | {spent(it.build)} |" for it in figures]
    about = (f"{day}, commit {commit.stdout.strip()}, {machine()}, load {began_with:.1f} when it "
             "began.")
    return "\n".join(["| Processors | `./exsm try` | `./exsm`, up to the first reply |",
                      "|---|---|---|", *rows, "", about])


def forecast() -> str:
    """The table of what the first build is to take."""
    crates = crates_of_program()
    cells = [f"{Forecast(crates, lanes).whole / 60:.0f} min" for lanes in FORECAST_FOR]
    whole = sum(it.seconds for it in crates) / 60
    return "\n".join([
        f"| {len(crates)} crates, {whole:.0f} processor minutes | "
        f"{' | '.join(f'{it} at once' for it in FORECAST_FOR)} |",
                      "|---|" + "---|" * len(cells),
                      f"| on a machine as that of the table | {' | '.join(cells)} |"])


def write(marks: tuple[str, str], text: str) -> None:
    """Puts a text between two marks of the page."""
    page = PAGE.read_text(encoding="utf-8")
    before, begin, rest = page.partition(marks[0])
    _, end, after = rest.partition(marks[1])
    if not begin or not end:
        raise Unmeasured(f"{PAGE.relative_to(TOP)} has no lines {marks[0]} and {marks[1]}")
    PAGE.write_text(f"{before}{begin}\n\n{text}\n\n{end}{after}", encoding="utf-8")


def run(processors: list[int], shows: bool, forecasts: bool) -> int:
    """Measures, or forecasts, and writes or shows what comes; gives the exit status."""
    try:
        if forecasts:
            marks, text = FORECAST, forecast()
        else:
            marks, load = MEASURED, os.getloadavg()[0]
            text = table([measure(it) for it in processors], load)
        if shows:
            print(text)
        else:
            write(marks, text)
    except (Unmeasured, OSError, subprocess.CalledProcessError) as fault:
        print(f"first_build: {fault}", file=sys.stderr)
        return 1
    return 0
