"""Runs of the program on volumes, each held against the model and the reader."""
from __future__ import annotations

import io
import re
import threading
from pathlib import Path
from typing import Callable, Iterable

from exsm.client import STATUS_NAMES, is_answered
from exsm.geometry import Geometry
from exsm.opening import Opening
from exsm.stream_making import stream_of
from exsm.volume import Volume
from fuzzing.differs import Differs, same
from fuzzing.model import Model
from fuzzing.outside import SECONDS, Ended, Late, Plan, Served, Started, Talk
from fuzzing.table import Table
from fuzzing.trace import Call, calls_of

BAD_VOLUME, DAMAGED = 6, 8


class Program:
    """The program, and the volume of a trial."""

    def __init__(self, runs: Started, volume: Path) -> None:
        self.runs, self.volume = runs, volume
        self.made: dict[Geometry, list[tuple[int, bytes]]] = {}
        """Pages of volumes as they are made, by their sizes; all others have zeros."""

    def call(self, word: str, given: bytes = b"") -> Ended:
        """Runs the program on the volume to its end, which must be one that a document names."""
        return self.asked(word, lambda: self.runs.ended([word, str(self.volume)], given))

    def noted(self, word: str, given: bytes = b"",
              plan: Plan = Plan(noted=True)) -> tuple[Ended, list[Call]]:
        """Runs the program on the volume to its end, with the calls that it made."""
        runs = self.runs
        assert isinstance(runs, Served)
        ran = self.asked(word, lambda: runs.ended([word, str(self.volume)], given, plan))
        return ran, calls_of(ran.notes)

    def asked(self, word: str, run: Callable[[], Ended]) -> Ended:
        """Makes a run to its end, which must be one that a document names."""
        try:
            ran = run()
        except Late:
            raise Differs(f"{word} doesn't end", f"an end within {SECONDS} s") from None
        self.ask_end(ran.status, ran.errors)
        return ran

    @staticmethod
    def ask_end(status: int, errors: bytes) -> None:
        """Asks that a run ended with a status that is documented, and told it as is documented."""
        last = errors.decode("latin-1").splitlines()[-1:]
        wanted = [] if status == 0 else [f"exsm: status {status} {STATUS_NAMES.get(status)}"]
        is_told = not last if status == 0 else "".join(last).startswith("".join(wanted))
        if status not in (0, *STATUS_NAMES) or not is_told:
            raise Differs(f"status {status}, {last}", f"a documented status, and {wanted} last")

    def format(self, sizes: Geometry) -> None:
        """Makes the volume anew; one of sizes that were made before has the same pages."""
        self.volume.unlink(missing_ok=True)
        if sizes not in self.made:
            words = ["format", str(self.volume), *sizes.words()]
            ran = self.asked("format", lambda: self.runs.once(words, b""))
            same(ran.out, f"ok format {sizes.bytes}\n".encode())
            data, zeros = self.volume.read_bytes(), bytes(sizes.page_size)
            pages = ((at, data[at:at + len(zeros)]) for at in range(0, len(data), len(zeros)))
            self.made[sizes] = [(at, page) for at, page in pages if page != zeros]
            return
        with open(self.volume, "wb") as file:
            file.truncate(sizes.bytes)
            for at, page in self.made[sizes]:
                file.seek(at)
                file.write(page)

    def run_lines(self, model: Model, lines: list[bytes]) -> None:
        """Runs lines in one piece, and holds each reply against the model."""
        ran = self.call("run", given=script_of(lines))
        hold(model, lines, ran.out)
        same(ran.status, 0, "status ")

    def talk(self, model: Model, lines: Iterable[bytes], sent: list[bytes]) -> None:
        """Sends lines, each made once the reply to the one before is stepped; notes them."""
        run = self.runs.talk(["run", str(self.volume)])
        timer = threading.Timer(SECONDS, run.kill)
        timer.start()
        try:
            talk_to(run, model, lines, sent)
        finally:
            ran = run.end()
            timer.cancel()
        model.end_run()
        same((ran.status, ran.out), (0, b""), "status and last output ")
        self.ask_end(ran.status, ran.errors)

    def part(self) -> str:
        """The part of the volume that the program refuses, or nothing where it opens."""
        ran = self.call("check")
        if ran.status == 0:
            return ""
        same(ran.status, BAD_VOLUME, "status of check: ")
        found = re.search(rb"part (\w+)", ran.errors)
        return found[1].decode() if found else "none is named"


def script_of(lines: list[bytes]) -> bytes:
    """The script of some lines."""
    return b"".join(line + b"\n" for line in lines)


def talk_to(run: Talk, model: Model, lines: Iterable[bytes], sent: list[bytes]) -> None:
    """Sends lines to a run."""
    for line in lines:
        sent.append(line)
        try:
            run.given.write(line + b"\n")
            run.given.flush()
        except BrokenPipeError:
            raise Differs("the run ended", f"a reply to {line[:80]!r}") from None
        if is_answered(line):
            reply = run.replies.readline()
            step(model, line, reply.removesuffix(b"\n"), reply.endswith(b"\n"))


def step(model: Model, line: bytes, reply: bytes, is_whole: bool = True) -> None:
    """Steps the model over a line; a difference names the line."""
    try:
        if not is_whole:
            raise Differs(f"{reply!r} and no more", "a reply")
        model.step(line, reply.decode("latin-1"))
    except Differs as differs:
        shown = line[:200].decode("latin-1")
        raise Differs(f"{shown}: {differs.told}", f"{shown}: {differs.wanted}") from None


def hold(model: Model, lines: list[bytes], out: bytes) -> None:
    """Holds the replies of a run that came to its end against the model."""
    replies = out.split(b"\n")
    if replies.pop():
        raise Differs("a last reply without a line feed", "whole replies")
    answered = [line for line in lines if is_answered(line)]
    for line, reply in zip(answered, replies):
        step(model, line, reply)
    same(len(replies), len(answered), "replies: ")
    model.end_run()


def volume_of(data: bytes) -> Volume:
    """The volume that a file with these bytes holds, as the reader finds it."""
    return Volume("image", io.BytesIO(data))


def reader_part(data: bytes) -> tuple[str, list]:
    """The first part that fails in the reader's opening, with its faults."""
    return Opening(lambda at, count: data[at:at + count], len(data)).first_bad()


def compare(model: Model, data: bytes, is_space_known: bool) -> None:
    """Holds what the reader finds in a volume against the model, and the units that a run told."""
    same(reader_part(data), ("", []), "the reader's opening: ")
    with volume_of(data) as volume:
        volume.walk()
        same(volume.faults, [], "the reader's faults: ")
        read = Table.of(volume)
        same_table(read, model.committed)
        model.committed.heights, model.committed.large = read.heights, read.large
        same((volume.next_unique, volume.last_commit), (model.committed.next_number, model.last),
             "next number and last commit: ")
        same(volume.geometry, model.sizes)
        if is_space_known:
            segs = sum(page >= volume.geometry.first_unit for page in volume.uses)
            same(model.used, (len(volume.uses) - segs, segs),
                 "units that `space` told, and the reader reached: ")


def compare_dump(program: Program) -> None:
    """Holds what `dump` writes against the stream that the reader makes of the volume's bytes."""
    ran = program.call("dump")
    with volume_of(program.volume.read_bytes()) as volume:
        wanted = b"".join(stream_of(volume))
    same(ran.status, 0, "status of dump: ")
    same(len(ran.out), len(wanted), "bytes of a dump: ")
    front = next((at for at, (a, b) in enumerate(zip(ran.out, wanted)) if a != b), len(wanted))
    same(front, len(wanted), "the first byte of a dump that differs: ")


def same_table(read: Table, wanted: Table) -> None:
    """Asks that two tables have the same files and versions; the difference names the first that
    differ."""
    if read.shown() == wanted.shown():
        return
    same(sorted(read.files), sorted(wanted.files), "files: ")
    for name, trees in read.files.items():
        same(sorted(trees.all), sorted(wanted.files[name].all),
             f"numbers of the versions in {name}: ")
        for number, version in trees.all.items():
            same(version, wanted.files[name].all[number], f"version {number} of {name}: ")


def model_of(data: bytes) -> Model:
    """A model that begins with what the reader finds in a volume."""
    with volume_of(data) as volume:
        return Model(volume.geometry, Table.of(volume), volume.last_commit)
