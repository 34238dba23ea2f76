"""Images that a stop may leave: each opens as the table after a prefix of the commits, with each
acknowledged one.

What was written before the last sync that ended is there; of what was written since each byte may
be as it was, as it is to be, or any other. So an image takes of the writes that wait some whole,
some in part and none of others.
"""
from __future__ import annotations

import random
from typing import Callable, Iterator, NamedTuple

from fuzzing import scripts
from fuzzing.differs import Differs, same
from fuzzing.model import Model
from fuzzing.program import Program, reader_part, same_table, script_of, volume_of
from fuzzing.table import Table
from fuzzing.trace import Call, CallKind, written
from fuzzing.trials import Kind, Report, Trial
from fuzzing.writer import Writer

PICKS = 120
"""Images of a moment, of which some may be alike."""

SECTOR = 512
RUNS_MOST, LINES_MOST = 3, 60
MORE_LINES = 12
PROGRAM_SHARE = 0.01
"""The share of the images that the program opens too."""

STOPPED_SHARE = 0.5
"""The share of the runs that begin on an image that a stop left."""


class Moment(NamedTuple):
    """A moment of a run: what is synced, what waits, and how many commits were acknowledged."""

    synced: bytes
    waiting: list[Call]
    acknowledged: int


def moments_of(base: bytes, calls: list[Call], last: int) -> Iterator[Moment]:
    """The moments before each sync ends, and at the end: an earlier one has no other images."""
    synced, waiting, sent = base, [], b""
    for call in [*calls, Call(CallKind.SYNC)]:
        if call.kind == CallKind.WRITE:
            waiting.append(call)
        elif call.kind == CallKind.PUT:
            sent += call.data
        elif call.kind == CallKind.SYNC and not call.failed:
            yield Moment(synced, waiting, last + sent.count(b"ok commit "))
            synced, waiting = written(synced, waiting), []


def part_of(chance: random.Random, write: Call, before: bytes) -> bytes:
    """What a stop may leave of a write."""
    kind, length = chance.random(), len(write.data)
    if kind < 0.35:
        return before
    if kind < 0.7:
        return write.data
    if kind < 0.8:
        cut = chance.randint(0, length)
        return write.data[:cut] + before[cut:]
    if kind < 0.95:
        left = bytearray(before)
        for start in range(-(write.at % SECTOR), length, SECTOR):
            if chance.random() < 0.5:
                piece = slice(max(start, 0), start + SECTOR)
                left[piece] = write.data[piece]
        return bytes(left)
    return chance.randbytes(length)


def pieces_of(chance: random.Random, moment: Moment, befores: list[bytes],
              pick: int) -> list[bytes]:
    """What is left of each write that waits: of none, of all, of one in part, or of each as it
    comes."""
    if pick < 2:
        return [write.data for write in moment.waiting] if pick else befores
    if pick % 2:
        return [part_of(chance, write, before) for write, before in zip(moment.waiting, befores)]
    torn = chance.randrange(len(befores))
    pieces = [chance.choice((write.data, before)) for write, before in zip(moment.waiting, befores)]
    return [*pieces[:torn], part_of(chance, moment.waiting[torn], befores[torn]),
            *pieces[torn + 1:]]


def images_of(chance: random.Random, moment: Moment) -> Iterator[bytes]:
    """Images that a stop at a moment may leave, each once."""
    seen: set[bytes] = set()
    befores = [moment.synced[write.at:write.at + len(write.data)] for write in moment.waiting]
    for pick in range(PICKS if moment.waiting else 1):
        pieces = pieces_of(chance, moment, befores, pick)
        left = b"".join(pieces)
        if left in seen:
            continue
        seen.add(left)
        image = bytearray(moment.synced)
        for write, before, piece in zip(moment.waiting, befores, pieces):
            if piece != before:
                image[write.at:write.at + len(piece)] = piece
        yield bytes(image)


def ask_image(image: bytes, tables: dict[int, Table], acknowledged: int) -> int:
    """Asks that an image opens as the table after a prefix of the commits, and gives its last
    commit."""
    same(reader_part(image), ("", []), "the reader's opening of an image: ")
    with volume_of(image) as volume:
        last, table = volume.last_commit, Table.of(volume)
    if last not in (acknowledged, acknowledged + 1) or last not in tables:
        raise Differs(f"the image stands after commit {last}",
                      f"{acknowledged} acknowledged, and at most one more")
    same_table(table, tables[last])
    same(table.next_number, tables[last].next_number, "the next number of an image: ")
    return last


def ask_program(image: bytes, model: Model, program: Program, chance: random.Random) -> None:
    """Asks that the program reads an image as the model, and goes on from there."""
    program.volume.write_bytes(image)
    same(program.part(), "", "part of an image: ")
    writer = Writer(chance, model)
    program.run_lines(model, writer.looks())
    model.begin_run()
    program.talk(model, scripts.lines_of(chance, writer, MORE_LINES), [])
    scripts.ask_volume(program, model)


class Stops:
    """The stops of one run."""

    def __init__(self, trial: Trial, program: Program, report: Report,
                 chance: random.Random) -> None:
        self.trial, self.program, self.report, self.chance = trial, program, report, chance

    def ask(self, base: bytes, lines: list[bytes], model: Model) -> Model:
        """Tries images of a run; gives the model of the one that is left as the volume."""
        self.report("scripts with stops")
        after = self.program.volume.read_bytes()
        calls = self.calls(base, lines, after)
        first = min(model.tables)
        kept, kept_last = after, model.last
        images = 0
        for moment in moments_of(base, calls, first):
            for image in images_of(self.chance, moment):
                last = self.ask_one(image, model, moment.acknowledged)
                images += 1
                if self.chance.random() < 1 / images:
                    kept, kept_last = image, last
        if self.chance.random() < STOPPED_SHARE:
            after, last = kept, kept_last
        else:
            last = model.last
        self.program.volume.write_bytes(after)
        return model.at(last)

    def ask_one(self, image: bytes, model: Model, acknowledged: int) -> int:
        """Tries an image; one that differs is left as the volume."""
        self.report("crash images")
        try:
            last = ask_image(image, model.tables, acknowledged)
        except Exception:
            self.program.volume.write_bytes(image)
            raise
        if self.chance.random() < PROGRAM_SHARE:
            self.report("crash images by the program")
            ask_program(image, model.at(last), self.program, self.chance)
        return last

    def calls(self, base: bytes, lines: list[bytes], after: bytes) -> list[Call]:
        """The calls of a run, which explain the volume that it left."""
        self.program.volume.write_bytes(base)
        ran, calls = self.program.noted("run", script_of(lines))
        same(ran.status, 0, "status of a run whose calls are noted: ")
        if written(base, calls) != after:
            raise Differs("calls of a run that don't explain its volume",
                          "all writes among its calls")
        return calls


def explore_runs(trial: Trial, program: Program,
                 ask: Callable[[bytes, list[bytes], Model], Model]) -> None:
    """Makes runs; of each it is asked what comes of it, by the volume that it began on, its lines
    and its model, and the answer is the model of the volume for the next one."""
    chance = random.Random(trial.seed)
    model = scripts.new_model(trial, program)
    for _ in range(chance.randint(1, RUNS_MOST)):
        base = program.volume.read_bytes()
        scripts.explore_run(trial, program, model, chance, chance.randint(5, LINES_MOST))
        model = ask(base, trial.runs[-1], model)


def explore(trial: Trial, program: Program, report: Report) -> None:
    """Makes runs, and tries the images that their stops may leave."""
    stops = Stops(trial, program, report, random.Random(trial.seed + " stops"))
    explore_runs(trial, program, stops.ask)


def replay(trial: Trial, program: Program, report: Report) -> None:
    """Makes the runs again, with the same choices as long as the writes are the same."""
    stops = Stops(trial, program, report, random.Random(trial.seed + " stops"))
    model = scripts.new_model(trial, program)
    for lines in trial.runs:
        base = program.volume.read_bytes()
        model.begin_run()
        program.run_lines(model, lines)
        model = stops.ask(base, lines, model)


CRASHES = Kind(explore, replay)
