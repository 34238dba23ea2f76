"""Random scripts: each reply, each volume that a run leaves, and the stream of the last one, beside
the model and the reader."""
from __future__ import annotations

import random
from typing import Iterator

from fuzzing.model import Model
from fuzzing.program import Program, compare, compare_dump
from fuzzing.table import Table
from fuzzing.trials import Kind, Report, Trial
from fuzzing.writer import Writer

RUNS_MOST, LINES_MOST = 4, 80
LONG_LINES = 700
"""Lines of a run that may meet the limits of a transaction."""


def lines_of(chance: random.Random, writer: Writer, count: int) -> Iterator[bytes]:
    """The lines of a run."""
    for _ in range(count):
        yield writer.line()
    if chance.random() < 0.8:
        yield from writer.last_lines()


def new_model(trial: Trial, program: Program) -> Model:
    """Makes the volume of a trial."""
    program.format(trial.sizes)
    return Model(trial.sizes, Table({}, 1), 0)


def explore_run(trial: Trial, program: Program, model: Model, chance: random.Random,
                count: int) -> None:
    """Makes a run of a trial as it is run."""
    model.begin_run()
    sent: list[bytes] = []
    trial.runs.append(sent)
    writer = Writer(chance, model, is_long=count == LONG_LINES)
    program.talk(model, lines_of(chance, writer, count), sent)


def ask_volume(program: Program, model: Model) -> None:
    """Holds the volume that a run left against the model."""
    compare(model, program.volume.read_bytes(), model.used is not None and not model.scans)


def explore(trial: Trial, program: Program, report: Report) -> None:
    """Makes and does a trial."""
    chance = random.Random(trial.seed)
    model = new_model(trial, program)
    for _ in range(chance.randint(1, RUNS_MOST)):
        count = LONG_LINES if chance.random() < 0.02 else chance.randint(1, LINES_MOST)
        explore_run(trial, program, model, chance, count)
        ask_volume(program, model)
        report("scripts")
    compare_dump(program)
    report("volumes")


def replay(trial: Trial, program: Program, report: Report) -> None:
    """Does a trial again."""
    model = new_model(trial, program)
    for lines in trial.runs:
        model.begin_run()
        program.run_lines(model, lines)
        ask_volume(program, model)
        report("scripts")
    compare_dump(program)
    report("volumes")


SCRIPTS = Kind(explore, replay)
