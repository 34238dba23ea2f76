"""Damaged volumes: the reader and the program refuse the same part, or read the same bytes."""
from __future__ import annotations

import random
from typing import NamedTuple

from fuzzing import scripts
from fuzzing.differs import same
from fuzzing.program import BAD_VOLUME, Program, model_of, reader_part, volume_of
from fuzzing.trials import Harm, Kind, Report, Trial
from fuzzing.writer import Writer

IMAGES = 100
"""Damaged images of one volume."""

HEAD = 48
RUNS_MOST, LINES_MOST = 3, 90
MORE_LINES = 15
"""Lines that are run on a damaged volume that opens."""


class Places(NamedTuple):
    """Where damage counts: the bytes of a page, pages in use, and the bytes of the log that
    count."""

    page_size: int
    pages: list[int]
    log: int


def places_of(data: bytes) -> Places:
    """The places of a volume."""
    with volume_of(data) as volume:
        size = volume.geometry.page_size
        pages = sorted(page for page in volume.walk().uses if page < volume.geometry.first_unit)
        return Places(size, pages, sum(record.length for record in volume.records))


def byte_of(chance: random.Random, places: Places, length: int) -> int:
    """A byte to be damaged: of the superblock, the log, a page in use, or any."""
    kind = chance.random()
    if kind < 0.08:
        return chance.randrange(64)
    if kind < 0.3 and places.log:
        return places.page_size + chance.randrange(min(places.log, HEAD) if chance.random() < 0.4
                                                   else places.log)
    if kind < 0.95:
        reach = chance.choice((HEAD, HEAD, places.page_size))
        place = chance.randrange(reach)
        from_end = reach == HEAD and chance.random() < 0.2
        return chance.choice(places.pages) * places.page_size + (places.page_size - 1 - place
                                                                 if from_end else place)
    return chance.randrange(length)


def harm(chance: random.Random, places: Places, length: int) -> Harm:
    """A random damage."""
    kind = chance.random()
    if kind < 0.6:
        return ["flip", byte_of(chance, places, length), chance.randrange(8)]
    if kind < 0.85:
        return ["set", byte_of(chance, places, length),
                chance.choice((0, 1, 2, 3, 4, 127, 255, chance.randrange(256)))]
    page = chance.choice([0, 1, *places.pages])
    if kind < 0.9:
        return ["zero", page * places.page_size, places.page_size]
    if kind < 0.97:
        return ["swap", page * places.page_size, chance.choice(places.pages) * places.page_size,
                places.page_size]
    return ["cut", chance.choice((0, 31, chance.randrange(length), length - 1))]


def harmed(data: bytes, harms: list[Harm]) -> bytes:
    """Bytes with damage; what would fall behind the end falls away."""
    image = bytearray(data)
    for word, *numbers in harms:
        at = numbers[0]
        if word == "flip" and at < len(image):
            image[at] ^= 1 << numbers[1]
        elif word == "set" and at < len(image):
            image[at] = numbers[1]
        elif word == "zero":
            end = min(at + numbers[1], len(image))
            image[at:end] = bytes(max(0, end - at))
        elif word == "swap" and max(at, numbers[1]) + numbers[2] <= len(image):
            one, other = slice(at, at + numbers[2]), slice(numbers[1], numbers[1] + numbers[2])
            image[one], image[other] = image[other], image[one]
        elif word == "cut":
            del image[at:]
    return bytes(image)


def ask(image: bytes, program: Program, chance: random.Random, report: Report) -> None:
    """Holds what the program says of an image against the reader, and where both open it what they
    read."""
    program.volume.write_bytes(image)
    part, faults = reader_part(image)
    same(program.part(), part, f"part, where the reader finds {faults[:1]}: ")
    report("damaged images")
    if part:
        if chance.random() < 0.1:
            ran = program.call("run", given=b"space\n")
            same((ran.status, ran.out), (BAD_VOLUME, b""), "run on a bad volume: ")
        return
    report("damaged images that open")
    model = model_of(image)
    writer = Writer(chance, model)
    program.run_lines(model, writer.looks())
    if chance.random() < 0.3:
        model.begin_run()
        program.talk(model, scripts.lines_of(chance, writer, MORE_LINES), [])
        scripts.ask_volume(program, model)


def explore(trial: Trial, program: Program, report: Report) -> None:
    """Makes a volume, and damages it in many ways."""
    chance = random.Random(trial.seed)
    model = scripts.new_model(trial, program)
    for _ in range(chance.randint(1, RUNS_MOST)):
        scripts.explore_run(trial, program, model, chance,
                            chance.randint(LINES_MOST // 2, LINES_MOST))
    data = program.volume.read_bytes()
    places = places_of(data)
    for _ in range(IMAGES):
        trial.harms = [harm(chance, places, len(data))
                       for _ in range(chance.choice((1, 1, 1, 2, 3)))]
        ask(harmed(data, trial.harms), program, random.Random(trial.seed), report)


def replay(trial: Trial, program: Program, report: Report) -> None:
    """Makes the volume again, and damages it as it was."""
    model = scripts.new_model(trial, program)
    for lines in trial.runs:
        model.begin_run()
        program.run_lines(model, lines)
    ask(harmed(program.volume.read_bytes(), trial.harms), program, random.Random(trial.seed),
        report)


DAMAGE = Kind(explore, replay)
