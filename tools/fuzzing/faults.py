"""Calls of real files that fail, and calls for memory that are refused: the status is that of the
call, what was sent is a front, and nothing follows a call that failed.

And the volume opens as the table after the last acknowledged commit, or the one behind it: as the
run left it, and as a stop leaves what it hadn't synced. A call that is interrupted, or moves some
of its bytes, changes nothing.
"""
from __future__ import annotations

import errno
import random
from dataclasses import replace
from itertools import count, islice
from typing import Iterator, NamedTuple

from exsm.client import STATUS_NAMES
from fuzzing import scripts
from fuzzing.crashes import ask_image, ask_program, explore_runs, images_of, moments_of
from fuzzing.differs import Differs, same
from fuzzing.model import Model
from fuzzing.outside import Ended, Plan
from fuzzing.program import Program, script_of
from fuzzing.trace import Call, CallKind
from fuzzing.trials import Harm, Kind, Report, Trial

CALLS_MOST, CHECKED_MOST = 40, 4
"""Calls of a run, and of a check of what it left, that fail in turn."""

REFUSED_MOST, REFUSED_BITS = 6, 11
"""Calls of a run for memory that are refused in turn, and the bits of the number of the last."""

IMAGES = 6
"""Images behind a call that fails, beside the one that the run left."""

PROGRAM_SHARE = 0.03
"""The share of the images that the program opens too."""

EACH = 0
"""In the place of a call's number: each call fails in turn."""

STATUSES = {
    CallKind.READ: 5, CallKind.WRITE: 5, CallKind.SYNC: 5, CallKind.TAKE: 3, CallKind.PUT: 4}
"""The status of a run of which a call fails, by what the call does."""

NO_MEMORY = 7

SOME = 0
"""In the place of an error: the call moves some of its bytes."""


class Whole(NamedTuple):
    """A run of a word that came to its end: what it began on, was given, sent, called, and left."""

    word: str
    base: bytes
    given: bytes
    out: bytes
    calls: list[Call]
    after: bytes


def harms_of(chance: random.Random, whole: Whole, most: int) -> Iterator[Harm]:
    """Calls of a run that fail: all, or some; each with an error, or with some bytes moved."""
    numbers = range(1, len(whole.calls) + 1)
    for number in numbers if len(numbers) <= most else sorted(chance.sample(numbers, most)):
        errors = [errno.EIO, errno.EIO, errno.ENOSPC]
        if whole.calls[number - 1].kind != CallKind.SYNC:
            errors += [errno.EINTR, SOME]
        yield ["fail", whole.word, number, chance.choice(errors), chance.choice((0, 1, 500, 999))]


def refusals_of(chance: random.Random, word: str) -> Iterator[Harm]:
    """Calls for memory that are refused: as many with numbers of one length as of another."""
    for _ in range(REFUSED_MOST):
        yield ["refuse", word, int(2 ** (chance.random() * REFUSED_BITS))]


class Faults:
    """The calls of one run that fail."""

    def __init__(self, trial: Trial, program: Program, report: Report,
                 chance: random.Random) -> None:
        self.trial, self.program, self.report, self.chance = trial, program, report, chance

    def whole(self, word: str, base: bytes, given: bytes) -> Whole:
        """A run to its end."""
        self.program.volume.write_bytes(base)
        ran, calls = self.program.noted(word, given)
        same(ran.status, 0, f"status of {word}: ")
        return Whole(word, base, given, ran.out, calls, self.program.volume.read_bytes())

    def ask(self, base: bytes, lines: list[bytes], model: Model) -> Model:
        """Fails calls of a run, and of a check of what it left; the volume is as before then, and
        its model is given."""
        self.report("scripts with faults")
        after = self.program.volume.read_bytes()
        for whole, most in ((self.whole("run", base, script_of(lines)), CALLS_MOST),
                            (self.whole("check", after, b""), CHECKED_MOST)):
            for harm in harms_of(self.chance, whole, most):
                self.trial.harms = [harm]
                self.ask_call(whole, harm, model)
            for harm in refusals_of(self.chance, whole.word):
                self.trial.harms = [harm]
                self.ask_memory(whole, harm, model)
        self.trial.harms = []
        self.program.volume.write_bytes(after)
        return model.at(model.last)

    def ask_call(self, whole: Whole, harm: Harm, model: Model) -> None:
        """Fails a call of a run."""
        _, word, number, error, thousandths = harm
        is_fault = error not in (errno.EINTR, SOME)
        self.report("calls that fail" if is_fault else "calls that are cut short")
        self.program.volume.write_bytes(whole.base)
        ran, calls = self.program.noted(word, whole.given, Plan(True, number, error, thousandths))
        failed = whole.calls[number - 1]
        where = f"call {number} of {word}, a {failed.kind.name.lower()}, error {error}: "
        if not is_fault:
            same((ran.status, ran.out), (0, whole.out), where)
            same(self.program.volume.read_bytes() == whole.after, True, f"{where}the same volume: ")
            return
        self.ask_end(whole, ran, STATUSES[failed.kind], where)
        same((len(calls), calls[-1].failed), (number, True), f"{where}no call follows: ")
        is_alike = calls[:-1] == whole.calls[:number - 1]
        same(is_alike, True, f"{where}the calls before it as in a whole run: ")
        self.ask_images(whole, calls, model, where)

    def ask_memory(self, whole: Whole, harm: Harm, model: Model) -> bool:
        """Refuses a call for memory, and gives whether the run made so many."""
        _, word, number = harm
        self.program.volume.write_bytes(whole.base)
        ran, calls = self.program.noted(word, whole.given, Plan(True, refuses=number))
        if not any(call.kind == CallKind.REFUSED for call in calls):
            return False
        self.report("calls for memory that are refused")
        where = f"call {number} of {word} for memory refused: "
        if ran.status != 0 or ran.out != whole.out:
            self.ask_end(whole, ran, NO_MEMORY, where)
        self.ask_images(whole, calls, model, where)
        return True

    def again_calls(self, whole: Whole, harm: Harm, model: Model) -> None:
        """Fails a call again, or each; a sync is neither interrupted nor moves bytes."""
        for number in range(1, len(whole.calls) + 1) if harm[2] == EACH else [harm[2]]:
            is_sync = whole.calls[number - 1].kind == CallKind.SYNC
            if not (is_sync and harm[3] in (errno.EINTR, SOME)):
                self.ask_call(whole, [*harm[:2], number, *harm[3:]], model)

    def again_memory(self, whole: Whole, harm: Harm, model: Model) -> None:
        """Refuses a call for memory again, or each until the run makes no more of them."""
        for number in count(1) if harm[2] == EACH else [harm[2]]:
            if not self.ask_memory(whole, [*harm[:2], number], model):
                return

    @staticmethod
    def ask_end(whole: Whole, ran: Ended, wanted: int, where: str) -> None:
        """Asks for a status, and that what was sent is a front."""
        same((ran.status, STATUS_NAMES.get(ran.status)), (wanted, STATUS_NAMES[wanted]), where)
        if not whole.out.startswith(ran.out):
            front = whole.out[:len(ran.out)]
            raise Differs(f"{where}{ran.out[-200:]!r}", f"a front of {front[-200:]!r}")

    def ask_images(self, whole: Whole, calls: list[Call], model: Model, where: str) -> None:
        """Looks at what the run left, and at what a stop leaves of it."""
        first = min(model.tables) if whole.word == "run" else model.last
        *_, moment = moments_of(whole.base, calls, first)
        left = self.program.volume.read_bytes()
        for image in (left, *islice(images_of(self.chance, moment), IMAGES)):
            self.report("images behind them")
            try:
                last = ask_image(image, model.tables, moment.acknowledged)
            except Differs as differs:
                self.program.volume.write_bytes(image)
                raise Differs(f"{where}{differs.told}", f"{where}{differs.wanted}") from None
            if self.chance.random() < PROGRAM_SHARE:
                ask_program(image, model.at(last), self.program, self.chance)


def explore(trial: Trial, program: Program, report: Report) -> None:
    """Makes runs, and fails calls of each."""
    faults = Faults(trial, program, report, random.Random(trial.seed + " faults"))
    explore_runs(trial, program, faults.ask)


def replay(trial: Trial, program: Program, report: Report) -> None:
    """Makes the runs again, and fails the call of the last one, or of a check of what it left."""
    faults = Faults(trial, program, report, random.Random(trial.seed + " faults"))
    model, base = scripts.new_model(trial, program), b""
    for lines in trial.runs:
        base = program.volume.read_bytes()
        model = model.at(model.last)
        program.run_lines(model, lines)
    after = program.volume.read_bytes()
    for harm in trial.harms:
        given = script_of(trial.runs[-1]) if harm[1] == "run" else b""
        whole = faults.whole(harm[1], base if harm[1] == "run" else after, given)
        if harm[0] == "refuse":
            faults.again_memory(whole, harm, model)
        else:
            faults.again_calls(whole, harm, model)


def each(trial: Trial) -> Trial:
    """The trial with each call failing in turn, so that lines may be dropped."""
    return replace(trial, harms=[[*harm[:2], EACH, *harm[3:]] for harm in trial.harms])


FAULTS = Kind(explore, replay, each)
