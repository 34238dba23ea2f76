"""Hands the lines of a script to a run, and tells what a refusal means."""
from __future__ import annotations

import signal
import sys
from contextlib import contextmanager
from typing import Callable, Iterable, Iterator, Optional

from exsm.client import (
    AnyPath, Broken, Ended, ProgramMissing, Refused, Store, leave_output, shortened)
from exsm.commands import RED, coloured, is_coloured, status_of
from exsm.hints import more_of
from exsm.lines import reason_of
from exsm.spelling import meaning

BINDING = ("create", "freeze", "derive")
"""The lines that bind a name, which stands last on them."""


def tell(text: str) -> None:
    """Writes a line to standard error."""
    text = f"exsm_do: {text}"
    print(coloured(text, RED) if is_coloured(sys.stderr) else text, file=sys.stderr, flush=True)


@contextmanager
def interrupts_ignored() -> Iterator[None]:
    """Ignores Ctrl-C within, in this program and in those that it starts meanwhile."""
    before = signal.signal(signal.SIGINT, signal.SIG_IGN)
    try:
        yield
    finally:
        signal.signal(signal.SIGINT, before)


class Runner:
    """Hands lines to a run, and knows whether a transaction is open and which names are bound."""

    def __init__(self, store: Store) -> None:
        self.store = store
        self.in_transaction = False
        self.bound: list[str] = []
        self.bound_before = 0

    def step(self, line: bytes, number: int) -> bool:
        """Sends a line and prints its reply; false where it was refused, which is told."""
        reply = self.store.patient_exchange(line)
        if reply is None:
            return True
        print(reply, flush=True)
        answer, *words = reply.split(" ")
        text = line.decode("ascii", "replace").strip()
        if answer == "ok":
            self._note(words[0], text)
            return True
        if words[1] == "no_txn":
            self.in_transaction = False            # a server has aborted it
        self.tell_refusal(f"line {number}: {shortened(text)}", text, words[1], words[2:])
        return False

    def tell_refusal(self, which: str, line: str, name: str, values: list[str]) -> None:
        """Tells which line was refused, what that means, and what the run says that helps."""
        more = more_of(self.store, line, name, values)
        for text in filter(None, [which, meaning(line, name, values), more]):
            tell(text)

    def _note(self, word: str, line: str) -> None:
        """Notes what an accepted line opens, closes or binds."""
        if word == "begin":
            self.in_transaction, self.bound_before = True, len(self.bound)
        elif word == "commit":
            self.in_transaction = False
        elif word == "abort":
            self.in_transaction = False
            del self.bound[self.bound_before:]
        elif word in BINDING:
            self.bound.append(line.split()[-1])

    def give_up(self) -> None:
        """Aborts an open transaction, and tells so."""
        if self.in_transaction:
            try:
                self.store.ask("abort")
            except Refused as no:
                if no.name != "no_txn":            # else a server has done so
                    raise
            tell("the open transaction is aborted")


def run_script(runner: Runner, lines: Iterable[bytes]) -> int:
    """Runs a script up to its first refused line, and gives the exit status."""
    for number, line in enumerate(lines, 1):
        if not runner.step(line.rstrip(b"\n"), number):
            runner.give_up()
            return 1
    if runner.in_transaction:
        tell("no `commit` at the end of the script")
        runner.give_up()
        return 1
    return 0


def run_lines(runner: Runner, script: Optional[AnyPath]) -> int:
    """Runs a script, or the lines of standard input, and gives the exit status."""
    if script is None:
        return run_script(runner, sys.stdin.buffer)
    with open(script, "rb") as lines:
        return run_script(runner, lines)


def run(opened: Callable[[], Store], steps: Callable[[Runner], int]) -> int:
    """Hands a session to these steps, tells a fault, and gives the exit status."""
    runner = None
    try:
        with interrupts_ignored():                 # else Ctrl-C would end the program besides
            store = opened()
        with store:
            runner = Runner(store)
            return steps(runner)
    except Ended as fault:
        print(fault, file=sys.stderr)
        return status_of(fault)
    except BrokenPipeError:
        leave_output()
    except KeyboardInterrupt:
        is_open = runner is not None and runner.in_transaction
        tell("interrupted; the open transaction is aborted" if is_open else "interrupted")
    except (Broken, ProgramMissing, OSError) as fault:
        tell(reason_of(fault))
    return 1
