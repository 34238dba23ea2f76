"""A model of a run over a plain table: it says of each reply whether it is the right one.

What docs/RULES.md leaves to the volume (where a record lies, how many units are in use, how many
pages an update touched) is taken from the replies, within the bounds that stand there.
"""
from __future__ import annotations

from dataclasses import dataclass
from typing import Optional

from exsm.geometry import Geometry
from fuzzing import asked, changes, refusals
from fuzzing.commands import UPDATES, Command, command_of, is_long
from fuzzing.differs import Differs, match, same
from fuzzing.needs import CHARGES, Units
from fuzzing.table import Found, Table


@dataclass
class Scan:
    """The bytes of an open scan, and how many it gave."""

    data: bytes
    given: int = 0


class Model:
    """A session over a volume of some sizes, whose committed table is known."""

    def __init__(self, sizes: Geometry, table: Table, last: int) -> None:
        self.sizes, self.committed, self.last = sizes, table, last
        self.tables = {last: table}
        """The tables after each commit, by its number."""
        self.begin_run()

    def begin_run(self) -> None:
        """Forgets what a run had, as a new one begins."""
        self.working: Optional[Table] = None
        self.names: dict[str, str] = {}
        self.names_before: dict[str, str] = {}
        self.scans: dict[str, Scan] = {}
        self.groups = {"main"}
        self.updates, self.touched_least, self.touched_most = 0, 1, 1
        self.most = Units(self.sizes.pages, self.sizes.segs)
        self.used: Optional[Units] = None

    def at(self, last: int) -> Model:
        """A new session over what a commit left."""
        return Model(self.sizes, self.tables[last].copy(), last)

    @property
    def table(self) -> Table:
        """The table that commands show."""
        return self.committed if self.working is None else self.working

    def oid_of(self, text: str) -> Optional[str]:
        """The identifier that a line's word for a version means."""
        return self.names.get(text[1:]) if text.startswith("@") else text

    def find(self, text: str) -> Found:
        """The version that a line names; the line isn't refused for it."""
        found = self.table.find(self.oid_of(text) or "")
        assert found is not None, text
        return found

    def is_taken(self, name: str) -> bool:
        """Whether a bound name, a scan or a group has the name."""
        return name in self.names or name in self.scans or name in self.groups

    # Replies.

    def step(self, line: bytes, reply: str) -> None:
        """Steps over a line that is answered; a reply that is wrong raises `Differs`."""
        if is_long(line):
            return same(reply, "no 1 line_long")
        command = command_of(line)
        if command is None:
            return same(reply, "no 2 syntax")
        refusal = refusals.refusal(self, command)
        if refusal is not None:
            return same(reply, refusal)
        if command.word in UPDATES:
            return self._update(command, reply)
        asked.ANSWERS[command.word](self, command.values, reply)

    # Updates.

    def _update(self, command: Command, reply: str) -> None:
        """An update that nothing but its length or its need refuses."""
        if self.updates == refusals.UPDATES_MOST or reply.startswith("no 22 "):
            return refusals.long_transaction(self, command, reply)
        charge = 0 if refusals.is_empty(command) else CHARGES[command.word]
        if self.touched_least + charge > refusals.TOUCHED_MOST:
            raise Differs(reply, f"no 22 long_txn {self.updates} {self.touched_least}")
        branches = refusals.branches(self, command)
        if branches is not None:
            return same(reply, branches)
        if reply.startswith("no 23 "):
            return refusals.full(self, command, reply)
        needs = refusals.need_bounds(self, command)
        self._ask_room(command, reply, needs)
        changes.CHANGES[command.word](self, command.values, reply)
        self.updates += 1
        self.touched_most = min(self.touched_most + charge, refusals.TOUCHED_MOST)
        if charge:
            self.used = None
            self.most = self.most_after(needs)

    def _ask_room(self, command: Command, reply: str, needs: list[Units]) -> None:
        """Asks that an update that was taken had the room that it needs, where that is known."""
        if (self.used is None or refusals.is_empty(command)
                or refusals.may_stay_small(self, command)):
            return
        free = Units(self.sizes.pages - self.used.pages, self.sizes.segs - self.used.segs)
        if all(one.pages > free.pages or one.segs > free.segs for one in needs):
            raise Differs(reply, f"no 23 full, by the need {needs[0]} and the free units {free}")

    def most_after(self, needs: list[Units]) -> Units:
        """The units that may be in use after an update of one of these needs."""
        pages, segs = (max(of) for of in zip(*needs))
        return Units(min(self.sizes.pages, self.most.pages + pages),
                     min(self.sizes.segs, self.most.segs + segs))

    def edited(self, found: Found, data: bytes) -> None:
        """Gives a version other bytes."""
        found.trees.edit(found.number, data)
        self.table.forget(found.number)

    def new_oid(self, reply: str, word: str) -> str:
        """The identifier of a new version, which lies where none is and has the next number."""
        found = match(reply, f"ok {word} (([0-9]+)[.][0-9]+)[.]([0-9]+)")
        same(found[3], str(self.table.next_number), "number of a version: ")
        if not self.sizes.has_page(int(found[2])) or found[1] in self.table.places():
            raise Differs(reply, "a place in the page area where no version lies")
        self.table.next_number += 1
        return f"{found[1]}.{self.table.next_number - 1}"

    # Transactions.

    def begin(self) -> None:
        """Opens a transaction."""
        self.working, self.names_before = self.committed.copy(), dict(self.names)
        self.updates, self.touched_least, self.touched_most = 0, 1, 1

    def commit(self) -> None:
        """Makes the working table the committed one."""
        self.committed, self.working = self.table, None
        self.last += 1
        self.tables[self.last] = self.committed
        self.used = None

    def abort(self) -> None:
        """Drops the working table, and the names that it bound."""
        self.working, self.names, self.used = None, self.names_before, None

    def end_run(self) -> None:
        """Aborts a transaction that the end of a script leaves open."""
        if self.working is not None:
            self.abort()

    def count(self, pages: int, segs: int) -> None:
        """Notes the units in use, as a reply tells them."""
        self.used = self.most = Units(pages, segs)

    def only(self, **areas: int) -> None:
        """Notes the units in use of one area."""
        self.most = self.most._replace(**areas)
