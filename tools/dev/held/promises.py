"""PROMISES: its rows of promises, each with calls and the clauses of them that carry it.

A section's head names its crates. The columns Call and Clauses fall into parts by `;`, which belong
together where there are as many in both, else all clauses belong to all calls. Each clause is to
be one of some call of its part, and each call is to have some clause of it. `A` .. `B` are all
calls of a file, or all clauses of a call, from one to the other. Without names, as in "all" or
"the same", the calls are those of the section that have the clause. A clause with names in
brackets behind it has records behind it: `c` (`x`, `y` of `R`) are fields of the record R, `c`
(`R.x`) is one. "its clause" is that of a call that has a single one without a name, "one clause a
fact" any; "the clauses of `T`" are those of a trait. A ghost member of an impl counts as a clause
of its methods, and one of a trait as a clause of the trait.
"""
from __future__ import annotations

import re
from typing import Optional

from crate_code import Function, Sources, text_of
from held.tables import Name, cells_of, groups, is_range

PAGE = "docs/PROMISES.md"

# The functions that the names of calls mean.
Calls = dict[str, list[Function]]


class Row:
    """A promise with its calls, and what carries it: names of calls with their clauses."""

    def __init__(self, section: str, promise: str) -> None:
        self.section, self.promise = section, promise
        self.calls: Calls = {}
        self.told: list[tuple[list[str], str]] = []
        self.where = f"{section}: {promise[:60]}"


class Page:
    """The promises as they are read, with what is wrong in them."""

    def __init__(self, sources: Sources) -> None:
        self.sources = sources
        self.faults: list[str] = []
        self.rows: list[Row] = []

    def fault(self, row: Row, text: str) -> None:
        """Notes what is wrong in a row."""
        self.faults.append(f"{row.where}: {text}")

    def calls_between(self, first: str, last: str, crates: list[str], row: Row) -> Calls:
        """The functions of a file from one to another."""
        one, other = self.sources.find(first, crates), self.sources.find(last, crates)
        if len(one) != 1 or len(other) != 1 or one[0].path != other[0].path:
            self.fault(row, f"`{first}` .. `{last}` are no calls of one file")
            return {}
        inside = (it for it in self.sources.functions[one[0].crate] if it.path == one[0].path)
        return {it.full(): [it] for it in inside if one[0].line <= it.line <= other[0].line}

    def calls(self, part: str, names: list[Name], crates: list[str], row: Row,
              before: Calls) -> Calls:
        """The functions that a part of the column Call means, by the names that stand there."""
        found: Calls = {}
        owner: Optional[str] = None
        for first, more in names:
            # "by `impl T`" and "by `c` of `R`" say how a call comes to its clauses.
            if re.search(rf"by [^,;]*`{re.escape(first)}`", part):
                continue
            if more and is_range(part, first, more):
                found.update(self.calls_between(first, more, crates, row))
                continue
            # In a list of methods the type stands with the first alone.
            with_owner = f"{owner}::{first}" if owner and "::" not in first else first
            functions = self.sources.find(with_owner, crates) or self.sources.find(first, crates)
            owner = first.rpartition("::")[0] or owner
            if not functions and first not in self.sources.types:
                self.fault(row, f"there is no call `{first}` in {', '.join(crates)}")
            found[first] = functions
        return found if names else dict(before)

    def look_at_fields(self, behind: str, row: Row) -> None:
        """Looks at what stands in brackets behind a clause: records, and fields of them."""
        of_all = re.search(r" of `([^`]+)`", behind)
        for name in re.findall(r"`([^`]+)`", behind):
            of, _, field = name.rpartition(".")
            of = of or (of_all[1] if of_all else "")
            if name in self.sources.fields:
                continue
            records = [of] if of else list(self.sources.fields)
            if not any(field in self.sources.fields.get(it, ()) for it in records):
                what = f"the record `{of}`" if of else "a record"
                self.fault(row, f"`{field}` is no field of {what}")

    def is_plain(self, text: str, clauses: list[Name], found: Calls, row: Row) -> bool:
        """Takes a part of the column Clauses that names no clause, where it is one."""
        if (re.search(r"the clauses of|one clause a fact", text)
                or "signature" in text and not clauses):
            for name in re.findall(r"`(\w+)`", text):
                if name not in self.sources.types:
                    self.fault(row, f"there is no trait or type `{name}`")
            row.told.append((sorted(found), text))
            return True
        if "its clause" in text and not clauses:
            for name, functions in found.items():
                if not any(len(it.clauses) == 1 or "" in it.clauses for it in functions):
                    self.fault(row, f"`{name}` has no single clause")
                row.told.append(([name], "its clause"))
            return True
        return False

    def of_record(self, first: str, text: str, found: Calls, row: Row) -> Optional[list[str]]:
        """Takes a name that stands with its record, and gives the calls that have it, if so."""
        record = re.search(rf"`{re.escape(first)}` of `(\w+)`", text)
        if record and not any(it.promises(first) for those in found.values() for it in those):
            if first not in self.sources.fields.get(record[1], ()):
                self.fault(row, f"`{first}` is no field of the record `{record[1]}`")
            row.told.append((sorted(found), f"`{first}` of `{record[1]}`"))
            return list(found)
        if not record and f" of `{first}`" in text and first in self.sources.fields:
            return []
        return None

    def clause(self, first: str, more: Optional[str], text: str, found: Calls,
               row: Row) -> list[str]:
        """Takes one name of the column Clauses, and gives the names of the calls that have it."""
        told = self.of_record(first, text, found, row)
        if told is not None:
            return told
        label = f"`{first}`"
        having = [it for those in found.values() for it in those if it.promises(first)]
        if more and is_range(text, first, more):
            label = f"`{first}` .. `{more}`"
            having = [it for it in having if more in it.clauses[it.clauses.index(first):]]
        elif more:
            self.look_at_fields(more, row)
        members = self.sources.members
        if not having and not any(first in members[name] for name in found):
            calls = ", ".join(f"`{it}`" for it in found) or "a call"
            self.fault(row, f"{label}: no clause of {calls}")
        names = [name for name, those in found.items()
                 if any(it in having for it in those) or first in members[name]]
        row.told.append((names, label))
        return names

    def row(self, cells: list[str], crates: list[str], section: str, before: Calls) -> Calls:
        """Takes a row of promises, and gives its calls."""
        promise, call_cell, clause_cell = cells
        row = Row(section, promise)
        call_parts, clause_parts = groups(call_cell), groups(clause_cell)
        if len(call_parts) != len(clause_parts):
            call_parts = groups(call_cell.replace(";", ","))
            clause_parts = groups(clause_cell.replace(";", ","))
        for (part, names), (text, clauses) in zip(call_parts, clause_parts):
            found = self.calls(part, names, crates, row, before)
            row.calls.update(found)
            if self.is_plain(text, clauses, found, row):
                continue
            used = {name for first, more in clauses
                    for name in self.clause(first, more, text, found, row)}
            for name in found if names else ():
                if name not in used and found[name]:
                    self.fault(row, f"`{name}` has none of the clauses of its part: {text}")
        self.rows.append(row)
        return row.calls

    def read(self) -> None:
        """Reads the tables of promises."""
        section, is_open = "", False
        crates: list[str] = []
        before: Calls = {}
        for line in text_of(PAGE).split("\n"):
            if line.startswith("## "):
                section, before, is_open = line[3:], {}, False
                crates = self.sources.crates_of(section)
            cells = cells_of(line)
            if cells[:2] == ["Promise", "Call"]:
                is_open = True
            elif is_open and len(cells) == 3 and not set(cells[0]) <= set("-|"):
                before.update(self.row(cells, crates, section, before))
