"""README: its tables with clauses of a call, and with fields of records."""
from __future__ import annotations

import re
from typing import Iterator, Optional

from crate_code import Sources, text_of
from held.tables import cells_of

PAGE = "README.md"
# The crate whose calls README's tables of clauses are about.
CRATE = "exsm_run"


def faults_of_tables(sources: Sources) -> Iterator[str]:
    """What tables name that isn't there.

    The head of the last column names the call, or is `Field`: then the words above the table
    name the records.
    """
    call: Optional[str] = None
    records: Optional[list[str]] = None
    words = ""
    for line in text_of(PAGE).split("\n"):
        cells = cells_of(line)
        if not cells:
            call, records, words = None, None, line or words
            continue
        of = re.fullmatch(r"Clause of `(\w+)`", cells[-1])
        if of:
            call, records = of[1], None
        elif cells[-1] == "Field":
            call = None
            records = [it for it in re.findall(r"`(\w+)`", words) if it in sources.fields]
            if not records:
                yield f"{PAGE}: a table of fields has no record in the words above: {words[:60]}"
        elif (call or records) and len(cells) == 2:
            for name in re.findall(r"`(\w+)`", cells[1]):
                yield from _faults_of_name(sources, call, records, name)


def _faults_of_name(sources: Sources, call: Optional[str], records: Optional[list[str]],
                    name: str) -> Iterator[str]:
    """What is wrong with a name of a call's clause, or of a field of some records."""
    if call and not any(it.promises(name) for it in sources.find(call, [CRATE])):
        yield f"{PAGE}: `{name}` is no clause of `{call}`"
    if records and not any(name in sources.fields[it] for it in records):
        yield f"{PAGE}: `{name}` is no field of {' or '.join(f'`{it}`' for it in records)}"
