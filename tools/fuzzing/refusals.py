"""When a line is refused, as docs/RULES.md has it: of the refusals that apply the one with the
least number."""
from __future__ import annotations

from typing import TYPE_CHECKING, Callable, Optional

from fuzzing.commands import DATA_MOST, UPDATES, Command, Data
from fuzzing.differs import Differs, match
from fuzzing.needs import CHARGES, HEIGHTS, Units, need

if TYPE_CHECKING:
    from fuzzing.model import Model

UPDATES_MOST, TOUCHED_MOST = 512, 128
SCANS_MOST = GROUPS_MOST = 64
OBJECT_MOST = (1 << 40) - 1
SPENT = (1 << 64) - 1
"""The number of a version and of a commit that stays unused."""

CATALOG_HEAD, CATALOG_ENTRY = 32, 48
EDITS = ("insert", "append", "replace", "delete")
OF_VERSION = ("destroy", "size", "stat", "digest", "read", *EDITS, "freeze", "derive", "versions",
              "drop", "scan")
OF_FILE = ("unfile", "list", "create")


def given(command: Command) -> int:
    """The bytes that a line gives, takes out or asks for."""
    last = command.values[-1]
    return last.length if isinstance(last, Data) else int(last)


def is_empty(command: Command) -> bool:
    """Whether a command is an edit of no bytes."""
    return command.word in EDITS and given(command) == 0


def refusal(model: Model, command: Command) -> Optional[str]:
    """The refusal of a line, where the table and the session decide it."""
    return next((text for test in TESTS if (text := test(model, command)) is not None), None)


def when(applies: bool, text: str) -> Optional[str]:
    """The refusal, where it applies."""
    return text if applies else None


def data_limit(_: Model, command: Command) -> Optional[str]:
    """Number 3."""
    asks = command.word in ("insert", "append", "replace", "read", "next")
    return when(asks and given(command) > DATA_MOST, "no 3 data_limit")


def transaction(model: Model, command: Command) -> Optional[str]:
    """Numbers 4 and 5."""
    if command.word in UPDATES or command.word in ("commit", "abort"):
        return when(model.working is None, "no 4 no_txn")
    return when(command.word in ("begin", "checkpoint") and model.working is not None,
                "no 5 txn_open")


def no_name(model: Model, command: Command) -> Optional[str]:
    """Number 6."""
    return when(command.word in OF_VERSION and model.oid_of(str(command.values[0])) is None,
                "no 6 no_name")


def name_taken(model: Model, command: Command) -> Optional[str]:
    """Number 7."""
    bound = {"create": 1, "freeze": 1, "derive": 1, "scan": 1, "group": 0}.get(command.word)
    return when(bound is not None and model.is_taken(str(command.values[bound])), "no 7 name_taken")


def of_files(model: Model, command: Command) -> Optional[str]:
    """Numbers 8 to 10."""
    files = model.table.files
    if command.word in OF_FILE:
        return when(command.values[0] not in files, "no 8 no_file")
    if command.word != "file":
        return None
    if command.values[0] in files:
        return "no 9 file_exists"
    most = (model.sizes.page_size - CATALOG_HEAD) // CATALOG_ENTRY
    return when(len(files) >= most, "no 10 files_full")


def of_version(model: Model, command: Command) -> Optional[str]:
    """Numbers 11 to 13 and 15."""
    if command.word not in OF_VERSION:
        return None
    found = model.table.find(model.oid_of(str(command.values[0])) or "")
    if found is None:
        return "no 11 no_object"
    if command.word in ("destroy", "drop", "freeze", "derive", *EDITS):
        text = found.trees.refusal(command.word, found.number)
        return None if text and text.startswith("no 24") else text
    return None


def not_empty(model: Model, command: Command) -> Optional[str]:
    """Number 14."""
    return when(command.word == "unfile" and bool(model.table.files[str(command.values[0])].all),
                "no 14 not_empty")


def of_scans(model: Model, command: Command) -> Optional[str]:
    """Numbers 16 and 17."""
    if command.word in ("next", "close"):
        return when(command.values[0] not in model.scans, "no 16 no_scan")
    return when(command.word == "scan" and command.values[2:] != []
                and command.values[2] not in model.groups,
                "no 17 no_group")


def of_range(model: Model, command: Command) -> Optional[str]:
    """Numbers 18 and 19."""
    if command.word not in (*EDITS, "read"):
        return None
    size = len(model.find(str(command.values[0])).version.data)
    if command.word != "append":
        end = int(command.values[1]) + (0 if command.word == "insert" else given(command))
        if end > size:
            return "no 18 range"
    grows = command.word in ("insert", "append")
    return when(grows and size + given(command) > OBJECT_MOST, "no 19 too_large")


def too_many(model: Model, command: Command) -> Optional[str]:
    """Number 20."""
    if command.word == "scan":
        return when(len(model.scans) >= SCANS_MOST, "no 20 too_many scans")
    return when(command.word == "group" and len(model.groups) > GROUPS_MOST,
                "no 20 too_many groups")


def ids_spent(model: Model, command: Command) -> Optional[str]:
    """Number 21."""
    if command.word == "begin":
        return when(model.last == SPENT, "no 21 ids_spent")
    makes = command.word in ("create", "freeze", "derive")
    return when(makes and model.table.next_number == SPENT, "no 21 ids_spent")


def branches(model: Model, command: Command) -> Optional[str]:
    """Number 24, which stands behind 22."""
    if command.word != "drop":
        return None
    found = model.find(str(command.values[0]))
    return found.trees.refusal("drop", found.number)


TESTS: list[Callable[[Model, Command], Optional[str]]] = [
    data_limit, transaction, no_name, name_taken, of_files, of_version, not_empty, of_scans,
    of_range, too_many,
    ids_spent]


# Refusals in which the volume has a say.

def long_transaction(model: Model, command: Command, reply: str) -> None:
    """Number 22: the transaction has all its updates, or may touch too many pages."""
    found = match(reply, f"no 22 long_txn {model.updates} ([0-9]+)")
    touched, charge = int(found[1]), CHARGES[command.word]
    is_known = model.touched_least <= touched <= model.touched_most
    if not is_known or not (model.updates == UPDATES_MOST or touched + charge > TOUCHED_MOST):
        raise Differs(reply,
                      f"{model.touched_least} to {model.touched_most} pages touched, charge "
                      f"{charge}")
    model.touched_least = model.touched_most = touched


def heights_of(model: Model, command: Command) -> range:
    """The heights that the object of an update may have."""
    if command.word not in EDITS:
        return HEIGHTS[:1]
    known = model.table.heights.get(model.find(str(command.values[0])).number)
    return HEIGHTS if known is None else HEIGHTS[known:known + 1]


def needs(model: Model, command: Command) -> list[Units]:
    """What an update needs, by each height that its object may have."""
    length = given(command) if command.word in EDITS else 0
    heights = heights_of(model, command)
    return [need(command.word, length, height, model.sizes) for height in heights]


def need_bounds(model: Model, command: Command) -> list[Units]:
    """The least and the greatest need of an update: a higher tree needs no less."""
    length, heights = given(command) if command.word in EDITS else 0, heights_of(model, command)
    return [need(command.word, length, height, model.sizes) for height in (heights[0], heights[-1])]


def may_stay_small(model: Model, command: Command) -> bool:
    """Whether an edit may be one of a small object that stays small, which needs nothing."""
    if command.word not in EDITS:
        return False
    return model.find(str(command.values[0])).number not in model.table.large


def full(model: Model, command: Command, reply: str) -> None:
    """Number 23: the need is above the free units, of the page area first."""
    found = match(reply, "no 23 full (pages|segs) ([0-9]+) ([0-9]+)")
    area, told_need, free = found[1], int(found[2]), int(found[3])
    total = getattr(model.sizes, area)
    least = total - getattr(model.most, area)
    is_free = free == least if model.used is not None else least <= free < total + (area == "segs")
    wanted = needs(model, command)
    is_need = told_need in [getattr(one, area) for one in wanted]
    is_later = area == "pages" or model.used is None or any(
        one.segs == told_need and one.pages <= model.sizes.pages - model.used.pages
        for one in wanted)
    if is_empty(command) or not (is_free and is_need and is_later and told_need > free):
        raise Differs(reply,
                      f"a need of {wanted[0]} to {wanted[-1]}, at least {least} free {area}, "
                      f"{model.used} in use")
    model.only(**{area: total - free})
