"""What each update does to the working table, and what it is answered."""
from __future__ import annotations

from typing import TYPE_CHECKING, Callable

from fuzzing.commands import Data, Value
from fuzzing.differs import same
from fuzzing.versions import Trees, Version

if TYPE_CHECKING:
    from fuzzing.model import Model


def file(model: Model, values: list[Value], reply: str) -> None:
    """Makes an empty file."""
    same(reply, f"ok file {values[0]}")
    model.table.files[str(values[0])] = Trees()


def unfile(model: Model, values: list[Value], reply: str) -> None:
    """Removes a file without objects."""
    same(reply, f"ok unfile {values[0]}")
    del model.table.files[str(values[0])]


def create(model: Model, values: list[Value], reply: str) -> None:
    """Makes an empty object."""
    oid = model.new_oid(reply, "create")
    number = model.table.next_number - 1
    model.table.files[str(values[0])].all[number] = Version(oid, False, None, b"")
    model.names[str(values[1])] = oid


def copied(model: Model, values: list[Value], reply: str, word: str) -> None:
    """Makes a copy of a version, by `freeze` or `derive`."""
    found = model.find(str(values[0]))
    oid = model.new_oid(reply, word)
    number = model.table.next_number - 1
    (found.trees.freeze if word == "freeze" else found.trees.derive)(found.number, oid)
    if found.number in model.table.large:
        model.table.large.add(number)
    if found.number in model.table.heights:
        model.table.heights[number] = model.table.heights[found.number]
    model.names[str(values[1])] = oid


def removed(model: Model, values: list[Value], reply: str, word: str) -> None:
    """Removes a version, by `destroy` or `drop`."""
    found = model.find(str(values[0]))
    same(reply, f"ok {word} {found.version.oid}")
    found.trees.remove(found.number)
    model.table.forget(found.number)


def edited(model: Model, values: list[Value], reply: str, word: str) -> None:
    """Changes the bytes of a version."""
    found = model.find(str(values[0]))
    before, last = found.version.data, values[-1]
    new = last.whole() if isinstance(last, Data) else b""
    place = len(before) if word == "append" else int(values[1])  # type: ignore[arg-type]
    taken = {"replace": len(new), "delete": last}.get(word, 0)
    after = before[:place] + new + before[place + int(taken):]  # type: ignore[arg-type]
    same(reply, f"ok {word} {len(after)}")
    if new or taken:
        model.edited(found, after)


def of_word(change: Callable[..., None], word: str) -> Callable[[Model, list[Value], str], None]:
    """The change of one word, where several are made alike."""
    return lambda model, values, reply: change(model, values, reply, word)


CHANGES: dict[str, Callable[[Model, list[Value], str], None]] = {
    "file": file, "unfile": unfile, "create": create,
    **{word: of_word(copied, word) for word in ("freeze", "derive")},
    **{word: of_word(removed, word) for word in ("destroy", "drop")},
    **{word: of_word(edited, word) for word in ("insert", "append", "replace", "delete")}}
