"""Sessions of a shell as documents print them: they are run, and what comes is compared.

A block ```console has commands behind `$ `, which go on behind `> `, each with what it writes. A
block with a language and a name, as ```python diary.py, is a file that is made there. A line `...`
in what a command writes stands for any lines. A block ```terminal v is a session of the runner.
"""
from __future__ import annotations

import subprocess
from dataclasses import dataclass, field
from pathlib import Path
from typing import Iterator, Union

MARK = "\036"
END_OF_FILE = "END_OF_THE_FILE"
SECONDS = 3600
ANY_LINES = "..."


@dataclass
class Command:
    """A command, what it is to write, and where it stands."""

    text: str
    line: int
    wanted: list[str] = field(default_factory=list)


@dataclass
class NamedFile:
    """A file that a block shows."""

    name: str
    text: str


Step = Union[Command, NamedFile]


def blocks(document: str) -> Iterator[tuple[list[str], int, list[str]]]:
    """The fenced blocks of a document: words behind the fence, number of the first line, lines."""
    words: list[str] = []
    body: list[str] = []
    begun = 0
    for number, line in enumerate(document.splitlines(), 1):
        if not line.startswith("```"):
            body.append(line)
        elif begun:
            yield words, begun, body
            begun, body = 0, []
        else:
            words, begun, body = line[3:].split(), number + 1, []


def steps_of(document: str) -> list[Step]:
    """The files and commands of a document, in their order."""
    steps: list[Step] = []
    for words, begun, body in blocks(document):
        if words == ["console"]:
            steps.extend(commands(begun, body))
        elif len(words) == 2 and words[0] != "terminal":
            steps.append(NamedFile(words[1], "\n".join(body) + "\n"))
    return steps


def terminals(document: str) -> dict[str, list[str]]:
    """The sessions of the runner in a terminal, by the volume that each is on."""
    return {words[1]: body for words, _, body in blocks(document) if words[0:1] == ["terminal"]}


def commands(begun: int, body: list[str]) -> list[Command]:
    """The commands of a block, with what they are to write."""
    found: list[Command] = []
    for number, line in enumerate(body, begun):
        if line.startswith("$ "):
            found.append(Command(line[2:], number))
        elif line.startswith("> ") and not found[-1].wanted:
            found[-1].text += "\n" + line[2:]
        else:
            found[-1].wanted.append(line)
    return found


def script_of(steps: list[Step]) -> str:
    """A shell script that makes all steps, with a mark before what each command writes."""
    parts = []
    for place, step in enumerate(steps):
        if isinstance(step, NamedFile):
            parts.append(f"cat > {step.name} <<'{END_OF_FILE}'\n{step.text}{END_OF_FILE}\n")
        else:
            parts.append(f"printf '\\036%d\\n' {place}\n{step.text}\n")
    return "".join(parts)


def run(steps: list[Step], folder: Path, variables: dict[str, str]) -> dict[int, list[str]]:
    """Makes all steps in one shell, and gives the lines that each command wrote."""
    script = folder / "the.script"
    script.write_text(script_of(steps), encoding="utf-8")
    ran = subprocess.run(["bash", str(script)], stdin=subprocess.DEVNULL, stdout=subprocess.PIPE,
                         stderr=subprocess.STDOUT, cwd=folder, env=variables, timeout=SECONDS,
                         check=False)
    wrote = {}
    for part in ran.stdout.decode(errors="replace").split(MARK)[1:]:
        place, _, text = part.partition("\n")
        wrote[int(place)] = text.splitlines()
    return wrote


def fits(wanted: list[str], wrote: list[str]) -> bool:
    """Whether what came is what was wanted."""
    if ANY_LINES not in wanted:
        return wanted == wrote
    place = wanted.index(ANY_LINES)
    rest = wanted[place + 1:]
    return wrote[:place] == wanted[:place] and any(
        fits(rest, wrote[start:]) for start in range(place, len(wrote) + 1))
