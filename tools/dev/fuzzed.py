#!/usr/bin/env python3
"""Writes what the fuzzer tried into docs/TESTS.md, from what `tools/fuzz --json FILE` told.

    tools/dev/fuzzed.py FILE ..                       prints it
    tools/dev/fuzzed.py --about TEXT --write FILE ..  writes it into the page, between its marks

TEXT says which program it was, as `the gate's program of commit 81070cf`. Campaigns of different
programs aren't added: with --beside, what the page has of other programs stays behind the new
table, and how many were tried of each thing together stands at the end.
"""
from __future__ import annotations

import json
import re
import sys
from collections import Counter, defaultdict
from pathlib import Path
from typing import NamedTuple

sys.dont_write_bytecode = True

from marks import Marks, NoMarks  # noqa: E402
from words import parser_of  # noqa: E402

TOP = Path(__file__).resolve().parent.parent.parent
PAGE = TOP / "docs" / "TESTS.md"
MARKS = Marks("<!-- written by tools/dev/fuzzed.py -->", "<!-- end of what the fuzzer tried -->")
DIGITS = 16
"""Digits of the program's digest that are shown."""


class NoCampaign(Exception):
    """A file tells of no campaign, or of another program than the others."""


class Campaigns(NamedTuple):
    """What campaigns tried of one program, by kind."""

    program: str
    seeds: list[str]
    counts: dict[str, Counter[str]]
    seconds: Counter[str]
    differ: int


def read(paths: list[Path]) -> Campaigns:
    """The campaigns of some files, added."""
    whole = Campaigns("", [], defaultdict(Counter), Counter(), 0)
    for path in paths:
        try:
            told = json.loads(path.read_text(encoding="utf-8"))
            for kind, counts in told["counts"].items():
                whole.counts[kind].update(counts)
            whole.seconds.update(told["seconds"])
            seeds = sorted({*whole.seeds, str(told["seed"])})
            whole = whole._replace(seeds=seeds, differ=whole.differ + len(told["differ"]))
            program = str(told["program"])
        except (OSError, LookupError, TypeError, ValueError, AttributeError) as fault:
            raise NoCampaign(f"{path} tells of no campaign: {fault!r}") from None
        if whole.program not in ("", program):
            raise NoCampaign(f"{path} is of the program {program[:DIGITS]}, and those before it of "
                             f"{whole.program[:DIGITS]}")
        whole = whole._replace(program=program)
    return whole


def row(kind: str, counts: Counter[str], seconds: float) -> str:
    """The row of a kind."""
    tried = ", ".join(f"{count:,} {what}" for what, count in sorted(counts.items()))
    fast = ", ".join(f"{count * 60 / seconds:,.0f} {what}" for what, count in sorted(counts.items())
                     ) if seconds else "–"
    return f"| `{kind}` | {tried} | {fast} |"


def text(whole: Campaigns, about: str) -> str:
    """What was tried, as the page has it."""
    minutes = sum(whole.seconds.values()) / 60
    seeds = f"seed{'s' * (len(whole.seeds) > 1)} {', '.join(whole.seeds)}"
    differ = f"{whole.differ:,} differed" if whole.differ else "none differed"
    head = (f"On {about} (SHA-256 {whole.program[:DIGITS]}..), {seeds}, in {minutes:,.0f} minutes "
            f"of a processor: {differ}.")
    rows = [row(kind, counts, whole.seconds[kind]) for kind, counts in whole.counts.items()]
    heads = ["| Kind | Tried | In a minute of a processor |", "|---|---|---|"]
    return "\n".join([head, "", *heads, *rows])


def beside(told: str, program: str, part: str) -> str:
    """What was tried of a program, then what a page's part has of others, and all together."""
    tables = [it.strip() for it in re.split(r"(?m)^(?=On |Together: )", part)]
    others = [it for it in tables
              if it.startswith("On ") and f"(SHA-256 {program[:DIGITS]}..)" not in it]
    counts: Counter[str] = Counter()
    for tried in re.findall(r"(?m)^\| `\w+` \| ([^|]*) \|", "\n".join([told, *others])):
        for count, what in re.findall(r"(\d[\d,]*) ([^,]+)", tried):
            counts[what] += int(count.replace(",", ""))
    together = ", ".join(f"{count:,} {what}" for what, count in sorted(counts.items()))
    return "\n\n".join([told, *others, *([f"Together: {together}."] if others else [])])


def main() -> int:
    """Prints or writes, and gives the exit status."""
    parser = parser_of(__doc__)
    parser.add_argument("files", metavar="FILE", nargs="+", type=Path, help="what a campaign told")
    parser.add_argument("--about", metavar="TEXT", default="a program", help="which program it was")
    parser.add_argument("--write", action="store_true", help="write the page")
    parser.add_argument("--beside", action="store_true",
                        help="what the page has of other programs stays")
    words = parser.parse_args()
    try:
        tried = read(words.files)
        told = text(tried, words.about)
    except NoCampaign as fault:
        sys.exit(f"fuzzed: {fault}")
    try:
        page = PAGE.read_text(encoding="utf-8")
        if words.beside:
            told = beside(told, tried.program, MARKS.part(page))
        if not words.write:
            print(told)
            return 0
        whole = MARKS.replaced(page, told)
    except NoMarks as fault:
        sys.exit(f"fuzzed: docs/TESTS.md has no place for it: {fault}")
    PAGE.write_text(whole, encoding="utf-8")
    return 0


if __name__ == "__main__":
    sys.exit(main())
