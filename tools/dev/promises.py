#!/usr/bin/env python3
"""Holds the documents against the sources, and writes docs/MAP.md.

    tools/dev/promises.py            writes docs/MAP.md
    tools/dev/promises.py --check    writes nothing; status 1 where the page is old too
    tools/dev/promises.py --against COMMIT
                                     lists each clause and definition that changed or went since

MAP has each promise of docs/PROMISES.md with its clauses, must-fail edits and tests. Both end
with status 1 where a name is gone:

- in PROMISES.md, or the tables of clauses in README.md, a clause that the call doesn't have
- in README's tables of fields one that no record of the words above has
- in docs/TOUR.md a function that isn't in its file, or another number of files of a way
- in docs/GLOSSARY.md a word that isn't in its file
- in any document a file of a crate that isn't there, and in its sentences a clause or a field
  (`x` of `y`, the clause `x`, the field `x`), a name of three words or more that stands nowhere,
  or a heading of scenarios that isn't there
- a must-fail edit whose old text doesn't stand once in its file

How each is read stands in the module of tools/dev/held/ that is about it.
"""
from __future__ import annotations

import sys

sys.dont_write_bytecode = True

from crate_code import Sources, has_file, text_of, write_text  # noqa: E402
from held import against, checks, glossary, readme, sentences, tour  # noqa: E402
from held.map import PAGE as MAP, the_map  # noqa: E402
from held.promises import Page  # noqa: E402
from words import parser_of  # noqa: E402


def faults_of(page: Page) -> list[str]:
    """What is wrong in the documents."""
    sources = page.sources
    return [
        *page.faults,
        *readme.faults_of_tables(sources),
        *tour.faults_of_rows(sources),
        *tour.faults_of_ways(),
        *glossary.faults_of_rows(),
        *sentences.faults_of_paths(),
        *sentences.faults_of_sentences(sources),
        *sentences.faults_of_names(),
        *checks.faults_of_edits(sources),
    ]


def main() -> int:
    """Looks at the documents, writes or compares the map, and gives the exit status."""
    parser = parser_of(__doc__)
    parser.add_argument("--check", action="store_true", help="write nothing")
    parser.add_argument("--against", metavar="COMMIT", help="list what changed or went since")
    words = parser.parse_args()
    if words.against:
        print("\n".join(against.changes(words.against)))
        return 0
    page = Page(Sources())
    page.read()
    faults = faults_of(page)
    text, lone = the_map(page)
    is_old = not has_file(MAP) or text_of(MAP) != text
    print("".join(f"{it}\n" for it in faults), end="")
    if words.check and is_old:
        print(f"{MAP} is old: run tools/dev/promises.py")
    elif not words.check:
        write_text(MAP, text)
    clauses = sum(len(it.told) for it in page.rows)
    print(f"{len(page.rows)} promises, {clauses} names of clauses, {len(faults)} names that are "
          f"gone; {len(lone)} must-fail edits go with none")
    return 1 if faults or words.check and is_old else 0


if __name__ == "__main__":
    sys.exit(main())
