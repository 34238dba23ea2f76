"""GLOSSARY: the files and the names in its rows."""
from __future__ import annotations

import re
from typing import Iterator

from crate_code import has_file, text_of
from held.tables import path_and_names

PAGE = "docs/GLOSSARY.md"


def faults_of_rows() -> Iterator[str]:
    """What rows name that isn't there. Their last two columns are a file and names in it."""
    for line in text_of(PAGE).split("\n"):
        path, names = path_and_names(line, "rt|antt")
        is_there = path is not None and has_file(f"crates/{path}")
        words = set(re.findall(r"[\w-]+", text_of(f"crates/{path}"))) if is_there else set()
        for name in names:
            if name not in words:
                yield f"{PAGE}: there is no `{name}` in crates/{path}"
