"""Text as data of a line, and bytes as text."""
from __future__ import annotations

import re

TEXT = re.compile(r'text:(?:"((?:[^"\\]|\\.)*)"|([^\s"]\S*|))(?=\s|$)')
"""A word of text: `text:` and a word, or a text in quotes with `\\n`, `\\t`, `\\"` and `\\\\`."""

ESCAPES = {"n": "\n", "t": "\t", '"': '"', "\\": "\\"}


def unescaped(text: str) -> str:
    """A quoted text without its backslashes; behind one that means nothing its character stays."""
    return re.sub(r"\\(.)", lambda found: ESCAPES.get(found[1], found[0]), text)


def with_digits(line: str) -> str:
    """The line with each word of text as a data word of the program, in UTF-8."""
    def digits(found: re.Match[str]) -> str:
        text = unescaped(found[1]) if found[1] is not None else found[2]
        return "hex:" + text.encode(errors="surrogateescape").hex()
    return TEXT.sub(digits, line)


def shown(data: bytes) -> str:
    """Bytes as a person reads them: text where they are one, else digits with their places."""
    try:
        text = data.decode()
    except UnicodeDecodeError:
        return dump(data)
    if all(sign.isprintable() or sign in "\n\t" for sign in text):
        return text
    return dump(data)


def dump(data: bytes) -> str:
    """Lines of sixteen bytes: the place of the first, their digits, and the letters among them."""
    rows = []
    for start in range(0, len(data), 16):
        row = data[start:start + 16]
        letters = "".join(chr(byte) if 32 <= byte < 127 else "." for byte in row)
        rows.append(f"{start:08x}  {row.hex(' '):47}  {letters}")
    return "\n".join(rows)
