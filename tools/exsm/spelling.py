"""What a refusal of a line means: which word doesn't fit its form, and what helps."""
from __future__ import annotations

import difflib
import re
from typing import Callable, Optional

from exsm.client import shortened
from exsm.lines import FORMS, FULL_AREAS, MEANINGS, SYNONYMS, WORDS, WORDS_OF

NUMBER_DIGITS = 20
"""The digits that a number has at most; it is below 2^64."""

NAME_MOST = 32
"""The bytes that a name has at most."""

NUMBER, NAME = re.compile(r"[0-9]{1,20}"), re.compile(r"[a-z0-9_]{1,32}")

Fault = Optional[str]
"""What is wrong with a word, behind the word itself, or None where it fits."""


def number_fault(word: str) -> Fault:
    """What is wrong with a number."""
    if not re.fullmatch(r"[0-9]+", word):
        return "is no number of decimal digits alone"
    if len(word) > NUMBER_DIGITS or int(word) >= 1 << 64:
        return "isn't below 2^64 in at most 20 digits"
    return None


def name_fault(word: str) -> Fault:
    """What is wrong with a name."""
    if not word:
        return "has no name"
    odd = re.search(r"[^a-z0-9_]", word)
    if odd:
        return f"has {odd[0]!r}, and a name is of a-z, 0-9 and _"
    if len(word) > NAME_MOST:
        return f"has {len(word)} characters, and a name has at most {NAME_MOST}"
    return None


def bound_fault(word: str) -> Fault:
    """What is wrong with a name that is to be bound."""
    if not word.startswith("@"):
        return f"is to be bound, so write @{word}" if NAME.fullmatch(word) else "is to be @NAME"
    return name_fault(word[1:])


def version_fault(word: str) -> Fault:
    """What is wrong with what names a version."""
    if word.startswith("@"):
        return name_fault(word[1:])
    parts = word.split(".")
    if len(parts) != 3:
        if NAME.fullmatch(word) and not NUMBER.fullmatch(word):
            return f"is neither @NAME nor page.slot.unique; a bound name is @{word}"
        return "is neither @NAME nor page.slot.unique"
    return next((f"has {part!r}, which {fault}" for part in parts
                 if (fault := number_fault(part))), None)


def hex_fault(digits: str) -> Fault:
    """What is wrong with the digits behind `hex:`."""
    odd = re.search(r"[^0-9a-fA-F]", digits)
    if odd:
        return f"has {odd[0]!r}, which is no hexadecimal digit"
    return "has an odd number of digits, and a byte has two" if len(digits) % 2 else None


def repeated_fault(text: str) -> Fault:
    """What is wrong with the count and the byte behind `rep:`."""
    count, colon, byte = text.partition(":")
    if not colon:
        return "is to be rep:COUNT:BYTE"
    if number_fault(count):
        return f"has the count {count!r}, which {number_fault(count)}"
    if not re.fullmatch("[0-9a-fA-F]{2}", byte):
        return f"has the byte {byte!r}, which is to be two hexadecimal digits"
    return None


def data_fault(word: str) -> Fault:
    """What is wrong with a data word."""
    if word.startswith("hex:"):
        return hex_fault(word[4:])
    if word.startswith("rep:"):
        return repeated_fault(word[4:])
    return "is no data: it begins with hex: or rep:"


def rule_fault(word: str) -> Fault:
    """What is wrong with the rule of a group."""
    return None if word in ("lru", "mru") else "is neither lru nor mru"


FAULTS: dict[str, Callable[[str], Fault]] = {
    "X": version_fault, "POS": number_fault, "LEN": number_fault, "FRAMES": number_fault,
    "DATA": data_fault, "RULE": rule_fault, "@NAME": bound_fault,
    "NAME": name_fault, "FILE": name_fault, "SCAN": name_fault, "GROUP": name_fault,
    "PATH": lambda word: None,
}
"""How a word is tested that stands where a form has this one."""

MAY_END = {"scan": 4}
"""The lines that may end before their form does, with the words that they have then."""


def word_fault(wanted: str, word: str) -> Fault:
    """What is wrong with a word where the form has another one."""
    if wanted in FAULTS:
        return FAULTS[wanted](word)
    return None if word == wanted else f"is to be `{wanted}`"


def first_misfit(words: list[str], form_words: str, end: Optional[int] = None) -> Fault:
    """The first word that doesn't fit a form, with its number and what is wrong. A line may end
    before its form does where it has as many words as `end`."""
    form = form_words.split()
    for place, (wanted, word) in enumerate(zip(form, words)):
        fault = word_fault(wanted, word) if place else None
        if fault:
            return f"word {place + 1}: {shortened(word)!r} {fault}"
    if len(words) > len(form):
        return f"word {len(form) + 1}: {shortened(words[len(form)])!r} is one too many"
    if len(words) < len(form) and len(words) != end:
        return f"word {len(words) + 1} is missing: {form[len(words)]}"
    return None


def known_word(word: str) -> Optional[str]:
    """The first word of a line that an unknown one is likely to mean."""
    if word.lower() in FORMS:
        return word.lower()
    if word.lower() in SYNONYMS:
        return SYNONYMS[word.lower()]
    near = difflib.get_close_matches(word.lower(), [*FORMS, *SYNONYMS], 1)
    return SYNONYMS.get(near[0], near[0]) if near else None


def syntax_meaning(line: str) -> str:
    """What is wrong with a line that spells no command: the word that doesn't fit, and its form."""
    words = line.split()
    word = words[0] if words else ""
    if word not in FORMS:
        meant = known_word(word)
        if meant:
            return f"no line begins with {shortened(word)!r}: did you mean `{FORMS[meant]}`?"
        return f"Lines begin with: {' '.join(FORMS)}"
    form = f"the form is `{FORMS[word]}`"
    misfit = first_misfit(words, FORMS[word], MAY_END.get(word))
    if misfit:
        return f"{misfit}; {form}"
    return "; ".join(filter(None, [form, WORDS_OF.get(word), WORDS]))


def meaning(line: str, name: str, values: list[str]) -> str:
    """What a refusal of a line means, and what helps."""
    if name == "syntax":
        return syntax_meaning(line)
    if name == "full":
        values = [FULL_AREAS.get(values[0], values[0]), *values[1:]]
    return MEANINGS[name].format(*values)
