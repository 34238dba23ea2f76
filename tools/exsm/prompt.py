"""A prompt on a volume: lines of the program, and a few words that a person wants beside them."""
from __future__ import annotations

import os
import signal
import time
from typing import Callable, Optional

from exsm.client import PIECE, Refused, shortened
from exsm.do import Runner, interrupts_ignored, tell
from exsm.lines import FORMS, SENTENCES, WORDS, WORDS_OF, reason_of
from exsm.spelling import first_misfit, known_word
from exsm.texts import shown, with_digits

try:
    import readline
except ImportError:
    readline = None                                # a prompt without history and completion

HISTORY = os.path.join(os.path.expanduser("~"), ".exsm_history")
HISTORY_MOST = 1000

SHOW_MOST = 65_536
"""Bytes that `show` gives where no length is told."""

OWN_FORMS = {
    "show": "show X [POS LEN]",
    "put": "put PATH in FILE as @NAME",
    "source": "source PATH",
    "time": "time LINE",
    "help": "help [WORD]",
    "quit": "quit",
}
"""The words of the prompt itself, by their first word."""

OWN_SENTENCES = {
    "show": f"tells bytes as text, else as digits; of a long object the first {SHOW_MOST:,}",
    "put": "makes an object of a file's bytes, within the open transaction",
    "source": "runs the lines of a file, up to the first that is refused",
    "time": "does what a line says, and tells how long that took",
    "help": "tells all lines, or one",
    "quit": "ends the session; an open transaction is aborted",
}

DATA_WORDS = 'At the prompt DATA may also be text:WORD or text:"with spaces", written as UTF-8.'


class Misuse(Exception):
    """A word of the prompt was used in a way that it isn't for; the text says its form."""


def ask_form(words: list[str], form: str, end: Optional[int] = None) -> None:
    """Misuse where a word of the prompt's own doesn't fit its form."""
    misfit = first_misfit(words, form, end)
    if misfit:
        raise Misuse(f"{misfit}; the form is `{OWN_FORMS[words[0]]}`")


class Prompt:
    """The session of a terminal: what its own words do, and the lines of the program."""

    def __init__(self, runner: Runner, volume: str) -> None:
        self.runner, self.volume = runner, volume
        self.number = 0
        self.own: dict[str, Callable[[list[str]], None]] = {
            "show": self.show, "put": self.put, "source": self.source, "time": self.time,
            "help": self.help, "?": self.help, ".help": self.help,
        }

    def banner(self) -> str:
        """What stands on the volume, in a line."""
        store = self.runner.store
        files, space = len(store.files()), store.space()
        return (f"{self.volume}: {files} file{'' if files == 1 else 's'}, "
                f"{space.pages:,} of {space.of_pages:,} pages and "
                f"{space.segs:,} of {space.of_segs:,} segment units in use; help, quit")

    def step(self, line: str) -> bool:
        """Does what a line says, the prompt's own or the program's; false where it is refused."""
        self.number += 1
        words = line.split()
        own = self.own.get(words[0].lower() if words else "")
        if own == self.time and len(words) > 1:
            return self.timed(line.split(maxsplit=1)[1])
        if own is None:
            return self.runner.step(with_digits(line).encode(errors="surrogateescape"), self.number)
        try:
            own(words[1:])
        except Refused as why:
            self.runner.tell_refusal(shortened(why.line), why.line, why.name, why.values)
        except (Misuse, OSError, ValueError) as why:
            tell(reason_of(why))
        else:
            return True
        return False

    def show(self, words: list[str]) -> None:
        """`show X [POS LEN]`"""
        ask_form(["show", *words], "show X POS LEN", 2)
        store, oid = self.runner.store, words[0]
        size = store.size(oid)
        if len(words) == 3:
            print(shown(store.read(oid, int(words[1]), int(words[2]))))
            return
        print(shown(store.read(oid, 0, min(size, SHOW_MOST))))
        if size > SHOW_MOST:
            tell(f"these are the first {SHOW_MOST:,} of {size:,} bytes: `{OWN_FORMS['show']}`")

    def put(self, words: list[str]) -> None:
        """`put PATH in FILE as @NAME`"""
        ask_form(["put", *words], OWN_FORMS["put"])
        path, _, file, _, name = words
        with open(path, "rb") as source:
            if not self.step(f"create {file} as {name}"):
                return
            size = 0
            while piece := source.read(PIECE):
                self.runner.store.append(name, piece)
                size += len(piece)
        print(f"{size:,} bytes of {path} are in {name}")

    def source(self, words: list[str]) -> None:
        """`source PATH`"""
        ask_form(["source", *words], OWN_FORMS["source"])
        with open(words[0], encoding="utf-8", errors="surrogateescape") as lines:
            for number, line in enumerate(lines, 1):
                if line.strip() and not self.step(line.rstrip("\n")):
                    raise Misuse(f"{words[0]}: line {number} was refused; none after it was run")

    def timed(self, line: str) -> bool:
        """Does what a line says, and tells how long that took."""
        began = time.perf_counter()
        is_done = self.step(line)
        print(f"{(time.perf_counter() - began) * 1000:.1f} ms")
        return is_done

    def time(self, _: list[str]) -> None:
        """`time LINE`, where the line isn't there."""
        raise Misuse(f"the form is `{OWN_FORMS['time']}`")

    def help(self, words: list[str]) -> None:
        """`help [WORD]`"""
        sentences = {**SENTENCES, **OWN_SENTENCES}
        forms = {**FORMS, **OWN_FORMS}
        if not words:
            most = max(map(len, forms.values()))
            print("\n".join(f"{form:{most}}  {sentences[word]}" for word, form in forms.items()))
            print(f"{WORDS}. {DATA_WORDS}")
            return
        word = words[0] if words[0] in forms else known_word(words[0])
        if word is None:
            raise Misuse(f"there is no line {words[0]!r}; `help` tells all")
        print(f"{forms[word]}: {sentences[word]}")
        if word in FORMS:
            print("; ".join(filter(None, [WORDS_OF.get(word), WORDS])) + f". {DATA_WORDS}")


class Completion:
    """The words that Tab offers: of lines, then of files, bound names and identifiers."""

    def __init__(self, runner: Runner) -> None:
        self.runner = runner
        self.offers: list[str] = []

    def versions(self, text: str) -> list[str]:
        """The bound names, and where a number is begun the identifiers of current versions."""
        if not text[:1].isdigit():
            return self.runner.bound
        store = self.runner.store
        return [oid for file in store.files() for oid in store.list(file)]

    def words_after(self, before: list[str], text: str) -> list[str]:
        """The words that may stand after these on a line."""
        forms = {**FORMS, **OWN_FORMS}
        if before[:1] == ["time"]:
            return self.words_after(before[1:], text)
        if not before:
            return list(forms)
        if before[0] == "help":
            return list(forms)
        form = forms.get(before[0], "").replace("[", "").replace("]", "").split()
        wanted = form[len(before)] if len(before) < len(form) else ""
        if wanted in ("as", "in"):
            return [wanted]
        if wanted == "RULE":
            return ["lru", "mru"]
        if wanted == "X":
            return self.versions(text)
        if wanted == "FILE" or before[0] == "unfile":
            return self.runner.store.files()
        return ["hex:", "rep:", "text:"] if wanted == "DATA" else []

    def __call__(self, text: str, index: int) -> Optional[str]:
        """The offer of an index, as readline asks for it: the first call finds them all."""
        if index == 0:
            before = readline.get_line_buffer()[:readline.get_begidx()].split()
            words = self.words_after(before, text)
            self.offers = [word for word in words if word.startswith(text)]
        if index >= len(self.offers):
            return None
        word = self.offers[index]
        return word if word.endswith(":") else word + " "


def prepare_terminal(runner: Runner) -> None:
    """Sets history and completion up."""
    readline.set_completer(Completion(runner))
    readline.set_completer_delims(" \t")
    readline.parse_and_bind("tab: complete")
    readline.set_history_length(HISTORY_MOST)
    if os.path.exists(HISTORY):
        readline.read_history_file(HISTORY)


def interrupt_once(*_: object) -> None:
    """Raises `KeyboardInterrupt`, and ignores what comes behind the first Ctrl-C."""
    signal.signal(signal.SIGINT, signal.SIG_IGN)
    raise KeyboardInterrupt


def read_line(runner: Runner) -> Optional[str]:
    """The next line of the terminal, or None at its end. Ctrl-C drops what is typed so far.

    Ctrl-C is taken here alone: in a session it is ignored but while a line is waited for.
    """
    while True:
        try:
            signal.signal(signal.SIGINT, interrupt_once)
            line = input("exsm*> " if runner.in_transaction else "exsm> ")
            signal.signal(signal.SIGINT, signal.SIG_IGN)
            return line
        except KeyboardInterrupt:
            print("^C")
        except EOFError:
            signal.signal(signal.SIGINT, signal.SIG_IGN)
            print()
            return None


def talk(runner: Runner, volume: str) -> int:
    """Runs the lines of a terminal, and gives the exit status."""
    prompt = Prompt(runner, volume)
    print(prompt.banner())
    if readline is not None:
        prepare_terminal(runner)
    try:
        with interrupts_ignored():
            while (line := read_line(runner)) is not None and line.strip() not in ("quit", "exit"):
                prompt.step(line)
            runner.give_up()
    finally:
        if readline is not None:
            readline.write_history_file(HISTORY)
    return 0
