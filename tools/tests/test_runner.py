"""The runner: it stops at the first refusal, and tells the line and what it means."""
from __future__ import annotations

import os
import random
import re
import signal
import time
from typing import NamedTuple

from exsm.lines import FORMS, MEANINGS, SENTENCES, SYNONYMS
from exsm.prompt import readline
from exsm.spelling import meaning, syntax_meaning
from exsm.texts import shown, with_digits
from tests.support import TOP, InFolder, Terminal

ABORTED = "exsm_do: the open transaction is aborted"
FILES_OF_512 = 10
APPENDS_MOST = 510


class Row(NamedTuple):
    """A script, the replies, what is told of the line, and the status."""

    script: str
    replies: list[str]
    told: list[str]
    status: int


class Before(NamedTuple):
    """The beginning of a script, and its replies."""

    script: str
    replies: list[str]


def stopped(before: Before, line: str, number: int, name: str, *values: str,
            more: str = "") -> Row:
    """A script that is refused at the line that stands behind its beginning."""
    place = before.script.count("\n") + 1
    told = [f"exsm_do: line {place}: {line}",
            f"exsm_do: {meaning(line, name, list(values))}"]
    if more:
        told.append(f"exsm_do: {more}")
    reply = " ".join(["no", str(number), name, *values])
    return Row(before.script + line, [*before.replies, reply],
               [*told, ABORTED] if before.replies else told, 1)


NOTHING, BLANKS = Before("", []), Before("\n# a comment\n\n", [])
BEGUN = Before("begin\n", ["ok begin 1"])
MADE = Before("begin\nfile a\ncreate a as @x\n", ["ok begin 1", "ok file a", "ok create 258.0.1"])
FROZEN = Before(MADE.script + "freeze @x as @v\n", [*MADE.replies, "ok freeze 258.1.2"])
DERIVED = Before(FROZEN.script + "derive @v as @y\n", [*FROZEN.replies, "ok derive 258.2.3"])
APPEND = "append @x rep:1:61"
APPENDS = Before(MADE.script + f"{APPEND}\n" * APPENDS_MOST,
                 [*MADE.replies, *(f"ok append {size + 1}" for size in range(APPENDS_MOST))])
FILES = Before("begin\n" + "".join(f"file f{place}\n" for place in range(FILES_OF_512)),
               ["ok begin 1", *(f"ok file f{place}" for place in range(FILES_OF_512))])
LARGER = ("A volume of 3M holds this and a half as much besides: `exsm_move.py VOLUME NEW --size "
          "3M` makes one of all that is there")
"""400,000 bytes and a half as much, and four fifths of a volume for them, and its first 257
pages."""

TABLE = [
    Row("files\n# a comment\n\nlog\n", ["ok files 0", "ok log 0"], [], 0),
    Row(MADE.script + "commit\n", [*MADE.replies, "ok commit 1"], [], 0),
    Row(MADE.script + "read @x 0 0\n", [*MADE.replies, "ok read 0"],
        ["exsm_do: no `commit` at the end of the script", ABORTED], 1),
    stopped(BEGUN, "begn", 2, "syntax"),
    stopped(BLANKS, "help", 2, "syntax"),
    stopped(NOTHING, "freeze 1.1.1 as", 2, "syntax"),
    stopped(NOTHING, "append @x 61", 2, "syntax"),
    stopped(NOTHING, "append @x rep:16777217:61", 3, "data_limit"),
    stopped(NOTHING, "commit", 4, "no_txn"),
    stopped(BEGUN, "checkpoint", 5, "txn_open"),
    stopped(NOTHING, "size @x", 6, "no_name"),
    stopped(MADE, "create a as @x", 7, "name_taken"),
    stopped(NOTHING, "list b", 8, "no_file"),
    stopped(MADE, "file a", 9, "file_exists"),
    stopped(FILES, "file z", 10, "files_full"),
    stopped(NOTHING, "stat 1.1.1", 11, "no_object"),
    stopped(FROZEN, "append @v hex:61", 12, "frozen"),
    stopped(FROZEN, "drop @x", 13, "current"),
    stopped(MADE, "unfile a", 14, "not_empty"),
    stopped(FROZEN, "destroy @x", 15, "has_versions"),
    stopped(MADE, "read @x 0 1", 18, "range", more="@x has 0 bytes"),
    stopped(NOTHING, "read 9.9.9 0 1", 11, "no_object"),
    stopped(APPENDS, APPEND, 22, "long_txn", "512", "2"),
    stopped(MADE, "append @x rep:400000:61", 23, "full", "segs", "786", "600", more=LARGER),
    stopped(DERIVED, "drop @v", 24, "branches", "2"),
]


MISFITS = {
    "file Docs": "word 2: 'Docs' has 'D', and a name is of a-z, 0-9 and _",
    f"file {'a' * 33}": "has 33 characters, and a name has at most 32",
    "append @d hex:6": "word 3: 'hex:6' has an odd number of digits",
    "append @d hex:6g": "has 'g', which is no hexadecimal digit",
    "append @d 61": "word 3: '61' is no data: it begins with hex: or rep:",
    "append @d rep:x:61": "has the count 'x'",
    "append @d rep:1:6": "has the byte '6'",
    "append @d rep:1": "is to be rep:COUNT:BYTE",
    "read @d 1,000 1": "word 3: '1,000' is no number of decimal digits alone",
    "read @d -1 1": "word 3: '-1' is no number",
    "read @d 0x1 1": "word 3: '0x1' is no number",
    "read @d 18446744073709551616 1": "isn't below 2^64",
    "read @d 0": "word 4 is missing: LEN",
    "read @d 0 1 2": "word 5: '2' is one too many",
    "create docs as e": "word 4: 'e' is to be bound, so write @e",
    "create docs to @e": "word 3: 'to' is to be `as`",
    "size d": "a bound name is @d",
    "size 1.2": "is neither @NAME nor page.slot.unique",
    "size 1.2.x": "has 'x', which is no number",
    "size @": "has no name",
    "group g 1 fifo": "word 4: 'fifo' is neither lru nor mru",
    "scan @d as s of g": "word 5: 'of' is to be `in`",
    "rollback": "did you mean `abort`?",
    "Commit": "did you mean `commit`?",
    "creat a as @x": "did you mean `create FILE as @NAME`?",
    "xyzzy": "Lines begin with: begin",
}
"""Lines that spell no command, and what is told of them."""


class RunnerTest(InFolder):
    def test_table(self) -> None:
        """scripts with replies, errors and status"""
        for place, row in enumerate(TABLE):
            with self.subTest(row.script[:60]):
                ran = self.tool("exsm_do", self.format(f"v{place}"), given=row.script.encode())
                self.assertEqual((ran.lines, ran.errors, ran.status), row[1:])
                with open("script", "w", encoding="ascii") as out:
                    out.write(row.script)
                again = self.tool("exsm_do", self.format(f"w{place}"), "script")
                self.assertEqual((again.lines, again.errors, again.status), row[1:])

    def test_same_replies(self) -> None:
        """a script without a refusal has the program's own replies"""
        script = (TOP / "examples" / "document" / "script").read_bytes()
        self.assertEqual(self.tool("exsm_do", self.format("v"), given=script).out,
                         self.exsm("run", self.format("w"), given=script).out)

    def test_long_line(self) -> None:
        """a line over the limit is told shortened"""
        ran = self.tool("exsm_do", self.format(), given=b"append 1.1.1 hex:" + b"61" * 600_000)
        self.assertEqual((ran.lines, ran.status), (["no 1 line_long"], 1))
        self.assertRegex(ran.errors[0],
                         r"^exsm_do: line 1: append 1\.1\.1 hex:.{,80} \(1200017 bytes\)$")

    def test_bytes(self) -> None:
        """bytes outside of ASCII are handed on and refused"""
        ran = self.tool("exsm_do", self.format(), given="file \u00e4\n".encode())
        self.assertEqual((ran.lines, ran.status), (["no 2 syntax"], 1))

    def test_status(self) -> None:
        """a status of the program is handed on, with what it said"""
        ran = self.tool("exsm_do", "missing", given=b"files\n")
        self.assertEqual((ran.lines, ran.status), ([], 5))
        self.assertEqual(ran.errors[-1], "exsm: status 5 disk fault")

    def test_meanings(self) -> None:
        """each refusal has a meaning"""
        rules = (TOP / "docs" / "RULES.md").read_text(encoding="utf-8")
        names = re.findall(r"^\| \d+ \| `(\w+)` \|", rules, re.M)
        self.assertGreater(len(names), 20)
        self.assertEqual(sorted(MEANINGS), sorted(set(names) - {"syntax"}))
        for name in names:
            self.assertNotEqual(meaning("x", name, ["scans", "1", "2"]), "")

    def test_terminal(self) -> None:
        """in a terminal: a prompt, completion, help, hints, long lines whole, and it goes on"""
        if readline is None:
            self.skipTest("this Python has no readline")
        talk = Terminal(self.format())
        try:
            self.assertIn("ok begin 1", talk.type("beg\t\n", "exsm*> "))
            self.assertIn("ok file notes", talk.type("file notes\n", "exsm*> "))
            self.assertIn("create notes as @n", talk.type("create no\tas @n\n", "exsm*> "))
            self.assertIn("append @n hex:61", talk.type("app\t@\thex:61\n", "exsm*> "))
            self.assertIn("ok append 3001", talk.type(f"append @n hex:{'61' * 3000}\n", "exsm*> "))
            self.assertIn("ok freeze 258.1.2", talk.type("fre\t@\tas @v\n", "exsm*> "))
            self.assertIn("versions @v", talk.type("vers\t@v\n", "exsm*> "))
            self.assertIn("did you mean `size X`", talk.type("sizes @n\n", "exsm*> "))
            self.assertIn("replace X POS DATA", talk.type("help\n", "exsm*> "))
            self.assertIn("makes an empty object", talk.type("help create\n", "exsm*> "))
            self.assertIn("`abort`", talk.type("rollback\n", "exsm*> "))
            self.assertIn("ok commit 1", talk.type("commit\n", "exsm> "))
            talk.type("quit\n", "")
            self.assertEqual(talk.run.wait(10), 0)
        finally:
            talk.close()
        with open(".exsm_history", encoding="utf-8") as history:
            self.assertIn("create notes as @n", history.read())

    def test_prompt_words(self) -> None:
        """in a terminal: text as data, bytes shown, files put and run, identifiers by Tab, times"""
        if readline is None:
            self.skipTest("this Python has no readline")
        with open("note", "w", encoding="utf-8") as note:
            note.write("two\nlines\n")
        with open("lines", "w", encoding="ascii") as lines:
            lines.write("file more\nsize @n\nsizes @n\nfile never\n")
        talk = Terminal(self.format())
        try:
            self.assertIn("ok begin 1", talk.type("begin\n", "exsm*> "))
            self.assertIn("ok file notes", talk.type("file notes\n", "exsm*> "))
            self.assertIn("10 bytes of note are in @n",
                          talk.type("put note in notes as @n\n", "exsm*> "))
            self.assertIn("ok append 22",
                          talk.type('append @n text:"say \\"hi\\"\\n..."\n', "exsm*> "))
            self.assertIn('two\r\nlines\r\nsay "hi"', talk.type("show @n\n", "exsm*> "))
            self.assertIn("\r\nlin\r\n", talk.type("show @n 4 3\n", "exsm*> "))
            told = talk.type("source lines\n", "exsm*> ")
            self.assertIn("ok size 22", told)
            self.assertIn("lines: line 3 was refused; none after it was run", told)
            self.assertIn("ok files 2 more notes", talk.type("files\n", "exsm*> "))
            self.assertIn("size 258.0.1 \r\nok size 22", talk.type("size 25\t\n", "exsm*> "))
            self.assertIn("No such file", talk.type("put nowhere in notes as @m\n", "exsm*> "))
            for line, told in (("show @n 1", "word 4 is missing: LEN"),
                               ("show n", "word 2: 'n' is neither @NAME nor page.slot.unique"),
                               ("show @n 1 x", "word 4: 'x' ")):
                shown_of = talk.type(f"{line}\n", "exsm*> ")
                self.assertIn(told, shown_of)
                self.assertIn("the form is `show X [POS LEN]`", shown_of)
            self.assertIn("word 3 is missing: in", talk.type("put text\n", "exsm*> "))
            told = talk.type("time size @n\n", "exsm*> ")
            self.assertRegex(told, r"ok size 22\r\n[0-9]+\.[0-9] ms")
            self.assertIn("the form is `time LINE`", talk.type("time\n", "exsm*> "))
            self.assertIn("@n has 22 bytes", talk.type("read @n 0 23\n", "exsm*> "))
            self.assertIn("^C", talk.interrupt("files and what else"))
            self.assertIn("ok commit 1", talk.type("commit\n", "exsm> "))
            talk.type("quit\n", "")
            self.assertEqual(talk.run.wait(10), 0)
        finally:
            talk.close()

    def test_interrupts(self) -> None:
        """in a terminal no Ctrl-C at any moment ends the session or its transaction"""
        if readline is None:
            self.skipTest("this Python has no readline")
        chance = random.Random(7)
        talk = Terminal(self.format())
        try:
            talk.type("begin\n", "exsm*> ")
            talk.type("file kept\n", "exsm*> ")
            for _ in range(150):
                os.write(talk.side, b"log\n" * chance.randrange(3))
                os.kill(talk.run.pid, signal.SIGINT)
                time.sleep(chance.random() / 100)
            os.write(talk.side, b"\nfiles\n")
            self.assertIn("ok files 1 kept", talk.read_on("ok files 1 kept\r\nexsm*> "))
            self.assertIn("ok commit 1", talk.type("commit\n", "exsm> "))
        finally:
            talk.close()

    def test_colours(self) -> None:
        """what is refused is told in red in a terminal that has colours, unless NO_COLOR is set"""
        for variables, begins in (({"TERM": "xterm"}, "\x1b[31mexsm_do: "), ({}, "exsm_do: "),
                                  ({"TERM": "xterm", "NO_COLOR": "1"}, "exsm_do: ")):
            talk = Terminal(self.format(), **variables)
            try:
                self.assertIn(f"\n{begins}line 1", talk.read_on_after("sizes\n", "size X"))
            finally:
                talk.close()
                os.remove("v")

    def test_opens_first(self) -> None:
        """in a terminal a volume that can't be opened is told before any prompt"""
        talk = Terminal("missing", "status 5 disk fault\r\n")
        try:
            self.assertEqual(talk.run.wait(10), 5)
        finally:
            talk.close()

    def test_misfits(self) -> None:
        """the first word that doesn't fit a line's form is told, and why"""
        for line, told in MISFITS.items():
            with self.subTest(line):
                self.assertIn(told, syntax_meaning(line))

    def test_words(self) -> None:
        """each line has a sentence, and each synonym means a line"""
        self.assertEqual(list(SENTENCES), list(FORMS))
        self.assertEqual(set(SYNONYMS.values()) - set(FORMS), set())
        self.assertEqual(set(SYNONYMS) & set(FORMS), set())

    def test_texts(self) -> None:
        """text becomes digits where it stands as a word, and bytes are shown as text or digits"""
        self.assertEqual(with_digits('append @x text:"a b"'), "append @x hex:612062")
        self.assertEqual(with_digits("append @x text:\u00e4 "), "append @x hex:c3a4 ")
        self.assertEqual(with_digits('append @x text:""'), "append @x hex:")
        self.assertEqual(with_digits('append @x text:"a\\tb\\\\"'), "append @x hex:6109625c")
        self.assertEqual(with_digits('append @x text:"a"b'), 'append @x text:"a"b')
        self.assertEqual(shown(b"a\nb"), "a\nb")
        self.assertEqual(shown(b"\x00A"), "00000000  00 41" + " " * 42 + "  .A")
