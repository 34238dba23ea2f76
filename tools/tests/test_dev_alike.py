"""The finder of alike blocks: what counts as alike, from how many lines, and what is accepted."""
from __future__ import annotations

from tests.toy import InToy

ONE, OTHER = "crates/low/src/one.rt", "crates/exsm_run/src/other.rt"
INSIDE = "crates/low/specs/Inside.antt"


def block(count: int, name: str = "step") -> str:
    """A block of so many lines, whose names begin so."""
    return "".join(f"let {name}{number} = {name}{number // 2} + {number % 7};\n"
                   for number in range(count))


class AlikeTest(InToy):
    """The finder on the small repository."""

    def told(self, *words: object) -> list[str]:
        """What is told of pairs, by the finder's words."""
        ran = self.script("alike.py", *words)
        is_bad = "--check" in words and len(ran.lines) > 1
        self.assertEqual((ran.status, ran.errors), (1 if is_bad else 0, []))
        return ran.lines[:-1]

    def test_in_two_crates(self) -> None:
        """a block of 21 lines in two crates is told, with other names too, and one of 20 isn't"""
        for count, other, how in ((20, "step", None), (21, "step", "the same"),
                                  (21, "walk", "but for names")):
            with self.subTest((count, other)):
                self.write(ONE, block(count))
                self.write(OTHER, "use low::Page;\n\n// Steps.\n" + block(count, other))
                self.assertEqual(self.told("--check"), [] if how is None else [
                    f"  21 lines, {how}: {OTHER}:4-24 ~ {ONE}:1-21"])

    def test_other_names(self) -> None:
        """blocks in which one name stands for two of the other's aren't alike"""
        self.write(ONE, block(21))
        self.write(OTHER, block(10, "walk") + block(21).split("\n", 10)[10])
        self.assertEqual(self.told("--check"), [])
        self.write(OTHER, block(21).replace("step0 ", "step1 ", 1))
        self.assertEqual(self.told("--check"), [])

    def test_in_one_crate(self) -> None:
        """in two files of a crate a block of 30 lines is told, and one of 29 isn't"""
        for count in (29, 30):
            self.write(ONE, block(count))
            self.write(INSIDE, block(count, "walk"))
            told = self.told("--check")
            self.assertEqual(told, [] if count < 30 else [
                f"  30 lines, but for names: {ONE}:1-30 ~ {INSIDE}:1-30"])
            self.assertEqual(len(self.told("--within", "--least", 29)), 1)

    def test_accepted(self) -> None:
        """a pair that DECISIONS names passes, and a line there that none needs fails"""
        self.write(ONE, block(25))
        self.write(OTHER, block(25))
        self.assertEqual(len(self.told("--check")), 1)
        line = f"- `{ONE}` and `{OTHER}`: a reason."
        self.change("docs/DECISIONS.md", "None.", line)
        self.assertEqual(self.told("--check"), [])
        self.write(OTHER, "")
        self.assertEqual(self.told("--check"), [
            f"docs/DECISIONS.md names a pair that isn't alike any more: {line}"])
        self.change("docs/DECISIONS.md", line, "None.")
        self.change("docs/DECISIONS.md", "## Others\n", f"## Others\n\n{line}\n")
        self.assertEqual(self.told("--check"), [])

    def test_answers(self) -> None:
        """answers to goals of two functions pass, and one beside a file of lemmas doesn't"""
        one = "crates/low/proofs/read/Answers.antt"
        other = "crates/exsm_run/proofs/run/Answers.antt"
        laws = "crates/exsm_run/proofs/Laws.antt"
        self.write(one, block(25))
        self.write(other, block(25, "walk"))
        self.assertEqual(self.told("--check"), [])
        self.assertEqual(len(self.told("--least", 21)), 1)
        self.write(laws, block(25, "walk"))
        self.assertEqual(self.told("--check"), [
            f"  25 lines, but for names: {laws}:1-25 ~ {one}:1-25"])

    def test_near(self) -> None:
        """pieces with up to four other lines between are one block to --near"""
        lines = block(22).split("\n")
        self.write(ONE, block(22))
        for between, told in ((4, True), (5, False)):
            other = [*lines[:11], *(f"call{number}();" for number in range(between)), *lines[11:]]
            self.write(OTHER, "\n".join(other))
            self.assertEqual(len(self.script("alike.py", "--near").lines), told)

    def test_lemmas(self) -> None:
        """lemmas of two crates that state the same but for bound names are told"""
        text = "pub {} : ({} {} : ℕ) → {} ≤ {} → suc {} ≤ suc {}\n"
        self.write("crates/low/proofs/Laws.antt", text.format("up", *"nmnmnm"))
        self.write("crates/exsm_run/proofs/Laws.antt", text.format("raised", *"ababab"))
        lines = self.script("alike.py", "--lemmas").lines
        self.assertEqual(lines[1:], ["    raised  crates/exsm_run/proofs/Laws.antt:1",
                                     "    up  crates/low/proofs/Laws.antt:1",
                                     "1 statements, 1 copies more than one"])
        self.write("crates/exsm_run/proofs/Laws.antt", text.format("raised", *"abbaba"))
        self.assertEqual(self.script("alike.py", "--lemmas").lines,
                         ["0 statements, 0 copies more than one"])
