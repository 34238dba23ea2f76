"""The fuzzer: what it tries, that it finds what is wrong, and that it makes it small."""
from __future__ import annotations

import hashlib
import json
import os
import random
import re
import sys
from dataclasses import replace
from pathlib import Path
from unittest import mock

from exsm.geometry import Geometry
from fuzzing import crashes, damage, faults, scripts
from fuzzing.campaign import KINDS, NOTED, Tried, idle, runs_of
from fuzzing.commands import FORMS, UPDATES, Data, command_of
from fuzzing.differs import Differs
from fuzzing.model import Model
from fuzzing.outside import NOTE, Plan, Served, Started, library
from fuzzing.program import Program
from fuzzing.shrink import shrunk
from fuzzing.table import Table
from fuzzing.trace import Call, CallKind, calls_of
from fuzzing.trials import Trial, done
from fuzzing.writer import WORDS
from tests.support import TOOLS, TOP, InFolder, Ran

SMALL = Geometry(512, 64, 16, 1, 2)
LIES_OF_SPACE = ('#!/bin/sh\n'
                 '"$EXSM" "$@" | sed -u "s/^ok space .*/ok space pages 1 of 1 segs 1 of 1/"\n')
OPENS_ALL = '#!/bin/sh\n[ "$1" = check ] || exec "$EXSM" "$@"\n'
ENDS_WITH_13 = '#!/bin/sh\n"$EXSM" "$@"\n[ "$1" != run ] || exit 13\n'
FIRST_LINES = [b"begin", b"file a", b"create a as @x", b"append @x rep:1000:61", b"commit"]
FIRST_REPLIES = ["ok begin 1", "ok file a", "ok create 258.0.1", "ok append 1000", "ok commit 1"]

# Replies to lines behind the first ones that are wrong, each where another one is wanted.
WRONG = {
    b"size @x": "ok size 999", b"read @x 998 2": "ok read 2 6162",
    b"read @x 998 3": "ok read 3 616161",
    b"append @x hex:61": "ok append 1001", b"begin": "ok begin 3", b"commit": "ok commit 1",
    b"files": "ok files 1 b",
    b"list a": "ok list 0", b"stat @x": "ok stat large 1000 height 1 leaves 2 500 499",
    b"space": "ok space pages 1 of 64 segs 0 of 9",
    b"next s 1": "no 17 no_group", b"scan @x as s": "ok scan s 1001",
    b"versions @x": "ok versions 2 258.0.1 258.0.2",
    b"group g 0 lru": "ok group g", b"log": "ok log 2", b"size 258.0.2": "no 6 no_name",
    b"digest @x": "ok digest " + "0" * 64}


class FuzzTest(InFolder):
    def fuzz(self, *words: object) -> Ran:
        """Runs the fuzzer."""
        return self.run_words(sys.executable, TOOLS / "fuzz", *words)

    def wrong_program(self, text: str) -> Path:
        """A program that isn't as the documents say."""
        path = Path("wrong").resolve()
        path.write_text(text, encoding="ascii")
        path.chmod(0o755)
        return path

    def program(self, path: str = os.environ["EXSM"]) -> Program:
        """The program, or another one, on a volume of the test's folder."""
        runs = runs_of(Path(path), library(self.folder))
        self.addCleanup(runs.close)
        return Program(runs, self.folder / "v")

    def noting(self) -> Program:
        """The program, where its calls can be noted."""
        program = self.program()
        if not isinstance(program.runs, Served):
            self.skipTest("there is no C compiler here")
        return program

    def test_short(self) -> None:
        """a short run: the corpus and new trials of each kind, of which none differs"""
        ran = self.fuzz(os.environ["EXSM"], "--count", 1, "--seed", 5, "--json", "told")
        self.assertEqual((ran.status, ran.errors, os.listdir()), (0, [], ["told"]), ran.lines)
        text = "\n".join(ran.lines)
        is_noted = isinstance(self.program().runs, Served)
        kinds = [kind for kind in KINDS if kind not in NOTED or is_noted]
        for kind in ("corpus", *kinds):
            self.assertRegex(text, rf"(?m)^{kind}: .*[1-9][0-9,]* .* a minute")
        self.assertEqual(ran.lines[-1], "0 differ")
        told = json.loads(Path("told").read_text(encoding="utf-8"))
        self.assertEqual((told["seed"], told["differ"], told["is_cut"]), ("5", [], False))
        digest = hashlib.sha256(Path(os.environ["EXSM"]).read_bytes()).hexdigest()
        self.assertEqual(told["program"], digest)
        self.assertEqual(set(told["counts"]), {"corpus", *kinds})

    def test_words(self) -> None:
        """of wrong words it is told what is wrong, and --help tells the words"""
        self.assertEqual(self.fuzz("--help").status, 0)
        Path("bad").mkdir()
        Path("bad", "trial.json").write_text("{}", encoding="ascii")
        for words, error in (([], "PROGRAM"), (["none"], "none isn't a program"),
                             (["/bin/sh", "x"], "'x' is no kind"),
                             (["/bin/sh", "--count", "-1"], "-1 is below 0"),
                             (["/bin/sh", "--seed", "x"], "invalid int value"),
                             (["/bin/sh", "--corpus", "none"], "none is no folder of trials"),
                             (["/bin/sh", "--finds", "/bin/sh"], "/bin/sh is no folder"),
                             (["/bin/sh", "--corpus", "."],
                              "bad/trial.json holds no trial: KeyError('runs')")):
            ran = self.fuzz(*words)
            self.assertEqual((ran.status, ran.lines), (2, []))
            self.assertIn(error, ran.errors[-1])

    def test_commands(self) -> None:
        """the commands of the grammar, and those that change a table, are those of RULES"""
        rules = (TOP / "docs" / "RULES.md").read_text(encoding="utf-8").partition("## Commands")[2]
        rows = re.findall(r"(?m)^\| `([a-z]+)[^|]*\|([^|]*)\|", rules.partition("## Refusals")[0])
        self.assertEqual({word for word, _ in rows}, set(FORMS))
        self.assertEqual({word for word, does in rows if does.startswith(" update")}, UPDATES)
        self.assertEqual(set(WORDS) - {"noise"}, set(FORMS))

    def test_grammar(self) -> None:
        """lines and the commands that they spell"""
        self.assertEqual(command_of(b"\tread  @x 0 018 \r"), ("read", ["@x", 0, 18]))
        self.assertEqual(command_of(b"append 1.02.3 rep:3:fF"),
                         ("append", ["1.2.3", Data(b"\xff", 3)]))
        self.assertEqual(command_of(b"scan @x as s in g"), ("scan", ["@x", "s", "g"]))
        for line in (b"", b"read @x 0", b"read @x 0 18446744073709551616", b"append @x hex:0",
                     b"file A", b"begin now",
                     b"create a as x", b"scan @x in s as g", b"group g 1025 lru", b"size @",
                     b"list a\r\r"):
            self.assertIsNone(command_of(line), line)

    def test_wrong_replies(self) -> None:
        """the model refuses replies that are wrong, each on its line"""
        for line, reply in WRONG.items():
            model = Model(SMALL, Table({}, 1), 0)
            for first, right in zip(FIRST_LINES, FIRST_REPLIES):
                model.step(first, right)
            self.assertRaises(Differs, model.step, line, reply)

    def test_same_seed(self) -> None:
        """one seed makes the same trial"""
        texts = []
        for _ in range(2):
            trial = Trial("scripts", "5", SMALL)
            self.assertIsNone(done(scripts.explore, trial, self.program(), lambda _: None))
            texts.append(trial.text())
        self.assertEqual(texts[0], texts[1])
        Path("trial.json").write_text(texts[0], encoding="ascii")
        self.assertEqual(Trial.read(Path("trial.json")).text(), texts[0])

    def test_finds_a_reply(self) -> None:
        """a program with a wrong reply is found, and the script made small"""
        wrong = self.wrong_program(LIES_OF_SPACE)
        ran = self.fuzz(wrong, "scripts", "--count", 1, "--corpus", ".", "--shrink", 10)
        self.assertEqual(ran.status, 1, ran.lines)
        folder, = Path("fuzz-finds").iterdir()
        self.assertEqual({"trial.json", "first.json", "script-1", "volume", "told", "wanted"},
                         set(os.listdir(folder)))
        self.assertEqual((folder / "told").read_text(),
                         "space: ok space pages 1 of 1 segs 1 of 1\n")
        self.assertRegex((folder / "wanted").read_text(), "^space: ok space pages ")
        self.assertEqual(Trial.read(folder / "trial.json").runs, [[b"space"]])
        self.assertEqual((folder / "script-1").read_bytes(), b"space\n")
        again = self.fuzz(wrong, "--count", 0, "--corpus", "fuzz-finds", "--finds", "again",
                          "--shrink", 1)
        self.assertEqual((again.status, again.lines[-1]), (1, "1 differ"))
        self.assertEqual(self.fuzz(os.environ["EXSM"], "--count", 0, "--corpus",
                                   "fuzz-finds").status, 0)

    def test_finds_a_status(self) -> None:
        """a status that no document names is found"""
        wrong = self.program(str(self.wrong_program(ENDS_WITH_13)))
        trial = Trial("scripts", "1", SMALL, [FIRST_LINES])
        differs = done(scripts.replay, trial, wrong, lambda _: None)
        self.assertIn("status 13", str(differs))

    def test_finds_an_opening(self) -> None:
        """a program that opens damaged volumes is found"""
        wrong = self.program(str(self.wrong_program(OPENS_ALL)))
        trial = Trial("damage", "1", SMALL, [FIRST_LINES], [["flip", 9, 3]])
        differs = done(damage.replay, trial, wrong, lambda _: None)
        self.assertTrue(differs and differs.wanted.endswith("super"), differs)
        self.assertIsNone(done(damage.replay, trial, self.program(), lambda _: None))

    def test_harms(self) -> None:
        """what each operation of damage does"""
        data = bytes(range(8))
        for harm, wanted in ((["flip", 1, 3], "0009020304050607"),
                             (["set", 7, 255], "00010203040506ff"),
                             (["zero", 6, 4], "0001020304050000"),
                             (["swap", 0, 4, 2], "0405020300010607"),
                             (["cut", 3], "000102"), (["swap", 0, 7, 2], data.hex())):
            self.assertEqual(damage.harmed(data, [harm]).hex(), wanted)

    def test_notes(self) -> None:
        """the notes of calls, and the moments between syncs"""
        notes = b"".join(NOTE.pack(*head) + data for head, data in (
            ((CallKind.READ, 0, 0, 7), b""), ((CallKind.WRITE, 0, 1, 2), b"ab"),
            ((CallKind.SYNC, 1, 0, 0), b""),
            ((CallKind.SYNC, 0, 0, 0), b""), ((CallKind.WRITE, 1, 0, 1), b"c"),
            ((CallKind.PUT, 0, 0, 12), b"ok commit 5\n")))
        calls = calls_of(notes)
        one, other = Call(CallKind.WRITE, 1, b"ab"), Call(CallKind.WRITE, 0, b"c", True)
        self.assertEqual(calls, [
            Call(CallKind.READ), one, Call(CallKind.SYNC, failed=True), Call(CallKind.SYNC), other,
            Call(CallKind.PUT, 0, b"ok commit 5\n")])
        self.assertEqual(list(crashes.moments_of(b"....", calls, 4)),
                         [(b"....", [one], 4), (b".ab.", [other], 5)])

    def test_images(self) -> None:
        """images of a moment: without what waits, with it, in part, and with no change beside it"""
        writes = [Call(CallKind.WRITE, 100, b"a" * 700), Call(CallKind.WRITE, 1500, b"b")]
        moment = crashes.Moment(bytes(2000), writes, 0)
        images = list(crashes.images_of(random.Random(1), moment))
        self.assertEqual(len(images), len(set(images)))
        self.assertIn(bytes(2000), images)
        self.assertIn(bytes(100) + b"a" * 700 + bytes(700) + b"b" + bytes(499), images)
        self.assertGreater(len(images), 10)
        for image in images:
            self.assertEqual((len(image), any(image[:100] + image[800:1500] + image[1501:])),
                             (2000, False))

    def test_finds_a_stop(self) -> None:
        """a run that lacks a sync is found: that before a record's gate, and that before a reply"""
        program, trial = self.noting(), Trial("crashes", "1", SMALL, [FIRST_LINES])
        self.assertIsNone(done(crashes.replay, trial, program, lambda _: None))
        noted = program.noted
        for lacking in (1, 2):                     # (the sync 0 is that of the opening)
            def without_one(*words: object, lacking: int = lacking) -> tuple:
                ran, calls = noted(*words)
                syncs = [place for place, call in enumerate(calls) if call.kind == CallKind.SYNC]
                self.assertEqual(len(syncs), 3)
                return ran, calls[:syncs[lacking]] + calls[syncs[lacking] + 1:]
            with mock.patch.object(program, "noted", without_one):
                differs = done(crashes.replay, trial, program, lambda _: None)
            wanted = "opening of an image" if lacking == 1 else "0 acknowledged|after commit 0"
            self.assertRegex(str(differs), wanted)

    def test_calls_that_fail(self) -> None:
        """a call that fails, by its kind, or that moves some bytes: the status, what is sent"""
        program = self.noting()
        program.format(SMALL)
        given, first = b"begin\nfile a\ncommit\n", program.volume.read_bytes()
        whole, calls = program.noted("run", given)
        after = program.volume.read_bytes()
        self.assertEqual({call.kind for call in calls}, set(faults.STATUSES))
        for number, call in enumerate(calls, 1):
            for error, status in ((5, faults.STATUSES[call.kind]), (faults.SOME, 0)):
                program.volume.write_bytes(first)
                ran, made = program.noted("run", given, Plan(True, number, error, 500))
                self.assertEqual(ran.status, status, call)
                self.assertTrue(whole.out.startswith(ran.out))
                if error:
                    self.assertEqual((len(made), made[-1].failed), (number, True))
                    half = call.data[:len(call.data) // 2] if call.kind == CallKind.WRITE else b""
                    self.assertEqual((made[:-1], made[-1].data), (calls[:number - 1], half))
                else:
                    left = program.volume.read_bytes()
                    self.assertEqual((ran.out, left == after), (whole.out, True))

    def test_end_in_a_talk(self) -> None:
        """a run that waits for lines doesn't hold up an end"""
        program = self.noting()
        program.format(SMALL)
        talk = program.runs.talk(["run", str(program.volume)])
        program.runs.close()
        with self.assertRaises(ProcessLookupError):
            talk.kill()

    def test_finds_a_fault(self) -> None:
        """a run that goes on behind a call that failed, loses a commit, or ends wrongly is found"""
        program, harm = self.noting(), ["fail", "run", 0, 5, 500]
        trial = Trial("faults", "1", SMALL, [FIRST_LINES], [harm])
        self.assertIsNone(done(faults.replay, trial, program, lambda _: None))
        noted = program.noted

        def wrong(change: str) -> str:
            def changed(word: str, given: bytes, plan: Plan = Plan(True)) -> tuple:
                ran, calls = noted(word, given, plan)
                if not plan.fails:
                    return ran, calls
                more = Call(CallKind.PUT, 0, b"ok commit 1\n" * 2, True)
                return {"status": (ran._replace(status=7), calls),
                        "goes on": (ran, [*calls, Call(CallKind.PUT)]),
                        "sends": (ran._replace(out=b"ok begin 2\n"), calls),
                        "loses": (ran, [*calls[:-1], more])}[change]
            with mock.patch.object(program, "noted", changed):
                return str(done(faults.replay, trial, program, lambda _: None))
        for change, told in (
                ("status", "7, 'memory'"), ("goes on", "no call follows: (2, False)"),
                ("sends", "a front of"), ("loses", "2 acknowledged")):
            self.assertIn(told, wrong(change))
        memory = replace(trial, harms=[["refuse", "run", 0]])
        self.assertIsNone(done(faults.replay, memory, program, lambda _: None))
        with mock.patch.object(faults, "NO_MEMORY", 5):
            differs = done(faults.replay, memory, program, lambda _: None)
        self.assertIn("told call 1 of run for memory refused: (7, 'memory')", str(differs))
        one = replace(trial, harms=[["fail", "run", 3, 5, 500]])
        self.assertEqual(faults.each(one).harms, [harm])

    def test_without_a_compiler(self) -> None:
        """without a C compiler runs are processes, and what wants calls is left out"""
        self.addCleanup(os.environ.__setitem__, "PATH", os.environ["PATH"])
        Path("none").mkdir()
        os.environ["PATH"] = str(self.folder / "none")
        self.assertIs(type(self.program().runs), Started)
        ran = self.fuzz(os.environ["EXSM"], "--count", 1, "--corpus", "none")
        self.assertEqual((ran.status, ran.errors), (0, []), ran.lines)
        self.assertIn("crashes and faults left out", ran.lines[0])
        heads = [line.split(":")[0] for line in ran.lines[1:]]
        self.assertEqual(heads, ["scripts", "damage", "0 differ"])

    def test_idle(self) -> None:
        """a campaign that is idle asks the system for the least of its processors"""
        with mock.patch.object(os, "sched_setscheduler") as least, \
                mock.patch.object(Path, "write_text", side_effect=PermissionError) as group:
            idle()
        self.assertEqual(least.call_args.args[:2], (0, os.SCHED_IDLE))
        self.assertEqual(group.call_args.args, ("19",))

    def test_jobs(self) -> None:
        """jobs share the trials, each trial is that of its number, and what each tried is added"""
        Path("none").mkdir()
        words = (os.environ["EXSM"], "--count", 5, "--corpus", "none", "--jobs")
        counts = [self.fuzz(*words, jobs, "scripts").lines for jobs in (1, 2)]
        told = [re.findall("[0-9]+ (?:scripts|volumes)", lines[0]) for lines in counts]
        self.assertEqual(told[0], told[1])
        self.assertIn("5 volumes", told[0])
        one, other = Tried(), Tried()
        other.counts["scripts"]["volumes"], other.seconds["scripts"] = 3, 2
        other.differ = [Path("a")]
        one.add(other)
        one.add(other)
        self.assertEqual((one.counts["scripts"]["volumes"], one.seconds["scripts"]), (6, 4))
        self.assertEqual(len(one.differ), 2)

    def test_shrunk(self) -> None:
        """what differs is made smaller: runs, lines, damage, data"""
        lines = [b"a"] * 20 + [b"append @x rep:900:61"] + [b"b"] * 9 + [b"append @x hex:616263"]
        trial = Trial("damage", "1", SMALL, [[b"a"], lines, []], [["cut", 3], ["flip", 1, 1]])

        def fails(it: Trial) -> bool:
            text = b" ".join(line for run in it.runs for line in run)
            counts = re.findall(rb"rep:([0-9]+)", text)
            return bool(counts and int(counts[0]) >= 300 and b"hex:61" in text
                        and ["flip", 1, 1] in it.harms)
        small = shrunk(trial, fails, 20)
        runs = [[b"append @x rep:300:61", b"append @x hex:61"]]
        self.assertEqual(small, replace(trial, runs=runs, harms=[["flip", 1, 1]]))

    def test_corpus(self) -> None:
        """each trial of the corpus says what it is about, and is small"""
        paths = sorted((TOOLS / "corpus").glob("*/trial.json"))
        self.assertGreater(len(paths), 10)
        for path in paths:
            trial = Trial.read(path)
            self.assertIn(trial.kind, KINDS)
            self.assertTrue(trial.about and trial.runs, path)
            self.assertLess(path.stat().st_size, 20_000, path)
