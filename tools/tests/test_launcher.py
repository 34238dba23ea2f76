"""The launcher: what it answers by itself, when it builds, how a build goes on, fails and stops,
and the look before it."""
from __future__ import annotations

import os
import pty
import shutil
import signal
import subprocess
import time
from pathlib import Path

from tests.support import SECONDS, TOP, InFolder, Ran

CRATES = "base:\nlists: base\nwords: base\nexsm: lists words\n"
OTHERS = "tests: lists\n"
FIGURES = ("| `base` | 600 | no tests | no edits |\n| `lists` | 1,200* | 5 | 6 (1) |\n"
           "| `exsm` | 60 | 1 | no edits |\n")
KIT = "kit-of-tests logic 0123"
NEEDED = ("exsm", "VERSION", "tools/build", "tools/try", "tools/usage.txt", "tools/words.sh",
          "tools/launch")


class OfCheckout(InFolder):
    """A test on a small checkout, whose rt proves nothing."""

    def setUp(self) -> None:
        super().setUp()
        self.top = self.folder / "checkout"
        for name in NEEDED:
            (self.top / name).parent.mkdir(parents=True, exist_ok=True)
            if (TOP / name).is_dir():
                shutil.copytree(TOP / name, self.top / name,
                                ignore=shutil.ignore_patterns("__pycache__"))
            else:
                shutil.copy(TOP / name, self.top / name)
        self.write("crates.txt", CRATES + OTHERS)
        self.write("docs/GATE.md", FIGURES)
        self.write(".gitignore", "out/\n__pycache__/\n")
        for name in ("base", "lists", "words", "exsm", "tests"):
            self.write(f"crates/{name}/src/lib.rt", f"// {name}\n")
        self.rt = self.folder / "kit" / "bin" / "rt"
        self.rt.parent.mkdir(parents=True)
        shutil.copy(TOP / "tools" / "tests" / "fake_rt.py", self.rt)
        self.rt.chmod(0o755)
        (self.folder / "kit" / "KIT-ID").write_text(f"{KIT}\n", encoding="ascii")
        self.variables = {**os.environ, "PATH": f"{self.rt.parent}:{os.environ['PATH']}"}

    def write(self, name: str, text: str) -> None:
        """Writes a file of the checkout."""
        file = self.top / name
        file.parent.mkdir(parents=True, exist_ok=True)
        file.write_text(text, encoding="utf-8")

    def behave(self, name: str, text: str) -> None:
        """Says how rt behaves."""
        (self.rt.parent / name).write_text(text, encoding="utf-8")

    def calls(self) -> list[str]:
        """The calls of rt since they were asked for last."""
        file = self.rt.parent / "calls"
        lines = file.read_text(encoding="utf-8").splitlines() if file.is_file() else []
        file.unlink(missing_ok=True)
        return lines

    def launch(self, *words: str, given: bytes = b"") -> Ran:
        """Runs the launcher."""
        ran = subprocess.run([str(self.top / "exsm"), *words], input=given, capture_output=True,
                             env=self.variables, timeout=SECONDS, check=False)
        return Ran(ran.returncode, ran.stdout, ran.stderr)

    def git(self, *words: str) -> None:
        """Calls git on the checkout."""
        subprocess.run(["git", "-C", str(self.top), "-c", "user.name=t", "-c", "user.email=t@t",
                        *words],
                       check=True, capture_output=True)

    def commit_all(self) -> None:
        """Makes the checkout a repository with one commit."""
        self.git("init", "-q")
        self.git("add", ".")
        self.git("commit", "-qm", "all")

    def built(self) -> None:
        """Builds, and holds that a call then runs the program alone."""
        self.assertEqual(self.launch("check", "v").lines, ["ran check v"])
        self.calls()
        again = self.launch("check", "v")
        self.assertEqual((again.lines, again.errors, self.calls()), (["ran check v"], [], []))

    def is_built_again(self, why: str) -> None:
        """Holds that a call builds again for a reason, and the next one doesn't."""
        ran = self.launch("check", "v")
        self.assertIn(f"building, since {why}", "\n".join(ran.errors))
        self.assertEqual(ran.lines, ["ran check v"])
        self.calls()
        self.assertEqual((self.launch("check", "v").errors, self.calls()), ([], []))


class WordsTest(OfCheckout):
    def test_help_and_version(self) -> None:
        """the launcher tells its words and the version with status 0, and builds nothing"""
        for word in ("help", "--help", "-h"):
            ran = self.launch(word)
            self.assertEqual((ran.status, ran.errors), (0, []))
            self.assertTrue(ran.lines[0].startswith("usage: exsm format VOLUME"))
            self.assertEqual(len([it for it in ran.lines if "./exsm " in it]), 5)
        version = (TOP / "VERSION").read_text(encoding="ascii").strip()
        told = f"exsm {version}, makes volumes of format 2, opens formats 1 and 2"
        self.assertEqual(self.launch("--version").lines, [f"{told}, not built yet"])
        self.assertEqual(self.calls(), [])
        self.built()
        ran = self.launch("--version")
        self.assertEqual((ran.status, ran.lines, ran.errors), (0, [f"{told}, {KIT}"], []))

    def test_usage(self) -> None:
        """the launcher tells the words of the program, to which `help` is wrong, and --anyway"""
        usage = (TOP / "tools" / "usage.txt").read_text(encoding="utf-8").splitlines()
        usage.remove("           with --anyway also where VOLUME holds data")
        for words in (["help"], ["--help"]):
            ran = self.exsm(*words)
            self.assertEqual((ran.status, ran.errors), (2, [*usage, "exsm: status 2 usage"]))
        self.assertEqual(self.exsm("--version").status, 2)

    def test_gen(self) -> None:
        """the launcher runs `gen` on a fresh volume, and on one with files with --anyway alone"""
        self.behave("builds", os.environ["EXSM"])
        self.format()
        gen = ("gen", "v", "--seed", "1", "--count", "20")
        self.assertEqual(self.launch(*gen).status, 0)
        ran = self.launch(*gen)
        self.assertEqual((ran.status, ran.out, ran.errors[-2:]), (2, b"", [
            "exsm: to add them all the same, say --anyway", "exsm: status 2 usage"]))
        ran = self.launch("gen", "--anyway", *gen[1:])
        self.assertEqual((ran.status, ran.out[:7], ran.errors), (0, b"ok gen ", []))

    def test_unknown_words(self) -> None:
        """of a word that is no command it tells what it may mean, at once, before any build too"""
        said = ["exsm: did you mean `exsm format`?", "exsm: `exsm help` tells all words",
                "exsm: status 2 usage"]
        ran = self.launch("Format", "v")
        self.assertEqual((ran.status, ran.errors, self.calls()),
                         (2, ["exsm: 'Format' is no command", *said], []))
        self.behave("builds", os.environ["EXSM"])
        self.launch("build")
        self.calls()
        ran = self.launch("Format", "v")
        cause = self.exsm("Format", "v").errors[0]
        self.assertEqual((ran.status, ran.errors, self.calls()), (2, [cause, *said], []))

    def test_formats(self) -> None:
        """the format that --version tells stands in a volume that the program makes"""
        self.format()
        self.assertEqual(Path("v").read_bytes()[28:32], (2).to_bytes(4, "big"))


class BuildTest(OfCheckout):
    def test_first_build(self) -> None:
        """the first call proves the crates beside each other, tells how far it is, and runs"""
        ran = self.launch("run", "v")
        self.assertEqual((ran.status, ran.lines), (0, ["ran run v"]))
        calls = self.calls()
        self.assertRegex(calls[0], r"^all check --jobs [1-9]\d*$")
        self.assertEqual(calls[1:], ["run"])
        self.assertIn("since it isn't built yet", ran.errors[0])
        self.assertRegex(ran.errors[1],
                         r"^exsm: 4 of 4 crates are to be proved(, \d+ beside each other)?, about "
                         r"3[12] min on ")
        self.assertEqual([it.split(" crates")[0] for it in ran.errors[2:6]],
                         [f"exsm: {count} of 4" for count in (1, 2, 3, 4)])
        self.assertRegex(ran.errors[2], r"3 left, about \d+ min \(0 min so far\); last base$")
        self.assertEqual(ran.errors[6:], ["exsm: built"])

    def test_build_alone(self) -> None:
        """`./exsm build` builds and runs nothing"""
        ran = self.launch("build")
        self.assertEqual((ran.status, ran.lines, ran.errors[-1]), (0, [], "exsm: built"))
        self.calls()
        again = self.launch("build")
        self.assertEqual((again.status, again.errors, self.calls()), (0, [], []))

    def test_links(self) -> None:
        """it finds its checkout through links, and from any folder"""
        os.mkdir("bin")
        os.symlink("../checkout/exsm", "bin/exsm")
        os.symlink("exsm", "bin/second")
        for path in ("bin/second", "bin/exsm", "checkout/exsm", "../exsm"):
            if path == "../exsm":
                os.chdir(self.top / "docs")
            ran = subprocess.run([path, "check", "v"], capture_output=True, text=True,
                                 env=self.variables, timeout=SECONDS, check=False)
            self.assertEqual(ran.stdout, "ran check v\n", path)
        self.assertEqual(len(self.calls()), 2)

    def test_without_rt(self) -> None:
        """without rt nothing is built, which is told; a program that is there runs"""
        kept = self.variables
        self.variables = {**kept, "PATH": "/usr/bin:/bin"}
        ran = self.launch("check", "v")
        self.assertEqual(ran.status, 1)
        self.assertEqual(ran.errors, [
            "exsm: it isn't built yet, and rt isn't on PATH to build it: it comes with the Rattle "
            "kit (README, \"Build\")"])
        self.variables = kept
        self.built()
        self.variables = {**kept, "PATH": "/usr/bin:/bin"}
        self.assertEqual(self.launch("check", "v").lines, ["ran check v"])

    def test_failure(self) -> None:
        """what rt said of a crate that isn't proved is shown; the next call does what is left"""
        self.behave("fails", "words")
        ran = self.launch("check", "v")
        self.assertEqual((ran.status, ran.lines), (1, []))
        self.assertIn("exsm: words is not proved; what rt said of it:", ran.errors)
        self.assertIn("src/lib.rt:3:1: error: this does not follow", ran.errors)
        self.assertEqual(ran.errors[-1],
                         "exsm: the build failed: words, exsm. The whole log is "
                         "crates/exsm/out/build.log")
        self.assertIn("logic=not-proved",
                      (self.top / "crates/exsm/out/build.log").read_text(encoding="utf-8"))
        self.behave("fails", "")
        ran = self.launch("check", "v")
        self.assertRegex(ran.errors[1], r"^exsm: 2 of 4 crates are to be proved")
        self.assertEqual((ran.status, ran.lines), (0, ["ran check v"]))

    def test_changed_crate(self) -> None:
        """after a change of a crate those above it count as to be proved"""
        self.built()
        later = time.time() + 10
        os.utime(self.top / "crates/lists/src/lib.rt", (later, later))
        self.assertRegex(self.launch("build").errors[1], r"^exsm: 2 of 4 crates are to be proved")

    def test_stop(self) -> None:
        """a build that is stopped says what stays, ends rt, and goes on at the next call"""
        for number in (signal.SIGINT, signal.SIGTERM):
            self.behave("waits", "words")
            (self.rt.parent / "waiting").unlink(missing_ok=True)
            run = self.begin()
            self.wait_for_proofs()
            os.killpg(run.pid, number)
            _, errors = run.communicate(timeout=SECONDS)
            self.assertEqual(errors.splitlines()[-1],
                             "exsm: stopped: 2 of 4 crates are proved, which stays; call it again "
                             "to go on there")
            self.assertNotEqual(run.returncode, 0)
        self.behave("waits", "")
        ran = self.launch("check", "v")
        self.assertRegex(ran.errors[1], r"^exsm: 2 of 4 crates are to be proved")
        self.assertEqual(ran.lines, ["ran check v"])

    def test_two_at_once(self) -> None:
        """a second build waits for the first, which is told, and goes on where that stopped"""
        self.behave("waits", "words")
        first = self.begin()
        self.wait_for_proofs()
        second = self.begin()
        assert second.stderr is not None
        said = [second.stderr.readline(), second.stderr.readline()]
        self.assertEqual(said[1], "exsm: another build is at work here: this one waits for it\n")
        self.behave("waits", "")
        os.killpg(first.pid, signal.SIGTERM)
        first.communicate(timeout=SECONDS)
        _, errors = second.communicate(timeout=SECONDS)
        self.assertRegex(errors.splitlines()[0], r"^exsm: 2 of 4 crates are to be proved")
        self.assertEqual((second.returncode, errors.splitlines()[-1]), (0, "exsm: built"))

    def begin(self) -> subprocess.Popen[str]:
        """Begins a build."""
        return subprocess.Popen([str(self.top / "exsm"), "build"], stderr=subprocess.PIPE,
                                text=True, env=self.variables,
                                start_new_session=True)

    def wait_for_proofs(self) -> None:
        """Waits until rt is at the crate at which it waits."""
        end = time.monotonic() + SECONDS
        while not (self.rt.parent / "waiting").exists() and time.monotonic() < end:
            time.sleep(0.05)

    def test_terminal(self) -> None:
        """in a terminal one line is written over and over, and is taken away at the end"""
        side, other = pty.openpty()
        ran = subprocess.run([str(self.top / "exsm"), "build"], stderr=other, env=self.variables,
                             timeout=SECONDS, check=False)
        os.close(other)
        shown = os.read(side, 65536).decode()
        os.close(side)
        self.assertEqual(ran.returncode, 0)
        self.assertRegex(shown,
                         r"exsm: 4 of 4 crates proved, 0 left, less than a minute \(0 min so "
                         r"far\)\x1b\[K\r\x1b\[K")
        self.assertTrue(shown.endswith("exsm: built\r\n"))


class ChangesTest(OfCheckout):
    """When a call builds again: without git, and with it."""

    def test_sources(self) -> None:
        """a source that changed, came, went or was put back builds again, if the program uses it"""
        for with_git in (False, True):
            with self.subTest(with_git=with_git):
                if with_git:
                    self.commit_all()
                self.built()
                with open(self.top / "crates/base/src/lib.rt", "a", encoding="ascii") as source:
                    source.write("// in place\n")
                self.is_built_again("its sources changed")
                self.write("crates/lists/src/more.rt", "// new\n")
                self.is_built_again("its sources changed")
                (self.top / "crates/lists/src/more.rt").unlink()
                self.is_built_again("its sources changed")
                self.write("crates/words/src/lib.rt", "// other\n")
                os.utime(self.top / "crates/words/src/lib.rt", (1, 1))
                self.is_built_again("its sources changed")
                self.write("crates/words/specs/New.antt", "-- new\n")
                self.is_built_again("its sources changed")
                shutil.rmtree(self.top / "crates/words/specs")
                self.is_built_again("its sources changed")
                self.write("crates/tests/src/lib.rt", "// not the program's\n")
                self.assertEqual((self.launch("check", "v").errors, self.calls()), ([], []))

    def test_commits(self) -> None:
        """a commit of other files, and a branch that is left and taken again, build nothing"""
        self.commit_all()
        self.built()
        self.write("README.md", "more\n")
        self.git("add", ".")
        self.git("commit", "-qm", "README")
        self.git("checkout", "-q", "-b", "other")
        self.write("crates/base/src/lib.rt", "// of the branch\n")
        self.git("commit", "-qam", "base")
        self.git("checkout", "-q", "-")
        self.assertEqual((self.launch("check", "v").errors, self.calls()), ([], []))
        self.git("checkout", "-q", "other")
        self.is_built_again("its sources changed")

    def test_kit(self) -> None:
        """another kit on the path builds again, and a program of which nothing says its source"""
        self.built()
        (self.folder / "kit" / "KIT-ID").write_text("kit-of-tests logic 4567\n", encoding="ascii")
        self.is_built_again("the kit on the path is another one")
        shutil.copytree(self.folder / "kit", self.folder / "other")
        self.variables["PATH"] = f"{self.folder / 'other' / 'bin'}:{self.variables['PATH']}"
        self.rt = self.folder / "other" / "bin" / "rt"
        self.is_built_again("the kit on the path is another one")
        (self.top / "crates/exsm/out/exsm.by").unlink()
        self.is_built_again("nothing says what it was built of")


class FirstBuildTest(OfCheckout):
    def setUp(self) -> None:
        super().setUp()
        shutil.copy(TOP / "tools" / "first_build", self.top / "tools")
        stored = {"args": "run\nv\n", "stdin": "files\n", "data/v": "a volume",
                  "stdout": "run v|a volume|files\n"}
        for name, text in stored.items():
            self.write(f"crates/exsm/{name}", text)
        page = (TOP / "docs" / "GATE.md").read_text(encoding="utf-8")
        self.write("docs/GATE.md", page[page.index("## The first build"):] + FIGURES)
        self.behave("builds", os.environ["EXSM"])
        self.behave("status", "0")
        self.commit_all()

    def measure(self, *words: str) -> Ran:
        """Runs the measurement."""
        ran = subprocess.run([str(self.top / "tools" / "first_build"), *words], capture_output=True,
                             env=self.variables,
                             timeout=4 * SECONDS, check=False)
        return Ran(ran.returncode, ran.stdout, ran.stderr)

    def test_measured(self) -> None:
        """the look before any proof and the first build are timed in a clone, for the page"""
        self.assertEqual(self.measure("--processors", "1").status, 0)
        page = (self.top / "docs" / "GATE.md").read_text(encoding="utf-8")
        self.assertRegex(page,
                         r"\| Processors \| `./exsm try` \| `./exsm`, up to the first reply "
                         r"\|\n\|---\|---\|---\|\n\| 1 \| \d+ s \| \d+ s \|\n")
        self.assertNotIn("It wasn't measured yet", page)
        self.assertFalse((self.top / "crates/exsm/out").exists())
        self.assertFalse((self.folder / "rattle-kept").exists(),
                         "nothing is kept beside the kit on the path")
        self.assertEqual(self.calls(), [])

    def test_wrong(self) -> None:
        """where a reply isn't the stored one, or a proof fails, it is told, and nothing written"""
        page = (self.top / "docs" / "GATE.md").read_bytes()
        self.behave("status", "7")
        ran = self.measure()
        self.assertEqual((ran.status, ran.errors[-1]), (
            1, "first_build: ./exsm try run v ended with status 7, and not as the stored session"))
        self.behave("status", "0")
        self.behave("fails", "lists")
        ran = self.measure()
        self.assertEqual((ran.status, ran.errors[-1]),
                         (1, "first_build: ./exsm build ended with status 1"))
        self.assertEqual((self.top / "docs" / "GATE.md").read_bytes(), page)
        self.assertEqual([self.measure("--processors", it).status for it in ("0", "1000", "x")],
                         [2, 2, 2])

    def test_forecast(self) -> None:
        """by the page's table it is told what a build is to take, for more proofs at once"""
        ran = self.measure("--forecast", "--print")
        self.assertEqual((ran.status, ran.lines), (0, [
            "| 4 crates, 32 processor minutes | 1 at once | 2 at once | 4 at once | 8 at once |",
            "|---|---|---|---|---|",
            "| on a machine as that of the table | 32 min | 31 min | 31 min | 31 min |"]))


GONE = "exsm: tried, and nothing of this is proved: "


class TryTest(OfCheckout):
    def setUp(self) -> None:
        super().setUp()
        os.mkdir("days")
        os.chdir("days")
        Path("v").write_bytes(b"a volume")
        self.behave("tries", "")

    def tried(self, *words: str, given: bytes = b"") -> Ran:
        """Tries words, which builds nothing."""
        ran = self.launch("try", *words, given=given)
        self.assertTrue(all(it.startswith("try ") for it in self.calls()))
        return ran

    def test_copy(self) -> None:
        """input, output and status pass through, on a copy of the volume wherever it lies"""
        script = bytes(range(256)) * 900
        os.mkdir("sub")
        shutil.copy("v", "sub/w")
        inside = ", where it was called volume,"
        for word, called, told in (("v", "v", ""), ("./v", "./v", ""), ("sub/w", "sub/w", ""),
                                   ("../days/v", "volume", inside),
                                   (str(Path("v").resolve()), "volume", inside)):
            ran = self.tried("run", word, given=script)
            self.assertEqual((ran.status, ran.out),
                             (7, f"run {called}|a volume|".encode() + script))
            self.assertEqual(ran.errors[1:],
                             ["exsm: said",
                              f"{GONE}it ran on a copy of {word}{told} which is gone"])
        self.assertEqual(Path("v").read_bytes(), b"a volume")

    def test_commands(self) -> None:
        """each command that opens a volume has a copy of it, and input where it reads a script"""
        for words, told in ((("run", "v"), b"line"), (("clients", "v"), b"line"),
                            (("check", "v"), b""), (("dump", "v"), b""),
                            (("gen", "v", "--seed", "1", "--count", "1"), b"")):
            ran = self.tried(*words, given=b"line")
            self.assertEqual((ran.status, ran.errors[-1]),
                             (7, f"{GONE}it ran on a copy of v which is gone"))
            self.assertTrue(ran.out.endswith(b"|" + told), ran.out)

    def test_names(self) -> None:
        """a name that means something to rt, or is a file of the crate, is another one there"""
        for name in ("program", "stdin", "a=b", "src/lib.rt"):
            Path(name).parent.mkdir(exist_ok=True)
            Path(name).write_bytes(b"of mine")
            ran = self.tried("check", "--max-bytes", "1", name)
            self.assertEqual(ran.out, b"check --max-bytes 1 volume|of mine|")
            self.assertTrue(ran.errors[-1].startswith(
                f"{GONE}it ran on a copy of {name}, where it was called volume,"), ran.errors)

    def test_anyway(self) -> None:
        """the word by which `gen` adds to a volume in use is none of the program's here either"""
        for words in ("gen v --anyway --seed 1", "gen --anyway v --seed=1"):
            ran = self.tried(*words.split())
            called = words.replace(" --anyway", "")
            self.assertTrue(ran.out.startswith(called.encode() + b"|"), ran.out)

    def test_options(self) -> None:
        """options stand before or after the volume, in two words or in one"""
        self.behave("tries", "shown")
        for words in (["run", "--max-bytes", "v", "gone"], ["run", "--max-bytes=9", "gone"],
                      ["run", "gone", "--max-bytes", "v"]):
            self.assertEqual(self.launch("try", *words).status, 1)
            self.assertEqual([it for it in self.calls() if "--data" in it], [])

    def test_without_copy(self) -> None:
        """with format, and where no volume is there, nothing is copied, no real path opened"""
        ran = self.tried("format", "gone")
        self.assertEqual(ran.errors[-1],
                         f"{GONE}what it made of gone is gone, and gone is as it was")
        ran = self.tried("run", "/gone/v", given=b"line")
        self.assertEqual(ran.errors[-1],
                         f"{GONE}/gone/v isn't there, so it, where it was called volume, ran "
                         f"without a volume")
        ran = self.tried("frob", "v")
        self.assertEqual(ran.errors[-1], f"{GONE}no volume was touched")
        ran = self.tried("format", "v")
        self.assertEqual((ran.status, ran.out, Path("v").read_bytes()),
                         (7, b"format v|none|", b"a volume"))
        self.assertEqual([it for it in self.calls() if "--data" in it], [])

    def test_refused(self) -> None:
        """a volume that is too large, or no file, and too long a script are refused"""
        with open("large", "wb") as file:
            file.truncate((256 << 20) + 1)
        with open("largest", "wb") as file:
            file.truncate(256 << 20)
        ran = self.tried("check", "large")
        self.assertEqual((ran.status, ran.out, ran.errors), (1, b"", [
            "exsm: large has 268,435,457 bytes, and a copy for a try has at most 268,435,456: "
            "`./exsm` without try runs on the volume itself, once it is proved"]))
        self.assertEqual(self.launch("try", "run", ".").errors,
                         ["exsm: . is no plain file, so it can't be copied"])
        self.assertEqual(self.calls(), [])
        self.assertEqual(self.tried("check", "largest").status, 7)
        ran = self.launch("try", "run", "v", given=bytes(64 << 20))
        self.assertEqual((ran.status, ran.errors),
                         (1,
                          ["exsm: standard input has more than 67,108,863 bytes, which is the "
                           "most that a try reads"]))

    def test_failed_try(self) -> None:
        """where rt doesn't come to the program's end, its lines are shown, the status is 1"""
        self.behave("tries", "checked: no-answer: the run did not end\nrun=no-answer proved=no")
        ran = self.tried("check", "v")
        self.assertEqual(ran.status, 1)
        self.assertIn("run=no-answer proved=no", ran.errors)
        self.assertEqual(ran.errors[-1],
                         "exsm: the try itself failed, and the lines above say how; the program's "
                         "own status isn't known")

    def test_words(self) -> None:
        """try without words tells them with 2, and --help with 0; without rt it says so"""
        self.assertEqual([self.launch("try").status, self.launch("try", "--help").status], [2, 0])
        self.variables = {**self.variables, "PATH": "/usr/bin:/bin"}
        ran = self.launch("try", "check", "v")
        self.assertEqual((ran.status, ran.errors),
                         (1,
                          [
                              "exsm: rt isn't on PATH to try it: it comes with the Rattle kit "
                              "(README, \"Build\")"]))
