"""A release: what its archive holds and when it is refused; it is unpacked, and the tutorial typed
and a program in C built, without rt and without the checkout."""
from __future__ import annotations

import hashlib
import os
import shutil
import subprocess
import sys
from pathlib import Path

from tests import transcripts
from tests.library import BUILT, LIBRARY, NEEDS_LIBRARY, WARNINGS
from tests.support import TOP, Ran
from tests.test_launcher import KIT, OfCheckout

PACKED = ("LICENSE", "CHANGELOG.md", "README.md", "docs", "examples", ".ci", "tools/exsm",
          "tools/exsm.bash", "tools/exsm.fish", "tools/exsm.sh", "tools/exsm.zsh",
          "tools/install", "tools/release", "tools/words.sh", "pyproject.toml")
FORM = ("--page-size", "512", "--pages", "600", "--segs", "600", "--seg-len", "1", "--fan", "3")
USED_BY_TUTORIAL = ("xxd", "awk", "dd", "diff")


class OfRelease(OfCheckout):
    """A test on a small checkout of which a release is made."""

    WORDS: tuple[str, ...] = ("--program-alone",)

    def setUp(self) -> None:
        super().setUp()
        commands = [f"tools/{it.name}" for it in (TOP / "tools").glob("exsm_*.py")]
        for name in (*PACKED, *commands):
            copy = shutil.copytree if (TOP / name).is_dir() else shutil.copy
            (self.top / name).parent.mkdir(parents=True, exist_ok=True)
            copy(TOP / name, self.top / name,
                 **({"dirs_exist_ok": True} if (TOP / name).is_dir() else {}))
        self.behave("builds", os.environ["EXSM"])
        self.commit_all()

    def release(self, *words: str) -> Ran:
        """Makes a release in the folder `to`."""
        ran = subprocess.run([str(self.top / "tools" / "release"), *self.WORDS, *words, "to"],
                             capture_output=True, env=self.variables,
                             check=False)
        return Ran(ran.returncode, ran.stdout, ran.stderr)

    def archive(self) -> Path:
        """The archive in the folder `to`."""
        archives = sorted(Path("to").glob("*.tar.gz"))
        self.assertEqual(len(archives), 1)
        return archives[0]

    def refused(self, why: str, *words: str) -> None:
        """Holds that no release is made, and why."""
        ran = self.release(*words)
        self.assertEqual((ran.status, ran.out), (1, b""))
        self.assertIn(why, ran.errors[-1])
        self.assertFalse(Path("to").exists())

    def unpacked(self) -> Path:
        """Makes a release, tests its sums, and unpacks it into an empty folder."""
        self.launch("build")
        ran = self.release()
        self.assertEqual((ran.status, ran.errors), (0, []))
        archive = self.archive()
        digest = hashlib.sha256(archive.read_bytes()).hexdigest()
        self.assertEqual(ran.lines, [f"{digest}  {archive.name}"])
        os.mkdir("room")
        for name in (archive.name, f"{archive.name}.sha256"):
            shutil.move(f"to/{name}", "room")
        shutil.rmtree(self.top)
        os.chdir("room")
        self.assertEqual(self.run_words("sha256sum", "--check", f"{archive.name}.sha256").status, 0)
        self.assertEqual(self.run_words("tar", "xzf", archive.name).status, 0)
        home = Path(archive.name.removesuffix(".tar.gz")).resolve()
        os.chdir(home)
        self.assertEqual(self.run_words("sha256sum", "--check", "--quiet", "SHA256SUMS").status, 0)
        self.assertIn("  tools/program\n", Path("SHA256SUMS").read_text(encoding="ascii"))
        os.chdir("..")
        return home

    def path(self) -> str:
        """A path with Python and the system's commands, and no rt."""
        os.mkdir("bin")
        os.symlink(sys.executable, "bin/python3")
        self.assertIsNone(shutil.which("rt", path="/usr/bin:/bin"))
        return f"{Path('bin').resolve()}:/usr/bin:/bin"


class ReleaseTest(OfRelease):
    """A release of the program alone."""

    def test_refused(self) -> None:
        """a release is refused where the program or a file isn't of the commit's text"""
        self.refused("nothing says of what text crates/exsm/out/exsm was built")
        self.launch("build")
        self.write("README.md", "changed")
        self.refused("README.md isn't as the commit has it")
        self.git("checkout", "README.md")
        self.write("crates/base/src/more.rt", "// unknown to git\n")
        self.refused("a file below crates isn't as the commit has it")
        self.git("add", ".")
        self.git("commit", "-qm", "more")
        self.refused("crates/exsm/out/exsm was built of other text than this commit's")
        self.launch("build")
        with open(self.top / "crates/exsm/out/exsm", "ab") as program:
            program.write(b"x")
        self.refused("isn't the program that its note was written of")
        self.behave("fails", "base")
        self.refused("the gate didn't pass: 0 passed, 1 failed", "--gate")

    def test_gate(self) -> None:
        """with --gate the program is the one that the gate built, which the launcher then takes"""
        self.assertEqual(self.release("--gate").status, 0)
        self.assertEqual(self.calls(), ["ci"])
        self.assertEqual((self.launch("help").status, self.launch("check", "none").status,
                          self.calls()), (0, 5, []))

    def test_same(self) -> None:
        """two archives of one commit and one program are the same, byte for byte"""
        self.launch("build")
        self.release()
        first = self.archive().read_bytes()
        shutil.rmtree("to")
        subprocess.run(["find", str(self.top), "-exec", "touch", "-d", "2001-01-01", "{}", "+"],
                       check=True)
        self.git("status")
        self.assertEqual(self.release().status, 0)
        self.assertEqual(self.archive().read_bytes(), first)

    def test_words(self) -> None:
        """what is unpacked, and what it installs, tell words and version with status 0"""
        home = self.unpacked()
        path = {"PATH": self.path()}
        subprocess.run([str(home / "tools" / "install"), "prefix"], env=path, check=True,
                       capture_output=True)
        version = (TOP / "VERSION").read_text(encoding="ascii").strip()
        for exsm in (home / "exsm", Path("prefix/bin/exsm").resolve()):
            for words, status, last in ((["--version"], 0, None), (["help"], 0, None),
                                        (["--help"], 0, None), (["frob"], 2, "usage"),
                                        (["Format", "v"], 2, "usage")):
                ran = subprocess.run([str(exsm), *words], capture_output=True, env=path, text=True,
                                     check=False)
                self.assertEqual(ran.returncode, status)
                self.assertEqual(ran.stderr.splitlines()[-1:],
                                 [f"exsm: status {status} {last}"] if last else [])
                if words == ["--version"]:
                    told = (f"exsm {version}, makes volumes of format 2, opens formats 1 and 2, "
                            f"{KIT}\n")
                    self.assertEqual(ran.stdout, told)
                elif status == 0:
                    self.assertTrue(ran.stdout.startswith("usage: exsm format VOLUME"))
        tool = subprocess.run([str(home / "tools" / "exsm_new.py"), "v", "4M"], env=path,
                              capture_output=True, check=False)
        self.assertEqual((tool.returncode, tool.stdout), (0, b"ok format 4194304\n"))

    def test_tutorial(self) -> None:
        """the tutorial's commands write what it prints, by the archive alone"""
        for program in USED_BY_TUTORIAL:
            if shutil.which(program) is None:
                self.skipTest(f"there is no {program} here")
        home = self.unpacked()
        variables = {"PATH": self.path(), "HOME": str(home.parent), "EXSM_HOME": str(home),
                     "LC_ALL": "C.UTF-8",
                     "PYTHONDONTWRITEBYTECODE": "1"}
        steps = transcripts.steps_of((home / "docs" / "TUTORIAL.md").read_text(encoding="utf-8"))
        wrote = transcripts.run(steps, home.parent, variables)
        commands = [(place, it) for place,
                    it in enumerate(steps) if isinstance(it, transcripts.Command)]
        self.assertGreater(len(commands), 50)
        for place, step in commands:
            with self.subTest(f"line {step.line}: {step.text}"):
                came = wrote.get(place, ["(it wasn't run)"])
                self.assertTrue(transcripts.fits(step.wanted, came), "\n".join(came))


@NEEDS_LIBRARY
class LibraryTest(OfRelease):
    """A release with the library for C."""

    WORDS = ()

    def setUp(self) -> None:
        super().setUp()
        (self.top / "library").mkdir()
        for pattern in ("exsm*", "heap.*", "layer.h", "install"):
            for file in LIBRARY.glob(pattern):
                shutil.copy(file, self.top / "library" / file.name)
        self.git("add", ".")
        self.git("commit", "-qm", "library")
        self.launch("build")

    def build(self, commit: str = "") -> None:
        """Puts the built library there, and the note that it was built of the text of a commit."""
        out = self.top / "library" / "out"
        shared = Path(os.path.realpath(BUILT / "libexsm.so"))
        names = [shared.name, "libexsm.a", "exsm.h"]
        out.mkdir(exist_ok=True)
        for name in names:
            shutil.copy(BUILT / name, out / name)
        head = self.git_said("rev-parse", "HEAD")
        rows = [f"commit {commit or head}"]
        rows += [f"{it} {hashlib.sha256((out / it).read_bytes()).hexdigest()}" for it in names]
        (out / "libexsm.by").write_text("\n".join(rows) + "\n", encoding="ascii")

    def git_said(self, *words: str) -> str:
        """What git says of the checkout."""
        return subprocess.run(["git", "-C", str(self.top), *words], capture_output=True, text=True,
                              check=True).stdout.strip()

    def test_refused(self) -> None:
        """a release is refused where the library isn't of the commit's text"""
        self.refused("nothing says of what text a library in library/out was built")
        self.build("edited")
        self.refused("the library in library/out was built of other text than this commit's")
        self.build()
        with open(self.top / "library" / "out" / "libexsm.a", "ab") as archive:
            archive.write(b"x")
        self.refused("library/out/libexsm.a isn't the file that its note was written of")
        self.build()
        self.write("library/heap.c", "/* another */\n")
        self.git("commit", "-qam", "heap")
        self.refused("the library in library/out was built of other text than this commit's")

    def test_example(self) -> None:
        """the example in C is built and runs by what the archive has, and by what that installs"""
        compiler = shutil.which("cc")
        if compiler is None:
            self.skipTest("there is no cc here")
        self.build()
        home = self.unpacked()
        text = (home / "docs" / "LIBRARY.md").read_text(encoding="utf-8")
        Path("program.c").write_text(text.split("```c\n")[1].split("```")[0], encoding="utf-8")
        path = {"PATH": self.path()}
        subprocess.run([str(home / "tools" / "install"), "prefix"], env=path, check=True,
                       capture_output=True)
        there = home / "library" / "out"
        prefix = Path("prefix").resolve()
        for place, (header, *linked) in enumerate((
                (there, str(there / "libexsm.a")),
                (there, f"-L{there}", "-lexsm", f"-Wl,-rpath,{there}"),
                (prefix / "include", f"-L{prefix / 'lib'}", "-lexsm",
                 f"-Wl,-rpath,{prefix / 'lib'}"))):
            ran = self.run_words(compiler, *WARNINGS, "-std=c99", f"-I{header}", "program.c",
                                 *linked, "-o", f"program{place}")
            self.assertEqual((ran.status, ran.errors), (0, []))
            Path("v").unlink(missing_ok=True)
            subprocess.run([str(home / "exsm"), "format", "v", *FORM], check=True,
                           capture_output=True, env=path)
            ran = self.run_words(Path(f"program{place}").resolve())
            self.assertEqual((ran.status, ran.lines, ran.errors), (0, ["some more"], []))
        for name in ("LICENSE", "library/exsm.rs", "library/exsm_file.c", "library/layer.h"):
            self.assertTrue((home / name).is_file(), name)
