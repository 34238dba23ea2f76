"""How a new volume gets its name, and what is said where it gets none."""
from __future__ import annotations

import os
import resource
import shutil
import signal
import subprocess
import threading
from pathlib import Path
from typing import Optional

from tests.support import InFolder, Ran, SECONDS, TOP

SMALL = "--page-size 512 --pages 64 --segs 16 --seg-len 1 --fan 2".split()
BYTES = (257 + 64 + 16) * 512
MADE = [f"ok format {BYTES}"]
TEMPORARY = ".exsm-new-0"
NOBODY = 65534

SHIM = r"""
#define _GNU_SOURCE
#include <dlfcn.h>
#include <errno.h>
#include <stdio.h>
#include <stdlib.h>
#include <sys/stat.h>
#include <unistd.h>

/* A file system without links, of slow or failing renames, or whose folders can't be synced: as
   the variable FAULTS has a letter. */
static int has(char letter) {
    const char *faults = getenv("FAULTS");
    for (; faults && *faults; faults++)
        if (*faults == letter) return 1;
    return 0;
}

int link(const char *from, const char *to) {
    (void)from; (void)to;
    errno = EPERM;
    return -1;
}

int rename(const char *from, const char *to) {
    int (*next)(const char *, const char *) = dlsym(RTLD_NEXT, "rename");
    if (has('s')) sleep(2);
    if (has('r')) { errno = EIO; return -1; }
    return next(from, to);
}

int fsync(int fd) {
    int (*next)(int) = dlsym(RTLD_NEXT, "fsync");
    struct stat about;
    if (has('f') && fstat(fd, &about) == 0 && S_ISDIR(about.st_mode)) { errno = EINVAL; return -1; }
    return next(fd);
}
"""


class NamingTest(InFolder):
    def format(self, volume: str, **how: str) -> Ran:
        """Makes a small volume, or tries to."""
        run = subprocess.run([os.environ["EXSM"], "format", volume, *SMALL], capture_output=True,
                             timeout=SECONDS, check=False, env={**os.environ, **how})
        return Ran(run.returncode, run.stdout, run.stderr)

    def assert_made(self, ran: Ran, volume: str) -> None:
        """The run made the volume, and says so."""
        self.assertEqual((ran.status, ran.lines, ran.errors), (0, MADE, []))
        self.assertEqual(self.exsm("run", volume, given=b"files\n").lines, ["ok files 0"])

    def without_links(self, faults: str = "") -> dict[str, str]:
        """The variables of a run in a folder that knows no links."""
        compiler = shutil.which("cc")
        if compiler is None:
            self.skipTest("there is no C compiler for the file system that refuses links")
        shim = self.folder.parent / f"{self.folder.name}.so"
        Path(f"{shim}.c").write_text(SHIM)
        self.addCleanup(shim.unlink, missing_ok=True)
        self.addCleanup(Path(f"{shim}.c").unlink)
        subprocess.run([compiler, "-shared", "-fPIC", "-o", str(shim), f"{shim}.c", "-ldl"],
                       check=True)
        return {"LD_PRELOAD": str(shim), "FAULTS": faults}

    def test_named_as_a_temporary_file(self) -> None:
        """a volume named as the file that a new one is made under is made under another number"""
        for name in (TEMPORARY, ".exsm-new-1", "./.exsm-new-2"):
            self.assert_made(self.format(name), name)
        self.assertEqual(sorted(os.listdir()), [TEMPORARY, ".exsm-new-1", ".exsm-new-2"])

    def test_renamed_where_links_are_refused(self) -> None:
        """where the folder knows no links, a new volume is renamed"""
        how = self.without_links()
        for name in ("v", TEMPORARY):
            self.assert_made(self.format(name, **how), name)
        self.assertEqual(sorted(os.listdir()), [TEMPORARY, "v"])

    def test_a_name_that_was_taken_meanwhile(self) -> None:
        """of two runs that make one volume in a folder without links one does; its commits stay"""
        how = self.without_links("s")
        ended: list[Ran] = []
        slow = threading.Thread(target=lambda: ended.append(self.format("v", **how)))
        slow.start()
        while not os.path.exists("v"):
            self.assertTrue(slow.is_alive())
        other = self.format("v", **{**how, "FAULTS": ""})
        self.assertEqual((other.status, other.lines), (10, []))
        slow.join()
        self.assert_made(ended[0], "v")
        self.assertEqual(os.listdir(), ["v"])

    def test_no_other_volume_is_written_over(self) -> None:
        """a run that finds its name taken at the end leaves the volume there, with its commits"""
        how = self.without_links()
        self.assert_made(self.format("v", **how), "v")
        self.exsm("run", "v", given=b"begin\nfile a\ncommit\n")
        ran = self.format("v", **how)
        self.assertEqual((ran.status, ran.lines), (9, []))
        self.assertEqual(self.exsm("run", "v", given=b"files\n").lines, ["ok files 1 a"])

    def test_a_rename_that_fails(self) -> None:
        """a run whose rename fails leaves no file"""
        ran = self.format("v", **self.without_links("r"))
        self.assertEqual((ran.status, ran.lines), (5, []))
        self.assertEqual(ran.errors[0], "exsm: v: Input/output error (os error 5)")
        self.assertEqual(os.listdir(), [])

    def test_after_a_rename_nothing_is_removed(self) -> None:
        """after a rename the name that the file had is left to others"""
        if shutil.which("strace") is None:
            self.skipTest("strace isn't there")
        words = ["-f", "-e", "trace=unlink,unlinkat,rename,renameat,renameat2", "-o", "calls"]
        how = [f"-E{name}={value}" for name, value in self.without_links().items()]
        ran = self.run_words("strace", *words, *how, os.environ["EXSM"], "format", "v", *SMALL)
        if ran.status:
            self.skipTest("a program can't be traced here")
        calls = Path("calls").read_text()
        self.assertIn("rename", calls)
        self.assertNotIn("unlink", calls)

    def test_a_folder_that_cannot_be_synced(self) -> None:
        """a folder that can't be synced, or can't be opened to be, is told, and nothing is left"""
        ran = self.format("v", **self.without_links("f"))
        self.assertEqual((ran.status, ran.lines), (5, []))
        text = "exsm: v: its folder can't be synced, so a new file there could be lost"
        self.assertEqual(ran.errors, [text, "exsm: status 5 disk fault"])
        self.assertEqual(os.listdir(), [])
        if os.geteuid() or shutil.which("setpriv") is None:
            self.skipTest("another user can't be had, so no folder is closed to this one")
        os.mkdir("closed")
        os.chmod("closed", 0o333)
        os.chmod(".", 0o755)
        program = self.folder / "program"
        shutil.copy(os.environ["EXSM"], program)
        ran = self.run_words("setpriv", f"--reuid={NOBODY}", "--clear-groups", program, "format",
                             "closed/v", *SMALL)
        text = "exsm: closed/v: its folder can't be opened to be synced"
        self.assertEqual((ran.status, ran.errors), (5, [text, "exsm: status 5 disk fault"]))
        self.assertEqual(os.listdir("closed"), [])

    def test_through_links(self) -> None:
        """a volume is made where a link to no file leads"""
        os.mkdir("there")
        links = {"w": "there/v", "x": "w", "there/y": "../z", "u": str(self.folder / "there" / "t")}
        for link, target in links.items():
            os.symlink(target, link)
        for link, file in (("x", "there/v"), ("there/y", "z"), ("u", "there/t")):
            self.assert_made(self.format(link), link)
            self.assertTrue(os.path.islink(link) and not os.path.islink(file))
            self.assertEqual(os.path.getsize(file), BYTES)
        self.assertEqual(sorted(os.listdir()), ["there", "u", "w", "x", "z"])
        os.symlink("nowhere/v", "s")
        ran = self.format("s")
        text = "exsm: s: No such file or directory (os error 2) (its folder isn't there)"
        self.assertEqual((ran.status, ran.errors[0]), (5, text))
        os.symlink("round", "round")
        self.assertEqual(self.format("round").status, 5)


class TextsTest(InFolder):
    def test_names_with_control_characters(self) -> None:
        """a control character of a word is shown as an escape, so each text has its own line"""
        name = "a\n\x1b[2Jb\u0085\x7f"
        shown = "a\\n\\u{1b}[2Jb\\u{85}\\u{7f}"
        rows = [
            (["run", name],
             f"exsm: {shown}: No such file or directory (os error 2) (exsm format makes a volume)"),
            ([name], f"exsm: '{shown}' is no command"),
            (["run", "v", name], f"exsm: '{shown}' is a second VOLUME, after 'v'"),
            (["run", f"--{name}"], f"exsm: '--{shown}' is neither an option of run nor a VOLUME"),
            (["run", "v", "--max-bytes", name], f"exsm: --max-bytes takes N, not '{shown}'"),
        ]
        for words, text in rows:
            with self.subTest(text):
                self.assertEqual(self.exsm(*words).errors[0], text)

    def test_other_letters(self) -> None:
        """every other letter of a name is shown as it is"""
        for name in ("\u00e9\u4e2d", "it's \"v\"", "a\\b"):
            self.assertTrue(self.exsm("run",
                                      name).errors[0].startswith(f"exsm: {name}: No such file"))


class LimitTest(InFolder):
    """The limit of a file's size, of which the system tells a run by a signal that ends it."""

    def limited(self, *words: object, most: Optional[int] = None) -> Ran:
        """Runs words where no file gets longer than so many bytes, the signal as the system has it
        at first."""
        def limit() -> None:
            signal.signal(signal.SIGXFSZ, signal.SIG_DFL)
            if most is not None:
                resource.setrlimit(resource.RLIMIT_FSIZE, (most, most))

        run = subprocess.run([str(word) for word in words], input=b"", capture_output=True,
                             timeout=SECONDS, check=False, preexec_fn=limit,
                             env={**os.environ, "PATH": "/usr/bin:/bin"})
        return Ran(run.returncode, run.stdout, run.stderr)

    def check(self, program: object) -> None:
        """A run by a script that holds the signal off ends as one on a full disk does, and leaves
        nothing."""
        before = os.listdir()
        for most in (0, 511, BYTES - 1):
            ran = self.limited(program, "format", "v", *SMALL, most=most)
            text = "exsm: v: File too large (os error 27)"
            self.assertEqual((ran.status, ran.errors), (5, [text, "exsm: status 5 disk fault"]))
            self.assertEqual(os.listdir(), before)
        self.assertEqual(self.limited(program, "format", "v", *SMALL).lines, MADE)

    def test_installed(self) -> None:
        """the installed program ends with a disk fault at the limit of a file's size"""
        self.run_words(TOP / "tools" / "install", "prefix")
        self.check("prefix/bin/exsm")

    def test_launched(self) -> None:
        """so does the one that ./exsm runs"""
        for folder in ("out", "src"):
            os.makedirs(f"top/crates/exsm/{folder}")
        shutil.copy(TOP / "exsm", "top/exsm")
        os.mkdir("top/tools")
        shutil.copy(TOP / "tools" / "words.sh", "top/tools")
        Path("top/crates.txt").write_text("exsm: low\n")
        shutil.copy(os.environ["EXSM"], "top/crates/exsm/out/exsm")
        # The note of a build, behind which no source changed. No kit is on the path.
        Path("top/crates/exsm/out/exsm.by").write_text("crates exsm\nparts exsm/src\n")
        self.check("top/exsm")
