"""The edge of exsm: what it does to its files and streams."""
from __future__ import annotations

import concurrent.futures
import contextlib
import os
import re
import resource
import signal
import subprocess
import unittest
from pathlib import Path
from typing import Callable, IO, Iterator, Optional

from tests.support import SECONDS, InFolder, Ran

SIZES = "--page-size 512 --pages 64 --segs 64 --seg-len 1 --fan 2".split()
BYTES = (257 + 64 + 64) * 512
FORMATTED = f"ok format {BYTES}\n".encode()

# All words that close streams, as a shell writes them.
CLOSED = [f"{i} {o} {e}" for i in ("<&-", "") for o in (">&-", "") for e in ("2>&-", "")]

FORMAT = [
    "usage: exsm format VOLUME [--page-size 512|1024|2048|4096|8192] [--pages 1..4000000]"
    " [--segs 0..4000000] [--seg-len 1..16] [--fan 2..(page size - 20) / 24]",
    "           by default --page-size 4096 --pages 4096 --segs 16384 --seg-len 1"
    " and the largest fan",
]
RUN = [
    "usage: exsm run VOLUME [--max-bytes N] < SCRIPT",
    "           by default --max-bytes 1099511627776",
]
CHECK = ["usage: exsm check VOLUME"]
GEN = ["usage: exsm gen VOLUME --seed N --count 1..1000000"]
CLIENTS = [
    "usage: exsm clients VOLUME [--max-bytes N] < SCHEDULE",
    "           by default --max-bytes 1099511627776",
]
DUMP = ["usage: exsm dump VOLUME > STREAM"]
LOAD = ["usage: exsm load VOLUME < STREAM"]
PACK = ["usage: exsm pack VOLUME"]
USAGE = [
    *FORMAT,
    *(line.replace("usage:", "      ")
      for line in [*RUN, *CHECK, *GEN, *CLIENTS, *DUMP, *LOAD, *PACK]),
]

PAGE_SIZES = "512|1024|2048|4096|8192"
TWENTY_ZEROS = "0" * 20
# Words, what is said of them, and the usage that is told.
WORDS = [
    ("", "no command", USAGE),
    ("frob v", "'frob' is no command", USAGE),
    ("run", "run takes a VOLUME, and no word names one", RUN),
    ("run v w", "'w' is a second VOLUME, after 'v'", RUN),
    ("run -v", "'-v' is neither an option of run nor a VOLUME", RUN),
    ("run v --max-bytes 1 --max-bytes 2", "--max-bytes stands there twice", RUN),
    (f"run v --max-bytes {TWENTY_ZEROS}1", f"--max-bytes takes N, not '{TWENTY_ZEROS}1'", RUN),
    ("run v --help", "'--help' is neither an option of run nor a VOLUME", RUN),
    ("run -- v", "'--' is neither an option of run nor a VOLUME", RUN),
    ("clients", "clients takes a VOLUME, and no word names one", CLIENTS),
    ("clients v --seed 1", "'--seed' is neither an option of clients nor a VOLUME", CLIENTS),
    ("clients v --max-bytes x", "--max-bytes takes N, not 'x'", CLIENTS),
    ("dump", "dump takes a VOLUME, and no word names one", DUMP),
    ("dump v --max-bytes 6", "'--max-bytes' is neither an option of dump nor a VOLUME", DUMP),
    ("load", "load takes a VOLUME, and no word names one", LOAD),
    ("load v --max-bytes 6", "'--max-bytes' is neither an option of load nor a VOLUME", LOAD),
    ("pack", "pack takes a VOLUME, and no word names one", PACK),
    ("pack v --segs 6", "'--segs' is neither an option of pack nor a VOLUME", PACK),
    ("format", "format takes a VOLUME, and no word names one", FORMAT),
    ("format --pages", "--pages takes 1..4000000, and no word is left", FORMAT),
    ("format v --page-size", f"--page-size takes {PAGE_SIZES}, and no word is left", FORMAT),
    ("format v --page-size 4k", f"--page-size takes {PAGE_SIZES}, not '4k'", FORMAT),
    ("format v --page-size 500", f"--page-size takes {PAGE_SIZES}, not '500'", FORMAT),
    ("format v --pages 0", "--pages takes 1..4000000, not '0'", FORMAT),
    ("format v --segs 4000001", "--segs takes 0..4000000, not '4000001'", FORMAT),
    ("format v --seg-len 17", "--seg-len takes 1..16, not '17'", FORMAT),
    ("format v --page-size 512 --fan 21",
     "--fan takes 2..20 with pages of 512 bytes, not '21'", FORMAT),
    ("check v w", "'w' is a second VOLUME, after 'v'", CHECK),
    ("gen v --count 1", "gen takes --seed N, and it isn't there", GEN),
    ("gen v --seed 1 --count 0", "--count takes 1..1000000, not '0'", GEN),
]


class InEdge(InFolder):
    """A test with runs whose streams, limits and moments of death it chooses."""

    def setUp(self) -> None:
        super().setUp()
        self.program = os.environ["EXSM"]

    def ends(self, *words: str | bytes, script: bytes = b"",
             limit: Optional[Callable[[], None]] = None, stdin: Optional[int] = None,
             stdout: Optional[IO[str]] = None, limits_signals: bool = False) -> Ran:
        """Runs the program to its end, with other streams and limits where they are told."""
        run = subprocess.run(
            [self.program, *words], stdin=stdin, input=script if stdin is None else None,
            stdout=subprocess.PIPE if stdout is None else stdout, stderr=subprocess.PIPE,
            preexec_fn=limit, restore_signals=not limits_signals, timeout=SECONDS, check=False)
        return Ran(run.returncode, run.stdout or b"", run.stderr)

    def make(self, name: str = "v") -> None:
        """Makes a volume of 64 pages and 64 units."""
        ran = self.ends("format", name, *SIZES)
        self.assertEqual((ran.status, ran.out), (0, FORMATTED), ran.errors)

    def run_script(self, *lines: str, name: str = "v") -> list[str]:
        """What a script is answered, in a run that comes to its end."""
        ran = self.ends("run", name, script="".join(f"{it}\n" for it in lines).encode())
        self.assertEqual(ran.status, 0, ran.errors)
        return ran.lines

    def starts(self, *words: str) -> subprocess.Popen[bytes]:
        """Starts the program, which is ended with the test."""
        run = subprocess.Popen([self.program, *words], stdin=subprocess.PIPE,
                               stdout=subprocess.PIPE, stderr=subprocess.PIPE)

        def end() -> None:
            run.kill()
            run.wait()
            for pipe in (run.stdin, run.stdout, run.stderr):
                with contextlib.suppress(OSError, AttributeError):
                    pipe.close()  # type: ignore[union-attr]

        self.addCleanup(end)
        return run

    def ask(self, run: subprocess.Popen[bytes], line: str) -> str:
        """Sends a line, and gives its reply."""
        assert run.stdin and run.stdout
        run.stdin.write(f"{line}\n".encode())
        run.stdin.flush()
        return run.stdout.readline().decode().rstrip("\n")

    def check(self, ran: Ran, status: int, name: str, *lines: str) -> None:
        """Compares how a run ended and what it said of it."""
        self.assertEqual(ran.errors, [*lines, f"exsm: status {status} {name}"])
        self.assertEqual(ran.status, status)


class ClosedStreams(InEdge):
    """The volume file never gets the descriptor of a standard stream."""

    def shell(self, closed: str, *words: str, source: str = os.devnull) -> Ran:
        """Runs the program on a file as its script, with some streams closed."""
        with open(source, "rb") as stdin:
            run = subprocess.run(
                ["sh", "-c", f'exec "$0" "$@" {closed}', self.program, *words],
                stdin=stdin, capture_output=True, timeout=SECONDS, check=False)
        return Ran(run.returncode, run.stdout, run.stderr)

    def test_format(self) -> None:
        """with any standard streams closed a volume is made as with all of them open"""
        self.make("reference")
        for closed in CLOSED:
            with self.subTest(closed=closed):
                ran = self.shell(closed, "format", "v", *SIZES)
                self.assertEqual(ran.status, 4 if ">&-" in closed.split() else 0, ran.errors)
                self.assertEqual(Path("v").read_bytes(), Path("reference").read_bytes())
                os.remove("v")
        self.assertEqual(os.listdir(), ["reference"])

    def test_run(self) -> None:
        """with any standard streams closed a run leaves what it leaves where they are /dev/null"""
        script = b"begin\nfile a\ncreate a as @x\nappend @x rep:1000:61\ncommit\nfiles\n"
        Path("script").write_bytes(script)
        for closed in CLOSED:
            with self.subTest(closed=closed):
                self.make("v")
                self.make("reference")
                ran = self.shell(closed, "run", "v", source="script")
                # A run that can't reply stops at its first line, whatever the reason is.
                silent = ">&-" in closed.split()
                given = b"" if "<&-" in closed else script
                with open("/dev/full" if silent else os.devnull, "w", encoding="ascii") as stdout:
                    same = self.ends("run", "reference", script=given, stdout=stdout)
                self.assertEqual(ran.status, same.status, ran.errors)
                self.assertEqual(same.status, 4 if silent and given else 0)
                self.assertEqual(Path("v").read_bytes(), Path("reference").read_bytes())
                self.run_script("files")
                os.remove("v")
                os.remove("reference")

    def test_closed_input(self) -> None:
        """a closed input is an empty script, also where the volume holds lines of one"""
        self.make()
        text = b"\nbegin\ndestroy 258.0.1\ncommit\n".hex()
        self.run_script("begin", "file a", "create a as @x", f"append @x hex:{text}", "commit")
        ran = self.shell("<&-", "run", "v")
        self.assertEqual((ran.status, ran.out, ran.errors), (0, b"", []))
        self.assertEqual(self.run_script("size 258.0.1"), [f"ok size {len(text) // 2}"])


class OneRun(InEdge):
    """One run at a time has a volume."""

    def test_second(self) -> None:
        """a second run or format of an open volume is refused, and leaves its bytes"""
        self.make()
        first = self.starts("run", "v")
        self.assertEqual(self.ask(first, "begin"), "ok begin 1")
        self.assertEqual(self.ask(first, "file a"), "ok file a")
        before = Path("v").read_bytes()
        for words in (["run", "v"], ["format", "v", *SIZES]):
            second = self.ends(*words, script=b"begin\nfile b\ncommit\n")
            self.check(second, 5, "disk fault", "exsm: v: another run has it open")
            self.assertEqual(second.out, b"")
            self.assertEqual(Path("v").read_bytes(), before)
        self.assertEqual(self.ask(first, "commit"), "ok commit 1")
        self.assertEqual(self.ask(first, "files"), "ok files 1 a")
        assert first.stdin
        first.stdin.close()
        self.assertEqual(first.wait(timeout=SECONDS), 0)
        self.assertEqual(self.run_script("files"), ["ok files 1 a"])

    def test_killed(self) -> None:
        """a killed run leaves the volume free, with what it committed"""
        self.make()
        first = self.starts("run", "v")
        for line, reply in (("begin", "ok begin 1"), ("file a", "ok file a"),
                            ("commit", "ok commit 1"), ("begin", "ok begin 2")):
            self.assertEqual(self.ask(first, line), reply)
        self.assertEqual(self.ends("run", "v").status, 5)
        first.send_signal(signal.SIGKILL)
        first.wait(timeout=SECONDS)
        self.assertEqual(self.run_script("files"), ["ok files 1 a"])

    def test_at_once(self) -> None:
        """of two runs that start at once one is refused, or both ran one after the other"""
        allowed = [(b"ok commit 1", 0), (b"ok commit 2", 0), (b"", 5)]
        script = b"begin\nfile a\ncommit\n"
        for _ in range(20):
            self.make()
            runs = [self.starts("run", "v") for _ in range(2)]
            with concurrent.futures.ThreadPoolExecutor() as pool:
                outs = list(pool.map(lambda run: run.communicate(script)[0], runs))
            for run, out in zip(runs, outs):
                last = out.split(b"\n")[-2] if out else b""
                self.assertIn((last, run.returncode), allowed)
            self.assertEqual(self.run_script("files"), ["ok files 1 a"])
            os.remove("v")


class Causes(InEdge):
    """Before its last line the program says why it ended so."""

    def test_words(self) -> None:
        """of wrong words it says what is wrong with the usage of their command, and does nothing"""
        for words, text, usage in WORDS:
            with self.subTest(words=words):
                ran = self.ends(*words.split())
                self.check(ran, 2, "usage", f"exsm: {text}", *usage)
                self.assertEqual(ran.out, b"")
        self.assertEqual(os.listdir(), [])

    def test_help(self) -> None:
        """the words for help are wrong ones, and are told the usage of all commands"""
        for word in ("help", "--help", "-h"):
            with self.subTest(word=word):
                self.check(self.ends(word), 2, "usage", *USAGE)

    def test_bytes(self) -> None:
        """a word that is not UTF-8 is told"""
        ran = self.ends("run", b"caf\xe9")
        self.check(ran, 2, "usage", "exsm: a word isn't UTF-8 text", *USAGE)

    def test_standard_input(self) -> None:
        """a standard input that can't be read is told with the system's reason"""
        self.make()
        here = os.open(".", os.O_RDONLY)
        self.addCleanup(os.close, here)
        ran = self.ends("run", "v", stdin=here)
        self.check(ran, 3, "script fault", "exsm: standard input: Is a directory (os error 21)")

    def test_standard_output(self) -> None:
        """a standard output that takes no reply is told, and what stays"""
        self.make()
        reason = "exsm: standard output: No space left on device (os error 28)"
        with open("/dev/full", "w", encoding="ascii") as full:
            ran = self.ends("run", "v", script=b"begin\n", stdout=full)
        self.check(ran, 4, "output fault", f"{reason}; commits whose reply was sent stay")
        with open("/dev/full", "w", encoding="ascii") as full:
            ran = self.ends("format", "w", *SIZES, stdout=full)
        self.check(ran, 4, "output fault", f"{reason}; the volume is made")
        self.assertEqual(self.run_script("files", name="w"), ["ok files 0"])
        with open("/dev/full", "w", encoding="ascii") as full:
            ran = self.ends("dump", "v", stdout=full)
        self.check(ran, 4, "output fault", f"{reason}; what was sent is no whole dump")

    def test_not_opened(self) -> None:
        """files that cannot be opened are told with the system's reason, and what would help"""
        os.mkdir("folder")
        os.mkfifo("pipe")
        odd = "it is neither a file nor a block device"
        for words, line in (
                *(([verb, name], f"{name}: {odd}")
                  for name in ("pipe", "/dev/null", "/dev/zero", "/dev/full")
                  for verb in ("run", "check", "dump", "load", "pack", "format")),
                (["run", "none"], "none: No such file or directory (os error 2) "
                                  "(exsm format makes a volume)"),
                (["run", "folder"], "folder: Is a directory (os error 21)"),
                (["format", "folder"], "folder: Is a directory (os error 21)"),
                (["format", "none/v"], "none/v: No such file or directory (os error 2) "
                                       "(its folder isn't there)")):
            with self.subTest(words=words):
                sizes = SIZES if words[0] == "format" else []
                self.check(self.ends(*words, *sizes), 5, "disk fault", f"exsm: {line}")
        self.assertEqual(sorted(os.listdir()), ["folder", "pipe"])

    @unittest.skipIf(os.geteuid() == 0 and not os.path.exists("/usr/bin/setpriv"),
                     "root may open every file")
    def test_not_written(self) -> None:
        """a volume that may not be written is refused, since an opening also writes"""
        self.make()
        os.chmod("v", 0o444)
        os.chmod(".", 0o755)
        path = os.path.abspath("v")
        words = [self.program, "run", path]
        if os.geteuid() == 0:
            words = ["setpriv", "--reuid=65534", "--clear-groups", *words]
        ran = self.run_words(*words)
        if ran.status in (126, 127) or any("not permitted" in it for it in ran.errors):
            self.skipTest("another user can't be had")
        self.check(ran, 5, "disk fault", f"exsm: {path}: Permission denied (os error 13) "
                   "(an opening also writes)")

    def test_no_volume(self) -> None:
        """a file that holds no volume is told by its part, and stays as it was"""
        Path("v").write_bytes(bytes(BYTES))
        ran = self.ends("run", "v")
        part = ("part super, the first page, which names the sizes, or the size of the file or "
                "device")
        self.check(ran, 6, "bad volume super",
                   f"exsm: v holds no volume, or a damaged one: {part}. It is as it was; "
                   "exsm_volume.py v save FOLDER saves what can be read")
        self.assertEqual(Path("v").read_bytes(), bytes(BYTES))

    def test_already(self) -> None:
        """a volume isn't made anew"""
        self.make()
        before = Path("v").read_bytes()
        self.check(self.ends("format", "v", *SIZES), 9, "already a volume",
                   "exsm: v begins as a volume does; nothing was written. To make it anew, "
                   "remove the file, or write zeros over the front of the device")
        self.assertEqual(Path("v").read_bytes(), before)

    def test_too_small(self) -> None:
        """a file that is too small for the volume stays as it was"""
        Path("v").write_bytes(b"x" * 1000)
        self.check(self.ends("format", "v", *SIZES), 10, "too small",
                   f"exsm: v has 1000 bytes, the volume needs {BYTES}; nothing was written. "
                   "Make a smaller volume, or remove it if it is a file")
        self.assertEqual(Path("v").read_bytes(), b"x" * 1000)

    def test_empty(self) -> None:
        """a file of no bytes is told what to do with it"""
        Path("v").write_bytes(b"")
        self.check(self.ends("format", "v", *SIZES), 10, "too small",
                   f"exsm: v is empty, the volume needs {BYTES} bytes; nothing was written. "
                   "Remove the file: format makes it in its size")
        self.assertEqual(Path("v").read_bytes(), b"")

    def test_written_over(self) -> None:
        """another file that is large enough is written over, and keeps its size"""
        Path("v").write_bytes(b"x" * (BYTES + 1))
        self.make()
        self.assertEqual(os.path.getsize("v"), BYTES + 1)
        self.assertEqual(self.run_script("files"), ["ok files 0"])


class FullDisks(InEdge):
    """A write that is refused or short loses nothing answered, and leaves no file in part."""

    def limited(self, most: int, *words: str, script: bytes = b"") -> Ran:
        """A run in which no file gets longer than so many bytes, and a write past them fails."""

        def limit() -> None:
            signal.signal(signal.SIGXFSZ, signal.SIG_IGN)
            resource.setrlimit(resource.RLIMIT_FSIZE, (most, most))

        return self.ends(*words, script=script, limit=limit, limits_signals=True)

    def test_format(self) -> None:
        """a new file that can't be filled is removed"""
        for most in (0, 511, 512, BYTES - 1):
            ran = self.limited(most, "format", "v", *SIZES)
            self.check(ran, 5, "disk fault", "exsm: v: File too large (os error 27)")
            self.assertEqual((ran.out, os.listdir()), (b"", []))
        self.make()

    def test_run(self) -> None:
        """a write that is refused, in its midst or at its end, loses no commit"""
        lines = [f"append 258.0.1 rep:700:{n:02x}" for n in range(6)]
        script = "".join(f"begin\n{it}\ncommit\n" for it in lines).encode()
        for most in range(700, BYTES, 4_099):
            with self.subTest(most=most):
                self.make()
                self.run_script("begin", "file a", "create a as @x", "commit", "checkpoint")
                ran = self.limited(most, "run", "v", script=script)
                self.assertIn(ran.status, (0, 5))
                if ran.status:
                    self.check(ran, 5, "disk fault", "exsm: v: File too large (os error 27)")
                kept = sum(re.match("ok commit", it) is not None for it in ran.lines)
                size = self.run_script("size 258.0.1")[0]
                self.assertIn(size, [f"ok size {700 * n}" for n in (kept, kept + 1)])
                os.remove("v")

    @contextlib.contextmanager
    def small_disk(self, size: str) -> Iterator[str]:
        """A disk of so many bytes, and a volume's name on it."""
        os.mkdir("disk")
        if self.run_words("mount", "-t", "tmpfs", "-o", f"size={size}", "tmpfs", "disk").status:
            os.rmdir("disk")
            self.skipTest("a small tmpfs can't be mounted")
        try:
            yield "disk/v"
        finally:
            subprocess.run(["umount", "disk"], check=True)
            os.rmdir("disk")

    def test_full_for_format(self) -> None:
        """on a disk that has no room for a new volume nothing is left"""
        with self.small_disk("4k") as volume:
            ran = self.ends("format", volume, *SIZES)
            self.check(ran, 5, "disk fault",
                       f"exsm: {volume}: No space left on device (os error 28)")
            self.assertEqual((ran.out, os.listdir("disk")), (b"", []))

    def test_full_in_run(self) -> None:
        """a disk that gets full in the midst of a run loses no commit"""
        self.make("whole")
        with self.small_disk("32k") as volume:
            # The zeros that nothing was written over take no room here.
            subprocess.run(["cp", "--sparse=always", "whole", volume], check=True)
            script = ("begin\nfile a\ncreate a as @x\ncommit\n"
                      + "begin\nappend 258.0.1 rep:700:61\ncommit\n" * 40)
            ran = self.ends("run", volume, script=script.encode())
            self.check(ran, 5, "disk fault",
                       f"exsm: {volume}: No space left on device (os error 28)")
            kept = ran.out.count(b"ok commit") - 1
            subprocess.run(["mount", "-o", "remount,size=1m", "disk"], check=True)
            size = self.run_script("size 258.0.1", name=volume)[0]
            self.assertIn(size, [f"ok size {700 * n}" for n in (kept, kept + 1)])


class NewFiles(InEdge):
    """A new volume has its name once it is whole."""

    def test_at_once(self) -> None:
        """of many that make one volume at once one does, and the others are refused"""
        for _ in range(10):
            runs = [self.starts("format", "v", *SIZES) for _ in range(6)]
            ended = [(run.communicate()[0], run.returncode) for run in runs]
            made = [it for it in ended if it == (FORMATTED, 0)]
            self.assertEqual(len(made), 1)
            for out, status in set(ended) - set(made):
                self.assertIn((out, status), [(b"", 5), (b"", 9)])
            self.assertEqual(os.listdir(), ["v"])
            self.assertEqual(self.run_script("files"), ["ok files 0"])
            os.remove("v")

    def test_killed(self) -> None:
        """whatever has the name when a format is killed at some moment is a volume"""
        for n in range(60):
            run = self.starts("format", "v", *SIZES)
            with contextlib.suppress(subprocess.TimeoutExpired):
                run.wait(timeout=n / 10_000)
            run.kill()
            run.wait()
            if os.path.exists("v"):
                self.assertEqual(self.run_script("files"), ["ok files 0"])
                os.remove("v")
            for left in os.listdir():
                self.assertRegex(left, r"^\.exsm-new-\d+$")
            self.make()
            os.remove("v")

    def test_names(self) -> None:
        """volumes are made and run in other folders, and by the longest names"""
        os.mkdir("a folder")
        for name in ("a folder/v", "./w", os.path.abspath("x"), "é", "y" * 255):
            self.make(name)
            self.assertEqual(self.run_script("files", name=name), ["ok files 0"])
        self.assertEqual(sorted(os.listdir("a folder") + os.listdir()),
                         sorted(["v", "a folder", "w", "x", "é", "y" * 255]))


class Memory(InEdge):
    """Want of memory is never told as wrong words."""

    def test_want_of_memory(self) -> None:
        """a run that gets too little memory ends with status 7 and keeps what was answered"""
        self.make()
        seen = set()
        for most in range(1_000_000, 12_000_000, 20_000):
            def limit(most: int = most) -> None:
                resource.setrlimit(resource.RLIMIT_AS, (most, most))
                resource.setrlimit(resource.RLIMIT_CORE, (0, 0))

            ran = self.ends("run", "v", limit=limit)
            # Below some size the system can't start the program.
            if ran.status == 0 or ran.errors[-1:] and ran.errors[-1].startswith("exsm: status"):
                seen.add(ran.status)
                self.assertIn(ran.status, (0, 7), most)
            if ran.status == 7:
                self.check(ran, 7, "memory", "exsm: no memory; commits that were answered stay")
        if not seen:
            self.skipTest("this build of the program doesn't start in little memory")
        self.assertIn(7, seen)
