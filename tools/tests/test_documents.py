"""The documents for users: their sessions, their lists, their numbers."""
from __future__ import annotations

import os
import re
import shutil
import subprocess
import sys
import unittest
from pathlib import Path

from exsm.client import STATUS_NAMES, Refused, Store
from exsm.lines import FORMS
from exsm.new import geometry_of, size_of
from tests import transcripts
from tests.support import TOOLS, TOP, InFolder, Terminal

README = TOP / "README.md"
RULES, FORMATS, TUTORIAL, DEVICES, MANUAL = (
    TOP / "docs" / name
    for name in ("RULES.md", "FORMATS.md", "TUTORIAL.md", "DEVICES.md", "exsm.1"))
PROMPT = re.compile(r"^exsm\*?> ")
EXAMPLE_PAGE = 512
IMAGES_IN_LOG = {257 * EXAMPLE_PAGE: 661, 258 * EXAMPLE_PAGE: 1178}
LINE_FORMS = {"X": "1.1.1", "POS": "0", "LEN": "0", "DATA": "hex:", "F": "f", "S": "s", "G": "g",
              "N": "1"}


def text_of(path: Path) -> str:
    """The text of a document."""
    return path.read_text(encoding="utf-8")


def section(document: Path, title: str) -> str:
    """The text of a section, up to the next one."""
    return text_of(document).split(f"\n## {title}\n")[1].split("\n## ")[0]


def rules_lines() -> dict[str, str]:
    """The lines of RULES by their first word, each as one of its kind may be sent."""
    lines: dict[str, str] = {}
    for row in re.findall(r"^\| (`.*?) \|", section(RULES, "Commands"), re.M):
        form = re.findall(r"`(.*?)`", row)[0]
        lines[form.split()[0]] = " ".join(
            LINE_FORMS.get(word, "@w" if word.startswith("@") else word) for word in form.split())
    return lines


class DocumentsTest(InFolder):
    def needs(self, *programs: str) -> None:
        """Skips the test where the machine lacks a program."""
        for program in programs:
            if shutil.which(program) is None:
                self.skipTest(f"there is no {program} here")

    def built_lines(self) -> list[str]:
        """The first words of the lines of RULES that the program takes."""
        self.format()
        built = []
        with Store("v") as store:
            for word, line in rules_lines().items():
                try:
                    store.ask(line)
                except Refused as no:
                    if no.name == "syntax":
                        continue
                built.append(word)
        return sorted(built)

    def test_lines(self) -> None:
        """lines of README, manual page, completion and RULES are those that the program takes"""
        built = self.built_lines()
        self.assertGreater(len(built), 15)
        self.assertEqual(sorted(FORMS), built)
        self.assertEqual(built, sorted(rules_lines()))
        manual = text_of(MANUAL).split(".Sh LINES")[1].split(".Sh")[0]
        self.assertEqual(sorted(re.findall(r"^\.It Cm (\w+)", manual, re.M)), built)
        rows = section(README, "The lines of a script").splitlines()
        readme = "".join(row.split("|")[1] for row in rows if row.startswith("| `"))
        self.assertEqual(sorted(form.split()[0] for form in re.findall(r"`(.*?)`", readme)), built)

    def test_columns(self) -> None:
        """no line of a Python file in tools or bench has over 100 columns"""
        for top in (TOOLS, TOP / "bench"):
            for path in top.rglob("*"):
                if path.is_file() and (path.suffix == ".py" or path.suffix == "" and
                                       path.read_bytes().startswith(b"#!/usr/bin/env python3")):
                    lines = path.read_text(encoding="utf-8").splitlines()
                    long = [place for place, line in enumerate(lines, 1) if len(line) > 100]
                    self.assertEqual(long, [], path)

    def test_statuses(self) -> None:
        """the statuses of README, manual page and client are the same"""
        rows = re.findall(r"^\| (\d+) \| ([a-z ]+) \|", section(README, "The program"), re.M)
        readme = {int(code): name for code, name in rows}
        self.assertEqual({0: "done", **STATUS_NAMES}, readme)
        manual = text_of(MANUAL).split(".Sh EXIT STATUS")[1].split(".Sh")[0]
        self.assertEqual({int(code): name for code, name in
                          re.findall(r"^\.It (\d+)\n([a-z ]+):", manual, re.M)}, readme)

    def test_sizes(self) -> None:
        """the table of sizes has what exsm_new.py makes"""
        rows = re.findall(r"^\| (\d+[MG]) \| (.*) \|$", section(README, "Sizes"), re.M)
        self.assertEqual([size for size, _ in rows], ["80M", "1G", "16G"])
        for size, cells in rows:
            numbers = geometry_of(size_of(size))
            made = (numbers.page_size, numbers.pages, numbers.segs, numbers.seg_len, numbers.fan,
                    numbers.bytes)
            self.assertEqual(cells, " | ".join(f"{number:,}" for number in made))

    def test_readme(self) -> None:
        """the session of README is what comes"""
        self.needs("xxd")
        os.symlink(os.environ["EXSM"], "exsm")
        self.compare(README)

    def test_python_of_readme(self) -> None:
        """the Python program of README runs, and prints what it says"""
        self.format("v")
        program = re.findall(r"```python\n(.*?)```", text_of(README), re.S)[0]
        Path("program.py").write_text(program, encoding="utf-8")
        ran = subprocess.run([sys.executable, "program.py"], capture_output=True, check=False,
                             env={**os.environ, "PYTHONPATH": str(TOOLS)})
        told = re.findall(r"print\(.*\) +# (.*)", program)
        self.assertEqual(ran.stdout.decode().splitlines(), told, ran.stderr.decode())

    def test_backups(self) -> None:
        """a volume comes back whole from a backup, from a file and through a pipe"""
        self.needs("flock", "gzip")
        os.symlink(os.environ["EXSM"], "exsm")
        self.compare(DEVICES)

    def test_tutorial(self) -> None:
        """the tutorial's commands write what it prints, and draw its pictures"""
        self.needs("xxd", "awk", "dd")
        os.symlink(os.environ["EXSM"], "exsm")
        for name in ("tools", "docs"):
            os.symlink(TOP / name, name)
        self.compare(TUTORIAL)
        for when in ("before", "after"):
            drawn = text_of(self.folder / "hour" / f"{when}.svg")
            self.assertEqual(drawn, text_of(TOP / "docs" / f"map-{when}.svg"))

        for volume, lines in transcripts.terminals(text_of(TUTORIAL)).items():
            self.assertEqual(self.terminal(str(self.folder / "hour" / volume), lines), lines)

    def terminal(self, volume: str, lines: list[str]) -> list[str]:
        """Types what a session of the runner shows behind its prompts, and gives all that comes."""
        typed = [PROMPT.sub("", line) for line in lines if PROMPT.match(line)]
        prompts = [line.split(" ")[0] + " " for line in lines if PROMPT.match(line)]
        talk = Terminal(volume)
        try:
            came = prompts[0]
            for text, prompt in zip(typed, [*prompts[1:], "quit\r\n"]):
                came += talk.type(text + "\n", prompt)
            return came.replace("\r", "").splitlines()
        finally:
            talk.close()

    def compare(self, document: Path) -> None:
        """Runs the commands of a document, and compares what they write."""
        steps = transcripts.steps_of(text_of(document))
        variables = {
            "PATH": os.environ["PATH"], "HOME": str(self.folder), "EXSM": os.environ["EXSM"],
            "EXSM_HOME": str(self.folder), "LC_ALL": "C.UTF-8", "PYTHONDONTWRITEBYTECODE": "1"}
        wrote = transcripts.run(steps, self.folder, variables)
        for place, step in enumerate(steps):
            if isinstance(step, transcripts.Command):
                with self.subTest(f"{document.name}, line {step.line}: {step.text}"):
                    came = wrote.get(place, ["(it wasn't run)"])
                    self.assertTrue(transcripts.fits(step.wanted, came), "\n".join(came))

    def test_examples(self) -> None:
        """the examples, each on its own volume, write what is stored and end with its status"""
        for example in sorted((TOP / "examples").iterdir()):
            with self.subTest(example.name):
                stored = {it.name: it.read_bytes() for it in example.iterdir()}
                if "v" in stored:
                    Path("v").write_bytes(stored["v"])
                ran = self.exsm(*stored["args"].decode().split(), given=stored.get("script", b""))
                wanted = int(stored.get("status", b"0")), stored.get("replies", b"")
                self.assertEqual((ran.status, ran.out), wanted)
                Path("v").unlink(missing_ok=True)

    def test_formats(self) -> None:
        """the example of FORMATS is what README's session leaves on a small volume"""
        os.symlink(os.environ["EXSM"], "exsm")
        made = re.findall(r"`exsm (format v .*?)`", section(FORMATS, "An example"))[0]
        self.assertEqual(self.exsm(*made.split()).status, 0)
        session = transcripts.steps_of(text_of(README))[1:2]
        transcripts.run(session, self.folder, {"PATH": os.environ["PATH"]})
        first, later = (dict(re.findall(r"^\| (\d+) \| `([0-9a-f ]+)` \|", part, re.M))
                        for part in section(FORMATS, "An example").split("After the next opening"))
        images = {str(int(at) - page + image): digits for page, image in IMAGES_IN_LOG.items()
                  for at, digits in later.items() if page <= int(at) < page + EXAMPLE_PAGE}
        volume = Path("v").read_bytes()
        self.assertEqual(self.without(volume, {**first, **images}).strip(b"\0"), b"")
        self.exsm("run", "v")
        self.without(Path("v").read_bytes(), later)

    def without(self, volume: bytes, rows: dict[str, str]) -> bytes:
        """Compares rows with a volume, and gives the volume with zeros in their places."""
        rest = bytearray(volume)
        self.assertGreater(len(rows), 6)
        for place, digits in rows.items():
            at, wanted = int(place), bytes.fromhex(digits)
            self.assertEqual(volume[at:at + len(wanted)].hex(), wanted.hex(), f"byte {at}")
            rest[at:at + len(wanted)] = bytes(len(wanted))
        return bytes(rest)

    def test_manual(self) -> None:
        """man prints no warning of the manual page"""
        self.needs("man")
        ran = self.run_words("man", "--warnings", "-l", MANUAL)
        if ran.status != 0:
            self.skipTest(f"man can't show a file here: {ran.errors[:1]}")
        self.assertEqual(ran.errors, [])
        self.assertIn("keep storage objects on a volume, a file or a block device",
                      ran.out.decode(errors="replace"))


COMPLETE = r"""
. "$1"
shift
COMP_WORDS=("$@")
COMP_CWORD=$(($# - 1))
COMPREPLY=()
compopt() { :; }
$(complete -p "$1" | sed 's/.*-F \([a-z_]*\) .*/\1/')
printf '%s\n' "${COMPREPLY[@]}"
"""
SIZES = ["--fan", "--page-size", "--pages", "--seg-len", "--segs"]
COMPLETIONS = [
    ("exsm|", ["--help", "--version", "check", "clients", "dump", "format", "gen", "help", "load",
              "pack", "run"]),
    ("exsm|f", ["format"]),
    ("exsm|help|", ["check", "clients", "dump", "format", "gen", "load", "pack", "run"]),
    ("exsm|run|", ["other", "v"]), ("exsm|check|", ["other", "v"]),
    ("exsm|format|v|", SIZES), ("exsm|format|v|--page-size|8", ["8192"]),
    ("exsm|format|v|--page-size|512|", SIZES), ("exsm|run|v|", ["--max-bytes"]),
    ("exsm|gen|v|", ["--anyway", "--count", "--seed"]),
    ("exsm_files.py|v|", ["get", "ls", "mv", "put", "rm", "verify"]),
    ("exsm_new.py|v|", ["--for", "16G", "1G", "80M"]),
    ("exsm_new.py|v|80M|--for|", ["large", "mixed", "small"]),
    ("exsm_files.py|v|put|o", ["other"]), ("exsm_files.py|v|get|-d|o", ["other"]),
    ("exsm_volume.py|v|s", ["save"]), ("exsm_volume.py|v|m", ["mend"]),
    ("exsm_versions.py|v|t", ["tree"]), ("exsm_versions.py|v|b", ["back"]),
    ("exsm_copy.py|o", ["other"]), ("exsm_backup.py|o", ["other"]),
    ("exsm_stream.py|o|", ["check", "get", "list", "make"]), ("exsm_stream.py|o|make|v", ["v"]),
    ("exsm_move.py|o", ["other"]), ("exsm_do.py|o", ["other"]),
    ("exsm_serve.py|o", ["other"]), ("exsm_serve.py|v|other|", ["--idle", "--wait"]),
]


NAME_COMPLETIONS = [
    ("exsm_files.py|v|get|", ["one", "other", "with space"]),
    ("exsm_files.py|v|get|w", ["with space"]), ("exsm_files.py|v|rm|with\\ s", ["with space"]),
    ("exsm_files.py|v|mv|o", ["one", "other"]), ("exsm_files.py|nowhere|get|", [""]),
    ("exsm_versions.py|v|freeze|on", ["one"]), ("exsm_versions.py|v|tree|", [
        "one", "other", "the first", "with space"]),
    ("exsm_versions.py|v|unname|the", ["the first"]), ("exsm_files.py|v|get|the", [""]),
]
"""Words of tools, and the names that are offered behind them."""

ZSH = r"""
file="$1"
shift
compadd() { [[ "$1" == -- ]] && shift; print -rl -- ${(M)@:#$words[CURRENT]*} }
_files() { print -rl -- $words[CURRENT]*(N) }
words=("$@")
CURRENT=$#
service="$1"
source "$file"
"""
ZSH_COMPLETIONS = [
    ("exsm|f", ["format"]), ("exsm|help|r", ["run"]), ("exsm|format|v|--page-size|8", ["8192"]),
    ("exsm_versions.py|v|tree|the", ["the first"]),
    ("exsm_files.py|v|g", ["get"]), ("exsm_files.py|v|get|w", ["with space"]),
    ("exsm_files.py|v|put|ot", ["other"]), ("exsm_new.py|v|80M|--for|l", ["large"]),
    ("exsm_do.py|ot", ["other"]), ("exsm_versions.py|v|b", ["back"]),
    ("exsm_stream.py|v|c", ["check"]),
]


class InstallTest(InFolder):
    @unittest.skipIf(sys.version_info < (3, 10), "an older Python tells --help in another form")
    def test_pages_of_tools(self) -> None:
        """the manual pages of the tools tell what each tells by --help"""
        ran = self.run_words(sys.executable, TOOLS / "dev" / "manuals.py", "--check")
        self.assertEqual((ran.status, ran.lines, ran.errors), (0, [], []))

    def test_install_words(self) -> None:
        """the words of the installation are told by --help, and a wrong one makes nothing"""
        ran = self.run_words(TOOLS / "install", "--help")
        self.assertEqual((ran.status, ran.errors), (0, []))
        self.assertIn("tools/install PREFIX", ran.lines[0])
        for words in ([], ["--prefix"], ["one", "two"]):
            self.assertEqual(self.run_words(TOOLS / "install", *words).status, 2)
        self.assertEqual(os.listdir(), [])

    def test_completion(self) -> None:
        """bash completes the words of the program and of the tools"""
        for name in ("v", "other"):
            Path(name).touch()
        for words, offers in COMPLETIONS:
            ran = self.run_words("bash", "-c", COMPLETE, "bash", TOOLS / "exsm.bash",
                                 *words.split("|"))
            self.assertEqual((sorted(ran.lines), ran.errors), (offers, []), words)

    def with_names(self) -> dict[str, str]:
        """A volume with names, and the variables by which completion finds the tools."""
        self.format("v", page_size=4096, pages=64, segs=64, fan=169)
        for name in ("with space", "one", "other"):
            Path(name).write_bytes(b"x")
        self.tool("exsm_files", "v", "put", "with space", "one", "other")
        self.tool("exsm_versions", "v", "name", "one", "the first")
        os.remove("one")
        return {**os.environ, "PATH": f"{TOOLS}:{os.environ['PATH']}"}

    def test_completion_of_names(self) -> None:
        """bash completes the names that a volume keeps, also while a run has it"""
        variables = self.with_names()
        with Store("v"):
            for words, offers in NAME_COMPLETIONS:
                ran = subprocess.run(["bash", "-c", COMPLETE, "bash", TOOLS / "exsm.bash",
                                      *words.split("|")], capture_output=True, env=variables,
                                     check=False, text=True)
                self.assertEqual((sorted(ran.stdout.splitlines()), ran.stderr), (offers, ""), words)

    def test_fish(self) -> None:
        """fish completes the words of the program and of the tools, and names"""
        if shutil.which("fish") is None:
            self.skipTest("fish isn't there")
        variables = self.with_names()
        for line, offers in (("exsm f", ["format"]), ("exsm help r", ["run"]),
                             ("exsm_files.py v g", ["get"]),
                             ("exsm_files.py v get w", ["with space"]),
                             ("exsm_new.py v 80M --for=l", ["--for=large"]),
                             ("exsm_versions.py v b", ["back"]),
                             ("exsm_versions.py v tree th", ["the first"])):
            ran = subprocess.run(["fish", "--no-config", "-c",
                                  f"source {TOOLS}/exsm.fish; complete -C '{line}'"],
                                 capture_output=True, env=variables, check=False, text=True)
            told = [it.split("\t")[0] for it in ran.stdout.splitlines()]
            self.assertEqual((told, ran.stderr), (offers, ""), line)

    def test_zsh(self) -> None:
        """zsh completes the words of the program and of the tools, and names"""
        if shutil.which("zsh") is None:
            self.skipTest("zsh isn't there")
        variables = self.with_names()
        for words, offers in ZSH_COMPLETIONS:
            ran = subprocess.run(["zsh", "-f", "-c", ZSH, "zsh", TOOLS / "exsm.zsh",
                                  *words.split("|")], capture_output=True, env=variables,
                                 check=False, text=True)
            self.assertEqual((sorted(ran.stdout.splitlines()), ran.stderr), (offers, ""), words)

    def test_install(self) -> None:
        """what is installed runs without the repository, and lies where it is looked for"""
        ran = self.run_words(TOOLS / "install", "there/prefix")
        self.assertEqual((ran.status, ran.errors), (0, []))
        prefix = self.folder / "there" / "prefix"
        path = f"{prefix / 'bin'}:{os.environ['PATH']}"
        variables = {"PATH": path, "PYTHONDONTWRITEBYTECODE": "1"}
        Path("one").write_text("files\n", encoding="ascii")
        for line in ("exsm_new.py v 4M", "exsm_files.py v put one", "exsm_do.py v one",
                     "exsm_map.py v", "exsm_volume.py v check", "exsm_copy.py v copy",
                     "exsm_stream.py stream make v", "exsm_stream.py stream check",
                     "exsm_move.py v larger --size 8M", "exsm_versions.py v tree"):
            done = subprocess.run(line.split(), env=variables, capture_output=True, check=False)
            self.assertEqual(done.returncode, 0, done.stderr)
        program = "from exsm.client import Store\nwith Store('v') as store: print(store.files())"
        done = subprocess.run([sys.executable, "-c", program], capture_output=True, check=False,
                              env={**variables, "PYTHONPATH": str(prefix / "lib" / "exsm")})
        self.assertEqual((done.stdout, done.stderr),
                         (b"['blobs', 'names', 'put_facts', 'put_sources']\n", b""))
        completion = "share/bash-completion/completions/exsm_files.py"
        for name in ("share/man/man1/exsm.1", "share/man/man1/exsm_files.py.1", completion,
                     "share/zsh/site-functions/_exsm",
                     "share/fish/vendor_completions.d/exsm_files.py.fish",
                     "bin/exsm"):
            self.assertTrue((prefix / name).is_file(), name)
        self.assertEqual(self.run_words(TOOLS / "install").status, 2)
