"""How the commands take their words."""
from __future__ import annotations

from tests.support import TOOLS, InFolder

COMMANDS = sorted(path.stem for path in TOOLS.glob("exsm_*.py"))
FIRST_WORDS = {"exsm_stream": "STREAM"}
"""The first word of a command where it is another than VOLUME."""

WRONG_WORDS = [
    ("exsm_backup", ["v"], "the following arguments are required: FILE"),
    ("exsm_copy", ["v"], "the following arguments are required: COPY"),
    ("exsm_copy", ["v", "copy", "--wait", "soon"],
     "argument --wait: 'soon' is no number of seconds"),
    ("exsm_do", ["v", "script", "more"], "unrecognized arguments: more"),
    ("exsm_files", ["v"], "the following arguments are required: COMMAND"),
    ("exsm_files", ["v", "get"], "the following arguments are required: NAME"),
    ("exsm_files", ["v", "get", "a", "b", "c"], "several names want a folder: get -d DIR NAME .."),
    ("exsm_files", ["v", "put", "-"], "standard input wants a name: put -n NAME -"),
    ("exsm_files", ["v", "put", "-n", "a", "b", "c"],
     "argument -n/--name: it names one FILE, without -r"),
    ("exsm_map", ["v", "out.svg", "more"], "unrecognized arguments: more"),
    ("exsm_move", ["v"], "the following arguments are required: NEW"),
    ("exsm_move", ["v", "new", "--size", "1T"], "argument --size: '1T' is no size"),
    ("exsm_new", ["v", "80X"],
     "argument SIZE: '80X' is no size: a number and K, M or G, as in 80M or 1.5G"),
    ("exsm_new", ["v", "1M"],
     "argument SIZE: 1M is no size of 2M to 259G; for others use `exsm format`"),
    ("exsm_serve", ["v"], "the following arguments are required: SOCKET"),
    ("exsm_serve", ["v", "s", "--idle", "never"],
     "argument --idle: 'never' is no number of seconds"),
    ("exsm_stream", ["s"], "the following arguments are required: COMMAND"),
    ("exsm_stream", ["s", "get", "x"], "argument NUMBER: invalid int value: 'x'"),
    ("exsm_stream", ["s", "make"], "the following arguments are required: VOLUME"),
    ("exsm_versions", ["v"], "the following arguments are required: COMMAND"),
    ("exsm_versions", ["v", "diff", "258.0.1"], "the following arguments are required: VERSION"),
    ("exsm_volume", ["v", "get"], "the following arguments are required: OID"),
    ("exsm_volume", ["v", "check", "more"], "unrecognized arguments: more"),
]


class CommandsTest(InFolder):
    def test_help(self) -> None:
        """each command tells its words by --help"""
        self.assertGreaterEqual(len(COMMANDS), 5)
        for name in COMMANDS:
            with self.subTest(name):
                ran = self.tool(name, "--help")
                self.assertEqual((ran.status, ran.errors), (0, []))
                self.assertTrue(ran.lines[0].startswith(f"usage: {name}.py "))
                usage = " ".join(ran.lines[:ran.lines.index("")])
                self.assertIn(FIRST_WORDS.get(name, "VOLUME"), usage)

    def test_wrong_words(self) -> None:
        """of wrong words it is told what is wrong, and nothing is done"""
        required = [(name, [], "the following arguments are required: "
                     f"{FIRST_WORDS.get(name, 'VOLUME')}") for name in COMMANDS]
        for name, words, error in [*required, *WRONG_WORDS]:
            with self.subTest(f"{name} {words}"):
                ran = self.tool(name, *words)
                self.assertEqual((ran.status, ran.lines), (2, []))
                self.assertIn(f"error: {error}", ran.errors[-1])
                self.assertEqual(list(self.folder.iterdir()), [])
