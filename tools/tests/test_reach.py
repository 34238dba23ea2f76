"""Units in use: what `space` tells after each line of a random script, beside walks of the file."""
from __future__ import annotations

import random
import shutil

from tests.support import InFolder

from exsm.map import areas_of
from exsm.volume import Volume

SEED = 20
TRANSACTIONS = 30
LINES_MOST = 7
DATA_MOST = 3000
FILES = ("a", "b")


class Objects:
    """The objects of a run with their sizes, and random lines on them."""

    def __init__(self, picks: random.Random) -> None:
        self.picks, self.sizes, self.made = picks, {}, 0

    def copy(self) -> Objects:
        """The same objects, whose lines are drawn from the same source."""
        other = Objects(self.picks)
        other.sizes, other.made = dict(self.sizes), self.made
        return other

    def line(self) -> str:
        """A line that changes an object, or makes or removes one."""
        kind = self.picks.randrange(10)
        if kind < 2 or not self.sizes:
            self.made += 1
            self.sizes[f"@n{self.made}"] = 0
            return f"create {self.picks.choice(FILES)} as @n{self.made}"
        name = self.picks.choice(sorted(self.sizes))
        size, count = self.sizes[name], self.picks.randrange(1, DATA_MOST)
        if kind < 3:
            del self.sizes[name]
            return f"destroy {name}"
        if kind < 6:
            self.sizes[name] = size + count
            return f"insert {name} {self.picks.randrange(size + 1)} rep:{count}:61"
        place = self.picks.randrange(size + 1)
        count = min(count, size - place)
        if kind < 8:
            return f"replace {name} {place} rep:{count}:62"
        self.sizes[name] = size - count
        return f"delete {name} {place} {count}"


def units_in_use(volume: str) -> tuple[set[int], set[int]]:
    """The units of both areas that a walk of the file meets."""
    with Volume(volume) as found:
        pages, segs = areas_of(found.walk())
        return set(pages.uses), set(segs.uses)


class Reach(InFolder):
    """What is in use is what the committed state and the open transaction reach."""

    def told(self, script: str, volume: str) -> list[str]:
        """The replies of `space` in a run."""
        ran = self.exsm("run", volume, given=script.encode())
        self.assertEqual(ran.status, 0, ran.errors)
        self.assertFalse([line for line in ran.lines if line.startswith("no ")], script)
        return [line for line in ran.lines if line.startswith("ok space")]

    def test_space(self) -> None:
        """space after each line of a random script"""
        self.format(pages=600, segs=600)
        made = "begin\nfile a\nfile b\ncommit\n"
        objects = Objects(random.Random(SEED))
        for _ in range(TRANSACTIONS):
            after = objects.copy()
            lines = [after.line() for _ in range(objects.picks.randrange(1, LINES_MOST))]
            self.lines_of(made, lines)
            ends = objects.picks.choice(("commit", "commit", "abort"))
            made += "begin\n" + "".join(f"{line}\n" for line in lines) + f"{ends}\n"
            self.ended(made)
            if ends == "commit":
                objects = after
            else:
                objects.made = after.made

    def lines_of(self, made: str, lines: list[str]) -> None:
        """Compares after each line of a transaction: in use is what was committed before it, and
        what would be committed now."""
        shutil.copy("v", "before")
        self.told(made, "before")
        committed = units_in_use("before")
        script = made + "begin\n"
        for line in lines:
            script += f"{line}\n"
            shutil.copy("v", "now")
            told = self.told(script + "space\ncommit\n", "now")[-1]
            reached = [before | now for before, now in zip(committed, units_in_use("now"))]
            self.assertEqual(told, self.reply(*reached), script)

    def ended(self, script: str) -> None:
        """Compares after a commit or an abort."""
        shutil.copy("v", "now")
        told = self.told(script + "space\n", "now")[-1]
        self.assertEqual(told, self.reply(*units_in_use("now")), script)

    @staticmethod
    def reply(pages: set[int], segs: set[int]) -> str:
        """What `space` tells of these units."""
        return f"ok space pages {len(pages)} of 600 segs {len(segs)} of 600"
