"""The client, against a plain model and the reader of the bytes."""
from __future__ import annotations

import hashlib
import os
import random
import threading
import time
import unittest
from contextlib import contextmanager
from pathlib import Path
from typing import Callable, Iterator

from exsm.client import (LINE_MOST, PIECE, Broken, Denied, Ended, Locked, Missing, NoVolume,
                         Refused, Space, Store, is_answered)
from exsm.transport import ended_by
from exsm.volume import Volume
from tests.support import InFolder

SEEDS = 100
RUNS = 3
TRANSACTIONS_MOST, UPDATES_MOST = 6, 25
LENGTHS = (3, 40, 200, 900, 6000)
PAGES, SEGS = 1500, 1500
THREADS, THREAD_STEPS = 5, 12

Table = dict[str, dict[str, bytes]]


class GivenUp(Exception):
    """Ends a transaction that is to be aborted."""


class RandomRun:
    """Random updates through a client, done to a plain table too."""

    def __init__(self, chance: random.Random, store: Store) -> None:
        self.chance, self.store = chance, store
        self.edits: list[Callable[[str, bytes], bytes]] = [
            self.append, self.append, self.insert, self.insert, self.replace, self.delete]

    def transaction(self, table: Table) -> Table:
        """Makes a transaction, and gives the table as it leaves it."""
        work = {name: dict(objects) for name, objects in table.items()}
        try:
            with self.store.transaction():
                for _ in range(self.chance.randint(1, UPDATES_MOST)):
                    self.update(work)
                if self.chance.random() < 0.15:
                    raise GivenUp
        except GivenUp:
            return table
        return work

    def update(self, work: Table) -> None:
        """Makes an update; one for which there is no room changes nothing."""
        name = self.chance.choice("abc")
        if name not in work:
            self.store.file(name)
            work[name] = {}
        objects = work[name]
        try:
            if not objects or self.chance.random() < 0.25:
                objects[self.store.create(name)] = b""
                return
            oid = self.chance.choice(list(objects))
            if self.chance.random() < 0.05:
                self.store.destroy(oid)
                del objects[oid]
            else:
                objects[oid] = self.chance.choice(self.edits)(oid, objects[oid])
        except Refused as no:
            if no.name not in ("full", "long_txn"):
                raise

    def new_bytes(self) -> bytes:
        """Bytes to be put into an object."""
        return self.chance.randbytes(self.chance.randint(0, self.chance.choice(LENGTHS)))

    def append(self, oid: str, data: bytes) -> bytes:
        """Puts bytes at the end."""
        new = self.new_bytes()
        self.store.append(oid, new)
        return data + new

    def insert(self, oid: str, data: bytes) -> bytes:
        """Puts bytes in."""
        new, place = self.new_bytes(), self.chance.randint(0, len(data))
        self.store.insert(oid, place, new)
        return data[:place] + new + data[place:]

    def replace(self, oid: str, data: bytes) -> bytes:
        """Puts bytes over others."""
        place = self.chance.randint(0, len(data))
        new = self.new_bytes()[:len(data) - place]
        self.store.replace(oid, place, new)
        return data[:place] + new + data[place + len(new):]

    def delete(self, oid: str, data: bytes) -> bytes:
        """Takes bytes out."""
        place = self.chance.randint(0, len(data))
        length = self.chance.randint(0, len(data) - place)
        self.store.delete(oid, place, length)
        return data[:place] + data[place + length:]


class ClientTest(InFolder):
    def test_random_scripts(self) -> None:
        """random scripts: the program, a plain model and the reader of the bytes agree"""
        deepest = logs = indexes = 0
        for seed in range(SEEDS):
            with self.subTest(seed=seed):
                volume = self.random_volume(seed)
                deepest = max([deepest, *(record.height or 0 for record in volume.all())])
                logs += bool(volume.records)
                indexes += any(use.kind == "index" for use in volume.uses.values())
        self.assertGreaterEqual(deepest, 2)
        self.assertGreater(logs, 0)
        self.assertGreater(indexes, 0)

    def random_volume(self, seed: int) -> Volume:
        """Runs random scripts on a new volume, compares after each, and gives the volume read."""
        chance = random.Random(seed)
        self.format(f"v{seed}", chance.choice((512, 512, 1024)), PAGES, SEGS,
                    chance.choice((1, 1, 2, 3)), chance.choice((2, 3, 5)))
        table: Table = {}
        for _ in range(RUNS):
            with Store(f"v{seed}") as store:
                run = RandomRun(chance, store)
                for _ in range(chance.randint(1, TRANSACTIONS_MOST)):
                    table = run.transaction(table)
                    if chance.random() < 0.1:
                        store.checkpoint()
            with Volume(f"v{seed}") as volume:
                volume.walk()
                read = {name: {record.oid: volume.bytes_of(record) for record in records}
                        for name, records in volume.versions.items()}
            self.assertEqual((volume.faults, read), ([], table))
        with Store(f"v{seed}") as store:
            units = [page >= volume.geometry.first_unit for page in volume.uses]
            space = Space(units.count(False), PAGES, units.count(True), SEGS)
            self.assertEqual(store.space(), space)
            read = {name: {oid: store.read(oid) for oid in store.list(name)}
                    for name in store.files()}
            self.assertEqual(read, table)
        return volume

    @contextmanager
    def new_object(self) -> Iterator[tuple[Store, str]]:
        """A store on a new volume with room for several pieces, and an empty object there."""
        self.format(page_size=4096, pages=200, segs=2000, fan=169)
        with Store("v") as store:
            with store.transaction():
                store.file("a")
                oid = store.create("a")
            yield store, oid

    def test_pieces(self) -> None:
        """bytes of more than a line go in by pieces and come back"""
        data = random.Random(1).randbytes(3 * PIECE + 1000)
        with self.new_object() as (store, oid):
            with store.transaction():
                store.append(oid, data)
                store.insert(oid, 5, data[:PIECE + 7])
                store.replace(oid, 9, data[:PIECE + 1])
            wanted = data[:5] + data[:PIECE + 7] + data[5:]
            wanted = wanted[:9] + data[:PIECE + 1] + wanted[PIECE + 10:]
            self.assertEqual(store.read(oid), wanted)
            self.assertEqual(store.read(oid, PIECE, 10), wanted[PIECE:PIECE + 10])
            self.assertEqual(store.stat(oid).size, store.size(oid))
            self.assertEqual(store.digest(oid), hashlib.sha256(wanted).digest())

    def test_each(self) -> None:
        """pieces that are made while the program is at others come in order, and go out so"""
        data = random.Random(2).randbytes(2 * PIECE + 1000)
        with self.new_object() as (store, oid):
            with store.transaction():
                store.append_each(oid, [])
                store.append_each(oid, [b"ab", b"", data, b"c"])
            got: list[bytes] = []
            with store.scan(oid) as scan:
                scan.each(got.append)
            self.assertEqual(b"".join(got), b"ab" + data + b"c")
            with store.transaction():
                store.delete(oid, 0, store.size(oid))
            with store.scan(oid) as scan:
                scan.each(self.fail)

    def test_each_fails(self) -> None:
        """where a piece is refused, can't be made or isn't taken, the store goes on"""
        self.format()

        def made() -> Iterator[bytes]:
            yield b"one"
            raise GivenUp

        def not_taken(piece: bytes) -> None:
            raise GivenUp

        with Store("v") as store:
            with store.transaction():
                store.file("a")
                oid = store.create("a")
                store.append(oid, b"abc")
            with self.assertRaises(GivenUp), store.transaction():
                store.append_each(oid, made())
            with self.assertRaises(Refused) as caught, store.transaction():
                store.append_each(oid, [b"one", bytes(500_000), b"two"])
            self.assertEqual((caught.exception.name, caught.exception.line[:13]),
                             ("full", f"append {oid} "[:13]))
            self.assertRaises(Refused, store.append_each, oid, [b"one", b"two"])
            with self.assertRaises(GivenUp), store.scan(oid) as scan:
                scan.each(not_taken)
            self.assertEqual((store.read(oid), store.log()), (b"abc", 1))

    def test_order(self) -> None:
        """a line is made before the reply to the one before it is read, and sent behind it"""
        steps: list[str] = []

        class Noting:
            def send(self, line: bytes) -> None:
                steps.append(f"send {line.decode()}")

            def receive(self) -> str:
                steps.append("receive")
                return "ok append 1"

            def end(self) -> None:
                steps.append("end")

            def goes_on(self) -> bool:
                return True

        def made() -> Iterator[bytes]:
            for letter in (b"a", b"b"):
                steps.append(f"make {letter.hex()}")
                yield letter

        with Store.over(Noting()) as store:
            store.append_each("1.2.3", made())
        self.assertEqual(steps, [
            "make 61", "send append 1.2.3 hex:61", "make 62", "receive",
            "send append 1.2.3 hex:62", "receive", "end"])

    def test_refusal(self) -> None:
        """a refused line raises, aborts its transaction, and the run goes on"""
        self.format()
        with Store("v") as store:
            with self.assertRaises(Refused) as caught, store.transaction():
                store.file("a")
                oid = store.create("a")
                store.append(oid, b"abc")
                store.delete(oid, 2, 2)
            no = caught.exception
            self.assertEqual(no.line, f"delete {oid} 2 2")
            self.assertEqual((no.number, no.name, no.values), (18, "range", []))
            self.assertEqual(store.files(), [])
            with store.transaction():
                store.file("b")
            self.assertEqual(store.files(), ["b"])

    def test_causes(self) -> None:
        """a volume that can't be opened fails at once, by its cause, and with what was said"""
        os.mkdir("folder")
        Path("empty").touch()
        self.format("damaged")
        with open("damaged", "r+b") as file:
            file.seek(257 * 512)
            file.write(b"x")
        self.format("open")
        causes = [("missing", Missing, 5, "disk fault"), ("open", Locked, 5, "disk fault"),
                  ("folder", Ended, 5, "disk fault"), ("empty", NoVolume, 6, "bad volume super"),
                  ("damaged", NoVolume, 6, "bad volume catalog")]
        with Store("open"):
            for name, cause, status, said in causes:
                with self.subTest(name), self.assertRaises(Ended) as caught:
                    Store(name)
                fault = caught.exception
                self.assertEqual((type(fault), fault.status), (cause, status))
                self.assertEqual(fault.text.splitlines()[-1], f"exsm: status {status} {said}")
                self.assertTrue(fault.text.startswith(f"exsm: {name}"))
                if isinstance(fault, NoVolume):
                    self.assertEqual(fault.part, said.split()[-1])

    def test_misleading_names(self) -> None:
        """a volume's name that reads as a cause makes no cause"""
        name = "v: another run has it open"
        os.mkdir(name)
        with self.assertRaises(Ended) as caught:
            Store(name)
        self.assertIs(type(caught.exception), Ended)

    @unittest.skipIf(os.getuid() == 0, "root may write to any file")
    def test_denied(self) -> None:
        """a volume that may not be written is told as such"""
        os.chmod(self.format(), 0o444)
        self.assertRaises(Denied, Store, "v")

    def test_told_denial(self) -> None:
        """what the program says of a volume that may not be written is taken as such"""
        for more in ("", " (an opening also writes)"):
            said = f"exsm: v: Permission denied (os error 13){more}\nexsm: status 5 disk fault\n"
            self.assertIs(type(ended_by(5, said)), Denied)

    def test_ended(self) -> None:
        """where the program is killed, its signal is told, and told again"""
        store = Store(self.format())
        store._transport._run.kill()
        for step in (store.files, store.close):
            with self.assertRaises(Ended) as caught:
                step()
            self.assertEqual(caught.exception.status, -9)
        store.close()

    def test_wait(self) -> None:
        """a store waits for another run as long as it is told, and no longer"""
        self.format()
        with Store("v") as store:
            begun = time.monotonic()
            self.assertRaises(Locked, Store, "v", wait=0.5)
            self.assertGreaterEqual(time.monotonic() - begun, 0.5)
            timer = threading.Timer(0.5, store.close)
            timer.start()
            with Store("v", wait=30) as other:
                self.assertEqual(other.files(), [])
            timer.join()

    def test_threads(self) -> None:
        """threads share a store: each transaction is one thread's, and nothing is mixed"""
        self.format(pages=600, segs=2000)
        faults: list[BaseException] = []

        def write(store: Store, mark: int) -> None:
            try:
                oid = objects[mark]
                for _ in range(THREAD_STEPS):
                    with store.transaction():
                        size = store.size(oid)
                        store.append(oid, bytes([mark]) * 7)
                        if store.size(oid) != size + 7:
                            raise AssertionError("another thread's line stood in between")
                    store.read(oid, 0, 3)
            except BaseException as fault:
                faults.append(fault)

        with Store("v") as store:
            with store.transaction():
                store.file("a")
                objects = [store.create("a") for _ in range(THREADS)]
            threads = [threading.Thread(target=write, args=(store, mark))
                       for mark in range(THREADS)]
            for thread in threads:
                thread.start()
            for thread in threads:
                thread.join()
            self.assertEqual(faults, [])
            for mark, oid in enumerate(objects):
                self.assertEqual(store.read(oid), bytes([mark]) * 7 * THREAD_STEPS)

    def test_backup(self) -> None:
        """a backup holds the last commit, whole, also from within a transaction"""
        self.format()
        Path("there").write_bytes(b"precious")
        with Store("v") as store:
            with store.transaction():
                store.file("a")
                oid = store.create("a")
                store.append(oid, b"committed" * 1000)
            self.assertRaises(FileExistsError, store.backup, "there")
            with store.transaction():
                store.append(oid, b"more")
                self.assertEqual(store.backup("within"), 1)
            self.assertEqual(store.backup("after"), 2)
            self.assertRaises(FileNotFoundError, store.backup, "nowhere/copy")
        for name, wanted in (("within", b"committed" * 1000),
                             ("after", b"committed" * 1000 + b"more")):
            with Volume(name) as volume:
                self.assertEqual(volume.walk().faults, [])
                self.assertEqual(volume.bytes_of(volume.find(oid)), wanted)
        self.assertEqual(sorted(os.listdir()), ["after", "there", "v", "within"])
        self.assertEqual(Path("there").read_bytes(), b"precious")

    def test_transport(self) -> None:
        """a store goes over whatever carries lines and replies"""
        class Told:
            def __init__(self) -> None:
                self.lines: list[bytes] = []

            def send(self, line: bytes) -> None:
                self.lines.append(line)

            def receive(self) -> str:
                return "ok log 3"

            def end(self) -> None:
                self.lines.append(b"end")

            def goes_on(self) -> bool:
                return True

        told = Told()
        with Store.over(told) as store:
            self.assertEqual(store.log(), 3)
            self.assertRaises(ValueError, store.backup, "copy")
        self.assertEqual(told.lines, [b"log", b"end"])

    def test_lines(self) -> None:
        """a line that would get no reply, or two, isn't sent"""
        self.format()
        with Store("v") as store:
            for line in ("", " \t", "# files", "files\nfiles"):
                self.assertRaises(ValueError, store.ask, line)
            self.assertEqual(store.exchange(b"\t # nothing\r"), None)
            self.assertEqual(store.ask("files"), ["0"])

    def test_silent_lines(self) -> None:
        """which lines get no reply is as the program has it"""
        self.format()
        longest = b"#" * LINE_MOST
        short = (b"", b"\r", b"\r\r", b" \t ", b" \t # x", b"\x0b", b"\xa0", b"x #", b"\0")
        blank = b" " * LINE_MOST
        for line in (*short, longest, longest + b"\r", longest + b"#", blank, blank + b" "):
            replies = self.exsm("run", "v", given=line + b"\n").lines
            self.assertEqual(is_answered(line), len(replies) == 1, line[:9])

    def test_broken(self) -> None:
        """after a reply that wasn't read no line is sent"""
        self.format()
        with Store("v") as store:
            receive = store._transport.receive
            store._transport.receive = lambda: (_ for _ in ()).throw(KeyboardInterrupt())
            with self.assertRaises(KeyboardInterrupt), store.transaction():
                pass
            store._transport.receive = receive
            self.assertRaises(Broken, store.files)
