"""A volume that several users share: whose turn it is, what each holds, and how it ends."""
from __future__ import annotations

import os
import random
import signal
import subprocess
import sys
import threading
import time
from contextlib import redirect_stdout
from io import StringIO
from pathlib import Path

from exsm.client import LINE_MOST, Cut, Ended, Refused, Store
from exsm.connections import SERVED_MOST, UNREAD_MOST
from exsm.files import Names, Wrong
from exsm.putting import put
from exsm.seats import SEATS
from exsm.serve import GRACE, RESERVED
from tests.kills import KILLS, is_there, wait_gone
from tests.serving import InServed, User
from tests.support import BASE, SECONDS, TOOLS, TOP

ROWS = [
    (1, "begin", "ok begin 1"), (1, "file a", "ok file a"),
    (1, "create a as @x", "ok create 258.0.1"), (2, "begin", "no 25 busy 1"),
    (1, "append @x hex:616263", "ok append 3"), (1, "commit", "ok commit 1"),
    (2, "scan 258.0.1 as s", "ok scan s 3"), (1, "begin", "ok begin 2"),
    (1, "replace @x 0 hex:78", "ok replace 3"), (2, "next s 3", "ok next 3 616263"),
    (2, "abort", "no 25 busy 1"), (1, "next s 1", "no 16 no_scan"), (1, "abort", "ok abort"),
    (2, "size @x", "no 6 no_name"), (2, "read 258.0.1 0 1", "ok read 1 61"),
    (1, "begin", "ok begin 2"), (1, "begin", "no 5 txn_open"), (2, "frob", "no 2 syntax"),
    (2, "group g 1 lru", "ok group g"), (2, "group g 1 lru", "no 7 name_taken"),
    (1, "group g 1 mru", "ok group g"), (1, "abort", "ok abort"),
]
"""Two users: whose line it is, the line, and the reply."""

WRITERS, WRITES = 4, 15
SHORT = 64


class ServeTest(InServed):
    def test_turns(self) -> None:
        """two users: names, scans and groups of each, busy while the other's transaction is open"""
        self.format(pages=64, segs=16, fan=2)
        server = self.serve()
        users = {1: self.user(), 2: self.user()}
        for number, (who, line, reply) in enumerate(ROWS):
            self.assertEqual(users[who].ask(line), [reply], f"row {number}: {line}")
        for user in users.values():
            user.says_no_more()
            self.assertEqual(user.rest(), [])
        self.assertEqual(self.end(server), [])
        self.assertEqual(self.lines_of_run("read 258.0.1 0 3"), ["ok read 3 616263"])

    def test_language(self) -> None:
        """a user is answered as a run: blank lines, comments, wrong words, what has no line feed"""
        self.made()
        lines = ["", "# x", "\t", "files", " size 258.0.1\r", "\x0b", "1 files", "x" * 100, "frob",
                 "read 258.0.1 0 16777217", "begin", "file b", "files", "abort", "commit",
                 "  files"]
        wanted = self.lines_of_run(*lines)
        self.serve()
        user = self.user()
        user.send(*lines)
        user.side.sendall(b"space")                # never whole, so never done
        user.says_no_more()
        self.assertEqual(user.rest(), wanted)

    def test_examples(self) -> None:
        """the examples' scripts are answered through a connection as by a run"""
        for example in sorted((TOP / "examples").iterdir()):
            if (example / "script").exists() and not (example / "status").exists():
                with self.subTest(example.name):
                    Path("v").write_bytes((example / "v").read_bytes())
                    server = self.serve()
                    user = self.user()
                    user.side.sendall((example / "script").read_bytes())
                    user.says_no_more()
                    self.assertEqual("".join(f"{line}\n" for line in user.rest()).encode(),
                                     (example / "replies").read_bytes())
                    self.assertEqual(self.end(server), [])

    def test_long_lines(self) -> None:
        """a line over the limit is answered by the server, in its turn, and one below it is done"""
        self.format(page_size=4096, pages=200, segs=2000, fan=169)
        self.lines_of_run("begin", "file a", "create a as @x", "append @x hex:616263", "commit")
        self.serve()
        user = self.user()
        head = "append 258.0.1 hex:"
        longest = head + "6" * ((SERVED_MOST - len(head)) // 2 * 2)
        fits = longest.ljust(SERVED_MOST)
        user.send("begin", fits, fits + " ", "size 258.0.1", "x" * (3 * LINE_MOST), "#" * LINE_MOST,
                  "#" * (LINE_MOST + 1), " " * LINE_MOST, "abort")
        size = 3 + (len(longest) - len(head)) // 2
        self.assertEqual([user.reply() for _ in range(7)],
                         ["ok begin 2", f"ok append {size}", "no 1 line_long", f"ok size {size}",
                          "no 1 line_long", "no 1 line_long", "ok abort"])
        self.assertTrue(user.hears_nothing())

    def test_threads_of_users(self) -> None:
        """several users write at once: each transaction is whole, and none is lost"""
        self.format(pages=600, segs=2000)
        with Store("v") as store, store.transaction():
            store.file("a")
            counter = store.create("a")
            store.append(counter, b"0")
        self.serve()
        faults: list[BaseException] = []

        def write() -> None:
            try:
                with Store.connect("s", busy_wait=SECONDS) as store:
                    for _ in range(WRITES):
                        with store.transaction():
                            told = store.read(counter)
                            store.delete(counter, 0, len(told))
                            store.append(counter, b"%d" % (int(told) + 1))
            except BaseException as fault:
                faults.append(fault)

        threads = [threading.Thread(target=write) for _ in range(WRITERS)]
        for thread in threads:
            thread.start()
        for thread in threads:
            thread.join()
        self.assertEqual(faults, [])
        with Store.connect("s") as store:
            self.assertEqual(store.read(counter), b"%d" % (WRITERS * WRITES))

    def test_busy(self) -> None:
        """a store waits for another user's transaction as long as it is told, and no longer"""
        oid = self.made()
        self.serve()
        with Store.connect("s", busy_wait=0.2) as one, Store.connect("s", busy_wait=0.2) as other:
            with one.scan(oid) as scan, other.scan(oid) as beside:
                one.ask("begin")
                for step in (lambda: other.read(oid), lambda: other.ask("begin")):
                    begun = time.monotonic()
                    with self.assertRaises(Refused) as caught:
                        step()
                    no = caught.exception
                    self.assertEqual((no.name, no.values), ("busy", ["1"]))
                    self.assertGreaterEqual(time.monotonic() - begun, 0.2)
                self.assertEqual(beside.next(2), b"ab")
                timer = threading.Timer(0.3, lambda: one.ask("abort"))
                timer.start()
                with other.transaction(busy_wait=SECONDS):
                    other.append(oid, b"d")
                timer.join()
                self.assertEqual((b"".join(scan), beside.next(9)), (b"abc", b"c"))
            self.assertEqual(one.read(oid), b"abcd")

    def test_snapshot(self) -> None:
        """what a store reads in a snapshot is of one moment, and a backup too"""
        oid = self.made()
        self.serve()
        with Store.connect("s", volume="v") as one, Store.connect("s", busy_wait=0) as other:
            with one.snapshot():
                self.assertEqual(one.read(oid), b"abc")
                with self.assertRaises(Refused):
                    other.ask("begin")
            self.assertEqual(one.backup("copy"), 1)
            with one.transaction():
                one.append(oid, b"d")
                self.assertEqual(one.backup("within"), 1)
            with self.assertRaises(ValueError):
                other.backup("none")
        for copy in ("copy", "within"):
            with Store(copy) as store:
                self.assertEqual(store.read(oid), b"abc")

    def test_cut(self) -> None:
        """a user who is cut off in a transaction leaves nothing of it, and no scan"""
        oid = self.made("61" * 3000)
        server = self.serve()
        space = self.user().ask("space")
        user, other = self.user(), self.user()
        self.assertEqual(user.ask("begin", f"scan {oid} as s", f"append {oid} hex:64", "file b"),
                         ["ok begin 2", "ok scan s 3000", "ok append 3001", "ok file b"])
        self.assertEqual(other.ask("size " + oid), ["no 25 busy 1"])
        user.send(f"append {oid} hex:65", "commit")
        user.side.sendall(b"file c")               # not whole
        user.cut()
        self.assertEqual(self.until(other, "files"), "ok files 2 a b")   # whole lines were done
        user = self.user()
        self.assertEqual(user.ask("begin", f"scan {oid} as s", f"delete {oid} 0 3000")[-1],
                         "ok delete 2")
        user.cut()
        self.assertEqual(self.until(other, "files"), "ok files 2 a b")
        self.assertEqual(other.ask(f"size {oid}", "begin", f"delete {oid} 3000 2", "unfile b",
                                   "commit", "space")[-1:], space)
        self.assertEqual(self.end(server), [])

    def until(self, user: User, line: str) -> str:
        """The reply to a line, once no other user's transaction is open."""
        end = time.monotonic() + SECONDS
        while (reply := user.ask(line)[0]).startswith("no 25 busy"):
            self.assertLess(time.monotonic(), end)
            time.sleep(0.01)
        return reply

    def test_slow_reader(self) -> None:
        """replies that a user doesn't read are kept up to some size; others go on meanwhile"""
        oid = self.made_of_a_mib()
        server = self.serve()
        slow, other = self.user(), self.user()
        count = 40                                 # of 2 MiB each
        slow.send(*[f"read {oid} 0 {1 << 20}"] * count)
        for _ in range(50):
            self.assertEqual(other.ask(f"size {oid}"), [f"ok size {1 << 20}"])
        self.wait_for(lambda: self.memory(server) > UNREAD_MOST)
        time.sleep(0.5)
        self.assertLess(self.memory(server), 12 * UNREAD_MOST)
        wanted = f"ok read {1 << 20} " + "00" * (1 << 20)
        for _ in range(count):
            self.assertEqual(slow.reply(), wanted)
        self.assertTrue(slow.hears_nothing())
        unread = self.user()
        unread.send("begin", *[f"read {oid} 0 {1 << 20}"] * 8)
        unread.says_no_more()
        self.wait_for(lambda: other.ask(f"size {oid}")[0].startswith("no 25 busy"))
        unread.cut()                               # it never read: what it has open ends
        self.assertEqual(self.until(other, "begin"), "ok begin 2")

    @staticmethod
    def memory(server: subprocess.Popen[bytes]) -> int:
        """The bytes of memory that a server has to itself."""
        with open(f"/proc/{server.pid}/statm", encoding="ascii") as told:
            _, resident, shared = map(int, told.read().split()[:3])
        return (resident - shared) * os.sysconf("SC_PAGE_SIZE")

    def wait_for(self, holds) -> None:
        """Waits until something holds."""
        end = time.monotonic() + SECONDS
        while not holds():
            self.assertLess(time.monotonic(), end)
            time.sleep(0.02)

    def test_many_short(self) -> None:
        """sixty-four short connections beside a long one get their turns, also where all bind"""
        oid = self.made()
        server = self.serve()
        long_one = self.user()
        self.assertEqual(long_one.ask(f"scan {oid} as s"), ["ok scan s 3"])
        for _ in range(SHORT):
            user = User()
            self.assertEqual(user.ask(f"read {oid} 0 3", "begin", "abort"),
                             ["ok read 3 616263", "ok begin 2", "ok abort"])
            user.cut()
        users = [self.user() for _ in range(SHORT)]    # all at once
        for user in users:
            user.send(f"read {oid} 0 3")
        self.assertEqual([user.reply() for user in users], ["ok read 3 616263"] * SHORT)
        for user in users:
            user.cut()
        for _ in range(SEATS - 1):
            self.binds()
        waiting = [self.user() for _ in range(SHORT)]
        for user in waiting:
            user.send("files")
            user.says_no_more()
        self.assertTrue(waiting[0].hears_nothing())
        self.assertEqual(long_one.ask("next s 2", "close s"), ["ok next 2 6162", "ok close s"])
        self.assertEqual([user.rest() for user in waiting], [["ok files 1 a"]] * SHORT)
        for _ in range(SHORT):
            self.binds()
        self.assertEqual(long_one.ask("next s 1", "size @x", "files"),
                         ["no 16 no_scan", "no 6 no_name", "ok files 1 a"])
        told, = self.end(server)
        self.assertTrue(told.startswith("exsm_serve: a connection waits: each of the 16 clients"))

    def binds(self) -> None:
        """A user who binds a name that each of them binds, and goes."""
        user = User()
        oid, size = user.ask("begin", "create a as @x", "commit", "size @x")[1::2]
        self.assertTrue(oid.startswith("ok create"), oid)
        self.assertEqual(size, "ok size 0")
        user.cut()

    def test_new_run(self) -> None:
        """a run is begun anew where only such users hold something that went, and not before"""
        self.made()
        server = self.serve()
        first = self.program(server)
        holders = [self.user() for _ in range(SEATS)]
        for user in holders:
            self.assertEqual(user.ask("group g 1 lru"), ["ok group g"])
        waiting = self.user()
        waiting.send("group g 1 lru", "group g 1 lru")
        for user in holders:
            self.assertTrue(waiting.hears_nothing(0.05))
            user.cut()
        self.assertEqual([waiting.reply(), waiting.reply()], ["ok group g", "no 7 name_taken"])
        self.assertNotEqual(self.program(server), first)
        self.assertFalse(is_there(first))
        self.end(server)

    def test_more_than_files(self) -> None:
        """connections above what the system lets a server open wait, and a new run has its files"""
        self.made()
        server = self.serve(files=RESERVED + 20)
        users = [self.user() for _ in range(30)]
        for user in users[:SEATS]:
            self.assertEqual(user.ask("group g 1 lru"), ["ok group g"])
        for user in users[SEATS:]:
            user.send("files")
        self.assertTrue(users[SEATS].hears_nothing() and users[-1].hears_nothing())
        for user in users[:SEATS]:
            user.cut()
        self.assertEqual([user.reply() for user in users[SEATS:]], ["ok files 1 a"] * 14)
        self.assertEqual(len(self.end(server)), 1)

    def test_stores_that_stay(self) -> None:
        """stores that stay and make objects hold no names between transactions"""
        self.made()
        server = self.serve()
        stays, others = Store.connect("s"), [Store.connect("s") for _ in range(3)]
        for place in range(2 * SEATS):
            with stays.transaction():
                made = [stays.create("a") for _ in range(2)]
                stays.append(made[1], b"1")
            with others[place % 3].transaction():
                frozen = others[place % 3].freeze(made[1])
            self.assertEqual(stays.read(frozen), b"1")
            with stays.scan(made[1]) as scan:
                with stays.transaction():
                    stays.delete(stays.create("a"), 0, 0)
                self.assertEqual(scan.next(2), b"1")
        with stays.transaction():
            stays.ask("create a as @mine")
            stays.create("a")
        self.assertEqual(stays.ask("size @mine"), ["0"])
        self.assertEqual(len(stays.list("a")), 2 + 6 * SEATS + 1)
        for store in (stays, *others):
            store.close()
        self.assertEqual(self.end(server), [])

    def test_pipelined(self) -> None:
        """many lines at once are answered in order, and a user beside them isn't kept waiting"""
        oid = self.made()
        self.serve()
        lines = [f"read {oid} {place % 3} 1" for place in range(20_000)]
        many = self.user()
        thread = threading.Thread(target=lambda: (many.send(*lines), many.says_no_more()))
        thread.start()
        beside = self.user()
        for _ in range(20):
            self.assertEqual(beside.ask(f"size {oid}"), ["ok size 3"])
        self.assertEqual(many.rest(), [f"ok read 1 {'616263'[2 * (place % 3):][:2]}"
                                       for place in range(len(lines))])
        thread.join()

    def test_end(self) -> None:
        """at the signal lines that came whole are answered, what is open ends, the socket goes"""
        for number in (signal.SIGTERM, signal.SIGINT, signal.SIGHUP):
            with self.subTest(number):
                self.made()
                server = self.serve()
                open_one, many = self.user(), self.user()
                waits = [self.user() for _ in range(SEATS)]
                for user in waits[1:]:
                    user.ask("group g 1 lru")
                self.assertEqual(open_one.ask("begin", "file b"), ["ok begin 2", "ok file b"])
                many.send(*["group h 1 lru"] * 50)     # it waits for a number
                waits[0].side.sendall(b"file")
                server.send_signal(number)
                self.assertEqual([user.rest() for user in (open_one, waits[0])], [[], []])
                self.assertEqual(many.rest(), ["ok group h", *["no 7 name_taken"] * 49])
                self.assertEqual(self.ended(server, 0)[1:], [])
                self.assertEqual(self.lines_of_run("files"), ["ok files 1 a"])
                self.assertRaises(FileNotFoundError, self.user)
                os.unlink("v")

    def test_end_of_slow_readers(self) -> None:
        """who doesn't read holds up an end for some seconds; a second signal ends at once"""
        oid = self.made_of_a_mib()
        self.assertGreaterEqual(self.seconds_to_end(oid, 1), GRACE)
        # (on a machine that does much else one may be late)
        self.assertLess(min(self.seconds_to_end(oid, 2) for _ in range(3)), GRACE)

    def seconds_to_end(self, oid: str, signals: int) -> float:
        """How long a server takes to end that gets so many signals, beside a user who doesn't
        read."""
        server = self.serve()
        slow = self.user()
        slow.send(*[f"read {oid} 0 {1 << 20}"] * 40)
        self.wait_for(lambda: self.memory(server) > UNREAD_MOST)
        begun = time.monotonic()
        for _ in range(signals):
            server.send_signal(signal.SIGTERM)
            time.sleep(0.3)
        self.assertEqual(self.ended(server, 0), [])
        slow.cut()
        return time.monotonic() - begun

    def test_end_of_program(self) -> None:
        """where the program ends, each user is told its status, and the server ends with it"""
        self.made()
        server = self.serve()
        users = [self.user() for _ in range(3)]
        users[0].ask("begin")
        store = Store.connect("s")
        os.kill(self.program(server), signal.SIGKILL)
        for user in users:
            self.assertEqual(user.rest(), ["exsm: ended by signal 9"])
        with self.assertRaises(Ended) as caught:
            store.files()
        self.assertEqual((caught.exception.status, caught.exception.text),
                         (-9, "exsm: ended by signal 9"))
        store.close()
        self.assertEqual(self.ended(server, 128 + 9), ["exsm: ended by signal 9"])

    def test_status_of_program(self) -> None:
        """a status of the program reaches each user, with what it said"""
        self.small()
        self.lines_of_run(*BASE.splitlines())
        server = self.serve()
        user, other = self.user(), self.user()
        self.assertEqual(user.ask("group g 1 lru", "scan 258.0.1 as s in g"),
                         ["ok group g", "ok scan s 1000"])
        with open("v", "r+b") as volume:
            volume.seek(259 * 512)
            volume.write(bytes(512))
        user.send("next s 1")
        told = other.rest()
        self.assertEqual(user.rest(), told)
        self.assertIn("259", told[0])
        self.assertEqual(told[-1], "exsm: status 8 damaged")
        self.assertEqual(self.ended(server, 8), told)

    def test_kills(self) -> None:
        """kills of the server, the program or both: each commit that a user has read is there"""
        chance = random.Random(5)
        for number in range(KILLS):
            with self.subTest(number):
                self.killed(chance)

    def killed(self, chance: random.Random) -> None:
        """Kills what serves two writers at a random moment, and looks at what they had read."""
        self.format(pages=600, segs=2000)
        with Store("v") as store, store.transaction():
            store.file("a")
            oids = [store.create("a") for _ in range(2)]
            for oid in oids:
                store.append(oid, bytes(8))
        server = self.serve()
        program, reached = self.program(server), [0, 0]

        def write(place: int) -> None:
            try:
                with Store.connect("s", busy_wait=SECONDS) as store:
                    while True:
                        with store.transaction():
                            store.replace(oids[place], 0, (reached[place] + 1).to_bytes(8, "big"))
                        reached[place] += 1
            except (Ended, Cut):
                pass

        threads = [threading.Thread(target=write, args=(place,)) for place in range(2)]
        for thread in threads:
            thread.start()
        time.sleep(chance.random() * 0.5)
        for process in chance.choice(((server.pid,), (program,), (server.pid, program))):
            os.kill(process, signal.SIGKILL)
        for thread in threads:
            thread.join()
        server.wait(SECONDS)
        wait_gone([program])
        with Store("v", wait=SECONDS) as store:
            for oid, least in zip(oids, reached):
                self.assertIn(int.from_bytes(store.read(oid), "big"), (least, least + 1))
        os.unlink("v")

    def test_sockets(self) -> None:
        """a socket that answers is refused, one that was left is replaced, and no other file"""
        self.made()
        server = self.serve()
        self.format("w")
        for words, reason in ((("w", "s"), "s: a server answers there already"),
                              (("w", "v"), "v: it is there already, and is no socket"),
                              (("w", "."), ".: it is there already, and is no socket"),
                              (("w", "nowhere/s"), "nowhere/s: No such file or directory"),
                              (("w", "x" * 200),
                               f"{'x' * 200}: the path of a socket has at most ")):
            ran = self.tool("exsm_serve", *words)
            self.assertEqual((ran.status, ran.out, len(ran.errors)), (1, b"", 1))
            self.assertTrue(ran.errors[0].startswith(f"exsm_serve: {reason}"), ran.errors)
        self.assertEqual(self.user().ask("files"), ["ok files 1 a"])
        server.kill()
        server.wait()
        self.assertTrue(Path("s").is_socket())
        with self.assertRaises(ConnectionRefusedError) as caught:
            Store.connect("s")
        self.assertEqual(caught.exception.strerror, "no server answers there")
        server = self.serve("--wait", "30")
        os.rename("s", "moved")
        Path("s").write_bytes(b"mine")
        server.send_signal(signal.SIGTERM)
        self.assertEqual(server.wait(SECONDS), 0)
        self.assertEqual(Path("s").read_bytes(), b"mine")

    def test_volumes(self) -> None:
        """a volume that can't be opened is told as by a run, and no socket is made"""
        self.made()
        Path("empty").touch()
        with Store("v"):
            for volume in ("v", "nowhere", "empty"):
                ran, wanted = self.tool("exsm_serve", volume, "s"), self.exsm("run", volume)
                self.assertEqual((ran.status, ran.out, ran.errors),
                                 (wanted.status, b"", wanted.errors))
            begun = time.monotonic()
            self.assertEqual(self.tool("exsm_serve", "v", "s", "--wait", "0.5").status, 5)
            self.assertGreaterEqual(time.monotonic() - begun, 0.5)
        self.assertFalse(os.path.lexists("s"))

    def test_waits(self) -> None:
        """a store waits for a server that isn't there yet"""
        self.made()
        self.assertRaises(FileNotFoundError, Store.connect, "s")
        timer = threading.Timer(0.3, self.serve)
        timer.start()
        with Store.connect("s", wait=SECONDS) as store:
            self.assertEqual(store.files(), ["a"])
        timer.join()

    def test_cut_by_server(self) -> None:
        """where the server ends, a store says so, and no line is taken for done"""
        oid = self.made()
        server = self.serve()
        store, other = Store.connect("s"), Store.connect("s")
        with self.assertRaises(Cut) as caught, store.transaction():
            store.append(oid, b"d")
            server.kill()
            store.append(oid, b"e")
        self.assertEqual((caught.exception.filename, caught.exception.strerror),
                         ("s", "the server ended, or was cut off"))
        self.assertFalse(store.is_usable() or other.is_usable())
        store.close()
        other.close()

    def test_idle(self) -> None:
        """with --idle a transaction whose user says nothing is aborted, and its next line tells"""
        oid = self.made()
        server = self.serve("--idle", "2")
        user, other = self.user(), self.user()
        self.assertEqual(user.ask("begin", "file b", f"scan {oid} as s"),
                         ["ok begin 2", "ok file b", "ok scan s 3"])
        for _ in range(5):
            time.sleep(0.5)                        # it says something
            self.assertEqual(user.ask("size " + oid), ["ok size 3"])
        self.assertEqual(other.ask("files"), ["no 25 busy 1"])
        self.assertEqual(self.until(other, "files"), "ok files 1 a")
        self.assertEqual(user.ask("file c", "commit", "next s 3", "files"),
                         ["no 4 no_txn", "no 4 no_txn", "ok next 3 616263", "ok files 1 a"])
        with Store.connect("s") as store, self.assertRaises(Refused) as caught:
            with store.transaction():
                store.file("b")
                self.until(other, "files")
        self.assertEqual((caught.exception.line, caught.exception.name), ("commit", "no_txn"))
        told = "exsm_serve: a transaction is aborted: its user said nothing for 2 seconds"
        self.assertEqual(self.end(server), [told] * 2)


class ServedToolsTest(InServed):
    """Tools at a server."""

    def setUp(self) -> None:
        super().setUp()
        self.format(page_size=4096, pages=400, segs=5000, fan=169)

    def test_files(self) -> None:
        """files are put and got at a server, by --socket or by the socket in the volume's place"""
        data = random.Random(3).randbytes(300_000)
        Path("one").write_bytes(data)
        server = self.serve()
        ran = self.tool("exsm_files", "v", "--socket", "s", "put", "one")
        self.assertEqual((ran.status, ran.errors), (0, []))
        self.assertEqual(self.tool("exsm_files", "s", "get", "one").out, data)
        self.assertEqual(self.tool("exsm_files", "s", "mv", "one", "two").status, 0)
        listed = self.tool("exsm_files", "v", "--socket", "s", "ls")
        self.assertEqual([line.split()[::2] for line in listed.lines], [["300000", "two"]])
        self.assertEqual(self.tool("exsm_files", "s", "get", "-d", "back").status, 0)
        self.assertEqual(Path("back/two").read_bytes(), data)
        ran = self.tool("exsm_files", "v", "ls")
        self.assertEqual((ran.status, ran.errors[-1]), (5, "exsm: status 5 disk fault"))
        self.assertEqual(self.tool("exsm_files", "s", "rm", "two").status, 0)
        self.assertEqual(self.end(server), [])
        self.assertEqual(self.tool("exsm_files", "v", "ls").out, b"")
        ran = self.tool("exsm_files", "v", "--socket", "s", "ls")
        told = ["exsm_files: s: No such file or directory"]
        self.assertEqual((ran.status, ran.errors), (1, told))

    def test_files_of_many(self) -> None:
        """several put, move and remove files at once: each name has its bytes"""
        self.serve()
        Path("seed").write_bytes(b"0")
        self.assertEqual(self.tool("exsm_files", "s", "put", "seed").status, 0)
        for who in range(WRITERS):
            os.mkdir(f"of{who}")
            for place in range(6):
                Path(f"of{who}/f{place}").write_bytes(bytes([who]) * (1000 * place + 1))
        tool = f"{sys.executable} {TOOLS}/exsm_files.py s --wait {SECONDS}"
        runs = [subprocess.Popen(
            f"set -e; for i in 0 1 2 3 4 5; do {tool} put -r of{who}/f$i; done;"
            f"{tool} mv of{who}/f2 of{who}/g; {tool} rm of{who}/f0",
            shell=True, stdout=subprocess.DEVNULL) for who in range(WRITERS)]
        self.assertEqual([run.wait(SECONDS * 4) for run in runs], [0] * WRITERS)
        self.assertEqual(self.tool("exsm_files", "s", "get", "-d", "back").status, 0)
        for who in range(WRITERS):
            names = {f"f{place}": place for place in (1, 3, 4, 5)} | {"g": 2}
            self.assertEqual(sorted(os.listdir(f"back/of{who}")), sorted(names))
            for name, place in names.items():
                wanted = bytes([who]) * (1000 * place + 1)
                self.assertEqual(Path(f"back/of{who}/{name}").read_bytes(), wanted)

    def test_same_name(self) -> None:
        """a name that another user put meanwhile isn't lost"""
        self.serve()
        for place in ("here", "there"):
            os.mkdir(place)
            Path(place, "name").write_bytes(place.encode())
        with Store.connect("s") as store:
            names = Names(store)
            self.assertEqual(self.tool("exsm_files", "s", "put", "here/name").status, 0)
            with self.assertRaises(Wrong) as caught:
                put(names, ["there/name"], None, False, False)
            self.assertIn("is there already, put from", str(caught.exception))
            with redirect_stdout(StringIO()):
                put(names, ["there/name"], None, False, True)
        self.assertEqual(self.tool("exsm_files", "s", "get", "name").out, b"there")

    def test_scripts(self) -> None:
        """a script is run at a server; busy is waited for, then told with what it means"""
        self.serve()
        script = b"begin\nfile a\ncommit\n"
        ran = self.tool("exsm_do", "v", "--socket", "s", given=script)
        self.assertEqual((ran.status, ran.lines), (0, ["ok begin 1", "ok file a", "ok commit 1"]))
        user = self.user()
        user.ask("begin")
        ran = self.tool("exsm_do", "s", "--wait", "0.2", given=b"begin\nfile b\ncommit\n")
        self.assertEqual((ran.status, ran.lines), (1, ["no 25 busy 1"]))
        self.assertTrue(ran.errors[1].startswith("exsm_do: another user's transaction is open"))
        threading.Timer(0.5, user.cut).start()
        ran = self.tool("exsm_do", "s", given=b"begin\nfile b\ncommit\n")
        self.assertEqual((ran.status, ran.lines), (0, ["ok begin 2", "ok file b", "ok commit 2"]))

    def test_versions_and_copies(self) -> None:
        """versions are shown, named and frozen at a server, and its volume is copied"""
        Path("one").write_bytes(b"first\n" * 1000)
        server = self.serve()
        self.assertEqual(self.tool("exsm_files", "s", "put", "one").status, 0)
        served = ("v", "--socket", "s")
        frozen = self.tool("exsm_versions", *served, "freeze", "one", "kept").lines[0]
        Path("one").write_bytes(b"first\n" * 999)
        self.assertEqual(self.tool("exsm_files", "s", "put", "one").status, 0)
        self.assertEqual(self.tool("exsm_versions", *served, "name", frozen, "other").status, 0)
        self.assertEqual(self.tool("exsm_versions", *served, "unname", "kept").status, 0)
        shown = self.tool("exsm_versions", *served, "tree", "one")
        self.assertEqual([line.split()[-1] for line in shown.lines], ["other", "(one)"])
        self.assertEqual(self.tool("exsm_versions", *served, "diff", "other", "one").lines,
                         ["byte 5,994: 6 less"])
        ran = self.tool("exsm_versions", "s", "tree")
        self.assertEqual(ran.status, 1)
        self.assertTrue(ran.errors[0].startswith("exsm_versions: s is a server's socket"))
        ran = self.tool("exsm_copy", "v", "copy")
        self.assertEqual(ran.status, 5)
        self.assertIn("at a server: --socket SOCKET", ran.errors[0])
        self.assertEqual(self.tool("exsm_copy", *served, "copy").status, 0)
        self.assertEqual(self.end(server), [])
        self.assertEqual(self.tool("exsm_versions", "copy", "tree", "one").lines, shown.lines)
