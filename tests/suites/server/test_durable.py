"""What was acknowledged is kept, whatever ends the service, and nothing is kept by half.

TUKYAMID_KILLS says how often the service is killed (24); a few hundred take minutes."""

import contextlib
import os
import random
import shutil
import signal
import subprocess
import tempfile
import threading
import time
import unittest
from pathlib import Path

from outside import Client, Server, alone, is_change, needs_engine, script_of
from tukyamid.service.storage.sqlite_database import Sqlite
from world import Chatter, World

KILLS = int(os.environ.get("TUKYAMID_KILLS", "24"))
CLIENTS = 4


class Talker(threading.Thread):
    """A client that sends changes and questions, some of them ahead, until the service is gone. `acknowledged` are the
    changes whose replies were heard, in their order."""

    def __init__(self, server, number, world, seed):
        super().__init__(daemon=True)
        self.name_line = b"keys client-%d" % number
        self._server = server
        self._world = world
        self._draw = random.Random(seed)
        self._lines = Chatter(world, seed)
        self.heard = []

    def run(self):
        with contextlib.suppress(OSError), Client(self._server.path) as client:
            self._hear(client, [self.name_line])
            while True:
                lines = [line for line in self._lines.lines(self._draw.choice([1, 3, 12])) if self._is_plain(line)]
                self._hear(client, lines)

    @staticmethod
    def _is_plain(line):
        """Whether its reply is a single line, or begins with one that says how many follow."""
        return line.startswith((b"import ", b"drop ", b"verdict ", b"view ", b"ask ", b"export "))

    def _hear(self, client, lines):
        client.send(*lines)
        for line in lines:
            reply = client.read_line()
            if reply.startswith(b"amount "):
                for _ in range(int(reply.split(b" ")[3])):
                    for _ in range(int(client.read_line().split(b" ")[3])):
                        client.read_line()
            self.heard.append((line, reply))


class InAFolder(unittest.TestCase):
    def setUp(self):
        self.folder = Path(tempfile.mkdtemp(prefix="tukyamid-durable-"))
        self.addCleanup(shutil.rmtree, self.folder)
        self.world = World(count=8)
        self.draw = random.Random(7)

    def kept(self, name="keyring.db"):
        """The script of a database, which has nothing wrong."""
        with contextlib.closing(Sqlite(self.folder / name)) as database:
            self.assertEqual(database.check(), [])
            return script_of(database)


@needs_engine
class Killed(InAFolder):
    def test_at_random_moments_under_load(self):
        before = []
        for kill in range(KILLS):
            before = self.kill_once(kill, before)

    def kill_once(self, kill, before):
        """Has clients talk, kills the service, and looks what is kept: the changes of some moment behind the last
        acknowledged one. Gives the lines that make it."""
        with Server("--engines", "2", folder=self.folder) as server:
            talkers = [Talker(server, place, self.world, 1000 * kill + place) for place in range(CLIENTS)]
            for talker in talkers:
                talker.start()
            time.sleep(self.draw.uniform(0.05, 0.6))
            self.kill(server)
            for talker in talkers:
                talker.join()
            order = server.order()
        (self.folder / "order").unlink()
        changes, last = self.sent(order, talkers)
        kept = self.kept()
        for count in range(last, len(changes) + 1):
            if alone([*before, *changes[:count], b"dump"])[-1].partition(b"\n")[2] == kept:
                return kept.splitlines()
        self.fail(f"after kill {kill}: none of the states behind the last acknowledged change is kept")

    def kill(self, server):
        """Kills the service, and now and then an engine before it."""
        if self.draw.random() < 0.3:
            for engine in server.engines()[:1]:
                os.kill(engine, signal.SIGKILL)
            time.sleep(self.draw.uniform(0, 0.05))
        server.process.kill()
        server.process.wait()

    def sent(self, order, talkers):
        """All changes in their order, and how many of them there are up to the last acknowledged one."""
        changes, last, counts = [], 0, {}
        names = {number: line for number, line in order if line.startswith(b"keys client-")}
        heard = {talker.name_line: [line for line, _ in talker.heard] for talker in talkers}
        for number, line in order:
            counts[number] = place = counts.get(number, 0) + 1
            if is_change(line):
                changes.append(line)
                own = heard.get(names.get(number), [])
                if place <= len(own):
                    self.assertEqual(own[place - 1], line)
                    last = len(changes)
        return changes, last


@needs_engine
class Damaged(InAFolder):
    def test_the_log_is_cut_anywhere(self):
        """Each cut leaves the state behind some change, and the shorter the file the earlier one."""
        lines = self.world.lines()[:20]
        with Server(folder=self.folder) as server, Client(server.path) as client:
            for line in lines:
                client.tell(line)
            server.process.kill()
            server.process.wait()
        states = [alone([*lines[:count], b"dump"])[-1].partition(b"\n")[2] for count in range(len(lines) + 1)]
        log = self.folder / "keyring.db-wal"
        whole, reached = log.read_bytes(), len(lines)
        for length in sorted(self.draw.sample(range(len(whole)), 12), reverse=True):
            shutil.copy(self.folder / "keyring.db", self.folder / "copy.db")
            (self.folder / "copy.db-wal").write_bytes(whole[:length])
            place = states.index(self.kept("copy.db"))
            self.assertLessEqual(place, reached)
            reached = place
            for file in self.folder.glob("copy.db*"):
                file.unlink()
        self.assertLess(reached, len(lines))


@needs_engine
class Refusing(InAFolder):
    """A change that can't be kept is refused, and is none; questions are answered all the while."""

    def has(self, client):
        """The certificates and verdicts that a client gets."""
        client.send(b"dump")
        count = int(client.read_line().split(b" ")[1])
        return [line for line in (client.read_line() for _ in range(count)) if not line.startswith(b"view ")]

    def told(self, lines):
        return alone([*lines, b"dump"])[-1].splitlines()[1:]

    def refuses(self, server, client, lines, kept):
        """These changes are refused, though one is sent ahead of the other, and change nothing."""
        client.tell(b"view p time 5000")
        client.tell(b"view p root %s 120" % self.world.fprs[0])
        ask = b"ask p %s 120 %s" % (self.world.fprs[1], self.world.user_ids[1])
        before = client.tell(ask)
        client.send(*lines, b"keys")
        self.assertEqual([client.read_line() for _ in lines], [b"fault database"] * len(lines))
        for _ in range(int(client.read_line().split(b" ")[1])):
            client.read_line()
        self.assertEqual(client.tell(ask), before)
        self.assertEqual(client.tell(b"export " + self.world.fprs[0])[:7], b"export ")
        server.wait_for(lambda: b"state ok" not in self.status(client))

    @staticmethod
    def status(client):
        client.send(b"service status")
        return [client.read_line() for _ in range(int(client.read_line().split(b" ")[2]))]

    def test_the_file_is_taken_away_and_put_back(self):
        lines = self.world.lines()
        with Server("--engines", "2", folder=self.folder) as server, Client(server.path) as client:
            for line in lines[:40]:
                client.tell(line)
            server.database.rename(self.folder / "elsewhere")
            self.refuses(server, client, [b"drop " + self.world.fprs[0], lines[40]], lines[:40])
            (self.folder / "elsewhere").rename(server.database)
            server.wait_for(lambda: client.tell(lines[40]) == b"ok")
            self.assertEqual(self.has(client), self.told(lines[:41]))
            self.assertEqual(server.stop(), 0)
            with contextlib.closing(Sqlite(server.database)) as database:
                self.assertEqual(script_of(database).splitlines(), self.told(lines[:41]))

    def test_the_disk_is_full(self):
        disk = self.folder / "disk"
        disk.mkdir()
        mounted = subprocess.run(["mount", "-t", "tmpfs", "-o", "size=8m,mode=700", "tmpfs", disk], capture_output=True,
                                 check=False)
        if mounted.returncode:
            self.skipTest("a small file system can't be mounted here")
        self.addCleanup(subprocess.run, ["umount", disk], check=False)
        lines = self.world.lines()
        with Server("--database", disk / "keyring.db", folder=self.folder) as server, Client(server.path) as client:
            for line in lines[:40]:
                self.assertTrue(client.tell(line).startswith(b"ok"))
            filler = disk / "filler"
            with contextlib.suppress(OSError), open(filler, "wb", buffering=0) as file:
                while True:
                    file.write(bytes(4096))
            taken = self.until_full(client)
            self.refuses(server, client, [b"drop " + self.world.fprs[0], lines[40]], [*lines[:40], *taken])
            filler.unlink()
            server.wait_for(lambda: client.tell(lines[40]) == b"ok")
            self.assertEqual(self.has(client), self.told([*lines[:40], *taken, lines[40]]))
            self.assertEqual(server.stop(), 0)
            with contextlib.closing(Sqlite(disk / "keyring.db")) as database:
                self.assertEqual(database.check(), [])
                self.assertEqual(script_of(database).splitlines(), self.told([*lines[:40], *taken, lines[40]]))

    def until_full(self, client):
        """Sends changes until one is refused, and gives those that were taken before."""
        taken = []
        for place in range(10_000):
            line = b"verdict %064x bad" % place
            reply = client.tell(line)
            if reply != b"ok":
                self.assertEqual(reply, b"fault database")
                return taken
            taken.append(line)
        raise AssertionError("the disk never was full")
