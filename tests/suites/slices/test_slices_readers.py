"""Readers over a keyring that is larger than an engine: each holds slices of its own."""

import asyncio
import re
import tempfile
import unittest
from pathlib import Path

import test_readers_scripts
import test_readers_see
from outside import HERE, PROGRAM, Client, needs_engine
from reading import ReadServer
from test_slices_scripts import BUDGET, DEPTHS, NEVER_REFUSED, REFUSED, Asking
from tukyamid.service.child_processes import children
from tukyamid.service.readers.following_hub import FollowingHub
from tukyamid.service.readers.following_slices import FollowingSliced
from tukyamid.service.readers.published import Published
from tukyamid.service.readers.reader_intake import ReaderIntake
from tukyamid.service.storage.database_threads import Access
from tukyamid.service.storage.sqlite_database import Sqlite
from tukyamid.service.storage.sqlite_reading import SqliteReading
from world import World

READERS = test_readers_scripts.READERS


class SlicedScripts(test_readers_scripts.Scripts):
    def serve(self):
        return ReadServer(READERS, "--budget", str(BUDGET))

    def new_world(self, seed):
        return World(seed, 40, DEPTHS)

    def new_chatter(self, world, seed, place):
        return Asking(world, seed)

    def compare(self, line, mine, other):
        if mine == REFUSED and other != REFUSED:
            self.assertFalse(line.startswith(NEVER_REFUSED), line)
        else:
            self.assertEqual(mine, other, line)


class SlicedSeen(test_readers_see.Seen):
    def serve(self):
        return ReadServer(READERS, "--budget", "39")

    def new_world(self):
        return World(3, 40, DEPTHS)

    def test_answers_are_kept_until_the_next_change(self):
        """The engine hears nothing of a question that it has answered already."""
        with self.serve() as server:
            self.begin(server)
            clients = [self.client(server) for _ in range(2 * READERS)]
            with Client(server.path) as client:
                self.assertEqual(client.tell(b"verdict %s good %s" % (self.number, self.root)), b"ok")
            first = {self.amount(client) for client in clients}
            self.assertEqual(len(first), 1)
            heard = self.heard(server)
            self.assertGreater(heard, 0)
            for _ in range(5):
                self.assertEqual({self.amount(client) for client in clients}, first)
            self.assertEqual(self.heard(server), heard)
            self.assertEqual(clients[0].tell(b"verdict %s bad" % self.number), b"ok")
            self.assertEqual({self.amount(client)[:2] for client in clients}, {(b"amount", b"0")})
            self.assertGreater(self.heard(server), heard)

    def amount(self, client):
        return tuple(client.tell(self.question).split(b" "))

    @staticmethod
    def heard(server):
        """How many octets the engines of all readers have read."""
        return sum(int(re.search(r"rchar: ([0-9]+)", Path(f"/proc/{engine}/io").read_text())[1])
                   for reader in server.reader_pids() for engine in children(reader))


@needs_engine
class Verified(unittest.TestCase):
    """What the verifier says of many certificates is one change in slices."""

    def test_all_readers_follow(self):
        world = World(3, 40, DEPTHS)
        question = b"ask p %s 1 %s" % (world.fprs[0], world.user_ids[0])
        with ReadServer(READERS, "--budget", "39", "--verifier", HERE / "trusting_verifier.py") as server:
            clients = server.spread(self.enterContext)
            for line in world.imports:
                self.assertEqual(clients[0].tell(line)[:2], b"ok")
            for client in clients:
                for line in (b"view p time 5000", b"view p root %s 120" % world.verdicts[1][1]):
                    self.assertEqual(client.tell(line), b"ok")
                self.assertEqual(client.tell(question).split(b" ")[:2], [b"amount", b"0"])
            keyring = server.folder / "keyring.pgp"
            keyring.write_bytes(b"".join(bytes.fromhex(line[7:].decode()) for line in world.imports))
            clients[0].send(b"service keyring add %s" % bytes(keyring))
            while (reply := clients[0].read_line()).startswith(b"service progress "):
                pass
            self.assertEqual(reply[:10], b"ok keyring")
            for client in clients:
                self.assertNotEqual(client.tell(question).split(b" ")[:2], [b"amount", b"0"])
            clients[0].send(b"service log 1")
            self.assertEqual(clients[0].read_line(), b"service log 1")
            self.assertRegex(clients[0].read_line(), b"verdicts [0-9]+ on ")


@needs_engine
class Beginning(unittest.TestCase):
    """A reader holds what an engine has room for as its service does, which may send it what is for slices alone."""

    async def held(self, is_sliced, has_turned):
        """How a reader holds an empty keyring; the service may have turned while it began."""
        folder = self.enterContext(tempfile.TemporaryDirectory())
        path = Path(folder, "keyring.db")
        Sqlite(path).close()
        intake = ReaderIntake([PROGRAM, "run"], 1, Access(SqliteReading(path)), 100, None, Published.made(), is_sliced)
        starting = asyncio.create_task(intake.start())
        await asyncio.sleep(0)
        if has_turned:
            intake.use_slices()
        await starting
        held = type(intake.held)
        await intake.close()
        return held

    def test_as_the_service(self):
        self.assertIs(asyncio.run(self.held(is_sliced=False, has_turned=False)), FollowingHub)
        self.assertIs(asyncio.run(self.held(is_sliced=True, has_turned=False)), FollowingSliced)
        self.assertIs(asyncio.run(self.held(is_sliced=False, has_turned=True)), FollowingSliced)
