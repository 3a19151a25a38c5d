"""Many clients, and bad ones: all others are answered, and the service grows no larger.

TUKYAMID_SOAK says for how many seconds the service is under load before its memory is looked at (12)."""

import contextlib
import hashlib
import os
import random
import shutil
import tempfile
import threading
import time
import unittest
from concurrent.futures import ThreadPoolExecutor
from pathlib import Path

from outside import Client, Server, alone, needs_engine, script_of
from tukyamid.service.storage.database import Actor
from tukyamid.service.storage.sqlite_database import Sqlite
from world import Chatter, World, packet

SOAK = float(os.environ.get("TUKYAMID_SOAK", "12"))
CROWD = 500
DUMPERS = 60
MEGABYTE = 1 << 20


def memory(server):
    """The octets of memory of the service's own process."""
    pages = Path(f"/proc/{server.process.pid}/statm").read_text().split()[1]
    return int(pages) * os.sysconf("SC_PAGE_SIZE")


def descriptors(server):
    return len(os.listdir(f"/proc/{server.process.pid}/fd"))


class InAFolder(unittest.TestCase):
    def setUp(self):
        self.folder = Path(tempfile.mkdtemp(prefix="tukyamid-crowds-"))
        self.addCleanup(shutil.rmtree, self.folder)
        self.world = World(count=8)

    def start(self, *options):
        server = self.enterContext(Server(*options, folder=self.folder))
        with Client(server.path) as client:
            client.send(*self.world.lines())
            client.end()
        return server


@needs_engine
class Crowd(InAFolder):
    def test_five_hundred_clients(self):
        """Each has a view, some of them equal ones, and hears what the program alone says to its question."""
        server = self.start("--engines", "2")
        times, targets = range(5000, 5008), range(8)
        asks = [(b"view p time %d" % at, b"view p root %s 120" % self.world.fprs[0],
                 b"ask p %s 120 %s" % (self.world.fprs[to], self.world.user_ids[to])) for at in times for to in targets]
        told = alone([*self.world.lines(), *(line for lines in asks for line in lines)])[len(self.world.lines()):]
        wanted = [b"".join(told[place:place + 3]) for place in range(0, len(told), 3)]
        with contextlib.ExitStack() as stack:
            clients = [stack.enter_context(Client(server.path)) for _ in range(CROWD)]
            for place, client in enumerate(clients):
                client.send(*asks[place % len(asks)])
            for place, client in enumerate(clients):
                self.assertEqual(client.end(), wanted[place % len(asks)])
        self.assertEqual(server.stop(), 0)

    def test_sixty_that_dump_and_read_late(self):
        """The dump is long, and is in no one's memory."""
        draw = random.Random(1)
        lines = []
        for place in range(50):
            key = b"\4\0\0\x03\xe8\x1b" + place.to_bytes(2, "big")
            picture = draw.randbytes(20_000)
            lines.append(b"import " + (packet(6, key) + b"\xd1\xff" + len(picture).to_bytes(4, "big") + picture
                                       + packet(13, b"user %d" % place)).hex().encode())
        with contextlib.closing(Sqlite(self.folder / "keyring.db")) as database:
            database.fill(lines, "filled", Actor(0, 0))
            script = script_of(database)
        reply = b"dump %d\n" % script.count(b"\n") + script
        with Server("--patience", "900", folder=self.folder) as server, contextlib.ExitStack() as stack:
            before = memory(server)
            clients = [stack.enter_context(Client(server.path)) for _ in range(DUMPERS)]
            for client in clients:
                client.send(b"dump", b"dump")
            time.sleep(3)
            self.assertLess(memory(server) - before, DUMPERS * MEGABYTE)
            wanted = hashlib.sha256(2 * reply).digest()
            with ThreadPoolExecutor(4) as pool:
                for told in pool.map(lambda client: hashlib.sha256(client.end()).digest(), clients):
                    self.assertEqual(told, wanted)
            self.assertLess(memory(server) - before, DUMPERS * MEGABYTE)


@needs_engine
class BadClients(InAFolder):
    def setUp(self):
        super().setUp()
        self.server = self.start("--engines", "1")
        self.other = self.enterContext(Client(self.server.path))

    def tearDown(self):
        self.assertEqual(self.other.tell(b"keys"), b"keys 8")
        self.assertEqual(self.server.stop(), 0)

    def test_garbage(self):
        """Random octets change nothing, and each of their lines is refused."""
        octets = random.Random(3).randbytes(200_000).replace(b"#", b"!")
        with Client(self.server.path) as client, ThreadPoolExecutor(1) as reader:
            replies = reader.submit(client.rest)
            client.socket.sendall(octets + b"\n")
            client.send_no_more()
            lines = [line for line in (octets + b"\n").split(b"\n")[:-1] if line]
            self.assertEqual(replies.result(), b"refused line\n" * len(lines))

    def test_an_endless_line(self):
        before = memory(self.server)
        with Client(self.server.path) as client:
            for _ in range(60):
                client.socket.sendall(b"x" * MEGABYTE)
            self.assertLess(memory(self.server) - before, 40 * MEGABYTE)
            client.send(b"", b"keys")
            self.assertEqual([client.read_line(), client.read_line()], [b"refused long", b"keys 8"])

    def test_many_that_come_and_go(self):
        """Some in the middle of a line, some before their replies."""
        draw = random.Random(4)
        for _ in range(200):
            with Client(self.server.path) as client:
                client.socket.sendall(draw.choice([b"", b"keys\n", b"dump\ndump\nke", b"view p time 5\nview p", b"\n",
                                                   b"drop " + self.world.fprs[0]]))


@needs_engine
class Growth(InAFolder):
    """Under load for long: about as many descriptors at the end as at the beginning, and a bounded growth of memory."""

    def test_under_load(self):
        server = self.start("--engines", "2")
        self.load(server, SOAK / 3)
        before = memory(server), descriptors(server)
        self.load(server, SOAK)
        after = memory(server), descriptors(server)
        # The journal's changes are at most a few megabytes; the rest is what the allocator doesn't give back.
        self.assertLess(after[0] - before[0], 16 * MEGABYTE)
        self.assertLessEqual(after[1], before[1] + 8)
        self.assertEqual(server.stop(), 0)

    def load(self, server, seconds):
        end = time.monotonic() + seconds
        seeds = iter(range(1_000_000))
        lock = threading.Lock()

        def talk(_):
            while time.monotonic() < end:
                with lock:
                    seed = next(seeds)
                with Client(server.path) as client:
                    client.send(*Chatter(self.world, seed).lines(20), b"watch w on p %s 120 %s" % (
                        self.world.fprs[1], self.world.user_ids[1]))
                    client.end()

        with ThreadPoolExecutor(6) as pool:
            list(pool.map(talk, range(6)))
        time.sleep(1)
