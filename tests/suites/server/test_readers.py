"""Readers as processes: they are replaced, none holds up a change, and they end with the service."""

import contextlib
import os
import re
import signal
import tempfile
import time
import unittest
from pathlib import Path

from outside import Client, Server, needs_engine
from reading import ReadServer, status_of
from tukyamid.service.child_processes import children
from world import World

READERS = 3
SOON = 20  # Seconds: nothing here takes as long as that, however busy the machine is.


def is_running(pid):
    try:
        return Path(f"/proc/{pid}/stat").read_text().rpartition(")")[2].split()[0] != "Z"
    except OSError:
        return False


@needs_engine
class Readers(unittest.TestCase):
    def setUp(self):
        self.world = World(seed=3)

    def fill(self, server):
        with Client(server.path) as client:
            client.send(*self.world.lines())
            client.end()

    def test_a_client_of_each_kind_is_counted_once(self):
        with ReadServer(READERS) as server:
            clients = [self.enterContext(Client(server.path)) for _ in range(5)]
            for client in clients:
                self.assertEqual(client.tell(self.world.imports[0])[:2], b"ok")  # By a relay, too.
            server.wait_for(lambda: status_of(clients[0])[b"clients"] == b"5")  # None that asked before is left.
            self.assertEqual(server.status()[b"readers"], b"3")
            self.assertEqual(len(server.reader_pids()), READERS)

    def test_no_readers(self):
        with Server() as server, Client(server.path) as client:
            client.send(b"service status")
            count = int(client.read_line().split(b" ")[2])
            self.assertIn(b"readers 0", [client.read_line() for _ in range(count)])

    def test_modules_of_the_directory_that_it_is_started_in(self):
        """Anybody may have put them there."""
        with tempfile.TemporaryDirectory(prefix="tukyamid-readers-") as folder, contextlib.chdir(folder):
            for name in ("asyncio", "json", "tukyamid"):
                Path(f"{name}.py").write_text(f"open('{name}.read', 'w')\nraise SystemExit(1)\n", encoding="utf-8")
            with ReadServer(READERS) as server:
                self.assertEqual(server.status()[b"readers"], b"3")
            self.assertEqual(list(Path(folder).glob("*.read")), [])

    def test_a_killed_reader_is_replaced(self):
        """Its clients are disconnected, others go on, and what they knew stays."""
        with ReadServer(READERS) as server:
            self.fill(server)
            clients = server.spread(self.enterContext)
            for client in clients:
                self.assertEqual(client.tell(b"view p time 5000"), b"ok")
            before = server.reader_pids()
            os.kill(before[1], signal.SIGKILL)
            left = []
            for client in clients:
                try:
                    left.append(client.tell(b"keys"))
                except OSError:
                    left.append(None)
            self.assertEqual((left.count(None), left.count(b"keys 12")), (1, READERS - 1))
            server.wait_for(lambda: before[1] not in server.engines() and server._is_there())
            self.assertEqual(len(set(before) & set(server.reader_pids())), READERS - 1)
            for _ in range(2 * READERS):
                with Client(server.path) as client:
                    self.assertEqual(client.tell(b"keys"), b"keys 12")
            self.assertIn("another one takes its place", server.said())

    def test_a_frozen_reader_holds_up_no_change(self):
        """It is ended and replaced, as an engine would be. Changes never wait for it."""
        with ReadServer(READERS) as server:
            self.fill(server)
            client = self.enterContext(Client(server.path))
            self.assertEqual(client.tell(b"keys"), b"keys 12")
            frozen = server.reader_pids()[-1]
            for pid in server.reader_pids()[1:]:  # One goes on.
                os.kill(pid, signal.SIGSTOP)
            number, _ = self.world.verdicts[0]
            longest = 0.0
            for turn in range(200):
                begin = time.monotonic()
                self.assertEqual(self.changed(server, number, turn), b"ok")
                longest = max(longest, time.monotonic() - begin)
            self.assertLess(longest, SOON)
            server.wait_for(lambda: not is_running(frozen))

    def changed(self, server, number, turn):
        """Has a client of a reader that goes on change something. Who was handed to a frozen one is disconnected
        once that is ended."""
        while True:
            with Client(server.path) as client:
                try:
                    return client.tell(b"verdict %s %s" % (number, [b"bad", b"none"][turn % 2]))
                except ConnectionResetError:
                    continue

    def test_watches_hear_of_changes_by_clients_of_other_readers(self):
        with ReadServer(READERS) as server:
            self.fill(server)
            number, root = self.world.verdicts[1]
            watching = server.spread(self.enterContext)
            for client in watching:
                for line in (b"view p time 5000", b"view p root %s 120" % root):
                    self.assertEqual(client.tell(line), b"ok")
                first = client.tell(b"watch w on p %s 120 %s" % (self.world.fprs[0], self.world.user_ids[0]))
                self.assertTrue(first.startswith(b"watch w "), first)
            with Client(server.path) as changing:
                for other in self.world.verdicts[1:6]:
                    self.assertEqual(changing.tell(b"verdict %s bad" % other[0]), b"ok")
            for client in watching:
                client.socket.settimeout(SOON)
                while client.read_line() != b"watch w amount 0":
                    pass

    def test_the_end(self):
        """All that was taken is answered, and all processes end, frozen ones too."""
        with ReadServer(READERS) as server:
            self.fill(server)
            clients = [self.enterContext(Client(server.path)) for _ in range(2 * READERS)]
            for client in clients:
                client.send(b"keys")
                self.assertEqual(client.read_line(), b"keys 12")
            pids = server.reader_pids()
            os.kill(pids[0], signal.SIGSTOP)
            begin = time.monotonic()
            self.assertEqual(server.stop(), 0)
            self.assertLess(time.monotonic() - begin, SOON)
            self.assertEqual([pid for pid in pids if is_running(pid)], [])

    def test_readers_end_with_a_service_that_is_killed(self):
        """Another service may make changes at once, of which they would never hear: frozen ones end, too."""
        with ReadServer(READERS) as server:
            client = self.enterContext(Client(server.path))
            self.assertEqual(client.tell(b"keys"), b"keys 0")
            pids = server.reader_pids()
            os.kill(pids[0], signal.SIGSTOP)
            server.process.kill()
            server.process.wait()
            server.wait_for(lambda: not any(map(is_running, pids)))
            with self.assertRaises(OSError):
                client.tell(b"keys")
            server.start()
            with Client(server.path) as again:
                self.assertEqual(again.tell(b"keys"), b"keys 0")

    def test_engines_of_readers_that_are_killed(self):
        """Clients notice nothing."""
        with ReadServer(READERS) as server:
            self.fill(server)
            clients = server.spread(self.enterContext)
            for pid in server.reader_pids():
                for engine in children(pid):
                    os.kill(engine, signal.SIGKILL)
            for client in clients:
                self.assertEqual(client.tell(b"keys"), b"keys 12")
            self.assertEqual(len(re.findall("another one takes", server.said())), 0)

    def test_readers_that_cannot_start(self):
        """The service serves clients itself, and tries again."""
        folder = self.enterContext(tempfile.TemporaryDirectory(prefix="tukyamid-readers-"))
        in_their_way = [Path(folder, f"order.{place}") for place in range(1, 100)]
        for path in in_their_way:
            path.mkdir()
        with Server("--readers", "2", folder=folder) as server, Client(server.path) as client:
            self.fill(server)
            server.wait_for(lambda: server.said().count("a reader can't begin") >= 4)
            status = status_of(client)
            self.assertEqual((client.tell(b"keys"), status[b"readers"], status[b"clients"]), (b"keys 12", b"0", b"1"))
            for path in in_their_way:
                path.rmdir()
            server.wait_for(lambda: status_of(client)[b"readers"] == b"2")

    def test_a_read_only_socket(self):
        with ReadServer(READERS, "--read-only-socket", self.read_only()) as server:
            self.fill(server)
            for _ in range(READERS):
                with Client(self.path) as client:
                    self.assertEqual(client.tell(b"drop " + self.world.fprs[0]), b"refused read-only")
                    self.assertEqual(client.tell(b"keys"), b"keys 12")
                    self.assertEqual(client.tell(b"service keyring remove /tmp/a"), b"refused read-only")
                    self.assertEqual(client.tell(b"store " + self.world.fprs[0]), b"refused read-only")

    def read_only(self):
        folder = tempfile.TemporaryDirectory(prefix="tukyamid-readers-")
        self.addCleanup(folder.cleanup)
        self.path = Path(folder.name, "questions")
        return str(self.path)
