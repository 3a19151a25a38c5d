"""Each user has a share: whatever one does, others are answered, and the service stays small."""

import contextlib
import os
import shutil
import signal
import tempfile
import threading
import time
import unittest
from pathlib import Path

from outside import PATIENCE, SERVER, Client, Server, needs_engine
from world import World, fingerprint, packet

MEGABYTE, NOBODY = 1 << 20, 65534
LOG = 128 * MEGABYTE  # What a slow reader may cost, as docs/SERVICE.md says.
FULL_CLIENTS = b"refused full clients"


def memory(server):
    pages = Path(f"/proc/{server.process.pid}/statm").read_text().split()[1]
    return int(pages) * os.sysconf("SC_PAGE_SIZE")


class Shares(unittest.TestCase):
    serve = Server

    def setUp(self):
        self.folder = Path(tempfile.mkdtemp(prefix="tukyamid-quotas-"))
        self.addCleanup(shutil.rmtree, self.folder)
        self.folder.chmod(0o755)
        self.world = World(count=12)
        self.view = [b"view p time 5000", b"view p root %s 120" % self.world.fprs[0]]

    def begin(self, *options, **named):
        self.server = self.enterContext(self.serve("--mode", "666", *options, folder=self.folder, **named))
        self.client = self.enterContext(Client(self.server.path))
        self.client.send(*self.world.lines(), *self.view)
        for _ in range(len(self.world.lines()) + len(self.view)):
            self.assertTrue(self.client.read_line().startswith(b"ok"))

    def ask(self, place=1, view=b"p"):
        return b"ask %s %s 120 %s" % (view, self.world.fprs[place], self.world.user_ids[place])

    def stranger(self):
        """A client that is another user's."""
        if os.geteuid():
            self.skipTest("only root can be two users")
        os.seteuid(NOBODY)
        try:
            return self.enterContext(Client(self.server.path))
        finally:
            os.seteuid(0)

    def seconds(self, line):
        """How long the client waits for an answer."""
        begun = time.monotonic()
        self.assertIn(self.client.tell(line)[:6], (b"ok", b"amount"))
        return time.monotonic() - begun


@needs_engine
class Room(Shares):
    def test_views_of_one_user(self):
        """Many clients' full views would take gigabytes: each of 256 views with 64 roots takes 4 MB a client."""
        self.begin()
        lines = [b"view v%d time 5" % view for view in range(256)]
        lines += [b"view v%d root %040x 9" % (view, root) for view in range(256) for root in range(64)]
        clients = [self.stranger() for _ in range(4)]
        told = []
        for client in clients:
            client.send(*lines)
            told.append([client.read_line() for _ in lines])
        left = 65_536 - 3 * len(lines)
        self.assertEqual(told[:3], [[b"ok"] * len(lines)] * 3)
        self.assertEqual(told[3], [b"ok"] * left + [b"refused full roots"] * (len(lines) - left))
        self.assertEqual(self.stranger().tell(b"view v time 5"), b"refused full views")
        self.assertEqual(self.client.tell(b"view mine time 5"), b"ok")
        self.assertEqual(clients[0].tell(b"view v7 close"), b"ok")
        self.assertEqual(self.stranger().tell(b"view v time 5"), b"ok")
        self.assertLess(memory(self.server), 300 * MEGABYTE)

    def test_unfinished_lines(self):
        """Two of the longest lines of a user are taken at a time, and the others wait."""
        self.begin()
        before = memory(self.server)
        clients = [self.enterContext(Client(self.server.path)) for _ in range(40)]
        piece, threads = b"import " + b"c" * (15 * MEGABYTE), []

        def send(client):
            with contextlib.suppress(OSError):
                client.socket.sendall(piece)

        for client in clients:
            threads.append(threading.Thread(target=send, args=(client,), daemon=True))
            threads[-1].start()
        time.sleep(6)
        self.assertLess(memory(self.server) - before, 120 * MEGABYTE)
        self.assertLess(self.seconds(self.ask()), 5)
        for client in clients:
            client.socket.shutdown(2)
        for thread in threads:
            thread.join(PATIENCE)

    def test_long_lines_are_all_answered(self):
        """Whoever waits has its turn."""
        self.begin()
        clients = [self.enterContext(Client(self.server.path)) for _ in range(8)]
        line = b"import " + b"zz" * (3 * MEGABYTE)
        threads = [threading.Thread(target=client.send, args=(line, b"keys"), daemon=True) for client in clients]
        for thread in threads:
            thread.start()
        for client in clients:
            self.assertEqual(client.read_line(), b"refused line")
            self.assertEqual(client.read_line(), b"keys 12")

    def test_connections(self):
        """One user has at most half of those for which there are descriptors; no dump and no engine lacks one."""
        self.begin(program=limited(self.folder, 256), environment={"LIMITED": str(SERVER)})
        strangers, refused = [self.stranger() for _ in range(60)], 0
        for one in strangers:
            with contextlib.suppress(OSError):
                one.send(b"keys")
            refused += one.read_line() == FULL_CLIENTS
        self.assertGreater(refused, 20)
        self.assertLess(refused, 60)
        for pid in self.server.engines():
            os.kill(pid, signal.SIGKILL)
        more = [self.enterContext(Client(self.server.path)) for _ in range(10)]
        for client in more:
            client.send(b"dump")
        for client in more:
            self.assertRegex(client.read_line(), b"^dump ")
        self.assertLess(self.seconds(self.ask()), 10)
        for one in strangers:
            one.socket.close()
        self.server.wait_for(lambda: self.stranger().tell(b"keys") == b"keys 12")

    def test_watches_and_cursors(self):
        """However many one user has, another may have some."""
        self.begin("--engines", "1")
        full = 0
        for client in [self.stranger() for _ in range(4)]:
            for place in range(16):
                name = b"v%d" % place
                client.tell(b"view %s time %d" % (name, 5000 + place))
                full += client.tell(b"watch w%d on %s %s 120 %s" % (
                    place, name, self.world.fprs[1], self.world.user_ids[1])) == b"refused full watches"
        self.assertGreater(full, 40)
        self.assertRegex(self.client.tell(b"watch w on" + self.ask()[3:]), b"^watch w amount ")
        self.assertEqual(self.client.tell(b"cursor c over p 120"), b"ok")

    def watched(self, client, count):
        """How many watches of its view `p` a client gets of these."""
        client.send(*(b"watch w%d on" % place + self.ask()[3:] for place in range(count)))
        replies = [client.read_line() for _ in range(count)]
        self.assertLessEqual({reply for reply in replies if b" amount " not in reply}, {b"refused full watches"})
        return sum(b" amount " in reply for reply in replies)

    def test_watches_of_one_view(self):
        """Of an engine's 64 watches a user has no more than others could still have; whoever has few gets one."""
        self.begin("--engines", "1")
        strangers = [self.stranger() for _ in range(3)]
        for one in strangers:
            one.send(*self.view)
            self.assertEqual([one.read_line(), one.read_line()], [b"ok", b"ok"])
        self.assertEqual([self.watched(one, 64) for one in strangers], [32, 0, 0])
        self.assertEqual(self.watched(self.client, 64), 16)
        strangers[0].tell(b"watch w0 off")  # So one more of the owner's would leave 16 of 64, and the owner has 16.
        self.assertEqual(self.client.tell(b"watch x on" + self.ask()[3:])[:16], b"watch x amount 1")
        self.client.tell(b"watch x off")
        strangers[0].socket.close()
        self.server.wait_for(lambda: self.watched(self.client, 64) == 32)

    def test_watches_of_an_owner_alone(self):
        """If nobody else may connect, nothing is left for others."""
        with Server("--engines", "1", folder=self.folder) as server, Client(server.path) as client:
            client.send(*self.world.lines(), *self.view)
            for _ in range(len(self.world.lines()) + len(self.view)):
                client.read_line()
            self.assertEqual(self.watched(client, 70), 64)


def limited(folder, count):
    """The server with no more than this many descriptors."""
    program = folder / "limited.py"
    program.write_text("import os, resource, sys\n"
                       f"resource.setrlimit(resource.RLIMIT_NOFILE, ({count}, {count}))\n"
                       "os.execv(sys.executable, [sys.executable, os.environ['LIMITED'], *sys.argv[1:]])\n")
    return program


@needs_engine
class SlowReaders(Shares):
    def test_of_watches(self):
        """A client that reads none of its watch lines costs nothing, and gets the last amounts when it reads."""
        self.begin("--engines", "1", "--patience", "900")
        watcher = self.enterContext(Client(self.server.path))
        watcher.send(*self.view)
        names = [b"w%d" % place for place in range(30)]
        watched = self.world.fprs[1], self.world.user_ids[1]
        for name in names:
            watcher.send(b"watch %s on p %s 120 %s" % (name, *watched))
        for _ in range(len(self.view) + len(names)):
            watcher.read_line()
        own = [b"verdict %s" % number for number, issuer in self.world.verdicts]
        taken = [line + b" none" for line in own]
        given = [b"verdict %s good %s" % verdict for verdict in self.world.verdicts]
        for _ in range(60):
            for lines in (taken, given):
                self.client.send(*lines)
                self.assertEqual({self.client.read_line() for _ in lines}, {b"ok"})
        watcher.socket.settimeout(3)
        lines = []
        with contextlib.suppress(TimeoutError):
            while True:
                lines.append(watcher.read_line())
        self.assertLess(len(lines), 8000)
        last = {line.split(b" ")[1]: line.split(b" ")[3] for line in lines}
        amount = self.client.tell(self.ask()).split(b" ")[1]
        self.assertEqual(set(last.values()), {amount})

    def test_of_a_dump(self):
        """It reads an old state. When the log has grown by much because of that, it is disconnected."""
        self.begin("--patience", "900")
        picture = os.urandom(700_000)
        octets = packet(6, b"\4\0\0\x03\xe8\x1bbig") + packet(13, b"big")
        big = octets + b"\xd1\xff" + len(picture).to_bytes(4, "big") + picture
        self.client.tell(b"import " + big.hex().encode())
        slow = self.enterContext(Client(self.server.path))
        slow.send(b"dump")
        slow.read_line()
        log, largest = Path(f"{self.server.database}-wal"), 0
        for turn in range(700):
            picture = os.urandom(350_000)
            line = octets + b"\xd1\xff" + len(picture).to_bytes(4, "big") + picture
            if turn % 2:
                self.client.tell(b"drop " + fingerprint(b"\4\0\0\x03\xe8\x1bbig"))
            self.client.tell(b"import " + line.hex().encode())
            largest = max(largest, log.stat().st_size)
            if "too slowly" in self.server.said():
                break
        self.assertLess(largest, 2 * LOG)
        self.assertIn("too slowly", self.server.said())
        with self.assertRaises(ConnectionError):
            while True:
                slow.read_line()
        self.server.wait_for(lambda: self.client.tell(b"verdict %064x bad" % time.monotonic_ns()) == b"ok"
                             and log.stat().st_size < LOG)
