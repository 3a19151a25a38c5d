"""One server of PostgreSQL, and services over it."""

import contextlib
import os
import random
import signal
import tempfile
import threading
import time
from pathlib import Path

from alone_cluster import OneServer
from clusters import wait_for
from outside import Client, alone, expected, is_change, with_reply
from talking import Writer, check_kept, dump_of, status_of, told, wait_until_same
from world import Chatter

KILLS = 6


class Compared(OneServer):
    def talk(self, server, name, lines, heard):
        """Has a client say these lines, some of them ahead, and notes all that it hears."""
        with Client(server.path) as client:
            client.send(name)
            draw, rest = random.Random(len(heard)), list(lines)
            while rest:
                count = draw.choice([1, 4, 20])
                client.send(*rest[:count])
                del rest[:count]
                time.sleep(draw.uniform(0, 0.02))
            heard[name] = client.end()

    def test_each_client_hears_what_the_program_alone_says(self):
        """Clients of two services, among the changes of all of them in one order."""
        servers = [self.serve("--engines", "2"), self.serve()]
        sent, heard, talkers = {}, {}, []
        for place, server in enumerate([*servers, *servers]):
            name = b"keys client-%d" % place
            lines = [line for line in Chatter(self.world, place, cursors=0).lines(150)
                     if not line.startswith((b"load", b"store", b"cursor", b"service"))]
            sent[name] = with_reply([name, *lines])
            talkers.append(threading.Thread(target=self.talk, args=(server, name, lines, heard)))
        for talker in talkers:
            talker.start()
        for talker in talkers:
            talker.join()
        wait_until_same(servers)
        self.assertEqual(dump_of(servers[0]), dump_of(servers[1]))
        for server in servers:
            self.assertEqual(server.stop(), 0)
        self.compare(servers, sent, heard)

    def compare(self, servers, sent, heard):
        orders = [server.order() for server in servers]
        for place, (name, lines) in enumerate(sent.items()):
            own, replies = expected(orders[place % 2], name, len(lines))
            self.assertEqual(own, lines)
            self.assertEqual(heard[name], replies)
        made = [told([line for _, line in order if is_change(line)]) for order in orders]
        self.assertEqual(made[0], made[1])

    def test_the_same_certificate_is_changed_at_once(self):
        """Each service has half of the certifications; both end with the union."""
        servers = [self.serve(), self.serve()]
        halves = [self.world.imports[::2], self.world.imports[1::2]]
        barrier = threading.Barrier(2)

        def tell(server, lines):
            with Client(server.path) as client:
                barrier.wait()
                for line in lines:
                    self.assertTrue(client.tell(line).startswith(b"ok"))

        tellers = [threading.Thread(target=tell, args=pair) for pair in zip(servers, halves)]
        for teller in tellers:
            teller.start()
        for teller in tellers:
            teller.join()
        wait_until_same(servers)
        self.assertEqual(dump_of(servers[0]), told(self.world.imports))
        self.assertEqual(dump_of(servers[1]), told(self.world.imports))


class Missed(OneServer):
    """A service that was stopped for a while takes what it has missed."""

    def stopped(self, server):
        """Stops a service while others change something."""
        server.process.send_signal(signal.SIGSTOP)
        stack = contextlib.ExitStack()
        stack.callback(server.process.send_signal, signal.SIGCONT)
        return stack

    def ready(self):
        """Two services, and a client of the second that watches a binding."""
        one, other = self.serve(), self.serve()
        front = [line for line in self.world.lines() if line.startswith(b"import ")]
        with Client(one.path) as client:
            for line in front:
                client.tell(line)
        wait_until_same([one, other])
        return one, other, front

    def test_change_by_change(self):
        one, other, front = self.ready()
        verdicts = [line for line in self.world.lines() if not line.startswith(b"import ")]
        with Client(one.path) as client, Client(other.path) as watcher:
            for line in (b"view p time 5000", b"view p root %s 120" % self.world.fprs[0]):
                watcher.tell(line)
            watching = b"watch w on p %s 120 %s" % (self.world.fprs[0], self.world.user_ids[0])
            self.assertEqual(watcher.tell(watching), b"watch w amount 0")
            with self.stopped(other):
                client.send(*verdicts)
                self.assertEqual({client.read_line() for _ in verdicts}, {b"ok"})
            self.assertEqual(watcher.read_line(), b"watch w amount 120")
            wait_until_same([one, other])
            self.assertEqual(dump_of(other), told([*front, *verdicts]))
            ask = b"ask p %s 120 %s" % (self.world.fprs[0], self.world.user_ids[0])
            self.assertEqual(watcher.tell(ask), alone([
                *front, *verdicts, b"view p time 5000", b"view p root %s 120" % self.world.fprs[0],
                ask])[-1].split(b"\n")[0])

    def test_all_of_it_was_replaced(self):
        """What can't be reported change by change is read again."""
        one, other, front = self.ready()
        with tempfile.TemporaryDirectory() as folder:
            script = Path(folder) / "script"
            script.write_bytes(b"\n".join(self.world.lines()) + b"\n")
            with self.stopped(other):
                self.assertEqual(self.command("import-dump", "--database", self.url, script), (0, ""))
            wait_until_same([one, other])
        self.assertEqual(dump_of(one), told(self.world.lines()))
        self.assertEqual(dump_of(other), told(self.world.lines()))
        with Client(one.path) as client, Client(other.path) as beside:
            fpr = self.world.fprs[2]
            self.assertEqual(client.tell(b"drop " + fpr), b"ok")
            wait_until_same([one, other])
            self.assertEqual(beside.tell(b"export " + fpr), b"refused absent")


class Ended(OneServer):
    def test_killed_at_random_moments_under_load(self):
        """One service is killed again and again; nothing that either acknowledged is lost."""
        draw, writers = random.Random(5), []
        steady = self.serve()
        writers.append(Writer(steady, "steady"))
        writers[0].start()
        for kill in range(KILLS):
            server = self.serve("--engines", "2")
            others = [Writer(server, f"{kill} {place}", ahead=1 + 5 * place) for place in range(2)]
            for writer in others:
                writer.start()
            if kill % 2:  # Else it may be killed before it has made anything.
                others[0].wait_for(1)
            time.sleep(draw.uniform(0.05, 0.6))
            server.process.kill()
            for writer in others:
                writer.end()
            writers += others
        writers[0].wait_for(3)
        writers[0].end()
        self.assertTrue(any(writer.kept for writer in writers[1:]))
        check_kept(self, writers, [steady, self.serve()])

    def test_the_server_stops_and_starts(self):
        """Changes are refused meanwhile, and questions answered."""
        server = self.serve()
        lines = self.world.lines()
        with Client(server.path) as client:
            for line in lines[:30]:
                client.tell(line)
            keys = client.tell(b"keys")
            self.assertEqual(status_of(server)[b"state"], b"ok")
            self.cluster.stop("immediate")
            try:
                self.assertEqual(client.tell(lines[30]), b"fault database")
                self.assertEqual(client.tell(b"keys"), keys)
                wait_for(lambda: int(status_of(server)[b"age"]) >= 2)
                self.assertIn(b"127.0.0.1", status_of(server)[b"state"])
                self.assertEqual(status_of(server)[b"change"], b"30")
                self.assertEqual(client.tell(b"service find address u1@example.org"), b"fault database")
            finally:
                self.cluster.start()
            wait_for(lambda: client.tell(lines[30]).startswith(b"ok"))
            wait_until_same([server])
            self.assertEqual(dump_of(server), told(lines[:31]))

    def test_the_engine_is_killed(self):
        """A new engine stands where the old one stood, also while the database can't be reached."""
        server = self.serve()
        with Client(server.path) as client:
            for line in self.world.lines():
                client.tell(line)
            keys = client.tell(b"keys")
            self.cluster.stop("immediate")
            try:
                for engine in server.engines():
                    os.kill(engine, signal.SIGKILL)
                self.assertEqual(client.tell(b"keys"), keys)
            finally:
                self.cluster.start()
        wait_until_same([server])
        self.assertEqual(dump_of(server), told(self.world.lines()))
