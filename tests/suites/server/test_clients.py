"""Many clients at once: each hears what the program alone would say."""

import asyncio
import os
import random
import signal
import threading
import time
import unittest
from concurrent.futures import ThreadPoolExecutor
from unittest.mock import Mock

from outside import WORN_ENGINE, Client, Server, expected, needs_engine, with_reply
from tukyamid.service.sessions.outbox import Outbox
from world import Chatter, World

# An engine has sixteen cursors, and a client of these tests up to three. If the service has one engine alone, since
# that keeps up, no more clients than these find room.
_WITH_CURSORS = 5


def talk(path, name, lines, seed, before_burst):
    """One client: sends its lines in bursts of some size, and waits a moment now and then; gives what it heard. It
    reads all the while, so that no end waits for room in a buffer of the other."""
    draw = random.Random(seed)
    size = draw.choice([1, 2, 7, len(lines)])
    with Client(path) as client, ThreadPoolExecutor(1) as reader:
        client.send(name)
        head = client.read_line() + b"\n"
        replies = reader.submit(client.rest)
        for start in range(0, len(lines), size):
            before_burst()
            client.send(*lines[start:start + size])
            if draw.random() < 0.3:
                time.sleep(draw.random() / 100)
        client.send_no_more()
        return head + replies.result()


def talk_all(server, count, length, seed=1, before_burst=lambda: None, between=()):
    """Lets `count` clients talk at once, each with the lines `between` behind each line: what each sent and heard."""
    world = World()
    world.make_directory(server.directory)
    with Client(server.path) as first:
        first.send(*world.lines())
        first.end()
    spoken = {b"keys client-%d" % place: [
        each for line in Chatter(world, seed * 1000 + place, 12 if place < _WITH_CURSORS else 0).lines(length)
        for each in (line, *between)] for place in range(count)}
    with ThreadPoolExecutor(count) as pool:
        talks = {name: pool.submit(talk, server.path, name, lines, seed * 1000 + place, before_burst)
                 for place, (name, lines) in enumerate(spoken.items())}
    return spoken, {name: one.result() for name, one in talks.items()}


class Killer:
    """Kills one of a server's engines at each fortieth burst of its clients, however fast they talk.

    Then all engines answer a change before the next one is killed. Where three programs end one after another at one
    line, the server gives that line up, and can't know that it wasn't the line's doing."""

    def __init__(self, server):
        self.server, self.killed = server, set()
        self._bursts, self._lock, self._draw = 0, threading.Lock(), random.Random(5)

    def before_burst(self):
        with self._lock:
            self._bursts += 1
            if self._bursts % 40 == 0:
                self._kill_one()

    def _kill_one(self):
        victim = self._draw.choice(sorted(set(self.server.engines()) - self.killed))
        os.kill(victim, signal.SIGKILL)
        self.killed.add(victim)
        with Client(self.server.path) as client:
            client.tell(b"verdict %064x bad" % len(self.killed))


@needs_engine
class ManyClients(unittest.TestCase):
    def check(self, server, spoken, heard, kinds=()):
        """Compares what each client heard. Some have heard replies of these kinds, and of the common ones."""
        self.assertEqual(server.stop(), 0)
        order = server.order()
        sent = {name: [name, *with_reply(lines)] for name, lines in spoken.items()}
        make_directory = World().make_directory
        with ThreadPoolExecutor(os.cpu_count()) as pool:
            told = dict(zip(sent, pool.map(lambda name: expected(order, name, len(sent[name]), make_directory), sent)))
        for name, (own, replies) in told.items():
            self.assertEqual(own, sent[name])
            self.assertEqual(heard[name], replies, name)
        for kind in b"\npath ", b"\nbind ", b"\ncert ", b"\nsig ", b"\nexplain ok ", *kinds:
            with self.subTest(kind):
                self.assertGreater(sum(replies.count(kind) for _, replies in told.values()), 0)

    def test_fifty_clients_at_once(self):
        with Server("--engines", "3") as server:
            # Whether a cursor is still current when its next line comes is up to the others: neither is asked for.
            kinds = b"\nok stored ", b"\nrefused misfiled\n"
            self.check(server, *talk_all(server, 50, 30), kinds)

    def test_engines_killed_in_mid_stream(self):
        with Server("--engines", "3") as server:
            killer = Killer(server)
            spoken, heard = talk_all(server, 20, 60, 2, killer.before_burst)
            self.assertIn("another takes its place", server.said())
            self.assertGreater(len(killer.killed), 2)
            self.check(server, spoken, heard)

    def test_engines_that_took_as_many_octets_as_they_may(self):
        """Each engine ends with status 6 after 100,000 octets, where the program itself takes 2^30."""
        long_question = b"ask p " + b"0" * 40 + b" 120 " + b"x" * 1500
        with Server("--engines", "2", engine=WORN_ENGINE, environment={"WORN_OCTETS": "100000"}) as server:
            spoken, heard = talk_all(server, 10, 30, 3, between=[long_question])
            self.assertIn("ended with status 6", server.said())
            self.check(server, spoken, heard)


class Reading(unittest.TestCase):
    """Who is dropped for not reading, with a clock of the test's own. The patience is 60."""

    def drops(self, moments):
        """The times at which a client is dropped, of moments: (time, octets written so far, of these unread)."""
        async def run():
            transport = Mock()
            outbox = Outbox(transport, lambda: None, self.fail)
            for now, written, unread in moments:
                outbox._written = written
                transport.get_write_buffer_size.return_value = unread
                if outbox.drop_where_unread(now, 60):
                    transport.abort.assert_called_once()
                    transport.abort.reset_mock()
                    yield now

        async def gather():
            return [now async for now in run()]
        return asyncio.run(gather())

    def test_one_reads_nothing(self):
        self.assertEqual(self.drops([(now, 9000, 9000) for now in range(100, 162)]), [161])
        self.assertEqual(self.drops([(now, 100 * now, 100 * now - 7) for now in range(100, 162)]), [161])

    def test_one_reads_slowly(self):
        self.assertEqual(self.drops([(now, 9000, 9000 - now // 59) for now in range(100, 1000)]), [])

    def test_one_has_nothing_to_read(self):
        self.assertEqual(self.drops([(now, 9000, 0) for now in range(100, 1000)]), [])
        later = [(now, 9001, 1) for now in range(300, 361)]
        self.assertEqual(self.drops([(now, 9000, 0) for now in range(100, 300)] + later), [360])


@needs_engine
class OddClients(unittest.TestCase):
    def setUp(self):
        self.world = World()
        self.server = Server("--engines", "1", "--patience", "1.5")
        self.addCleanup(self.server.__exit__)
        self.other = Client(self.server.path)
        self.addCleanup(self.other.socket.close)
        for line in self.world.lines():
            self.assertTrue(self.other.tell(line).startswith(b"ok"))

    def test_one_sends_half_a_line_and_dies(self):
        first = self.world.fprs[0]
        for half in (b"drop " + first, b"view p time 5\nask p %s 120 us" % first, b"import c60704",
                     b"dump\n" * 50 + b"ke"):
            with Client(self.server.path) as dying:
                dying.socket.sendall(half)
        self.assertTrue(self.other.tell(b"export " + first).startswith(b"export "))
        self.assertEqual(self.other.tell(b"keys"), b"keys 12")

    def test_a_last_line_without_line_feed_is_none(self):
        with Client(self.server.path) as client:
            client.socket.sendall(b"keys\ndrop " + self.world.fprs[0])
            self.assertTrue(client.end().startswith(b"keys 12\n"))
        self.assertEqual(self.other.tell(b"keys"), b"keys 12")

    def test_one_never_reads(self):
        with Client(self.server.path) as silent:
            threading.Thread(target=self.pour, args=(silent,), daemon=True).start()
            self.server.wait_for(self.is_dropped)

    def is_dropped(self):
        """Whether the silent client is dropped; the other one is answered in any case."""
        self.assertEqual(self.other.tell(b"keys"), b"keys 12")
        return "doesn't read its replies and is disconnected" in self.server.said()

    def pour(self, client):
        """Sends questions for ever, and reads nothing."""
        try:
            while True:
                client.send(*[b"dump"] * 20)
        except OSError:
            pass

    def test_names_of_two_clients_never_meet(self):
        first = self.world.fprs[0]
        with Client(self.server.path) as client:
            self.assertEqual(client.tell(b"view p time 5000"), b"ok")
            self.assertEqual(client.tell(b"view p root %s 120" % first), b"ok")
            for name in (b"p", b"s1-1", b"s2-1", b"s3-1", b"-"):
                self.assertEqual(self.other.tell(b"view %s close" % name), b"refused view")
                self.assertEqual(self.other.tell(b"ask %s %s 120 a" % (name, first)), b"refused view")
            self.assertEqual(self.other.tell(b"view p time 1"), b"ok")
            client.send(b"dump")
            self.assertIn(b"view p time 5000\nview p root %s 120\n" % first, client.end())
        self.other.send(b"dump")
        self.assertTrue(self.other.end().endswith(b"view p time 1\n"))

    def test_a_long_line_is_refused_and_the_next_is_answered(self):
        self.other.send(b"#" * 16_777_217, b"#" * 16_777_216, b"keys 1", b"import " + b"0" * 16_777_209, b"keys 2")
        self.assertEqual([self.other.read_line() for _ in range(4)],
                         [b"refused long", b"refused line", b"refused line", b"refused line"])
        self.other.send(b"import " + b"0" * 16_777_210)
        self.assertEqual(self.other.read_line(), b"refused long")
