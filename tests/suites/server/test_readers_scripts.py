"""Random lines of many clients over several readers: each client hears what one engine would say."""

import os
import random
import signal
import threading
import unittest

from bursts import talk_at_once
from outside import Client, alone, cut, needs_engine, with_reply
from reading import ReadServer, Replay, is_refused
from world import Chatter, World

READERS = 3


def lines_of(chatter, count):
    """A dump has all that is committed when it is read, which may be more than its reader has by then."""
    return [line for line in chatter.lines(count) if line != b"dump"]


@needs_engine
class Scripts(unittest.TestCase):
    may_refuse = False  # Whether the database may be too slow for a change.

    def serve(self):
        return ReadServer(READERS)

    def new_world(self, seed):
        return World(seed)

    def new_chatter(self, world, seed, place):
        return Chatter(world, seed, 12 if place < 4 else 0)

    def talk_all(self, server, count, length, seed, between=lambda: None):
        world = self.world = self.new_world(seed)
        world.make_directory(server.directory)
        first = b"keys first"
        with Client(server.path) as client:
            client.send(first, *world.lines())
            heard = {first: client.end()}
        spoken = {b"keys client-%d" % place: lines_of(self.new_chatter(world, 1000 * seed + place, place), length)
                  for place in range(count)}
        return {first: world.lines(), **spoken}, heard | talk_at_once(server.path, spoken, seed, between)

    def check(self, server, spoken, heard, is_cut=False):
        """Compares reply by reply; of a client that was cut those that it got whole. Gives how many there were."""
        talks, compared = {}, 0
        for name, lines in spoken.items():
            sent = [name, *with_reply(lines)]
            mine = list(whole_replies(heard[name])) if is_cut else list(cut(heard[name]))
            if not is_cut:
                self.assertEqual(len(mine), len(sent), server.said())
            talks[name] = sent[:len(mine)], mine
        self.replay = Replay(server, talks, self.world.make_directory)
        for name, (sent, mine) in talks.items():
            for line, one, other in zip(sent, mine, self.replay.told(name) if mine else []):
                self.assertTrue(self.may_refuse or not is_refused(line, one), server.said())
                self.compare(line, one, other)
            compared += len(mine)
        return compared

    def compare_dumps(self, server, dump):
        *_, last = alone([*self.replay.changes, b"dump"], server.directory)
        self.assertEqual(last.splitlines()[1:], dump.splitlines())

    def compare(self, line, mine, other):
        self.assertEqual(mine, other, line)

    def dumps(self, server):
        """What each reader dumps, and the service."""
        found = set()
        for _ in range(2 * READERS):
            with Client(server.path) as client:
                client.send(b"dump")
                found.add(b"\n".join(client.read_line() for _ in range(int(client.read_line().split(b" ")[1]))))
        return found

    def test_many_clients_at_once(self):
        with self.serve() as server:
            spoken, heard = self.talk_all(server, 20, 40, 1)
            (dump,) = self.dumps(server)
            self.assertEqual(server.stop(), 0, server.said())
            self.assertEqual(len(server.orders()), READERS)
            compared = self.check(server, spoken, heard)
            self.assertGreater(compared, 780)
            self.compare_dumps(server, dump)

    def test_readers_that_are_killed(self):
        """Clients of a reader that is killed are disconnected. What they had heard by then is right, and so is what all
        others hear."""
        killed, lock, draw = [], threading.Lock(), random.Random(7)
        with self.serve() as server:
            first = server.reader_pids()[0]

            def kill():
                with lock:
                    if len(killed) < 4 and draw.random() < 0.05:
                        victims = [pid for pid in server.reader_pids() if pid != first and pid not in killed]
                        if victims:
                            killed.append(victims[0])
                            os.kill(victims[0], signal.SIGKILL)

            spoken, heard = self.talk_all(server, 20, 60, 2, kill)
            self.assertGreater(len(killed), 1)
            server.wait_for(server._is_there)  # All are there again.
            (_,) = self.dumps(server)
            self.assertEqual(server.stop(), 0, server.said())
            self.assertGreater(self.check(server, spoken, heard, is_cut=True), 480)
            self.assertIn("another one takes its place", server.said())


def whole_replies(octets):
    """The replies of a transcript that may have been cut."""
    replies = cut(octets[:octets.rfind(b"\n") + 1])
    while True:
        try:
            reply = next(replies)
        except (StopIteration, RuntimeError):  # The last one isn't whole.
            return
        yield reply
