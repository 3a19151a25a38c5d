"""Random lines of several clients over a keyring of which an engine may hold ten certificates: each client hears what
one engine says that holds all of them."""

import contextlib
import os
import random
import signal
import threading
import unittest

from bursts import talk_at_once
from outside import Client, Server, cut, expected, needs_engine, with_reply
from world import Chatter, World

BUDGET = 10
REFUSED = b"refused full budget\n"
DEPTHS = (0,) * 27 + (1, 2, 255)
# A change, a lookup, and what goes over a list in batches never pass a budget that has room for the slice.
NEVER_REFUSED = (b"import", b"drop", b"verdict", b"load", b"store", b"export", b"keys", b"pending", b"dump", b"view")


class Asking(Chatter):
    """Lines of a client most of which ask, from views that are open."""

    def lines(self, count):
        front = [line for name in (b"p", b"q", b"a") for line in (
            b"view %s time 5000" % name, b"view %s root %s 120" % (name, self._pick(self._world.fprs)))]
        makers = [self._ask] * 8 + [self._tell] * 8 + [self._change] * 4 + [self._cursor] * 5 + \
            [self._view, self._directory, self._other, self._odd]
        return front + [self._pick(makers)() for _ in range(count)]


@needs_engine
class Scripts(unittest.TestCase):
    def new_world(self, seed):
        return World(seed, 40, DEPTHS)

    def serve(self, *options):
        return Server(*options)

    def talk_all(self, server, world, count, length, seed, between=lambda: None):
        """What clients heard who talk at once, and the lines of each."""
        world.make_directory(server.directory)
        with Client(server.path) as first:
            first.send(*world.lines())
            first.end()
        spoken = {b"keys client-%d" % place: Asking(world, seed * 1000 + place).lines(length) for place in range(count)}
        return spoken, talk_at_once(server.path, spoken, seed, between)

    def check(self, server, world, spoken, heard):
        """Compares reply by reply; gives how many questions were refused for the budget, of how many."""
        self.assertEqual(server.stop(), 0, server.said())
        order, refused, asked = server.order(), 0, 0
        for name, lines in spoken.items():
            sent = [name, *with_reply(lines)]
            own, replies = expected(order, name, len(sent), world.make_directory)
            self.assertEqual(own, sent, server.said())
            told = list(cut(heard[name]))
            self.assertEqual(len(told), len(sent), server.said())
            for line, mine, other in zip(sent, told, cut(replies)):
                asked += other.startswith((b"amount", b"explain", b"absence", b"checked", b"list", b"piece"))
                if mine == REFUSED and other != REFUSED:
                    self.assertFalse(line.startswith(NEVER_REFUSED), line)
                    refused += 1
                else:
                    self.assertEqual(mine, other, (line, server.said()))
        return refused, asked

    def test_several_clients_at_once(self):
        with self.serve("--budget", str(BUDGET)) as server:
            world = self.new_world(1)
            spoken, heard = self.talk_all(server, world, 4, 80, 1)
            self.assertIn("held in slices", server.said())
            refused, asked = self.check(server, world, spoken, heard)
            self.assertGreater(asked, 40)
            self.assertLess(refused, asked)

    def test_a_budget_with_room_for_all_refuses_nothing(self):
        """It is held in slices all the same, since the keyring was larger once."""
        with self.serve("--budget", "39") as server:
            world = self.new_world(3)
            spoken, heard = self.talk_all(server, world, 3, 60, 3)
            self.assertIn("held in slices", server.said())
            refused, asked = self.check(server, world, spoken, heard)
            self.assertEqual(refused, 0)

    def test_engines_that_are_killed(self):
        draw, lock, killed = random.Random(4), threading.Lock(), set()
        with self.serve("--budget", str(BUDGET)) as server:
            def kill():
                """What was under way is answered before the next one is killed: no line meets three ends."""
                with lock:
                    left = set(server.engines()) - killed
                    if left and len(killed) < 5 and draw.random() < 0.3:
                        killed.add(victim := draw.choice(sorted(left)))
                        with contextlib.suppress(ProcessLookupError):
                            os.kill(victim, signal.SIGKILL)
                        with Client(server.path) as client:
                            client.tell(b"verdict %064x bad" % len(killed))

            world = self.new_world(4)
            spoken, heard = self.talk_all(server, world, 3, 80, 4, kill)
            self.check(server, world, spoken, heard)
            self.assertGreater(len(killed), 0)
