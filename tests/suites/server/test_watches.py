"""Watches through the server: each client hears its own, whoever changes what they rest on."""

import os
import signal
import unittest

from outside import Client, Server, needs_engine
from world import World

TARGET = 4


@needs_engine
class Watches(unittest.TestCase):
    """One client watches what another changes."""

    def setUp(self):
        self.world = World()
        self.server = self.enterContext(Server("--engines", "2"))
        with Client(self.server.path) as first:
            first.send(*self.world.lines())
            first.end()

    def client(self, name):
        client = self.enterContext(Client(self.server.path, name))
        self.assertEqual(client.tell(b"view p time 5000"), b"ok")
        self.assertEqual(client.tell(b"view p root %s 120" % self.world.fprs[0]), b"ok")
        return client

    def on(self, watch, view=b"p", target=TARGET):
        return b"watch %s on %s %s 120 %s" % (watch, view, self.world.fprs[target], self.world.user_ids[target])

    def drop_and_import(self):
        """A line that takes the target's certificate out, and those that bring it back."""
        key = self.world.keys[TARGET].hex().encode()
        return b"drop " + self.world.fprs[TARGET], [line for line in self.world.imports if key in line]

    def hears(self, client, last):
        """The client gets amounts of its watch, the last of which is this."""
        while (told := client.read_line()) != last:
            self.assertRegex(told, rb"^watch w amount [0-9]+$")

    def test_others_changes(self):
        mine, other = self.client(b"keys mine"), self.client(b"keys other")
        amount = mine.tell(self.on(b"w"))
        self.assertRegex(amount, rb"^watch w amount [1-9][0-9]*$")
        self.assertEqual(other.tell(self.on(b"w")), amount)
        self.assertEqual(other.tell(b"watch w off"), b"ok")
        gone, back = self.drop_and_import()
        self.assertEqual(other.tell(gone), b"ok")
        self.assertEqual(mine.read_line(), b"watch w amount 0")
        for line in back:
            other.tell(line)
        self.hears(mine, amount)
        self.assertEqual(other.tell(b"keys"), b"keys %d" % len(self.world.keys))

    def test_own_changes(self):
        mine = self.client(b"keys mine")
        amount = mine.tell(self.on(b"w"))
        gone, _ = self.drop_and_import()
        self.assertNotEqual(amount, b"watch w amount 0")
        self.assertEqual([mine.tell(b"view p time 1"), mine.read_line()], [b"ok", b"watch w amount 0"])
        self.assertEqual([mine.tell(b"view p time 5000"), mine.read_line()], [b"ok", amount])
        self.assertEqual([mine.tell(gone), mine.read_line()], [b"ok", b"watch w amount 0"])
        self.assertEqual(mine.tell(self.on(b"w")), b"watch w amount 0")
        self.assertEqual([mine.tell(b"view p close"), mine.read_line()], [b"ok", b"watch w gone"])
        mine.send(b"watch w off", b"watch w on p", b"?")
        self.assertEqual(mine.end().splitlines(), [b"refused watch", b"refused line", b"refused line"])

    def test_refusals(self):
        mine = self.client(b"keys mine")
        self.assertEqual(mine.tell(self.on(b"w", b"q")), b"refused view")
        self.assertEqual(mine.tell(b"watch w off"), b"refused watch")
        self.assertEqual(mine.tell(b"watch w off "), b"refused line")
        self.assertEqual(mine.tell(b"watch W off"), b"refused line")
        for place in range(64):
            self.assertRegex(mine.tell(self.on(b"w%d" % place)), rb"^watch w%d amount " % place)
        self.assertEqual(mine.tell(self.on(b"w64")), b"refused full watches")
        self.assertRegex(mine.tell(self.on(b"w63", target=5)), rb"^watch w63 amount ")
        self.assertEqual(mine.tell(b"watch w0 off"), b"ok")
        self.assertRegex(mine.tell(self.on(b"w64")), rb"^watch w64 amount ")

    def test_a_watch_of_another_view(self):
        """Restarted over a view that another engine has, the watch is there once."""
        mine = self.client(b"keys mine")
        self.assertEqual(mine.tell(b"view q time 5000"), b"ok")
        self.assertRegex(mine.tell(self.on(b"w")), rb"^watch w amount [1-9]")
        self.assertEqual(mine.tell(self.on(b"w", b"q")), b"watch w amount 0")
        gone, _ = self.drop_and_import()
        mine.send(gone, b"view p close", b"keys")
        self.assertEqual([mine.read_line() for _ in range(3)], [b"ok", b"ok", b"keys %d" % (len(self.world.keys) - 1)])

    def test_an_engine_that_is_killed(self):
        mine, other = self.client(b"keys mine"), self.client(b"keys other")
        amount = mine.tell(self.on(b"w"))
        gone, back = self.drop_and_import()
        for engine in self.server.engines():
            os.kill(engine, signal.SIGKILL)
        self.assertEqual(other.tell(gone), b"ok")
        self.assertEqual(mine.read_line(), b"watch w amount 0")
        for line in back:
            other.tell(line)
        self.hears(mine, amount)
        self.assertEqual(mine.tell(b"watch w off"), b"ok")


if __name__ == "__main__":
    unittest.main()
