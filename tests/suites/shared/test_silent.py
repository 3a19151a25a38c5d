"""A server that takes a connection, and is stopped at one of the statements before the first turn on it."""

import time

from alone_cluster import OneServer
from outside import Client
from relay import Relay
from talking import change

BOUND = 60  # Seconds: no connection takes longer than five, no change longer than twelve, on a machine that is busy.
# Statements of each connection, of the one that changes something, and of the one that hears of changes.
LISTENING = b"LISTEN"
WORDS = (b"synchronous_commit', 'on", b"handed_in", b"to_regclass", LISTENING, b"FOR UPDATE")


class Silent(OneServer):
    options = ()

    def setUp(self):
        super().setUp()
        self.relay = Relay(self.addCleanup, self.cluster.port)
        self.url = self.url.replace(f":{self.cluster.port}/", f":{self.relay.port}/")

    def reply_while_held(self, client, line):
        """The reply to a change once a connection has come to that statement. Before that it may be refused because no
        connection is there."""
        end = time.monotonic() + BOUND
        while True:
            reply = client.tell(line)
            if self.relay.held.is_set():
                return reply
            self.assertLess(time.monotonic(), end)
            time.sleep(0.05)

    def test_each_change_is_answered(self):
        """Whichever statement it is, a change is answered within a bound, and made once the server goes on."""
        server = self.serve(*self.options)
        change(server, self.world.imports[:1])
        for place, word in enumerate(WORDS):
            with self.subTest(word=word), Client(server.path) as client:
                self.relay.held.clear()
                self.relay.watch = lambda message, word=word: word in message
                self.relay.end_all()
                client.socket.settimeout(BOUND)
                reply = self.reply_while_held(client, self.world.imports[place + 1])
                if word != LISTENING:  # That connection isn't the one that changes something.
                    self.assertEqual(reply, b"fault database")
                self.relay.watch = lambda message: False
                change(server, self.world.imports[place + 1:place + 2])


class SlicedSilent(Silent):
    options = ("--budget", "3")
