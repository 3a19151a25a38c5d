"""Long addresses, of a stranger's certificate and of a client that may only ask: nobody else waits for them."""

import time
import unittest

from outside import PATIENCE, Client, Server, needs_engine
from world import packet, signature

SECONDS = 5  # Each took from 17 to 24 seconds on an idle machine.
# Letters that all differ: a name of these takes longest to spell in ASCII.
HOST = "".join(chr(0x4E00 + place) for place in range(8000))


def certificate(number, user_id):
    long = bytes([0xC0 | 13, 255]) + len(user_id).to_bytes(4, "big") + user_id
    return packet(6, b"\4\0\0\x03\xe8\x1b" + number.to_bytes(2, "big")) + packet(2, signature(0x1F, 1000)) + long


@needs_engine
class LongTexts(unittest.TestCase):
    def quickly(self, client, *lines):
        """The last reply to these lines, which comes soon."""
        begin = time.monotonic()
        client.socket.settimeout(PATIENCE)
        told = [client.tell(line) for line in lines][-1]
        self.assertLess(time.monotonic() - begin, SECONDS)
        return told

    def test_a_subkey_that_is_too_long_for_a_fingerprint(self):
        """The engine takes its certificate, and so does the database, with what else came."""
        subkey = bytes([0xC0 | 14, 255]) + (70_001).to_bytes(4, "big") + b"\4" + bytes(70_000)
        lines = [b"import " + (certificate(number, b"x") + more).hex().encode()
                 for number, more in ((1, b""), (2, subkey), (3, b""))]
        with Server() as server, Client(server.path) as client:
            client.send(*lines)
            # New are the key, its signature and the user ID, and once the subkey.
            self.assertEqual([client.read_line() for _ in lines],
                             [b"ok taken 1 skipped 0 new %d" % count for count in (3, 4, 3)])
            self.assertEqual(client.tell(b"keys"), b"keys 3")
            self.assertEqual(server.said(), "")

    def test_a_lookup(self):
        sought = "a@" + HOST
        with Server() as server, Client(server.path) as one, Client(server.path) as other:
            one.send(b"service find address " + sought.encode())
            self.assertEqual(self.quickly(other, b"keys", b"service find address carol@example.org"),
                             b"service find 0")
            self.assertEqual(one.read_line(), b"service find 0")

    def test_an_import(self):
        user_id = f"Carol <a@{HOST}>".encode()
        with Server() as server, Client(server.path) as one, Client(server.path) as other:
            one.send(b"import " + certificate(1, user_id).hex().encode())
            plain = b"import " + certificate(2, b"Bob <bob@example.org>").hex().encode()
            self.assertTrue(self.quickly(other, plain).startswith(b"ok taken 1 "))
            self.assertTrue(one.read_line().startswith(b"ok taken 1 "))
            self.assertEqual(self.quickly(other, b"service find address bob@example.org"), b"service find 1")
