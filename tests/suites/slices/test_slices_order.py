"""A client's lines keep their order while the service looks whether an engine still has room for the keyring."""

import unittest

from outside import Client, Server, alone, needs_engine
from test_slices_lines import lines_of, tell_all
from world import World, fingerprint, packet

BUDGET = 5


def key_of(number):
    return b"\4\0\0\x03\xe8\x1b" + number.to_bytes(4, "big")


def imported(number):
    """A line that imports a certificate of this number."""
    return b"import " + (packet(6, key_of(number)) + packet(13, b"user %d" % number)).hex().encode()


@needs_engine
class Order(unittest.TestCase):
    def check(self, before, lines):
        """One client sends these lines at once, behind others that were answered. It gets what the engine alone says,
        and that is kept."""
        with Server("--budget", str(BUDGET)) as server, Client(server.path) as client:
            tell_all(client, before)
            client.send(*lines)
            replies = [client.read_line() for _ in lines]
            kept = lines_of(client, b"dump")
            self.assertEqual(server.stop(), 0)
            self.assertEqual([line for _, line in server.order() if line != b"dump"], [*before, *lines])
        *told, dump = alone([*before, *lines, b"dump"])[len(before):]
        self.assertEqual(replies, [reply.rstrip(b"\n") for reply in told])
        self.assertEqual(kept, dump.splitlines())

    def test_at_the_budget(self):
        """The import has the keyring held in slices; the drop behind it is made behind it."""
        world = World(count=BUDGET + 1)
        last = world.imports[-1]
        drop = b"drop " + world.fprs[-1]
        self.check(world.imports[:-5], [last, drop, last, drop, last, b"export " + world.fprs[-1], drop])

    def test_where_the_keyring_is_measured_anew(self):
        """The same few certificates come again and again: engines have room, as is found out with the last one."""
        one, other = imported(0), imported(1)
        drop = b"drop " + fingerprint(key_of(0))
        self.check([one] * BUDGET, [one, drop, other, drop] * 4)

    def test_of_many_clients(self):
        """Each has sent an import and a drop, while the keyring is measured for one of them."""
        with Server("--budget", str(BUDGET)) as server:
            with Client(server.path) as client:
                tell_all(client, [imported(number) for number in range(BUDGET)])
            clients = [self.enterContext(Client(server.path)) for _ in range(8)]
            world = World(count=8)
            for place, client in enumerate(clients):
                client.send(*[world.imports[5 * place], b"drop " + world.fprs[place]] * 20)
            for client in clients:
                self.assertEqual([client.read_line()[:2] for _ in range(40)], [b"ok"] * 40)
            with Client(server.path) as client:
                self.assertEqual(client.tell(b"keys"), b"keys %d" % BUDGET)

    def test_a_key_that_has_no_fingerprint(self):
        """The length of a key of version 4 takes two octets of what is hashed, so the engine skips a longer one. The
        service, which measures the keyring for each of them once engines might be full, does too."""
        long = b"\4\0\0\x03\xe8\x1b" + bytes(1 << 16)
        octets = b"\xc6\xff" + len(long).to_bytes(4, "big") + long + packet(13, b"user 1")
        line = b"import " + octets.hex().encode()
        both = line + imported(2)[7:]
        self.check([], [line] * (BUDGET + 2) + [both, imported(1)])
