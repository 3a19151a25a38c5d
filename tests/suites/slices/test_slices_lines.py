"""What one client hears of a keyring that an engine can't hold whole: lists, refusals, watches, cursors, status."""

import unittest

from outside import Client, Server, alone, needs_engine
from world import World, number, packet, signature

NOW, MADE = b"5000", 2000
REFUSED = b"refused full budget"


class Chain:
    """Keys in a row. Each has certified the next one, those before `introducers` with depth; each has a
    self-certification too, so that it can be a target."""

    def __init__(self, count, introducers):
        self.world = World(1, count)
        self.fprs, self.user_ids = self.world.fprs, self.world.user_ids
        self.lines = []
        for place in range(count):
            issuers = [(place, b"")] + ([(place - 1, bytes([3, 5, 200, 120]) if place <= introducers else b"")]
                                        if place else [])
            for issuer, trust in issuers:
                self.lines += self.certify(place, issuer, trust)

    def certify(self, place, issuer, trust=b"", kind=0x10):
        """The lines by which a key certifies another."""
        key, user_id = self.world.keys[place], self.user_ids[place]
        body = signature(kind, MADE, trust + b"\x16\x21\x04" + bytes.fromhex(self.fprs[issuer].decode()))
        octets = packet(6, key) + packet(13, user_id) + packet(2, body)
        return [b"import " + octets.hex().encode(),
                b"verdict %s good %s" % (number(key, 1, user_id, body), self.fprs[issuer])]

    def ask(self, place, view=b"p", word=b"ask"):
        return b"%s %s %s 120 %s" % (word, view, self.fprs[place], self.user_ids[place])

    def view(self, place, view=b"p"):
        return [b"view %s time %s" % (view, NOW), b"view %s root %s 120" % (view, self.fprs[place])]


def lines_of(client, line):
    """The lines of a reply that says how many follow."""
    client.send(line)
    head = client.read_line()
    return [head, *(client.read_line() for _ in range(int(head.split(b" ")[-1])))]


def tell_all(client, lines):
    """Sends lines ahead of their replies, each of which is one line that begins with `ok`."""
    client.send(*lines)
    for line in lines:
        reply = client.read_line()
        if not reply.startswith(b"ok"):
            raise AssertionError(f"{line!r} was answered with {reply!r}")


@needs_engine
class Budgets(unittest.TestCase):
    """Twenty keys in a row. The first eight are introducers for the key before: from the first one, nine are reached by
    trust signatures."""

    def setUp(self):
        self.chain = Chain(20, 8)
        self.server = self.enterContext(Server("--budget", "10"))
        self.client = self.enterContext(Client(self.server.path))
        tell_all(self.client, [*self.chain.lines, *self.chain.view(0)])

    def alone(self, *lines):
        """What one engine says to the last of these lines."""
        return alone([*self.chain.lines, *self.chain.view(0), *lines])[-1].splitlines()

    def test_status(self):
        for line in (self.chain.ask(3), self.chain.ask(15)):
            self.client.tell(line)
        status = dict(line.split(b" ", 1) for line in lines_of(self.client, b"service status")[1:])
        self.assertEqual((status[b"loaded"], status[b"budget"], status[b"certificates"]), (b"10", b"10", b"20"))
        self.assertEqual((status[b"pending"], status[b"state"]), (b"0", b"ok"))

    def test_a_slice_that_fits(self):
        """Nine members and a target: ten."""
        for place in range(20):
            line = self.chain.ask(place)
            self.client.send(line)
            for expected in self.alone(line):
                self.assertEqual(self.client.read_line(), expected)

    def test_a_slice_that_doesnt_fit(self):
        """Two members more: eleven, and a target within is no better."""
        for line in self.chain.certify(9, 8, bytes([3, 5, 200, 120]), 0x11) + \
                self.chain.certify(10, 9, bytes([3, 5, 200, 120]), 0x11):
            self.client.tell(line)
        for line in (self.chain.ask(3), self.chain.ask(15), b"list p 120", self.chain.ask(10, word=b"absence"),
                     b"watch w on p %s 120 %s" % (self.chain.fprs[3], self.chain.user_ids[3])):
            self.assertEqual(self.client.tell(line), REFUSED, line)
        for line in (b"ask p %s 0 x" % self.chain.fprs[3], b"absence p %s 120" % self.chain.fprs[3], b"list p 0"):
            self.assertEqual(self.client.tell(line), b"refused line", line)
        self.assertEqual(self.client.tell(b"cursor c over p 120"), b"ok")
        self.assertEqual(self.client.tell(b"cursor c next 1"), REFUSED)
        for line in self.chain.view(5, b"q"):
            self.client.tell(line)
        self.assertRegex(self.client.tell(self.chain.ask(9, b"q")), b"^amount 120 ")

    def test_a_list_and_a_cursor(self):
        told = self.alone(b"list p 120")
        self.assertEqual(len(told), 11)
        self.assertEqual(lines_of(self.client, b"list p 120"), told)
        self.assertEqual(self.client.tell(b"cursor c over p 120"), b"ok")
        pieces = [lines_of(self.client, b"cursor c next 4") for _ in range(4)]
        self.assertEqual([piece[0] for piece in pieces], [b"piece 4", b"piece 4", b"piece 2", b"piece 0"])
        self.assertEqual([line for piece in pieces for line in piece[1:]], told[1:])
        self.client.tell(b"verdict %064x bad" % 1)
        self.assertRegex(self.client.tell(b"cursor c next 1"), b"^stale keyring [0-9]+ [0-9]+$")

    def test_absence_needs_no_slice(self):
        """Ten keys lead to the tenth. The slice would be eleven, with an introducer that leads nowhere."""
        more = self.chain.certify(10, 9, bytes([3, 5, 200, 120]), 0x11) + \
            self.chain.certify(9, 8, bytes([3, 5, 200, 120]), 0x11)
        for line in more:
            self.client.tell(line)
        self.assertEqual(self.client.tell(self.chain.ask(9)), REFUSED)
        for wanted in (b"120", b"121"):
            line = b"absence p %s %s %s" % (self.chain.fprs[9], wanted, self.chain.user_ids[9])
            expected = self.alone(*more, line)
            self.client.send(line)
            self.assertEqual([self.client.read_line() for _ in expected], expected)

    def test_absence_and_check(self):
        """Nothing leads to the first key but its own certification; all leads to the last introducer."""
        absent = self.alone(b"absence p %s 121 %s" % (self.chain.fprs[9], self.chain.user_ids[9]))
        self.client.send(b"absence p %s 121 %s" % (self.chain.fprs[9], self.chain.user_ids[9]))
        self.assertEqual([self.client.read_line() for _ in absent], absent)
        claim = absent[1].removeprefix(b"claim ")
        check = b"check p %s %s %s" % (self.chain.fprs[9], claim, self.chain.user_ids[9])
        self.assertEqual(self.client.tell(check), self.alone(check)[0])
        self.assertEqual(self.alone(check), [b"checked yes 120"])

    def test_a_line_that_brings_more_than_the_budget(self):
        octets = b"".join(packet(6, b"\4\0\0\x03\xe8\x1b\xff" + bytes([place])) for place in range(11))
        self.assertEqual(self.client.tell(b"import " + octets.hex().encode()), REFUSED)
        self.assertRegex(self.client.tell(b"import " + octets[:-10].hex().encode()), b"^ok taken 10 ")

    def test_watches(self):
        """Changes are reported that concern the target, a member of the slice, or what a new member brings in."""
        with Client(self.server.path) as other:
            self.assertEqual(self.client.tell(b"watch w on p %s 120 %s" % (self.chain.fprs[9], self.chain.user_ids[9])),
                             b"watch w amount 120")
            for verdict in (self.chain.certify(9, 8)[1], self.chain.certify(4, 3, bytes([3, 5, 200, 120]))[1]):
                self.assertTrue(verdict.startswith(b"verdict "))
                other.tell(b"%s bad" % verdict.rpartition(b" good ")[0])
                self.assertEqual(self.client.read_line(), b"watch w amount 0")
                other.tell(verdict)
                self.assertEqual(self.client.read_line(), b"watch w amount 120")
            self.assertEqual(self.client.tell(b"view p root %s 60" % self.chain.fprs[0]), b"ok")
            self.assertEqual(self.client.read_line(), b"watch w amount 60")
            self.assertEqual(self.client.tell(b"view p close"), b"ok")
            self.assertEqual(self.client.read_line(), b"watch w gone")
            self.assertEqual(self.client.tell(b"watch w off"), b"refused watch")


@needs_engine
class Growing(unittest.TestCase):
    """A keyring that grows past the budget while clients have watches and cursors."""

    def test_watches_and_cursors_go_on(self):
        chain = Chain(12, 2)
        with Server("--budget", "11", "--engines", "2") as server, Client(server.path) as client:
            tell_all(client, [*chain.lines[:-4], *chain.view(0)])
            self.assertEqual(client.tell(b"watch w on p %s 120 %s" % (chain.fprs[3], chain.user_ids[3])),
                             b"watch w amount 120")
            self.assertEqual(client.tell(b"cursor c over p 120"), b"ok")
            first = lines_of(client, b"cursor c next 1")
            self.assertNotIn("held in slices", server.said())
            # What is refused makes no cursor stale, but only the engine knows that.
            octets = b"".join(packet(6, b"\4\0\0\x03\xe8\x1b\xff" + bytes([place])) for place in range(3))
            self.assertRegex(client.tell(b"import " + (octets + packet(11, b"")).hex().encode()), b"^refused kind 11 ")
            self.assertIn("held in slices", server.said())
            rest = lines_of(client, b"cursor c next 9")
            self.assertEqual(first[1:] + rest[1:], alone([*chain.lines[:-4], *chain.view(0), b"list p 120"])[-1]
                             .splitlines()[1:])
            tell_all(client, chain.lines[-4:])
            verdict = chain.certify(1, 0, bytes([3, 5, 200, 120]))[1]
            for line, amount in ((verdict.rpartition(b" good ")[0] + b" bad", b"0"), (verdict, b"120")):
                self.assertEqual(client.tell(line), b"ok")
                self.assertEqual(client.read_line(), b"watch w amount " + amount)
            self.assertEqual(client.tell(b"drop " + chain.fprs[3]), b"ok")
            self.assertEqual(client.read_line(), b"watch w amount 0")
            self.assertEqual(client.tell(b"keys"), b"keys 11")
            self.assertEqual(server.stop(), 0)

    def test_a_restart_finds_it_sliced(self):
        chain = Chain(12, 2)
        with Server("--budget", "5") as server:
            with Client(server.path) as client:
                client.send(*chain.lines)
                client.end()
            self.assertEqual(server.stop(), 0)
            with Server("--budget", "5", folder=server.folder) as again, Client(again.path) as client:
                self.assertNotIn("held in slices", again.said())
                tell_all(client, chain.view(0))
                self.assertRegex(client.tell(chain.ask(3)), b"^amount 120 ")
                self.assertEqual(client.tell(b"keys"), b"keys 12")
                client.send(b"dump")
                self.assertEqual(client.end().splitlines()[1:-2], alone([*chain.lines, b"dump"])[-1].splitlines()[1:])
