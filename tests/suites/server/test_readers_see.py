"""Once a change has its reply, every later line of every client sees it, whichever process answers."""

import threading
import time
import unittest

from outside import Client, needs_engine
from reading import ReadServer
from world import World, fingerprint, packet

READERS = 3


def long_line():
    """An import of half a MB, and a line that drops it again."""
    key = b"\4\0\0\x03\xe8\x1b\xff\xff"
    octets = packet(6, key) + packet(13, b"user long")
    octets += b"\xd1\xff" + (1 << 19).to_bytes(4, "big") + bytes(1 << 19)
    return b"import " + octets.hex().encode(), b"drop " + fingerprint(key)


@needs_engine
class Seen(unittest.TestCase):
    """One verdict alone decides whether a binding is authenticated. It is changed again and again."""

    tries = 1200
    may_refuse = False  # Whether the database may be too slow for a change, which is then sent again.

    def serve(self):
        return ReadServer(READERS)

    def new_world(self):
        return World(seed=3)

    def begin(self, server):
        """Makes the world known. The verdict is on the first certification of the first key, whose issuer is the root
        of all views; no other one on that key counts."""
        world = self.new_world()
        self.number, root = world.verdicts[1]
        self.view = [b"view p time 5000", b"view p root %s 120" % root]
        self.question = b"ask p %s 1 %s" % (world.fprs[0], world.user_ids[0])
        self.root = root
        with Client(server.path) as client:
            others = [one for place, one in enumerate(world.verdicts) if not 1 <= place <= 5]
            client.send(*world.imports, *[b"verdict %s good %s" % one for one in others])
            client.end()
        self.begun = self.done = 0

    def client(self, server):
        client = self.enterContext(Client(server.path))
        for line in self.view:
            self.assertEqual(client.tell(line), b"ok")
        return client

    def change(self, client):
        """Changes the verdict: behind an odd number of changes it is good."""
        self.begun += 1
        said = b"good " + self.root if self.begun % 2 else b"bad"
        while (reply := client.tell(b"verdict %s %s" % (self.number, said))) == b"fault database" and self.may_refuse:
            time.sleep(0.05)
        self.assertEqual(reply, b"ok")
        self.done += 1

    def is_good(self, client):
        amount = client.tell(self.question).split(b" ")
        self.assertEqual(amount[0], b"amount")
        return int(amount[1]) > 0

    def ask_on(self, server, ended, wrong, asked):
        """Asks without a pause: where no change was under way meanwhile, the answer is known."""
        with Client(server.path) as client:
            for line in self.view:
                client.tell(line)
            while not ended.is_set():
                before = self.done
                is_good = self.is_good(client)
                if self.begun == before:
                    asked.append(before)
                    if is_good != bool(before % 2):
                        wrong.append(before)

    def test_each_change_is_seen_at_once_by_all(self):
        with self.serve() as server:
            self.begin(server)
            clients = [self.client(server) for _ in range(2 * READERS)]
            ended, wrong, asked = threading.Event(), [], []
            noise = [threading.Thread(target=self.ask_on, args=(server, ended, wrong, asked)) for _ in range(READERS)]
            for thread in noise:
                thread.start()
            try:
                for turn in range(self.tries):
                    self.change(clients[turn % len(clients)])
                    self.check_all(clients)
            finally:
                ended.set()
                for thread in noise:
                    thread.join()
            self.assertEqual(wrong, [])
            self.assertGreater(len(asked), self.tries)
            self.assertEqual(server.status()[b"readers"], b"%d" % READERS)
            self.assertEqual(server.stop(), 0, server.said())

    def check_all(self, clients):
        """Has all ask at once."""
        for client in clients:
            client.send(self.question)
        for client in clients:
            self.assertEqual(client.read_reply().split(b" ")[1] != b"0", bool(self.done % 2))

    def test_a_change_behind_a_long_one(self):
        """A long line takes a while on its way from process to process; the replies don't wait for that."""
        with self.serve() as server:
            self.begin(server)
            clients = [self.client(server) for _ in range(2 * READERS)]
            long, drop = long_line()
            for turn in range(100):
                changing = clients[turn % len(clients)]
                self.begun += 1
                said = b"good " + self.root if self.begun % 2 else b"bad"
                changing.send(long, b"verdict %s %s" % (self.number, said))
                self.assertEqual([changing.read_line()[:2] for _ in range(2)], [b"ok"] * 2)
                self.done += 1
                self.check_all(clients)
                self.assertEqual(changing.tell(drop), b"ok")

    def test_lines_sent_together_keep_their_order(self):
        """A question behind a change, in one go, sees it; and one before it doesn't."""
        with self.serve() as server:
            self.begin(server)
            client = self.client(server)
            good, bad = (b"verdict %s %s" % (self.number, said) for said in (b"good " + self.root, b"bad"))
            for _ in range(100):
                client.send(self.question, good, self.question, bad, self.question)
                replies = [client.read_reply() for _ in range(5)]
                self.assertEqual([reply.split(b" ")[:2] for reply in (replies[0], replies[4])],
                                 [[b"amount", b"0"]] * 2)
                self.assertEqual([replies[1], replies[3]], [b"ok", b"ok"])
                self.assertNotEqual(replies[2].split(b" ")[:2], [b"amount", b"0"])

    def test_what_was_looked_up_is_seen_by_later_lines(self):
        """A lookup reads the database, which has a change before anybody has its reply."""
        with self.serve() as server:
            self.begin(server)
            one, *others = [self.client(server) for _ in range(READERS + 1)]
            first = self.newest(one)
            for _ in range(200):
                changing = threading.Thread(target=self.change, args=(one,))
                expected = first + self.done + 1
                changing.start()
                for other in others:  # Each asks as soon as its own lookup has it.
                    while self.newest(other) < expected:
                        pass
                    self.assertEqual(self.is_good(other), bool((expected - first) % 2))
                changing.join()

    @staticmethod
    def newest(client):
        """The number of the last change."""
        client.send(b"service log 1")
        client.read_line()
        return int(client.read_line().split(b" ")[1])


if __name__ == "__main__":
    unittest.main()
