"""What one user may have of a service with readers, and what others get meanwhile."""

import contextlib
import threading
import time

import test_quotas
from outside import SERVER, Client, needs_engine
from reading import ReadServer

READERS = 2
ROOM = 65_536  # A user's views and their roots.
LONGEST = 5.0  # Seconds: however busy the machine is.


@needs_engine
class Together(test_quotas.Shares):
    def serve(self, *options, **named):
        return ReadServer(READERS, *options, **named)

    def test_connections(self):
        """One user has half of all, whatever readers they are at; those that have ended count no more."""
        self.begin(program=test_quotas.limited(self.folder, 256), environment={"LIMITED": str(SERVER)})
        strangers, refused = [self.stranger() for _ in range(60)], 0
        for one in strangers:
            with contextlib.suppress(OSError):
                one.send(b"keys")
            refused += one.read_line() == test_quotas.FULL_CLIENTS
        self.assertGreater(refused, 20)
        self.assertLess(refused, 60)
        self.assertLess(self.seconds(self.ask()), LONGEST)
        for one in strangers:
            one.socket.close()
        self.server.wait_for(lambda: self.stranger().tell(b"keys") == b"keys 12")

    def test_views(self):
        """Each reader has its part of a user's views and roots. It gets two of these clients at least."""
        self.begin()
        lines = [b"view v%d time 5" % view for view in range(256)]
        lines += [b"view v%d root %040x 9" % (view, root) for view in range(256) for root in range(64)]
        told = []
        for client in [self.stranger() for _ in range(3 * READERS)]:
            client.send(*lines)
            told += [client.read_line() for _ in lines]
        self.assertEqual(told.count(b"ok"), ROOM)
        for client in [self.stranger() for _ in range(READERS)]:
            self.assertEqual(client.tell(b"view v time 5"), b"refused full views")
        self.assertEqual(self.client.tell(b"view mine time 5"), b"ok")

    def test_others_are_answered(self):
        """While one user asks as much as it can at all readers, another one's questions and changes take little."""
        self.begin()
        own = [self.client, *(self.enterContext(Client(self.server.path)) for _ in range(READERS - 1))]
        for client in own[1:]:
            self.assertEqual([client.tell(line) for line in self.view], [b"ok"] * len(self.view))
        ended, answered = threading.Event(), []
        flood = [threading.Thread(target=self.ask_on, args=(self.stranger(), ended, answered), daemon=True)
                 for _ in range(30)]
        for thread in flood:
            thread.start()
        longest, end = 0.0, time.monotonic() + 4
        while time.monotonic() < end:
            for client in own:
                begun = time.monotonic()
                self.assertEqual(client.tell(self.ask())[:6], b"amount")
                self.assertEqual(client.tell(b"verdict %064x bad" % time.monotonic_ns()), b"ok")
                longest = max(longest, time.monotonic() - begun)
        ended.set()
        for thread in flood:
            thread.join()
        self.assertLess(longest, LONGEST)
        self.assertGreater(len(answered), 100)

    def ask_on(self, client, ended, answered):
        """Asks without reading between, all that takes long."""
        kinds = [b"explain p %s %s" % (self.world.fprs[1], self.world.user_ids[1]), b"list p 1",
                 b"absence p %s 120 %s" % (self.world.fprs[1], self.world.user_ids[1]),
                 b"service find part user", self.ask()]
        client.send(*self.view)
        with contextlib.suppress(OSError):
            while not ended.is_set():
                client.send(*kinds * 10)
                client.socket.settimeout(LONGEST)
                answered.append(client.socket.recv(1 << 16))
        client.socket.close()
