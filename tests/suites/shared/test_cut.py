"""Three machines, one of which is cut off with the primary on it."""

import contextlib
import time
import unittest
from functools import partial

from clusters import needs_postgres, wait_for
from electing import Member, needs_patroni
from network import Network, needs_namespaces
from outside import Client, needs_engine
from talking import Writer, check_kept, serve, status_of


@needs_engine
@needs_postgres
@needs_patroni
@needs_namespaces
class Cut(unittest.TestCase):
    def setUp(self):
        self.network = Network(self.addCleanup, 3)
        self.members = Member.start_three(self.addCleanup, [
            (self.network.at(place), partial(self.network.inside, place)) for place in range(3)])
        self.stack = contextlib.ExitStack()
        self.addCleanup(self.stack.close)
        self.servers = []
        for member in self.members:
            with member.inside():
                self.servers.append(self.stack.enter_context(serve(Member.url(self.members))))

    def check_what_is_known(self, server, cut):
        """The service beside the primary that was cut off says at once that its answers grow old, also while that
        still takes itself for the primary."""
        while (passed := time.monotonic() - cut) < 15:
            status = status_of(server)
            self.assertGreater(int(status[b"age"]), passed - 2.5)
            if passed > 5:
                self.assertNotEqual(status[b"state"], b"ok")
            time.sleep(0.3)

    def test_the_smaller_side_refuses_and_answers(self):
        place = self.members.index(Member.primary_of(self.members))
        small, large = self.servers[place], self.servers[place - 1]
        writers = [Writer(server, name, pause=0.1) for server, name in ((small, "small"), (large, "large"))]
        for writer in writers:
            self.addCleanup(writer.end)
            writer.start()
        for writer in writers:
            writer.wait_for(5)
        self.network.cut(place)
        cut, kept = time.monotonic(), len(writers[0].kept)
        self.check_what_is_known(small, cut)
        wait_for(lambda: writers[0].refused)
        writers[1].wait_for(3)
        print(f"the larger side keeps changes again {time.monotonic() - cut:.1f} seconds after the cut ... ", end="",
              flush=True)
        with Client(small.path) as client:
            self.assertTrue(client.tell(b"keys").startswith(b"keys "))
        wait_for(lambda: int(status_of(small)[b"age"]) >= 3)
        self.assertNotEqual(status_of(small)[b"state"], b"ok")
        self.assertLessEqual(len(writers[0].kept) - kept, 1)  # One may have been on its way.
        self.network.heal(place)
        for writer in writers:
            writer.wait_for(3)
            writer.end()
        check_kept(self, writers, self.servers)
