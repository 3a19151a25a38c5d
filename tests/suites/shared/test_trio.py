"""Three servers under Patroni with etcd, in synchronous mode, and a service beside each."""

import contextlib
import time
import unittest

from clusters import needs_postgres
from electing import Member, needs_patroni
from outside import needs_engine
from talking import Writer, check_kept, serve


@needs_engine
@needs_postgres
@needs_patroni
class Trio(unittest.TestCase):
    def setUp(self):
        self.members = Member.start_three(self.addCleanup)
        self.stack = contextlib.ExitStack()
        self.addCleanup(self.stack.close)
        self.servers = [self.stack.enter_context(serve(Member.url(self.members))) for _ in self.members]

    def test_the_primary_dies_under_load(self):
        writers = [Writer(server, f"{place}", ahead=1 + 2 * place) for place, server in enumerate(self.servers)]
        for writer in writers:
            self.addCleanup(writer.end)
            writer.start()
        for writer in writers:
            writer.wait_for(10)
        primary = Member.primary_of(self.members)
        killed = time.monotonic()
        primary.kill()
        for writer in writers:
            writer.wait_for(5)
        print(f"changes are kept again {time.monotonic() - killed:.1f} seconds after the kill ... ", end="", flush=True)
        self.assertNotEqual(Member.primary_of(self.members), primary)
        for writer in writers:
            writer.end()
        check_kept(self, writers, self.servers)
