"""A cluster in use moves from Patroni's client `etcd3` to `etcd`, as docs/CLUSTER.md says."""

import contextlib
import unittest

from clusters import needs_postgres, wait_for
from electing import ETCD_SETTINGS, Member, needs_patroni
from outside import needs_engine
from talking import Writer, check_kept, serve


@needs_engine
@needs_postgres
@needs_patroni
class Moving(unittest.TestCase):
    def setUp(self):
        self.members = Member.start_three(self.addCleanup, client="etcd3", etcd={})
        self.stack = contextlib.ExitStack()
        self.addCleanup(self.stack.close)
        self.server = self.stack.enter_context(serve(Member.url(self.members)))

    def resume(self, primary):
        """Ends the pause. A primary that was stopped before it had saved the pause starts the new store without one."""
        try:
            primary.control("resume", "--wait", "tukyamid")
        except AssertionError as error:
            self.assertIn("Cluster is not paused", str(error))

    def test_without_another_primary(self):
        primary = Member.primary_of(self.members)
        ordered = [primary, *(one for one in self.members if one is not primary)]
        writer = Writer(self.server, "writer", pause=0.05)
        self.addCleanup(writer.end)
        writer.start()
        writer.wait_for(5)
        for member in self.members:
            member.stop("etcd")
            member.start_etcd(ETCD_SETTINGS)
            wait_for(lambda: Member.is_whole(self.members))
        primary.control("pause", "--wait", "tukyamid")
        for member in ordered:
            member.stop("patroni")
            member.client = "etcd"
            member.prepare(self.members)
        primary.start()
        wait_for(lambda: primary.role() == "master" and b'"role": "master"' in primary.ask("/leader"))
        for member in ordered[1:]:
            member.start()
        self.resume(primary)
        wait_for(lambda: Member.is_whole(self.members))
        writer.wait_for(5)
        writer.end()
        self.assertIs(Member.primary_of(self.members), primary)
        self.assertIn("| Leader", primary.control("list", "tukyamid"))
        check_kept(self, [writer], [self.server])
        print(f"{len(writer.refused)} changes were refused, {len(writer.uncertain)} uncertain ... ", end="", flush=True)
