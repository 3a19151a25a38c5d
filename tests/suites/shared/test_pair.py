"""A primary and a synchronous standby, and services that know both."""

import contextlib
import time
import unittest

from clusters import Cluster, needs_postgres, wait_for
from outside import Client, alone, needs_engine
from talking import Writer, change, check_kept, dump_of, serve, status_of, told, wait_until_same
from world import World


@needs_engine
@needs_postgres
class Pair(unittest.TestCase):
    options = ()
    kept_before = ()  # Lines that make what is kept before a test.

    def setUp(self):
        self.primary = Cluster(self.addCleanup)
        self.standby = Cluster(self.addCleanup, of=self.primary, name="other")
        self.primary.set("synchronous_standby_names = 'other'")
        self.primary.reload()
        wait_for(self.is_synchronous)
        self.stack = contextlib.ExitStack()
        self.addCleanup(self.stack.close)
        self.servers = [self.stack.enter_context(serve(url, *self.options)) for url in (
            self.primary.url(self.standby), self.standby.url(self.primary))]
        change(self.servers[0], self.kept_before)
        wait_until_same(self.servers)

    def is_synchronous(self):
        return self.primary.query("SELECT sync_state FROM pg_stat_replication") == [("sync",)]

    def writers(self):
        writers = [Writer(server, f"{place}", ahead=1 + 3 * place) for place, server in enumerate(self.servers)]
        for writer in writers:
            self.addCleanup(writer.end)
            writer.start()
        return writers

    def test_the_primary_dies_and_the_standby_takes_its_place(self):
        writers = self.writers()
        for writer in writers:
            writer.wait_for(20)
        self.primary.kill()
        self.standby.promote()
        for writer in writers:
            writer.wait_for(5)
            writer.end()
        check_kept(self, writers, self.servers, told(self.kept_before))

    def test_the_standby_is_gone(self):
        """A change isn't acknowledged that only one machine has. Questions go on."""
        writers = self.writers()
        for writer in writers:
            writer.wait_for(5)
        self.standby.kill()
        with Client(self.servers[0].path) as client:
            wait_for(lambda: all(writer.uncertain or writer.refused for writer in writers))
            begun = time.monotonic()
            self.assertTrue(client.tell(b"keys").startswith(b"keys "))
            self.assertLess(time.monotonic() - begun, 60)
        kept = [len(writer.kept) for writer in writers]
        time.sleep(1)
        self.assertEqual([len(writer.kept) for writer in writers], kept)
        self.standby.start()
        for writer in writers:
            writer.wait_for(3)
            writer.end()
        check_kept(self, writers, self.servers, told(self.kept_before))

    def test_a_change_that_is_lost_is_undone(self):
        """A service that has only read what the new primary never had goes back to what that has. The one that has
        acknowledged it doesn't follow."""
        self.primary.set("synchronous_standby_names = ''")
        self.primary.reload()
        wait_for(lambda: self.primary.query("SHOW synchronous_standby_names") == [("",)])
        self.standby.stop()
        lost, kept = (b"verdict %s bad" % (digit * 64) for digit in (b"a", b"b"))
        with Client(self.servers[0].path) as client, Client(self.servers[1].path) as other:
            self.assertEqual(client.tell(lost), b"ok")
            wait_for(lambda: self.has(self.servers[1], lost))
            self.primary.kill()
            self.standby.start()
            self.standby.promote()
            wait_for(lambda: other.tell(kept) == b"ok")
            wait_until_same(self.servers[1:])
            self.assertEqual(dump_of(self.servers[1]), told([*self.kept_before, kept]))
            self.assertEqual(status_of(self.servers[1])[b"change"], b"%d" % (len(self.kept_before) + 1))
            wait_for(lambda: b"lacks 1 change that" in status_of(self.servers[0])[b"state"])
            self.assertEqual(client.tell(kept), b"fault database")
            self.assertEqual(status_of(self.servers[0])[b"change"], b"%d" % (len(self.kept_before) + 1))

    @staticmethod
    def has(server, line):
        """Whether a service has this verdict."""
        return line in dump_of(server)


class SlicedPair(Pair):
    """The same where no engine may hold the keyring whole."""
    options = ("--budget", "3")
    world = World(1, 5, depths=(0,))  # So a slice has one member.
    kept_before = world.lines()

    def test_a_question_without_a_primary(self):
        """What is loaded is asked, and what isn't is read at the standby, as long as that has all changes."""
        world = self.world
        view = [b"view p time 5000", b"view p root %s 120" % world.fprs[0]]
        questions = [b"ask p %s 120 %s" % (fpr, user_id) for fpr, user_id in zip(world.fprs, world.user_ids)]
        expected = alone([*self.kept_before, *view, *questions])[-len(questions):]
        with Client(self.servers[0].path) as client:
            for line in view:
                client.tell(line)
            self.primary.kill()
            wait_for(lambda: client.tell(questions[0]) != b"fault database")  # The standby may be a moment behind.
            for line, reply in zip(questions, expected):
                client.send(line)
                self.assertEqual(client.read_line(), reply.splitlines()[0], line)
                for told_line in reply.splitlines()[1:]:
                    self.assertEqual(client.read_line(), told_line, line)
