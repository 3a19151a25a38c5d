"""What a service knows of its database: which standby confirms changes, and since when none has."""

import contextlib
import os
import signal
import time
import unittest

from clusters import Cluster, needs_postgres, wait_for
from outside import Client, needs_engine
from talking import change, serve, status_of, wait_until_same

VERDICT = b"verdict %s bad" % (b"a" * 64)


@needs_engine
@needs_postgres
class Confirmed(unittest.TestCase):
    options = ()

    def setUp(self):
        self.primary = Cluster(self.addCleanup)
        self.standby = Cluster(self.addCleanup, of=self.primary, name="other")
        self.primary.set("synchronous_standby_names = 'other'")
        self.primary.reload()
        wait_for(lambda: self.primary.query("SELECT sync_state FROM pg_stat_replication") == [("sync",)])
        self.stack = contextlib.ExitStack()
        self.addCleanup(self.stack.close)
        self.server = self.stack.enter_context(serve(self.primary.url(self.standby), *self.options))
        change(self.server, [VERDICT])
        wait_until_same([self.server])

    def test_the_standby_has_a_name(self):
        wait_for(lambda: status_of(self.server)[b"confirmed-by"] == b"other")
        self.primary.set("synchronous_standby_names = ''")
        self.primary.reload()
        wait_for(lambda: status_of(self.server)[b"confirmed-by"] == b"-")
        wait_for(lambda: status_of(self.server)[b"state"] == b"ok")

    def test_the_standby_is_silent(self):
        """The primary still answers, as one does that is cut off from all others and doesn't know it yet."""
        pids = self.standby.pids()
        for pid in pids:
            os.kill(pid, signal.SIGSTOP)
        begun = time.monotonic()
        try:
            wait_for(lambda: status_of(self.server)[b"state"] != b"ok", 6)
            self.check_age(begun)
            time.sleep(2)
            self.check_age(begun)
            with Client(self.server.path) as client:
                self.assertEqual(client.tell(b"keys"), b"keys 0")
        finally:
            for pid in pids:
                os.kill(pid, signal.SIGCONT)
        wait_until_same([self.server])

    def check_age(self, begun):
        age, passed = int(status_of(self.server)[b"age"]), time.monotonic() - begun
        self.assertGreater(age, passed - 2.5)
        self.assertLess(age, passed + 2.5)

    def test_no_connection_is_left_behind(self):
        """Each wait for a standby that is away ends its connection before the next one begins."""
        pids = self.standby.pids()
        for pid in pids:
            os.kill(pid, signal.SIGSTOP)
        try:
            time.sleep(26)  # So that two of them are over.
            waiting = "SELECT count(*) FROM pg_stat_activity WHERE usename = 'tukyamid' AND wait_event = 'SyncRep'"
            self.assertLessEqual(self.primary.query(waiting)[0][0], 2)
        finally:
            for pid in pids:
                os.kill(pid, signal.SIGCONT)


class SlicedConfirmed(Confirmed):
    options = ("--budget", "3")
    test_no_connection_is_left_behind = None
