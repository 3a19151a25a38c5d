"""Questions that are refused once their answers may be too old."""

import contextlib
import os
import signal
import time

import test_confirmed
from clusters import wait_for
from outside import Client
from talking import dump_of, status_of, wait_until_same

MOST = 3.0
FAULT = b"fault database"
BINDING = b"p %s user" % (b"a" * 40)
QUESTIONS = (b"keys", b"pending", b"dump", b"ask " + BINDING, b"watch w " + BINDING, b"service find part user",
             b"service unverified", b"service log 1")


class MaxAge(test_confirmed.Confirmed):
    """The standby is stopped, so that nothing is confirmed any more: as where the primary is cut off from all others,
    and doesn't know it yet."""
    options = ("--max-age", str(MOST))
    test_the_standby_has_a_name = test_the_standby_is_silent = test_no_connection_is_left_behind = None

    @contextlib.contextmanager
    def cut_off(self, pids):
        """Gives the time since which nothing is confirmed."""
        for pid in pids:
            os.kill(pid, signal.SIGSTOP)
        try:
            yield time.monotonic()
        finally:
            for pid in pids:
                os.kill(pid, signal.SIGCONT)

    def check_each_is_refused(self, client):
        for line in QUESTIONS:
            client.send(line)
            self.assertEqual(client.read_line(), FAULT, line)

    def check_cut_off(self, pids):
        with Client(self.server.path) as client:
            self.assertEqual(client.tell(b"view p time 1000"), b"ok")
            wait_for(lambda: client.tell(b"keys") == b"keys 0")  # At first nothing is confirmed.
            with self.cut_off(pids) as begun:
                asked, reply = 0.0, b""
                while reply != FAULT:
                    self.assertLess(asked, begun + MOST, reply)
                    asked, reply = time.monotonic(), client.tell(b"keys")
                self.check_each_is_refused(client)
                self.assertGreaterEqual(int(status_of(self.server)[b"age"]), int(MOST))
                self.assertEqual(client.tell(b"view q time 1000"), b"ok")  # This asks nothing.
            wait_until_same([self.server])
            wait_for(lambda: client.tell(b"keys") == b"keys 0")
            self.assertIn(test_confirmed.VERDICT, dump_of(self.server))

    def test_nothing_is_confirmed(self):
        self.check_cut_off(self.standby.pids())

    def test_the_primary_says_nothing(self):
        self.check_cut_off(self.primary.pids())


class SlicedMaxAge(MaxAge):
    options = (*MaxAge.options, "--budget", "3")
