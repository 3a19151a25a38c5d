"""A service that can't reach its database any more answers what it knows, and nobody waits for the looks of others."""

import os
import signal
import time

from alone_cluster import OneServer
from clusters import wait_for
from outside import Client
from talking import change, listed, status_of

CLIENTS = 20
BOUND = 90  # Seconds for all of them: a server that hears and says nothing is given up after thirty seconds.


class Away(OneServer):
    options = ()

    def setUp(self):
        super().setUp()
        host = self.url.split("@")[1].split("/")[0]
        self.url = self.url.replace(host, ",".join([host] * 4))
        self.server = self.serve(*self.options)
        change(self.server, self.world.imports[:25:5])  # Five certificates.
        self.frozen, self.known = [], status_of(self.server)
        self.addCleanup(self.go_on)

    def freeze(self):
        """The server's machine says nothing any more. New connections stand, and hear nothing."""
        self.frozen = self.cluster.pids()
        for pid in self.frozen:
            os.kill(pid, signal.SIGSTOP)

    def go_on(self):
        for pid in self.frozen:
            os.kill(pid, signal.SIGCONT)
        self.frozen = []

    def seconds(self, line):
        """How long many clients wait who send a line at once, until all have a whole reply."""
        clients = [self.enterContext(Client(self.server.path)) for _ in range(CLIENTS)]
        begun = time.monotonic()
        for client in clients:
            client.send(line)
        for client in clients:
            head = client.read_line()
            self.assertNotIn(b"fault", head)
            for _ in range(int(head.split(b" ")[-1])):
                client.read_line()
        return time.monotonic() - begun

    def test_many_ask_for_what_is_known(self):
        self.freeze()
        wait_for(lambda: status_of(self.server)[b"state"] != b"ok")
        for line in (b"service status", b"service unverified", b"service keyring list"):
            self.assertLess(self.seconds(line), BOUND, line)
        found = status_of(self.server)
        for name in (b"certificates", b"user-ids", b"verdicts", b"change", b"keyrings", b"pending"):
            self.assertEqual(found[name], self.known[name], name)
        self.assertGreater(int(found[b"age"]), 2)
        self.go_on()
        wait_for(lambda: status_of(self.server)[b"state"] == b"ok")
        change(self.server, self.world.imports)
        wait_for(lambda: status_of(self.server)[b"certificates"] == b"8")
        self.assertEqual(status_of(self.server)[b"age"], b"0")

    def test_many_seek_what_nobody_can_say(self):
        """Those who seek something don't wait one behind another either."""
        self.freeze()
        wait_for(lambda: status_of(self.server)[b"state"] != b"ok")
        begun = time.monotonic()
        clients = [self.enterContext(Client(self.server.path)) for _ in range(CLIENTS)]
        for client in clients:
            client.send(b"service find part user")
        self.assertEqual({client.read_line() for client in clients}, {b"fault database"})
        self.assertLess(time.monotonic() - begun, BOUND)
        self.go_on()
        with Client(self.server.path) as client:
            wait_for(lambda: client.tell(b"service log 1") == b"service log 1" and client.read_line())
            self.assertEqual(len(listed(client, b"service find part user")), 5)


class SlicedAway(Away):
    options = ("--budget", "6")
