"""The service is restarted, as by an upgrade: whoever asks afterwards is answered, also over connections from before.
The server for everyone ends, whatever is under way."""

import contextlib
import http.client
import os
import re
import signal
import threading
import time
from pathlib import Path

from everyone import Everyone, Public, Service, UnixConnection, needs_prometheus
from friends import PEOPLE
from page import PATIENCE, needs_page


@needs_page
class Restarted(Public):
    def test_whoever_asks_afterwards_is_answered(self):
        with contextlib.closing(Service([self.friends.keyring])) as service, \
                contextlib.closing(Everyone(service, *self.sets, "--rate", "100000")) as everyone:
            for attempt in range(2):
                # Each has an amount of its own, so that it's answered by a process, and each process has its turn.
                for amount in range(1 + 10 * attempt, 9 + 10 * attempt):
                    status, _, said = everyone.ask("authenticate", self.about("Carol", PEOPLE["Carol"], amount=amount))
                    self.assertEqual((status, said.get("reached")), (200, True), said)
                self.assertEqual(everyone.request("/ready")[0], 200)
                service.restart()
            self.assertEqual(everyone.request("/ready")[0], 200)

    def workers(self, everyone):
        """The processes that answer its questions."""
        found = []
        for children in Path(f"/proc/{everyone.process.pid}/task").glob("*/children"):
            with contextlib.suppress(OSError):  # Threads come and go.
                found += map(int, children.read_text().split())
        return found

    def is_busy(self, metrics):
        with contextlib.closing(UnixConnection(str(metrics))) as connection:
            connection.request("GET", "/metrics")
            return re.search(rb"^tukyamid_public_workers_busy 1(\.0)?$", connection.getresponse().read(), re.MULTILINE)

    @needs_prometheus
    def test_it_ends_while_questions_are_under_way(self):
        metrics = self.service.own / "ending-metrics"
        everyone = Everyone(self.service, *self.sets, "--metrics", f"unix:{metrics}")
        with contextlib.ExitStack() as stack:
            stack.callback(everyone.process.kill)
            self.assertEqual(everyone.ask("authenticate", self.about("Carol", PEOPLE["Carol"]))[0], 200)
            workers = self.workers(everyone)
            self.assertTrue(workers)
            for pid in workers:
                os.kill(pid, signal.SIGSTOP)

            def ask():
                with contextlib.suppress(OSError, http.client.HTTPException):  # The server ends meanwhile.
                    everyone.ask("authenticate", self.about("Bob", PEOPLE["Bob"], amount=7))

            asking = threading.Thread(target=ask)
            asking.start()
            end = time.monotonic() + PATIENCE
            while not self.is_busy(metrics):
                self.assertLess(time.monotonic(), end)
                time.sleep(0.02)
            self.assertEqual(everyone.close(), 0)
            asking.join(PATIENCE)
            self.assertFalse(asking.is_alive())
