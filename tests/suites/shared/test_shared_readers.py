"""Readers over a database that services share: what another service changes reaches them, too."""

import os
import signal
import threading
import time
from concurrent.futures import ThreadPoolExecutor

import test_readers_scripts
import test_readers_see
import test_slices_readers
from alone_cluster import OneServer
from outside import PATIENCE
from reading import REFUSED, ReadServer
from test_slices_scripts import BUDGET, DEPTHS
from world import World

READERS = test_readers_scripts.READERS
# The connection that has its turn, if it waits for the service.
IN_TURN = """SELECT pid FROM pg_locks JOIN pg_stat_activity USING (pid)
    WHERE relation = 'head'::regclass AND mode = 'RowShareLock' AND state = 'idle in transaction'"""


class WithReaders(OneServer):
    options = ()
    tries = 400
    may_refuse = True

    def serve(self, *options):
        return ReadServer(READERS, "--database", self.url, *self.options, *options)


class Refused:
    """A further test of scripts."""

    def test_changes_that_are_refused(self):
        """The service is stopped in its turn until the database ends that. What it would have changed, nobody sees."""
        begun, over = threading.Event(), threading.Event()
        with self.serve() as server, ThreadPoolExecutor(1) as pool:
            stopping = pool.submit(self.stop_in_turn, server, begun, over)
            try:
                spoken, heard = self.talk_all(server, 20, 60, 3, begun.set)
            finally:
                begun.set()
                over.set()
            stopping.result()
            self.assertTrue(any(one in b"".join(heard.values()) for one in REFUSED), server.said())
            (dump,) = self.dumps(server)
            self.assertEqual(server.stop(), 0, server.said())
            self.assertGreater(self.check(server, spoken, heard), 1000)
            self.compare_dumps(server, dump)

    def stop_in_turn(self, server, begun, over):
        """Whether the service had its turn by then is seen when it is stopped: only then does the turn last."""
        import psycopg
        begun.wait(PATIENCE)
        with psycopg.connect(self.url, autocommit=True) as connection:
            while not over.is_set() and "were refused" not in (server.folder / "said").read_text():
                if connection.execute(IN_TURN).fetchone():
                    os.kill(server.process.pid, signal.SIGSTOP)
                    try:
                        while connection.execute(IN_TURN).fetchone():
                            time.sleep(0.02)
                    finally:
                        os.kill(server.process.pid, signal.SIGCONT)


class WholeScripts(Refused, WithReaders, test_readers_scripts.Scripts):
    pass


class SlicedScripts(Refused, WithReaders, test_slices_readers.SlicedScripts):
    options = ("--budget", str(BUDGET))


class Seen(WithReaders, test_readers_see.Seen):
    pass


class SlicedSeen(WithReaders, test_readers_see.Seen):
    options = ("--budget", "39")

    def new_world(self):
        return World(3, 40, DEPTHS)
