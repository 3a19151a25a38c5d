"""A file of an earlier version is upgraded in steps: it may be interrupted at each of them, and goes on there."""

import contextlib
import os
import random
import signal
import socket
import sqlite3
import subprocess
import threading
from unittest import mock

from earlier import fill_earlier
from outside import PYTHON, ROOT, Client, Server, alone, needs_engine, script_of
from test_database import InAFolder
from tukyamid.service.storage import sqlite_schema, upgrade_steps
from tukyamid.service.storage.sqlite_database import Sqlite
from tukyamid.service.storage.sqlite_tables import steps_from
from world import World

# `check`, with few certificates in each step.
CHECK = """
import sys
sys.path.insert(0, sys.argv.pop(1))
from tukyamid.service.server_command import main
from tukyamid.service.storage import upgrade_steps
upgrade_steps.ROWS, upgrade_steps._SAY_SECONDS = 2, 0
sys.exit(main())
"""


class Cut(Exception):
    """What interrupts an upgrade."""


@needs_engine
class Interrupted(InAFolder):
    def setUp(self):
        super().setUp()
        world = World(count=24)
        lines = [*world.lines(), b"verdict %s bad" % world.verdicts[0][0], b"verdict %064x bad" % 1,
                 b"verdict %s good %s" % (world.verdicts[1][0], b"5" * 40)]
        self.told = alone([*lines, b"dump"])[-1].splitlines()[1:]
        fill_earlier(self.path, 2, self.told)

    def check_all(self):
        with contextlib.closing(Sqlite(self.path)) as database:
            self.assertEqual(database.check(), [])
            self.assertEqual(script_of(database).splitlines(), self.told)
        with contextlib.closing(sqlite3.connect(self.path)) as raw:
            self.assertEqual(raw.execute("SELECT count(*) FROM sqlite_schema WHERE name = 'upgrade'").fetchone(), (0,))

    def open_for(self, transactions):
        """Opens the file, and interrupts that within a transaction, after that many."""
        left, whole = [transactions], sqlite_schema._Upgraded.transaction

        @contextlib.contextmanager
        def cut(upgraded):
            with whole(upgraded):
                yield
                if not left[0]:
                    raise Cut
                left[0] -= 1

        with mock.patch.object(sqlite_schema._Upgraded, "transaction", cut):
            Sqlite(self.path).close()

    def test_in_each_transaction(self):
        times = 0
        with mock.patch.object(upgrade_steps, "ROWS", 5):
            while True:
                try:
                    self.open_for(1)
                    break
                except Cut:
                    times += 1
                    self.assertLess(times, 100)
        # Five parts of 24 certificates and the end of each such step, and each other step.
        self.assertEqual(times, sum(5 + 1 if step.rows else 1 for step in steps_from(2)))
        self.check_all()

    def run_check(self, **environment):
        return subprocess.Popen([PYTHON, "-c", CHECK, ROOT / "python", "check", "--database", self.path],
                                env={**os.environ, **environment}, stderr=subprocess.PIPE, text=True)

    def test_by_sigkill(self):
        """A process that upgrades it is killed at random, until one has done the rest."""
        draw = random.Random(5)
        for _ in range(100):
            with self.run_check() as process, contextlib.suppress(subprocess.TimeoutExpired):
                try:
                    process.wait(draw.uniform(0.1, 0.5))
                    break
                finally:
                    process.kill()
        self.check_all()

    def test_it_says_how_far_it_is(self):
        """To people, and to systemd, which would end it otherwise."""
        told = []
        with socket.socket(socket.AF_UNIX, socket.SOCK_DGRAM) as heard:
            heard.bind(str(self.folder / "notify"))
            hearing = threading.Thread(target=lambda: told.extend(iter(lambda: heard.recv(1000), b"over")))
            hearing.start()
            with self.run_check(NOTIFY_SOCKET=str(self.folder / "notify")) as process:
                said = process.communicate()[1]
            with socket.socket(socket.AF_UNIX, socket.SOCK_DGRAM) as sender:
                sender.sendto(b"over", str(self.folder / "notify"))
            hearing.join()
        self.assertEqual(process.returncode, 0, said)
        self.assertIn(f"{self.path} is upgraded: certificates, after certificate 2\n", said)
        self.assertRegex(told[2], rb"\AEXTEND_TIMEOUT_USEC=[0-9]+\nSTATUS=Upgrading the database: keys, after")

    def test_sigterm_ends_a_service_that_upgrades(self):
        """It has no loop yet. What was done is kept."""
        with contextlib.closing(sqlite3.connect(self.path, isolation_level=None)) as raw:
            raw.execute("BEGIN IMMEDIATE")  # The service waits for its first step.
            words = [PYTHON, ROOT / "python/bin/tukyamid-server", "--socket", self.folder / "socket",
                     "--database", self.path]
            with subprocess.Popen(words, stderr=subprocess.DEVNULL) as process:
                with self.assertRaises(subprocess.TimeoutExpired):
                    process.wait(1)
                process.terminate()
                self.assertEqual(process.wait(8), -signal.SIGTERM)
        with Server(folder=self.folder) as server, Client(server.path) as client:
            self.assertEqual(client.tell(b"keys"), b"keys 24")
        self.check_all()
