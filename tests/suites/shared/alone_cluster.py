"""A case with one server of PostgreSQL, in which each test has a database of its own."""

import contextlib
import os
import subprocess
import unittest

from clusters import Cluster, needs_postgres
from outside import PATIENCE, PROGRAM, PYTHON, SERVER, needs_engine
from talking import serve
from world import World


@needs_engine
@needs_postgres
class OneServer(unittest.TestCase):
    @classmethod
    def setUpClass(cls):
        cls.cluster = Cluster(cls.addClassCleanup)
        cls.count = 0

    def setUp(self):
        """Each test has a database of its own."""
        type(self).count += 1
        self.name = f"keyring{self.count}"
        self.cluster.query(f"CREATE DATABASE {self.name}", "postgres")
        self.url = self.cluster.url().replace("/keyring", f"/{self.name}")
        self.world = World(count=8)
        self.stack = contextlib.ExitStack()
        self.addCleanup(self.stack.close)

    def serve(self, *options, **named):
        return self.stack.enter_context(serve(self.url, *options, **named))

    def command(self, *words):
        done = subprocess.run([PYTHON, SERVER, *map(str, words)], capture_output=True, text=True, timeout=PATIENCE,
                              check=False, env={**os.environ, "TUKYAMID_ENGINE": PROGRAM})
        self.assertNotIn("Traceback", done.stderr)
        return done.returncode, done.stderr.strip()
