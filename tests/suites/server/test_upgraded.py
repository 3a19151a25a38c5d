"""A service whose programs are replaced while it runs: it ends once nobody uses it, and the next one is the new one."""

import os
import shutil
import tempfile
import time
import unittest
from pathlib import Path

from outside import PATIENCE, ROOT, Client, Server, needs_engine


@needs_engine
class Upgraded(unittest.TestCase):
    def setUp(self):
        self.folder = Path(tempfile.mkdtemp(prefix="tukyamid-upgraded-"))
        self.addCleanup(shutil.rmtree, self.folder)
        shutil.copytree(ROOT / "python", self.folder / "python", ignore=shutil.ignore_patterns("__pycache__"))
        self.program = self.folder / "python/bin/tukyamid-server"
        (self.folder / "run").mkdir(mode=0o700)

    def upgrade(self):
        """Another file in the place of each, as dpkg does it."""
        for file in (self.folder / "python/tukyamid/service").glob("*.py"):
            shutil.copy(file, file.with_suffix(".new"))
            os.replace(file.with_suffix(".new"), file)

    def test_it_ends_when_its_last_client_has_gone(self):
        with Server("--idle", "600", folder=self.folder / "run", program=self.program) as server:
            with Client(server.path) as client:
                self.upgrade()
                time.sleep(3)
                self.assertEqual(client.tell(b"keys"), b"keys 0")
            self.assertEqual(server.process.wait(PATIENCE), 0)

    def test_one_that_nobody_would_start_again_goes_on(self):
        with Server(folder=self.folder / "run", program=self.program) as server:
            self.upgrade()
            time.sleep(3)
            self.assertIsNone(server.process.poll())
            with Client(server.path) as client:
                self.assertEqual(client.tell(b"keys"), b"keys 0")
