"""A new process that is stopped before it runs the engine's program holds up nobody, and ends with the service."""

import os
import shutil
import signal
import subprocess
import tempfile
import time
import unittest
from pathlib import Path

from outside import HERE, Client, Server, needs_engine
from world import World


@needs_engine
@unittest.skipUnless(shutil.which("cc"), "there is no C compiler")
class StoppedBefore(unittest.TestCase):
    def setUp(self):
        self.folder = Path(tempfile.mkdtemp(prefix="tukyamid-starting-"))
        self.addCleanup(shutil.rmtree, self.folder)
        library, self.mark = self.folder / "stopped.so", self.folder / "mark"
        subprocess.run(["cc", "-shared", "-fPIC", "-O1", "-o", library, HERE / "stopped_before_exec.c"], check=True)
        self.server = self.enterContext(Server("--engines", "1", folder=self.folder, environment={
            "LD_PRELOAD": str(library), "STOP_BEFORE_EXEC": str(self.mark)}))
        self.client = self.enterContext(Client(self.server.path))
        for line in World(count=6).lines():
            self.assertTrue(self.client.tell(line).startswith(b"ok"))

    def stop_next(self):
        """Kills the engine, and waits until the process that is to be the next one was stopped."""
        (engine,) = self.server.engines()
        self.mark.touch()
        os.kill(engine, signal.SIGKILL)
        self.server.wait_for(lambda: not self.mark.exists())

    def test_others_are_answered(self):
        """What needs no engine is answered meanwhile. The process is ended, and an engine answers the rest."""
        self.client.socket.settimeout(30)
        self.stop_next()
        self.client.send(b"service find address u1@example.org")
        self.assertEqual(self.client.read_line(), b"service find 1")
        self.client.read_line()
        self.assertEqual(self.client.tell(b"keys"), b"keys 6")
        self.assertIn("was stopped, and is ended", self.server.said())

    def test_the_service_ends(self):
        self.stop_next()
        begun = time.monotonic()
        self.assertEqual(self.server.stop(), 0)
        self.assertLess(time.monotonic() - begun, 10)
