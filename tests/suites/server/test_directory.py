"""The certificate directory, while clients end in the middle of what they asked of it."""

import shutil
import tempfile
import time
import unittest
from pathlib import Path

from outside import HERE, Client, Server, needs_engine
from world import World

ABSENT = b"ab" * 20
LOADED = b"ok taken 1 skipped 0 new "


@needs_engine
class CutOff(unittest.TestCase):
    def setUp(self):
        self.folder = Path(tempfile.mkdtemp(prefix="tukyamid-directory-"))
        self.addCleanup(shutil.rmtree, self.folder)
        self.world = World(count=9, depths=(0,))
        self.server = self.enterContext(Server(
            engine=HERE / "held_engine.py", folder=self.folder, environment={"HELD_FOLDER": str(self.folder)}))
        self.world.make_directory(self.server.directory)

    def cut_off(self, line):
        """A client sends a line, and ends with unread octets while the engine of the directory is at it."""
        (self.folder / "wait").touch()
        with Client(self.server.path) as client:
            client.send(b"view p time 5000", line)
            self.server.wait_for((self.folder / "waits").exists)
        time.sleep(0.3)  # The service notices the end of the client.
        (self.folder / "wait").unlink()
        (self.folder / "waits").unlink()

    def check(self, client):
        """The replies that a client gets are its own."""
        octets = self.world.imports[4][7:]
        self.assertTrue(client.tell(b"load " + self.world.fprs[0]).startswith(LOADED))
        self.assertEqual(client.tell(b"export " + self.world.fprs[0]), b"export " + octets)
        self.assertEqual(client.tell(b"store " + self.world.fprs[0]), b"ok stored %d" % (len(octets) // 2))
        self.assertEqual(client.tell(b"load " + ABSENT), b"refused absent")

    def test_a_load_that_is_cut_off(self):
        self.cut_off(b"load " + ABSENT)
        with Client(self.server.path) as client:
            self.check(client)

    def test_a_store_that_is_cut_off(self):
        with Client(self.server.path) as client:
            client.send(self.world.imports[9])
            self.assertTrue(client.read_line().startswith(LOADED))
            self.cut_off(b"store " + self.world.fprs[1])
            self.check(client)


if __name__ == "__main__":
    unittest.main()
