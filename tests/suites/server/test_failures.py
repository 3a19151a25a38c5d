"""What fails as nobody expects is an answer all the same, to the one whom it is about, and the others go on."""

import os
import shutil
import signal
import subprocess
import tempfile
import unittest
from pathlib import Path

from outside import FAILING_SERVER, HERE, PATIENCE, PYTHON, SERVER, Client, Server, alone, needs_engine
from world import World

FAULT = b"fault database"


class Missing(unittest.TestCase):
    @unittest.skipIf(os.access("/usr/libexec/tukyamid-engine", os.X_OK), "the engine is installed")
    def test_the_engine(self):
        """It is said in one line, by a package that nobody has built an engine for."""
        with tempfile.TemporaryDirectory(prefix="tukyamid-failures-") as folder:
            shutil.copytree(SERVER.parents[1], f"{folder}/python", ignore=shutil.ignore_patterns("__pycache__"))
            program = f"{folder}/python/bin/{SERVER.name}"
            done = subprocess.run(
                [PYTHON, program, "--socket", f"{folder}/socket", "--database", f"{folder}/db"],
                env={"PATH": folder, "HOME": folder}, capture_output=True, timeout=PATIENCE, check=False)
        lines = done.stderr.decode().splitlines()
        self.assertEqual(len(lines), 1, lines)
        self.assertTrue(lines[0].startswith("tukyamid-server: the engine isn't installed"), lines)
        self.assertEqual(done.returncode, 1)


@needs_engine
class Slow(unittest.TestCase):
    def test_a_service_without_clients_ends(self):
        """That it looks now and then whether keyrings wait is no use of it."""
        with tempfile.TemporaryDirectory(prefix="tukyamid-failures-") as folder:
            faults = Path(folder) / "faults"
            faults.write_text("slow\n")
            with Server("--idle", "6", folder=folder, program=FAILING_SERVER,
                        environment={"FAULTS": str(faults)}) as server:
                self.assertEqual(server.process.wait(PATIENCE), 0)


@needs_engine
class FullLog(unittest.TestCase):
    """The log is often on the same disk as the database, and full with it."""

    def setUp(self):
        self.folder = Path(tempfile.mkdtemp(prefix="tukyamid-failures-"))
        self.addCleanup(shutil.rmtree, self.folder)
        (self.folder / "said").symlink_to("/dev/full")
        self.lines = World(count=6).lines()
        self.server = self.enterContext(Server(folder=self.folder))
        self.client = self.enterContext(Client(self.server.path))

    def test_changes_that_cannot_be_stored(self):
        """They are refused, although that can't be logged, and no question sees them."""
        half = len(self.lines) // 2
        made = [self.client.tell(line) for line in self.lines[:half]]
        self.assertTrue(all(reply.startswith(b"ok") for reply in made), made)
        self.server.database.rename(self.folder / "elsewhere")
        self.client.send(*self.lines[half:])
        self.assertEqual({self.client.read_line() for _ in self.lines[half:]}, {FAULT})
        keys = alone([*self.lines[:half], b"keys"])[-1]
        self.client.send(b"keys")
        self.assertEqual([self.client.read_line() + b"\n" for _ in keys.splitlines()], keys.splitlines(keepends=True))
        (self.folder / "elsewhere").rename(self.server.database)
        self.server.wait_for(lambda: self.client.tell(self.lines[half]).startswith(b"ok"))
        self.client.send(*self.lines[half:], b"dump")
        replies = self.client.end()
        self.assertTrue(replies.endswith(alone([*self.lines, b"dump"])[-1]), replies[:300])
        self.assertEqual(self.server.stop(), 0)


@needs_engine
class Unexpected(unittest.TestCase):
    def setUp(self):
        self.folder = Path(tempfile.mkdtemp(prefix="tukyamid-failures-"))
        self.addCleanup(shutil.rmtree, self.folder)
        self.faults = self.folder / "faults"
        self.world = World(count=6)
        self.server = self.enterContext(Server(
            "--engines", "2", "--verifier", HERE / "trusting_verifier.py", folder=self.folder,
            program=FAILING_SERVER, environment={"FAULTS": str(self.faults)}))
        self.client = self.enterContext(Client(self.server.path))
        for line in self.world.lines():
            self.assertTrue(self.client.tell(line).startswith(b"ok"))

    def tearDown(self):
        self.assertEqual(self.server.stop(), 0)
        self.assertNotIn("Traceback", self.server.said())

    def is_kept(self, lines):
        """Whether every engine, and the database, has these changes and no others."""
        told = alone([*self.world.lines(), *lines, b"dump"])[-1]
        with Client(self.server.path) as client:
            client.send(b"dump")
            self.assertEqual(client.end(), told)

    def test_a_change_that_cannot_be_made(self):
        """It is refused, with what stands behind it at that moment; what stands before it is kept."""
        number = self.world.verdicts[7][0]
        self.faults.write_text(f"change {number.decode()}\n")
        lines = [b"verdict %s bad" % one for one, _ in self.world.verdicts[4:12]]
        self.client.send(*lines)
        replies = [self.client.read_line() for _ in lines]
        self.assertEqual(replies[:4], [b"ok"] * 3 + [FAULT])
        self.assertLessEqual({*replies[4:]}, {b"ok", FAULT})
        made = [line for line, reply in zip(lines, replies) if reply == b"ok"]
        self.is_kept(made)
        # It was the change that failed, and not the database: others are taken at once.
        self.assertEqual(self.client.tell(lines[4]), b"ok")
        self.assertEqual(self.client.tell(lines[3]), FAULT)
        self.faults.unlink()
        self.assertEqual(self.client.tell(lines[3]), b"ok")
        self.is_kept([*made, lines[4], lines[3]])
        self.assertIn("a planted fault", self.server.said())

    def test_a_keyring_for_which_there_is_no_room(self):
        """Its certificates are kept, and its signatures are verified once there is room."""
        keyring = self.folder / "keyring.pgp"
        keyring.write_bytes(bytes.fromhex(self.world.imports[0][7:].decode()))
        self.client.tell(b"verdict %s none" % self.world.verdicts[0][0])
        self.faults.write_text("room\n")
        add = b"service keyring add " + os.fsencode(keyring)
        self.assertEqual(self.client.tell(add), b"fault keyring No space left on device")
        self.faults.unlink()
        self.server.wait_for(lambda: self.client.tell(b"pending") == b"pending 0")

    def test_a_snapshot_that_cannot_be_read(self):
        """Who asks for a dump is dropped. An engine that ended stands again once it can be read."""
        self.faults.write_text("snapshot\n")
        with Client(self.server.path) as asking:
            asking.send(b"dump")
            self.assertNotIn(b"import", asking.rest())
        self.assertEqual(self.client.tell(b"keys"), b"keys 6")
        for engine in self.server.engines():
            os.kill(engine, signal.SIGKILL)
        self.server.wait_for(lambda: "can't be brought" in self.server.said())
        self.client.send(b"keys")
        self.faults.unlink()
        self.assertEqual(self.client.read_line(), b"keys 6")
