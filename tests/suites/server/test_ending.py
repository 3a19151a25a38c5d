"""SIGTERM ends the service within ten seconds, whatever runs. Nothing of it is left, and no acknowledged change is
lost."""

import contextlib
import os
import shutil
import signal
import subprocess
import tempfile
import time
import unittest
from pathlib import Path

from outside import HERE, Client, Server, needs_engine, script_of
from tukyamid.service.storage.sqlite_database import Sqlite
from world import World

BOUND = 10.0  # Seconds, as docs/SERVICE.md promises.
SLEEPER = "#!/bin/sh\nexec sleep 1000\n"


@needs_engine
class Ending(unittest.TestCase):
    def setUp(self):
        self.folder = Path(tempfile.mkdtemp(prefix="tukyamid-ending-"))
        self.addCleanup(shutil.rmtree, self.folder)
        self.world = World(count=6)
        self.sleeper = self.folder / "gpg"
        self.sleeper.write_text(SLEEPER)
        self.sleeper.chmod(0o755)

    def begin(self, *options, **named):
        environment = {"PATH": f"{self.folder}:{os.environ['PATH']}", **named.pop("environment", {})}
        self.server = self.enterContext(Server(*options, folder=self.folder, environment=environment, **named))
        self.client = self.enterContext(Client(self.server.path))
        for line in self.world.lines():
            self.assertTrue(self.client.tell(line).startswith(b"ok"))

    def ends(self):
        """The service ends in time, and with it its engines and its socket. The database has all changes."""
        children = self.server.engines()
        self.assertTrue(children)
        begun = time.monotonic()
        self.server.process.send_signal(signal.SIGTERM)
        try:
            status = self.server.process.wait(60)
        except subprocess.TimeoutExpired:
            self.server.process.kill()
            self.fail("the service hasn't ended after a minute")
        self.assertLess(time.monotonic() - begun, BOUND)
        self.assertEqual(status, 0)
        self.assertFalse(self.server.path.exists())
        self.server.wait_for(lambda: not any(map(self.is_alive, children)))
        with contextlib.closing(Sqlite(self.server.database)) as database:
            self.assertEqual(database.check(), [])
            self.assertEqual(script_of(database).count(b"\n"), len(self.world.fprs) + len(self.world.verdicts))

    @staticmethod
    def is_alive(pid):
        try:
            return Path(f"/proc/{pid}/stat").read_text().rpartition(")")[2].split()[0] != "Z"
        except (FileNotFoundError, ProcessLookupError):
            return False

    def test_while_gpg_hangs(self):
        self.begin()
        with Client(self.server.path) as other:
            (self.folder / "pubring.kbx").write_bytes(b"there is one")
            other.send(b"service keyring add gpg:" + os.fsencode(self.folder))
            self.server.wait_for(lambda: len(self.server.engines()) > 1)
            self.ends()

    def test_while_the_verifier_hangs(self):
        keyring = self.folder / "keyring.pgp"
        keyring.write_bytes(bytes.fromhex(self.world.imports[0][7:].decode()))
        self.begin("--verifier", self.sleeper)
        self.client.tell(b"verdict %s none" % self.world.verdicts[0][0])
        self.client.send(b"service keyring add " + os.fsencode(keyring))
        self.server.wait_for(lambda: len(self.server.engines()) > 1)
        self.world.verdicts.pop(0)
        self.ends()

    def test_while_engines_are_stopped(self):
        for options in (("--engines", "2"), ("--budget", "5")):
            with self.subTest(options):
                self.begin(*options)
                for pid in self.server.engines():
                    os.kill(pid, signal.SIGSTOP)
                self.client.send(b"keys", b"pending", b"export " + self.world.fprs[0], b"dump")
                self.ends()

    def test_while_it_starts(self):
        """The first engine is stopped before it has loaded anything."""
        self.begin()
        self.assertEqual(self.server.stop(), 0)
        slow = self.folder / "slow"
        slow.write_text(f"#!/bin/sh\n: >{slow}.begun\nexec sleep 1000\n")
        slow.chmod(0o755)
        starting = subprocess.Popen([self.server.process.args[0], self.server.process.args[1], "--socket",
                                     self.server.path, "--database", self.server.database, "--engine", slow])
        try:
            self.server.wait_for(Path(f"{slow}.begun").exists)
            begun = time.monotonic()
            starting.terminate()
            self.assertEqual(starting.wait(60), 0)
        finally:
            starting.kill()
        self.assertLess(time.monotonic() - begun, BOUND)

    def test_while_the_loop_is_held(self):
        """By a call of the system that doesn't end, and by Python's own work, from before the signal on."""
        for how in ("call", "python"):
            with self.subTest(how):
                held = self.folder / how
                self.begin(program=HERE / "held_server.py", environment={"HELD": str(held), "HOLDING": how})
                held.touch()
                self.client.send(b"keys")
                self.server.wait_for(Path(f"{held}.begun").exists)
                self.ends()

    def test_while_nobody_reads_its_log(self):
        """The log is a pipe that is full. Questions are answered, and it ends."""
        reading, writing = os.pipe()
        self.addCleanup(os.close, reading)
        self.begin(log=writing)
        os.set_blocking(writing, False)
        with contextlib.suppress(BlockingIOError):
            while True:
                os.write(writing, b"x" * 4096)
        os.set_blocking(writing, True)
        os.close(writing)
        (engine,) = self.server.engines()
        os.kill(engine, signal.SIGKILL)
        self.client.socket.settimeout(30)
        self.assertEqual(self.client.tell(b"keys"), b"keys 6")
        self.ends()

    def test_while_a_client_reads_nothing(self):
        self.begin("--patience", "600")
        with Client(self.server.path) as other:
            other.send(*[b"export " + self.world.fprs[0]] * 2000)
            time.sleep(1)
            self.ends()
