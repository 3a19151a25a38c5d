"""The service that a command starts: one, however many commands begin at once."""

import contextlib
import os
import shutil
import signal
import socket
import subprocess
import sys
import tempfile
import time
import unittest
from pathlib import Path

from outside import PATIENCE, PROGRAM, PYTHON, ROOT, Client, needs_engine
from tukyamid import safe_folders
from tukyamid.service import paths_and_locks, start_on_demand

ENSURE = """
import socket, sys
from tukyamid.service.start_on_demand import ensure
path = ensure()
with socket.socket(socket.AF_UNIX) as asking:
    asking.connect(str(path))
    asking.sendall(b"keys\\n")
    print(path, asking.recv(100))
"""


@needs_engine
class Starting(unittest.TestCase):
    def setUp(self):
        self.folder = Path(tempfile.mkdtemp(prefix="tukyamid-start-"))
        self.addCleanup(shutil.rmtree, self.folder)
        self.socket = self.folder / "tukyamid.socket"
        places = dict.fromkeys(("XDG_RUNTIME_DIR", "XDG_DATA_HOME", "XDG_STATE_HOME"), str(self.folder))
        self.environment = {**os.environ, **places, "TUKYAMID_ENGINE": PROGRAM, "PYTHONPATH": str(ROOT / "python")}

    def begin(self, **environment):
        return subprocess.Popen([sys.executable, "-c", ENSURE], env={**self.environment, **environment},
                                stdout=subprocess.PIPE, stderr=subprocess.PIPE, text=True)

    def process(self):
        """The number of the one service's process."""
        with Client(self.socket) as client:
            client.send(b"service status")
            lines = [client.read_line() for _ in range(int(client.read_line().split(b" ")[2]))]
        return next(int(line.split(b" ")[1]) for line in lines if line.startswith(b"process "))

    def end(self, process):
        os.kill(process, signal.SIGTERM)
        with Client(self.socket) as client:
            client.rest()

    def test_many_at_once(self):
        commands = [self.begin() for _ in range(8)]
        told = {command.communicate(timeout=PATIENCE)[0] for command in commands}
        process = self.process()
        self.addCleanup(self.end_by_force, process)
        self.assertEqual(told, {f"{self.socket} b'keys 0\\n'\n"})
        self.assertEqual(self.begin().communicate(timeout=PATIENCE)[0], told.pop())
        self.assertEqual(self.process(), process)
        self.assertEqual((self.folder / "tukyamid" / "keyring.db").stat().st_mode & 0o777, 0o600)

    @staticmethod
    def end_by_force(process):
        with contextlib.suppress(ProcessLookupError):
            os.kill(process, signal.SIGKILL)

    def test_one_that_was_killed(self):
        self.begin().communicate(timeout=PATIENCE)
        first = self.process()
        os.kill(first, signal.SIGKILL)
        told, _ = self.begin().communicate(timeout=PATIENCE)
        self.assertEqual(told, f"{self.socket} b'keys 0\\n'\n")
        self.assertNotEqual(self.process(), first)
        self.end_by_force(self.process())

    def status(self):
        words = [ROOT / "python" / "bin" / "tukyamid", "status"]
        return subprocess.run(words, env=self.environment, capture_output=True, text=True, check=False)

    def test_what_a_question_of_a_running_service_imports(self):
        """Nothing that takes long to load, and that only other questions need."""
        self.begin().communicate(timeout=PATIENCE)
        self.addCleanup(self.end_by_force, self.process())
        words = [PYTHON, "-I", "-X", "importtime", ROOT / "python" / "bin" / "tukyamid",
                 "--root", "00" * 20, "authenticate", "11" * 20, "Carol <carol@example.org>"]
        done = subprocess.run(words, env=self.environment, capture_output=True, text=True, check=False)
        self.assertIn("isn't in the keyring", done.stderr)
        lines = [line for line in done.stderr.splitlines() if line.startswith("import time:")]
        imported = {line.rpartition("|")[2].strip() for line in lines}
        self.assertIn("tukyamid.client.service_client", imported)
        slow = {"asyncio", "email", "idna", "json", "logging", "pathlib", "queue", "shutil", "sqlite3", "ssl",
                "subprocess", "tempfile", "urllib", "tukyamid.service"}
        self.assertEqual(imported & slow, set())

    def test_one_that_hangs(self):
        """The command says what to do, and that helps."""
        self.begin().communicate(timeout=PATIENCE)
        hanging = self.process()
        os.kill(hanging, signal.SIGSTOP)
        self.addCleanup(self.end_by_force, hanging)
        done = self.status()
        self.assertEqual((done.returncode, done.stdout), (3, ""))
        self.assertEqual(done.stderr, f"tukyamid: the service at {self.socket} doesn't answer; `kill -9 {hanging}` "
                         "ends it, which loses nothing that it acknowledged, and the next command starts another\n")
        os.kill(hanging, signal.SIGKILL)
        done = self.status()
        self.assertEqual((done.returncode, done.stderr), (0, ""))
        self.end_by_force(self.process())

    def test_another_command_that_hangs(self):
        """It has the lock for starting, and never starts anything."""
        lock = paths_and_locks.Lock(paths_and_locks.beside(self.socket, ".starting"))
        with lock, self.assertRaises(start_on_demand.ServiceFailed) as failed:
            start_on_demand.ensure(self.socket, patience=0.2)
        self.assertIn("another command has been starting the service", str(failed.exception))

    def test_one_that_is_ending(self):
        """It listens no longer, and its last clients are still answered: the next service waits for its end."""
        with paths_and_locks.Lock(paths_and_locks.beside(self.socket, ".lock")):
            with self.assertRaises(start_on_demand.ServiceFailed) as failed:
                start_on_demand.ensure(self.socket, patience=0.2)
            self.assertIn("is closing", str(failed.exception))
            command = self.begin()
            time.sleep(1)
            self.assertIsNone(command.poll())
        told, said = command.communicate(timeout=PATIENCE)
        self.assertEqual((told, said), (f"{self.socket} b'keys 0\\n'\n", ""))
        self.end_by_force(self.process())

    def test_a_socket_that_was_left(self):
        with socket.socket(socket.AF_UNIX) as left:
            left.bind(str(self.socket))
            left.listen()
        told, _ = self.begin().communicate(timeout=PATIENCE)
        self.assertEqual(told, f"{self.socket} b'keys 0\\n'\n")
        self.end_by_force(self.process())

    def test_one_that_cannot_start(self):
        command = self.begin(TUKYAMID_ENGINE="/bin/false")
        _, said = command.communicate(timeout=PATIENCE)
        self.assertEqual(command.returncode, 1)
        self.assertIn("ServiceFailed: the engine's program ends immediately", said)
        self.assertFalse(self.socket.exists())


class InTmp(unittest.TestCase):
    def test_a_folder_that_is_anothers(self):
        """Anyone who can write to /tmp still can't have the socket of another."""
        with tempfile.TemporaryDirectory() as folder:
            loose = Path(folder) / "loose"
            loose.mkdir(mode=0o777)
            loose.chmod(0o777)
            link = Path(folder) / "link"
            link.symlink_to(loose)
            own = Path(folder) / "own"
            for place in (loose, link):
                with self.assertRaises(PermissionError):
                    safe_folders.own_folder(str(place))
            self.assertEqual(os.stat(safe_folders.own_folder(str(own))).st_mode & 0o777, 0o700)
