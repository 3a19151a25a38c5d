"""Users of one machine, each with a home of their own, who run the command and the service from a copy of the checkout
that all of them can read."""

import contextlib
import os
import shutil
import signal
import socket
import subprocess
import tempfile
import time
import unittest
from pathlib import Path

from plain import PROGRAM, ROOT

# Numbers that no account has: Mallory, who attacks, and Alice, who asks.
MALLORY, ALICE = 23001, 23002
PATIENCE = 120

needs_engine = unittest.skipUnless(os.access(PROGRAM, os.X_OK), f"the engine isn't built: {PROGRAM}")
needs_root = unittest.skipUnless(os.geteuid() == 0, "needs root, to be two users")


class Machine:
    """A folder that everybody may look into, with the programs and the homes."""

    def __init__(self):
        self.folder = Path(tempfile.mkdtemp(prefix="tukyamid-local-"))
        self.folder.chmod(0o755)
        shutil.copytree(ROOT / "python", self.folder / "python", ignore=shutil.ignore_patterns("__pycache__"))
        shutil.copy(PROGRAM, self.folder / "engine")

    def user(self, number):
        return User(self, number)

    def close(self):
        shutil.rmtree(self.folder, ignore_errors=True)


class User:
    """A user with a home, and with directories for sockets, data and so on below it."""

    def __init__(self, machine, number):
        self.machine, self.number = machine, number
        self.home = machine.folder / f"home-{number}"
        self.runtime = self.home / "run"
        for folder in self.home, self.runtime:
            self.make(folder)
        self.environment = {
            "HOME": str(self.home), "PATH": "/usr/bin:/bin", "XDG_RUNTIME_DIR": str(self.runtime), "LC_ALL": "C.UTF-8",
            "TUKYAMID_ENGINE": str(machine.folder / "engine"), "PYTHONDONTWRITEBYTECODE": "1"}
        self._started = []

    def make(self, folder, mode=0o700):
        """A folder of this user's."""
        folder.mkdir(exist_ok=True)
        os.chown(folder, self.number, self.number)
        folder.chmod(mode)
        return folder

    def start(self, words, **environment):
        started = subprocess.Popen(
            [str(word) for word in words], stdin=subprocess.DEVNULL, stdout=subprocess.PIPE, stderr=subprocess.PIPE,
            env={**self.environment, **environment}, user=self.number, group=self.number, extra_groups=[], cwd="/")
        self._started.append(started)
        return started

    def run(self, *words, **environment):
        """Runs a command to its end; gives its status and what it said."""
        done = self.start(words, **environment)
        out, said = done.communicate(timeout=PATIENCE)
        return done.returncode, out.decode(), said.decode()

    def tukyamid(self, *words, **environment):
        return self.run(self.machine.folder / "python/bin/tukyamid", *words, **environment)

    def python(self, text, *words, **environment):
        return self.run("/usr/bin/python3", "-c", text, *words, PYTHONPATH=str(self.machine.folder / "python"),
                        **environment)

    def serve(self, socket_path, *options):
        """A service of this user's at a path, once it listens."""
        service = self.start([self.machine.folder / "python/bin/tukyamid-server", "--socket", socket_path,
                              "--database", self.home / "keyring.db", *options])
        end = time.monotonic() + PATIENCE
        while not is_served(socket_path):
            if service.poll() is not None or time.monotonic() > end:
                raise AssertionError(service.communicate()[1].decode())
            time.sleep(0.02)
        return service

    def end(self):
        """Ends all that this user has started, and what that has started in the background."""
        for started in self._started:
            if started.poll() is None:
                started.send_signal(signal.SIGTERM)
                started.wait(PATIENCE)
            for pipe in (started.stdout, started.stderr):
                pipe.close()
        for path in self.home.rglob("*.socket"):
            with contextlib.suppress(OSError), Connection(path) as left:
                os.kill(left.listener(), signal.SIGTERM)


def is_served(path):
    with contextlib.suppress(OSError), Connection(path):
        return True
    return False


class Connection:
    """A connection to a service by a socket alone: lines out, lines in."""

    def __init__(self, path):
        self.socket = socket.socket(socket.AF_UNIX)
        try:
            self.socket.connect(str(path))
        except OSError:
            self.socket.close()
            raise

    def __enter__(self):
        return self

    def __exit__(self, *_):
        self.socket.close()

    def listener(self):
        """The process that has opened the socket."""
        return int.from_bytes(self.socket.getsockopt(socket.SOL_SOCKET, socket.SO_PEERCRED, 12)[:4], "little")

    def tell(self, *lines):
        """Sends lines and no more, and gives all that comes until the service ends the connection."""
        self.socket.sendall(b"".join(line + b"\n" for line in lines))
        self.socket.shutdown(socket.SHUT_WR)
        pieces = []
        while piece := self.socket.recv(1 << 16):
            pieces.append(piece)
        return b"".join(pieces)


class Users(unittest.TestCase):
    """Tests with a machine of their own. Everything that runs there ends with them."""

    def setUp(self):
        self.machine = Machine()
        self.addCleanup(self.machine.close)
        self.mallory = self.user(MALLORY)
        self.alice = self.user(ALICE)

    def user(self, number):
        made = self.machine.user(number)
        self.addCleanup(made.end)
        return made
