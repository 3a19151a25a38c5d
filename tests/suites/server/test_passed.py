"""Sockets that the service is given, by systemd or by another program: their names say what clients may do."""

import contextlib
import fcntl
import os
import shutil
import socket
import subprocess
import tempfile
import time
import unittest
from pathlib import Path

from outside import PATIENCE, PROGRAM, PYTHON, SERVER, Client, needs_engine


@needs_engine
class Passed(unittest.TestCase):
    """Sockets that another program has opened, as systemd does."""

    def setUp(self):
        self.folder = Path(tempfile.mkdtemp(prefix="tukyamid-server-"))
        self.addCleanup(shutil.rmtree, self.folder)

    def served(self, listening, names):
        """A service that gets this socket with these names."""
        words = ["sh", "-c", 'LISTEN_PID=$$ LISTEN_FDS=1 exec "$@"', "sh", PYTHON, SERVER,
                 "--engine", PROGRAM, "--database", str(self.folder / "k.db")]
        environment = {**os.environ, **({} if names is None else {"LISTEN_FDNAMES": names})}
        passed = fcntl.fcntl(listening, fcntl.F_DUPFD_CLOEXEC, 10)  # Not 3, which would be closed as it stands.
        server = subprocess.Popen(words, stdin=subprocess.DEVNULL, stdout=subprocess.DEVNULL, close_fds=False,
                                  stderr=subprocess.PIPE, env=environment, preexec_fn=lambda: os.dup2(passed, 3))
        os.close(passed)
        self.addCleanup(server.stderr.close)
        self.addCleanup(server.wait)
        self.addCleanup(server.kill)
        return server

    def test_the_name_says_what_clients_may_do(self):
        for names, reply in (("read-write", b"ok"), ("tukyamid.socket", b"ok"), ("read-only", b"refused read-only"),
                             ("tukyamid-read-only.socket", b"refused read-only")):
            with self.subTest(names), socket.socket(socket.AF_UNIX) as listening:
                listening.bind(str(self.folder / names))
                listening.listen()
                server = self.served(listening, names)
                with Client(self.folder / names) as client:
                    self.assertEqual(client.tell(b"keys"), b"keys 0")
                    self.assertEqual(client.tell(b"verdict %064x bad" % 1), reply)
                server.terminate()
                self.assertEqual(server.wait(PATIENCE), 0)
                self.assertTrue((self.folder / names).exists())

    def test_an_unknown_name_is_an_error(self):
        for names in None, "", "readonly", "read_only", "Read-Only", "read-only ", "unknown", "connection":
            with self.subTest(names), socket.socket(socket.AF_UNIX) as listening:
                listening.bind(str(self.folder / "passed"))
                listening.listen()
                server = self.served(listening, names)
                _, said = server.communicate(timeout=PATIENCE)
                (self.folder / "passed").unlink()
                self.assertEqual(server.returncode, 1)
                self.assertRegex(said, rb"\Atukyamid-server: a socket was passed with the name '[^']*'; set [^\n]*\n\Z")

    def test_a_socket_of_the_network_is_an_error(self):
        with socket.socket() as listening:
            listening.bind(("127.0.0.1", 0))
            listening.listen()
            server = self.served(listening, "read-write")
            _, said = server.communicate(timeout=PATIENCE)
        self.assertEqual((server.returncode, said),
                         (1, b"tukyamid-server: the passed socket 3 isn't a Unix socket that listens\n"))


@needs_engine
@unittest.skipUnless(shutil.which("systemd-socket-activate"), "systemd-socket-activate isn't installed")
class Activated(unittest.TestCase):
    """systemd's own program opens the sockets, and starts the service with the first client."""

    def setUp(self):
        self.folder = Path(tempfile.mkdtemp(prefix="tukyamid-server-"))
        self.addCleanup(shutil.rmtree, self.folder)

    def test_two_sockets(self):
        changes, questions = self.folder / "changes", self.folder / "questions"
        words = ["systemd-socket-activate", "-l", changes, "-l", questions, "--fdname=read-write:read-only",
                 "-E", f"PATH={os.environ['PATH']}", PYTHON, SERVER, "--engine", PROGRAM, "--idle", "1",
                 "--database", self.folder / "keyring.db"]
        service = subprocess.Popen(words, stdin=subprocess.DEVNULL, stderr=subprocess.DEVNULL)
        self.addCleanup(service.wait)
        self.addCleanup(service.kill)
        end = time.monotonic() + PATIENCE
        client = None
        while client is None and time.monotonic() < end:
            with contextlib.suppress(OSError):  # It doesn't listen yet.
                client = Client(questions)
        with client:
            self.assertEqual(client.tell(b"keys"), b"keys 0")
            self.assertEqual(client.tell(b"verdict %064x bad" % 1), b"refused read-only")
        with Client(changes) as client:
            self.assertEqual(client.tell(b"verdict %064x bad" % 1), b"ok")
        self.assertEqual(service.wait(PATIENCE), 0)
        self.assertTrue(changes.is_socket())
