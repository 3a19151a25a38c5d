"""A service whose first engine still loads the keyring: questions are answered from slices meanwhile, and all other
lines wait for it."""

import os
import signal
import subprocess
import tempfile
import time
import unittest
from pathlib import Path

from outside import HERE, PATIENCE, PROGRAM, PYTHON, ROOT, SERVER, Client, alone, needs_engine
from tukyamid.service.start_on_demand import is_served
from world import World

SERVE = """
import sys
sys.path.insert(0, sys.argv.pop(1))
from tukyamid.service import line_intake, server_command
line_intake.LOADED_AT_ONCE = 0
sys.exit(server_command.main())
"""


@needs_engine
class Early(unittest.TestCase):
    def setUp(self):
        place = tempfile.TemporaryDirectory(prefix="tukyamid-early-")
        self.addCleanup(place.cleanup)
        self.folder = Path(place.name)
        self.world = World()
        script = self.folder / "script"
        script.write_bytes(b"".join(line + b"\n" for line in self.world.lines()))
        self.database = self.folder / "keyring.db"
        subprocess.run([SERVER, "import-dump", "--database", self.database, "--engine", PROGRAM, script], check=True)
        self.socket = self.folder / "socket"

    def start(self, engine=HERE / "slow_engine.py"):
        words = [PYTHON, "-c", SERVE, ROOT / "python", "serve", "--socket", self.socket, "--database", self.database,
                 "--engine", engine, "--engines", "1"]
        served = subprocess.Popen(words, env={**os.environ, "WOT_PROGRAM": PROGRAM, "SLOW_FOLDER": str(self.folder)},
                                  stderr=subprocess.PIPE)
        self.addCleanup(served.stderr.close)
        self.addCleanup(served.wait)
        self.addCleanup(served.kill)
        end = time.monotonic() + PATIENCE
        while not is_served(self.socket):
            self.assertTrue(served.poll() is None and time.monotonic() < end)
            time.sleep(0.01)
        return served

    def go(self):
        (self.folder / "go").touch()

    def heard(self, client, lines):
        """Sends lines, and hears what they come to."""
        client.send(*lines)
        self.hear(client, lines)

    def hear(self, client, lines):
        """That these lines, which were sent, have the replies of the program alone, which has the whole keyring."""
        expected = b"".join(alone([*self.world.lines(), *lines])[len(self.world.lines()):])
        said = b""
        while len(said) < len(expected):
            piece = client.socket.recv(1 << 16)
            self.assertTrue(piece, said)
            said += piece
        self.assertEqual(said, expected)

    def is_silent(self, client):
        """Whether nothing comes for a while."""
        client.socket.settimeout(0.3)
        try:
            return not client.socket.recv(1)
        except TimeoutError:
            return True
        finally:
            client.socket.settimeout(PATIENCE)

    def questions(self):
        bindings = list(zip(self.world.fprs, self.world.user_ids))
        lines = [b"view p time 5000", b"view p root %s 120" % self.world.fprs[0], b"view q time 2500",
                 b"view q root %s 60" % self.world.fprs[1], b"view q root %s 90" % self.world.fprs[2]]
        for fpr, user_id in bindings:
            lines += [b"ask p %s 120 %s" % (fpr, user_id), b"explain q %s %s" % (fpr, user_id), b"export " + fpr,
                      b"ask q %s 500 %s" % (fpr, user_id), b"ask none %s 1 %s" % (fpr, user_id)]
        return [*lines, b"?", b"export " + b"0" * 40, b"ask p nobody", b"view q close", b"explain q " + b"0" * 40]

    def test_questions_are_answered_before_the_keyring_is_loaded(self):
        self.start()
        with Client(self.socket) as client:
            self.heard(client, self.questions())
        self.assertFalse((self.folder / "go").exists())

    def test_other_lines_wait(self):
        self.start()
        front = [b"view p time 5000", b"view p root %s 120" % self.world.fprs[0]]
        fpr, user_id = self.world.fprs[3], self.world.user_ids[3]
        others = [b"list p 40", b"absence p %s 500 %s" % (fpr, user_id), b"keys", b"pending", b"drop " + fpr,
                  b"watch w on p %s 120 %s" % (fpr, user_id), b"cursor c over p 40", b"dump",
                  b"check p %s - - %s" % (fpr, user_id)]
        for line in others:
            with Client(self.socket) as client:
                self.heard(client, front)
                client.send(line)
                self.assertTrue(self.is_silent(client), line)

    def test_what_waited_is_answered_behind_what_was_asked(self):
        self.start()
        with Client(self.socket) as client, Client(self.socket) as other:
            drop = b"drop " + self.world.fprs[4]
            lines = [*self.questions(), b"list p 40", b"keys", drop, *self.questions(), b"keys"]
            client.send(*lines)
            self.heard(other, self.questions())
            self.go()
            self.hear(client, lines)

    def test_the_status_waits_for_its_turn(self):
        """It asks for what no view has. Whoever comes later is answered as well."""
        self.start()
        with Client(self.socket) as client, Client(self.socket) as other:
            client.send(b"service status", b"service unverified")
            self.assertTrue(self.is_silent(client))
            self.go()
            client.socket.settimeout(PATIENCE)
            self.assertEqual(client.read_line().split(b" ")[:2], [b"service", b"status"])
            self.heard(other, self.questions())

    def test_a_service_that_ends_while_it_loads(self):
        served = self.start()
        with Client(self.socket) as client:
            self.heard(client, self.questions())
            served.send_signal(signal.SIGTERM)
            self.go()
            self.assertEqual(client.socket.recv(1), b"")
        self.assertEqual((served.wait(PATIENCE), served.stderr.read()), (0, b""))

    def test_an_engine_that_cannot_load_it(self):
        """The service says so, and ends, also if somebody was answered before."""
        engine = self.folder / "engine"
        engine.write_text("#!/bin/sh\nread -r line; printf 'ok\\n'; sleep 1; printf 'refused full\\n'\n")
        engine.chmod(0o755)
        served = self.start(engine)
        said = served.stderr.read().decode()
        self.assertEqual(served.wait(PATIENCE), 1)
        self.assertIn("a line of the database was answered with b'refused full", said)
