"""Sockets at which nobody is let in, where tukyamid-gpg looks for the service: it says why it has no answer, and waits
for none without an end. It asks as apt's own user does, who has no directory of a session."""

import os
import shutil
import unittest
from pathlib import Path

from users import ALICE, ROOT, Users, needs_engine, needs_root

from tukyamid.setup import trial_data

PROGRAM = ROOT / "verifier/out/tukyamid-gpg"
# As MALLORY or as the user: a socket whose queue is full.
LISTEN = """
import os, socket, sys
os.makedirs(sys.argv[1], exist_ok=True)
path = sys.argv[1] + "/tukyamid.socket"
listening = socket.socket(socket.AF_UNIX)
listening.bind(path)
os.chmod(path, 0o777)
listening.listen(0)
held = []
while True:
    held.append(socket.socket(socket.AF_UNIX))
    held[-1].setblocking(False)
    try:
        held[-1].connect(path)
    except BlockingIOError:
        break
print("full", flush=True)
sys.stdin.read() or os.read(os.pipe()[0], 1)
"""


@needs_engine
@needs_root
@unittest.skipUnless(os.access(PROGRAM, os.X_OK), "tukyamid-gpg isn't built")
class Squatted(Users):
    def setUp(self):
        super().setUp()
        self.program = shutil.copy(PROGRAM, self.machine.folder / "tukyamid-gpg")
        for name, octets in ("data", trial_data.DATA), ("data.asc", trial_data.ARMORED):
            (self.machine.folder / name).write_bytes(octets)

    def occupy(self, user, folder):
        """A socket of a user's in a directory, that takes no connection."""
        self.assertEqual(user.start(["/usr/bin/python3", "-c", LISTEN, folder]).stdout.readline(), b"full\n")

    def verified(self, **environment):
        """What Alice gets, who has no keyring of her own."""
        words = [self.program, "--status-fd", "1", "--verify", "data.asc", "data"]
        folder = self.machine.folder
        return self.alice.run(*words[:-2], folder / "data.asc", folder / "data", **environment)

    def test_a_directory_of_another_user_in_the_place_of_ones_own(self):
        folder = Path(f"/tmp/tukyamid-{ALICE}")
        self.addCleanup(shutil.rmtree, folder, ignore_errors=True)
        self.occupy(self.mallory, folder)
        status, out, said = self.verified(XDG_RUNTIME_DIR="")
        self.assertEqual(status, 2)
        self.assertIn("ERRSIG", out)
        self.assertIn(f"{folder} has to be a directory that only you can use", said)

    def test_a_service_that_takes_nobody_in(self):
        self.occupy(self.alice, self.alice.runtime)
        status, out, said = self.verified()
        self.assertEqual(status, 2)
        self.assertIn("ERRSIG", out)
        self.assertIn("it takes no connection", said)
