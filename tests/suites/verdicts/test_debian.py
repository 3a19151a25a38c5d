"""The verifier over debian-keyring, whose keys gpg counts."""

import subprocess
import unittest
from collections import Counter
from pathlib import Path

from program import ENGINE, Script, needs_engine

DEBIAN = Path("/usr/share/keyrings/debian-keyring.gpg")


class Debian(unittest.TestCase):
    """Over debian-keyring, whose keys gpg counts."""

    @classmethod
    def setUpClass(cls):
        cls.script = Script("--stats", DEBIAN) if DEBIAN.exists() else None

    def setUp(self):
        if self.script is None:
            self.skipTest("the package debian-keyring isn't installed")

    def test_each_certificate_stands_there_octet_for_octet(self):
        self.assertEqual(b"".join(self.script.imports), DEBIAN.read_bytes())
        listed = subprocess.run(["gpg", "--no-default-keyring", "--keyring", DEBIAN, "--list-keys", "--with-colons"],
                                capture_output=True, text=True).stdout
        self.assertEqual(len(self.script.imports), sum(line.startswith("pub:") for line in listed.splitlines()))

    def test_it_is_frugal(self):
        told = dict(line.split() for line in self.script.told.splitlines())
        # Reading, numbers and writing take a part of what verifying takes, however fast or busy the machine is.
        verifying = float(told["processor-seconds-verifying"])
        self.assertLess(float(told["processor-seconds"]) - verifying, verifying)
        self.assertLess(int(told["peak-kilobytes"]), 300_000)

    @needs_engine
    def test_the_engine_takes_the_script(self):
        run = subprocess.run([ENGINE, "run"], input=self.script.octets, capture_output=True)
        replies = Counter(line.split()[0] for line in run.stdout.decode().splitlines())
        self.assertEqual((run.returncode, replies), (0, {"ok": len(self.script.lines)}))
