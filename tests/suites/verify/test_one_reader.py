"""What is read of a keyring: `tukyamid keyring add` and `--keyring` take the same certificates. Keyrings are gpg's,
spoiled by hand."""

import json
import os
import signal
import subprocess
import sys
import tempfile
import unittest
from pathlib import Path

import openpgp
from checkers import PROGRAM
from made import Made
from program import ENGINE, ROOT, needs_engine
from tukyamid import connect

COMMAND = ROOT / "python/bin/tukyamid"
MARKER = openpgp.shortest(10, b"PGP")


@needs_engine
class OneReader(unittest.TestCase):
    @classmethod
    def setUpClass(cls):
        cls.signers, _ = Made.once()
        names = ("root", "archive", "release")
        cls.names = names
        cls.texts = {name: cls.signers.gpg("--export", cls.signers.fpr[name]) for name in names}
        cls.fprs = {name: cls.signers.fpr[name].lower() for name in names}

    def setUp(self):
        folder = tempfile.TemporaryDirectory(prefix="wot")
        self.addCleanup(folder.cleanup)
        self.own = Path(folder.name)
        self.ring = self.own / "ring.pgp"
        self.environment = {
            **os.environ, "TUKYAMID_ENGINE": str(ENGINE), "TUKYAMID_VERIFIER": str(PROGRAM),
            "XDG_RUNTIME_DIR": f"{self.own}/run", "XDG_DATA_HOME": f"{self.own}/data",
            "XDG_STATE_HOME": f"{self.own}/state", "XDG_CACHE_HOME": f"{self.own}/cache"}
        (self.own / "run").mkdir(mode=0o700)
        self.addCleanup(self.end)

    def end(self):
        """Ends the service that a command began."""
        path = self.own / "run/tukyamid.socket"
        if path.exists():
            with connect(str(path)) as client:
                os.kill(int(client.status()["process"]), signal.SIGTERM)

    def run_command(self, *words, check=True):
        done = subprocess.run([sys.executable, COMMAND, *map(str, words)], stdin=subprocess.DEVNULL,
                              capture_output=True, env=self.environment, check=False)
        if check:
            self.assertIn(done.returncode, (0, 1), done.stderr.decode())
        return done

    def known(self, *inputs):
        """The names of those whose user ID is authenticated. The root has certified them all."""
        done = self.run_command("--root", self.fprs["root"], "--format", "json", *inputs, "list")
        found = {one["fingerprint"] for one in json.loads(done.stdout)["bindings"]}
        return {name for name in self.names if self.fprs[name] in found}

    def check_both(self, octets, expected, fault=None):
        """That both readers take these, and leave out what the fault says."""
        self.ring.write_bytes(octets)
        self.assertEqual(self.known("--no-service", "--no-cache", "--keyring", self.ring), set(expected))
        added = self.run_command("keyring", "add", self.ring)
        self.assertRegex(added.stdout.decode(), rf": {len(expected)} certificates, ")
        self.assertEqual(self.known(), set(expected))
        listed = self.run_command("keyring", "list").stdout.decode()
        if fault is None:
            self.assertNotIn("left out", listed)
        else:
            self.assertRegex(listed, fault)

    def test_a_leading_marker(self):
        self.check_both(MARKER + b"".join(self.texts.values()), self.names)

    def test_a_damaged_certificate_among_others(self):
        """It has a literal data packet, which no certificate has (RFC 9580, section 10.1)."""
        damaged = self.texts["archive"] + openpgp.shortest(11, b"b\0\0\0\0\0")
        self.check_both(self.texts["root"] + damaged + self.texts["release"], ("root", "release"),
                        "a packet of type 11, which isn't allowed; left out")

    def test_a_damaged_block_among_others(self):
        blocks = [self.signers.gpg("--armor", "--export", self.signers.fpr[name]) for name in self.names]
        lines = blocks[1].splitlines(keepends=True)
        blocks[1] = b"".join([*lines[:5], b"%%%%\n", *lines[5:]])
        self.check_both(b"".join(blocks), ("root", "release"), "armor that can't be read .*left out")

    def test_secret_keys(self):
        """Of a secret key the certificate is taken, which is its public half."""
        secret = b"".join(self.signers.gpg("--export-secret-keys", self.signers.fpr[name]) for name in self.names)
        self.assertEqual(secret[0] & 0xbf, 0x80 | 5 << 2 & 0x3c | secret[0] & 3)
        self.check_both(secret, self.names)

    def test_partial_lengths(self):
        packets = openpgp.packets(self.texts["archive"])
        partial = b"".join(openpgp.partial(kind, body) if kind == 2 else openpgp.packet(kind, body)
                           for kind, body in packets)
        self.check_both(self.texts["root"] + partial, ("root", "archive"))

    def test_what_is_no_keyring(self):
        for octets in b"hello\n", b"\x99\x01\x0d\x04", b"\x80" * 40:
            self.ring.write_bytes(octets)
            self.assertEqual(self.run_command("keyring", "add", self.ring, check=False).returncode, 3, octets)
            words = ["--no-service", "--no-cache", "--keyring", self.ring, "--root", self.fprs["root"], "list"]
            self.assertEqual(self.run_command(*words, check=False).returncode, 3, octets)
