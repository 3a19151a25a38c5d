"""What stands around a signed text or message, which nobody signed, and armor headers that look signed."""

import shutil
import subprocess
import tempfile
import unittest
from pathlib import Path

from checkers import PROGRAM, File, by_verifier
from made import Made
from signers import RELEASE

ALTERED = RELEASE.replace(b"stable", b"staple")


class Outside(unittest.TestCase):
    @classmethod
    def setUpClass(cls):
        cls.signers, _ = Made.once()
        cls.release = cls.signers.write("outside-release", RELEASE)
        cls.clear = cls.signers.sign(cls.release, "release", how=("--clearsign",))
        cls.armored = cls.signers.sign(cls.release, "release", how=("--armor", "--sign"))

    def setUp(self):
        folder = tempfile.TemporaryDirectory(prefix="wot")
        self.addCleanup(folder.cleanup)
        self.folder = Path(folder.name)

    def run_verifier(self, octets, *words):
        """The lines of the verifier's output, but for what follows the second word."""
        path = self.folder / "message"
        path.write_bytes(octets)
        run = subprocess.run([PROGRAM, "--data", path, *words, "--", self.signers.ring], stdin=subprocess.DEVNULL,
                             capture_output=True, check=True)
        return [" ".join(line.split(" ")[:2]) for line in run.stdout.decode().splitlines()]

    def gpgv_refuses(self, octets):
        path = self.folder / "message"
        path.write_bytes(octets)
        words = ["gpgv", "--keyring", self.signers.ring.resolve(), path]
        return subprocess.run(words, stdin=subprocess.DEVNULL, capture_output=True, check=False).returncode != 0

    def test_alone(self):
        for octets in self.clear, self.armored, b"\n \r\n" + self.clear + b"\n\t\n":
            self.assertEqual(self.run_verifier(octets), ["signature good"])

    def test_two_messages_in_one_file(self):
        altered = self.clear.replace(b"stable", b"staple")
        for octets in self.clear + altered, altered + self.clear, self.clear + self.clear, \
                self.armored + self.armored, self.clear + self.armored, self.armored + altered:
            self.assertEqual(self.run_verifier(octets), ["signature malformed"])
        if shutil.which("gpgv"):
            self.assertTrue(self.gpgv_refuses(self.clear + altered))

    def test_text_around_it_is_reported(self):
        for octets in self.clear, self.armored:
            for before, after in (b"Pay Mallory.\n", b""), (b"", b"\nPay Mallory."), (b"a\n", b"b\n"):
                content = self.folder / "content"
                lines = self.run_verifier(before + octets + after, "--content", content)
                expected = ["outside before"] * bool(before) + ["outside after"] * bool(after)
                self.assertEqual(lines, ["signature good", *expected])
                self.assertNotIn(b"Mallory", content.read_bytes())
                content.unlink()

    def test_a_quoted_message_is_none(self):
        quoted = b"".join(b"> " + line for line in self.armored.splitlines(keepends=True))
        self.assertEqual(self.run_verifier(quoted), ["signature malformed"])

    def test_armor_headers_that_arent_allowed(self):
        self.assertIn(b"\nHash: SHA256\n", self.clear)
        for header in (b"Comment: Pay Mallory.", b"Hash: SHA512\nCharset: UTF-8", b"Hash: SHA512 Pay Mallory.",
                       b"Hash: Pay Mallory.", b"Hash: SHA512\n Pay Mallory.", b"Pay Mallory."):
            octets = self.clear.replace(b"Hash: SHA256", header, 1)
            self.assertEqual(self.run_verifier(octets), ["signature malformed"], header)
        for header in b"Hash: SHA512\nHash: SHA256", b"Hash: SHA1,SHA3-256, SHA512 ":
            octets = self.clear.replace(b"Hash: SHA256", header, 1)
            self.assertEqual(self.run_verifier(octets), ["signature good"], header)

    def test_each_of_several_armored_signatures_counts(self):
        data = self.signers.write("outside-altered", ALTERED)
        wrong = self.signers.sign(data, "archive", how=("--armor", "--detach-sign"))
        right = self.signers.sign(self.release, "release", how=("--armor", "--detach-sign"))
        for signatures, words in (right + wrong, ["good", "bad"]), (wrong + right, ["bad", "good"]):
            file = File(self.release, self.signers.write("outside.asc", signatures))
            self.assertEqual([line.word for line in by_verifier(self.signers.ring, file)], words)
