"""A test over the host that all tests share, whose configuration is as it was made."""

import tempfile
import unittest
from pathlib import Path

from made import Made


class Case(unittest.TestCase):
    maxDiff = None

    @classmethod
    def setUpClass(cls):
        cls.host = Made.once()
        cls.people = cls.host.people
        cls.fpr = cls.people.fpr

    def setUp(self):
        self.host.configure()
        folder = tempfile.TemporaryDirectory(prefix="wot")
        self.addCleanup(folder.cleanup)
        self.folder = Path(folder.name)

    def write(self, name, octets):
        path = self.folder / name
        path.write_bytes(octets)
        return path

    def assert_refused(self, answer):
        """No program that was tried takes this for a good signature (docs/CLIENTS.md)."""
        self.assertEqual(answer.exit, 2, answer)
        self.assertIn("ERRSIG", answer.words)
        self.assertEqual({"GOODSIG", "EXPSIG", "EXPKEYSIG", "REVKEYSIG", "VALIDSIG", "TRUST_FULLY", "TRUST_ULTIMATE"}
                         & set(answer.words), set())
