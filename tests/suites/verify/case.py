"""A test over files in a folder of its own, and what the verifier says of them."""

import tempfile
import unittest
from pathlib import Path

from checkers import File, by_verifier

DATA = b"first\n- second\r\nthird \xff\n" * 3000


class Case(unittest.TestCase):
    """Writes files, and asks the verifier."""

    def setUp(self):
        folder = tempfile.TemporaryDirectory(prefix="wot")
        self.addCleanup(folder.cleanup)
        self.folder = Path(folder.name)

    def write(self, name, octets):
        path = self.folder / name
        path.write_bytes(octets)
        return path

    def lines(self, certificates, signature, data=DATA, *words):
        ring = self.write("ring.pgp", certificates)
        return by_verifier(ring, File(self.write("data", data), self.write("data.sig", signature)), *words)

    def words(self, *given):
        return [line.word for line in self.lines(*given)]

    def whole(self, certificates, message, *words):
        ring = self.write("ring.pgp", certificates)
        return [line.word for line in by_verifier(ring, File(self.write("message", message)), *words)]
