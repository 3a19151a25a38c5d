"""Certificate directories with odd entries: nothing of them is waited for, or read without end."""

import hashlib
import os
import subprocess
import tempfile
import unittest
from pathlib import Path

from program import PROGRAM

PATIENCE = 60
# A version 4 key of no known algorithm.
KEY = b"\x04\0\0\0\0\x63\0"
NAME = "b" * 38


class Entries(unittest.TestCase):
    def setUp(self):
        folder = tempfile.TemporaryDirectory(prefix="wot")
        self.addCleanup(folder.cleanup)
        self.folder = Path(folder.name)
        self.entry = self.folder / "aa" / NAME
        self.entry.parent.mkdir()

    def assert_refused(self, why):
        for word in "--certificates", "--public":
            run = subprocess.run([PROGRAM, word, self.folder], stdin=subprocess.DEVNULL, capture_output=True, text=True,
                                 timeout=PATIENCE, check=False)
            self.assertEqual((run.returncode, run.stdout), (3, ""), run)
            self.assertIn(why, run.stderr)

    def test_a_pipe(self):
        os.mkfifo(self.entry)
        self.assert_refused(f"{self.entry}: it isn't a regular file")

    def test_a_device(self):
        """Reading it would never end."""
        self.entry.symlink_to("/dev/zero")
        self.assert_refused(f"{self.entry}: it isn't a regular file")

    def test_a_folder(self):
        self.entry.mkdir()
        self.assert_refused(f"{self.entry}: it isn't a regular file")

    def test_files_that_are_too_large(self):
        """Each alone would do. They have no blocks on the disk."""
        for name in NAME, "c" * 38:
            with open(self.entry.with_name(name), "wb") as file:
                file.truncate((1 << 28) + 1)
        self.assert_refused("its files have more than 512 MiB")

    def test_a_link_to_a_file(self):
        """It is read like the file: other programs make directories of links."""
        fpr = hashlib.sha1(b"\x99" + len(KEY).to_bytes(2, "big") + KEY).hexdigest()
        file = self.folder / "elsewhere"
        file.write_bytes(bytes([0x98, len(KEY)]) + KEY)
        (self.folder / fpr[:2]).mkdir(exist_ok=True)
        (self.folder / fpr[:2] / fpr[2:]).symlink_to(file)
        run = subprocess.run([PROGRAM, "--certificates", self.folder], stdin=subprocess.DEVNULL, capture_output=True,
                             text=True, timeout=PATIENCE, check=False)
        self.assertEqual((run.returncode, run.stdout.splitlines()[:1]), (0, [f"import {file.read_bytes().hex()}"]), run)
