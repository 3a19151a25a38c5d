"""What counts as a certificate of a certificate directory, for everything that reads one."""

import os
import tempfile
import unittest
from pathlib import Path
from unittest import mock

from tukyamid.command.named_inputs import Named
from tukyamid.keyrings.directory_entries import entries_of, folders_of
from tukyamid.keyrings.input_digest import digest_of
from tukyamid.service.keyring_files.watched_files import files_of

FOUR, SIX = "0a/" + "1b" * 19, "ff/" + "2c" * 31  # Fingerprints of 40 and of 64 digits.


class Entries(unittest.TestCase):
    def setUp(self):
        self.folder = self.enterContext(tempfile.TemporaryDirectory())
        for name in (SIX, FOUR, "trust-root"):
            self.write(name)

    def write(self, name, octets=b"octets"):
        path = Path(self.folder, name)
        path.parent.mkdir(exist_ok=True)
        path.write_bytes(octets)

    def found(self):
        return [os.path.relpath(path, self.folder) for path in entries_of(self.folder)]

    def others(self):
        """Files that programs keep in such a directory, and names that are none of a certificate."""
        return ["writelock", "_index.sqlite", "README", "0A/" + "1b" * 19, "0a/" + "1B" * 19, "0a/" + "1b" * 20,
                "0a/tmp", "abc/" + "1b" * 19]

    def test_they_are_in_order(self):
        self.assertEqual(self.found(), [FOUR, SIX, "trust-root"])

    def test_nothing_else_is_one(self):
        for name in self.others():
            self.write(name)
        os.mkdir(Path(self.folder, "0b"))
        os.mkfifo(Path(self.folder, "0b", "3d" * 19))
        os.mkdir(Path(self.folder, "0b", "4e" * 19))
        self.assertEqual(self.found(), [FOUR, SIX, "trust-root"])

    def test_a_link_to_a_file_is_one(self):
        os.symlink(Path(self.folder, FOUR), Path(self.folder, "0a", "5f" * 19))
        self.assertEqual(self.found(), [FOUR, "0a/" + "5f" * 19, SIX, "trust-root"])

    def test_the_folders_that_may_have_some(self):
        self.write("abc/x")
        self.assertEqual(sorted(map(os.path.basename, folders_of(self.folder))), ["0a", "ff"])

    def test_the_service_reads_the_same(self):
        for name in self.others():
            self.write(name)
        self.assertEqual(files_of(self.folder), entries_of(self.folder))

    def test_only_certificates_change_the_digest(self):
        """So what another program keeps beside them, such as its index, has nobody verify them again."""
        before = digest_of([self.folder], "verifier 1")
        for name in self.others():
            self.write(name)
        self.assertEqual(digest_of([self.folder], "verifier 1"), before)
        self.write(SIX, b"others")
        self.assertNotEqual(digest_of([self.folder], "verifier 1"), before)

    def test_a_new_certificate_changes_the_stamp(self):
        before = Named(self.folder).stamp().text
        self.assertEqual(Named(self.folder).stamp().text, before)
        self.write("0a/" + "6a" * 19)
        self.assertNotEqual(Named(self.folder).stamp().text, before)

    def test_one_that_cant_be_listed_has_no_stamp(self):
        with mock.patch.object(os, "scandir", side_effect=PermissionError):
            self.assertIsNone(Named(self.folder).stamp())


if __name__ == "__main__":
    unittest.main()
