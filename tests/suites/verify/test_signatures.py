"""The verdicts on signatures on data, beside those of gpgv, sqv and sq on the same files."""

import shutil
import tempfile
import unittest
from pathlib import Path

from checkers import File, by_gpgv, by_sq, by_sqv, by_verifier
from made import Made


class Signatures(unittest.TestCase):
    @classmethod
    def setUpClass(cls):
        cls.signers, cls.files = Made.once()
        cls.ring = cls.signers.ring

    def fingerprints(self, names):
        return {self.signers.fpr[name] for name in names}

    def test_each_signature_is_as_it_was_made(self):
        for case in self.files.cases:
            with self.subTest(case.name):
                lines = by_verifier(self.ring, case.file)
                self.assertEqual(sorted(line.word for line in lines), sorted(case.words))
                good = {line.certificate for line in lines if line.word == "good"}
                self.assertEqual(good, self.fingerprints(case.good))

    @unittest.skipUnless(shutil.which("gpgv"), "gpgv isn't installed")
    def test_as_gpgv(self):
        for case in self.files.cases:
            with self.subTest(case.name):
                expected = case.others.get("gpgv", case.good)
                self.assertEqual(by_gpgv(self.ring, case.file), self.fingerprints(expected), case.why)

    @unittest.skipUnless(shutil.which("sqv"), "sqv isn't installed")
    def test_as_sqv(self):
        for case in self.files.cases:
            if case.file.signature is not None:
                with self.subTest(case.name):
                    expected = case.others.get("sqv", case.good)
                    self.assertEqual(by_sqv(self.ring, case.file), self.fingerprints(expected), case.why)

    @unittest.skipUnless(shutil.which("sq"), "sq isn't installed")
    def test_as_sq(self):
        for case in self.files.cases:
            with self.subTest(case.name):
                expected = bool(case.others.get("sq", case.good))
                self.assertEqual(by_sq(self.ring, case.file), expected, case.why)


class DebianArchive(unittest.TestCase):
    """The release files that apt has fetched, by the keyring of Debian's archive."""
    ring = Path("/usr/share/keyrings/debian-archive-keyring.gpg")

    def setUp(self):
        self.releases = sorted(Path("/var/lib/apt/lists").glob("deb.debian.org_*_InRelease"))
        if not self.releases or not self.ring.exists():
            self.skipTest("apt has fetched no release file of Debian, or its keyring isn't installed")

    def test_as_gpgv_and_sq(self):
        for release in self.releases:
            with self.subTest(release.name):
                file = File(release)
                good = {line.certificate for line in by_verifier(self.ring, file) if line.word == "good"}
                self.assertTrue(good)
                self.assertEqual(good, by_gpgv(self.ring, file))
                self.assertTrue(by_sq(self.ring, file))

    def test_an_altered_line_is_bad(self):
        with tempfile.TemporaryDirectory(prefix="wot") as folder:
            altered = Path(folder) / "InRelease"
            altered.write_bytes(self.releases[0].read_bytes().replace(b"Origin: Debian", b"Origin: Debiam"))
            file = File(altered)
            self.assertEqual({line.word for line in by_verifier(self.ring, file)} - {"absent"}, {"bad"})
            self.assertEqual((by_gpgv(self.ring, file), by_sq(self.ring, file)), (set(), False))
