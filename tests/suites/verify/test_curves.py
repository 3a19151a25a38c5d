"""Data signed over the curves that gpg has and Sequoia's library lacks: the verdict is gpgv's on the same files."""

import shutil
import tempfile
import unittest
from pathlib import Path

import gnupg
from checkers import File, by_gpgv, by_verifier
from signers import MADE, PACKAGE, RELEASE

CURVES = ("brainpoolP256r1", "brainpoolP384r1", "brainpoolP512r1", "secp256k1")
DAY = 86400
FORMS = {"detached": ("--detach-sign",), "armored": ("--armor", "--detach-sign"), "text": ("--textmode", "-b"),
         "cleartext": ("--clearsign",), "message": ("--sign",), "message as it is": ("--compress-algo", "none", "-s")}


@unittest.skipUnless(shutil.which("gpgv"), "gpgv isn't installed")
class Curves(unittest.TestCase):
    """Each curve: a key that signs, and one that signs with a subkey; one of the latter is revoked in the end."""

    @classmethod
    def setUpClass(cls):
        cls.home = gnupg.make_home("curves")
        folder = tempfile.TemporaryDirectory(prefix="wot")
        cls.addClassCleanup(folder.cleanup)
        cls.folder = Path(folder.name)
        cls.release, cls.package = cls.write("Release", RELEASE), cls.write("package", PACKAGE)
        cls.signers = {}
        for curve in CURVES:
            for use in "cert,sign", "cert":
                cls.signers[curve, use] = cls.generate(f"{curve} {use}", curve, use)
        gnupg.gpg(cls.home, "--quick-generate-key", "ending", "brainpoolP256r1", "cert,sign", "1y", at=MADE)
        cls.signed = dict(cls.all_signed())
        cls.ring = cls.write("ring.pgp", gnupg.gpg(cls.home, "--export", at=MADE))

    @classmethod
    def write(cls, name, octets):
        path = cls.folder / name
        path.write_bytes(octets)
        return path

    @classmethod
    def generate(cls, name, curve, use):
        """The fingerprint of a new key; one that only certifies has a subkey that signs."""
        gnupg.gpg(cls.home, "--quick-generate-key", name, curve, use, "never", at=MADE)
        listed = gnupg.gpg(cls.home, "--with-colons", "--list-keys", f"={name}", at=MADE).decode()
        fingerprint = next(line.split(":")[9] for line in listed.splitlines() if line.startswith("fpr"))
        if use == "cert":
            gnupg.gpg(cls.home, "--quick-add-key", fingerprint, f"{curve}/ecdsa", "sign", "never", at=MADE)
        return fingerprint.lower()

    @classmethod
    def all_signed(cls):
        for (curve, use), fingerprint in cls.signers.items():
            for form, words in FORMS.items():
                data = cls.release if form in ("text", "cleartext") else cls.package
                yield (curve, use, form), (cls.sign(fingerprint, words, data), fingerprint)

    @classmethod
    def sign(cls, signer, words, data, at=MADE + DAY):
        signed = gnupg.gpg(cls.home, "-u", signer, "--output", "-", *words, str(data), at=at)
        path = cls.write(f"signed-{len(list(cls.folder.iterdir()))}", signed)
        is_apart = "--detach-sign" in words or "-b" in words
        return File(data, path) if is_apart else File(path)

    def test_each_form_is_good_as_it_is_for_gpgv(self):
        for label, (file, fingerprint) in self.signed.items():
            with self.subTest(label):
                line, = by_verifier(self.ring, file)
                self.assertEqual((line.word, line.certificate), ("good", fingerprint), line.why)
                self.assertEqual(by_gpgv(self.ring, file), {fingerprint})

    def test_other_data_are_bad(self):
        altered = self.write("altered", RELEASE.replace(b"stable", b"staple"))
        for (curve, use, form), (file, _) in self.signed.items():
            if form == "text":
                other = File(altered, file.signature)
            elif form == "cleartext":
                octets = file.data.read_bytes().replace(b"stable", b"staple")
                other = File(self.write(f"altered-{curve}-{use}", octets))
            elif form == "detached":
                other = File(self.release, file.signature)
            else:
                continue
            with self.subTest((curve, use, form)):
                self.assertEqual([line.word for line in by_verifier(self.ring, other)], ["bad"])
                self.assertEqual(by_gpgv(self.ring, other), set())

    def test_what_a_message_holds(self):
        for form, data in ("message", PACKAGE), ("message as it is", PACKAGE):
            content = self.folder / f"content of {form}"
            by_verifier(self.ring, self.signed["brainpoolP384r1", "cert", form][0], "--content", content)
            self.assertEqual(content.read_bytes(), data)

    def test_beside_a_signature_that_the_library_knows(self):
        gnupg.gpg(self.home, "--quick-generate-key", "known", "ed25519", "cert,sign", "never", at=MADE)
        ring = self.write("more.pgp", gnupg.gpg(self.home, "--export", at=MADE))
        for names in ("known", "brainpoolP256r1 cert"), ("brainpoolP256r1 cert", "known"):
            users = [word for name in names for word in ("-u", f"={name}")]
            for form, words in FORMS.items():
                data = self.release if form in ("text", "cleartext") else self.package
                file = self.sign(*users[1:2], [*users[2:], *words], data)
                with self.subTest((names, form)):
                    lines = by_verifier(ring, file)
                    self.assertEqual([line.word for line in lines], ["good", "good"])
                    self.assertEqual({line.certificate for line in lines}, by_gpgv(ring, file))

    def test_a_key_that_has_expired_and_one_that_is_revoked(self):
        late = self.sign("=ending", ("-b",), self.package, at=MADE + 364 * DAY)
        line, = by_verifier(self.ring, late)
        self.assertEqual(line.word, "good")
        line, = by_verifier(self.ring, late, "--at", str(MADE + 363 * DAY))
        self.assertEqual(line.word, "refused")
        lost = self.generate("lost", "brainpoolP256r1", "cert,sign")
        file = self.sign(lost, ("-b",), self.package)
        revocation = gnupg.gpg(self.home, "--output", "-", "--armor", "--gen-revoke", lost, given="y\n1\n\ny\n",
                               at=MADE + 9 * DAY)
        gnupg.gpg(self.home, "--import", str(self.write("lost.rev", revocation)), at=MADE + 9 * DAY)
        ring = self.write("lost.pgp", gnupg.gpg(self.home, "--export", lost, at=MADE + 9 * DAY))
        line, = by_verifier(ring, file)
        self.assertEqual((line.word, by_gpgv(ring, file)), ("refused", set()))
