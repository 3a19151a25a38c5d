"""Signatures on data by version 6 keys, and by the new algorithms of version 4: the vectors of RFC 9580's appendix, and
what python3-cryptography makes here. What is expected is what the test itself signed, or spoiled."""

import base64
import itertools
import os
import subprocess
import sys
import unittest

import openpgp
from case import DATA, Case
from checkers import PROGRAM, File, by_verifier
from openpgp import packet
from program import ENGINE, ROOT, needs_engine

try:
    import signed6 as made
    import version6 as v6
except ImportError:
    v6 = None

ALGORITHMS = ("ed25519", "ed448", "p256", "p384", "p521", "rsa", "bp256", "bp384", "bp512", "k256")
HASHES = (8, 9, 10, 11, 12, 14)


@unittest.skipIf(v6 is None, "python3-cryptography isn't installed")
class Forms(Case):
    """Each algorithm and each form of a signature."""

    @classmethod
    def setUpClass(cls):
        cls.keys = {name: v6.Key(name) for name in ALGORITHMS}
        cls.older = {name: v6.Key(name, version=4) for name in ("ed25519", "ed448")}
        cls.certificates = {
            key.fingerprint: v6.certificate(key, *((made.direct(key),) if key.version == 6 else
                                                   made.named(key, made.flags(made.SIGN))))
            for key in (*cls.keys.values(), *cls.older.values())}
        cls.all = b"".join(cls.certificates.values())
        cls.key = cls.keys["ed25519"]

    def test_the_vectors_of_the_appendix(self):
        ring = self.write("sample.pgp", base64.b64decode(v6.SAMPLE))
        for text in made.SAMPLE_CLEARTEXT, made.SAMPLE_MESSAGE:
            content = self.folder / "content"
            line, = by_verifier(ring, File(self.write("signed", text.encode())), "--content", content)
            self.assertEqual((line.word, line.certificate, line.kind), ("good", v6.SAMPLE_FINGERPRINT, "1"))
            self.assertEqual(content.read_bytes(), made.SAMPLE_TEXT)
            content.unlink()
        altered = made.SAMPLE_CLEARTEXT.replace("tofu", "tofa").encode()
        self.assertEqual([line.word for line in by_verifier(ring, File(self.write("signed", altered)))], ["bad"])

    def test_each_algorithm_with_each_hash(self):
        made_by = [(key, made.on_data(key, DATA, kind, hash_algorithm=number))
                   for key, number, kind in itertools.product((*self.keys.values(), *self.older.values()), HASHES,
                                                              (made.BINARY, made.TEXT))]
        for some in made_by[::3], made_by[1::3], made_by[2::3]:
            signatures = b"".join(packet(2, body) for _, body in some)
            lines = self.lines(self.all, signatures)
            self.assertEqual([(line.word, line.certificate, line.key) for line in lines],
                             [("good", key.fingerprint, key.fingerprint) for key, _ in some])
            self.assertEqual(self.words(self.all, signatures, DATA + b"\n"), ["bad"] * len(some))

    def test_more_than_64_are_refused(self):
        body = packet(2, made.on_data(self.key, DATA))
        self.assertEqual(self.words(self.all, body * 66), ["good"] * 64 + ["refused"] * 2)

    def test_a_turned_bit_is_bad(self):
        for key in (*self.keys.values(), *self.older.values()):
            good = made.on_data(key, DATA)
            time = 10 if good[0] == 6 else 8
            # Of the time, which is the first subpacket, and of what is behind the hashed area.
            bits = itertools.chain(range(8 * time, 8 * time + 32), range(8 * (len(good) - 20), 8 * len(good), 11))
            bodies = [openpgp.turned(good, bit) for bit in bits]
            words = set(self.words(self.all, b"".join(packet(2, body) for body in bodies[:60])))
            # A time before the key was made, or after today, isn't one at which it could sign.
            self.assertLessEqual(words, {"bad", "refused"}, key.algorithm)
            self.assertIn("bad", words)
        self.assertEqual(self.words(self.all, packet(2, good), openpgp.turned(DATA, 8 * len(DATA) - 1)), ["bad"])

    def test_lines_of_text_end_alike(self):
        text = b"first\nsecond\n\nthird"
        signature = packet(2, made.on_data(self.key, text, made.TEXT))
        for data in text, text.replace(b"\n", b"\r\n"), text.replace(b"\n", b"\r\n", 1):
            self.assertEqual(self.words(self.all, signature, data), ["good"])
        for data in text + b"\n", text.replace(b"\n", b"\r"), text.replace(b"\n\n", b"\n"):
            self.assertEqual(self.words(self.all, signature, data), ["bad"])

    def test_messages_however_they_are_packed(self):
        for key in self.keys["p256"], self.older["ed448"]:
            plain = made.message(key, DATA)
            body = made.on_data(key, DATA)
            for name, octets in {
                "plain": plain, "partial": made.message(key, DATA, openpgp.partial), "zipped": made.zipped(plain),
                "zipped in parts": made.zipped(plain, openpgp.partial), "deflated": made.deflated(plain),
                "twice": made.deflated(made.zipped(plain)), "armored": made.armored("MESSAGE", plain),
                "signature first": packet(2, body) + made.literal(DATA),
                "with a marker": packet(10, b"PGP") + plain + packet(21, b"x"),
            }.items():
                with self.subTest(name):
                    content = self.folder / "content"
                    self.assertEqual(self.whole(self.all, octets, "--content", content), ["good"])
                    self.assertEqual(content.read_bytes(), DATA)
                    content.unlink()
            self.assertEqual(self.whole(self.all, plain.replace(b"third", b"thirt", 1)), ["bad"])

    def test_messages_that_arent_well_formed(self):
        body, other = made.on_data(self.key, DATA), made.on_data(self.key, DATA, hash_algorithm=10)
        begin, data, end = made.one_pass(self.key, body), made.literal(DATA), packet(2, body)
        for name, octets in {
            "cut": (begin + data + end)[:-20], "no data": begin + end, "data twice": begin + data + data + end,
            "not announced": data + end, "announced twice": begin + begin + data + end,
            "another announced": made.one_pass(self.key, other) + data + end,
            "a signature on a signature": begin + begin + data + end + end,
            "a packet of no place": begin + data + packet(13, b"x") + end,
            "a fault in the compressed": packet(8, b"\x02" + bytes(20)) + end,
        }.items():
            with self.subTest(name):
                self.assertNotIn("good", self.whole(self.all, octets))
                self.assertEqual(set(self.whole(self.all, octets)) - {"unsupported"}, {"malformed"})

    def test_several_in_one_message(self):
        one, two = (made.on_data(self.keys[name], DATA) for name in ("ed25519", "rsa"))
        octets = (made.one_pass(self.keys["ed25519"], one, is_last=False) + made.one_pass(self.keys["rsa"], two)
                  + made.literal(DATA) + packet(2, two) + packet(2, one))
        self.assertEqual(self.whole(self.all, octets), ["good", "good"])

    def test_cleartext(self):
        text = b"first\n- second\n-----BEGIN third\n\n\xff"
        body = made.on_data(self.key, text, made.TEXT)
        clear = made.cleartext(text, body)
        content = self.folder / "content"
        for octets in clear, clear.replace(b"\n", b"\r\n"), clear.replace(b"first\n", b"first \t\n"):
            around = b"Evil\n" + octets + b"Evil\n"
            self.assertEqual(self.whole(self.all, around, "--content", content), ["good"])
            self.assertEqual(content.read_bytes(), text)
            content.unlink()
        self.assertEqual(self.whole(self.all, clear.replace(b"second", b"secone")), ["bad"])
        self.assertNotEqual(self.whole(self.all, clear.replace(b"Hash: ", b"Comment: ")), ["good"])
        self.assertEqual(self.whole(self.all, made.cleartext(text, made.on_data(self.key, text))), ["malformed"])


@needs_engine
@unittest.skipIf(v6 is None, "python3-cryptography isn't installed")
class Command(Case):
    """`tukyamid verify` of data that a version 6 key signed, whose user ID another one certified."""

    def verify(self, *words):
        programs = {"TUKYAMID_ENGINE": str(ENGINE), "TUKYAMID_VERIFIER": str(PROGRAM)}
        run = subprocess.run([sys.executable, ROOT / "python/bin/tukyamid", "verify", *map(str, words), "--no-service",
                              "--no-cache"], capture_output=True, check=False, env={**os.environ, **programs})
        self.assertEqual(run.stderr, b"")
        return run.returncode

    def test_who_signed(self):
        root, signer = v6.Key("ed448"), v6.Key("p256")
        certified = 2, v6.signature(root, signer.body, v6.ON_USER_ID, made.NAME, v6.Words())
        ring = self.write("ring.pgp", v6.certificate(root, made.direct(root))
                          + v6.certificate(signer, made.direct(signer), *made.named(signer), certified))
        words = ["--keyring", ring, "--root", root.fingerprint, "--for"]
        data, other = self.write("data", DATA), self.write("other", DATA + b"x")
        signature = self.write("data.sig", packet(2, made.on_data(signer, DATA)))
        message = self.write("message", made.message(signer, DATA))
        for files in (data, signature), (message,):
            self.assertEqual(self.verify(*files, *words, "frida@example.org"), 0)
            self.assertEqual(self.verify(*files, *words, "carol@example.org"), 1)
        self.assertEqual(self.verify(other, signature, *words, "frida@example.org"), 1)
