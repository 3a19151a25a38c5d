"""Keys that are too large to be used, and certificates that take too long: what a stranger can have the verifier do."""

import os
import subprocess
import tempfile
import time
import unittest
from pathlib import Path

import openpgp
from program import PROGRAM, Script

try:
    import version6 as v6
    import large
except ImportError:
    v6 = None

NAME = b"Lars <lars@example.org>"


@unittest.skipIf(v6 is None, "python3-cryptography isn't installed")
class Bounds(unittest.TestCase):
    def setUp(self):
        folder = tempfile.TemporaryDirectory(prefix="wot")
        self.addCleanup(folder.cleanup)
        self.folder = Path(folder.name)

    def write(self, name, octets):
        path = self.folder / name
        path.write_bytes(octets)
        return path

    def certificate(self, key, count=1):
        """A certificate with that many of its key's certifications of its own user ID, and their numbers."""
        bodies = [v6.signature(key, key.body, v6.ON_USER_ID, NAME, v6.Words(version=4, made=v6.MADE + index))
                  for index in range(count)]
        text = v6.certificate(key, (13, NAME), *((2, body) for body in bodies))
        return text, [openpgp.number(key.body, 1, NAME, body) for body in bodies]

    def test_sizes_of_rsa_keys(self):
        """The bounds are those of docs/DECISIONS.md: what gpg reads, and OpenSSL verifies with."""
        for bits, exponent, is_used in [
            (2048, 65537, True), (3072, large.exponent(256), True), (3072, large.exponent(257), False),
            (3073, large.exponent(64), True), (3073, large.exponent(65), False), (16384, 65537, True),
            (16384, large.exponent(64), True), (16385, 65537, False),
        ]:
            with self.subTest(bits=bits, exponent=exponent.bit_length()):
                key = large.Key(bits, exponent)
                self.assertEqual(key.modulus.bit_length(), bits)
                text, numbers = self.certificate(key)
                script = Script(self.write("ring.pgp", text))
                expected = dict.fromkeys(numbers, f"good {key.fingerprint}") if is_used else {}
                self.assertEqual((script.imports, script.verdicts), ([text], expected))

    def test_a_file_without_an_end(self):
        """A device, a file of 100 GB that takes no room, and standard input: memory grows to a bound alone."""
        sparse = self.write("sparse.pgp", b"")
        os.truncate(sparse, 100 << 30)
        for path in "/dev/zero", sparse, "-":
            with self.subTest(path), open("/dev/zero", "rb") as zeros:
                run = subprocess.run(["prlimit", "--as=4294967296", PROGRAM, path], stdin=zeros, capture_output=True,
                                     text=True, timeout=60, check=False)
                said = f"wot-verdicts: {path}: it has more than 512 MiB; give it in several files\n"
                self.assertEqual((run.returncode, run.stdout, run.stderr), (3, "", said))

    def test_a_hostile_key_costs_no_time(self):
        """Each of these signatures took a second."""
        text, _ = self.certificate(large.Hostile(16384, large.exponent(16383)), 20)
        before = time.monotonic()
        script = Script("--stats", self.write("ring.pgp", text))
        self.assertEqual((script.imports, script.verdicts), ([text], {}))
        self.assertIn("signatures-unsupported 20\n", script.told)
        self.assertLess(time.monotonic() - before, 10)

    def test_a_hostile_key_on_data(self):
        key = large.Hostile(16384, large.exponent(16383))
        text, _ = self.certificate(key)
        signatures = b""
        for index in range(40):
            made = v6.subpacket(2, (v6.MADE + index).to_bytes(4, "big")) + v6.subpacket(16, key.id)
            head = bytes([4, 0, v6.RSA, 8]) + len(made).to_bytes(2, "big") + made
            signatures += openpgp.packet(2, head + b"\0\0" + b"\0\0" + v6.integer(7))
        words = [PROGRAM, "--data", self.write("data", b""), "--signature", self.write("data.sig", signatures)]
        before = time.monotonic()
        run = subprocess.run([*words, self.write("ring.pgp", text)], capture_output=True, text=True, check=True)
        lines = run.stdout.splitlines()
        self.assertEqual({line.split(" ")[1] for line in lines}, {"refused"})
        self.assertTrue(all(line.endswith(" is too large") for line in lines), lines[0])
        self.assertLess(time.monotonic() - before, 10)

    def test_time_for_a_run(self):
        """When the time is up, what is left gets no verdict, and the status says so. The next run goes on with it."""
        key = large.Hostile(16384, large.exponent(64))
        text, numbers = self.certificate(key, 400)
        ring = self.write("ring.pgp", text)
        script = Script("--seconds", "1", "--jobs", "1", "--stats", ring, status=5)
        done = list(script.verdicts)
        self.assertEqual((script.imports, set(script.verdicts.values())), ([text], {"bad"}))
        self.assertEqual(done, numbers[:len(done)])
        self.assertLess(len(done), 400)
        self.assertIn(f"signatures-late {400 - len(done)}\n", script.told)
        self.assertIn(f"{400 - len(done)} signatures weren't verified: their time was up", script.told)
        rest = numbers[len(done):len(done) + 20]
        reply = f"pending {len(rest)}\n" + "".join(f"sig {one} {key.fingerprint} -\n" for one in rest)
        script = Script("--seconds", "600", "--pending", ring, given=reply.encode())
        self.assertEqual(script.verdicts, dict.fromkeys(rest, "bad"))

    def test_time_for_a_certificate(self):
        """One that takes more than ten seconds of a processor holds up no other."""
        hostile, ours = large.Hostile(16384, large.exponent(64)), large.Key(2048, 65537)
        text, _ = self.certificate(hostile, 5000)
        other, numbers = self.certificate(ours)
        script = Script("--jobs", "1", "--stats", self.write("ring.pgp", text + other), status=5)
        self.assertEqual(script.verdicts[numbers[0]], f"good {ours.fingerprint}")
        seconds = float(script.told.split("processor-seconds-verifying ")[1].split("\n")[0])
        self.assertTrue(9 < seconds < 15, seconds)
