"""Signatures, signed messages and keyrings as strangers may change them: the verifier says something of each, ends by
itself, and in time. `WOT_MUTATIONS` says how many, and `WOT_SEED` which."""

import os
import random
import resource
import subprocess
import sys

from case import DATA, Case
from checkers import PROGRAM
from made import Made
from program import ROOT

sys.path.append(str(ROOT / "tests/suites/readers"))
from mutating import Mutator

COUNT = int(os.environ.get("WOT_MUTATIONS") or 300)
SEED = int(os.environ.get("WOT_SEED") or 1)
PATIENCE = 120
SECONDS = 5  # Of a processor, for one file.
# What README.md of the verifier names; a panic has 101, and a signal a negative one.
STATUSES = {0, 1, 3, 5}


class Mutated(Case):
    @classmethod
    def setUpClass(cls):
        cls.signers, _ = Made.once()
        cls.ring = cls.signers.ring

    def setUp(self):
        super().setUp()
        self.data = self.write("data", DATA)
        self.mutator = Mutator(random.Random(SEED).getrandbits(32))
        self.faults = []

    def sign(self, *how):
        return [self.signers.sign(self.data, *names, how=how) for names in (("archive",), ("packager", "release"))]

    def try_each(self, samples, words):
        """Has the verifier read each sample, and mutations of them, which stand in place of the word `FILE`."""
        for octets in (*samples, *(self.mutator.mutated(samples) for _ in range(COUNT))):
            file = self.write("mutated", octets)
            before = resource.getrusage(resource.RUSAGE_CHILDREN)
            run = subprocess.run([PROGRAM, *(file if word == "FILE" else word for word in words)],
                                 stdin=subprocess.DEVNULL, capture_output=True, check=False, timeout=PATIENCE)
            after = resource.getrusage(resource.RUSAGE_CHILDREN)
            taken = after.ru_utime + after.ru_stime - before.ru_utime - before.ru_stime
            if run.returncode not in STATUSES or b"panicked" in run.stderr or taken > SECONDS:
                self.faults.append(f"status {run.returncode}, {taken:.1f} s: {run.stderr[-200:]!a}: {octets.hex()}")
        self.assertEqual(self.faults, [])

    def test_detached_signatures(self):
        samples = [*self.sign("--detach-sign"), *self.sign("--armor", "--detach-sign")]
        self.try_each(samples, ["--data", self.data, "--signature", "FILE", "--", self.ring])

    def test_signed_messages(self):
        samples = [*self.sign("--clearsign"), *self.sign("--armor", "--sign"),
                   *self.sign("--compress-algo", "none", "--sign")]
        self.try_each(samples, ["--data", "FILE", "--", self.ring])

    def test_keyrings(self):
        binary = self.ring.read_bytes()
        samples = [binary, self.signers.gpg("--output", "-", "--enarmor", str(self.ring)).replace(
            b"PGP ARMORED FILE", b"PGP PUBLIC KEY BLOCK")]
        self.try_each(samples, ["--jobs", "1", "FILE"])
