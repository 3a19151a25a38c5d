"""Certificates of debian-keyring with mistakes in their octets and packets: the verifier calls good what gpg does. The
mistakes come from fixed seeds, which a failure names; WOT_SEEDS has others (`7,8,9`)."""

import os
import random
import shutil
import subprocess
import sys
import tempfile
import unittest
from pathlib import Path

import gnupg
import openpgp
import readers
from program import PROGRAM, ROOT

sys.path.insert(0, str(ROOT / "tools"))
from nights.beside_model import KEYRING, certificates, mutated  # noqa: E402

IS_FIXED = "WOT_SEEDS" not in os.environ
SEEDS = [int(seed) for seed in os.environ.get("WOT_SEEDS", "1,2,3,4,5").split(",")]
TOGETHER = 40


class Night:
    """What `certificates` asks of a night."""
    root = ROOT


@unittest.skipUnless(KEYRING.exists(), "the package debian-keyring isn't installed")
class Mutated(unittest.TestCase):
    @classmethod
    def setUpClass(cls):
        cls.real = certificates(KEYRING.read_bytes(), Night)

    def setUp(self):
        folder = tempfile.TemporaryDirectory(prefix="wot", dir=gnupg.FOLDER, ignore_cleanup_errors=True)
        self.addCleanup(folder.cleanup)
        self.folder = Path(folder.name)

    def files(self, seed):
        """A file for each of some certificates, with mistakes."""
        draw = random.Random(seed)
        chosen = draw.sample(self.real, TOGETHER)
        files = []
        for number, packets in enumerate(chosen):
            files.append(self.folder / f"{seed}-{number}.pgp")
            files[-1].write_bytes(mutated(draw, packets, draw.choice(chosen)))
        return files

    @staticmethod
    def verdicts(*files):
        """The signatures in these files, and of each what the verifier says: `good FPR`, `bad` or None."""
        run = subprocess.run([PROGRAM, "--all", *map(str, files)], capture_output=True, check=False)
        if run.returncode not in (0, 1):
            raise AssertionError(run.stderr)
        lines = run.stdout.decode().splitlines()
        said = dict(line.split(" ", 2)[1:] for line in lines if line.startswith("verdict "))
        imports = [bytes.fromhex(line[7:]) for line in lines if line.startswith("import ")]
        return [(one, said.get(one.number)) for text in imports for one in openpgp.signatures(text)
                if len(one.body) > 10 and one.body[0] == 4]

    @staticmethod
    def good(signatures):
        found = {readers.signed_by(one, verdict[5:]) for one, verdict in signatures
                 if verdict is not None and verdict.startswith("good ")}
        return found - {None}

    @unittest.skipUnless(shutil.which("gpg"), "gpg isn't installed")
    def test_a_signature_is_good_where_it_is_for_gpg(self):
        """Of the certificates that both take, and by keys of these: gpg takes the packets before one that is cut short.
        gpg keeps one binding of a subkey, looks at no certification by a key that is revoked or bound by nothing, and
        finds a subkey's binding among user IDs too. It leaves out more when it merges damaged user IDs, so that its
        good ones are ours for every seed, and ours are its for the fixed ones."""
        compared = 0
        for seed in SEEDS:
            files = self.files(seed)
            theirs, owners, unusable = readers.by_gpg(gnupg.make_home(f"mutated-{seed}"), files)
            signatures = self.verdicts(*files)
            ours, common = self.good(signatures), owners & {one.owner for one, _ in signatures}
            issuers = {owner[-16:] for owner in common}
            theirs = {one for one in theirs if one.certificate in common and one.issuer in issuers
                      and one.place in readers.PLACES[one.kind]}
            ours = {one for one in ours if one.certificate in common and one.place != "uat"}
            compared += len(ours)
            ids = {owner[-16:] for owner in unusable}
            heeded = {one for one in ours if one.place != "sub" and one.issuer not in ids - {one.certificate[-16:]}}
            with self.subTest(seed=seed):
                self.assertEqual(theirs - ours, set())
                if IS_FIXED:
                    self.assertEqual(heeded - theirs, set())
        self.assertGreater(compared, 50 * len(SEEDS))
