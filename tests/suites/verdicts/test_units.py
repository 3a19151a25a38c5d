"""Runs the verifier's own tests, which cargo builds."""

import os
import subprocess
import unittest

from program import ROOT


@unittest.skipIf("TUKYAMID_VERIFIER" in os.environ, "another verifier is tested than this repository's")
class Units(unittest.TestCase):
    """The verifier's own tests of its parts."""

    def test_cargo(self):
        environment = {**os.environ, "PATH": f"/usr/bin:{os.environ['PATH']}"}
        run = subprocess.run(["cargo", "test", "--release", "--offline"], cwd=ROOT / "verifier", env=environment,
                             stdin=subprocess.DEVNULL, capture_output=True, text=True)
        self.assertEqual(run.returncode, 0, run.stdout + run.stderr)
