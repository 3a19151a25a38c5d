"""Pipes with names (FIFOs) as inputs."""

import os
import subprocess

from case import Case
from host import PROGRAM


class Pipes(Case):
    def test_pipes_that_are_silent(self):
        """Nobody writes to them: as a signature, as data, and as a signature of the stateless interface. All are tried
        at once, as each waits."""
        pipe = self.folder / "pipe"
        os.mkfifo(pipe)
        calls = [[PROGRAM, "--verify", pipe, "data"], [PROGRAM, "--verify", "bob.detached", pipe],
                 [self.host.folder / "bin/tukyamid-sopv", "verify", pipe, "ring.pgp"]]
        runs = [subprocess.Popen(words, stdin=subprocess.DEVNULL, stdout=subprocess.PIPE, stderr=subprocess.PIPE,
                                 env=self.host.environment, cwd=self.people.folder, text=True) for words in calls]
        for run, status in zip(runs, (2, 2, 61), strict=True):
            self.addCleanup(run.kill)
            said = run.communicate(timeout=120)[1]
            self.assertEqual(run.returncode, status, said)
            self.assertIn("a pipe that was silent for 10 seconds\n", said)
