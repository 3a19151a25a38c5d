"""Pipes with names (FIFOs) as inputs: somebody who writes is waited for, and somebody who doesn't only for a while."""

import os
import subprocess
import tempfile
import threading
import unittest
from pathlib import Path

from program import PROGRAM

PATIENCE = 120
# Of version 4 by Ed25519, without subpackets.
SIGNATURE = b"\xc2\x4a\4\0\x1b\x08\0\0\0\0\xab\0" + bytes(64)
SILENT = "a pipe that was silent for 10 seconds"


class Pipes(unittest.TestCase):
    def setUp(self):
        folder = tempfile.TemporaryDirectory(prefix="wot")
        self.addCleanup(folder.cleanup)
        self.folder = Path(folder.name)
        self.fifo = self.folder / "fifo"
        os.mkfifo(self.fifo)
        self.file = self.folder / "file"
        self.file.write_bytes(SIGNATURE)

    def start(self, *words):
        run = subprocess.Popen([PROGRAM, *words], stdin=subprocess.DEVNULL, stdout=subprocess.PIPE,
                               stderr=subprocess.PIPE, text=True)
        self.addCleanup(run.kill)
        return run

    def test_pipes_that_are_silent(self):
        """As data, as signatures, as a message and as a keyring; and one that somebody has open who wrote a part. All
        are tried at once, as each waits."""
        held = self.folder / "held"
        os.mkfifo(held)
        runs = {self.start("--data", self.fifo, "--signature", self.file, self.file): self.fifo,
                self.start("--data", self.file, "--signature", self.fifo, self.file): self.fifo,
                self.start("--data", self.fifo, self.file): self.fifo, self.start(self.fifo): self.fifo,
                self.start(held): held}
        with open(held, "wb", buffering=0) as writing:
            writing.write(b"\x98")
            for run, pipe in runs.items():
                written, said = run.communicate(timeout=PATIENCE)
                self.assertEqual((run.returncode, written), (3, ""), said)
                self.assertEqual(said.splitlines()[-1], f"wot-verdicts: {pipe}: {SILENT}")

    def test_a_pipe_that_somebody_writes_to(self):
        key = b"\x98\x07\x04\0\0\0\0\x63\0"  # A version 4 key of no known algorithm.
        writing = threading.Thread(target=self.fifo.write_bytes, args=[key])
        writing.start()
        said = self.start("--certificates", self.fifo).communicate(timeout=PATIENCE)
        writing.join()
        self.assertEqual(said, (f"import {key.hex()}\n", ""))
