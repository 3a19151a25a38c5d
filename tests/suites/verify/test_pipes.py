"""Pipes as inputs of the command: those with names (FIFOs) that stay silent are given up, and others are read once."""

import os
import tempfile
import threading
from concurrent.futures import ThreadPoolExecutor

from asking import NO_ANSWER, OK, WRONG, Asking
from made import Made
from program import needs_engine

SILENT = "a pipe that was silent for 10 seconds"


@needs_engine
class Pipes(Asking):
    def setUp(self):
        folder = tempfile.TemporaryDirectory(prefix="wot")
        self.addCleanup(folder.cleanup)
        self.fifo = os.path.join(folder.name, "fifo")
        os.mkfifo(self.fifo)

    def by_ring(self, ring):
        """The words of a good file by another keyring."""
        words = self.words("Release.gpg by archive", "--for", "@example.org")
        words[words.index("--keyring") + 1] = ring
        return words

    def test_pipes_that_are_silent(self):
        """All are tried at once, as each waits."""
        data = self.by_name["Release.gpg by archive"].data
        asked = [(self.by_ring(self.signers.ring)[2:], [data, self.fifo]),
                 (self.by_ring(self.signers.ring)[2:], [self.fifo]), (self.by_ring(self.fifo), [])]
        with ThreadPoolExecutor() as pool:
            runs = [pool.submit(self.run_command, *first, *words) for words, first in asked]
            runs.append(pool.submit(self.run_command, self.fifo, question="check"))
            for run in runs:
                said = run.result().stderr.decode()
                self.assertEqual((run.result().returncode, run.result().stdout), (NO_ANSWER, b""), said)
                self.assertTrue(said.endswith(f"{self.fifo}: {SILENT}\n"), said)

    def test_a_keyring_from_a_pipe(self):
        """With a name, without one, and standard input: each is read once."""
        octets = Made.once()[0].ring.read_bytes()
        read, write = os.pipe()
        ways = {self.fifo: lambda: open(self.fifo, "wb"), f"/dev/fd/{read}": lambda: open(write, "wb")}
        for name, opened in ways.items():
            with self.subTest(name):
                writing = threading.Thread(target=self.write_all, args=[opened, octets])
                writing.start()
                run = self.run_command(*self.by_ring(name), pass_fds=[read])
                writing.join()
                self.assertEqual((run.returncode, run.stderr), (OK, b""), run.stdout.decode())
        os.close(read)
        run = self.run_command(*self.by_ring("-"), given=octets)
        self.assertEqual((run.returncode, run.stderr), (OK, b""), run.stdout.decode())

    def write_all(self, opened, octets):
        with opened() as file:
            file.write(octets)

    def test_a_keyring_without_an_end(self):
        run = self.run_command(*self.by_ring("/dev/zero"))
        self.assertEqual(run.returncode, WRONG)
        self.assertIn(b"an input has more than 512 MiB; give it in several files\n", run.stderr)
