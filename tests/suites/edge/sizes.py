"""How many octets the program offers in each read and each write: a piece, and all that is left.

`sizes.c` is built with gcc into a temporary folder, and stands between the program and the C library.
"""

import os
import shutil
import subprocess
import tempfile
import unittest
from pathlib import Path

from process import plain

PIECE = 65536
SOURCE = Path(__file__).resolve().parent / "sizes.c"


class Sizes(unittest.TestCase):
    @classmethod
    def setUpClass(cls):
        holder = tempfile.TemporaryDirectory()
        cls.addClassCleanup(holder.cleanup)
        cls.library = Path(holder.name) / "sizes.so"
        if not shutil.which("gcc"):
            raise unittest.SkipTest("there is no gcc here to build sizes.c with")
        command = ["gcc", "-O1", "-Wall", "-Wextra", "-shared", "-fPIC", "-o", cls.library, SOURCE]
        made = subprocess.run(command, capture_output=True, text=True, check=False)
        if made.returncode != 0:
            raise unittest.SkipTest(f"sizes.c can't be built here (it is for the GNU C library): {made.stderr[-300:]}")

    def offered(self, script, **environment):
        """What the program writes for a script in a file, and what it offers: the sizes of its reads and writes."""
        with tempfile.TemporaryFile() as file, tempfile.TemporaryFile("w+", encoding="ascii") as told:
            file.write(script)
            file.seek(0)
            variables = {**os.environ, "LD_PRELOAD": str(self.library), "SIZES_TO": str(told.fileno()), **environment}
            ended = subprocess.run([plain.PROGRAM, "run"], stdin=file, capture_output=True, env=variables,
                                   pass_fds=[told.fileno()], check=False)
            told.seek(0)
            calls = [line.split() for line in told]
        self.assertEqual((ended.returncode, ended.stderr), (0, b""))
        return ended.stdout, *([int(size) for call, size in calls if call == name] for name in ("read", "write"))

    def test_each_read_offers_a_whole_piece(self):
        """So a file is read in as few reads as may be, and one more that finds its end."""
        script = b"# a comment\n" * 30000
        replies, reads, _ = self.offered(script)
        self.assertEqual(replies, b"")
        self.assertEqual(reads, [PIECE] * (len(script) // PIECE + 2))

    def test_each_write_offers_all_that_is_left(self):
        """Also if the last one took only a part of it."""
        replies, _, writes = self.offered(b"keys\n" * 500, SIZES_MOST="1000")
        self.assertEqual(replies, b"keys 0\n" * 500)
        self.assertEqual(writes, [3500, 2500, 1500, 500])
