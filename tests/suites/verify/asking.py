"""A test that asks `tukyamid verify` about the files of the tests."""

import json
import os
import subprocess
import sys
import tempfile
import unittest

from checkers import PROGRAM
from made import Made
from program import ENGINE, ROOT

COMMAND = ROOT / "python/bin/tukyamid"
OK, NO, WRONG, NO_ANSWER = range(4)


class Asking(unittest.TestCase):
    """Asks about files that are made once."""

    @classmethod
    def setUpClass(cls):
        cls.signers, cls.files = Made.once()
        cls.by_name = {case.name: case.file for case in cls.files.cases}
        cls.cache = tempfile.TemporaryDirectory(prefix="wot")
        cls.addClassCleanup(cls.cache.cleanup)

    def run_command(self, *words, given=None, question="verify", pass_fds=(), **environment):
        programs = {"TUKYAMID_ENGINE": str(ENGINE), "TUKYAMID_VERIFIER": str(PROGRAM)}
        return subprocess.run([sys.executable, COMMAND, question, *map(str, words)], capture_output=True, check=False,
                              input=b"" if given is None else given, env={**os.environ, **programs, **environment},
                              pass_fds=pass_fds)

    def words(self, name, *more, root=True):
        """The words for a file, as of a time at which all keys but the old one are in order."""
        file = self.by_name[name]
        paths = [file.data] if file.signature is None else [file.data, file.signature]
        roots = ["--root", self.signers.fpr["root"]] if root else []
        return [*paths, "--no-service", "--keyring", self.signers.ring, *roots, "--cache", self.cache.name, *more]

    def verify(self, name, *more, status):
        run = self.run_command(*self.words(name, *more))
        self.assertEqual((run.returncode, run.stderr), (status, b""), run.stdout.decode())
        return run.stdout.decode()

    def verify_object(self, name, *more, status):
        return json.loads(self.verify(name, *more, "--format", "json", status=status))
