"""The directory in which a command is run has modules of somebody else's, as a cloned repository or /tmp may: none of
them is run."""

import asyncio
import contextlib
import os
import re
import tempfile
import unittest
from pathlib import Path

from plain import ROOT
from users import needs_engine

from tukyamid.protocol.refusals import TukyamidError
from tukyamid.public.workers import Refusal, Workers
from tukyamid.setup.trial import trial
from tukyamid.web.facts_summary import Counts, FactsProcess

# Modules that each process of the package imports, and the package itself.
NAMES = ("tukyamid/__init__.py", "json.py", "asyncio.py", "socket.py", "tempfile.py")
SOURCES = ROOT / "python" / "tukyamid"


class Hostile(unittest.TestCase):
    def setUp(self):
        made = tempfile.TemporaryDirectory(prefix="tukyamid-hostile-")
        self.addCleanup(made.cleanup)
        self.folder = Path(made.name)
        self.mark = self.folder / "was-run"
        for name in NAMES:
            (self.folder / name).parent.mkdir(exist_ok=True)
            (self.folder / name).write_text(f"open({str(self.mark)!r}, 'a').write('{name} ')\nraise SystemExit(7)\n")
        before = os.getcwd()
        self.addCleanup(os.chdir, before)
        os.chdir(self.folder)

    def set_path(self, text):
        before = os.environ.get("PYTHONPATH")
        self.addCleanup(os.environ.update if before is not None else os.environ.pop,
                        {"PYTHONPATH": before} if before is not None else "PYTHONPATH")
        os.environ["PYTHONPATH"] = text

    def check(self):
        self.assertFalse(self.mark.exists(), self.mark.exists() and self.mark.read_text())

    def test_the_facts_of_a_page(self):
        for path in None, ":/nowhere":
            with self.subTest(path):
                if path is not None:
                    self.set_path(path)
                with FactsProcess(1700000000) as process:
                    process.write(b"")
                    self.assertEqual(process.counts(), Counts(0, 0))
                self.check()

    def test_a_process_that_answers_everyone(self):
        async def ask():
            workers = Workers(str(self.folder / "no-socket"), 1, 60.0)
            try:
                await workers.ask(b"{}\n", False)
            finally:
                await workers.close()
        with contextlib.suppress(Refusal):  # There is no service, and this isn't a question.
            asyncio.run(ask())
        self.check()

    @needs_engine
    def test_the_service_of_a_trial(self):
        with contextlib.suppress(TukyamidError):  # Without a verifier its key can't be added.
            with trial() as made:
                self.assertTrue(made.socket.exists())
        self.check()

    def test_no_other_process_of_python_is_started_there(self):
        """`-m` and `-c` have the working directory searched first."""
        for path in SOURCES.rglob("*.py"):
            for words in re.findall(r"sys\.executable,[^\]]*", path.read_text()):
                self.assertIn('"-P"', words, path)
