"""`tukyamid doctor` tries a signature through each program that was set up, and notices one that asks the real gpg."""

import os
import shutil
import sys
import tempfile
import unittest
from pathlib import Path

from asked import Asked
from host import ENGINE, PROGRAM, ROOT, VERIFIER
from made import Made

# The programs that a user sets up, and what they need.
PROGRAMS = {"git": "git", "mutt": "mutt", "neomutt": "neomutt", "emacs": "emacs", "gpgme": "gpgconf",
            "evolution": "gsettings"}
ASKS = "asks Tukyamid: it took a signature that only Tukyamid knows"


class Doctor(unittest.TestCase):
    def setUp(self):
        folder = tempfile.TemporaryDirectory(prefix="wot")
        self.addCleanup(folder.cleanup)
        self.home = Path(folder.name)
        (self.home / "run").mkdir(mode=0o700)

    def said(self, gpg, *words):
        """What `tukyamid` says in the home, where gpg stands for tukyamid-gpg."""
        asked = Asked(Made.once(), "default")
        names = self.home / ".local/share/tukyamid/bin"
        environment = {"HOME": str(self.home), "XDG_RUNTIME_DIR": str(self.home / "run"), "TUKYAMID_GPG": str(gpg),
                       "GSETTINGS_BACKEND": "keyfile", "PATH": f"{names}:{os.environ['PATH']}"}
        return asked.run(sys.executable, ROOT / "python/bin/tukyamid", *words, environment=environment)

    def of_programs(self, gpg):
        said = self.said(gpg, "doctor", "--engine", ENGINE, "--verifier", VERIFIER).stdout.splitlines()
        return {line.split()[2]: line.partition(line.split()[2])[2].strip() for line in said
                if " program " in line}

    def test_each_program(self):
        here = [name for name, command in PROGRAMS.items() if shutil.which(command)]
        for name in here:
            done = self.said(PROGRAM, "setup", name)
            self.assertEqual((done.returncode, done.stderr), (0, ""), name)
        self.assertEqual(self.of_programs(PROGRAM), dict.fromkeys(here, ASKS))

    def test_one_that_asks_the_real_gpg(self):
        self.assertEqual(self.said("/usr/bin/gpg", "setup", "git").returncode, 0)
        self.assertEqual(self.of_programs("/usr/bin/gpg"), {
            "git": "was set up, and doesn't ask Tukyamid: git verify-commit refuses the trial's commit"})


class Callers(unittest.TestCase):
    def test_a_program_with_gpgme_below_another(self):
        """GPGME's process between has ended, and the shell leads the group: who reads the answer is who asks."""
        from programs import GPGME, OfPython, lacks
        if lacks(OfPython("gpg", GPGME)):
            self.skipTest("not installed: python3-gpg")
        asked = Asked(Made.once(), "default")
        accepted = {}
        for name in "python3", "mutt":
            asked.host.configure(f"[caller.{name}]\nstrict = true\n")
            words = ["sh", GPGME, asked.folder / "carol.detached", asked.folder / "data"]
            done = asked.run("setsid", "--wait", "sh", "-c", '/usr/bin/python3 -c "$1" gpg "$2" "$3"; exit $?', *words)
            accepted[name] = done.returncode == 0
        asked.host.configure()
        self.assertEqual(accepted, {"python3": False, "mutt": True})
