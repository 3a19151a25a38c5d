"""git with `gpg.program`: what it accepts and shows."""

import subprocess

from case import Case
from host import PROGRAM


class Git(Case):
    @classmethod
    def setUpClass(cls):
        super().setUpClass()
        cls.work = cls.host.folder / "work"
        cls.git("init", "-q", "-b", "main", str(cls.work), at="/")
        cls.git("config", "user.name", "Somebody")
        cls.git("config", "user.email", "somebody@example.org")
        options = "--batch --passphrase '' --pinentry-mode loopback --faked-system-time 1708640000"
        signing = cls.write_program("signing", f'exec /usr/bin/gpg --homedir {cls.people.maker} {options} "$@"')
        for name in ("bob", "marg", "carol", "dave", "eve", "mia"):
            cls.git("-c", f"gpg.program={signing}", "commit", "-q", "--allow-empty", "-m", name,
                    f"-S{cls.fpr[name]}")
        cls.git("config", "gpg.program", str(PROGRAM))

    @classmethod
    def write_program(cls, name, text):
        path = cls.host.folder / name
        path.write_text(f"#!/bin/sh\n{text}\n")
        path.chmod(0o755)
        return path

    @classmethod
    def git(cls, *words, at=None, is_checked=True):
        run = subprocess.run(["git", *words], cwd=at or cls.work, env=cls.host.environment, capture_output=True,
                             text=True, check=False)
        if is_checked and run.returncode:
            raise AssertionError(run.stderr)
        return run

    def states(self):
        """git's letter for the signature of each commit, by its message."""
        lines = self.git("log", "--format=%s %G?").stdout.splitlines()
        return dict(line.split(" ") for line in lines)

    def accepted(self, *words):
        names = ["bob", "marg", "carol", "dave", "eve", "mia"]
        last = len(names) - 1
        return [name for place, name in enumerate(names)
                if self.git(*words, f"HEAD~{last - place}", is_checked=False).returncode == 0]

    def test_default(self):
        self.assertEqual(self.states(), {"bob": "G", "marg": "G", "carol": "U", "dave": "Y", "eve": "R", "mia": "E"})
        self.assertEqual(self.accepted("verify-commit"), ["bob", "marg", "carol"])
        self.assertEqual(self.accepted("-c", "gpg.minTrustLevel=fully", "verify-commit"), ["bob"])

    def test_strict(self):
        self.host.configure("[caller.git]\nstrict = true\n")
        self.assertEqual(self.states(), {"bob": "G", **dict.fromkeys(("marg", "carol", "dave", "eve", "mia"), "E")})
        self.assertEqual(self.accepted("verify-commit"), ["bob"])

    def test_what_is_shown(self):
        shown = self.git("log", "-1", "--show-signature", "HEAD~5").stdout
        self.assertIn('gpg: Good signature from "Bob <bob@example.org>" [full]\n', shown)
        self.assertEqual(self.git("log", "-1", "--format=%GS|%GT|%GK", "HEAD~5").stdout,
                         f"Bob <bob@example.org>|fully|{self.fpr['bob'][-16:].upper()}\n")
