"""What the tests of the command share: a command that asks about the keyring of friends."""

import json
import unittest

from friends import friends
from outside import COMMAND, TRUSTING, folder, run
from tukyamid.command import answer_text, parser
from tukyamid.formats import FORMS, form

# The third is 15 February 2025.
DECEMBER, APRIL, FEBRUARY = "2025-12-01", "2025-04-15T00:00:00Z", "1739577600"


def program(name, text):
    """A program for the shell, of this name in the tests' folder."""
    path = folder() / name
    path.write_text(f"#!/bin/sh\n{text}\n")
    path.chmod(0o755)
    return path


def in_every_form(words):
    """The texts of an answer by their forms, and whether the amount is reached, without a process for each form."""
    def refuse(text):
        raise AssertionError(text)

    def show(report):
        return json.dumps({name: form(name)(report) for name in FORMS})
    given = parser.read([str(word) for word in words])
    texts, is_reached = answer_text.answer(given, show, refuse)
    return json.loads(texts), is_reached


class Asking(unittest.TestCase):
    @classmethod
    def setUpClass(cls):
        cls.friends = friends()
        cls.fpr = cls.friends.fpr

    def words(self, *words, root="Alice", time=DECEMBER, keyring=None):
        roots = [f"--root={self.fpr[root]}"] if root else []
        times = ["--time", time] if time else []
        return [COMMAND, "--no-service", "--keyring", keyring or self.friends.keyring, "--cache", folder() / "cache",
                "--verifier", TRUSTING, *roots, *times, *words]

    def ask(self, *words, root="Alice", time=DECEMBER, keyring=None, **options):
        return run(self.words(*words, root=root, time=time, keyring=keyring), **options)

    def answer(self, *words, **options):
        """The status and the JSON of an answer."""
        done = self.ask("--format", "json", *words, **options)
        self.assertEqual(done.stderr, b"")
        return done.returncode, json.loads(done.stdout)

    def fails(self, done, status, said):
        """That a command had no answer: nothing on standard output, and one line that says why. If the words were
        wrong, another line says how they go."""
        self.assertEqual((done.returncode, done.stdout), (status, b""), done.stderr)
        usage = r"usage: [^\n]*\n" if status == 2 else ""
        self.assertRegex(done.stderr.decode(), rf"\Atukyamid: [^\n]*{said}[^\n]*\n{usage}\Z")

    def chains(self, binding):
        """Each path as its amount and the names along it."""
        names = {fpr: name for name, fpr in self.fpr.items()}
        return [(path["amount"], [names[path["root"]], *(names[step["target"]] for step in path["steps"])])
                for path in binding["paths"]]
