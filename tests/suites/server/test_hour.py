"""A short run of what `tools/nightly` does for an hour: kills, stops and floods at random, with a ledger."""

import random
import subprocess
import sys
import unittest

from ledger import Certificate, Talker, Verdict
from outside import HERE, needs_engine

SECONDS = "20"


class Ledger(unittest.TestCase):
    """What it finds, by replies and databases that were made up."""

    def test_a_lost_change(self):
        talker = Talker("nowhere", 1, random.Random(1))
        for thing in talker.things:
            thing.unanswered = [True]
            self.assertEqual(thing.expect(True, thing.reply(True, False)), "")
        kept = {thing.kept for thing in talker.things}
        self.assertEqual(list(talker.missing(kept)), [])
        self.assertEqual(len(list(talker.missing(kept - {talker.things[3].kept, talker.things[4].kept}))), 2)

    def test_a_change_that_was_refused_and_made(self):
        verdict = Verdict(7)
        verdict.unanswered = [True]
        self.assertEqual(verdict.expect(True, b"fault database"), "")
        self.assertEqual(verdict.states, {False})

    def test_an_unanswered_change_may_be_made_or_not(self):
        certificate = Certificate(7)
        certificate.unanswered = [True]
        certificate.lose()
        self.assertEqual(certificate.states, {False, True})

    def test_lines_in_another_order(self):
        certificate = Certificate(7)
        certificate.unanswered = [True, False]
        self.assertIn("was answered", certificate.expect(True, b"ok taken 1 skipped 0 new 0"))


@needs_engine
class Short(unittest.TestCase):
    def test_kills_stops_and_floods(self):
        seed = str(random.SystemRandom().randrange(10**6))
        done = subprocess.run([sys.executable, HERE / "hour", SECONDS, seed], capture_output=True, text=True,
                              check=False, timeout=300)
        self.assertEqual(done.returncode, 0, done.stdout + done.stderr)
        self.assertIn(" 0 wrong", done.stdout)
