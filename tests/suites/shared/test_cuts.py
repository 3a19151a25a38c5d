"""A few short cuts of three machines under load, with a ledger of what was acknowledged. `endure` does it for hours."""

import unittest

from clusters import needs_postgres
from electing import needs_patroni
from network import needs_namespaces
from outside import needs_engine
from trials import Trial


@needs_engine
@needs_postgres
@needs_patroni
@needs_namespaces
class Cuts(unittest.TestCase):
    def test_nothing_is_lost(self):
        trial = Trial(self.addCleanup, seed=1)
        self.assertTrue(trial.wait_until_all_write())
        with self.subTest("the primary, for a time in which nobody else is elected"):
            self.check(trial.cut(trial.place_of("master"), 8))
        with self.subTest("the standby that confirms changes: the other one takes its place"):
            self.check(outcome := trial.cut(trial.place_of("sync_standby"), 30))
            self.assertLess(outcome.stalled, 26)
        with self.subTest("the other standby: nobody has to wait"):
            self.check(outcome := trial.cut(trial.place_of("replica"), 8))
            self.assertLess(outcome.stalled, 4)

    def check(self, outcome):
        self.assertEqual((outcome.lost, outcome.rows, outcome.stolen), (0, [], False))
        self.assertIsNotNone(outcome.whole)
