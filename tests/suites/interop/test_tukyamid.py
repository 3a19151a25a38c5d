"""Tukyamid's verifier and engine answer each case as it is expected, and some variants of cases too."""

import unittest

from running import Adapters, run, with_verifier
from written import cases

# All variants of all cases are part of a night. Here each of these cases has this many; its name decides which.
WITH_VARIANTS, VARIANTS = ("versions/*", "history/*", "revoked-user-ids/*"), 1
JOBS = 8


class Tukyamid(unittest.TestCase):
    def setUp(self):
        variables = with_verifier()
        if variables is None:
            self.skipTest("the verifier can't be built here")
        self.variables = variables

    def strict(self, *words):
        """The last line of a strict run, which has to pass."""
        status, output, errors = run("--strict", "--jobs", JOBS, *words, "--", "tukyamid", **self.variables)
        self.assertEqual((status, errors), (0, ""), output)
        return output.splitlines()[-1]

    def test_each_case(self):
        self.assertEqual(self.strict(), f"1 engines, {len(cases())} cases: 0 differences without a reason")

    def test_variants(self):
        some = [word for pattern in WITH_VARIANTS for word in ("--cases", pattern)]
        count = sum(place.split("/")[0] + "/*" in WITH_VARIANTS for place in cases())
        self.assertGreater(count, 20)
        self.assertEqual(self.strict(*some, "--mutations", VARIANTS),
                         f"1 engines, {count} cases: 0 differences without a reason, "
                         f"0 of {count} variants changed an answer")

    def test_a_copy_of_the_folder_needs_the_verifier_and_the_engine_alone(self):
        copy = Adapters(self).suite
        status, output, errors = run("tukyamid", folder=copy, PATH="/usr/bin:/bin", TUKYAMID="", **self.variables)
        self.assertEqual(errors, "")
        self.assertRegex(output, r"(?m)^tukyamid: tukyamid .*\(wot-verdicts ")
        # The certificates of these cases have nothing to do with their questions: no path leads anywhere.
        self.assertEqual((status, output.splitlines()[-1]),
                         (1, "1 engines, 3 cases: 2 differences without a reason"))
