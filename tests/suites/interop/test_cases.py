"""The cases are what the tables say: written by the generator, in one form, by rules that stand in the profile."""

import re
import subprocess
import unittest

from held import held
from verifying import verdicts
from written import INTEROP, ROOT, cases, certificates, user_id

KEYS = ["name", "group", "title", "certificates", "roots", "time", "question", "expected", "rule", "class"]
CLASSES = {"standard", "specification", "choice"}
# Where signatures are that nobody made whom they name, on purpose.
FORGED = ("hostile/", "crowds/one-of-100-forged-certifications", "user-ids/signature-on-", "subpackets/nobody-named")


def plain_text(markdown):
    """A page as one line, without emphasis, and with the cells of a table's row as a list."""
    lines = [re.sub(r"( *\| *)+", "; ", line) if line.startswith("|") else line.removeprefix("- ")
             for line in markdown.replace("\n  ", "\n").splitlines()]
    return re.sub(r"\*\*([A-Za-z][^*]*)\*\*", r"\1", " ".join(" ".join(lines).split()))


class Cases(unittest.TestCase):
    def test_they_are_what_the_generator_writes(self):
        ran = subprocess.run([INTEROP / "make/write", "--check"], capture_output=True, text=True, check=False)
        self.assertEqual(ran.returncode, 0, ran.stdout + ran.stderr)

    def test_their_form(self):
        for place, case in cases().items():
            with self.subTest(case=place):
                is_choice = case["class"] == "choice"
                self.assertEqual(list(case), KEYS + ["choices"] * ("choices" in case))
                self.assertIn(case["class"], CLASSES)
                self.assertEqual(place, f"{case['group']}/{case['name']}")
                self.assertEqual("choices" in case, is_choice)
                self.assertEqual([], [key for key in case if case[key] in ("", None)])
                self.assertTrue(all(certificates(case)))
                self.assertIsInstance(user_id(case["question"]), bytes)

    def test_there_are_enough(self):
        self.assertGreaterEqual(len(cases()), 250)
        self.assertEqual({case["class"] for case in cases().values()}, CLASSES)

    def test_only_what_is_meant_to_be_forged_is(self):
        """Every other signature is by the key that it names, and the standard's sentences make a case standard."""
        for place, case in cases().items():
            with self.subTest(case=place):
                if case["class"] != "choice":
                    self.assertEqual(case["class"] == "standard", case["rule"]["source"].startswith("RFC "))
                if not place.startswith(FORGED):
                    self.assertNotIn(None, dict(verdicts(held(case))).values())

    def test_keys_of_every_kind(self):
        kinds = {key.body[:1] + key.body[5:6] for case in cases().values() for key in held(case)}
        self.assertLessEqual({b"\4\x01", b"\4\x16", b"\6\x01", b"\6\x1b"}, kinds)

    def test_paths_add_up(self):
        for place, case in cases().items():
            for paths in [case["expected"]["paths"]] if "paths" in case["expected"] else []:
                with self.subTest(case=place):
                    self.assertEqual(case["expected"]["amount"], sum(path["amount"] for path in paths))
                    roots = {root["fingerprint"] for root in case["roots"]}
                    for path in paths:
                        self.assertIn(path["certificates"][0], roots)
                        self.assertEqual(path["certificates"][-1], case["question"]["fingerprint"])

    def test_a_choice_has_the_expected_answer_among_its_answers(self):
        for place, case in cases().items():
            if case["class"] == "choice":
                with self.subTest(case=place):
                    answers = [each["answer"] for each in case["choices"]]
                    self.assertIn(case["expected"]["amount"], answers)
                    self.assertGreater(len(set(answers)), 1)

    def test_the_profile_has_the_sentences_that_are_quoted_from_it(self):
        page = plain_text((ROOT / "docs/PROFILE.md").read_text(encoding="utf-8"))
        for place, case in cases().items():
            if case["rule"]["source"] == "the profile":
                with self.subTest(case=place):
                    self.assertIn(case["rule"]["sentence"], page)

    def test_no_two_ask_the_same(self):
        asked = {}
        for place, case in cases().items():
            question = repr([case[key] for key in ("certificates", "roots", "time", "question")])
            self.assertEqual(asked.setdefault(question, place), place)
