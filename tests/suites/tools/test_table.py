"""The table of `tests/run`: what was skipped and why, with what this machine could run counted apart."""

import json
import os
import shutil
import tempfile
import unittest
from pathlib import Path

from outside import ROOT, run

SUITES = {
    "good": "echo '3 passed, 0 failed'",
    "skips": (
        "echo \"test_a (x.X) ... skipped 'groff isn't installed'\";"
        "echo \"test_b (x.X) ... skipped \\\"root may read\\\"\";"
        "echo \"test_c (x.X) ... skipped 'there is no terminal'\"; echo '1 passed, 0 failed, 3 skipped'"
    ),
    "rules": "echo 'types: skipped: mypy is not there (apt-get install mypy)'; echo '2 passed, 0 failed, 1 skipped'",
    "fails": "echo '1 passed, 2 failed'; exit 1",
    "silent": "echo 'nothing to say'",
    "lies": "echo '1 passed, 0 failed'; exit 3",
    "again": "echo 'passed at the second try: test_a.A.test_b'; echo '2 passed, 0 failed, 0 skipped'",
}


class Tables(unittest.TestCase):
    """A folder of small suites under a copy of the runner."""

    def setUp(self) -> None:
        holder = tempfile.TemporaryDirectory()
        self.addCleanup(holder.cleanup)
        self.top = Path(holder.name)
        (self.top / "tests").mkdir()
        for name in "run", "needs.py":
            shutil.copy(ROOT / "tests" / name, self.top / "tests" / name)
        (self.top / "tests/packages.txt").touch()

    def run_suites(self, *names: str) -> tuple[int, list[str], list[dict[str, object]]]:
        for name in names:
            program = self.top / "tests/suites" / name / "run"
            program.parent.mkdir(parents=True)
            program.write_text(f"#!/bin/sh\n{SUITES[name]}\n", encoding="utf-8")
            os.chmod(program, 0o755)
        file = self.top / "results.json"
        status, told, errors = run(self.top / "tests/run", "--json", file, WOT_PROGRAM="/bin/true")
        self.assertEqual(errors, "")
        return status, told.splitlines(), json.loads(file.read_text(encoding="utf-8"))

    def test_sums_and_skips(self) -> None:
        status, lines, rows = self.run_suites("good", "rules", "skips")
        self.assertEqual((status, lines[-1]), (0, "6 passed, 0 failed, 4 skipped"))
        self.assertEqual([(row["suite"], row["skipped"], row["removable"]) for row in rows],
                         [("good", 0, 0), ("rules", 1, 1), ("skips", 3, 2)])
        could = lines.index("skipped, though this machine could run it:")
        others = lines.index("skipped:")
        self.assertEqual(sorted(lines[could + 1 : others]), [
            "  rules: mypy is not there (apt-get install mypy)", "  skips: groff isn't installed",
            "  skips: root may read"])
        self.assertEqual(lines[others + 1 : -1], ["  skips: there is no terminal"])

    def test_a_failure(self) -> None:
        status, lines, _ = self.run_suites("fails", "good")
        self.assertEqual((status, lines[-1]), (1, "4 passed, 2 failed, 0 skipped"))

    def test_a_suite_without_counts_has_failed(self) -> None:
        status, lines, _ = self.run_suites("good", "silent")
        self.assertEqual((status, lines[-1]), (1, "3 passed, 1 failed, 0 skipped"))

    def test_a_suite_with_a_bad_status_has_failed(self) -> None:
        status, lines, _ = self.run_suites("lies")
        self.assertEqual((status, lines[-1]), (1, "1 passed, 1 failed, 0 skipped"))

    def test_second_tries_are_listed(self) -> None:
        status, lines, rows = self.run_suites("again", "good")
        self.assertEqual((status, lines[-1]), (0, "5 passed, 0 failed, 0 skipped"))
        place = lines.index("failed first, and passed at the second try:")
        self.assertEqual(lines[place + 1 : -1], ["  again: test_a.A.test_b"])
        self.assertEqual([row["tried_again"] for row in rows], [["test_a.A.test_b"], []])


TESTS = """
import os, unittest

class Some(unittest.TestCase):
    @classmethod
    def setUpClass(cls):
        cls.fails_once("class")

    @staticmethod
    def fails_once(name):
        if name in os.environ["FAILS"] and not os.path.exists(name):
            open(name, "x").close()
            raise AssertionError(name)

    def test_by_chance(self):
        self.fails_once("chance")

    def test_for_good(self):
        self.assertNotIn("good", os.environ["FAILS"])

    def test_part(self):
        with self.subTest("part"):
            self.fails_once("part")
"""
SUITE = "import sys, pathlib; sys.path.append({tests!r}); import plain; " \
        "sys.exit(plain.run_files(pathlib.Path.cwd(), again={again}))"


class SecondTries(unittest.TestCase):
    """What `plain.run_files` does with tests that fail once, and with those that fail always."""

    def run_suite(self, fails: str, again: bool = True) -> tuple[int, str, list[str]]:
        holder = tempfile.TemporaryDirectory()
        self.addCleanup(holder.cleanup)
        (Path(holder.name) / "test_some.py").write_text(TESTS, encoding="utf-8")
        script = SUITE.format(tests=str(ROOT / "tests"), again=again)
        status, said, _ = run("/usr/bin/python3", "-c", script, at=Path(holder.name), FAILS=fails)
        lines = said.splitlines()
        return status, lines[-1], [line for line in lines if line.startswith("passed at the second")]

    def test_one_that_fails_by_chance(self) -> None:
        said = ["passed at the second try: test_some.Some.test_by_chance"]
        self.assertEqual(self.run_suite("chance"), (0, "3 passed, 0 failed, 0 skipped", said))
        self.assertEqual(self.run_suite("chance", again=False), (1, "2 passed, 1 failed, 0 skipped", []))

    def test_a_part_and_a_fixture(self) -> None:
        said = ["passed at the second try: test_some.Some.test_part"]
        self.assertEqual(self.run_suite("part"), (0, "3 passed, 0 failed, 0 skipped", said))
        said = ["passed at the second try: setUpClass (test_some.Some)"]
        self.assertEqual(self.run_suite("class"), (0, "3 passed, 0 failed, 0 skipped", said))

    def test_one_that_fails_for_good(self) -> None:
        self.assertEqual(self.run_suite("good"), (1, "2 passed, 1 failed, 0 skipped", []))
        said = ["passed at the second try: test_some.Some.test_by_chance"]
        self.assertEqual(self.run_suite("good chance"), (1, "2 passed, 1 failed, 0 skipped", said))
