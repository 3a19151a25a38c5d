"""`tools/definitions`: what a contract rests on, each definition after those that it uses."""

import re
import subprocess
import sys
import unittest

import plain

TOOL = plain.ROOT / "tools/definitions"
sys.path.insert(0, str(plain.ROOT / "tools"))
from statements.contracts import Call, named_by  # noqa: E402
from statements.definitions import Library  # noqa: E402

HEAD = re.compile(r"^(?:abbrev|unfoldable|record|data|pub)\b.*?\b(?!pub\b)(\w+) [(:]", re.MULTILINE)


class Definitions(unittest.TestCase):
    def said(self, *words: str) -> str:
        ended = subprocess.run([TOOL, *words], capture_output=True, text=True, check=False)
        self.assertEqual((ended.returncode, ended.stderr), (0, ""))
        return ended.stdout

    def test_those_of_one_call(self) -> None:
        """The clauses of `write_all` name three definitions, and one of these uses another."""
        said = self.said("write_all")
        self.assertEqual(HEAD.findall(said), ["last_count", "Rose", "Becomes", "GainsPrefix"])
        self.assertEqual(said.splitlines()[-1], "4 definitions in 9 lines")

    def test_those_of_one_clause(self) -> None:
        """Of the four definitions of `write_all`, its clause on success reaches one. A wrong name is refused."""
        self.assertEqual(HEAD.findall(self.said("write_all", "ok")), ["Becomes"])
        self.assertEqual(self.said("write_all", "ok", "crates/wot_io/src/sink.rt"), self.said("write_all", "ok"))
        ended = subprocess.run([TOOL, "write_all", "send"], capture_output=True, text=True, check=False)
        self.assertEqual((ended.returncode, ended.stdout), (2, ""))
        self.assertIn("write_all has no clause send", ended.stderr)

    def test_the_headline_and_the_whole_contract(self) -> None:
        """`--count` prints both. The headline is one clause, so it rests on fewer definitions than the contract."""
        headline, contract = self.said("--count").splitlines()[-3:-1]
        self.assertEqual(headline, f"the headline, clause whole of run_words: {self.last_line('run_words', 'whole')}")
        self.assertEqual(contract, f"run_words, all clauses: {self.last_line('run_words')}")
        self.assertLess(*(int(line.rpartition(": ")[2].split()[0]) for line in (headline, contract)))

    def last_line(self, *words: str) -> str:
        return self.said(*words).splitlines()[-1]

    def test_operators_of_a_do(self) -> None:
        """An import binds and refuses between the lines of a `do`: the definitions of both operators are printed."""
        said = self.said("run_words", "whole")
        for operator in ("◌>>=◌", "◌>>◌"):
            self.assertIn(f"abbrev pub {operator} : ", said)

    def test_each_stands_after_what_it_uses(self) -> None:
        """Except in a circle: two definitions that use each other have no such order."""
        library = Library(plain.ROOT)
        order = library.below(named_by(plain.ROOT, Call("run_words", "crates/wot_engine/src/words.rt")))
        place = {each.place: number for number, each in enumerate(order)}
        wrong = [
            (each.place.name, used.name)
            for each in order
            for used in each.uses
            if used in place and place[used] > place[each.place] and each.place not in library.found[used].uses
        ]
        self.assertGreater(len(order), 500)
        self.assertEqual(wrong, [])

    def test_a_call_that_is_in_two_files(self) -> None:
        ended = subprocess.run([TOOL, "new"], capture_output=True, text=True, check=False)
        self.assertEqual((ended.returncode, ended.stdout), (2, ""))
        self.assertIn("new is in crates/", ended.stderr)
