"""The edits, the order and the page of `tools/nightly`."""

import tempfile
import threading
import unittest
from dataclasses import replace
from pathlib import Path

from outside import MACHINE, ROOT, run

from checks.edits import applied, written  # noqa: I100
from checks.tree import Tree
from nights.edits import Edit, batches, says
from nights.functions import all_functions, changed_function
from nights.night import Night, Part, timed
from nights.order import PARTS, side_by_side, steps_of
from nights.page import page, status_of, told

SOURCE = """\
//! Planted.
use std::alloc::Global;

fn first(n: u8) -> u8
    ensures { result ≡ n }
{
    n
}

impl<T: Drop> Wrapped<T> {
    /// A method.
    pub fn second(&self) -> u8
        requires { 1 ≤ n }
        ensures more { result ≡ 1 }
    {
        if self.full {
            return 1;
        }
        1
    }
}

impl Display for Other {
    fn third(&self) -> u8 {
        3
    }
}
"""
CHECKED = """\
fn planted::a::first: proved
note: src/a.rt:12:9: it is not proved that what the function ensures holds when it returns (`returns-more`)
fn planted::a::Wrapped::second: no proof: expected answers in ./proofs/a/Wrapped/second/Answers.antt
"""


class Edits(unittest.TestCase):
    """Which function an edit changes, and what a check says of it."""

    def setUp(self) -> None:
        holder = tempfile.TemporaryDirectory()
        self.addCleanup(holder.cleanup)
        self.crate = Path(holder.name)
        (self.crate / "src").mkdir()
        (self.crate / "src/a.rt").write_text(SOURCE, encoding="utf-8")

    def test_functions_with_their_lines(self) -> None:
        found = [(each.path, each.first, each.last) for each in all_functions("src/a.rt", SOURCE)]
        self.assertEqual(found, [("a::first", 4, 8), ("a::Wrapped::second", 12, 20), ("a::Other::third", 24, 26)])

    def edit(self, old: str, new: str = "x", file: str = "src/a.rt") -> Edit:
        text = f"file: {file}\nold: {old}\nnew: {new}\n"
        texts, wrong = applied(text, self.crate)
        self.assertEqual(wrong, "")
        return Edit("an.edit", "planted", texts, changed_function(text, self.crate))

    def test_the_changed_function(self) -> None:
        second = self.edit("            return 1;").function
        self.assertEqual(second and second.path, "a::Wrapped::second")
        self.assertIsNone(self.edit("use std::alloc::Global;").function)

    def test_what_a_check_says(self) -> None:
        second, first, third = (self.edit(old) for old in ("            return 1;", "    n\n".rstrip(), "        3"))
        self.assertEqual(says(CHECKED, second), "refused")
        self.assertEqual(says(CHECKED, first), "proved")
        self.assertEqual(says(CHECKED, third), "")

    def test_a_refusal_elsewhere_or_of_a_name_alone_stays_open(self) -> None:
        second = self.edit("            return 1;")
        self.assertEqual(says(CHECKED.replace("src/a.rt:12:9", "src/a.rt:5:5"), second), "")
        gone = CHECKED.replace("it is not proved that", "`c` has no field:")
        self.assertEqual(says(gone, second), "")

    def test_edits_of_one_file_are_tried_apart(self) -> None:
        first, second, outside = (self.edit(old) for old in ("        3", "            return 1;", "//! Planted."))
        (self.crate / "src/b.rt").write_text("fn lone() {\n    one\n}\n", encoding="utf-8")
        other = self.edit("    one", file="src/b.rt")
        self.assertEqual(batches([first, second, outside, other]), {"planted": [[first, other], [second], [outside]]})

    def test_the_repository_s_edits_change_functions(self) -> None:
        """Nearly all edits of code change one function; the others, and those of definitions, need a whole crate."""
        found = [changed_function(edit.text, ROOT / "crates" / edit.crate)
                 for edit in written(Tree(ROOT)) if "file: src/" in edit.text]
        self.assertGreater(sum(each is not None for each in found), len(found) * 9 // 10)


class Order(unittest.TestCase):
    """Which parts run side by side."""

    def test_the_gate_is_first_and_the_benches_are_alone(self) -> None:
        steps = steps_of(list(PARTS), has_programs=False)
        self.assertEqual([each for step in steps for each in step], list(PARTS))
        self.assertEqual((steps[0], steps[-1]), (["gate"], ["benches"]))

    def test_named_parts_run_in_the_order_of_a_whole_night(self) -> None:
        steps = steps_of(["benches", "memory", "checks", "edits"], has_programs=False)
        self.assertEqual(steps, [["checks"], ["edits", "memory"], ["benches"]])

    def test_nothing_waits_for_the_gate_where_there_is_a_program(self) -> None:
        steps = steps_of(["gate", "checks", "edits", "benches"], has_programs=True)
        self.assertEqual(steps, [["checks"], ["gate", "edits"], ["benches"]])

    def test_parts_of_one_step_run_at_the_same_time(self) -> None:
        both = threading.Barrier(2, timeout=20)

        def run_beside(name: str) -> Part:
            both.wait()
            return Part(name, "passed", "")

        self.assertEqual([part.name for part in side_by_side(["edits", "memory"], run_beside)], ["edits", "memory"])


class Pages(unittest.TestCase):
    """The page of a night."""

    def night(self, folder: str) -> Night:
        return Night(ROOT, Path(folder), Path(folder), [Path("/bin/true")], ROOT / "crates", 7, 1, True)

    def test_untrusted_text_is_no_markup(self) -> None:
        parts = [Part("scripts", "failed", "<script>alert(1)</script>", ["a & b <i>"])]
        head = {"commit": "c0ffee", "machine": MACHINE, "begun": "2026-01-02", "load": {"begin": 1, "end": 2}}
        with tempfile.TemporaryDirectory() as folder:
            values = told(self.night(folder), parts, head)
        text = page(values)
        self.assertEqual(values["status"], "failed")
        self.assertNotIn("<script>", text)
        self.assertIn("&lt;script&gt;alert(1)&lt;/script&gt;", text)
        self.assertIn("a &amp; b &lt;i&gt;", text)
        self.assertIn("--seed 7 --short", text)

    def test_one_failed_part_fails_the_night(self) -> None:
        passed, skipped, failed = (Part("p", status, "") for status in ("passed", "skipped", "failed"))
        self.assertEqual(status_of([passed, skipped]), "passed")
        self.assertEqual(status_of([passed, failed, skipped]), "failed")

    def test_a_part_that_stops_has_failed(self) -> None:
        def broken(night: Night) -> Part:
            raise OSError("no disk")

        with tempfile.TemporaryDirectory() as folder:
            part = timed(broken, self.night(folder))
        self.assertEqual((part.name, part.status), ("broken", "failed"))
        self.assertIn("no disk", part.summary)

    def test_a_part_runs_before_there_is_a_program(self) -> None:
        """As the gate does, which makes the programs."""
        with tempfile.TemporaryDirectory() as folder:
            before = replace(self.night(folder), programs=[])
            self.assertEqual(before.run("said", ["sh", "-c", 'echo "in $WOT_ROOT"']), (0, f"in {ROOT}\n"))

    def test_a_seed_gives_the_same_choices(self) -> None:
        with tempfile.TemporaryDirectory() as folder:
            night = self.night(folder)
            self.assertEqual(night.drawn("a").random(), night.drawn("a").random())
            self.assertNotEqual(night.drawn("a").random(), night.drawn("b").random())

    def test_a_part_that_is_not_there(self) -> None:
        status, _, errors = run("tools/nightly", "nothing")
        self.assertEqual(status, 2)
        self.assertIn("there is no part nothing", errors)
