"""What became slower between two runs, and how runs are shown."""

import tempfile
import unittest
import xml.etree.ElementTree as ElementTree
from pathlib import Path

from outside import MACHINE, beside, row, run, write_run

OTHER = {**MACHINE, "processor": "another processor"}


class Compared(unittest.TestCase):
    """`bench/compare` on two runs."""

    def setUp(self) -> None:
        holder = tempfile.TemporaryDirectory()
        self.addCleanup(holder.cleanup)
        self.a, self.b = Path(holder.name) / "a", Path(holder.name) / "b"

    def test_the_same_run(self) -> None:
        write_run(self.a, "keys", [row("one", 10), beside("two", 10, 5)])
        self.assertEqual(run("bench/compare", self.a, self.a)[:2], (0, "2 rows compared: 0 slower, 0 faster\n"))

    def test_a_quarter_is_named(self) -> None:
        write_run(self.a, "keys", [row("slow", 100), row("still", 100), row("fast", 100)])
        write_run(self.b, "keys", [row("slow", 125), row("still", 124), row("fast", 80)])
        status, told, _ = run("bench/compare", self.a, self.b)
        self.assertEqual(status, 1)
        self.assertIn("keys: slow", told)
        self.assertIn("keys: fast", told)
        self.assertNotIn("keys: still", told)
        self.assertTrue(told.endswith("3 rows compared: 1 slower, 1 faster\n"), told)

    def test_a_ratio_counts_on_another_machine(self) -> None:
        """The peer became slower as the row did: the ratio stays, and nothing is slower."""
        write_run(self.a, "keys", [beside("with a peer", 10, 5)])
        write_run(self.b, "keys", [beside("with a peer", 30, 15)], machine=OTHER)
        self.assertEqual(run("bench/compare", self.a, self.b)[0], 0)
        write_run(self.b, "keys", [beside("with a peer", 30, 10)], machine=OTHER)
        self.assertEqual(run("bench/compare", self.a, self.b)[0], 1)

    def test_values_of_other_machines_are_not_compared(self) -> None:
        write_run(self.a, "keys", [row("alone", 10)])
        write_run(self.b, "keys", [row("alone", 100)], machine=OTHER)
        status, told, _ = run("bench/compare", self.a, self.b)
        self.assertEqual(status, 2)
        self.assertIn("keys: alone: it has no peer, and the machines differ", told)

    def test_more_octets_a_second_are_faster(self) -> None:
        write_run(self.a, "lines", [row("speed", 100, "MB/s") | {"more_is_better": True}])
        write_run(self.b, "lines", [row("speed", 50, "MB/s") | {"more_is_better": True}])
        self.assertEqual(run("bench/compare", self.a, self.b)[0], 1)
        self.assertEqual(run("bench/compare", self.b, self.a)[0], 0)

    def test_rows_and_benches_that_went(self) -> None:
        write_run(self.a, "keys", [row("kept", 1), row("gone", 1)])
        write_run(self.a, "list", [row("kept", 1)])
        write_run(self.b, "keys", [row("kept", 1)])
        _, told, _ = run("bench/compare", self.a, self.b)
        self.assertIn("keys: gone: it is missing in the second run", told)
        self.assertIn("list: it is only in one of the runs", told)


class Begun(unittest.TestCase):
    """Benches that find something missing."""

    def test_no_engine(self) -> None:
        """It is said at once; nothing waits for a service that can't start."""
        status, _, errors = run("bench/clients", WOT_PROGRAM="/dev/null/none")
        self.assertEqual((status, errors), (1, "the engine isn't built: /dev/null/none\n"))


class Shown(unittest.TestCase):
    """`bench/tables` and `bench/plot`."""

    def setUp(self) -> None:
        holder = tempfile.TemporaryDirectory()
        self.addCleanup(holder.cleanup)
        self.folder = Path(holder.name)
        self.runs = self.folder / "runs"

    def test_a_table(self) -> None:
        rows = [beside("a list, 10", 4, 8, size=10), beside("a list, 1,000", 40, 80, size=1000), row("other", 1234)]
        write_run(self.runs, "list", rows)
        page = self.folder / "PAGE.md"
        page.write_text("# Page\n<!-- bench list -->\nold\n<!-- end -->\nbehind\n", encoding="utf-8")
        self.assertEqual(run("bench/tables", self.runs, page, "--check")[0], 1)
        self.assertEqual(run("bench/tables", self.runs, page)[0], 0)
        text = page.read_text(encoding="utf-8")
        self.assertIn("| a list | 10, 1,000 | 4, 40 us | the peer: 8, 80 | 0.5, 0.5 |", text)
        self.assertIn("| other |  | 1,234 us |  |  |", text)
        self.assertIn("\n2026-01-02, 4 processors (a processor), load 0 to 2.\n", text)
        self.assertTrue(text.startswith("# Page\n") and text.endswith("<!-- end -->\nbehind\n"))
        self.assertEqual(run("bench/tables", self.runs, page, "--check")[0], 0)

    def test_plots_are_pictures(self) -> None:
        sizes = (100, 1000, 10000)
        write_run(self.runs, "questions", [row(f"the first question, {size:,}", size, size=size) for size in sizes])
        write_run(self.runs, "changes", [row(f"after a <drop>, {size:,}", 15, size=size) for size in sizes])
        status, told, _ = run("bench/plot", self.runs, self.folder / "plots")
        self.assertEqual((status, len(told.splitlines())), (0, 2))
        for name, words in (("question", "the first question"), ("change", "after a <drop>")):
            picture = ElementTree.parse(self.folder / "plots" / f"{name}.svg").getroot()
            texts = [each.text for each in picture.iter() if each.tag.endswith("text")]
            self.assertIn(words, texts)
            self.assertEqual(sum(each.tag.endswith("circle") for each in picture.iter()), len(sizes))

    def test_no_run_no_plot(self) -> None:
        self.runs.mkdir()
        self.assertEqual(run("bench/plot", self.runs, self.folder / "plots")[0], 1)
