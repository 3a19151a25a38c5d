"""The networks that the documents draw have the answers that the documents work out."""

import os
import unittest

from networks import Answer, Edge, answer_to, labels_of
from pages import PROGRAM, page

# docs/PROFILE.md, "A key that vouches for itself".
RUTH = [Edge("Ruth", "Tom", b"Tom at work", 1, 60), Edge("Tom", "Tom", b"tom", 0, 120)]
# docs/PROFILE.md, "Proofs of absence".
DORA = [
    Edge("Alice", "Bob", b"bob", 1, 60),
    Edge("Alice", "Carl", b"carl", 0, 60),
    Edge("Bob", "Dora", b"dora", 0, 120),
    Edge("Carl", "Dora", b"dora", 0, 120),
]
# docs/SEARCH.md, "The network".
SEARCH = [
    Edge("R", "A", b"a", 2, 120),
    Edge("A", "C", b"c", 1, 120),
    Edge("C", "T", b"t", 0, 120),
    Edge("R", "B", b"b", 1, 60),
    Edge("B", "T", b"t", 0, 120),
    Edge("R", "D", b"d", 0, 120),
    Edge("D", "T", b"t", 0, 120),
]


@unittest.skipUnless(os.access(PROGRAM, os.X_OK), f"the engine isn't built: {PROGRAM}")
class Networks(unittest.TestCase):
    def test_a_key_that_vouches_for_itself(self) -> None:
        self.assertEqual(answer_to(RUTH, "Ruth", "Tom", b"tom"), Answer(60, [(60, ["Ruth", "Tom", "Tom"])]))

    def test_without_depth_it_vouches_for_one_user_id_alone(self) -> None:
        edges = [RUTH[0]._replace(depth=0), RUTH[1]]
        self.assertEqual(answer_to(edges, "Ruth", "Tom", b"tom"), Answer(0, []))
        self.assertEqual(answer_to(edges, "Ruth", "Tom", b"Tom at work"), Answer(60, [(60, ["Ruth", "Tom"])]))

    def test_a_proof_of_absence(self) -> None:
        self.assertEqual(answer_to(DORA, "Alice", "Dora", b"dora"), Answer(60, [(60, ["Alice", "Bob", "Dora"])]))
        self.assertEqual(labels_of(DORA, "Alice", "Dora", b"dora"), {"Bob": 1, "Carl": 1})

    def test_the_network_of_the_search(self) -> None:
        wanted = Answer(120, [(60, ["R", "B", "T"]), (60, ["R", "A", "C", "T"])])
        self.assertEqual(answer_to(SEARCH, "R", "T", b"t"), wanted)

    def test_the_page_on_the_search_shows_that_answer(self) -> None:
        lines = page("docs/SEARCH.md").lines
        self.assertIn("path 60: R, B, T", lines)
        self.assertIn("path 60: R, A, C, T", lines)
