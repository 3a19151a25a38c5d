"""Views that the service's clients share: those who ask about the current time move one view on, in turn."""

import unittest

from tukyamid.service.engines.shared_views import EngineViews

ROOTS = ((b"aa" * 20, b"120"),)
DAY = 86_400


class Engine:
    """What is sent to an engine."""

    def __init__(self):
        self.waiting, self.lines = [], []

    def lag(self):
        return 0.0

    def send(self, line, done, **_):
        self.lines.append(line)


class Moved(unittest.TestCase):
    def setUp(self):
        self.engine = Engine()
        self.views = EngineViews(lambda: self.engine, lambda: None, [self.engine], 1)

    def find(self, time, roots=ROOTS):
        return self.views.find((b"%d" % time, roots)).name

    def test_a_view_moves_on(self):
        first = self.find(1000)
        self.assertEqual([self.find(1001), self.find(1001), self.find(1002)], [first] * 3)
        opened = [b"view %s time 1000" % first, b"view %s root %s 120" % (first, b"aa" * 20)]
        self.assertEqual(self.engine.lines, opened + [b"view %s time 1001" % first, b"view %s time 1002" % first])

    def test_a_view_never_moves_back_nor_far_nor_to_other_roots(self):
        views = [self.find(1000), self.find(999), self.find(1001 + DAY), self.find(1002 + DAY, ())]
        self.assertEqual(len(set(views)), 4)

    def test_the_nearest_view_moves(self):
        """So somebody who stays at an earlier time keeps the view, and others move on their own."""
        now = self.find(2000)
        earlier = self.find(1000)
        self.assertEqual([self.find(2001), self.find(1000), self.find(2002), self.find(1000)],
                         [now, earlier, now, earlier])

    def test_a_view_that_somebody_keeps_stays(self):
        pinned = self.views.pin((b"1000", ROOTS), has_cursor=True)
        self.assertNotEqual(self.find(1001), pinned.name)
        self.assertEqual(self.find(1000), pinned.name)
