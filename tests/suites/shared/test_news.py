"""What one service learns from a database about the changes of another, without engines."""

import contextlib

from alone_cluster import OneServer
from tukyamid.service.storage.database import Actor, Change, SetVerdict


class News(OneServer):
    def setUp(self):
        super().setUp()
        from tukyamid.service.postgres import Postgres
        self.one, self.other = (self.stack.enter_context(contextlib.closing(Postgres(self.url))) for _ in range(2))
        self.other.snapshot().close()
        self.count = 0

    def change(self, *lines):
        """Has one service commit a change for each of these lines, all at once."""
        self.assertEqual(self.one.lock_for_news().snapshot is None, self.count > 0)
        changes = []
        for line in lines:
            self.count += 1
            changes.append(Change("a change", Actor(1, 2), (SetVerdict(self.count.to_bytes(32, "big"), b""),), line))
        numbers = self.one.apply(changes)
        self.assertEqual(numbers, list(range(self.count - len(lines) + 1, self.count + 1)))

    def test_lines_in_their_order(self):
        self.change(b"first", b"second")
        self.change(b"third")
        self.assertEqual(self.other.news().lines, ((1, b"first"), (2, b"second"), (3, b"third")))
        self.assertEqual(self.other.news().lines, ())
        self.change(b"fourth")
        self.assertEqual(self.other.lock_for_news().lines, ((4, b"fourth"),))
        self.other.unlock()
        self.assertEqual(self.other.place, self.one.place)

    def test_a_change_that_changes_nothing_is_no_news(self):
        self.change(b"first")
        self.one.lock_for_news()
        again = Change("again", Actor(1, 2), (SetVerdict((1).to_bytes(32, "big"), b""),), b"first")
        self.assertEqual(self.one.apply([again]), [1])
        self.assertEqual(self.other.news().lines, ((1, b"first"),))

    def test_long_lines_are_kept_for_a_while(self):
        long = b"x" * 100_000
        self.change(long, b"short")
        self.assertEqual(self.other.news().lines, ((1, long), (2, b"short")))
        for _ in range(5):
            self.change(*[long] * 4)
        self.assertEqual(len(self.other.news().lines), 20)
        self.change(*[long] * 12)
        self.change(*[long] * 12)
        news = self.other.news()
        self.assertIsNone(news.lines)
        with contextlib.closing(news.snapshot) as snapshot:
            self.assertEqual((snapshot.change, snapshot.count(), len(list(snapshot.lines()))), (46, 46, 46))
        self.assertEqual(self.other.news().lines, ())

    def test_too_many_changes(self):
        self.change(*[b"line"] * 1001)
        self.assertTrue(self.other.news().lines is None)
        self.change(*[b"line"] * 1000)
        self.assertEqual(len(self.other.news().lines), 1000)
