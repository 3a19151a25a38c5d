"""A reader reads what is quick to read at once, in its own thread, and what may wait for the disk in another one."""

import asyncio
import tempfile
import threading
import unittest
from pathlib import Path
from unittest import mock

from tukyamid.service.readers import moments
from tukyamid.service.readers.published import Published
from tukyamid.service.storage.database import Actor, Change, SetVerdict
from tukyamid.service.storage.database_threads import Access
from tukyamid.service.storage.sqlite_database import Sqlite
from tukyamid.service.storage.sqlite_reading import SqliteReading

NUMBER, ISSUER = b"n" * 32, b"i" * 20
OTHERS = 64  # Calls that are made elsewhere after a slow one.


class Moments(unittest.IsolatedAsyncioTestCase):
    def setUp(self):
        folder = Path(self.enterContext(tempfile.TemporaryDirectory(prefix="tukyamid-moments-")))
        self.writing = Sqlite(folder / "keyring.db")
        self.addCleanup(self.writing.close)
        self.threads, self.caught_up, self.count = [], [], 0
        self.now = self.cost = 0.0  # What a call takes.
        self.enterContext(mock.patch.object(moments, "monotonic", lambda: self.now))

    async def asyncSetUp(self):
        reading = SqliteReading(self.writing.path)
        self.addCleanup(reading.close)
        access = Access(reading)
        self.addCleanup(access.close)
        self.published = Published.made()
        self.reader = moments.MomentReader(access, reading, self.published, lambda: self.count, self.catch_up)
        self.addCleanup(self.reader.close)

    async def catch_up(self, number):
        self.caught_up.append(number)
        self.count = number

    def verdict(self, parts):
        self.threads.append(threading.current_thread())
        self.now += self.cost
        return parts.verdict(NUMBER)

    def change(self, issuer):
        (self.published.number,) = self.writing.apply(
            [Change("verdict", Actor(0, 0), (SetVerdict(NUMBER, issuer),), b"verdict")])

    async def test_at_once(self):
        self.assertIsNone(self.reader.here(self.verdict).value)
        self.assertEqual(self.threads, [threading.current_thread()])

    async def test_after_a_change(self):
        """First the change is taken; then what it made is read."""
        self.change(ISSUER)
        self.assertIsNone(self.reader.here(self.verdict))
        self.assertEqual(self.threads, [])
        self.assertEqual(await self.reader(self.verdict), ISSUER)
        self.assertEqual(self.caught_up, [1])
        self.reader.release()
        self.assertEqual(self.reader.here(self.verdict).value, ISSUER)
        self.assertEqual(self.caught_up, [1])

    async def test_one_moment_for_one_line(self):
        """What a line reads at once, and later, is of one moment."""
        self.assertIsNone(self.reader.here(self.verdict).value)
        self.change(ISSUER)
        self.assertIsNone(self.reader.here(self.verdict).value)
        self.assertIsNone(await self.reader(self.verdict))
        self.assertEqual(self.caught_up, [])
        self.reader.release()
        self.assertEqual(await self.reader(self.verdict), ISSUER)

    async def test_after_a_slow_one(self):
        """It may have waited for the disk, so those that follow are made elsewhere for a while."""
        self.cost = 0.003
        self.assertIsNone(self.reader.here(self.verdict).value)
        self.cost = 0.001
        for _ in range(OTHERS):
            self.assertIsNone(self.reader.here(self.verdict))
            await self.reader(self.verdict)
            self.reader.release()
        for _ in range(2):
            self.assertIsNone(self.reader.here(self.verdict).value)
        own = [thread for thread in self.threads if thread is threading.current_thread()]
        self.assertEqual((len(own), len(self.threads)), (3, OTHERS + 3))

    async def test_who_waits_is_not_held_up(self):
        """A read in the other thread leaves the loop free."""
        begun, go_on = threading.Event(), threading.Event()

        def wait(parts):
            begun.set()
            self.assertTrue(go_on.wait(60))
            return parts.verdict(NUMBER)

        reading = asyncio.create_task(self.reader(wait))
        await asyncio.to_thread(begun.wait, 60)
        self.assertFalse(reading.done())
        go_on.set()
        self.assertIsNone(await reading)
