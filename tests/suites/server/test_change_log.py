"""`service log` over many changes: it is whole, holds nobody up, and what nobody reads doesn't fill the disk."""

import contextlib
import select
import unittest
from pathlib import Path

from outside import needs_engine
from test_quotas import Shares
from tukyamid.service.storage.database import BAD, Actor, Change, SetVerdict
from tukyamid.service.storage.sqlite_database import Sqlite

MEGABYTE = 1 << 20
MOST_UNREAD = 256 * MEGABYTE  # As docs/SERVICE.md says.


@needs_engine
class ChangeLog(Shares):
    def begin_with(self, count, what):
        """Begins with that many changes more in the log."""
        self.begin()
        self.server.stop()
        with contextlib.closing(Sqlite(self.server.database)) as database:
            self.last = database.apply([
                Change(what(place), Actor(7, 8), (SetVerdict(bytes(32), None if place % 2 else BAD),))
                for place in range(count)])[-1]
        self.server.start()
        self.client = self.enterContext(self.connected())

    def connected(self):
        return type(self.client)(self.server.path)

    def test_it_is_whole(self):
        self.begin_with(1300, lambda place: f"change {place}")
        for count in 1, 249, 250, 251, 1300, 1301, 999_999:
            self.client.send(b"service log %d" % count)
            found = int(self.client.read_line().removeprefix(b"service log "))
            self.assertEqual(found, min(count, self.last))
            lines = [self.client.read_line().split(b" ", 5) for _ in range(found)]
            self.assertEqual([int(line[1]) for line in lines], [*range(self.last, self.last - found, -1)])
            expected = [b"change %d" % place for place in range(1299, 1299 - min(found, 1300), -1)]
            self.assertEqual([line[5] for line in lines[:1300]], expected)
            self.assertEqual(lines[0][3:5], [b"7", b"8"])

    def test_others_look_something_up_meanwhile(self):
        """Each of these logs takes a second, and what others look up takes some milliseconds."""
        self.begin_with(20_000, lambda place: "é" * 200)
        strangers = [self.stranger() for _ in range(2)]
        for stranger in strangers:
            stranger.send(b"service log 999999")
        self.client.tell(b"keys")
        before = 0
        for _ in range(20):
            self.client.send(b"service find key " + self.world.fprs[0])
            self.assertEqual(self.client.read_line(), b"service find 1")
            self.client.read_line()
            before += not select.select([one.socket for one in strangers], [], [], 0)[0]
        self.assertGreater(before, 0)

    def test_what_nobody_reads(self):
        """A user's unread replies take no more of the disk than they may; then who reads nothing is disconnected."""
        self.begin_with(3000, lambda place: "x" * 10_000)
        strangers = [self.stranger() for _ in range(12)]
        for stranger in strangers:
            stranger.send(b"service log 999999")
        self.server.wait_for(lambda: "leaves too long a reply unread" in self.server.said())
        self.server.wait_for(lambda: self.unread() <= MOST_UNREAD)
        self.assertIn(self.client.tell(b"keys"), (b"keys 12",))
        reading = strangers[-1]
        with contextlib.suppress(ConnectionError):
            self.assertGreater(len(reading.end()), 0)

    def unread(self):
        """The octets of files without a name that the service has open."""
        total = 0
        for file in Path(f"/proc/{self.server.process.pid}/fd").iterdir():
            with contextlib.suppress(OSError):
                if str(file.readlink()).endswith(" (deleted)"):
                    total += file.stat().st_size
        return total


if __name__ == "__main__":
    unittest.main()
