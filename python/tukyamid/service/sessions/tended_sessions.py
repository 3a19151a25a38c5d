"""All clients that are connected: who never reads is disconnected, and at the end all are."""

from __future__ import annotations

import asyncio
from collections.abc import Callable

from ..line_intake import LineIntake
from ..storage.log_growth import LogGrowth
from .session import Session
from .user_shares import Share

_PATIENCE_AT_THE_END = 4
_LARGEST_LOG = 128 << 20  # Octets.
_MOST_SPOOLED = 256 << 20  # Octets of long replies of one user that aren't read.


class TendedSessions:
    """`closed` is called when one has ended."""

    def __init__(self, line_intake: LineIntake, closed: Callable[[Session], None]) -> None:
        self._line_intake = line_intake
        self._closed = closed
        self._sessions: set[Session] = set()
        self._log = LogGrowth()

    def __len__(self) -> int:
        return len(self._sessions)

    def add(self, session: Session) -> None:
        self._sessions.add(session)
        session.over.add_done_callback(lambda _: self._end(session))

    def _end(self, session: Session) -> None:
        self._sessions.discard(session)
        self._closed(session)

    def tend(self, patience: float) -> None:
        """Drops those who haven't read for this many seconds, or hold up others, and what is too much."""
        now = asyncio.get_running_loop().time()
        for session in list(self._sessions):
            if session.outbox.drop_where_unread(now, patience):
                self._line_intake.report(f"client {session.number} doesn't read its replies and is disconnected")
            elif session.intake.holds_up_others(now, patience):
                session.drop("doesn't finish its long line")
        self._drop_slowest()
        self._drop_largest()
        self._line_intake.cut_stuck()

    def _drop_slowest(self) -> None:
        """Drops the client that has read for longest from the database as it was: its log grows until that is over."""
        reading = [session for session in self._sessions if session.outbox.pinned_since < float("inf")]
        if self._log.grown(self._line_intake.database.log_octets(), bool(reading)) > _LARGEST_LOG:
            min(reading, key=lambda one: one.outbox.pinned_since).drop("reads the keyring too slowly")

    def _drop_largest(self) -> None:
        """Of a user whose unread replies take too much of the disk, drops those that have waited for longest."""
        taken: dict[Share, int] = {}
        spooling = [session for session in self._sessions if session.outbox.spooled]
        for session in sorted(spooling, key=lambda one: -one.outbox.spooled_since):
            share = session.intake.share
            taken[share] = taken.get(share, 0) + session.outbox.spooled
            if taken[share] > _MOST_SPOOLED:
                session.drop("leaves too long a reply unread")

    async def end(self) -> None:
        """Has the lines that were taken answered, and ends all connections."""
        sessions = list(self._sessions)
        for session in sessions:
            session.stop(is_at_once=True)
        if sessions:
            await asyncio.wait([session.over for session in sessions], timeout=_PATIENCE_AT_THE_END)
        for session in list(self._sessions):
            session.outbox.drop()
        await asyncio.sleep(0)
