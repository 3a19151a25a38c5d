"""How old the answers of a service may be, whose database others change too."""

from __future__ import annotations

import asyncio
from collections.abc import Callable
from concurrent.futures import ThreadPoolExecutor
from time import monotonic

from .database import DatabaseFault
from .group_commit import Committer, called
from .shared_database import Shared

LONGEST_CALL = 12.0  # Seconds: longer than a server lets one wait for others.
_PAUSE = 0.5


class Freshness:
    """Looks after what other services do. `behind` is called when the engines lack something that was committed."""

    def __init__(self, database: Shared, committer: Committer, report: Callable[[str], None],
                 behind: Callable[[], None]) -> None:
        self._database = database
        self._committer = committer
        self._report = report
        self._behind = behind
        self._following = ThreadPoolExecutor(1, "following")
        self._follower = database.follow()
        self._loop = asyncio.get_running_loop()
        self._current = self._loop.time()
        self._last_contact = database.place, self._current
        self._reported = ""
        # The setting that names the synchronous standby, as the database last said; None before it has said anything.
        self.standby: str | None = None

    @property
    def age(self) -> float:
        """For how many seconds the engines may have missed something."""
        return self._loop.time() - self._current

    async def keep(self) -> None:
        """Takes notice of changes, for ever. A connection that is lost, or that can't be had at first, is made once
        more before changes are refused."""
        is_lost = False
        while True:
            try:
                notified = await called(self._following, self._follower.wait, self._follower.cut, LONGEST_CALL)
            except Exception as error:  # Whatever one look meets, there is another.
                if is_lost or not isinstance(error, DatabaseFault):
                    self._take_fault(str(error) if isinstance(error, DatabaseFault) else repr(error))
                    await asyncio.sleep(_PAUSE)
                is_lost = True
                continue
            is_lost = False
            self._take_fault("")
            self.standby = notified.standby
            self._last_contact = notified.place, self._loop.time() - (monotonic() - notified.begun)
            self.see()
            if notified.place != self._database.place:
                self._behind()

    def see(self) -> None:
        """The engines have all that was committed when the database last confirmed a place, if they have come there."""
        place, when = self._last_contact
        own = self._database.place
        if place == own or place.number < own.number:
            self._current = max(self._current, when)

    def _take_fault(self, fault: str) -> None:
        """Notes why nothing can be committed, if so, and says it once."""
        self._committer.fault = fault
        if fault and fault != self._reported:
            self._report(f"changes are refused: {fault}")
        elif self._reported and not fault:
            self._report("changes are accepted again")
        self._reported = fault

    def close(self) -> None:
        """After `keep` was cancelled."""
        self._follower.cut()
        self._following.shutdown()
        self._follower.close()
