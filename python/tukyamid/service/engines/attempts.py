"""Work at which an engine may end: it is done again with another one, up to a bound. In any case there is a reply."""

from __future__ import annotations

import asyncio
from collections.abc import Awaitable, Callable

from ..sliced.partial_engine import REFUSED_BUDGET, BudgetExceeded
from ..storage.database import DatabaseFault
from ..storage.group_commit import FAULT
from .conversation import EngineGone, KilledByLine
from .in_flight import NO_ENGINE

TRIES = 3
_MOST_SECONDS = 30.0
_FIRST_PAUSE, _LONGEST_PAUSE = 0.05, 2.0


class Attempts:
    """`is_mended` says whether a database can be read again that couldn't."""

    def __init__(self, report: Callable[[str], None], is_mended: Callable[[], Awaitable[bool]]) -> None:
        self._report = report
        self._is_mended = is_mended

    async def reply(self, work: Callable[[], Awaitable[bytes]]) -> bytes | None:
        """The reply that work makes. None if engines end at this line again and again."""
        kills = faults = 0
        pauses = _Pauses()
        while True:
            try:
                return await work()
            except KilledByLine as gone:
                self._report(f"an engine ended with {gone}; another takes its place")
                kills += 1
                if kills >= TRIES:
                    return None
            except EngineGone as gone:
                self._report(f"an engine ended with {gone}; another takes its place")
                if not await pauses.has_another():
                    return NO_ENGINE
            except BudgetExceeded:
                return REFUSED_BUDGET
            except DatabaseFault as fault:
                self._report(str(fault))
                faults += 1
                if faults >= TRIES or not await self._is_mended():
                    return FAULT
            except Exception as error:  # Whatever one line meets, the others go on.
                self._report(repr(error))
                return FAULT


class _Pauses:
    """Pauses that grow, up to a bound of all of them."""

    def __init__(self) -> None:
        self._end = asyncio.get_running_loop().time() + _MOST_SECONDS
        self._pause = _FIRST_PAUSE

    async def has_another(self) -> bool:
        """Makes a pause; False if that was long enough."""
        if asyncio.get_running_loop().time() > self._end:
            return False
        await asyncio.sleep(self._pause)
        self._pause = min(2 * self._pause, _LONGEST_PAUSE)
        return True
