"""What the service publishes to its readers: the number of the last change that anybody may have seen, in memory that
all of them share."""

from __future__ import annotations

import asyncio
import mmap
import os
from time import monotonic

from ..storage.database import DatabaseFault

_OCTETS = mmap.PAGESIZE
_NUMBER, _CONFIRMED = 0, 1  # The places of whole words; each is written at once, by the service alone.
_PAUSE = 0.0005
LONGEST_WAIT = 10.0  # Seconds: as long as a commit may take at most.


class Published:
    def __init__(self, descriptor: int) -> None:
        """Over memory that `made` has made, perhaps in another process."""
        self.descriptor = descriptor
        self._words = memoryview(mmap.mmap(descriptor, _OCTETS)).cast("Q")

    @classmethod
    def made(cls) -> Published:
        descriptor = os.memfd_create("tukyamid-published", os.MFD_CLOEXEC)
        os.ftruncate(descriptor, _OCTETS)
        return cls(descriptor)

    @property
    def number(self) -> int:
        return self._words[_NUMBER]

    @number.setter
    def number(self, number: int) -> None:
        self._words[_NUMBER] = number

    def confirm(self, age: float | None) -> None:
        """Notes for how many seconds changes of other services may have been missed; None if that isn't known."""
        self._words[_CONFIRMED] = 0 if age is None else max(1, int((monotonic() - age) * 1000))

    @property
    def age(self) -> float | None:
        """For how many seconds changes of other services may have been missed; None if that isn't known."""
        confirmed = self._words[_CONFIRMED]
        return monotonic() - confirmed / 1000 if confirmed else None

    async def reach(self, number: int) -> None:
        """Waits until a change is published that is committed already. DatabaseFault if that takes too long."""
        end = monotonic() + LONGEST_WAIT
        while self.number < number:
            if monotonic() > end:
                raise DatabaseFault(f"change {number} is committed, but the service hasn't published it")
            await asyncio.sleep(_PAUSE)
