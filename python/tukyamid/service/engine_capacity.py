"""Whether an engine has room for a keyring, and for what is added."""

from __future__ import annotations

from dataclasses import replace

from .storage.certificate_rows import brought, exports
from .storage.database import Database
from .storage.keyring_size import growth_of, measured, sum_of
from .storage.partial_reads import Sizes
from .storage.shared_database import News


class Capacity:
    """Counts what lines add at most, and asks the database when that is more than an engine may hold."""

    def __init__(self, database: Database, most: Sizes) -> None:
        self._database = database
        self._most = most
        self._bound = Sizes(0, 0, 0, 0)

    @property
    def certificates(self) -> int:
        """How many certificates an engine may hold."""
        return self._most.certificates

    @property
    def octets(self) -> int:
        """How many octets of certificates there are at most."""
        return self._bound.octets

    def takes(self, line: bytes) -> bool:
        """Whether an engine has room for a line for certain; then it is counted."""
        return self._is_bound(sum_of(self._bound, growth_of(line)))

    @staticmethod
    def read_ahead(line: bytes) -> None:
        """Finds out what a long line brings, in another thread."""
        growth_of.read_ahead(line)
        brought.read_ahead(line)
        exports.read_ahead(line)

    @staticmethod
    def forget(line: bytes) -> None:
        growth_of.forget(line)
        brought.forget(line)
        exports.forget(line)

    async def has_all(self) -> bool:
        """Whether an engine may hold what there is; it may where the database can't be read in parts."""
        sizes = await measured(self._database)
        return sizes is None or self._is_bound(sizes)

    async def takes_measured(self, line: bytes) -> bool:
        """Whether an engine has room for a line, by what there is now."""
        sizes = await measured(self._database, brought(line))
        return sizes is None or self._is_bound(sum_of(sizes, replace(growth_of(line), certificates=0)))

    async def takes_news(self, news: News) -> bool:
        """Whether an engine has room for what other services have committed."""
        if news.lines is not None:
            bound = self._bound
            for _, line in news.lines:
                bound = sum_of(bound, growth_of(line))
            if self._is_bound(bound):
                return True
        return await self.has_all()

    def _is_bound(self, bound: Sizes) -> bool:
        if bound.fits(self._most):
            self._bound = bound
            return True
        return False
