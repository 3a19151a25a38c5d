"""What is recorded of the keyrings that the service watches."""

from __future__ import annotations

from ..line_intake import LineIntake
from ..storage.database import Source
from ..storage.last_known import LastKnown

LEFT_OVER = ""  # Signatures that wait, though the keyring that they came with is no longer watched.


class Records:
    """`known` is what was recorded when it was last asked for."""

    def __init__(self, intake: LineIntake) -> None:
        self._intake = intake
        self.known: list[Source] = []
        self._in_database = LastKnown(lambda: intake.is_away, lambda: intake.find(lambda finder: finder.sources()))

    async def all(self) -> list[Source]:
        """If the database can't be read, what was there the last time."""
        self.known = await self._in_database.value()
        return self.known

    async def keyrings(self) -> list[Source]:
        """The keyrings that are watched."""
        return [one for one in await self.all() if one.name != LEFT_OVER]

    async def of(self, name: str) -> Source | None:
        return next((one for one in await self.all() if one.name == name), None)

    async def put(self, source: Source) -> None:
        await self._intake.write(lambda: self._intake.database.put_source(source))

    async def drop(self, name: str) -> bool:
        """Whether it was there."""
        await self._intake.write(lambda: self._intake.database.drop_loaded(name))
        return await self._intake.write(lambda: self._intake.database.drop_source(name))
