"""The keys that signatures name: the verifier gets these alone, however many certificates are kept."""

from __future__ import annotations

import asyncio
import contextlib
from collections.abc import Sequence

from tukyamid.openpgp.packets import KEY, packet, packets

from ..line_intake import LineIntake
from ..storage.unlooked import Unlooked

_MOST_KEPT = 20_000


class NamedKeys:
    """Keeps those that were named last: few keys certify much."""

    def __init__(self, intake: LineIntake) -> None:
        self._intake = intake
        self._kept: dict[bytes, bytes] = {}  # By its ID, the packets of each kept key that has this ID.
        self._lock = asyncio.Lock()

    def forget(self) -> None:
        """Certificates may have been dropped."""
        self._kept.clear()

    async def named_by(self, part: Sequence[Unlooked]) -> tuple[list[bytes], frozenset[bytes]]:
        """The kept keys that signatures of these certificates name, and the IDs that they name and that no kept key
        has."""
        async with self._lock:  # Another part would look up the same keys.
            return await self._found(part)

    async def _found(self, part: Sequence[Unlooked]) -> tuple[list[bytes], frozenset[bytes]]:
        named = frozenset[bytes]().union(*(one.named for one in part))
        unknown = named.difference(self._kept)
        found = await self._intake.search(lambda finder: finder.keys_of_ids(unknown))
        if len(self._kept) > _MOST_KEPT:
            self._kept = {key_id: self._kept[key_id] for key_id in named.difference(unknown)}
        for key_id, front in found:
            self._kept[key_id] = self._kept.get(key_id, b"") + _key_of(front)
        return [self._kept[key_id] for key_id in named if key_id in self._kept], named.difference(self._kept)


def _key_of(front: bytes) -> bytes:
    """The packet of the key with which these octets begin; none if it is too large to verify with."""
    with contextlib.suppress(ValueError):
        for _, body in packets(front):
            return packet(KEY, body)
    return b""

