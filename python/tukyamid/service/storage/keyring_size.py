"""How large the keyring is, and how much larger a line makes it."""

import asyncio
from collections.abc import Collection
from dataclasses import replace

from tukyamid.openpgp.certificates import KEY, SIGNATURE, packets

from .database import Database
from .partial_reads import HasParts, SharedParts, Sizes
from .read_ahead import OfALine


async def measured(database: Database, fprs: Collection[bytes] = ()) -> Sizes | None:
    """How large the keyring is, with as many certificates as it has when these have come; None if the database can't be
    read in parts, and so not sliced."""
    if not isinstance(database, HasParts):
        return None
    parts = await asyncio.to_thread(database.parts)
    try:
        if isinstance(parts, SharedParts):
            await asyncio.to_thread(parts.renew)
        sizes = await asyncio.to_thread(parts.sizes)
        new = await asyncio.to_thread(lambda: sum(not parts.has(fpr) for fpr in fprs))
        return replace(sizes, certificates=sizes.certificates + new)
    finally:
        await asyncio.to_thread(parts.close)


def _growth_of(line: bytes) -> Sizes:
    """How much larger a line makes the keyring at most."""
    if line.startswith(b"verdict "):
        return Sizes(0, 0, 0, 1)
    if not line.startswith(b"import "):
        return Sizes(0, 0, 0, 0)
    keys = signatures = 0
    try:
        octets = bytes.fromhex(line[7:].decode())
        for kind, _ in packets(octets):
            keys += kind == KEY
            signatures += kind == SIGNATURE
    except (ValueError, IndexError):
        return Sizes(0, 0, 0, 0)  # The engine refuses such a line.
    return Sizes(keys, len(octets), signatures, 0)


growth_of = OfALine(_growth_of)


def sum_of(one: Sizes, other: Sizes) -> Sizes:
    return Sizes(one.certificates + other.certificates, one.octets + other.octets,
                 one.signatures + other.signatures, one.verdicts + other.verdicts)
