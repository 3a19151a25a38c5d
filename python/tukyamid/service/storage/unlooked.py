"""Which certificates the verifier has to look at, and which of them wait for a key that isn't kept yet.

A certificate is to be looked at once it has a signature without a verdict, and again when a key comes that it waits
for. So each signature is verified once, in parts of any size and in any order, and a certificate is read again only if
a new key matters to it. The statements are those that SQLite and PostgreSQL understand alike.
"""

import re
from collections.abc import Callable, Collection, Iterable, Iterator, Sequence
from dataclasses import dataclass
from functools import cached_property
from itertools import islice
from typing import Any

# Of a signature's subpackets that name its issuer: the key ID (16), and the fingerprint (33) of version 4 or 6. What
# only looks like one costs a look at an index.
_NAMES = re.compile(rb"(?=\x09[\x10\x90](.{8})|\x16[\x21\xa1]\x04.{12}(.{8})|\x22[\x21\xa1]\x06(.{8}))", re.DOTALL)
_AT_ONCE = 500
_FRONT_OCTETS = 3000  # A key that can be verified with is shorter.

LOOK = "INSERT INTO unlooked (certificate, change) SELECT id, ? FROM certificates WHERE id = ? " \
    "ON CONFLICT (certificate) DO UPDATE SET change = excluded.change"
WAKE = "DELETE FROM awaited WHERE key_id = ? RETURNING certificate"
UNLOOK_ALL_VERIFIED = "DELETE FROM unlooked WHERE certificate NOT IN " \
    "(SELECT certificate FROM verdicts WHERE certificate IS NOT NULL AND issuer IS NULL)"
_SIZES = "SELECT certificate, unlooked.change, length(octets) FROM unlooked " \
    "JOIN certificates ON id = certificate WHERE certificate > ? ORDER BY certificate LIMIT ?"
_COUNT = "SELECT count(*) FROM unlooked JOIN verdicts ON verdicts.certificate = unlooked.certificate " \
    "WHERE verdicts.certificate IS NOT NULL AND issuer IS NULL"
_LOOKED = "DELETE FROM unlooked WHERE certificate = ? AND change = ?"
# A certificate's own subkeys certify nothing.
_AWAIT = "INSERT INTO awaited (key_id, certificate) SELECT ?, ? WHERE NOT EXISTS " \
    "(SELECT 1 FROM subkeys WHERE certificate = ? AND key_id = ?) ON CONFLICT DO NOTHING"

Ask = Callable[..., list[tuple[Any, ...]]]


@dataclass(frozen=True)
class Unlooked:
    """A certificate that the verifier has to look at since a change: its number, and those of its signatures that have
    no verdict."""
    place: int
    change: int
    octets: bytes
    numbers: tuple[bytes, ...]

    @cached_property
    def named(self) -> frozenset[bytes]:
        """The IDs of the keys that its signatures name."""
        return frozenset(name for found in _NAMES.findall(self.octets) for name in found if name)


@dataclass(frozen=True)
class Looked:
    """A certificate that the verifier has looked at, as it was after a change, and the keys that weren't kept then."""
    place: int
    change: int
    absent: frozenset[bytes]


def count_unlooked(ask: Ask) -> int:
    """How many signatures wait for a look."""
    return int(ask(_COUNT)[0][0])


def unlooked_after(ask: Ask, place: int, most: int, most_octets: int) -> list[Unlooked]:
    """The first certificates after a place that the verifier has to look at, up to bounds, but at least one."""
    changes: dict[int, int] = {}
    total = 0
    for own, change, octets in ask(_SIZES, place, most):
        total += octets
        if changes and total > most_octets:
            break
        changes[own] = change
    texts: dict[int, bytes] = dict(_among(ask, "SELECT id, octets FROM certificates WHERE id", changes))
    numbers: dict[int, list[bytes]] = {own: [] for own in changes}
    for own, number in _among(ask, "SELECT certificate, number FROM verdicts "
                              "WHERE certificate IS NOT NULL AND issuer IS NULL AND certificate", changes):
        numbers[own].append(number)
    return [Unlooked(own, change, texts[own], tuple(numbers[own])) for own, change in changes.items() if own in texts]


def keys_of_ids(ask: Ask, key_ids: Collection[bytes]) -> list[tuple[bytes, bytes]]:
    """The IDs of kept keys among these, each with the first octets of its certificate."""
    return [(key_id, front) for key_id, front in _among(
        ask, f"SELECT key_id, substr(octets, 1, {_FRONT_OCTETS}) FROM certificates WHERE key_id", key_ids)]


def put_looked(ask: Ask, execute_many: Callable[[str, Iterable[Sequence[Any]]], object],
               looked: Sequence[Looked]) -> None:
    """Notes what was looked at, within a transaction. What has changed meanwhile, or waits for a key that has come
    meanwhile, is looked at again."""
    absent = {key_id for one in looked for key_id in one.absent}
    come = {key_id for key_id, in _among(ask, "SELECT key_id FROM certificates WHERE key_id", absent)}
    done = [one for one in looked if come.isdisjoint(one.absent)]
    execute_many(_AWAIT, [(key_id, one.place, one.place, key_id) for one in done for key_id in sorted(one.absent)])
    execute_many(_LOOKED, [(one.place, one.change) for one in done])


def _among(ask: Ask, front: str, values: Collection[object]) -> Iterator[Any]:
    """The rows of a statement that ends with a column, with one of these values in it."""
    rest = iter(values)
    while some := list(islice(rest, _AT_ONCE)):
        yield from ask(f"{front} IN ({', '.join('?' * len(some))})", *some)
