"""A keyserver's network of certificates, made from a seed: what the benches of large keyrings run on.

Each certificate has one user ID with its key's own certification and ten by other keys. One certification in 500 is a
trust signature, of depth 1 to 3. Few keys certify much, as on a keyserver: with a million certificates, the first key
has made some eighteen thousand certifications. Issuers come before the certificate, or soon after it, so the first
certificates of a network are a network. Keys and signatures are as long as those of Ed25519. Their material is random,
and each names its issuer, so a verifier that trusts what a signature says takes all of them.

However many certificates there are, memory holds a few thousand of them, their fingerprints, and SQLite's caches.
"""

import hashlib
import mmap
import os
import shutil
import sqlite3
import sys
from collections import deque
from collections.abc import Callable, Iterator
from contextlib import closing
from multiprocessing import get_context
from multiprocessing.pool import AsyncResult
from os import sched_getaffinity
from pathlib import Path
from typing import NamedTuple

import developer

CERTIFICATIONS = 10
TRUSTED = 500
CREATED = 1_400_000_000
NOW = 1_700_000_000
_KEY, _MATERIAL = 45, 68  # Octets of a key's material, and of a signature's with the beginning of its digest.
_DRAWN = 14 + _MATERIAL  # Random octets for a signature.
_FINGERPRINT = 20
_PART, _PIECE, _AHEAD = 20_000, 1_000, 6
_CACHE = 400_000  # In KiB; the sort of an index takes as much for each of its threads.
_TABLES = {
    "keys": "id INTEGER PRIMARY KEY, fingerprint",
    "certificates": "id INTEGER PRIMARY KEY, key_id, octets, change",
    "user_ids": "certificate, user_id, address",
    "verdicts": "number, certificate, depth, issuer",
}


class Rows(NamedTuple):
    """What some certificates are in the tables of a database, as an engine would export them."""
    keys: list[tuple[int, bytes]]
    certificates: list[tuple[int, bytes, bytes, int]]
    user_ids: list[tuple[int, bytes, str]]
    verdicts: list[tuple[bytes, int, int, int]]


class Network:
    """`count` certificates, by their places from 0. Which they are depends on the seed and the count alone."""

    def __init__(self, count: int, seed: int = 1) -> None:
        self.count = count
        self._seed = seed

    def _drawn(self, index: int, octets: int) -> bytes:
        """The beginning of what is random of a certificate."""
        return hashlib.shake_128(b"%d %d" % (self._seed, index)).digest(octets)

    def key(self, index: int) -> bytes:
        return _key(index, self._drawn(index, _KEY))

    def fingerprint(self, index: int) -> bytes:
        return developer.fingerprint(self.key(index))

    def user_id(self, index: int) -> bytes:
        return b"User %d <u%d@example.org>" % (index, index)

    def parts(self, folder: Path) -> Iterator[Path]:
        """All certificates in order, in databases of some of them. Every processor makes some."""
        file = folder / "fingerprints"
        file.write_bytes(b"")
        os.truncate(file, _FINGERPRINT * self.count)
        with get_context("fork").Pool(len(sched_getaffinity(0)), _begin, (self, file)) as pool:
            firsts = range(0, self.count, _PART)
            known = pool.imap(_find_fingerprints, firsts)
            waiting: deque[AsyncResult[Path]] = deque()
            for first in firsts:
                next(known)
                waiting.append(pool.apply_async(_make_part, (first, folder)))
                if len(waiting) == _AHEAD:
                    yield waiting.popleft().get()
            yield from (one.get() for one in waiting)

    def places(self, first: int, count: int) -> range:
        return range(first, min(first + count, self.count))

    def put(self, index: int, rows: Rows, fingerprint: Callable[[int], bytes]) -> None:
        """Adds the rows of a certificate."""
        drawn, user_id, row = self._drawn(index, _KEY + (CERTIFICATIONS + 1) * _DRAWN), self.user_id(index), index + 1
        key, fpr = _key(index, drawn[:_KEY]), fingerprint(index)
        bodies, numbered = [], developer.numbered(key, 1, user_id)
        for start in range(_KEY, len(drawn), _DRAWN):
            one = drawn[start:start + _DRAWN]
            issuer, depth = (index, 0) if start == _KEY else self._issuer(index, one)
            body = _signature(0x13 if start == _KEY else 0x10, fingerprint(issuer), depth, one)
            bodies.append(developer.packet(2, body))
            rows.verdicts.append((numbered(body), row, depth, issuer + 1))
        octets = developer.packet(6, key) + developer.packet(13, user_id) + b"".join(sorted(bodies))
        rows.keys.append((row, fpr))
        rows.certificates.append((row, fpr[-8:], octets, 1))
        rows.user_ids.append((row, user_id, f"u{index}@example.org"))

    def _issuer(self, index: int, drawn: bytes) -> tuple[int, int]:
        """The place of a certification's issuer, and the depth of a trust signature or 0."""
        among = min(self.count, (index // _PART + 1) * _PART)
        share, depth = int.from_bytes(drawn[4:10], "big") / (1 << 48), int.from_bytes(drawn[10:14], "big")
        return int(among * share ** 2), depth % 3 + 1 if depth % TRUSTED == 0 else 0


def _key(index: int, drawn: bytes) -> bytes:
    return b"\x04" + (CREATED + index).to_bytes(4, "big") + b"\x16" + drawn


class _Making:
    """What a process that makes parts has: the network, and the fingerprints that are found so far."""

    def __init__(self, network: Network, file: Path) -> None:
        self.network = network
        with open(file, "r+b") as opened:
            self.fingerprints = mmap.mmap(opened.fileno(), 0)

    def fingerprint(self, index: int) -> bytes:
        return self.fingerprints[_FINGERPRINT * index:_FINGERPRINT * (index + 1)]


_making: list[_Making] = []


def _begin(network: Network, file: Path) -> None:
    _making.append(_Making(network, file))


def _find_fingerprints(first: int) -> None:
    making = _making[-1]
    found = b"".join(map(making.network.fingerprint, making.network.places(first, _PART)))
    making.fingerprints[_FINGERPRINT * first:_FINGERPRINT * first + len(found)] = found


def _make_part(first: int, folder: Path) -> Path:
    """Makes the database of some certificates."""
    making, path = _making[-1], folder / f"{first}.db"
    with closing(sqlite3.connect(path, isolation_level=None)) as connection:
        connection.execute("PRAGMA synchronous = OFF")
        connection.execute("PRAGMA journal_mode = OFF")
        connection.execute("BEGIN")
        for table, columns in _TABLES.items():
            connection.execute(f"CREATE TABLE {table} ({columns})")
        for start in range(first, min(first + _PART, making.network.count), _PIECE):
            rows = Rows([], [], [], [])
            for index in making.network.places(start, _PIECE):
                making.network.put(index, rows, making.fingerprint)
            for table, some in rows._asdict().items():
                marks = ", ".join("?" for _ in _TABLES[table].split(","))
                connection.executemany(f"INSERT INTO {table} VALUES ({marks})", some)
        connection.execute("COMMIT")
    return path


def _signature(kind: int, issuer: bytes, depth: int, drawn: bytes) -> bytes:
    """As `developer.signature` makes it."""
    trust = bytes([3, 5, depth, 120]) if depth else b""
    made = CREATED + 100_000_000 + int.from_bytes(drawn[:4], "big") % 100_000_000
    return b"\4%c\1\10\0%c\5\2%b%b\x16\x21\4%b\0\12\11\20%b%b" % (
        kind, 29 + len(trust), made.to_bytes(4, "big"), trust, issuer, issuer[-8:], drawn[-_MATERIAL:])


def fill(path: Path, network: Network) -> None:
    """Makes the service's database of a network. It has what imports would have written, but nothing is synced, and
    its indexes are made at the end, so that their pages are full."""
    from tukyamid.service.storage.sqlite_database import Sqlite
    folder = path.with_name(f"{path.name}.unfinished")
    shutil.rmtree(folder, ignore_errors=True)
    folder.mkdir()
    unfinished = folder / "keyring.db"
    Sqlite(unfinished).close()
    with closing(sqlite3.connect(unfinished, isolation_level=None)) as connection:
        for setting in ("journal_mode = OFF", "synchronous = OFF", f"cache_size = -{_CACHE}", "threads = 3"):
            connection.execute(f"PRAGMA {setting}")
        indexes = connection.execute(
            "SELECT name, sql FROM sqlite_schema WHERE type = 'index' AND sql IS NOT NULL").fetchall()
        for name, _ in indexes:
            connection.execute(f"DROP INDEX {name}")
        for part in network.parts(folder):
            _add(connection, part)
        for name, statement in indexes:
            connection.execute(statement)
            print(name, file=sys.stderr, flush=True)
        connection.execute("PRAGMA journal_mode = WAL")
    unfinished.rename(path)
    shutil.rmtree(folder)


def _add(connection: sqlite3.Connection, part: Path) -> None:
    """Adds the rows of a part, and removes it."""
    connection.execute("ATTACH ? AS part", (str(part),))
    connection.execute("BEGIN")
    for table in _TABLES:
        order = " ORDER BY fingerprint" if table == "keys" else ""
        connection.execute(f"INSERT INTO main.{table} SELECT * FROM part.{table}{order}")
    connection.execute("""UPDATE counts SET (certificates, octets, user_ids, signatures, verdicts) =
        (SELECT certificates + count(*), counts.octets + sum(length(part.certificates.octets)), user_ids + count(*),
                signatures + (SELECT count(*) FROM part.verdicts), verdicts + (SELECT count(*) FROM part.verdicts)
         FROM part.certificates)""")
    connection.execute("INSERT OR IGNORE INTO changes VALUES (1, ?, 0, 0, 'bench')", (NOW,))
    connection.execute("COMMIT")
    connection.execute("DETACH part")
    part.unlink()
    print(part.stem, file=sys.stderr, flush=True)
