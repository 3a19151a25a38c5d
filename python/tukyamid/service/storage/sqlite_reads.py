"""Reading the SQLite database: the whole of it at one moment, and what is looked up in it."""

import sqlite3
from binascii import hexlify
from collections.abc import Callable, Collection, Iterator
from contextlib import closing
from pathlib import Path
from typing import Any

from .database import AFTER_ALL, Actor, Binding, DatabaseFault, Figures, LogEntry, Source
from .loaded_files import Loaded
from .part_search import with_part
from .unlooked import Unlooked, count_unlooked, keys_of_ids, unlooked_after

_BINDINGS = "SELECT fingerprint, user_id FROM user_ids JOIN keys ON keys.id = certificate"
# The certificates with this key ID: those whose primary key has it, and then those whose subkey has it.
HOLDERS = """SELECT octets FROM (
    SELECT id, min(place) AS place FROM (
        SELECT id, 0 AS place FROM certificates WHERE key_id = ? UNION ALL
        SELECT certificate, 1 FROM subkeys WHERE key_id = ?) AS named
    GROUP BY id ORDER BY 2, 1 LIMIT ?) AS found JOIN certificates USING (id) ORDER BY place, id"""
# In the order of an index.
_VERDICTS = "SELECT number, fingerprint FROM verdicts JOIN keys ON keys.id = issuer ORDER BY number"
# By the index of issuers. A key's signatures on its own certificate aren't among them.
CERTIFIED = """SELECT found.fingerprint, max(depth) FROM verdicts JOIN keys AS found ON found.id = certificate
    WHERE issuer = (SELECT id FROM keys WHERE fingerprint = ?) AND issuer > 0 AND certificate <> issuer
    GROUP BY found.fingerprint ORDER BY 2 DESC, 1"""
_CERTIFICATES = "SELECT octets FROM certificates JOIN keys USING (id) ORDER BY fingerprint"
_KILOBYTES_OF_A_SNAPSHOT = 128


class SqliteSnapshot:
    """The keyring as it was when this was opened: a transaction that only reads."""

    def __init__(self, connection: sqlite3.Connection) -> None:
        self._connection = connection
        connection.execute("PRAGMA query_only = ON")
        connection.execute(f"PRAGMA cache_size = -{_KILOBYTES_OF_A_SNAPSHOT}")  # It is read once, and many may be open.
        self.change = self._begin()

    def _begin(self) -> int:
        self._connection.execute("BEGIN")
        return int(self._connection.execute("SELECT coalesce(max(number), 0) FROM changes").fetchone()[0])

    def renew(self, between: Callable[[], object]) -> None:
        """Reads the keyring as it is now. While `between` is called, it reads nothing."""
        if self._connection.in_transaction:
            self._connection.execute("ROLLBACK")
        between()
        self.change = self._begin()

    def count(self) -> int:
        return int(self._connection.execute("SELECT certificates + verdicts FROM counts").fetchone()[0])

    def lines(self) -> Iterator[bytes]:
        for octets in self.certificates():
            yield b"import " + hexlify(octets)
        for number, issuer in self._connection.execute(_VERDICTS):
            yield b"verdict %s " % hexlify(number) + (b"good " + hexlify(issuer) if issuer else b"bad")

    def certificates(self) -> Iterator[bytes]:
        for (octets,) in self._connection.execute(_CERTIFICATES):
            yield octets

    def close(self) -> None:
        self._connection.close()


class SqliteFinder:
    """Looks up what has been committed by now."""

    def __init__(self, connection: sqlite3.Connection, path: Path) -> None:
        self._connection = connection
        self._path = path
        connection.execute("PRAGMA query_only = ON")

    def loaded(self, name: str) -> list[Loaded]:
        return [Loaded(*row) for row in self._rows("SELECT file, stamp, octets, size, digest, certificates, fault "
                                                   "FROM loaded WHERE name = ? ORDER BY file", name)]

    def count_unlooked(self) -> int:
        return count_unlooked(self._rows)

    def unlooked(self, place: int, most: int, most_octets: int) -> list[Unlooked]:
        return unlooked_after(self._rows, place, most, most_octets)

    def keys_of_ids(self, key_ids: Collection[bytes]) -> list[tuple[bytes, bytes]]:
        return keys_of_ids(self._rows, key_ids)

    def _rows(self, query: str, *values: object) -> list[tuple[Any, ...]]:
        try:
            return self._connection.execute(query, values).fetchall()
        except sqlite3.Error as error:
            raise DatabaseFault(f"{self._path}: {error}") from None

    def _bindings(self, condition: str, *values: object) -> list[Binding]:
        rows = self._rows(f"{_BINDINGS} WHERE {condition} ORDER BY fingerprint, user_id", *values)
        return [Binding(_octets(fpr).hex(), _octets(user_id)) for fpr, user_id in rows]

    def figures(self) -> Figures:
        (row,) = self._rows(
            "SELECT certificates, user_ids, verdicts, (SELECT coalesce(max(number), 0) FROM changes), "
            "(SELECT page_count * page_size FROM pragma_page_count, pragma_page_size), pending FROM counts")
        return Figures(*map(_number, row))

    def by_address(self, address: str) -> list[Binding]:
        return self._bindings("address = ?", address)

    def by_user_id(self, user_id: bytes) -> list[Binding]:
        return self._bindings("user_id = ?", user_id)

    def by_part(self, part: str, most: int | None = None) -> list[Binding]:
        try:
            with closing(self._connection.execute(f"{_BINDINGS} ORDER BY fingerprint, user_id")) as rows:
                return with_part(rows, part, most)
        except sqlite3.Error as error:
            raise DatabaseFault(f"{self._path}: {error}") from None

    def by_key(self, key: bytes) -> list[Binding]:
        return self._bindings("certificate IN (SELECT id FROM certificates WHERE key_id = ?)" if len(key) == 8
                              else "fingerprint = ?", key)

    def holders(self, key_id: bytes, most: int) -> list[bytes]:
        return [_octets(row[0]) for row in self._rows(HOLDERS, key_id, key_id, most)]

    def issuers(self, fpr: bytes) -> list[tuple[bytes, bytes]] | None:
        place = self._rows("SELECT id FROM certificates JOIN keys USING (id) WHERE fingerprint = ?", fpr)
        if not place:
            return None
        rows = self._rows("SELECT number, fingerprint FROM verdicts JOIN keys ON keys.id = issuer "
                          "WHERE certificate = ? AND issuer > 0 ORDER BY number", *place[0])
        return [(_octets(number), _octets(issuer)) for number, issuer in rows]

    def certified(self, fpr: bytes) -> list[tuple[bytes, int]]:
        return [(_octets(target), _number(depth)) for target, depth in self._rows(CERTIFIED, fpr)]

    def log(self, count: int, before: int = AFTER_ALL) -> list[LogEntry]:
        rows = self._rows("SELECT number, time, uid, pid, what FROM changes WHERE number < ? "
                          "ORDER BY number DESC LIMIT ?", before, count)
        return [LogEntry(_number(row[0]), _number(row[1]), Actor(_number(row[2]), _number(row[3])), str(row[4]))
                for row in rows]

    def sources(self) -> list[Source]:
        return [Source(str(name), _octets(digest), _number(certificates), str(fault)) for
                name, digest, certificates, fault in
                self._rows("SELECT name, digest, certificates, fault FROM sources ORDER BY name")]

    def close(self) -> None:
        self._connection.close()


def _octets(value: object) -> bytes:
    assert isinstance(value, bytes)
    return value


def _number(value: object) -> int:
    assert isinstance(value, int)
    return value
