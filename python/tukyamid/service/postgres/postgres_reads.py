"""Reading PostgreSQL: a copy of the whole at one moment, and what is looked up in it."""

import os
from collections.abc import Collection
from time import monotonic
from typing import TYPE_CHECKING, Any

from ..storage.database import AFTER_ALL, Actor, Binding, DatabaseFault, Figures, LogEntry, Source
from ..storage.loaded_files import Loaded
from ..storage.part_search import with_part
from ..storage.snapshot_in_file import SnapshotInFile
from ..storage.sqlite_reads import CERTIFIED, HOLDERS
from ..storage.unlooked import Unlooked, count_unlooked, keys_of_ids, unlooked_after
from .postgres_connection import Connected, Servers, Wire, faults
from .postgres_statements import Statements

if TYPE_CHECKING:
    from .postgres_database import Postgres

_COPIES = (
    "SELECT 'import ' || encode(octets, 'hex') FROM certificates JOIN keys USING (id) ORDER BY fingerprint",
    "SELECT 'verdict ' || encode(number, 'hex') || CASE WHEN issuer = 0 THEN ' bad' "
    "ELSE ' good ' || encode(fingerprint, 'hex') END FROM verdicts JOIN keys ON keys.id = issuer ORDER BY number",
)
_BINDINGS = "SELECT fingerprint, user_id FROM user_ids JOIN keys ON keys.id = certificate"
_HAS = "SELECT EXISTS (SELECT FROM changes WHERE number = ? AND mark = ?)"
_STANDBY_SECONDS = 30.0
_PAUSE, _SLOW = 2.0, 1.0  # Seconds.


class PostgresSnapshot(SnapshotInFile):
    def __init__(self, statements: Statements, change: int) -> None:
        super().__init__(change)
        with statements.connection.cursor() as cursor:
            for query in _COPIES:
                with cursor.copy(f"COPY ({query}) TO STDOUT".encode()) as copy:
                    for block in copy:
                        self._count += bytes(block).count(b"\n")
                        self._file.write(block)
        self._file.flush()


class PostgresFinder(Connected):
    """Looks up what has been committed by now: on the primary, or on a standby while there is no primary. A server that
    lacks what this service has read is not asked. While no server answers, finding that out takes seconds: so what is
    sought shortly after that fails at once, unless the primary has answered meanwhile, and nobody waits for the
    failures of others."""

    def __init__(self, database: "Postgres", servers: Servers, machine: str) -> None:
        super().__init__(servers)
        self._database = database
        self._machine = machine
        self._until = 0.0
        self._why, self._tried, self._failed = "", float("-inf"), float("-inf")

    def _connect(self) -> Wire:
        try:
            wire, self._until = self._servers.connect(is_primary=True), float("inf")
        except DatabaseFault:
            wire, self._until = self._servers.connect(is_primary=False), monotonic() + _STANDBY_SECONDS
        return wire

    def _rows(self, query: str, *values: object) -> list[tuple[Any, ...]]:
        now = monotonic()
        if now < self._failed + _PAUSE and self._tried > self._database.last_contact:
            raise DatabaseFault(self._why)
        try:
            return self._asked(query, *values)
        except DatabaseFault as fault:
            if monotonic() - now > _SLOW:
                self._why, self._tried, self._failed = str(fault), now, monotonic()
            raise

    @faults
    def _asked(self, query: str, *values: object) -> list[tuple[Any, ...]]:
        if self._wire is not None and (monotonic() > self._until or not self._wire.is_live()):
            self.disconnect()
        if self._wire is None:
            self._wire = self._connect()
        statements = Statements(self._wire.connection)
        wanted = self._database.place  # It may grow while the server is asked.
        if wanted.number > 0 and not statements.row(_HAS, wanted.number, wanted.mark)[0]:
            raise DatabaseFault(f"{self.name}: the server lacks changes that this service has read")
        return statements.rows(query, *values)

    def _bindings(self, condition: str, *values: object) -> list[Binding]:
        rows = self._rows(f"{_BINDINGS} WHERE {condition} ORDER BY fingerprint, user_id", *values)
        return [Binding(fpr.hex(), user_id) for fpr, user_id in rows]

    def figures(self) -> Figures:
        (row,) = self._rows(
            "SELECT certificates, user_ids, verdicts, (SELECT number FROM head), pg_database_size(current_database()), "
            "pending FROM counts")
        return Figures(*map(int, row))

    def by_address(self, address: str) -> list[Binding]:
        return self._bindings("sha256(address) = sha256(?) AND address = ?", address, address)

    def by_user_id(self, user_id: bytes) -> list[Binding]:
        return self._bindings("sha256(user_id) = sha256(?) AND user_id = ?", user_id, user_id)

    def by_part(self, part: str, most: int | None = None) -> list[Binding]:
        rows = self._rows(f"{_BINDINGS} ORDER BY fingerprint, user_id")
        return with_part(((fpr, user_id) for fpr, user_id in rows), part, most)

    def by_key(self, key: bytes) -> list[Binding]:
        return self._bindings("certificate IN (SELECT id FROM certificates WHERE key_id = ?)" if len(key) == 8
                              else "fingerprint = ?", key)

    def holders(self, key_id: bytes, most: int) -> list[bytes]:
        return [octets for (octets,) in self._rows(HOLDERS, key_id, key_id, most)]

    def issuers(self, fpr: bytes) -> list[tuple[bytes, bytes]] | None:
        place = self._rows("SELECT id FROM certificates JOIN keys USING (id) WHERE fingerprint = ?", fpr)
        if not place:
            return None
        rows = self._rows("SELECT number, fingerprint FROM verdicts JOIN keys ON keys.id = issuer "
                          "WHERE certificate = ? AND issuer > 0 ORDER BY number", *place[0])
        return [(number, issuer) for number, issuer in rows]

    def certified(self, fpr: bytes) -> list[tuple[bytes, int]]:
        return [(target, depth) for target, depth in self._rows(CERTIFIED, fpr)]

    def log(self, count: int, before: int = AFTER_ALL) -> list[LogEntry]:
        rows = self._rows("SELECT number, time, uid, pid, what, machine FROM changes WHERE number < ? "
                          "ORDER BY number DESC LIMIT ?", before, count)
        return [LogEntry(number, time, Actor(uid, pid), os.fsdecode(what + b" on " + machine))
                for number, time, uid, pid, what, machine in rows]

    def sources(self) -> list[Source]:
        rows = self._rows("SELECT name, digest, certificates, fault FROM sources WHERE machine = ? ORDER BY name",
                               self._machine)
        return [Source(os.fsdecode(name), digest, certificates, os.fsdecode(fault))
                for name, digest, certificates, fault in rows]

    def loaded(self, name: str) -> list[Loaded]:
        rows = self._rows("SELECT file, stamp, octets, size, digest, certificates, fault FROM loaded "
                          "WHERE machine = ? AND name = ? ORDER BY file", self._machine, name)
        return [Loaded(file, os.fsdecode(stamp), octets, size, digest, certificates, os.fsdecode(fault))
                for file, stamp, octets, size, digest, certificates, fault in rows]

    def count_unlooked(self) -> int:
        return count_unlooked(self._rows)

    def unlooked(self, place: int, most: int, most_octets: int) -> list[Unlooked]:
        return unlooked_after(self._rows, place, most, most_octets)

    def keys_of_ids(self, key_ids: Collection[bytes]) -> list[tuple[bytes, bytes]]:
        return keys_of_ids(self._rows, key_ids)
