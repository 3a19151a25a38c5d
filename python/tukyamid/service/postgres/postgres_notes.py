"""What a service notes in the shared database beside the changes of the keyring. It has connections to itself, since a
lock may be held on the other one."""

import contextlib
import dataclasses
from collections.abc import Iterable, Iterator, Sequence

from ..storage.acknowledged_changes import Entry
from ..storage.database import Source
from ..storage.loaded_files import Loaded
from ..storage.unlooked import Looked, put_looked
from .notifications import PLACE
from .postgres_connection import Connected, Servers, faults
from .postgres_statements import Statements

# As under the lock: a service that is silent or reads nothing doesn't hold others up.
_BOUNDED = b"SET LOCAL idle_in_transaction_session_timeout = '2s'; SET LOCAL tcp_user_timeout = '2s'"
NOW = "SELECT extract(epoch FROM clock_timestamp())::BIGINT"


class PostgresNotes(Connected):
    """The keyrings that this machine watches, and the changes that were handed in again."""

    def __init__(self, servers: Servers, machine: str) -> None:
        super().__init__(servers)
        self._machine = machine

    @contextlib.contextmanager
    def _statements(self) -> Iterator[Statements]:
        if self._wire is not None and not self._wire.is_live():
            self.disconnect()
        if self._wire is None:
            self._wire = self._servers.connect(is_primary=True)
        with self._wire.bounded():
            yield Statements(self._wire.connection)

    @faults
    def put_source(self, source: Source) -> None:
        with self._statements() as statements:
            statements.execute(
                "INSERT INTO sources VALUES (?, ?, ?, ?, ?) ON CONFLICT (machine, name) DO UPDATE SET "
                "digest = excluded.digest, certificates = excluded.certificates, fault = excluded.fault",
                (self._machine, source.name, source.digest, source.certificates, source.fault))

    @faults
    def drop_source(self, name: str) -> bool:
        with self._statements() as statements:
            return bool(statements.rows("DELETE FROM sources WHERE machine = ? AND name = ? RETURNING 1",
                                        self._machine, name))

    @faults
    def put_loaded(self, name: str, loaded: Loaded) -> None:
        with self._statements() as statements:
            statements.execute(
                "INSERT INTO loaded (machine, name, file, stamp, octets, size, digest, certificates, fault) "
                "VALUES (?, ?, ?, ?, ?, ?, ?, ?, ?) ON CONFLICT (machine, name, file) DO UPDATE SET "
                "stamp = excluded.stamp, octets = excluded.octets, size = excluded.size, digest = excluded.digest, "
                "certificates = excluded.certificates, fault = excluded.fault",
                (self._machine, name, *dataclasses.astuple(loaded)))

    @faults
    def drop_loaded(self, name: str) -> None:
        with self._statements() as statements:
            statements.execute("DELETE FROM loaded WHERE machine = ? AND name = ?", (self._machine, name))

    @faults
    def put_looked(self, looked: Sequence[Looked]) -> None:
        """Waits until others have unlocked: otherwise a key that comes meanwhile would wake nothing."""
        with self._statements() as statements, statements.connection.transaction():
            statements.connection.execute(_BOUNDED)
            statements.row(f"{PLACE} FOR UPDATE")
            put_looked(statements.rows, statements.executemany, looked)

    @faults
    def hand_in(self, entries: Iterable[Entry]) -> None:
        with self._statements() as statements:
            now = int(statements.row(NOW)[0])
            statements.executemany("INSERT INTO handed_in VALUES (?, ?) ON CONFLICT DO NOTHING",
                                   [(one.place.mark, now) for one in entries])
