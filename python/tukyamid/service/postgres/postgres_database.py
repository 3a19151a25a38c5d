"""Writing to the database that several services share. Each locks it first."""

import socket
from collections.abc import Iterable, Sequence
from contextlib import closing
from pathlib import Path
from typing import Any

import psycopg
from psycopg.pq import TransactionStatus

from ..storage.acknowledged_changes import Entry
from ..storage.database import Actor, Change, DatabaseFault, Snapshot, Source, Uncertain
from ..storage.loaded_files import Loaded
from ..storage.shared_database import UNREAD, News, Place
from ..storage.table_check import EVERY_CERTIFICATE, compare
from ..storage.unlooked import Looked
from . import postgres_schema
from .acknowledged_check import lacked_of
from .changes_since import lines_between
from .notifications import PLACE, PostgresFollower
from .postgres_connection import Servers, Wire, faults, text_of
from .postgres_notes import NOW, PostgresNotes
from .postgres_partial_reads import PostgresParts
from .postgres_reads import PostgresFinder, PostgresSnapshot
from .postgres_statements import Statements
from .postgres_table_changes import SharedWriting
from .sqlite_copy import write_copy

# Nobody else makes a change meanwhile. The first bound runs from each answer of the server's until the next message is
# there as a whole. So each statement under the lock is one message: nothing bounds a wait after part of one.
_BEGIN = b"BEGIN; SET LOCAL idle_in_transaction_session_timeout = '2s'; SET LOCAL tcp_user_timeout = '2s'"


class Postgres:
    """A database by a URL with one or more hosts. All that is written goes to the primary."""

    def __init__(self, url: str, state: Path | None = None) -> None:
        """DatabaseFault if no server can be reached, or the database can't be used. A service has a folder for its
        state."""
        self.place = UNREAD
        self.last_contact = float("-inf")  # When the primary last answered.
        self.servers = Servers(url, state)
        self._machine = socket.gethostname()
        self._wire: Wire | None = None
        self._beside, self._looking = (PostgresNotes(self.servers, self._machine) for _ in range(2))
        try:
            self._primary()
        except DatabaseFault as fault:
            self._check_standby(fault)

    @property
    def name(self) -> str:
        return self.servers.name

    @property
    def ledger_fault(self) -> str:
        return self.servers.guard.fault

    def _check_standby(self, fault: DatabaseFault) -> None:
        """Without a primary a service may begin on a standby."""
        try:
            wire = self.servers.connect(is_primary=False)
        except DatabaseFault:
            raise fault from None
        with closing(wire), wire.bounded():
            if not postgres_schema.is_current(wire.connection, self.name):
                raise fault

    def _primary(self) -> Wire:
        if self._wire is not None and not self._wire.is_live():
            self.disconnect()
        if self._wire is None:
            wire = self.servers.connect(is_primary=True)
            with wire.kept():
                with wire.bounded():
                    is_prepared = postgres_schema.is_current(wire.connection, self.name)
                if not is_prepared:
                    postgres_schema.prepare(wire, self.name)
            wire.say_whole()
            self._wire = wire
        return self._wire

    def disconnect(self) -> None:
        if self._wire is not None:
            self._wire.close()
            self._wire = None

    def close(self) -> None:
        self.disconnect()
        self._beside.close()
        self._looking.close()
        self.servers.guard.close()

    def cut(self) -> None:
        wire = self._wire
        if wire is not None:
            wire.cut()

    def _begin(self) -> tuple[Statements, Place]:
        """Locks the database. The server ends the lock if this service is silent, or reads nothing, for two seconds."""
        statements = Statements(self._primary().connection)
        statements.connection.execute(_BEGIN)
        return statements, Place(*statements.row(f"{PLACE} FOR UPDATE"))

    @faults
    def lock_for_news(self) -> News:
        statements, place = self._begin()
        return self._read(statements, place, has_snapshot=False)

    @faults
    def lock(self) -> None:
        """Locks the database for a service that reads by itself what others have changed."""
        self._begin()

    def _locked(self) -> "psycopg.Connection[Any] | None":
        """The connection, if it holds the lock."""
        connection = self._wire.connection if self._wire is not None else None
        is_locked = connection is not None and connection.info.transaction_status == TransactionStatus.INTRANS
        return connection if is_locked else None

    @faults
    def keep_locked(self) -> bool:
        """Says something, so that the server sees that this service is still at work."""
        locked = self._locked()
        if locked is not None:
            locked.execute("SELECT")
        return locked is not None

    @faults
    def unlock(self) -> None:
        if self._wire is not None and self._wire.connection.info.transaction_status != TransactionStatus.IDLE:
            self._wire.connection.execute("ROLLBACK")

    @faults
    def news(self, has_snapshot: bool = False) -> News:
        try:
            wire, is_primary = self._primary(), True
        except DatabaseFault:
            wire, is_primary = self.servers.connect(is_primary=False), False
        try:
            with wire.reading() as statements:
                place = Place(*statements.row(PLACE))
                if not is_primary and self.place not in (place, UNREAD):
                    raise DatabaseFault(f"{self.name}: the standby doesn't have the same changes as this service")
                return self._read(statements, place, has_snapshot)
        finally:
            if not is_primary:
                wire.close()

    def _read(self, statements: Statements, place: Place, has_snapshot: bool) -> News:
        """What leads from where this service has read to this place."""
        lines = lines_between(statements, self.place, place, self.servers.guard)
        snapshot = PostgresSnapshot(statements, place.number) if has_snapshot or lines is None else None
        self.place = place
        return News(lines, snapshot)

    @faults
    def apply(self, changes: Sequence[Change]) -> list[int]:
        locked = self._locked()
        if locked is None:
            raise DatabaseFault(f"{self.name}: the lock has ended")
        statements = Statements(locked)
        writing, now = SharedWriting(statements, self._machine), int(statements.row(NOW)[0])
        numbers = [writing.make(change, now) for change in changes]
        writing.count()
        self._commit(writing)
        return numbers

    def _commit(self, writing: SharedWriting) -> None:
        assert self._wire is not None
        writing.report()
        self._wire.warned = ""
        try:
            self._wire.connection.execute("COMMIT")
        except psycopg.Error as error:
            if self._wire.connection.closed:
                raise Uncertain(f"{self.name}: {text_of(error)}") from None
            raise
        if self._wire.warned:  # A server warns so if its standby hasn't confirmed anything.
            raise Uncertain(f"{self.name}: {self._wire.warned}")
        self.place = writing.place or self.place
        self.servers.guard.kept(writing.lines)

    @faults
    def probe(self) -> None:
        self._begin()
        self.unlock()

    @faults
    def fill(self, lines: Iterable[bytes], what: str, actor: Actor) -> int:
        statements, place = self._begin()
        if self.place not in (place, UNREAD):
            raise DatabaseFault(f"{self.name}: another service has changed the database meanwhile; try again")
        writing = SharedWriting(statements, self._machine)
        number = writing.fill(lines, Change(what, actor, ()), int(statements.row(NOW)[0]))
        self._commit(writing)
        return number

    @faults
    def snapshot(self, before: Snapshot | None = None) -> PostgresSnapshot:
        self.place = UNREAD
        snapshot = self.news().snapshot
        assert isinstance(snapshot, PostgresSnapshot)
        return snapshot

    def finder(self) -> PostgresFinder:
        return PostgresFinder(self, self.servers, self._machine)

    def parts(self) -> PostgresParts:
        return PostgresParts(self.servers)

    def follow(self) -> PostgresFollower:
        return PostgresFollower(self)

    def log_octets(self) -> int:
        return 0  # A slow reader has a copy of its own.

    def put_source(self, source: Source) -> None:
        self._beside.put_source(source)

    def drop_source(self, name: str) -> bool:
        return self._beside.drop_source(name)

    def put_loaded(self, name: str, loaded: Loaded) -> None:
        self._beside.put_loaded(name, loaded)

    def drop_loaded(self, name: str) -> None:
        self._beside.drop_loaded(name)

    def put_looked(self, looked: Sequence[Looked]) -> None:
        """Waits for the lock, which this service itself may hold: so the thread that writes doesn't call this."""
        self._looking.put_looked(looked)

    @faults
    def lacked_of(self, entries: Sequence[Entry]) -> list[Entry]:
        return lacked_of(self._primary().connection, entries)

    def hand_in(self, entries: Iterable[Entry]) -> None:
        self._beside.hand_in(entries)

    @faults
    def check(self) -> list[str]:
        with self._primary().reading() as statements:
            return list(compare(statements, statements.scan(EVERY_CERTIFICATE)))

    def backup(self, path: Path) -> None:
        """Writes a copy as a file of SQLite's."""
        with closing(self.snapshot()) as snapshot:
            write_copy(snapshot, self.name, path)
