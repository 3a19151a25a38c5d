"""Reading the shared database in parts, for a keyring that is larger than an engine."""

import re
from collections.abc import Iterator
from typing import Any

import psycopg

from ..storage.database import DatabaseFault
from ..storage.partial_queries import QueriedParts
from ..storage.shared_database import UNREAD, Place
from .changes_since import lines_between
from .notifications import PLACE
from .postgres_connection import Servers, Wire, text_of
from .postgres_reads import PostgresSnapshot
from .postgres_statements import Statements

_INDEX = re.compile(r"INDEXED BY \w+")
# Few rows are looked up, each by an index. The transaction stays open between questions.
_SETTINGS = ("SET enable_seqscan = off; SET enable_hashjoin = off; SET enable_mergejoin = off; SET jit = off; "
             "SET idle_in_transaction_session_timeout = 0")
_BEGIN = "BEGIN ISOLATION LEVEL REPEATABLE READ READ ONLY"


class PostgresParts(QueriedParts):
    """Reads within one transaction that changes nothing, and so at one moment, until it is renewed."""

    def __init__(self, servers: Servers, moment: str = "") -> None:
        """`moment` is one that another connection reads at; else nothing can be read before this is renewed."""
        self._servers = servers
        self._wire: Wire | None = None
        self._is_primary = False
        self._is_at_moment = False
        if moment:
            self._begin(f"SET TRANSACTION SNAPSHOT '{moment}'")

    def _statements(self) -> Statements:
        if self._wire is None or not self._is_at_moment:
            raise DatabaseFault(f"{self._servers.name}: the connection was lost")
        return Statements(self._wire.connection)

    def _fail(self, error: Exception) -> DatabaseFault:
        self.close()
        return DatabaseFault(f"{self._servers.name}: {text_of(error)}")

    def _connect(self) -> Wire:
        try:
            wire, self._is_primary = self._servers.connect(is_primary=True), True
        except DatabaseFault:
            wire, self._is_primary = self._servers.connect(is_primary=False), False
        with wire.kept(), wire.bounded():
            wire.connection.execute(_SETTINGS.encode())
        return wire

    def _begin(self, then: str = "") -> Statements:
        """Begins a transaction."""
        try:
            if self._wire is not None and not (self._is_primary and self._wire.is_live()):
                self.close()
            if self._wire is None:
                self._wire = self._connect()
            elif self._is_at_moment:
                self._wire.connection.execute("ROLLBACK")
            self._wire.connection.execute(_BEGIN.encode())
            if then:
                self._wire.connection.execute(then.encode())
        except (psycopg.Error, OSError) as error:
            raise self._fail(error) from None
        self._is_at_moment = True
        return self._statements()

    def renew(self, place: Place = UNREAD) -> tuple[Place, tuple[tuple[int, bytes], ...] | None]:
        statements = self._begin()
        try:
            now = Place(*statements.row(PLACE))
            if not self._is_primary and place not in (now, UNREAD):
                self.close()
                raise DatabaseFault(f"{self._servers.name}: the standby doesn't have the same changes as this service")
            lines = () if place == UNREAD else lines_between(statements, place, now, self._servers.guard)
        except (psycopg.Error, OSError) as error:
            raise self._fail(error) from None
        return now, lines

    def frozen(self) -> "PostgresParts":
        try:
            (moment,) = self._statements().row("SELECT pg_export_snapshot()")
        except (psycopg.Error, OSError) as error:
            raise self._fail(error) from None
        return PostgresParts(self._servers, moment)

    def snapshot(self) -> PostgresSnapshot:
        try:
            (number,) = self._statements().row("SELECT number FROM head")
            return PostgresSnapshot(self._statements(), number)
        except (psycopg.Error, OSError) as error:
            raise self._fail(error) from None

    def _rows(self, query: str, *values: object) -> Iterator[tuple[Any, ...]]:
        try:
            yield from self._statements().rows(_INDEX.sub("", query), *values)
        except (psycopg.Error, OSError) as error:
            raise self._fail(error) from None

    def _scan(self, query: str) -> Iterator[tuple[Any, ...]]:
        try:
            yield from self._statements().scan(_INDEX.sub("", query))
        except (psycopg.Error, OSError) as error:
            raise self._fail(error) from None

    def cut(self) -> None:
        wire = self._wire
        if wire is not None:
            wire.cut()

    def close(self) -> None:
        self._is_at_moment = False
        if self._wire is not None:
            self._wire.close()
            self._wire = None
