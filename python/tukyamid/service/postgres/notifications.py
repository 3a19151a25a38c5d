"""Hearing what other services have committed, and whether the server is still the primary."""

from __future__ import annotations

import select
from time import monotonic
from typing import TYPE_CHECKING

from ..storage.database import DatabaseFault
from ..storage.shared_database import Notified, Place
from .postgres_connection import Connected, Wire, faults
from .postgres_statements import Statements

if TYPE_CHECKING:
    from .postgres_database import Postgres

CHANNEL = "tukyamid"
PLACE = "SELECT number, mark FROM head"
_PAUSE = 0.5
# Its commit waits for the synchronous standby, as that of a change does.
_CONFIRM = "SELECT pg_logical_emit_message(true, 'tukyamid', '')"
_STANDBY = "SELECT current_setting('synchronous_standby_names')"
_OWN = "SELECT pid, backend_start FROM pg_stat_activity WHERE pid = pg_backend_pid()"
_END = "SELECT pg_terminate_backend(pid) FROM pg_stat_activity WHERE pid = ? AND backend_start = ?"


class PostgresFollower(Connected):
    """Listens at the primary. Twice a second it has something confirmed that changes nothing. A primary that is cut off
    can't have that done, since its standby doesn't receive it: so the service knows for how long it may have missed
    what others acknowledge elsewhere. Without a synchronous standby that isn't known."""

    def __init__(self, database: Postgres) -> None:
        super().__init__(database.servers)
        self._database = database
        self._backend: tuple[object, ...] = (0, None)

    @faults
    def wait(self) -> Notified:
        if self._wire is None:
            self._wire = self._connect()
        else:
            select.select([self._wire.connection.fileno()], [], [], _PAUSE)
        begun, last = monotonic(), self._database.servers.guard.last
        statements = Statements(self._wire.connection)
        self._wire.warned = ""
        statements.execute(_CONFIRM)
        standby = str(statements.row(_STANDBY)[0])
        place = Place(*statements.row(PLACE))
        if self._wire.warned:  # The server waits for its standby no longer.
            raise DatabaseFault(f"{self.name}: {self._wire.warned}")
        if standby and place.number and place == self._database.place:
            self._database.servers.guard.reached(place, last)
        self._database.last_contact = monotonic()
        return Notified(place, begun, standby)

    def _connect(self) -> Wire:
        """A connection, and the end of the one before, which may still wait for a standby at the same server."""
        wire = self._servers.connect(is_primary=True)
        statements = Statements(wire.connection)
        with wire.kept(), wire.bounded():
            statements.rows(_END, *self._backend)
            self._backend = statements.row(_OWN)
            wire.connection.execute(f"LISTEN {CHANNEL}".encode())
        return wire
