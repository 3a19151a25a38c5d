"""Whether a server has what this service has acknowledged. A primary that lacks it isn't followed: it is one that was
cut off, or an old copy, and the changes of others that came later would be built on it."""

from __future__ import annotations

import threading
from collections.abc import Iterable, Sequence

import psycopg

from ..storage.acknowledged_changes import Entry, Ledger, counted
from ..storage.database import DatabaseFault
from ..storage.shared_database import Place

_AT_ONCE = 1000
_HAS = ("SELECT EXISTS (SELECT FROM changes WHERE number = %s AND mark = %s) "
        "OR EXISTS (SELECT FROM handed_in WHERE mark = %s)")
_HAVE = ("SELECT mark FROM changes WHERE number = ANY(%s) AND mark = ANY(%s) "
         "UNION SELECT mark FROM handed_in WHERE mark = ANY(%s)")
# Another database is in its place, one without our tables.
_NONE = (psycopg.errors.UndefinedTable, psycopg.errors.UndefinedColumn)


class Lacking(DatabaseFault):
    """A primary lacks changes that this service has acknowledged."""


class Guard:
    def __init__(self, name: str, ledger: Ledger | None = None) -> None:
        """Of the database with this name. Without a ledger nothing is remembered longer than this."""
        self._name = name
        self._ledger = ledger
        self._last = ledger.last if ledger is not None else None
        self._reported: dict[Place, str] = {}
        self._changing = threading.Lock()

    @property
    def fault(self) -> str:
        """Why the ledger can't be written; empty where all is well."""
        return self._ledger.fault if self._ledger is not None else ""

    def read(self, rows: Iterable[tuple[int, bytes, bytes | None]]) -> None:
        """Changes of other services."""
        if self._ledger is not None:
            self._ledger.read(Entry(Place(number, mark), line) for number, mark, line in rows)

    def kept(self, rows: Sequence[tuple[int, bytes, bytes | None]]) -> None:
        """Changes of this service are committed."""
        if not rows:
            return
        with self._changing:
            self._last = Place(*rows[-1][:2])
            if self._ledger is not None:
                self._ledger.kept([Entry(Place(number, mark), line) for number, mark, line in rows])

    @property
    def last(self) -> Place | None:
        """The last change that is known to be acknowledged."""
        return self._last

    def reached(self, place: Place, last: Place | None) -> None:
        """All up to this place is known to be committed, if `last` is still the last one."""
        with self._changing:
            if last == self._last != place:
                self._last = place
                if self._ledger is not None:
                    self._ledger.reached(place)

    def close(self) -> None:
        if self._ledger is not None:
            self._ledger.close()

    def is_lacked_by(self, connection: "psycopg.Connection[tuple[object, ...]]") -> bool:
        """Whether this server doesn't have the last change that this service has acknowledged."""
        last = self._last
        return last is not None and not _has(connection, last)

    def check(self, connection: "psycopg.Connection[tuple[object, ...]]") -> None:
        """Lacking if this server doesn't have the last change that this service has acknowledged."""
        last = self._last
        if last is None or not self.is_lacked_by(connection):
            return
        if connection.info.parameter_status("in_hot_standby") == "on":
            raise DatabaseFault(f"{self._name}: the standby lacks changes that this service has acknowledged")
        if last not in self._reported:
            self._reported = {last: self._text(connection, last)}
        raise Lacking(f"{self._name} lacks {self._reported[last]}")

    def _text(self, connection: "psycopg.Connection[tuple[object, ...]]", last: Place) -> str:
        """What is lacking, and in which file it is."""
        missing = _missing(connection, self._ledger.entries()) if self._ledger is not None else []
        if not missing:
            return f"change {last.number}, which this service has acknowledged"
        count = counted(len(missing))
        try:
            assert self._ledger is not None
            path = self._ledger.write_missing(missing)
        except OSError as error:
            return f"{count} that this service has acknowledged, and no file can be written: {error}"
        return f"{count} that this service has acknowledged, up to number {last.number}; see {path}"


def _has(connection: "psycopg.Connection[tuple[object, ...]]", place: Place) -> bool:
    try:
        row = connection.execute(_HAS, (place.number, place.mark, place.mark)).fetchone()
    except _NONE:
        return False
    return row is not None and bool(row[0])


def _missing(connection: "psycopg.Connection[tuple[object, ...]]", entries: Sequence[Entry]) -> list[Entry]:
    """Those of the last changes that aren't there. It has all that came before one that it has."""
    missing: list[Entry] = []
    for end in range(len(entries), 0, -_AT_ONCE):
        some = entries[max(0, end - _AT_ONCE):end]
        lacked = lacked_of(connection, some)
        missing[:0] = lacked
        if len(lacked) < len(some):
            break
    return missing


def lacked_of(connection: "psycopg.Connection[tuple[object, ...]]", entries: Sequence[Entry]) -> list[Entry]:
    """Those of these changes that aren't there, and haven't been handed in."""
    marks = [one.place.mark for one in entries]
    try:
        rows = connection.execute(_HAVE, ([one.place.number for one in entries], marks, marks))
        there = {row[0] for row in rows.fetchall()}
    except _NONE:
        there = set()
    return [one for one in entries if one.place.mark not in there]
