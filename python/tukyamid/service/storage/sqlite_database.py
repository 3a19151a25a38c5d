"""The database in one file, by SQLite: a write-ahead log, synced at each commit."""

import contextlib
import dataclasses
import os
import sqlite3
import time
from collections.abc import Callable, Iterable, Iterator, Sequence
from pathlib import Path
from typing import Concatenate, ParamSpec, TypeVar

from ..paths_and_locks import beside
from . import sqlite_schema
from .atomic_files import sync_folder
from .database import Actor, Change, Damaged, DatabaseFault, Snapshot, Source
from .loaded_files import Loaded
from .sqlite_files import LOG, Files, more_names, only_log
from .sqlite_partial_reads import SqliteParts
from .sqlite_reads import SqliteFinder, SqliteSnapshot
from .table_changes import Writing
from .table_check import EVERY_CERTIFICATE, compare
from .unlooked import Looked, put_looked

_BUSY_SECONDS = 10.0
_LOG_OCTETS = 64 << 20

_P = ParamSpec("_P")
_R = TypeVar("_R")


def faults(call: "Callable[Concatenate[Sqlite, _P], _R]") -> "Callable[Concatenate[Sqlite, _P], _R]":
    """Has what SQLite meets raised as a DatabaseFault, with the file's name."""
    def guarded(self: "Sqlite", /, *words: _P.args, **named: _P.kwargs) -> _R:
        try:
            return call(self, *words, **named)
        except sqlite3.Error as error:
            raise DatabaseFault(f"{self.path}: {error}") from None
        except OSError as error:
            raise DatabaseFault(f"{error.filename or self.path}: {error.strerror or error}") from None
    return guarded


def connect(path: Path, check: Callable[[], None] = lambda: None) -> sqlite3.Connection:
    """Opens a file that is there; `check` is called before its log is."""
    connection = sqlite3.connect(f"{path.absolute().as_uri()}?mode=rw", uri=True, timeout=_BUSY_SECONDS,
                                 isolation_level=None, check_same_thread=False, cached_statements=256)
    try:
        check()
    except BaseException:
        connection.close()
        raise
    connection.execute("PRAGMA foreign_keys = ON")
    connection.execute("PRAGMA synchronous = FULL")
    connection.execute("PRAGMA trusted_schema = OFF")
    return connection


class Sqlite:
    """A database file. It notices where another file, or none, has taken its place: what was written then would be
    gone, so that nothing may be acknowledged."""

    def __init__(self, path: Path, is_made: bool = True) -> None:
        """Opens the file; makes it where it isn't there, if it may. DatabaseFault where it can't be used."""
        self.path = path
        try:
            self._connection = self._open(is_made)
            self._files = Files(path)
        except sqlite3.Error as error:
            is_damage = getattr(error, "sqlite_errorcode", 0) & 0xFF in (sqlite3.SQLITE_CORRUPT, sqlite3.SQLITE_NOTADB)
            raise (Damaged if is_damage else DatabaseFault)(f"{path}: {error}") from None
        except OSError as error:
            raise DatabaseFault(f"{error.filename or path}: {error.strerror or error}") from None

    @property
    def name(self) -> str:
        return str(self.path)

    def _open(self, is_made: bool) -> sqlite3.Connection:
        if is_made:
            self.path.parent.mkdir(mode=0o700, parents=True, exist_ok=True)
        wrong = only_log(self.path)
        if wrong:
            raise DatabaseFault(wrong)
        os.close(os.open(self.path, os.O_RDWR | (os.O_CREAT if is_made else 0), 0o600))
        connection = connect(self.path)
        try:
            sqlite_schema.prepare(connection, str(self.path))
            connection.execute("PRAGMA journal_mode = WAL")
            connection.execute(f"PRAGMA journal_size_limit = {_LOG_OCTETS}")
            connection.execute("BEGIN IMMEDIATE")  # So that the log's file is there from now on.
            connection.execute("COMMIT")
        except BaseException:
            connection.close()
            raise
        sync_folder(self.path.parent)
        return connection

    def _connect(self, path: Path) -> sqlite3.Connection:
        """Another connection to the file that this one has; DatabaseFault if that was taken away."""
        self._files.check()
        return connect(path, self._files.check)

    @contextlib.contextmanager
    def _transaction(self) -> Iterator[sqlite3.Connection]:
        self._connection.execute("BEGIN IMMEDIATE")
        try:
            yield self._connection
            self._connection.execute("COMMIT")
        except BaseException:
            with contextlib.suppress(sqlite3.Error):
                self._connection.execute("ROLLBACK")
            raise

    @faults
    def apply(self, changes: Sequence[Change]) -> list[int]:
        self._files.check()
        now, numbers = int(time.time()), []
        with self._transaction() as connection:
            writing = Writing(connection)
            for change in changes:
                numbers.append(writing.make(change, now))
            writing.count()
        return numbers  # If the file is taken away only now, these are in it as all before them.

    @faults
    def probe(self) -> None:
        self._files.check()
        with self._transaction() as connection:
            # A page is really written, so that a full disk is met.
            connection.execute("CREATE TABLE probe (octets BLOB)")
            connection.execute("INSERT INTO probe VALUES (zeroblob(65536))")
            connection.execute("DROP TABLE probe")

    @faults
    def fill(self, lines: Iterable[bytes], what: str, actor: Actor) -> int:
        self._files.check()
        with self._transaction() as connection:
            writing = Writing(connection)
            number = writing.fill(lines, Change(what, actor, ()), int(time.time()))
        self._files.check()
        return number

    @faults
    def snapshot(self, before: Snapshot | None = None) -> SqliteSnapshot:
        if not isinstance(before, SqliteSnapshot):
            return SqliteSnapshot(self._connect(self.path))
        # The log starts again only if all of it is in the file, and nobody reads what it had. Where each snapshot
        # overlapped the one before it, the log would grow for ever.
        before.renew(lambda: self._connection.execute("PRAGMA wal_checkpoint").fetchall())
        return before

    @faults
    def finder(self) -> SqliteFinder:
        return SqliteFinder(self._connect(self.path), self.path)

    @faults
    def parts(self) -> SqliteParts:
        return SqliteParts(self._connect, self.path)

    def log_octets(self) -> int:
        try:
            return beside(self.path, LOG).stat().st_size
        except OSError:
            return 0

    @faults
    def put_source(self, source: Source) -> None:
        self._connection.execute("INSERT OR REPLACE INTO sources VALUES (?, ?, ?, ?)",
                                 (source.name, source.digest, source.certificates, source.fault))

    @faults
    def put_loaded(self, name: str, loaded: Loaded) -> None:
        self._connection.execute(
            "INSERT OR REPLACE INTO loaded (name, file, stamp, octets, size, digest, certificates, fault) "
            "VALUES (?, ?, ?, ?, ?, ?, ?, ?)", (name, *dataclasses.astuple(loaded)))

    @faults
    def drop_loaded(self, name: str) -> None:
        self._connection.execute("DELETE FROM loaded WHERE name = ?", (name,))

    @faults
    def put_looked(self, looked: Sequence[Looked]) -> None:
        with self._transaction() as connection:
            put_looked(lambda query, *values: connection.execute(query, values).fetchall(), connection.executemany,
                       looked)

    @faults
    def drop_source(self, name: str) -> bool:
        return self._connection.execute("DELETE FROM sources WHERE name = ?", (name,)).rowcount > 0

    @faults
    def check(self) -> list[str]:
        wrong = [more_names(self.path)] if more_names(self.path) else []
        wrong += [str(row[0]) for row in self._connection.execute("PRAGMA integrity_check") if row[0] != "ok"]
        wrong += [f"a row of {row[0]} names what isn't there in {row[2]}"
                  for row in self._connection.execute("PRAGMA foreign_key_check")]
        return wrong or list(compare(self._connection, self._connection.execute(EVERY_CERTIFICATE)))

    @faults
    def backup(self, path: Path) -> None:
        os.close(os.open(path, os.O_RDWR | os.O_CREAT | os.O_EXCL, 0o600))
        with contextlib.closing(sqlite3.connect(path, isolation_level=None)) as copy:
            self._connection.backup(copy)
            copy.execute("PRAGMA journal_mode = DELETE")

    @faults
    def copy_to(self, other: "Sqlite") -> None:
        """Puts all of it into the place of what another database has, which nobody uses."""
        other._connection.execute("PRAGMA journal_mode = DELETE")  # With a log its pages couldn't have another size.
        self._connection.backup(other._connection)
        other._connection.execute("PRAGMA journal_mode = WAL")

    def close(self) -> None:
        self._connection.close()
