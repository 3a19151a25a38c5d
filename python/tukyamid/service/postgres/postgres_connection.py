"""Connections to PostgreSQL: to the primary among several servers, or to any of them."""

import contextlib
import os
import select
import socket
import threading
from collections.abc import Callable, Iterator
from hashlib import sha256
from pathlib import Path
from typing import Any, Concatenate, ParamSpec, Protocol, TypeVar

import psycopg
from psycopg.conninfo import conninfo_to_dict, make_conninfo

from ..storage.acknowledged_changes import Ledger
from ..storage.database import DatabaseFault
from .acknowledged_check import Guard, Lacking
from .postgres_statements import Statements

# A server that says nothing is given up after some seconds, and one that holds others' changes up is too.
_SETTINGS = {
    "application_name": "tukyamid", "client_encoding": "UTF8", "connect_timeout": "2", "keepalives_idle": "2",
    "keepalives_interval": "1", "keepalives_count": "3", "tcp_user_timeout": "5000",
    "options": "-c lock_timeout=10s -c idle_in_transaction_session_timeout=30s",
}
_SYNCHRONOUS = ("SELECT set_config('synchronous_commit', 'on', false) "
                "WHERE current_setting('synchronous_commit') NOT IN ('on', 'remote_apply')")
_OF_A_SERVER = ("host", "hostaddr", "port")
_LONGEST_GREETING, _LONGEST_COMPARISON = 5.0, 60.0  # Seconds, until a server that says nothing is given up.

_P = ParamSpec("_P")
_R = TypeVar("_R")


class Faulty(Protocol):
    """What meets errors of PostgreSQL's."""

    @property
    def name(self) -> str: ...

    def disconnect(self) -> None: ...


_F = TypeVar("_F", bound=Faulty)


def text_of(error: BaseException) -> str:
    """An error of PostgreSQL's in one line: its first, since the others say what may help a user of psql."""
    return next(iter(str(error).strip().splitlines()), type(error).__name__)


def faults(call: Callable[Concatenate[_F, _P], _R]) -> Callable[Concatenate[_F, _P], _R]:
    """Has what PostgreSQL meets raised as a DatabaseFault, with the database's name. The next call connects again."""
    def guarded(self: _F, /, *words: _P.args, **named: _P.kwargs) -> _R:
        try:
            return call(self, *words, **named)
        except (psycopg.Error, OSError) as error:
            self.disconnect()
            raise DatabaseFault(f"{self.name}: {text_of(error)}") from None
        except DatabaseFault:
            self.disconnect()
            raise
    return guarded


class Servers:
    """The servers that a URL names. The one that was found last is tried first. None is used that lacks what this
    service has acknowledged, as `guard` knows."""

    def __init__(self, url: str, state: Path | None = None) -> None:
        """A service has a folder for its state; OSError if it can't write there."""
        try:
            given = {name: str(value) for name, value in conninfo_to_dict(url).items()}
        except psycopg.Error as error:
            raise DatabaseFault(f"the database's URL is wrong: {text_of(error)}") from None
        several = {name: given.pop(name).split(",") for name in _OF_A_SERVER if name in given}
        self._settings = {**_SETTINGS, **given}
        count = max(map(len, several.values()), default=1)
        if any(len(values) not in (1, count) for values in several.values()):
            raise DatabaseFault("the database's URL doesn't have as many ports as hosts")
        self._servers = [{name: values[place % len(values)] for name, values in several.items()}
                         for place in range(count)]
        where = ",".join(":".join(filter(None, (one.get("host") or one.get("hostaddr", ""), one.get("port"))))
                         for one in self._servers)
        self.name = f"postgresql://{where}/{given.get('dbname', '')}"
        known_as = "/".join([*sorted(where.split(",")), given.get("dbname", "")])  # In whichever order they are named.
        ledger = Ledger(state, sha256(known_as.encode()).hexdigest()[:16]) if state is not None else None
        self.guard = Guard(self.name, ledger)

    def connect(self, is_primary: bool) -> "Wire":
        """A connection to the primary, or to any server; DatabaseFault if there is none."""
        errors: list[str] = []
        fault: DatabaseFault | None = None
        for server in self._servers:
            try:
                wire = self._connect(server, "read-write" if is_primary else "any")
            except psycopg.Error as error:
                errors.append(text_of(error))
                continue
            except DatabaseFault as found:
                fault = found if fault is None or isinstance(found, Lacking) else fault
                continue
            # Several threads connect: none may meet a list that lacks a server.
            self._servers = [server, *(other for other in self._servers if other is not server)]
            return wire
        raise fault or DatabaseFault(f"{self.name}: {'; '.join(errors)}")

    def _connect(self, server: dict[str, str], wanted: str) -> "Wire":
        """A connection to this server; a DatabaseFault if it lacks what was acknowledged."""
        connection: psycopg.Connection[Any] = psycopg.connect(
            make_conninfo(**{**self._settings, **server, "target_session_attrs": wanted}), autocommit=True)
        wire = Wire(connection)
        with wire.kept():
            with wire.bounded():
                connection.execute(_SYNCHRONOUS)
                is_lacking = self.guard.is_lacked_by(connection)
            if is_lacking:
                with wire.bounded(_LONGEST_COMPARISON):
                    self.guard.check(connection)
        return wire


class Wire:
    """A connection that another thread may cut. `warned` is whether the server has warned of something."""

    def __init__(self, connection: "psycopg.Connection[Any]") -> None:
        self.connection = connection
        self.warned = ""
        self._socket = socket.socket(fileno=os.dup(connection.fileno()))
        connection.add_notice_handler(self._take_notice)

    def _take_notice(self, notice: "psycopg.errors.Diagnostic") -> None:
        if notice.severity_nonlocalized == "WARNING":
            self.warned = notice.message_primary or "a warning"

    def say_whole(self) -> None:
        """From now on each statement is one message, with its values in it."""
        self.connection.cursor_factory = psycopg.ClientCursor

    def is_live(self) -> bool:
        """Whether the server hasn't ended the connection since it was last used. Between uses it says nothing else."""
        return not self.connection.closed and not select.select([self.connection.fileno()], [], [], 0)[0]

    def cut(self) -> None:
        """Has what waits for the server meet the connection's end."""
        with contextlib.suppress(OSError):
            self._socket.shutdown(socket.SHUT_RDWR)

    @contextlib.contextmanager
    def bounded(self, seconds: float = _LONGEST_GREETING) -> Iterator[None]:
        """Cuts the connection if what is done meanwhile takes longer. A server that is stopped takes connections, and
        says nothing."""
        timer = threading.Timer(seconds, self.cut)
        timer.daemon = True
        timer.start()
        try:
            yield
        finally:
            timer.cancel()

    @contextlib.contextmanager
    def kept(self) -> Iterator[None]:
        """Closes the connection if what is done meanwhile fails."""
        try:
            yield
        except BaseException:
            self.close()
            raise

    def close(self) -> None:
        self.connection.close()
        self._socket.close()

    @contextlib.contextmanager
    def reading(self) -> Iterator[Statements]:
        """A transaction that sees one moment, and changes nothing."""
        self.connection.execute("BEGIN ISOLATION LEVEL REPEATABLE READ READ ONLY")
        yield Statements(self.connection)
        self.connection.execute("COMMIT")


class Connected:
    """What keeps a connection of its own to one of the servers, while there is one."""

    def __init__(self, servers: Servers) -> None:
        self._servers = servers
        self._wire: Wire | None = None

    @property
    def name(self) -> str:
        return self._servers.name

    def disconnect(self) -> None:
        if self._wire is not None:
            self._wire.close()
            self._wire = None

    def cut(self) -> None:
        wire = self._wire
        if wire is not None:
            wire.cut()

    close = disconnect
