"""Statements of both databases, as PostgreSQL takes them."""

from collections.abc import Iterable, Iterator, Sequence
from dataclasses import dataclass
from typing import Any

import psycopg

from ..storage.table_changes import Counted, Rows

_MOST_OCTETS = 1 << 16  # Of several statements in one message.


class Statements:
    """Does statements of both databases: `?` is the place of a value. Text is kept as its octets, since PostgreSQL has
    no text with a zero in it."""

    def __init__(self, connection: "psycopg.Connection[Any]") -> None:
        self.connection = connection

    def execute(self, statement: str, values: Sequence[Any] = (), /) -> Rows:
        rows: Rows = self.connection.execute(_spelled(statement), _kept(values))
        return rows

    def executemany(self, statement: str, values: Iterable[Sequence[Any]], /) -> Counted:
        """Many at once are one message. In psycopg's own, which is a pipeline, the server waits between statements for
        the next one without a bound."""
        cursor, spelled = psycopg.ClientCursor(self.connection), _spelled(statement)
        total = Total()
        for message in _messages(cursor.mogrify(spelled, _kept(one)) for one in values):
            cursor.execute(message.encode())
            total.rowcount += max(cursor.rowcount, 0)
            while cursor.nextset():
                total.rowcount += max(cursor.rowcount, 0)
        return total

    def rows(self, statement: str, *values: object) -> list[tuple[Any, ...]]:
        rows: list[tuple[Any, ...]] = self.connection.execute(_spelled(statement), _kept(values)).fetchall()
        return rows

    def row(self, statement: str, *values: object) -> tuple[Any, ...]:
        (row,) = self.rows(statement, *values)
        return row

    def scan(self, statement: str) -> Iterator[tuple[Any, ...]]:
        """Rows as they are read, since they may be many; within a transaction."""
        with self.connection.cursor(name="scan") as cursor:
            yield from cursor.execute(statement)


@dataclass
class Total:
    """How many rows several statements have changed."""
    rowcount: int = 0


def _messages(statements: Iterable[str]) -> Iterator[str]:
    """Statements, as many in a message as it may have octets, or a longer one alone."""
    message: list[str] = []
    octets = 0
    for statement in statements:
        if message and octets + len(statement) > _MOST_OCTETS:
            yield ";".join(message)
            message, octets = [], 0
        message.append(statement)
        octets += len(statement)
    if message:
        yield ";".join(message)


def _spelled(statement: str) -> bytes:
    return statement.replace("?", "%s").encode()


def _kept(values: Sequence[Any]) -> list[Any]:
    return [value.encode("utf-8", "surrogateescape") if isinstance(value, str) else value for value in values]
