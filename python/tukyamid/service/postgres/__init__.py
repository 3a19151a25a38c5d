"""The database in PostgreSQL, which services on several machines share.

`postgres_database` locks it and writes to it, by `postgres_table_changes`. `postgres_reads` reads it, and
`notifications` is notified of what other services change. `postgres_connection` finds the primary, and
`postgres_schema` makes the tables.
"""

from .postgres_database import Postgres
from .postgres_reading import PostgresReading

__all__ = ["Postgres", "PostgresReading"]
