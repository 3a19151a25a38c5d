"""The shared database as a reader has it."""

from .postgres_connection import Servers
from .postgres_database import Postgres
from .postgres_partial_reads import PostgresParts


class PostgresMoments:
    """What was read at one moment stays readable until the next one begins."""

    def __init__(self, servers: Servers) -> None:
        self.parts = PostgresParts(servers)

    @property
    def is_local(self) -> bool:
        return False

    def begin(self) -> int:
        place, _ = self.parts.renew()
        return place.number

    def end(self) -> bool:
        return False

    def frozen(self) -> PostgresParts:
        return self.parts.frozen()

    def close(self) -> None:
        self.parts.close()


class PostgresReading(Postgres):
    def moments(self) -> PostgresMoments:
        return PostgresMoments(self.servers)
