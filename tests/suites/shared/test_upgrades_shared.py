"""Tables of an earlier version in PostgreSQL are upgraded in steps: each is a transaction, and where that was
interrupted, whoever comes next goes on."""

import contextlib
from unittest import mock

from alone_cluster import OneServer
from earlier import Earlier
from talking import dump_of, status_of, told


class Cut(Exception):
    """What interrupts an upgrade."""


class Upgrades(OneServer):
    def setUp(self):
        """Also with a verdict that is bad, and some on signatures that aren't kept."""
        super().setUp()
        self.lines = told([*self.world.lines(), b"verdict %s bad" % self.world.verdicts[0][0], b"verdict %064x bad" % 1,
                           b"verdict %064x good %s" % (2, b"5" * 40), b"verdict %s none" % self.world.verdicts[1][0]])
        with self.connection() as connection:
            self.make_first(connection)

    def connection(self):
        import psycopg
        return contextlib.closing(psycopg.connect(self.cluster.at(self.name), autocommit=True))

    def make_first(self, connection):
        """The tables as the first version had them."""
        from tukyamid.service.postgres.postgres_statements import Statements
        from tukyamid.service.postgres.postgres_tables import MIGRATIONS
        from tukyamid.service.storage.upgrade_steps import make_all
        connection.execute("CREATE TABLE tukyamid (version INTEGER NOT NULL)")
        connection.execute("INSERT INTO tukyamid VALUES (1)")
        make_all(Statements(connection), MIGRATIONS[0])
        for statement, values in Earlier(self.lines).statements("OVERRIDING SYSTEM VALUE"):
            Statements(connection).executemany(statement, values)

    def check_all(self):
        self.assertEqual(self.command("check", "--database", self.url), (0, ""))
        server = self.serve()
        self.assertEqual(dump_of(server), self.lines)
        self.assertEqual(status_of(server)[b"certificates"], b"8")
        count = sum(line.startswith(b"verdict") for line in self.lines)
        self.assertEqual(status_of(server)[b"verdicts"], b"%d" % count)

    def test_from_the_first_version(self):
        self.check_all()

    def open_for(self, transactions):
        """Opens the database, and interrupts that within a transaction, after that many."""
        from tukyamid.service.postgres import Postgres, postgres_schema
        left, whole = [transactions], postgres_schema._Upgraded.transaction

        @contextlib.contextmanager
        def cut(upgraded):
            with whole(upgraded):
                yield
                if not left[0]:
                    raise Cut
                left[0] -= 1

        with mock.patch.object(postgres_schema._Upgraded, "transaction", cut):
            Postgres(self.url).close()

    def test_interrupted_in_each_transaction(self):
        """Meanwhile a service of an earlier version changes nothing."""
        import psycopg
        from tukyamid.service.postgres.postgres_tables import steps_from
        from tukyamid.service.storage import upgrade_steps
        times = 0
        with mock.patch.object(upgrade_steps, "ROWS", 3), self.connection() as earlier:
            while True:
                try:
                    # The first transaction sees whether the tables are there.
                    self.open_for(1 if not times else 2)
                    break
                except Cut:
                    times += 1
                    self.assertLess(times, 100)
                with self.assertRaises(psycopg.errors.UndefinedTable):
                    earlier.execute("SELECT number FROM head FOR UPDATE")
        # Three parts of 8 certificates and the end of each such step, and each other step.
        self.assertEqual(times, sum(3 + 1 if step.rows else 1 for step in steps_from(1)))
        self.check_all()

    def test_one_upgrades_at_a_time(self):
        """Another one doesn't wait: it says why it can't begin."""
        from tukyamid.service.postgres.postgres_schema import _UPGRADING
        with self.connection() as other:
            other.execute(b"SELECT pg_advisory_lock(%d)" % _UPGRADING)
            status, said = self.command("check", "--database", self.url)
            self.assertEqual((status, "is upgraded by another service or command at present" in said), (1, True), said)
        self.check_all()
