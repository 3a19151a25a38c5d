"""What the tables of earlier versions had of a keyring, before keys were numbered and things were counted."""

import sqlite3
from contextlib import closing

from tukyamid.service.storage.certificate_rows import describe
from tukyamid.service.storage.sqlite_tables import MIGRATIONS
from tukyamid.service.storage.upgrade_steps import make_all


class Earlier:
    """The rows of the tables that SQLite's second version and PostgreSQL's first one have in common, for the lines of
    a script."""

    def __init__(self, lines):
        self.certificates, self.user_ids, self.verdicts = [], [], {}
        for line in lines:
            word, *values = line.decode().split(" ")
            if word == "import":
                self._put(bytes.fromhex(values[0]))
            else:
                number, *issuer = (bytes.fromhex(value) for value in values if value not in ("good", "bad"))
                _, place, depth, _ = self.verdicts.get(number, (number, None, 0, None))
                self.verdicts[number] = number, place, depth, issuer[0] if issuer else b""
        deepest = {}
        for _, place, depth, issuer in self.verdicts.values():
            if place is not None and issuer:
                deepest[issuer, place] = max(depth, deepest.get((issuer, place), 0))
        self.certifications = [(issuer, place, depth) for (issuer, place), depth in deepest.items()]

    def _put(self, octets):
        one, place = describe(octets), len(self.certificates) + 1
        self.certificates.append((place, one.fpr, one.key_id, octets, 1))
        self.user_ids += [(place, user_id, address) for user_id, address in one.user_ids.items()]
        self.verdicts.update((number, (number, place, depth, None)) for number, depth in one.signatures.items())

    def statements(self, overriding=""):
        """What puts the rows into these tables, with the values of each."""
        for table in ("certificates", "user_ids", "verdicts", "certifications"):
            rows = [*self.verdicts.values()] if table == "verdicts" else getattr(self, table)
            yield f"INSERT INTO {table} {overriding} VALUES ({', '.join('?' * len(rows[0]))})", rows


def fill_earlier(path, version, lines):
    """A file as this version has made it."""
    with closing(sqlite3.connect(path)) as raw, raw:
        raw.execute("PRAGMA journal_mode = WAL")
        make_all(raw, [step for migration in MIGRATIONS[:version] for step in migration])
        for statement, values in Earlier(lines).statements():
            raw.executemany(statement, values)
        raw.execute("INSERT INTO changes VALUES (1, 5, 0, 0, 'filled')")
        raw.execute(f"PRAGMA user_version = {version}")
        raw.execute("PRAGMA application_id = 0x54756B79")
