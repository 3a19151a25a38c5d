"""Databases of other versions, and of other programs: those of earlier versions are brought to this one."""

import sqlite3
from contextlib import closing

from earlier import fill_earlier
from outside import alone, needs_engine, script_of
from test_database import InAFolder
from test_lines import SUBKEY_ID, WITH_SUBKEY
from tukyamid.service.storage.database import Actor, DatabaseFault
from tukyamid.service.storage.partial_reads import Sizes
from tukyamid.service.storage.sqlite_database import Sqlite
from tukyamid.service.storage.sqlite_schema import PAGE_OCTETS, VERSION
from world import World


class Versions(InAFolder):
    def test_a_later_version(self):
        self.open().close()
        with closing(sqlite3.connect(self.path)) as raw:
            raw.execute(f"PRAGMA user_version = {VERSION + 1}")
        with self.assertRaisesRegex(DatabaseFault, "made by a later Tukyamid"):
            Sqlite(self.path)

    @needs_engine
    def test_earlier_versions(self):
        """Also with a verdict that is bad, one on a signature that isn't kept, one by a key that isn't kept, and
        signatures without a verdict."""
        world, unkept = World(count=6), b"5" * 40
        number, other = (number for number, _ in world.verdicts[:2])
        lines = [*world.lines(), b"verdict %s bad" % number, b"verdict %s good %s" % (other, unkept),
                 b"verdict %064x bad" % 1, b"verdict %064x good %s" % (2, world.fprs[0])]
        for line in world.verdicts[2:5]:
            lines.append(b"verdict %s none" % line[0])
        told = alone([*lines, b"dump"])[-1].splitlines()[1:]
        for version in (1, 2):
            with self.subTest(version):
                self.path.unlink(missing_ok=True)
                fill_earlier(self.path, version, told)
                with closing(Sqlite(self.path)) as database, closing(database.finder()) as finder:
                    self.assertEqual(database.check(), [])
                    self.assertEqual(script_of(database).splitlines(), told)
                    self.assertEqual([one.what for one in finder.log(9)], ["filled"])
                    self.check_counts(database, finder, told)
                with closing(sqlite3.connect(self.path)) as raw:
                    self.assertEqual(raw.execute("PRAGMA page_size").fetchone(), (PAGE_OCTETS,))
                    self.assertEqual(raw.execute("PRAGMA freelist_count").fetchone(), (0,))

    def test_subkeys_are_listed_when_a_file_is_opened(self):
        """The third version had no table of them."""
        with closing(self.open()) as database:
            database.fill([b"import " + WITH_SUBKEY.hex().encode()], "filled", Actor(0, 0))
        with closing(sqlite3.connect(self.path)) as raw, raw:
            for table in "subkeys", "unlooked", "awaited", "loaded":
                raw.execute(f"DROP TABLE {table}")
            raw.execute("PRAGMA user_version = 3")
        with closing(Sqlite(self.path)) as database, closing(database.finder()) as finder:
            self.assertEqual(finder.holders(SUBKEY_ID, 9), [WITH_SUBKEY])
            self.assertEqual(database.check(), [])

    def check_counts(self, database, finder, told):
        """What is counted, beside the lines and the world: each certificate has a direct signature and five more."""
        figures, verdicts = finder.figures(), sum(line.startswith(b"verdict ") for line in told)
        self.assertEqual((figures.certificates, figures.user_ids, figures.verdicts), (6, 6, verdicts))
        with closing(database.parts()) as parts:
            self.assertEqual((parts.count(), parts.pending()), (6, 3))
            octets = sum(len(line) - len(b"import ") for line in told if line.startswith(b"import ")) // 2
            self.assertEqual(parts.sizes(), Sizes(6, octets, 36, verdicts))

    def test_another_programs_database(self):
        with closing(sqlite3.connect(self.path)) as raw, raw:
            raw.execute("CREATE TABLE theirs (row TEXT)")
        with self.assertRaisesRegex(DatabaseFault, "another program's"):
            Sqlite(self.path)
        with closing(sqlite3.connect(self.path)) as raw:
            self.assertEqual(raw.execute("SELECT count(*) FROM sqlite_schema").fetchone(), (1,))
