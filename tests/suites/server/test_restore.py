"""`tukyamid-server restore`: what it puts a copy in the place of, what it sets aside, and what it leaves alone."""

import os
import shutil
import sqlite3
from contextlib import closing

from outside import script_of
from test_database import NOBODY, InAFolder
from tukyamid.service.storage.sqlite_database import Sqlite
from world import World


class Restoring(InAFolder):
    def test_what_is_not_damaged_stays(self):
        """Another program's database, one of a later version, and a directory."""
        with closing(Sqlite(self.path)) as database:
            database.backup(self.folder / "copy")
        other, later = self.folder / "other.db", self.folder / "later.db"
        with closing(sqlite3.connect(other)) as raw, raw:
            raw.execute("CREATE TABLE theirs AS SELECT 'kept' AS word")
        shutil.copy(self.path, later)
        with closing(sqlite3.connect(later)) as raw:
            raw.execute("PRAGMA user_version = 1000")
        (self.folder / "folder").mkdir()
        before = {entry: entry.read_bytes() for entry in self.folder.glob("*.db")}
        for name, said in (("other.db", "another program's"), ("later.db", "later Tukyamid"), ("folder", "folder")):
            status, told = self.command("restore", "--database", name, "copy")
            self.assertEqual((status, said in told), (1, True), told)
        self.assertEqual(list(self.folder.glob("*damaged*")), [])
        self.assertEqual({entry: entry.read_bytes() for entry in before}, before)

    def test_a_copy_that_has_nothing(self):
        """SQLite takes an empty file for a database; the keyring stays all the same. Nothing waits for a FIFO."""
        with closing(Sqlite(self.path)) as database:
            database.fill(World(count=6).imports[4::5], "a test", NOBODY)
            before = script_of(database)
        (self.folder / "empty").touch()
        os.mkfifo(self.folder / "fifo")
        with closing(sqlite3.connect(self.folder / "without-tables")) as raw:
            raw.execute("VACUUM")
        for name in "empty", "without-tables", "fifo", "/dev/zero", "missing":
            status, said = self.command("restore", "--database", "keyring.db", name)
            self.assertEqual(status, 1, name)
            self.assertRegex(said, "nothing is in it|there is no such file")
        with closing(Sqlite(self.path)) as database:
            self.assertEqual(script_of(database), before)

    def test_each_damaged_one_is_kept_with_its_log(self):
        with closing(Sqlite(self.path)) as database:
            database.backup(self.folder / "copy")
        for name in "keyring.db.damaged", "keyring.db.damaged-2", "keyring.db.damaged-3":
            self.path.write_bytes(b"damaged " + name.encode() + bytes(5000))
            self.path.with_name("keyring.db-wal").write_bytes(name.encode())
            status, said = self.command("restore", "--database", "keyring.db", "copy")
            self.assertEqual((status, said.endswith(f"{name}\n")), (0, True), said)
        for name in "keyring.db.damaged", "keyring.db.damaged-2", "keyring.db.damaged-3":
            self.assertEqual((self.folder / name).read_bytes(), b"damaged " + name.encode() + bytes(5000))
            self.assertEqual((self.folder / f"{name}-wal").read_bytes(), name.encode())
        self.assertEqual(self.command("check", "--database", "keyring.db"), (0, ""))

    def test_the_copy_is_only_read(self):
        with closing(Sqlite(self.path)) as database:
            database.fill(sorted(World(count=6).imports[4::5]), "a test", NOBODY)
            before = script_of(database)
            (self.folder / "copies").mkdir()
            copy = self.folder / "copies" / "copy"
            database.backup(copy)
        octets = copy.read_bytes()
        copy.chmod(0o400)
        self.assertEqual(self.command("restore", "--database", "new.db", "copies/copy"), (0, ""))
        self.assertEqual((os.listdir(copy.parent), copy.read_bytes()), (["copy"], octets))
        with closing(Sqlite(self.folder / "new.db")) as database:
            self.assertEqual(script_of(database), before)
        copy.chmod(0o600)
        copy.write_bytes(octets[:len(octets) // 2])  # Its last page may be empty.
        status, said = self.command("restore", "--database", "new.db", "copies/copy")
        self.assertEqual((status, "copies/copy" in said), (1, True), said)

    def test_a_damaged_one_is_set_aside(self):
        with closing(Sqlite(self.path)) as database:
            database.backup(self.folder / "copy")
        self.path.write_bytes(b"damaged" * 1000)
        status, said = self.command("check", "--database", "keyring.db")
        self.assertEqual((status, "not a database" in said), (1, True), said)
        status, said = self.command("restore", "--database", "keyring.db", "copy")
        self.assertEqual((status, "keyring.db.damaged" in said), (0, True), said)
        self.assertEqual((self.folder / "keyring.db.damaged").read_bytes(), b"damaged" * 1000)
        self.assertEqual(self.command("check", "--database", "keyring.db"), (0, ""))
