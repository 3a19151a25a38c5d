"""One service has one file, under whatever name, and what it acknowledged isn't lost while the file is elsewhere."""

import contextlib
import os
import shutil
import subprocess
import tempfile
import unittest
from pathlib import Path

from outside import PYTHON, SERVER, Client, Server, needs_engine, script_of
from tukyamid.service.storage.sqlite_database import Sqlite

FAULT = b"fault database"
CHANGES = 50


def verdicts(count, first=0):
    return [b"verdict %064x bad" % number for number in range(first, first + count)]


class InAFolder(unittest.TestCase):
    def setUp(self):
        self.folder = Path(tempfile.mkdtemp(prefix="tukyamid-one-file-"))
        self.addCleanup(shutil.rmtree, self.folder)
        self.file = self.folder / "keyring.db"

    def command(self, *words):
        """Runs tukyamid-server; its status, and what it said."""
        done = subprocess.run([PYTHON, SERVER, *words], capture_output=True, text=True, timeout=30, check=False,
                              env={**os.environ, "WOT_PROGRAM": ""})
        return done.returncode, done.stderr

    def kept(self):
        with contextlib.closing(Sqlite(self.file)) as database:
            self.assertEqual(database.check(), [])
            return script_of(database).splitlines()


@needs_engine
class TakenAway(InAFolder):
    def test_no_client_deletes_the_log(self):
        """Whatever reads the database while its file is elsewhere makes no file in its place: SQLite would delete the
        log that it finds beside an empty file, and with it what isn't in the file yet."""
        lines = verdicts(CHANGES)
        with Server(folder=self.folder) as server, Client(server.path) as client:
            self.assertEqual([client.tell(line) for line in lines], [b"ok"] * CHANGES)
            self.file.rename(self.folder / "elsewhere")
            for line in (b"dump", b"service status", b"service find part a", b"service log 3", b"keys"):
                with Client(server.path) as other:
                    self.assertIn(other.tell(line).split(b" ")[0], (b"fault", b"service", b"keys"))
            self.assertEqual(client.tell(b"dump"), FAULT)
            self.assertFalse(self.file.exists())
            self.assertEqual(client.tell(b"verdict %064x bad" % CHANGES), FAULT)
            (self.folder / "elsewhere").rename(self.file)
            server.wait_for(lambda: client.tell(b"verdict %064x bad" % CHANGES) == b"ok")
            self.assertEqual(client.tell(b"dump"), b"dump %d" % (CHANGES + 1))
            server.process.kill()
            server.process.wait()
        self.assertEqual(self.kept(), verdicts(CHANGES + 1))

    def test_a_log_without_its_file_is_kept(self):
        """A service that starts meanwhile makes no new file beside the log."""
        with Server(folder=self.folder) as server, Client(server.path) as client:
            self.assertEqual([client.tell(line) for line in verdicts(CHANGES)], [b"ok"] * CHANGES)
            server.process.kill()
            server.process.wait()
        self.file.rename(self.folder / "elsewhere")
        status, said = self.command("import-dump", "--database", str(self.file), "/dev/null")
        self.assertEqual(status, 1)
        self.assertIn("only its log is there", said)
        (self.folder / "elsewhere").rename(self.file)
        self.assertEqual(self.kept(), verdicts(CHANGES))


@needs_engine
class OtherNames(InAFolder):
    """SQLite keeps the log beside the name by which a file was opened: under two names it has two logs."""

    def served(self):
        server = self.enterContext(Server(folder=self.folder))
        client = self.enterContext(Client(server.path))
        self.assertEqual(client.tell(verdicts(1)[0]), b"ok")
        return server, client

    def refused(self, name, text):
        """No second service, and no command that changes the file, begins under this name."""
        for words in (["serve", "--socket", str(self.folder / "second")], ["import-dump", "/dev/null"]):
            status, said = self.command(words[0], "--database", str(name), *words[1:])
            self.assertEqual(status, 1, said)
            self.assertIn(text, said)

    def test_a_hard_link(self):
        self.served()
        other = self.folder / "other"
        other.mkdir()
        os.link(self.file, other / "keyring.db")
        self.refused(other / "keyring.db", "another process uses")
        self.assertEqual([one.name for one in other.iterdir() if "wal" in one.name], [])

    def test_a_hard_link_that_nobody_uses(self):
        """Even one after the other, two services would each have a log of their own."""
        server, client = self.served()
        os.link(self.file, self.folder / "linked.db")
        self.assertEqual(client.tell(verdicts(1, 1)[0]), b"ok")
        self.assertEqual(server.stop(), 0)
        for name in ("keyring.db", "linked.db"):
            self.refused(self.folder / name, "has 2 names")
            status, said = self.command("check", "--database", str(self.folder / name))
            self.assertEqual(status, 1)
            self.assertIn("has 2 names", said)
        (self.folder / "linked.db").unlink()
        self.assertEqual(self.kept(), verdicts(2))

    def test_a_symbolic_link(self):
        self.served()
        (self.folder / "pointing.db").symlink_to(self.file)
        self.refused(self.folder / "pointing.db", "another process uses")

    def test_a_service_under_a_symbolic_link(self):
        """It uses the log of the file itself."""
        (self.folder / "there").mkdir()
        (self.folder / "pointing.db").symlink_to(self.folder / "there" / "keyring.db")
        with Server("--database", self.folder / "pointing.db", folder=self.folder) as server, \
                Client(server.path) as client:
            self.assertEqual([client.tell(line) for line in verdicts(3)], [b"ok"] * 3)
            server.process.kill()
            server.process.wait()
        self.file = self.folder / "there" / "keyring.db"
        self.assertEqual(self.kept(), verdicts(3))
