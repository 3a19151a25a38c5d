"""The database: what is wrong with it is said, and it goes to a copy, to a script, and back."""

import os
import random
import shutil
import sqlite3
import subprocess
import tempfile
import unittest
from contextlib import closing
from dataclasses import replace
from pathlib import Path

from outside import PATIENCE, PROGRAM, PYTHON, SERVER, Client, Server, alone, needs_engine, script_of
from tukyamid.service.storage.database import Actor, Change, DropCertificate, PutCertificate, SetVerdict
from tukyamid.service.storage.sqlite_database import Sqlite
from world import World

NOBODY = Actor(1, 2)


def script(world):
    """What the program alone holds of this world, as a script."""
    return alone([*world.lines(), b"dump"])[-1].partition(b"\n")[2]


class InAFolder(unittest.TestCase):
    def setUp(self):
        self.folder = Path(tempfile.mkdtemp(prefix="tukyamid-database-"))
        self.addCleanup(shutil.rmtree, self.folder)
        self.path = self.folder / "keyring.db"

    def open(self):
        database = Sqlite(self.path)
        self.addCleanup(database.close)
        return database

    def command(self, *words):
        done = subprocess.run([PYTHON, SERVER, *words], capture_output=True, text=True, timeout=PATIENCE, check=False,
                              cwd=self.folder, env={**os.environ, "TUKYAMID_ENGINE": PROGRAM})
        self.assertNotIn("Traceback", done.stderr)
        return done.returncode, done.stderr


@needs_engine
class Changes(InAFolder):
    def setUp(self):
        super().setUp()
        self.world = World(count=6)
        self.script = script(self.world)
        self.database = self.open()
        self.database.fill(self.script.splitlines(), "filled", NOBODY)
        self.finder = self.database.finder()
        self.addCleanup(self.finder.close)

    def put(self, octets):
        fpr = bytes.fromhex(self.world.fprs[0].decode())
        return self.database.apply([Change("import", NOBODY, (PutCertificate(fpr, octets),))])[0]

    def test_what_was_filled_in_comes_out(self):
        self.assertEqual(script_of(self.database), self.script)
        self.assertEqual(self.database.check(), [])
        figures = self.finder.figures()
        self.assertEqual((figures.certificates, figures.user_ids, figures.change), (6, 6, 1))
        self.assertEqual(figures.verdicts, self.script.count(b"verdict "))

    def test_numbers_are_of_changes_alone(self):
        number, issuer = self.world.verdicts[0]
        signed, by = bytes.fromhex(number.decode()), bytes.fromhex(issuer.decode())
        told = self.database.apply([Change("a", NOBODY, (SetVerdict(signed, by),)),
                                    Change("b", NOBODY, (SetVerdict(signed, b""),)),
                                    Change("c", NOBODY, (SetVerdict(signed, b""),)),
                                    Change("d", NOBODY, (SetVerdict(signed, None),)),
                                    Change("e", NOBODY, (SetVerdict(signed, by),))])
        self.assertEqual(told, [1, 2, 2, 3, 4])
        self.assertEqual([one.what for one in self.finder.log(3)], ["e", "d", "b"])
        self.assertEqual(self.finder.log(1)[0].actor, NOBODY)
        self.assertEqual((script_of(self.database), self.database.check()), (self.script, []))

    def test_verdicts_in_one_change_are_those_of_one_after_another(self):
        """Among them are first ones, others, bad ones, those on signatures that nobody carries, by unknown keys, taken
        away, and given twice."""
        draw, fprs = random.Random(5), [bytes.fromhex(fpr.decode()) for fpr in self.world.fprs]
        numbers = [bytes.fromhex(number.decode()) for number, _ in self.world.verdicts]
        self.database.apply([Change("a", NOBODY, tuple(SetVerdict(number, None) for number in numbers[::2]))])
        other = Sqlite(self.folder / "other.db")
        self.addCleanup(other.close)
        other.fill(script_of(self.database).splitlines(), "filled", NOBODY)
        finder = other.finder()
        self.addCleanup(finder.close)
        for some in range(30):
            verdicts = [SetVerdict(draw.choice([*numbers, *[bytes([place]) * 32 for place in range(9)]]),
                                   draw.choice([*fprs, *fprs, b"", b"\7" * 20, None]))
                        for _ in range(draw.randrange(1, 40))]
            if some == 0:
                verdicts = [SetVerdict(number, fprs[0]) for number in numbers[::2]]
            at_once = self.database.apply([Change("b", NOBODY, tuple(verdicts))])
            singly = other.apply([Change("b", NOBODY, (verdict,)) for verdict in verdicts])
            self.assertEqual(script_of(self.database), script_of(other))
            self.assertEqual((self.database.check(), other.check()), ([], []))
            self.assertEqual(*(replace(one.figures(), change=0, octets=0) for one in (self.finder, finder)))
            self.assertLessEqual(at_once[-1], singly[-1])

    def test_a_dropped_certificate_keeps_its_verdicts(self):
        fpr = bytes.fromhex(self.world.fprs[0].decode())
        octets = next(self.octets(fpr))
        self.database.apply([Change("drop", NOBODY, (DropCertificate(fpr),))])
        self.assertEqual(self.database.check(), [])
        self.assertEqual(self.finder.figures().verdicts, self.script.count(b"verdict "))
        self.assertIsNone(self.finder.issuers(fpr))
        self.put(octets)
        self.assertEqual((script_of(self.database), self.database.check()), (self.script, []))

    def octets(self, fpr):
        with closing(self.database.snapshot()) as snapshot:
            yield from (one for one in snapshot.certificates() if self.world.keys[0] in one)

    def test_issuers_and_certifications(self):
        """The rows are those that the world was made of."""
        signed = {number: issuer for number, issuer in self.world.verdicts}
        for fpr in self.world.fprs:
            told = self.finder.issuers(bytes.fromhex(fpr.decode()))
            self.assertTrue(told)
            for number, issuer in told:
                self.assertEqual(issuer.hex().encode(), signed[number.hex().encode()])
        with closing(sqlite3.connect(self.path)) as raw:
            rows = raw.execute("SELECT by.fingerprint, own.fingerprint FROM verdicts JOIN keys AS own ON "
                               "own.id = certificate JOIN keys AS by ON by.id = issuer").fetchall()
            depths = raw.execute("SELECT max(depth) FROM verdicts").fetchone()
        self.assertEqual({(by.hex().encode(), own.hex().encode()) for by, own in rows}, self.pairs())
        self.assertEqual(depths, (255,))

    def pairs(self):
        """Who has certified whom, by the world's lines."""
        found = set()
        for key, fpr in zip(self.world.keys, self.world.fprs):
            own = [line for line in self.world.imports if key.hex().encode() in line]
            issuers = [issuer for issuer in self.world.fprs if any(b"162104" + issuer in line for line in own)]
            found |= {(issuer, fpr) for issuer in issuers} | {(fpr, fpr)}
        return found

    def test_finding(self):
        fpr = self.world.fprs[3].decode()
        self.assertEqual([one.fpr for one in self.finder.by_address("u3@example.org")], [fpr])
        self.assertEqual([one.fpr for one in self.finder.by_user_id(b"user 3 <u3@example.org>")], [fpr])
        self.assertEqual([one.fpr for one in self.finder.by_part("SER 3")], [fpr])
        self.assertEqual([one.fpr for one in self.finder.by_key(bytes.fromhex(fpr))], [fpr])
        self.assertEqual([one.fpr for one in self.finder.by_key(bytes.fromhex(fpr[-16:]))], [fpr])
        self.assertEqual(len(self.finder.by_part("example.ORG")), 6)
        first = [one.fpr for one in self.finder.by_part("example.ORG", 4)]
        self.assertEqual(first, sorted(one.decode() for one in self.world.fprs)[:4])
        self.assertEqual(self.finder.by_address("U3@example.org"), [])

    def test_a_snapshot_stays_as_it_was(self):
        with closing(self.database.snapshot()) as snapshot:
            fpr = bytes.fromhex(self.world.fprs[1].decode())
            self.database.apply([Change("drop", NOBODY, (DropCertificate(fpr),))])
            self.assertEqual(b"".join(line + b"\n" for line in snapshot.lines()), self.script)
            self.assertEqual(snapshot.count(), self.script.count(b"\n"))

    def test_a_signature_has_one_verdict(self):
        with tempfile.TemporaryDirectory() as folder:
            copy = Path(folder) / "copy.db"
            self.database.backup(copy)
            with closing(sqlite3.connect(copy)) as raw, self.assertRaisesRegex(sqlite3.IntegrityError, "UNIQUE"):
                raw.execute("INSERT INTO verdicts SELECT number, NULL, 0, 0 FROM verdicts LIMIT 1")

    def test_what_check_finds(self):
        """Each of these was changed behind the back of the service."""
        for statement, told in (
                ("UPDATE user_ids SET address = 'eve@example.org' WHERE address = 'u3@example.org'", "user IDs"),
                ("UPDATE counts SET pending = pending + 1", "counts"),
                ("UPDATE verdicts SET depth = depth + 1 WHERE depth = 0 AND certificate IS NOT NULL", "signatures"),
                ("UPDATE certificates SET octets = x'99' WHERE id = 2", "can't be read"),
                ("UPDATE keys SET fingerprint = zeroblob(20) WHERE id = 3", "is that of")):
            with self.subTest(told), tempfile.TemporaryDirectory() as folder:
                copy = Path(folder) / "copy.db"
                self.database.backup(copy)
                with closing(sqlite3.connect(copy)) as raw, raw:
                    raw.execute(statement)
                with closing(Sqlite(copy)) as database:
                    self.assertIn(told, " ".join(database.check()))


@needs_engine
class Commands(InAFolder):
    def test_through_a_script_and_back(self):
        whole = script(World(count=5))
        half, rest = whole.splitlines(keepends=True)[::2], whole.splitlines(keepends=True)[1::2]
        for lines in (half, rest):
            (self.folder / "script").write_bytes(b"# a dump\n" + b"".join(lines) + b"view p time 5\n")
            self.assertEqual(self.command("import-dump", "--database", "keyring.db", "script"), (0, ""))
        self.assertEqual(self.command("check", "--database", "keyring.db"), (0, ""))
        self.assertEqual(self.command("export-dump", "--database", "keyring.db", "out"), (0, ""))
        self.assertEqual((self.folder / "out").read_bytes(), whole)

    def test_a_script_that_is_none_changes_nothing(self):
        (self.folder / "good").write_bytes(World(count=5).imports[0] + b"\n")
        self.assertEqual(self.command("import-dump", "--database", "keyring.db", "good"), (0, ""))
        before = script_of(self.open())
        for text, told in ((b"import zz\n", "line 1"), (b"#\nkeys\n", "line 2 isn't a line of a dump")):
            (self.folder / "script").write_bytes(text)
            status, said = self.command("import-dump", "--database", "keyring.db", "script")
            self.assertEqual((status, told in said), (1, True), said)
        self.assertEqual(script_of(self.open()), before)

    def test_a_backup_while_the_service_runs(self):
        world = World(count=5)
        with Server(folder=self.folder) as server, Client(server.path) as client:
            for line in world.lines():
                client.tell(line)
            self.assertEqual(self.command("backup", "--database", "keyring.db", "copy"), (0, ""))
            self.assertEqual(self.command("check", "--database", "keyring.db"), (0, ""))
            client.tell(b"drop " + world.fprs[0])
            status, said = self.command("restore", "--database", "keyring.db", "copy")
            self.assertEqual((status, "keyring.db" in said), (1, True), said)
            self.assertEqual(server.stop(), 0)
        self.assertEqual(self.command("restore", "--database", "keyring.db", "copy"), (0, ""))
        self.assertEqual(script_of(self.open()), script(world))
