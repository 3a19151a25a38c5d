"""A database as docs/CLUSTER.md sets it up: over TLS that is verified, with a role that can do no more than a service
has to."""

import contextlib
import os
import re
import shutil
import subprocess
import tempfile
import unittest
from pathlib import Path

from clusters import Cluster, needs_postgres, run
from outside import PATIENCE, PROGRAM, PYTHON, ROOT, SERVER, Client, needs_engine
from talking import change, dump_of, serve, status_of, told, wait_until_same
from world import World

PAGE = (ROOT / "docs/CLUSTER.md").read_text()
CERTIFICATES = re.search(r"## 1\..*?```sh\n(.*?)```", PAGE, re.S)[1]
STATEMENTS = re.findall(r"psql(?: keyring)? <<'END'\n(.*?)END\n", re.search(r"## 3\..*?## 4\.", PAGE, re.S)[0], re.S)
ACCESS = """
host    all     postgres 127.0.0.1/32 trust
hostssl keyring tukyamid 127.0.0.1/32 scram-sha-256
"""
FORBIDDEN = (
    "CREATE TABLE more (one INTEGER)", "CREATE SCHEMA more", "DROP TABLE changes", "TRUNCATE verdicts",
    "ALTER TABLE changes ADD COLUMN more INTEGER", "UPDATE changes SET what = ''", "DELETE FROM changes",
    "DELETE FROM handed_in", "UPDATE keys SET fingerprint = ''", "DELETE FROM head", "UPDATE tukyamid SET version = 9",
    "CREATE ROLE more", "ALTER SYSTEM SET fsync = off", "SELECT pg_read_file('postgresql.conf')",
    "COPY changes TO PROGRAM 'cat'", "SET ROLE tukyamid_owner", "CREATE TEMPORARY TABLE more (one INTEGER)",
)


@needs_engine
@needs_postgres
@unittest.skipUnless(shutil.which("openssl"), "openssl isn't installed: apt-get install openssl")
class Role(unittest.TestCase):
    def setUp(self):
        self.primary = Cluster(self.addCleanup, user="postgres")
        self.folder = self.primary.folder
        run("sh", "-c", f"cd {self.folder}\n" + re.sub(r"for at in .*; do", "for at in 127.0.0.1; do", CERTIFICATES))
        self.primary.set("ssl = on\npassword_encryption = 'scram-sha-256'\n"
                         f"ssl_cert_file = '{self.folder}/127.0.0.1.crt'\nssl_key_file = '{self.folder}/127.0.0.1.key'")
        (self.primary.data / "pg_hba.conf").write_text(ACCESS)
        self.primary.stop()
        self.primary.start()
        self.primary.query("DROP DATABASE keyring", "postgres")
        self.do(STATEMENTS[0], "postgres")
        self.assertEqual(self.check()[0], 0)
        self.do(STATEMENTS[1], "keyring")
        self.stack = contextlib.ExitStack()
        self.addCleanup(self.stack.close)
        self.home = Path(self.stack.enter_context(tempfile.TemporaryDirectory()))
        for name in ("authority.crt", "pass"):
            shutil.copy(self.folder / "authority.crt", self.home / name)
        (self.home / "pass").write_text("*:*:keyring:tukyamid:first secret\n")
        (self.home / "pass").chmod(0o600)

    def do(self, statements, database):
        for statement in filter(str.strip, statements.split(";")):
            self.primary.query(statement, database)

    def check(self):
        """Has the owner make the tables, or bring them to this version."""
        return self.command("check", "--database", f"postgresql://postgres@127.0.0.1:{self.primary.port}/keyring"
                            "?options=-c%20role%3Dtukyamid_owner", environment={})

    def url(self, tls="sslmode=verify-full&sslrootcert={}", authority="authority.crt"):
        return f"{self.primary.url()}?{tls.format(self.home / authority)}"

    def command(self, *words, environment=None):
        done = subprocess.run([PYTHON, SERVER, *map(str, words)], capture_output=True, text=True, timeout=PATIENCE,
                              check=False, env={**os.environ, "TUKYAMID_ENGINE": PROGRAM, **(
                                  {"PGPASSFILE": str(self.home / "pass")} if environment is None else environment)})
        return done.returncode, done.stderr.strip()

    def serve(self, url, *options):
        return self.stack.enter_context(serve(url, *options, environment={"PGPASSFILE": str(self.home / "pass")}))

    def test_a_service_has_what_it_needs(self):
        world = World(1, 5, depths=(0,))
        lines = [*world.lines(), b"drop " + world.fprs[0], world.imports[0], b"verdict %s none" % world.verdicts[0][0]]
        verifier = ROOT / "tests/suites/server/trusting_verifier.py"
        servers = [self.serve(self.url(), "--verifier", verifier), self.serve(self.url(), "--budget", "3")]
        change(servers[0], lines)
        wait_until_same(servers)
        self.assertEqual([dump_of(server) for server in servers], [told(lines)] * 2)
        self.assertEqual(status_of(servers[0])[b"state"], b"ok")
        with Client(servers[0].path) as client:
            client.send(b"service keyring add " + str(self.keyring(world)).encode())
            while (reply := client.read_line()).startswith(b"service progress"):
                pass
            self.assertTrue(reply.startswith(b"ok keyring"), reply)
        script = self.home / "script"
        self.assertEqual(self.command("export-dump", "--database", self.url(), script), (0, ""))
        self.assertEqual(self.command("import-dump", "--database", self.url(), script), (0, ""))
        missing = self.home / "missing.wot"
        missing.write_bytes(b"# change 7 %s\nverdict %s bad\n" % (b"7" * 32, b"7" * 64))
        self.assertEqual(self.command("hand-in", "--database", self.url(), missing)[0], 0)
        self.assertEqual(self.command("check", "--database", self.url()), (0, ""))

    def keyring(self, world):
        file = self.home / "keyring"
        file.write_bytes(bytes.fromhex(world.imports[0][7:].decode()))
        return file

    def test_the_role_can_do_nothing_else(self):
        import psycopg
        with psycopg.connect(self.url(), autocommit=True, passfile=str(self.home / "pass")) as connection:
            for statement in FORBIDDEN:
                with self.subTest(statement), self.assertRaises(psycopg.errors.InsufficientPrivilege):
                    connection.execute(statement)

    def test_another_server_is_refused(self):
        """Neither one whose certificate is somebody else's is used, nor a connection without TLS."""
        other = self.home / "other"
        other.mkdir()
        subprocess.run(["openssl", "req", "-x509", "-newkey", "rsa:2048", "-nodes", "-subj", "/CN=other", "-keyout",
                        other / "key", "-out", other / "crt"], check=True, capture_output=True)
        for url, why in ((self.url(authority="other/crt"), "certificate verify failed"),
                         (self.url("sslmode=disable"), "no encryption"),
                         (self.url().replace("127.0.0.1", "localhost"), "does not match host name")):
            with self.subTest(why):
                status, said = self.command("check", "--database", url)
                self.assertEqual((status, why in said, said.count("\n")), (1, True, 0), said)

    def test_tables_of_an_earlier_version(self):
        """The service says whose matter they are; the owner brings them to this version."""
        self.do("DROP TABLE handed_in; DROP TABLE unlooked, awaited, loaded; ALTER TABLE changes DROP COLUMN mark; "
                "UPDATE tukyamid SET version = 3", "keyring")
        status, said = self.command("check", "--database", self.url())
        self.assertEqual((status, "have their owner run tukyamid-server check" in said), (1, True), said)
        self.assertEqual(self.check(), (0, ""))
        self.do("GRANT SELECT, INSERT ON handed_in TO tukyamid;"
                "GRANT SELECT, INSERT, UPDATE, DELETE ON unlooked, awaited, loaded TO tukyamid", "keyring")
        self.assertEqual(self.command("check", "--database", self.url()), (0, ""))
