"""What is found in PostgreSQL, what is wrong there, and its copies and scripts."""

import tempfile
from pathlib import Path

from alone_cluster import OneServer
from outside import Client
from talking import dump_of, listed, log_of, told, wait_until_same


class Commands(OneServer):
    def test_through_copies_and_scripts(self):
        lines = self.world.lines()
        with tempfile.TemporaryDirectory() as name:
            folder = Path(name)
            (folder / "script").write_bytes(b"\n".join(lines) + b"\n")
            self.assertEqual(self.command("import-dump", "--database", self.url, folder / "script"), (0, ""))
            self.assertEqual(self.command("check", "--database", self.url), (0, ""))
            self.assertEqual(self.command("backup", "--database", self.url, folder / "copy.db"), (0, ""))
            server = self.serve()
            with Client(server.path) as client:
                client.tell(b"drop " + self.world.fprs[0])
                client.tell(b"drop " + self.world.fprs[1])
            self.assertEqual(self.command("restore", "--database", self.url, folder / "copy.db"), (0, ""))
            wait_until_same([server])
            self.assertEqual(dump_of(server), told(lines))
            for source in (self.url, folder / "copy.db"):
                self.assertEqual(self.command("export-dump", "--database", source, folder / "out"), (0, ""))
                self.assertEqual((folder / "out").read_bytes().splitlines(), told(lines))
        self.assertEqual(log_of(server)[0].split(b" on ")[0][:8], b"restore ")

    def test_what_is_found(self):
        server = self.serve()
        with Client(server.path) as client:
            for line in self.world.lines():
                client.tell(line)
            fpr, user_id = self.world.fprs[3], b"user 3 <u3@example.org>"
            for question in (b"address U3@Example.org", b"user-id " + user_id, b"part SER 3", b"key " + fpr,
                             b"key " + fpr[-16:]):
                self.assertEqual(listed(client, b"service find " + question), [b"bind %s %s" % (fpr, user_id)])
            issued = {tuple(line.split(b" ")[1:]) for line in listed(client, b"service issuers " + fpr)}
            self.assertTrue(issued)
            self.assertLessEqual(issued, set(self.world.verdicts))
            for _, issuer in issued - {one for one in issued if one[1] == fpr}:
                self.assertIn(fpr, {line.split(b" ")[2] for line in listed(client, b"service certified " + issuer)})

    def test_what_check_finds(self):
        with Client(self.serve().path) as client:
            for line in self.world.lines():
                client.tell(line)
        self.cluster.query("UPDATE counts SET pending = pending + 1", self.name)
        status, said = self.command("check", "--database", self.url)
        self.assertEqual((status, "the counts aren't those" in said), (1, True), said)

    def test_odd_user_ids(self):
        """A long one, and one with octets that are no text."""
        key = bytes.fromhex("0400000003e81b0001")
        user_ids = [b"a" * 5000, b"z\0\xff <a\0b@example.org>"]
        octets = b"\xc6" + bytes([len(key)]) + key + b"".join(
            b"\xcd\xff" + len(one).to_bytes(4, "big") + one for one in user_ids)
        line = b"import " + octets.hex().encode()
        server = self.serve()
        with Client(server.path) as client:
            self.assertTrue(client.tell(line).startswith(b"ok"))
            self.assertEqual(dump_of(server), told([line]))
            self.assertEqual(len(listed(client, b"service find user-id " + user_ids[0])), 1)
            self.assertEqual(len(listed(client, rb"service find part b@EXAMPLE")), 1)
        self.assertEqual(self.command("check", "--database", self.url), (0, ""))

    def test_databases_that_are_refused(self):
        for told_, statement in (("made by a later Tukyamid", "UPDATE tukyamid SET version = 99"),
                                 ("another program's", "DROP TABLE tukyamid")):
            self.assertEqual(self.command("check", "--database", self.url), (0, ""))
            self.cluster.query(statement, self.name)
            status, said = self.command("check", "--database", self.url)
            self.assertEqual((status, told_ in said, said.count("\n")), (1, True, 0), said)
            self.cluster.query("DROP TABLE IF EXISTS tukyamid", self.name)
            self.cluster.query("DROP SCHEMA public CASCADE; CREATE SCHEMA public", self.name)
        for url in (self.url + "none", "postgresql://127.0.0.1:1/none", "postgresql://%zz/", "postgresql://a,b:1,c/d"):
            status, said = self.command("check", "--database", url)
            self.assertEqual((status, said[:17], said.count("\n")), (1, "tukyamid-server: ", 0), said)
