"""Large keyrings: loaded in parts, killed, damaged, changed."""

import os
import random
import re
import signal
import sqlite3
import tempfile
import time
import unittest
from contextlib import closing
from pathlib import Path

import cutting
from outside import Client, Server, alone, needs_engine, script_of
from signed import SignedNetwork
from test_parts import SMALL, add, unverified
from tukyamid.service.storage.sqlite_database import Sqlite

KILLS = 40


@needs_engine
@cutting.needs_verifier
class Loads(unittest.TestCase):
    def setUp(self):
        self.folder = Path(self.enterContext(tempfile.TemporaryDirectory(prefix="tukyamid-loads-")))
        self.dump = self.folder / "dump"
        self.dump.mkdir()
        self.database = self.folder / "keyring.db"

    def server(self, parts=7, budget=65536):
        return Server("--engines", "1", "--verifier", cutting.VERIFIER, "--budget", str(budget), folder=self.folder,
                      program=SMALL, environment={"PARTS": str(parts)})

    def network(self, count, files, seed=1):
        """Files of a network in the folder."""
        made = SignedNetwork(count, 5, seed)
        step = -(-count // files)
        for place in range(0, count, step):
            text = b"".join(map(made.certificate, range(place, min(place + step, count))))
            (self.dump / f"{place:06}.pgp").write_bytes(text)
        return sorted(self.dump.iterdir())

    def check(self, files):
        """That the service keeps what an engine has of the verifier's script over all files."""
        with closing(Sqlite(self.database)) as database:
            self.assertEqual(database.check(), [])
            kept = script_of(database)
        told = alone([*cutting.script(files), b"dump"])[-1].partition(b"\n")[2]
        self.assertEqual(sorted(kept.splitlines()), sorted(told.splitlines()))

    def rows(self, query):
        with closing(sqlite3.connect(self.database)) as connection:
            return connection.execute(query).fetchall()

    def listed(self, client):
        client.send(b"service keyring list")
        return [client.read_line() for _ in range(int(client.read_line().split(b" ")[2]))]

    def wait_until_verified(self, server, client):
        server.wait_for(lambda: unverified(client) == b"service unverified 0")

    def test_a_folder_of_files(self):
        """Files whose names don't say that they are keyrings are left alone."""
        for seed, budget in ((11, 65536), (12, 10)):
            for file in self.folder.rglob("*"):
                if file.is_file():
                    file.unlink()
            files = cutting.files_of(random.Random(seed), self.dump)
            (self.dump / "README").write_text("no keyring\n")
            with self.subTest(budget=budget), self.server(5, budget) as server, Client(server.path) as client:
                self.assertRegex(add(client, self.dump), b"^ok keyring [0-9]+ [0-9]+$")
                self.assertEqual(unverified(client), b"service unverified 0")
                self.assertEqual(server.stop(), 0)
            self.check(files)

    def progress(self):
        """What a load changes: how many octets are noted, what is kept, and what is still to be looked at."""
        return self.rows("SELECT (SELECT coalesce(sum(octets), 0) FROM loaded), (SELECT count(*) FROM certificates), "
                         "(SELECT count(*) FROM unlooked), (SELECT verdicts FROM counts)")[0]

    def wait_for_progress(self, server, steps):
        """Until it has gone on in some steps, or all is done."""
        seen = [self.progress()]

        def is_enough():
            if (now := self.progress()) != seen[-1]:
                seen.append(now)
            return len(seen) > steps or self.rows("SELECT count(*) FROM sources WHERE digest <> x''") == [(1,)]
        server.wait_for(is_enough)

    def test_killed_forty_times(self):
        """Each time at another moment. What was noted as loaded is never loaded again."""
        draw, files, reached = random.Random(5), self.network(600, 4), []
        for count in range(KILLS):
            with self.server(4) as server, Client(server.path) as client:
                if not count:
                    client.send(b"service keyring add " + os.fsencode(self.dump))
                    server.wait_for(lambda: self.rows("SELECT count(*) FROM sources") == [(1,)])
                self.wait_for_progress(server, draw.randrange(16))
                time.sleep(draw.random() * 0.02)
                server.process.send_signal(signal.SIGKILL)
                server.process.wait()
            reached.append(self.progress())
        self.assertEqual([one[0] for one in reached], sorted(one[0] for one in reached))
        self.assertGreater(len({one[0] for one in reached}), 5)
        self.assertGreater(len({one[3] for one in reached}), 5)
        with self.server(1000) as server, Client(server.path) as client:
            server.wait_for(lambda: self.listed(client) and unverified(client) == b"service unverified 0")
            self.assertEqual(self.listed(client), [b"keyring 600 " + os.fsencode(self.dump)])
            self.assertEqual(server.stop(), 0)
        self.check(files)

    def test_damaged_files_are_named_and_passed_over(self):
        whole, cut, junk, empty = self.network(40, 4)
        text = cut.read_bytes()
        cut.write_bytes(text[:-9])
        junk.write_bytes(b"\x99\xff" + bytes(99))
        empty.write_bytes(b"")
        with self.server(3) as server, Client(server.path) as client:
            self.assertRegex(add(client, self.dump), b"^ok keyring 19 ")
            kept, fault = self.listed(client)
            self.assertEqual(kept, b"keyring 19 " + os.fsencode(self.dump))
            self.assertRegex(fault, rb"^fault .*/000010\.pgp: octet [0-9]{4}: .*what begins here is left out.* more\)$")
            # Its last certificate, after nine that are whole.
            place = int(fault.partition(b": octet ")[2].split(b":")[0])
            self.assertEqual(text[place:], SignedNetwork(40, 5).certificate(19))
            junk.unlink()
            cut.write_bytes(text)
            self.assertRegex(add(client, self.dump), b"^ok keyring 20 ")
            self.assertEqual(self.listed(client), [b"keyring 20 " + os.fsencode(self.dump)])
            self.assertEqual(server.stop(), 0)
        self.check([whole, cut])

    def test_a_file_of_any_size(self):
        """It is read in parts, up to what is damaged. Little of it is in memory."""
        made = SignedNetwork(3, 2)
        file = self.folder / "large.pgp"
        front = made.certificate(0) + made.certificate(1) * 20_000
        file.write_bytes(front + made.certificate(2))
        os.truncate(file, 600 << 20)
        with Server("--engines", "1", "--verifier", cutting.VERIFIER, folder=self.folder) as server:
            with Client(server.path) as client:
                self.assertRegex(add(client, file), b"^ok keyring ")
                self.assertEqual(client.tell(b"keys"), b"keys 2")
                self.assertRegex(self.listed(client)[1], b"^fault .*large.pgp: octet %d: " % len(front))
            status = Path(f"/proc/{server.process.pid}/status").read_text()
            self.assertLess(int(status.partition("VmHWM:")[2].split()[0]), 300 << 10)

    def test_only_what_changed_is_read_again(self):
        files = self.network(40, 4)
        last = files.pop()
        text = last.read_bytes()
        last.unlink()
        with self.server() as server, Client(server.path) as client:
            self.assertRegex(add(client, self.dump), b"^ok keyring 30 ")
            last.write_bytes(text)
            server.wait_for(lambda: client.tell(b"keys") == b"keys 40")
            self.wait_until_verified(server, client)
            before = self.rows("SELECT file, octets, digest FROM loaded ORDER BY file")
            with open(files[0], "ab") as opened:  # What was loaded of it stays loaded.
                opened.write(SignedNetwork(60, 5, 2).certificate(50))
            server.wait_for(lambda: client.tell(b"keys") == b"keys 41")
            self.wait_until_verified(server, client)
            self.assertEqual(self.rows("SELECT file, octets, digest FROM loaded ORDER BY file")[1:], before[1:])
            changes = self.rows("SELECT max(number) FROM changes")
            self.assertEqual(server.stop(), 0)
        with self.server() as server, Client(server.path) as client:  # It is known that nothing has changed.
            self.assertEqual(unverified(client), b"service unverified 0")
            server.stop()
        self.assertEqual(self.rows("SELECT max(number) FROM changes"), changes)
        self.check([*files, last])

    def test_it_says_how_far_it_is(self):
        self.network(200, 2)
        with self.server(1) as server, Client(server.path) as client, Client(server.path) as other:
            client.send(b"service keyring add " + os.fsencode(self.dump))
            server.wait_for(lambda: re.search(b"unverified [1-9][0-9]? % is loaded", b" ".join(self.listed(other))))
            while (line := client.read_line()).startswith(b"service progress "):
                pass
            self.assertRegex(line, b"^ok keyring 200 ")

    def test_one_that_is_removed_meanwhile(self):
        """Its load ends, and it isn't watched again."""
        self.network(200, 2)
        with self.server(1) as server, Client(server.path) as client, Client(server.path) as other:
            client.send(b"service keyring add " + os.fsencode(self.dump))
            server.wait_for(lambda: self.listed(other))
            self.assertEqual(other.tell(b"service keyring remove " + os.fsencode(self.dump)), b"ok")
            while (line := client.read_line()).startswith(b"service progress "):
                pass
            self.assertRegex(line, b"^(fault keyring .*no longer watched|ok )")
            self.assertEqual(self.listed(other), [])


if __name__ == "__main__":
    unittest.main()
