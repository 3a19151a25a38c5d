"""Keyrings that come in parts, in any order: the verdicts are those of one run of the verifier over the whole."""

import os
import random
import tempfile
import unittest
from contextlib import closing
from pathlib import Path

import cutting
from outside import Client, Server, alone, needs_engine, script_of
from signed import SignedNetwork
from tukyamid.service.storage.sqlite_database import Sqlite

SMALL = Path(__file__).resolve().parent / "parts_server.py"
MEETING = Path(__file__).resolve().parent / "meeting_verifier.py"


def add(client, path):
    """Adds a keyring; the last line of the reply."""
    client.send(b"service keyring add " + os.fsencode(path))
    while (line := client.read_line()).startswith(b"service progress "):
        pass
    return line


def unverified(client):
    """Whether signatures wait: the first line of the reply."""
    client.send(b"service unverified")
    head = client.read_line()
    for _ in range(int(head.split(b" ")[-1])):
        client.read_line()
    return head


@needs_engine
@cutting.needs_verifier
class Parts(unittest.TestCase):
    def setUp(self):
        self.folder = Path(self.enterContext(tempfile.TemporaryDirectory(prefix="tukyamid-parts-")))

    def server(self, folder, parts, budget):
        folder.mkdir(exist_ok=True)
        return Server("--engines", "1", "--verifier", cutting.VERIFIER, "--budget", str(budget), folder=folder,
                      program=SMALL, environment={"PARTS": str(parts)})

    def check(self, folder, files):
        """That the service keeps what an engine has of the verifier's script over all files."""
        with closing(Sqlite(folder / "keyring.db")) as database:
            self.assertEqual(database.check(), [])
            kept = script_of(database)
        told = alone([*cutting.script(files), b"dump"])[-1].partition(b"\n")[2]
        self.assertEqual(sorted(kept.splitlines()), sorted(told.splitlines()))
        self.assertIn(b"verdict ", told)
        self.assertIn(b" bad\n", told)

    def run_network(self, seed, budget):
        draw = random.Random(seed)
        folder = self.folder / str(seed)
        folder.mkdir()
        files = cutting.files_of(draw, folder)
        with self.server(folder, draw.randrange(1, 12), budget) as server, Client(server.path) as client:
            for place, file in enumerate(files):
                self.assertRegex(add(client, file), b"^ok keyring [0-9]+ [0-9]+$")
                if draw.random() < 0.3:  # Some of its signatures may have come from each of the files so far.
                    client.tell(b"drop %s" % draw.choice(cutting.fingerprints(file)))
                    for again in files[:place + 1]:
                        self.assertRegex(add(client, again), b"^ok keyring ")
            self.assertEqual(unverified(client), b"service unverified 0")
            self.assertEqual(server.stop(), 0)
        self.check(folder, files)

    def test_networks_cut_at_random(self):
        for seed in range(4):
            with self.subTest(seed=seed):
                self.run_network(seed, 65536)

    def test_networks_cut_at_random_in_slices(self):
        for seed in range(4, 8):
            with self.subTest(seed=seed):
                self.run_network(seed, 10)


if __name__ == "__main__":
    unittest.main()


@needs_engine
class AtOnce(unittest.TestCase):
    def test_two_parts_are_verified_at_once(self):
        """Neither verifier ends before the other has begun."""
        folder = Path(self.enterContext(tempfile.TemporaryDirectory(prefix="tukyamid-parts-")))
        meeting, file = folder / "meeting", folder / "keyring.pgp"
        meeting.mkdir()
        network = SignedNetwork(8, 3)
        file.write_bytes(b"".join(map(network.certificate, range(network.count))))
        with Server("--engines", "1", "--verifier", MEETING, folder=folder, program=SMALL, environment={
                "PARTS": "2", "MEETING": str(meeting), "PATIENCE": "300"}) as server, Client(server.path) as client:
            self.assertEqual(add(client, file), b"ok keyring 8 32")
            self.assertEqual(unverified(client), b"service unverified 0")
        self.assertEqual(len(list(meeting.iterdir())), 4)
