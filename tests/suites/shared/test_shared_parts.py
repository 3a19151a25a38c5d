"""Keyrings that come in parts to several services: a key that comes to one has the signatures verified that came to the
other."""

import random
import tempfile
import unittest
from pathlib import Path

import cutting
from alone_cluster import OneServer
from outside import Client, needs_engine
from talking import dump_of, told, wait_until_same
from test_parts import SMALL, add, unverified


@needs_engine
@cutting.needs_verifier
class SharedParts(OneServer, unittest.TestCase):
    def check(self, seed, *options):
        folder = Path(self.enterContext(tempfile.TemporaryDirectory(prefix="tukyamid-parts-")))
        draw = random.Random(seed)
        files = cutting.files_of(draw, folder)
        servers = [self.serve("--verifier", cutting.VERIFIER, *options, program=SMALL, environment={"PARTS": "5"})
                   for _ in range(2)]
        with Client(servers[0].path) as one, Client(servers[1].path) as other:
            for file in files:
                self.assertRegex(add(draw.choice([one, other]), file), b"^ok keyring [0-9]+ [0-9]+$")
            for server, client in zip(servers, (one, other)):  # A key may have come to the other one.
                self.assertRegex(add(client, files[0]), b"^ok keyring ")
                server.wait_for(lambda client=client: unverified(client) == b"service unverified 0")
        wait_until_same(servers)
        expected = told(cutting.script(files))
        for server in servers:
            self.assertEqual(sorted(dump_of(server)), sorted(expected))
        self.assertEqual(self.command("check", "--database", self.url), (0, ""))

    def test_engines_that_hold_everything(self):
        self.check(1)

    def test_slices(self):
        self.check(2, "--budget", "10")


if __name__ == "__main__":
    unittest.main()
