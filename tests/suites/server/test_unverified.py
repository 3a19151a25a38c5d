"""Keyrings whose signatures wait to be verified: the verifier is missing, fails, is slow, or was interrupted."""

import os
import re
import shutil
import tempfile
import unittest
from pathlib import Path

from outside import HERE, Client, Server, needs_engine
from world import World

TRUSTING = HERE / "trusting_verifier.py"
# Stands for a verifier that takes long: as long as the file HOLD is there, it verifies nothing. It reads keyrings.
# One whose first verdicts come one by one, each more than a second after the one before.
STEADY = """#!/bin/sh
[ "$1" = --public ] && exec {trusting} "$@"
{trusting} "$@" | {{ for number in 1 2 3; do read -r line && echo "$line"; sleep 1.1; done; cat; }}
"""
SLOW = """#!/bin/sh
[ "$1" = --public ] && exec {trusting} "$@"
while [ -e {hold} ]; do sleep 0.02; done
exec {trusting} "$@"
"""
# One that writes verdicts faster than anybody takes them, for ever.
FLOODING = """#!/bin/sh
[ "$1" = --public ] && exec {trusting} "$@"
exec yes 'verdict {number} none'
"""
FAILING = """#!/bin/sh
[ "$1" = --public ] && exec {trusting} "$@"
echo 'no memory' >&2
exit 9
"""


@needs_engine
class Unverified(unittest.TestCase):
    def setUp(self):
        self.world = World(count=6)
        self.folder = Path(tempfile.mkdtemp(prefix="tukyamid-unverified-"))
        self.addCleanup(shutil.rmtree, self.folder)
        self.verifier = self.folder / "wot-verdicts"
        self.hold = self.folder / "hold"
        self.file = self.folder / "keyring.pgp"
        self.name = os.fsencode(self.file)
        self.file.write_bytes(b"".join(bytes.fromhex(line[7:].decode()) for line in self.world.imports))

    def install(self, text=None):
        """Installs a verifier, whole or not at all."""
        made = self.folder / "made"
        made.write_text(text or TRUSTING.read_text())
        made.chmod(0o755)
        made.rename(self.verifier)

    def install_slow(self):
        self.hold.touch()
        self.install(SLOW.format(hold=self.hold, trusting=TRUSTING))

    def server(self):
        return Server("--engines", "1", "--verifier", self.verifier, folder=self.folder)

    def lines(self, client, line):
        """The lines of a listing, without its first one."""
        client.send(line)
        head = client.read_line()
        self.assertRegex(head, rb"^service [a-z]+ [0-9]+$")
        return [client.read_line() for _ in range(int(head.split(b" ")[2]))]

    def add(self, client):
        client.send(b"service keyring add " + self.name)
        while (line := client.read_line()).startswith(b"service progress "):
            pass
        return line

    def check_waiting(self, client, count, why, certificates=None):
        """That this many signatures wait, for this reason, and that it is said wherever one looks. Without a verifier
        no keyring can be read, and no certificate is there."""
        (waiting,) = self.lines(client, b"service unverified")
        self.assertRegex(waiting, b"^waits %d %s" % (count, why))
        status = dict(line.split(b" ", 1) for line in self.lines(client, b"service status"))
        self.assertEqual(status[b"unverified"], b"%d" % count)
        kept, fault = self.lines(client, b"service keyring list")
        certificates = len(self.world.imports) if certificates is None else certificates
        self.assertEqual(kept, b"keyring %d " % certificates + self.name)
        self.assertRegex(fault, b"^unverified " + why)

    def wait_until_verified(self, server, client):
        server.wait_for(lambda: not self.lines(client, b"service unverified"))
        self.assertEqual(client.tell(b"pending"), b"pending 0")
        self.assertEqual(self.lines(client, b"service keyring list"),
                         [b"keyring %d " % len(self.world.imports) + self.name])
        status = dict(line.split(b" ", 1) for line in self.lines(client, b"service status"))
        self.assertEqual(status[b"unverified"], b"0")

    def test_without_a_verifier_until_one_is_installed(self):
        """Nobody has to say that it is there."""
        with self.server() as server, Client(server.path) as client:
            self.assertEqual(self.lines(client, b"service unverified"), [])
            self.assertRegex(self.add(client), rb"^fault keyring .*wot-verdicts.*")
            self.check_waiting(client, 0, b".*wot-verdicts", 0)
            self.install()
            self.wait_until_verified(server, client)

    def test_a_verifier_that_comes_while_the_service_does_not_run(self):
        with self.server() as server, Client(server.path) as client:
            self.assertRegex(self.add(client), b"^fault keyring ")
        self.install()
        with self.server() as server, Client(server.path) as client:
            self.wait_until_verified(server, client)

    def test_progress_goes_up(self):
        """The count is that of all signatures so far, however the verifier's verdicts come."""
        self.install(STEADY.format(trusting=TRUSTING))
        with self.server() as server, Client(server.path) as client:
            client.send(b"service keyring add " + self.name)
            said = []
            while (line := client.read_line()).startswith(b"service progress "):
                said += re.findall(rb"^service progress signatures ([0-9]+) of ", line)
        counts = [int(count) for count in said]
        self.assertRegex(line, b"^ok keyring ")
        self.assertNotEqual(counts, [])
        self.assertEqual(counts, sorted(set(counts)))

    def test_a_client_that_goes_meanwhile(self):
        """What waits is verified all the same, and until then said to wait."""
        self.install_slow()
        with self.server() as server:
            with Client(server.path) as client:
                client.send(b"service keyring add " + self.name)
                with Client(server.path) as other:
                    server.wait_for(lambda: self.lines(other, b"service unverified"))
            with Client(server.path) as client:
                server.wait_for(lambda: len(self.lines(client, b"service keyring list")) == 2)
                self.check_waiting(client, len(self.world.verdicts), b"they are being verified")
                self.hold.unlink()
                self.wait_until_verified(server, client)

    def test_a_client_that_goes_while_verdicts_wait_to_be_taken(self):
        """The verifier is ended with what it wrote, and holds up no other keyring."""
        self.install(FLOODING.format(trusting=TRUSTING, number="ab" * 32))
        with self.server() as server:
            with Client(server.path) as client:
                client.send(b"service keyring add " + self.name)
                while not client.read_line().startswith(b"service progress signatures "):
                    pass
            self.install()
            with Client(server.path) as client:
                self.assertRegex(self.add(client), b"^ok keyring %d " % len(self.world.imports))
                self.wait_until_verified(server, client)

    def test_the_end_of_the_service_meanwhile(self):
        """SIGTERM while a watched file that has changed is verified: the next service verifies the rest."""
        whole = self.file.read_bytes()
        self.file.write_bytes(bytes.fromhex(self.world.imports[0][7:].decode()))
        self.install()
        with self.server() as server, Client(server.path) as client:
            self.assertRegex(self.add(client), b"^ok keyring 1 ")
            self.install_slow()
            self.file.write_bytes(whole)
            server.wait_for(lambda: client.tell(b"keys") == b"keys 6"
                            and self.lines(client, b"service unverified"))
            server.stop()
        with self.server() as server, Client(server.path) as client:
            server.wait_for(lambda: len(self.lines(client, b"service keyring list")) == 2)
            self.check_waiting(client, len(self.world.verdicts) - 2, b"they are being verified")
            self.hold.unlink()
            self.wait_until_verified(server, client)

    def test_what_waits_is_verified_though_its_file_is_gone(self):
        with self.server() as server, Client(server.path) as client:
            self.assertRegex(self.add(client), b"^fault keyring ")
            self.file.unlink()
            self.install()
            server.wait_for(lambda: not self.lines(client, b"service unverified"))
            self.assertEqual(client.tell(b"pending"), b"pending 0")

    def test_a_verifier_that_cant_read(self):
        self.install("#!/bin/sh\necho 'no memory' >&2\nexit 9\n")
        with self.server() as server, Client(server.path) as client:
            self.assertRegex(self.add(client), b"^fault keyring the verifier failed: no memory")
            self.check_waiting(client, 0, b"the verifier failed: no memory", 0)
            self.install()
            self.wait_until_verified(server, client)

    def test_a_verifier_that_fails(self):
        self.install(FAILING.format(trusting=TRUSTING))
        with self.server() as server, Client(server.path) as client:
            self.assertRegex(self.add(client), b"^fault keyring the verifier failed: no memory")
            self.check_waiting(client, len(self.world.verdicts), b"the verifier failed: no memory")
            self.install()
            self.wait_until_verified(server, client)

    def test_a_package_without_a_verifier(self):
        """None is named, none is on the path, and none was built: that is said, and the service goes on."""
        package = self.folder / "python"
        shutil.copytree(HERE.parents[2] / "python", package, ignore=shutil.ignore_patterns("__pycache__", "out"))
        path = f"{self.folder / 'bin'}:/usr/bin:/bin"
        if shutil.which("wot-verdicts", path=path):
            self.skipTest("a verifier is installed on this machine")
        with Server("--engines", "1", folder=self.folder, program=package / "bin" / "tukyamid-server",
                    environment={"PATH": path, "TUKYAMID_VERIFIER": ""}) as server, Client(server.path) as client:
            self.assertRegex(self.add(client), b"^fault keyring the verifier wot-verdicts isn't installed")
            self.check_waiting(client, 0, b"the verifier wot-verdicts isn't installed", 0)
            (self.folder / "bin").mkdir()
            self.install()
            self.verifier.rename(self.folder / "bin" / "wot-verdicts")
            self.wait_until_verified(server, client)
