"""The lines that only the service answers, watched keyrings, and what a read-only socket refuses."""

import hashlib
import os
import shutil
import subprocess
import tempfile
import unittest
from pathlib import Path

from outside import HERE, Client, Server, alone, needs_engine
from world import World

# A key and a subkey of algorithm 27, which nothing binds; their fingerprints are by RFC 9580, section 5.5.4.2.
KEY, SUBKEY = bytes.fromhex("04000003e81b01"), bytes.fromhex("04000003e81b07")
WITH_SUBKEY = b"\xc6\x07" + KEY + b"\xce\x07" + SUBKEY
KEY_FPR, SUBKEY_FPR = (hashlib.sha1(b"\x99\x00\x07" + body).hexdigest().encode() for body in (KEY, SUBKEY))
SUBKEY_ID = bytes.fromhex(SUBKEY_FPR[-16:].decode())
VERIFIER = HERE / "trusting_verifier.py"
REFUSED = b"refused line"


class Lines(unittest.TestCase):
    def start(self, *options, count=6, depths=(0, 1, 2, 255), is_filled=True):
        self.world = World(count=count, depths=depths)
        self.folder = Path(tempfile.mkdtemp(prefix="tukyamid-lines-"))
        self.addCleanup(shutil.rmtree, self.folder)
        self.server = self.enterContext(Server(
            "--engines", "1", "--read-only-socket", self.folder / "questions", "--verifier", VERIFIER, *options,
            folder=self.folder))
        self.client = self.enterContext(Client(self.server.path))
        if is_filled:
            self.client.send(*self.world.lines())
            for _ in self.world.lines():
                self.client.read_line()

    def ask(self, line, client=None):
        """The lines of a listing, without its first one."""
        client = client or self.client
        client.send(line)
        head = client.read_line()
        self.assertRegex(head, rb"^service [a-z]+ [0-9]+$")
        return [client.read_line() for _ in range(int(head.split(b" ")[2]))]

    def add(self, name):
        """The last line of the reply; those before say how far it is."""
        self.client.send(b"service keyring add " + name)
        while (line := self.client.read_line()).startswith(b"service progress "):
            pass
        return line

    def status(self):
        return dict(line.split(b" ", 1) for line in self.ask(b"service status"))


@needs_engine
class Asked(Lines):
    def setUp(self):
        self.start()

    def test_status(self):
        status = self.status()
        told = alone([*self.world.lines(), b"keys", b"pending", b"dump"])
        keys, pending, dump = (reply.split(b"\n")[0].split(b" ")[1] for reply in told[-3:])
        self.assertEqual((status[b"certificates"], status[b"pending"]), (keys, pending))
        self.assertEqual(int(status[b"certificates"]) + int(status[b"verdicts"]), int(dump))
        self.assertEqual((status[b"user-ids"], status[b"engines"], status[b"clients"]), (b"6", b"1", b"1"))
        self.assertEqual(int(status[b"process"]), self.server.process.pid)
        self.assertEqual((status[b"state"], status[b"keyrings"]), (b"ok", b"0"))
        self.assertGreater(int(status[b"memory"]), 1_000_000)
        self.assertEqual(status[b"database"], os.fsencode(self.server.database))

    def test_find(self):
        binding = b"bind %s %s" % (self.world.fprs[2], self.world.user_ids[2])
        for line in (b"address U2@Example.org", b"user-id " + self.world.user_ids[2], b"part SER 2",
                     b"key " + self.world.fprs[2], b"key " + self.world.fprs[2][-16:].upper()):
            self.assertEqual(self.ask(b"service find " + line), [binding], line)
        self.assertEqual(len(self.ask(b"service find part @")), 6)
        self.assertEqual(len(self.ask(b"service find first @")), 6)
        self.assertEqual(self.ask(b"service find first sEr 2"), [binding])
        self.assertEqual(self.ask(b"service find address nobody@example.org"), [])

    def test_holders(self):
        """Of a primary key and of a subkey, by fingerprint or key ID of either case; with what is committed."""
        self.client.send(b"import " + WITH_SUBKEY.hex().encode())
        self.assertEqual(self.client.read_line(), b"ok taken 1 skipped 0 new 2")
        held = [b"holder %s %s" % (KEY_FPR, WITH_SUBKEY.hex().encode())]
        for key in (KEY_FPR, KEY_FPR[-16:], SUBKEY_FPR, SUBKEY_FPR.upper(), SUBKEY_FPR[-16:]):
            self.assertEqual(self.ask(b"service holders " + key), held, key)
        self.assertEqual(len(self.ask(b"service holders " + self.world.fprs[1])), 1)
        # Another key of this key ID isn't the one that is sought.
        self.assertEqual(self.ask(b"service holders " + b"0" * 24 + SUBKEY_FPR[-16:]), [])
        self.assertEqual(self.ask(b"service holders " + b"0" * 64), [])
        self.client.send(b"drop " + KEY_FPR)
        self.assertEqual(self.client.read_line(), b"ok")
        self.assertEqual(self.ask(b"service holders " + SUBKEY_FPR), [])

    def test_too_many_holders(self):
        """A stranger may give a subkey to any number of keys: none of them is chosen."""
        keys = [b"\xc6\x07\x04\x00\x00\x03\xe8\x1b%c\xce\x07%s" % (number, SUBKEY) for number in range(8, 73)]
        self.client.send(*(b"import " + octets.hex().encode() for octets in keys[:-1]))
        for _ in keys[:-1]:
            self.assertEqual(self.client.read_line(), b"ok taken 1 skipped 0 new 2")
        self.assertEqual(len(self.ask(b"service holders " + SUBKEY_FPR)), 64)
        self.client.send(b"import " + keys[-1].hex().encode(), b"service holders " + SUBKEY_FPR)
        self.client.read_line()
        self.assertEqual(self.client.read_line(), b"refused full holders")

    def test_a_user_id_that_is_no_text(self):
        """It is spelled as the engine spells it."""
        user_id = b"\x1b[2J\xff \xe2\x80\xae\\<x@example.org>"
        body = self.world.keys[0]
        octets = bytes([0xC6, len(body)]) + body + bytes([0xCD, len(user_id)]) + user_id
        self.client.tell(b"import " + octets.hex().encode())
        spelled = rb"\x1b[2J\xff \xe2\x80\xae\\<x@example.org>"
        self.assertEqual(self.ask(b"service find part x@e"), [b"bind %s %s" % (self.world.fprs[0], spelled)])
        self.assertEqual(self.ask(b"service find user-id " + spelled), [b"bind %s %s" % (self.world.fprs[0], spelled)])

    def test_issuers(self):
        signed = {b"by %s %s" % (number, issuer) for number, issuer in self.world.verdicts}
        told = [line for fpr in self.world.fprs for line in self.ask(b"service issuers " + fpr)]
        self.assertEqual(sorted(told), sorted(signed))
        self.assertEqual(self.client.tell(b"service issuers " + b"0" * 40), b"refused absent")

    def test_certified(self):
        for fpr in self.world.fprs:
            expected = sorted((-depth, target) for (issuer, target), depth in self.world.depths.items()
                              if issuer == fpr != target)
            self.assertEqual(self.ask(b"service certified " + fpr), [
                b"on %d %s" % (-depth, target) for depth, target in expected])
        self.assertEqual(self.ask(b"service certified " + b"0" * 40), [])

    def test_log(self):
        number, issuer = self.world.verdicts[0]
        self.client.tell(b"verdict %s bad" % number.upper())
        self.client.tell(b"drop " + self.world.fprs[1].upper())
        self.client.tell(b"drop " + self.world.fprs[1])
        told = [line.split(b" ", 5) for line in self.ask(b"service log 2")]
        self.assertEqual([line[5] for line in told], [b"drop " + self.world.fprs[1], b"verdict %s bad" % number])
        self.assertEqual([line[3:5] for line in told], [[b"%d" % os.getuid(), b"%d" % os.getpid()]] * 2)
        self.assertEqual(int(told[0][1]), int(told[1][1]) + 1)
        self.assertEqual(len(self.ask(b"service log 999999")), int(told[0][1]))

    def test_malformed(self):
        for line in (b"service", b"service ", b"service status ", b"service find", b"service find part",
                     b"service find part ", b"service find key 12", rb"service find part \y", b"service find x y",
                     b"service issuers", b"service issuers 12", b"service certified", b"service excerpt key 12",
                     b"service excerpt all " + b"0" * 40, b"service excerpt key" + 257 * (b" " + b"0" * 40),
                     b"service certified 12", b"service log", b"service log 0", b"service log x",
                     b"service keyring", b"service keyring add", b"service keyring add keyring.pgp",
                     b"service keyring list x", b"service shutdown"):
            self.assertEqual(self.client.tell(line), REFUSED, line)

    def test_read_only(self):
        with Client(self.folder / "questions") as client:
            for line in (self.world.imports[0], b"drop " + self.world.fprs[0], b"verdict %064x bad" % 7,
                         b"load " + self.world.fprs[0], b"store " + self.world.fprs[0],
                         b"service keyring add /etc/passwd", b"service keyring remove gpg", b"import", b"drop x"):
                self.assertEqual(client.tell(line), b"refused read-only", line)
            self.assertEqual(client.tell(b"view p time 5000"), b"ok")
            self.assertEqual(client.tell(b"view p root %s 120" % self.world.fprs[0]), b"ok")
            self.assertRegex(client.tell(b"ask p %s 1 %s" % (self.world.fprs[0], self.world.user_ids[0])), b"^amount ")
            self.assertEqual(client.tell(b"keys"), b"keys 6")
            self.assertEqual(len(self.ask(b"service find part @", client)), 6)
        self.assertEqual((self.folder / "questions").stat().st_mode & 0o777, 0o666)


@needs_engine
class Watched(Lines):
    def setUp(self):
        self.start(is_filled=False, count=9)
        self.file = self.folder / "keys \\.pgp"
        self.name = os.fsencode(self.file).replace(b"\\", b"\\\\")

    def octets(self, *places):
        return b"".join(bytes.fromhex(line[7:].decode()) for line in self.world.imports
                        if any(self.world.keys[place].hex().encode() in line[:60] for place in places))

    def holds(self, count):
        """Whether this many certificates are kept, and nothing is left to verify."""
        status = self.status()
        return (status[b"certificates"], status[b"pending"]) == (b"%d" % count, b"0")

    def test_a_file_that_changes(self):
        self.file.write_bytes(self.octets(0, 1))
        self.assertRegex(self.add(self.name), rb"^ok keyring 10 [1-9][0-9]*$")
        self.assertTrue(self.holds(2))
        self.assertEqual(self.ask(b"service keyring list"), [b"keyring 10 " + self.name])
        with open(self.file, "ab") as file:
            file.write(self.octets(2))
        self.server.wait_for(lambda: self.holds(3))
        self.assertEqual(self.client.tell(b"service keyring remove " + self.name), b"ok")
        self.assertEqual(self.client.tell(b"service keyring remove " + self.name), b"refused absent")
        self.assertEqual(self.ask(b"service keyring list"), [])

    def test_what_it_says_is_what_the_world_says(self):
        self.file.write_bytes(self.octets(*range(9)))
        self.add(self.name)
        self.client.send(b"dump")
        dump = [self.client.read_line() for _ in range(int(self.client.read_line().split(b" ")[1]))]
        self.assertEqual(dump, alone([*self.world.lines(), b"dump"])[-1].splitlines()[1:])

    def test_a_directory(self):
        """What is damaged or armored is for the verifier, which the suite `verify` tries."""
        folder = self.folder / "certs"
        self.world.make_directory(folder)
        for place in (5, 6):
            (folder / self.world.fprs[place][:2].decode() / self.world.fprs[place][2:].decode()).unlink(missing_ok=True)
        self.assertRegex(self.add(os.fsencode(folder)), b"^ok keyring [1-9]")

    def test_a_keyring_that_is_not_there(self):
        missing = os.fsencode(self.folder / "missing")
        self.assertRegex(self.add(missing), b"^fault keyring %s: No such file" % missing)
        self.assertEqual(self.status()[b"keyrings"], b"0")

    def test_a_fault_that_comes_later(self):
        self.file.write_bytes(self.octets(0))
        self.add(self.name)
        self.file.unlink()
        self.server.wait_for(lambda: len(self.ask(b"service keyring list")) == 2)
        self.assertEqual(self.ask(b"service keyring list"),
                         [b"keyring 5 " + self.name, b"fault %s: No such file or directory" % self.name])
        self.file.write_bytes(self.octets(0))
        self.server.wait_for(lambda: len(self.ask(b"service keyring list")) == 1)


@needs_engine
@unittest.skipUnless(shutil.which("gpg"), "gpg isn't installed")
class OfGpg(Lines):
    def test_a_new_key(self):
        with tempfile.TemporaryDirectory(prefix="gpg-") as home:
            environment = {**os.environ, "GNUPGHOME": home}

            def gpg(*words):
                subprocess.run(["gpg", "--batch", "--quiet", "--passphrase", "", *words], env=environment, check=True,
                               stderr=subprocess.DEVNULL)

            self.addCleanup(subprocess.run, ["gpgconf", "--kill", "all"], env=environment, check=False)
            gpg("--quick-gen-key", "Alice <alice@example.org>", "ed25519")
            before = os.environ.get("GNUPGHOME")
            os.environ["GNUPGHOME"] = home
            try:
                self.start(is_filled=False)
            finally:
                os.environ.pop("GNUPGHOME")
                os.environ.update({} if before is None else {"GNUPGHOME": before})
            self.assertRegex(self.add(b"gpg"), b"^ok keyring 1 [1-9]")
            self.assertEqual(len(self.ask(b"service find address alice@example.org")), 1)
            gpg("--quick-gen-key", "Bob <bob@example.org>", "ed25519")
            self.server.wait_for(lambda: self.ask(b"service find address bob@example.org"))
