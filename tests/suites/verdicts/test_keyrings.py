"""The keyring of five in each form that the verifier reads, and what it leaves out and reports."""

from collections import Counter

import gnupg
import openpgp
from program import Script
from ring import OverRing


class Keyrings(OverRing):
    def test_the_keyring_is_as_planned(self):
        seen = Counter((s.place, s.kind, s.component, self.ring.by_id[s.issuer], s.owner) for s in self.signatures)
        self.assertEqual(seen, self.ring.plan)
        self.assertEqual(self.ring.marks, {"!"})

    def test_each_signature_is_good(self):
        script = Script(self.file)
        self.assertEqual(script.imports, list(self.ring.texts.values()))
        self.assertEqual(script.verdicts, self.expected({0, 1}))
        self.assertEqual(script.told, "")

    def test_attributes_and_subkeys_on_request(self):
        everything = Script("--all", self.file).verdicts
        self.assertEqual(everything, self.expected({0, 1, 2, 3}))
        self.assertEqual(len(everything), sum(self.ring.plan.values()))

    def test_the_same_script_each_time(self):
        self.assertEqual(Script(self.file).octets, Script(self.file).octets)

    def test_issuers_that_are_not_there_have_no_line(self):
        for name, text in self.ring.texts.items():
            script = Script(self.write(f"{name}.gpg", text))
            self.assertEqual(script.imports, [text])
            own = [s for s in openpgp.signatures(text) if self.ring.by_id[s.issuer] == self.ring.fingerprints[name]]
            self.assertEqual(script.verdicts, self.expected({0, 1}, own))

    def test_with_other_keyrings(self):
        text = self.ring.texts["bob"]
        bob = self.write("only-bob.gpg", text)
        secrets = self.write("secrets-of-all.gpg", self.ring.secrets)
        for other in self.file, secrets:
            script = Script(bob, "--with", self.write("nobody.gpg", self.ring.texts["carol"]), other)
            self.assertEqual(script.imports, [text])
            self.assertEqual(script.verdicts, self.expected({0, 1}, openpgp.signatures(text)))
            self.assertEqual(script.told, "")

    def test_armor(self):
        plain = Script(self.file).octets
        one = gnupg.gpg(self.ring.home, "--armor", "--export")
        self.assertEqual(Script(self.write("ring.asc", one)).octets, plain)
        exports = [gnupg.gpg(self.ring.home, "--armor", "--export", f) for f in self.ring.fingerprints.values()]
        blocks = b"A word before.\r\n" + b"\nand between\n".join(exports)
        self.assertEqual(Script(self.write("blocks.asc", blocks)).octets, plain)
        self.assertEqual(Script("-", given=one).octets, plain)
        broken = exports[0].replace(b"\n=", b"\n*", 1)
        script = Script(self.write("broken.asc", broken[:300] + b"\n" + exports[1]), status=1)
        self.assertEqual(script.imports, [self.ring.texts["bob"]])

    def test_a_certificate_directory(self):
        store = self.folder / "pgp.cert.d"
        fingerprints = self.ring.fingerprints
        for name, text in self.ring.texts.items():
            if name == "alice":
                path = store / "trust-root"
            else:
                path = store / fingerprints[name][:2] / fingerprints[name][2:]
            path.parent.mkdir(parents=True, exist_ok=True)
            path.write_bytes(text)
        (store / "writelock").write_bytes(b"")
        others = sorted((f, name) for name, f in fingerprints.items() if name != "alice")
        script = Script(store)
        self.assertEqual(script.imports, [self.ring.texts[name] for name in ["alice"] + [name for _, name in others]])
        self.assertEqual(script.verdicts, self.expected({0, 1}))
        wrong = store / "00" / ("0" * 38)
        wrong.parent.mkdir(exist_ok=True)
        wrong.write_bytes(self.ring.texts["bob"])
        misfiled = Script(store, status=1)
        self.assertEqual(misfiled.octets, script.octets)
        self.assertIn("not the one certificate of this name", misfiled.told)

    def test_a_double_has_one_line(self):
        self.assertEqual(Script(self.file, self.file).octets, Script(self.file).octets)
        # Two certificates of one key that differ both stand there, and no number has two lines.
        shorter = self.write("shorter.gpg", openpgp.without_last_signature(self.ring.texts["bob"]))
        script = Script(self.file, shorter)
        self.assertEqual(script.imports, [*self.ring.texts.values(), shorter.read_bytes()])
        self.assertEqual(script.verdicts, self.expected({0, 1}))

    def test_secret_keys(self):
        secrets = self.write("secrets.gpg", self.ring.secrets)
        refused = Script(secrets, status=1)
        self.assertEqual((refused.imports, refused.told.count("a secret key; left out")), ([], 5))
        public = Script("--all", "--public", secrets)
        self.assertEqual([openpgp.contents(text) for text in public.imports],
                         [openpgp.contents(text) for text in self.ring.texts.values()])
        self.assertEqual((public.verdicts, public.told), (self.expected({0, 1, 2, 3}), ""))
        mixed = self.write("mixed.gpg", self.ring.secrets + self.ring.texts["bob"])
        self.assertEqual(Script(mixed, status=1).imports, [self.ring.texts["bob"]])

    def test_lengths_that_the_engine_refuses(self):
        text = self.ring.texts["bob"]
        packets = openpgp.packets(text)
        kind, body = packets[-1]
        long = b"".join(openpgp.packet(kind, body) for kind, body in packets[:-1])
        short = b"".join(openpgp.shortest(kind, body) for kind, body in packets)
        partial = b"".join(openpgp.partial(kind, body) for kind, body in packets)
        endless = long + bytes([0x83 | kind << 2]) + body
        for spelled, expected in (partial, short), (endless, long + openpgp.shortest(kind, body)):
            script = Script(self.write("spelled.gpg", spelled))
            self.assertEqual(script.imports, [expected])
            self.assertEqual(script.verdicts, self.expected({0, 1}, [
                s for s in openpgp.signatures(text) if self.ring.by_id[s.issuer] == self.ring.fingerprints["bob"]]))
            self.assertIn("partial or indeterminate length", script.told)

    def test_what_is_left_out_is_told(self):
        bob, carol = self.ring.texts["bob"], self.ring.texts["carol"]
        for octets, word in [
            (bob + openpgp.packet(8, b"\0") + carol, "compressed"),
            (bob + openpgp.packet(11, b"b\0\0\0\0\0") + carol, "type 11"),
            (openpgp.packet(13, b"nobody") + carol, "before the first key"),
            (carol + bob[:-1], "ends within its body"),
            (carol + bob + b"\0", "there is no packet"),
        ]:
            script = Script(self.write("left.gpg", octets), status=1)
            self.assertEqual(script.imports, [carol])
            self.assertIn(word, script.told)
        self.assertEqual(Script(self.write("empty.gpg", b""), status=1).lines, [])

    def test_a_certificate_that_fits_no_line_is_left_out(self):
        bob = self.ring.texts["bob"]
        room = 8_388_604 - len(bob)
        fits = bob + openpgp.packet(13, b"x" * (room - 6))
        script = Script(self.write("long.gpg", fits))
        self.assertEqual((script.imports, len(script.lines[0])), ([fits], 16_777_215))
        longer = bob + openpgp.packet(13, b"x" * (room - 5))
        self.assertIn("too long", Script(self.write("long.gpg", longer), status=1).told)
