"""Version 6 keys and signatures, and the algorithms that RFC 9580 brought: the vector of its appendix, and keys that
python3-cryptography makes here. What is expected is what the test itself signed, or spoiled."""

import base64
import itertools
import tempfile
import unittest
from pathlib import Path

import openpgp
from program import Script, engine, needs_engine, told

try:
    import version6 as v6
except ImportError:
    v6 = None

NAME = b"Frida <frida@example.org>"
HASHES = (8, 9, 10, 11, 12, 14)
ALGORITHMS = ("ed25519", "ed448", "p256", "p384", "p521", "rsa", "bp256", "bp384", "bp512", "k256")


@unittest.skipIf(v6 is None, "python3-cryptography isn't installed")
class Version6(unittest.TestCase):
    @classmethod
    def setUpClass(cls):
        cls.keys = {name: v6.Key(name) for name in ALGORITHMS}
        cls.older = {name: v6.Key(name, version=4) for name in ("ed25519", "ed448", "p256", "rsa")}

    def setUp(self):
        folder = tempfile.TemporaryDirectory(prefix="wot")
        self.addCleanup(folder.cleanup)
        self.folder = Path(folder.name)

    def write(self, name, octets):
        path = self.folder / name
        path.write_bytes(octets)
        return path

    def ring(self, *signed):
        """A keyring of one certificate for each (owner, signature bodies on its user ID), and their numbers."""
        text, numbers = b"", []
        for owner, bodies in signed:
            text += v6.certificate(owner, (13, NAME), *((2, body) for body in bodies))
            numbers += [openpgp.number(owner.body, 1, NAME, body) for body in bodies]
        return self.write("ring.pgp", text), numbers

    def certified(self, owner, issuer, **words):
        return v6.signature(issuer, owner.body, v6.ON_USER_ID, NAME, v6.Words(**words))

    def test_the_vector_of_the_appendix(self):
        text = base64.b64decode(v6.SAMPLE)
        sample = self.write("sample.pgp", text)
        (_, key), (_, direct), (_, subkey), (_, binding) = openpgp.packets(text)
        numbers = [openpgp.number(key, 0, b"", direct), openpgp.number(key, 3, subkey, binding)]
        good = f"good {v6.SAMPLE_FINGERPRINT}"
        self.assertEqual(Script(sample).verdicts, {numbers[0]: good})
        self.assertEqual(Script("--all", sample).verdicts, dict.fromkeys(numbers, good))

    def test_each_algorithm_with_each_hash_is_good(self):
        owner = self.keys["ed25519"]
        for version, keys in (6, self.keys), (4, self.older):
            pairs = list(itertools.product(keys.values(), HASHES))
            bodies = [self.certified(owner, key, version=version, hash_algorithm=number) for key, number in pairs]
            ring, numbers = self.ring((owner, bodies))
            issuers = self.write("issuers.pgp", b"".join(v6.certificate(key) for key in keys.values()))
            expected = [f"good {key.fingerprint}" for key, _ in pairs]
            self.assertEqual(Script(ring, "--with", issuers).verdicts, dict(zip(numbers, expected)))

    def test_a_turned_bit_is_bad(self):
        owner = self.keys["p256"]
        for name in ALGORITHMS:
            issuer = self.keys[name]
            good = self.certified(owner, issuer)
            salt = 8 + int.from_bytes(good[4:8], "big") + 4 + 3
            # Of the time, which is the first subpacket, and of the salt and all that is behind it.
            bits = range(8 * 10, 8 * 14), range(8 * salt, 8 * (salt + 16)), range(8 * (salt + 16), 8 * len(good), 3)
            bodies = [openpgp.turned(good, bit) for bit in itertools.chain(*bits)]
            ring, numbers = self.ring((owner, bodies))
            issuers = self.write("issuers.pgp", v6.certificate(issuer))
            self.assertEqual(Script(ring, "--with", issuers).verdicts, dict.fromkeys(numbers, "bad"), name)

    def test_the_salt_is_of_the_size_of_its_hash(self):
        key = self.keys["ed25519"]
        right = {8: 16, 9: 24, 10: 32, 11: 16, 12: 16, 14: 32}
        bodies, expected = [], []
        for number, size in right.items():
            for given in size, size - 1, size + 1, 0:
                bodies.append(self.certified(key, key, hash_algorithm=number, salt=bytes(given)))
                expected.append(f"good {key.fingerprint}" if given == size else "bad")
        ring, numbers = self.ring((key, bodies))
        self.assertEqual(Script(ring).verdicts, dict(zip(numbers, expected)))

    def test_whom_a_signature_names(self):
        key, other = self.keys["ed25519"], self.keys["ed448"]
        bodies = [self.certified(key, issuer, names=names)
                  for issuer in (key, other) for names in ("fingerprint", "id", "nobody")]
        ring, numbers = self.ring((key, bodies))
        # What names nobody is tried with the certificate's own key, and nothing is said if that didn't make it.
        own, others = f"good {key.fingerprint}", f"good {other.fingerprint}"
        self.assertEqual(Script(ring).verdicts, dict.fromkeys(numbers[:3], own))
        issuers = self.write("issuers.pgp", v6.certificate(other))
        self.assertEqual(Script(ring, "--with", issuers).verdicts,
                         dict(zip(numbers, [own, own, own, others, others])))

    def test_both_versions_certify_one_another(self):
        """RFC 9580 hashes the certified key by the version of the signature, and most programs by the key's own."""
        new, old = self.keys["ed25519"], self.older["rsa"]
        on_old = [self.certified(old, new, frame=frame) for frame in (4, 6)]
        on_new = [self.certified(new, old, version=4, frame=frame) for frame in (4, 6)]
        ring, numbers = self.ring((old, on_old), (new, on_new))
        self.assertEqual(Script(ring).verdicts,
                         {**dict.fromkeys(numbers[:2], f"good {new.fingerprint}"),
                          **dict.fromkeys(numbers[2:], f"good {old.fingerprint}")})

    def test_what_cant_be_checked_has_no_line(self):
        key, unknown = self.keys["ed25519"], v6.Key("p224")
        legacy = v6.Key("ed25519")
        legacy.algorithm, legacy.body = 22, legacy.body[:5] + bytes([22]) + legacy.body[6:]
        ring, _ = self.ring((key, [self.certified(key, unknown)]))
        issuers = self.write("issuers.pgp", v6.certificate(unknown) + v6.certificate(legacy))
        self.assertEqual(Script(ring, "--with", issuers).verdicts, {})

    def test_direct_signatures_revocations_and_subkeys(self):
        key, subkey = self.keys["ed448"], self.keys["p384"]
        kinds = [(v6.ON_KEY, b"", 0x1f), (v6.ON_KEY, b"", 0x20), (v6.ON_USER_ID, NAME, 0x30),
                 (v6.ON_SUBKEY, subkey.body, 0x18)]
        made = [(place, component, v6.signature(key, key.body, place, component, v6.Words(kind)))
                for place, component, kind in kinds]
        text = v6.certificate(key, (2, made[0][2]), (2, made[1][2]), (13, NAME), (2, made[2][2]), (14, subkey.body),
                              (2, made[3][2]))
        numbers = [openpgp.number(key.body, place, component, body) for place, component, body in made]
        ring = self.write("ring.pgp", text)
        good = f"good {key.fingerprint}"
        self.assertEqual(Script("--all", ring).verdicts, dict.fromkeys(numbers, good))
        self.assertEqual(Script(ring).verdicts, dict.fromkeys(numbers[:3], good))

    def test_secret_parts_are_dropped(self):
        key = self.keys["rsa"]
        secret = openpgp.packet(5, key.body + b"\0" + bytes(40)) + openpgp.packet(13, NAME)
        script = Script("--public", self.write("secret.pgp", secret))
        self.assertEqual([openpgp.contents(text) for text in script.imports], [[(6, key.body), (13, NAME)]])

    @needs_engine
    def test_the_engine_answers_about_both_versions(self):
        """A root of version 6 introduces a key of version 4, which certifies one of version 6."""
        root, middle, last = self.keys["ed25519"], self.older["ed448"], self.keys["p521"]
        ring, _ = self.ring(
            (root, [self.certified(root, root)]),
            (middle, [self.certified(middle, root, trust=(1, 120)), self.certified(middle, middle, version=4)]),
            (last, [self.certified(last, middle, version=4), self.certified(last, last)]))
        view = [f"view v time {v6.MADE}", f"view v root {root.fingerprint} 120"]
        asks = [f"ask v {key.fingerprint} 120 {NAME.decode()}" for key in (root, middle, last)]
        script = Script(ring)
        self.assertEqual(told(engine(*script.lines, *view, *asks), "amount"), [120] * 3)
        imports = [line for line in script.lines if line.startswith("import ")]
        reply = engine(*imports, "pending")[len(imports):]
        pending = Script("--pending", ring, given="\n".join([*reply, ""]).encode())
        self.assertEqual(pending.verdicts, script.verdicts)
