"""What is kept of a keyring: verdicts are found in a dump's lines, and an entry is whole or none."""

import hashlib
import tempfile
import unittest

from outside import needs_engine
from tukyamid import Engine, Keyring, Store
from tukyamid.keyrings.assessment import assess
from tukyamid.keyrings.keyring import DumpIndex
from tukyamid.keyrings.verified_cache import Held
from tukyamid.openpgp.certificates import signature_number
from tukyamid.protocol.verdicts import Verdicts

FPR = "0123456789abcdef" * 2 + "01234567"


def numbers(count):
    return sorted(hashlib.sha256(b"%d" % place).hexdigest() for place in range(count))


def lines(found):
    """Each third verdict is bad."""
    return [f"verdict {number} {'bad' if place % 3 == 0 else f'good {FPR[place % 8:]}{FPR[:place % 8]}'}".encode()
            for place, number in enumerate(found)]


class Found(unittest.TestCase):
    def test_each_verdict_is_found_among_any_number_of_them(self):
        for count in (0, 1, 2, 3, 4, 5, 50, 333):
            whole = numbers(count)
            octets = b"".join(line + b"\n" for line in lines(whole))
            for front in (b"", b"import c6\nimport \n"):
                verdicts = Verdicts(front + octets, len(front))
                told = [verdicts.issuer(number) for number in whole]
                expected = [None if place % 3 == 0 else FPR[place % 8:] + FPR[:place % 8] for place in range(count)]
                self.assertEqual(told, expected)
                for absent in ("0" * 64, "f" * 64, *numbers(count + 9)):
                    if absent not in whole:
                        self.assertIsNone(verdicts.issuer(absent))


@needs_engine
class Kept(unittest.TestCase):
    def test_an_entry_gives_what_was_kept(self):
        key = bytes.fromhex("c60704000003e81b02") + b"\xcd\x0dZo\xc3\xab\\<z@e.org" + b"\xcd\x01 "
        with tempfile.TemporaryDirectory() as folder, Engine() as engine:
            engine.import_certificates(key)
            fpr = next(engine.keys()).fpr
            self.assertEqual(engine.feed(lines(numbers(20))), [])
            store, dump = Store(folder), list(engine.dump())
            store.keep("00", dump, "a verifier")
            entry, held = store.find("00"), Held(dump)
            for one in entry, held:
                self.assertEqual(one.bindings, [(fpr, b" "), (fpr, b"Zo\xc3\xab\\<z@e.org")])
                self.assertEqual([one.verdicts.issuer(number) is None for number in numbers(20)],
                                 [place % 3 == 0 for place in range(20)])
            self.assertEqual(len(store.good_verdicts("a verifier")), 13)
            self.assertEqual(store.good_verdicts("another"), {})
            with Engine() as other:
                self.assertTrue(entry.give_to(other))
                self.assertEqual(list(other.dump()), dump)
            self.assertIsNone(store.find("01"))

    def test_nothing_is_kept_too(self):
        with tempfile.TemporaryDirectory() as folder, Engine() as engine:
            entry = Store(folder).keep("00", engine.dump(), "a verifier")
            self.assertTrue(entry.give_to(engine))
            self.assertEqual((entry.bindings, entry.verdicts.issuer("0" * 64)), ([], None))


@needs_engine
class Shown(unittest.TestCase):
    def test_a_signature_that_names_nobody_is_shown_with_the_issuer_of_its_verdict(self):
        key, user_id = bytes.fromhex("04000003e81b02"), b"a"
        body = bytes.fromhex("04101b08000c0502000007d005030000000100000000")  # It lasts for a second.
        number = signature_number(key, 1, user_id, body)
        for judge, issuer, word in [
            (lambda engine: engine.judge_good(number, FPR), FPR, "expired"),
            (lambda engine: engine.judge_bad(number), None, "bad"), (lambda engine: None, None, "unjudged"),
        ]:
            with self.subTest(word), Engine() as engine:
                engine.import_certificates(b"\xc6\x07" + key + b"\xcd\x01" + user_id + b"\xc2\x16" + body)
                fpr = next(engine.keys()).fpr
                judge(engine)
                keyring = Keyring(engine, DumpIndex(engine, Held(engine.dump())))
                (other,) = assess(keyring.view(5000, {FPR: 120}), fpr, user_id, 120).others
                told = other.certification
                self.assertEqual((other.word, told.issuer, told.made, told.ends), (word, issuer, 2000, 2001))
