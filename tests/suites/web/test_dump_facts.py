"""What an overview reads of a dump: its own quick reading of signatures says what that for people does."""

import random
import unittest
from pathlib import Path

from made import Made, trust
from tukyamid.openpgp.certificates import SIGNATURE, packets, read_certificate
from tukyamid.openpgp.signatures import read_signature
from tukyamid.web.dump_facts import Facts, times_of
from tukyamid.web.facts_summary import MOST_PIECES, FactsEnded, FactsProcess

DEBIAN = Path("/usr/share/keyrings/debian-keyring.gpg")
MADE = 1_700_000_000
HEAD = bytes([4, 0x13, 22, 8])
# Subpackets, each with its length: the date, both validity periods, an issuer, a trust signature, one that is critical
# and known, one that is critical and unknown, one that is unknown, dates of other lengths, and one with a long length.
DATE = bytes.fromhex("0502" "65540d00")
SUBPACKETS = [DATE, bytes.fromhex("0503" "00015180"), bytes.fromhex("0583" "00015180"),
              bytes.fromhex("0509" "01e13380"), bytes.fromhex("0910" "0123456789abcdef"),
              bytes.fromhex("0385" "0178"), bytes.fromhex("02e500"),
              bytes.fromhex("026500"), bytes.fromhex("040265540d"), bytes.fromhex("0403000151"),
              b"\xc0\x00" + b"\x14" + bytes(191), b"\xff" + (5).to_bytes(4, "big") + DATE[1:], b"\x00"]


def slow_times(body):
    said = read_signature(body)
    return (said.made, said.lasts, said.key_lasts) if said.sound else None


def body_of(hashed, unhashed=b""):
    return b"".join((HEAD, len(hashed).to_bytes(2, "big"), hashed, len(unhashed).to_bytes(2, "big"), unhashed,
                     b"\xab\xcd", bytes(66)))


class Times(unittest.TestCase):
    def test_as_the_whole_reading(self):
        """Of subpackets in every order, of signatures that are cut, and of others with an octet changed."""
        draw = random.Random(1)
        usual = 0
        for _ in range(20_000):
            body = bytearray(body_of(b"".join(draw.choices([DATE, *SUBPACKETS], k=draw.randrange(5))),
                                     b"".join(draw.choices(SUBPACKETS, k=draw.randrange(2)))))
            match draw.randrange(3):
                case 0: body[draw.randrange(min(40, len(body)))] = draw.randrange(256)
                case 1: del body[draw.randrange(len(body)):]
            expected = slow_times(bytes(body))
            usual += expected is not None
            self.assertEqual(times_of(bytes(body)), expected, body.hex())
        self.assertGreater(usual, 2000)

    @unittest.skipUnless(DEBIAN.exists(), "debian-keyring isn't installed")
    def test_of_debians_signatures(self):
        with DEBIAN.open("rb") as file:
            bodies = [body for kind, body in packets(file.read(4_000_000).rpartition(b"\x99\x02\x0d\x04")[0])
                      if kind == SIGNATURE]
        self.assertGreater(len(bodies), 5000)
        for body in bodies:
            self.assertEqual(times_of(body), slow_times(body), body.hex())


class Gathered(unittest.TestCase):
    def test_the_numbers_of_signatures(self):
        """A certificate's direct signature, and those on a user ID by itself and another, each with its verdict."""
        other, one = Made(1).direct(MADE), Made(2).direct(MADE)
        one.certified(b"One <one@example.org>", one, MADE).certified(
            b"One <one@example.org>", other, MADE + 5, trust(1, 60))
        certificate = read_certificate(one.octets)
        signatures = certificate.direct + certificate.user_ids[b"One <one@example.org>"]
        dump = b"import %s\n" % one.octets.hex().encode() + b"".join(
            f"verdict {each.number} good {each.said.issuer}\n".encode() for each in signatures) + (
            b"verdict %s bad\nview v at 1\n" % (b"0" * 64))
        for size in len(dump), 1000, 7:
            with self.subTest(size):
                self.check(dump, size, one, other, certificate)

    def check(self, dump, size, one, other, certificate):
        facts = Facts()
        had_certificates = list(facts.gather(dump[at:at + size] for at in range(0, len(dump), size)))
        self.assertEqual(sum(had_certificates), 1)
        self.assertEqual((facts.bindings, facts.created, facts.name(one.fpr)),
                         (1, {one.fpr: certificate.created}, "One <one@example.org>"))
        self.assertEqual(len(facts.self_signatures[one.fpr]), 2)
        [(issuer, fact)] = facts.good
        self.assertEqual((issuer, fact.fpr, fact.made, fact.ends, fact.user_id),
                         (other.fpr, one.fpr, MADE + 5, None, b"One <one@example.org>"))


class Process(unittest.TestCase):
    def test_a_process_that_was_killed(self):
        """Who still writes to it isn't held up, and who reads gets an error."""
        with FactsProcess(MADE) as facts:
            facts.end_at_once()
            for _ in range(2 * MOST_PIECES):
                facts.write(b"import 00\n")
            facts.write(b"")
            with self.assertRaisesRegex(FactsEnded, "status -9"):
                facts.counts()

    def test_it_ends_with_the_one_that_started_it(self):
        with FactsProcess(MADE) as facts:
            facts.write(b"import ")
        self.assertEqual(facts.status, -9)
