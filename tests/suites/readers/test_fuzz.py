"""A short run of the fuzzer, and the faults that it must find."""

import importlib.machinery
import importlib.util
import subprocess
import time
import unittest
from pathlib import Path
from unittest import mock

from mutating import LONGEST, Mutator
from strangers import Stranger, strangers

PROGRAM = Path(__file__).with_name("fuzz")
COUNT = 20_000


def load():
    loader = importlib.machinery.SourceFileLoader("fuzz", str(PROGRAM))
    module = importlib.util.module_from_spec(importlib.util.spec_from_loader("fuzz", loader))
    loader.exec_module(module)
    return module


fuzz = load()


class Readers(unittest.TestCase):
    def test_no_mutation_is_a_fault(self):
        self.assertEqual(fuzz.faults(1, COUNT, strangers()), [])

    def test_every_sample_is_read(self):
        """Of each reader some samples are no refusals, so that mutations of them come far."""
        for stranger in strangers():
            with self.subTest(stranger.name):
                self.assertTrue(any(self.is_read(stranger, sample) for sample in stranger.samples))

    @staticmethod
    def is_read(stranger, sample):
        try:
            stranger.read(sample)
        except stranger.refusals:
            return False
        return True

    def test_the_program(self):
        done = subprocess.run([PROGRAM, "--seed", "5", "--count", "400"], capture_output=True, text=True, check=False)
        self.assertEqual((done.returncode, done.stderr), (0, ""))
        self.assertRegex(done.stdout, r"\A400 mutations for \d+ readers, seed 5: 0 faults\n\Z")


class Faults(unittest.TestCase):
    """Readers with a fault each."""

    def found(self, read, refusals=(), samples=(b"carol@example.org",)):
        return fuzz.faults(1, 2000, [Stranger("a reader", read, refusals, list(samples))])

    def test_another_exception(self):
        found = self.found(lambda octets: octets.decode("ascii"))
        self.assertTrue(found)
        self.assertTrue(all(one.startswith("a reader: UnicodeDecodeError: ") for one in found), found)
        self.assertEqual(self.found(lambda octets: octets.decode("ascii"), (ValueError,)), [])

    def test_an_exception_at_one_octet(self):
        self.assertTrue(self.found(lambda octets: 1 // (octets[:1] != b"<")))

    def test_a_long_time(self):
        def slow(octets):
            end = time.process_time() + (0.15 if len(octets) > 10_000 else 0)
            while time.process_time() < end:
                pass
        with mock.patch.object(fuzz, "SECONDS", 0.1):
            found = self.found(slow)
        self.assertTrue(found)
        self.assertRegex(found[0], r"\Aa reader: \d\.\d seconds for \d+ octets: ")


class Mutations(unittest.TestCase):
    def test_one_seed_makes_the_same_ones(self):
        one, same, other = ([mutator.mutated([b"carol", b"dave"]) for _ in range(200)]
                            for mutator in (Mutator(3), Mutator(3), Mutator(4)))
        self.assertEqual(one, same)
        self.assertNotEqual(one, other)
        self.assertGreater(len(set(one)), 150)

    def test_their_lengths(self):
        mutator = Mutator(2)
        lengths = [len(mutator.mutated([b"a" * 300])) for _ in range(3000)]
        self.assertEqual(max(lengths) // 10_000 > 0, True)
        self.assertLessEqual(max(lengths), LONGEST)
