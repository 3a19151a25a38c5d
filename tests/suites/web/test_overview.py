"""What an overview says of each introducer: the bindings that rest on it, asked about one by one or listed."""

import unittest
from types import SimpleNamespace
from unittest import mock

from made import Made, trust
from outside import needs_engine
from tukyamid.client.engine import Engine
from tukyamid.openpgp.certificates import read_certificate
from tukyamid.web.facts_summary import FactsProcess
from tukyamid.web.overview_process import Overview

MADE = 1_700_000_000
OF_EACH, BOTH = 20, 10


def two_roots():
    """A root that makes two introducers, each of whom certifies 20 keys. Another root of amount 60 makes the first of
    them an introducer too, and certifies ten of its 20 keys itself."""
    first, second = (Made(number).direct(MADE) for number in (1, 2))
    for one, name in (first, b"First"), (second, b"Second"):
        one.certified(name, one, MADE)
    introducers = [Made(number).direct(MADE).certified(b"Introducer %d" % number, first, MADE, trust(1, 120))
                   for number in (3, 4)]
    introducers[0].certified(b"Introducer 3", second, MADE, trust(1, 60))
    people = []
    for place in range(2 * OF_EACH):
        name, introducer = b"Person %d" % place, introducers[place // OF_EACH]
        people.append(Made(10 + place).direct(MADE).certified(name, SimpleNamespace(fpr=introducer.fpr), MADE))
        if place < BOTH:
            people[-1].certified(name, second, MADE, trust(0, 60))
    return first, second, *introducers, *people


def lines_of(made):
    """As a dump has them, each signature verified as it says itself."""
    for one in made:
        yield b"import " + one.octets.hex().encode()
        certificate = read_certificate(one.octets)
        for signatures in (certificate.direct, *certificate.user_ids.values()):
            for signature in signatures:
                yield f"verdict {signature.number} good {signature.said.issuer}".encode()


@needs_engine
class Introducers(unittest.TestCase):
    def rows(self, roots):
        """The last table: for each name the bindings on a path, those no longer full, and those without a path."""
        lines = list(lines_of(self.made))
        with Engine() as engine, FactsProcess(MADE + 1) as facts:
            self.assertEqual(engine.feed(lines), [])
            for part in *(line + b"\n" for line in lines), b"":
                facts.write(part)
            *_, table = Overview(engine, facts, MADE + 1, roots).every_table()
        self.assertEqual(table["name"], "introducers")
        return {row[0]: tuple(row[2:5]) for row in table["rows"]}

    def setUp(self):
        self.made = two_roots()

    def test_asked_or_listed(self):
        """Without the first root, the second one still reaches the first introducer and its keys, with 60."""
        roots = {self.made[0].fpr: 120, self.made[1].fpr: 60}
        for most in 0, 1000:
            with self.subTest(most), mock.patch("tukyamid.web.overview_process.MOST_ASKED", most):
                self.assertEqual(self.rows(roots), {
                    "First": (42, 42, 21), "Second": (10, 0, 0), "Introducer 3": (20, 20, 10),
                    "Introducer 4": (20, 20, 20)})

    def test_the_only_root(self):
        self.assertEqual(self.rows({self.made[0].fpr: 120}), {
            "First": (42, 42, 42), "Introducer 3": (20, 20, 20), "Introducer 4": (20, 20, 20)})
