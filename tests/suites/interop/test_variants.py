"""The variants of cases: what each mutation changes, and that the plain model answers the variants as the cases."""

import unittest

from running import INTEROP  # It finds the modules of the suite.
from test_model import answer
from wot_model.answers import next_path_by_layers
from written import cases

import case_files  # noqa: I100
import mutations
import packets


def read(place):
    return case_files.read(INTEROP / "cases" / f"{place}.json")


class Variants(unittest.TestCase):
    def test_the_plain_model_answers_them_as_the_case(self):
        every = list(cases())
        for place in every[::max(1, len(every) // 40)]:
            case = read(place)
            for name, variant in mutations.variants(case, most=2):
                with self.subTest(case=place, mutation=name):
                    asked = {**case.asked, "certificates": mutations.encoded(variant)}
                    self.assertEqual(answer(asked, next_path_by_layers)["amount"], case.expected)

    def test_each_mutation_changes_a_case_and_loses_nothing(self):
        seen = set()
        for place in list(cases()):
            case = read(place)
            for name, variant in mutations.variants(case, most=len(mutations.NAMES)):
                seen.add(name)
                self.assertNotEqual(variant, list(case.certificates))
                if "unhashed" not in name:
                    self.assertLessEqual(bodies(case.certificates), bodies(variant), (place, name))
            if len(seen) == len(mutations.NAMES):
                break
        self.assertEqual(seen, set(mutations.NAMES))

    def test_hashed_areas_and_keys_stay_when_unhashed_areas_change(self):
        case = read(next(iter(cases())))
        for name in (name for name in mutations.NAMES if name.startswith("unhashed-")):
            with self.subTest(name):
                other = mutations.MUTATIONS[name](list(case.certificates), None)
                self.assertEqual(list(map(signed, other)), list(map(signed, case.certificates)))

    def test_forms_of_a_packet(self):
        # RFC 9580, section 4.2: the legacy format with lengths of one, two and four octets, the current one with one,
        # two and five.
        self.assertEqual(packets.legacy(13, b"ab").hex(), "b4026162")
        self.assertEqual(packets.legacy(2, bytes(256))[:4].hex(), "89010000")
        self.assertEqual(packets.legacy(13, b"ab", is_long=True).hex(), "b6000000026162")
        self.assertEqual(packets.current(13, b"ab").hex(), "cd026162")
        self.assertEqual(packets.current(2, bytes(1723))[:3].hex(), "c2c5fb")  # The example of section 4.2.3.
        self.assertEqual(packets.current(13, b"ab", is_long=True).hex(), "cdff000000026162")


def bodies(certificates):
    """The bodies of all packets of certificates; octets that aren't a list of packets stand for themselves."""
    found = set()
    for one in certificates:
        try:
            found |= {(packet.kind, packet.body) for packet in packets.split(one)}
        except ValueError:
            found.add((None, one))
    return found


def signed(certificate):
    """What the signatures of a certificate are about, and say in their hashed areas."""
    found = []
    for packet in packets.split(certificate):
        areas = packets.areas(packet.body) if packet.kind == packets.SIGNATURE else None
        found.append((areas.before, areas.hashed, areas.after) if areas else (packet.kind, packet.body))
    return found
