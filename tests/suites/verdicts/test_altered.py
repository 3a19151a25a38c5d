"""Signatures of the keyring of five with a turned bit or more octets are bad, if they still need a verdict."""

import openpgp
from program import Script
from ring import OverRing


class Altered(OverRing):
    def altered(self, changes):
        """A keyring of each signature with each change of its body, and the numbers in it with what is expected."""
        text, expected = b"", {}
        for s in self.signatures:
            text += openpgp.packet(6, s.key)
            if s.place:
                text += openpgp.packet({1: 13, 2: 17, 3: 14}[s.place], s.component)
            for body, verdict in changes(s):
                text += openpgp.packet(2, body)
                if verdict:
                    expected[openpgp.number(s.key, s.place, s.component, body)] = verdict
        return text, expected

    def assert_judged(self, name, changes):
        text, expected = self.altered(changes)
        self.assertGreater(len(expected), 1000)
        script = Script("--all", self.write(name, text), "--with", self.file)
        self.assertEqual(script.verdicts, expected)

    def test_a_turned_bit_of_the_hashed_area_is_bad(self):
        self.assert_judged("hashed.gpg", lambda s: [
            (openpgp.turned(s.body, bit), "bad") for bit in range(8 * 6, 8 * s.hashed_end)])

    def test_a_turned_bit_of_the_signature_is_bad(self):
        def changes(s):
            for bit in range(8 * s.front, 8 * len(s.body), 1 if s.kind == 0x20 else 7):
                yield openpgp.turned(s.body, bit), "bad"
            for bit in range(8 * s.front, 8 * s.front + 16):
                yield openpgp.turned(s.body, bit), "bad"
        self.assert_judged("material.gpg", changes)

    def test_a_turned_bit_of_the_head(self):
        kinds = {0: {0x1f, 0x20, 0x30}, 1: {0x10, 0x11, 0x12, 0x13, 0x30}, 3: {0x18, 0x28}}
        kinds[2] = kinds[1]

        def changes(s):
            for bit in range(8 * 4):
                body = openpgp.turned(s.body, bit)
                version, kind = body[:2]
                # A verdict needs version 4, since one of version 6 has longer lengths, and a type that has an effect.
                yield body, version == 4 and kind in kinds[s.place] and "bad"
        text, expected = self.altered(changes)
        script = Script("--all", self.write("head.gpg", text), "--with", self.file)
        self.assertEqual(script.verdicts, expected)

    def test_a_turned_bit_of_the_user_id_is_bad(self):
        text, expected = b"", {}
        for s in self.signatures:
            for bit in range(8 * len(s.component) if s.place == 1 else 0):
                component = openpgp.turned(s.component, bit)
                text += openpgp.packet(6, s.key) + openpgp.packet(13, component) + openpgp.packet(2, s.body)
                expected[openpgp.number(s.key, 1, component, s.body)] = "bad"
        self.assertGreater(len(expected), 1000)
        self.assertEqual(Script(self.write("user-ids.gpg", text), "--with", self.file).verdicts, expected)

    def test_more_octets_behind_a_signature_are_bad(self):
        text, expected = self.altered(lambda s: [(s.body + b"\0", "bad")])
        self.assertEqual(Script("--all", self.write("more.gpg", text), "--with", self.file).verdicts, expected)
