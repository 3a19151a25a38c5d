"""Scripts that are made: packets and subpackets whose lengths are spelled in every form, at the boundaries of each."""

import sys
import unittest
from pathlib import Path

HERE = Path(__file__).resolve().parent
sys.path.insert(0, str(HERE.parents[1]))
import plain

sys.path.insert(0, str(plain.ROOT / "model"))
from wot_model.certificates import KEY, SIGNATURE, USER_ID, fingerprint, number_of
from wot_model.machine import Machine
from wot_model.packets import write_packet

BODY = bytes.fromhex("04000003e81b04")
NAME = fingerprint(BODY).hex()
TAKEN = "ok taken 1 skipped 0 new"


class Lengths(unittest.TestCase):
    """A header or a subpacket's length, in octets, and how many octets it says."""

    # And the reply to an import of the key T, this packet and the user ID t; then the packet's type if it is kept. The
    # body of the packet of type 6 is no key that can be parsed, so it is skipped with what follows.
    PACKETS = [
        ("cdbf", 191, f"{TAKEN} 3", USER_ID),
        ("cdff000000bf", 191, f"{TAKEN} 3", USER_ID),
        ("be000000bf", 191, "refused kind 15 9", None),
        ("ffff000000c0", 192, f"{TAKEN} 2", None),
        ("cddfff", 8383, f"{TAKEN} 3", USER_ID),
        ("ffff000020c0", 8384, f"{TAKEN} 2", None),
        ("9a000020c0", 8384, "ok taken 1 skipped 1 new 1", None),
        ("be0000ffff", 65535, "refused kind 15 9", None),
    ]

    # How many octets a user ID has, and the header with which it is exported.
    SHORTEST = [(191, "cdbf"), (192, "cdc000"), (8383, "cddfff"), (8384, "cdff000020c0")]

    # The length of a subpacket, and how many octets follow its type.
    SUBPACKETS = [("c000", 191), ("dfff", 8382), ("ff0000ff00", 65279)]

    def says(self, lines, replies):
        """The program and the model make these replies."""
        script = "".join(line + "\n" for line in lines).encode()
        wanted = "".join(reply + "\n" for reply in replies).encode()
        self.assertEqual(plain.run_program(script), (0, wanted))
        self.assertEqual(Machine().transcript(script), wanted)

    def test_each_form_of_a_packet_is_read(self):
        """An octet after all of them that begins no packet is reported at its offset."""
        key, named = write_packet(KEY, BODY), write_packet(USER_ID, b"t")
        for header, length, reply, kind in self.PACKETS:
            with self.subTest(header=header):
                text = key + bytes.fromhex(header) + b"\x98" * length + named
                lines = [f"import {text.hex()}40", f"import {text.hex()}"]
                replies = [f"refused packet 1 {len(text)}", reply]
                if kind:
                    lines.append(f"export {NAME}")
                    replies.append(f"export {(key + named + write_packet(kind, bytes([0x98]) * length)).hex()}")
                self.says(lines, replies)

    def test_the_shortest_length_is_written(self):
        """Whatever the form in which it was read."""
        key = write_packet(KEY, BODY)
        for length, header in self.SHORTEST:
            with self.subTest(length=length):
                body = b"t" * length
                text = key + b"\xcd\xff" + length.to_bytes(4, "big") + body
                exported = key + bytes.fromhex(header) + body
                self.says([f"import {text.hex()}", f"export {NAME}"], [f"{TAKEN} 2", f"export {exported.hex()}"])

    def pending_with(self, hashed):
        """What waits for a verdict once T has a signature with this hashed area. It has to be well-formed for that."""
        body = bytes.fromhex("041f1b08") + len(hashed).to_bytes(2, "big") + hashed + bytes(4)
        text = write_packet(KEY, BODY) + write_packet(SIGNATURE, body)
        return [f"import {text.hex()}", "pending"], f"sig {number_of(BODY, 0, b'', body).hex()} {NAME} -"

    def test_each_length_of_a_subpacket_is_read(self):
        """A critical regular expression of this length, a subpacket of type 2 without octets, and the creation time."""
        for spelled, size in self.SUBPACKETS:
            with self.subTest(spelled=spelled):
                hashed = bytes.fromhex(spelled) + b"\x86" + b"a" * size + bytes.fromhex("01020502000003e8")
                lines, sig = self.pending_with(hashed)
                self.says(lines, [f"{TAKEN} 2", "pending 1", sig])

    def test_the_longest_area_is_read(self):
        """A creation time and 32764 subpackets of type 1 without octets fill 65534 octets; one more is cut short."""
        hashed = bytes.fromhex("0502000003e8") + b"\1\1" * 32764
        lines, sig = self.pending_with(hashed)
        self.says(lines, [f"{TAKEN} 2", "pending 1", sig])
        self.says(self.pending_with(hashed + b"\1")[0], [f"{TAKEN} 2", "pending 0"])
