"""Scripts that are made: clients interleaved in every way, the longest lines and entries, and a full keyring."""

import sys
import tempfile
import unittest
from pathlib import Path

HERE = Path(__file__).resolve().parent
sys.path.insert(0, str(HERE.parents[1]))
import plain

sys.path.insert(0, str(plain.ROOT / "model"))
from wot_model.certificates import KEY, USER_ID, fingerprint
from wot_model.packets import write_packet
from wot_model.shelf import LONGEST_ENTRY, place_of, read_folder, write_folder


class Clients(unittest.TestCase):
    """Two clients of one program, in every way in which their lines may be interleaved. A key R is a root of both views
    and certifies the user ID t of a key T; at first no verdict says so."""

    ROOT, TARGET = b"7f35c8dbd6b3eb2ffd59cbdd2e41ea291212ac38", b"3c98b8180e0fcaca1032499082a5de8fa5d98232"
    CERTIFIED = b"verdict 7331b37825bdca65502938381c08cd08d9da47de1940c67bdae7bdf1dfab72d5 "
    SETUP, SET_UP = ((HERE / f"clients/base.{ending}").read_bytes() for ending in ("wot", "expected"))

    # Lines: a, b, c of the client that asks through the view p, x, y, z of the one that asks through q.
    LINES = {
        "a": b"ask p " + TARGET + b" 120 t",
        "b": CERTIFIED + b"bad",
        "c": b"ask p " + TARGET + b" 120 t",
        "x": CERTIFIED + b"good " + ROOT,
        "y": b"ask q " + TARGET + b" 120 t",
        "z": b"drop " + TARGET,
    }

    # Replies: a change, no path, and the one path seen from p or from q.
    STEP = b"step " + ROOT + b" " + TARGET + b" 0 120 t"
    REPLIES = {
        "k": b"ok",
        "0": b"amount 0 paths 0",
        "p": b"amount 120 paths 1\npath 120 steps 1 root " + ROOT + b"\n" + STEP,
        "q": b"amount 40 paths 1\npath 40 steps 1 root " + ROOT + b"\n" + STEP,
    }

    INTERLEAVED = {
        "abcxyz": "0k0kqk", "abxcyz": "0kkpqk", "abxycz": "0kkqpk", "abxyzc": "0kkqk0", "axbcyz": "0kk00k",
        "axbycz": "0kk00k", "axbyzc": "0kk0k0", "axybcz": "0kqk0k", "axybzc": "0kqkk0", "axyzbc": "0kqkk0",
        "xabcyz": "kpk00k", "xabycz": "kpk00k", "xabyzc": "kpk0k0", "xaybcz": "kpqk0k", "xaybzc": "kpqkk0",
        "xayzbc": "kpqkk0", "xyabcz": "kqpk0k", "xyabzc": "kqpkk0", "xyazbc": "kqpkk0", "xyzabc": "kqk0k0",
    }

    def test_two_clients_interleaved_in_every_way(self):
        for order, letters in self.INTERLEAVED.items():
            with self.subTest(order=order):
                script = self.SETUP + b"".join(self.LINES[letter] + b"\n" for letter in order)
                replies = self.SET_UP + b"".join(self.REPLIES[letter] + b"\n" for letter in letters)
                self.assertEqual(plain.run_program(script), (0, replies))


class Long(unittest.TestCase):
    """The longest lines, and the longest entries of a directory."""

    BODY = bytes.fromhex("04000003e81b04")
    NAME = fingerprint(BODY)

    def test_comments(self):
        """A comment as long as a line may be has no reply, and a longer one is refused as any line is."""
        longest = b"#" * 16777216
        self.assertEqual(plain.run_program(longest + b"\n"), (0, b""))
        self.assertEqual(plain.run_program(longest + b"#\nkeys\n"), (0, b"refused long\nkeys 0\n"))

    def stores(self, entry, first, second):
        """The replies to a `store` of T's key, and to one with a user ID, over this entry of T; whether it is left."""
        key = write_packet(KEY, self.BODY)
        store = b"store " + self.NAME.hex().encode() + b"\n"
        named = key + write_packet(USER_ID, b"t")
        script = b"".join(b"import " + each.hex().encode() + b"\n" + store for each in (key, named))
        taken = b"ok taken 1 skipped 0 new 1\n"
        with tempfile.TemporaryDirectory() as shelf:
            write_folder(shelf, {self.NAME: entry})
            self.assertEqual(plain.run_program(script, "run", shelf), (0, taken + first + taken + second))
            self.assertEqual(read_folder(shelf), {place_of(self.NAME): entry})

    def test_as_great_as_a_certificate_may_be(self):
        """And greater with a user ID."""
        attribute = b"\xd1\xff" + (4194304 - 15).to_bytes(4, "big") + bytes(4194304 - 15)
        self.stores(write_packet(KEY, self.BODY) + attribute, b"ok stored 4194304\n", b"refused full certificate\n")

    def test_over_a_mebibyte(self):
        """A certificate of 2 MiB is taken, its key and user attribute, and then a user ID that is merged into it."""
        attribute = b"\xd1\xff" + (2097152).to_bytes(4, "big") + bytes(2097152)
        key = write_packet(KEY, self.BODY)
        lines = (key + attribute, key + write_packet(USER_ID, b"t"))
        script = b"".join(b"import " + octets.hex().encode() + b"\n" for octets in lines)
        self.assertEqual(plain.run_program(script), (0, b"ok taken 1 skipped 0 new 2\nok taken 1 skipped 0 new 1\n"))

    def test_longer_than_an_entry_may_be(self):
        self.stores(b"\xc6" * (LONGEST_ENTRY + 1), b"refused long\n", b"refused long\n")


class Full(unittest.TestCase):
    """As many certificates as may be held."""

    KEYS = [write_packet(KEY, bytes.fromhex("04000003e81b") + number.to_bytes(3, "big")) for number in range(65537)]

    def test_certificates(self):
        """One more is refused, with the others, alone or beside one that is held. One that is held is taken again."""
        exchanges = [
            (self.KEYS, b"refused full certificates\n"),
            (self.KEYS[:-1], b"ok taken 65536 skipped 0 new 65536\n"),
            (self.KEYS[-1:], b"refused full certificates\n"),
            (self.KEYS[-2:], b"refused full certificates\n"),
            (self.KEYS[:1], b"ok taken 1 skipped 0 new 0\n"),
        ]
        script = b"".join(b"import " + b"".join(keys).hex().encode() + b"\n" for keys, _ in exchanges)
        self.assertEqual(plain.run_program(script), (0, b"".join(reply for _, reply in exchanges)))

    def test_verdicts(self):
        """As many verdicts as may be held. One more is refused, and one that replaces another isn't."""
        most = 2097152
        numbers = [*range(most), most, 0]
        script = b"".join(b"verdict %064x bad\n" % number for number in numbers)
        replies = b"ok\n" * most + b"refused full verdicts\nok\n"
        self.assertEqual(plain.run_program(script), (0, replies))
