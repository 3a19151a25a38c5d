"""Replies that no engine writes are refused, whatever is quick about reading them."""

import unittest

from tukyamid import ProtocolError
from tukyamid.protocol.replies import Exported
from tukyamid.protocol.reply_reader import drive, read_reply_after


def read(line):
    return drive(read_reply_after(line), lambda: "")


class Export(unittest.TestCase):
    def test_a_certificate(self):
        reply = read("export c0ff00")
        self.assertIsInstance(reply, Exported)
        self.assertEqual(reply.octets, b"\xc0\xff\x00")

    def test_what_is_no_certificate(self):
        for digits in "C0FF", "c0f", "c0 ff", "c0ff ", " c0ff", "c0\tff", "c0xx", "\u0663\u0663":
            with self.subTest(digits):
                self.assertRaises(ProtocolError, read, f"export {digits}")


if __name__ == "__main__":
    unittest.main()
