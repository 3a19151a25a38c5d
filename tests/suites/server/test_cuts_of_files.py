"""Files that are cut into pieces: joined they are the file, and each piece begins with a certificate."""

import random
import tempfile
import unittest

from tukyamid.service.keyring_files.certificate_cuts import begins_certificate, piece_at

KEY, USER_ID, SIGNATURE = 6, 13, 2


def packet(draw, kind, body):
    """A packet in one of the forms that a length may have."""
    forms = [lambda: bytes([0xC0 | kind, 255]) + len(body).to_bytes(4, "big") + body]
    if len(body) < 192:
        forms.append(lambda: bytes([0xC0 | kind, len(body)]) + body)
    elif len(body) < 8384:
        forms.append(lambda: bytes([0xC0 | kind, (len(body) - 192 >> 8) + 192, len(body) - 192 & 255]) + body)
    if kind < 16:
        forms.append(lambda: bytes([0x80 | kind << 2 | 1]) + len(body).to_bytes(2, "big") + body)
        forms.append(lambda: bytes([0x80 | kind << 2 | 2]) + len(body).to_bytes(4, "big") + body)
    if len(body) > 520:
        forms.append(lambda: bytes([0xC0 | kind, 224 + 9]) + body[:512] + bytes([255])
                     + (len(body) - 512).to_bytes(4, "big") + body[512:])
    return draw.choice(forms)()


def certificate(draw):
    count = draw.randrange(6)
    return b"".join([packet(draw, KEY, draw.randbytes(draw.randrange(1, 60))), packet(draw, USER_ID, b"a"),
                     *(packet(draw, SIGNATURE, draw.randbytes(draw.randrange(1, 900))) for _ in range(count))])


class Cuts(unittest.TestCase):
    def file(self, text):
        file = self.enterContext(tempfile.TemporaryFile())
        file.write(text)
        file.flush()
        return file.fileno()

    def pieces(self, text, certificates, octets):
        number, place = self.file(text), 0
        while place < len(text):
            piece = piece_at(number, len(text), place, certificates, octets)
            yield place, piece
            self.assertGreater(piece.end, place)
            place = piece.end

    def test_whole_files(self):
        for seed in range(60):
            draw = random.Random(seed)
            own = [certificate(draw) for _ in range(draw.randrange(1, 30))]
            text = b"".join(own)
            begins = {len(b"".join(own[:place])) for place in range(len(own))}
            certificates, octets = draw.randrange(1, 9), draw.randrange(1, 9000)
            found = list(self.pieces(text, certificates, octets))
            self.assertEqual(b"".join(piece.octets for _, piece in found), text)
            for place, piece in found:
                self.assertIn(place, begins)
                self.assertEqual(piece.fault, "")
                within = sum(place <= begin < piece.end for begin in begins)
                self.assertLessEqual(within, certificates)
                self.assertTrue(len(piece.octets) <= octets or within == 1, (seed, place))

    def test_what_is_damaged_is_handed_on(self):
        """The certificates before it are there, and the piece with it goes on beyond it, to the file's end."""
        draw = random.Random(1)
        own = [certificate(draw) for _ in range(9)]
        front = b"".join(own)
        for damage in (b"\0" * 99, front[:2] + b"\0" * 5, bytes([0xC2, 255, 255, 255, 255, 255]) + b"rest",
                       bytes([0xC2, 0xC1]), bytes([0x80 | SIGNATURE << 2 | 3]) + b"without a length"):
            text = front + damage
            found = list(self.pieces(text, 4, 1 << 20))
            self.assertTrue(b"".join(piece.octets for _, piece in found).startswith(front))
            self.assertEqual(found[-1][1].end, len(text))
            self.assertGreater(len(found[-1][1].octets), len(b"".join(own[8:])))

    def test_a_certificate_that_is_too_long(self):
        """It is passed over, and said; so is a packet that claims more than the file has."""
        draw = random.Random(2)
        before, behind = certificate(draw), certificate(draw)
        long = packet(draw, KEY, b"k") + bytes([0xC2, 255]) + (20 << 20).to_bytes(4, "big") + bytes(20 << 20)
        text = before + long + behind
        found = [(place, piece.octets, piece.fault) for place, piece in self.pieces(text, 1, 1 << 20)]
        self.assertEqual(found, [
            (0, before, ""),
            (len(before), b"", f"octet {len(before)}: a certificate that is too long for a line; left out"),
            (len(before + long), behind, "")])
        text = before + long[:-1]
        self.assertRegex([piece.fault for _, piece in self.pieces(text, 1, 1 << 20)][-1], "^octet [0-9]+: .* left out$")

    def test_what_begins_a_certificate(self):
        draw = random.Random(3)
        text = certificate(draw) + certificate(draw)[:-1]
        number = self.file(text)
        self.assertTrue(begins_certificate(number, 0))
        self.assertFalse(begins_certificate(number, 1 + len(text)))
        self.assertFalse(begins_certificate(self.file(packet(draw, USER_ID, b"a")), 0))


if __name__ == "__main__":
    unittest.main()
