"""Packets and signatures for the tests: RFC 9580 as far as they need it, apart from what they test."""

import hashlib
from dataclasses import dataclass


def split(text):
    """The packets of a text, each as type, body and the octets that spell it."""
    at = 0
    while at < len(text):
        begin, first = at, text[at]
        at += 1
        if first & 0x40:
            kind, length = first & 0x3f, text[at]
            at += 1
            if 192 <= length < 224:
                length = ((length - 192) << 8) + text[at] + 192
                at += 1
            elif length == 255:
                length = int.from_bytes(text[at:at + 4], "big")
                at += 4
        else:
            kind, size = first >> 2 & 15, 1 << (first & 3)
            length = int.from_bytes(text[at:at + size], "big")
            at += size
        yield kind, text[at:at + length], text[begin:at + length]
        at += length


def packets(text):
    return [(kind, body) for kind, body, _ in split(text)]


def packet(kind, body):
    """A packet with a length of four octets."""
    return bytes([0xc0 | kind, 255]) + len(body).to_bytes(4, "big") + body


def shortest(kind, body):
    """A packet of less than 8384 octets with the shortest length."""
    if len(body) < 192:
        return bytes([0xc0 | kind, len(body)]) + body
    rest = len(body) - 192
    return bytes([0xc0 | kind, (rest >> 8) + 192, rest & 255]) + body


def partial(kind, body):
    """A packet with partial lengths of 16 octets."""
    text = bytes([0xc0 | kind])
    while len(body) > 16:
        text += bytes([224 + 4]) + body[:16]
        body = body[16:]
    return text + bytes([len(body)]) + body


def number(key, place, component, body):
    """A signature's number, as docs/PROFILE.md says it."""
    fields = b"wot1", key, bytes([place]), component, body
    return hashlib.sha256(b"".join(len(f).to_bytes(4, "big") + f for f in fields)).hexdigest()


def fingerprint(key):
    return hashlib.sha1(b"\x99" + len(key).to_bytes(2, "big") + key).hexdigest()


def turned(octets, bit):
    """The octets with one bit turned, counted from the first octet's highest."""
    changed = bytearray(octets)
    changed[bit // 8] ^= 0x80 >> bit % 8
    return bytes(changed)


@dataclass
class Signature:
    key: bytes
    place: int
    component: bytes
    body: bytes

    @property
    def owner(self):
        return fingerprint(self.key)

    @property
    def number(self):
        return number(self.key, self.place, self.component, self.body)

    @property
    def kind(self):
        return self.body[1]

    @property
    def hashed_end(self):
        return 6 + int.from_bytes(self.body[4:6], "big")

    @property
    def front(self):
        """Where the digest's first two octets stand, before the signature's material."""
        at = self.hashed_end
        return at + 2 + int.from_bytes(self.body[at:at + 2], "big")

    @property
    def issuer(self):
        """The key ID in the unhashed area, in digits; gpg writes short subpackets alone there."""
        area = self.body[self.hashed_end + 2:self.front]
        while area:
            length = area[0]
            if area[1] == 16:
                return area[2:10].hex()
            area = area[1 + length:]
        return None


PLACES = {13: 1, 17: 2, 14: 3}


def signatures(text):
    """The signatures of a certificate with the places on which they stand."""
    key = component = b""
    place = 0
    for kind, body in packets(text):
        if kind == 6:
            key, place, component = body, 0, b""
        elif kind in PLACES:
            place, component = PLACES[kind], body
        elif kind == 2:
            yield Signature(key, place, component, body)


def contents(text):
    """The packets of a text without what spells them."""
    return packets(text)


def without_last_signature(text):
    last = max(index for index, (kind, _) in enumerate(packets(text)) if kind == 2)
    return b"".join(octets for index, (_, _, octets) in enumerate(split(text)) if index != last)
