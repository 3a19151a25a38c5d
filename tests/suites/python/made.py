"""Certificates that the tests write by hand, packet by packet, for what no program would make. The stand-in for the
verifier takes their signatures as good by the issuer that they name."""

import hashlib

CREATED = 1_000_000_000  # 9 September 2001


def packet(kind, body):
    return bytes([0xC0 | kind, 255]) + len(body).to_bytes(4, "big") + body


def subpacket(kind, body):
    return bytes([255]) + (len(body) + 1).to_bytes(4, "big") + bytes([kind]) + body


class Made:
    """A version 4 key, whose material is a number, and what is behind it."""

    def __init__(self, number):
        self.key = b"\4" + CREATED.to_bytes(4, "big") + bytes([27]) + number.to_bytes(4, "big")
        self.fpr = hashlib.sha1(b"\x99" + len(self.key).to_bytes(2, "big") + self.key).hexdigest()
        self._direct, self._user_ids = [], {}

    def direct(self, made, *more, kind=0x1F):
        """A direct key signature, with more subpackets."""
        self._direct.append(self._signature(self, kind, made, more))
        return self

    def certified(self, user_id, issuer, made, *more, kind=0x13):
        """A certification of a user ID by an issuer. The user ID is there from now on."""
        self._user_ids.setdefault(user_id, []).append(self._signature(issuer, kind, made, more))
        return self

    @staticmethod
    def _signature(issuer, kind, made, more):
        named = subpacket(33, b"\4" + bytes.fromhex(issuer.fpr))
        area = b"".join([subpacket(2, made.to_bytes(4, "big")), named, *more])
        return packet(2, bytes([4, kind, 27, 8]) + len(area).to_bytes(2, "big") + area + b"\0\0\0\0")

    @property
    def octets(self):
        own = [packet(6, self.key), *self._direct]
        return b"".join(own + [packet(13, uid) + b"".join(made) for uid, made in self._user_ids.items()])


def key_lasts(seconds):
    return subpacket(9, seconds.to_bytes(4, "big"))


def signature_lasts(seconds):
    return subpacket(3, seconds.to_bytes(4, "big"))


def trust(depth, amount):
    return subpacket(5, bytes([depth, amount]))


PRIMARY = subpacket(25, b"\1")
