"""What is probably wrong where nothing could be verified: another file, or files in another order, as people know it
from gpg."""

from __future__ import annotations

import base64
import binascii
import os
import re
import stat
from enum import Enum, auto

from .data_signatures import Signed, Word
from .signer_check import Outcome

_MOST = 4096
_ARMOR = re.compile(
    rb"^-----BEGIN PGP [A-Z ,0-9/]+-----[ \t\r]*\n(?:[^\n]*: [^\n]*\n)*[ \t\r]*\n?([A-Za-z0-9+/=]{4})", re.MULTILINE)


class Content(Enum):
    """What a file has, by its first packet."""
    SIGNATURE = auto()
    ENCRYPTED = auto()
    KEYS = auto()
    MESSAGE = auto()
    OTHER = auto()  # No packet.


# By the type of a packet (RFC 9580, section 5).
_BY_PACKET = {2: Content.SIGNATURE, 1: Content.ENCRYPTED, 3: Content.ENCRYPTED, 9: Content.ENCRYPTED,
              18: Content.ENCRYPTED, 20: Content.ENCRYPTED, 5: Content.KEYS, 6: Content.KEYS}


def hint(signed: Signed, outcome: Outcome) -> str | None:
    """What to do; None if the signatures were well-formed, or if nothing can be said."""
    if outcome.is_verified or any(one.signature.word is not Word.MALFORMED for one in outcome.checked):
        return None
    data = _content(signed.data)
    if data is Content.ENCRYPTED:
        return f"{signed.data} is encrypted: decrypt it first"
    if signed.signature is not None:
        if data is Content.SIGNATURE and _content(signed.signature) is Content.OTHER:
            return (f"{signed.data} is a signature, and {signed.signature} isn't: FILE comes first, then SIGNATURE "
                    "(gpg takes them the other way round)")
        return None
    if data is Content.SIGNATURE:
        return f"{signed.data} is a signature by itself: name what it signs first, verify FILE {signed.data}"
    if data is Content.KEYS:
        return f"{signed.data} has keys, and no signed data"
    if data is Content.OTHER:
        return f"{signed.data} has no signature in itself: name it too, verify {signed.data} SIGNATURE"
    return None


def _content(path: str) -> Content | None:
    """What a file has; None if it can't be read again."""
    try:
        if path == "-" or not stat.S_ISREG(os.stat(path).st_mode):
            return None
        with open(path, "rb") as file:
            begin = file.read(_MOST)
    except OSError:
        return None
    if b"-----BEGIN PGP SIGNED MESSAGE-----" in begin:
        return Content.MESSAGE
    armored = _ARMOR.search(begin)
    return _by_octets(_decoded(armored[1]) if armored is not None else begin)


def _by_octets(octets: bytes) -> Content:
    first = octets[0] if octets else 0
    if not first & 0x80:
        return Content.OTHER
    return _BY_PACKET.get(first & 0x3F if first & 0x40 else first >> 2 & 0xF, Content.MESSAGE)


def _decoded(digits: bytes) -> bytes:
    try:
        return base64.b64decode(digits)
    except binascii.Error:
        return b""
