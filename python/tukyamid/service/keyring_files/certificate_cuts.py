"""Cuts a file of packets into pieces of whole certificates, by the packets' headers alone. What is in the packets, and
what is wrong with them, is the verifier's matter."""

from __future__ import annotations

import os
from dataclasses import dataclass

_SECRET_KEY, _KEY = 5, 6
_CERTIFICATES, _OCTETS = 2000, 8 << 20  # Of a piece.
_LONGEST = 16 << 20  # Longer than any certificate that fits into a line of the engine.
_SHOWN = 1 << 16  # Of what is damaged the verifier gets this much, so that it says what is wrong.
_HEADER = 1 << 10


@dataclass(frozen=True)
class Piece:
    """Some certificates, where the next piece begins, and what was passed over here."""
    octets: bytes
    end: int
    fault: str = ""


class _CutShort(Exception):
    """The octets end before the packet's length is known."""


class _Malformed(Exception):
    """No packet begins here."""


@dataclass(frozen=True)
class _Walk:
    """Where the last certificate begins, and at which packet a walk ended: before a certificate, since there are enough
    before it; or at one that is malformed. Otherwise the octets ended."""
    last: int
    at: int
    is_full: bool = False
    is_malformed: bool = False


def piece_at(number: int, size: int, place: int, certificates: int = _CERTIFICATES, octets: int = _OCTETS) -> Piece:
    """The piece of an open file that begins at a place, where a certificate begins. It has at most this many
    certificates and octets, or one certificate."""
    for most, count in ((octets, certificates), (_LONGEST, 1)):
        text = os.pread(number, most, place)
        walk = _walk(text, count)
        if walk.is_full:
            return Piece(text[:walk.at], place + walk.at)
        if walk.is_malformed:
            return Piece(text[:walk.at + _SHOWN], size)
        if place + len(text) >= size:
            return Piece(text, size)
        if walk.last:
            return Piece(text[:walk.last], place + walk.last)
    return _skipped(number, size, place)


def begins_certificate(number: int, place: int) -> bool:
    """Whether a certificate begins at a place of an open file."""
    try:
        return _packet(os.pread(number, _HEADER, place), 0)[0] in (_KEY, _SECRET_KEY)
    except (_CutShort, _Malformed):
        return False


def _walk(text: bytes, certificates: int) -> _Walk:
    at = last = count = 0
    while at < len(text):
        try:
            kind, end = _packet(text, at)
        except _CutShort:
            break
        except _Malformed:
            return _Walk(last, at, is_malformed=True)
        if kind in (_KEY, _SECRET_KEY):
            if count == certificates:
                return _Walk(last, at, is_full=True)
            last, count = at, count + 1
        at = end
    return _Walk(last, at)


def _packet(text: bytes, at: int) -> tuple[int, int]:
    """The type of the packet at a place, and where it ends."""
    if at >= len(text):
        raise _CutShort
    first = text[at]
    if not first & 0x80:
        raise _Malformed
    if first & 0x40:
        return first & 0x3F, _new_end(text, at + 1)
    size = (1, 2, 4, 0)[first & 3]
    if not size or at + 1 + size > len(text):  # A packet without a length ends with the file.
        raise _CutShort
    return first >> 2 & 15, at + 1 + size + int.from_bytes(text[at + 1:at + 1 + size], "big")


def _new_end(text: bytes, place: int) -> int:
    """Where a packet ends whose length begins at a place."""
    while lead := text[place:place + 5]:
        if lead[0] < 192:
            return place + 1 + lead[0]
        if lead[0] < 224 and len(lead) > 1:
            return place + 2 + (lead[0] - 192 << 8) + lead[1] + 192
        if lead[0] == 255 and len(lead) == 5:
            return place + 5 + int.from_bytes(lead[1:], "big")
        if lead[0] in (*range(192, 224), 255):
            break
        place += 1 + (1 << (lead[0] & 31))  # A partial length: another one follows.
    raise _CutShort


def _skipped(number: int, size: int, place: int) -> Piece:
    """A certificate that is too long for any line, or ends with the file. What can't be a packet ends the file."""
    at, why = place, "a certificate that is too long for a line; left out"
    while at < size:
        try:
            kind, end = _packet(os.pread(number, _HEADER, at), 0)
        except (_CutShort, _Malformed):
            at = size + 1
            break
        if at > place and kind in (_KEY, _SECRET_KEY):
            break
        at += end
    if at > size:
        why = "a packet that is damaged or doesn't end; what begins here is left out"
    return Piece(b"", min(at, size), f"octet {place}: {why}")
