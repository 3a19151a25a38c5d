"""Framing: the packets of a certificate (RFC 9580, section 4.2) and the subpackets of a signature (section 5.2.3.7)."""

from __future__ import annotations

from ..fast_imports import TYPE_CHECKING

if TYPE_CHECKING:
    from collections.abc import Iterator

KEY, USER_ID, ATTRIBUTE, SUBKEY, SIGNATURE = 6, 13, 17, 14, 2


def packet(kind: int, body: bytes) -> bytes:
    """A packet in the OpenPGP format, with a length of four octets."""
    return bytes([0xC0 | kind, 0xFF]) + len(body).to_bytes(4, "big") + body


def packets(octets: bytes) -> Iterator[tuple[int, bytes]]:
    """The packets of octets as (type, body), in either format; ValueError if one is malformed."""
    at = 0
    while at < len(octets):
        first = octets[at]
        if not first & 0x80:
            raise ValueError(f"no packet at {at}")
        if first & 0x40:
            kind, (start, length) = first & 0x3F, _new_length(octets, at + 1)
        else:
            size = (1, 2, 4, 0)[first & 3]
            if not size:
                raise ValueError(f"a packet of indeterminate length at {at}")
            kind, start = first >> 2 & 0xF, at + 1 + size
            length = int.from_bytes(octets[at + 1:start], "big")
        at = start + length
        if at > len(octets):
            raise ValueError("the last packet is cut")
        yield kind, octets[start:at]


def _new_length(octets: bytes, at: int) -> tuple[int, int]:
    lead = octets[at:at + 5]
    if not lead:
        raise ValueError("the last packet is cut")
    if lead[0] < 192:
        return at + 1, lead[0]
    if lead[0] < 224:
        return at + 2, (lead[0] - 192 << 8) + int.from_bytes(lead[1:2], "big") + 192
    if lead[0] == 255:
        return at + 5, int.from_bytes(lead[1:5], "big")
    raise ValueError(f"a packet of partial length before {at}")


def subpackets(area: bytes) -> Iterator[tuple[bool, int, bytes]]:
    """The subpackets of an area as (critical, type, body); ValueError if it is no list of them."""
    at = 0
    while at < len(area):
        lead = area[at]
        if lead < 192:
            start, length = at + 1, lead
        elif lead < 255:
            start, length = at + 2, (lead - 192 << 8) + int.from_bytes(area[at + 1:at + 2], "big") + 192
        else:
            start, length = at + 5, int.from_bytes(area[at + 1:at + 5], "big")
        at = start + length
        if not length or at > len(area):
            raise ValueError("the area isn't a list of subpackets")
        yield area[start] >= 0x80, area[start] & 0x7F, area[start + 1:at]
