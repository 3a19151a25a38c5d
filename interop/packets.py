"""Packets of a certificate, taken apart and spelled in every form that RFC 9580 allows (section 4.2), and the unhashed
areas of its signatures (section 5.2.3)."""

from __future__ import annotations

from collections.abc import Iterator
from dataclasses import dataclass

SIGNATURE, KEY, USER_ID, SUBKEY, ATTRIBUTE = 2, 6, 13, 14, 17
HEADS = (USER_ID, SUBKEY, ATTRIBUTE)
OTHER_KEYS = (5, 6, 7)


@dataclass(frozen=True)
class Packet:
    """A packet: its type, its body, and the octets that spell it."""

    kind: int
    body: bytes
    spelled: bytes


@dataclass(frozen=True)
class Component:
    """A key or a user ID, and the packets that follow it: mostly its signatures."""

    head: Packet
    rest: tuple[Packet, ...]


def split(octets: bytes) -> Iterator[Packet]:
    """The packets of octets. ValueError if they aren't a list of packets of definite length."""
    at = 0
    while at < len(octets):
        first = octets[at]
        if first & 0xC0 == 0xC0:
            kind, (start, length) = first & 0x3F, new_length(octets, at + 1)
        elif first & 0x80 and first & 3 != 3:
            kind, size = first >> 2 & 0xF, 1 << (first & 3)
            start, length = at + 1 + size, int.from_bytes(octets[at + 1:at + 1 + size], "big")
        else:
            raise ValueError(f"no packet of definite length at {at}")
        if start + length > len(octets):
            raise ValueError("the last packet is cut")
        yield Packet(kind, octets[start:start + length], octets[at:start + length])
        at = start + length


def new_length(octets: bytes, at: int) -> tuple[int, int]:
    """Where the body of a packet in the current format begins, and its length, which is spelled at this index."""
    lead = octets[at:at + 5]
    if len(lead) > 0 and lead[0] < 192:
        return at + 1, lead[0]
    if len(lead) > 1 and lead[0] < 224:
        return at + 2, (lead[0] - 192 << 8) + lead[1] + 192
    if len(lead) == 5 and lead[0] == 255:
        return at + 5, int.from_bytes(lead[1:], "big")
    raise ValueError(f"no definite length at {at}")


def components(octets: bytes) -> list[Component] | None:
    """The components of a certificate, the primary key first. None if it isn't one whose order can be changed: it can't
    be parsed, or has other keys."""
    try:
        packets = list(split(octets))
    except ValueError:
        return None
    if not packets or packets[0].kind != KEY or any(one.kind in OTHER_KEYS for one in packets[1:]):
        return None
    found: list[Component] = []
    for packet in packets:
        if packet.kind in HEADS or not found:
            found.append(Component(packet, ()))
        else:
            found[-1] = Component(found[-1].head, (*found[-1].rest, packet))
    return found


def joined(parts: list[Component]) -> bytes:
    """The octets of a certificate."""
    return b"".join(packet.spelled for part in parts for packet in (part.head, *part.rest))


def current(kind: int, body: bytes, is_long: bool = False) -> bytes:
    """A packet in the current format, with the shortest length or with one of five octets."""
    return bytes([0xC0 | kind]) + length_of(len(body), is_long) + body


def length_of(length: int, is_long: bool = False) -> bytes:
    """A length of the current format, as in packets and subpackets."""
    if is_long or length >= 8384:
        return b"\xff" + length.to_bytes(4, "big")
    if length < 192:
        return bytes([length])
    return bytes([(length - 192 >> 8) + 192, length - 192 & 0xFF])


def legacy(kind: int, body: bytes, is_long: bool = False) -> bytes:
    """A packet in the legacy format, with the shortest length or with one of four octets."""
    code = 2 if is_long or len(body) > 0xFFFF else 1 if len(body) > 0xFF else 0
    return bytes([0x80 | kind << 2 | code]) + len(body).to_bytes(1 << code, "big") + body


@dataclass(frozen=True)
class Areas:
    """A signature of version 4 or 6, cut at its unhashed area."""

    before: bytes
    hashed: bytes
    unhashed: bytes
    after: bytes
    width: int

    def with_unhashed(self, area: bytes) -> bytes:
        """The signature's body with another unhashed area."""
        return self.before + self.hashed + len(area).to_bytes(self.width, "big") + area + self.after


def areas(body: bytes) -> Areas | None:
    """The areas of a signature's body. None if it isn't a signature of version 4 or 6, or is cut short."""
    if body[:1] not in (b"\x04", b"\x06"):
        return None
    width = 2 if body[0] == 4 else 4
    start = 4 + width
    middle = start + int.from_bytes(body[4:start], "big")
    end = middle + width + int.from_bytes(body[middle:middle + width], "big")
    if end > len(body):
        return None
    return Areas(body[:start], body[start:middle], body[middle + width:end], body[end:], width)


def subpackets(area: bytes) -> list[tuple[int, bytes]] | None:
    """The subpackets of an area: the type without its critical bit, and the octets that spell each. None if it isn't a
    list of subpackets."""
    found, at = [], 0
    while at < len(area):
        lead = area[at]
        size = 1 if lead < 192 else 2 if lead < 255 else 5
        length = (lead if size == 1 else (lead - 192 << 8) + int.from_bytes(area[at + 1:at + 2], "big") + 192
                  if size == 2 else int.from_bytes(area[at + 1:at + 5], "big"))
        end = at + size + length
        if not length or end > len(area):
            return None
        found.append((area[at + size] & 0x7F, area[at:end]))
        at = end
    return found


def subpacket(kind: int, body: bytes) -> bytes:
    """A subpacket that isn't critical."""
    return length_of(len(body) + 1) + bytes([kind]) + body
