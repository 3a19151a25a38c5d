"""Packets, subpackets and numbers as octets (RFC 9580, sections 3.2, 4.2 and 5.2.3.7)."""

SIGNATURE, PUBLIC_KEY, USER_ID, SUBKEY, USER_ATTRIBUTE = 2, 6, 13, 14, 17


def packet(kind: int, body: bytes) -> bytes:
    """A packet in the OpenPGP format, with the shortest length."""
    return bytes([0xC0 | kind]) + length(len(body)) + body


def length(count: int) -> bytes:
    """The length of a packet or of a subpacket, as short as it can be."""
    if count < 192:
        return bytes([count])
    if count < 8384:
        return bytes([192 + (count - 192) // 256, (count - 192) % 256])
    return b"\xff" + count.to_bytes(4, "big")


def subpacket(kind: int, content: bytes, critical: bool = False) -> bytes:
    """A subpacket of a signature; its length counts the octet of its type."""
    return length(len(content) + 1) + bytes([kind | (0x80 if critical else 0)]) + content


def integer(value: int) -> bytes:
    """A multiprecision integer."""
    return value.bit_length().to_bytes(2, "big") + value.to_bytes((value.bit_length() + 7) // 8, "big")


def seconds(value: int) -> bytes:
    """A time, or a period, in four octets."""
    return value.to_bytes(4, "big")


def packets(octets: bytes) -> list[tuple[int, bytes]]:
    """The packets of what `packet` wrote: the type and the octets of each."""
    found = []
    while octets:
        first, begin = octets[1], 2
        size = first
        if first == 255:
            size, begin = int.from_bytes(octets[2:6], "big"), 6
        elif first >= 192:
            size, begin = (first - 192) * 256 + octets[2] + 192, 3
        found.append((octets[0] & 0x3F, octets[: begin + size]))
        octets = octets[begin + size :]
    return found


def without_signature(octets: bytes, index: int) -> bytes:
    """A certificate without one of its signatures, counted from 0."""
    at = [place for place, (kind, _) in enumerate(packets(octets)) if kind == SIGNATURE][index]
    return b"".join(each for place, (_, each) in enumerate(packets(octets)) if place != at)


def with_packet(octets: bytes, index: int, added: bytes) -> bytes:
    """A certificate with octets before its packet of an index."""
    each = [spelled for _, spelled in packets(octets)]
    return b"".join([*each[:index], added, *each[index:]])


def in_old_format(octets: bytes) -> bytes:
    """The packets in the old format, with lengths of two octets."""
    old = b""
    for kind, spelled in packets(octets):
        body = spelled[2:] if spelled[1] < 192 else spelled[3:]
        old += bytes([0x80 | kind << 2 | 1]) + len(body).to_bytes(2, "big") + body
    return old
