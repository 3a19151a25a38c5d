"""Packets (RFC 9580, section 4.2): read from octets, and written with the shortest length."""

from dataclasses import dataclass

NOT_A_PACKET, CUT_LENGTH, CUT_BODY, PARTIAL, INDETERMINATE = 1, 2, 3, 4, 5


class PacketFault(Exception):
    """The first malformed packet: why, and the offset of its first octet."""

    def __init__(self, why, at):
        super().__init__(why, at)
        self.why = why
        self.at = at


@dataclass(frozen=True)
class Packet:
    kind: int
    at: int
    body: bytes


def read_packets(octets):
    """The packets that the octets spell; raises PacketFault at the first malformed one."""
    packets = []
    at = 0
    while at < len(octets):
        kind, begin, length = read_header(octets, at)
        end = begin + length
        if end > len(octets):
            raise PacketFault(CUT_BODY, at)
        packets.append(Packet(kind, at, octets[begin:end]))
        at = end
    return packets


def read_header(octets, at):
    """The type of the packet at an offset, the offset of its body, and the body's length."""
    first = octets[at]
    if not first & 0x80:
        raise PacketFault(NOT_A_PACKET, at)
    if first & 0x40:
        begin, length = read_new_length(octets, at)
        return first & 0x3F, begin, length
    if first & 3 == 3:
        raise PacketFault(INDETERMINATE, at)
    begin, length = read_number(octets, at, at + 1, 1 << (first & 3))
    return first >> 2 & 0x0F, begin, length


def read_new_length(octets, at):
    """A length in the OpenPGP format, behind the first octet of the packet at an offset."""
    begin, first = read_number(octets, at, at + 1, 1)
    if first < 192:
        return begin, first
    if first < 224:
        begin, second = read_number(octets, at, begin, 1)
        return begin, (first - 192) * 256 + second + 192
    if first < 255:
        raise PacketFault(PARTIAL, at)
    return read_number(octets, at, begin, 4)


def read_number(octets, at, begin, count):
    """The big-endian number of some length octets, and the offset behind them."""
    end = begin + count
    if end > len(octets):
        raise PacketFault(CUT_LENGTH, at)
    return end, int.from_bytes(octets[begin:end], "big")


def write_packet(kind, body):
    """The packet in the OpenPGP format, its length as short as it can be."""
    return bytes([0xC0 | kind]) + shortest_length(len(body)) + body


def shortest_length(length):
    if length < 192:
        return bytes([length])
    if length < 8384:
        return bytes([192 + (length - 192) // 256, (length - 192) % 256])
    return b"\xff" + length.to_bytes(4, "big")
