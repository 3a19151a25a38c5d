"""Variants of a case that must not change its answer: they have the same certificates, written or sorted otherwise, or
further ones that have nothing to do with the question.

Each mutation is a function of the certificates of a case. Certificates that can't be parsed stay as they are.
"""

from __future__ import annotations

import base64
import random
from collections.abc import Callable, Iterator
from dataclasses import replace

import strangers
from case_files import Case
from packets import SIGNATURE, Component, Packet, areas, components, current, joined, legacy, subpacket, subpackets

Certificates = list[bytes]
Mutation = Callable[[Certificates, random.Random], Certificates]
Of = Callable[[list[Component], random.Random], list[Component]]
ISSUER, ISSUER_FINGERPRINT = 16, 33


def over_parts(change: Of) -> Mutation:
    """A mutation of each certificate by itself."""
    def mutated(certificates: Certificates, draw: random.Random) -> Certificates:
        found = []
        for one in certificates:
            parts = components(one)
            found.append(one if parts is None else joined(change(parts, draw)))
        return found
    return mutated


def over_packets(change: Callable[[Packet], bytes]) -> Mutation:
    """A mutation of how each packet is spelled."""
    def changed(parts: list[Component], _: random.Random) -> list[Component]:
        def other(packet: Packet) -> Packet:
            return replace(packet, spelled=change(packet))
        return [Component(other(part.head), tuple(map(other, part.rest))) for part in parts]
    return over_parts(changed)


def over_signatures(change: Callable[[Packet], list[bytes]]) -> Mutation:
    """A mutation of each signature into a list of bodies."""
    def changed(parts: list[Component], _: random.Random) -> list[Component]:
        return [Component(part.head, tuple(other for packet in part.rest for other in spelled(packet)))
                for part in parts]

    def spelled(packet: Packet) -> list[Packet]:
        if packet.kind != SIGNATURE:
            return [packet]
        return [packet if body == packet.body else Packet(SIGNATURE, body, current(SIGNATURE, body))
                for body in change(packet)]
    return over_parts(changed)


def reversed_certificates(certificates: Certificates, _: random.Random) -> Certificates:
    return certificates[::-1]


def shuffled(certificates: Certificates, draw: random.Random) -> Certificates:
    """The certificates in another order, and their components and signatures too."""
    mixed = over_parts(shuffled_parts)(certificates, draw)
    draw.shuffle(mixed)
    return mixed


def shuffled_parts(parts: list[Component], draw: random.Random) -> list[Component]:
    first, *others = [Component(part.head, tuple(draw.sample(part.rest, len(part.rest)))) for part in parts]
    return [first, *draw.sample(others, len(others))]


def reversed_parts(parts: list[Component], _: random.Random) -> list[Component]:
    first, *others = parts
    return [first, *others[::-1]]


def reversed_rest(parts: list[Component], _: random.Random) -> list[Component]:
    return [Component(part.head, part.rest[::-1]) for part in parts]


def doubled_parts(parts: list[Component], _: random.Random) -> list[Component]:
    """Each component a second time at the end, with its signatures."""
    return [*parts, *parts[1:]]


def divided_parts(parts: list[Component], _: random.Random) -> list[Component]:
    """Each component once with the first half of its signatures, and at the end once more with the others."""
    first, *others = parts
    halves = [(Component(part.head, part.rest[:len(part.rest) // 2]),
               Component(part.head, part.rest[len(part.rest) // 2:])) for part in others]
    return [first, *(one for one, _ in halves), *(other for _, other in halves)]


def doubled_certificates(certificates: Certificates, _: random.Random) -> Certificates:
    return [*certificates, *certificates]


def divided_certificates(certificates: Certificates, _: random.Random) -> Certificates:
    """Each certificate as several: one for each component, all with the primary key and its signatures."""
    found = []
    for one in certificates:
        parts = components(one)
        found += [one] if parts is None or len(parts) < 2 else [joined([parts[0], part]) for part in parts[1:]]
    return found


def other_area(change: Callable[[list[tuple[int, bytes]]], bytes], needs_issuer: bool = False) -> Mutation:
    """A mutation of the unhashed area of each signature; or only of those whose hashed area names the issuer."""
    def changed(packet: Packet) -> list[bytes]:
        found = areas(packet.body)
        listed = subpackets(found.unhashed) if found else None
        if found is None or listed is None:
            return [packet.body]
        hashed = subpackets(found.hashed) or []
        if needs_issuer and not any(kind in (ISSUER, ISSUER_FINGERPRINT) for kind, _ in hashed):
            return [packet.body]
        area = change(listed)
        return [found.with_unhashed(area) if len(area) < 0xFFFF else packet.body]
    return over_signatures(changed)


def spelled_area(listed: list[tuple[int, bytes]]) -> bytes:
    return b"".join(text for _, text in listed)


# What would change the answer if an unhashed area were believed: a depth and an amount, a regular expression that
# matches nothing, dates that have passed, a signature that can't be revoked, and a primary user ID.
LIES = b"".join([
    subpacket(2, (1).to_bytes(4, "big")), subpacket(3, (1).to_bytes(4, "big")), subpacket(5, b"\xff\xff"),
    subpacket(6, b"^nobody$\0"), subpacket(7, b"\0"), subpacket(9, (1).to_bytes(4, "big")), subpacket(25, b"\1"),
    subpacket(29, b"\2compromised"),
])
# Types for private use, a notation, and the name of a key that nobody has.
NOISE = b"".join([
    subpacket(100, b"private"), subpacket(110, b""),
    subpacket(20, b"\x80\0\0\0" + (4).to_bytes(2, "big") + (5).to_bytes(2, "big") + b"note" + b"value"),
])
WRONG_ISSUER = subpacket(ISSUER, bytes.fromhex("0123456789abcdef"))


def with_forged(packet: Packet) -> list[bytes]:
    """A signature between two copies that nobody made: one octet of the signature itself is another."""
    forged = packet.body[:-1] + bytes([packet.body[-1] ^ 1]) if areas(packet.body) else packet.body
    return [forged, packet.body, forged] if forged != packet.body else [packet.body]


def with_strangers(certificates: Certificates, _: random.Random) -> Certificates:
    return [*strangers.keyring(), *certificates]


def certified_by_strangers(certificates: Certificates, draw: random.Random) -> Certificates:
    """The certificates with a certification of each user ID by a stranger, whose keyring is there too."""
    changed = over_parts(lambda parts, _: strangers.certified(parts))(certificates, draw)
    return [*changed, *strangers.keyring()]


MUTATIONS: dict[str, Mutation] = {
    "certificates-reversed": reversed_certificates,
    "certificates-doubled": doubled_certificates,
    "certificates-divided": divided_certificates,
    "components-reversed": over_parts(reversed_parts),
    "components-doubled": over_parts(doubled_parts),
    "components-divided": over_parts(divided_parts),
    "signatures-reversed": over_parts(reversed_rest),
    "signatures-doubled": over_signatures(lambda packet: [packet.body, packet.body]),
    "signatures-forged": over_signatures(with_forged),
    "all-shuffled": shuffled,
    "current-format": over_packets(lambda packet: current(packet.kind, packet.body)),
    "current-format-long": over_packets(lambda packet: current(packet.kind, packet.body, is_long=True)),
    "legacy-format": over_packets(lambda one: legacy(one.kind, one.body) if one.kind < 16 else one.spelled),
    "legacy-format-long": over_packets(lambda one: legacy(one.kind, one.body, True) if one.kind < 16 else one.spelled),
    "unhashed-reversed": other_area(lambda listed: spelled_area(listed[::-1])),
    "unhashed-noise": other_area(lambda listed: NOISE + spelled_area(listed) + NOISE),
    "unhashed-lies": other_area(lambda listed: LIES + spelled_area(listed) + LIES),
    "unhashed-empty": other_area(lambda listed: b"", needs_issuer=True),
    "unhashed-other-issuer": other_area(lambda listed: WRONG_ISSUER + spelled_area(listed), needs_issuer=True),
    "strangers-mixed-in": with_strangers,
    "strangers-certify": certified_by_strangers,
}
NAMES = tuple(MUTATIONS)


def variants(case: Case, most: int) -> Iterator[tuple[str, Certificates]]:
    """Up to `most` variants of a case, each with the name of its mutation. None equals the case. The name of the case
    decides which they are."""
    given = list(case.certificates)
    for name in random.Random(case.place).sample(NAMES, len(NAMES)):
        other = MUTATIONS[name](given, random.Random(f"{case.place} {name}"))
        if other != given:
            yield name, other
            most -= 1
        if most <= 0:
            return


def encoded(certificates: Certificates) -> list[str]:
    """Certificates as in a case."""
    return [base64.b64encode(one).decode("ascii") for one in certificates]
