"""What certificates and verdicts say, gathered from a dump as it comes, for an overview."""

import hashlib
from binascii import a2b_hex
from collections import defaultdict
from collections.abc import Iterable, Iterator
from typing import NamedTuple

from ..openpgp.certificates import ATTRIBUTE, CERTIFICATIONS, KEY, SIGNATURE, SUBKEY, USER_ID, key_fingerprint, packets
from ..openpgp.signatures import DIRECT, read_signature
from ..protocol.spelling import for_people

_MADE, _LASTS, _KEY_LASTS = 2, 3, 9  # Subpackets with a time of four octets.
_OF_IMPORT, _OF_GOOD = b"import ", b" good "
_NUMBER, _WORD, _ISSUER = slice(8, 72), slice(72, 78), slice(78, None)  # The fields of a line `verdict`.


class Fact(NamedTuple):
    """A signature: its certificate, its type, when it is made and ends, its hash algorithm, its user ID, and the
    validity period that it gives the key."""
    fpr: str
    kind: int
    made: int
    ends: int | None
    algorithm: int
    user_id: bytes
    key_lasts: int


class Facts:
    """The certificates, and their signatures that were verified."""

    def __init__(self) -> None:
        self.names: dict[str, str] = {}
        self.created: dict[str, int] = {}
        self.bindings = 0
        self.good: list[tuple[str, Fact]] = []
        self.self_signatures: dict[str, list[Fact]] = defaultdict(list)
        self._by_number: dict[bytes, Fact] = {}

    def name(self, fpr: str) -> str:
        return self.names.get(fpr, "")

    def gather(self, pieces: Iterable[bytes]) -> Iterator[bool]:
        """Takes a dump in pieces that end anywhere. Yields for each piece whether certificates were in it: a dump has
        them first."""
        rest = b""
        for piece in pieces:
            *lines, rest = (rest + piece).split(b"\n")
            yield self._take_lines(lines)
        self._by_number.clear()

    def _take_lines(self, lines: list[bytes]) -> bool:
        certificates = False
        find, take = self._by_number.get, self._take_verdict
        for line in lines:
            if line.startswith(_OF_IMPORT):
                self._take_certificate(a2b_hex(line[len(_OF_IMPORT):]))
                certificates = True
            elif line[_WORD] == _OF_GOOD and (fact := find(line[_NUMBER])) is not None:
                take(fact, line[_ISSUER].decode("ascii"))
        return certificates

    def _take_certificate(self, octets: bytes) -> None:
        """Reads what the engine exported in one pass: the numbers of signatures are most of the work, and what they
        have in common is hashed once."""
        fpr, key, user_ids = "", b"", dict[bytes, None]()
        user_id = b""
        start: "hashlib._Hash | None" = None  # Of the numbers of the component's signatures, if it has facts.
        for packet_type, body in packets(octets):
            if packet_type == SIGNATURE:
                if start is not None and (fact := _fact_of(fpr, user_id, body)) is not None:
                    number = start.copy()
                    number.update(_with_length(body))
                    self._by_number[number.hexdigest().encode("ascii")] = fact
            elif packet_type == KEY:
                fpr, key, user_id, start = key_fingerprint(body), body, b"", _start_of(body, 0, b"")
                self.created[fpr] = int.from_bytes(body[1:5], "big")
            elif packet_type == USER_ID:
                user_ids[body] = None
                user_id, start = body, _start_of(key, 1, body)
            elif packet_type in (ATTRIBUTE, SUBKEY):
                start = None
        self.names[fpr] = for_people(next(iter(user_ids), b""))
        self.bindings += len(user_ids)

    def _take_verdict(self, fact: Fact, issuer: str) -> None:
        if issuer == fact.fpr:
            self.self_signatures[issuer].append(fact)
        elif fact.kind in CERTIFICATIONS:
            self.good.append((issuer, fact))


def _with_length(octets: bytes) -> bytes:
    return len(octets).to_bytes(4, "big") + octets


def _start_of(key: bytes, kind: int, component: bytes) -> "hashlib._Hash":
    """The hash of what the numbers of a component's signatures begin with (see signature_number)."""
    return hashlib.sha256(b"".join(map(_with_length, (b"wot1", key, bytes([kind]), component))))


def _fact_of(fpr: str, user_id: bytes, body: bytes) -> Fact | None:
    """What a certification or a direct signature says; None if it is another one, or not well-formed."""
    times = times_of(body)
    if times is None or (body[1] not in CERTIFICATIONS and body[1] != DIRECT):
        return None
    made, lasts, key_lasts = times
    return Fact(fpr, body[1], made, made + lasts if lasts else None, body[3], user_id, key_lasts)


def times_of(body: bytes) -> tuple[int, int, int] | None:
    """When a signature is made, how long it lasts, and how long it says that its key does; None if it isn't
    well-formed. The usual subpackets are read here, ten times as quickly as all that there may be."""
    times = _usual_times(body)
    if times is None:
        said = read_signature(body)
        return (said.made, said.lasts, said.key_lasts) if said.sound else None
    return times


def _usual_times(body: bytes) -> tuple[int, int, int] | None:
    """The times of a signature of version 4 with short subpackets, none of which is critical but for those with times;
    None of another one."""
    size = len(body)
    if size < 10 or body[0] != 4:
        return None
    at, made, lasts, key_lasts = 6, -1, 0, 0
    end = at + (body[4] << 8) + body[5]
    if size < end + 4 or size < end + 4 + (body[end] << 8) + body[end + 1]:
        return None
    while at < end:
        length, kind = body[at], body[at + 1]
        if not 0 < length < 192:
            return None
        if kind & 0x7F in (_MADE, _LASTS, _KEY_LASTS):
            if length != 5:
                return None
            value = int.from_bytes(body[at + 2:at + 6], "big")
            if kind & 0x7F == _MADE:
                made = value
            elif kind & 0x7F == _LASTS:
                lasts = value
            else:
                key_lasts = value
        elif kind >= 0x80:
            return None
        at += 1 + length
    return (made, lasts, key_lasts) if at == end and made >= 0 else None
