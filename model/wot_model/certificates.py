"""Keys and certificates: made of packets, merged, exported; the numbers of signatures."""

import hashlib
from dataclasses import dataclass, field
from functools import cached_property, lru_cache

from .packets import write_packet

KEY, SIGNATURE, USER_ID, ATTRIBUTE, SUBKEY = 6, 2, 13, 17, 14
PASSED_OVER = {10, 12, 21}
DROPPED = range(40, 64)
COMPRESSED, SECRETS = 8, {5, 7}

# The octet of a place in a signature's number, by the packet type of the component.
PLACES = {None: 0, USER_ID: 1, ATTRIBUTE: 2, SUBKEY: 3}


class CertificateFault(Exception):
    """The packets aren't certificates. `words` are those of the refusal."""

    def __init__(self, *words):
        super().__init__(*words)
        self.words = words


def is_readable_key(body):
    """Whether it is of version 4, or of version 6 with as much material as it says (RFC 9580, section 5.5.2)."""
    if body[:1] == b"\4":
        return 6 <= len(body) <= 65535
    return body[:1] == b"\6" and 10 <= len(body) < 2**32 and int.from_bytes(body[6:10], "big") == len(body) - 10


@lru_cache(maxsize=None)
def fingerprint(body):
    """20 octets of a version 4 key, 32 of a version 6 key (RFC 9580, section 5.5.4)."""
    if body[0] == 6:
        return hashlib.sha256(b"\x9b" + len(body).to_bytes(4, "big") + body).digest()
    return hashlib.sha1(b"\x99" + len(body).to_bytes(2, "big") + body).digest()


@lru_cache(maxsize=None)
def number_of(key, place, component, signature):
    fields = b"wot1", key, bytes([place]), component, signature
    return hashlib.sha256(b"".join(len(part).to_bytes(4, "big") + part for part in fields)).digest()


def no_components():
    return {USER_ID: {}, ATTRIBUTE: {}, SUBKEY: {}}


@dataclass
class Certificate:
    """A key body, its direct signatures, and by packet type and body the signatures of each component."""

    body: bytes
    direct: set = field(default_factory=set)
    components: dict = field(default_factory=no_components)

    @property
    def fingerprint(self):
        return fingerprint(self.body)

    @property
    def created(self):
        return int.from_bytes(self.body[1:5], "big")

    @property
    def user_ids(self):
        return self.components[USER_ID]

    def places(self):
        """Each place of the certificate: packet type (None for the key), component body, signatures."""
        yield None, b"", self.direct
        for kind, components in self.components.items():
            for body in sorted(components):
                yield kind, body, components[body]

    def number(self, kind, component, signature):
        return number_of(self.body, PLACES[kind], component, signature)

    def signatures(self):
        """How many signatures it has."""
        return sum(len(signatures) for _, _, signatures in self.places())

    def items(self):
        """How many things it has: key, components and signatures."""
        return 1 + sum(map(len, self.components.values())) + self.signatures()

    @cached_property
    def size(self):
        """Only for a whole certificate: merging makes a new one."""
        return len(self.export())

    def export(self):
        packets = []
        for kind, body, signatures in self.places():
            packets.append(write_packet(KEY, self.body) if kind is None else write_packet(kind, body))
            packets.extend(write_packet(SIGNATURE, signature) for signature in sorted(signatures))
        return b"".join(packets)

    def united(self, other):
        """Two certificates of one key, merged at each place."""
        union = Certificate(self.body)
        for part in self, other:
            union.direct |= part.direct
            for kind, body, signatures in part.places():
                if kind is not None:
                    union.components[kind].setdefault(body, set()).update(signatures)
        return union


class Assembly:
    """Cuts a list of packets at its keys; a signature belongs to the last component before it, or to the key."""

    def __init__(self):
        self.certificates = []
        self.skipped = 0
        self.current = None
        self.signatures = None

    def begin(self, body):
        self.current = Certificate(body)
        self.signatures = self.current.direct
        if is_readable_key(body):
            self.certificates.append(self.current)
        else:
            self.skipped += 1

    def take(self, packet):
        kind = packet.kind
        if kind == COMPRESSED:
            raise CertificateFault("compressed")
        if kind in SECRETS:
            raise CertificateFault("secret")
        if kind == KEY:
            self.begin(packet.body)
        elif kind in DROPPED:
            self.signatures = set()
        elif kind in (SIGNATURE, USER_ID, ATTRIBUTE, SUBKEY):
            self.place(packet)
        elif kind not in PASSED_OVER:
            raise CertificateFault("kind", kind, packet.at)

    def place(self, packet):
        if self.current is None:
            raise CertificateFault("order", packet.at)
        if packet.kind == SIGNATURE:
            self.signatures.add(packet.body)
        else:
            self.signatures = self.current.components[packet.kind].setdefault(packet.body, set())


def assemble(packets):
    """The certificates of a list of packets, and how many keys were skipped; raises CertificateFault."""
    assembly = Assembly()
    for packet in packets:
        assembly.take(packet)
    if assembly.current is None:
        raise CertificateFault("empty")
    return assembly.certificates, assembly.skipped
