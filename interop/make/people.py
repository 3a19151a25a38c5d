"""People with keys, and what they say about each other's keys: the words in which the cases are written.

    alice.certifies(bob, depth=1, amount=60, scope=["@example.org>$"])
    bob.certifies(carol.known_as("Carol at work <carol@work.example>"), on="2022-03-01")
    bob.revokes_key(SUPERSEDED, on="2022-01-01")
"""

import hashlib
from collections.abc import Callable, Sequence
from dataclasses import dataclass, field, replace
from datetime import datetime, timezone
from functools import cached_property

import signatures as sig
from keys import Key
from octets import seconds, subpacket
from signatures import Spelling

# When keys are made, when certifications are, and when questions are asked, unless a case says otherwise.
KEYS_MADE, CERTIFIED, NOW = "2020-01-01", "2021-01-01", "2024-01-01"
DAY = 86400
NO_REASON, SUPERSEDED, COMPROMISED, RETIRED, INVALID_USER_ID = 0, 1, 2, 3, 32
CERTIFY_AND_SIGN = subpacket(27, b"\x03")


def day(text: str) -> int:
    """The seconds since 1970 of a day's beginning, or of a time of the day: "2021-01-01" or "2021-01-01 12:30:00"."""
    return int(datetime.fromisoformat(text).replace(tzinfo=timezone.utc).timestamp())


@dataclass(frozen=True)
class Statement:
    """A signature that a person makes on a key, or on a user ID of the key.

    `says` is what its hashed area has after the creation time and before the issuer, `on` a day or None for none.
    """

    issuer: "Person"
    target: "Person"
    user_id: bytes | None
    kind: int
    on: str | None
    says: bytes = b""
    hash: int = sig.SHA256
    version: int | None = None
    names_issuer: bool = True
    unhashed: bytes | None = None
    frame: int | None = None
    forger: "Person | None" = None
    place: "Binding | None" = None
    spoiled: "Callable[[bytes], bytes] | None" = None
    is_apart: bool = False

    @property
    def hashed(self) -> bytes:
        created = b"" if self.on is None else subpacket(2, seconds(day(self.on)))
        return created + self.says + (sig.issuer_fingerprint(self.issuer.key) if self.names_issuer else b"")

    def body(self) -> bytes:
        """The body of its packet."""
        key = self.issuer.key
        hint = sig.issuer_key_id(key) if self.unhashed is None else self.unhashed
        spelling = Spelling(self.kind, self.hashed, hint, self.hash, self.version, self.frame)
        signer = self.forger.key if self.forger else key
        octets = sig.signed_by(signer, self.target.key, self.user_id, spelling)
        return self.spoiled(octets) if self.spoiled else octets

    def number(self) -> bytes:
        """The signature's number, as the profile defines it; of two of one second, the greater is the newer."""
        place, component = (0, b"") if self.user_id is None else (1, self.user_id)
        fields = b"wot1", self.target.key.body, bytes([place]), component, self.body()
        return hashlib.sha256(b"".join(seconds(len(each)) + each for each in fields)).digest()

    @property
    def stands_on(self) -> "tuple[Person, bytes | None]":
        """The person in whose certificate it stands, and the user ID after which it does."""
        return (self.place.person, self.place.user_id) if self.place else (self.target, self.user_id)

    def forged_by(self, forger: "Person") -> "Statement":
        """This statement as somebody else makes it, who says that its issuer did."""
        return replace(self, forger=forger)

    def moved(self, to: bytes | None = None, into: "Person | None" = None) -> "Statement":
        """This statement at a place for which it wasn't made: after another user ID, or in another certificate."""
        user_id = to or self.user_id or b""
        return replace(self, place=Binding(into or self.target, user_id))

    def apart(self) -> "Statement":
        """This statement after a second packet of its user ID."""
        return replace(self, is_apart=True)

    def but(self, **changes: object) -> "Statement":
        """This statement with something changed."""
        return replace(self, **changes)


@dataclass(frozen=True)
class Binding:
    """A user ID of a person."""

    person: "Person"
    user_id: bytes


@dataclass(frozen=True)
class Person:
    """Somebody with a key. The name is the seed of the key."""

    name: str
    made: str = KEYS_MADE
    version: int = 4
    is_rsa: bool = False
    bits: int = 2048
    spelled: bytes | None = field(default=None)

    @cached_property
    def key(self) -> Key:
        return Key(self.name, day(self.made), self.version, self.is_rsa, self.bits)

    @property
    def user_id(self) -> bytes:
        """The first user ID: Alice <alice@example.org>."""
        return self.spelled or f"{self.name} <{self.name.lower().replace(' ', '.')}@example.org>".encode()

    def known_as(self, user_id: str | bytes) -> Binding:
        """Another user ID."""
        return Binding(self, user_id if isinstance(user_id, bytes) else user_id.encode())

    def certifies(
        self,
        whom: "Person | Binding",
        depth: int | None = None,
        amount: int = 120,
        scope: Sequence[str | bytes] = (),
        on: str = CERTIFIED,
        days: int = 0,
        kind: int = sig.GENERIC,
        says: bytes = b"",
        hash: int = sig.SHA256,
    ) -> Statement:
        """A certification of a user ID; with a depth also a trust signature. It expires after some days, if any."""
        binding = binding_of(whom)
        trust = b"" if depth is None else subpacket(5, bytes([depth, amount]))
        scoped = b"".join(subpacket(6, as_octets(each) + b"\0") for each in scope)
        period = expires_after(days) if days else b""
        return Statement(self, binding.person, binding.user_id, kind, on, trust + scoped + period + says, hash)

    def certifies_itself(
        self, as_whom: "Binding | None" = None, on: str | None = None, says: bytes = b"", hash: int = sig.SHA256
    ) -> Statement:
        """A self-certification of a user ID, by default of the first one when the key is made."""
        binding = as_whom or binding_of(self)
        return Statement(
            self, self, binding.user_id, sig.POSITIVE, on or self.made, CERTIFY_AND_SIGN + says, hash
        )

    def signs_own_key(self, on: str | None = None, says: bytes = b"", hash: int = sig.SHA256) -> Statement:
        """A direct key signature on the own key."""
        return Statement(self, self, None, sig.DIRECT, on or self.made, CERTIFY_AND_SIGN + says, hash)

    def signs_key_of(self, whom: "Person", says: bytes = b"") -> Statement:
        """A direct key signature on somebody else's key."""
        return Statement(self, whom, None, sig.DIRECT, CERTIFIED, says)

    def revokes_key(self, reason: int | None, on: str, of: "Person | None" = None, says: bytes = b"") -> Statement:
        """A revocation of the own key, or an attempt on somebody else's, for a reason of section 5.2.3.31."""
        return Statement(self, of or self, None, sig.KEY_REVOCATION, on, because(reason) + says)

    def revokes_certification(
        self, of: "Person | Binding", on: str, reason: int | None = NO_REASON, says: bytes = b""
    ) -> Statement:
        """A revocation of this person's certification of a user ID, somebody else's or the own."""
        binding = binding_of(of)
        kind = sig.CERTIFICATION_REVOCATION
        return Statement(self, binding.person, binding.user_id, kind, on, because(reason) + says)

    def revokes_direct_signature(self, on: str, reason: int | None = NO_REASON) -> Statement:
        """A revocation of the direct key signature on the own key."""
        return Statement(self, self, None, sig.CERTIFICATION_REVOCATION, on, because(reason))


def binding_of(whom: Person | Binding) -> Binding:
    return whom if isinstance(whom, Binding) else Binding(whom, whom.user_id)


def because(reason: int | None) -> bytes:
    """A reason for revocation, without a text; nothing if there is none."""
    return b"" if reason is None else subpacket(29, bytes([reason]))


def expires_after(days: int) -> bytes:
    """The validity period of a signature."""
    return subpacket(3, seconds(days * DAY))


def key_expires_after(days: int) -> bytes:
    """The validity period of a key, said by a self-signature."""
    return subpacket(9, seconds(days * DAY))


def as_octets(text: str | bytes) -> bytes:
    return text if isinstance(text, bytes) else text.encode()
