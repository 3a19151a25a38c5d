"""Cases with a subkey: who it certifies, and what happens if it is revoked."""

from cases import Altered, Case, Choice, path
from cast import alice, bob
from octets import SIGNATURE, SUBKEY, packet, seconds, subpacket
from people import KEYS_MADE, Person, day
from rules import NO_EFFECT, SUBKEY_REVOKED
from signatures import Spelling, framed, issuer_fingerprint, over

own_subkey = Person("Alice's subkey")
BINDING, BACK, SUBKEY_REVOCATION = 0x18, 0x19, 0x28


def on_subkey(kind: int, says: bytes, by: Person = alice) -> bytes:
    """The body of a signature on Alice's subkey, by her key or by the subkey itself."""
    hashed = subpacket(2, seconds(day(KEYS_MADE))) + says + issuer_fingerprint(by.key)
    both = framed(alice.key, 4) + framed(own_subkey.key, 4)
    return over(by.key, both, Spelling(kind, hashed))


def bound(flags: bytes) -> bytes:
    """The packets of the subkey and its binding."""
    agreed = subpacket(32, on_subkey(BACK, b"", own_subkey))
    return packet(SUBKEY, own_subkey.key.body) + packet(SIGNATURE, on_subkey(BINDING, subpacket(27, flags) + agreed))


def certified_by_subkey() -> Case:
    return Case(
        "certified-by-a-subkey",
        "Alice's key has a subkey whose flags say that it may certify. The subkey certifies Bob.",
        [Altered(alice, lambda octets: octets + bound(b"\x01")), own_subkey.certifies(bob)],
        ask=bob, answer=[], rule=NO_EFFECT, roots=[(alice, 120)], choices=[
            Choice(0, "Tukyamid, Sequoia, gpg", "certifications by subkeys have no effect"),
            Choice(120, "engines that take every key that may certify", "RFC 9580 section 5.2.3.29 has flags for it"),
        ],
    )  # fmt: skip


def revoked_subkey() -> Case:
    revoked = packet(SIGNATURE, on_subkey(SUBKEY_REVOCATION, subpacket(29, b"\x02")))
    return Case(
        "subkey-revoked",
        "Alice certifies Bob. A subkey of hers is revoked as compromised, and her primary key isn't.",
        [Altered(alice, lambda octets: octets + bound(b"\x02") + revoked), alice.certifies(bob)],
        ask=bob, answer=[path(120, alice, bob)], rule=SUBKEY_REVOKED, roots=[(alice, 120)],
    )  # fmt: skip
