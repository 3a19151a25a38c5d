"""What others say in ways that make no certification, and certifications of every type."""

from cases import Bare, Case, Choice, path
from cast import alice, bob, carol, dave
from octets import subpacket
from people import COMPROMISED
from rules import (
    CERTIFICATIONS, DIRECT_BY_OTHERS, FOUR_TYPES, KEY_FLAGS, LOCAL, NOTATIONS, NO_EFFECT, STANDING, UNKNOWN_IGNORED,
)  # fmt: skip
from signatures import CASUAL, GENERIC, PERSONA, POSITIVE
from subkeys import certified_by_subkey, revoked_subkey

ROOT = [(alice, 120)]
TYPES = {GENERIC: "generic", PERSONA: "persona", CASUAL: "casual", POSITIVE: "positive"}


def of_type(kind: int) -> Case:
    return Case(
        f"type-{kind:x}-{TYPES[kind]}",
        f"Alice makes Bob an introducer by a {TYPES[kind]} certification (type {kind:#x}), and he certifies Carol by "
        "one of that type.",
        [alice.certifies(bob, depth=1, kind=kind), bob.certifies(carol, kind=kind)],
        ask=carol, answer=[path(120, alice, bob, carol)], rule=FOUR_TYPES, roots=ROOT, choices=[
            Choice(120, "Tukyamid, Sequoia", "the four types are alike"),
            Choice(0, "gpg", "it leaves persona certifications out (its option --min-cert-level)"),
        ] if kind == PERSONA else [],
    )  # fmt: skip


def of_no_type(kind: int, name: str) -> Case:
    return Case(
        f"type-{kind:x}",
        f"Alice makes a signature of type {kind:#x} on Bob's user ID: {name}.",
        [alice.certifies(bob, kind=kind)],
        ask=bob, answer=[], rule=CERTIFICATIONS, roots=ROOT,
    )  # fmt: skip


NOTATION = b"\x80\0\0\0" + b"\0\x11\0\3" + b"level@example.org" + b"one"
REVOKER = subpacket(12, b"\x80\x16" + dave.key.fingerprint)

CASES = [
    *map(of_type, TYPES),
    of_no_type(0x00, "one on data"), of_no_type(0x16, "an attestation"), of_no_type(0x40, "a timestamp"),
    of_no_type(0x50, "a confirmation"), of_no_type(0x14, "a type that nobody has defined"),
    of_no_type(0x1F, "a direct key signature, which belongs to a key"),
    Case(
        "direct-signature-by-the-root",
        "Alice, the root, signs Bob's key directly, with a trust signature of depth 1. He certifies Carol.",
        [alice.signs_key_of(bob, says=subpacket(5, b"\1\x78")), bob.certifies(carol)],
        ask=carol, answer=[], rule=DIRECT_BY_OTHERS, roots=ROOT, choices=[
            Choice(0, "Tukyamid, Sequoia, gpg", "only certifications of user IDs are edges"),
            Choice(120, "engines that take statements about the key itself", "RFC 9580 section 5.2.1 allows them"),
        ],
    ),
    Case(
        "direct-signature-asked-about-the-user-id",
        "Alice, the root, signs Bob's key directly. His user ID is asked about.",
        [alice.signs_key_of(bob)],
        ask=bob, answer=[], rule=DIRECT_BY_OTHERS, roots=ROOT,
    ),
    Case(
        "direct-signature-by-somebody-else-governs-nothing",
        "Alice certifies Bob. He has no self-signature, but Carol signed his key directly.",
        [Bare(bob), alice.certifies(bob), carol.signs_key_of(bob)],
        ask=bob, answer=[], rule=STANDING, roots=ROOT,
    ),
    Case(
        "designated-revoker",
        "Bob's direct key signature names Dave as a revoker of the key. Alice certifies Bob, and Dave revokes the key.",
        [bob.signs_own_key(says=REVOKER), alice.certifies(bob), dave.revokes_key(COMPROMISED, of=bob, on="2022-01-01")],
        ask=bob, answer=[path(120, alice, bob)], rule=NO_EFFECT, roots=ROOT, choices=[
            Choice(120, "Tukyamid", "designated revokers, which RFC 9580 deprecates, have no effect"),
            Choice(0, "gpg", "whoever is named as a revoker may revoke the key"),
        ],
    ),
    Case(
        "revoker-who-wasn-t-designated",
        "Bob's direct key signature names Dave as a revoker of the key. Alice certifies Bob; Carol revokes the key.",
        [bob.signs_own_key(says=REVOKER), alice.certifies(bob),
         carol.revokes_key(COMPROMISED, of=bob, on="2022-01-01")],
        ask=bob, answer=[path(120, alice, bob)], rule=NO_EFFECT, roots=ROOT,
    ),
    certified_by_subkey(), revoked_subkey(),
    Case(
        "local",
        "Alice certifies Bob by a certification that isn't exportable.",
        [alice.certifies(bob, says=subpacket(4, b"\0"))],
        ask=bob, answer=[path(120, alice, bob)], rule=LOCAL, roots=ROOT, choices=[
            Choice(120, "Tukyamid, gpg (of one's own)", "a local certification in the keyring counts there"),
            Choice(0, "programs that drop it when they import", "it wasn't to leave the keyring in which it was made"),
        ],
    ),
    Case(
        "exportable",
        "Alice certifies Bob by a certification that says that it is exportable.",
        [alice.certifies(bob, says=subpacket(4, b"\1"))],
        ask=bob, answer=[path(120, alice, bob)], rule=FOUR_TYPES, roots=ROOT,
    ),
    Case(
        "introducer-s-key-isn-t-for-certifying",
        "Alice makes Bob an introducer. The flags of his key say that it is for signing alone. He certifies Carol.",
        [bob.certifies_itself().but(says=subpacket(27, b"\x02")), alice.certifies(bob, depth=1), bob.certifies(carol)],
        ask=carol, answer=[path(120, alice, bob, carol)], rule=KEY_FLAGS, roots=ROOT, choices=[
            Choice(120, "Tukyamid", "flags of keys make no difference to certifications by primary keys"),
            Choice(0, "engines that look at the flags", "RFC 9580 section 5.2.3.29 has a flag for certifying others"),
        ],
    ),
    Case(
        "without-key-flags",
        "Alice makes Bob an introducer. His self-certification has no flags. He certifies Carol.",
        [bob.certifies_itself().but(says=b""), alice.certifies(bob, depth=1), bob.certifies(carol)],
        ask=carol, answer=[path(120, alice, bob, carol)], rule=KEY_FLAGS, roots=ROOT,
    ),
    Case(
        "notation",
        "Alice certifies Bob with a notation that isn't critical.",
        [alice.certifies(bob, says=subpacket(20, NOTATION))],
        ask=bob, answer=[path(120, alice, bob)], rule=UNKNOWN_IGNORED, roots=ROOT,
    ),
    Case(
        "critical-notation",
        "Alice certifies Bob with a critical notation that no engine knows.",
        [alice.certifies(bob, says=subpacket(20, NOTATION, critical=True))],
        ask=bob, answer=[], rule=NOTATIONS, roots=ROOT,
    ),
]  # fmt: skip
