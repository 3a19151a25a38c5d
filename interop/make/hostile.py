"""Forged signatures, and octets that are no certificate or not quite one."""

from collections.abc import Callable, Sequence

from cases import Altered, Bare, Case, Choice, Entry, Named, Part, certificate, path
from cast import alice, bob, carol, dave
from octets import (
    PUBLIC_KEY, SIGNATURE, SUBKEY, USER_ATTRIBUTE, USER_ID, in_old_format, integer, packet, seconds, with_packet,
    without_signature,
)  # fmt: skip
from people import Person, day
from rules import (
    ANY_OTHER, BELONGS, COMPRESSED, CRITICAL_PACKET, DROPPED, EITHER_FORMAT, IGNORED_PACKETS, KEPT_ONCE, MADE_IT,
    MALFORMED, MERGED, NEVER, NON_CRITICAL, NOT_HALT, ORDER_OF_PACKETS, OTHER_SIGNATURES, REFUSED, STANDING, S_RANGE,
    USER_ID_HASHED, WHOLE, Rule,
)  # fmt: skip

ROOT = [(alice, 120)]
mallory = Person("Mallory")
impostor = Person("Impostor", spelled=alice.user_id)
ORDER_OF_CURVE = 2**252 + 27742317777372353535851937790883648493


def forged(name: str, title: str, how: Callable[[bytes], bytes], rule: Rule, *choices: Choice) -> Case:
    """Alice's certification of Bob is changed somehow, and isn't hers any more."""
    return Case(
        name, f"Alice certifies Bob, and {title}.", [alice.certifies(bob).but(spoiled=how)],
        ask=bob, answer=[], rule=rule, roots=ROOT, choices=choices,
    )  # fmt: skip


def beside(name: str, title: str, octets: bytes, rule: Rule, stops: str = "") -> Case:
    """Octets that are no certificate stand among others, which are in order; they may stop an engine."""
    return Case(
        name, f"Alice certifies Bob. Among the certificates stands {title}.", [alice.certifies(bob), Entry(octets)],
        ask=bob, answer=[path(120, alice, bob)], rule=rule, roots=ROOT, choices=[
            Choice(120, "Tukyamid, gpg", "what isn't a certificate is left out"),
            Choice(0, stops, "nothing is read of a keyring with such octets"),
        ] if stops else [],
    )  # fmt: skip


def inside(name: str, title: str, how: Callable[[bytes], bytes], counts: int, rule: Rule, *choices: Choice) -> Case:
    """Bob's certificate, with Alice's certification, is changed somehow."""
    return Case(
        name, f"Alice certifies Bob. {title}", [alice.certifies(bob), Altered(bob, how)],
        ask=bob, answer=[path(counts, alice, bob)] if counts else [], rule=rule, roots=ROOT, choices=choices,
    )  # fmt: skip


def turned(at: int) -> Callable[[bytes], bytes]:
    """Turns the lowest bit of an octet."""
    def turn(octets: bytes) -> bytes:
        changed = bytearray(octets)
        changed[at] ^= 1
        return bytes(changed)

    return turn


def with_great_s(body: bytes) -> bytes:
    """An Ed25519 signature with its second number greater by the order of the group, which some code accepts."""
    at = len(body) - 2 - (int.from_bytes(s_of(body)[:2], "big") + 7) // 8
    little = int.from_bytes(body[at + 2 :].rjust(32, b"\0"), "little") + ORDER_OF_CURVE
    return body[:at] + integer(int.from_bytes(little.to_bytes(32, "little"), "big"))


def s_of(body: bytes) -> bytes:
    """The second number of an EdDSALegacy signature of version 4, with its length."""
    hashed = 6 + int.from_bytes(body[4:6], "big")
    first = hashed + 2 + int.from_bytes(body[hashed : hashed + 2], "big") + 2
    return body[first + 2 + (int.from_bytes(body[first : first + 2], "big") + 7) // 8 :]


CUT = Choice(0, "Tukyamid, gpg", "octets with a malformed packet are imported as a whole or not at all")

FORGED = [
    forged("signature-with-a-turned-bit", "one bit of the signature's number is turned", turned(-1), MADE_IT),
    forged("signature-with-a-turned-bit-in-the-hashed-area", "one bit of the hashed creation time is turned",
           turned(11), MADE_IT),
    forged("digest-with-a-turned-bit", "one bit of the two octets of the digest that a signature shows is turned",
           lambda body: body[: -len(s_of(body)) - 35] + bytes([body[-len(s_of(body)) - 35] ^ 1])
           + body[-len(s_of(body)) - 34 :], MADE_IT,
           Choice(0, "Tukyamid, Sequoia", "the two octets are those of another digest"),
           Choice(120, "gpg", "the number that was signed is right")),
    forged("signature-with-a-great-number", "the group's order was added to the second number of her Ed25519 "
           "signature", with_great_s, S_RANGE),
    forged("signature-of-nothing", "nothing follows the two octets of the digest",
           lambda body: body[: -len(s_of(body)) - 34], MALFORMED),
    forged("signature-cut-in-the-number", "the last octet of her signature is missing", lambda body: body[:-1],
           MALFORMED),
    forged("signature-of-another-type", "the type was changed to that of a persona certification", turned(1), MADE_IT),
    forged("hash-algorithm-that-nobody-has", "the hash algorithm is said to be number 99",
           lambda body: body[:3] + b"\x63" + body[4:], NEVER),
    forged("signature-of-version-3", "the signature is said to be of version 3", lambda body: b"\3" + body[1:],
           OTHER_SIGNATURES),
    forged("signature-of-version-5", "the signature is said to be of version 5", lambda body: b"\5" + body[1:],
           OTHER_SIGNATURES),
    forged("signature-of-version-6-in-a-form-of-4", "the signature is said to be of version 6, in the form of version "
           "4", lambda body: b"\6" + body[1:], MALFORMED),
    forged("empty-signature", "only the signature's packet is left, without a body", lambda body: b"", MALFORMED),
    Case(
        "made-by-somebody-else",
        "Mallory certifies Bob, and the signature says that Alice made it.",
        [alice.certifies(bob).forged_by(mallory)],
        ask=bob, answer=[], rule=MADE_IT, roots=ROOT,
    ),
    Case(
        "somebody-of-the-same-name",
        "Somebody whose user ID is that of Alice, the root, certifies Bob.",
        [impostor.certifies(bob)],
        ask=bob, answer=[], rule=MADE_IT, roots=ROOT,
    ),
    Case(
        "user-id-planted",
        "Alice certifies Carol. Mallory puts the user ID of Carol into her own certificate, with a copy of Alice's "
        "certification, and a self-certification.",
        [mallory.certifies_itself(mallory.known_as(carol.user_id)), alice.certifies(carol).moved(into=mallory)],
        ask=mallory.known_as(carol.user_id), answer=[], rule=USER_ID_HASHED, roots=ROOT,
    ),
    Case(
        "self-certification-planted",
        "Alice certifies Bob. Mallory puts a user ID of hers into his certificate, and certifies it with her key.",
        [alice.certifies(bob), mallory.certifies(bob.known_as("Mallory"), kind=0x13)],
        ask=bob.known_as("Mallory"), answer=[], rule=MADE_IT, roots=ROOT,
    ),
    Case(
        "revocation-planted",
        "Alice certifies Bob. A revocation of Carol's key stands in Bob's certificate.",
        [alice.certifies(bob), Altered(bob, lambda octets: with_packet(octets, 1, packet(
            SIGNATURE, carol.revokes_key(2, on="2022-01-01").body())))],
        ask=bob, answer=[path(120, alice, bob)], rule=MADE_IT, roots=ROOT,
    ),
    Case(
        "forged-beside-a-real-one",
        "Alice certifies Bob with amount 40. A forged certification by her with amount 120 is newer.",
        [alice.certifies(bob, depth=0, amount=40),
         alice.certifies(bob, depth=0, amount=120, on="2022-01-01").but(spoiled=turned(-1))],
        ask=bob, answer=[path(40, alice, bob)], rule=NOT_HALT, roots=ROOT,
    ),
]  # fmt: skip

BESIDE = [
    beside("no-octets-of-openpgp", "a text", b"This is no certificate.\n", WHOLE, "Sequoia"),
    beside("zero-octets", "a row of zero octets", bytes(64), WHOLE, "Sequoia"),
    beside("only-a-user-id", "a user ID without a key before it", packet(USER_ID, alice.user_id), ORDER_OF_PACKETS,
           "Sequoia"),
    beside("only-a-signature", "a signature without a key before it",
           packet(SIGNATURE, carol.certifies(bob).body()), ORDER_OF_PACKETS, "Sequoia"),
    beside("only-a-key-cut-short", "a key that is cut short", packet(PUBLIC_KEY, dave.key.body)[:-5], WHOLE,
           "Sequoia"),
    beside("secret-key", "a packet of a secret key, whose material is nonsense",
           packet(5, dave.key.body + b"\0" + integer(7) + bytes(2)), REFUSED, "Sequoia"),
    beside("compressed-data", "compressed data", packet(8, b"\1\3\0"), COMPRESSED, "Sequoia"),
    beside("literal-data", "a message that isn't encrypted", packet(11, b"b\0" + bytes(4) + b"Hello"), ANY_OTHER,
           "Sequoia"),
    beside("key-of-no-algorithm", "a key of an algorithm that nobody has, with a user ID",
           packet(PUBLIC_KEY, b"\4" + seconds(day("2020-01-01")) + b"\x63\1\2\3") + packet(USER_ID, b"Nobody"),
           STANDING),
    beside("length-beyond-the-end", "a packet that says that it has 4 GiB",
           b"\xc6\xff\xff\xff\xff\xff" + dave.key.body, WHOLE),
]  # fmt: skip

INSIDE = [
    inside("old-packet-format", "Bob's certificate has the old packet format.", in_old_format, 120, EITHER_FORMAT),
    inside("marker-packet", "A marker packet stands before her certification.",
           lambda octets: with_packet(octets, 3, packet(10, b"PGP")), 120, IGNORED_PACKETS),
    inside("trust-packet", "A trust packet stands before her certification.",
           lambda octets: with_packet(octets, 3, packet(12, b"\0\0")), 120, IGNORED_PACKETS),
    inside("padding-packet", "A padding packet stands at the end of Bob's certificate.",
           lambda octets: octets + packet(21, bytes(16)), 120, IGNORED_PACKETS,
           Choice(120, "Tukyamid, Sequoia, gpg", "padding is ignored"),
           Choice(0, "engines that don't know RFC 9580", "a packet type that was unknown before may be refused")),
    inside("non-critical-packet-at-the-end", "A packet of an unknown non-critical type, 60, stands at the end.",
           lambda octets: octets + packet(60, b"something"), 120, NON_CRITICAL),
    inside("non-critical-packet-before-the-certification", "A packet of an unknown non-critical type, 60, stands "
           "before her certification.", lambda octets: with_packet(octets, 3, packet(60, b"something")), 0, DROPPED,
           Choice(0, "Tukyamid", "the signatures after such a packet belong to it"),
           Choice(120, "Sequoia, gpg", "an unknown non-critical packet is ignored")),
    inside("critical-packet", "A packet of an unknown critical type, 39, stands at the end of Bob's certificate.",
           lambda octets: octets + packet(39, b"something"), 0, CRITICAL_PACKET,
           Choice(0, "Tukyamid", "the whole packet sequence is refused"),
           Choice(120, "Sequoia, gpg", "the standard says SHOULD")),
    inside("cut-in-the-certification", "Bob's certificate is cut short in her certification, the last packet.",
           lambda octets: octets[:-9], 0, WHOLE),
    inside("cut-after-the-certification", "After her certification stands a signature that is cut short.",
           lambda octets: octets + packet(SIGNATURE, carol.certifies(bob).body())[:-9], 0, WHOLE, CUT,
           Choice(120, "Sequoia", "what was read before the fault counts")),
    inside("octets-after-the-end", "After the last packet of Bob's certificate stand octets that are no packet.",
           lambda octets: octets + b"\n\n", 0, WHOLE, CUT,
           Choice(120, "engines that keep what they could read", "the packets before the fault are in order")),
    inside("user-attribute", "Bob's certificate has a user attribute too, which nobody signed.",
           lambda octets: octets + packet(USER_ATTRIBUTE, b"\x02\x64x"), 120, KEPT_ONCE),
    inside("subkey-without-a-binding", "Bob's certificate has a subkey that nothing binds to it.",
           lambda octets: octets + packet(SUBKEY, dave.key.body), 120, KEPT_ONCE),
    inside("certification-after-a-subkey", "Her certification stands after a subkey, and not after his user ID.",
           lambda octets: with_packet(octets, 3, packet(SUBKEY, dave.key.body)), 0, BELONGS,
           Choice(0, "Tukyamid", "a signature belongs to the last component before it"),
           Choice(120, "Sequoia, gpg", "it fits the user ID, and nothing else")),
    inside("certification-before-the-user-id", "Her certification stands directly after his key.",
           lambda octets: with_packet(without_signature(octets, 1), 1, packet(
               SIGNATURE, alice.certifies(bob).body())), 0, BELONGS,
           Choice(0, "Tukyamid", "a signature belongs to the last component before it"),
           Choice(120, "Sequoia, gpg", "it fits the user ID, and nothing else")),
    inside("everything-twice", "Bob's certificate stands in its entry twice.", lambda octets: octets + octets, 120,
           MERGED),
    inside("certification-twice", "Her certification stands twice in Bob's certificate.",
           lambda octets: octets + packet(SIGNATURE, alice.certifies(bob).body()), 120, KEPT_ONCE),
]  # fmt: skip


def in_pieces(name: str, title: str, *parts: Part, choices: Sequence[Choice] = ()) -> Case:
    paths = [path(120, alice, bob)]
    return Case(name, title, list(parts), ask=bob, answer=paths, rule=MERGED, roots=ROOT, choices=choices)


PIECES = [
    in_pieces("in-two-pieces", "Alice certifies Bob. One entry has his certificate without her certification, another "
              "has it without his own.",
              Named(bob.known_as(bob.user_id)), Entry(certificate(bob, [Bare(bob), alice.certifies(bob)])), choices=[
        Choice(120, "Tukyamid", "what is new in a certificate of the same key is added"),
        Choice(0, "Sequoia, gpg", "a user ID is left out that has no self-certification in its own entry"),
    ]),
    in_pieces("twice-among-the-certificates", "Alice certifies Bob. His certificate stands twice among the others.",
              alice.certifies(bob), Entry(certificate(bob, [alice.certifies(bob)]))),
    in_pieces("key-alone-too", "Alice certifies Bob. Another entry has his key and nothing else.",
              alice.certifies(bob), Entry(packet(PUBLIC_KEY, bob.key.body))),
]

CASES = [*FORGED, *BESIDE, *INSIDE, *PIECES]
