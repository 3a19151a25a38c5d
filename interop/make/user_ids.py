"""User IDs: a binding is one user ID, octet for octet, together with one key."""

from cases import Bare, Case, Choice, Named, path
from cast import alice, bob, carol
from people import Person
from rules import (
    AS_OCTETS, CHAIN, HAS_USER_ID, KEPT_ONCE, LAST_EDGE, NOT_NEEDED, NO_RESTRICTIONS, ORDINARY, SELF_EDGE,
    USER_ID_HASHED, Rule,
)  # fmt: skip

ROOT = [(alice, 120)]
bobby = bob.known_as("Bobby")
other_bob = Person("Bob of Berlin", spelled=bob.user_id)
NEEDS_ITS_OWN = [
    Choice(120, "Tukyamid", "the user ID needs no self-certification if another signature governs the key"),
    Choice(0, "Sequoia, gpg", "it needs a self-certification on that user ID"),
]


def spelled(name: str, title: str, certified: bytes, asked: bytes) -> Case:
    """Alice certifies Bob under one spelling, and he is asked about under another one, which he certified himself."""
    return Case(
        name,
        f"Alice certifies Bob as {title}. Both user IDs are on his key.",
        [bob.certifies_itself(bob.known_as(certified)), bob.certifies_itself(bob.known_as(asked)),
         alice.certifies(bob.known_as(certified))],
        ask=bob.known_as(asked), answer=[], rule=AS_OCTETS, roots=ROOT,
    )  # fmt: skip


def odd(name: str, title: str, user_id: bytes, rule: Rule = NO_RESTRICTIONS) -> Case:
    """A user ID of odd octets is a user ID like others."""
    return Case(
        name,
        f"Alice certifies a user ID of Bob's {title}.",
        [bob.certifies_itself(bob.known_as(user_id)), alice.certifies(bob.known_as(user_id))],
        ask=bob.known_as(user_id), answer=[path(120, alice, bob)], rule=rule, roots=ROOT, choices=[
            Choice(120, "Tukyamid, gpg", "a user ID may have any octets"),
            Choice(0, "Sequoia", "a user ID with control characters is in no scope, not even in that without a limit"),
        ] if {0, 10} & set(user_id) else [],
    )  # fmt: skip


CASES = [
    Case(
        "the-other-one-is-asked",
        "Alice certifies one of Bob's user IDs. The other one, which only he certified, is asked about.",
        [alice.certifies(bob), bob.certifies_itself(bobby)],
        ask=bobby, answer=[], rule=LAST_EDGE, roots=ROOT,
    ),
    Case(
        "one-of-two",
        "Alice certifies the second of Bob's user IDs, and that is asked about.",
        [bob.certifies_itself(bobby), alice.certifies(bobby)],
        ask=bobby, answer=[path(120, alice, bob)], rule=LAST_EDGE, roots=ROOT,
    ),
    Case(
        "each-with-its-amount",
        "Alice certifies Bob with amount 30 and Bobby with amount 90, on one key. Bobby is asked about.",
        [bob.certifies_itself(bobby), alice.certifies(bob, depth=0, amount=30),
         alice.certifies(bobby, depth=0, amount=90)],
        ask=bobby, answer=[path(90, alice, bob)], rule=LAST_EDGE, roots=ROOT,
    ),
    Case(
        "nobody-has-it",
        "Alice certifies Bob. A user ID that stands in no certificate is asked about.",
        [alice.certifies(bob)],
        ask=bobby, answer=[], rule=HAS_USER_ID, roots=ROOT,
    ),
    Case(
        "of-another-key",
        "Alice certifies Bob. Carol's user ID is asked about, with Bob's key.",
        [alice.certifies(bob), alice.certifies(carol)],
        ask=bob.known_as(carol.user_id), answer=[], rule=HAS_USER_ID, roots=ROOT,
    ),
    Case(
        "one-user-id-on-two-keys",
        "Two keys have the user ID of Bob. Alice certifies it on the one, and the other one is asked about.",
        [alice.certifies(bob), Named(other_bob.known_as(bob.user_id))],
        ask=other_bob, answer=[], rule=CHAIN, roots=ROOT,
    ),
    Case(
        "one-user-id-on-two-keys-the-certified",
        "Two keys have the user ID of Bob. Alice certifies it on the one, and that is asked about.",
        [alice.certifies(other_bob), Named(bob.known_as(bob.user_id))],
        ask=other_bob, answer=[path(120, alice, other_bob)], rule=CHAIN, roots=ROOT,
    ),
    Case(
        "without-self-certification",
        "Alice certifies a user ID of Bob's that he didn't certify himself. He certified another one.",
        [alice.certifies(bobby)],
        ask=bobby, answer=[path(120, alice, bob)], rule=NOT_NEEDED, roots=ROOT, choices=NEEDS_ITS_OWN,
    ),
    Case(
        "without-self-certification-of-an-introducer",
        "Alice makes Bob an introducer by a user ID that he didn't certify himself. He certified another one, and "
        "Carol.",
        [alice.certifies(bobby, depth=1), bob.certifies(carol)],
        ask=carol, answer=[path(120, alice, bob, carol)], rule=LAST_EDGE, roots=ROOT, choices=NEEDS_ITS_OWN,
    ),
    Case(
        "self-certified-alone-by-an-introducer",
        "Alice makes Bob an introducer of depth 1 and amount 60. His user ID Bobby is certified by himself alone.",
        [alice.certifies(bob, depth=1, amount=60), bob.certifies_itself(bobby)],
        ask=bobby, answer=[path(60, alice, bob, bob)], rule=SELF_EDGE, roots=ROOT,
    ),
    Case(
        "self-certified-alone-without-depth",
        "Alice certifies Bob, and makes him no introducer. His user ID Bobby is certified by himself alone.",
        [alice.certifies(bob, depth=0), bob.certifies_itself(bobby)],
        ask=bobby, answer=[], rule=ORDINARY, roots=ROOT,
    ),
    Case(
        "two-certifications-of-two-user-ids",
        "Alice certifies Bob, and Carol, another root, certifies Bobby, on one key. Bob is asked about.",
        [bob.certifies_itself(bobby), alice.certifies(bob, depth=0, amount=40),
         carol.certifies(bobby, depth=0, amount=80)],
        ask=bob, answer=[path(40, alice, bob)], rule=LAST_EDGE, roots=[(alice, 120), (carol, 120)],
    ),
    Case(
        "signature-on-another-user-id",
        "Alice's certification of Bob stands after his other user ID, over which it wasn't made.",
        [bob.certifies_itself(bobby), alice.certifies(bob).moved(to=bobby.user_id)],
        ask=bobby, answer=[], rule=USER_ID_HASHED, roots=ROOT,
    ),
    Case(
        "signature-on-another-key",
        "Alice's certification of Carol stands in Bob's certificate, whose user ID has the same octets.",
        [Named(other_bob.known_as(other_bob.user_id)), alice.certifies(other_bob).moved(into=bob)],
        ask=bob, answer=[], rule=USER_ID_HASHED, roots=ROOT,
    ),
    Case(
        "twice-in-one-certificate",
        "Bob's user ID stands twice in his certificate: once with his own signature, once with Alice's.",
        [bob.certifies_itself(), alice.certifies(bob).apart()],
        ask=bob, answer=[path(120, alice, bob)], rule=KEPT_ONCE, roots=ROOT,
    ),
    spelled("other-case", "'bob', and he is asked about as 'Bob'", b"bob", b"Bob"),
    spelled("space-at-the-end", "'Bob', and he is asked about as 'Bob ', with a space at its end", b"Bob", b"Bob "),
    spelled("composed", "'Zo\u00eb' with one character for the last letter, and he is asked about with two characters "
            "for it", "Zo\u00eb".encode(), "Zoe\u0308".encode()),
    spelled("zero-octet-at-the-end", "'Bob', and he is asked about with a zero octet at its end", b"Bob", b"Bob\0"),
    odd("empty", "that is empty", b""),
    odd("with-line-feed", "with a line feed in it", b"Bob\nBobby"),
    odd("with-zero-octet", "with a zero octet in it", b"Bob\0Bobby"),
    odd("not-utf-8", "that isn't UTF-8", b"B\xf6b <bob@example.org>", AS_OCTETS),
    odd("beyond-ascii", "with characters beyond ASCII", "B\u00f6b \U0001f511 <bob@example.org>".encode()),
    odd("of-2000-octets", "with 2,000 octets", b"B" + b"o" * 1998 + b"b"),
    odd("with-backslash", "with backslashes and quotation marks", b'B\\x6fb "\\" \\n'),
    Case(
        "no-user-id-has-a-signature",
        "Bob's certificate has a user ID that nobody certified, and no self-signature at all.",
        [Bare(bob), Named(bob.known_as(bob.user_id))],
        ask=bob, answer=[], rule=CHAIN, roots=ROOT,
    ),
]  # fmt: skip
