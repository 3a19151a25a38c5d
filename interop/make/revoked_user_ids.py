"""Revocations of user IDs by their own keys."""

from cases import Case, Choice, path
from cast import alice, bob, carol, dave
from people import INVALID_USER_ID
from revoked_keys import REVOKED, ROOT
from rules import ANY_REASON, LAST_EDGE, SAME_KEY, SAME_SECOND, STANDING, USER_ID_REVOKED

CASES = [
    Case(
        "user-id-revoked",
        "Alice certifies Bob. In 2022 he revokes his user ID.",
        [alice.certifies(bob), bob.revokes_certification(bob, on=REVOKED, reason=INVALID_USER_ID)],
        ask=bob, answer=[], rule=USER_ID_REVOKED, roots=ROOT,
    ),
    Case(
        "user-id-revoked-asked-before",
        "Alice certifies Bob. In 2022 he revokes his user ID. He is asked about in 2021.",
        [alice.certifies(bob), bob.revokes_certification(bob, on=REVOKED, reason=INVALID_USER_ID)],
        ask=bob, answer=[path(120, alice, bob)], rule=SAME_SECOND, roots=ROOT, at="2021-07-01",
    ),
    Case(
        "user-id-revoked-and-taken-again",
        "Alice certifies Bob. In 2022 he revokes his user ID, and in 2023 he certifies it again.",
        [alice.certifies(bob), bob.certifies_itself(), bob.certifies_itself(on="2023-01-01"),
         bob.revokes_certification(bob, on=REVOKED, reason=INVALID_USER_ID)],
        ask=bob, answer=[path(120, alice, bob)], rule=USER_ID_REVOKED, roots=ROOT,
    ),
    Case(
        "other-user-id-revoked",
        "Alice certifies both of Bob's user IDs. He revokes the second, and the first is asked about.",
        [alice.certifies(bob), alice.certifies(bob.known_as("Bobby")), bob.certifies_itself(bob.known_as("Bobby")),
         bob.revokes_certification(bob.known_as("Bobby"), on=REVOKED, reason=INVALID_USER_ID)],
        ask=bob, answer=[path(120, alice, bob)], rule=USER_ID_REVOKED, roots=ROOT,
    ),
    Case(
        "user-id-revoked-by-its-certifier",
        "Alice and Dave, both roots, certify Bob. Alice revokes her certification, not Bob's user ID.",
        [alice.certifies(bob, depth=0, amount=60), dave.certifies(bob, depth=0, amount=60),
         alice.revokes_certification(bob, on=REVOKED, reason=INVALID_USER_ID)],
        ask=bob, answer=[path(60, dave, bob)], rule=SAME_KEY, roots=[(alice, 120), (dave, 120)],
    ),
    Case(
        "introducer-s-user-id-revoked",
        "Alice makes Bob an introducer by a user ID, and he certifies Carol. He revokes that user ID; his key has "
        "another one.",
        [alice.certifies(bob.known_as("Bobby"), depth=1), bob.certifies_itself(bob.known_as("Bobby")),
         bob.certifies(carol), bob.revokes_certification(bob.known_as("Bobby"), on=REVOKED, reason=INVALID_USER_ID)],
        ask=carol, answer=[path(120, alice, bob, carol)], rule=LAST_EDGE, roots=ROOT, choices=[
            Choice(120, "Tukyamid, Sequoia", "earlier edges may be on any user ID, also on one that was revoked since"),
            Choice(0, "gpg", "the user ID isn't Bob's any more"),
        ],
    ),
    Case(
        "user-id-revoked-without-a-reason",
        "Alice certifies Bob. In 2022 he revokes his user ID without a reason, and he is asked about in 2021.",
        [alice.certifies(bob), bob.revokes_certification(bob, on=REVOKED, reason=None)],
        ask=bob, answer=[path(120, alice, bob)], rule=ANY_REASON, roots=ROOT, at="2021-07-01", choices=[
            Choice(120, "Tukyamid, Sequoia", "the reason of a revocation of a certification makes no difference"),
            Choice(0, "gpg", "a user ID that was revoked was never there"),
        ],
    ),
    Case(
        "only-user-id-revoked-of-an-introducer",
        "Alice makes Bob an introducer, and he certifies Carol. He revokes his only user ID, so nothing governs his "
        "key any more.",
        [alice.certifies(bob, depth=1), bob.certifies(carol),
         bob.revokes_certification(bob, on=REVOKED, reason=INVALID_USER_ID)],
        ask=carol, answer=[], rule=STANDING, roots=ROOT, choices=[
            Choice(0, "Tukyamid", "the key has no standing without a self-signature that governs it"),
            Choice(120, "Sequoia", "the key is valid"),
        ],
    ),
]  # fmt: skip
