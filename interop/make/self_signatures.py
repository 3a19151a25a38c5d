"""What a key says about itself: self-signatures that are missing, late, over, or contradict each other."""

from cases import Bare, Case, Choice, path
from cast import alice, bob, carol
from octets import subpacket
from people import expires_after, key_expires_after
from rules import (
    EXPIRATION_DIFFERS, GOVERNS, MOST_RECENT, NOT_NEEDED, NOT_YET, OF_USER_IDS, OLD_MARK, REVOKES_DIRECT, SELF_DIFFERS,
    STANDING,
)  # fmt: skip

ROOT = [(alice, 120)]
ENDS_2021 = key_expires_after(731)
PRIMARY = subpacket(25, b"\1")
bobby = bob.known_as("Bobby")
OTHER_USER_ID = [
    Choice(0, "Tukyamid", "what governs the key says that it has ended"),
    Choice(120, "engines that look at the user ID that is asked about", "the key's end is that of its binding"),
]
LATE = [
    Choice(120, "Tukyamid", "a self-signature is there at the time of the question"),
    Choice(0, "Sequoia", "the target has no self-signature that is at least as old as the certification"),
]
DIRECT_ALONE = [
    Choice(120, "Tukyamid", "a direct key signature governs the key, and the user ID needs no signature of its own"),
    Choice(0, "Sequoia, gpg", "the user ID has no self-certification"),
]

CASES = [
    Case(
        "target-has-none",
        "Alice certifies Bob. His certificate has no self-signature.",
        [Bare(bob), alice.certifies(bob)],
        ask=bob, answer=[], rule=STANDING, roots=ROOT,
    ),
    Case(
        "introducer-has-none",
        "Alice makes Bob an introducer, and he certifies Carol. His certificate has no self-signature.",
        [Bare(bob), alice.certifies(bob, depth=1), bob.certifies(carol)],
        ask=carol, answer=[], rule=STANDING, roots=ROOT,
    ),
    Case(
        "root-has-none",
        "Alice, the root, certifies Bob. Her certificate has no self-signature.",
        [Bare(alice), alice.certifies(bob)],
        ask=bob, answer=[], rule=STANDING, roots=ROOT, choices=[
            Choice(0, "Tukyamid, Sequoia", "a key without a self-signature has no standing, also as a root"),
            Choice(120, "engines that trust a root whatever it says of itself", "it is the user's own choice"),
        ],
    ),
    Case(
        "target-has-only-a-direct-signature",
        "Alice certifies Bob. He signed his key directly, and not his user ID.",
        [Bare(bob), bob.signs_own_key(), alice.certifies(bob)],
        ask=bob, answer=[path(120, alice, bob)], rule=NOT_NEEDED, roots=ROOT, choices=DIRECT_ALONE,
    ),
    Case(
        "introducer-has-only-a-direct-signature",
        "Alice makes Bob an introducer. He signed his key directly, and not his user ID. He certifies Carol.",
        [Bare(bob), bob.signs_own_key(), alice.certifies(bob, depth=1), bob.certifies(carol)],
        ask=carol, answer=[path(120, alice, bob, carol)], rule=GOVERNS, roots=ROOT, choices=DIRECT_ALONE,
    ),
    Case(
        "target-has-both",
        "Alice certifies Bob. He signed his key directly, and his user ID.",
        [bob.signs_own_key(), bob.certifies_itself(), alice.certifies(bob)],
        ask=bob, answer=[path(120, alice, bob)], rule=GOVERNS, roots=ROOT,
    ),
    Case(
        "later-than-the-certification",
        "Alice certifies Bob in 2021. His self-certification is of 2022; the one of 2020 is no longer there.",
        [bob.certifies_itself(on="2022-01-01"), alice.certifies(bob)],
        ask=bob, answer=[path(120, alice, bob)], rule=SELF_DIFFERS, roots=ROOT, choices=LATE,
    ),
    Case(
        "later-than-the-certification-by-an-introducer",
        "In 2021 Alice makes Bob an introducer, and he certifies Carol. His only self-certification is of 2022.",
        [bob.certifies_itself(on="2022-01-01"), alice.certifies(bob, depth=1), bob.certifies(carol)],
        ask=carol, answer=[path(120, alice, bob, carol)], rule=SELF_DIFFERS, roots=ROOT, choices=LATE,
    ),
    Case(
        "from-the-future",
        "Alice certifies Bob. His only self-certification is of 2025, after the time of the question.",
        [bob.certifies_itself(on="2025-01-01"), alice.certifies(bob)],
        ask=bob, answer=[], rule=NOT_YET, roots=ROOT,
    ),
    Case(
        "on-the-day-of-the-certification",
        "Alice certifies Bob in the second in which he certifies himself.",
        [bob.certifies_itself(on="2021-01-01"), alice.certifies(bob)],
        ask=bob, answer=[path(120, alice, bob)], rule=OF_USER_IDS, roots=ROOT,
    ),
    Case(
        "expired",
        "Alice certifies Bob. His only self-certification expired as 2022 began.",
        [bob.certifies_itself(says=expires_after(731)), alice.certifies(bob)],
        ask=bob, answer=[], rule=STANDING, roots=ROOT,
    ),
    Case(
        "expired-of-an-introducer",
        "Alice makes Bob an introducer, and he certifies Carol, in 2021. His only self-certification expired as 2022 "
        "began.",
        [bob.certifies_itself(says=expires_after(731)), alice.certifies(bob, depth=1), bob.certifies(carol)],
        ask=carol, answer=[], rule=STANDING, roots=ROOT, choices=[
            Choice(0, "Tukyamid", "nothing governs the key at the time of the question"),
            Choice(120, "engines that look at the time of the certification", "the key was bound when it certified"),
        ],
    ),
    Case(
        "expired-beside-one-that-lasts",
        "Alice certifies Bob. One of his self-certifications expired as 2022 began, and an older one lasts.",
        [bob.certifies_itself(), bob.certifies_itself(on="2021-01-01", says=expires_after(365)), alice.certifies(bob)],
        ask=bob, answer=[path(120, alice, bob)], rule=MOST_RECENT, roots=ROOT,
    ),
    Case(
        "revoked-and-nothing-else",
        "Alice certifies Bob. His direct key signature is revoked, and he has no other self-signature.",
        [Bare(bob), bob.signs_own_key(), bob.revokes_direct_signature(on="2022-01-01"), alice.certifies(bob)],
        ask=bob, answer=[], rule=STANDING, roots=ROOT,
    ),
    Case(
        "direct-signature-revoked-beside-a-certification",
        "Bob's direct key signature, by which his key ended in 2021, is revoked. His self-certification remains.",
        [bob.signs_own_key(says=ENDS_2021), bob.revokes_direct_signature(on="2021-07-01"), bob.certifies_itself(),
         alice.certifies(bob)],
        ask=bob, answer=[path(120, alice, bob)], rule=REVOKES_DIRECT, roots=ROOT,
    ),
    Case(
        "by-somebody-else",
        "Alice certifies Bob. He has no self-signature; Carol made one on his user ID of the type that he would use.",
        [Bare(bob), alice.certifies(bob), carol.certifies(bob, kind=0x13)],
        ask=bob, answer=[], rule=STANDING, roots=ROOT,
    ),
    Case(
        "direct-signature-sets-the-end",
        "By Bob's direct key signature his key ends with 2021, by his self-certification it has no end.",
        [bob.signs_own_key(says=ENDS_2021), bob.certifies_itself(), alice.certifies(bob)],
        ask=bob, answer=[], rule=EXPIRATION_DIFFERS, roots=ROOT, choices=[
            Choice(0, "Tukyamid", "if there is a direct key signature, it alone sets the key's expiration"),
            Choice(120, "engines that prefer the user ID's", "the self-certification has no end"),
        ],
    ),
    Case(
        "direct-signature-sets-no-end",
        "By Bob's self-certification his key ends with 2021, by his direct key signature it has no end.",
        [bob.signs_own_key(), bob.certifies_itself(says=ENDS_2021), alice.certifies(bob)],
        ask=bob, answer=[path(120, alice, bob)], rule=EXPIRATION_DIFFERS, roots=ROOT, choices=[
            Choice(120, "Tukyamid", "if there is a direct key signature, it alone sets the key's expiration"),
            Choice(0, "Sequoia, gpg", "what the direct key signature leaves out is taken from the self-certification"),
        ],
    ),
    Case(
        "newer-direct-signature",
        "By Bob's direct key signature of 2020 his key ends with 2021, by that of July 2021 it has no end.",
        [bob.signs_own_key(says=ENDS_2021), bob.signs_own_key(on="2021-07-01"), alice.certifies(bob)],
        ask=bob, answer=[path(120, alice, bob)], rule=MOST_RECENT, roots=ROOT,
    ),
    Case(
        "older-direct-signature-and-newer-certification",
        "Bob's direct key signature of 2020 has no end. By his self-certification of 2021 his key ends with 2021.",
        [bob.signs_own_key(), bob.certifies_itself(on="2021-06-01", says=ENDS_2021), bob.certifies_itself(),
         alice.certifies(bob)],
        ask=bob, answer=[path(120, alice, bob)], rule=GOVERNS, roots=ROOT, choices=[
            Choice(120, "Tukyamid", "the newest direct key signature governs, however old it is"),
            Choice(0, "Sequoia, gpg", "what the direct key signature leaves out is taken from the self-certification"),
        ],
    ),
    Case(
        "two-user-ids-the-newer-ends",
        "By Bob's first user ID his key has no end, by his second, of 2021, it ends with 2021. The first is asked "
        "about.",
        [bob.certifies_itself(), bob.certifies_itself(bobby, on="2021-01-01", says=ENDS_2021), alice.certifies(bob)],
        ask=bob, answer=[], rule=OF_USER_IDS, roots=ROOT, choices=OTHER_USER_ID,
    ),
    Case(
        "two-user-ids-the-primary-lasts",
        "By Bob's first user ID, the primary one, his key has no end, by his second, of 2021, it ends with 2021. The "
        "first is asked about.",
        [bob.certifies_itself(says=PRIMARY), bob.certifies_itself(bobby, on="2021-01-01", says=ENDS_2021),
         alice.certifies(bob)],
        ask=bob, answer=[path(120, alice, bob)], rule=OF_USER_IDS, roots=ROOT,
    ),
    Case(
        "two-user-ids-the-primary-ends",
        "By Bob's first user ID, the primary one, his key ends with 2021; by his second, of 2021, it has no end. The "
        "second is asked about.",
        [bob.certifies_itself(says=PRIMARY + ENDS_2021), bob.certifies_itself(bobby, on="2021-01-01"),
         alice.certifies(bobby)],
        ask=bobby, answer=[], rule=OF_USER_IDS, roots=ROOT, choices=OTHER_USER_ID,
    ),
    Case(
        "primary-mark-on-an-older-one",
        "Bob's first user ID was primary, with a key that ends with 2021, and isn't by his newer self-certification "
        "of it. His second user ID sets no end.",
        [bob.certifies_itself(says=PRIMARY + ENDS_2021), bob.certifies_itself(on="2021-02-01"),
         bob.certifies_itself(bobby, on="2021-01-01"), alice.certifies(bob)],
        ask=bob, answer=[path(120, alice, bob)], rule=OLD_MARK, roots=ROOT,
    ),
    Case(
        "primary-mark-of-0",
        "Bob's first user ID is marked as not primary, and by it his key ends with 2021; by his second, of 2021, it "
        "has no end.",
        [bob.certifies_itself(says=subpacket(25, b"\0") + ENDS_2021), bob.certifies_itself(bobby, on="2021-01-01"),
         alice.certifies(bob)],
        ask=bob, answer=[path(120, alice, bob)], rule=OF_USER_IDS, roots=ROOT, choices=[
            Choice(120, "Tukyamid", "the newest self-certification governs, and sets no end"),
            Choice(0, "gpg", "the key's end is that of its binding"),
        ],
    ),
]  # fmt: skip
