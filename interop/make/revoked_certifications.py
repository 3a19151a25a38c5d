"""Revocations of certifications: by whom, when, and of which."""

from cases import Case, Choice, path
from cast import alice, bob, carol, dave
from octets import subpacket
from people import COMPROMISED, INVALID_USER_ID, RETIRED, SUPERSEDED, expires_after
from revoked_keys import NAMES, REVOKED, ROOT
from rules import (
    ANY_REASON, LATER_DATE, NOT_REVOCABLE, REVOKED_CERTIFICATION, SAME_KEY, SAME_SECOND, Rule,
)  # fmt: skip


def certification(at: str, counts: bool, rule: Rule) -> Case:
    return Case(
        f"certification-revoked-asked-at-{at.replace(' ', '-').replace(':', '')}",
        f"Alice certifies Bob in 2021, and revokes that as 2022 begins. He is asked about at {at}.",
        [alice.certifies(bob), alice.revokes_certification(bob, on=REVOKED)],
        ask=bob, answer=[path(120, alice, bob)] if counts else [], rule=rule, roots=ROOT, at=at,
    )  # fmt: skip


def certification_because(reason: int | None) -> Case:
    return Case(
        f"certification-revoked-{NAMES[reason]}",
        "Alice certifies Bob in 2021, and revokes that as 2022 begins "
        f"({NAMES[reason].replace('-', ' ')}). He is asked about in 2021, before.",
        [alice.certifies(bob), alice.revokes_certification(bob, on=REVOKED, reason=reason)],
        ask=bob, answer=[path(120, alice, bob)], rule=ANY_REASON, roots=ROOT, at="2021-07-01",
    )  # fmt: skip


CASES = [
    certification("2021-12-31 23:59:59", True, REVOKED_CERTIFICATION),
    certification("2022-01-01 00:00:00", False, REVOKED_CERTIFICATION),
    certification("2024-01-01 00:00:00", False, REVOKED_CERTIFICATION),
    *map(certification_because, (None, SUPERSEDED, COMPROMISED, INVALID_USER_ID)),
    Case(
        "certification-revoked-and-made-again",
        "Alice certifies Bob in 2021, revokes that in 2022, and certifies him again in 2023.",
        [alice.certifies(bob), alice.revokes_certification(bob, on=REVOKED), alice.certifies(bob, on="2023-01-01")],
        ask=bob, answer=[path(120, alice, bob)], rule=LATER_DATE, roots=ROOT,
    ),
    Case(
        "revocation-older-than-the-certification",
        "Alice signs a revocation of her certification of Bob in 2020, and certifies him in 2021.",
        [alice.certifies(bob), alice.revokes_certification(bob, on="2020-06-01")],
        ask=bob, answer=[path(120, alice, bob)], rule=LATER_DATE, roots=ROOT,
    ),
    Case(
        "revoked-in-the-same-second",
        "In one second Alice certifies Bob and revokes that.",
        [alice.certifies(bob), alice.revokes_certification(bob, on="2021-01-01")],
        ask=bob, answer=[], rule=SAME_SECOND, roots=ROOT, choices=[
            Choice(0, "Tukyamid, gpg", "a revocation of the same second counts"),
            Choice(120, "Sequoia", "RFC 9580 says that it should have a later date"),
        ],
    ),
    Case(
        "every-earlier-certification-is-revoked",
        "Alice certifies Bob with amount 100 in 2021, with amount 50 in July 2021, and revokes in 2022.",
        [alice.certifies(bob, depth=0, amount=100), alice.certifies(bob, depth=0, amount=50, on="2021-07-01"),
         alice.revokes_certification(bob, on=REVOKED)],
        ask=bob, answer=[], rule=REVOKED_CERTIFICATION, roots=ROOT,
    ),
    Case(
        "introducer-s-certification-is-revoked",
        "Alice makes Bob an introducer, and he certifies Carol. He revokes that in 2022.",
        [alice.certifies(bob, depth=1), bob.certifies(carol), bob.revokes_certification(carol, on=REVOKED)],
        ask=carol, answer=[], rule=REVOKED_CERTIFICATION, roots=ROOT,
    ),
    Case(
        "introducer-is-revoked",
        "Alice makes Bob an introducer, and he certifies Carol. Alice revokes her certification in 2022.",
        [alice.certifies(bob, depth=1), bob.certifies(carol), alice.revokes_certification(bob, on=REVOKED)],
        ask=carol, answer=[], rule=REVOKED_CERTIFICATION, roots=ROOT,
    ),
    Case(
        "by-one-of-two",
        "Alice makes Bob and Carol introducers of amount 60, and both certify Dave. Bob revokes his certification.",
        [alice.certifies(bob, depth=1, amount=60), alice.certifies(carol, depth=1, amount=60), bob.certifies(dave),
         carol.certifies(dave), bob.revokes_certification(dave, on=REVOKED)],
        ask=dave, answer=[path(60, alice, carol, dave)], rule=REVOKED_CERTIFICATION, roots=ROOT,
    ),
    Case(
        "by-somebody-else",
        "Alice certifies Bob. Dave signs a revocation of a certification of that user ID.",
        [alice.certifies(bob), dave.revokes_certification(bob, on=REVOKED)],
        ask=bob, answer=[path(120, alice, bob)], rule=SAME_KEY, roots=ROOT,
    ),
    Case(
        "on-another-user-id",
        "Alice certifies both of Bob's user IDs, and revokes her certification of the second.",
        [alice.certifies(bob), alice.certifies(bob.known_as("Bobby")),
         alice.revokes_certification(bob.known_as("Bobby"), on=REVOKED)],
        ask=bob, answer=[path(120, alice, bob)], rule=LATER_DATE, roots=ROOT,
    ),
    Case(
        "not-revocable",
        "Alice certifies Bob, and says that this can't be revoked. She revokes it in 2022.",
        [alice.certifies(bob, says=subpacket(7, b"\0")), alice.revokes_certification(bob, on=REVOKED)],
        ask=bob, answer=[path(120, alice, bob)], rule=NOT_REVOCABLE, roots=ROOT,
    ),
    Case(
        "revocable",
        "Alice certifies Bob, and says that this can be revoked. She revokes it in 2022.",
        [alice.certifies(bob, says=subpacket(7, b"\1")), alice.revokes_certification(bob, on=REVOKED)],
        ask=bob, answer=[], rule=REVOKED_CERTIFICATION, roots=ROOT,
    ),
    Case(
        "newer-not-revocable",
        "Alice certifies Bob in 2021, and in July with amount 50 in a way that can't be revoked. She revokes in 2022.",
        [alice.certifies(bob), alice.certifies(bob, depth=0, amount=50, on="2021-07-01", says=subpacket(7, b"\0")),
         alice.revokes_certification(bob, on=REVOKED)],
        ask=bob, answer=[path(50, alice, bob)], rule=NOT_REVOCABLE, roots=ROOT,
    ),
    Case(
        "revocation-expires",
        "Alice certifies Bob, and revokes that as 2022 begins, by a revocation that expires after 365 days.",
        [alice.certifies(bob), alice.revokes_certification(bob, on=REVOKED, says=expires_after(365))],
        ask=bob, answer=[path(120, alice, bob)], rule=SAME_SECOND, roots=ROOT, choices=[
            Choice(120, "Tukyamid", "a revocation that has expired is no longer live"),
            Choice(0, "Sequoia, gpg", "what was revoked stays revoked"),
        ],
    ),
    Case(
        "revocation-from-the-future",
        "Alice certifies Bob. In 2025, after the time of the question, she revokes that.",
        [alice.certifies(bob), alice.revokes_certification(bob, on="2025-01-01")],
        ask=bob, answer=[path(120, alice, bob)], rule=SAME_SECOND, roots=ROOT,
    ),
    Case(
        "revocation-by-a-retired-key",
        "Alice, the root, certifies Bob. Her key is retired in 2022, and in 2023 she revokes the certification.",
        [alice.certifies(bob), alice.revokes_key(RETIRED, on=REVOKED),
         alice.revokes_certification(bob, on="2023-01-01")],
        ask=bob, answer=[], rule=ANY_REASON, roots=ROOT, choices=[
            Choice(0, "Tukyamid", "a revocation counts whenever its key made it"),
            Choice(120, "engines that take nothing from a retired key", "the key was no longer to be used"),
        ],
    ),
]  # fmt: skip
