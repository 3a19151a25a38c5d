"""Revocations of keys: why, when and by whom, and what happens to what the key certified."""

from cases import Case, Choice, path
from cast import alice, bob, carol, dave
from people import COMPROMISED, INVALID_USER_ID, NO_REASON, RETIRED, SUPERSEDED, expires_after
from rules import (
    BEFORE_END, BY_ITSELF, BY_OTHERS, CODES, HARD_ALWAYS, KEY_REVOKED, NOT_UNDONE, OTHER_CODES, REVOCATION_STAYS,
    SOFT_FROM, STILL_VALID, SUSPECT, Rule,
)  # fmt: skip

ROOT = [(alice, 120)]
REVOKED = "2022-01-01"
NAMES = {None: "without-a-reason", NO_REASON: "for-no-reason", SUPERSEDED: "superseded", COMPROMISED: "compromised",
         RETIRED: "retired", INVALID_USER_ID: "with-a-code-of-user-ids", 4: "with-code-4", 100: "with-code-100",
         255: "with-code-255"}  # fmt: skip
SOFT = (SUPERSEDED, RETIRED, INVALID_USER_ID)
# What RFC 9580 doesn't say of codes, engines choose.
UNCLEAR = [
    Choice(0, "Tukyamid, Sequoia, gpg", "a revocation whose reason isn't known to be harmless is a hard one"),
    Choice(120, "engines for which only a compromise reaches back", "what was before the revocation stays"),
]


def kind_of(reason: int | None) -> str:
    return "soft" if reason in SOFT else "hard"


def rule_of(reason: int | None) -> Rule:
    return OTHER_CODES if reason is None else CODES.get(reason, OTHER_CODES)


def choices_of(reason: int | None) -> list[Choice]:
    if reason == INVALID_USER_ID:
        return [
            Choice(120, "Tukyamid, Sequoia", "the code 32 says nothing bad of the key, so the revocation is soft"),
            Choice(0, "gpg, and engines for which only 1 and 3 are soft", "the code 32 has no meaning for keys"),
        ]
    return [] if reason in (SUPERSEDED, RETIRED, COMPROMISED) else UNCLEAR


def target_before(reason: int | None) -> Case:
    is_soft = reason in SOFT
    return Case(
        f"key-{NAMES[reason]}-asked-before",
        f"Alice certifies Bob in 2021. His key is revoked as 2022 begins ({NAMES[reason].replace('-', ' ')}): a "
        f"{kind_of(reason)} revocation. He is asked about in 2021.",
        [alice.certifies(bob), bob.revokes_key(reason, on=REVOKED)],
        ask=bob, answer=[path(120, alice, bob)] if is_soft else [],
        rule=SUSPECT if reason == COMPROMISED else STILL_VALID if reason in (SUPERSEDED, RETIRED) else rule_of(reason),
        roots=ROOT, at="2021-07-01", choices=choices_of(reason),
    )  # fmt: skip


def target_after(reason: int | None) -> Case:
    return Case(
        f"key-{NAMES[reason]}-asked-after",
        f"Alice certifies Bob in 2021. His key is revoked as 2022 begins ({NAMES[reason].replace('-', ' ')}). He is "
        "asked about in 2024.",
        [alice.certifies(bob), bob.revokes_key(reason, on=REVOKED)],
        ask=bob, answer=[], rule=KEY_REVOKED, roots=ROOT,
    )  # fmt: skip


def introducer(reason: int | None) -> Case:
    is_soft = reason in SOFT
    return Case(
        f"introducer-{NAMES[reason]}",
        f"Alice makes Bob an introducer, and he certifies Carol, in 2021. His key is revoked as 2022 begins "
        f"({NAMES[reason].replace('-', ' ')}): a {kind_of(reason)} revocation. Carol is asked about in 2024.",
        [alice.certifies(bob, depth=1), bob.certifies(carol), bob.revokes_key(reason, on=REVOKED)],
        ask=carol, answer=[path(120, alice, bob, carol)] if is_soft else [],
        rule=SUSPECT if reason == COMPROMISED else STILL_VALID if reason in (SUPERSEDED, RETIRED) else rule_of(reason),
        roots=ROOT, choices=choices_of(reason),
    )  # fmt: skip


def introducer_at(on: str, counts: bool) -> Case:
    return Case(
        f"introducer-retired-certified-at-{on.replace(' ', '-').replace(':', '')}",
        f"Alice makes Bob an introducer. He certifies Carol at {on}. His key is retired as 2022 begins.",
        [alice.certifies(bob, depth=1), bob.certifies(carol, on=on), bob.revokes_key(RETIRED, on=REVOKED)],
        ask=carol, answer=[path(120, alice, bob, carol)] if counts else [],
        rule=STILL_VALID if counts else BEFORE_END, roots=ROOT,
    )  # fmt: skip


EVERY: list[int | None] = [None, NO_REASON, SUPERSEDED, COMPROMISED, RETIRED, INVALID_USER_ID, 4, 100, 255]

CASES = [
    *map(target_before, EVERY), *map(target_after, EVERY), *map(introducer, EVERY),
    introducer_at("2021-12-31 23:59:59", True), introducer_at("2022-01-01 00:00:00", False),
    introducer_at("2022-07-01 00:00:00", False),
    Case(
        "key-retired-asked-in-that-second",
        "Alice certifies Bob. His key is retired at the beginning of 2022, and he is asked about in that second.",
        [alice.certifies(bob), bob.revokes_key(RETIRED, on=REVOKED)],
        ask=bob, answer=[], rule=SOFT_FROM, roots=ROOT, at="2022-01-01 00:00:00",
    ),
    Case(
        "key-retired-asked-a-second-before",
        "Alice certifies Bob. His key is retired at the beginning of 2022, and he is asked about a second before.",
        [alice.certifies(bob), bob.revokes_key(RETIRED, on=REVOKED)],
        ask=bob, answer=[path(120, alice, bob)], rule=SOFT_FROM, roots=ROOT, at="2021-12-31 23:59:59",
    ),
    Case(
        "root-compromised",
        "Alice, the root, certifies Bob in 2021. A year later her key is revoked as compromised.",
        [alice.certifies(bob), alice.revokes_key(COMPROMISED, on=REVOKED)],
        ask=bob, answer=[], rule=SUSPECT, roots=ROOT,
    ),
    Case(
        "root-retired",
        "Alice, the root, certifies Bob in 2021. A year later her key is retired.",
        [alice.certifies(bob), alice.revokes_key(RETIRED, on=REVOKED)],
        ask=bob, answer=[path(120, alice, bob)], rule=STILL_VALID, roots=ROOT,
    ),
    Case(
        "root-retired-before",
        "The key of Alice, the root, is retired as 2022 begins. She certifies Bob half a year later.",
        [alice.certifies(bob, on="2022-07-01"), alice.revokes_key(RETIRED, on=REVOKED)],
        ask=bob, answer=[], rule=KEY_REVOKED, roots=ROOT,
    ),
    Case(
        "key-compromised-in-the-future",
        "Alice certifies Bob. His key is revoked as compromised in 2025, with a date that is after the question's.",
        [alice.certifies(bob), bob.revokes_key(COMPROMISED, on="2025-01-01")],
        ask=bob, answer=[], rule=HARD_ALWAYS, roots=ROOT,
    ),
    Case(
        "key-superseded-in-the-future",
        "Alice certifies Bob. His key is superseded in 2025, after the time of the question.",
        [alice.certifies(bob), bob.revokes_key(SUPERSEDED, on="2025-01-01")],
        ask=bob, answer=[path(120, alice, bob)], rule=SOFT_FROM, roots=ROOT,
    ),
    Case(
        "retirement-expires",
        "Alice certifies Bob. His key is retired as 2022 begins, by a revocation that expires after 365 days. He is "
        "asked about in 2024.",
        [alice.certifies(bob), bob.revokes_key(RETIRED, on=REVOKED, says=expires_after(365))],
        ask=bob, answer=[path(120, alice, bob)], rule=SOFT_FROM, roots=ROOT, choices=[
            Choice(120, "Tukyamid, Sequoia", "a revocation that has expired is no longer live"),
            Choice(0, "gpg", "a revoked key stays revoked"),
        ],
    ),
    Case(
        "retirement-before-it-expires",
        "Alice certifies Bob. His key is retired as 2022 begins, by a revocation that expires after 365 days. He is "
        "asked about in July 2022.",
        [alice.certifies(bob), bob.revokes_key(RETIRED, on=REVOKED, says=expires_after(365))],
        ask=bob, answer=[], rule=SOFT_FROM, roots=ROOT, at="2022-07-01",
    ),
    Case(
        "compromise-expires",
        "Alice certifies Bob. His key is revoked as compromised, by a revocation that expires after 365 days.",
        [alice.certifies(bob), bob.revokes_key(COMPROMISED, on=REVOKED, says=expires_after(365))],
        ask=bob, answer=[], rule=HARD_ALWAYS, roots=ROOT,
    ),
    Case(
        "retired-and-certified-itself-again",
        "Alice certifies Bob. His key is retired as 2022 begins, and he certifies himself again in July.",
        [alice.certifies(bob), bob.certifies_itself(), bob.revokes_key(RETIRED, on=REVOKED),
         bob.certifies_itself(on="2022-07-01")],
        ask=bob, answer=[], rule=NOT_UNDONE, roots=ROOT, choices=[
            Choice(0, "Tukyamid, gpg", "a key that was revoked stays revoked"),
            Choice(120, "Sequoia", "a self-signature that is newer than a soft revocation undoes it"),
        ],
    ),
    Case(
        "compromised-and-certified-itself-again",
        "Alice certifies Bob. His key is revoked as compromised, and he certifies himself again later.",
        [alice.certifies(bob), bob.certifies_itself(), bob.revokes_key(COMPROMISED, on=REVOKED),
         bob.certifies_itself(on="2022-07-01")],
        ask=bob, answer=[], rule=SUSPECT, roots=ROOT,
    ),
    Case(
        "retired-and-compromised",
        "Alice makes Bob an introducer, and he certifies Carol. His key is retired as 2022 begins, and revoked as "
        "compromised in 2023.",
        [alice.certifies(bob, depth=1), bob.certifies(carol), bob.revokes_key(RETIRED, on=REVOKED),
         bob.revokes_key(COMPROMISED, on="2023-01-01")],
        ask=carol, answer=[], rule=SUSPECT, roots=ROOT,
    ),
    Case(
        "retired-twice",
        "Alice makes Bob an introducer. His key is retired in 2022, and superseded in 2023. Between, he certifies "
        "Carol.",
        [alice.certifies(bob, depth=1), bob.certifies(carol, on="2022-07-01"), bob.revokes_key(RETIRED, on=REVOKED),
         bob.revokes_key(SUPERSEDED, on="2023-01-01")],
        ask=carol, answer=[], rule=BEFORE_END, roots=ROOT,
    ),
    Case(
        "revocation-is-not-revocable",
        "Alice certifies Bob. His key is retired by a revocation that he revokes, as one revokes a direct signature.",
        [alice.certifies(bob), bob.revokes_key(RETIRED, on=REVOKED), bob.revokes_direct_signature(on="2022-07-01")],
        ask=bob, answer=[], rule=REVOCATION_STAYS, roots=ROOT,
    ),
    Case(
        "revoked-by-somebody-else",
        "Alice certifies Bob. Dave signs a revocation of Bob's key.",
        [alice.certifies(bob), dave.revokes_key(COMPROMISED, of=bob, on=REVOKED)],
        ask=bob, answer=[path(120, alice, bob)], rule=BY_ITSELF, roots=ROOT,
    ),
    Case(
        "revoked-by-the-root",
        "Alice, the root, certifies Bob. She signs a revocation of Bob's key.",
        [alice.certifies(bob), alice.revokes_key(COMPROMISED, of=bob, on=REVOKED)],
        ask=bob, answer=[path(120, alice, bob)], rule=BY_OTHERS, roots=ROOT,
    ),
]  # fmt: skip
