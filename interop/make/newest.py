"""Several certifications of one user ID by one key: the newest counts."""

from cases import Case, Choice, path
from cast import alice, bob, carol
from rules import NEWEST_COUNTS, NOT_YET, OLDER_RETURNS, SAME_SECOND_NEWER
from times import ROOT


def in_one_second(amounts: tuple[int, int]) -> Case:
    """Two certifications of one second; the rule compares the signatures' numbers, which are computed here."""
    both = [alice.certifies(bob, depth=0, amount=amount) for amount in amounts]
    amount = amounts[0] if both[0].number() > both[1].number() else amounts[1]
    return Case(
        f"two-in-one-second-{amounts[0]}-{amounts[1]}",
        f"In one second Alice certifies Bob twice, with amount {amounts[0]} and with amount {amounts[1]}.",
        both,
        ask=bob, answer=[path(amount, alice, bob)], rule=SAME_SECOND_NEWER, roots=ROOT, choices=[
            Choice(amount, "Tukyamid", "of two signatures of one second, that with the greater number is the newer"),
            Choice(sum(amounts) - amount, "Sequoia", "nothing says which of the two is the newer one"),
        ],
    )  # fmt: skip


CASES = [
    Case(
        "newer-of-two-is-less",
        "In 2021 Alice certifies Bob with amount 100, in 2022 with amount 30.",
        [alice.certifies(bob, depth=0, amount=100), alice.certifies(bob, depth=0, amount=30, on="2022-01-01")],
        ask=bob, answer=[path(30, alice, bob)], rule=NEWEST_COUNTS, roots=ROOT,
    ),
    Case(
        "newer-of-two-is-more",
        "In 2021 Alice certifies Bob with amount 30, in 2022 with amount 100.",
        [alice.certifies(bob, depth=0, amount=30), alice.certifies(bob, depth=0, amount=100, on="2022-01-01")],
        ask=bob, answer=[path(100, alice, bob)], rule=NEWEST_COUNTS, roots=ROOT,
    ),
    Case(
        "newer-of-two-stands-first",
        "In 2021 Alice certifies Bob with amount 100, in 2022 with amount 30. The newer one stands first.",
        [alice.certifies(bob, depth=0, amount=30, on="2022-01-01"), alice.certifies(bob, depth=0, amount=100)],
        ask=bob, answer=[path(30, alice, bob)], rule=NEWEST_COUNTS, roots=ROOT,
    ),
    Case(
        "before-the-newer-of-two",
        "In 2021 Alice certifies Bob with amount 100, in 2022 with amount 30. He is asked about at the end of 2021.",
        [alice.certifies(bob, depth=0, amount=100), alice.certifies(bob, depth=0, amount=30, on="2022-01-01")],
        ask=bob, answer=[path(100, alice, bob)], rule=NOT_YET, roots=ROOT, at="2021-12-31 23:59:59",
    ),
    Case(
        "older-returns",
        "In 2021 Alice certifies Bob with amount 100, in 2022 with amount 30 for a year. He is asked about in 2024.",
        [alice.certifies(bob, depth=0, amount=100),
         alice.certifies(bob, depth=0, amount=30, on="2022-01-01", days=365)],
        ask=bob, answer=[path(100, alice, bob)], rule=OLDER_RETURNS, roots=ROOT, choices=[
            Choice(100, "Tukyamid, Sequoia", "when the newer one ends, the older one that is still live counts again"),
            Choice(0, "gpg", "the newest certification has expired"),
        ],
    ),
    Case(
        "newer-takes-the-depth-away",
        "In 2021 Alice makes Bob an introducer, in 2022 she certifies him without a trust signature. He certified "
        "Carol.",
        [alice.certifies(bob, depth=1), alice.certifies(bob, on="2022-01-01"), bob.certifies(carol)],
        ask=carol, answer=[], rule=NEWEST_COUNTS, roots=ROOT,
    ),
    Case(
        "newer-on-another-user-id",
        "In 2021 Alice makes Bob an introducer, in 2022 she certifies another user ID of his with depth 0.",
        [alice.certifies(bob, depth=1), alice.certifies(bob.known_as("Bobby"), on="2022-01-01"),
         bob.certifies_itself(bob.known_as("Bobby")), bob.certifies(carol)],
        ask=carol, answer=[path(120, alice, bob, carol)], rule=NEWEST_COUNTS, roots=ROOT,
    ),
    in_one_second((20, 30)), in_one_second((40, 50)),
]  # fmt: skip
