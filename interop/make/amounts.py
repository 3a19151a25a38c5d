"""Amounts: of roots, of trust signatures, of certifications, and the amount that is wanted."""

from cases import Absent, Case, Choice, Path, path
from cast import alice, bob, carol, dave
from rules import (
    ANSWER, CHAIN, LEAST, NO_TRUST, NOT_REDUCED, POSITIVE_AMOUNT, ROOT_AMOUNTS, ROOT_MISSING,
    SELF_EDGE, TARGET,
)  # fmt: skip


def introduced(amount: int) -> Case:
    return Case(
        f"introducer-of-{amount}",
        f"Alice makes Bob an introducer of depth 1 and amount {amount}. Bob certifies Carol.",
        [alice.certifies(bob, depth=1, amount=amount), bob.certifies(carol)],
        ask=carol, answer=[path(amount, alice, bob, carol)], rule=LEAST,
        roots=[(alice, 255)], wanted=255,
    )  # fmt: skip


def rooted(amount: int) -> Case:
    return Case(
        f"root-of-{amount}",
        f"Alice, a root of {amount}, makes Bob an introducer of amount 255. Bob certifies Carol with amount 255.",
        [alice.certifies(bob, depth=1, amount=255), bob.certifies(carol, depth=0, amount=255)],
        ask=carol, answer=[path(amount, alice, bob, carol)], rule=LEAST, roots=[(alice, amount)], wanted=255,
        choices=[] if amount != 120 else [
            Choice(120, "Tukyamid", "a root's amount bounds each path from it, whatever the amount is"),
            Choice(255, "Sequoia", "a root of full trust bounds no path"),
        ],
    )  # fmt: skip


def certified(amount: int) -> Case:
    return Case(
        f"certification-of-{amount}",
        f"Alice certifies Bob with a trust signature of depth 0 and amount {amount}.",
        [alice.certifies(bob, depth=0, amount=amount)],
        ask=bob, answer=[path(amount, alice, bob)] if amount else [], rule=LEAST if amount else POSITIVE_AMOUNT,
        roots=[(alice, 255)], wanted=255, choices=[] if amount == 120 else [
            Choice(amount, "Tukyamid, Sequoia", "a trust signature has an amount at every depth, also at depth 0"),
            Choice(120, "gpg", "a signature of level 0 is an ordinary one, whose second octet says nothing"),
        ],
    )  # fmt: skip


def wanted(amount: int, *paths: Path) -> Case:
    rest = "no further path is left" if sum(each.amount for each in paths) < amount else "the sum reaches it"
    return Case(
        f"wanted-{amount}",
        "Alice makes Bob an introducer of amount 60 and certifies Carol with 40; Bob certifies Carol. "
        f"{amount} is wanted.",
        [alice.certifies(bob, depth=1, amount=60), alice.certifies(carol, depth=0, amount=40), bob.certifies(carol)],
        ask=carol, answer=paths, rule=ANSWER, roots=[(alice, 120)], wanted=amount, choices=[
            Choice(sum(each.amount for each in paths), "Tukyamid", f"shorter paths first, until {rest}"),
            Choice(100 if amount <= 40 else 60, "other searches", "all paths count, or the widest alone"),
        ],
    )  # fmt: skip


CASES = [
    Case(
        "root-certifies",
        "Alice, a root of 120, certifies Bob.",
        [alice.certifies(bob)],
        ask=bob, answer=[path(120, alice, bob)], rule=NO_TRUST, roots=[(alice, 120)],
    ),
    *map(introduced, (1, 59, 60, 61, 119, 120)),
    *map(rooted, (1, 59, 60, 119, 120, 121, 254, 255)),
    *map(certified, (0, 1, 60, 119, 120, 121, 254, 255)),
    wanted(1, path(40, alice, carol)),
    wanted(40, path(40, alice, carol)),
    wanted(41, path(40, alice, carol), path(60, alice, bob, carol)),
    wanted(240, path(40, alice, carol), path(60, alice, bob, carol)),
    Case(
        "not-reduced",
        "Alice, a root of 120, certifies Bob. 60 is wanted.",
        [alice.certifies(bob)],
        ask=bob, answer=[path(120, alice, bob)], rule=NOT_REDUCED, roots=[(alice, 120)], wanted=60,
        choices=[
            Choice(120, "Tukyamid, Sequoia", "the path's own amount is reported"),
            Choice(60, "an engine that reports no more than was asked for", "the wanted amount is reached"),
        ],
    ),
    Case(
        "introducer-of-0",
        "Alice makes Bob an introducer of depth 1 and amount 0. Bob certifies Carol.",
        [alice.certifies(bob, depth=1, amount=0), bob.certifies(carol)],
        ask=carol, answer=[], rule=POSITIVE_AMOUNT, roots=[(alice, 120)],
    ),
    Case(
        "introducer-of-255",
        "Alice, a root of 255, makes Bob an introducer of amount 255. Bob certifies Carol, without an amount.",
        [alice.certifies(bob, depth=1, amount=255), bob.certifies(carol)],
        ask=carol, answer=[path(120, alice, bob, carol)], rule=NO_TRUST,
        roots=[(alice, 255)], wanted=255,
    ),
    Case(
        "the-introducer-itself",
        "Alice makes Bob an introducer of depth 1 and amount 60. Bob himself is asked about.",
        [alice.certifies(bob, depth=1, amount=60)],
        ask=bob, answer=[path(60, alice, bob)], rule=LEAST, roots=[(alice, 120)], choices=[
            Choice(60, "Tukyamid, Sequoia", "the amount of a trust signature counts for the certified user ID too"),
            Choice(120, "gpg", "the amount only says how far the key introduces others; its user ID is valid"),
        ],
    ),
    Case(
        "least-in-the-middle",
        "Alice makes Bob an introducer of depth 2 and amount 120, he makes Carol one of amount 30, and she certifies "
        "Dave.",
        [alice.certifies(bob, depth=2), bob.certifies(carol, depth=1, amount=30), carol.certifies(dave)],
        ask=dave, answer=[path(30, alice, bob, carol, dave)], rule=LEAST,
        roots=[(alice, 120)],
    ),
    Case(
        "least-at-the-end",
        "Alice makes Bob an introducer of amount 120. He certifies Carol with amount 45.",
        [alice.certifies(bob, depth=1), bob.certifies(carol, depth=0, amount=45)],
        ask=carol, answer=[path(45, alice, bob, carol)], rule=LEAST, roots=[(alice, 120)],
    ),
    Case(
        "root-of-0",
        "Alice, a root of 0, certifies Bob.",
        [alice.certifies(bob)],
        ask=bob, answer=[], rule=ROOT_AMOUNTS, roots=[(alice, 0)],
    ),
    Case(
        "root-of-0-beside-another",
        "Alice is a root of 0, Carol one of 120. Alice certifies Bob, and Carol makes Alice an introducer.",
        [alice.certifies(bob), carol.certifies(alice, depth=1)],
        ask=bob, answer=[path(120, carol, alice, bob)], rule=ROOT_AMOUNTS, roots=[(alice, 0), (carol, 120)],
    ),
    Case(
        "no-root",
        "Alice certifies Bob, but nobody is a root.",
        [alice.certifies(bob)],
        ask=bob, answer=[], rule=ROOT_AMOUNTS,
    ),
    Case(
        "the-root-itself",
        "Alice, a root of 120, is asked about. Only she has certified her user ID.",
        [],
        ask=alice, answer=[path(120, alice, alice)], rule=SELF_EDGE, roots=[(alice, 120)],
    ),
    Case(
        "the-root-itself-60",
        "Alice, a root of 60, is asked about. Only she has certified her user ID.",
        [],
        ask=alice, answer=[path(60, alice, alice)], rule=LEAST, roots=[(alice, 60)],
    ),
    Case(
        "somebody-else-is-root",
        "Carol is the root. Alice, who is none, certifies Bob.",
        [alice.certifies(bob)],
        ask=bob, answer=[], rule=CHAIN, roots=[(carol, 120)],
    ),
    Case(
        "root-without-certificate",
        "Alice, a root, has certified Bob, but her certificate is missing.",
        [alice.certifies(bob), Absent(alice)],
        ask=bob, answer=[], rule=ROOT_MISSING, roots=[(alice, 120)],
    ),
    Case(
        "target-without-certificate",
        "Alice is a root. Nobody has a certificate of Bob's, who is asked about.",
        [Absent(bob)],
        ask=bob, answer=[], rule=TARGET, roots=[(alice, 120)],
    ),
]  # fmt: skip
