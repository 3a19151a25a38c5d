"""Large networks: many certifiers, many roots, many user IDs, many certifications, many ways."""

from itertools import pairwise

from cases import Absent, Case, Choice, hexadecimal, path
from cast import alice, bob, carol
from people import Person
from rules import ANSWER, LAST_EDGE, MADE_IT, NEWEST_COUNTS, NO_ISSUER_TWICE, ROOT_USED_UP

CROWD = [Person(f"Member {number}") for number in range(1, 121)]
TEN = CROWD[:10]


def by_members(count: int, amount: int, wanted: int, taken: int) -> Case:
    """The paths through the members are alike, so they come in the order of the members' fingerprints."""
    members = CROWD[:count]
    ordered = sorted(members, key=hexadecimal)
    return Case(
        f"{count}-introducers-of-{amount}",
        f"Alice makes {count} people introducers of depth 1 and amount {amount}. Each certifies Bob. {wanted} is "
        "wanted.",
        [*(alice.certifies(each, depth=1, amount=amount) for each in members),
         *(each.certifies(bob) for each in members)],
        ask=bob, answer=[path(amount, alice, each, bob) for each in ordered[:taken]], rule=ANSWER,
        roots=[(alice, 255)], wanted=wanted,
    )  # fmt: skip


def layered(depth: int) -> Case:
    """Layers of two, each of whom certifies both of the next layer: two to the power of `depth` ways."""
    layers = [CROWD[2 * place : 2 * place + 2] for place in range(depth)]
    between = [issuer.certifies(whom, depth=255) for one, other in pairwise(layers) for issuer in one
               for whom in other]  # fmt: skip
    return Case(
        f"{depth}-layers-of-two",
        f"Alice makes two people introducers of amount 60. {depth} layers of two people follow, each of whom makes "
        "both of the next layer introducers. Both of the last layer certify Bob.",
        [*(alice.certifies(each, depth=255, amount=60) for each in layers[0]), *between,
         *(each.certifies(bob) for each in layers[-1])],
        ask=bob, answer=120, rule=ANSWER, roots=[(alice, 120)],
    )  # fmt: skip


CASES = [
    by_members(120, 1, 120, 120),
    by_members(40, 60, 120, 2),
    by_members(60, 2, 255, 60),
    Case(
        "64-roots-of-2",
        "64 people are roots of amount 2, and each certifies Bob.",
        [each.certifies(bob) for each in CROWD[:64]],
        ask=bob, answer=[path(2, each, bob) for each in sorted(CROWD[:64], key=hexadecimal)[:60]], rule=ANSWER,
        roots=[(each, 2) for each in CROWD[:64]],
    ),
    Case(
        "64-roots-that-nobody-needs",
        "Alice is one of 64 roots, and the only one who certified Bob.",
        [alice.certifies(bob)],
        ask=bob, answer=[path(120, alice, bob)], rule=ANSWER,
        roots=[(alice, 120), *((each, 120) for each in CROWD[:63])],
    ),
    Case(
        "100-strangers",
        "Alice certifies Bob with amount 60. So do 100 people whose certificates aren't there.",
        [alice.certifies(bob, depth=0, amount=60), *(each.certifies(bob) for each in CROWD[:100]),
         *map(Absent, CROWD[:100])],
        ask=bob, answer=[path(60, alice, bob)], rule=MADE_IT, roots=[(alice, 120)],
    ),
    Case(
        "100-strangers-among-themselves",
        "100 people make each other introducers in a ring, and each certifies Bob. Alice, the root, certifies nobody.",
        [*(issuer.certifies(whom, depth=255) for issuer, whom in pairwise([*CROWD[:100], CROWD[0]])),
         *(each.certifies(bob) for each in CROWD[:100])],
        ask=bob, answer=[], rule=NO_ISSUER_TWICE, roots=[(alice, 120)],
    ),
    Case(
        "ten-who-all-introduce-each-other",
        "Ten people make each other introducers of unlimited depth. Alice introduces the first, and the last certifies "
        "Bob.",
        [alice.certifies(TEN[0], depth=255),
         *(issuer.certifies(whom, depth=255) for issuer in TEN for whom in TEN if issuer != whom),
         TEN[-1].certifies(bob)],
        ask=bob, answer=[path(120, alice, TEN[0], TEN[-1], bob)], rule=ANSWER, roots=[(alice, 120)],
    ),
    layered(2), layered(12),
    Case(
        "100-user-ids",
        "Bob's key has 100 further user IDs, which he certified himself. Alice certifies the last one.",
        [*(bob.certifies_itself(bob.known_as(f"Bob {number}")) for number in range(1, 101)),
         alice.certifies(bob.known_as("Bob 100"))],
        ask=bob.known_as("Bob 100"), answer=[path(120, alice, bob)], rule=LAST_EDGE, roots=[(alice, 120)],
    ),
    Case(
        "100-certifications-by-one",
        "Alice certifies Bob 100 times, a second later each time and with amounts from 1 to 100.",
        [alice.certifies(bob, depth=0, amount=number, on=f"2021-01-01 00:{number // 60:02}:{number % 60:02}")
         for number in range(1, 101)],
        ask=bob, answer=[path(100, alice, bob)], rule=NEWEST_COUNTS, roots=[(alice, 120)],
    ),
    Case(
        "one-of-100-forged-certifications",
        "100 forged certifications of Bob say that Alice made them. One more is really hers, with amount 90.",
        [*(alice.certifies(bob).forged_by(each) for each in CROWD[:100]), alice.certifies(bob, depth=0, amount=90)],
        ask=bob, answer=[path(90, alice, bob)], rule=MADE_IT, roots=[(alice, 120)],
    ),
    Case(
        "fan-out",
        "Alice certifies 60 people and Carol. Carol is asked about.",
        [*(alice.certifies(each) for each in CROWD[:60]), alice.certifies(carol, depth=0, amount=70)],
        ask=carol, answer=[path(70, alice, carol)], rule=ANSWER, roots=[(alice, 120)],
    ),
    Case(
        "root-is-used-up-by-many",
        "Alice, a root of 100, makes 30 people introducers of amount 10. Each certifies Bob. 300 is wanted.",
        [*(alice.certifies(each, depth=1, amount=10) for each in CROWD[:30]),
         *(each.certifies(bob) for each in CROWD[:30])],
        ask=bob, answer=[path(10, alice, each, bob) for each in sorted(CROWD[:30], key=hexadecimal)[:10]],
        rule=ROOT_USED_UP, roots=[(alice, 100)], wanted=300, choices=[
            Choice(100, "Tukyamid", "the paths from a root use up its amount"),
            Choice(300, "Sequoia", "a root's amount bounds each path, and isn't used up"),
        ],
    ),
]  # fmt: skip
