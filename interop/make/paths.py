"""Several paths: their sum, what they share, their order, and cycles."""

from cases import Case, Choice, Path, hexadecimal, path
from cast import alice, bob, carol, dave, ellen, frank, grace, heidi
from rules import (
    ANSWER, DEPTH_AFTER, LAST_EDGE, LEAST, LESSER_LIST, NOT_REDUCED, NO_ISSUER_TWICE, NO_MAXIMUM, ORDER, PAIR, RESIDUAL,
    ROOT_USED_UP,
)  # fmt: skip

ROOT = [(alice, 120)]
GREAT_ROOT = [(alice, 255)]


def alike(*paths: Path) -> list[Path]:
    """Paths of equal length and amount, in the profile's order: by the fingerprints on them."""
    return sorted(paths, key=lambda each: list(map(hexadecimal, each.people)))


def not_used_up(here: int, there: int) -> list[Choice]:
    return [
        Choice(here, "Tukyamid", "the paths from a root use up its amount"),
        Choice(there, "Sequoia", "a root's amount bounds each path, and isn't used up"),
    ]


def two_introducers(first: int, second: int) -> Case:
    through_bob, through_carol = path(first, alice, bob, dave), path(second, alice, carol, dave)
    ordered = sorted([through_bob, through_carol], key=lambda each: -each.amount)
    return Case(
        f"introducers-of-{first}-and-{second}",
        f"Alice, a root of 255, makes Bob an introducer of amount {first} and Carol one of {second}. Both certify "
        "Dave.",
        [alice.certifies(bob, depth=1, amount=first), alice.certifies(carol, depth=1, amount=second),
         bob.certifies(dave), carol.certifies(dave)],
        ask=dave, answer=alike(*ordered) if first == second else ordered,
        rule=LESSER_LIST if first == second else ORDER, roots=GREAT_ROOT, wanted=255,
    )  # fmt: skip


SUMS = [
    two_introducers(60, 60), two_introducers(40, 80), two_introducers(80, 40), two_introducers(1, 2),
    Case(
        "three-introducers-of-40",
        "Alice makes Bob, Carol and Dave introducers of amount 40. All three certify Ellen.",
        [alice.certifies(bob, depth=1, amount=40), alice.certifies(carol, depth=1, amount=40),
         alice.certifies(dave, depth=1, amount=40), bob.certifies(ellen), carol.certifies(ellen),
         dave.certifies(ellen)],
        ask=ellen, answer=alike(*(path(40, alice, each, ellen) for each in (bob, carol, dave))), rule=ANSWER,
        roots=ROOT,
    ),
    Case(
        "direct-and-introduced",
        "Alice certifies Carol with amount 40, and makes Bob an introducer of amount 80. He certifies Carol.",
        [alice.certifies(carol, depth=0, amount=40), alice.certifies(bob, depth=1, amount=80), bob.certifies(carol)],
        ask=carol, answer=[path(40, alice, carol), path(80, alice, bob, carol)], rule=ORDER, roots=ROOT,
    ),
    Case(
        "two-roots",
        "Alice and Bob are roots of 60. Both certify Carol.",
        [alice.certifies(carol), bob.certifies(carol)],
        ask=carol, answer=alike(path(60, alice, carol), path(60, bob, carol)), rule=ANSWER,
        roots=[(alice, 60), (bob, 60)],
    ),
    Case(
        "two-great-roots",
        "Alice and Bob are roots of 255, and both certify Carol with amount 255. 510 is wanted.",
        [alice.certifies(carol, depth=0, amount=255), bob.certifies(carol, depth=0, amount=255)],
        ask=carol, answer=alike(path(255, alice, carol), path(255, bob, carol)), rule=ANSWER,
        roots=[(alice, 255), (bob, 255)], wanted=510,
    ),
    Case(
        "last-path-whole",
        "Alice, a root of 255, makes Bob an introducer of amount 80 and Carol one of 70. Both certify Dave. 120 is "
        "wanted.",
        [alice.certifies(bob, depth=1, amount=80), alice.certifies(carol, depth=1, amount=70),
         bob.certifies(dave), carol.certifies(dave)],
        ask=dave, answer=[path(80, alice, bob, dave), path(70, alice, carol, dave)], rule=NOT_REDUCED,
        roots=GREAT_ROOT, choices=[
            Choice(150, "Tukyamid, Sequoia", "the last path isn't cut down to what was wanted"),
            Choice(120, "engines that report no more than was wanted", "the wanted amount is reached"),
        ],
    ),
    Case(
        "narrow-and-short-before-wide-and-long",
        "Alice certifies Carol with amount 10, and makes Bob an introducer of amount 120. He certifies Carol.",
        [alice.certifies(carol, depth=0, amount=10), alice.certifies(bob, depth=1), bob.certifies(carol)],
        ask=carol, answer=[path(10, alice, carol), path(110, alice, bob, carol)], rule=RESIDUAL, roots=ROOT,
        choices=[
            Choice(120, "Tukyamid", "the first path leaves 110 of the root"),
            Choice(130, "Sequoia", "a root's amount bounds each path, and isn't used up"),
        ],
    ),
    Case(
        "short-way-of-0",
        "Alice certifies Carol with amount 0, and makes Bob an introducer of amount 60. He certifies Carol.",
        [alice.certifies(carol, depth=0, amount=0), alice.certifies(bob, depth=1, amount=60), bob.certifies(carol)],
        ask=carol, answer=[path(60, alice, bob, carol)], rule=LEAST, roots=ROOT,
    ),
]  # fmt: skip

SHARED = [
    Case(
        "root-is-used-up",
        "Alice, a root of 120, makes Bob and Carol introducers of amount 120. Both certify Dave. 240 is wanted.",
        [alice.certifies(bob, depth=1), alice.certifies(carol, depth=1), bob.certifies(dave), carol.certifies(dave)],
        ask=dave, answer=alike(path(120, alice, bob, dave), path(120, alice, carol, dave))[:1], rule=ROOT_USED_UP,
        roots=ROOT, wanted=240, choices=not_used_up(120, 240),
    ),
    Case(
        "root-of-100-and-three-of-60",
        "Alice, a root of 100, makes Bob an introducer of amount 60, Carol one of 50 and Dave one of 40. All three "
        "certify Ellen. 240 is wanted.",
        [alice.certifies(bob, depth=1, amount=60), alice.certifies(carol, depth=1, amount=50),
         alice.certifies(dave, depth=1, amount=40), bob.certifies(ellen), carol.certifies(ellen),
         dave.certifies(ellen)],
        ask=ellen, answer=40 + 60, rule=ROOT_USED_UP, roots=[(alice, 100)], wanted=240,
        choices=not_used_up(100, 150),
    ),
    Case(
        "carol-reaches-180-elsewhere",
        "Alice, a root of 120, certifies Carol with amount 120 and makes Bob an introducer of amount 60, who certifies "
        "Carol. 240 is wanted.",
        [alice.certifies(carol), alice.certifies(bob, depth=1, amount=60), bob.certifies(carol)],
        ask=carol, answer=[path(120, alice, carol)], rule=ROOT_USED_UP, roots=ROOT, wanted=240,
        choices=not_used_up(120, 180),
    ),
    Case(
        "one-introducer-for-all",
        "Alice makes Bob an introducer of depth 2 and amount 100. He makes Carol and Dave introducers, and both "
        "certify Ellen.",
        [alice.certifies(bob, depth=2, amount=100), bob.certifies(carol, depth=1), bob.certifies(dave, depth=1),
         carol.certifies(ellen), dave.certifies(ellen)],
        ask=ellen, answer=alike(path(100, alice, bob, carol, ellen), path(100, alice, bob, dave, ellen))[:1],
        rule=PAIR, roots=GREAT_ROOT, wanted=255,
    ),
    Case(
        "one-last-certification-for-all",
        "Alice makes Bob and Carol introducers of depth 2 and amount 60. Both make Dave an introducer, and he "
        "certifies Ellen with amount 100.",
        [alice.certifies(bob, depth=2, amount=60), alice.certifies(carol, depth=2, amount=60),
         bob.certifies(dave, depth=1), carol.certifies(dave, depth=1), dave.certifies(ellen, depth=0, amount=100)],
        ask=ellen, answer=40 + 60, rule=RESIDUAL, roots=GREAT_ROOT, wanted=255,
    ),
    Case(
        "one-pair-by-two-user-ids",
        "Alice makes Bob an introducer of amount 60 by each of two user IDs. He certifies Carol.",
        [alice.certifies(bob, depth=1, amount=60), alice.certifies(bob.known_as("Bobby"), depth=1, amount=60),
         bob.certifies_itself(bob.known_as("Bobby")), bob.certifies(carol)],
        ask=carol, answer=[path(60, alice, bob, carol)], rule=PAIR, roots=GREAT_ROOT, wanted=255,
    ),
    Case(
        "root-that-is-introduced",
        "Alice and Bob are roots of 60. Alice makes Bob an introducer of amount 120, and he certifies Carol.",
        [alice.certifies(bob, depth=1), bob.certifies(carol)],
        ask=carol, answer=[path(60, bob, carol), path(60, alice, bob, carol)], rule=ORDER,
        roots=[(alice, 60), (bob, 60)],
    ),
    Case(
        "no-maximum-flow",
        "All certifications have amount 60. The short way Alice, Bob, Ellen, Heidi uses up what the two longer ways "
        "need: Alice, Bob, Carol, Dave, Heidi and Alice, Frank, Grace, Ellen, Heidi.",
        [issuer.certifies(whom, depth=9, amount=60) for issuer, whom in (
            (alice, bob), (bob, ellen), (ellen, heidi), (bob, carol), (carol, dave), (dave, heidi), (alice, frank),
            (frank, grace), (grace, ellen))],
        ask=heidi, answer=[path(60, alice, bob, ellen, heidi)], rule=NO_MAXIMUM, roots=GREAT_ROOT, choices=[
            Choice(60, "Tukyamid, Sequoia", "the shortest path is taken first, and stays"),
            Choice(120, "an engine that computes a maximum flow", "the two longer ways carry 60 each"),
        ],
    ),
]  # fmt: skip

CYCLES = [
    Case(
        "two-introduce-each-other",
        "Alice makes Bob an introducer. He and Carol make each other introducers, and she certifies Dave.",
        [alice.certifies(bob, depth=255), bob.certifies(carol, depth=255), carol.certifies(bob, depth=255),
         carol.certifies(dave)],
        ask=dave, answer=[path(120, alice, bob, carol, dave)], rule=NO_ISSUER_TWICE, roots=ROOT,
    ),
    Case(
        "back-to-the-root",
        "Alice makes Bob an introducer, he makes her one, and she certifies Carol with amount 50.",
        [alice.certifies(bob, depth=255), bob.certifies(alice, depth=255), alice.certifies(carol, depth=0, amount=50)],
        ask=carol, answer=[path(50, alice, carol)], rule=NO_ISSUER_TWICE, roots=ROOT,
    ),
    Case(
        "in-a-ring-without-a-root",
        "Bob, Carol and Dave introduce each other in a ring. Alice, the root, certifies nobody.",
        [bob.certifies(carol, depth=255), carol.certifies(dave, depth=255), dave.certifies(bob, depth=255)],
        ask=dave, answer=[], rule=NO_ISSUER_TWICE, roots=ROOT,
    ),
    Case(
        "back-to-the-target",
        "Alice makes Carol an introducer of depth 2, Carol makes Bob one, and he certifies the user ID Carly on "
        "Carol's key. The way to Carly leads through Carol's own key.",
        [alice.certifies(carol, depth=2), carol.certifies(bob, depth=1), bob.certifies(carol.known_as("Carly"))],
        ask=carol.known_as("Carly"), answer=[], rule=NO_ISSUER_TWICE, roots=ROOT, choices=[
            Choice(0, "Tukyamid", "the target may be the issuer of the last certification alone"),
            Choice(120, "engines that know the target by its user ID", "no binding is on the way twice"),
        ],
    ),
    Case(
        "introduces-itself",
        "Alice makes Bob an introducer of depth 1. He certifies himself with depth 255, and makes Carol an introducer. "
        "She certifies Dave.",
        [alice.certifies(bob, depth=1), bob.certifies(bob, depth=255), bob.certifies(carol, depth=255),
         carol.certifies(dave)],
        ask=dave, answer=[], rule=DEPTH_AFTER, roots=ROOT,
    ),
    Case(
        "detour-to-more",
        "Alice makes Bob an introducer of amount 40 and Carol one of amount 120 and depth 2. Carol makes Bob an "
        "introducer too. Bob certifies Dave.",
        [alice.certifies(bob, depth=1, amount=40), alice.certifies(carol, depth=2), carol.certifies(bob, depth=1),
         bob.certifies(dave)],
        ask=dave, answer=[path(40, alice, bob, dave), path(80, alice, carol, bob, dave)], rule=RESIDUAL, roots=ROOT,
    ),
    Case(
        "certified-by-the-target",
        "Alice certifies Bob, and Bob certifies Alice. He is asked about.",
        [alice.certifies(bob), bob.certifies(alice)],
        ask=bob, answer=[path(120, alice, bob)], rule=LAST_EDGE, roots=ROOT,
    ),
]  # fmt: skip

CASES = [*SUMS, *SHARED, *CYCLES]
