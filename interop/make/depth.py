"""Depth: how many certifications may follow a trust signature."""

from cases import Case, Choice, path
from cast import alice, bob, carol, dave, ellen, frank
from people import Person, Statement
from rules import DEPTH_AFTER, LEVELS, LONGEST, NO_TRUST, ORDINARY, ROOT_DEPTH

CROWD = [Person(f"Number {number}") for number in range(1, 258)]


def chain(people: list[Person], depth: int) -> list[Statement]:
    """Each certifies the next: the first with this depth, each later one with one less, down to none."""
    return [issuer.certifies(whom, depth=max(0, depth if depth == 255 else depth - place))
            for place, (issuer, whom) in enumerate(zip(people, people[1:]))]  # fmt: skip


def straight(length: int, depth: int) -> Case:
    """A chain of some certifications that begins with some depth."""
    people = [alice, bob, carol, dave, ellen, frank][: length + 1]
    is_enough = depth >= length - 1
    return Case(
        f"chain-of-{length}-from-depth-{depth}",
        f"{' certifies '.join(each.name for each in people)}: {length} certifications. The first has depth {depth}, "
        "each further one a depth less.",
        chain(people, depth),
        ask=people[-1], answer=[path(120, *people)] if is_enough else [],
        rule=LEVELS, roots=[(alice, 120)],
    )  # fmt: skip


def endless(length: int, reached: bool) -> Case:
    people = CROWD[: length + 1]
    return Case(
        f"chain-of-{length}",
        f"{length} people in a row certify the next with depth 255. The first is the root, and somebody after the last "
        "is asked about.",
        [issuer.certifies(whom, depth=255) for issuer, whom in zip(people, people[1:])],
        ask=people[-1], answer=[path(120, *people)] if reached else [],
        rule=DEPTH_AFTER if reached else LONGEST, roots=[(people[0], 120)], choices=[] if reached else [
            Choice(0, "Tukyamid", "a path has at most 255 certifications"),
            Choice(120, "Sequoia", "a depth of 255 is unlimited, so a path may have any number of certifications"),
        ],
    )  # fmt: skip


CASES = [
    *(straight(length, depth) for length in (2, 3, 4, 5) for depth in range(length)),
    straight(2, 2), straight(2, 255), straight(3, 255),
    Case(
        "without-trust-signature",
        "Alice certifies Bob without a trust signature. Bob certifies Carol.",
        [alice.certifies(bob), bob.certifies(carol)],
        ask=carol, answer=[], rule=NO_TRUST, roots=[(alice, 120)],
    ),
    Case(
        "level-0-is-ordinary",
        "Alice certifies Bob with a trust signature of depth 0. Bob certifies Carol.",
        [alice.certifies(bob, depth=0), bob.certifies(carol)],
        ask=carol, answer=[], rule=ORDINARY, roots=[(alice, 120)],
    ),
    Case(
        "first-depth-bounds-all",
        "Alice makes Bob an introducer of depth 1. He makes Carol one of depth 255. She certifies Dave.",
        [alice.certifies(bob, depth=1), bob.certifies(carol, depth=255), carol.certifies(dave)],
        ask=dave, answer=[], rule=LEVELS, roots=[(alice, 120)],
    ),
    Case(
        "second-depth-bounds-the-rest",
        "Alice makes Bob an introducer of depth 255, he makes Carol one of depth 1, she makes Dave one of depth 255, "
        "and he certifies Ellen.",
        [alice.certifies(bob, depth=255), bob.certifies(carol, depth=1), carol.certifies(dave, depth=255),
         dave.certifies(ellen)],
        ask=ellen, answer=[], rule=LEVELS, roots=[(alice, 120)],
    ),
    Case(
        "ordinary-in-the-middle",
        "Alice makes Bob an introducer of depth 5. Bob certifies Carol without a trust signature. She certifies Dave.",
        [alice.certifies(bob, depth=5), bob.certifies(carol), carol.certifies(dave)],
        ask=dave, answer=[], rule=ORDINARY, roots=[(alice, 120)],
    ),
    Case(
        "depth-of-the-last",
        "Alice makes Bob an introducer of depth 1. He makes Carol an introducer of depth 9, and she is asked about.",
        [alice.certifies(bob, depth=1), bob.certifies(carol, depth=9)],
        ask=carol, answer=[path(120, alice, bob, carol)], rule=LEVELS, roots=[(alice, 120)],
    ),
    Case(
        "greater-than-needed",
        "Alice makes Bob an introducer of depth 3. He makes Carol one of depth 2, and she certifies Dave.",
        [alice.certifies(bob, depth=3), bob.certifies(carol, depth=2), carol.certifies(dave)],
        ask=dave, answer=[path(120, alice, bob, carol, dave)], rule=LEVELS, roots=[(alice, 120)],
    ),
    Case(
        "root-is-trusted-to-any-depth",
        "Bob, whom nobody certifies, is the root. He makes Carol an introducer of depth 1, and she certifies Dave.",
        [bob.certifies(carol, depth=1), carol.certifies(dave)],
        ask=dave, answer=[path(120, bob, carol, dave)], rule=ROOT_DEPTH, roots=[(bob, 120)],
    ),
    Case(
        "shorter-way-where-depth-lacks",
        "Alice makes Bob an introducer of depth 1. He certifies Carol and makes Dave an introducer; Dave certifies "
        "Carol too. Only Bob's own certification of Carol counts.",
        [alice.certifies(bob, depth=1), bob.certifies(carol, depth=0, amount=30), bob.certifies(dave, depth=1),
         dave.certifies(carol)],
        ask=carol, answer=[path(30, alice, bob, carol)], rule=LEVELS, roots=[(alice, 120)],
    ),
    Case(
        "deep-edge-is-narrower",
        "Alice makes Bob an introducer of depth 1 by the user ID that he uses at home, and of depth 2 and amount 50 by "
        "the one that he uses at work. He makes Carol an introducer, and she certifies Dave.",
        [alice.certifies(bob, depth=1), alice.certifies(bob.known_as("Bob <bob@work.example>"), depth=2, amount=50),
         bob.certifies_itself(bob.known_as("Bob <bob@work.example>")), bob.certifies(carol, depth=1),
         carol.certifies(dave)],
        ask=dave, answer=[path(50, alice, bob, carol, dave)], rule=DEPTH_AFTER,
        roots=[(alice, 120)],
    ),
    endless(20, True),
    endless(255, True),
    endless(256, False),
]  # fmt: skip
