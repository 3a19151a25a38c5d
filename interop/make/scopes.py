"""Scopes: which user IDs an introducer may vouch for, along paths."""

from cases import Case, Choice, path
from cast import alice, bob, carol, dave
from octets import subpacket
from people import CERTIFIED
from rules import (
    ALL_COUNT, COVERS, COVERS_NOTHING, EXTENDED, LAST_EDGE, SCOPES, SELF_EDGE, ZERO_OCTET,
)  # fmt: skip

ORG, NET = r"<[^>]+[@.]example\.org>$", r"<[^>]+[@.]example\.net>$"
at_net = carol.known_as("Carol <carol@example.net>")
in_latin_1 = carol.known_as("Caról <carol@example.org>".encode("latin-1"))
ROOT = [(alice, 120)]
LAST_TOO = [
    Choice(120, "Tukyamid, gpg", "a scope limits what the certified key certifies, not the certification itself"),
    Choice(0, "Sequoia", "the scope of the last certification has to cover the user ID, too"),
]

CASES = [
    Case(
        "inside",
        "Alice makes Bob an introducer for example.org. He certifies Carol, whose address is there.",
        [alice.certifies(bob, depth=1, scope=[ORG]), bob.certifies(carol)],
        ask=carol, answer=[path(120, alice, bob, carol)], rule=EXTENDED, roots=ROOT,
    ),
    Case(
        "outside",
        "Alice makes Bob an introducer for example.org. He certifies Carol's address at example.net.",
        [alice.certifies(bob, depth=1, scope=[ORG]), bob.certifies(at_net)],
        ask=at_net, answer=[], rule=EXTENDED, roots=ROOT,
    ),
    Case(
        "outside-beside-inside",
        "Alice makes Bob an introducer for example.org. He certifies both of Carol's addresses, and the one at "
        "example.net is asked about.",
        [alice.certifies(bob, depth=1, scope=[ORG]), bob.certifies(carol), bob.certifies(at_net),
         carol.certifies_itself(at_net)],
        ask=at_net, answer=[], rule=EXTENDED, roots=ROOT,
    ),
    Case(
        "of-the-introducer-itself",
        "Alice makes Bob, whose address is at example.org, an introducer for example.net alone. Bob is asked about.",
        [alice.certifies(bob, depth=1, scope=[NET])],
        ask=bob, answer=[path(120, alice, bob)], rule=SCOPES, roots=ROOT, choices=LAST_TOO,
    ),
    Case(
        "introducer-from-outside",
        "Alice makes Bob, whose address is at example.org, an introducer for example.net. He certifies Carol's address "
        "there.",
        [alice.certifies(bob, depth=1, scope=[NET]), bob.certifies(at_net), carol.certifies_itself(at_net)],
        ask=at_net, answer=[path(120, alice, bob, carol)], rule=EXTENDED, roots=ROOT,
    ),
    Case(
        "one-of-two",
        "Alice makes Bob an introducer for example.org and for example.net, by two regular expressions. He certifies "
        "Carol.",
        [alice.certifies(bob, depth=1, scope=[NET, ORG]), bob.certifies(carol)],
        ask=carol, answer=[path(120, alice, bob, carol)], rule=ALL_COUNT, roots=ROOT,
    ),
    Case(
        "the-other-of-two",
        "Alice makes Bob an introducer for example.net and for example.org, by two regular expressions. He certifies "
        "Carol's address at example.net.",
        [alice.certifies(bob, depth=1, scope=[NET, ORG]), bob.certifies(at_net), carol.certifies_itself(at_net)],
        ask=at_net, answer=[path(120, alice, bob, carol)], rule=ALL_COUNT, roots=ROOT,
    ),
    Case(
        "none-of-two",
        "Alice makes Bob an introducer for example.com and for example.net. He certifies Carol at example.org.",
        [alice.certifies(bob, depth=1, scope=[NET, r"@example\.com>$"]), bob.certifies(carol)],
        ask=carol, answer=[], rule=COVERS, roots=ROOT,
    ),
    Case(
        "second-introducer-limits",
        "Alice makes Bob an introducer of depth 2 for everything. He makes Carol one for example.net, and she "
        "certifies Dave at example.org.",
        [alice.certifies(bob, depth=2), bob.certifies(carol, depth=1, scope=[NET]), carol.certifies(dave)],
        ask=dave, answer=[], rule=SCOPES, roots=ROOT,
    ),
    Case(
        "first-introducer-limits",
        "Alice makes Bob an introducer of depth 2 for example.net. He makes Carol one for everything, and she "
        "certifies Dave at example.org.",
        [alice.certifies(bob, depth=2, scope=[NET]), bob.certifies(carol, depth=1), carol.certifies(dave)],
        ask=dave, answer=[], rule=SCOPES, roots=ROOT,
    ),
    Case(
        "both-introducers-cover",
        "Alice makes Bob an introducer of depth 2 for example.org. He makes Carol one for user IDs that begin with D, "
        "and she certifies Dave.",
        [alice.certifies(bob, depth=2, scope=[ORG]), bob.certifies(carol, depth=1, scope=["^D"]),
         carol.certifies(dave)],
        ask=dave, answer=[path(120, alice, bob, carol, dave)], rule=SCOPES, roots=ROOT,
    ),
    Case(
        "introducer-in-the-middle-is-outside",
        "Alice makes Bob an introducer of depth 2 for example.net. By her user ID at example.org he makes Carol one, "
        "and she certifies Dave's address at example.net.",
        [alice.certifies(bob, depth=2, scope=[NET]), bob.certifies(carol, depth=1),
         carol.certifies(dave.known_as("Dave <dave@example.net>")),
         dave.certifies_itself(dave.known_as("Dave <dave@example.net>"))],
        ask=dave.known_as("Dave <dave@example.net>"), answer=[path(120, alice, bob, carol, dave)],
        rule=LAST_EDGE, roots=ROOT, choices=[
            Choice(120, "Tukyamid, Sequoia", "a scope is about the user ID at the end of the path"),
            Choice(0, "gpg", "Bob's signature on Carol's user ID is outside his scope"),
        ],
    ),
    Case(
        "of-the-last-edge",
        "Alice certifies Bob at example.org with a trust signature of depth 0 whose scope is example.net.",
        [alice.certifies(bob, depth=0, scope=[NET])],
        ask=bob, answer=[path(120, alice, bob)], rule=SCOPES, roots=ROOT, choices=LAST_TOO,
    ),
    Case(
        "without-trust",
        "Alice certifies Bob with a regular expression that doesn't match him, but without a trust subpacket.",
        [alice.certifies(bob, scope=[NET])],
        ask=bob, answer=[path(120, alice, bob)], rule=SCOPES, roots=ROOT,
    ),
    Case(
        "narrow-and-wide",
        "Alice makes Bob an introducer for example.net by one of his user IDs, and for everything with amount 40 by "
        "another one. He certifies Carol at example.org.",
        [alice.certifies(bob, depth=1, scope=[NET]),
         alice.certifies(bob.known_as("Bob <bob@work.example>"), depth=1, amount=40),
         bob.certifies_itself(bob.known_as("Bob <bob@work.example>")), bob.certifies(carol)],
        ask=carol, answer=[path(40, alice, bob, carol)], rule=SCOPES, roots=ROOT,
    ),
    Case(
        "newer-is-narrower",
        "Alice makes Bob an introducer for everything, and a year later for example.net alone. He certifies Carol at "
        "example.org.",
        [alice.certifies(bob, depth=1), alice.certifies(bob, depth=1, scope=[NET], on="2022-01-01"),
         bob.certifies(carol)],
        ask=carol, answer=[], rule=COVERS, roots=ROOT,
    ),
    Case(
        "self-certified-inside",
        "Alice makes Bob an introducer for user IDs that begin with Bob. His user ID Bobby is certified by himself "
        "alone.",
        [alice.certifies(bob, depth=1, scope=["^Bob"]), bob.certifies_itself(bob.known_as("Bobby"))],
        ask=bob.known_as("Bobby"), answer=[path(120, alice, bob, bob)], rule=SELF_EDGE,
        roots=ROOT,
    ),
    Case(
        "self-certified-outside",
        "Alice makes Bob an introducer for user IDs that begin with Carol. His user ID Bobby is certified by himself "
        "alone.",
        [alice.certifies(bob, depth=1, scope=["^Carol"]), bob.certifies_itself(bob.known_as("Bobby"))],
        ask=bob.known_as("Bobby"), answer=[], rule=SCOPES, roots=ROOT,
    ),
    Case(
        "no-zero-octet",
        "Alice makes Bob an introducer by a regular expression that no zero octet ends. He certifies Carol.",
        [alice.certifies(bob, depth=1, says=subpacket(6, b"carol@example.org>$")), bob.certifies(carol)],
        ask=carol, answer=[path(120, alice, bob, carol)], rule=ZERO_OCTET, roots=ROOT, choices=[
            Choice(120, "Tukyamid", "the expression is what stands there, with or without its end"),
            Choice(0, "Sequoia, gpg", "RFC 9580 section 5.2.3.22 says 'null-terminated'"),
        ],
    ),
    Case(
        "two-zero-octets",
        "Alice makes Bob an introducer by the regular expression 'Carol', which two zero octets end. He certifies "
        "Carol, whose user ID has no zero octet.",
        [alice.certifies(bob, depth=1, says=subpacket(6, b"Carol\0\0")), bob.certifies(carol)],
        ask=carol, answer=[], rule=ZERO_OCTET, roots=ROOT, choices=[
            Choice(0, "Tukyamid", "one zero octet ends the expression, the other is a character of it"),
            Choice(120, "gpg", "the expression ends at its first zero octet"),
        ],
    ),
    Case(
        "empty-expression",
        "Alice makes Bob an introducer by a regular expression that is empty. He certifies Carol.",
        [alice.certifies(bob, depth=1, scope=[""]), bob.certifies(carol)],
        ask=carol, answer=[path(120, alice, bob, carol)], rule=COVERS, roots=ROOT,
    ),
    Case(
        "unparseable-beside-parseable",
        "Alice makes Bob an introducer by two regular expressions, an unclosed parenthesis and 'Carol'. He certifies "
        "Carol.",
        [alice.certifies(bob, depth=1, scope=["(", "Carol"]), bob.certifies(carol)],
        ask=carol, answer=[path(120, alice, bob, carol)], rule=COVERS, roots=ROOT,
    ),
    Case(
        "only-unparseable",
        "Alice makes Bob an introducer by two regular expressions that can't be parsed. He certifies Carol.",
        [alice.certifies(bob, depth=1, scope=["(", "*"]), bob.certifies(carol)],
        ask=carol, answer=[], rule=COVERS_NOTHING, roots=ROOT,
    ),
    Case(
        "user-id-is-not-utf-8",
        "Alice makes Bob an introducer by the regular expression 'example'. He certifies a user ID of Carol's in "
        "Latin-1, which isn't UTF-8.",
        [alice.certifies(bob, depth=1, scope=["example"]), bob.certifies(in_latin_1),
         carol.certifies_itself(in_latin_1)],
        ask=in_latin_1, answer=[], rule=COVERS, roots=ROOT, choices=[
            Choice(0, "Tukyamid, Sequoia", "a regular expression matches text, and these octets are none"),
            Choice(120, "gpg", "it matches the octets, whatever their encoding is"),
        ],
    ),
    Case(
        "user-id-is-not-utf-8-without-scope",
        "Alice makes Bob an introducer without a scope. He certifies a user ID of Carol's in Latin-1.",
        [alice.certifies(bob, depth=1), bob.certifies(in_latin_1), carol.certifies_itself(in_latin_1)],
        ask=in_latin_1, answer=[path(120, alice, bob, carol)], rule=COVERS, roots=ROOT,
    ),
    Case(
        "expression-is-not-utf-8",
        "Alice makes Bob an introducer by a regular expression in Latin-1. He certifies Carol.",
        [alice.certifies(bob, depth=1, scope=[b"Carol|\xf3"]), bob.certifies(carol)],
        ask=carol, answer=[], rule=COVERS_NOTHING, roots=ROOT,
    ),
    Case(
        "expires-with-its-signature",
        "Alice makes Bob an introducer for example.net, until 2023; before that she had made him one for everything. "
        "He certifies Carol at example.org, who is asked about in 2024.",
        [alice.certifies(bob, depth=1), alice.certifies(bob, depth=1, scope=[NET], on="2022-01-01", days=365),
         bob.certifies(carol, on=CERTIFIED)],
        ask=carol, answer=[path(120, alice, bob, carol)], rule=COVERS, roots=ROOT,
    ),
]  # fmt: skip
