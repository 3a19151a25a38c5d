"""Subpackets: the last one counts, only hashed ones count, unknown ones may be critical, malformed ones spoil."""

from cases import Case, Choice, path
from cast import alice, bob, carol
from octets import seconds, subpacket
from people import CERTIFIED, Statement, day
from rules import (
    CREATION_MUST, CRITICAL, HASHED_ALONE, HINT_ONLY, ISSUER_SAME, LAST_ONE, LENGTH_FORMS, MALFORMED_AREA, NO_VERDICT,
    TABLE_SIZES, UNDERSTOOD, UNHASHED_FAULT, UNKNOWN_IGNORED, WELL_FORMED, Rule,
)  # fmt: skip
from signatures import issuer_fingerprint, issuer_key_id

ROOT = [(alice, 120)]
CREATED = subpacket(2, seconds(day(CERTIFIED)))
AN_HOUR = seconds(3600)
HINT = issuer_key_id(alice.key)
UNKNOWN = 60


def introduced(name: str, title: str, introduction: Statement, counts: int, rule: Rule, *choices: Choice) -> Case:
    """Alice makes Bob an introducer by this certification, or not; he certifies Carol."""
    return Case(
        name, f"{title} He certifies Carol.", [introduction, bob.certifies(carol)],
        ask=carol, answer=[path(counts, alice, bob, carol)] if counts else [], rule=rule, roots=ROOT, choices=choices,
    )  # fmt: skip


def certified(name: str, title: str, certification: Statement, counts: int, rule: Rule, *choices: Choice) -> Case:
    """Alice certifies Bob by this certification."""
    return Case(
        name, title, [certification], ask=bob, answer=[path(counts, alice, bob)] if counts else [], rule=rule,
        roots=ROOT, choices=choices,
    )  # fmt: skip


def says(*subpackets: bytes) -> Statement:
    """A certification of Bob by Alice that says this too."""
    return alice.certifies(bob, says=b"".join(subpackets))


def either(here: int, why: str, there: int, who: str, why_there: str) -> list[Choice]:
    """Tukyamid's answer, and that of others."""
    return [Choice(here, "Tukyamid", why), Choice(there, who, why_there)]


def conflict(here: int, there: int) -> list[Choice]:
    """gpg resolves a conflict of subpackets in another way, which RFC 9580 allows."""
    return either(here, "the last one counts", there, "gpg", "the conflict may be resolved in any way that makes sense")


TRUST_1_60, TRUST_1_100, TRUST_0_120 = (subpacket(5, bytes(pair)) for pair in ((1, 60), (1, 100), (0, 120)))

BY_KEY_ID = either(120, "the fingerprint names her", 0, "gpg", "it looks for the issuer by the key ID")

SEVERAL = [
    introduced("two-trust-subpackets", "Alice certifies Bob with two trust subpackets, of amount 100 and then of 60.",
               says(TRUST_1_100, TRUST_1_60), 60, LAST_ONE),
    introduced("two-trust-subpackets-the-last-of-depth-0", "Alice certifies Bob with two trust subpackets, of depth 1 "
               "and then of depth 0.", says(TRUST_1_100, TRUST_0_120), 0, LAST_ONE, *conflict(0, 100)),
    certified("two-validity-periods-the-last-is-long", "Alice certifies Bob for an hour, and then for 100 years, in "
              "one signature.", says(subpacket(3, AN_HOUR), subpacket(3, seconds(3155760000))), 120, LAST_ONE,
              *conflict(120, 0)),
    certified("two-validity-periods-the-last-is-short", "Alice certifies Bob for 100 years, and then for an hour, in "
              "one signature.", says(subpacket(3, seconds(3155760000)), subpacket(3, AN_HOUR)), 0, LAST_ONE),
    certified("two-creation-times-the-last-is-in-time", "Alice certifies Bob by a signature with two creation times, "
              "2025 and then 2021. He is asked about in 2024.",
              says(CREATED).but(on="2025-01-01"), 120, LAST_ONE),
    certified("two-creation-times-the-last-is-too-late", "Alice certifies Bob by a signature with two creation times, "
              "2021 and then 2025. He is asked about in 2024.",
              says(subpacket(2, seconds(day("2025-01-01")))), 0, LAST_ONE, *conflict(0, 120)),
]  # fmt: skip

UNHASHED = [
    introduced("unhashed-trust", "Alice certifies Bob, and an unhashed trust subpacket of depth 1 was added.",
               alice.certifies(bob).but(unhashed=HINT + TRUST_1_100), 0, HASHED_ALONE),
    introduced("unhashed-trust-beside-hashed", "Alice makes Bob an introducer of amount 60, and an unhashed trust "
               "subpacket of amount 100 was added.",
               alice.certifies(bob, depth=1, amount=60).but(unhashed=HINT + TRUST_1_100), 60, HASHED_ALONE),
    introduced("unhashed-scope", "Alice makes Bob an introducer, and an unhashed regular expression was added that "
               "doesn't match Carol.",
               alice.certifies(bob, depth=1).but(unhashed=HINT + subpacket(6, b"example.net\0")), 120, HASHED_ALONE),
    certified("unhashed-validity-period", "Alice certifies Bob, and an unhashed validity period of an hour was added.",
              alice.certifies(bob).but(unhashed=HINT + subpacket(3, AN_HOUR)), 120, HASHED_ALONE),
    certified("unhashed-creation-time-beside-hashed", "Alice certifies Bob in 2021, and an unhashed creation time of "
              "2025 was added.", alice.certifies(bob).but(unhashed=HINT + subpacket(2, seconds(day("2025-01-01")))),
              120, HASHED_ALONE),
    certified("unhashed-creation-time-alone", "Alice certifies Bob by a signature whose creation time isn't hashed.",
              alice.certifies(bob).but(on=None, unhashed=HINT + CREATED), 0, CREATION_MUST),
    certified("no-creation-time", "Alice certifies Bob by a signature without a creation time.",
              alice.certifies(bob).but(on=None), 0, CREATION_MUST),
    certified("unhashed-critical-and-unknown", "Alice certifies Bob, and an unhashed subpacket was added that is "
              "critical and unknown.", alice.certifies(bob).but(unhashed=HINT + subpacket(UNKNOWN, b"", critical=True)),
              120, HASHED_ALONE, *either(120, "what isn't hashed only hints at the issuer",
                                         0, "gpg", "an unhashed critical subpacket is critical too")),
    certified("malformed-unhashed-area", "Alice certifies Bob, and something was added to the unhashed area that is no "
              "subpacket.", alice.certifies(bob).but(unhashed=HINT + b"\x09\x14"), 120, UNHASHED_FAULT,
              *either(120, "only the hint is lost", 0, "Sequoia, gpg", "its area is malformed")),
]  # fmt: skip

CRITICALITY = [
    certified("unknown", "Alice certifies Bob, with a subpacket of a type that no engine knows.",
              says(subpacket(UNKNOWN, b"something")), 120, UNKNOWN_IGNORED),
    certified("unknown-and-critical", "Alice certifies Bob, with a critical subpacket of a type that no engine knows.",
              says(subpacket(UNKNOWN, b"something", critical=True)), 0, CRITICAL),
    certified("private-use", "Alice certifies Bob, with a subpacket of a type for private use.",
              says(subpacket(101, b"something")), 120, UNKNOWN_IGNORED),
    certified("private-use-and-critical", "Alice certifies Bob, with a critical subpacket of a type for private use.",
              says(subpacket(101, b"something", critical=True)), 0, CRITICAL),
    introduced("critical-trust", "Alice makes Bob an introducer by a critical trust subpacket.",
               says(subpacket(5, b"\1\x78", critical=True)), 120, UNDERSTOOD),
    introduced("critical-scope", "Alice makes Bob an introducer for example.org, by a critical regular expression.",
               alice.certifies(bob, depth=1, says=subpacket(6, b"example\\.org\0", critical=True)), 120, UNDERSTOOD),
    introduced("critical-scope-outside", "Alice makes Bob an introducer for example.net, by a critical regular "
               "expression.", alice.certifies(bob, depth=1, says=subpacket(6, b"example\\.net\0", critical=True)), 0,
               UNDERSTOOD),
    certified("critical-validity-period", "Alice certifies Bob until 2022, by a critical validity period.",
              says(subpacket(3, seconds(365 * 86400), critical=True)), 0, UNDERSTOOD),
    certified("critical-policy", "Alice certifies Bob, with a critical address of her policy.",
              says(subpacket(26, b"https://example.org/policy", critical=True)), 120, UNDERSTOOD),
    Case(
        "unknown-and-critical-in-the-self-signature",
        "Alice certifies Bob. His only self-certification has an unknown critical subpacket.",
        [bob.certifies_itself(says=subpacket(UNKNOWN, b"", critical=True)), alice.certifies(bob)],
        ask=bob, answer=[], rule=CRITICAL, roots=ROOT,
    ),
]  # fmt: skip

SIZES = [
    introduced("trust-of-one-octet", "Alice certifies Bob with a trust subpacket that has one octet instead of two.",
               says(subpacket(5, b"\1")), 0, TABLE_SIZES),
    introduced("trust-of-three-octets", "Alice certifies Bob with a trust subpacket of three octets.",
               says(subpacket(5, b"\1\x78\0")), 0, TABLE_SIZES,
               *either(0, "its size is wrong, so it is unknown",
                       120, "engines that ignore the third", "what follows two octets is ignored")),
    introduced("malformed-trust-after-trust", "Alice makes Bob an introducer of amount 60; a trust subpacket of one "
               "octet follows in the signature.", says(TRUST_1_60, subpacket(5, b"\1")), 60, UNKNOWN_IGNORED,
               *either(60, "the malformed one is unknown", 0, "Sequoia", "the signature is malformed")),
    certified("critical-trust-of-one-octet", "Alice certifies Bob with a critical trust subpacket of one octet.",
              says(subpacket(5, b"\1", critical=True)), 0, WELL_FORMED,
              *either(0, "its size is wrong, so it is unknown, and critical",
                      120, "gpg", "what is left is an ordinary signature")),
    certified("validity-period-of-three-octets", "Alice certifies Bob with a validity period of three octets.",
              says(subpacket(3, b"\0\x0e\x10")), 120, TABLE_SIZES,
              *either(120, "its size is wrong, so it is unknown", 0, "Sequoia", "the signature is malformed")),
    certified("subpacket-of-length-0", "Alice certifies Bob by a signature with a subpacket of length 0, which has no "
              "type.", says(b"\0"), 0, MALFORMED_AREA,
              *either(0, "the hashed area is no list of subpackets", 120, "gpg", "it is passed over")),
    certified("subpacket-beyond-the-area", "Alice certifies Bob by a signature whose last subpacket is longer than the "
              "hashed area.", says().but(names_issuer=False, says=b"\x30\x1a" + b"https://example.org"), 0,
              MALFORMED_AREA),
    certified("length-in-two-octets", "Alice certifies Bob with a policy address of 300 octets, whose length takes two "
              "octets.", says(subpacket(26, b"https://example.org/" + b"x" * 280)), 120, LENGTH_FORMS),
    introduced("trust-with-a-long-length", "Alice makes Bob an introducer by a trust subpacket whose length takes five "
               "octets.", says(b"\xff\0\0\0\3\5\1\x78"), 120, LENGTH_FORMS),
]  # fmt: skip

ISSUERS = [
    certified("issuer-by-fingerprint-alone", "Alice certifies Bob, and names herself by her fingerprint alone.",
              alice.certifies(bob).but(unhashed=b""), 120, ISSUER_SAME, *BY_KEY_ID),
    certified("issuer-by-key-id-alone", "Alice certifies Bob, and names herself by an unhashed key ID alone, as old "
              "programs do.", alice.certifies(bob).but(names_issuer=False), 120, HINT_ONLY),
    certified("issuer-by-hashed-key-id-alone", "Alice certifies Bob, and names herself by a hashed key ID alone.",
              says(HINT).but(names_issuer=False, unhashed=b""), 120, HINT_ONLY),
    certified("issuer-by-unhashed-fingerprint-alone", "Alice certifies Bob, and names herself by an unhashed "
              "fingerprint alone.",
              alice.certifies(bob).but(names_issuer=False, unhashed=issuer_fingerprint(alice.key)), 120, HINT_ONLY,
              *BY_KEY_ID),
    certified("hashed-fingerprint-of-somebody-else", "Alice certifies Bob, and the hashed area has Carol's "
              "fingerprint. Carol is a root too, and didn't make it.",
              says(issuer_fingerprint(carol.key)).but(names_issuer=False), 0, ISSUER_SAME,
              *either(0, "the hashed fingerprint has to be that of the key that made the signature",
                      120, "Sequoia, gpg", "the key ID names Alice, and her key made it")),
    certified("unhashed-key-id-of-somebody-else", "Alice certifies Bob. The hashed area has her fingerprint, the "
              "unhashed area Carol's key ID.", alice.certifies(bob).but(unhashed=issuer_key_id(carol.key)), 120,
              HINT_ONLY, *BY_KEY_ID),
    certified("hashed-fingerprint-of-another-version", "Alice certifies Bob. The hashed area has her fingerprint with "
              "the version 6 before it, and its length is that of version 4.",
              says(subpacket(33, b"\6" + alice.key.fingerprint)).but(names_issuer=False), 120, TABLE_SIZES,
              *either(120, "the subpacket is unknown, and the key ID names her", 0, "Sequoia", "it is malformed")),
    certified("nobody-named", "Alice certifies Bob by a signature that names no issuer at all.",
              alice.certifies(bob).but(names_issuer=False, unhashed=b""), 0, NO_VERDICT,
              *either(0, "nobody looks for its issuer", 120, "others", "any key at hand may have made it")),
]  # fmt: skip

CASES = [*SEVERAL, *UNHASHED, *CRITICALITY, *SIZES, *ISSUERS]
