"""Hash algorithms: which a certification, a self-signature and a revocation may use, and until when."""

from cases import Case, Choice, path
from cast import alice, anna, bob, boris, carol, clara
from people import COMPROMISED, RETIRED, SUPERSEDED
from rules import ALWAYS, NEVER, OLD_HASHES, OLD_REVOCATIONS, RECENT_HASHES, SHA1_UNTIL, Rule
from signatures import MD5, NAMES, RIPEMD160, SHA1, SHA224, SHA256, SHA384, SHA512, SHA3_256, SHA3_512

OLD_ROOT, ROOT = [(anna, 120)], [(alice, 120)]
NO_SHA3 = [
    Choice(120, "Tukyamid", "every hash algorithm of RFC 9580 that isn't broken counts"),
    Choice(0, "Sequoia before version 2, gpg 2.2", "they have no SHA-3"),
]
SINCE_2019 = [
    Choice(0, "Tukyamid, Sequoia", "SHA-1 doesn't count in signatures of after January 2013"),
    Choice(120, "gpg", "SHA-1 counts in certifications of before 19 January 2019"),
]
LAST, FIRST = "2013-01-31 23:59:59", "2013-02-01 00:00:00"
DATES = [
    Choice(120, "Tukyamid", "SHA-1 counts in signatures of before February 2013"),
    Choice(0, "Sequoia", "its policy has dates of its own, which depend on the time of the question"),
]


def certified_with(algorithm: int) -> Case:
    return Case(
        f"certification-with-{NAMES[algorithm].replace('_', '-')}",
        f"Alice certifies Bob with {NAMES[algorithm]}, in 2021.",
        [alice.certifies(bob, hash=algorithm)],
        ask=bob, answer=[path(120, alice, bob)], rule=ALWAYS, roots=ROOT,
        choices=NO_SHA3 if algorithm in (SHA3_256, SHA3_512) else [],
    )  # fmt: skip


def accepted_by_gpg(name: str, algorithm: int) -> list[Choice]:
    """gpg takes RIPEMD-160 everywhere, and SHA-1 in what a key says of itself."""
    if algorithm == MD5 or (algorithm, name) == (SHA1, "certification"):
        return []
    refused = f"{NAMES[algorithm]} doesn't count in recent signatures"
    return [Choice(0, "Tukyamid, Sequoia", refused), Choice(120, "gpg", f"{NAMES[algorithm]} counts here")]


def recent(name: str, title: str, algorithm: int, rule: Rule = RECENT_HASHES) -> Case:
    return Case(
        f"{name}-with-{NAMES[algorithm]}",
        f"{title} with {NAMES[algorithm]}, in 2021.",
        [bob.certifies_itself(on="2020-06-01", hash=algorithm if name == "self-certification" else SHA256),
         alice.certifies(bob, hash=algorithm if name == "certification" else SHA256)],
        ask=bob, answer=[], rule=rule, roots=ROOT, choices=accepted_by_gpg(name, algorithm),
    )  # fmt: skip


def old(on: str, algorithm: int, counts: bool) -> Case:
    return Case(
        f"certification-with-{NAMES[algorithm]}-at-{on.replace(' ', '-').replace(':', '')}",
        f"Anna, whose key is of 2008, certifies Boris with {NAMES[algorithm]} at {on}.",
        [anna.certifies(boris, on=on, hash=algorithm)],
        ask=boris, answer=[path(120, anna, boris)] if counts else [],
        rule=SHA1_UNTIL if counts else RECENT_HASHES if on > LAST else OLD_HASHES, roots=OLD_ROOT,
        choices=DATES if counts else SINCE_2019 if algorithm == SHA1 else accepted_by_gpg("certification", algorithm),
    )  # fmt: skip


CASES = [
    *map(certified_with, (SHA384, SHA512, SHA224, SHA3_256, SHA3_512)),
    recent("certification", "Alice certifies Bob", SHA1),
    recent("certification", "Alice certifies Bob", MD5),
    recent("certification", "Alice certifies Bob", RIPEMD160),
    recent("self-certification", "Alice certifies Bob. He certified himself", SHA1),
    recent("self-certification", "Alice certifies Bob. He certified himself", MD5),
    old("2010-01-01", SHA1, True), old(LAST, SHA1, True), old(FIRST, SHA1, False), old("2016-01-01", SHA1, False),
    old("2010-01-01", RIPEMD160, True), old("2016-01-01", RIPEMD160, False),
    old("2009-01-01", MD5, False), old("2016-01-01", MD5, False),
    Case(
        "old-self-certification-with-sha1",
        "Boris certified himself in 2008 with SHA-1. Anna certifies him in 2021 with SHA-256.",
        [boris.certifies_itself(hash=SHA1), anna.certifies(boris)],
        ask=boris, answer=[path(120, anna, boris)], rule=SHA1_UNTIL, roots=OLD_ROOT, choices=DATES,
    ),
    Case(
        "old-self-certification-with-sha1-renewed",
        "Boris certified himself in 2008 with SHA-1, and in 2015 with SHA-256. Anna certifies him in 2021.",
        [boris.certifies_itself(hash=SHA1), boris.certifies_itself(on="2015-01-01"), anna.certifies(boris)],
        ask=boris, answer=[path(120, anna, boris)], rule=ALWAYS, roots=OLD_ROOT,
    ),
    Case(
        "old-direct-signature-with-sha1",
        "Boris signed his key directly in 2008, with SHA-1, and certified himself with SHA-256. Anna certifies him.",
        [boris.signs_own_key(hash=SHA1), boris.certifies_itself(), anna.certifies(boris)],
        ask=boris, answer=[path(120, anna, boris)], rule=SHA1_UNTIL, roots=OLD_ROOT,
    ),
    Case(
        "old-introducer-with-sha1",
        "In 2010 Anna makes Boris an introducer with SHA-1. In 2021 he certifies Clara with SHA-256.",
        [anna.certifies(boris, depth=1, on="2010-01-01", hash=SHA1), boris.certifies(clara)],
        ask=clara, answer=[path(120, anna, boris, clara)], rule=SHA1_UNTIL, roots=OLD_ROOT, choices=DATES,
    ),
    Case(
        "newer-with-sha1-doesn-t-count",
        "In 2021 Alice certifies Bob with amount 100 and SHA-256, in 2022 with amount 30 and SHA-1.",
        [alice.certifies(bob, depth=0, amount=100),
         alice.certifies(bob, depth=0, amount=30, on="2022-01-01", hash=SHA1)],
        ask=bob, answer=[path(100, alice, bob)], rule=RECENT_HASHES, roots=ROOT,
    ),
    Case(
        "old-asked-in-its-time",
        "Anna certifies Boris in 2010 with SHA-1. He is asked about in 2011.",
        [anna.certifies(boris, on="2010-01-01", hash=SHA1)],
        ask=boris, answer=[path(120, anna, boris)], rule=SHA1_UNTIL, roots=OLD_ROOT, at="2011-01-01",
    ),
    Case(
        "md5-asked-in-its-time",
        "Anna certifies Boris in 2009 with MD5. He is asked about in 2010.",
        [anna.certifies(boris, on="2009-01-01", hash=MD5)],
        ask=boris, answer=[], rule=NEVER, roots=OLD_ROOT, at="2010-01-01",
    ),
    Case(
        "key-revoked-with-sha1",
        "Alice certifies Bob. His key is revoked as compromised, in 2022, with SHA-1.",
        [alice.certifies(bob), bob.revokes_key(COMPROMISED, on="2022-01-01").but(hash=SHA1)],
        ask=bob, answer=[], rule=OLD_REVOCATIONS, roots=ROOT, choices=[
            Choice(0, "Tukyamid", "whoever could forge a revocation could only take trust away"),
            Choice(120, "engines that refuse SHA-1 everywhere", "a recent signature with SHA-1 isn't valid"),
        ],
    ),
    Case(
        "key-superseded-with-ripemd160",
        "Alice certifies Bob. His key is superseded in 2022, by a revocation with RIPEMD-160.",
        [alice.certifies(bob), bob.revokes_key(SUPERSEDED, on="2022-01-01").but(hash=RIPEMD160)],
        ask=bob, answer=[], rule=OLD_REVOCATIONS, roots=ROOT, choices=[
            Choice(0, "Tukyamid", "whoever could forge a revocation could only take trust away"),
            Choice(120, "Sequoia", "a recent signature with it isn't valid"),
        ],
    ),
    Case(
        "key-revoked-with-md5",
        "Alice certifies Bob. His key is retired in 2022, by a revocation with MD5.",
        [alice.certifies(bob), bob.revokes_key(RETIRED, on="2022-01-01").but(hash=MD5)],
        ask=bob, answer=[path(120, alice, bob)], rule=NEVER, roots=ROOT,
    ),
    Case(
        "certification-revoked-with-sha1",
        "Alice certifies Bob, and revokes that in 2022 with SHA-1.",
        [alice.certifies(bob), alice.revokes_certification(bob, on="2022-01-01").but(hash=SHA1)],
        ask=bob, answer=[], rule=OLD_REVOCATIONS, roots=ROOT, choices=[
            Choice(0, "Tukyamid", "whoever could forge a revocation could only take trust away"),
            Choice(120, "Sequoia, gpg", "a recent signature with SHA-1 isn't valid"),
        ],
    ),
    Case(
        "introducer-with-sha512-certifies-with-sha1",
        "Alice makes Bob an introducer with SHA-512. He certifies Carol in 2021 with SHA-1.",
        [alice.certifies(bob, depth=1, hash=SHA512), bob.certifies(carol, hash=SHA1)],
        ask=carol, answer=[], rule=RECENT_HASHES, roots=ROOT,
    ),
]  # fmt: skip
