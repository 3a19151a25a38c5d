"""Algorithms and versions: RSA and Ed25519, keys of versions 4 and 6, and who certifies whom."""

from cases import Altered, Case, Choice, Entry, path
from cast import alice, bob, rita, rolf, vera, viktor, vroni
from octets import PUBLIC_KEY, USER_ID, packet, without_signature
from people import COMPROMISED, INVALID_USER_ID, RETIRED, SUPERSEDED, Person, key_expires_after
from rules import (
    ANY_ALGORITHM, EXTENDED, KEY_REVOKED, KEY_VALIDITY, LEAST, LEVELS, OTHER_KEYS, RECENT_HASHES,
    REVOKED_CERTIFICATION, STILL_VALID, SUSPECT, USER_ID_REVOKED, VALIDITY, VERSIONS, VERSIONS_UNCOMPARED,
)  # fmt: skip
from signatures import SHA1, SHA384, SHA3_512, SHA512

small = Person("Small", is_rsa=True, bits=1024)
ORG = r"<[^>]+[@.]example\.org>$"
ACROSS = [
    Choice(120, "Tukyamid", "keys of both versions can certify each other"),
    Choice(0, "gpg, Sequoia before version 2", "they read no keys of version 6"),
]
OLD_ENGINES = ACROSS[1:]


def chain(name: str, title: str, *people: Person) -> Case:
    is_6 = any(person.version == 6 for person in people)
    root = people[0]
    statements = [issuer.certifies(whom, depth=len(people) - 2 - place)
                  for place, (issuer, whom) in enumerate(zip(people, people[1:]))]  # fmt: skip
    return Case(
        name, title, statements, ask=people[-1], answer=[path(120, *people)],
        rule=VERSIONS if is_6 else ANY_ALGORITHM, roots=[(root, 120)], choices=ACROSS if is_6 else [],
    )  # fmt: skip


def of_version(version: int) -> Case:
    """A key of a version that isn't read, with a user ID; it stands beside a network that is in order."""
    body = bytes([version]) + alice.key.body[1:]
    return Case(
        f"key-of-version-{version}-beside-others",
        f"Alice certifies Bob. Among the certificates is a key of version {version}, with a user ID.",
        [alice.certifies(bob), Entry(packet(PUBLIC_KEY, body) + packet(USER_ID, b"Nobody <nobody@example.org>"))],
        ask=bob, answer=[path(120, alice, bob)], rule=OTHER_KEYS, roots=[(alice, 120)], choices=[
            Choice(120, "Tukyamid, gpg", "a key of a version that isn't read is left out"),
            Choice(0, "Sequoia", "nothing is read of a keyring with such a key"),
        ],
    )  # fmt: skip


def lives_of(kind: str, root: Person, introducer: Person, target: Person) -> list[Case]:
    """What ends a way from a root over an introducer, in keys of one kind."""
    introduced, certified = root.certifies(introducer, depth=1), introducer.certifies(target)
    who = f"{root.name} makes {introducer.name} an introducer, and {introducer.name} certifies {target.name}"
    revoked = "2022-01-01"
    ends = [
        ("certification-revoked", f"{who}, and revokes that a year later.", REVOKED_CERTIFICATION,
         [introduced, certified, introducer.revokes_certification(target, on=revoked)]),
        ("introduction-revoked", f"{who}. {root.name} revokes the introduction a year later.", REVOKED_CERTIFICATION,
         [introduced, certified, root.revokes_certification(introducer, on=revoked)]),
        ("certification-expired", f"{who}, for a year.", VALIDITY,
         [introduced, introducer.certifies(target, days=365)]),
        ("user-id-revoked", f"{who}. {target.name} revokes the user ID.", USER_ID_REVOKED,
         [introduced, certified, target.revokes_certification(target, on=revoked, reason=INVALID_USER_ID)]),
        ("target-superseded", f"{who}. The key of {target.name} is superseded.", KEY_REVOKED,
         [introduced, certified, target.revokes_key(SUPERSEDED, on=revoked)]),
        ("introducer-compromised", f"{who}. The introducer's key is revoked as compromised.", SUSPECT,
         [introduced, certified, introducer.revokes_key(COMPROMISED, on=revoked)]),
        ("with-sha1", f"{who}, with SHA-1.", RECENT_HASHES, [introduced, introducer.certifies(target, hash=SHA1)]),
    ]  # fmt: skip
    if root.version == 6:
        ends = ends[:-2]
    return [Case(f"{kind}-{name}", f"{title} The keys are of the kind {kind.replace('-', ' ')}.", parts, ask=target,
                 answer=[], rule=rule, roots=[(root, 120)]) for name, title, rule, parts in ends]  # fmt: skip


CASES = [
    *lives_of("rsa", rita, rolf, bob), *lives_of("version-6", vera, viktor, vroni),
    Case(
        "rsa-retired",
        "Rita makes Rolf an introducer, and he certifies Bob. A year later his RSA key is retired.",
        [rita.certifies(rolf, depth=1), rolf.certifies(bob), rolf.revokes_key(RETIRED, on="2022-01-01")],
        ask=bob, answer=[path(120, rita, rolf, bob)], rule=STILL_VALID, roots=[(rita, 120)],
    ),
    Case(
        "rsa-amount-and-scope",
        "Rita makes Rolf an introducer of amount 60 for example.org, and he certifies Bob.",
        [rita.certifies(rolf, depth=1, amount=60, scope=[ORG]), rolf.certifies(bob)],
        ask=bob, answer=[path(60, rita, rolf, bob)], rule=LEAST, roots=[(rita, 120)],
    ),
    chain("rsa", "Rita certifies Rolf. Both have RSA keys.", rita, rolf),
    chain("rsa-introducer", "Alice makes Rita an introducer, and she certifies Bob. Her key is an RSA key.", alice,
          rita, bob),
    chain("rsa-root", "Rita, the root, has an RSA key. She makes Bob an introducer, and he certifies Rolf.", rita, bob,
          rolf),
    chain("version-6", "Vera certifies Viktor. Both have keys of version 6.", vera, viktor),
    chain("version-6-rsa", "Vroni, whose RSA key is of version 6, certifies Vera.", vroni, vera),
    chain("version-6-introducer", "Vera makes Viktor an introducer, and he certifies Vroni.", vera, viktor, vroni),
    chain("version-4-certifies-6", "Alice, of version 4, certifies Vera, of version 6.", alice, vera),
    chain("version-6-certifies-4", "Vera, of version 6, certifies Bob, of version 4.", vera, bob),
    chain("version-6-between", "Alice makes Vera an introducer, and she certifies Bob. Vera's key is of version 6.",
          alice, vera, bob),
    chain("version-4-between", "Vera makes Bob an introducer, and he certifies Viktor. Bob's key is of version 4.",
          vera, bob, viktor),
    Case(
        "rsa-with-sha512",
        "Rita certifies Rolf with SHA-512. Both have RSA keys.",
        [rita.certifies(rolf, hash=SHA512)],
        ask=rolf, answer=[path(120, rita, rolf)], rule=ANY_ALGORITHM, roots=[(rita, 120)],
    ),
    Case(
        "rsa-of-1024-bits",
        "Alice certifies Small, whose RSA key has 1024 bits.",
        [alice.certifies(small)],
        ask=small, answer=[path(120, alice, small)], rule=ANY_ALGORITHM, roots=[(alice, 120)], choices=[
            Choice(120, "Tukyamid", "algorithms and sizes of keys make no difference to a path"),
            Choice(0, "Sequoia", "its policy takes no signatures by RSA keys of less than 2048 bits"),
        ],
    ),
    Case(
        "version-6-with-sha384",
        "Vera certifies Viktor with SHA-384, whose salt is longer.",
        [vera.certifies(viktor, hash=SHA384)],
        ask=viktor, answer=[path(120, vera, viktor)], rule=VERSIONS, roots=[(vera, 120)], choices=ACROSS,
    ),
    Case(
        "version-6-with-sha3-512",
        "Vera certifies Viktor with SHA3-512.",
        [vera.certifies(viktor, hash=SHA3_512)],
        ask=viktor, answer=[path(120, vera, viktor)], rule=VERSIONS, roots=[(vera, 120)], choices=ACROSS,
    ),
    Case(
        "version-6-depth",
        "Vera certifies Viktor without a trust signature, and he certifies Vroni. All keys are of version 6.",
        [vera.certifies(viktor), viktor.certifies(vroni)],
        ask=vroni, answer=[], rule=LEVELS, roots=[(vera, 120)],
    ),
    Case(
        "version-6-amount",
        "Vera makes Viktor an introducer of amount 60, and he certifies Vroni. All keys are of version 6.",
        [vera.certifies(viktor, depth=1, amount=60), viktor.certifies(vroni)],
        ask=vroni, answer=[path(60, vera, viktor, vroni)], rule=VERSIONS, roots=[(vera, 120)],
        choices=[Choice(60, "Tukyamid", "trust signatures of version 6 are read as those of version 4"), *OLD_ENGINES],
    ),
    Case(
        "version-6-scope-inside",
        "Vera makes Viktor an introducer for example.org. He certifies Vroni, whose address is there.",
        [vera.certifies(viktor, depth=1, scope=[ORG]), viktor.certifies(vroni)],
        ask=vroni, answer=[path(120, vera, viktor, vroni)], rule=EXTENDED, roots=[(vera, 120)], choices=ACROSS,
    ),
    Case(
        "version-6-scope-outside",
        "Vera makes Viktor an introducer for example.org. He certifies Vroni's address at example.net.",
        [vera.certifies(viktor, depth=1, scope=[ORG]), viktor.certifies(vroni.known_as("Vroni <vroni@example.net>"))],
        ask=vroni.known_as("Vroni <vroni@example.net>"), answer=[], rule=EXTENDED, roots=[(vera, 120)],
    ),
    Case(
        "version-6-expired",
        "By Viktor's direct key signature his key ends with 2021. Vera certifies him.",
        [viktor.signs_own_key(says=key_expires_after(731)), vera.certifies(viktor)],
        ask=viktor, answer=[], rule=KEY_VALIDITY, roots=[(vera, 120)],
    ),
    Case(
        "version-6-compromised",
        "Vera makes Viktor an introducer, and he certifies Vroni. A year later his key is revoked as compromised.",
        [vera.certifies(viktor, depth=1), viktor.certifies(vroni), viktor.revokes_key(COMPROMISED, on="2022-01-01")],
        ask=vroni, answer=[], rule=SUSPECT, roots=[(vera, 120)],
    ),
    Case(
        "version-6-retired",
        "Vera makes Viktor an introducer, and he certifies Vroni. A year later his key is retired.",
        [vera.certifies(viktor, depth=1), viktor.certifies(vroni), viktor.revokes_key(RETIRED, on="2022-01-01")],
        ask=vroni, answer=[path(120, vera, viktor, vroni)], rule=STILL_VALID, roots=[(vera, 120)], choices=ACROSS,
    ),
    Case(
        "version-6-without-direct-signature",
        "Vera certifies Viktor, whose key of version 6 has a self-certification and no direct key signature.",
        [Altered(viktor, lambda octets: without_signature(octets, 0)), vera.certifies(viktor)],
        ask=viktor, answer=[path(120, vera, viktor)], rule=VERSIONS, roots=[(vera, 120)], choices=[
            Choice(120, "Tukyamid", "a self-certification governs a key of version 6 as it does one of version 4"),
            Choice(0, "gpg, Sequoia", "they read no keys of version 6; others may want a direct key signature"),
        ],
    ),
    Case(
        "version-4-signature-hashes-a-version-6-key-as-such",
        "Alice, of version 4, certifies Vera, of version 6. What is hashed begins as the fingerprint of version 6 "
        "does, and not as a signature of version 4.",
        [alice.certifies(vera).but(frame=6)],
        ask=vera, answer=[path(120, alice, vera)], rule=VERSIONS, roots=[(alice, 120)], choices=[
            Choice(120, "Tukyamid", "both forms identify the key, so both are accepted"),
            Choice(0, "gpg, Sequoia", "they read no keys of version 6; RFC 9580 section 5.2.4 has the other form"),
        ],
    ),
    Case(
        "version-6-signature-by-a-version-4-key",
        "Rita, whose key is of version 4, certifies Bob by a signature of version 6.",
        [rita.certifies(bob).but(version=6)],
        ask=bob, answer=[path(120, rita, bob)], rule=VERSIONS_UNCOMPARED, roots=[(rita, 120)], choices=[
            Choice(120, "Tukyamid", "versions of a signature and of its keys aren't compared"),
            Choice(0, "gpg, Sequoia", "a key makes signatures of its own version alone"),
        ],
    ),
    Case(
        "version-4-signature-by-a-version-6-key",
        "Vera, whose key is of version 6, certifies Viktor by a signature of version 4.",
        [vera.certifies(viktor).but(version=4)],
        ask=viktor, answer=[path(120, vera, viktor)], rule=VERSIONS_UNCOMPARED, roots=[(vera, 120)], choices=[
            Choice(120, "Tukyamid", "versions of a signature and of its keys aren't compared"),
            Choice(0, "gpg, Sequoia", "a key makes signatures of its own version alone"),
        ],
    ),
    *map(of_version, (3, 5, 7)),
]  # fmt: skip
