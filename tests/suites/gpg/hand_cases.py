"""Signatures by hand, by name: each as what is verified and the keys that are needed. Most are made to deceive."""

import zlib
from dataclasses import dataclass, field
from time import time as now

from by_hand import CERTIFY, DAY, ENCRYPT, ORDER, Signer, armored, created, lasting, literal, validity
from hand_messages import BEGIN, EVIL, beside, cleartext, cleartexts, messages
from openpgp import packet, partial
from people import DATA, MADE, SIGNED
from version6 import subpacket

NOW = int(now())


@dataclass
class Given:
    """What is verified: a message, or a detached signature on data. `is_beside` has only the signature named, and
    `known` says why more is answered than gpg does."""
    first: bytes
    data: bytes | None = None
    known: str = ""
    is_beside: bool = False


@dataclass
class Cases:
    """All cases, and who signs in them: Ann mostly, and Ben as another."""
    given: dict = field(default_factory=dict)
    signers: list = field(default_factory=list)

    def signer(self, *words, **more):
        self.signers.append(Signer(f"hand{len(self.signers)}", *words, **more))
        return self.signers[-1]

    def add(self, name, *words, **more):
        assert name not in self.given, name
        self.given[name] = Given(*words, **more)


def made():
    cases = Cases()
    ann, ben = cases.signer(), cases.signer()
    for add in (issuers, areas, times, forms, messages, cleartexts, beside):
        add(cases, ann, ben)
    keys(cases, ben)
    revocations(cases, ben)
    return cases


def issuers(cases, ann, ben):
    """Who made it, and whom it names."""
    by_ann, named = ann.on(DATA), created(SIGNED)
    cases.add("good", by_ann, DATA)
    cases.add("on another file", by_ann, DATA + b"x")
    cases.add("good, then another's", by_ann + ben.on(b"other"), DATA)
    cases.add("another's, then good", ben.on(b"other") + by_ann, DATA)
    cases.add("Ben named unhashed alone", ann.on(DATA, hashed=named, unhashed=ben.key.named), DATA)
    cases.add("Ben named unhashed too", ann.on(DATA, unhashed=ben.key.named + subpacket(16, ben.key.id)), DATA)
    known = "Ann made it, and her key ID is there"
    cases.add("Ben, then Ann", ann.on(DATA, hashed=named + ben.key.named + ann.key.named), DATA, known)
    cases.add("Ann, then Ben", ann.on(DATA, hashed=named + ann.key.named + ben.key.named), DATA)
    cases.add("Ben hashed, Ann unhashed", ann.on(DATA, hashed=named + ben.key.named), DATA, known)
    cases.add("nobody named", ann.on(DATA, hashed=named, unhashed=b""), DATA)
    for name, user_id in ("evil", EVIL), ("Ben's", ben.user_id):
        cases.add(f"signer's user ID: {name}", ann.on(DATA, more=subpacket(28, user_id)), DATA)


def areas(cases, ann, ben):
    """What the areas of a signature hold."""
    def notation(name, value, critical=0):
        lengths = len(name).to_bytes(2, "big") + len(value).to_bytes(2, "big")
        return subpacket(20 | critical, b"\x80\0\0\0" + lengths + name + value)

    for name, more in {
            "critical, unknown": subpacket(0x80 | 99, b"x"), "critical, private": subpacket(0x80 | 101, b"x"),
            "critical notation": notation(b"a@b.c", b"v", 0x80), "notation": notation(b"a@b.c", EVIL),
            "name of a notation": notation(EVIL, b"v"), "policy": subpacket(26, b"http://" + EVIL),
            "key server": subpacket(24, b"http://" + EVIL)}.items():
        cases.add(f"subpacket: {name}", ann.on(DATA, more=more), DATA)
    cases.add("subpacket without an end, unhashed", ann.on(DATA, unhashed=b"\x30\x10x"), DATA,
              "nothing of the unhashed area is signed")
    cases.add("no creation time", ann.on(DATA, hashed=ann.key.named), DATA)
    cases.add("creation time unhashed", ann.on(DATA, hashed=ann.key.named, unhashed=created(SIGNED)), DATA)
    cases.add("creation time cut", ann.on(DATA, hashed=subpacket(2, b"\1\2") + ann.key.named), DATA)
    for kind in (2, 0x10, 0x13, 0x18, 0x1f, 0x20, 0x40, 0x50, 0x99):
        cases.add(f"type {kind:#x}", ann.on(DATA, kind=kind), DATA)
    for algorithm in (1, 2, 3, 10):
        cases.add(f"hash algorithm {algorithm}", ann.on(DATA, algorithm=algorithm), DATA)


def times(cases, ann, ben):
    later = cases.signer(CERTIFY).with_subkey(made=MADE + 50 * DAY)
    cases.add("older than its key", ann.on(DATA, made=MADE - 10 * DAY), DATA)
    cases.add("older than its subkey", later.on(DATA, made=MADE + 40 * DAY), DATA)
    cases.add("in ten days", ann.on(DATA, made=NOW + 10 * DAY), DATA)
    cases.add("in ten days, then now", ann.on(DATA, hashed=created(NOW + 10 * DAY) + created(SIGNED) + ann.key.named),
              DATA)
    cases.add("over", ann.on(DATA, more=lasting(DAY)), DATA)
    cases.add("over, and for ever", ann.on(DATA, more=lasting(DAY) + lasting(0)), DATA,
              "of several subpackets the last counts (RFC 9580, section 5.2.3.9)")


def forms(cases, ann, ben):
    """How the packets of a detached signature are written."""
    body, by_ann = ann.key.signature(0, DATA), ann.on(DATA)
    for version in (2, 5, 6):
        cases.add(f"as version {version}", packet(2, bytes([version]) + body[1:]), DATA)
    cases.add("version 3", packet(2, ann.key.version_3(DATA)), DATA)
    cases.add("the scalar above the order", ann.on(DATA, plus=ORDER), DATA)
    front = 6 + int.from_bytes(body[4:6], "big")
    front += 2 + int.from_bytes(body[front:front + 2], "big")
    cases.add("the digest's front", packet(2, body[:front] + bytes([body[front] ^ 1]) + body[front + 1:]), DATA)
    cases.add("more behind the numbers", packet(2, body + b"junk"), DATA)
    cases.add("more behind the packet", by_ann + b"junk", DATA)
    cases.add("cut", by_ann[:-3], DATA)
    cases.add("partial lengths", partial(2, body), DATA, "the signature is the same")
    cases.add("a message as signature", ann.one_pass() + literal(DATA) + by_ann, b"evil")
    cases.add("a message as signature of its data", ann.one_pass() + literal(b"evil") + by_ann, DATA)
    cases.add("data behind the signature", by_ann + literal(b"evil"), DATA)
    cases.add("data before the signature", literal(DATA) + by_ann, b"evil")
    cases.add("a message that is compressed as signature", packet(8, b"\x02" + zlib.compress(by_ann)), DATA)
    cases.add("armored", armored(b"SIGNATURE", by_ann), DATA)
    cases.add("armored, and another's", armored(b"SIGNATURE", by_ann) + armored(b"SIGNATURE", ben.on(b"x")), DATA)
    for name, begin in ("", BEGIN), (", a space", BEGIN[:-1] + b" \n"), (", a tab", BEGIN[:-1] + b"\t\n"):
        text = cleartext(ann, b"evil text", armored(b"SIGNATURE", by_ann), begin)
        cases.add(f"a cleartext as signature{name}", text, DATA)


def keys(cases, ben):
    """Keys that may not sign, or not then; then also with what is older than the key, over, or of today."""
    other = {"no agreement": cases.signer(CERTIFY).with_subkey(back=False),
             "another's agreement": cases.signer(CERTIFY).with_subkey(by=ben.key),
             "subkey to encrypt": cases.signer(CERTIFY).with_subkey(may=ENCRYPT),
             "subkey for nothing": cases.signer(CERTIFY).with_subkey(may=b""),
             "key to certify": cases.signer(CERTIFY),
             "subkey": cases.signer(CERTIFY).with_subkey(),
             "expired before": cases.signer(more=validity(10 * DAY)),
             "expired since": cases.signer(more=validity(200 * DAY)),
             "subkey expired before": cases.signer(CERTIFY).with_subkey(more=validity(10 * DAY)),
             "subkey expired since": cases.signer(CERTIFY).with_subkey(more=validity(200 * DAY)),
             "subkey of an expired key": cases.signer(CERTIFY, more=validity(200 * DAY)).with_subkey()}
    for name, signer in other.items():
        _at_times(cases, name, signer)


def revocations(cases, ben):
    before, since = SIGNED - DAY, SIGNED + DAY
    for name, signer in {
            "superseded before": cases.signer().revoked(1, before),
            "superseded since": cases.signer().revoked(1, since),
            "stolen since": cases.signer().revoked(2, since), "stolen tomorrow": cases.signer().revoked(2, NOW + DAY),
            "subkey superseded since": cases.signer(CERTIFY).with_subkey().without_subkey(1, since),
            "subkey stolen since": cases.signer(CERTIFY).with_subkey().without_subkey(2, since),
            "subkey of a superseded key": cases.signer(CERTIFY).with_subkey().revoked(1, since)}.items():
        _at_times(cases, name, signer)
    cases.add("superseded in ten days", cases.signer().revoked(1, NOW + 10 * DAY).on(DATA), DATA,
              "a revocation counts from its creation on (docs/PROFILE.md)")
    named = cases.signer()
    revoker = subpacket(12, b"\x80\x16" + bytes.fromhex(ben.key.fingerprint))
    named.parts[1:1] = [(2, named.key.signature(0x1f, named.key.framed, made=MADE, more=revoker)),
                        (2, ben.key.signature(0x20, named.key.framed, more=subpacket(29, b"\x02")))]
    cases.add("revoked by a designated revoker", named.on(DATA), DATA, "has no effect (docs/PROFILE.md)")


def _at_times(cases, name, signer):
    cases.add(name, signer.on(DATA), DATA)
    cases.add(f"{name}, older than its key", signer.on(DATA, made=MADE - 10 * DAY), DATA)
    cases.add(f"{name}, over", signer.on(DATA, more=lasting(DAY)), DATA)
    cases.add(f"{name}, of today", signer.on(DATA, made=NOW - 100), DATA)
