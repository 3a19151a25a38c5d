"""A root, thirty layers of two certificates each, and a target.

Each certificate of a layer certifies both of the next, so 2^30 paths have the fewest steps, all of amount 120.
The script's digests are hashlib's; the answer is worked out here, by the rule for paths of one length and one amount.
"""

import hashlib

CREATED, MADE, ASKED, LAYERS = 1000, 2000, 5000, 30


def four(number):
    return number.to_bytes(4, "big")


def key_of(last):
    return bytes([4]) + four(CREATED) + bytes([0x1B, last])


def fingerprint(key):
    return hashlib.sha1(b"\x99" + len(key).to_bytes(2, "big") + key).digest()


def packet(kind, body):
    return bytes([0xC0 | kind, len(body)]) + body


def signature(kind, made, extra=b""):
    area = bytes.fromhex("0502") + four(made) + extra
    return bytes([4, kind, 0x1B, 8]) + len(area).to_bytes(2, "big") + area + bytes(4)


def number_of(key, kind, component, body):
    fields = [b"wot1", key, bytes([kind]), component, body]
    return hashlib.sha256(b"".join(four(len(field)) + field for field in fields)).digest()


DIRECT = signature(0x1F, CREATED)
TRUST = bytes([3, 5, 255, 120])
ROOT, TARGET = key_of(1), key_of(4)
LAYER = [[key_of(0x40 + 2 * i), key_of(0x41 + 2 * i)] for i in range(LAYERS)]


class Script:
    """Lines, each with the lines of its reply."""

    def __init__(self):
        self.imports, self.verdicts = [], []

    def judge(self, number, fpr):
        self.verdicts.append((f"verdict {number.hex()} good {fpr.hex()}", ["ok"]))

    def take(self, key, uid, issuers, trust):
        """A certificate with its direct key signature, and a certification of its user ID by each issuer."""
        text = packet(6, key) + packet(2, DIRECT) + (packet(13, uid) if uid else b"")
        self.judge(number_of(key, 0, b"", DIRECT), fingerprint(key))
        for issuer in issuers:
            body = signature(0x10, MADE, trust + bytes.fromhex("162104") + fingerprint(issuer))
            text += packet(2, body)
            self.judge(number_of(key, 1, uid, body), fingerprint(issuer))
        fresh = 2 + bool(uid) + len(issuers)
        self.imports.append((f"import {text.hex()}", [f"ok taken 1 skipped 0 new {fresh}"]))


def exchanges():
    """The lines of the script, each with the lines of its reply."""
    made = Script()
    made.take(ROOT, b"", [], b"")
    before = [ROOT]
    for layer in LAYER:
        for key in layer:
            made.take(key, b"u", before, TRUST)
        before = layer
    made.take(TARGET, b"t", before, b"")
    root, target = fingerprint(ROOT).hex(), fingerprint(TARGET).hex()
    view = [(f"view p time {ASKED}", ["ok"]), (f"view p root {root} 120", ["ok"])]
    return made.imports + made.verdicts + view + [(f"ask p {target} 120 t", answer())]


def answer():
    way = [ROOT] + [min(layer, key=fingerprint) for layer in LAYER] + [TARGET]
    way = [fingerprint(key).hex() for key in way]
    lines = ["amount 120 paths 1", f"path 120 steps {LAYERS + 1} root {way[0]}"]
    lines += [f"step {way[i]} {way[i + 1]} 255 120 u" for i in range(LAYERS)]
    return lines + [f"step {way[LAYERS]} {way[LAYERS + 1]} 0 120 t"]
